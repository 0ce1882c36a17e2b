/* SETTINGS RECORDING: the application and the length of each packet. */
#include "tmx.h"
#include <stdio.h>
#include <stdlib.h>

static int failed(const char *why) {
    fprintf(stderr, "%s\n", why);
    return 1;
}

int main(int argc, char **argv) {
    static uint8_t text[TMX_INPUT_MOST + 1], chunk[1 << 16];
    struct tmx_room room;
    FILE *settings = argc == 3 ? fopen(argv[1], "rb") : NULL, *recording = argc == 3 ? fopen(argv[2], "rb") : NULL;
    struct tmx_progress did;
    struct tmx_error error;
    tmx_job *job;
    size_t read;
    if (settings == NULL || recording == NULL) return 2;
    if (tmx_job_new(&job, text, fread(text, 1, sizeof text, settings), &error) != TMX_DONE) return failed(error.line);
    tmx_job_most(job, &room.events_room, &room.octets_room);
    room.events = malloc(room.events_room * sizeof *room.events);
    room.octets = malloc(room.octets_room);
    if (room.events == NULL || room.octets == NULL) return failed("out of memory");
    while ((read = fread(chunk, 1, sizeof chunk, recording)) != 0)
        for (size_t at = 0; at < read; at += did.used) {
            uint32_t status = tmx_job_feed(job, chunk + at, read - at, &room, &did);
            if (status != TMX_DONE && status != TMX_MORE) return failed(tmx_status_text(status));
            for (size_t k = 0; k < did.events; k++)
                if (room.events[k].kind == TMX_EVENT_PACKET)
                    printf("apid=%u octets=%u\n", room.events[k].application, room.events[k].octets);
        }
    tmx_job_free(job);
    free(room.events);
    free(room.octets);
    return 0;
}
