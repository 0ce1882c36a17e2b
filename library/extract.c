/* SETTINGS RECORDING: packets to standard output and the report to standard error, as `tmx extract` gives them. */
#include "tmx.h"
#include <stdio.h>
#include <stdlib.h>

static struct tmx_room room;

/* Rooms for what eight records give at most, so that a call takes some records at once. */
static int make_rooms(const tmx_job *job) {
    tmx_job_most(job, &room.events_room, &room.octets_room);
    room.events = malloc((room.events_room *= 8) * sizeof *room.events);
    room.octets = malloc(room.octets_room *= 8);
    return room.events != NULL && room.octets != NULL;
}

static void write_all(const struct tmx_progress *did) {
    char line[TMX_LINE_MOST];
    for (size_t k = 0; k < did->events; k++)
        if (room.events[k].kind != TMX_EVENT_PACKET && tmx_event_line(&room.events[k], line, sizeof line) != 0) fprintf(stderr, "%s\n", line);
    fwrite(room.octets, 1, did->octets, stdout);
}

int main(int argc, char **argv) {
    static uint8_t text[TMX_INPUT_MOST + 1], chunk[1 << 16];
    FILE *settings = argc == 3 ? fopen(argv[1], "rb") : NULL, *recording = argc == 3 ? fopen(argv[2], "rb") : NULL;
    struct tmx_progress did = {0};
    struct tmx_error error;
    tmx_job *job;
    size_t read;
    if (settings == NULL || recording == NULL) return 2;
    if (tmx_job_new(&job, text, fread(text, 1, sizeof text, settings), &error) != TMX_DONE) return fprintf(stderr, "%s\n", error.line), 1;
    if (!make_rooms(job)) return fprintf(stderr, "out of memory\n"), 1;
    while ((read = fread(chunk, 1, sizeof chunk, recording)) != 0)
        for (size_t at = 0; at < read; at += did.used) {
            uint32_t status = tmx_job_feed(job, chunk + at, read - at, &room, &did);
            if (status != TMX_DONE && status != TMX_MORE) return fprintf(stderr, "%s\n", tmx_status_text(status)), 1;
            write_all(&did);
        }
    if (ferror(recording)) return 1;
    do {
        tmx_job_end(job, &room, &did);
        write_all(&did);
    } while (did.status == TMX_MORE);
    tmx_job_free(job);
    free(room.events);
    free(room.octets);
    return fflush(stdout) != 0 || ferror(stdout);
}
