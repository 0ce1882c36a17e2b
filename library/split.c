/* FOLDER SETTINGS RECORDING: adds each packet's octets to the file of its application, as `tmx split` does with an empty folder. */
#include "tmx.h"
#include <stdio.h>
#include <stdlib.h>

static struct tmx_room room;

/* Rooms for what eight records give at most, so that a call takes some records at once. */
static int make_rooms(const tmx_job *job) {
    tmx_job_most(job, &room.events_room, &room.octets_room);
    room.events = malloc((room.events_room *= 8) * sizeof *room.events);
    room.octets = malloc(room.octets_room *= 8);
    return room.events != NULL && room.octets != NULL;
}

static int add(const char *folder, const struct tmx_event *packet) {
    char name[4096];
    FILE *file;
    snprintf(name, sizeof name, "%s/apid-%04u.pkt", folder, packet->application);
    file = fopen(name, "ab");
    return file != NULL && fwrite(room.octets + packet->at, 1, packet->octets, file) == packet->octets && fclose(file) == 0;
}

int main(int argc, char **argv) {
    static uint8_t text[TMX_INPUT_MOST + 1], chunk[1 << 16];
    FILE *settings = argc == 4 ? fopen(argv[2], "rb") : NULL, *recording = argc == 4 ? fopen(argv[3], "rb") : NULL;
    struct tmx_progress did;
    struct tmx_error error;
    tmx_job *job;
    size_t read;
    if (settings == NULL || recording == NULL) return 2;
    if (tmx_job_new(&job, text, fread(text, 1, sizeof text, settings), &error) != TMX_DONE) return fprintf(stderr, "%s\n", error.line), 1;
    if (!make_rooms(job)) return fprintf(stderr, "out of memory\n"), 1;
    while ((read = fread(chunk, 1, sizeof chunk, recording)) != 0)
        for (size_t at = 0; at < read; at += did.used) {
            uint32_t status = tmx_job_feed(job, chunk + at, read - at, &room, &did);
            if (status != TMX_DONE && status != TMX_MORE) return fprintf(stderr, "%s\n", tmx_status_text(status)), 1;
            for (size_t k = 0; k < did.events; k++)
                if (room.events[k].kind == TMX_EVENT_PACKET && !add(argv[1], &room.events[k])) return 1;
        }
    tmx_job_free(job);
    free(room.events);
    free(room.octets);
    return ferror(recording) != 0;
}
