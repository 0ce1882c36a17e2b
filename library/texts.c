/* The version, and what a status says. library/join puts it into libtmx. */
#include "tmx.h"

uint32_t tmx_version(void) {
    return TMX_VERSION_NUMBER;
}

const char *tmx_status_text(uint32_t status) {
    switch (status) {
    case TMX_DONE: return "done";
    case TMX_ROOM: return "a room is too small";
    case TMX_COMMAND: return "there is no such command";
    case TMX_SETTINGS: return "the settings are refused";
    case TMX_CHECKPOINT: return "the checkpoint is refused";
    case TMX_TOO_MANY: return "there are too many records";
    case TMX_MEMORY: return "out of memory";
    case TMX_DEFINITION: return "the definition is refused";
    case TMX_APPLICATION: return "there is no such application";
    case TMX_WHOLE: return "a summary takes the whole recording in one call";
    case TMX_LONG: return "the settings, the definition or the checkpoint are too long";
    case TMX_MORE: return "a room may be too small for what comes next";
    case TMX_CLOSED: return "the end of the recording was told";
    case TMX_JOB: return "there is no job";
    default: return "there is no such status";
    }
}
