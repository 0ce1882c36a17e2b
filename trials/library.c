/* Calls of libtmx whose octets and rooms stand in memory of their own, just as large as they are said to be: a sanitizer sees what goes past them.

   library chunks SIZE SETTINGS RECORDING    `extract` in chunks of so many octets, each call first without room, and then with just enough
   library hostile 0 SETTINGS RECORDING      checkpoints with bits changed and cut after octets, rooms one octet too small, settings cut after
                                             each octet, texts one octet too long, two wrong ones at once, numbers that stand for nothing
   library many TIMES SETTINGS RECORDING     so often two calls over a chunk of one octet: no memory may stay behind
   library names 0 SETTINGS RECORDING        what the header promises of versions, texts of statuses, and NULL with a length of 0
   library jobs 0 SETTINGS RECORDING         jobs that are refused, NULL, without room, and closed
   library stack OCTETS SETTINGS RECORDING   how much of a stack of so many octets the calls take, each command with a definition of 1000 rows and
                                             the longest checkpoint
   library speed SIZE SETTINGS RECORDING     how long a call takes by `extract`, in chunks of so many octets: the least of 20 rounds
   library fed SIZE SETTINGS RECORDING       likewise of a job of the library, which gives the packets with all their numbers
   library rows TIMES SETTINGS RECORDING     how long a call over no octets takes by `extract`, and by `fields` with 1000 rows: the least */
#include "tmx.h"
#include <malloc.h>
#include <pthread.h>
#include <stdio.h>
#include <stdlib.h>
#include <string.h>
#include <sys/mman.h>
#include <time.h>

struct octets {
    uint8_t *at;
    size_t length;
};

/* Memory for just so many octets. With none it can't be read or written at all. */
static struct octets some(size_t length) {
    struct octets it = {malloc(length), length};
    if (it.at == NULL && length != 0) exit(3);
    return it;
}

static struct octets copy(const void *at, size_t length) {
    struct octets it = some(length);
    if (length != 0) memcpy(it.at, at, length);
    return it;
}

static struct octets file_octets(const char *name) {
    FILE *file = fopen(name, "rb");
    struct octets it;
    if (file == NULL) exit(3);
    fseek(file, 0, SEEK_END);
    it = some((size_t)ftell(file));
    rewind(file);
    if (fread(it.at, 1, it.length, file) != it.length) exit(3);
    fclose(file);
    return it;
}

/* What a call gave, in memory of the caller. */
struct given {
    struct tmx_answer answer;
    struct octets out, report, checkpoint;
};

static void drop(struct given *given) {
    free(given->out.at);
    free(given->report.at);
    free(given->checkpoint.at);
}

static struct tmx_octets lent(struct octets it) {
    return (struct tmx_octets){it.at, it.length};
}

/* The application and the definition of all calls. */
static uint32_t application = 100;
static const char one_row[] = "name,data_type,bit_length\nfirst,uint,8\n";
static struct octets definition = {(uint8_t *)one_row, sizeof one_row - 1};

/* A call over copies, into rooms of these lengths. */
static struct given call(struct octets settings, struct octets checkpoint, const uint8_t *at, size_t length, uint32_t command, uint32_t last,
                         const size_t rooms[3]) {
    struct octets texts[4] = {copy(settings.at, settings.length), copy(checkpoint.at, checkpoint.length), copy(at, length),
                              copy(definition.at, definition.length)};
    struct given given = {{0}, some(rooms[0]), some(rooms[1]), some(rooms[2])};
    struct tmx_request request = {lent(texts[0]), lent(texts[1]), lent(texts[2]), lent(texts[3]), command, application, last};
    uint32_t status = tmx_run(&request, given.out.at, rooms[0], given.report.at, rooms[1], given.checkpoint.at, rooms[2], &given.answer);
    if (status != given.answer.status) exit(4);
    for (int k = 0; k < 4; k++) free(texts[k].at);
    return given;
}

static const size_t none[3] = {0, 0, 0};

static int reads_definition(uint32_t command) {
    return command == TMX_FIELDS || command == TMX_BINARY_FIELDS;
}

/* Without room, and then with just enough. */
static struct given served(struct octets settings, struct octets checkpoint, const uint8_t *at, size_t length, uint32_t command, uint32_t last) {
    struct given told = call(settings, checkpoint, at, length, command, last, none);
    const struct tmx_answer answer = told.answer;
    const size_t rooms[3] = {answer.out_length, answer.report_length, answer.checkpoint_length};
    uint32_t needs = answer.out_length + answer.report_length + answer.checkpoint_length != 0 ? TMX_ROOM : TMX_DONE;
    drop(&told);
    if (answer.status != needs) exit((int)(10 + answer.status));
    told = call(settings, checkpoint, at, length, command, last, rooms);
    if (told.answer.status != TMX_DONE || told.answer.used != answer.used || told.answer.records != answer.records) exit(5);
    if (told.answer.strict != answer.strict || told.answer.row_length != answer.row_length) exit(5);
    return told;
}

static int chunks(struct octets settings, struct octets recording, size_t size) {
    struct octets checkpoint = some(0);
    size_t end = 0, at = 0;
    for (;;) {
        uint32_t last;
        struct given given;
        end = recording.length - end < size ? recording.length : end + size;
        last = end == recording.length;
        given = served(settings, checkpoint, recording.at + at, end - at, TMX_EXTRACT, last);
        fwrite(given.out.at, 1, given.out.length, stdout);
        fwrite(given.report.at, 1, given.report.length, stderr);
        at += given.answer.used;
        free(checkpoint.at);
        checkpoint = copy(given.checkpoint.at, given.checkpoint.length);
        drop(&given);
        if (last) break;
    }
    free(checkpoint.at);
    return at == recording.length ? 0 : 6;
}

/* The call has to be refused so, with nothing but the reason. */
static void refused(const char *what, struct given given, uint32_t status) {
    const struct tmx_answer it = given.answer;
    if (it.status != status || it.records + it.out_length + it.report_length + it.checkpoint_length + it.used + it.strict + it.row_length != 0)
        printf("%s: status %u fault %u, not %u\n", what, it.status, it.fault, status);
    drop(&given);
}

/* Likewise: what is read beside the recording is too long. */
static void too_long(const char *what, struct given given, uint32_t fault) {
    if (given.answer.fault != fault) printf("%s: fault %u, not %u\n", what, given.answer.fault, fault);
    refused(what, given, TMX_LONG);
}

/* A text with octets behind it, so many in all. */
static struct octets padded(struct octets text, char behind, size_t length) {
    struct octets it = some(length);
    memset(it.at, behind, length);
    memcpy(it.at, text.at, text.length);
    return it;
}

/* What is said of a definition by a command that reads one: `row` is one, and `more` is too long. */
static void wrong_definitions(uint32_t command, struct octets settings, const struct octets more[3], const uint8_t *next, size_t rest) {
    const struct octets row = definition, none_of_all = {(uint8_t *)"?", 1};
    definition = more[1];
    too_long("a definition", call(settings, more[2], next, rest, command, 1, none), TMX_INPUT_DEFINITION);
    too_long("settings before a definition", call(more[0], more[2], next, rest, command, 1, none), TMX_INPUT_SETTINGS);
    refused("wrong settings before a definition", call(none_of_all, more[2], next, rest, command, 1, none), TMX_SETTINGS);
    definition = none_of_all;
    refused("a wrong definition before a checkpoint", call(settings, more[2], next, rest, command, 1, none), TMX_DEFINITION);
    refused("wrong settings before a wrong definition", call(none_of_all, more[2], next, rest, command, 1, none), TMX_SETTINGS);
    application = 2048;
    refused("an application before settings", call(none_of_all, more[2], next, rest, command, 1, none), TMX_APPLICATION);
    application = 100;
    definition = row;
}

/* The longest settings, definition and checkpoint are read, and one octet more is refused. The first of two wrong ones tells. */
static void limits(struct octets settings, struct octets kept, const uint8_t *next, size_t rest) {
    const struct octets row = definition, none_of_all = {(uint8_t *)"?", 1};
    struct octets comment = padded(settings, '#', settings.length + 1), most[3], more[3];
    struct given given;
    for (size_t over = 0; over < 2; over++) {
        struct octets *all = over ? more : most;
        all[0] = padded(comment, ' ', TMX_INPUT_MOST + over);
        all[1] = padded(row, '\n', TMX_INPUT_MOST + over);
        all[2] = padded(kept, 0, TMX_INPUT_MOST + over);
    }
    definition = most[1];
    given = served(most[0], kept, next, rest, TMX_FIELDS, 1);
    drop(&given);
    refused("a checkpoint with octets behind it", call(settings, most[2], next, rest, TMX_EXTRACT, 1, none), TMX_CHECKPOINT);
    for (uint32_t command = TMX_EXTRACT; command <= TMX_BINARY_FIELDS; command++) {
        if (command == TMX_SUMMARY) continue;
        definition = reads_definition(command) ? row : more[1];
        too_long("settings", call(more[0], more[2], next, rest, command, 1, none), TMX_INPUT_SETTINGS);
        too_long("a checkpoint", call(settings, more[2], next, rest, command, 1, none), TMX_INPUT_CHECKPOINT);
        refused("settings before a checkpoint", call(none_of_all, more[2], next, rest, command, 1, none), TMX_SETTINGS);
    }
    too_long("settings of a summary", call(more[0], (struct octets){NULL, 0}, next, rest, TMX_SUMMARY, 1, none), TMX_INPUT_SETTINGS);
    definition = row;
    wrong_definitions(TMX_FIELDS, settings, more, next, rest);
    wrong_definitions(TMX_BINARY_FIELDS, settings, more, next, rest);
    for (int k = 0; k < 3; k++) free(most[k].at), free(more[k].at);
    free(comment.at);
}

/* Each command that may go on from a checkpoint, with just enough room. */
static void each_command(struct octets settings, struct octets kept, const uint8_t *next, size_t rest) {
    for (uint32_t command = TMX_PACKETS; command <= TMX_BINARY_FIELDS; command++) {
        struct given given;
        if (command == TMX_SUMMARY) continue;
        given = served(settings, kept, next, rest, command, 1);
        /* A row has 16 octets in front, and one of the field. */
        if (given.answer.row_length != (reads_definition(command) ? 17 : 0)) printf("command %u: rows of %u octets\n", command, given.answer.row_length);
        drop(&given);
    }
}

static int hostile(struct octets settings, struct octets recording) {
    const struct octets empty = {NULL, 0};
    size_t half = recording.length / 2;
    struct given first = served(settings, empty, recording.at, half, TMX_EXTRACT, 0);
    struct octets kept = first.checkpoint;
    const size_t rest = recording.length - first.answer.used;
    const uint8_t *next = recording.at + first.answer.used;
    struct given whole = served(settings, kept, next, rest, TMX_EXTRACT, 1), whole_summary;
    for (size_t bit = 0; bit < 8 * kept.length; bit += bit < 800 ? 1 : 37) {
        kept.at[bit / 8] ^= (uint8_t)(1 << bit % 8);
        refused("a checkpoint with a bit changed", call(settings, kept, next, rest, TMX_EXTRACT, 1, none), TMX_CHECKPOINT);
        kept.at[bit / 8] ^= (uint8_t)(1 << bit % 8);
    }
    for (size_t length = 1; length < kept.length; length += length < 100 ? 1 : 37)
        refused("a checkpoint that is cut", call(settings, (struct octets){kept.at, length}, next, rest, TMX_EXTRACT, 1, none), TMX_CHECKPOINT);
    refused("random octets as a checkpoint", call(settings, (struct octets){recording.at, half}, next, rest, TMX_EXTRACT, 1, none), TMX_CHECKPOINT);
    refused("no settings", call(empty, kept, next, rest, TMX_EXTRACT, 1, none), TMX_SETTINGS);
    refused("octets that are no settings", call(recording, kept, next, rest, TMX_EXTRACT, 1, none), TMX_SETTINGS);
    refused("a summary behind a checkpoint", call(settings, kept, next, rest, TMX_SUMMARY, 1, none), TMX_WHOLE);
    refused("a summary of a part", call(settings, empty, next, rest, TMX_SUMMARY, 0, none), TMX_WHOLE);
    limits(settings, kept, next, rest);
    application = 2048;
    refused("an application that is none", call(settings, kept, next, rest, TMX_FIELDS, 1, none), TMX_APPLICATION);
    application = 100;
    each_command(settings, kept, next, rest);
    whole_summary = served(settings, empty, recording.at, recording.length, TMX_SUMMARY, 1);
    drop(&whole_summary);
    for (uint32_t command = TMX_BINARY_FIELDS + 1; command != 0; command += command)
        refused("a number of no command", call(settings, kept, next, rest, command, 1, none), TMX_COMMAND);
    refused("the greatest number as a command", call(settings, kept, next, rest, UINT32_MAX, 1, none), TMX_COMMAND);
    for (size_t length = 0; length < settings.length; length++) {
        struct given given = call((struct octets){settings.at, length}, kept, next, rest, TMX_EXTRACT, UINT32_MAX, none);
        if (given.answer.status == TMX_DONE || given.answer.status > TMX_CHECKPOINT) printf("settings cut: status %u\n", given.answer.status);
        drop(&given);
    }
    for (int k = 0; k < 2; k++) {
        size_t rooms[3] = {whole.answer.out_length, whole.answer.report_length, 0};
        struct given given;
        rooms[k]--;
        given = call(settings, kept, next, rest, TMX_EXTRACT, 1, rooms);
        if (given.answer.status != TMX_ROOM || given.answer.out_length != whole.answer.out_length) printf("a room one octet too small: %u\n", given.answer.status);
        drop(&given);
    }
    drop(&whole);
    drop(&first);
    return 0;
}

static int many(struct octets settings, struct octets recording, long calls) {
    struct octets checkpoint = some(0);
    size_t before = 0;
    for (long k = 0; k < calls; k++) {
        struct given given = served(settings, checkpoint, recording.at, 1, TMX_PACKETS, 0);
        free(checkpoint.at);
        checkpoint = copy(given.checkpoint.at, given.checkpoint.length);
        drop(&given);
        if (k == 10) before = mallinfo2().uordblks;
    }
    /* Blocks that malloc keeps at hand count as held. */
    if (mallinfo2().uordblks > before + 4096) printf("%zu octets are held behind all calls, %zu behind the first\n", mallinfo2().uordblks, before);
    free(checkpoint.at);
    return 0;
}

/* What a call tells that has NULL wherever nothing is read or written, and what it tells with addresses there. */
static void without_octets(const char *what, struct tmx_octets settings, uint32_t command, uint32_t last) {
    static uint8_t place[4];
    const struct tmx_octets at_place = {place, 0}, null = {NULL, 0};
    struct tmx_request request = {settings, at_place, at_place, at_place, command, 0, last};
    struct tmx_answer told[2];
    memset(told, 0, sizeof told);
    tmx_run(&request, place, 0, place + 1, 0, place + 2, 0, &told[0]);
    request.checkpoint = request.octets = request.definition = null;
    if (settings.length == 0) request.settings = null;
    tmx_run(&request, NULL, 0, NULL, 0, NULL, 0, &told[1]);
    if (memcmp(&told[0], &told[1], sizeof told[0]) != 0) printf("%s %u: status %u with NULL, not %u\n", what, command, told[1].status, told[0].status);
}

static int names(struct octets settings) {
    if (tmx_version() != TMX_VERSION_NUMBER) printf("the library is of version %u\n", tmx_version());
    for (uint32_t status = 0; status <= TMX_JOB + 1; status++) {
        const char *text = tmx_status_text(status);
        if (text == NULL || *text == 0 || (status != 0 && strcmp(text, tmx_status_text(status - 1)) == 0)) printf("status %u has no text of its own\n", status);
    }
    if (strcmp(tmx_status_text(UINT32_MAX), tmx_status_text(TMX_JOB + 1)) != 0) puts("the greatest number is a status");
    for (uint32_t command = TMX_EXTRACT; command <= TMX_BINARY_FIELDS + 1; command++) {
        for (uint32_t last = 0; last < 2; last++) {
            without_octets("command", lent(settings), command, last);
            without_octets("no settings, command", (struct tmx_octets){NULL, 0}, command, last);
        }
    }
    return 0;
}

/* 1000 rows of long names. */
static struct octets most_rows(void) {
    struct octets it = some(1 << 20);
    size_t length = (size_t)sprintf((char *)it.at, "name,data_type,bit_length,bit_offset\n");
    for (int row = 0; row < 1000; row++) length += (size_t)sprintf((char *)it.at + length, "a_name_that_is_rather_long_%04d,uint,8,%d\n", row, 48 + 8 * row);
    it.length = length;
    return it;
}

/* What the calls on the small stack read. */
static struct octets deep_settings, deep_recording;

/* Each command with these settings, first anew and then behind a checkpoint. Likewise a job is opened. */
static void *calls_on_it(void *unused) {
    static uint8_t out[1 << 20], report[1 << 20], kept[TMX_CHECKPOINT_MOST], next[TMX_CHECKPOINT_MOST];
    struct tmx_request request = {lent(deep_settings), {kept, 0}, lent(deep_recording), lent(definition), 0, application, 0};
    struct tmx_answer answer;
    struct tmx_error error;
    tmx_job *job;
    for (size_t round = 0; round < 2; round++) {
        for (request.command = TMX_EXTRACT; request.command <= TMX_BINARY_FIELDS; request.command++) {
            request.last = request.command == TMX_SUMMARY;
            tmx_run(&request, out, sizeof out, report, sizeof report, next, sizeof next, &answer);
            if (request.command == TMX_EXTRACT && answer.status == TMX_DONE) {
                memcpy(kept, next, answer.checkpoint_length);
                request.checkpoint.length = answer.checkpoint_length;
            }
        }
    }
    if (tmx_job_new(&job, deep_settings.at, deep_settings.length, &error) == TMX_DONE) tmx_job_free(job);
    if (tmx_job_resume(&job, deep_settings.at, deep_settings.length, kept, request.checkpoint.length, &error) == TMX_DONE) tmx_job_free(job);
    return unused;
}

/* A thread with a stack of its own, which is painted before and looked at afterwards. */
static int stack(struct octets settings, struct octets recording, size_t size) {
    const uint8_t paint = 0xa5;
    const size_t guard = 65536;
    uint8_t *below = mmap(NULL, guard + size, PROT_READ | PROT_WRITE, MAP_PRIVATE | MAP_ANONYMOUS, -1, 0), *area = below + guard;
    pthread_attr_t attributes;
    pthread_t thread;
    size_t untouched = 0;
    if (below == MAP_FAILED || mprotect(below, guard, PROT_NONE) != 0) return 3;
    memset(area, paint, size);
    deep_settings = settings;
    deep_recording = recording;
    definition = most_rows();
    if (pthread_attr_init(&attributes) != 0 || pthread_attr_setstack(&attributes, area, size) != 0) return 8;
    if (pthread_create(&thread, &attributes, calls_on_it, NULL) != 0 || pthread_join(thread, NULL) != 0) return 9;
    while (untouched < size && area[untouched] == paint) untouched++;
    printf("%zu\n", size - untouched);
    free(definition.at);
    return munmap(below, guard + size);
}

/* The least time of a call over no octets, in microseconds. */
static double least_of(struct octets settings, uint32_t command, long times) {
    uint8_t out[65536], report[1], kept[4096];
    struct tmx_request request = {lent(settings), {kept, 0}, {kept, 0}, lent(definition), command, application, 0};
    struct tmx_answer answer;
    struct timespec begin, end;
    double least = 1e9;
    for (long k = 0; k < times; k++) {
        double time;
        clock_gettime(CLOCK_MONOTONIC, &begin);
        if (tmx_run(&request, out, sizeof out, report, sizeof report, kept, sizeof kept, &answer) != TMX_DONE) exit(7);
        clock_gettime(CLOCK_MONOTONIC, &end);
        time = 1e6 * (double)(end.tv_sec - begin.tv_sec) + 1e-3 * (double)(end.tv_nsec - begin.tv_nsec);
        if (time < least) least = time;
    }
    return least;
}

static int rows(struct octets settings, long times) {
    double plain = least_of(settings, TMX_EXTRACT, times), one = least_of(settings, TMX_FIELDS, times);
    definition = most_rows();
    printf("extract %.1f microseconds, fields %.1f with a row and %.1f with 1000\n", plain, one, least_of(settings, TMX_FIELDS, times));
    free(definition.at);
    return 0;
}

/* The whole recording, once: seconds, and how many calls it took. Rooms are large enough, and stay. */
static double round_of(struct octets settings, struct octets recording, size_t size, struct octets rooms[4], size_t *calls) {
    struct tmx_answer answer = {0};
    struct timespec begin, end;
    size_t at = 0;
    *calls = 0;
    clock_gettime(CLOCK_MONOTONIC, &begin);
    for (;;) {
        size_t length = recording.length - at < size ? recording.length - at : size;
        struct tmx_request request = {lent(settings), {rooms[2 + *calls % 2].at, answer.checkpoint_length}, {recording.at + at, length}, {settings.at, 0},
                                      TMX_EXTRACT, 0, length < size};
        const struct octets *kept = &rooms[2 + ++*calls % 2];
        if (tmx_run(&request, rooms[0].at, rooms[0].length, rooms[1].at, rooms[1].length, kept->at, kept->length, &answer) != TMX_DONE) exit(7);
        at += answer.used;
        if (request.last) break;
    }
    clock_gettime(CLOCK_MONOTONIC, &end);
    return (double)(end.tv_sec - begin.tv_sec) + 1e-9 * (double)(end.tv_nsec - begin.tv_nsec);
}

static int speed(struct octets settings, struct octets recording, size_t size) {
    struct octets rooms[4] = {some(2 * size + 100000), some(8 * size + 100000), some(TMX_CHECKPOINT_MOST), some(TMX_CHECKPOINT_MOST)};
    double least = 1e9;
    size_t calls = 0;
    for (int k = 0; k < 20; k++) {
        double seconds = round_of(settings, recording, size, rooms, &calls);
        if (seconds < least) least = seconds;
    }
    printf("%zu calls of %zu octets: %.1f microseconds a call, %.0f MB/s\n", calls, size, 1e6 * least / (double)calls, 1e-6 * (double)recording.length / least);
    for (int k = 0; k < 4; k++) free(rooms[k].at);
    return 0;
}

/* A call answered another status, or did something where it does nothing. */
static void answered(const char *what, uint32_t status, uint32_t wanted, struct tmx_progress did, size_t used, size_t events) {
    if (status != wanted || did.status != wanted) printf("%s: status %u and %u, not %u\n", what, status, did.status, wanted);
    if (did.used != used || did.events != events || did.octets != 0) printf("%s: %zu octets used, %zu events, %zu octets\n", what, did.used, did.events, did.octets);
}

/* Definitions that are refused leave the rooms that are needed as they were. The example's longest packet has 880 octets. */
static void definitions(tmx_job *job, const uint8_t *longest, size_t length) {
    static const uint8_t wrong[] = "name,data_type,bit_length\nfirst,uint,65\n", right[] = "name,data_type,bit_length\nfirst,uint,64\n";
    const size_t without = 880 + 2041;
    struct tmx_error error;
    size_t events = 1, octets = 1;
    if (tmx_job_fields(NULL, 0, right, sizeof right - 1, &error) != TMX_JOB || error.status != TMX_JOB || *error.line != 0) puts("a definition without a job");
    if (tmx_job_most(NULL, &events, &octets) != TMX_JOB || events + octets + tmx_job_row_length(NULL, 0) != 0) puts("rooms without a job");
    if (tmx_job_fields(job, 2048, right, sizeof right - 1, &error) != TMX_APPLICATION || *error.line != 0) puts("application 2048");
    if (tmx_job_fields(job, 0, NULL, 0, &error) != TMX_DEFINITION || error.fault != TMX_DEFINITION_COLUMN || error.column != TMX_COLUMN_NAME) puts("no definition");
    if (tmx_job_fields(job, 0, wrong, sizeof wrong - 1, &error) != TMX_DEFINITION || error.fault != TMX_DEFINITION_BITS || error.row != 1
        || strcmp(error.line, "tmx: definition: bits row 1") != 0) puts(error.line);
    if (tmx_job_fields(job, 0, longest, length, &error) != TMX_LONG || error.fault != TMX_INPUT_DEFINITION) puts("a definition that is too long");
    if (tmx_job_most(job, &events, &octets) != TMX_DONE || events != TMX_EVENTS_MOST || octets != without) puts("rooms without rows");
    if (tmx_job_fields(job, 2047, right, sizeof right - 1, &error) != TMX_DONE || error.status != TMX_DONE || *error.line != 0) puts("a definition");
    if (tmx_job_row_length(job, 2047) != 24 || tmx_job_row_length(job, 2046) + tmx_job_row_length(job, 65535) != 0) puts("the length of rows");
    if (tmx_job_most(job, &events, &octets) != TMX_DONE || events != TMX_EVENTS_MOST + 292 || octets != without + 292 * 24) puts("rooms with rows");
}

/* Rooms that were large enough before the job had a definition, and the least that are so with it: the first ones are refused in each call. */
static void rooms_for_rows(tmx_job *job, struct octets recording) {
    static const uint8_t definition[] = "name,data_type,bit_length\nA,uint,1\n";
    struct tmx_room room = {malloc(1462 * sizeof(struct tmx_event)), 1170, malloc(880 + 2041 + 292 * 17), 880 + 2041};
    struct tmx_progress did;
    struct tmx_error error;
    if (room.events == NULL || room.octets == NULL || tmx_job_fields(job, 100, definition, sizeof definition - 1, &error) != TMX_DONE) puts("no rooms for rows");
    for (int k = 0; k < 3; k++) answered("rooms without the rows", tmx_job_feed(job, recording.at, recording.length, &room, &did), TMX_ROOM, did, 0, 0);
    room.events_room = 1462;
    answered("octets without the rows", tmx_job_feed(job, recording.at, recording.length, &room, &did), TMX_ROOM, did, 0, 0);
    room.octets_room = 880 + 2041 + 292 * 17;
    if (tmx_job_feed(job, recording.at, recording.length, &room, &did) != TMX_MORE || did.used == 0) puts("rooms for the rows");
    free(room.events);
    free(room.octets);
}

static int jobs(struct octets settings, struct octets recording) {
    static const uint8_t wrong[40] = "no checkpoint";
    static struct tmx_event events[TMX_EVENTS_MOST];
    static uint8_t packets[TMX_OCTETS_MOST], kept[TMX_CHECKPOINT_MOST], longest[TMX_INPUT_MOST + 1];
    struct tmx_room room = {events, TMX_EVENTS_MOST, packets, sizeof packets}, none_at_all = {NULL, 0, NULL, 0};
    struct tmx_progress did;
    struct tmx_error error;
    tmx_job *job = NULL;
    size_t length = 0, record;
    if (tmx_job_new(&job, NULL, 0, &error) != TMX_SETTINGS || error.fault != TMX_SETTINGS_MISSING || job != NULL) puts("no settings");
    if (tmx_job_resume(&job, settings.at, settings.length, wrong, sizeof wrong, &error) != TMX_CHECKPOINT || error.fault != TMX_CHECKPOINT_MAGIC || job != NULL)
        puts("a wrong checkpoint");
    if (tmx_job_resume(&job, settings.at, settings.length, NULL, 0, &error) != TMX_CHECKPOINT || error.fault != TMX_CHECKPOINT_SHORT) puts("no checkpoint");
    if (tmx_job_new(&job, longest, sizeof longest, &error) != TMX_LONG || error.fault != TMX_INPUT_SETTINGS) puts("settings that are too long");
    if (tmx_job_resume(&job, settings.at, settings.length, longest, sizeof longest, &error) != TMX_LONG || error.fault != TMX_INPUT_CHECKPOINT || job != NULL)
        puts("a checkpoint that is too long");
    answered("feed without a job", tmx_job_feed(NULL, recording.at, 1, &room, &did), TMX_JOB, did, 0, 0);
    answered("end without a job", tmx_job_end(NULL, &room, &did), TMX_JOB, did, 0, 0);
    if (tmx_job_checkpoint(NULL, kept, sizeof kept, &length) != TMX_JOB || length != 0 || tmx_job_records(NULL) + tmx_job_record_length(NULL) != 0) puts("no job");
    tmx_job_free(NULL);
    if (tmx_job_new(&job, settings.at, settings.length, &error) != TMX_DONE) return 6;
    record = tmx_job_record_length(job);
    answered("nothing", tmx_job_feed(job, NULL, 0, &none_at_all, &did), TMX_DONE, did, 0, 0);
    answered("a part of a record, without room", tmx_job_feed(job, recording.at, record - 1, &none_at_all, &did), TMX_DONE, did, record - 1, 0);
    answered("the rest of it, without room", tmx_job_feed(job, recording.at + record - 1, 1, &none_at_all, &did), TMX_ROOM, did, 0, 0);
    room.events_room--;
    answered("the rest of it, with one event too few", tmx_job_feed(job, recording.at + record - 1, 1, &room, &did), TMX_ROOM, did, 0, 0);
    answered("the end, with one event too few", tmx_job_end(job, &room, &did), TMX_ROOM, did, 0, 0);
    room.events_room++;
    if (tmx_job_checkpoint(job, NULL, 0, &length) != TMX_ROOM || tmx_job_checkpoint(job, kept, length - 1, &length) != TMX_ROOM
        || tmx_job_checkpoint(job, kept, length, &length) != TMX_DONE || tmx_job_records(job) != 0) puts("a checkpoint");
    if (tmx_job_end(job, &room, &did) != TMX_DONE || did.events != 1 || events[0].kind != TMX_EVENT_SHORT || events[0].octets != record - 1) puts("the end");
    answered("the end once more", tmx_job_end(job, &none_at_all, &did), TMX_DONE, did, 0, 0);
    answered("octets after the end", tmx_job_feed(job, recording.at, record, &room, &did), TMX_CLOSED, did, 0, 0);
    tmx_job_free(job);
    if (tmx_job_new(&job, settings.at, settings.length, &error) != TMX_DONE) return 6;
    definitions(job, longest, sizeof longest);
    tmx_job_free(job);
    if (tmx_job_new(&job, settings.at, settings.length, &error) != TMX_DONE) return 6;
    rooms_for_rows(job, recording);
    tmx_job_free(job);
    return 0;
}

/* Feeds a job with the recording in chunks, and answers the seconds of all. */
static double feed_once(struct octets settings, struct octets recording, size_t size, struct tmx_room *room, size_t *calls) {
    struct timespec begin, end;
    struct tmx_progress did;
    struct tmx_error error;
    tmx_job *job;
    if (tmx_job_new(&job, settings.at, settings.length, &error) != TMX_DONE) exit(7);
    clock_gettime(CLOCK_MONOTONIC, &begin);
    for (size_t at = 0, length; at < recording.length; at += did.used, ++*calls) {
        length = recording.length - at < size ? recording.length - at : size;
        if (tmx_job_feed(job, recording.at + at, length, room, &did) != TMX_DONE && did.status != TMX_MORE) exit(7);
    }
    clock_gettime(CLOCK_MONOTONIC, &end);
    tmx_job_free(job);
    return (double)(end.tv_sec - begin.tv_sec) + 1e-9 * (double)(end.tv_nsec - begin.tv_nsec);
}

static int fed(struct octets settings, struct octets recording, size_t size) {
    static struct tmx_event events[4096];
    static uint8_t packets[1 << 18];
    struct tmx_room room = {events, 4096, packets, sizeof packets};
    double least = 1e9;
    size_t calls = 0;
    for (int k = 0; k < 20; k++) {
        double seconds;
        calls = 0;
        seconds = feed_once(settings, recording, size, &room, &calls);
        if (seconds < least) least = seconds;
    }
    printf("%zu calls of %zu octets: %.2f microseconds a call, %.0f MB/s\n", calls, size, 1e6 * least / (double)calls, 1e-6 * (double)recording.length / least);
    return 0;
}

int main(int argc, char **argv) {
    struct octets settings, recording;
    int status = 2;
    if (argc != 5) return status;
    settings = file_octets(argv[3]);
    recording = file_octets(argv[4]);
    if (strcmp(argv[1], "chunks") == 0) status = chunks(settings, recording, (size_t)atol(argv[2]));
    if (strcmp(argv[1], "hostile") == 0) status = hostile(settings, recording);
    if (strcmp(argv[1], "many") == 0) status = many(settings, recording, atol(argv[2]));
    if (strcmp(argv[1], "names") == 0) status = names(settings);
    if (strcmp(argv[1], "stack") == 0) status = stack(settings, recording, (size_t)atol(argv[2]));
    if (strcmp(argv[1], "jobs") == 0) status = jobs(settings, recording);
    if (strcmp(argv[1], "fed") == 0) status = fed(settings, recording, (size_t)atol(argv[2]));
    if (strcmp(argv[1], "rows") == 0) status = rows(settings, atol(argv[2]));
    if (strcmp(argv[1], "speed") == 0) status = speed(settings, recording, (size_t)atol(argv[2]));
    free(settings.at);
    free(recording.at);
    return status;
}
