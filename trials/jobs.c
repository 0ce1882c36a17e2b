/* Jobs and calls of libtmx in little memory, between pages that nobody may touch, in threads and on small stacks. Link it with
   -Wl,--wrap=malloc,--wrap=realloc,--wrap=free.

   jobs refused SETTINGS RECORDING          each request for memory is refused in turn: of all calls that make any
   jobs guarded SETTINGS RECORDING          all that is read and written stands directly before and behind such pages, in pieces of many lengths
   jobs threads SETTINGS RECORDING          eight threads, each with a job of its own
   jobs handed SETTINGS RECORDING           the calls on a job are made by many threads: one with a stack of 3 MiB opens it, all others have 128 KiB
   jobs refused_calls SETTINGS RECORDING    as `refused`, of tmx_run by each command, with room and without
   jobs guarded_calls SETTINGS RECORDING    as `guarded`, of tmx_run by each command, also in rooms that are too small
   jobs threads_calls SETTINGS RECORDING    eight threads, each of which calls tmx_run by each command, with rooms of its own

   The last line says what was done. The status is 0 where nothing is wrong. */
#include "tmx.h"
#include <pthread.h>
#include <stdatomic.h>
#include <stdio.h>
#include <stdlib.h>
#include <string.h>
#include <sys/mman.h>

/* ---- memory that is counted, and refused */

void *__real_malloc(size_t length);
void *__real_realloc(void *at, size_t length);
void __real_free(void *at);

/* The request that is refused, from 0 on, or none of -1; the requests that were made; and the blocks that are held. */
static atomic_long refused_one = -1, requests, held;

static int is_refused(void) {
    return atomic_fetch_add(&requests, 1) == refused_one;
}

void *__wrap_malloc(size_t length) {
    void *at = is_refused() ? NULL : __real_malloc(length);
    held += at != NULL;
    return at;
}

void *__wrap_realloc(void *old, size_t length) {
    void *at = is_refused() ? NULL : __real_realloc(old, length);
    held += old == NULL && at != NULL;
    return at;
}

void __wrap_free(void *at) {
    held -= at != NULL;
    __real_free(at);
}

/* ---- what all trials read, and what a job tells */

struct octets {
    uint8_t *at;
    size_t length;
};

/* The recording is read four times over, so that the rooms are filled more than once. */
static struct octets settings, recording;
static size_t record;

static void wrong(const char *what, long number) {
    printf("%s: %ld\n", what, number);
    exit(1);
}

static struct octets file_octets(const char *name, size_t times) {
    FILE *file = fopen(name, "rb");
    struct octets it;
    size_t length;
    if (file == NULL || fseek(file, 0, SEEK_END) != 0) exit(3);
    length = (size_t)ftell(file);
    it = (struct octets){malloc(times * length), times * length};
    if (it.at == NULL) exit(3);
    for (size_t k = 0; k < times; k++) {
        rewind(file);
        if (fread(it.at + k * length, 1, length, file) != length) exit(3);
    }
    fclose(file);
    return it;
}

/* The sums of all events, of their lines and of all octets of packets, and the numbers. How often the rooms were read changes nothing. */
struct told {
    uint64_t event_sum, line_sum, octet_sum, events, octets;
};

static void add(uint64_t *sum, const void *octets, size_t length) {
    for (size_t k = 0; k < length; k++) *sum = (*sum ^ ((const uint8_t *)octets)[k]) * 1099511628211u;
}

static void take(struct told *told, const struct tmx_room *room, const struct tmx_progress *did) {
    char line[TMX_LINE_MOST];
    size_t at = 0, length;
    for (size_t k = 0; k < did->events; k++) {
        struct tmx_event event = room->events[k];
        const int has_octets = event.kind == TMX_EVENT_PACKET || event.kind == TMX_EVENT_ROW;
        if (has_octets && event.at != at) wrong("the place of a packet or row", (long)event.at);
        if (has_octets) at += event.octets;
        length = tmx_event_line(&event, line, sizeof line);
        if ((length == 0) != (event.kind == TMX_EVENT_ROW)) wrong("the line of an event", event.kind);
        add(&told->line_sum, line, length);
        event.at = 0;
        add(&told->event_sum, &event, offsetof(struct tmx_event, why) + 1);
    }
    if (at != did->octets) wrong("octets of no packet and no row", (long)did->octets);
    add(&told->octet_sum, room->octets, did->octets);
    told->events += did->events;
    told->octets += did->octets;
}

static void feed(tmx_job *job, const uint8_t *octets, size_t length, struct tmx_room *room, struct tmx_progress *did, struct told *told) {
    uint32_t status;
    do {
        status = tmx_job_feed(job, octets, length, room, did);
        if (status != TMX_DONE && (status != TMX_MORE || did->used == 0)) wrong("feed: status", status);
        take(told, room, did);
        if (octets != NULL) octets += did->used;
        length -= did->used;
    } while (status == TMX_MORE);
    if (length != 0) wrong("octets are left", (long)length);
}

static void end(tmx_job *job, struct tmx_room *room, struct tmx_progress *did, struct told *told) {
    uint32_t status;
    do {
        status = tmx_job_end(job, room, did);
        if (status != TMX_DONE && (status != TMX_MORE || did->events == 0)) wrong("end: status", status);
        take(told, room, did);
    } while (status == TMX_MORE);
}

static const struct octets none = {NULL, 0};

static uint32_t open_job(tmx_job **job, struct octets text, struct octets checkpoint, struct tmx_error *error) {
    return checkpoint.at == NULL ? tmx_job_new(job, text.at, text.length, error)
                                 : tmx_job_resume(job, text.at, text.length, checkpoint.at, checkpoint.length, error);
}

static tmx_job *opened(struct octets checkpoint) {
    struct tmx_error error;
    tmx_job *job;
    if (open_job(&job, settings, checkpoint, &error) != TMX_DONE) wrong(error.line, error.status);
    return job;
}

static struct octets kept(const tmx_job *job) {
    struct octets it = {malloc(TMX_CHECKPOINT_MOST), 0};
    if (it.at == NULL || tmx_job_checkpoint(job, it.at, TMX_CHECKPOINT_MOST, &it.length) != TMX_DONE) wrong("no checkpoint of octets", (long)it.length);
    return it;
}

/* Rooms of just the size that always goes on. */
struct rooms {
    struct tmx_event events[TMX_EVENTS_MOST];
    uint8_t octets[TMX_OCTETS_MOST];
};

static struct tmx_room room_of(struct rooms *rooms) {
    return (struct tmx_room){rooms->events, TMX_EVENTS_MOST, rooms->octets, TMX_OCTETS_MOST};
}

/* What a job tells that is fed with pieces of so many octets. */
static struct told told_in_pieces(size_t piece) {
    struct rooms *rooms = malloc(sizeof *rooms);
    struct tmx_room room = room_of(rooms);
    struct tmx_progress did;
    struct told told = {0};
    tmx_job *job = opened(none);
    for (size_t at = 0; at < recording.length; at += piece)
        feed(job, recording.at + at, recording.length - at < piece ? recording.length - at : piece, &room, &did, &told);
    end(job, &room, &did, &told);
    tmx_job_free(job);
    free(rooms);
    return told;
}

/* What all trials have to be told: the whole recording. */
static struct told wanted;

static void compare(const char *what, struct told told) {
    if (memcmp(&told, &wanted, sizeof told) != 0) wrong(what, (long)told.events);
}

/* ---- refused */

/* Opens a job, with the request of this number refused. Without that the status is this one. Whether the request was made. */
static int open_refused(long number, struct octets text, struct octets checkpoint, uint32_t otherwise) {
    struct tmx_error error;
    tmx_job *job = NULL;
    const long before = held;
    uint32_t status;
    int was_made;
    requests = 0;
    refused_one = number;
    status = open_job(&job, text, checkpoint, &error);
    refused_one = -1;
    was_made = requests > number;
    if (!was_made && status != otherwise) wrong("no request is refused: status", status);
    if (was_made && (strcmp(error.line, "tmx: out of memory") != 0 || job != NULL)) wrong("the line of a refused request", number);
    if (was_made && status != TMX_MEMORY && (status != otherwise || status == TMX_DONE)) wrong("the status of a refused request", status);
    tmx_job_free(job);
    job = NULL;
    if (open_job(&job, text, checkpoint, &error) != otherwise) wrong("the same call afterwards", number);
    tmx_job_free(job);
    if (held != before) wrong("blocks are left behind", held - before);
    return was_made;
}

/* Likewise of a checkpoint. */
static int keep_refused(long number, const tmx_job *job, struct octets checkpoint) {
    static uint8_t room[TMX_CHECKPOINT_MOST];
    const long before = held;
    size_t length = 1;
    uint32_t status;
    int was_made;
    requests = 0;
    refused_one = number;
    status = tmx_job_checkpoint(job, room, sizeof room, &length);
    refused_one = -1;
    was_made = requests > number;
    if (was_made && (status != TMX_MEMORY || length != 0)) wrong("a refused request for a checkpoint", number);
    if (!was_made && status != TMX_DONE) wrong("no request is refused: status", status);
    if (tmx_job_checkpoint(job, room, sizeof room, &length) != TMX_DONE || length != checkpoint.length || memcmp(room, checkpoint.at, length) != 0)
        wrong("the same call afterwards", number);
    if (held != before) wrong("blocks are left behind", held - before);
    return was_made;
}

/* A definition of so many rows. Each is of eight bits among the first seven octets, which all packets have. */
enum { DEFINED = 101, HEAD = 16, MANY_ROWS = 1000 };
static struct octets one_row, many_rows;

static struct octets definition(int rows) {
    struct octets it = {malloc(64 + 32 * (size_t)rows), 0};
    if (it.at == NULL) exit(3);
    it.length = (size_t)sprintf((char *)it.at, "name,data_type,bit_length,bit_offset\n");
    for (int k = 0; k < rows; k++) it.length += (size_t)sprintf((char *)it.at + it.length, "field_%d,uint,8,%d\n", k, k % 48);
    return it;
}

/* Whether a row of such a definition has the octets of its fields. */
static int is_row_of(const uint8_t *packet, const uint8_t *row, size_t fields) {
    for (size_t k = 0; k < fields; k++) {
        const uint8_t *at = packet + k % 48 / 8;
        if (row[HEAD + k] != (uint8_t)((at[0] << 8 | at[1]) >> (8 - k % 8))) return 0;
    }
    return 1;
}

static uint32_t define(tmx_job *job, struct octets text, struct tmx_error *error) {
    return tmx_job_fields(job, DEFINED, text.at, text.length, error);
}

/* Likewise of a definition. */
static int fields_refused(long number) {
    struct tmx_error error;
    const long before = held;
    tmx_job *job = opened(none);
    uint32_t status;
    int was_made;
    requests = 0;
    refused_one = number;
    status = define(job, one_row, &error);
    refused_one = -1;
    was_made = requests > number;
    if (was_made && (status != TMX_MEMORY || strcmp(error.line, "tmx: out of memory") != 0 || tmx_job_row_length(job, DEFINED) != 0))
        wrong("a refused request for a definition", number);
    if (!was_made && status != TMX_DONE) wrong("no request is refused: status", status);
    if (define(job, one_row, &error) != TMX_DONE || tmx_job_row_length(job, DEFINED) != HEAD + 1) wrong("the same call afterwards", number);
    tmx_job_free(job);
    if (held != before) wrong("blocks are left behind", held - before);
    return was_made;
}

/* A job with a definition of so many rows gives one for each packet, in rooms that go on always. It asks for no memory meanwhile. How many packets
   of other applications it gives. The example's longest packet has 880 octets. */
static long rows_fed(tmx_job *job, size_t fields) {
    struct tmx_room room;
    struct tmx_progress did;
    const uint8_t *packet = NULL;
    long rows = 0, others = 0;
    if (tmx_job_most(job, &room.events_room, &room.octets_room) != TMX_DONE || room.events_room != TMX_EVENTS_MOST + 292
        || room.octets_room != 880 + 2041 + 292 * (HEAD + fields)) wrong("the room of octets that goes on always", (long)room.octets_room);
    room.events = malloc(room.events_room * sizeof *room.events);
    room.octets = malloc(room.octets_room);
    requests = 0;
    for (size_t at = 0; at < recording.length; at += did.used) {
        tmx_job_feed(job, recording.at + at, recording.length - at, &room, &did);
        if (did.used == 0) wrong("rooms that go on always stop at", (long)at);
        for (size_t k = 0; k < did.events; k++) {
            struct tmx_event event = room.events[k];
            if (event.application != DEFINED) others += event.kind == TMX_EVENT_PACKET;
            else if (event.kind == TMX_EVENT_PACKET) rows--, packet = room.octets + event.at;
            else if (event.kind == TMX_EVENT_ROW) rows += event.octets == HEAD + fields && is_row_of(packet, room.octets + event.at, fields) ? 1 : 2;
        }
        if (rows != 0) wrong("rows beyond those of packets", rows);
    }
    if (requests != 0) wrong("feed asks for memory", requests);
    if (packet == NULL) wrong("no packet of application", DEFINED);
    free(room.events);
    free(room.octets);
    tmx_job_free(job);
    return others;
}

static int refused(void) {
    static struct rooms rooms;
    struct tmx_room room = room_of(&rooms);
    struct tmx_progress did;
    struct told told = {0};
    tmx_job *job = opened(none);
    struct octets half, unknown = {(uint8_t *)"unknown = 1", 11};
    struct tmx_error error;
    long made[5] = {0, 0, 0, 0, 0};
    feed(job, recording.at, recording.length / 2, &room, &did, &told);
    half = kept(job);
    while (open_refused(made[0], settings, none, TMX_DONE)) made[0]++;
    while (open_refused(made[1], settings, half, TMX_DONE)) made[1]++;
    while (open_refused(made[2], unknown, none, TMX_SETTINGS)) made[2]++;
    while (keep_refused(made[3], job, half)) made[3]++;
    while (fields_refused(made[4])) made[4]++;
    requests = 0;
    feed(job, recording.at + recording.length / 2, recording.length - recording.length / 2, &room, &did, &told);
    end(job, &room, &did, &told);
    if (requests != 0) wrong("feed, end and lines ask for memory", requests);
    tmx_job_free(job);
    compare("another recording is told", told);
    job = opened(none);
    if (define(job, one_row, &error) != TMX_DONE || rows_fed(job, 1) == 0) wrong("no packets of other applications: status", error.status);
    for (int k = 0; k < 5; k++)
        if (made[k] == 0) wrong("no request was refused of call", k);
    printf("%ld to open a job, %ld to resume one, %ld by an unknown key, %ld for a checkpoint, %ld for a definition\n", made[0], made[1], made[2], made[3],
           made[4]);
    return 0;
}

/* ---- guarded */

static const size_t page = 4096;

/* Room for so many octets, with pages around it that can't be touched: directly before them, or directly behind. */
static void *guarded_room(size_t length, int behind) {
    const size_t pages = (length + page - 1) / page * page;
    uint8_t *all = mmap(NULL, pages + 2 * page, PROT_NONE, MAP_PRIVATE | MAP_ANONYMOUS, -1, 0);
    if (all == MAP_FAILED || (pages != 0 && mprotect(all + page, pages, PROT_READ | PROT_WRITE) != 0)) exit(3);
    return all + page + (behind ? pages - length : 0);
}

static void *guarded_copy(const void *from, size_t length, int behind) {
    void *at = guarded_room(length, behind);
    if (length != 0) memcpy(at, from, length);
    return at;
}

/* The numbers of all applications. */
static uint16_t applications[2048];

/* All that a job reads and writes between guards. It is fed with pieces of so many octets, and halfway a job from its checkpoint goes on. One
   room is wide and the other as small as may be: with two small ones each call would stop behind a record. */
static struct told told_guarded(size_t piece, int behind, int wide_events) {
    const size_t events_room = TMX_EVENTS_MOST * (wide_events ? 8 : 1), octets_room = TMX_OCTETS_MOST * (wide_events ? 1 : 8);
    struct tmx_room *room = guarded_room(sizeof *room, behind);
    struct tmx_progress *did = guarded_room(sizeof *did, behind);
    struct tmx_error *error = guarded_room(sizeof *error, behind);
    uint8_t *text = guarded_copy(settings.at, settings.length, behind), *octets = guarded_room(piece, behind), *checkpoint;
    const uint16_t *all = guarded_copy(applications, sizeof applications, behind);
    struct told told = {0};
    tmx_job *job;
    size_t length, at = 0;
    *room = (struct tmx_room){guarded_room(events_room * sizeof(struct tmx_event), behind), events_room, guarded_room(octets_room, behind), octets_room};
    if (tmx_job_new(&job, text, settings.length, error) != TMX_DONE || tmx_job_only(job, all, 2048) != TMX_DONE) wrong(error->line, error->status);
    for (int half = 1; half <= 2; half++) {
        for (; at < (half == 1 ? recording.length / 2 : recording.length); at += piece) {
            size_t more = recording.length - at < piece ? recording.length - at : piece;
            uint8_t *begin = octets + (behind ? piece - more : 0);
            memcpy(begin, recording.at + at, more);
            feed(job, begin, more, room, did, &told);
            feed(job, NULL, 0, room, did, &told);
        }
        if (half == 2) break;
        tmx_job_checkpoint(job, guarded_room(0, behind), 0, &length);
        checkpoint = guarded_room(length, behind);
        if (tmx_job_checkpoint(job, checkpoint, length, &length) != TMX_DONE) wrong("no checkpoint of octets", (long)length);
        at = (size_t)tmx_job_records(job) * record;
        tmx_job_free(job);
        if (tmx_job_resume(&job, text, settings.length, checkpoint, length, error) != TMX_DONE) wrong(error->line, error->status);
    }
    end(job, room, did, &told);
    tmx_job_free(job);
    return told;
}

/* The lines of all events, and of none, in guarded rooms: whole, or cut where the room ends. How many there are. */
static long lines_guarded(int behind) {
    static struct rooms rooms;
    const size_t sizes[] = {TMX_LINE_MOST, 20, 1, 0};
    char *lines[4];
    struct tmx_event *event = guarded_room(sizeof *event, behind);
    struct tmx_room room = room_of(&rooms);
    struct tmx_progress did;
    tmx_job *job = opened(none);
    size_t length;
    long found = 0;
    for (int k = 0; k < 4; k++) lines[k] = guarded_room(sizes[k], behind);
    for (size_t at = 0; at < recording.length; at += did.used) {
        tmx_job_feed(job, recording.at + at, recording.length - at, &room, &did);
        for (size_t k = 0; k < did.events; k++, found++) {
            *event = room.events[k];
            length = tmx_event_line(event, lines[0], sizes[0]);
            if (length == 0 || strlen(lines[0]) != length) wrong("the length of a line", (long)length);
            for (int cut = 1; cut < 4; cut++) {
                if (tmx_event_line(event, cut == 3 ? NULL : lines[cut], sizes[cut]) != length) wrong("the length of a line that is cut", cut);
                if (cut < 3 && (strncmp(lines[0], lines[cut], sizes[cut] - 1) != 0 || lines[cut][sizes[cut] - 1] != 0)) wrong(lines[0], cut);
            }
        }
    }
    tmx_job_free(job);
    event->kind = 0;
    if (tmx_event_line(event, lines[1], sizes[1]) != 0 || *lines[1] != 0) wrong("the line of no event", 0);
    return found;
}

static int guarded(void) {
    const size_t pieces[] = {1, record - 1, record, record + 1, 7 * record + 3, recording.length};
    const long lines = lines_guarded(0) + lines_guarded(1);
    int done = 0;
    for (int kind = 0; kind < 4; kind++)
        for (size_t k = 0; k < sizeof pieces / sizeof *pieces; k++, done++) compare("guarded, in pieces", told_guarded(pieces[k], kind & 1, kind & 2));
    printf("%d jobs, in pieces of 1 to %zu octets, and %ld lines\n", done, recording.length, lines);
    return done == 0 || lines == 0;
}

/* ---- threads */

enum { THREADS = 8, ROUNDS = 4 };

static void *tell(void *told) {
    for (int round = 0; round < ROUNDS; round++) ((struct told *)told)[round] = told_in_pieces(record * (size_t)(1 + 5 * round) + 1);
    return NULL;
}

/* Has each thread do it with its own part of an array. */
static void in_threads(void *(*call)(void *), void *parts, size_t size) {
    pthread_t all[THREADS];
    for (size_t k = 0; k < THREADS; k++)
        if (pthread_create(&all[k], NULL, call, (uint8_t *)parts + k * size) != 0) exit(3);
    for (int k = 0; k < THREADS; k++)
        if (pthread_join(all[k], NULL) != 0) exit(3);
}

static int threads(void) {
    static struct told told[THREADS][ROUNDS];
    in_threads(tell, told, sizeof *told);
    for (int k = 0; k < THREADS * ROUNDS; k++) compare("a thread is told otherwise", told[k / ROUNDS][k % ROUNDS]);
    printf("%d threads, each with %d jobs one after another\n", THREADS, ROUNDS);
    return 0;
}

/* ---- handed */

/* A call on the job that the threads hand on: each has what it reads and writes here. */
static struct {
    tmx_job *job, *defined;
    struct octets checkpoint, piece;
    struct rooms rooms;
    struct told told;
} handed_on;

static void *begin(void *unused) {
    handed_on.job = opened(handed_on.checkpoint);
    handed_on.defined = opened(none);
    return unused;
}

static void *go_on(void *unused) {
    struct tmx_room room = room_of(&handed_on.rooms);
    struct tmx_progress did;
    feed(handed_on.job, handed_on.piece.at, handed_on.piece.length, &room, &did, &handed_on.told);
    return unused;
}

static void *keep(void *unused) {
    handed_on.checkpoint = kept(handed_on.job);
    tmx_job_free(handed_on.job);
    return unused;
}

/* One job gives the packets of all applications, the other those of one, and their rows. */
static void *name_fields(void *unused) {
    tmx_job *job = handed_on.defined;
    struct tmx_error error;
    if (define(job, many_rows, &error) != TMX_DONE) wrong(error.line, error.status);
    if (tmx_job_row_length(job, DEFINED) != HEAD + MANY_ROWS || tmx_job_row_length(job, DEFINED + 1) != 0) wrong("the length of rows of", DEFINED);
    if (tmx_job_only(job, applications + DEFINED, 1) != TMX_DONE || tmx_job_only(handed_on.job, applications, 2048) != TMX_DONE) wrong("only", DEFINED);
    return unused;
}

static void *feed_rows(void *unused) {
    if (rows_fed(handed_on.defined, MANY_ROWS) != 0) wrong("packets of other applications than", DEFINED);
    return unused;
}

static void *finish(void *unused) {
    struct tmx_room room = room_of(&handed_on.rooms);
    struct tmx_progress did;
    end(handed_on.job, &room, &did, &handed_on.told);
    tmx_job_free(handed_on.job);
    return unused;
}

/* Has a thread of its own do it, with a stack of so many octets, behind a guard. Answers how many of them it took. */
static size_t by_thread(void *(*call)(void *), size_t size) {
    const size_t guard = 16 * page;
    uint8_t *below = mmap(NULL, guard + size, PROT_READ | PROT_WRITE, MAP_PRIVATE | MAP_ANONYMOUS, -1, 0), *stack = below + guard;
    pthread_attr_t attributes;
    pthread_t thread;
    size_t untouched = 0;
    if (below == MAP_FAILED || mprotect(below, guard, PROT_NONE) != 0) exit(3);
    memset(stack, 0xa5, size);
    if (pthread_attr_init(&attributes) != 0 || pthread_attr_setstack(&attributes, stack, size) != 0) exit(3);
    if (pthread_create(&thread, &attributes, call, NULL) != 0 || pthread_join(thread, NULL) != 0) exit(3);
    while (untouched < size && stack[untouched] == 0xa5) untouched++;
    munmap(below, guard + size);
    return size - untouched;
}

/* Stacks: the one that a job is opened on, and that of all other calls. */
enum { OPENING, OTHER };
static const size_t sizes[] = {3 << 20, 128 << 10};
static size_t most[2];

static void hand(void *(*call)(void *), int stack) {
    const size_t used = by_thread(call, sizes[stack]);
    if (used > most[stack]) most[stack] = used;
}

/* Halfway a checkpoint is kept, and another job goes on from it. */
static int handed(void) {
    size_t at = 0;
    int pieces = 0;
    for (size_t half = 1; half <= 2; half++) {
        hand(begin, OPENING);
        hand(name_fields, OTHER);
        hand(feed_rows, OTHER);
        for (; at < recording.length / 2 * half; at += handed_on.piece.length, pieces++) {
            size_t rest = recording.length - at;
            handed_on.piece = (struct octets){recording.at + at, rest < 3 * record + 1 ? rest : 3 * record + 1};
            hand(go_on, OTHER);
        }
        if (half == 1) at = (size_t)tmx_job_records(handed_on.job) * record;
        hand(half == 1 ? keep : finish, OTHER);
    }
    free(handed_on.checkpoint.at);
    compare("handed from thread to thread", handed_on.told);
    printf("%d pieces by as many threads, %zu octets of stack to open a job, %zu in all other calls\n", pieces, most[OPENING], most[OTHER]);
    return pieces == 0;
}

/* ---- calls of tmx_run */

/* What a call gave: its answer, and the sum of what stands in its rooms if they are large enough. */
struct gave {
    struct tmx_answer answer;
    uint64_t sum;
};

static struct gave run(const struct tmx_request *request, const struct octets rooms[3], struct tmx_answer *answer) {
    struct gave gave = {{0}, 0};
    uint32_t status;
    memset(answer, 0xa5, sizeof *answer);
    status = tmx_run(request, rooms[0].at, rooms[0].length, rooms[1].at, rooms[1].length, rooms[2].at, rooms[2].length, answer);
    if (status != answer->status) wrong("the answer has another status", answer->status);
    gave.answer = *answer;
    if (status != TMX_DONE) return gave;
    add(&gave.sum, rooms[0].at, answer->out_length);
    add(&gave.sum, rooms[1].at, answer->report_length);
    add(&gave.sum, rooms[2].at, answer->checkpoint_length);
    return gave;
}

static void compare_gave(const char *what, struct gave gave, struct gave wanted_of_it) {
    if (memcmp(&gave, &wanted_of_it, sizeof gave) != 0) wrong(what, gave.answer.status);
}

/* The calls of the trials, and what each has to give. */
static struct call {
    struct tmx_request request;
    struct gave wanted;
} calls[32];
static size_t planned;

/* A room that is large enough for any of them. It is painted, unlike those between guards, so that an octet that nobody wrote shows. */
static struct octets wide_room(void) {
    struct octets it = {malloc(1 << 20), 1 << 20};
    if (it.at == NULL) exit(3);
    memset(it.at, 0xa5, it.length);
    return it;
}

/* By each command three calls over the recording, which go on from one to the next and leave a part of a record. The summary takes one. */
static void plan_calls(void) {
    struct octets rooms[3] = {wide_room(), wide_room(), wide_room()};
    struct tmx_answer answer;
    for (uint32_t command = TMX_EXTRACT; command <= TMX_BINARY_FIELDS; command++) {
        const size_t piece = command == TMX_SUMMARY ? recording.length : recording.length / 3 + 1;
        struct tmx_request request = {{settings.at, settings.length}, {NULL, 0}, {NULL, 0}, {one_row.at, one_row.length}, command, DEFINED, 0};
        for (size_t at = 0; !request.last; at += answer.used, rooms[2] = wide_room()) {
            request.last = at + piece >= recording.length;
            request.octets = (struct tmx_octets){recording.at + at, request.last ? recording.length - at : piece};
            calls[planned].request = request;
            calls[planned++].wanted = run(&request, rooms, &answer);
            if (answer.status != TMX_DONE || answer.out_length == 0) wrong("a call gives nothing: status", answer.status);
            request.checkpoint = (struct tmx_octets){rooms[2].at, answer.checkpoint_length};
        }
    }
}

/* What a call reads, where it can only be read, and rooms that are so many octets too small: all of it between guards. And what it has to give. */
struct place {
    const struct tmx_request *request;
    struct octets rooms[3];
    struct tmx_answer *answer;
    struct gave wanted;
};

static const void *locked_copy(const void *from, size_t length, int behind) {
    uint8_t *at = guarded_copy(from, length, behind);
    if (length != 0 && mprotect(at - (uintptr_t)at % page, (uintptr_t)at % page + length, PROT_READ) != 0) exit(3);
    return at;
}

static struct place place_of(const struct call *call, int behind, size_t less) {
    const size_t lengths[3] = {call->wanted.answer.out_length, call->wanted.answer.report_length, call->wanted.answer.checkpoint_length};
    struct tmx_request request = call->request;
    struct tmx_octets *read[4] = {&request.settings, &request.checkpoint, &request.octets, &request.definition};
    struct place place = {.answer = guarded_room(sizeof *place.answer, behind), .wanted = call->wanted};
    for (int k = 0; k < 4; k++) read[k]->at = locked_copy(read[k]->at, read[k]->length, behind);
    place.request = locked_copy(&request, sizeof request, behind);
    for (int k = 0; k < 3; k++) {
        const size_t length = lengths[k] < less ? 0 : lengths[k] - less;
        place.rooms[k] = (struct octets){guarded_room(length, behind), length};
    }
    if (less != 0) place.wanted.answer.status = TMX_ROOM, place.wanted.sum = 0;
    return place;
}

/* Refuses the request of this number in a call, and makes the call again. Whether the request was made. */
static int call_refused(long number, const struct place *place) {
    const struct gave out_of_memory = {{.status = TMX_MEMORY}, 0};
    const long before = held;
    struct gave gave;
    int was_made;
    requests = 0;
    refused_one = number;
    gave = run(place->request, place->rooms, place->answer);
    refused_one = -1;
    was_made = requests > number;
    compare_gave(was_made ? "a refused request: status" : "no request is refused: status", gave, was_made ? out_of_memory : place->wanted);
    compare_gave("the same call afterwards: status", run(place->request, place->rooms, place->answer), place->wanted);
    if (held != before) wrong("blocks are left behind", held - before);
    return was_made;
}

static int refused_calls(void) {
    long made = 0;
    plan_calls();
    for (size_t k = 0; k < 2 * planned; k++) {
        const struct place place = place_of(&calls[k / 2], 1, k % 2 ? SIZE_MAX : 0);
        long number = 0;
        while (call_refused(number, &place)) number++;
        if (number == 0) wrong("no request was refused of command", place.request->command);
        made += number;
    }
    printf("%ld requests of %zu calls\n", made, 2 * planned);
    return 0;
}

static int guarded_calls(void) {
    const size_t less[] = {0, 1, 7};
    plan_calls();
    for (size_t k = 0; k < 6 * planned; k++) {
        const struct place place = place_of(&calls[k / 6], k % 2, less[k / 2 % 3]);
        compare_gave("guarded: status", run(place.request, place.rooms, place.answer), place.wanted);
    }
    printf("%zu calls\n", 6 * planned);
    return planned == 0;
}

/* Makes all calls, from this one on. */
static void *make_calls(void *first) {
    const struct octets rooms[3] = {wide_room(), wide_room(), wide_room()};
    const struct call *call = first;
    struct tmx_answer answer;
    for (size_t k = 0; k < ROUNDS * planned; k++) {
        compare_gave("in a thread: status", run(&call->request, rooms, &answer), call->wanted);
        if (++call == calls + planned) call = calls;
    }
    for (int k = 0; k < 3; k++) free(rooms[k].at);
    return NULL;
}

static int threads_calls(void) {
    plan_calls();
    in_threads(make_calls, calls, sizeof *calls);
    printf("%d threads, each with %zu calls\n", THREADS, ROUNDS * planned);
    return planned < THREADS;
}

int main(int argc, char **argv) {
    const struct {
        const char *name;
        int (*trial)(void);
    } trials[] = {{"refused", refused}, {"guarded", guarded}, {"threads", threads}, {"handed", handed},
                  {"refused_calls", refused_calls}, {"guarded_calls", guarded_calls}, {"threads_calls", threads_calls}};
    tmx_job *job;
    if (argc != 4) return 2;
    settings = file_octets(argv[2], 1);
    recording = file_octets(argv[3], 4);
    one_row = definition(1);
    many_rows = definition(MANY_ROWS);
    for (uint16_t k = 0; k < 2048; k++) applications[k] = k;
    job = opened(none);
    record = tmx_job_record_length(job);
    tmx_job_free(job);
    wanted = told_in_pieces(recording.length);
    if (wanted.events < 2 * TMX_EVENTS_MOST || wanted.octets < 2 * TMX_OCTETS_MOST) wrong("the recording gives too few events", (long)wanted.events);
    for (size_t k = 0; k < sizeof trials / sizeof *trials; k++)
        if (strcmp(argv[1], trials[k].name) == 0) return trials[k].trial();
    return 2;
}
