/* What proved code can't have: a pointer that is NULL. library/join puts it into libtmx. */
#include "tmx.h"

/* `tmx_run` of crates/tm_c, by the name that library/join gives it. Its slices are never NULL. */
uint32_t run_without_null(const struct tmx_request *request, uint8_t *out, size_t out_room, uint8_t *report, size_t report_room,
                          uint8_t *checkpoint, size_t checkpoint_room, struct tmx_answer *answer);

/* The calls on a job of crates/tm_c. A handle is a pointer to a job, or NULL, and each of these leaves it as it is but for the first and the last. */
struct handle {
    tmx_job *at;
};
struct opening {
    struct tmx_octets settings, checkpoint;
    uint32_t resume;
};
uint32_t job_open(struct handle *handle, const struct opening *opening, char *line, size_t room, struct tmx_answer *answer);
uint32_t job_only(struct handle *handle, const uint16_t *applications, size_t count);
uint32_t job_fields(struct handle *handle, uint16_t application, const uint8_t *definition, size_t length, char *line, size_t room,
                    struct tmx_answer *answer);
uint32_t job_row_length(struct handle *handle, uint16_t application);
uint32_t job_most(struct handle *handle, size_t *events, size_t *octets);
uint32_t job_feed(struct handle *handle, const uint8_t *octets, size_t length, struct tmx_event *events, size_t events_room, uint8_t *packets,
                  size_t packets_room, struct tmx_progress *progress);
uint32_t job_end(struct handle *handle, struct tmx_event *events, size_t events_room, struct tmx_progress *progress);
uint32_t job_checkpoint(struct handle *handle, uint8_t *room, size_t room_length, size_t *length);
uint32_t job_records(struct handle *handle);
uint32_t job_record_length(struct handle *handle);
void job_close(struct handle *handle);
size_t event_text(const struct tmx_event *event, char *line, size_t room);

/* Where nothing is: it is neither read nor written. */
static struct tmx_event nowhere[1];

/* A place of so many things: where there are none, not NULL. */
#define SOME(at, count) ((count) == 0 ? (void *)nowhere : (void *)(at))

static struct tmx_octets octets(const uint8_t *at, size_t length) { return (struct tmx_octets){SOME(at, length), length}; }
static struct tmx_octets some(struct tmx_octets it) { return octets(it.at, it.length); }

uint32_t tmx_run(const struct tmx_request *request, uint8_t *out, size_t out_room, uint8_t *report, size_t report_room, uint8_t *checkpoint,
                 size_t checkpoint_room, struct tmx_answer *answer) {
    struct tmx_request given = *request;
    given.settings = some(request->settings);
    given.checkpoint = some(request->checkpoint);
    given.octets = some(request->octets);
    given.definition = some(request->definition);
    return run_without_null(&given, SOME(out, out_room), out_room, SOME(report, report_room), report_room, SOME(checkpoint, checkpoint_room),
                            checkpoint_room, answer);
}

static uint32_t told(const struct tmx_answer *answer, struct tmx_error *error) {
    error->status = answer->status, error->fault = answer->fault, error->key = answer->key, error->column = answer->column, error->row = answer->row;
    return answer->status;
}

static uint32_t open_job(tmx_job **job, const struct opening *opening, struct tmx_error *error) {
    struct handle handle = {NULL};
    struct tmx_answer answer;
    if (job_open(&handle, opening, error->line, sizeof error->line, &answer) == TMX_DONE) *job = handle.at;
    return told(&answer, error);
}

uint32_t tmx_job_new(tmx_job **job, const uint8_t *settings, size_t length, struct tmx_error *error) {
    return open_job(job, &(struct opening){octets(settings, length), octets(NULL, 0), 0}, error);
}

uint32_t tmx_job_resume(tmx_job **job, const uint8_t *settings, size_t length, const uint8_t *checkpoint, size_t length2, struct tmx_error *error) {
    return open_job(job, &(struct opening){octets(settings, length), octets(checkpoint, length2), 1}, error);
}

/* A handle of a job. */
#define OF(job) (&(struct handle){(tmx_job *)(job)})

uint32_t tmx_job_fields(tmx_job *job, uint16_t application, const uint8_t *definition, size_t length, struct tmx_error *error) {
    struct tmx_answer answer;
    job_fields(OF(job), application, SOME(definition, length), length, error->line, sizeof error->line, &answer);
    return told(&answer, error);
}

uint32_t tmx_job_feed(tmx_job *job, const uint8_t *at, size_t length, struct tmx_room *to, struct tmx_progress *progress) {
    return job_feed(OF(job), SOME(at, length), length, SOME(to->events, to->events_room), to->events_room,
                    SOME(to->octets, to->octets_room), to->octets_room, progress);
}

uint32_t tmx_job_end(tmx_job *job, struct tmx_room *to, struct tmx_progress *progress) {
    return job_end(OF(job), SOME(to->events, to->events_room), to->events_room, progress);
}

uint32_t tmx_job_checkpoint(const tmx_job *job, uint8_t *to, size_t room, size_t *length) {
    return job_checkpoint(OF(job), SOME(to, room), room, length);
}

uint32_t tmx_job_only(tmx_job *job, const uint16_t *applications, size_t count) { return job_only(OF(job), SOME(applications, count), count); }
uint32_t tmx_job_row_length(const tmx_job *job, uint16_t application) { return job_row_length(OF(job), application); }
uint32_t tmx_job_most(const tmx_job *job, size_t *events, size_t *octets) { return job_most(OF(job), events, octets); }
uint32_t tmx_job_records(const tmx_job *job) { return job_records(OF(job)); }
uint32_t tmx_job_record_length(const tmx_job *job) { return job_record_length(OF(job)); }
void tmx_job_free(tmx_job *job) { job_close(OF(job)); }
size_t tmx_event_line(const struct tmx_event *event, char *line, size_t room) { return event_text(event, SOME(line, room), room); }
