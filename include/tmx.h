/* libtmx: packets, lines, rows and reports from recordings of TM transfer frames (CCSDS 132.0-B-3), a chunk of octets at a time.

   docs/LIBRARY.md is the guide, with a whole program. Link with -ltmx: libtmx.a or libtmx.so. Of the system it needs malloc, realloc and free
   and functions of <string.h>, no file and no thread.

   There are two ways. tmx_run keeps nothing between two calls: what the next call has to know stands in a checkpoint, octets that the caller
   keeps. So calls may be made from several threads at once, each with rooms of its own, and a call that failed can be made again: it changed
   only rooms and answer. A struct tmx_job keeps what the next call has to know, and takes octets as they come. It gives events: each says one
   thing in numbers.

   A thread that opens a job or calls tmx_run needs 3 MiB of stack. Ordinary settings take less than a tenth of that, those that are nested as
   deep as TOML is read most of it. The other calls need 128 KiB. */
#ifndef TMX_H
#define TMX_H

#include <stddef.h>
#include <stdint.h>

#ifdef __cplusplus
extern "C" {
#endif

/* The version of the library, which counts on its own: 10,000 times the major number, 100 times the minor one and the patch, so 200 for 0.2.0. */
#define TMX_VERSION_NUMBER 200

/* That of the library which is linked. */
uint32_t tmx_version(void);

/* What is wanted. */
enum tmx_command {
    TMX_EXTRACT = 0,        /* the packets' octets, as `tmx extract` writes them */
    TMX_PACKETS = 1,        /* a line for each packet, as `tmx packets` writes it */
    TMX_FIELDS = 2,         /* rows of the fields of an application's packets, as `tmx fields` writes them: `definition` and `application` say which */
    TMX_FRAMES = 3,         /* a line for each frame, as `tmx frames` writes it; there is no report */
    TMX_SUMMARY = 4,        /* the summary, as `tmx summary` writes it, of a whole recording in one call: no checkpoint, and `last` is not 0 */
    TMX_BINARY_PACKETS = 5, /* the octets of each packet behind 16 that say where it was found, as `tmx packets --binary` writes them */
    TMX_BINARY_FIELDS = 6   /* the rows of TMX_FIELDS in octets, as `tmx fields --binary` writes them: no head, and all of one length */
};

/* How a call ended. */
enum tmx_status {
    TMX_DONE = 0,        /* it was done, and each room was large enough */
    TMX_ROOM = 1,        /* a buffer is too small. tmx_run did its work: the lengths of the answer tell which buffer, and how much is enough.
                            A job did nothing: tmx_job_most tells how much is enough */
    TMX_COMMAND = 2,     /* there is no such command */
    TMX_SETTINGS = 3,    /* the settings are refused: fault is an enum tmx_settings_fault, key the key that it is about */
    TMX_CHECKPOINT = 4,  /* the checkpoint is refused: fault is an enum tmx_checkpoint_fault */
    TMX_TOO_MANY = 5,    /* a record would come after 4294967295 others */
    TMX_MEMORY = 6,      /* memory ran out */
    TMX_DEFINITION = 7,  /* the definition of fields is refused: fault is an enum tmx_definition_fault, column or row what it is about */
    TMX_APPLICATION = 8, /* an application is none: they have numbers up to 2047 */
    TMX_WHOLE = 9,       /* the summary was asked of a part: it takes the whole recording in one call */
    TMX_LONG = 10,       /* the settings, the definition or the checkpoint has over TMX_INPUT_MOST octets: fault is an enum tmx_input */
    TMX_MORE = 11,       /* a job stopped where what is left of a buffer may be too small for what comes next: read both, and call again */
    TMX_CLOSED = 12,     /* the end of the recording was told: the job takes no more octets */
    TMX_JOB = 13         /* there is no job: it is NULL */
};

/* What a status says, in a few words of English; never NULL. */
const char *tmx_status_text(uint32_t status);

/* What is read beside the recording, in the order of reading. */
enum tmx_input {
    TMX_INPUT_SETTINGS = 1,
    TMX_INPUT_DEFINITION = 2,
    TMX_INPUT_CHECKPOINT = 3
};

/* The most octets that each of these may have. */
enum { TMX_INPUT_MOST = 1048576 };

/* What is wrong with the settings. */
enum tmx_settings_fault {
    TMX_SETTINGS_TOML = 1,    /* they are no UTF-8, or no TOML document */
    TMX_SETTINGS_UNKNOWN = 2, /* a key names no setting */
    TMX_SETTINGS_MISSING = 3, /* this key has to be there */
    TMX_SETTINGS_KIND = 4,    /* the value of this key is of another kind */
    TMX_SETTINGS_RANGE = 5    /* the value of this key is none that it may have */
};

/* The keys of the settings. */
enum tmx_key {
    TMX_KEY_SPACECRAFT = 1,
    TMX_KEY_FRAME_LENGTH = 2,
    TMX_KEY_SKIP_BEFORE = 3,
    TMX_KEY_SKIP_AFTER = 4,
    TMX_KEY_SECONDARY = 5,
    TMX_KEY_OCF = 6,
    TMX_KEY_ERROR_CONTROL = 7,
    TMX_KEY_CHANNELS = 8,
    TMX_KEY_MAX_PACKET = 9
};

/* What is wrong with the checkpoint. */
enum tmx_checkpoint_fault {
    TMX_CHECKPOINT_SHORT = 1,    /* it has too few octets */
    TMX_CHECKPOINT_MAGIC = 2,    /* it doesn't begin with TMXC */
    TMX_CHECKPOINT_VERSION = 3,  /* it is of no version that is read */
    TMX_CHECKPOINT_CHECK = 4,    /* its error control doesn't hold */
    TMX_CHECKPOINT_SETTINGS = 5, /* it was written with other settings */
    TMX_CHECKPOINT_STATE = 6,    /* its state can't be read */
    TMX_CHECKPOINT_TRAILING = 7  /* octets are left over behind it */
};

/* What is wrong with the definition of fields. Rows are counted from 1, behind the headings. */
enum tmx_definition_fault {
    TMX_DEFINITION_CSV = 1,     /* two rows have different numbers of values */
    TMX_DEFINITION_COLUMN = 2,  /* this column has no heading, or more than one */
    TMX_DEFINITION_TYPE = 3,    /* the data_type of this row is no type */
    TMX_DEFINITION_ARRAY = 4,   /* it is a type with brackets behind it */
    TMX_DEFINITION_BITS = 5,    /* the bit_length of this row is none that its type may have */
    TMX_DEFINITION_OFFSET = 6,  /* the bit_offset of this row is none, or the field ends behind the longest packet */
    TMX_DEFINITION_NAME = 7,    /* the name of this row is empty, or that of an earlier one */
    TMX_DEFINITION_TOO_MANY = 8 /* there are more than 1000 rows */
};

/* The columns of a definition. */
enum tmx_column {
    TMX_COLUMN_NAME = 1,
    TMX_COLUMN_DATA_TYPE = 2,
    TMX_COLUMN_BIT_LENGTH = 3,
    TMX_COLUMN_BIT_OFFSET = 4
};

/* The most octets that a checkpoint can have. */
enum { TMX_CHECKPOINT_MOST = 622710 };

/* Octets that are read: where the first one stands, and how many there are. Where `length` is 0, `at` may be NULL, or anything else. */
struct tmx_octets {
    const uint8_t *at;
    size_t length;
};

/* What a call reads. */
struct tmx_request {
    struct tmx_octets settings;   /* a text of settings (docs/FORMATS.md) */
    struct tmx_octets checkpoint; /* the one that the call before wrote; of length 0 for the first call of a recording */
    struct tmx_octets octets;     /* the octets of the recording behind those that earlier calls used */
    struct tmx_octets definition; /* for rows a text that defines the fields (docs/FORMATS.md); not read else */
    uint32_t command;             /* an enum tmx_command */
    uint32_t application;         /* for rows the application, 0 to 2047; not read else */
    uint32_t last;                /* other than 0 where the recording ends behind these octets */
};

/* What a call answers. A length is the number of octets that belong into a room, also where the room is too small. Where the status is neither
   TMX_DONE nor TMX_ROOM, all but the first five numbers are 0. */
struct tmx_answer {
    uint32_t status;          /* an enum tmx_status */
    uint32_t fault;           /* what is wrong with the settings, the checkpoint or the definition, or which of them is too long, else 0 */
    uint32_t key;             /* an enum tmx_key, or 0 where no key is meant */
    uint32_t column;          /* an enum tmx_column, or 0 where no column is meant */
    uint32_t row;             /* a row of the definition, or 0 where no row is meant */
    uint32_t records;         /* the records that are done in all */
    size_t out_length;        /* what the command gives */
    size_t report_length;     /* the lines of the report; 0 for TMX_FRAMES and TMX_SUMMARY */
    size_t checkpoint_length; /* the checkpoint for the next call; 0 where `last` was not 0 */
    size_t used;              /* so many octets of the chunk were used: all of its whole records, or all octets where `last` was not 0 */
    uint32_t strict;          /* the status that `tmx --strict` ends with (docs/FORMATS.md), for the records of this call: 5 where none is a good
                                 frame of a chosen channel, else 4 where anything is bad or lost, VCA frames and octets left at the end aside,
                                 else 0. TMX_FRAMES has that of TMX_EXTRACT */
    uint32_t row_length;      /* how many octets each row of TMX_BINARY_FIELDS has by the definition; 0 where none was read */
};

/* Runs over a chunk of a recording, and returns the status.

   Whole records are used. The octets behind them are less than a record: hand them in again, in front of the next chunk. Where `last` is not 0
   all are used, the recording is closed, and what is unfinished is reported. The checkpoint is the same for each command, so calls over one
   recording may change the command. The head of the rows comes with the first call of a recording alone.

   `out`, `report` and `checkpoint` are rooms, each of so many octets. A room that is large enough has in front just what belongs there, so
   many octets as the answer says; behind them it is as it was or holds anything. A room that is too small may hold anything. Then give a larger
   one, and make the same call again: the request still stands, and what the call gave must not be used.

   A room of length 0 may be NULL, or any other address. No two rooms overlap, and none overlaps what is read or the answer. So the new checkpoint
   goes into another room than the old one. */
uint32_t tmx_run(const struct tmx_request *request, uint8_t *out, size_t out_room, uint8_t *report, size_t report_room, uint8_t *checkpoint,
                 size_t checkpoint_room, struct tmx_answer *answer);

/* ---- jobs. Where a length, a count or a room is 0, the pointer beside it may be NULL. A job that is NULL is refused as TMX_JOB. */

/* A job: how far a recording was read. Only the library knows what is in it. Any thread may call it, one at a time. */
typedef struct tmx_job tmx_job;

/* The most octets that a line has as a text, with the 0 behind it. Texts have no line feed. */
enum { TMX_LINE_MOST = 320 };

/* Why a job isn't opened, or takes no definition: as the first numbers of struct tmx_answer, and the line that the program prints, with the name
   of the key, and for a file's name `settings`, `definition` or `checkpoint`. Only a line with the name of an unknown key can be longer than its
   room, and is cut. If memory runs out meanwhile, the line says that. */
struct tmx_error {
    uint32_t status; /* an enum tmx_status */
    uint32_t fault;
    uint32_t key;
    uint32_t column;
    uint32_t row;
    char line[TMX_LINE_MOST];
};

/* What an event tells. In brackets are the numbers that it has besides `size`, `seen` and `kind`; all others are 0. */
enum tmx_event_kind {
    TMX_EVENT_PACKET = 1,       /* a whole packet (from, octets, at, place, application, count, channel, flags, telecommand, secondary) */
    TMX_EVENT_BAD = 2,          /* a bad frame (why: an enum tmx_bad) */
    TMX_EVENT_MASTER_GAP = 3,   /* frames of any channels are missing before this record, bad ones too (expected, found, missing) */
    TMX_EVENT_GAP = 4,          /* frames of the channel are missing before this record, bad ones too (channel, expected, found, missing) */
    TMX_EVENT_VCA = 5,          /* a frame with other data than packets (channel) */
    TMX_EVENT_DROP = 6,         /* octets of packets are dropped (from, octets, place, channel, why: an enum tmx_drop) */
    TMX_EVENT_SHORT = 7,        /* at the end octets are left that are no whole record (octets) */
    TMX_EVENT_SEQUENCE_GAP = 8, /* packets of the application are missing in this channel (channel, application, expected, found, missing) */
    TMX_EVENT_BROKEN = 9,       /* a group that is incomplete: its first count, and the last one before it was broken off; later segments of it
                                   may come as strays (channel, application, expected, found, why: an enum tmx_broken) */
    TMX_EVENT_GROUP = 10,       /* a whole group: its first count and its last (channel, application, expected, found) */
    TMX_EVENT_STRAY = 11,       /* a segment in no open group (channel, application, count, flags) */
    TMX_EVENT_ROW = 12,         /* a row of fields, after the notes of its packet (octets, at, application, count, channel); it has no line */
    TMX_EVENT_SHORT_PACKET = 13 /* a packet that is too short for its row (from, octets, at: the bits that are needed, place, application, count, channel) */
};

/* What is wrong with a frame. */
enum tmx_bad {
    TMX_BAD_CRC = 1,
    TMX_BAD_VERSION = 2,
    TMX_BAD_SPACECRAFT = 3,
    TMX_BAD_SECONDARY_FLAG = 4,
    TMX_BAD_OCF_FLAG = 5,
    TMX_BAD_SECONDARY_VERSION = 6,
    TMX_BAD_LAYOUT = 7,
    TMX_BAD_POINTER = 8
};

/* Why octets are dropped (docs/RUNS.md). */
enum tmx_drop {
    TMX_DROP_POINTER = 1,
    TMX_DROP_GAP = 2,
    TMX_DROP_VCA = 3,
    TMX_DROP_END = 4,
    TMX_DROP_NO_START = 5,
    TMX_DROP_VERSION = 6,
    TMX_DROP_LENGTH = 7
};

/* Why a group is broken. */
enum tmx_broken {
    TMX_BROKEN_GAP = 1,
    TMX_BROKEN_FIRST = 2,
    TMX_BROKEN_UNSEGMENTED = 3,
    TMX_BROKEN_END = 4
};

/* One event. Records are counted from 0. */
struct tmx_event {
    uint32_t size;        /* sizeof(struct tmx_event), 48 */
    uint32_t seen;        /* the record at which it is given */
    uint32_t from;        /* the record in which a packet or a dropped part begins */
    uint32_t octets;      /* how many octets a packet, a dropped part, a short record or a row has */
    uint64_t at;          /* where the octets of a packet or row begin in the room of octets; the bits that a row needs */
    uint16_t place;       /* the place in the data field of `from` at which a packet or a dropped part begins */
    uint16_t application; /* 0 to 2047 */
    uint16_t count;       /* the sequence count of a packet or of a stray, or of a row's packet */
    uint16_t expected;    /* the count that a gap expected; a group's first count */
    uint16_t found;       /* the count that a gap has; a group's last count */
    uint16_t missing;     /* how many counts a gap lacks */
    uint8_t kind;         /* an enum tmx_event_kind */
    uint8_t channel;      /* the virtual channel, 0 to 7 */
    uint8_t flags;        /* the sequence flags as a packet's header has them: 0 continuation, 1 first, 2 last, 3 unsegmented */
    uint8_t telecommand;  /* 1 where a packet is a telecommand */
    uint8_t secondary;    /* 1 where a packet has a secondary header */
    uint8_t why;          /* the number of the reason */
};

/* The most events, and the most octets, that one record gives in a job without rows. Where the settings have a `max_packet`, its number of
   octets and 2041 more are enough. tmx_job_most tells it of any job: take the size of buffers from there. */
enum { TMX_EVENTS_MOST = 1170, TMX_OCTETS_MOST = 67583 };

/* Room for what a call gives. Each call fills both from the beginning. */
struct tmx_room {
    struct tmx_event *events;
    size_t events_room; /* so many events */
    uint8_t *octets;    /* the octets of packets and rows; tmx_job_end takes none */
    size_t octets_room; /* so many octets */
};

/* What a call did. */
struct tmx_progress {
    uint32_t status;  /* an enum tmx_status */
    uint32_t records; /* the records that are done in all */
    size_t used;      /* so many octets were taken */
    size_t events;    /* so many events were given */
    size_t octets;    /* so many octets of packets and rows were given */
};

/* Opens a job at the beginning of a recording, or where a checkpoint was written, by the program or by the library. Returns the status. Only
   with TMX_DONE `*job` is written. Settings, and a checkpoint, are as in struct tmx_request, and refused as tmx_run refuses them. A
   checkpoint of length 0 is refused as too short. */
uint32_t tmx_job_new(tmx_job **job, const uint8_t *settings, size_t length, struct tmx_error *error);
uint32_t tmx_job_resume(tmx_job **job, const uint8_t *settings, size_t length, const uint8_t *checkpoint, size_t length2, struct tmx_error *error);

/* From now on the job gives packets of these applications alone; with a `count` of 0 it gives none. Notes of all packets are still given. A job
   that was just opened gives the packets of all applications. With TMX_APPLICATION a number is over 2047, and the job is as it was. */
uint32_t tmx_job_only(tmx_job *job, const uint16_t *applications, size_t count);

/* From now on the job gives rows of the packets of this application, whether it gives its packets or not: `definition` is a text that defines
   their fields, as in struct tmx_request. Several applications may have one; a second one of an application takes the place of the first. A
   checkpoint has none. A row's octets are as those of TMX_BINARY_FIELDS. All memory is taken here. Returns the status. With TMX_APPLICATION,
   TMX_LONG, TMX_DEFINITION or TMX_MEMORY the job is as it was, and `*error` says why; with TMX_APPLICATION and TMX_JOB the line is empty. */
uint32_t tmx_job_fields(tmx_job *job, uint16_t application, const uint8_t *definition, size_t length, struct tmx_error *error);

/* How many octets each row of an application has: 0 without a definition, and of NULL. */
uint32_t tmx_job_row_length(const tmx_job *job, uint16_t application);

/* Writes for how many events and octets a call of tmx_job_feed needs room to go on always, and returns the status. Of NULL both are 0. A
   definition with shorter rows in the place of another leaves them as they were. */
uint32_t tmx_job_most(const tmx_job *job, size_t *events, size_t *octets);

/* Takes the next octets of the recording, cut anywhere: the job keeps the part of a record that isn't whole. Returns the status. With TMX_DONE
   all octets are taken. With TMX_MORE the first `used` of them are, at least one: read both buffers, and pass the others again. With TMX_ROOM
   none is: the octets make a record whole, and a buffer as a whole is smaller than tmx_job_most says. With TMX_TOO_MANY the job has taken
   4294967295 records, and another one follows. The call takes no memory. */
uint32_t tmx_job_feed(tmx_job *job, const uint8_t *octets, size_t length, struct tmx_room *room, struct tmx_progress *progress);

/* Tells the end of the recording: what is unfinished. With TMX_DONE all is told. With TMX_MORE the buffer is full, with at least one event:
   read it, and call again. With TMX_ROOM the call did nothing: the first call needs a buffer of TMX_EVENTS_MOST events, and each later one a
   buffer of one event. After the first call that does something the job takes no more octets. The call takes no memory. */
uint32_t tmx_job_end(tmx_job *job, struct tmx_room *room, struct tmx_progress *progress);

/* Writes the line that the program prints of an event; of a packet it is that of `tmx packets`. It ends with a 0, and is cut where the room ends:
   TMX_LINE_MOST octets hold any. Returns how long the whole line is, without the 0: 0 where there is none, since the kind, a number that the
   line has as a word, or a part of a packet's header is out of range. */
size_t tmx_event_line(const struct tmx_event *event, char *line, size_t room);

/* Writes the checkpoint of the whole records that are done, if the room is large enough, and always its length, which is 0 where there is no
   job or memory ran out. The status is TMX_ROOM where the room is too small, and TMX_MEMORY where memory ran out. What the job keeps of a record
   that isn't whole is no part of it, and what tmx_job_end told neither: a job may go on from there. */
uint32_t tmx_job_checkpoint(const tmx_job *job, uint8_t *to, size_t room, size_t *length);

/* How many octets each record has, and how many records are done: 0 of NULL. */
uint32_t tmx_job_record_length(const tmx_job *job);
uint32_t tmx_job_records(const tmx_job *job);

/* Frees the job, or does nothing with NULL. */
void tmx_job_free(tmx_job *job);

#ifdef __cplusplus
}
#endif

#endif
