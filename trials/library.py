#!/usr/bin/env python3
"""The library libtmx beside the program: random recordings in random chunks give just what one run of the program gives, and each call's number
`strict` is what its frames and its report tell. Jobs are fed in random pieces, into random rooms. Their events say the program's lines, and so
does `tmx_event_line` of them. Rows of two definitions are what `tmx fields --binary` writes of each. The program, a job and `tmx_run` go on from
each other's checkpoints, and from those of each version.

    library.py TMX LIBRARY ROUNDS

TMX is the program, LIBRARY the shared library, and ROUNDS how many random recordings are tried, each in chunks of several kinds and by each
command. The lines are those of hostile.sh."""

import collections
import ctypes
import pathlib
import random
import re
import subprocess
import sys
import tomllib

HERE = pathlib.Path(__file__).resolve().parent
sys.path.insert(0, str(HERE))
sys.dont_write_bytecode = True

import anything  # noqa: E402
import reference  # noqa: E402

# The numbers of include/tmx.h.
EXTRACT, PACKETS, FIELDS, FRAMES, SUMMARY, BINARY_PACKETS, BINARY_FIELDS = range(7)
DONE, ROOM, MORE = 0, 1, 11
COMMANDS = {
    EXTRACT: "extract",
    PACKETS: "packets",
    FIELDS: "fields",
    FRAMES: "frames",
    SUMMARY: "summary",
    BINARY_PACKETS: "packets --binary",
    BINARY_FIELDS: "fields --binary",
}
# 16 octets, and one and two for the fields.
ROW_LENGTHS = {FIELDS: 19, BINARY_FIELDS: 19}
QUIET = (b"vca", b"group", b"short")
DEFINITION = b"name,data_type,bit_length\nfirst,uint,5\nsecond,int,11\n"
# For these some packets are too short.
LONGER = b"name,data_type,bit_length,bit_offset\nfirst,uint,40,\nsecond,str,64,52\nthird,fill,3,\nfourth,int,13,\nfifth,float,32,48\n"


class Octets(ctypes.Structure):
    """struct tmx_octets."""

    _fields_ = [("at", ctypes.c_char_p), ("length", ctypes.c_size_t)]


class Request(ctypes.Structure):
    """struct tmx_request."""

    _fields_ = [
        ("settings", Octets),
        ("checkpoint", Octets),
        ("octets", Octets),
        ("definition", Octets),
        ("command", ctypes.c_uint32),
        ("application", ctypes.c_uint32),
        ("last", ctypes.c_uint32),
    ]


class Answer(ctypes.Structure):
    """struct tmx_answer."""

    _fields_ = [
        ("status", ctypes.c_uint32),
        ("fault", ctypes.c_uint32),
        ("key", ctypes.c_uint32),
        ("column", ctypes.c_uint32),
        ("row", ctypes.c_uint32),
        ("records", ctypes.c_uint32),
        ("out_length", ctypes.c_size_t),
        ("report_length", ctypes.c_size_t),
        ("checkpoint_length", ctypes.c_size_t),
        ("used", ctypes.c_size_t),
        ("strict", ctypes.c_uint32),
        ("row_length", ctypes.c_uint32),
    ]


def call(run, texts, command, application, last):
    """One call, made again with just enough room: its answer, and what belongs to `out`, the report and the checkpoint."""
    read = [Octets(it, len(it)) for it in texts]
    request, answer, lengths = Request(*read, command, application, last), Answer(), [0, 0, 0]
    while True:
        rooms = [ctypes.create_string_buffer(it) for it in lengths]
        words = [word for it in zip(rooms, lengths) for word in it]
        status = run(ctypes.byref(request), *words, ctypes.byref(answer))
        lengths = [answer.out_length, answer.report_length, answer.checkpoint_length]
        if status != ROOM:
            return answer, [it.raw[:length] for it, length in zip(rooms, lengths)]


def strict_of(frames, report, channels):
    """What `tmx --strict` ends with, by the lines of the frames and of their report."""
    came = [int(line.split()[2][8:]) for line in frames.splitlines() if line.startswith(b"frame ")]
    if not set(came) & set(channels):
        return 5
    return 4 if any(line.split()[0] not in QUIET for line in report.splitlines()) else 0


def in_chunks(run, settings, recording, sizes, command, application):
    """What the calls give in all: what belongs to `out`, the report, and the checkpoint before the last one. Each size is asked for in turn."""
    out, report, checkpoint, kept, at, end = [], [], b"", b"", 0, 0
    channels = tomllib.loads(settings.decode()).get("channels", range(8))
    while True:
        end = min(len(recording), end + sizes())
        last = end == len(recording)
        texts = (settings, checkpoint, recording[at:end], DEFINITION)
        answer, given = call(run, texts, command, application, last)
        if answer.status != DONE:
            return f"status {answer.status} fault {answer.fault} key {answer.key}", b"", b""
        if answer.row_length != ROW_LENGTHS.get(command, 0):
            return f"rows of {answer.row_length} octets", b"", b""
        # A list and a summary have no report. That of the packets says the same, but for `shortpacket`.
        frames, packets = (call(run, texts, it, 0, last)[1] for it in (FRAMES, EXTRACT))
        strict = strict_of(frames[0], given[1] + packets[1], channels)
        if answer.strict != strict:
            return f"strict {answer.strict}, not {strict}", b"", b""
        out.append(given[0])
        report.append(given[1])
        kept, checkpoint = checkpoint, given[2]
        at += answer.used
        if last:
            return b"".join(out), b"".join(report), kept


def wanted(program, command, application):
    """What one run of the program gives of the recording."""
    words = ["--definition", "definition", "--apid", str(application)] if command in ROW_LENGTHS else []
    ran = subprocess.run([program, *COMMANDS[command].split(), "--settings", "settings", *words, "recording"], capture_output=True, check=False)
    return (ran.stdout, ran.stderr) if ran.returncode == 0 else (f"status {ran.returncode}", ran.stderr)


def differences(program, run, seed):
    """How chunks of one random recording differ from one run."""
    chance = random.Random(seed)
    settings = anything.make_settings(chance, ".")
    recording = anything.make_recording(chance, seed, settings, ".")
    size, text = settings.record, pathlib.Path("settings").read_bytes()
    application = chance.choice((0, 5, 100, 2046, 2047))
    kinds = {
        "whole": lambda: len(recording) + 1,
        "records and an octet": lambda: size + 1,
        "halves": lambda: len(recording) // 2 + 1,
        "any": lambda: chance.choice([0, 1, size - 1, size, size + 1, chance.randrange(6 * size), len(recording) // 3 + 1]),
    }
    for command in COMMANDS:
        one = wanted(program, command, application)
        for kind, sizes in kinds.items():
            # A summary takes one call.
            if command == SUMMARY and kind != "whole":
                continue
            found = in_chunks(run, text, recording, sizes, command, application)
            if found[:2] != one:
                yield f"seed {seed}, {COMMANDS[command]}, chunks {kind}: {[it[:80] for it in found[:2]]}, not {[it[:80] for it in one]}"


def checkpoints(program, run, example):
    """How the library's checkpoint differs from the program's."""
    settings, recording = (example / "settings.toml").read_bytes(), (example / "pass.rec").read_bytes()
    words = [program, "extract", "--settings", str(example / "settings.toml"), "--report", "report", "--checkpoint", "checkpoint"]
    subprocess.run([*words, "--stop-after", "100", str(example / "pass.rec")], stdout=subprocess.DEVNULL, check=True)
    size = len(recording) // 300
    sizes = iter([100 * size, len(recording)])
    _, _, kept = in_chunks(run, settings, recording, lambda: next(sizes), EXTRACT, 0)
    if kept != pathlib.Path("checkpoint").read_bytes():
        yield "the library's checkpoint is not the program's"


# How many rows, short packets and checkpoints were compared.
COUNTED = collections.Counter()


def none_counted(*names):
    """Which of these never came."""
    return [f"none of {name} came" for name in names if not COUNTED[name]]


# ---- the job

class Event(ctypes.Structure):
    """struct tmx_event."""

    _fields_ = [
        *((name, ctypes.c_uint32) for name in ("size", "seen", "from_", "octets")),
        ("at", ctypes.c_uint64),
        *((name, ctypes.c_uint16) for name in ("place", "application", "count", "expected", "found", "missing")),
        *((name, ctypes.c_uint8) for name in ("kind", "channel", "flags", "telecommand", "secondary", "why")),
    ]


class Room(ctypes.Structure):
    """struct tmx_room."""

    _fields_ = [("events", ctypes.c_void_p), ("events_room", ctypes.c_size_t), ("octets", ctypes.c_void_p), ("octets_room", ctypes.c_size_t)]


class Progress(ctypes.Structure):
    """struct tmx_progress."""

    _fields_ = [("status", ctypes.c_uint32), ("records", ctypes.c_uint32), *((name, ctypes.c_size_t) for name in ("used", "events", "octets"))]


EVENTS_MOST, FIELD_MOST = 1170, 2041
PACKET, ROW, SHORT_PACKET = 1, 12, 13
FLAGS = ("continuation", "first", "last", "unsegmented")
FAULTS = ("crc", "version", "spacecraft", "secondary-flag", "ocf-flag", "secondary-version", "layout", "pointer")
REASONS = ("pointer", "gap", "vca", "end", "no-start", "version", "length")
WHYS = ("gap", "first", "unsegmented", "end")
LINES = {
    1: "packet record={seen} channel={channel} from={from_} at={place} type={type} secondary={has} apid={application} flags={flag} count={count} octets={octets}",
    2: "bad record={seen} fault={fault}",
    3: "mastergap record={seen} expected={expected} found={found} missing={missing}",
    4: "gap record={seen} channel={channel} expected={expected} found={found} missing={missing}",
    5: "vca record={seen} channel={channel}",
    6: "drop record={seen} channel={channel} from={from_} at={place} octets={octets} reason={reason}",
    7: "short record={seen} octets={octets}",
    8: "seqgap record={seen} channel={channel} apid={application} expected={expected} found={found} missing={missing}",
    9: "broken record={seen} channel={channel} apid={application} first={expected} last={found} reason={end}",
    10: "group record={seen} channel={channel} apid={application} first={expected} last={found}",
    11: "stray record={seen} channel={channel} apid={application} count={count} flag={flag}",
    13: "shortpacket record={seen} channel={channel} from={from_} at={place} needed={at} found={bits}",
}


def line_of(event):
    """The program's line for an event. A row has none."""
    if event.kind == ROW:
        return b"\n"
    numbers = {name: getattr(event, name) for name, _ in Event._fields_}
    words = {"bits": 8 * event.octets, "type": "tc" if event.telecommand else "tm", "has": "yes" if event.secondary else "no", "flag": FLAGS[event.flags]}
    for name, list_of in (("fault", FAULTS), ("reason", REASONS), ("end", WHYS)):
        words[name] = list_of[event.why - 1] if 0 < event.why <= len(list_of) else "none"
    return LINES[event.kind].format(**numbers, **words).encode() + b"\n"


class Job:
    """A job of the library, whose rooms are as large as they are asked for."""

    def __init__(self, library, settings, checkpoint=None):
        self.library, self.job, self.packets, self.octets, self.report = library, ctypes.c_void_p(), [], [], []
        self.rows, self.short = {}, []
        error = (ctypes.c_uint32 * 128)()
        words = [settings, ctypes.c_size_t(len(settings))]
        if checkpoint is None:
            status = library.tmx_job_new(ctypes.byref(self.job), *words, error)
        else:
            status = library.tmx_job_resume(ctypes.byref(self.job), *words, checkpoint, ctypes.c_size_t(len(checkpoint)), error)
        if status != DONE:
            raise ValueError(f"status {status} fault {error[1]} key {error[2]}")

    def take(self, call, events_room, octets_room, *words):
        """One call: what it gave goes to the lines."""
        events, octets, did = (Event * events_room)(), ctypes.create_string_buffer(octets_room), Progress()
        room = Room(ctypes.addressof(events), events_room, ctypes.addressof(octets), octets_room)
        status = call(self.job, *words, ctypes.byref(room), ctypes.byref(did))
        line, all_octets = ctypes.create_string_buffer(320), b""
        for event in events[: did.events]:
            length = self.library.tmx_event_line(ctypes.byref(event), line, ctypes.c_size_t(len(line)))
            if line_of(event) != line.value + b"\n" or length != len(line.value):
                raise ValueError(f"{line.value} of {length} octets, not {line_of(event)}")
            if event.kind in (PACKET, ROW):
                its = octets.raw[event.at : event.at + event.octets]
                all_octets += its
                (self.octets if event.kind == PACKET else self.rows.setdefault(event.application, [])).append(its)
            if event.kind == SHORT_PACKET:
                self.short.append((len(self.report), event.application))
            if event.kind != ROW:
                (self.packets if event.kind == PACKET else self.report).append(line_of(event))
        if all_octets != octets.raw[: did.octets]:
            raise ValueError("octets that no packet and no row has")
        return status, did

    def feed(self, octets, events_room, octets_room):
        """Feeds all octets, in as many calls as the rooms ask for."""
        while True:
            status, did = self.take(self.library.tmx_job_feed, events_room, octets_room, octets, ctypes.c_size_t(len(octets)))
            if status == DONE and did.used == len(octets):
                return
            # Rooms that are large enough for a record always go on.
            if status != MORE or did.used == 0:
                raise ValueError(f"status {status}, {did.used} of {len(octets)} octets")
            octets = octets[did.used :]

    def fields(self, application, definition):
        """Gives rows from now on, as long as it is told."""
        error = (ctypes.c_uint32 * 128)()
        status = self.library.tmx_job_fields(self.job, ctypes.c_uint16(application), definition, ctypes.c_size_t(len(definition)), error)
        if status != DONE:
            raise ValueError(f"status {status} fault {error[1]}")

    def most(self):
        """The rooms that always go on."""
        events, octets = ctypes.c_size_t(), ctypes.c_size_t()
        self.library.tmx_job_most(self.job, ctypes.byref(events), ctypes.byref(octets))
        return events.value, octets.value

    def report_with(self, application):
        """The report, with the lines of packets of this application alone that are too short for a row."""
        others = {at for at, its in self.short if its != application}
        return b"".join(line for at, line in enumerate(self.report) if at not in others)

    def end(self, events_room):
        """Closes the recording, in as many calls as the room asks for."""
        while self.take(self.library.tmx_job_end, events_room, 0)[0] == MORE:
            pass

    def checkpoint(self):
        """The job's checkpoint."""
        length = ctypes.c_size_t()
        self.library.tmx_job_checkpoint(self.job, None, ctypes.c_size_t(0), ctypes.byref(length))
        room = ctypes.create_string_buffer(length.value)
        if self.library.tmx_job_checkpoint(self.job, room, length, ctypes.byref(length)) != DONE:
            raise ValueError("no checkpoint in just enough room")
        return room.raw[: length.value]

    def given(self):
        """What it gave: lines of packets, their octets, and the report."""
        return b"".join(self.packets), b"".join(self.octets), b"".join(self.report)

    def free(self):
        """Gives back its memory."""
        self.library.tmx_job_free(self.job)


def piece_of(chance, rest, size):
    """The next octets for a job: none, one, about a record, any number of them, or now and then all."""
    few = chance.choice([0, 1, size - 1, size, size + 1, chance.randrange(6 * size), len(rest) // 3 + 1])
    return rest[: len(rest) if chance.random() < 0.1 else few]


def job_differences(program, library, seed):
    """How a job that is fed in random pieces, into random rooms, and stopped and resumed now and then, differs from one run."""
    chance = random.Random(seed)
    settings = anything.make_settings(chance, ".")
    recording = anything.make_recording(chance, seed, settings, ".")
    size, text = settings.record, pathlib.Path("settings").read_bytes()
    most = tomllib.loads(text.decode()).get("max_packet", 65542) + FIELD_MOST
    one = wanted(program, PACKETS, 0), wanted(program, EXTRACT, 0)
    try:
        job = Job(library, text)
    except ValueError as refused:
        if not isinstance(one[0][0], str):
            yield f"seed {seed}: {refused}"
        return
    given, at = [b"", b"", b""], 0
    while at < len(recording):
        piece = piece_of(chance, recording[at:], size)
        job.feed(piece, EVENTS_MOST + chance.choice([0, 1, 5000]), most + chance.choice([0, 1, 100000]))
        at += len(piece)
        if chance.randrange(4) == 0:
            # What is kept of a record is no part of the checkpoint: that is fed again.
            kept, at = job.checkpoint(), job.library.tmx_job_records(job.job) * size
            given = [a + b for a, b in zip(given, job.given())]
            job.free()
            job = Job(library, text, kept)
    job.end(EVENTS_MOST + chance.choice([0, 3]))
    given = [a + b for a, b in zip(given, job.given())]
    job.free()
    if [given[0], given[2]] != [*one[0]] or given[1] != one[1][0]:
        yield f"seed {seed}, a job: {[it[:80] for it in given]}, not {[it[:80] for it in one[0]]}"


def wanted_rows(program, application, definition):
    """The rows that the program gives of an application, and its report."""
    pathlib.Path("definition").write_bytes(definition)
    rows = wanted(program, BINARY_FIELDS, application)
    pathlib.Path("definition").write_bytes(DEFINITION)
    return rows


def row_differences(program, library, seed):
    """How the rows of a job with two definitions differ from those of one run for each. Now and then no packets are given beside them."""
    chance = random.Random(seed)
    settings = anything.make_settings(chance, ".")
    recording = anything.make_recording(chance, seed, settings, ".")
    given = dict(zip(chance.sample((0, 5, 100, 2046, 2047), 2), chance.sample((DEFINITION, LONGER), 2)))
    only = chance.random() < 0.5
    one = wanted(program, EXTRACT, 0)
    if isinstance(one[0], str):
        return
    job = Job(library, pathlib.Path("settings").read_bytes())
    # Another definition of the first one takes the place of this.
    job.fields(next(iter(given)), LONGER)
    for application, definition in given.items():
        job.fields(application, definition)
    if only:
        library.tmx_job_only(job.job, None, ctypes.c_size_t(0))
    at, most = 0, job.most()
    while at < len(recording):
        piece = piece_of(chance, recording[at:], settings.record)
        job.feed(piece, *(it + chance.choice([0, 1, 5000]) for it in most))
        at += len(piece)
    job.end(EVENTS_MOST)
    if b"".join(job.octets) != (b"" if only else one[0]):
        yield f"seed {seed}: other packets"
    for application, definition in given.items():
        found = b"".join(job.rows.get(application, [])), job.report_with(application)
        rows = wanted_rows(program, application, definition)
        if found != rows:
            yield f"seed {seed}, rows of {application}: {[it[:80] for it in found]}, not {[it[:80] for it in rows]}"
        COUNTED.update(rows=len(job.rows.get(application, [])), short=sum(it == application for _, it in job.short))
    job.free()


def job_checkpoints(program, library, example):
    """How a job's checkpoint differs from the program's, and what a job gives that goes on from one, of each version."""
    # Version 1 has no limit on packets.
    settings = re.sub(rb"(?m)^max_packet.*\n", b"", (example / "settings.toml").read_bytes())
    pathlib.Path("without_limit.toml").write_bytes(settings)
    recording = (example / "pass.rec").read_bytes()
    words = [program, "packets", "--settings", "without_limit.toml", str(example / "pass.rec")]
    subprocess.run([*words, "--checkpoint", "checkpoint", "--stop-after", "100"], capture_output=True, check=True)
    kept, size = pathlib.Path("checkpoint"), len(recording) // 300
    job = Job(library, settings)
    job.feed(recording[: 100 * size + 7], EVENTS_MOST, 100000)
    if job.checkpoint() != kept.read_bytes():
        yield "a job's checkpoint is not the program's"
    job.free()
    for version in (1, 2, 3):
        keep = [sys.executable, HERE / "reference.py", "keep", "without_limit.toml", example / "pass.rec", "100", str(version)]
        kept.write_bytes(subprocess.run(keep, stdout=subprocess.PIPE, check=True).stdout)
        rest = subprocess.run([*words, "--resume", "checkpoint"], capture_output=True, check=True)
        job = Job(library, settings, kept.read_bytes())
        job.feed(recording[100 * size :], EVENTS_MOST, 100000)
        job.end(EVENTS_MOST)
        if (job.given()[0], job.given()[2]) != (rest.stdout, rest.stderr):
            yield f"a job doesn't go on from a checkpoint of version {version} as the program does"
        job.free()


class Stopped:
    """A random recording in two runs, the first of which ends behind a random record. A run gives packets, a report and its checkpoint."""

    def __init__(self, program, run, library, seed):
        chance = random.Random(seed)
        self.program, self.run, self.library = program, run, library
        self.settings = anything.make_settings(chance, ".")
        self.recording = anything.make_recording(chance, seed, self.settings, ".")
        self.text, size = pathlib.Path("settings").read_bytes(), self.settings.record
        self.records = chance.randrange(1, len(self.recording) // size + 1)
        # To a job and to tmx_run a part of the next record is given, too.
        self.first = self.recording[: self.records * size + chance.choice([0, 1, size - 1])]
        self.rest = self.recording[self.records * size :]

    def by_program(self, kept=None):
        """A run of the program: the first, or the one that goes on from this checkpoint."""
        file, words = pathlib.Path("kept"), ["--checkpoint", "kept", "--stop-after", str(self.records)]
        if kept is not None:
            file.write_bytes(kept)
            words = ["--resume", "kept"]
        ran = subprocess.run([self.program, "extract", "--settings", "settings", *words, "recording"], capture_output=True, check=True)
        return ran.stdout, ran.stderr, file.read_bytes()

    def by_job(self, kept=None):
        """Likewise of a job."""
        job = Job(self.library, self.text, kept)
        job.feed(self.first if kept is None else self.rest, EVENTS_MOST, self.settings.max_packet + FIELD_MOST)
        if kept is not None:
            job.end(EVENTS_MOST)
        given = *job.given()[1:], job.checkpoint()
        job.free()
        return given

    def by_call(self, kept=None):
        """Likewise of a call of tmx_run."""
        texts = (self.text, b"", self.first, b"") if kept is None else (self.text, kept, self.rest, b"")
        answer, given = call(self.run, texts, EXTRACT, 0, kept is not None)
        if answer.status != DONE:
            raise ValueError(f"status {answer.status} fault {answer.fault}")
        return given

    def by_reference(self, version):
        """What both runs give where the second goes on from this version of the checkpoint, the checkpoint, and its version."""
        reader, kept = reference.read_recording(self.settings, self.recording, {self.records: version})
        return anything.wanted(reader, 0)["extract"], *kept[self.records]


def going_on(program, run, library, seed):
    """How two runs differ from one: the program, a job or tmx_run behind each of these, and behind a checkpoint of each version. An older version
    lacks the count of all frames, so that a gap of it isn't seen there."""
    both, one = Stopped(program, run, library, seed), wanted(program, EXTRACT, 0)
    ways = {"the program": both.by_program, "a job": both.by_job, "tmx_run": both.by_call}
    starts = [(name, way(), one) for name, way in ways.items()]
    # Version 1 has no limit on packets.
    for version in (1, 2, 3) if both.settings.max_packet == reference.LONGEST_PACKET else (2, 3):
        whole, written, older = both.by_reference(version)
        yield from (f"seed {seed}: the checkpoint of {name}" for name, given, _ in starts[:3] if given[2] != written)
        starts.append((f"version {version}", (*starts[0][1][:2], older), whole))
    for start, (out, report, kept), whole in starts:
        COUNTED[start] += 1
        for name, way in ways.items():
            rest = way(kept)
            if (out + rest[0], report + rest[1]) != whole:
                yield f"seed {seed}: {name} behind {start}, record {both.records}: {[it[:80] for it in rest[:2]]}"


# ---- the wrapper in Rust

def other_numbers(header, rust):
    """How the numbers of library/tmx.rs differ from those of the header."""
    theirs = {name: int(number) for name, number in re.findall(r"TMX_([A-Z_]+) = ([0-9]+)", header)}
    ours = {name: int(number) for name, number in re.findall(r"^const ([A-Z_]+_MOST): usize = ([0-9_]+);", rust, re.MULTILINE)}
    words = [("EVENT_", word, number) for number, word in re.findall(r"^ +([0-9]+) => What::(\w+)", rust, re.MULTILINE)]
    for kind, prefix in (("Status", ""), ("Fault", "BAD_"), ("Loss", "DROP_"), ("Break", "BROKEN_")):
        words += [(prefix, *it) for it in re.findall(r"(\w+) = ([0-9]+)", re.search(rf"\b{kind} {{(.*?)}}", rust, re.DOTALL)[1])]
    ours |= {prefix + re.sub("(?<=[a-z])(?=[A-Z])", "_", word).upper(): int(number) for prefix, word, number in words}
    yield from (f"{name} is {number}" for name, number in ours.items() if theirs.get(name) != number)
    of_events = re.compile("(EVENT|BAD|DROP|BROKEN)_")
    yield from (f"{name} isn't there" for name in theirs if of_events.match(name) and name not in ours)


def main(program, library, rounds):
    jobs = ctypes.CDLL(library)
    run, room = jobs.tmx_run, [ctypes.c_char_p, ctypes.c_size_t]
    run.argtypes, run.restype = [ctypes.POINTER(Request), *room, *room, *room, ctypes.POINTER(Answer)], ctypes.c_uint32
    jobs.tmx_job_records.restype = ctypes.c_uint32
    pathlib.Path("definition").write_bytes(DEFINITION)
    texts = [(HERE.parent / it).read_text() for it in ("include/tmx.h", "library/tmx.rs")]
    example, rounds = HERE.parent / "example", range(int(rounds))
    many = f"{len(rounds)} random recordings"
    failed = 0
    print("plan 7", flush=True)
    for name, find in (
        (f"{many} in random chunks give what one run gives", lambda: (it for k in rounds for it in differences(program, run, 7000 + k))),
        ("the library's checkpoint is the program's", lambda: checkpoints(program, run, example)),
        (f"jobs over {many} give what one run gives", lambda: (it for k in rounds for it in job_differences(program, jobs, 8000 + k))),
        (
            f"rows of jobs over {many} are what the program gives",
            # The first recording has both.
            lambda: [it for k in rounds for it in row_differences(program, jobs, 9001 + k)] or none_counted("rows", "short"),
        ),
        ("a job's checkpoint is the program's, and a job goes on from one of each version", lambda: job_checkpoints(program, jobs, example)),
        (
            f"the program, jobs and tmx_run go on from each checkpoint over {many} as if none had stopped",
            # The first recording has each version, and packets on both sides.
            lambda: [it for k in rounds for it in going_on(program, run, jobs, 6018 + k)] or none_counted("version 1", "version 2", "version 3"),
        ),
        ("the wrapper in Rust has the numbers of the header", lambda: other_numbers(*texts)),
    ):
        try:
            found = list(find())
        except (ValueError, OSError, subprocess.SubprocessError) as error:
            found = [f"{type(error).__name__}: {error}"]
        print(f"FAILED: {name}: {found[:3]}" if found else f"ok {name}", flush=True)
        failed += bool(found)
    return failed != 0


if __name__ == "__main__":
    sys.exit(main(*sys.argv[1:]))
