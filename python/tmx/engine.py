"""An engine: the packets and reports of a recording that comes in chunks, by a job of the library `libtmx`, within this process."""

import ctypes
import os
import struct
import threading
from array import array
from collections import namedtuple
from collections.abc import Callable
from ctypes.util import find_library
from functools import cache
from pathlib import Path
from typing import Any, NamedTuple, Self

from .arguments import APPLICATIONS, Numbers, numbers
from .checkpoints import Name
from .errors import ClosedError, DisagreementError, Error, FileError, LibraryMissingError, error_of
from .lines import REPORT, Packet, read_lines, read_packet
from .recording import Item
from .settings import Settings
from .values import module

# The numbers of include/tmx.h.
DONE, MORE = 0, 11
EVENT_PACKET = 1
EVENTS_MOST, CHECKPOINT_MOST, LINE_MOST = 1170, 622710, 320

RECORDS_MOST = 4294967295
STATUSES = {"tmx: too many records": 1, "tmx: out of memory": 3}  # of the program, with other lines than those of status 2
EVENTS_ROOM, OCTETS_ROOM = 8 * EVENTS_MOST, 1 << 20
BESIDE = Path(__file__).resolve().parent / "lib" / "libtmx.so"

# The members of struct tmx_event, `from_` being `from`, how they stand in octets, and their types in numpy.
EventTuple = namedtuple(
    "EventTuple",
    "size seen from_ octets at place application count expected found missing kind channel flags telecommand secondary why",
)
EVENT = struct.Struct("<4IQ6H6B6x")
TYPES = ["<u4"] * 4 + ["<u8"] + ["<u2"] * 6 + ["u1"] * 6
PLACED = struct.Struct("<4xIIIQH10xBB10x")  # of the same: seen, from_, octets, at, place, kind, channel
AT_PLACE, KIND_PLACE = 16, 36


class Refusal(ctypes.Structure):
    """struct tmx_error."""

    _fields_ = [(it, ctypes.c_uint32) for it in ("status", "fault", "key", "column", "row")] + [("line", ctypes.c_char * LINE_MOST)]


class Room(ctypes.Structure):
    """struct tmx_room."""

    _fields_ = [("events", ctypes.c_void_p), ("events_room", ctypes.c_size_t), ("octets", ctypes.c_void_p), ("octets_room", ctypes.c_size_t)]


class Progress(ctypes.Structure):
    """struct tmx_progress."""

    _fields_ = [(it, ctypes.c_uint32) for it in ("status", "records")] + [(it, ctypes.c_size_t) for it in ("used", "events", "octets")]


# The functions that are called: the type of the answer, and those of the words.
JOB, NUMBER, LENGTH, OCTETS = ctypes.c_void_p, ctypes.c_uint32, ctypes.c_size_t, ctypes.c_char_p
CALLS: dict[str, tuple[Any, ...]] = {
    "tmx_job_new": (NUMBER, ctypes.POINTER(JOB), OCTETS, LENGTH, ctypes.POINTER(Refusal)),
    "tmx_job_resume": (NUMBER, ctypes.POINTER(JOB), OCTETS, LENGTH, OCTETS, LENGTH, ctypes.POINTER(Refusal)),
    "tmx_job_only": (NUMBER, JOB, OCTETS, LENGTH),
    "tmx_job_feed": (NUMBER, JOB, ctypes.c_void_p, LENGTH, ctypes.POINTER(Room), ctypes.POINTER(Progress)),
    "tmx_job_end": (NUMBER, JOB, ctypes.POINTER(Room), ctypes.POINTER(Progress)),
    "tmx_job_checkpoint": (NUMBER, JOB, OCTETS, LENGTH, ctypes.POINTER(LENGTH)),
    "tmx_job_record_length": (NUMBER, JOB),
    "tmx_job_records": (NUMBER, JOB),
    "tmx_job_free": (None, JOB),
    "tmx_event_line": (LENGTH, OCTETS, OCTETS, LENGTH),
}


@cache
def load_library(name: str) -> Any:
    """The library that does the work.  Raises LibraryMissingError where it isn't there, or lacks a function."""
    try:
        library = ctypes.CDLL(name)
        for call, (answer, *words) in CALLS.items():
            function = getattr(library, call)
            function.restype, function.argtypes = answer, words
    except (OSError, AttributeError) as error:
        raise LibraryMissingError(f"the library is missing: {error}") from None
    return library


def library_beside() -> Path | None:
    """Where a wheel with the library has it."""
    return BESIDE if BESIDE.exists() else None


class Given(NamedTuple):
    """What a chunk gave: the packets that its records complete, and the report: what is bad or lost, and whole groups."""

    packets: list[Packet]
    report: list[Item]


class Events(NamedTuple):
    """What a chunk gave, in numbers.

    events  a structured array of numpy, or without numpy a list of named tuples: the numbers of `struct tmx_event`, and
            `from_` for its `from`
    octets  those of all packets: a packet's begin at its `at`, and are as many as its `octets`
    """

    events: Any
    octets: bytes


class Job:
    """A job of the library, and the rooms that it fills.  One thread after another may call it."""

    def __init__(self, library: Any, settings: bytes, checkpoint: bytes | None, apids: frozenset[int] | None) -> None:
        """Raises what settings or checkpoint are refused with.  Without a checkpoint it begins with the recording."""
        self.library, self.job, self.lock, refusal = library, ctypes.c_void_p(), threading.Lock(), Refusal()
        words = self.job, settings, len(settings)
        if checkpoint is not None:
            status = library.tmx_job_resume(*words, checkpoint, len(checkpoint), refusal)
        else:
            status = library.tmx_job_new(*words, refusal)
        if status != DONE:
            raise refused(refusal.line.decode())
        if apids is not None:
            library.tmx_job_only(self.job, array("H", apids).tobytes(), len(apids))
        self.record_length: int = library.tmx_job_record_length(self.job)
        self.events, self.octets = (ctypes.create_string_buffer(it) for it in (EVENTS_ROOM * EVENT.size, OCTETS_ROOM))
        self.room = Room(ctypes.addressof(self.events), EVENTS_ROOM, ctypes.addressof(self.octets), OCTETS_ROOM)

    def free(self) -> None:
        """Gives its memory back.  No call but this one may follow."""
        with self.lock:
            self.library.tmx_job_free(self.job)
            self.job = ctypes.c_void_p()

    def __del__(self) -> None:
        self.free()

    def records(self) -> int:
        with self.lock:
            return int(self.library.tmx_job_records(self.job))

    def feed(self, octets: bytes) -> tuple[bytes, bytes]:
        """What the next octets give: events, and octets of packets.  They make no more records than there may be."""
        at = ctypes.cast(ctypes.c_char_p(octets), ctypes.c_void_p).value or 0
        return self.each(lambda used, did: self.library.tmx_job_feed(self.job, at + used, len(octets) - used, self.room, did))

    def end(self) -> tuple[bytes, bytes]:
        """What the end of the recording gives."""
        return self.each(lambda used, did: self.library.tmx_job_end(self.job, self.room, did))

    def each(self, call: Callable[[int, Progress], Any]) -> tuple[bytes, bytes]:
        """What a call gives that is made again while it asks for empty rooms.  It is told how many octets are used."""
        events, octets, used, did, status = bytearray(), bytearray(), 0, Progress(), MORE
        with self.lock:
            while status == MORE:
                status = call(used, did)
                used += did.used
                events += moved(ctypes.string_at(self.events, did.events * EVENT.size), len(octets))
                octets += ctypes.string_at(self.octets, did.octets)
        if status != DONE:
            raise DisagreementError(f"a call of the library ended with status {status}")
        return bytes(events), bytes(octets)

    def checkpoint(self) -> bytes:
        """Raises OutOfMemoryError."""
        room, length = ctypes.create_string_buffer(CHECKPOINT_MOST), ctypes.c_size_t()
        with self.lock:
            status = self.library.tmx_job_checkpoint(self.job, room, CHECKPOINT_MOST, length)
        if status != DONE:
            raise refused("tmx: out of memory")
        return ctypes.string_at(room, length.value)


def moved(events: bytes, begin: int) -> bytes | bytearray:
    """Events whose packets' octets stand behind so many others."""
    if begin == 0:
        return events
    found = bytearray(events)
    words, kinds = memoryview(found).cast("Q"), found[KIND_PLACE :: EVENT.size]
    each = slice(AT_PLACE // 8, None, EVENT.size // 8)
    words[each] = array("Q", [at + begin if kind == EVENT_PACKET else at for at, kind in zip(words[each], kinds)])
    return found


def refused(line: str) -> Error:
    """The error with the program's line, and with its status.  The library knows no file."""
    error = error_of(line, STATUSES.get(line, 2))
    if isinstance(error, FileError):
        error.file = None
    return error


class Engine:
    """A job over a recording that comes in chunks, which the constructor opens.

    settings    the name of a settings file, or Settings
    checkpoint  the octets of a checkpoint to go on from; without one the job begins with the recording
    library     the file of the library; without it the one that TMX_LIBRARY names, else the one beside this package, else
                libtmx.so where the system looks
    apid        the application whose packets are given, or several; None is all.  The report has notes of all

    Raises SettingsError, CheckpointError, FileError, OutOfMemoryError, LibraryMissingError, and OSError where the settings can't
    be read.  A thread that makes one needs 3 MiB of stack: `threading.stack_size(4 << 20)` before the thread starts.

        with tmx.Engine("settings.toml") as engine:
            packets, report = engine.feed(octets)
            packets, report = engine.close()

    `checkpoint` is what the next engine goes on from.  `records` is how many records are done, and `record_length` how many octets
    each has: the next engine is fed from octet `records * record_length` of the recording on.

    `close`, and the end of a `with`, free the job: a later call raises ClosedError.  Any other `Error` that a call raises leaves the
    engine as it was, and any other exception may lose what the call took.  One thread at a time may call it.
    """

    def __init__(
        self, settings: Name | Settings, checkpoint: bytes | None = None, library: Name | None = None, apid: Numbers = None
    ) -> None:
        apids = numbers("apid", apid, APPLICATIONS)
        named = library or os.environ.get("TMX_LIBRARY") or library_beside() or find_library("tmx") or "libtmx.so"
        self.library = load_library(os.fspath(named))
        if isinstance(settings, Settings):
            rules = settings.toml().encode()
        else:
            with open(settings, "rb") as file:
                rules = file.read()
        kept = None if checkpoint is None else b"" + checkpoint  # which may be a bytearray
        self.job: Job | None = Job(self.library, rules, kept, apids)
        self.record_length: int = self.job.record_length
        self.rest = 0  # octets of a record that isn't whole

    def __enter__(self) -> Self:
        return self

    def __exit__(self, *_: object) -> None:
        """Frees the job.  What `close` would give isn't told."""
        self.free()

    @property
    def checkpoint(self) -> bytes:
        return self.opened().checkpoint()

    @property
    def records(self) -> int:
        return self.opened().records()

    def feed(self, octets: bytes) -> Given:
        """The next octets of the recording, any number.  Gives what their whole records give."""
        return self.read(*self.fed(octets))

    def close(self) -> Given:
        """The end of the recording: gives what is reported where it is closed, and frees the job."""
        return self.read(*self.closed())

    def feed_events(self, octets: bytes) -> Events:
        """What `feed` gives, in numbers."""
        return events_of(*self.fed(octets))

    def close_events(self) -> Events:
        """What `close` gives, in numbers."""
        return events_of(*self.closed())

    def opened(self) -> Job:
        """The job.  Raises ClosedError where it was freed."""
        if self.job is None:
            raise ClosedError("the engine is closed: make another one")
        return self.job

    def free(self) -> None:
        if self.job is not None:
            self.job.free()
        self.job = None

    def fed(self, octets: bytes) -> tuple[bytes, bytes]:
        job, octets = self.opened(), b"" + octets  # which may be a bytearray
        records, rest = divmod(self.rest + len(octets), job.record_length)
        if job.records() + records > RECORDS_MOST:
            raise refused("tmx: too many records")
        self.rest = rest
        return job.feed(octets)

    def closed(self) -> tuple[bytes, bytes]:
        given = self.opened().end()
        self.free()
        return given

    def read(self, events: bytes, octets: bytes) -> Given:
        """The packets and the report of these events."""
        packets, lines, line = [], [], ctypes.create_string_buffer(LINE_MOST)
        for number, (seen, from_, length, at, place, kind, channel) in enumerate(PLACED.iter_unpack(events)):
            if kind == EVENT_PACKET:
                packets.append(read_packet((seen, from_, place, channel), octets[at : at + length]))
            elif self.library.tmx_event_line(events[number * EVENT.size : (number + 1) * EVENT.size], line, LINE_MOST):
                lines.append(line.value.decode())
        return Given(packets, list(read_lines("\n".join(lines), REPORT)))


def events_of(events: bytes, octets: bytes) -> Events:
    numpy = module("numpy")
    if numpy is None:
        return Events([*map(EventTuple._make, EVENT.iter_unpack(events))], octets)
    kind = numpy.dtype({"names": EventTuple._fields, "formats": TYPES, "itemsize": EVENT.size})
    return Events(numpy.frombuffer(events, kind), octets)
