"""A recording that is watched while it comes: the program reads it as far as it has come, and its lines are counted."""

import io
import os
import select
import selectors
import signal
import stat
import sys
import time
from collections import deque
from collections.abc import Callable, Iterator
from contextlib import ExitStack, closing, contextmanager, suppress
from dataclasses import dataclass
from mmap import mmap
from types import FrameType, TracebackType
from typing import IO, Any, Protocol, Self

from .checkpoints import Name
from .errors import DisagreementError, Error, RunError
from .lines import SUMMARY, read_lines
from .notes import settings_of
from .runs import PIPE, Command, Runs, running, wide_pipe, widen
from .source import Source, refuse_to_overwrite
from .steps import record_length
from .summary import Summary, summary_of
from .totals import Heads, Rates, Totals

BLOCK = 1 << 20  # octets that are read at once
PAUSE = 0.05  # seconds until it looks again whether something has come
COUNTING = 0.25  # seconds until it counts again
MANY = 1 << 16  # packets that are counted before
PIECE = 1 << 16  # octets of the report that are read at once
FASTEST = 2.5e7  # octets a second that a pipe takes in spite of these pauses
REST = 1 << 22  # octets that are still read when it is to end, if they are there by then


class ReplacedError(Error):
    """The file of a recording shrank, or another one has its name."""


class Ring:
    """Memory from which pipes get octets without a copy.  What a pipe may still hold, PIPE octets at most, isn't written over."""

    def __init__(self) -> None:
        self.file = os.memfd_create("tmx")
        os.ftruncate(self.file, PIPE + 2 * BLOCK)
        self.octets = memoryview(mmap(self.file, 0))
        self.end = 0  # of the block that was read last

    def read(self, descriptor: int) -> memoryview:
        """What os.read does, with a block.  All pipes have to have the one before."""
        begin = self.end if self.end + BLOCK <= len(self.octets) else 0
        self.end = begin + os.readv(descriptor, [self.octets[begin : begin + BLOCK]])
        return self.octets[begin : self.end]

    def write(self, pipe: int, left: memoryview) -> int:
        """What os.write does, with what is left of the block that was read last."""
        return os.splice(self.file, pipe, len(left), offset_src=self.end - len(left), flags=os.SPLICE_F_NONBLOCK)  # type: ignore

    def close(self) -> None:
        os.close(self.file)


class Coming:
    """The octets of a recording as they come: of a file that grows and may not be there yet, of a pipe, or of standard input."""

    def __init__(self, name: str) -> None:
        self.name = name
        self.ring = Ring()
        self.descriptor: int | None = None
        self.grows = False
        self.octets = 0  # that were read
        self.pause = PAUSE
        self.ready = select.poll()

    def open(self) -> bool:
        """Opens it where it is there.  Whether it is open.  Raises OSError."""
        if self.descriptor is None:
            try:
                self.descriptor = 0 if self.name == "-" else os.open(self.name, os.O_RDONLY | os.O_NONBLOCK)
            except FileNotFoundError:
                return False
            kind = os.fstat(self.descriptor).st_mode
            self.grows = stat.S_ISREG(kind) and self.name != "-"
            self.ready.register(self.descriptor, select.POLLIN)
            if stat.S_ISFIFO(kind):
                self.pause = min(PAUSE, widen(self.descriptor) / FASTEST)
        return True

    def read(self) -> memoryview | None:
        """What is there now, a block of it at most; None at its end.  Raises OSError, and ReplacedError."""
        if not self.open() or not self.ready.poll(0):
            return memoryview(b"")
        assert self.descriptor is not None
        try:
            octets = self.ring.read(self.descriptor)
        except OSError as error:
            raise OSError(error.errno, error.strerror, self.name) from None
        self.octets += len(octets)
        if not octets and self.grows:
            self.check()
        return octets if octets or self.grows else None

    def check(self) -> None:
        """Raises ReplacedError where the file shrank, or another one has its name.  It may have lost its name."""
        assert self.descriptor is not None
        here = os.fstat(self.descriptor)
        if here.st_size < self.octets:
            raise ReplacedError(f"{self.name} has {here.st_size} octets, and {self.octets} were read: it was cut or written anew")
        try:
            there = os.stat(self.name)
        except FileNotFoundError:
            return
        if not os.path.samestat(here, there):
            raise ReplacedError(f"{self.name} is another file than the one that was read: it was replaced")

    def close(self) -> None:
        self.ring.close()
        if self.descriptor:
            os.close(self.descriptor)


FRAMES, PACKETS, SUMS = range(3)  # the runs of a pass; where packets are kept there is one more

Handler = Callable[[int, FrameType | None], Any] | int | None


class WholeLines:
    """Lines that come in pieces."""

    def __init__(self) -> None:
        self.rest = b""

    def add(self, pieces: deque[bytes]) -> bytes:
        """The lines that are whole with these pieces, which are taken away."""
        octets = b"".join([self.rest, *pieces])
        pieces.clear()
        end = octets.rfind(b"\n") + 1
        self.rest = octets[end:]
        return octets[:end]


class ReportPipe:
    """A pipe through which a run gives its report, beside its packets.

    input   the end that the run gets
    kept    what was read
    at_end  whether that is all
    """

    def __init__(self) -> None:
        self.output, self.input = wide_pipe()
        self.kept: deque[bytes] = deque()
        self.at_end = False

    def begin(self, runs: Runs) -> None:
        """To be called when the run has its end.  What comes is read while runs pass on what they have."""
        os.close(self.input)
        self.input = -1
        self.selector = runs.selector
        self.selector.register(self.output, selectors.EVENT_READ, self.read)

    def read(self) -> None:
        """Reads what is there, a piece of it at most."""
        if octets := os.read(self.output, PIECE):
            self.kept.append(octets)
        else:
            self.at_end = True
            self.selector.unregister(self.output)

    def close(self) -> None:
        os.close(self.output)
        if self.input >= 0:
            os.close(self.input)


class Pass:
    """A recording that is read while it comes.

    at_end  whether no more can be read, and `error` why, where that isn't its end
    """

    def __init__(self, coming: Coming, runs: Runs, reporting: ReportPipe, totals: Totals, report: IO[bytes] | None) -> None:
        """`report` is the file that the report goes to, if there is one."""
        self.coming, self.runs, self.reporting, self.totals, self.report = coming, runs, reporting, totals, report
        self.frames, self.heads, self.reported = WholeLines(), Heads(), WholeLines()
        runs.write = coming.ring.write
        self.rates = Rates()
        self.rates.add(time.monotonic(), 0, 0)
        self.next_read = self.next_count = 0.0
        self.at_end = False
        self.error: Error | OSError | None = None

    def step(self, until: float) -> None:
        """Reads what has come, if the programs have all that came before, and what they give.  May wait until then."""
        now = time.monotonic()
        if now >= self.next_read and self.runs.have_taken():
            self.take(now)
        wake = self.next_read if self.next_read > now else now + PAUSE
        self.pass_on(max(0.0, min(until, wake) - now))
        self.check()

    def take(self, now: float) -> None:
        """Reads a block and gives it to the programs.  Where less was there, it is looked again a little later."""
        block = self.read()
        if block:
            self.runs.give(block)
        if block is not None and len(block) < BLOCK:
            self.next_read = now + self.coming.pause

    def read(self) -> memoryview | None:
        """The next octets; None at the end, also of a recording that can't be read on."""
        try:
            block = self.coming.read()
        except (ReplacedError, OSError) as error:
            block, self.error = None, error
        self.at_end = block is None
        return block

    def check(self) -> None:
        """Raises the error of a run that has ended before its recording."""
        for run in self.runs.runs:
            if run.at_end:
                raise run.fault() or DisagreementError("a run of the program has ended before its recording")

    def pass_on(self, seconds: float | None = None) -> None:
        """What Runs does by this name.  What they give is counted where it is much, and a little later where it is less."""
        self.runs.pass_on(seconds)
        packets = self.runs.kept[PACKETS]
        while packets:
            self.heads.add(packets.popleft())
        if time.monotonic() >= self.next_count or len(self.heads.found) >= MANY:
            self.count()

    def count(self) -> None:
        """Counts the lines that came."""
        now = time.monotonic()
        self.next_count = now + COUNTING
        if lines := self.frames.add(self.runs.kept[FRAMES]):
            self.totals.add_frames(lines, now)
        self.totals.add_packets(self.heads, now)
        if lines := self.reported.add(self.reporting.kept):
            self.totals.add_report(lines, clock())
            if self.report is not None:
                write(self.report, lines)
        self.rates.add(now, self.totals.records, self.coming.octets)

    def finish(self) -> Summary:
        """Reads what is there by now, closes the recording, and counts what the programs give then.  Its summary."""
        most = self.coming.octets + REST
        self.wait_until_taken()
        while not self.at_end and self.coming.octets < most and (block := self.read()):
            self.runs.give(block)
            self.wait_until_taken()
        self.runs.give(b"")
        while not (self.runs.have_ended() and self.reporting.at_end):
            self.pass_on()
        self.count()
        sums = WholeLines().add(self.runs.kept[SUMS]).decode()
        self.runs.finish()
        return summary_of(list(read_lines(sums, SUMMARY)))

    def wait_until_taken(self) -> None:
        """Until the programs have what was read."""
        while not self.runs.have_taken():
            self.pass_on()


def write(file: IO[bytes], octets: bytes) -> None:
    """Writes all octets to an unbuffered file.  Raises OSError, which names it."""
    rest = memoryview(octets)
    try:
        while rest:
            rest = rest[file.write(rest) :]
    except OSError as error:
        raise OSError(error.errno, error.strerror, file.name) from None


def clock() -> str:
    """The time of the day, in UTC."""
    return time.strftime("%FT%TZ", time.gmtime())


class Ending:
    """SIGINT, SIGTERM and SIGHUP, the first of which ends a pass in order.  One that is ignored stays so."""

    def __init__(self) -> None:
        self.came = False
        self.before: dict[int, Handler] = {}

    def __enter__(self) -> Self:
        for number in (signal.SIGINT, signal.SIGTERM, signal.SIGHUP):
            if signal.getsignal(number) != signal.SIG_IGN:
                self.before[number] = signal.signal(number, self.take)
        return self

    def take(self, number: int, frame: FrameType | None) -> None:
        """The next one does what it did before."""
        self.came = True
        self.restore()

    def restore(self) -> None:
        for number, handler in self.before.items():
            signal.signal(number, handler)

    def __exit__(self, kind: type[BaseException] | None, error: BaseException | None, trace: TracebackType | None) -> None:
        self.restore()


@dataclass(frozen=True)
class Wanted:
    """What is watched, and what is kept.

    recording  the name of a file, which may not be there yet, or `-` for standard input
    settings   the name of its settings
    every      after how many seconds it is shown again
    out        a file for the packets' octets
    report     a file for the report
    """

    recording: str
    settings: Name
    every: float = 1.0
    out: Name | None = None
    report: Name | None = None


class Shown(Protocol):
    """What shows a pass to somebody."""

    is_open: bool  # whether there is still somebody

    def show(self, watched: Pass) -> None: ...


def watch(wanted: Wanted, shown: Shown) -> tuple[Summary, Error | OSError | None]:
    """Watches a recording until it ends, a signal comes, or nobody looks any more.

    The summary of what came, and why the recording couldn't be read on, if it couldn't.  The programs get all that was read, and
    end by themselves, so that what they write is whole.  Raises what they refuse.
    """
    with Ending() as ending, passing(wanted) as watched:
        if not watched.coming.open():
            print(f"tmx watch: {wanted.recording} isn't there yet", file=sys.stderr)
        next_look = time.monotonic()
        while not (watched.at_end or ending.came) and shown.is_open:
            watched.step(next_look)
            if time.monotonic() >= next_look:
                watched.count()
                shown.show(watched)
                next_look = max(next_look + wanted.every, time.monotonic())
        summary = watched.finish()
        shown.show(watched)
    return summary, watched.error


@contextmanager
def passing(wanted: Wanted) -> Iterator[Pass]:
    """A pass with its programs and its files.  Nothing is emptied before the settings are taken."""
    record_length(wanted.settings)
    recording: Name | int = 0 if wanted.recording == "-" else wanted.recording
    chosen = settings_of(wanted.settings)
    totals = Totals(frozenset(chosen.channels) if chosen and chosen.channels else None)
    with ExitStack() as files:
        out, report = (
            None if it is None else files.enter_context(written(it, recording, wanted.settings, other))
            for it, other in ((wanted.out, None), (wanted.report, wanted.out))
        )
        coming, reporting = files.enter_context(closing(Coming(wanted.recording))), files.enter_context(closing(ReportPipe()))
        try:
            with running(Source(io.BytesIO()), wanted.settings, *commands(reporting.input, out)) as runs:
                reporting.begin(runs)
                yield Pass(coming, runs, reporting, totals, report)
        except RunError as error:
            if error.word == "write failed" and wanted.out is not None:
                error.rename("standard output", os.fspath(wanted.out))
            raise


def commands(report: int, out: IO[bytes] | None) -> list[Command]:
    """The runs of a pass, in the order of their numbers.  The report goes to a pipe, packets to a file where there is one."""
    packets = ["packets", "--binary", "--report", f"/dev/fd/{report}"]
    found = [Command(["frames"], apart=True), Command(packets, apart=True, gets=[report]), Command(["summary"], apart=True)]
    if out is not None:
        found.append(Command(["extract", "--report", os.devnull], "end", out, apart=True))
    return found


def written(path: Name, *others: object) -> IO[bytes]:
    """A file that is emptied and written.  Raises OSError, and FileError where it is one of the others."""
    refuse_to_overwrite(path, *others)
    return open(path, "wb", buffering=0)
