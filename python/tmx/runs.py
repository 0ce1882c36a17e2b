"""Runs of the program over one recording: how they are started, fed, read and ended."""

import fcntl
import os
import select
import selectors
import subprocess
import tempfile
import time
from collections import deque
from collections.abc import Callable, Iterator, Sequence
from contextlib import contextmanager, nullcontext, suppress
from dataclasses import dataclass, replace
from types import TracebackType
from typing import IO, Literal, Self

from .errors import DisagreementError, Error, ProgramError, ProgramMissingError, error_of, told, word_behind
from .programs import program
from .progress import SECONDS, Progress, Show, showing
from .settings import Settings, settings_file
from .source import Source, refuse_to_overwrite

BLOCK = 1 << 16  # octets that are read at once
PIPE = 1 << 20  # octets that a pipe holds, where the system lets it
NARROW = 1 << 16  # octets that it holds else


@dataclass(frozen=True)
class Command:
    """What a run is to do.

    words  the words behind the program's name, without the recording
    reads  what is read of it: `out` (standard output), `report`, or nothing but its end
    out    a file for standard output, where that isn't read; without one it is thrown away
    apart  whether signals of the terminal, as that of Ctrl-C, don't reach it
    gets   further descriptors that it gets, as that of a pipe
    """

    words: Sequence[str]
    reads: Literal["out", "report", "end"] = "out"
    out: IO[bytes] | None = None
    apart: bool = False
    gets: Sequence[int] = ()


def widen(pipe: int) -> int:
    """Has a pipe hold much, where the system lets it, so that its two ends seldom wait.  How many octets it holds then."""
    with suppress(AttributeError, OSError):
        return fcntl.fcntl(pipe, fcntl.F_SETPIPE_SZ, PIPE)
    return NARROW


def wide_pipe() -> tuple[int, int]:
    """A pipe that holds much, so that the program goes on while what it gave is read."""
    output, written = os.pipe()
    widen(written)
    return output, written


class Run:
    """One run of the program.  It has a pipe, of which what it gives is read; the pipe ends when the program does."""

    def __init__(self, command: Command, source: Source) -> None:
        """Starts it.  Raises ProgramMissingError where it can't be started, and VersionError where it is another one."""
        self.words = [program().path, *command.words]
        self.at_end = False
        self.explanation = ""  # what it says of a run that went well
        self.place: str | None = None  # where the system tells how much of the recording it has read
        self.errors = tempfile.TemporaryFile()
        self.output, written = wide_pipe()
        if command.reads == "report":
            self.words += ["--report", f"/dev/fd/{written}"]
        out: int | IO[bytes] = written if command.reads == "out" else command.out or subprocess.DEVNULL
        stdin = subprocess.DEVNULL if source.stream is None else subprocess.PIPE
        passed = [*command.gets] if command.reads == "out" else [*command.gets, written]
        self.words += source.words
        try:
            self.process = subprocess.Popen(
                self.words,
                stdin=stdin,
                stdout=out,
                stderr=self.errors,
                pass_fds=passed,
                bufsize=0,
                process_group=0 if command.apart else None,
                env=os.environ | {"TMX_EXPLAIN": "1"},  # it says why
            )
        except BaseException as error:
            os.close(self.output)
            self.errors.close()
            if not isinstance(error, OSError):
                raise
            raise ProgramMissingError(f"the program can't be started: {self.words[0]}: {error.strerror}") from None
        finally:
            os.close(written)
        if self.process.stdin is not None:
            widen(self.process.stdin.fileno())

    def read(self) -> bytes:
        """The next octets that it gives; none at the end."""
        octets = os.read(self.output, BLOCK)
        self.at_end = not octets
        return octets

    def fault(self) -> Error | None:
        """Waits for its end.  The error that it ended with, if any."""
        status = self.process.wait()
        self.errors.seek(0)
        text = self.errors.read().decode(errors="replace")
        if status:
            return error_of(text, status, self.words)
        _, self.explanation = told(text)
        return None

    def place_in(self, recording: str) -> int:
        """How many octets of a file it has read, as far as the system tells; 0 before it begins and when it has ended."""
        process = f"/proc/{self.process.pid}"
        try:
            if self.place is None:
                opened = (it for it in os.listdir(f"{process}/fd") if os.path.samefile(f"{process}/fd/{it}", recording))
                self.place = f"{process}/fdinfo/{next(opened)}"
            with open(self.place) as file:
                return int(file.readline().removeprefix("pos:"))
        except (OSError, StopIteration, ValueError):
            return 0

    def close_input(self) -> None:
        """Tells it that no more comes."""
        if self.process.stdin is not None:
            self.process.stdin.close()

    def close(self) -> None:
        """Ends it if it still runs, and closes what it had."""
        if self.process.poll() is None:
            self.process.kill()
        self.process.wait()
        self.close_input()
        os.close(self.output)
        self.errors.close()


class Runs:
    """Runs of the program that read one recording side by side.

    A file is read by a single run, to its end; it mustn't have fewer octets at the end than at the beginning.  A stream is fed to
    all runs block by block.  What they give meanwhile is kept until it is asked for, so that none of them waits for another.
    """

    def __init__(self, source: Source, commands: Sequence[Command], show: Show | None = None) -> None:
        """Starts them.  `show` is told a few times a second how many octets of the recording were read."""
        self.source = source
        self.show = show
        self.shown, self.next_look = 0, 0.0
        self.runs: list[Run] = []
        self.kept: list[deque[bytes]] = [deque() for _ in commands]
        self.takers: dict[int, Callable[[bytes], None]] = {}  # of runs over a stream whose octets are not kept, but given to these
        self.left: dict[int, memoryview] = {}  # of each run that takes input, what it hasn't yet taken of the block
        self.write: Callable[[int, memoryview], int] = os.write
        self.selector = selectors.DefaultSelector()
        self.part = source.part()  # of a file the octets that have to be there at the end
        source.open()
        try:
            for command in commands:
                self.runs.append(Run(command, source))
        except BaseException:
            self.close()
            raise
        if source.stream is not None:
            self.start_feeding()

    def __enter__(self) -> Self:
        return self

    def __exit__(self, kind: type[BaseException] | None, error: BaseException | None, trace: TracebackType | None) -> None:
        self.close()

    def close(self) -> None:
        """Ends all runs that still go on."""
        for run in self.runs:
            run.close()
        self.selector.close()
        self.source.close()
        if self.part is not None:
            self.part.close()

    def start_feeding(self) -> None:
        """Watches the outputs of all runs, and makes their inputs such that they don't block."""
        for number, run in enumerate(self.runs):
            os.set_blocking(self.input_of(number), False)
            self.left[number] = memoryview(b"")
            self.selector.register(run.output, selectors.EVENT_READ, number)

    def chunk(self, number: int) -> bytes:
        """The next octets that a run gives; none at its end."""
        run = self.runs[number]
        if self.source.stream is None:
            if run.at_end:
                return b""
            self.wait_for(run)
            return run.read()
        while not self.kept[number] and not run.at_end:
            if not self.read_what_is_there():
                self.feed_block()
        return self.kept[number].popleft() if self.kept[number] else b""

    def wait_for(self, run: Run) -> None:
        """Where somebody is to see how far it is, looks again and again until the run gives something."""
        if self.show is not None:
            ready = select.poll()
            ready.register(run.output, select.POLLIN)
            while not ready.poll(1000 * SECONDS):
                self.look()
            self.look()

    def look(self) -> None:
        """Shows how many octets were read: of a file by all runs."""
        if self.show is None or time.monotonic() < self.next_look:
            return
        path = self.source.path
        if self.source.stream is not None:
            self.shown = self.source.fed
        elif path is not None:
            self.shown = max(self.shown, min(run.place_in(path) for run in self.runs))
        self.show(self.shown)
        self.next_look = time.monotonic() + SECONDS

    def read_what_is_there(self) -> bool:
        """Reads what runs have given by now, without waiting; whether there was anything."""
        there = self.selector.select(0)
        for key, _ in there:
            self.read_from(key.data)
        return bool(there)

    def feed_block(self) -> None:
        """Feeds the next block to all runs that take it; at the recording's end reads what they still give."""
        self.give(self.source.read_block() if self.left else b"")
        self.look()
        while not self.have_taken() or not self.left and not self.have_ended():
            self.pass_on()

    def give(self, block: bytes | memoryview) -> None:
        """Has all runs that take input be fed this block, which `pass_on` does; one of no octets ends their inputs."""
        for number in list(self.left):
            if not block:
                self.end_input(number)
                continue
            self.left[number] = memoryview(block)
            self.selector.register(self.input_of(number), selectors.EVENT_WRITE, number)

    def pass_on(self, seconds: float | None = None) -> None:
        """Waits until runs take or give something, for so many seconds at most, and writes and reads what it can.

        What else the selector looks at is read by a function in place of a number.
        """
        for key, events in self.selector.select(seconds):
            if callable(key.data):
                key.data()
            elif events & selectors.EVENT_WRITE:
                self.write_to(key.data)
            else:
                self.read_from(key.data)

    def have_taken(self) -> bool:
        """Whether all runs have the whole block."""
        return not any(map(len, self.left.values()))

    def have_ended(self) -> bool:
        """Whether all runs have given all."""
        return all(run.at_end for run in self.runs)

    def input_of(self, number: int) -> int:
        pipe = self.runs[number].process.stdin
        assert pipe is not None
        return pipe.fileno()

    def end_input(self, number: int) -> None:
        del self.left[number]
        self.runs[number].close_input()

    def write_to(self, number: int) -> None:
        """Writes what the pipe takes of the block.  A program that has ended takes nothing: its status says why."""
        to = self.input_of(number)
        try:
            written = self.write(to, self.left[number])
        except BlockingIOError:
            return
        except BrokenPipeError:
            self.selector.unregister(to)
            self.end_input(number)
            return
        self.left[number] = self.left[number][written:]
        if not self.left[number]:
            self.selector.unregister(to)

    def read_from(self, number: int) -> None:
        run = self.runs[number]
        octets = run.read()
        if octets:
            self.takers.get(number, self.kept[number].append)(octets)
        else:
            self.selector.unregister(run.output)

    def finish(self) -> None:
        """To be called when what is wanted was read.  Raises the error of a run that has ended with a fault.

        Raises DisagreementError where a run gives more than was read, or the file has lost octets since it was opened.
        """
        for run in self.runs:
            if run.at_end and (fault := run.fault()):
                raise fault
        for number, run in enumerate(self.runs):
            if self.chunk(number):
                raise DisagreementError("one run of the program gives more than another: did the recording change?")
            if fault := run.fault():
                raise fault
        if self.part is not None:
            self.part.check()
        if self.show is not None:
            stops = any("--stop-after" in run.words for run in self.runs)
            self.show(self.shown if stops else self.source.octets() or 0)

    def notes(self) -> list[str]:
        """What the program says of runs that went well."""
        return [run.explanation for run in self.runs if run.explanation]


@contextmanager
def running(
    source: Source, settings: str | os.PathLike[str] | Settings, *commands: Command, progress: Progress = False
) -> Iterator[Runs]:
    """Runs of these commands over a recording, side by side, with these settings.  Several read the octets that a file has now.

    Raises FileError where they would write over a recording that has no name for the program, which looks at the others.
    """
    for name in (word_behind(it, command.words) for command in commands for it in ("--report", "--checkpoint")):
        if name is not None and source.path is None:
            refuse_to_overwrite(name, source.file)
    part = source.part() if len(commands) > 1 else None
    source = source if part is None else Source(part)
    with part or nullcontext(), settings_file(settings) as name, showing(progress, source.length()) as show:
        named = [replace(it, words=[*it.words, "--settings", name]) for it in commands]
        try:
            with Runs(source, named, show) as runs:
                yield runs
        except ProgramError as error:
            if isinstance(settings, Settings):
                error.rename(name, None)
            raise


def whole_lines(runs: Runs, number: int) -> Iterator[str]:
    """What a run prints, in pieces that are whole lines."""
    for lines in line_blocks(runs, number):
        yield lines.decode("utf-8", "backslashreplace")


def single_lines(runs: Runs, number: int) -> Iterator[str]:
    """Each line with its end.  At the end the error of a run that ended with a fault is raised."""
    for lines in whole_lines(runs, number):
        yield from lines.splitlines(keepends=True)
    if fault := runs.runs[number].fault():
        raise fault


def line_blocks(runs: Runs, number: int) -> Iterator[bytes]:
    """The same in octets.  A last line that isn't whole comes only of a run with a fault, which is raised."""
    rest = b""
    while octets := runs.chunk(number):
        lines, found, behind = octets.rpartition(b"\n")
        if found:
            yield rest + lines + found
            rest = behind
        else:
            rest += octets
    if rest and (fault := runs.runs[number].fault()):
        raise fault
    if rest:
        raise DisagreementError(f"the last line isn't whole: {rest[:200]!r}")
