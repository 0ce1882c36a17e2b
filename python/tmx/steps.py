"""Jobs that stop and go on: packets in steps, and packets of a recording that grows."""

import os
import tempfile
import time
from collections.abc import Iterator, Sequence
from dataclasses import dataclass, replace
from itertools import chain
from pathlib import Path

from .arguments import RECORDS, Number, number
from .checkpoints import CutBackError, Name, NewFile, records_done
from .errors import DisagreementError, RunError
from .lines import Packet, keep_parts, new_packet
from .notes import warn_of_nothing
from .packets import Chosen, Missing, PacketArray, array_of, blocks_of
from .progress import Progress
from .runs import Command, Runs, running
from .settings import Settings
from .source import Source, refuse_to_overwrite


def report_words(report: Name | None) -> list[str]:
    """The words that say where the report goes; without a file it is thrown away."""
    return ["--report", os.devnull if report is None else os.fspath(report)]


def step_words(checkpoint: Name | None, resume: Name | None, stop_after: Number | None) -> list[str]:
    """The words of a job that is kept, goes on, or stops early.  Raises what `number` does."""
    words: list[str] = []
    if checkpoint is not None:
        words += ["--checkpoint", os.fspath(checkpoint)]
    if resume is not None:
        words += ["--resume", os.fspath(resume)]
    if stop_after is not None:
        words += ["--stop-after", str(number("stop_after", stop_after, RECORDS))]
    return words


def reads_all(words: Sequence[str]) -> bool:
    """Whether a run by these words reads the whole recording."""
    return not {"--resume", "--stop-after"} & set(words)


@dataclass(frozen=True)
class Job:
    """Packets of a recording, from where a job goes on to where it stops.

    report      a file that the report goes to
    checkpoint  the file in which the job is kept at its end; without one the recording is closed there
    resume      the checkpoint from which it goes on
    stop_after  how many further records it reads
    progress    whether it shows how far it is, or what is told
    is_whole    whether it reads the whole recording, and so warns of what didn't come
    """

    source: Source
    settings: Name | Settings
    chosen: Chosen
    report: Name | None = None
    checkpoint: Name | None = None
    resume: Name | None = None
    stop_after: int | None = None
    progress: Progress = False
    is_whole: bool = False

    def packets(self) -> Iterator[Packet]:
        """The packets; with `checkpoint` the job is kept when the last one was given.

        Raises FileError where `checkpoint` is another file of the job.
        """
        return self.run() if self.checkpoint is None else self.run_to(self.checkpoint)

    def run_to(self, checkpoint: Name) -> Iterator[Packet]:
        refuse_to_overwrite(checkpoint, self.source.file, self.settings, self.report)
        with NewFile(checkpoint) as new, tempfile.TemporaryDirectory() as folder:
            kept = Path(folder, "checkpoint")
            yield from self.run(kept)
            new.file.write(kept.read_bytes())

    def run(self, kept: Path | None = None) -> Iterator[Packet]:
        """The packets; the program keeps the job in a file."""
        missing = Missing(self.chosen)
        with running(self.source, self.settings, self.command(kept), progress=self.progress) as runs:
            for parts in chain.from_iterable(blocks_of(runs, missing)):
                packet = new_packet(Packet)  # here and not in a list, which Python's collector would go through
                keep_parts(packet, parts)
                yield packet
            runs.finish()
        self.warn(runs, missing)

    def array(self) -> PacketArray:
        """The packets in an array."""
        missing = Missing(self.chosen)
        with running(self.source, self.settings, self.command(), progress=self.progress) as runs:
            found = array_of(runs, missing)
        self.warn(runs, missing)
        return found

    def command(self, kept: Path | None = None) -> Command:
        return Command(["packets", "--binary", *report_words(self.report), *step_words(kept, self.resume, self.stop_after)])

    def warn(self, runs: Runs, missing: Missing) -> None:
        """Warns of what didn't come."""
        if self.is_whole and not warn_of_nothing(runs, self.settings):
            missing.warn(self.source)

    def records_there(self, length: int) -> int | None:
        """How many whole records of this length the file has now behind those that are done; less than none where it is too short.

        None where a file is missing, or the checkpoint is none: the program says so.
        """
        try:
            done = 0 if self.resume is None else records_done(self.resume)
            return os.path.getsize(self.source.given) // length - done
        except (OSError, CutBackError):
            return None


def record_length(settings: Name | Settings) -> int:
    """The octets of a record.  Raises SettingsError where the program refuses the settings."""
    with running(Source(os.devnull), settings, Command(["frames"])) as runs:
        runs.finish()
    return (settings if isinstance(settings, Settings) else Settings.read(settings)).record_length


def follow(job: Job, interval: float, timeout: float | None) -> Iterator[Packet]:
    """The packets of a recording as it grows, in steps.  A file is looked at again after so many seconds.

    Ends at the end of a stream, or when a file hasn't grown for `timeout` seconds.  The job is kept.
    """
    with tempfile.TemporaryDirectory() as folder:
        kept = Path(folder, "checkpoint") if job.checkpoint is None else Path(job.checkpoint)
        job = replace(job, checkpoint=kept)
        if job.source.is_stream:
            yield from follow_stream(job, Path(folder, "part"))
        else:
            yield from follow_file(job, interval, timeout)


def next_step(job: Job) -> Job:
    """The job, going on from what it kept."""
    assert job.checkpoint is not None
    return replace(job, resume=job.checkpoint if os.path.exists(job.checkpoint) else None)


def follow_file(job: Job, interval: float, timeout: float | None) -> Iterator[Packet]:
    """A step whenever the file has another length and a record is there that isn't done.  Raises DisagreementError where it shrinks."""
    record = record_length(job.settings)
    grown, length = time.monotonic(), -1
    while True:
        length, before = os.path.getsize(job.source.given), length
        if length < before:
            raise DisagreementError(f"{job.source.given} had {before} octets, and has {length}: the file was cut while it was followed")
        step = next_step(job)
        if length != before and step.records_there(record) != 0:
            yield from step.packets()
            grown = time.monotonic()
        elif timeout is not None and time.monotonic() - grown >= timeout:
            return
        else:
            time.sleep(interval if timeout is None else min(interval, timeout))


def follow_stream(job: Job, part: Path) -> Iterator[Packet]:
    """Each step has a file of its own: a hole for the records that are done, which are passed over, and those that came."""
    length = record_length(job.settings)
    step = next_step(job)
    done = 0 if step.resume is None else records_done(step.resume)
    skip, rest = done * length, b""
    job.source.open()
    try:
        while block := job.source.read_block():
            passed = min(skip, len(block))
            skip, rest = skip - passed, rest + block[passed:]
            records = len(rest) // length
            if records:
                write_part(part, done * length, rest[: records * length])
                yield from replace(next_step(job), source=Source(part)).packets()
                done, rest = done + records, rest[records * length :]
        if skip:
            word, why = "recording is shorter than the checkpoint", f"it has fewer than the {done} records that are done"
            raise RunError(f"tmx: {word}", 1, word, why)
    finally:
        job.source.close()


def write_part(part: Path, hole: int, octets: bytes) -> None:
    """A file with these octets behind so many that are not written."""
    with open(part, "wb") as file:
        file.seek(hole)
        file.write(octets)
