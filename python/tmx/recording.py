"""A recording: what the program gives of it, as Python values."""

import os
import re
from collections.abc import Iterator, Mapping, Sequence
from contextlib import ExitStack
from itertools import combinations
from typing import IO, Any, overload

from .arguments import APPLICATIONS, CHANNELS, RECORDS, Number, Numbers, number, numbers, seconds
from .checkpoints import Name, NewFile
from .errors import ProgramMissingError, RunError
from .fields import Fields, Table, read_tables, time_of
from .groups import JoinedGroup, groups
from .lines import (
    FRAMES,
    REPORT,
    SUMMARY,
    Bad,
    Broken,
    Dropped,
    Frame,
    Gap,
    Group,
    MasterGap,
    Packet,
    SequenceGap,
    Short,
    ShortPacket,
    Stray,
    Vca,
    read_lines,
)
from .loss_map import Lines, LossMap, drawing
from .notes import numbered, settings_of, warn, warn_of_nothing
from .packets import Chosen, PacketArray, chosen
from .programs import find_program
from .progress import Progress
from .rests import Rests
from .runs import Command, running, single_lines, whole_lines
from .settings import Settings
from .several import Read, side_by_side
from .skipped import array_of, skipped, table_of
from .source import Source, Stream, refuse_to_overwrite
from .steps import Job, follow, reads_all, report_words, step_words
from .summary import Summary, summary_of
from .times import Epoch
from .values import encoding_of, module

Item = Bad | MasterGap | Gap | Vca | Dropped | Short | SequenceGap | Broken | Group | Stray | ShortPacket


class Recording:
    """A recording of TM transfer frames, and the settings by which it is read.

    recording  the name of a file, `-` for standard input, or a binary stream.  A stream that can't go back is read once
    settings   the name of a settings file, or Settings

    Nothing is read before it is asked for.  Each call runs the program `tmx`.  Whatever the program refuses is raised as an
    error of this package, with its line, its status and its word.  So is a run that fails on its way: an iterator then raises at
    its end, and what it gave before stands.  A file that has fewer octets at the end of a call than at its beginning raises a
    DisagreementError.  Where no frame is good, or nothing of a chosen channel or application comes, a TmxWarning says so.

    With `progress=True` a call shows how many octets it has read, at a terminal and in a notebook alone: as a bar of `tqdm` where
    that is there, else as a line.  A function is told the octets that were read, and how many there are, or None.
    """

    def __init__(self, recording: Name | Stream, settings: Name | Settings) -> None:
        self.source = Source(recording)
        self.settings = settings

    def __repr__(self) -> str:
        try:
            said = f"program {find_program().path}"
        except ProgramMissingError:
            said = "no program"
        return f"<Recording {self.source!r}, settings {self.settings!r}, {said}>"

    def frames(self, *, progress: Progress = False) -> Iterator[Frame | Bad | Short]:
        """Each record of any channel, as a frame or as a bad one, and last the octets that are left, if there are any."""
        with running(self.source, self.settings, Command(["frames"]), progress=progress) as runs:
            came = False
            for text in whole_lines(runs, 0):
                came = came or re.search("^frame ", text, re.MULTILINE) is not None
                yield from read_lines(text, FRAMES)
            runs.finish()
        warn_of_nothing(runs, self.settings, came)

    def packets(
        self,
        apid: Numbers = None,
        channel: Numbers = None,
        *,
        report: Name | None = None,
        checkpoint: Name | None = None,
        resume: Name | None = None,
        stop_after: Number | None = None,
        progress: Progress = False,
    ) -> Iterator[Packet]:
        """The packets that lie whole in runs of good frames, one by one, in the order of the records that complete them.

        apid, channel  the applications and channels that are wanted, one number or several, as an array; None is all
        report         a file that the report goes to
        checkpoint     a file in which the job is kept where the recording ends, which is not closed then.  It is written when
                       the last packet was given: a job that is ended earlier goes on from the checkpoint before
        resume         the checkpoint from which the job goes on
        stop_after     how many further records are read, with `checkpoint`

        One block of packets is held in memory.
        """
        stop = None if stop_after is None else number("stop_after", stop_after, RECORDS)
        is_whole = resume is None and stop is None
        job = Job(self.source, self.settings, chosen(apid, channel), report, checkpoint, resume, stop, progress, is_whole)
        return job.packets()

    def packets_array(
        self, apid: Numbers = None, channel: Numbers = None, *, report: Name | None = None, progress: Progress = False
    ) -> PacketArray:
        """The same packets at once: their values as an array of numpy, and the octets of all.

        Raises ImportError where numpy isn't there.
        """
        return Job(self.source, self.settings, chosen(apid, channel), report, progress=progress, is_whole=True).array()

    def groups(
        self, apid: Numbers = None, channel: Numbers = None, *, secondary_header: Number = 0, progress: Progress = False
    ) -> Iterator[JoinedGroup | Broken | Stray]:
        """The user data of each whole group of segments, and what is in no whole group, in the order of the report.

        apid, channel     the applications and channels that are wanted, one number or several; None is all
        secondary_header  how many octets are taken off the data of each packet whose header says that it has a secondary header;
                          with 0 it is left in

        A JoinedGroup has the joined data.  Broken says which group isn't whole, and why, and Stray which segment is in none.
        Only the segments of open groups are held.  Raises DisagreementError where the recording changes meanwhile.
        """
        return groups(self.source, self.settings, apid, channel, secondary_header, progress)

    def follow(
        self,
        apid: Numbers = None,
        channel: Numbers = None,
        *,
        checkpoint: Name | None = None,
        interval: float = 1.0,
        timeout: float | None = None,
    ) -> Iterator[Packet]:
        """The packets of a recording that grows, as they come.

        apid, channel  the applications and channels that are wanted, one number or several; None is all
        checkpoint     a file in which the job is kept after each step.  Where it is there, the job goes on from it
        interval       after how many seconds a file is looked at again
        timeout        after how many seconds without a new record of a file it ends; None is never

        A stream is followed to its end, and read from its beginning, also where a job goes on.  The recording is not closed.
        """
        job = Job(self.source, self.settings, chosen(apid, channel), checkpoint=checkpoint)
        return follow(job, seconds("interval", interval), timeout)

    def report(self, *, progress: Progress = False) -> list[Item]:
        """What is bad or lost, and whole groups, in the program's order."""
        with running(self.source, self.settings, Command(["extract"], reads="report"), progress=progress) as runs:
            found = [it for text in whole_lines(runs, 0) for it in read_lines(text, REPORT)]
            runs.finish()
        warn_of_nothing(runs, self.settings)
        return found

    def summary(self, *, progress: Progress = False) -> Summary:
        """What came of each channel and application, and what was lost, in numbers."""
        found, settings = self.counts(progress), settings_of(self.settings)
        missing = {it for it in settings.channels if it not in found.channels} if settings and settings.channels else set()
        if not found.recording.good:
            warn(found.reason_for_nothing(), self.source)
        elif missing:
            warn(f"no good frame of {numbered('channel', missing)}, which the settings choose", self.source)
        return found

    def counts(self, progress: Progress = False) -> Summary:
        """The same without a warning."""
        with running(self.source, self.settings, Command(["summary"]), progress=progress) as runs:
            found = [it for text in whole_lines(runs, 0) for it in read_lines(text, SUMMARY)]
            runs.finish()
        return summary_of(found)

    @overload
    def fields(
        self,
        definition: Name,
        apid: Number,
        *,
        channel: Numbers = None,
        time: str | Sequence[str] | None = None,
        epoch: Epoch | None = None,
        encoding: str | None = None,
        errors: str = "strict",
        arrays: Mapping[str, Any] | None = None,
        rest: str | None = None,
        report: Name | None = None,
        checkpoint: Name | None = None,
        resume: Name | None = None,
        stop_after: Number | None = None,
        progress: Progress = False,
        blocks: None = None,
    ) -> Fields: ...

    @overload
    def fields(
        self,
        definition: Name,
        apid: Number,
        *,
        channel: Numbers = None,
        time: str | Sequence[str] | None = None,
        epoch: Epoch | None = None,
        encoding: str | None = None,
        errors: str = "strict",
        arrays: Mapping[str, Any] | None = None,
        rest: str | None = None,
        report: Name | None = None,
        checkpoint: Name | None = None,
        resume: Name | None = None,
        stop_after: Number | None = None,
        progress: Progress = False,
        blocks: Number,
    ) -> Iterator[Fields]: ...

    def fields(
        self,
        definition: Name,
        apid: Number,
        *,
        channel: Numbers = None,
        time: str | Sequence[str] | None = None,
        epoch: Epoch | None = None,
        encoding: str | None = None,
        errors: str = "strict",
        arrays: Mapping[str, Any] | None = None,
        rest: str | None = None,
        report: Name | None = None,
        checkpoint: Name | None = None,
        resume: Name | None = None,
        stop_after: Number | None = None,
        progress: Progress = False,
        blocks: Number | None = None,
    ) -> Fields | Iterator[Fields]:
        """The fields of an application's packets, as a table of columns by name.

        definition  the name of a definition, a CSV file as docs/FORMATS.md has it
        apid        the application, 0 to 2047
        channel     the channels whose packets have rows, one number or several; None is all
        time        the column of the seconds, or the columns of the seconds and of their binary fraction: the table has a time
                    for each row then.  One that is out of range is NaT, and `bad_times` counts these
        epoch       the time of second 0, as "2000-01-01", a datetime, numpy.datetime64 or pandas.Timestamp, or `TAI`, `GPS`, `J2000`
                    or `UNIX`; needed with `time`
        encoding    of `str` fields: they are text in this encoding, and `bytes` without it
        errors      what becomes of octets that aren't in the encoding, as `bytes.decode` has it
        arrays      for columns of `str` of what they are arrays: a type of numpy, as ">u2", or `uint12` and `int12` of so many bits,
                    one behind another.  The column is a two-dimensional array then; without numpy a list of tuples
        rest        the name of a column for the octets behind the last field, as many as each packet has
        blocks      how many rows a table has: tables come one by one then, two in memory.  The last has `short_count`, and the
                    first hundred `short_packets`

        The other words are those of `packets`, but the program writes `checkpoint`.  Raises DefinitionError, ColumnError, and
        UnicodeDecodeError, which names column and row, where a text isn't in the encoding.
        """
        single, channels = number("apid", apid, APPLICATIONS), numbers("channel", channel, CHANNELS)
        step = step_words(checkpoint, resume, stop_after)
        if rest is not None and step:
            raise ValueError("`rest` goes without `checkpoint`, `resume` and `stop_after`")
        read = encoding_of(encoding, errors, arrays or ()), time_of(time, epoch), report, step
        more = arrays or {}, None if rest is None else Rests(rest, Chosen(frozenset({single}), channels))
        table = Table(definition, single, channels, *read, *more)
        rows = None if blocks is None else number("blocks", blocks, RECORDS)
        tables = read_tables(table, self.source, self.settings, rows, progress)
        return next(tables) if rows is None else tables

    def tables(
        self,
        definitions: Mapping[int, Name],
        *,
        channel: Numbers = None,
        time: str | Sequence[str] | None = None,
        epoch: Epoch | None = None,
        encoding: str | None = None,
        errors: str = "strict",
        arrays: Mapping[int, Mapping[str, Any]] | None = None,
        rest: Mapping[int, str] | None = None,
        report: Mapping[int, Name] | None = None,
        progress: Progress = False,
    ) -> dict[int, Fields]:
        """The fields of several applications, by their numbers: a table for each definition.  A stream is read once.

        `arrays`, `rest` and `report` are those of `fields` by application, and the other words those of `fields`, for all tables.
        Raises what `fields` does, and ValueError where an application has no definition.
        """
        if not hasattr(definitions, "items"):
            raise TypeError(f"`tables` takes a definition for each application, and not {definitions!r}")
        wanted = {number("apid", apid, APPLICATIONS): definition for apid, definition in definitions.items()}
        how: dict[str, Any] = {"channel": channel, "time": time, "epoch": epoch, "encoding": encoding, "errors": errors}
        single: dict[str, Mapping[int, Any]] = {"arrays": arrays or {}, "rest": rest or {}, "report": report or {}}
        if others := {apid for it in single.values() for apid in it} - set(wanted):
            raise ValueError(f"{numbered('application', others)} without a definition")
        for one, other in combinations((*single["report"].values(), self.source.file), 2):
            refuse_to_overwrite(one, other)

        def reader(apid: int) -> Read:
            """Reads the table of an application.  The first one shows how far it is."""
            shown = progress if apid == next(iter(wanted)) else False

            def read(given: IO[bytes] | None) -> Fields:
                recording = self if given is None else Recording(given, self.settings)
                own = {word: it[apid] for word, it in single.items() if apid in it}
                table: Fields = recording.fields(wanted[apid], apid, progress=shown, **how, **own)
                return table

            return read

        return dict(zip(wanted, side_by_side(self.source, [reader(it) for it in wanted])))

    @overload
    def skipped(self, *, blocks: None = None, progress: Progress = False) -> Fields: ...

    @overload
    def skipped(self, *, blocks: Number, progress: Progress = False) -> Iterator[Fields]: ...

    def skipped(self, *, blocks: Number | None = None, progress: Progress = False) -> Fields | Iterator[Fields]:
        """The octets of each record `before` and `after` its frame, as a table with a row for each record, good or bad.

        blocks  how many rows a table has: tables come one by one then, in constant memory

        Octets behind the last whole record are left out.  Raises SettingsError, OSError, and what reading a stream raises.
        """
        rows = None if blocks is None else number("blocks", blocks, RECORDS)
        tables = skipped(self.source, self.settings, rows, progress, table_of)
        return next(tables) if rows is None else tables

    def skipped_array(self, *, blocks: Number | None = None, progress: Progress = False) -> Any:
        """The same as an array of numpy with the columns `before` and `after`, which are octets; with `blocks` arrays one by one.

        Raises ImportError where numpy isn't there.
        """
        if module("numpy") is None:
            raise ImportError("numpy is not there: `skipped` gives a table")
        rows = None if blocks is None else number("blocks", blocks, RECORDS)
        arrays = skipped(self.source, self.settings, rows, progress, array_of)
        return next(arrays) if rows is None else arrays

    def loss_map(self, title: str = "What was lost", *, progress: Progress = False) -> LossMap:
        """A picture of where, on which channel and why something was lost: one SVG, which a notebook shows.

        It has the same size whatever the recording's length, and the figures on hover.
        """
        frames, report = Command(["frames"]), Command(["extract"], reads="report")
        with running(self.source, self.settings, frames, report, progress=progress) as runs:
            svg = drawing(Lines("frames", single_lines(runs, 0)), Lines("report", single_lines(runs, 1)), title)
            runs.finish()
        warn_of_nothing(runs, self.settings)
        return LossMap(svg)

    def extract(
        self,
        path: Name,
        *,
        report: Name | None = None,
        checkpoint: Name | None = None,
        resume: Name | None = None,
        stop_after: Number | None = None,
        progress: Progress = False,
    ) -> None:
        """Writes the octets of all packets to a file, nothing between them.  With `resume` they are appended.

        Until all are there, they go to another file beside it.  The other words are those of `packets`.  Raises OSError where
        there can be no file, and FileError where it is the recording, its settings, its report or a checkpoint.
        """
        refuse_to_overwrite(path, self.source.file, self.settings, report, checkpoint, resume)
        if checkpoint is not None:
            refuse_to_overwrite(checkpoint, self.source.file, self.settings, report)
        with ExitStack() as files:
            kept = None if checkpoint is None else files.enter_context(NewFile(checkpoint)).path
            out = files.enter_context(NewFile(path, resume is not None))
            words = report_words(report) + step_words(kept, resume, stop_after)
            try:
                self.run(Command(["extract", *words], "end", out.file), progress)
            except RunError as error:
                if error.word == "write failed":
                    error.rename("standard output", os.fspath(path))
                raise

    def split(
        self,
        folder: Name,
        *,
        report: Name | None = None,
        checkpoint: Name | None = None,
        resume: Name | None = None,
        stop_after: Number | None = None,
        progress: Progress = False,
    ) -> None:
        """Writes the octets of all packets to a file for each application: `apid-0101.pkt` and so on in the folder.

        The folder is made where it isn't there; files of other applications stay.  The other words are those of `extract`, but
        the program writes `checkpoint`.
        """
        words = report_words(report) + step_words(checkpoint, resume, stop_after)
        os.makedirs(folder, exist_ok=True)
        for apid in APPLICATIONS if self.source.path is None else ():  # the program compares files with names
            refuse_to_overwrite(os.path.join(folder, f"apid-{apid:04}.pkt"), self.source.file)
        self.run(Command(["split", "--dir", os.fspath(folder), *words], "end"), progress)

    def run(self, command: Command, progress: Progress) -> None:
        """A run of the program whose output is not read."""
        with running(self.source, self.settings, command, progress=progress) as runs:
            runs.finish()
        if reads_all(command.words):
            warn_of_nothing(runs, self.settings)
