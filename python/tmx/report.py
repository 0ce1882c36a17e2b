"""What came of a pass, in numbers: what `python3 -m tmx report` writes as a page or as JSON.

The program counts.  What it doesn't say is told here from its lines: which missing frames were damaged, the counts of an
application's first and last packet, and the longest outages.
"""

import hashlib
import os
import platform
import shutil
import subprocess
import tempfile
from array import array
from bisect import bisect_left
from collections import Counter
from collections.abc import Iterable, Iterator, Mapping
from contextlib import ExitStack, contextmanager
from dataclasses import asdict, dataclass
from heapq import heappush, heappushpop
from typing import Any

from .checkpoints import Name, NewFile
from .damage import Damage, Span, records_of
from .doubts import IDLE, TWICE, Packets, doubts
from .errors import DisagreementError, ProgramError, SettingsError
from .lines import (
    REPORT,
    ApplicationCounts,
    ChannelCounts,
    Dropped,
    Gap,
    MasterCounts,
    RecordingCounts,
    SequenceGap,
    Vca,
    read_lines,
    read_packet_lines,
)
from .loss_map import Columns, Lines, draw, read_report
from .loss_times import Measured, MeasuredTimes, NoTimes, Receipt, ReceiptTimes, Times, utc
from .notes import settings_of
from .programs import VERSION, program
from .recording import Recording
from .runs import Command, line_blocks, running
from .settings import Settings
from .source import BLOCK, Part, Source, refuse_to_overwrite
from .summary import Summary

MOST_LINES, MOST_OUTAGES = 200, 20  # that a page shows
DOUBTFUL = 8192  # from so many packets on a gap may be packets that came twice, or not in order


@dataclass(frozen=True)
class Asked:
    """What is said beside the numbers.  With `report` all lines of the program's report go to this file."""

    title: str | None = None
    station: str | None = None
    pass_: str | None = None
    report: Name | None = None
    times: Receipt | Measured | None = None


# Numbers.  The names are the keys of the JSON, but for the `_` of `pass_`.


@dataclass(frozen=True)
class RecordingPart:
    """The recording: its name, None of standard input, its octets and their sum, its records, and the bad ones by their faults."""

    name: str | None
    octets: int
    sha256: str
    counts: RecordingCounts
    faults: dict[str, int]


@dataclass(frozen=True)
class FramePart:
    """Frames of all channels.

    expected  good frames, and those that are missing by the master channel's counts; None where there are doubts
    doubts    why these counts don't tell how many frames are missing; nothing where they do
    damaged   of the missing ones those whose records came; the others were `never_received`
    unplaced  bad records that aren't among these
    twice     gaps of 255 frames
    """

    expected: int | None
    percent: float | None
    doubts: list[str]
    master: MasterCounts
    damaged: int
    never_received: int
    unplaced: int
    twice: int


@dataclass(frozen=True)
class OctetPart:
    """The octets of data fields of the chosen channels: those in whole packets and those that are lost make up the data."""

    data: int
    octets: int
    lost: int
    percent: float | None
    adds_up: bool


@dataclass(frozen=True)
class ChannelPart:
    """A channel: what the program counts, and the same as above of this channel.  `reasons` has the octets lost by each.

    `is_wrapped` says whether its own count can't tell how many frames are missing, by the packets that are.
    """

    counts: ChannelCounts
    expected: int | None
    percent: float | None
    is_wrapped: bool
    damaged: Span
    never_received: Span
    twice: int
    octets: OctetPart
    reasons: dict[str, int]


@dataclass(frozen=True)
class ApplicationPart:
    """An application of a channel: what the program counts, the packets expected, and the counts of the first and last one.

    doubtful  gaps of 8192 packets or more
    """

    counts: ApplicationCounts
    expected: int | None
    percent: float | None
    first_count: int
    last_count: int
    doubtful: int


@dataclass(frozen=True)
class Outage:
    """A gap of a channel: its good frames before and behind it, what is missing between, the octets that this cost, and times."""

    channel: int
    before: int
    record: int
    missing: int
    damaged: Span
    never_received: Span
    octets: int
    begin: str | None
    end: str | None


@dataclass(frozen=True)
class TimePart:
    """What the times are, and those of the first and the last record."""

    said: str
    first: str | None
    last: str | None


@dataclass(frozen=True)
class ReportPart:
    """The program's report: how many lines, the file that has all, and the first lines with their times."""

    lines: int
    file: str | None
    first: list[tuple[str | None, str]]


@dataclass(frozen=True)
class Findings:
    """All that is said of a pass."""

    title: str
    station: str | None
    pass_: str | None
    recording: RecordingPart
    settings: dict[str, Any]
    versions: dict[str, str]
    frames: FramePart
    octets: OctetPart
    channels: list[ChannelPart]
    applications: list[ApplicationPart]
    outages: list[Outage]
    times: TimePart | None
    report: ReportPart

    def json(self) -> dict[str, Any]:
        """The same as an object of JSON."""
        return {name.rstrip("_"): value for name, value in asdict(self).items()}


def percent(part: int, whole: int | None) -> float | None:
    """Rounded down, so that 100 is all; None where the whole is nothing, or isn't known."""
    return part * 10000 // whole / 100 if whole else None


# The counts of the first and the last packet of each application.

Applications = Mapping[tuple[int, int], ApplicationCounts]
Ends = dict[tuple[int, int], tuple[int, int]]


def record_at(block: bytes, line: int) -> int:
    """The record of the line of a packet that begins here."""
    begin = line + len(b"packet record=")
    return int(block[begin : block.index(b" ", begin)])


def ends_of(blocks: Iterable[bytes], applications: Applications) -> Ends:
    """By the lines of `tmx packets`, which come by rising record.

    A block is passed over that has none of the records in which these packets end.  Raises DisagreementError.
    """
    records = array("Q", sorted(it for counts in applications.values() for it in (counts.first, counts.last)))
    first: dict[tuple[int, int], tuple[int, int]] = {}
    last: dict[tuple[int, int], tuple[int, int]] = {}
    for block in blocks:
        at = bisect_left(records, record_at(block, 0))
        if at == len(records) or records[at] > record_at(block, block.rfind(b"\n", 0, -1) + 1):
            continue
        for record, channel, _, _, _, _, apid, _, count, _ in read_packet_lines(block.decode("ascii")):
            last[int(channel), int(apid)] = int(record), int(count)
            first.setdefault((int(channel), int(apid)), (int(record), int(count)))
    if any(it not in first or (first[it][0], last[it][0]) != (said.first, said.last) for it, said in applications.items()):
        raise DisagreementError("the summary and the list of packets disagree: did the recording change?")
    return {it: (first[it][1], last[it][1]) for it in applications}


# The report: its first lines, and the longest outages.


@dataclass(order=True)
class Hole:
    """A gap of a channel, and the octets that it has cost so far.  Greater is longer, and of equals the earlier one."""

    missing: int
    octets: int
    ahead: int  # the record, negative
    channel: int


class Losses:
    """What the lines of a report say of gaps."""

    def __init__(self) -> None:
        self.lines = 0
        self.first: list[str] = []
        self.longest: list[Hole] = []  # a heap
        self.open: dict[int, Hole] = {}  # of each channel the last gap, as long as its parts may come
        self.twice: Counter[int] = Counter()
        self.doubtful: Counter[tuple[int, int]] = Counter()

    def watch(self, lines: Iterable[str]) -> Iterator[str]:
        """The lines of a report, which are looked at when they are taken."""
        for line in lines:
            self.lines += 1
            if len(self.first) < MOST_LINES:
                self.first.append(line.rstrip("\n"))
            if line.startswith(("gap ", "drop ", "vca ", "seqgap ")):
                self.look(next(read_lines(line, REPORT)))
            yield line
        for channel in list(self.open):
            self.close(channel)

    def look(self, item: Any) -> None:
        hole = self.open.get(item.channel)
        if isinstance(item, SequenceGap):
            self.doubtful[item.channel, item.apid] += item.missing >= DOUBTFUL
        elif isinstance(item, Gap):
            self.close(item.channel)
            self.twice[item.channel] += item.missing == TWICE
            self.open[item.channel] = Hole(item.missing, 0, -item.record, item.channel)
        elif isinstance(item, Dropped) and item.reason in ("gap", "no-start"):
            if hole is not None:
                hole.octets += item.octets
        elif not (isinstance(item, Vca) and hole is not None and hole.ahead == -item.record):
            self.close(item.channel)  # what is dropped now was lost otherwise

    def close(self, channel: int) -> None:
        """Keeps a gap if it is one of the longest."""
        if (hole := self.open.pop(channel, None)) is not None:
            (heappush if len(self.longest) < MOST_OUTAGES else heappushpop)(self.longest, hole)

    def outages(self) -> list[Hole]:
        """The longest first."""
        return sorted(self.longest, reverse=True)


def line_record(line: str) -> int:
    """The record of a line of a report."""
    return int(line.split(" record=")[1].split(" ")[0])


# Reading.


@dataclass(frozen=True)
class Reading:
    """What the program says of a recording, and what its lines tell."""

    summary: Summary
    damage: Damage
    ends: Ends
    losses: Losses
    svg: str
    doubts: list[str]  # of the master channel's count
    wrapped: set[int]  # the channels whose own counts miss too few frames for the packets that are missing

    def last(self) -> int:
        """The last record."""
        return max(0, self.summary.recording.records - 1)

    def shown(self) -> Iterator[int]:
        """The records whose times are shown."""
        yield from (0, self.last())
        yield from map(line_record, self.losses.first)
        for hole in self.losses.outages():
            yield from (self.damage.before(-hole.ahead), -hole.ahead)


@contextmanager
def regular_file(given: Name) -> Iterator[str]:
    """The name of a file that can be read again: of the one that is given, or of a copy of a stream, which is there for so long."""
    source = Source(given)
    if not source.is_stream:
        yield os.fspath(given)
        return
    with tempfile.NamedTemporaryFile(prefix="tmx-") as file:
        source.open_stream()
        try:
            while block := source.read_block():
                file.write(block)
        finally:
            source.close()
        file.flush()
        try:
            yield file.name
        except ProgramError as error:
            error.rename(file.name, None)
            raise


def read_recording(recording: Recording, settings: Settings, summary: Summary, report: str) -> Reading:
    """Runs the program over a recording, once and once more, so that nothing is kept of one run while the other is read.

    Its report goes to a file.
    """
    with running(recording.source, recording.settings, Command(["frames"]), progress=True) as runs:
        records = records_of(line_blocks(runs, 0))
        runs.finish()
    with running(recording.source, recording.settings, Command(["packets", "--report", report]), progress=True) as runs:
        packets = Packets(summary, settings)
        ends = ends_of(packets.watch(line_blocks(runs, 0)), summary.applications)
        runs.finish()
    losses, columns = Losses(), Columns(len(records))
    with open(report, encoding="ascii") as file:
        svg = draw(records, columns, read_report(Lines("the report", losses.watch(file)), records, columns), "What was lost")
    damage = Damage(records)
    found = doubts(damage, packets, settings.error_control)
    damage.has_doubts = bool(found)
    return Reading(summary, damage, ends, losses, svg, found, packets.too_many_on(packets.shortest))


def part_of(path: str, settings: Name) -> Part:
    """The octets that a recording has now.  Raises what the program says where it can't be read."""
    if (part := Source(path).part()) is None:
        Recording(path, settings).counts()
        part = Part(path)
    return part


def sha256_of(part: Part) -> str:
    """The sum of all octets of a part.  Raises DisagreementError where some are gone."""
    found = hashlib.sha256()
    part.seek(0)
    while octets := part.read(BLOCK):
        found.update(octets)
    return found.hexdigest()


def versions() -> dict[str, str]:
    """Those of the program, with the sum of the logic that proved it, of the package and of Python."""
    said = subprocess.run([program().path, "--version"], capture_output=True, text=True, check=True).stdout
    words = dict(line.split(" ", 1) for line in said.splitlines())
    return words | {"package": VERSION, "python": platform.python_version()}


# Parts of what is found.


def recording_part(summary: Summary, name: str | None, part: Part, record_length: int) -> RecordingPart:
    """Raises DisagreementError where the file had other octets than were counted, or has lost some."""
    counts = summary.recording
    if part.octets != counts.records * record_length + counts.rest:
        raise DisagreementError("the summary and the file disagree: did the recording change?")
    return RecordingPart(name, part.octets, sha256_of(part), counts, summary.faults)


def frame_part(reading: Reading) -> FramePart:
    counts, master, damaged = reading.summary.recording, reading.summary.master, reading.damage.of_master()
    twice, expected = reading.damage.records.master_missing.count(TWICE), None if reading.doubts else counts.good + master.missing
    good, never_received = percent(counts.good, expected), master.missing - damaged
    return FramePart(expected, good, reading.doubts, master, damaged, never_received, counts.bad - damaged, twice)


def octet_part(reading: Reading, *channels: ChannelCounts) -> OctetPart:
    data, octets, lost = (sum(getattr(it, key) for it in channels) for key in ("data", "octets", "lost"))
    share = percent(octets, None if reading.doubts else data)
    return OctetPart(data, octets, lost, share, all(it.data == it.octets + it.lost for it in channels))


def channel_parts(reading: Reading) -> Iterator[ChannelPart]:
    damage = reading.damage.of_channels()
    for channel, it in reading.summary.channels.items():
        damaged, twice = damage.get(channel, Span()), reading.losses.twice[channel]
        is_wrapped = channel in reading.wrapped
        expected = None if reading.doubts or is_wrapped or twice else it.frames + it.missing
        reasons = {loss.reason: loss.octets for loss in reading.summary.losses.values() if loss.channel == channel}
        shares = expected, percent(it.frames, expected), is_wrapped
        yield ChannelPart(it, *shares, damaged, damaged.left_of(it.missing), twice, octet_part(reading, it), reasons)


def application_parts(reading: Reading) -> Iterator[ApplicationPart]:
    for key, it in reading.summary.applications.items():
        first, last = reading.ends[key]
        doubtful = reading.losses.doubtful[key]
        expected = None if it.apid == IDLE or doubtful or reading.doubts else it.packets + it.missing
        yield ApplicationPart(it, expected, percent(it.packets, expected), first, last, doubtful)


def outages_of(reading: Reading, times: Times) -> Iterator[Outage]:
    for it in reading.losses.outages():
        before, damaged = reading.damage.before(-it.ahead), reading.damage.of_gap(-it.ahead)
        span = utc(times.before(before)), utc(times.after(-it.ahead))
        yield Outage(it.channel, before, -it.ahead, it.missing, damaged, damaged.left_of(it.missing), it.octets, *span)


def report_part(losses: Losses, file: Name | None, times: Times) -> ReportPart:
    first = [(utc(times.before(line_record(it))), it) for it in losses.first]
    return ReportPart(losses.lines, None if file is None else os.fspath(file), first)


def find(given: str, settings_file: str, asked: Asked) -> tuple[Findings, str]:
    """What is said of a recording, `-` being standard input, and the map of its losses.  All that is read are the octets it has now.

    Raises what the program refuses, SettingsError for TOML 1.1, TimeError, DisagreementError and OSError.
    """
    if asked.report is not None:
        definition = asked.times.definition if isinstance(asked.times, Measured) else None
        refuse_to_overwrite(asked.report, Source(given).file, settings_file, definition)
    with ExitStack() as files:
        path, rules = (files.enter_context(regular_file(it)) for it in (given, settings_file))
        part = files.enter_context(part_of(path, rules))
        recording = Recording(part, rules)
        summary, settings = recording.summary(), settings_of(rules)
        if settings is None:
            why = f"the settings {settings_file}: Python reads TOML 1.0 alone"
            raise SettingsError("tmx: settings: toml", 2, "toml", why, settings_file)
        times: Times = NoTimes()
        if isinstance(asked.times, Receipt):
            times = ReceiptTimes(path, settings, asked.times, part.octets)
        kept = None if asked.report is None else files.enter_context(NewFile(asked.report)).file
        report = files.enter_context(tempfile.NamedTemporaryFile())
        reading = read_recording(recording, settings, summary, report.name)
        if isinstance(asked.times, Measured):
            times = MeasuredTimes(recording, asked.times, reading.shown())
        if kept is not None:
            shutil.copyfileobj(report, kept)
        whole = recording_part(summary, None if given == "-" else given, part, settings.record_length)
        found = findings_of(asked, whole, {"file": settings_file} | asdict(settings), reading, times)
        part.check()
    return found, reading.svg


def findings_of(asked: Asked, recording: RecordingPart, settings: dict[str, Any], reading: Reading, times: Times) -> Findings:
    known = TimePart(times.said, utc(times.after(0)), utc(times.before(reading.last()))) if times.said else None
    return Findings(
        asked.title or os.path.basename(recording.name or "A pass"),
        asked.station,
        asked.pass_,
        recording,
        settings,
        versions(),
        frame_part(reading),
        octet_part(reading, *reading.summary.channels.values()),
        list(channel_parts(reading)),
        list(application_parts(reading)),
        list(outages_of(reading, times)),
        known,
        report_part(reading.losses, asked.report, times),
    )
