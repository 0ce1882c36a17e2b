"""Draws what was lost of a recording: where, on which channel, and why.  One SVG that stands alone.

    python3 -m tmx map [--title TEXT] --settings SETTINGS RECORDING > map.svg

or, of what the program has printed,

    tmx frames --settings SETTINGS RECORDING > frames.txt
    tmx extract --settings SETTINGS --report report.txt RECORDING > packets.pkt
    python3 -m tmx map [--title TEXT] frames.txt report.txt > map.svg

Either of the two files may be `-`, which is standard input.  The report may be that of any command.

From left to right are the records.  From above to below come, for each channel that has a good frame,

  - the parts that were dropped, as bars: how high says how many octets, the colour says for which reason;
  - a band of its frames.  It is white where no frame of this channel is.

and below all channels the bad frames, and the gaps of the master channel, as bars of so many frames.  The highest bar of
each row bears its number.

Nothing is known of a bad frame, not even its channel.  It stands in the band of each channel that misses frames around
it: that of the good frames before and after it which have a gap between them.  It may be one of those.  On hover all its
marks light up, and each says in which other bands it stands.  `Missing` stands at the first good frame behind the gap.  All
else stands at the record that the report names.

A long recording has several records in a column.  A band's column then shows the worst of them: missing frames, else a
bad one, else a VCA frame, else a good one, else an idle one.  A browser shows the figures on hover.

Lines that are not of `tmx`, and a report that isn't the whole one of this recording, are refused with a line that names
file and line.  The status is 1 then, and nothing is written to standard output.
"""

import math
import os
import re
from array import array
from base64 import b64encode
from collections import Counter, defaultdict
from collections.abc import Collection, Iterable, Iterator, Mapping, Sequence
from functools import partial
from html import escape
from typing import NoReturn

from .errors import Error

# What the lines say.

FAULTS = ("crc", "version", "spacecraft", "secondary-flag", "ocf-flag", "secondary-version", "layout", "pointer")
KINDS = ("packets", "nostart", "idle", "vca")

# Reasons and their colours, those of Okabe and Ito, which the colour-blind tell apart.
REASONS = {
    "gap": "#d55e00",
    "no-start": "#e69f00",
    "pointer": "#0072b2",
    "version": "#009e73",
    "length": "#cc79a7",
    "vca": "#56b4e9",
    "end": "#000000",
}

FRAME_LINES = {
    "frame": "record channel master count kind place secondary ocf order segment octets",
    "bad": "record fault",
    "short": "record octets",
}
REPORT_LINES = {
    "bad": "record fault",
    "mastergap": "record expected found missing",
    "gap": "record channel expected found missing",
    "vca": "record channel",
    "drop": "record channel from at octets reason",
    "short": "record octets",
    "seqgap": "record channel apid expected found missing",
    "broken": "record channel apid first last reason",
    "group": "record channel apid first last",
    "stray": "record channel apid count flag",
    "shortpacket": "record channel from at needed found",
}
LONGEST_LINE = 400  # more than any line has
NUMBER = "0|[1-9][0-9]{0,9}"
COUNT = "[1-9]?[0-9]|1[0-9][0-9]|2[0-4][0-9]|25[0-5]"
VALUES = {
    "channel": "[0-7]",
    "frame count": COUNT,
    "frame master": COUNT,
    "kind": "|".join(KINDS),
    "place": f"-|{NUMBER}",
    "ocf": "yes|no",
    "fault": "|".join(FAULTS),
    "flag": "continuation|last",
    "drop reason": "|".join(REASONS),
    "broken reason": "gap|first|unsegmented|end",
}


def patterns(lines: Mapping[str, str]) -> dict[str, re.Pattern[str]]:
    """For each first word of a line a pattern of what follows it, with a group for each value."""
    found = {}
    for word, keys in lines.items():
        values = ((key, VALUES.get(f"{word} {key}") or VALUES.get(key, NUMBER)) for key in keys.split())
        found[word] = re.compile(" ".join(f"{key}=(?P<{key}>{value})" for key, value in values) + "\n")
    return found


class LossMapError(Error):
    """What can't be read or drawn.  The text is the line that says so."""


class Lines:
    """Lines with their ends, the number of the line that was read last, and how to refuse it."""

    def __init__(self, name: str, lines: Iterable[str]) -> None:
        self.name = name
        self.lines = lines
        self.number = 0

    def read(self, forms: Mapping[str, str], what: str) -> Iterator[tuple[str, re.Match[str]]]:
        """Each line as its first word and its values."""
        known = patterns(forms)
        for line in self.lines:
            self.number += 1
            if line.startswith("  "):  # what the program says of the run, where the report is its standard error
                continue
            word, _, rest = line.partition(" ")
            said = known[word].fullmatch(rest) if word in known else None
            if said is None:
                self.refuse(f"no line of {what}")
            yield word, said

    def refuse(self, why: str) -> NoReturn:
        raise LossMapError(f"{self.name}, line {self.number}: {why}")


def lines_of_file(name: str) -> Lines:
    """The lines of a file; `-` is standard input.  Raises LossMapError where it can't be read."""
    said = "standard input" if name == "-" else name
    return Lines(said, file_lines(name, said))


def file_lines(name: str, said: str) -> Iterator[str]:
    """Of a line that is too long only its beginning, so that it finds room."""
    try:
        with open(0 if name == "-" else name, encoding="ascii", errors="replace") as file:
            yield from iter(partial(file.readline, LONGEST_LINE), "")
    except OSError as error:
        raise LossMapError(f"{said}: {error.strerror}") from None


# The recording.

GOOD, IDLE, VCA, BAD, MISSING = STATES = ("good", "idle", "vca", "bad", "missing")
STATE_OF_KIND = {"packets": GOOD, "nostart": GOOD, "idle": IDLE, "vca": VCA}
WORST_FIRST = (MISSING, BAD, VCA, GOOD, IDLE)
NO_CHANNEL = 8  # of a bad frame
MASTER = "master"
TWICE = "twice"  # a gap of 255 frames, which may be one frame that was recorded twice


class Records:
    """What `tmx frames` says.  Of each record an octet in each of four lists, so that long recordings find room."""

    def __init__(self) -> None:
        self.channels = bytearray()  # NO_CHANNEL where the frame is bad
        self.kinds = bytearray()  # a place in STATES, of a bad frame one in FAULTS
        self.missing = bytearray()  # how many frames of the channel are missing before this one
        self.master_missing = bytearray()  # the same of the master channel
        self.rest = 0  # the octets that are left at the end
        self.bad = array("I")  # the records of bad frames
        self.suspects: defaultdict[int, array[int]] = defaultdict(partial(array, "I"))  # of each channel the bad ones that may be its own
        self.last_counts: dict[int | str, int] = {}
        self.bad_before: dict[int, int] = {}  # of each channel how many bad frames there were at its last good one

    def __len__(self) -> int:
        return len(self.kinds)

    def add_bad(self, fault: str) -> None:
        self.bad.append(len(self))
        self.channels.append(NO_CHANNEL)
        self.missing.append(0)
        self.master_missing.append(0)
        self.kinds.append(FAULTS.index(fault))

    def add_good(self, channel: int, kind: str, count: int, master: int) -> None:
        missing = self.step(channel, count)
        if missing:
            self.suspects[channel] += self.bad[self.bad_before[channel] :]
        self.bad_before[channel] = len(self.bad)
        self.channels.append(channel)
        self.missing.append(missing)
        self.master_missing.append(self.step(MASTER, master))
        self.kinds.append(STATES.index(STATE_OF_KIND[kind]))

    def step(self, name: int | str, count: int) -> int:
        """How many frames are missing before this count."""
        missing = (count - self.last_counts.get(name, count - 1) - 1) % 256
        self.last_counts[name] = count
        return missing


def read_frames(source: Lines) -> Records:
    recording, ended = Records(), False
    for word, said in source.read(FRAME_LINES, "`tmx frames`"):
        if int(said["record"]) != len(recording) or ended:
            source.refuse(f"record {said['record']} is not the next one")
        if word == "frame":
            recording.add_good(int(said["channel"]), said["kind"], int(said["count"]), int(said["master"]))
        elif word == "bad":
            recording.add_bad(said["fault"])
        else:
            recording.rest, ended = int(said["octets"]), True
    return recording


# The columns of the picture.

MOST_COLUMNS = 400
Tallies = defaultdict[tuple[int, int], Counter[str]]  # by channel and column
Shared = defaultdict[tuple[int, int], set[int]]  # by channel and column


class Columns:
    """So many records are in each column, but fewer in the last."""

    def __init__(self, records: int) -> None:
        self.records = records
        self.each = max(1, -(-records // MOST_COLUMNS))
        self.number = -(-records // self.each)

    def of(self, record: int) -> int:
        """The column of a record.  What is known at the recording's end stands in its last column."""
        return min(record, self.records - 1) // self.each

    def ends(self, column: int) -> tuple[int, int]:
        """The first record of the column, and that behind its last."""
        return column * self.each, min((column + 1) * self.each, self.records)


def tally_frames(recording: Records, columns: Columns) -> Tallies:
    """For each channel and column how many frames are in each state; for NO_CHANNEL how many have each fault."""
    tallies: Tallies = defaultdict(Counter)
    for column in range(columns.number):
        first, end = columns.ends(column)
        here = zip(recording.channels[first:end], recording.kinds[first:end])
        for (channel, kind), number in Counter(here).items():
            words = FAULTS if channel == NO_CHANNEL else STATES
            tallies[channel, column][words[kind]] += number
    for record, missing in enumerate(recording.missing):
        if missing:
            tally = tallies[recording.channels[record], columns.of(record)]
            tally[MISSING] += missing
            tally[TWICE] += missing == 255
    for channel, records in recording.suspects.items():
        for record in records:
            tallies[channel, columns.of(record)][BAD] += 1
    return tallies


def shared_suspects(recording: Records, columns: Columns) -> Shared:
    """For each channel and column the other channels in whose bands a bad frame of this band stands too."""
    channels: defaultdict[int, list[int]] = defaultdict(list)
    for channel, records in recording.suspects.items():
        for record in records:
            channels[record].append(channel)
    shared: Shared = defaultdict(set)
    for record, found in channels.items():
        for channel in found:
            shared[channel, columns.of(record)].update(it for it in found if it != channel)
    return shared


class Report:
    """What the report says, by column."""

    def __init__(self) -> None:
        self.dropped: Tallies = defaultdict(Counter)  # for each channel and column, octets by reason
        self.parts: Counter[tuple[int, int]] = Counter()  # for each channel and column, how many parts
        self.master_gaps: defaultdict[int, list[int]] = defaultdict(list)  # for each column, how many are missing in each gap


def check_line(source: Lines, word: str, said: re.Match[str], recording: Records) -> None:
    """Refuses a line that doesn't agree with the frames."""
    record = int(said["record"])
    at_end = word == "short" or said.groupdict().get("reason") == "end"
    if record >= len(recording) + at_end:
        source.refuse(f"the frames have no record {record}")
    agrees = True
    if word == "bad":
        agrees = recording.channels[record] == NO_CHANNEL and FAULTS[recording.kinds[record]] == said["fault"]
    elif word == "mastergap":
        agrees = recording.master_missing[record] == int(said["missing"])
    elif word == "gap":
        agrees = (recording.channels[record], recording.missing[record]) == (int(said["channel"]), int(said["missing"]))
    elif word == "vca":
        agrees = (recording.channels[record], recording.kinds[record]) == (int(said["channel"]), STATES.index(VCA))
    elif word == "drop" and not at_end:
        agrees = recording.channels[record] == int(said["channel"])
    elif word == "drop":
        agrees = int(said["channel"]) in recording.last_counts
    if not agrees:
        source.refuse(f"the frames say otherwise of record {record}")


class Order:
    """The order of a report's lines."""

    ONCE = ("bad", "mastergap", "gap", "vca", "short")  # of these a record has one at most

    def __init__(self) -> None:
        self.last = 0  # the record of the line before
        self.last_of: dict[str, int] = {}  # the same by word, for those above
        self.lines: Counter[str] = Counter()

    def take(self, source: Lines, word: str, record: int) -> None:
        """Refuses a line of a record that is done, and a second one of a word that comes once."""
        if record < self.last:
            source.refuse(f"record {record} stands behind record {self.last}")
        if self.last_of.get(word) == record:
            source.refuse(f"a second `{word}` of record {record}")
        if word in self.ONCE:
            self.last_of[word] = record
        self.last = record
        self.lines[word] += 1

    def end(self, source: Lines, recording: Records) -> None:
        """Refuses a report that lacks lines of the frames.

        Behind a checkpoint of an older version one gap of the master channel isn't known.
        """
        source.number += 1
        gaps = sum(map(bool, recording.master_missing))
        for word, there, least in (("bad", len(recording.bad), len(recording.bad)), ("mastergap", gaps, gaps - 1)):
            if self.lines[word] < least:
                source.refuse(f"the report ends with {self.lines[word]} of {there} `{word}` lines")


def read_report(source: Lines, recording: Records, columns: Columns) -> Report:
    report, order = Report(), Order()
    for word, said in source.read(REPORT_LINES, "a report"):
        check_line(source, word, said, recording)
        order.take(source, word, int(said["record"]))
        column = columns.of(int(said["record"]))
        if word == "drop":
            place = int(said["channel"]), column
            report.dropped[place][said["reason"]] += int(said["octets"])
            report.parts[place] += 1
        elif word == "mastergap":
            report.master_gaps[column].append(int(said["missing"]))
    order.end(source, recording)
    return report


# Texts.


def figure(number: int) -> str:
    return f"{number:,}"


def counted(number: int, word: str) -> str:
    return f"{figure(number)} {word}{'' if number == 1 else 's'}"


def where(columns: Columns, column: int, last: int | None = None) -> str:
    """The records of a column, or of all columns from one to another."""
    first, end = columns.ends(column)[0], columns.ends(column if last is None else last)[1]
    return f"record {figure(first)}" if end - first == 1 else f"records {figure(first)} to {figure(end - 1)}"


def listed(channels: Iterable[int], word: str) -> str:
    """Numbers of channels, with a word before the last of several."""
    *others, last = [str(it) for it in sorted(channels)]
    return f"{', '.join(others)} {word} {last}" if others else last


def bands_text(channels: Collection[int]) -> str:
    """The other bands in which a bad frame stands."""
    if not channels:
        return ""
    many = "s" * (len(channels) > 1)
    return f" (also in the band{many} of channel{many} {listed(channels, 'and')})"


def frames_text(tally: Counter[str], others: Collection[int]) -> str:
    """What is in a band; `others` are the channels in whose bands its bad frames stand too."""
    bad = f"bad, of no known channel{bands_text(others)}"
    words = {GOOD: "good", IDLE: "idle", VCA: "with a VCA_SDU", BAD: bad, MISSING: "missing"}
    said = [f"{figure(tally[state])} {words[state]}" for state in STATES if tally[state]]
    note = f" ({counted(tally[TWICE], 'gap')} of 255: perhaps a frame recorded twice)" if tally[TWICE] else ""
    return ", ".join(said) + note


def dropped_text(parts: int, octets: Counter[str]) -> str:
    reasons = ", ".join(f"{counted(number, 'octet')} by {reason}" for reason, number in octets.most_common())
    return f"{counted(parts, 'part')} dropped: {reasons}"


# Drawing.

LEFT, PLOT, RIGHT = 204, 800, 38
BAR, BAND, BETWEEN, APART = 26, 18, 20, 4  # heights; the last stands between the bars of a channel and its band
LEAST_BAR, LEAST_PART = 3, 1.5
LETTER = 6.6  # the width of a small letter, at the most
STATE_COLOURS = {GOOD: "#8fbbdb", IDLE: "#8a8e92", VCA: "#f0e442", BAD: "#000000", MISSING: "#a50026"}
NONE_WORDS = "no frame of this channel here"  # of white
STATE_WORDS = {
    GOOD: "good",
    IDLE: "idle",
    VCA: "VCA",
    BAD: "bad, perhaps of this channel",
    MISSING: "missing before here",
}
STYLE = """
text { font: 12px "DejaVu Sans", Verdana, Arial, sans-serif; fill: #222 }
.head { font-size: 16px; font-weight: bold }
.name { font-weight: bold }
.small { font-size: 11px; fill: #555 }
.middle { text-anchor: middle }
.end { text-anchor: end }
.line { stroke: #999; stroke-width: 1 }
.grid { stroke: #e8e8e8; stroke-width: 1 }
.frame { fill: #fff; stroke: #bbb; stroke-width: 1 }
g:hover > rect, rect.hover:hover { stroke: #1f5fff; stroke-width: 2 }
"""


def spelled(words: str) -> str:
    """Words as XML has them.  Letters that it doesn't know become question marks."""
    return escape(re.sub("[^\t\n\r -\ud7ff\ue000-\ufffd\U00010000-\U0010ffff]", "?", words))


def text(x: float, y: float, words: str, kind: str = "") -> str:
    return f'<text class="{kind}" x="{x:.6g}" y="{y:.6g}">{spelled(words)}</text>'


def line(kind: str, x1: float, y1: float, x2: float, y2: float) -> str:
    return f'<line class="{kind}" x1="{x1:.6g}" y1="{y1:.6g}" x2="{x2:.6g}" y2="{y2:.6g}"/>'


def rectangle(kind: str, x: float, y: float, width: float, height: float, title: str = "") -> str:
    box = f'<rect class="{kind}" x="{x:.6g}" y="{y:.6g}" width="{width:.6g}" height="{height:.6g}"'
    return f"{box}><title>{spelled(title)}</title></rect>" if title else f"{box}/>"


class Picture:
    """Elements of the SVG, drawn from above to below.  `y` is where the next one goes."""

    def __init__(self, recording: Records, columns: Columns, report: Report) -> None:
        self.recording, self.columns, self.report = recording, columns, report
        self.tallies = tally_frames(recording, columns)
        self.shared = shared_suspects(recording, columns)
        self.channels = sorted({channel for channel, _ in self.tallies if channel != NO_CHANNEL})
        self.most_dropped = max((tally.total() for tally in report.dropped.values()), default=0)
        self.marks: list[str] = []
        self.of_bad: defaultdict[int, list[str]] = defaultdict(list)  # by column the marks of bad frames, which light up together
        self.y: float = 0

    def add(self, *marks: str) -> None:
        self.marks += marks

    def left(self, record: int) -> float:
        return LEFT + PLOT * record / max(1, self.columns.records)

    def span(self, column: int, last: int | None = None) -> tuple[float, float]:
        """The left border and the width of a column, or of all from one to another."""
        first, end = self.columns.ends(column)[0], self.columns.ends(column if last is None else last)[1]
        return self.left(first), self.left(end) - self.left(first)

    def of_channel(self, tallies: Tallies, channel: int) -> dict[int, Counter[str]]:
        """The tallies of a channel by column, rising."""
        return {column: tallies[at, column] for at, column in sorted(tallies) if at == channel}


def total(tallies: Iterable[Counter[str]]) -> Counter[str]:
    """The sum of tallies."""
    found: Counter[str] = Counter()
    for tally in tallies:
        found.update(tally)
    return found


def draw_head(picture: Picture, title: str) -> None:
    picture.add(text(16, 28, title, "head"), text(16, 48, records_text(picture)), text(16, 66, losses_text(picture)))
    picture.y = 92
    dropped = total(picture.report.dropped.values())
    with_vca = any(tally[VCA] for tally in picture.tallies.values())
    states = [(f"s-{state}", STATE_WORDS[state]) for state in STATES if state != VCA or with_vca]
    reasons = [(f"r-{reason}", reason) for reason in REASONS if dropped[reason]]
    draw_legend(picture, "Frames", [*states, ("s-none", NONE_WORDS)])
    draw_legend(picture, "Dropped, by reason", reasons or [("", "nothing")])
    picture.y += 6


def records_text(picture: Picture) -> str:
    recording = picture.recording
    said = f"{counted(len(recording), 'record')}: {figure(len(recording) - len(recording.bad))} good,"
    said += f" {figure(len(recording.bad))} bad."
    return said + (f" {counted(recording.rest, 'octet')} left over at the end." if recording.rest else "")


def losses_text(picture: Picture) -> str:
    octets = total(picture.report.dropped.values()).total()
    said = f"{counted(sum(picture.recording.missing), 'frame')} missing by the channels' counts."
    return said + f" {counted(picture.report.parts.total(), 'part')} of {counted(octets, 'octet')} dropped."


def draw_legend(picture: Picture, name: str, entries: Sequence[tuple[str, str]]) -> None:
    picture.add(text(16, picture.y, name, "name"))
    x = LEFT
    for kind, words in entries:
        if kind:
            picture.add(rectangle(kind, x, picture.y - 10, 12, 12), rectangle("edge", x, picture.y - 10, 12, 12))
        picture.add(text(x + 18 * bool(kind), picture.y, words))
        x += 36 + 7 * len(words)
    picture.y += 22


def draw_channel(picture: Picture, channel: int) -> None:
    frames = picture.of_channel(picture.tallies, channel)
    dropped = picture.of_channel(picture.report.dropped, channel)
    all_frames, octets = total(frames.values()), total(dropped.values()).total()
    sent = sum(all_frames[state] for state in (GOOD, IDLE, VCA))
    picture.y += BETWEEN
    said = [counted(sent, "frame"), f"{figure(all_frames[MISSING])} missing", f"{counted(octets, 'octet')} dropped"]
    draw_name(picture, f"Channel {channel}", said)
    for column, tally in dropped.items():
        draw_dropped(picture, channel, column, tally)
    tops = {column: (tally.total(), dropped_height(picture, tally)) for column, tally in dropped.items()}
    draw_number(picture, picture.y + BAR, tops)
    picture.y += BAR + APART
    picture.add(rectangle("frame", LEFT, picture.y, PLOT, BAND))
    for first, last in runs(frames):
        draw_run(picture, channel, frames, first, last)
    picture.y += BAND


def draw_name(picture: Picture, name: str, said: Sequence[str]) -> None:
    picture.add(text(LEFT - 10, picture.y + 4, name, "name end"))
    for number, words in enumerate(said):
        picture.add(text(LEFT - 10, picture.y + 18 + 13 * number, words, "small end"))


def height(number: int, greatest: int) -> float:
    """How high a bar is, by the square root, so that small ones are seen beside great ones."""
    return max(LEAST_BAR, BAR * math.sqrt(number / greatest))


def dropped_height(picture: Picture, tally: Counter[str]) -> float:
    """How high the bar of a column's dropped octets is, in which each reason is seen."""
    return max(LEAST_PART * len(tally), height(tally.total(), picture.most_dropped))


def draw_number(picture: Picture, base: float, bars: Mapping[int, tuple[int, float]]) -> None:
    """The number on the highest of a row's bars, the first of equals.  A bar is a number and a height, by column."""
    if not bars:
        return
    column = max(bars, key=lambda it: bars[it][0])
    number, high = bars[column]
    x, width = picture.span(column)
    half = LETTER * len(figure(number)) / 2
    middle = min(max(x + width / 2, LEFT + half), LEFT + PLOT + RIGHT - half)
    picture.add(text(middle, base - high - 3, figure(number), "small middle"))


def draw_dropped(picture: Picture, channel: int, column: int, tally: Counter[str]) -> None:
    """A bar for the octets that a column drops, in parts by their reasons."""
    x, width = picture.span(column)
    least = LEAST_PART * len(tally)
    high, base = dropped_height(picture, tally), picture.y + BAR
    words = dropped_text(picture.report.parts[channel, column], tally)
    picture.add(f"<g><title>{spelled(f'Channel {channel}, {where(picture.columns, column)}: {words}')}</title>")
    for reason in REASONS:
        if tally[reason]:
            part = LEAST_PART + (high - least) * tally[reason] / tally.total()
            base -= part
            picture.add(rectangle(f"r-{reason}", x, base, width, part))
    picture.add("</g>")


def worst(tally: Counter[str]) -> str:
    return next(state for state in WORST_FIRST if tally[state])


def runs(frames: Mapping[int, Counter[str]]) -> list[list[int]]:
    """Stretches of columns side by side whose worst is the same, by first and last.  Losses stand alone."""
    found: list[list[int]] = []
    for column, tally in frames.items():
        state = worst(tally)
        before = found[-1][1] if found else None
        if before == column - 1 and worst(frames[before]) == state and state not in (BAD, MISSING):
            found[-1][1] = column
        else:
            found.append([column, column])
    return found


def draw_run(picture: Picture, channel: int, frames: Mapping[int, Counter[str]], first: int, last: int) -> None:
    tally = total(frames[column] for column in range(first, last + 1))
    words = f"Channel {channel}, {where(picture.columns, first, last)}: {frames_text(tally, picture.shared.get((channel, first), ()))}"
    x, width = picture.span(first, last)
    state = worst(tally)
    low = BAND / 2 if state == IDLE else 1  # idle ones are half as high
    marks = picture.of_bad[first] if tally[BAD] else picture.marks
    marks.append(rectangle(f"hover s-{state}", x, picture.y + low, width, BAND - 1 - low, words))


def draw_bars(picture: Picture, kind: str, name: str, said: Sequence[str], bars: Mapping[int, tuple[int, str]]) -> None:
    """A row of bars of so many frames: their heights by column, and what is said of each on hover."""
    picture.y += BETWEEN
    draw_name(picture, name, said)
    greatest = max((number for number, _ in bars.values()), default=0)
    heights = {column: (number, height(number, greatest)) for column, (number, _) in bars.items()}
    for column, (_, words) in bars.items():
        x, width = picture.span(column)
        high = heights[column][1]
        title = f"{where(picture.columns, column).capitalize()}: {words}"
        draw_bar(picture, column, rectangle(f"hover {kind}", x, picture.y + BAR + 1 - high, width, high, title))
    draw_number(picture, picture.y + BAR + 1, heights)
    picture.y += BAR + 1
    picture.add(line("line", LEFT, picture.y + 0.5, LEFT + PLOT, picture.y + 0.5))
    picture.y += 6


def draw_bar(picture: Picture, column: int, bar: str) -> None:
    """A bar of a row.  That of bad frames comes with their marks in bands, so that all light up together."""
    marks = picture.of_bad.pop(column, [])
    picture.add(*(["<g>", bar, *marks, "</g>"] if marks else [bar]))


def draw_bad(picture: Picture) -> None:
    bars = {}
    for column, tally in picture.of_channel(picture.tallies, NO_CHANNEL).items():
        faults = ", ".join(f"{figure(number)} by {fault}" for fault, number in tally.most_common())
        bands = [it for it in picture.channels if picture.tallies.get((it, column), Counter())[BAD]]
        perhaps = f"; perhaps of channel {listed(bands, 'or')}" if bands else ""
        bars[column] = tally.total(), f"{counted(tally.total(), 'bad frame')}: {faults}{perhaps}"
    found = total(picture.of_channel(picture.tallies, NO_CHANNEL).values()).most_common()
    if len(found) > 2:
        found[1:] = [("others", sum(number for _, number in found[1:]))]
    said = [f"{figure(number)} {fault}" for fault, number in found] or ["none"]
    draw_bars(picture, "faults", "Bad frames", said, bars)


def draw_master(picture: Picture) -> None:
    bars = {}
    for column, gaps in picture.report.master_gaps.items():
        words = f"{counted(len(gaps), 'gap')} of the master channel, {counted(sum(gaps), 'frame')} missing"
        bars[column] = sum(gaps), words
    missing = sum(number for number, _ in bars.values())
    number = sum(len(it) for it in picture.report.master_gaps.values())
    said = [counted(number, "gap"), f"{figure(missing)} missing"] if number else ["no gap"]
    draw_bars(picture, "master", "Master channel", said, bars)


def tick_step(records: int) -> int:
    """The least of 1, 2, 5, 10, 20, 50 and so on that gives at most ten ticks."""
    step = 1
    while records > 10 * step:
        step = step * 5 // 2 if str(step)[0] == "2" else step * 2
    return step


def draw_axis(picture: Picture, top: float) -> None:
    """Ticks below all, and at each a line behind all."""
    records, grid = picture.columns.records, []
    for record in range(0, records + 1, tick_step(records)):
        x = picture.left(record)
        grid.append(line("grid", x, top, x, picture.y))
        picture.add(line("line", x, picture.y, x, picture.y + 5), text(x, picture.y + 18, figure(record), "middle"))
    picture.add(line("line", LEFT, picture.y, LEFT + PLOT, picture.y), text(16, picture.y + 18, "Record, from 0"))
    picture.marks[:0] = grid
    picture.y += 40


def draw_notes(picture: Picture) -> None:
    notes = []
    if picture.columns.each > 1:
        states = ", ".join(STATE_WORDS[state].split()[0].rstrip(",") for state in WORST_FIRST)
        each = figure(picture.columns.each)
        notes.append(f"A column is {each} records. A band shows the worst: {states}, in this order.")
    if picture.most_dropped or picture.recording.bad or picture.report.master_gaps:
        notes.append("The highest bar of each row bears its number, of octets or of frames. Bars go by the square root.")
    for words in notes:
        picture.add(text(LEFT, picture.y, words, "small"))
        picture.y += 16


def draw(recording: Records, columns: Columns, report: Report, title: str) -> str:
    picture = Picture(recording, columns, report)
    draw_head(picture, title)
    top = picture.y
    for channel in picture.channels:
        draw_channel(picture, channel)
    if not picture.channels:
        picture.y += BETWEEN
        words = "No frame is good." if len(recording) else "The recording has no whole record."
        picture.add(text(LEFT + PLOT / 2, picture.y + 20, words, "middle"))
        picture.y += 30
    draw_bad(picture)
    draw_master(picture)
    draw_axis(picture, top)
    draw_notes(picture)
    return document(picture, title)


def document(picture: Picture, title: str) -> str:
    wide, high = LEFT + PLOT + RIGHT, round(picture.y)
    size = f'width="{wide}" height="{high}"'
    colours = {f"s-{state}": colour for state, colour in STATE_COLOURS.items()}
    colours |= {f"r-{reason}": colour for reason, colour in REASONS.items()} | {"faults": "#000000", "master": "#5b3a8e"}
    # A thin stroke of the same colour closes the seams between neighbours.
    fills = [f".{kind} {{ fill: {it}; stroke: {it}; stroke-width: 0.4 }}" for kind, it in colours.items()]
    fills += [".s-none { fill: #fff }", ".edge { fill: none; stroke: #888 }"]
    return "\n".join(
        [
            f'<svg xmlns="http://www.w3.org/2000/svg" viewBox="0 0 {wide} {high}" {size} role="img">',
            f"<title>{spelled(title)}</title>",
            "<style>" + STYLE + "\n".join(fills) + "</style>",
            f'<rect width="{wide}" height="{high}" fill="#fff"/>',
            *picture.marks,
            "</svg>\n",
        ]
    )


def drawing(frames: Lines, report: Lines, title: str) -> str:
    """The SVG of these lines of frames and of a report.  Raises LossMapError where they don't belong together."""
    recording = read_frames(frames)
    columns = Columns(len(recording))
    return draw(recording, columns, read_report(report, recording, columns), title)


class LossMap:
    """A picture of what was lost: `svg` is its text, and a notebook shows it."""

    def __init__(self, svg: str) -> None:
        self.svg = svg

    def __str__(self) -> str:
        return self.svg

    def _repr_svg_(self) -> str:
        return self.svg

    def _repr_html_(self) -> str:
        """The picture with its figures on hover.  Where that is taken out of a page, an image of it stays."""
        data = f"data:image/svg+xml;base64,{b64encode(self.svg.encode()).decode()}"
        return f'<object type="image/svg+xml" data="{data}"><img alt="What was lost" src="{data}"></object>'

    def write(self, path: str | os.PathLike[str]) -> None:
        """Writes the picture to a file.  Raises OSError."""
        with open(path, "w", encoding="utf-8", newline="\n") as file:
            file.write(self.svg)
