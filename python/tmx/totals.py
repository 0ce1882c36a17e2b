"""What came of a recording so far, in numbers: what the program gives is counted in blocks, and rates by a clock."""

import re
import struct
from collections import Counter, deque
from dataclasses import dataclass, field

from .lines import unknown_line
from .packets import other_lead

SPAN = 10.0  # seconds of the rates that are shown
SPACE = 0.2  # seconds between two times that are kept for them
REPORTED = 5  # lines of the report that are shown

BAD = re.compile(rb"bad record=[0-9]+ fault=(.*)\n|short record=[0-9]+ octets=(.*)\n")
LOST = re.compile(
    rb"^(?:mastergap|(gap|drop)) record=[0-9]+(?: channel=([0-7]))? .*?(?:missing|octets)=([0-9]+)", re.MULTILINE
)
HEAD = struct.Struct(">10xH4xHHH")  # of a packet's lead the channel and a zero; all of its header


@dataclass
class ChannelTotals:
    """What came of a channel: its good frames, those that are missing, and its dropped octets."""

    frames: int = 0
    missing: int = 0
    dropped: int = 0


@dataclass
class ApplicationTotals:
    """What came of an application: its packets, the sequence count of the last one, and when that came."""

    packets: int = 0
    count: int = 0
    came: float = 0.0


@dataclass
class Totals:
    """What the program has given so far, in numbers.

    faults        the bad frames, by the word of their fault
    rest          the octets that are left at the end
    missing       the frames that are missing of the master channel
    channels      by number, those with a good frame; `chosen` has those that the settings choose, None is all
    applications  by channel and number
    reported      the last lines of the report, with the clock times at which they came; `lines` is how many came
    last_good     when the last good frame came
    """

    chosen: frozenset[int] | None = None
    good: int = 0
    faults: Counter[str] = field(default_factory=Counter)
    rest: int = 0
    missing: int = 0
    channels: dict[int, ChannelTotals] = field(default_factory=dict)
    applications: dict[tuple[int, int], ApplicationTotals] = field(default_factory=dict)
    reported: deque[tuple[str, str]] = field(default_factory=lambda: deque(maxlen=REPORTED))
    lines: int = 0
    last_good: float | None = None

    @property
    def bad(self) -> int:
        return self.faults.total()

    @property
    def records(self) -> int:
        return self.good + self.bad

    def add_frames(self, lines: bytes, now: float) -> None:
        """Adds whole lines of `tmx frames`.  Raises VersionError where one is none."""
        number, good = lines.count(b"\n"), 0
        for channel in range(8):
            if frames := lines.count(b" channel=%d master=" % channel):
                good += frames
                self.last_good = now
                if self.chosen is None or channel in self.chosen:
                    self.channel(channel).frames += frames
            if good == number:
                break
        self.good += good
        if good < number:
            self.add_bad(lines, number - good)

    def add_bad(self, lines: bytes, number: int) -> None:
        """Adds those that are no good frames."""
        found = Counter(BAD.findall(lines))
        if found.total() != number:
            raise unknown_line(other_line(lines, (b"frame ", b"bad ", b"short ")))
        for (fault, rest), records in found.items():
            if fault:
                self.faults[fault.decode()] += records
            else:
                self.rest = int(rest)

    def add_packets(self, heads: "Heads", now: float) -> None:
        """Adds the packets that came, and forgets their heads.  Raises DisagreementError where one is of no packet."""
        found, backwards = Counter(heads.found), heads.found[::-1]
        for place, head in sorted((-backwards.index(it), it) for it in found):
            if head & 0xF8FF0000:
                raise other_lead(head.to_bytes(4))
            application = self.applications.setdefault((head >> 24, head & 0x7FF), ApplicationTotals())
            application.packets += found[head]
            application.count, application.came = heads.sequences[place - 1] & 0x3FFF, now
        heads.found.clear()
        heads.sequences.clear()

    def add_report(self, lines: bytes, clock: str) -> None:
        """The same of a report, whose lines came at this clock time."""
        for kind, channel, number in LOST.findall(lines):
            if kind == b"gap":
                self.channel(int(channel)).missing += int(number)
            elif kind == b"drop":
                self.channel(int(channel)).dropped += int(number)
            else:
                self.missing += int(number)
        self.lines += lines.count(b"\n")
        self.reported.extend((clock, it.decode()) for it in lines.rsplit(b"\n", REPORTED + 1)[-REPORTED - 1 : -1])

    def channel(self, number: int) -> ChannelTotals:
        return self.channels.setdefault(number, ChannelTotals())


class Heads:
    """The heads of packets, out of what `tmx packets --binary` gives in pieces of any length.

    found      of each packet the channel of its lead, a zero, and the first two octets of its header, as one number
    sequences  the next two octets of its header
    """

    def __init__(self) -> None:
        self.found: list[int] = []
        self.sequences: list[int] = []
        self.cut = b""  # the beginning of a packet that hasn't come as far as its header's end
        self.ahead = 0  # how many octets come before the next packet

    def add(self, piece: bytes) -> None:
        octets, at = self.cut + piece, self.ahead
        last, least, unpack = len(octets) - HEAD.size, HEAD.size + 1, HEAD.unpack_from
        while at <= last:
            channel, identification, sequence, length = unpack(octets, at)
            self.found.append(channel << 16 | identification)
            self.sequences.append(sequence)
            at += least + length
        self.cut, self.ahead = octets[at:], max(0, at - len(octets))


def other_line(lines: bytes, words: tuple[bytes, ...]) -> str:
    """The first line that begins with none of these words; the first of all where each does."""
    found = lines.splitlines()
    return next((it for it in found if not it.startswith(words)), found[0]).decode(errors="replace")


Sample = tuple[float, int, int]  # a time, and how many records and octets had come by then


@dataclass(frozen=True)
class Rate:
    """Frames and bits a second."""

    frames: float = 0.0
    bits: float = 0.0


class Rates:
    """How fast a recording comes: how many records and octets had come at some times."""

    def __init__(self) -> None:
        self.first: Sample | None = None
        self.seen: deque[Sample] = deque()

    def add(self, now: float, records: int, octets: int) -> None:
        """To be told again and again, also before the first octet."""
        sample = (now, records, octets)
        if not octets or self.first is None:
            self.first = sample
            self.seen.clear()
        if not self.seen or now - self.seen[-1][0] >= SPACE:
            self.seen.append(sample)
        while len(self.seen) > 1 and self.seen[1][0] <= now - SPAN:
            self.seen.popleft()
        self.last = sample

    def recent(self) -> Rate:
        """Those of the last ten seconds."""
        return rate_between(self.seen[0], self.last) if self.seen else Rate()

    def whole(self) -> Rate:
        """Those since the first octet came."""
        return rate_between(self.first, self.last) if self.first else Rate()


def rate_between(before: Sample, behind: Sample) -> Rate:
    seconds = max(behind[0] - before[0], 1e-3)
    return Rate((behind[1] - before[1]) / seconds, 8 * (behind[2] - before[2]) / seconds)
