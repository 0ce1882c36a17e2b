"""Which of the missing frames were damaged: their records came, and are bad.  The others were never received."""

import re
from bisect import bisect
from collections.abc import Iterable, Iterator
from dataclasses import dataclass

from .loss_map import MASTER, NO_CHANNEL, Records

FRAME_LINE = re.compile(
    rb"^(?:frame record=[0-9]+ channel=([0-7]) master=([0-9]+) count=([0-9]+) kind=([a-z]+) .*"
    rb"|bad record=[0-9]+ fault=([a-z-]+)|short record=[0-9]+ octets=([0-9]+))$",
    re.MULTILINE,
)
BAD_RECORDS = re.compile(bytes([NO_CHANNEL]) + b"+")
GAP = re.compile(rb"[^\0]")


def records_of(blocks: Iterable[bytes]) -> Records:
    """What the lines of `tmx frames` say, which come in blocks."""
    found = Records()
    for block in blocks:
        for channel, master, count, kind, fault, rest in FRAME_LINE.findall(block):
            if kind:
                found.add_good(int(channel), kind.decode(), int(count), int(master))
            elif fault:
                found.add_bad(fault.decode())
            else:
                found.rest = int(rest)
    return found


@dataclass(frozen=True)
class Span:
    """A number, if both are the same; else the counts tell only from where to where it may be."""

    least: int = 0
    most: int = 0

    def __add__(self, other: "Span") -> "Span":
        return Span(self.least + other.least, self.most + other.most)

    def left_of(self, whole: int) -> "Span":
        """What is left of a whole."""
        return Span(whole - self.most, whole - self.least)


def suspects_of(records: Records, channel: int) -> Iterator[int]:
    """The bad records that may be of a channel: those in its gaps, before its first good frame and behind its last."""
    yield from records.suspects[channel]
    yield from records.bad[: bisect(records.bad, records.channels.find(channel))]
    yield from records.bad[bisect(records.bad, records.channels.rfind(channel)) :]


class Damage:
    """Missing frames, by the counts of the good frames around bad records.

    placed     of each good record how many of the bad ones right before it have room in the gap of the master channel there
    shared     of each bad record of how many channels it may be
    has_doubts whether the master channel's count doesn't tell how many frames are missing
    """

    has_doubts = False

    def __init__(self, records: Records) -> None:
        self.records = records
        self.placed, self.shared = bytearray(len(records)), bytearray(len(records))
        for bad in BAD_RECORDS.finditer(records.channels):
            if bad.end() < len(records):
                self.placed[bad.end()] = min(bad.end() - bad.start(), records.master_missing[bad.end()])
        for channel in (it for it in records.last_counts if it != MASTER):
            for record in suspects_of(records, int(channel)):
                self.shared[record] += 1

    def of_master(self) -> int:
        """How many frames of any channel were damaged."""
        return sum(self.placed)

    def before(self, record: int) -> int:
        """The good frame before this one, of the same channel."""
        return self.records.channels.rfind(self.records.channels[record], 0, record)

    def of_gap(self, record: int) -> Span:
        """How many of the frames were damaged that are missing before this one, of the same channel.

        At most so many as bad records lie between.  At least those of them that can be of no other channel that has a good frame,
        and, without doubts, as many as are missing beyond all frames, of any channel, that were never received meanwhile.
        """
        begin, missing = self.before(record) + 1, self.records.missing[record]
        most = min(missing, self.records.channels.count(NO_CHANNEL, begin, record))
        least = min(missing, self.shared.count(1, begin, record))
        if self.has_doubts:
            return Span(least, most)
        never_received = sum(self.records.master_missing[begin : record + 1]) - sum(self.placed[begin : record + 1])
        beyond = missing - never_received
        return Span(max(least, beyond) if beyond <= most else least, most)  # beyond that, the master channel's count has wrapped

    def of_channels(self) -> dict[int, Span]:
        """The same of all gaps of each channel that has one."""
        found: dict[int, Span] = {}
        for gap in GAP.finditer(self.records.missing):
            channel = self.records.channels[gap.start()]
            found[channel] = found.get(channel, Span()) + self.of_gap(gap.start())
        return found
