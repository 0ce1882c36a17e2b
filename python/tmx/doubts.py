"""Whether the counts tell how many frames are missing.  They run modulo 256, and what else came may say more.

A page gives percentages only where all of this holds:

  - In no stretch between good frames do the channels' counts miss more frames than the master channel's count does.
  - The packets that sequence counts miss fit into the missing frames and the octets that are lost.  Each is taken to be as long as
    the shortest one of its application that came.
  - The bad records between two good frames fit into the gap of the master channel there.
  - No gap of the master channel is of 255 frames, which a frame that was recorded twice shows too.

For a channel the second rule has to hold of its own count too.  Sequence counts are looked at of applications that came on one
channel alone, and not of idle packets.
"""

import re
from collections import Counter
from collections.abc import Iterable, Iterator

from .damage import BAD_RECORDS, GAP, Damage
from .lines import ApplicationCounts
from .loss_map import FAULTS, Records, counted
from .settings import Settings
from .summary import Summary

IDLE = 2047  # the application of idle packets, whose counts say nothing
TWICE = 255  # frames that a gap misses if one was recorded twice
HEADER, CONTROL = 6, 2  # octets of a frame's primary header, and of its error control
OTHER_SENDERS = bytes(FAULTS.index(it) for it in ("version", "spacecraft"))  # where error control holds
LENGTH = re.compile(
    rb"^packet record=[0-9]+ channel=([0-7]) from=[0-9]+ at=[0-9]+ type=t[cm] secondary=[a-z]+ apid=([0-9]+) flags=[a-z]+"
    rb" count=[0-9]+ octets=([0-9]+)$",
    re.MULTILINE,
)
Lengths = dict[tuple[int, int], int]  # of packets, by channel and application


def looked_at(summary: Summary) -> list[ApplicationCounts]:
    """The applications with gaps of their sequence counts that say something."""
    channels = Counter(apid for _, apid in summary.applications)
    return [it for it in summary.applications.values() if it.missing and it.apid != IDLE and channels[it.apid] == 1]


class Packets:
    """Whether the packets that are missing fit into the frames that are missing, and into the octets that are lost."""

    def __init__(self, summary: Summary, settings: Settings) -> None:
        self.summary, self.applications = summary, looked_at(summary)
        self.longest = settings.frame_length - HEADER - CONTROL * settings.error_control  # the octets of a data field
        self.shortest: Lengths = {}

    def watch(self, blocks: Iterable[bytes]) -> Iterator[bytes]:
        """The lines of `tmx packets`.  Their lengths are looked at only where packets of the mean length don't fit."""
        mean = {(it.channel, it.apid): it.octets // it.packets for it in self.applications}
        is_needed = not self.fit(mean) or bool(self.too_many_on(mean))
        for block in blocks:
            for channel, apid, octets in set(LENGTH.findall(block)) if is_needed else ():
                key = int(channel), int(apid)
                self.shortest[key] = min(int(octets), self.shortest.get(key, int(octets)))
            yield block

    def octets(self, lengths: Lengths, channels: Iterable[int]) -> int:
        """The octets of the packets that are missing on these channels."""
        return sum(it.missing * lengths.get((it.channel, it.apid), 0) for it in self.applications if it.channel in channels)

    def fit(self, lengths: Lengths) -> bool:
        """Whether those of all channels fit into the frames that the master channel's count misses."""
        lost = sum(it.lost for it in self.summary.channels.values())
        return self.octets(lengths, self.summary.channels) <= self.summary.master.missing * self.longest + lost

    def too_many_on(self, lengths: Lengths) -> set[int]:
        """The channels whose packets don't fit into the frames that the channel's own count misses."""
        found = self.summary.channels.items()
        return {channel for channel, it in found if self.octets(lengths, [channel]) > it.missing * self.longest + it.lost}


def doubts(damage: Damage, packets: Packets, error_control: bool) -> list[str]:
    """Why the master channel's count doesn't tell how many frames are missing; nothing where it does."""
    found = []
    if channels_miss_more(damage):
        found.append("between good frames the channels' counts miss more frames than the master channel's count does")
    if not packets.fit(packets.shortest):
        found.append("the packets that the sequence counts miss have more octets than the missing frames and the lost parts")
    if bad := bad_without_place(damage.records, OTHER_SENDERS if error_control else b""):
        found.append(f"between good frames the gaps of the master channel have no place for {counted(bad, 'bad record')}")
    if twice := damage.records.master_missing.count(TWICE):
        found.append(f"in {counted(twice, 'gap')} of the master channel 255 frames are missing, as where one was recorded twice")
    return found


def channels_miss_more(damage: Damage) -> bool:
    """Whether in some stretch the channels' counts miss more frames than the master channel's: in one gap, or in gaps that overlap."""
    missing, master = damage.records.missing, damage.records.master_missing
    places = (it.start() for it in GAP.finditer(missing))
    begin = end = number = 0
    for first, behind, here in sorted((damage.before(it) + 1, it + 1, missing[it]) for it in places):
        if here > sum(master[first:behind]):
            return True
        if first >= end:
            if number > sum(master[begin:end]):
                return True
            begin, end, number = first, behind, 0
        end, number = max(end, behind), number + here
    return number > sum(master[begin:end])


def bad_without_place(records: Records, others: bytes) -> int:
    """How many bad records between two good frames are more than are missing there, but those with one of these other faults."""
    found = 0
    for bad in BAD_RECORDS.finditer(records.channels):
        if bad.start() > 0 and bad.end() < len(records):
            number = len(records.kinds[bad.start() : bad.end()].translate(None, others))
            found += max(0, number - records.master_missing[bad.end()])
    return found
