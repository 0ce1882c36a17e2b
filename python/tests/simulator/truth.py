"""The truth of a recording: what became of each frame, packet and application, and what the standards' counts tell of it.

It is worked out from the numbers of what was sent, which no receiver knows, and not by reading the recording.
"""

from collections import Counter
from collections.abc import Iterator
from dataclasses import dataclass
from functools import cached_property
from itertools import pairwise
from typing import Literal, NamedTuple

from .codes import MARKER
from .spacecraft import IDLE, Piece, SentFrame, SentPacket
from .station import Heard, Passage


class Arrival(NamedTuple):
    """A good frame in a record."""

    record: int
    frame: SentFrame


@dataclass(frozen=True, slots=True)
class Fate:
    """What became of a frame: the records that have it as it was sent, and those that have it damaged."""

    good: tuple[int, ...]
    damaged: tuple[int, ...]

    @property
    def word(self) -> Literal["good", "damaged", "twice", "lost"]:
        if len(self.good) > 1:
            return "twice"
        return "good" if self.good else "damaged" if self.damaged else "lost"


@dataclass(frozen=True, slots=True)
class TrueGap:
    """Counts that don't follow each other, of the good frames `before` and `record`.  `channel` is None for the master channel.

    missing  how many frames their counts say are missing, modulo 256
    lost     how many were sent between them and aren't there as good ones; less than 0 after a frame that came twice
    """

    record: int
    before: int
    channel: int | None
    expected: int
    found: int
    missing: int
    lost: int


@dataclass(frozen=True, slots=True)
class Given:
    """A packet that the standards' rules give of a recording.

    record, begin, place  the records that complete and begin it, and where it begins in the data field
    sent                  the number of the packet that was sent; None where two packets were joined over a loss of 256 frames
    """

    record: int
    begin: int
    place: int
    channel: int
    octets: bytes
    sent: int | None


@dataclass(slots=True)
class Open:
    """A packet whose end hasn't come.  `pieces` are more than one packet's if a loss was not seen."""

    record: int
    pieces: list[Piece]
    octets: bytes

    @property
    def is_joined(self) -> bool:
        return len({it.packet for it in self.pieces}) > 1

    @property
    def missing(self) -> int:
        """How many octets are missing by its length field (133.0-B-2, section 4.1.3.5); 1 where this hasn't come."""
        return int.from_bytes(self.octets[4:6], "big") + 7 - len(self.octets) if len(self.octets) >= 6 else 1


class Truth:
    """The truth of a recording whose records are passages."""

    def __init__(self, heard: Heard) -> None:
        self.heard = heard
        self.sent = heard.sent
        self.records = heard.records
        good = [(record, it.frame) for record, it in enumerate(self.records) if it.is_good]
        self.good = [Arrival(record, self.sent.frames[frame]) for record, frame in good if frame is not None]

    @cached_property
    def chains(self) -> dict[int, list[Arrival]]:
        """The good frames of each channel that has some."""
        numbers = sorted({it.frame.channel for it in self.good})
        return {number: [it for it in self.good if it.frame.channel == number] for number in numbers}

    @cached_property
    def bad(self) -> list[int]:
        """The records that have no good frame of this spacecraft."""
        return [k for k, it in enumerate(self.records) if not it.is_good]

    @property
    def rest(self) -> int:
        """How many octets are left after the last record."""
        return len(self.heard.octets) - len(self.records) * self.heard.record_length

    def fates(self) -> list[Fate]:
        """What became of each frame that was sent."""
        good: list[list[int]] = [[] for _ in self.sent.frames]
        damaged: list[list[int]] = [[] for _ in self.sent.frames]
        for record, passage in enumerate(self.records):
            if passage.frame is not None:
                (good if passage.is_good else damaged)[passage.frame].append(record)
        return [Fate(tuple(one), tuple(other)) for one, other in zip(good, damaged, strict=True)]

    def gaps(self) -> list[TrueGap]:
        """The gaps of all channels, in the order of the records (132.0-B-3, section 4.1.2.6)."""
        found = [self.gap(*it, channel) for channel, chain in self.chains.items() for it in pairwise(chain)]
        return sorted((it for it in found if it.missing), key=lambda it: it.record)

    def master_gaps(self) -> list[TrueGap]:
        """The gaps of the master channel (132.0-B-3, section 4.1.2.5)."""
        return [it for it in (self.gap(*pair, None) for pair in pairwise(self.good)) if it.missing]

    def gap(self, before: Arrival, after: Arrival, channel: int | None) -> TrueGap:
        """What is between two good frames that follow each other: known by what was sent, and said in the standard's counts."""
        is_master = channel is None
        last, now = before.frame, after.frame
        lost = (now.number - last.number if is_master else now.ordinal - last.ordinal) - 1
        expected, found = ((last.master if is_master else last.count) + 1) % 256, now.master if is_master else now.count
        missing = lost % 256 if last.boot == now.boot else (found - expected) % 256
        return TrueGap(after.record, before.record, channel, expected, found, missing, lost)

    def unseen_losses(self) -> list[TrueGap]:
        """Losses of a channel that its counts don't show, as that of 256 frames."""
        found = [self.gap(*it, channel) for channel, chain in self.chains.items() for it in pairwise(chain)]
        return [it for it in found if not it.missing and it.lost]

    @cached_property
    def whole(self) -> list[Given]:
        """The packets whose frames are all good, without a loss or a repeated frame of the channel between them."""
        return [it for channel, chain in self.chains.items() for it in self.whole_of(channel, chain)]

    def whole_of(self, channel: int, chain: list[Arrival]) -> Iterator[Given]:
        """The packets of a channel that are whole."""
        places: dict[int, list[int]] = {}
        stretches, stretch = [], 0
        for index, it in enumerate(chain):
            stretch += index > 0 and it.frame.ordinal != chain[index - 1].frame.ordinal + 1
            stretches.append(stretch)
            places.setdefault(it.frame.number, []).append(index)
        for packet in self.sent.packets:
            if packet.channel == channel and not packet.is_cut:
                yield from self.occurrences(packet, chain, places, stretches)

    def occurrences(
        self, packet: SentPacket, chain: list[Arrival], places: dict[int, list[int]], stretches: list[int]
    ) -> Iterator[Given]:
        """How often a packet is there whole, as twice in a frame that was recorded twice."""
        first, last = packet.frames[0], packet.frames[-1]
        frames = self.sent.frames[last].ordinal - self.sent.frames[first].ordinal
        for begin in places.get(first, ()):
            end = begin + frames
            if end < len(chain) and stretches[end] == stretches[begin]:
                place = next(it.place for it in chain[begin].frame.pieces if it.packet == packet.number)
                yield Given(chain[end].record, chain[begin].record, place, packet.channel, packet.octets, packet.number)

    @cached_property
    def joined(self) -> list[Given]:
        """What looks like a packet, and has parts of several, between which are losses of a multiple of 256 frames."""
        unseen = {it.record for it in self.unseen_losses()}
        runs = [run for channel, chain in self.chains.items() for run in self.split(chain, channel)]
        return [it for run in runs if any(arrival.record in unseen for arrival in run[1:]) for it in join_over(run)]

    def split(self, chain: list[Arrival], channel: int) -> list[list[Arrival]]:
        """A channel's good frames, split where their counts don't follow each other."""
        runs = [chain[:1]]
        for before, after in pairwise(chain):
            if self.gap(before, after, channel).missing:
                runs.append([])
            runs[-1].append(after)
        return runs

    @cached_property
    def packets(self) -> list[Given]:
        """All that looks like a packet, in the order of the records that complete it, and then of its beginning."""
        return sorted((*self.whole, *self.joined), key=lambda it: (it.record, it.begin, it.place))

    def covered(self, apid: int) -> list[tuple[int, int]]:
        """The stretches of true time, from one packet to another, of which each packet of the application is there whole."""
        there = {it.sent for it in self.whole}
        stretches: list[tuple[int, int]] = []
        is_open = False
        for packet in (it for it in self.sent.packets if it.apid == apid):
            if packet.number in there:
                begin = stretches.pop()[0] if is_open else packet.time
                stretches.append((begin, packet.time))
            is_open = packet.number in there
        return stretches

    def counted(self) -> dict[tuple[int, int], Counter[str]]:
        """How many packets and octets there are of each application in each channel."""
        counts: dict[tuple[int, int], Counter[str]] = {}
        for it in self.packets:
            key = it.channel, int.from_bytes(it.octets[:2], "big") & IDLE
            counts.setdefault(key, Counter()).update(packets=1, octets=len(it.octets))
        return counts


def join_over(run: list[Arrival]) -> Iterator[Given]:
    """What looks like a packet in good frames without a gap of their counts, and has parts of several."""
    tail: Open | None = None
    for record, frame in run:
        for piece in frame.pieces:
            if not piece.begin:
                tail = Open(record, [], b"")
            if tail is None:
                continue
            tail.pieces.append(piece)
            tail.octets += frame.octets[place_of_field(frame) + piece.place :][: piece.end - piece.begin]
            if not tail.missing and tail.is_joined:
                yield Given(record, tail.record, tail.pieces[0].place, frame.channel, tail.octets, None)
            if tail.missing <= 0 or piece is not frame.pieces[-1]:
                tail = None


def place_of_field(frame: SentFrame) -> int:
    """Where the data field of a frame begins: after its headers (132.0-B-3, section 4.1.3)."""
    return 6 + (frame.octets[6] % 64 + 1) * (frame.octets[4] >> 7)


def cuttable(heard: Heard) -> list[Passage]:
    """The frames that a search for markers can find, where octets are lost or added but no bits.

    A frame's place is known by an intact marker in front of it.  The first one's needs another marker in its place after it, or
    the end.  Where markers are damaged, three in a row at most, a place is known by the intact ones before and after.
    A frame that is cut off within its check symbols isn't found.
    """
    step, end = 8 * heard.record_length, 8 * len(heard.octets)
    marks = [it.marker_at for it in heard.passages if it.has_marker]
    starts = {*marks, end}
    first = next((index for index, it in enumerate(marks) if is_confirmed(it, starts, step, end)), len(marks))
    known = set(marks[first:])
    for before, after in pairwise([*marks[first:], end]):
        steps, rest = divmod(after - before, step)
        if not rest and steps <= 4:
            known.update(range(before, after, step))
    whole = [it for it in heard.passages if it.kind == "frame" and it.is_good]
    return [it for it in whole if it.marker_at in known and it.marker_at + step <= end]


def is_confirmed(at: int, starts: set[int], step: int, end: int) -> bool:
    """Whether a marker or the end is in its place one to four records after this one, or no marker fits in after its record."""
    return any(at + k * step in starts for k in range(1, 5)) or 0 <= end - at - step < 8 * len(MARKER)
