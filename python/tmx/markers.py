"""Raw streams with sync markers, cut into records of one length."""

import os
from collections import Counter, deque
from collections.abc import Iterator
from dataclasses import dataclass
from typing import IO

from .arguments import number
from .checkpoints import NewFile
from .source import Source, refuse_to_overwrite

SEARCHED = 1 << 16  # octets that are searched at once
LENGTHS = range(1, 1 << 32)  # of records
MISSING = 3  # markers in a row that may be damaged beyond what is let pass, while those behind them stand in place
MEASURED = 1000  # markers whose distances are measured while no record is placed


@dataclass(frozen=True, slots=True)
class Slip:
    """A stretch of the stream between a marker and the next one that was found, where octets were lost or added.

    at      its first octet in the stream, from 0: the marker before the slip
    octets  how many octets it has, up to the next marker that was found
    shift   by how many octets the records behind it stand later than those before it say; less than 0 where octets were lost
    """

    at: int
    octets: int
    shift: int

    def __str__(self) -> str:
        return f"slip at={self.at} octets={self.octets} shift={self.shift}"


class Window:
    """A part of a stream. Any octet of it is asked for by its place in the stream."""

    def __init__(self, source: Source) -> None:
        self.source = source
        self.octets = bytearray()
        self.begin = 0
        self.ended = False
        self.first = b""  # the first octets of the stream, once some are forgotten

    def reach(self, end: int) -> bool:
        """Whether the stream has so many octets; they are read as far as it does."""
        while not self.ended and self.begin + len(self.octets) < end:
            block = self.source.read_block()
            self.ended = not block
            self.octets += block
        return self.end >= end

    @property
    def end(self) -> int:
        """The place behind the last octet that was read."""
        return self.begin + len(self.octets)

    def part(self, begin: int, end: int) -> bytes:
        return bytes(self.octets[begin - self.begin : end - self.begin])

    def beginning(self) -> bytes:
        """The first octets of the stream."""
        return self.first or bytes(self.octets[: 4 * SEARCHED])

    def forget(self, begin: int) -> None:
        """Lets go of what is before a place, when that is much."""
        if begin - self.begin > 1 << 20:
            self.first = self.first or self.beginning()
            del self.octets[: begin - self.begin]
            self.begin = begin


class Cut:
    """The records of a raw stream with sync markers.  It is iterated once, and can be read as a recording.

    records   how many records were found so far
    slips     the stretches with a slip so far
    left_out  how many octets of no record there were so far; those of a record that is cut off at the end are among them
    uncut     how many of these are in stretches that are as long as a record with its marker, or longer; the record before a slip,
              which `strict` leaves out, isn't counted
    distance  how many octets most markers are apart, where no record was placed and that can be told; else None

    A record is the octets behind a marker.  It is placed where a marker stands before it, and one stands behind it too or the
    stream ends there.  Of up to three markers in a row that are damaged the records are placed nevertheless, where the next
    marker stands as if nothing were lost.  Once a record is placed, the octets behind each marker without a wrong bit are a
    record too, also before a slip: its error control tells whether it is whole.  Strictly they are none.
    """

    def __init__(self, source: Source, marker: bytes, length: int, flips: int, strict: bool, mask: bytes) -> None:
        self.source = source
        self.marker = marker
        self.pattern = int.from_bytes(marker, "big")
        self.length = length
        self.flips = flips
        self.strict = strict
        self.mask = mask  # that is added to each record; empty for none
        self.step = len(marker) + length
        self.distances: Counter[int] = Counter()
        self.records = 0
        self.left_out = self.uncut = 0
        self.slips: list[Slip] = []
        self.window = Window(source)
        self.at = 0  # where the next record is looked for
        self.found = self.cut()
        self.kept: deque[bytes] = deque()  # what was found and not yet given: records, the first of which may be begun

    def __iter__(self) -> Iterator[bytes]:
        """The records that are left.  The first is what `read` has left of it."""
        while self.kept or self.find():
            yield self.kept.popleft()

    def find(self) -> bool:
        """Looks for more records; whether there are some."""
        self.kept.extend(next(self.found, ()))
        return bool(self.kept)

    @property
    def distance(self) -> int | None:
        (most, times), *_ = [*self.distances.most_common(1), (0, 0)]
        return most if not self.records and times > 1 else None

    def read(self, most: int = -1) -> bytes:
        """Some octets of the records, one behind the other, so that the records are a stream; none at the end.

        Waits for no second record: what a slow stream has brought is given at once.  Without a number it gives all there are.
        """
        parts, there = [], 0
        while there != most and (self.kept or (most < 0 or not there or self.is_at_hand()) and self.find()):
            part = self.kept.popleft()
            if 0 <= most < there + len(part):
                self.kept.appendleft(part[most - there :])
                part = part[: most - there]
            parts.append(part)
            there += len(part)
        return b"".join(parts)

    def is_at_hand(self) -> bool:
        """Whether the next record and the marker behind it were read already."""
        return self.window.ended or self.window.end >= self.at + self.step + len(self.marker)

    def write(self, path: str | os.PathLike[str]) -> None:
        """Writes the records that are left to a file, as a whole.  Raises FileError where it is the stream's own."""
        refuse_to_overwrite(path, self.source.file)
        with NewFile(path) as new:
            new.file.writelines(self)

    def cut(self) -> Iterator[list[bytes]]:
        """The records, those together that are placed one behind the other."""
        self.source.open_stream()
        try:
            window = self.window
            self.at = self.next_marker(window, 0, 0)
            while window.reach(self.at + self.step):
                at, placed = self.at, self.placed(window, self.at)
                if placed or self.stands_alone(window, at):
                    many = max(placed, 1)
                    self.at += many * self.step
                    yield self.run(window, at, many)
                if not placed:
                    self.at = self.next_marker(window, at, at + 1)
                window.forget(self.at)
            self.leave_out(window.end - self.at, 0)
        finally:
            self.source.close()

    def run(self, window: Window, at: int, many: int) -> list[bytes]:
        """So many records from a marker on."""
        first = at + len(self.marker)
        run = [window.part(begin, begin + self.length) for begin in range(first, first + many * self.step, self.step)]
        self.records += many
        if not self.mask:
            return run
        octets, mask = b"".join(run), int.from_bytes(self.mask * many, "big")
        octets = (int.from_bytes(octets, "big") ^ mask).to_bytes(len(octets), "big")
        return [octets[begin : begin + self.length] for begin in range(0, len(octets), self.length)]

    def placed(self, window: Window, at: int) -> int:
        """How many records are placed from here on: all up to a marker that stands in its place, of what was read, or to the end."""
        for records in range(1, MISSING + 2):
            end = at + records * self.step
            if self.matches(window, end):
                return records + self.placed_at_hand(window, end)
            if window.ended and window.end == end:
                return records
        whole = window.ended and window.end < at + self.step + len(self.marker)
        return 1 if whole else 0

    def placed_at_hand(self, window: Window, at: int) -> int:
        """How many records with a marker without a wrong bit behind each come from this marker on, of what was read."""
        place, last = at + self.step, window.end - len(self.marker)
        while place <= last and window.octets.startswith(self.marker, place - window.begin):
            place += self.step
        return (place - at) // self.step - 1

    def stands_alone(self, window: Window, at: int) -> bool:
        """Whether the octets behind this marker are a record, though no marker stands behind it."""
        return bool(self.records) and not self.strict and window.octets.startswith(self.marker, at - window.begin)

    def matches(self, window: Window, at: int) -> bool:
        """Whether a marker stands here."""
        end = at + len(self.marker)
        if not window.reach(end):
            return False
        if window.octets.startswith(self.marker, at - window.begin):
            return True
        return self.flips > 0 and (int.from_bytes(window.part(at, end), "big") ^ self.pattern).bit_count() <= self.flips

    def next_marker(self, window: Window, at: int, begin: int) -> int:
        """The next marker from a place on whose record is one.  Octets before it are of no record, but those of one that begins at `at`."""
        alone = self.step if begin > at and self.records and window.octets.startswith(self.marker, at - window.begin) else 0
        place = before = self.search(window, begin)
        while place < window.end and not self.placed(window, place) and not self.stands_alone(window, place):
            place = self.search(window, place + 1)
            self.measure(place - before)
            before = place
        if place > at and place < window.end:
            half = self.step // 2
            shift = (place - at + half) % self.step - half if self.records else 0
            self.slips.append(Slip(at, place - at, shift))
        self.leave_out(place - at, alone)
        return place

    def leave_out(self, octets: int, alone: int) -> None:
        """Counts octets between two records, at the beginning or at the end.  So many are of the record before a slip."""
        self.left_out += max(0, octets if self.strict else octets - alone)
        self.uncut += octets - alone if octets - alone >= self.step else 0

    def measure(self, distance: int) -> None:
        """Takes note of the distance of two markers, while no record is placed."""
        if not self.records and self.distances.total() < MEASURED:
            self.distances[distance] += 1

    def search(self, window: Window, begin: int) -> int:
        """The next place of a marker; the stream's end where there is none."""
        place, length = begin, len(self.marker)
        while window.reach(place + length):
            part = window.part(place, min(window.end, place + SEARCHED))
            found = self.first_in(part)
            if found >= 0:
                return place + found
            place += len(part) - length + 1
            window.forget(place)
        return window.end

    def first_in(self, part: bytes) -> int:
        """The first place of a marker in some octets; -1 where there is none."""
        if not self.flips:
            return part.find(self.marker)
        length = len(self.marker)
        mask, last = (1 << 8 * length) - 1, int.from_bytes(part[: length - 1], "big")
        for place, octet in enumerate(part[length - 1 :]):
            last = (last << 8 | octet) & mask
            if (last ^ self.pattern).bit_count() <= self.flips:
                return place
        return -1


def hidden(marker: bytes, octets: bytes) -> str | None:
    """What to do with a stream in which a marker of four octets or more comes again, but inverted, or not where an octet begins.

    None where it doesn't.
    """
    number, inverted = int.from_bytes(octets, "big"), bytes(it ^ 255 for it in marker)
    for shift in range(8 if len(marker) >= 4 else 0):
        shifted = (number << shift).to_bytes(len(octets) + 1, "big")
        for wanted in (marker, inverted):
            if (shift or wanted is inverted) and shifted.count(wanted) > 1:
                where = f" {shift} bit{'s' * (shift > 1)} after the beginning of an octet" if shift else ""
                how, invert = (" with all bits inverted", "invert all bits") if wanted is inverted else ("", "")
                begin = f"leave out the first {shift} bit{'s' * (shift > 1)}" if shift else ""
                mend = " and ".join(filter(None, (invert, begin)))
                return f"the marker {marker.hex().upper()} is there{how}{where}: {mend} first"
    return None


def pseudo_random(length: int) -> bytes:
    """So many octets of the sequence by which frames are randomized (CCSDS 131.0-B: x^8 + x^7 + x^5 + x^3 + 1, from ones)."""
    bits = [1] * 8
    while len(bits) < 8 * 255:
        bits.append(bits[-1] ^ bits[-3] ^ bits[-5] ^ bits[-8])
    octets = int("".join(map(str, bits)), 2).to_bytes(255, "big")
    return (octets * (length // 255 + 1))[:length]


def octets_of(marker: str | bytes) -> bytes:
    """The octets of a sync marker.  Raises ValueError where it has none, and TypeError where it is a number."""
    if not hasattr(marker, "__len__"):
        raise TypeError(f"the marker takes octets or hexadecimal, and not {marker!r}")
    try:
        octets = bytes.fromhex(marker) if isinstance(marker, str) else bytes(marker)
    except ValueError:
        raise ValueError(f"the marker isn't hexadecimal: {marker!r}") from None
    if not octets:
        raise ValueError("a marker has one octet or more")
    return octets


def cut(
    stream: str | os.PathLike[str] | IO[bytes],
    marker: str | bytes = "1ACFFC1D",
    length: int = 1115,
    flips: int = 0,
    *,
    strict: bool = False,
    derandomize: bool = False,
) -> Cut:
    """Cuts a raw stream with sync markers into records of one length, also where octets were lost or added.

    stream       the name of a file, `-` for standard input, or a binary stream
    marker       the sync marker, in hexadecimal or as octets
    length       the octets behind each marker, up to the next one: a frame, and its check symbols
    flips        how many bits of a marker may be wrong: at most a quarter of them
    strict       whether a record needs a marker behind it, so that the one before a slip is left out
    derandomize  whether the pseudo-random sequence of CCSDS 131.0-B is taken off each record

    Gives the records without their markers, so `skip_before` is not needed for them: `tmx.Recording(tmx.cut(..), settings)`
    reads them.  It can't mend streams that lost or gained bits.  Raises ValueError where the marker isn't hexadecimal or a number is
    out of its range, and TypeError where a number is none, or the marker is one.
    """
    octets = octets_of(marker)
    long, wrong = number("length", length, LENGTHS), number("flips", flips, range(2 * len(octets) + 1))
    return Cut(Source(stream), octets, long, wrong, strict, pseudo_random(long) if derandomize else b"")
