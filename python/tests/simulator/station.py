"""A station, what it records of the frames that a spacecraft sent, and the faults of its recording."""

import random
from collections.abc import Sequence
from dataclasses import dataclass, field
from typing import Literal

from .codes import MARKER, encode_cds, error_control, randomize
from .spacecraft import Sent

LIGHT_TIME = 260_000  # microseconds from the spacecraft to the receipt stamp


@dataclass(frozen=True)
class Form:
    """What a station records with each frame.

    stamp       whether 8 octets in front of it have the time of receipt (own: a day-segmented code, as on board)
    marker      whether the sync marker is in front of it
    randomized  whether frame and check symbols are randomized
    check       how many check symbols are after it, which are opaque here
    """

    stamp: bool = False
    marker: bool = False
    randomized: bool = False
    check: int = 0

    @property
    def before(self) -> int:
        """The octets in front of a frame."""
        return 8 * self.stamp + len(MARKER) * self.marker


@dataclass(frozen=True)
class Lost:
    """So many frames, from one number on, were not received."""

    first: int
    frames: int


@dataclass(frozen=True)
class LostOfChannel:
    """So many frames of one channel, from one ordinal on, were not received."""

    channel: int
    first: int
    frames: int


@dataclass(frozen=True)
class Twice:
    """A frame is recorded twice, one after the other.  Other faults of the frame are in the first of the two."""

    frame: int


@dataclass(frozen=True)
class BitErrors:
    """Bits of a frame are wrong, counted from its first."""

    frame: int
    bits: tuple[int, ...]


@dataclass(frozen=True)
class DamagedMarker:
    """Bits of the marker in front of a frame are wrong."""

    frame: int
    bits: tuple[int, ...]


@dataclass(frozen=True)
class Foreign:
    """So many frames of another spacecraft are recorded before a frame."""

    frame: int
    frames: int
    spacecraft: int


@dataclass(frozen=True)
class Noise:
    """So many octets of noise before the first frame or after the last."""

    where: Literal["before", "after"]
    octets: int


@dataclass(frozen=True)
class Slip:
    """Bits are lost (fewer than 0) or added at a place of what is recorded of a frame, in bits from its stamp or marker.

    At 0 they are added before it, and at its end after it.  A recording that begins within a frame lost bits at 0 of the first,
    and one that ends within a frame lost the last bits of the last.
    """

    frame: int
    at: int
    bits: int

    def hurts(self, begin: int, end: int) -> bool:
        """Whether a stretch of bits isn't there any more as it was."""
        return begin < self.at < end if self.bits > 0 else self.at < end and self.at - self.bits > begin


@dataclass(frozen=True)
class Inverted:
    """All bits are inverted from a place of one frame's octets to the same place of another's."""

    first: int
    last: int
    at: int


Fault = Lost | LostOfChannel | Twice | BitErrors | DamagedMarker | Foreign | Noise | Slip | Inverted


@dataclass(slots=True)
class Passage:
    """A stretch of what a station recorded.

    kind           `frame`, `foreign` (a frame of another spacecraft) or `noise`
    frame          the number of the frame that was sent; None for another kind
    content, bits  its bits as a number, and how many they are
    lead           how many bits are in front of the frame: its stamp and its marker
    at             its first bit in the recording
    is_good        whether the frame's octets are as they were sent, one after the other; its marker and check symbols don't count
    has_marker     whether the marker directly in front of the frame is as it was sent
    is_torn        whether bits of it were lost, or added within
    is_inverted    whether some bits of it are inverted
    """

    kind: Literal["frame", "foreign", "noise"]
    frame: int | None
    content: int = field(repr=False)
    bits: int
    lead: int = 0
    at: int = 0
    is_good: bool = False
    has_marker: bool = False
    is_torn: bool = False
    is_inverted: bool = False

    @property
    def frame_at(self) -> int:
        """The frame's first bit in the recording."""
        return self.at + self.lead

    @property
    def marker_at(self) -> int:
        """The first bit of the marker in front of it."""
        return self.frame_at - 8 * len(MARKER)


@dataclass(frozen=True)
class Heard:
    """What a station recorded, with the truth of it: `passages` are all its stretches, in their order."""

    sent: Sent
    form: Form
    faults: tuple[Fault, ...]
    passages: list[Passage]
    octets: bytes

    @property
    def record_length(self) -> int:
        """The octets of a frame with what is recorded before and after it."""
        return self.form.before + self.sent.spacecraft.frame_length + self.form.check

    @property
    def records(self) -> list[Passage]:
        """The passages that are a record each, where no passage is of another length but the last."""
        if any(it.bits != 8 * self.record_length for it in self.passages[:-1]):
            raise ValueError("octets or bits were lost or added, so that records aren't passages")
        return [it for it in self.passages if it.bits == 8 * self.record_length]


@dataclass
class Recorder:
    """A station while it records."""

    sent: Sent
    form: Form
    faults: Sequence[Fault]
    chance: random.Random
    passages: list[Passage] = field(default_factory=list)

    def record(self) -> None:
        """Records all frames that weren't lost, and then makes the faults of each."""
        lost = self.find_lost()
        twice = {it.frame for it in self.faults if isinstance(it, Twice)}
        foreign = {it.frame: it for it in self.faults if isinstance(it, Foreign)}
        self.record_noise("before")
        for frame in self.sent.frames:
            if other := foreign.get(frame.number):
                self.passages += (self.make_foreign(other, frame.time) for _ in range(other.frames))
            if frame.number not in lost:
                self.passages += (self.make_passage(frame.number) for _ in range(1 + (frame.number in twice)))
        self.record_noise("after")
        self.make_faults()

    def make_faults(self) -> None:
        """Makes the faults of frames that were received: wrong bits, then slips from the last of a frame on, then inversions."""
        first = {it.frame: it for it in reversed(self.passages)}
        for fault in self.faults:
            if isinstance(fault, BitErrors | DamagedMarker) and fault.frame in first:
                self.spoil(first[fault.frame], fault)
        for slip in sorted((it for it in self.faults if isinstance(it, Slip) and it.frame in first), key=lambda it: -it.at):
            self.slip(first[slip.frame], slip)
        for fault in self.faults:
            if isinstance(fault, Inverted):
                self.invert(fault)

    def find_lost(self) -> set[int]:
        """The numbers of the frames that were not received."""
        lost = {it for fault in self.faults if isinstance(fault, Lost) for it in range(fault.first, fault.first + fault.frames)}
        for fault in self.faults:
            if isinstance(fault, LostOfChannel):
                ordinals = range(fault.first, fault.first + fault.frames)
                lost |= {it.number for it in self.sent.frames if it.channel == fault.channel and it.ordinal in ordinals}
        return lost

    def make_passage(self, number: int) -> Passage:
        """What is recorded of a frame without any fault."""
        frame = self.sent.frames[number]
        octets = self.dress(frame.octets, frame.time)
        content, lead = int.from_bytes(octets, "big"), 8 * self.form.before
        return Passage("frame", number, content, 8 * len(octets), lead, is_good=True, has_marker=self.form.marker)

    def make_foreign(self, fault: Foreign, time: int) -> Passage:
        """What is recorded of a frame of another spacecraft, with idle data alone (132.0-B-3, section 4.1.2.7)."""
        length, has_code = self.sent.spacecraft.frame_length, self.sent.spacecraft.error_control
        frame = (fault.spacecraft << 4).to_bytes(2, "big") + self.chance.randbytes(2) + bytes.fromhex("1ffe")
        frame += self.chance.randbytes(length - len(frame) - 2 * has_code)
        octets = self.dress(frame + (error_control(frame) if has_code else b""), time)
        content, lead = int.from_bytes(octets, "big"), 8 * self.form.before
        return Passage("foreign", None, content, 8 * len(octets), lead, has_marker=self.form.marker)

    def dress(self, frame: bytes, time: int) -> bytes:
        """A frame with what is recorded before and after it."""
        coded = frame + self.chance.randbytes(self.form.check)
        stamp = encode_cds(time + LIGHT_TIME) if self.form.stamp else b""
        return stamp + (MARKER if self.form.marker else b"") + (randomize(coded) if self.form.randomized else coded)

    def record_noise(self, where: str) -> None:
        """Records noise: without a marker, and as a record without a good frame, since its version isn't 0."""
        for fault in self.faults:
            if isinstance(fault, Noise) and fault.where == where:
                step = self.form.before + self.sent.spacecraft.frame_length + self.form.check
                for octets in [step] * (fault.octets // step) + [fault.octets % step] * (fault.octets % step > 0):
                    noise = bytearray(self.chance.randbytes(octets).replace(MARKER[:2], b"\xff\xff"))
                    noise[self.form.before : self.form.before + 1] = b"\xff" * (octets > self.form.before)
                    self.passages.append(Passage("noise", None, int.from_bytes(noise, "big"), 8 * octets))

    def spoil(self, passage: Passage, fault: BitErrors | DamagedMarker) -> None:
        """Makes the wrong bits of a frame or of its marker."""
        begin = 8 * self.form.before
        if isinstance(fault, BitErrors):
            flip(passage, [begin + it for it in fault.bits])
            passage.is_good = False
        else:
            flip(passage, [begin - 8 * len(MARKER) + it for it in fault.bits])
            passage.has_marker = False

    def slip(self, passage: Passage, fault: Slip) -> None:
        """Loses or adds bits within what is recorded of a frame.  What is added before or after it is a passage of its own."""
        if fault.bits > 0 and fault.at in (0, passage.bits):
            place = self.passages.index(passage) + (fault.at > 0)
            self.passages.insert(place, Passage("noise", None, self.chance.getrandbits(fault.bits), fault.bits))
            return
        if fault.at - min(fault.bits, 0) > passage.bits:
            raise ValueError("more bits are lost than are recorded of the frame from there on")
        begin, end = 8 * self.form.before, 8 * (self.form.before + self.sent.spacecraft.frame_length)
        passage.is_torn = True
        passage.is_good &= not fault.hurts(begin, end)
        passage.lead += max(fault.bits, fault.at - begin) if fault.at <= begin else 0
        passage.has_marker &= not (fault.hurts(begin - 8 * len(MARKER), begin) or fault.bits > 0 and fault.at == begin)
        low = passage.bits - fault.at + min(fault.bits, 0)
        high, rest = passage.content >> (passage.bits - fault.at), passage.content & ((1 << low) - 1)
        added = max(fault.bits, 0)
        passage.content = (high << added | self.chance.getrandbits(added)) << low | rest
        passage.bits += fault.bits

    def invert(self, fault: Inverted) -> None:
        """Inverts all bits from a place of one frame to a place of another."""
        for passage in self.passages:
            if passage.frame is not None and fault.first <= passage.frame <= fault.last:
                begin = fault.at if passage.frame == fault.first else 0
                end = fault.at if passage.frame == fault.last else passage.bits
                if end > begin:
                    flip(passage, range(begin, end))
                    first = 8 * self.form.before
                    passage.is_inverted = True
                    passage.is_good &= end <= first or begin >= first + 8 * self.sent.spacecraft.frame_length
                    passage.has_marker &= end <= first - 8 * len(MARKER) or begin >= first


def flip(passage: Passage, bits: Sequence[int]) -> None:
    """Inverts bits of a passage, counted from its first."""
    for bit in bits:
        passage.content ^= 1 << (passage.bits - 1 - bit)


def join(passages: Sequence[Passage]) -> bytes:
    """The octets of all passages, whose places become known; the last octet is filled with zeros."""
    at = 0
    for passage in passages:
        passage.at = at
        at += passage.bits
    if all(it.bits % 8 == 0 for it in passages):
        return b"".join(it.content.to_bytes(it.bits // 8, "big") for it in passages)
    bits = "".join(f"{it.content:0{it.bits}b}" for it in passages if it.bits) + "0" * (-at % 8)
    return int(bits, 2).to_bytes(len(bits) // 8, "big")


def bits_at(octets: bytes, at: int, bits: int) -> int | None:
    """So many bits of some octets from a place on, as a number; None if there aren't so many."""
    end = -(-(at + bits) // 8)
    if end > len(octets):
        return None
    return int.from_bytes(octets[at // 8 : end], "big") >> (8 * end - at - bits) & ((1 << bits) - 1)


def settle(heard: Heard, passage: Passage) -> None:
    """Looks whether what follows lost bits is equal to them, so that a frame or a marker is there as it was sent."""
    if passage.frame is None or not passage.is_torn:
        return
    frame = heard.sent.frames[passage.frame].octets
    coded = randomize(frame) if heard.form.randomized else frame
    passage.is_good |= bits_at(heard.octets, passage.frame_at, 8 * len(frame)) == int.from_bytes(coded, "big")
    if heard.form.marker and passage.marker_at >= 0:
        passage.has_marker |= bits_at(heard.octets, passage.marker_at, 8 * len(MARKER)) == int.from_bytes(MARKER, "big")


def hear(sent: Sent, form: Form, faults: Sequence[Fault], seed: int) -> Heard:
    """What a station recorded of all that a spacecraft sent, with its faults."""
    recorder = Recorder(sent, form, faults, random.Random(seed))
    recorder.record()
    heard = Heard(sent, form, tuple(faults), recorder.passages, join(recorder.passages))
    for passage in heard.passages:
        settle(heard, passage)
    return heard
