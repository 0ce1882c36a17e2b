"""The lines that the program prints, each a frozen dataclass with the names of its keys.

`str` of one is the line itself.  The key `from` is `from_` here, since Python has this word for itself.
What the lines mean is in docs/FORMATS.md.
"""

import re
from collections.abc import Callable, Iterator
from dataclasses import dataclass, field, fields
from typing import Any, ClassVar, Generic, TypeVar

from .errors import VersionError

NUMBER = "0|[1-9][0-9]*"
WORD = "[a-z-]+"


@dataclass(frozen=True, slots=True)
class Line:
    """Any line of the program."""

    word: ClassVar[str]

    def __str__(self) -> str:
        return FORMS[type(self)].print(self)


# The lines of `tmx frames`.


@dataclass(frozen=True, slots=True)
class Frame(Line):
    """A good frame.

    record     the number of its record, from 0
    channel    its virtual channel, 0 to 7
    master     the master channel frame count, 0 to 255
    count      the virtual channel frame count, 0 to 255
    kind       `packets`, `nostart`, `idle` or `vca`
    place      for `packets` the place of the first packet that starts in the data field, else None
    secondary  the octets of its secondary header, 0 without one
    ocf        whether it has an operational control field
    order      the packet order flag, 0 or 1
    segment    the segment length identifier, 0 to 3
    octets     the octets of its data field
    """

    word: ClassVar[str] = "frame"
    record: int
    channel: int
    master: int
    count: int
    kind: str
    place: int | None
    secondary: int
    ocf: bool
    order: int
    segment: int
    octets: int


@dataclass(frozen=True, slots=True)
class Bad(Line):
    """A record that is no good frame; `fault` is the word of docs/FRAMES.md.  Of every channel."""

    word: ClassVar[str] = "bad"
    record: int
    fault: str


@dataclass(frozen=True, slots=True)
class Short(Line):
    """After so many records so many octets are left, fewer than a record."""

    word: ClassVar[str] = "short"
    record: int
    octets: int


# Packets, as `tmx packets --binary` writes them.

Lead = tuple[int, ...]  # the record that completes it, that in which it begins, its place and its channel; others aren't used
Parts = tuple[Lead, bytes]  # the lead of a packet and its octets, which say all of it

TYPES = ("tm", "tc")
FLAGS = ("continuation", "first", "last", "unsegmented")


class PacketParts:
    """What a packet keeps."""

    __slots__ = ("parts",)
    parts: Parts


def value_of(read: Callable[[Any], Any]) -> Any:
    """A value that is worked out when it is asked for.  As the default of a dataclass's field it stays in the class."""
    return property(read)


@dataclass(frozen=True, init=False, eq=False)
class Packet(PacketParts):
    """A packet that lies whole in a run of good frames.

    record     the record that completes it, from 0
    channel    its virtual channel, 0 to 7
    from_      the record in which it begins
    at         the place of its first octet in that record's data field
    type       `tm` or `tc`
    secondary  whether it has a secondary header
    apid       its application, 0 to 2047; 2047 is that of idle packets
    flags      `continuation`, `first`, `last` or `unsegmented`
    count      its sequence count, 0 to 16383
    octets     all its octets, its header of six octets included
    """

    __slots__ = ()

    record: int = value_of(lambda it: it.parts[0][0])
    channel: int = value_of(lambda it: it.parts[0][3])
    from_: int = value_of(lambda it: it.parts[0][1])
    at: int = value_of(lambda it: it.parts[0][2])
    type: str = value_of(lambda it: TYPES[it.parts[1][0] >> 4 & 1])
    secondary: bool = value_of(lambda it: it.parts[1][0] & 8 != 0)
    apid: int = value_of(lambda it: (it.parts[1][0] & 7) << 8 | it.parts[1][1])
    flags: str = value_of(lambda it: FLAGS[it.parts[1][2] >> 6])
    count: int = value_of(lambda it: (it.parts[1][2] & 63) << 8 | it.parts[1][3])
    octets: bytes = field(default=value_of(lambda it: it.parts[1]), repr=False)

    def __init__(
        self,
        record: int,
        channel: int,
        from_: int,
        at: int,
        type: str,
        secondary: bool,
        apid: int,
        flags: str,
        count: int,
        octets: bytes,
    ) -> None:
        """Raises ValueError where the octets' header says otherwise."""
        keep_parts(self, ((record, from_, at, channel), octets))
        if len(octets) < 7 or (self.type, self.secondary, self.apid, self.flags, self.count) != (type, secondary, apid, flags, count):
            raise ValueError("the packet's header has another type, secondary header, application, flags or count")

    def __eq__(self, other: object) -> bool:
        if not isinstance(other, Packet):
            return NotImplemented
        return self.parts[0][:4] == other.parts[0][:4] and self.octets == other.octets

    def __hash__(self) -> int:
        return hash((self.parts[0][:4], self.octets))

    def __reduce__(self) -> tuple[Callable[[Lead, bytes], "Packet"], Parts]:
        return read_packet, self.parts

    def __str__(self) -> str:
        """The line of `tmx packets`."""
        return (
            f"packet record={self.record} channel={self.channel} from={self.from_} at={self.at} type={self.type}"
            f" secondary={'yes' if self.secondary else 'no'} apid={self.apid} flags={self.flags} count={self.count}"
            f" octets={len(self.octets)}"
        )


keep_parts: Callable[[Packet, Parts], None] = vars(PacketParts)["parts"].__set__
new_packet: Callable[[type[Packet]], Packet] = object.__new__  # without the constructor, which would look at all values


def read_packet(lead: Lead, octets: bytes) -> Packet:
    found = new_packet(Packet)
    keep_parts(found, (lead, octets))
    return found


# The lines of reports.  `Bad` and `Short` are among them.


@dataclass(frozen=True, slots=True)
class MasterGap(Line):
    """Frames of any channels, `missing` of them modulo 256, are missing between the good frame before and this one.

    A bad frame between them is one of these, if it is a frame of this spacecraft.
    """

    word: ClassVar[str] = "mastergap"
    record: int
    expected: int
    found: int
    missing: int


@dataclass(frozen=True, slots=True)
class Gap(Line):
    """Frames of the channel, `missing` of them modulo 256, are missing between its good frame before and this one.

    A bad frame between them is one of these, if it is a frame of the channel.
    """

    word: ClassVar[str] = "gap"
    record: int
    channel: int
    expected: int
    found: int
    missing: int


@dataclass(frozen=True, slots=True)
class Vca(Line):
    """A frame that holds a VCA_SDU, which is not given."""

    word: ClassVar[str] = "vca"
    record: int
    channel: int


@dataclass(frozen=True, slots=True)
class Dropped(Line):
    """So many octets of the channel are lost, from place `at` of record `from_` on; docs/RUNS.md has the reasons."""

    word: ClassVar[str] = "drop"
    record: int
    channel: int
    from_: int
    at: int
    octets: int
    reason: str


@dataclass(frozen=True, slots=True)
class SequenceGap(Line):
    """Packets of the application, `missing` of them modulo 16384, are missing in this channel.

    Without a `Gap` or `Dropped` of the channel since the application's previous packet they are perhaps on another channel,
    weren't sent, or were lost with a multiple of 256 frames of the channel.
    """

    word: ClassVar[str] = "seqgap"
    record: int
    channel: int
    apid: int
    expected: int
    found: int
    missing: int


@dataclass(frozen=True, slots=True)
class Broken(Line):
    """A group of segments that is incomplete: `first` and `last` are its first count and the last one before it was broken off.

    Segments of the group may still come, its last one too, as `Stray`, or the whole group, if a frame was recorded twice.
    """

    word: ClassVar[str] = "broken"
    record: int
    channel: int
    apid: int
    first: int
    last: int
    reason: str


@dataclass(frozen=True, slots=True)
class Group(Line):
    """A whole group of segments, by its first and its last count."""

    word: ClassVar[str] = "group"
    record: int
    channel: int
    apid: int
    first: int
    last: int


@dataclass(frozen=True, slots=True)
class Stray(Line):
    """A segment in no open group; `flag` is `continuation` or `last`.

    An earlier segment of its group is missing, its group is broken already, or the segment came twice.
    """

    word: ClassVar[str] = "stray"
    record: int
    channel: int
    apid: int
    count: int
    flag: str


@dataclass(frozen=True, slots=True)
class ShortPacket(Line):
    """A packet that has fewer bits than the definition's fields need; of `fields` alone."""

    word: ClassVar[str] = "shortpacket"
    record: int
    channel: int
    from_: int
    at: int
    needed: int
    found: int


# The lines of `tmx summary`.


@dataclass(frozen=True, slots=True)
class RecordingCounts(Line):
    """Whole records, those that are good frames, those that are bad, and the octets that are left behind them."""

    word: ClassVar[str] = "recording"
    records: int
    good: int
    bad: int
    rest: int


@dataclass(frozen=True, slots=True)
class FaultCounts(Line):
    """The bad frames with this fault.  `fault` is the key `word` of the line."""

    word: ClassVar[str] = "fault"
    fault: str
    records: int


@dataclass(frozen=True, slots=True)
class MasterCounts(Line):
    """The gaps of the master channel, and the frames that are missing there."""

    word: ClassVar[str] = "master"
    gaps: int
    missing: int


@dataclass(frozen=True, slots=True)
class ChannelCounts(Line):
    """What came of a channel.

    frames, idle, vca  its good frames, and those among them of idle data alone and with a VCA_SDU
    gaps, missing      the gaps of its counts, and the frames that are missing there
    packets, octets    its whole packets, idle ones too, and their octets
    dropped, lost      its dropped parts, and their octets
    data               the octets of its data fields, those of `idle` and `vca` frames left out
    """

    word: ClassVar[str] = "channel"
    channel: int
    frames: int
    idle: int
    vca: int
    gaps: int
    missing: int
    packets: int
    octets: int
    dropped: int
    lost: int
    data: int


@dataclass(frozen=True, slots=True)
class LossCounts(Line):
    """The dropped parts of a channel that have this reason, and their octets."""

    word: ClassVar[str] = "loss"
    channel: int
    reason: str
    parts: int
    octets: int


@dataclass(frozen=True, slots=True)
class ApplicationCounts(Line):
    """What came of an application of a channel.

    packets, octets  its whole packets, and their octets
    first, last      the records that completed the first and the last of them
    gaps, missing    the gaps of its sequence counts, and the packets that are missing there
    groups, broken   its whole groups, and its broken ones
    strays           its segments in no group
    """

    word: ClassVar[str] = "application"
    channel: int
    apid: int
    packets: int
    octets: int
    first: int
    last: int
    gaps: int
    missing: int
    groups: int
    broken: int
    strays: int


# Reading and printing.

KEYS = {"from_": "from"}  # names of dataclasses that are other words in the line, and those of `fault` lines
KEYS_OF_FAULT = {"fault": "word"}

L = TypeVar("L", bound=Line)


class Form(Generic[L]):
    """How a line of one kind is printed and read: its first word, and its keys in order."""

    def __init__(self, kind: type[L]) -> None:
        self.kind = kind
        names = KEYS_OF_FAULT if kind is FaultCounts else KEYS
        self.keys = [(it.name, names.get(it.name, it.name)) for it in fields(kind)]
        self.readers = [READERS[it.type] for it in fields(kind)]
        parts = [part_of(names.get(it.name, it.name), it.type, it.default is None) for it in fields(kind)]
        self.pattern = re.compile(kind.word + "".join(parts))

    def read(self, line: str) -> L:
        """The line's values.  Raises VersionError where it has another form."""
        found = self.pattern.fullmatch(line)
        if found is None:
            raise unknown_line(line)
        return self.kind(*[reader(it) for reader, it in zip(self.readers, found.groups())])

    def print(self, item: Line) -> str:
        said = ((key, getattr(item, name)) for name, key in self.keys)
        return self.kind.word + "".join(f" {key}={printed(it)}" for key, it in said if (key, it) != ("data", None))


READERS: dict[Any, Any] = {
    int: int,
    str: str,
    bool: lambda said: said == "yes",
    int | None: lambda said: None if said in ("-", None) else int(said),
}
VALUES: dict[Any, str] = {int: NUMBER, str: WORD, bool: "yes|no", int | None: f"-|{NUMBER}"}


def part_of(key: str, kind: Any, optional: bool) -> str:
    """The pattern of a key and its value."""
    part = f" {key}=({VALUES[kind]})"
    return f"(?:{part})?" if optional else part


def printed(value: int | str | bool | None) -> str:
    """A value as the line has it."""
    if value is None:
        return "-"
    if isinstance(value, bool):
        return "yes" if value else "no"
    return str(value)


def unknown_line(line: str) -> VersionError:
    return VersionError(f"the program printed a line that this package doesn't know; is it too old or too new? {line[:200]!r}")


FRAMES = (Frame, Bad, Short)
REPORT = (Bad, MasterGap, Gap, Vca, Dropped, Short, SequenceGap, Broken, Group, Stray, ShortPacket)
SUMMARY = (RecordingCounts, FaultCounts, MasterCounts, ChannelCounts, LossCounts, ApplicationCounts)
FORMS: dict[type[Line], Form[Any]] = {kind: Form(kind) for kind in {*FRAMES, *REPORT, *SUMMARY}}


def read_lines(text: str, kinds: tuple[type[Line], ...]) -> Iterator[Any]:
    """The lines of a text, each of one of these kinds.  Raises VersionError at one that is of none."""
    forms = {kind.word: FORMS[kind] for kind in kinds}
    for line in text.splitlines():
        form = forms.get(line.partition(" ")[0])
        if form is None:
            raise unknown_line(line)
        yield form.read(line)


# All packet lines of a text are read together, since there are many.

PACKET_LINE = re.compile(
    f"^packet record=({NUMBER}) channel=([0-7]) from=({NUMBER}) at=({NUMBER}) type=(tm|tc) secondary=(yes|no)"
    f" apid=({NUMBER}) flags=({WORD}) count=({NUMBER}) octets=({NUMBER})$",
    re.MULTILINE,
)

PacketValues = tuple[str, str, str, str, str, str, str, str, str, str]


def read_packet_lines(text: str) -> list[PacketValues]:
    """The values of each line of a text of whole lines.  Raises VersionError at one that is none of a packet."""
    found: list[PacketValues] = PACKET_LINE.findall(text)
    if len(found) != text.count("\n"):
        raise unknown_line(next(it for it in text.splitlines() if not PACKET_LINE.fullmatch(it)))
    return found
