"""What `tmx packets --binary` writes, as packets one by one, and as an array of numpy with the octets of all."""

import io
import struct
from array import array
from collections.abc import Callable, Iterator
from dataclasses import dataclass
from typing import Any, NamedTuple

from .arguments import APPLICATIONS, CHANNELS, Numbers, numbers
from .errors import DisagreementError
from .lines import Packet, Parts, read_packet
from .notes import numbered, warn
from .runs import Runs
from .source import Source
from .values import module

LEAD = 16  # octets of a lead: the record, that of the beginning, the place there, the channel and a zero, the octets
HEAD = struct.Struct("<IIHHI4xBB")  # these, and the last two octets of the packet's header, which say its length
LENGTH = struct.Struct("<12xI")  # the octets of a lead alone

# The same and the header in an array of numpy, and what is given of both.
HEADS = [
    *(("record", "<u4"), ("from_", "<u4"), ("at", "<u2"), ("channel", "<u2"), ("octets", "<u4")),
    *(("identification", ">u2"), ("sequence", ">u2"), ("length", ">u2")),
]
GIVEN = [
    *(("record", "u4"), ("channel", "u1"), ("from_", "u4"), ("at", "u2"), ("type", "u1"), ("secondary", "?"), ("apid", "u2")),
    *(("flags", "u1"), ("count", "u2"), ("octets", "u4"), ("offset", "u8")),
]


class PacketArray(NamedTuple):
    """Packets in an array of numpy.

    packets  a structured array with a row for each packet, whose columns are the values of a Packet.  `type` is 0 (`tm`) or 1
             (`tc`), and `flags` 0 (`continuation`), 1 (`first`), 2 (`last`) or 3 (`unsegmented`).  `octets` says how many octets
             the packet has, and `offset` where they begin
    octets   the octets of all packets, each behind the 16 octets of its lead, as docs/FORMATS.md has it
    """

    packets: Any
    octets: bytes


@dataclass(frozen=True)
class Chosen:
    """Which packets are wanted: their applications and channels; None is all."""

    apids: frozenset[int] | None = None
    channels: frozenset[int] | None = None

    def has(self, apid: int, channel: int) -> bool:
        return (self.apids is None or apid in self.apids) and (self.channels is None or channel in self.channels)


class Missing:
    """The chosen applications and channels of which no packet came; `all` where none came at all."""

    def __init__(self, chosen: Chosen) -> None:
        self.chosen = chosen
        self.all = True
        self.apids, self.channels = set(chosen.apids or ()), set(chosen.channels or ())

    def warn(self, source: Source) -> None:
        """Warns of them, if there are any."""
        channels = self.chosen.channels or frozenset()
        said = [numbered("channel", self.channels)] if self.channels else []
        if self.apids and len(self.channels) < max(1, len(channels)):
            said.append(numbered("application", self.apids) + (f" on {numbered('channel', channels)}" if channels else ""))
        if said:
            warn(f"no packet of {', and none of '.join(said)}", source)
        elif self.all:
            warn("no packet: the good frames have no whole one", source)


def chosen(apid: Numbers, channel: Numbers) -> Chosen:
    """What a caller chooses.  Raises TypeError where a number is none, and ValueError where it is out of its range."""
    return Chosen(numbers("apid", apid, APPLICATIONS), numbers("channel", channel, CHANNELS))


def all_packets(runs: Runs, number: int) -> Iterator[Packet]:
    """The packets that the run of this number gives, one by one.  Raises what `blocks_of` raises."""
    return (read_packet(*it) for block in blocks_of(runs, Missing(Chosen()), number) for it in block)


def blocks_of(runs: Runs, missing: Missing, number: int = 0) -> Iterator[list[Parts]]:
    """The parts of the chosen packets that a run gives, some at a time.  What they are leaves `missing`.

    Raises the run's error where it ends by one, and DisagreementError where its last packet isn't whole.
    """
    rest = b""
    while octets := runs.chunk(number):
        block = rest + octets
        found, end = parts_in(block)
        missing.all = missing.all and not end
        rest = block[end:]
        yield chosen_parts(found, missing)
    if rest:
        raise runs.runs[number].fault() or not_whole(rest)


def parts_in(block: bytes) -> tuple[list[Parts], int]:
    """The parts of the packets that lie whole in a block, and where the first begins that doesn't."""
    at, last, length = 0, len(block) - HEAD.size, len(block)
    found: list[Parts] = []
    unpack: Callable[[bytes, int], Any] = HEAD.unpack_from
    while at <= last:
        lead = unpack(block, at)
        begin = at + LEAD
        end = begin + lead[4]
        if lead[4] - 7 != lead[5] << 8 | lead[6] or lead[3] > 7:
            raise other_lead(block[at : at + HEAD.size])
        if end > length:
            break
        at = end
        found.append((lead, block[begin:end]))
    return found, at


def chosen_parts(found: list[Parts], missing: Missing) -> list[Parts]:
    """The chosen ones.  What they are leaves `missing`."""
    apids, channels = missing.chosen.apids, missing.chosen.channels
    if channels is not None:
        missing.channels.difference_update([lead[3] for lead, _ in found])
        found = [it for it in found if it[0][3] in channels]
    if apids is not None:
        found = [it for it in found if (it[1][0] & 7) << 8 | it[1][1] in apids]
        missing.apids.difference_update([(octets[0] & 7) << 8 | octets[1] for _, octets in found])
    return found


def not_whole(octets: bytes) -> DisagreementError:
    return DisagreementError(f"the program's last packet isn't whole: {octets[:HEAD.size].hex(' ')}")


def other_lead(octets: bytes) -> DisagreementError:
    return DisagreementError(f"the program gave a packet whose lead and header disagree: {octets.hex(' ')}")


# In an array of numpy.


def array_of(runs: Runs, missing: Missing) -> PacketArray:
    """The chosen packets that a run gives.  Raises ImportError where numpy isn't there, else what `blocks_of` raises."""
    numpy = module("numpy")
    if numpy is None:
        raise ImportError("numpy is not there: `packets` gives packets one by one")
    whole, offsets, end = io.BytesIO(), array("q"), 0
    while block := runs.chunk(0):
        whole.write(block)
        with whole.getbuffer() as octets:
            end = add_offsets(octets, end, offsets)
    runs.finish()
    given = whole.getvalue()
    if end != len(given):
        raise not_whole(given[offsets[-1] if offsets else 0 :])
    return PacketArray(chosen_of(numpy, read_array(numpy, given, offsets), missing), given)


def add_offsets(octets: memoryview, at: int, offsets: "array[int]") -> int:
    """Adds where each lead begins from here on.  Where the one begins that isn't there yet."""
    last, unpack = len(octets) - HEAD.size, LENGTH.unpack_from
    while at <= last:
        offsets.append(at)
        at += LEAD + unpack(octets, at)[0]
    return at


def read_array(numpy: Any, octets: bytes, each: "array[int]") -> Any:
    """All packets, from their leads, which begin there, and their headers."""
    offsets = numpy.frombuffer(each, "q")
    if not each:
        return numpy.empty(0, GIVEN)
    at_each_octet = numpy.ndarray(len(octets) - HEAD.size + 1, HEADS, octets, strides=(1,))
    heads, found = at_each_octet[offsets], numpy.empty(len(offsets), GIVEN)
    wrong = (heads["channel"] > 7) | (heads["octets"] != heads["length"].astype("u4") + 7)
    if wrong.any():
        at = int(offsets[wrong.argmax()])
        raise other_lead(octets[at : at + HEAD.size])
    for name in ("record", "channel", "from_", "at", "octets"):
        found[name] = heads[name]
    found["type"] = heads["identification"] >> 12 & 1
    found["secondary"] = heads["identification"] & 0x800 != 0
    found["apid"] = heads["identification"] & 0x7FF
    found["flags"] = heads["sequence"] >> 14
    found["count"] = heads["sequence"] & 0x3FFF
    found["offset"] = offsets + LEAD
    return found


def chosen_of(numpy: Any, packets: Any, missing: Missing) -> Any:
    """The chosen ones.  What they are leaves `missing`."""
    missing.all = not len(packets)
    missing.channels -= set(packets["channel"].tolist())
    if missing.chosen.channels is not None:
        packets = packets[numpy.isin(packets["channel"], list(missing.chosen.channels))]
    missing.apids -= set(packets["apid"].tolist())
    if missing.chosen.apids is not None:
        packets = packets[numpy.isin(packets["apid"], list(missing.chosen.apids))]
    return packets
