"""A spacecraft, and what it sends: frames and packets, each with its truth."""

import random
from collections import deque
from collections.abc import Collection
from dataclasses import dataclass, field, replace
from typing import Literal

from .codes import Clcw, encode_cds, encode_cuc, error_control

IDLE = 2047  # the application of idle packets (133.0-B-2, section 4.1.3.3)
ONLY_IDLE, NO_START = 2046, 2047  # first header pointers (132.0-B-3, section 4.1.2.7)
CONTINUATION, FIRST, LAST, UNSEGMENTED = range(4)  # sequence flags (133.0-B-2, section 4.1.3.4)


@dataclass(frozen=True)
class Application:
    """An application on board.

    lengths    the least and the most octets of a unit of its data
    segment    the most octets of a unit in one packet, if units are segmented; 0 for packets without segments
    time       the secondary header that each of its packets has; "" for none
    """

    apid: int
    lengths: tuple[int, int] = (1, 300)
    segment: int = 0
    time: Literal["", "cuc", "cds"] = ""


@dataclass(frozen=True)
class Channel:
    """A virtual channel.

    rate          its share of the frames, compared with the rates of the others
    kind          `packets`, `vca` or `idle`, whose frames have idle data alone
    ocf           whether its frames have an operational control field
    secondary     octets of the frames' secondary header; 4 with the extended virtual channel frame count if `extended`
    idle_packets  which share of its packets is idle
    idle_frames   which share of its frames has only idle data
    """

    number: int
    applications: tuple[Application, ...] = ()
    rate: int = 1
    kind: Literal["packets", "vca", "idle"] = "packets"
    ocf: bool = False
    secondary: int = 0
    extended: bool = False
    idle_packets: float = 0.0
    idle_frames: float = 0.0


@dataclass(frozen=True)
class Spacecraft:
    """A spacecraft.  A frame takes `frame_time` microseconds, and `clock` is the time on board at the first one."""

    number: int
    channels: tuple[Channel, ...]
    frame_length: int = 256
    error_control: bool = True
    frame_time: int = 8_000
    clock: int = 24_000 * 86_400_000_000

    def field_length(self, channel: Channel) -> int:
        """The octets of the data field of a channel's frames (132.0-B-3, section 4.1.1)."""
        return self.frame_length - 6 - channel.secondary - 4 * channel.ocf - 2 * self.error_control


@dataclass(slots=True)
class SentPacket:
    """A packet that was sent.

    number     its number among all packets, in the order in which channels took them
    frames     the numbers of the frames that carry it
    time       when it was made, in microseconds of the spacecraft's true time
    on_board   the same by the spacecraft's clock, as its secondary header has it; another after a reset
    boot       how many resets there were before
    is_cut     whether its end wasn't sent: there was a reset, or the pass ended
    """

    number: int
    channel: int
    apid: int
    count: int
    flags: int
    octets: bytes
    time: int
    on_board: int
    boot: int
    frames: list[int] = field(default_factory=list)
    is_cut: bool = True


@dataclass(frozen=True, slots=True)
class Piece:
    """The octets `begin` to `end` of a packet, at a place of a data field."""

    packet: int
    begin: int
    end: int
    place: int


@dataclass(frozen=True, slots=True)
class SentFrame:
    """A frame that was sent.

    number           its number among all frames, from 0
    master, count    the frame counts of its master channel and of its channel, modulo 256
    extended         its extended frame count, modulo 2^32, if its secondary header has it
    ordinal, since   its number in its channel: among all frames, and since the reset before
    boot             how many resets there were before
    time             when it was sent, in microseconds of the spacecraft's true time
    """

    number: int
    channel: int
    master: int
    count: int
    extended: int | None
    ordinal: int
    since: int
    boot: int
    time: int
    kind: Literal["packets", "nostart", "idle", "vca"]
    pieces: tuple[Piece, ...]
    clcw: Clcw | None
    octets: bytes


@dataclass(frozen=True)
class Sent:
    """All that a spacecraft sent in a pass.  `resets` are the numbers of the frames before which all counts began at 0."""

    spacecraft: Spacecraft
    frames: list[SentFrame]
    packets: list[SentPacket]
    resets: list[int]


def make_packet(apid: int, flags: int, count: int, header: bytes, data: bytes) -> bytes:
    """A telemetry packet: version 0, type 0, and its secondary header, if it has one (133.0-B-2, section 4.1)."""
    identification = bool(header) << 11 | apid
    lengths = (identification, flags << 14 | count % 16384, len(header) + len(data) - 1)
    return b"".join(it.to_bytes(2, "big") for it in lengths) + header + data


def make_header(spacecraft: int, channel: Channel, master: int, count: int, status: int) -> bytes:
    """A primary header of a frame: version 0, and two flags of the channel (132.0-B-3, section 4.1.2).

    `status` has the synchronization flag, the packet order flag, the segment length identifier and the pointer.
    """
    first = spacecraft << 4 | channel.number << 1 | channel.ocf
    status |= bool(channel.secondary) << 15
    return first.to_bytes(2, "big") + bytes((master % 256, count % 256)) + status.to_bytes(2, "big")


def make_secondary(channel: Channel, count: int, chance: random.Random) -> bytes:
    """A secondary header of a frame: version 0, its length less one, and data (132.0-B-3, section 4.1.3).

    With the extended virtual channel frame count the data are its upper 24 bits; the lower 8 are in the primary header.
    """
    if not channel.secondary:
        return b""
    data = (count >> 8).to_bytes(3, "big") if channel.extended else chance.randbytes(channel.secondary - 1)
    return bytes((channel.secondary - 1,)) + data


class Source:
    """An application while it sends."""

    def __init__(self, application: Application) -> None:
        self.application = application
        self.count = 0
        self.segments: deque[tuple[int, bytes]] = deque()

    def take(self, on_board: int, chance: random.Random) -> tuple[int, int, bytes]:
        """The flags, the count and the octets of its next packet."""
        if not self.segments:
            self.segments.extend(self.split(chance.randbytes(chance.randint(*self.application.lengths))))
        flags, data = self.segments.popleft()
        count, self.count = self.count, (self.count + 1) % 16384
        header = {"": b"", "cuc": encode_cuc(on_board), "cds": encode_cds(on_board)}[self.application.time]
        return flags, count, make_packet(self.application.apid, flags, count, header, data)

    def split(self, unit: bytes) -> list[tuple[int, bytes]]:
        """A unit of data as segments with their flags (133.0-B-2, section 4.1.3.4)."""
        step = self.application.segment or len(unit)
        parts = [unit[at : at + step] for at in range(0, len(unit), step)]
        if len(parts) == 1:
            return [(UNSEGMENTED, unit)]
        return [(FIRST, parts[0]), *((CONTINUATION, it) for it in parts[1:-1]), (LAST, parts[-1])]


@dataclass
class Line:
    """A channel while it sends: its packet that isn't sent to its end, and how many octets of this were sent."""

    channel: Channel
    ordinal: int = 0
    since: int = 0
    packet: SentPacket | None = None
    done: int = 0
    idle_count: int = 0


class Sender:
    """A spacecraft while it sends."""

    def __init__(self, spacecraft: Spacecraft, seed: int) -> None:
        self.spacecraft = spacecraft
        self.chance = random.Random(seed)
        self.lines = [Line(it) for it in spacecraft.channels]
        self.sources = {app: Source(app) for it in spacecraft.channels for app in it.applications}
        self.rates = [it.rate for it in spacecraft.channels]
        self.sent = Sent(spacecraft, [], [], [])
        self.master = self.boot = 0
        self.time = self.on_board = spacecraft.clock
        self.clcw = Clcw(spacecraft.channels[0].number)

    def send_frame(self) -> None:
        """Sends a frame of a channel that its rate chooses."""
        line = self.chance.choices(self.lines, self.rates)[0]
        channel, chance = line.channel, self.chance
        kind, data, pieces, status = self.fill_field(line)
        header = make_header(self.spacecraft.number, channel, self.master, line.since, status)
        octets = header + make_secondary(channel, line.since, chance) + data + (self.clcw.encode() if channel.ocf else b"")
        octets += error_control(octets) if self.spacecraft.error_control else b""
        counts = (self.master, line.since % 256, line.since if channel.extended else None, line.ordinal, line.since, self.boot)
        clcw = self.clcw if channel.ocf else None
        number = len(self.sent.frames)
        self.sent.frames.append(SentFrame(number, channel.number, *counts, self.time, kind, tuple(pieces), clcw, octets))
        self.master = (self.master + 1) % 256
        line.ordinal, line.since = line.ordinal + 1, line.since + 1
        self.time, self.on_board = self.time + self.spacecraft.frame_time, self.on_board + self.spacecraft.frame_time
        if chance.random() < 0.02:
            self.change_clcw()

    def fill_field(self, line: Line) -> tuple[Literal["packets", "nostart", "idle", "vca"], bytes, list[Piece], int]:
        """The kind, the data field, the pieces in it, and the status of the next frame (132.0-B-3, 4.1.2.7 and 4.1.4)."""
        length, chance = self.spacecraft.field_length(line.channel), self.chance
        if line.channel.kind == "vca":
            return "vca", chance.randbytes(length), [], 1 << 14 | chance.getrandbits(14)
        if line.channel.kind == "idle" or chance.random() < line.channel.idle_frames:
            return "idle", chance.randbytes(length), [], 3 << 11 | ONLY_IDLE
        pieces, parts, place = [], [], 0
        while place < length:
            packet = line.packet or self.take_packet(line)
            begin, end = line.done, min(len(packet.octets), line.done + length - place)
            packet.frames.append(len(self.sent.frames))
            packet.is_cut = end < len(packet.octets)
            pieces.append(Piece(packet.number, begin, end, place))
            parts.append(packet.octets[begin:end])
            place += end - begin
            line.packet, line.done = (packet, end) if packet.is_cut else (None, 0)
        pointer = next((it.place for it in pieces if not it.begin), NO_START)
        return "nostart" if pointer == NO_START else "packets", b"".join(parts), pieces, 3 << 11 | pointer

    def take_packet(self, line: Line) -> SentPacket:
        """The channel's next packet: of one of its applications, or an idle one (133.0-B-2, section 4.1.3.3)."""
        channel, chance = line.channel, self.chance
        if not channel.applications or chance.random() < channel.idle_packets:
            apid, flags, count = IDLE, UNSEGMENTED, line.idle_count
            octets = make_packet(apid, flags, count, b"", chance.randbytes(chance.randint(1, 200)))
            line.idle_count = (count + 1) % 16384
        else:
            source = self.sources[chance.choice(channel.applications)]
            apid = source.application.apid
            flags, count, octets = source.take(self.on_board, chance)
        number = len(self.sent.packets)
        packet = SentPacket(number, channel.number, apid, count, flags, octets, self.time, self.on_board, self.boot)
        self.sent.packets.append(packet)
        return packet

    def change_clcw(self) -> None:
        """Another telecommand came, or a flag of the receiver changed."""
        word, flag = self.clcw, self.chance.choice(("report", "no_rf", "no_bit_lock", "lockout", "wait", "retransmit", "farm_b"))
        changed = {"report": (word.report + 1) % 256, "farm_b": (word.farm_b + 1) % 4}
        self.clcw = replace(word, **{flag: changed.get(flag, not getattr(word, flag))})

    def reset(self) -> None:
        """All counts and the clock begin at 0, and what wasn't sent is lost on board."""
        self.boot += 1
        self.master = self.on_board = 0
        self.sent.resets.append(len(self.sent.frames))
        self.lines = [Line(it.channel, it.ordinal) for it in self.lines]
        self.sources = {app: Source(app) for app in self.sources}


def send(spacecraft: Spacecraft, frames: int, seed: int, resets: Collection[int] = ()) -> Sent:
    """All that a spacecraft sends in so many frames.  Before the frames with the numbers `resets` all counts begin at 0."""
    sender = Sender(spacecraft, seed)
    for number in range(frames):
        if number in resets:
            sender.reset()
        sender.send_frame()
    return sender.sent
