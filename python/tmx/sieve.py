"""Packets that are too short for a row of an XTCE container: which of them are the container's, and which another one's."""

import os
from collections.abc import Sequence
from dataclasses import dataclass, field
from typing import TYPE_CHECKING, Any, Protocol

from .errors import DisagreementError
from .lines import ShortPacket
from .packets import parts_in
from .runs import Command, Runs

if TYPE_CHECKING:
    from .fields import Fields

MOST_KNOWN = 1 << 12  # octets whose comparison is kept


class Placed(Protocol):
    """A field of packets: its first bit, and the bit behind it."""

    @property
    def offset(self) -> int: ...

    @property
    def end(self) -> int: ...

    def raw_value(self, octets: bytes) -> Any: ...


class Condition(Protocol):
    """What packets have to keep."""

    @property
    def field(self) -> Placed: ...

    def is_kept(self, raw: Any) -> bool: ...


@dataclass
class Sieve:
    """Looks at each packet that is too short for a row.

    apid, channels  the application and the channels whose packets are looked at; None is all channels
    bits            how many bits a row needs
    conditions      what the container's packets keep
    seen            how many packets of the application are too short
    count           how many of them keep all conditions
    unclear         how many of them keep the conditions whose fields they have, and lack fields of others
    """

    apid: int
    channels: frozenset[int] | None
    bits: int
    conditions: Sequence[Condition]
    seen: int = 0
    count: int = 0
    unclear: int = 0
    most: int | None = None  # lines that are kept; None is all
    told: int | None = None  # packets that are looked at, where the recording may have grown since the program told this number
    lines: list[bytes] = field(default_factory=list)
    known: dict[bytes, bool | None] = field(default_factory=dict)  # by the octets that the conditions are about
    rest: bytes = b""
    command: Command = Command(["packets", "--binary", "--report", os.devnull])

    def __post_init__(self) -> None:
        self.begin = min((it.field.offset // 8 for it in self.conditions), default=0)
        self.end = max((-(-it.field.end // 8) for it in self.conditions), default=0)

    def take(self, octets: bytes) -> None:
        """Looks at the packets in what the program gives next."""
        block = self.rest + octets
        found, end = parts_in(block)
        self.rest = block[end:]
        high, low, needed = self.apid >> 8, self.apid & 255, -(-self.bits // 8)
        for lead, packet in found:
            if lead[4] < needed and packet[1] == low and packet[0] & 7 == high:
                if self.channels is None or lead[3] in self.channels:
                    self.add(lead, packet)

    def read(self, runs: Runs, told: int) -> None:
        """Looks at the packets that a run gives, which is the only one, up to this number of them that are too short."""
        self.told = told
        while octets := runs.chunk(0):
            self.take(octets)
        runs.finish()

    def add(self, lead: Sequence[int], packet: bytes) -> None:
        """Counts a packet that is too short."""
        if self.seen == self.told:
            return
        self.seen += 1
        keeps = self.keeps(packet)
        self.unclear += keeps is None
        if not keeps:
            return
        self.count += 1
        if self.most is None or len(self.lines) < self.most:
            line = ShortPacket(lead[0], lead[3], lead[1], lead[2], self.bits, 8 * len(packet))
            self.lines.append(f"{line}\n".encode("ascii"))

    def keeps(self, packet: bytes) -> bool | None:
        """Whether a packet keeps the conditions; None where it keeps those whose fields it has, and lacks fields of others."""
        key = packet[self.begin : self.end]  # a packet that lacks some has fewer octets here
        if key not in self.known:
            if len(self.known) >= MOST_KNOWN:
                self.known.clear()
            there = [it for it in self.conditions if it.field.end <= 8 * len(packet)]
            is_whole = len(there) == len(self.conditions)
            self.known[key] = (is_whole or None) if all(it.is_kept(it.field.raw_value(packet)) for it in there) else False
        return self.known[key]

    def give_to(self, fields: "Fields") -> None:
        """Tells a table which packets are too short for it.  Raises DisagreementError where the program told others."""
        if self.rest or self.seen != fields.short_count:
            said = f"packets too short for a row: {self.seen} now, and {fields.short_count} in the report"
            raise DisagreementError(f"{said}: did the recording change?")
        fields.short_lines, fields.short_count, fields.unclear_count = self.lines, self.count, self.unclear
