"""What the standards code: sync marker, pseudo-random sequence, error control, times, and the control word of the receiver."""

import binascii
from dataclasses import dataclass

MARKER = bytes.fromhex("1ACFFC1D")  # the attached sync marker: 131.0-B-3, section 9
DAY = 86_400_000_000  # microseconds


def make_sequence() -> bytes:
    """The 255 octets after which the pseudo-random sequence repeats (131.0-B-3, section 10).

    h(x) = x^8 + x^7 + x^5 + x^3 + 1, and the register begins as all ones.  A bit leaves the register, and the sum of
    the bits 0, 3, 5 and 7 enters it.
    """
    register, number = [1] * 8, 0
    for _ in range(255 * 8):
        number = number << 1 | register[0]
        register = [*register[1:], register[0] ^ register[3] ^ register[5] ^ register[7]]
    return number.to_bytes(255, "big")


SEQUENCE = make_sequence()


def randomize(octets: bytes) -> bytes:
    """The octets with the pseudo-random sequence added, which begins again with each frame (131.0-B-3, section 10)."""
    sequence = (SEQUENCE * (len(octets) // 255 + 1))[: len(octets)]
    return (int.from_bytes(octets, "big") ^ int.from_bytes(sequence, "big")).to_bytes(len(octets), "big")


def error_control(octets: bytes) -> bytes:
    """The frame error control field of the octets before it: x^16 + x^12 + x^5 + 1, from all ones (132.0-B-3, section 4.1.6)."""
    return binascii.crc_hqx(octets, 0xFFFF).to_bytes(2, "big")


def encode_cuc(microseconds: int) -> bytes:
    """A time as unsegmented code: 4 octets of seconds, 2 of their binary fraction, rounded down (301.0-B-4, section 3.2)."""
    return (microseconds * 65536 // 1_000_000).to_bytes(6, "big")


def encode_cds(microseconds: int) -> bytes:
    """A time as day-segmented code: day, millisecond of the day, microsecond of that (301.0-B-4, section 3.3)."""
    day, rest = divmod(microseconds, DAY)
    milliseconds, rest = divmod(rest, 1000)
    return day.to_bytes(2, "big") + milliseconds.to_bytes(4, "big") + rest.to_bytes(2, "big")


@dataclass(frozen=True, slots=True)
class Clcw:
    """The communications link control word of a channel for telecommands (232.0-B, section 4.2.1)."""

    channel: int = 0
    no_rf: bool = False
    no_bit_lock: bool = False
    lockout: bool = False
    wait: bool = False
    retransmit: bool = False
    farm_b: int = 0
    report: int = 0

    def encode(self) -> bytes:
        """Type 0, version 0, status 0, COP-1, channel, 2 spare bits, five flags, FARM-B counter, 1 spare bit, report value."""
        number = 1 << 24 | self.channel << 18
        flags = (self.no_rf, self.no_bit_lock, self.lockout, self.wait, self.retransmit)
        for bit, flag in zip(range(15, 10, -1), flags, strict=True):
            number |= flag << bit
        return (number | self.farm_b << 9 | self.report).to_bytes(4, "big")
