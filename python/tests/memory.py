"""Reads a long recording from a stream, and says how much memory that took.

    memory.py KIND OCTETS

KIND is `long`, packets of 65542 octets, or `short`, packets of 1021 octets, which is half of a data field; or `rows`, fields of
short packets in blocks of 1000 rows; or `groups`, short packets as groups of eight.  The recording is 256 frames again and again,
whose data fields whole packets fill; it has so many octets, rounded down to whole frames.
"""

import json
import re
import sys
from pathlib import Path
from tempfile import NamedTemporaryFile

from support import tmx

FRAME, FIELD, FRAMES = 2048, 2042, 256
LENGTHS = {"long": 65542, "short": 1021, "rows": 1021, "groups": 1021}
DEFINITION = "name,data_type,bit_length\nA,uint,32\nB,str,64\n"


class Again:
    """A stream that gives the same octets so many times."""

    def __init__(self, octets: bytes, times: int) -> None:
        self.octets, self.times = octets, times

    def read(self, most: int) -> bytes:
        self.times -= 1
        return self.octets if self.times >= 0 else b""


def packets_of(length: int, octets: int) -> bytes:
    """Packets of one length, and a last one that fills up."""
    found = bytearray()
    while len(found) < octets:
        here = min(length, octets - len(found))
        here = here if octets - len(found) - here == 0 or octets - len(found) - here > 6 else here - 7
        found += (100).to_bytes(2, "big") + b"\xc0\x00" + (here - 7).to_bytes(2, "big") + bytes(here - 6)
    return bytes(found)


def starts_of(packets: bytes) -> list[int]:
    found, at = [], 0
    while at < len(packets):
        found.append(at)
        at += int.from_bytes(packets[at + 4 : at + 6], "big") + 7
    return found


def grouped(packets: bytes) -> bytes:
    """The same as groups of eight, the last one included."""
    found = bytearray(packets)
    for number, at in enumerate(starts_of(packets)):
        flags = {0: 1, 7: 2}.get(number % 8, 0)
        found[at + 2 : at + 4] = (flags << 14 | number).to_bytes(2, "big")
    return bytes(found)


def cycle(length: int, change=bytes) -> tuple[bytes, int]:
    """256 frames, and how many packets they have."""
    packets = change(packets_of(length, FIELD * FRAMES))
    starts, frames = starts_of(packets), []
    for number in range(FRAMES):
        inside = [it - number * FIELD for it in starts if number * FIELD <= it < (number + 1) * FIELD]
        pointer = inside[0] if inside else 2047
        head = 42 << 36 | number << 24 | number << 16 | pointer
        frames.append(head.to_bytes(6, "big") + packets[number * FIELD : (number + 1) * FIELD])
    return b"".join(frames), len(starts)


def resident() -> int:
    """The most memory that this process had; that of its parent isn't among it, as it is in getrusage."""
    return int(re.search(r"^VmHWM:\s*([0-9]+) kB$", Path("/proc/self/status").read_text(), re.MULTILINE)[1]) << 10


def main(kind: str, octets: str) -> None:
    frames, packets = cycle(LENGTHS[kind], grouped if kind == "groups" else bytes)
    times = int(octets) // len(frames)
    recording = tmx.Recording(Again(frames, times), tmx.Settings(42, FRAME, False))
    found = {"packets": 0, "octets": 0}
    if kind == "rows":
        with NamedTemporaryFile("w", suffix=".csv") as definition:
            definition.write(DEFINITION)
            definition.flush()
            found["packets"] = sum(it.rows for it in recording.fields(definition.name, 100, blocks=1000))
        found["octets"] = FIELD * FRAMES * times
    elif kind == "groups":
        for group in recording.groups():
            found["packets"] += 8
            found["octets"] += len(group.octets) + 8 * 6
    else:
        for packet in recording.packets():
            found["packets"] += 1
            found["octets"] += len(packet.octets)
    wanted = {"packets_wanted": packets * times, "octets_wanted": FIELD * FRAMES * times}
    print(json.dumps(found | wanted | {"resident": resident()}))


if __name__ == "__main__":
    main(*sys.argv[1:])
