"""Packets as values and in an array of numpy, and what is no packet or no row in what a program gives."""

import dataclasses
import os
import pickle
import subprocess
import unittest
from pathlib import Path

from support import ATTITUDE, EXAMPLE, PROGRAM, RECORDING, SETTINGS, TestCase, damaged, example, needs, reference, tmx

OCTETS = bytes.fromhex("1865c0050001aabb")
VALUES = {"record": 7, "channel": 3, "from_": 6, "at": 240, "type": "tc", "secondary": True, "apid": 101}
VALUES |= {"flags": "unsegmented", "count": 5, "octets": OCTETS}


def given(*words: object) -> bytes:
    """What the program gives of the example."""
    line = [PROGRAM, *words, "--settings", SETTINGS, "--report", os.devnull, RECORDING]
    return subprocess.run(line, stdout=subprocess.PIPE, check=True).stdout


def altered(octets: bytes, place: int, value: int) -> bytes:
    return octets[:place] + bytes([value]) + octets[place + 1 :]


class Values(TestCase):
    def test_a_packet(self) -> None:
        packet = tmx.Packet(**VALUES)
        self.assertEqual(dataclasses.asdict(packet), VALUES)
        said = "record=7, channel=3, from_=6, at=240, type='tc', secondary=True, apid=101, flags='unsegmented', count=5"
        self.assertEqual(repr(packet), f"Packet({said})")
        line = "packet record=7 channel=3 from=6 at=240 type=tc secondary=yes apid=101 flags=unsegmented count=5 octets=8"
        self.assertEqual(str(packet), line)
        self.assertEqual(pickle.loads(pickle.dumps(packet)), packet)
        others = [{"record": 8}, {"channel": 2}, {"from_": 7}, {"at": 0}, {"octets": OCTETS[:-1] + b"\0"}]
        self.assertEqual(len({packet, *(dataclasses.replace(packet, **it) for it in others)}), 6)
        self.assertNotEqual(packet, tuple(VALUES.values()))

    def test_what_a_packet_refuses(self) -> None:
        others = {"type": "tm", "secondary": False, "apid": 100, "flags": "last", "count": 4, "octets": b"\x18\x65\xc0\x05"}
        for name, value in others.items():
            self.raises(ValueError, None, tmx.Packet, **VALUES | {name: value})
        packet = tmx.Packet(**VALUES)
        for name in (*VALUES, "other"):
            with self.assertRaises(AttributeError):
                setattr(packet, name, 1)
        self.assertEqual(packet, tmx.Packet(**VALUES))


class Given(TestCase):
    """What a program gives, altered on its way."""

    def gives(self, octets: bytes) -> None:
        """Has the program give these octets of the example by `--binary`."""
        Path("octets").write_bytes(octets)
        self.program('case "$*" in *--binary*pass.rec) exec cat octets;; esac\nexec "$real" "$@"')

    def altered_packets(self):
        """Without the last octet, with another one behind, with other leads, and another length in a header."""
        packets, third = given("packets", "--binary"), sum(16 + len(it.octets) for it in list(example().packets())[:2])
        yield from (packets[:-1], packets[:10], packets[:16], packets[:-24], packets + b"\0")
        for place, value in ((10, 8), (11, 1), (12, 31), (12, 29), (15, 1), (21, 1)):
            yield altered(packets, third + place, value)

    def test_packets(self) -> None:
        whole = list(example().packets())
        for octets in self.altered_packets():
            self.gives(octets)
            self.raises(tmx.DisagreementError, None, lambda: list(example().packets()))
            self.raises(tmx.DisagreementError, None, lambda: list(example().packets(apid=5)))
            self.raises(tmx.DisagreementError, None, lambda: list(example().packets(checkpoint="chk")))
        self.assertFalse(os.path.exists("chk"))
        self.gives(given("packets", "--binary"))
        self.assertEqual(list(example().packets()), whole)

    @needs("numpy")
    def test_packets_of_an_array(self) -> None:
        for octets in self.altered_packets():
            self.gives(octets)
            self.raises(tmx.DisagreementError, None, example().packets_array)

    def test_rows(self) -> None:
        rows = given("fields", "--binary", "--definition", ATTITUDE, "--apid", "101")
        self.assertEqual(len(rows), 503 * 36)
        wrong = [altered(rows, 72 + place, 8 if place == 8 else 1) for place in (4, 5, *range(8, 16))]
        others = given("fields", "--binary", "--definition", EXAMPLE / "housekeeping.csv", "--apid", "100")
        for octets in (rows[:-1], rows[:35], rows + b"\0", rows[:36] + rows[37:], *wrong, others):
            self.gives(octets)
            for how in ({}, {"channel": 3}, {"blocks": 7}, {"blocks": 1000}):
                self.raises(tmx.DisagreementError, None, lambda: list(example().fields(ATTITUDE, 101, **how)))
        self.gives(rows)
        self.assertEqual(example().fields(ATTITUDE, 101).rows, 503)

    def test_rows_of_half_and_of_twice_the_length(self) -> None:
        """Of an even number of rows, whose leads are right at each stride."""
        for name, bits in (("long", 384), ("short", 128)):
            Path(name).write_text(f"name,data_type,bit_length\nDATA,str,{bits}\n")
        self.assertEqual(example().fields("long", 201).rows, 42)
        for read, other in (("long", "short"), ("short", "long")):
            self.program(f'case "$*" in *--binary*) exec "$real" $(echo "$@" | sed s/{read}/{other}/);; esac\nexec "$real" "$@"')
            self.raises(tmx.DisagreementError, None, example().fields, read, 201)

    def test_a_definition_that_the_program_reads_otherwise(self) -> None:
        self.program('[ "$1" = fields ] || exec "$real" "$@"\n"$real" "$@" | sed 1s/STARS/OTHERS/')
        self.raises(tmx.DisagreementError, None, example().fields, ATTITUDE, 101)


@needs("numpy")
class Arrays(TestCase):
    def lines(self, found: tmx.PacketArray) -> list[tuple[bytes, str]]:
        """The octets of each packet, and its line."""
        kinds, flags = ("tm", "tc"), ("continuation", "first", "last", "unsegmented")
        return [
            (
                found.octets[int(it["offset"]) : int(it["offset"]) + int(it["octets"])],
                f"packet record={it['record']} channel={it['channel']} from={it['from_']} at={it['at']} type={kinds[it['type']]}"
                f" secondary={('no', 'yes')[int(it['secondary'])]} apid={it['apid']} flags={flags[it['flags']]}"
                f" count={it['count']} octets={it['octets']}",
            )
            for it in found.packets
        ]

    def test_damaged_recordings(self) -> None:
        for seed in range(3000, 3040):
            with self.subTest(seed=seed):
                settings, octets = damaged(seed)
                reader, _ = reference.read_recording(settings, octets)
                found = tmx.Recording("recording", "settings").packets_array()
                self.assertEqual(self.lines(found), [it[1:3] for it in reader.packets])

    def test_chosen_packets(self) -> None:
        for chosen in ({"apid": 101}, {"channel": [0, 1]}, {"apid": (101, 200), "channel": 3}, {"apid": []}):
            wanted = [(it.octets, str(it)) for it in example().packets(**chosen)]
            self.assertEqual(self.lines(example().packets_array(**chosen)), wanted)


if __name__ == "__main__":
    unittest.main()
