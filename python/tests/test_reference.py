"""Everything over recordings with damage, beside what trials/reference.py works out from the documents alone."""

import io
import os
import struct
import unittest
from contextlib import ExitStack
from pathlib import Path

from support import DEFINITION, TestCase, damaged, lines, reference, tmx

RECORDINGS = int(os.environ.get("DAMAGED", "200"))


def value(packet: bytes, kind: str, bits: int, first: int):
    """A field of a packet, cut out of all its octets as one number."""
    number = int.from_bytes(packet, "big") >> (len(packet) * 8 - first - bits) & (1 << bits) - 1
    if kind == "float":
        return struct.unpack(">e", number.to_bytes(2, "big"))[0]
    if kind == "str":
        return number.to_bytes(bits // 8, "big")
    return number - (1 << bits) if kind == "int" and number >> bits - 1 else number


def same(found, wanted) -> bool:
    """Whether two columns are the same; nan is nan."""
    return len(found) == len(wanted) and all(a == b or a != a and b != b for a, b in zip(found, wanted))


class Damaged(TestCase):
    def compare(self, recording: tmx.Recording, settings: reference.Settings, octets: bytes, application: int) -> None:
        reader, _ = reference.read_recording(settings, octets)
        packets = list(recording.packets())
        self.assertEqual(lines(recording.frames()), reader.frames)
        self.assertEqual([(it.apid, it.octets, str(it)) for it in packets], [it[:3] for it in reader.packets])
        self.assertEqual(lines(recording.report()), list(reader.report_of(None)))
        wanted = reference.summary(settings, reader, *divmod(len(octets), settings.record))
        self.assertEqual(lines(recording.summary().lines()), list(wanted))
        self.compare_files(recording, reader)
        self.compare_fields(recording, reader, application)
        for chosen in ({"apid": application}, {"channel": 3}, {"apid": (0, 5, 100), "channel": [1, 2]}):
            self.compare_chosen(recording, packets, **chosen)

    def compare_files(self, recording, reader) -> None:
        recording.extract("extracted", report="report")
        self.assertEqual(Path("extracted").read_bytes(), b"".join(it[1] for it in reader.packets))
        self.assertEqual(Path("report").read_text().splitlines(), list(reader.report_of(None)))
        recording.split("split")
        wanted: dict[str, bytes] = {}
        for application, octets, _, _ in reader.packets:
            name = f"apid-{application:04}.pkt"
            wanted[name] = wanted.get(name, b"") + octets
        self.assertEqual({it.name: it.read_bytes() for it in Path("split").iterdir()}, wanted)
        for file in Path("split").iterdir():
            file.unlink()

    def compare_fields(self, recording, reader, application) -> None:
        fields = recording.fields(DEFINITION, application)
        rows = [it for it in reader.packets if it[0] == application and len(it[1]) * 8 >= reference.NEEDED]
        for number, name in enumerate(("tm_record", "tm_channel", "tm_apid", "tm_count")):
            self.assertTrue(same(fields[name], [int(it[3].split(",")[number]) for it in rows]), name)
        for name, *how in reference.FIELDS:
            if how[0] != "fill":
                self.assertTrue(same(fields[name], [value(it[1], *how) for it in rows]), name)
        self.assertEqual(lines(fields.short_packets), [it for it in reader.report_of(application) if it.startswith("shortp")])

    def compare_chosen(self, recording, packets, apid=None, channel=None) -> None:
        apids = {apid} if isinstance(apid, int) else apid
        channels = {channel} if isinstance(channel, int) else channel
        wanted = [it for it in packets if (not apids or it.apid in apids) and (not channels or it.channel in channels)]
        self.assertEqual(list(recording.packets(apid, channel)), wanted)

    def test_damaged_recordings(self) -> None:
        for seed in range(RECORDINGS):
            with self.subTest(seed=seed), ExitStack() as stack:
                settings, octets = damaged(seed)
                file = stack.enter_context(open("recording", "rb"))
                given = ["recording", file, io.BytesIO(octets)][seed % 3]
                self.compare(tmx.Recording(given, "settings"), settings, octets, (0, 5, 100, 2046, 2047)[seed % 5])


if __name__ == "__main__":
    unittest.main()
