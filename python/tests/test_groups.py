"""Groups of segments: their joined data, beside the script that made the example and trials/reference.py."""

import importlib.util
import io
import os
import re
import struct
import unittest

from support import EXAMPLE, RECORDING, SETTINGS, TestCase, damaged, example, reference, tmx

from tmx.groups import OpenGroups
from tmx.packets import Chosen

RECORDINGS = int(os.environ.get("DAMAGED", "200"))
SAID = re.compile(r"(?:group|broken|stray) record=(\d+) channel=(\d) apid=(\d+) (?:first=(\d+) last=(\d+)|count=(\d+))")


def maker():
    """The script that made the example."""
    spec = importlib.util.spec_from_file_location("make", EXAMPLE / "make.py")
    module = importlib.util.module_from_spec(spec)
    spec.loader.exec_module(module)
    return module


def wanted(settings: reference.Settings, octets: bytes) -> list[str]:
    """The lines of groups of the reference's report; a whole group's has the data behind it, in hexadecimal."""
    reader, _ = reference.read_recording(settings, octets)
    packets: dict[tuple[str, str], list[tuple[str, str, bytes]]] = {}
    for apid, packet, line, row in reader.packets:
        record, channel, _, count = row.split(",")
        packets.setdefault((channel, str(apid)), []).append((record, count, packet))
    found = []
    for line in reader.report_of(None):
        said = SAID.match(line)
        if said and line.startswith("group"):
            record, channel, apid, first, last, _ = said.groups()
            there = packets[channel, apid]
            end = max(at for at, it in enumerate(there) if it[:2] == (record, last))
            segments = there[end - (int(last) - int(first)) % 16384 : end + 1]
            line += " " + b"".join(packet[6:] for _, _, packet in segments).hex()
        if said:
            found.append(line)
    return found


def found(recording: tmx.Recording, **chosen) -> list[str]:
    return [line_of(it) for it in recording.groups(**chosen)]


def line_of(item) -> str:
    if not isinstance(item, tmx.JoinedGroup):
        return str(item)
    where = f"record={item.record} channel={item.channel} apid={item.apid} first={item.first} last={item.last}"
    return f"group {where} {item.octets.hex()}"


class Groups(TestCase):
    def test_the_images_of_the_example(self) -> None:
        make = maker()
        images = [[it.octets for _, it in make.image_segments(*image)] for image in enumerate(make.IMAGE_SLOTS)]
        wanted = [b"".join(octets[6:] for octets in image) for image in images]
        groups = [it for it in example().groups(200) if isinstance(it, tmx.JoinedGroup)]
        self.assertEqual([(it.first, it.octets) for it in groups], [(880 + 6 * it, wanted[it]) for it in (0, 1, 2, 3, 5, 6)])

    def test_damaged_recordings(self) -> None:
        whole = 0
        for seed in range(RECORDINGS):
            with self.subTest(seed=seed):
                settings, octets = damaged(seed)
                lines = wanted(settings, octets)
                whole += sum(it.startswith("group") for it in lines)
                recording = tmx.Recording(io.BytesIO(octets) if seed % 2 else "recording", "settings")
                self.assertEqual(found(recording), lines)
                chosen = {"apid": range(0, 2048, 2), "channel": [0, 2, 3]}
                mine = [it for it in lines if int(SAID.match(it)[3]) % 2 == 0 and int(SAID.match(it)[2]) in (0, 2, 3)]
                self.assertEqual(found(recording, **chosen), mine)
        self.assertGreater(whole, RECORDINGS // 10)

    def test_secondary_headers(self) -> None:
        packets = [tmx.Packet(0, 0, 0, 0, "tm", False, 9, "first", 16383, b"\x00\x09\x7f\xff\x00\x03abcd")]
        packets += [tmx.Packet(0, 0, 0, 0, "tm", True, 9, "continuation", 0, b"\x08\x09\x00\x00\x00\x03efgh")]
        packets += [tmx.Packet(0, 0, 0, 0, "tm", True, 9, "last", 1, b"\x08\x09\x80\x01\x00\x01ij")]
        field = b"".join(it.octets for it in packets)
        frame = (42 << 36).to_bytes(6, "big") + field
        for header, data in ((0, b"abcdefghij"), (3, b"abcdh"), (9, b"abcd")):
            recording = tmx.Recording(io.BytesIO(frame), tmx.Settings(42, len(frame), False))
            joined = tmx.JoinedGroup(0, 0, 9, 16383, 1, data)
            self.assertEqual(list(recording.groups(secondary_header=header)), [joined])

    def test_wrong_arguments(self) -> None:
        self.raises(ValueError, None, example().groups, 2048)
        self.raises(TypeError, None, example().groups, secondary_header="2")
        self.raises(ValueError, None, example().groups, secondary_header=-1)

    def test_nothing(self) -> None:
        with self.assertWarnsRegex(tmx.TmxWarning, "^.*pass.rec: no segment of a group of application 101 on channel 0$"):
            self.assertEqual(list(example().groups(101, 0)), [])

    def test_a_program_that_gives_other_packets(self) -> None:
        """Its list lacks the last packet, lacks a segment, or ends within one."""
        recording = tmx.Recording(RECORDING, SETTINGS)
        for change in ("head -c 20000", "head -c 20000 /dev/zero"):
            self.program(f'[ "$1" = packets ] || exec "$real" "$@"\n"$real" "$@" | {change}')
            self.raises(tmx.DisagreementError, None, lambda: list(recording.groups()))
        (self.folder / "short.rec").write_bytes(RECORDING.read_bytes()[: 256 * 120])
        self.program('[ "$1" = packets ] || exec "$real" "$@"\n"$real" packets --binary --settings "$6" short.rec')
        self.raises(tmx.DisagreementError, None, lambda: list(recording.groups()))

    def test_a_group_that_begins_elsewhere(self) -> None:
        """The list has a second first segment where the report has one between."""
        for name, flags in (("rec", 0), ("other.rec", 0x4000)):
            packets = struct.pack(">HHHBHHHBHHHB", 9, 0x4005, 0, 1, 9, flags | 6, 0, 2, 9, 0x8007, 0, 3)
            (self.folder / name).write_bytes((42 << 36).to_bytes(6, "big") + packets)
        tmx.Settings(42, 27, False).write("settings.toml")
        self.assertEqual([it.octets for it in tmx.Recording("rec", "settings.toml").groups()], [b"\1\2\3"])
        self.program('[ "$1" = packets ] || exec "$real" "$@"\nexec "$real" packets --binary --settings settings.toml other.rec')
        self.raises(tmx.DisagreementError, None, lambda: list(tmx.Recording("rec", "settings.toml").groups()))

    def test_a_group_whose_end_is_not_listed(self) -> None:
        """The report has the last segment of application 9 where the list has a packet of another one."""
        for name, apid, flags in (("rec", 9, 0x8000), ("other.rec", 7, 0xC000)):
            packets = struct.pack(">HHHBHHHBHHHBHHHB", 9, 0x4005, 0, 1, 8, 0x4005, 0, 2, apid, flags | 6, 0, 3, 8, 0x8006, 0, 4)
            (self.folder / name).write_bytes((42 << 36).to_bytes(6, "big") + packets)
        tmx.Settings(42, 34, False).write("settings.toml")
        self.assertEqual([it.octets for it in tmx.Recording("rec", "settings.toml").groups()], [b"\1\3", b"\2\4"])
        self.program('[ "$1" = packets ] || exec "$real" "$@"\nexec "$real" packets --binary --settings settings.toml other.rec')
        self.raises(tmx.DisagreementError, None, lambda: list(tmx.Recording("rec", "settings.toml").groups()))

    def test_what_is_held(self) -> None:
        """Nothing behind a packet that ends a group before its last segment."""
        packets = [struct.pack(">HHHB", 9, sequence, 0, 0) for sequence in (0x4005, 0xC006, 0x4007, 0x0009)]
        held = OpenGroups(Chosen(), 0)
        lengths = []
        for octets, flags, count in zip(packets, ("first", "unsegmented", "first", "continuation"), (5, 6, 7, 9)):
            held.take(tmx.Packet(0, 0, 0, 0, "tm", False, 9, flags, count, octets))
            lengths.append(len(held.segments))
        self.assertEqual(lengths, [1, 0, 1, 0])

    def test_a_program_that_is_killed(self) -> None:
        self.program('[ "$1" = packets ] || exec "$real" "$@"\n"$real" "$@" | head -c 20000\nkill -KILL $$')
        self.raises(tmx.KilledError, "SIGKILL", lambda: list(example().groups()))


if __name__ == "__main__":
    unittest.main()
