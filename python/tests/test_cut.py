"""Raw streams with slips, cut into records.  What is wanted is known, since the streams are made here."""

import io
import os
import random
import subprocess
import sys
import threading
import unittest
from pathlib import Path

from support import PACKAGE, RECORDING, SETTINGS, TestCase, command, example, tmx

MARKER = bytes.fromhex("1ACFFC1D")


def records_of(number: int, length: int, seed: int) -> list[bytes]:
    chance = random.Random(seed)
    return [chance.randbytes(length) for _ in range(number)]


def stream_of(records: list[bytes]) -> bytes:
    return b"".join(MARKER + it for it in records)


def bits_of(octets: bytes) -> str:
    return "".join(f"{it:08b}" for it in octets)


def octets_of(bits: str) -> bytes:
    """The octets of these bits, the last of which is filled by ones."""
    bits += "1" * (-len(bits) % 8)
    return bytes(int(bits[at : at + 8], 2) for at in range(0, len(bits), 8))


class Cut(TestCase):
    def found(self, stream: bytes, length: int, strict: bool = True, **how) -> tuple[list[bytes], list[tuple[int, int, int]], int]:
        cut = tmx.cut(io.BytesIO(stream), MARKER, length, strict=strict, **how)
        records = list(cut)
        self.assertEqual(cut.records, len(records))
        if strict:
            self.assertEqual(len(stream), cut.records * (length + len(MARKER)) + cut.left_out)
        self.assertLess(len(cut.window.octets), 2 << 20)
        return records, [(it.at, it.octets, it.shift) for it in cut.slips], cut.left_out

    def test_no_slip(self) -> None:
        records = records_of(20, 100, 1)
        self.assertEqual(self.found(stream_of(records), 100), (records, [], 0))
        self.assertEqual(self.found(b"", 100), ([], [], 0))

    def test_octets_before_and_behind(self) -> None:
        records = records_of(5, 100, 2)
        stream = b"noise" + stream_of(records)
        self.assertEqual(self.found(stream + b"ab", 100), (records, [(0, 5, 0)], 7))
        self.assertEqual(self.found(stream[:-1], 100), (records[:-1], [(0, 5, 0)], 5 + 103))
        self.assertEqual(self.found(stream + b"abcd", 100)[0], records[:-1])  # no marker, where one has room

    def test_one_slip(self) -> None:
        records, step = records_of(9, 100, 3), 104
        stream = stream_of(records)
        at = 4 * step
        lost = stream[: at + 50] + stream[at + 57 :]
        self.assertEqual(self.found(lost, 100), (records[:4] + records[5:], [(at, step - 7, -7)], step - 7))
        added = stream[: at + 50] + b"three" + stream[at + 50 :]
        self.assertEqual(self.found(added, 100), (records[:4] + records[5:], [(at, step + 5, 5)], step + 5))
        torn = stream[: at + 50] + stream[at + 150 :]
        self.assertEqual(self.found(torn, 100), (records[:4] + records[6:], [(at, 2 * step - 100, 4)], 2 * step - 100))

    def test_random_slips(self) -> None:
        for seed in range(50):
            with self.subTest(seed=seed):
                chance = random.Random(seed)
                records, length = records_of(200, 300, seed), 300
                stream, kept, slips = bytearray(), [], 0
                hurt = set(chance.sample(range(3, 197, 5), 8))
                for number, record in enumerate(records):
                    if number not in hurt:
                        stream += MARKER + record
                        kept.append(record)
                        continue
                    slips += 1
                    at, octets = chance.randrange(1, 290), chance.randrange(1, 9)
                    more = chance.random() < 0.5
                    stream += MARKER + record[:at] + (chance.randbytes(octets) + record[at:] if more else record[at + octets :])
                found, places, _ = self.found(bytes(stream), length)
                self.assertEqual((found, len(places)), (kept, slips))

    def test_the_record_before_a_slip(self) -> None:
        for seed in range(5):
            chance = random.Random(seed)
            records = records_of(3000, 100, seed)
            slips = set(chance.sample(range(2, 3000), 70))
            stream = b"".join(chance.randbytes(chance.randrange(1, 9) * (it in slips)) + MARKER + records[it] for it in range(3000))
            found, places, left_out = self.found(stream, 100, strict=False)
            self.assertEqual((found == records, len(places), left_out), (True, 70, len(stream) - 3000 * 104))
            self.assertEqual(len(self.found(stream, 100)[0]), 3000 - 70)

    def test_a_slip_within_a_record(self) -> None:
        records, at = records_of(9, 100, 3), 4 * 104
        stream = stream_of(records)
        for torn, octets in ((stream[: at + 50] + stream[at + 57 :], 97), (stream[: at + 50] + b"three" + stream[at + 50 :], 109)):
            found, slips, left_out = self.found(torn, 100, strict=False)
            self.assertEqual(found, [*records[:4], torn[at + 4 : at + 104], *records[5:]])
            self.assertEqual((slips, left_out), ([(at, octets, octets - 104)], max(0, octets - 104)))

    def test_randomized_frames(self) -> None:
        # The first octets of the sequence are those of CCSDS 131.0-B-5, 10.4.2, and it has 255 bits.
        sequence = tmx.markers.pseudo_random(600)
        self.assertEqual((sequence[:8].hex(), sequence[255:510]), ("ff480ec09a0d70bc", sequence[:255]))
        records = records_of(9, 600, 4)
        hidden = [bytes(map(int.__xor__, it, sequence)) for it in records]
        self.assertEqual(self.found(stream_of(hidden), 600, derandomize=True), (records, [], 0))

    def test_where_nothing_is_found(self) -> None:
        Path("raw").write_bytes(stream_of(records_of(20, 100, 5)))
        Path("long").write_bytes(stream_of(records_of(20, 100, 5)) * 1000)
        Path("noise").write_bytes(bytes(5000))
        other = "tmx cut: no record: no two markers are there, but others are 104 octets apart"
        for words, said in (
            ("--length 90 raw", "tmx cut: no record: most markers are 104 octets apart: try --length 100"),
            ("--length 200 noise", "tmx cut: no record: no two markers are there"),
            ("--marker 1acffc1e --length 90 raw", f"{other}: try --marker 1ACFFC1D --length 100"),
            ("--marker 1acffc1e --length 90 long", f"{other}: try --marker 1ACFFC1D --length 100"),
        ):
            status, lines = command("cut", *words.split())
            self.assertEqual((status, lines.splitlines()[-1]), (1, said))
        for words, said in (
            ("--marker xyz --length 100 raw", "the marker isn't hexadecimal: 'xyz'"),
            ("--flips 9 --length 100 raw", "flips takes numbers from 0 to 8, and not 9"),
        ):
            status, lines = command("cut", *words.split())
            self.assertEqual((status, lines.splitlines()[-1]), (2, f"python3 -m tmx cut: error: {said}"))

    def cut(self, stream: bytes, *words: str) -> tuple[int, bytes, list[str]]:
        """What the command gives of a stream with records of 100 octets: its status, the records, and what it says but slips."""
        Path("raw").write_bytes(stream)
        status, said = command("cut", "--length", "100", *words, "raw", out="cut.rec")
        return status, Path("cut.rec").read_bytes(), [it for it in said.splitlines() if not it.startswith("slip ")]

    def test_bits_that_are_inverted_or_shifted(self) -> None:
        """What is advised makes a stream whose records are those that were sent.  Each begins as frames do, all alike."""
        records = [bytes.fromhex("02a6") + it for it in records_of(30, 98, 12)]
        stream = bits_of(stream_of(records))
        for shift, inverted, says in (
            (0, True, "with all bits inverted: invert all bits first"),
            (1, False, "1 bit after the beginning of an octet: leave out the first 1 bit first"),
            (5, False, "5 bits after the beginning of an octet: leave out the first 5 bits first"),
            (3, True, "with all bits inverted 3 bits after the beginning of an octet: invert all bits and leave out the first 3 bits first"),
        ):
            for words in ((), ("--marker", "1acffc1e")):
                sent = "1" * shift + (stream.translate({48: "1", 49: "0"}) if inverted else stream)
                status, cut, said = self.cut(octets_of(sent), *words)
                self.assertEqual((status, cut, said[-1]), (1, b"", f"tmx cut: no record: the marker 1ACFFC1D is there {says}"))
                mended = (sent.translate({48: "1", 49: "0"}) if inverted else sent)[shift:]
                self.assertEqual(self.cut(octets_of(mended))[:2], (0, b"".join(records)))

    def test_a_stream_of_which_a_large_part_is_not_cut(self) -> None:
        records = records_of(20, 100, 13)
        stream, whole = stream_of(records), b"".join(records)
        shifted = octets_of("1" + bits_of(stream))  # 2,081 octets
        says = "tmx cut: {} of {} octets are in no record, in stretches into which a record with its marker fits"
        for octets, uncut in (
            (stream + shifted, 2081),
            (shifted + stream, 2081),
            (stream[:1040] + shifted + stream[1040:], 2081),
            (stream[:1040] + bytes(103) + stream[1040:], 0),
            (stream[:1040] + bytes(150) + stream[1040:], 150),
            (bytes(103) + stream + stream[:103], 0),
            (bytes(104) + stream + stream[:103], 104),
            (stream + bytes(103), 0),
            (stream + bytes(150), 150),
        ):
            for words in ((), ("--strict-markers",)):
                status, cut, said = self.cut(octets, *words)
                self.assertEqual((status, said[1:]), (1, [says.format(uncut, len(octets))]) if uncut else (0, []))
                if not words:
                    self.assertEqual(cut.replace(whole, b""), b"")
        steps = [stream[at : at + 104] for at in range(0, 2080, 104)] * 9
        slipping = b"".join(steps[:2]) + b"".join(b"x" + it for it in steps[2:])  # 178 octets more, one by one
        self.assertEqual(self.cut(slipping), (0, whole * 9, ["cut records=180 slips=178 left=178"]))
        # Strictly the first and the last are records, and what is between them is less the record before the slip.
        said = ["cut records=2 slips=1 left=18690", says.format(18586, 18898)]
        self.assertEqual(self.cut(slipping, "--strict-markers"), (1, records[0] + records[-1], said))

    def test_damaged_markers(self) -> None:
        records, step = records_of(30, 100, 5), 104
        stream = bytearray(stream_of(records))
        stream[5 * step] ^= 0x80  # one flip: the record is placed by the markers around it
        for number in (9, 10, 11, 29):
            stream[number * step : number * step + 4] = bytes(4)
        self.assertEqual(self.found(bytes(stream), 100), (records, [], 0))
        stream[0] ^= 1
        self.assertEqual(self.found(bytes(stream), 100), (records[1:], [(0, step, 0)], step))
        self.assertEqual(self.found(bytes(stream), 100, flips=1), (records, [], 0))
        stream[12 * step : 12 * step + 4] = bytes(4)  # the fourth in a row
        found = records[:8] + records[13:], [(8 * step, 5 * step, 0)], 5 * step
        self.assertEqual(self.found(bytes(stream), 100, flips=1), found)

    def test_a_long_stream(self) -> None:
        records = [number.to_bytes(4, "big") * 250 for number in range(3000)]
        for before in (65533, 65534, 65535):  # octets, so that the first marker is in two parts that are searched
            self.assertEqual(self.found(bytes(before) + stream_of(records), 1000), (records, [(0, before, 0)], before))

    def test_markers_within_records(self) -> None:
        records = records_of(10, 100, 6)
        records[3] = records[3][:20] + MARKER + records[3][24:]
        stream = stream_of(records)
        self.assertEqual(self.found(stream, 100), (records, [], 0))
        slipped = stream[: 3 * 104 + 50] + stream[3 * 104 + 51 :]
        self.assertEqual(self.found(slipped, 100)[0], records[:3] + records[4:])

    def test_noise(self) -> None:
        noise = random.Random(7).randbytes(3 << 20)
        for flips in (0, 1):
            self.assertEqual(self.found(noise, 1115, flips=flips), ([], [], len(noise)))

    def test_a_recording_of_it(self) -> None:
        octets = RECORDING.read_bytes()
        stream = stream_of([octets[at : at + 256] for at in range(0, len(octets), 256)])
        recording = tmx.Recording(tmx.cut(io.BytesIO(b"slip" + stream), length=256), SETTINGS)
        self.assertEqual(list(recording.packets()), list(example().packets()))
        tmx.cut(io.BytesIO(stream), length=256).write("cut.rec")
        cut = tmx.cut(io.BytesIO(stream), length=256)
        self.assertEqual([Path("cut.rec").read_bytes(), cut.read(1000) + cut.read()], [octets] * 2)

    def test_what_is_left(self) -> None:
        records = records_of(9, 100, 11)
        stream = stream_of(records)
        octets = b"".join(records)
        cut = tmx.cut(io.BytesIO(stream), MARKER, 100)
        self.assertEqual([next(iter(cut)), next(iter(cut)), cut.read(110)], [*records[:2], octets[200:310]])
        self.assertEqual(next(iter(cut)), records[3][10:])
        cut.write("left.rec")
        self.assertEqual((Path("left.rec").read_bytes(), list(cut), cut.read(), cut.records), (octets[400:], [], b"", 9))

    def test_the_command(self) -> None:
        records = records_of(9, 100, 8)
        Path("raw").write_bytes(b"noise" + stream_of(records))
        line = [sys.executable, "-m", "tmx", "cut", "--length", "100", "raw"]
        ran = subprocess.run(line, capture_output=True, check=True, env=os.environ | {"PYTHONPATH": str(PACKAGE)})
        self.assertEqual(ran.stdout, b"".join(records))
        self.assertEqual(ran.stderr.decode().splitlines(), ["slip at=0 octets=5 shift=0", "cut records=9 slips=1 left=5"])
        self.raises(ValueError, None, tmx.cut, "raw", "", 100)
        self.raises(ValueError, None, tmx.cut, "raw", MARKER, 0)

    def test_the_command_in_a_slow_pipe(self) -> None:
        records = records_of(5, 100, 9)
        line = [sys.executable, "-m", "tmx", "cut", "--length", "100"]
        pipes = dict.fromkeys(("stdin", "stdout", "stderr"), subprocess.PIPE)
        with subprocess.Popen(line, bufsize=0, env=os.environ | {"PYTHONPATH": str(PACKAGE)}, **pipes) as ran:
            end = threading.Timer(20, ran.kill)
            end.start()
            self.addCleanup(end.cancel)
            ran.stdin.write(b"noise" + stream_of(records[:4]))
            found = b""
            while len(found) < 300 and (octets := os.read(ran.stdout.fileno(), 300)):
                found += octets
            self.assertEqual(found, b"".join(records[:3]))  # of the fourth the marker behind it is wanting
            self.assertEqual(ran.stderr.readline(), b"slip at=0 octets=5 shift=0\n")
            rest, said = ran.communicate(stream_of(records[4:]), 10)
        self.assertEqual((rest, said), (b"".join(records[3:]), b"cut records=5 slips=1 left=5\n"))


if __name__ == "__main__":
    unittest.main()
