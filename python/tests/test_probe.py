"""Settings of recordings that are made here, so that it is known what is to be found."""

import io
import os
import random
import subprocess
import sys
import unittest
from pathlib import Path

from support import PACKAGE, RECORDING, TestCase, reference, tmx
from tmx.probing import processor_seconds

OCTETS = RECORDING.read_bytes()
FRAMES = [OCTETS[at : at + 256] for at in range(0, len(OCTETS), 256)]
MARKER = bytes.fromhex("1ACFFC1D")
HERE = {"spacecraft": 42, "frame_length": 256, "error_control": True}


def channel(frame: bytes) -> int:
    return frame[1] >> 1 & 7


class Probes(TestCase):
    def probe(self, octets: bytes) -> tmx.Probe:
        began = processor_seconds()
        found = tmx.probe(io.BytesIO(octets))
        self.assertLess(processor_seconds() - began, 10)
        return found

    def finds(self, octets: bytes, **wanted) -> tmx.Fit:
        found = self.probe(octets)
        self.assertTrue(found, found.note)
        self.assertEqual((found[0].settings, found.note), (tmx.Settings(**HERE | wanted), ""))
        return found[0]

    def finds_nothing(self, octets: bytes, words: str) -> None:
        found = self.probe(octets)
        self.assertEqual(len(found), 0)
        self.assertIn(words, str(found))

    def test_the_example(self) -> None:
        fit = self.finds(OCTETS)
        self.assertEqual((fit.records, fit.good, fit.secondary, fit.ocf), (300, 299, 0, 58))
        self.assertEqual((fit.channels, fit.longest, fit.marker), ((0, 1, 3), 880, b""))
        said = "# 299 of 300 records are good frames (99.7%); 98.9% of their data is in whole packets"
        self.assertEqual(fit.toml().splitlines()[0], said)
        Path("s.toml").write_text(fit.toml())
        self.assertEqual(tmx.Recording(RECORDING, "s.toml").summary().recording.good, 299)

    def test_markers_and_check_symbols(self) -> None:
        for symbols in (b"", bytes(range(1, 33)), bytes(32)):
            octets = bytes(4) + b"".join(MARKER + it + symbols for it in FRAMES)[4:]  # one marker is damaged
            self.assertEqual(self.finds(octets, skip_before=4, skip_after=len(symbols)).marker, MARKER)

    def test_randomized_frames(self) -> None:
        sequence = tmx.markers.pseudo_random(256)
        for symbols in (b"", bytes(range(1, 33))):
            octets = b"".join(MARKER + bytes(map(int.__xor__, it, sequence)) + symbols for it in FRAMES)
            fit = self.finds(octets, skip_after=len(symbols))
            self.assertEqual((fit.good, f"--length {256 + len(symbols)} --derandomize" in fit.cut), (299, True))
            Path("RECORDING").write_bytes(octets)
            line = fit.cut.replace("python3", sys.executable)
            subprocess.run(line, shell=True, check=True, stderr=subprocess.PIPE, env=os.environ | {"PYTHONPATH": str(PACKAGE)})
            Path("s.toml").write_text(fit.toml())
            self.assertEqual(tmx.Recording("cut.rec", "s.toml").summary().recording.good, 299)

    def test_no_error_control(self) -> None:
        self.finds(b"".join(it[:-2] for it in FRAMES), frame_length=254, error_control=False)
        octets = b"".join(MARKER + it[:-2] + random.Random(it).randbytes(32) for it in FRAMES)
        self.finds(octets, frame_length=254, error_control=False, skip_before=4, skip_after=32)

    def made(self, records: int, seed: int, error_control: bool) -> bytes:
        """A recording of frames of 1,115 octets with a marker before and 160 check symbols behind each."""
        told = f"error_control = {str(error_control).lower()}\nskip_before = 4\nskip_after = 160\n"
        Path("settings").write_text(f"spacecraft = 5\nframe_length = 1115\n{told}")
        settings = reference.Settings("settings")
        octets = reference.likely(seed, settings.record * records, settings)
        found = (octets[at : at + settings.record] for at in range(0, len(octets), settings.record))
        return b"".join(MARKER + it[4:] for it in found)

    def test_long_frames_with_marker_and_check_symbols(self) -> None:
        found = self.probe(self.made(500, 1, True))
        self.assertEqual([it.settings for it in found], [tmx.Settings(5, 1115, True, 4, 160)])
        self.assertEqual(found[0].marker, MARKER)

    def test_no_length_holds_by_chance(self) -> None:
        for seed in range(12):
            for fit in self.probe(self.made(4 + seed % 6, seed, False)):
                self.assertFalse(fit.settings.error_control)

    def test_some_of_the_channels(self) -> None:
        self.finds(b"".join(it for it in FRAMES if channel(it) == 1))
        self.finds(b"".join(it for it in FRAMES if channel(it) != 1))

    def test_damage(self) -> None:
        chance = random.Random(1)
        self.finds(b"".join(it[:9] + bytes(9) + it[18:] if chance.random() < 0.2 else it for it in FRAMES))

    def test_short_recordings(self) -> None:
        self.finds(OCTETS[: 10 * 256])
        self.finds_nothing(OCTETS[:30], "too short")

    def test_secondary_headers_and_long_records(self) -> None:
        for text in (
            "frame_length = 2048\nskip_before = 1024\nskip_after = 1024\n",
            'frame_length = 24\nsecondary = "always"\nocf = "never"\n',
            'frame_length = 300\nocf = "always"\nskip_before = 7\n',
        ):
            Path("settings").write_text(f"spacecraft = 5\nerror_control = true\n{text}")
            settings = reference.Settings("settings")
            found = self.probe(reference.likely(3, settings.record * 300, settings))
            wanted = tmx.Settings(5, settings.length, True, settings.before, settings.after)
            self.assertEqual(found[0].settings, wanted)
            self.assertGreater(found[0].share, 0.9)
            if settings.secondary == "always":
                self.assertEqual(found[0].secondary, found[0].good)

    def test_nothing(self) -> None:
        self.finds_nothing(random.Random(1).randbytes(1 << 20), "no frame was found")
        self.finds_nothing(bytes(1 << 20), "no frame was found")
        self.finds_nothing(b"The quick brown fox jumps over the lazy dog. " * 5000, "come again every 45 octets")
        self.finds_nothing(b"noise" + OCTETS, "from octet 5 on")
        mask = random.Random(2).randbytes(256)
        masked = b"".join(MARKER + bytes(a ^ b for a, b in zip(it, mask)) for it in FRAMES)
        self.finds_nothing(masked, "1ACFFC1D come again every 260 octets")

    def test_the_command(self) -> None:
        line = [sys.executable, "-m", "tmx", "probe", RECORDING]
        found = os.environ | {"PYTHONPATH": str(PACKAGE)}
        ran = subprocess.run(line, capture_output=True, text=True, check=True, env=found)
        Path("s.toml").write_text(ran.stdout)
        self.assertEqual(tmx.Settings.read("s.toml"), tmx.Settings(**HERE))
        ran = subprocess.run([*line[:-1], "/dev/zero"], capture_output=True, text=True, check=False, env=found)
        self.assertEqual((ran.returncode, ran.stdout), (1, ""))
        self.assertIn("nothing fits", ran.stderr)


if __name__ == "__main__":
    unittest.main()
