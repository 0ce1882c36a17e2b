"""The octets that the settings pass over, beside those that were put there."""

import io
import struct
import unittest
from datetime import datetime
from pathlib import Path
from unittest import mock

from support import RECORDING, SETTINGS, TestCase, example, needs, tmx

from test_decoding import dates

LENGTH = 256  # of the example's frames
NOON = datetime(2026, 11, 29, 12)


def stamped() -> tuple[bytes, list[bytes], list[bytes]]:
    """The example with octets before and after each frame, and these octets."""
    frames = RECORDING.read_bytes()
    numbers = range(len(frames) // LENGTH)
    days = (NOON - datetime(1958, 1, 1)).days
    befores = [b"\x1a\xcf" + struct.pack(">HIH", days, 43_200_000 + 125 * it, it) for it in numbers]
    afters = [it.to_bytes(3, "big") for it in numbers]
    frames_of = [frames[LENGTH * it : LENGTH * (it + 1)] for it in numbers]
    return b"".join(b"".join(it) for it in zip(befores, frames_of, afters)), befores, afters


class Skipped(TestCase):
    def recordings(self, settings: tmx.Settings) -> list[tmx.Recording]:
        octets, _, _ = stamped()
        Path("stamped.rec").write_bytes(octets + b"left")
        return [tmx.Recording("stamped.rec", settings), tmx.Recording(io.BytesIO(octets + b"left"), settings)]

    def test_octets(self) -> None:
        _, befores, afters = stamped()
        for recording in self.recordings(tmx.Settings(42, LENGTH, True, 10, 3)):
            for tables in ([recording.skipped()], list(recording.skipped(blocks=7)), list(recording.skipped(blocks=300))):
                self.assertEqual([it for table in tables for it in table["tm_record"]], list(range(300)))
                self.assertEqual([it for table in tables for it in table["before"]], befores)
                self.assertEqual([it for table in tables for it in table["after"]], afters)
            self.assertEqual([it.rows for it in recording.skipped(blocks=299)], [299, 1])
        long = tmx.Recording(io.BytesIO(stamped()[0] * 3), tmx.Settings(42, LENGTH, True, 10, 3)).skipped()  # is read in parts
        self.assertEqual((list(long["before"]), list(long["after"])), (befores * 3, afters * 3))

    def test_other_calls_meanwhile(self) -> None:
        recording = example()
        frames = list(recording.frames())
        self.assertEqual([recording.summary() for _ in recording.skipped(blocks=150)], [recording.summary()] * 2)
        self.assertEqual([frame for frame, _ in zip(recording.frames(), recording.skipped(blocks=1))], frames)

    def test_times_of_receipt(self) -> None:
        for recording in self.recordings(tmx.Settings(42, LENGTH, True, 10, 3)):
            table = recording.skipped(blocks=100)
            code = tmx.TimeCode("cds8")
            times = [it for block in table for it in dates(code.times("before", [octets[2:] for octets in block["before"]])[0])]
            self.assertEqual((len(times), times[0], times[8]), (300, NOON, NOON.replace(second=1, microsecond=8)))

    @needs("numpy")
    def test_arrays(self) -> None:
        _, befores, afters = stamped()
        for recording in self.recordings(tmx.Settings(42, LENGTH, True, 10, 3)):
            for arrays in ([recording.skipped_array()], list(recording.skipped_array(blocks=7))):
                self.assertEqual([it for array in arrays for it in array.tolist()], list(zip(befores, afters)))
            times = recording.skipped_array()["before"].view([("marker", ">u2"), ("days", ">u2"), ("ms", ">u4"), ("below", ">u2")])
            self.assertEqual((times["marker"][9], times["ms"][9], times["below"].tolist()), (0x1ACF, 43_201_125, list(range(300))))
        for before, after, row in ((0, 0, (b"", b"")), (2, 0, (befores[0][:2], b""))):
            settings = tmx.Settings(42, len(befores[0]) + LENGTH + 3 - before - after, False, before, after)
            self.assertEqual(tmx.Recording("stamped.rec", settings).skipped_array()[:1].tolist(), [row])
        self.assertEqual(len(tmx.Recording(io.BytesIO(b"short"), SETTINGS).skipped_array()), 0)

    def test_arrays_without_numpy(self) -> None:
        with mock.patch("tmx.recording.module", lambda name: None):
            self.raises(ImportError, None, example().skipped_array)

    def test_nothing_passed_over(self) -> None:
        table = example().skipped()
        self.assertEqual((table.rows, set(table["before"]), set(table["after"])), (300, {b""}, {b""}))
        empty = tmx.Recording(io.BytesIO(b"short"), SETTINGS)
        self.assertEqual((empty.skipped().rows, [it.rows for it in empty.skipped(blocks=5)]), (0, [0]))
        self.raises(tmx.SettingsError, "range", tmx.Recording(RECORDING, self.wrong()).skipped)

    def wrong(self) -> str:
        Path("wrong.toml").write_text("spacecraft = 42\nframe_length = 5\nerror_control = true\n")
        return "wrong.toml"


if __name__ == "__main__":
    unittest.main()
