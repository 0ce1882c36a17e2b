"""Tables of several applications at once, beside those of one after another."""

import csv
import io
import os
import threading
import unittest
import warnings
from contextlib import suppress
from pathlib import Path

from support import ATTITUDE, DEFINITION, HOUSEKEEPING, RECORDING, SETTINGS, TestCase, example, tmx

from tmx import definition

TIMES = 30  # how often the example comes in a long recording
BOTH = {101: ATTITUDE, 100: HOUSEKEEPING}


def same(table: tmx.Fields, other: tmx.Fields) -> bool:
    """Whether two tables have the same columns, values, times and short packets."""
    columns = list(table) == list(other) and all(list(table[it]) == list(other[it]) for it in table)
    times = [None if it.time is None else list(it.time) for it in (table, other)]
    return columns and times[0] == times[1] and table.short_packets == other.short_packets


class Several(TestCase):
    def pipe(self) -> str:
        """A pipe that the example comes through, thirty times."""
        os.mkfifo("pipe")
        threading.Thread(target=lambda: Path("pipe").write_bytes(RECORDING.read_bytes() * TIMES), daemon=True).start()
        return "pipe"

    def test_tables(self) -> None:
        """Of a file, of a stream that goes back, and of a pipe."""
        octets = RECORDING.read_bytes() * TIMES
        (self.folder / "long.rec").write_bytes(octets)
        for given in ("long.rec", io.BytesIO(octets), self.pipe()):
            tables = tmx.Recording(given, SETTINGS).tables({**BOTH, 300: DEFINITION}, channel=3, encoding="ascii")
            self.assertEqual(list(tables), [101, 100, 300])
            for apid, definition in BOTH.items():
                wanted = tmx.Recording("long.rec", SETTINGS).fields(definition, apid, channel=3, encoding="ascii")
                self.assertTrue(same(tables[apid], wanted), (given, apid))
        timed = {"time": "SECONDS", "epoch": "2000-01-01"}
        self.assertTrue(same(example().tables(BOTH, **timed)[100], example().fields(HOUSEKEEPING, 100, **timed)))
        self.assertEqual(example().tables({}), {})

    def test_what_one_application_has(self) -> None:
        Path("spectra.csv").write_text("name,data_type,bit_length\nTIME,str,64\nCOUNT,uint,16\nBINS,str,1280\n")
        wanted = example().fields("spectra.csv", 201, arrays={"BINS": ">u2"}, report="wanted.report")
        stars = example().fields(ATTITUDE, 101, rest="BRIGHTNESS")
        own = {"arrays": {201: {"BINS": ">u2"}}, "rest": {101: "BRIGHTNESS"}, "report": {201: "report"}}
        for given in (RECORDING, io.BytesIO(RECORDING.read_bytes())):
            tables = tmx.Recording(given, SETTINGS).tables({101: ATTITUDE, 201: "spectra.csv"}, **own)
            self.assertEqual([list(it) for it in tables[201]["BINS"]], [list(it) for it in wanted["BINS"]])
            self.assertTrue(same(tables[101], stars))
            self.assertEqual(Path("report").read_bytes(), Path("wanted.report").read_bytes())
        self.raises(ValueError, None, example().tables, BOTH, rest={102: "REST"})
        self.raises(TypeError, None, example().tables, [101])
        self.raises(tmx.FileError, "failed", example().tables, BOTH, report={101: "report", 100: "./report"})

    def test_definitions_that_are_read_at_once(self) -> None:
        limit, both = csv.field_size_limit(), threading.Barrier(2, timeout=1)

        def hold() -> None:
            with definition.long_values(), suppress(threading.BrokenBarrierError):
                both.wait()

        threads = [threading.Thread(target=hold) for _ in range(2)]
        for it in threads:
            it.start()
        for it in threads:
            it.join()
        self.assertTrue(both.broken)  # one waits for the other
        self.assertEqual(csv.field_size_limit(), limit)

    def test_errors(self) -> None:
        for recording in (example(), tmx.Recording(io.BytesIO(RECORDING.read_bytes()), SETTINGS)):
            self.raises(tmx.FileError, "failed", recording.tables, {101: ATTITUDE, 100: "none.csv"})
            self.raises(ValueError, None, recording.tables, {101: ATTITUDE, 2048: HOUSEKEEPING})
        self.program('case "$*" in *"--apid 100"*) kill -KILL $$;; esac\nexec "$real" "$@"')
        stream = io.BytesIO(RECORDING.read_bytes() * 200)
        for recording in (example(), tmx.Recording(stream, SETTINGS)):
            self.raises(tmx.KilledError, "SIGKILL", recording.tables, BOTH)
        self.assertLess(stream.tell(), 100 * 76800)  # it isn't read to its end

    def test_streams_that_fail(self) -> None:
        class Failing(io.BytesIO):
            def read1(self, most: int = -1) -> bytes:
                raise OSError("no more")

        before = len(os.listdir("/proc/self/fd"))
        self.raises(OSError, None, tmx.Recording(Failing(), SETTINGS).tables, BOTH)
        self.assertEqual(len(os.listdir("/proc/self/fd")), before)

    def test_warnings(self) -> None:
        for given in (RECORDING, io.BytesIO(RECORDING.read_bytes())):
            with warnings.catch_warnings(record=True) as found:
                warnings.simplefilter("always")
                tmx.Recording(given, SETTINGS).tables({101: ATTITUDE, 7: HOUSEKEEPING})
            named = f"{RECORDING}: " if given is RECORDING else ""
            self.assertEqual([(str(it.message), it.filename) for it in found], [(f"{named}no packet of application 7", __file__)])
        with warnings.catch_warnings(record=True) as found:
            warnings.simplefilter("always")
            tmx.Recording(io.BytesIO(bytes(2560)), SETTINGS).tables(BOTH)
        self.assertEqual(len(found), 1)

    def test_progress(self) -> None:
        for given in (RECORDING, io.BytesIO(RECORDING.read_bytes())):
            told: list[int] = []
            tmx.Recording(given, SETTINGS).tables(BOTH, progress=lambda done, octets: told.append(done))
            self.assertEqual(told[-1], 76800)


if __name__ == "__main__":
    unittest.main()
