"""Recordings that lose octets, or grow, while they are read."""

import hashlib
import json
import os
import re
import threading
import time
import unittest
from itertools import islice
from pathlib import Path

from support import ATTITUDE, RECORDING, SETTINGS, TestCase, command, example, needs, tmx

OCTETS = RECORDING.read_bytes()
TIMES = 64  # 4,915,200 octets, which no pipe holds
BAD = 189  # the only bad record of the example's 300
# A program that reads more than settings empties the recording before.  The shell does it, which ends with the run.
EMPTIES = 'case "$*" in *" -- "* | extract* | packets*) : >pass.rec;; esac; exec "$real" "$@"'


class Cut(TestCase):
    """A file that loses octets during a call: 100 records of 19,200 are left, or none."""

    def recording(self) -> tmx.Recording:
        Path("pass.rec").write_bytes(OCTETS * TIMES)
        return tmx.Recording("pass.rec", SETTINGS)

    def test_packets_that_are_taken_slowly(self) -> None:
        packets, found = self.recording().packets(), []
        found += islice(packets, 10)
        os.truncate("pass.rec", 25600)
        error = self.raises(tmx.DisagreementError, None, lambda: found.extend(packets))
        self.assertEqual(str(error), "pass.rec had 4915200 octets, and has 25600: the file was cut while it was read")
        self.assertEqual(found[:848], [*example().packets()][: len(found)])

    def test_each_call(self) -> None:
        self.program(EMPTIES)
        for call in (
            lambda it: list(it.frames()),
            lambda it: list(it.packets()),
            lambda it: list(it.packets(checkpoint="chk")),
            lambda it: list(it.groups()),
            lambda it: list(it.follow(timeout=0)),
            lambda it: it.report(),
            lambda it: it.summary(),
            lambda it: it.fields(ATTITUDE, 101),
            lambda it: it.fields(ATTITUDE, 101, rest="REST"),
            lambda it: list(it.fields(ATTITUDE, 101, blocks=5)),
            lambda it: it.tables({101: ATTITUDE}),
            lambda it: it.extract("extracted"),
            lambda it: it.split("apart"),
            lambda it: it.loss_map(),
        ):
            self.raises(tmx.DisagreementError, None, call, self.recording())
        self.assertEqual({"chk", "extracted"} & set(os.listdir()), set())  # no file is given that isn't whole

    @needs("numpy")
    def test_arrays(self) -> None:
        self.program(EMPTIES)
        self.raises(tmx.DisagreementError, None, self.recording().packets_array)

    def test_what_python_reads(self) -> None:
        for read in (lambda it: it.skipped(blocks=1), lambda _: iter(tmx.cut("pass.rec", OCTETS[:1], 255))):
            found = read(self.recording())
            next(found)
            os.truncate("pass.rec", 25600)
            self.raises(tmx.DisagreementError, None, list, found)

    def test_a_file_that_is_followed(self) -> None:
        packets = self.recording().follow(interval=0.01, timeout=5)
        found = list(islice(packets, 848 * TIMES - 10))
        cut = threading.Timer(0.5, os.truncate, ("pass.rec", len(OCTETS) * TIMES - 1))
        cut.start()
        self.raises(tmx.DisagreementError, None, lambda: found.extend(packets))
        cut.join()
        self.assertGreater(len(found), 848 * TIMES - 10)

    def test_what_is_whole(self) -> None:
        """A file that lost its name still has its octets, and one of which a step reads a part may grow."""
        packets = self.recording().packets()
        found = [*islice(packets, 10)]
        os.rename("pass.rec", "other.rec")
        found += packets
        self.assertEqual(found[:848], [*example().packets()])
        self.assertEqual(len(tmx.Recording("other.rec", SETTINGS).report()), len(self.recording().report()))


class Growing(TestCase):
    """A file to which octets are appended all the while."""

    def setUp(self) -> None:
        super().setUp()
        Path("pass.rec").write_bytes(OCTETS * 8)
        self.end = threading.Event()
        writer = threading.Thread(target=self.grow)
        writer.start()
        self.addCleanup(writer.join)
        self.addCleanup(self.end.set)

    def grow(self) -> None:
        with open("pass.rec", "ab", buffering=0) as file:
            while not self.end.is_set() and file.tell() < 1 << 28:
                file.write(OCTETS)
                time.sleep(0.005)

    def bad(self, records: int) -> int:
        """How many bad records the first ones have."""
        return sum(it % 300 == BAD for it in range(records))

    def test_a_page(self) -> None:
        on_board = ("--time", "SECONDS,FRACTION", "--definition", ATTITUDE, "--apid", 101, "--epoch", "2000-01-01")
        for words in ((), on_board):
            self.assertEqual(command("report", "--json", *words, "--settings", SETTINGS, "pass.rec", out="json"), (0, ""))
            found = json.loads(Path("json").read_text())["recording"]
            records = found["octets"] // 256
            self.assertEqual((found["counts"]["records"], found["counts"]["bad"]), (records, self.bad(records)))
            with open("pass.rec", "rb") as file:
                self.assertEqual(found["sha256"], hashlib.sha256(file.read(found["octets"])).hexdigest())
            self.assertGreater(os.path.getsize("pass.rec"), found["octets"])

    def test_a_map(self) -> None:
        for _ in range(3):
            self.assertEqual(command("map", "--settings", SETTINGS, "pass.rec", out="svg"), (0, ""))
            said = re.search("([0-9,]+) records: ([0-9,]+) good, ([0-9,]+) bad", Path("svg").read_text())
            records, good, bad = (int(it.replace(",", "")) for it in said.groups())
            self.assertEqual((good, bad), (records - self.bad(records), self.bad(records)))
            self.assertGreater(os.path.getsize("pass.rec"), 256 * records)

    def test_calls_that_read_side_by_side(self) -> None:
        """The example has seven groups, one of which lost a segment."""
        recording = tmx.Recording("pass.rec", SETTINGS)
        whole = [it for it in recording.groups() if isinstance(it, tmx.JoinedGroup)]
        self.assertGreaterEqual(len(whole), 8 * 6)
        table = recording.fields(ATTITUDE, 101, rest="REST")
        self.assertEqual(table.rows, len(table["REST"]))


if __name__ == "__main__":
    unittest.main()
