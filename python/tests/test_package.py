"""The package as a whole: built, installed and used from elsewhere, in little memory, its settings and its summaries."""

import base64
import importlib.util
import io
import json
import os
import re
import signal
import subprocess
import sys
import tomllib
import unittest
import zipfile
from pathlib import Path

from support import CLONE, PACKAGE, RECORDING, SETTINGS, TESTS, TestCase, command, example, needs, tmx

OCTETS = RECORDING.read_bytes()
MEMORY = 64 << 20  # octets, of the process that reads
GIBIBYTE = 1 << 30


def wheels():
    """The backend that builds the wheel."""
    spec = importlib.util.spec_from_file_location("wheels", PACKAGE / "backend" / "wheels.py")
    module = importlib.util.module_from_spec(spec)
    spec.loader.exec_module(module)
    return module


class Installed(TestCase):
    SCRIPT = "import sys, tmx; print(tmx.__file__); print(len(list(tmx.Recording(*sys.argv[1:]).packets())))"

    def used_from(self, folder: Path) -> None:
        """Has the package be used from a folder that it was put into, and from nowhere else."""
        line = [sys.executable, "-c", self.SCRIPT, str(RECORDING), str(SETTINGS)]
        ran = subprocess.run(line, env=os.environ | {"PYTHONPATH": str(folder)}, capture_output=True, text=True, check=True)
        self.assertEqual(ran.stdout.splitlines(), [str(folder / "tmx" / "__init__.py"), "848"])

    def test_standard_input(self) -> None:
        line = [sys.executable, "-c", self.SCRIPT, "-", str(SETTINGS)]
        with open(RECORDING, "rb") as file:
            found = os.environ | {"PYTHONPATH": str(PACKAGE)}
            ran = subprocess.run(line, stdin=file, env=found, capture_output=True, text=True, check=True)
        self.assertEqual(ran.stdout.splitlines()[1], "848")

    def test_wheel(self) -> None:
        name = wheels().build_wheel(str(self.folder))
        with zipfile.ZipFile(name) as wheel:
            self.assertIn("tmx/py.typed", wheel.namelist())
            wheel.extractall("there")
        self.used_from(self.folder / "there")

    @needs("pip")
    def test_pip(self) -> None:
        line = [sys.executable, "-m", "pip", "install", "--quiet", "--no-index", "--target", "there", str(PACKAGE)]
        subprocess.run(line, check=True, capture_output=True)
        self.used_from(self.folder / "there")

    def test_the_command_of_a_wheel(self) -> None:
        script = "from tmx import programs; programs.BESIDE = '/bin/sh'; programs.become()"
        line = [sys.executable, "-c", script, "-c", "grep SigIgn /proc/self/status; exit 3"]
        ran = subprocess.run(line, env=os.environ | {"PYTHONPATH": str(PACKAGE)}, capture_output=True, text=True, check=False)
        ignored = int(ran.stdout.split()[1], 16)
        self.assertEqual((ran.returncode, [it for it in (signal.SIGPIPE, signal.SIGXFSZ) if ignored >> it - 1 & 1]), (3, []))

    def test_version(self) -> None:
        with open(PACKAGE / "pyproject.toml", "rb") as file:
            self.assertEqual(tomllib.load(file)["project"]["version"], tmx.__version__)


class Memory(TestCase):
    def test_a_gibibyte(self) -> None:
        for kind in ("long", "short", "rows", "groups"):
            ran = subprocess.run([sys.executable, TESTS / "memory.py", kind, str(GIBIBYTE)], capture_output=True, text=True)
            self.assertEqual(ran.returncode, 0, ran.stderr)
            found = json.loads(ran.stdout)
            self.assertEqual((found["packets"], found["octets"]), (found["packets_wanted"], found["octets_wanted"]), kind)
            self.assertLess(found["resident"], MEMORY, kind)


class Descriptors(TestCase):
    def test_none_is_left(self) -> None:
        example().summary()
        before = len(os.listdir("/proc/self/fd"))
        for recording in (example(), tmx.Recording(io.BytesIO(OCTETS), SETTINGS)):
            packets = recording.packets()
            next(packets)
            packets.close()
            recording.report()
            self.assertEqual(len(os.listdir("/proc/self/fd")), before)
        for words in ((RECORDING, "no\0name"), ("no\ud800", SETTINGS)):
            with self.assertRaises(ValueError):
                tmx.Recording(*words).summary()
            self.assertEqual(len(os.listdir("/proc/self/fd")), before)


class TheSettings(TestCase):
    def test_toml(self) -> None:
        settings = tmx.Settings(42, 256, True, 4, 32, "never", "always", (0, 3), 880)
        self.assertEqual(
            settings.toml(),
            "spacecraft = 42\nframe_length = 256\nerror_control = true\nskip_before = 4\nskip_after = 32\n"
            'secondary = "never"\nocf = "always"\nchannels = [0, 3]\nmax_packet = 880\n',
        )
        settings.write("s.toml")
        self.assertEqual(tmx.Settings.read("s.toml").toml(), settings.toml())
        least = tmx.Settings(0, 256, False, channels=(0,)).toml()
        self.assertEqual(least, "spacecraft = 0\nframe_length = 256\nerror_control = false\nchannels = [0]\n")
        self.assertEqual(settings.record_length, 292)
        self.assertEqual(tmx.Recording(RECORDING, tmx.Settings.read(SETTINGS)).report(), example().report())

    def test_channels(self) -> None:
        for channels in ([0, 3], (0, 3), range(0, 4, 3)):
            self.assertEqual(tmx.Settings(42, 256, True, channels=channels).channels, (0, 3))
        for channels in (b"\1\2", bytearray(1), "12", 3, True, [True], [1.0]):
            with self.assertRaisesRegex(TypeError, "^channels takes "):
                tmx.Settings(42, 256, True, channels=channels)


class TheSummary(TestCase):
    def test_numbers(self) -> None:
        summary = example().summary()
        self.assertEqual(summary.recording, tmx.RecordingCounts(records=300, good=299, bad=1, rest=0))
        self.assertEqual(summary.faults, {"crc": 1})
        self.assertEqual(summary.master.missing, 2)
        self.assertEqual((summary.channels[1].packets, summary.channels[1].lost), (87, 632))
        self.assertEqual(summary.losses[1, "no-start"].parts, 2)
        self.assertEqual(summary.applications[1, 200].groups, 6)

    def test_lines(self) -> None:
        line = [os.environ["TMX"], "summary", "--settings", SETTINGS, RECORDING]
        printed = subprocess.run(line, capture_output=True, text=True, check=True).stdout
        self.assertEqual([str(it) for it in example().summary().lines()], printed.splitlines())

    def test_table(self) -> None:
        table = str(example().summary())
        self.assertIn("300 records: 299 good, 1 bad (1 by crc). Master channel: 2 gaps, 2 frames missing.", table)
        self.assertIn("\nchannel  apid  packets  octets  first  last", table)
        self.assertIn("<td>26672</td>", example().summary()._repr_html_())

    def test_no_good_frame(self) -> None:
        summary = tmx.Recording(io.BytesIO(bytes(300)), SETTINGS).summary()
        says = "1 records: 0 good, 1 bad (1 by crc), 44 octets left over. Master channel: 0 gaps, 0 frames missing."
        self.assertEqual((str(summary), summary._repr_html_()), (says, f"<p>{says}</p>"))


class TheLossMap(TestCase):
    def test_the_picture_in_the_docs(self) -> None:
        wanted = (CLONE / "docs" / "loss_map.svg").read_text()
        for recording in (example(), tmx.Recording(io.BytesIO(RECORDING.read_bytes()), SETTINGS)):
            drawn = recording.loss_map("The example recording")
            self.assertEqual((drawn.svg, drawn._repr_svg_()), (wanted, wanted))
            images = re.findall(' (?:data|src)="data:image/svg[+]xml;base64,([^"]*)"', drawn._repr_html_())
            self.assertEqual([base64.b64decode(it).decode() for it in images], [wanted] * 2)
            drawn.write("map.svg")
            self.assertEqual(Path("map.svg").read_text(), wanted)
        words = ("map", "--title", "The example recording", "--settings", SETTINGS, RECORDING)
        self.assertEqual((command(*words, out="map.svg"), Path("map.svg").read_text()), ((0, ""), wanted))

    @needs("nbconvert", "nbformat")
    def test_a_page_of_a_notebook(self) -> None:
        from nbconvert import HTMLExporter
        from nbformat.v4 import new_code_cell, new_notebook, new_output

        drawn = example().loss_map()
        shown = {"text/html": drawn._repr_html_(), "image/svg+xml": drawn._repr_svg_(), "text/plain": "a picture"}
        notebook = new_notebook(cells=[new_code_cell(outputs=[new_output("display_data", shown)])])
        page, _ = HTMLExporter(template_name="classic").from_notebook_node(notebook)
        images = re.findall(' (?:data|src)="data:image/svg[+]xml;base64,([^"]*)"', page)
        self.assertEqual([base64.b64decode(it).decode() for it in images], [drawn.svg] * 2)

    def test_what_is_lost_at_the_end(self) -> None:
        drawn = tmx.Recording(io.BytesIO(OCTETS[: 100 * 256]), SETTINGS).loss_map().svg
        self.assertIn("record 99: 1 part dropped: 52 octets by end", drawn)
        self.assertNotIn('width="0"', drawn)

    def test_a_frame_that_may_be_recorded_twice(self) -> None:
        twice = OCTETS[: 20 * 256] + OCTETS[19 * 256 :]
        self.assertIn("of 255: perhaps a frame recorded twice", tmx.Recording(io.BytesIO(twice), SETTINGS).loss_map().svg)

    def test_a_program_that_is_killed(self) -> None:
        self.program('[ "$1" = frames ] || exec "$real" "$@"\n"$real" "$@" | head -c 20000\nkill -KILL $$')
        self.raises(tmx.KilledError, "SIGKILL", example().loss_map)


CALLS = """import bz2, gzip, io
import tmx
for stream in (gzip.open("pass.rec.gz"), bz2.open("pass.rec.bz2"), open("pass.rec", "rb"), io.BytesIO()):
    tmx.Recording(stream, "s.toml")
tmx.Recording(gzip.open("pass.rec.gz"), "s.toml")
tmx.Recording(tmx.cut("raw.bin", length=256), "s.toml")
fields = tmx.Recording("pass.rec", "s.toml").fields("d.csv", 101)
numbers: dict[int, str] = {0: "OFF"}
ranges: dict[range, str] = {range(1, 3): "COARSE"}
fields.decoded(labels={"MODE": numbers, "STARS": ranges})
fields.decoded(labels={"MODE": {0: "OFF", range(1, 3): "COARSE"}})
fields.decoded(curves={"MODE": [0, 1], "STARS": (0, 0.01), "SECONDS": tmx.Polynomial(map(float, ["0", "1"]))})
fields.decoded(curves={"STARS": tmx.Spline([(0, 0), (10, 5)]), "MODE": tmx.Spline(zip([0, 1], [2.5, 3]), 0, True)})
first: float = tmx.Polynomial([1, 2]).coefficients[0]
"""  # which the types let through
WITH_NUMPY = """import numpy
coefficients = numpy.array([0, 0.01])
whole = numpy.arange(3)
points = numpy.array([[0, 0], [10, 5]])
fields.decoded(curves={"MODE": coefficients, "STARS": whole, "SECONDS": tmx.Polynomial(coefficients)})
curves = {"MODE": coefficients}
fields.decoded(curves=curves)
fields.decoded(curves={"MODE": numpy.polynomial.Polynomial([0, 1], [0, 4095]), "STARS": numpy.poly1d([1, 0])})
fields.decoded(curves={"MODE": tmx.Spline(points), "STARS": numpy.polynomial.Chebyshev(coefficients)})
"""
REFUSED = """fields.decoded(curves={"MODE": "10"})
fields.decoded(curves={"MODE": 5})
fields.decoded(curves={"MODE": ["0", "1"]})
tmx.Polynomial("10")
"""  # a line each that they don't


class TheTypes(TestCase):
    @needs("mypy")
    def test_mypy(self) -> None:
        calls = CALLS + (WITH_NUMPY if importlib.util.find_spec("numpy") else "")
        self.assertEqual(self.refused(calls), [])
        before = calls.count("\n")
        self.assertEqual(self.refused(calls + REFUSED), [before + number for number in range(1, REFUSED.count("\n") + 1)])

    def refused(self, calls: str) -> list[int]:
        """The lines that mypy refuses."""
        Path("calls.py").write_text(calls)
        line = [sys.executable, "-m", "mypy", "--strict", "--cache-dir", "cache", str(PACKAGE / "tmx"), "calls.py"]
        ran = subprocess.run(line, capture_output=True, text=True, check=False, env=os.environ | {"MYPYPATH": str(PACKAGE)})
        found = re.findall("^(.*?):([0-9]+): error: ", ran.stdout, re.MULTILINE)
        self.assertEqual((ran.returncode, {name for name, _ in found} - {"calls.py"}), (1 if found else 0, set()), ran.stdout)
        return sorted({int(number) for _, number in found})


if __name__ == "__main__":
    unittest.main()
