"""What is said of empty answers, and how far long work is."""

import contextlib
import gzip
import io
import os
import pty
import subprocess
import sys
import threading
import unittest
import warnings
from pathlib import Path
from unittest import mock

from support import ATTITUDE, PACKAGE, RECORDING, SETTINGS, TestCase, command, example, needs, tmx

from tmx import progress

OCTETS = RECORDING.read_bytes()
OTHER = tmx.Settings(43, 256, True)
NAMED = f"{RECORDING}: "  # which stands before a warning


class Warned(TestCase):
    def warnings_of(self, call) -> list[str]:
        """The warnings of a call, each at the line here that calls."""
        with warnings.catch_warnings(record=True) as found:
            warnings.simplefilter("always")
            call()
        self.assertEqual([(it.category, it.filename) for it in found], [(tmx.TmxWarning, __file__)] * len(found))
        return [str(it.message) for it in found]

    def is_told_once(self, call, form: str = "no good frame|, 0 good, ") -> None:
        """A call has one warning, which has the program's words."""
        said = self.warnings_of(call)
        self.assertEqual(len(said), 1, said)
        self.assertRegex(said[0], form)

    def calls(self, recording: tmx.Recording):
        yield lambda: list(recording.packets())
        yield lambda: list(recording.packets(apid=101, channel=[0, 3]))
        yield lambda: list(recording.frames())
        yield recording.report
        yield recording.loss_map
        yield lambda: recording.extract("extracted")
        yield lambda: recording.split("split")
        yield lambda: recording.fields(ATTITUDE, 101)
        yield lambda: list(recording.fields(ATTITUDE, 101, channel=3, blocks=10))

    def test_nothing_is_said_where_something_came(self) -> None:
        for given in (RECORDING, io.BytesIO(OCTETS)):
            recording = tmx.Recording(given, SETTINGS)
            for call in (*self.calls(recording), recording.summary):
                self.assertEqual(self.warnings_of(call), [])
        self.assertEqual(self.warnings_of(lambda: tmx.probe(RECORDING)), [])

    def test_no_good_frame(self) -> None:
        for given in (RECORDING, io.BytesIO(OCTETS)):
            recording = tmx.Recording(given, OTHER)
            named = NAMED if given is RECORDING else ""
            for call in self.calls(recording):
                self.is_told_once(call, f"^{named}.*(no good frame|, 0 good, )")
            said = [f"{named}no good frame in 300 records: 1 by crc, 299 by spacecraft"]
            self.assertEqual(self.warnings_of(recording.summary), said)

    def test_a_packed_recording(self) -> None:
        Path("pass.rec.gz").write_bytes(gzip.compress(OCTETS))
        self.is_told_once(tmx.Recording("pass.rec.gz", SETTINGS).report, "the recording pass.rec.gz: packed by gzip")

    def test_other_words_of_the_program(self) -> None:
        self.program('"$real" "$@" 2>/dev/null; echo "  300 records, 0 good, 300 bad: see tmx summary" >&2')
        said = self.warnings_of(tmx.Recording(RECORDING, OTHER).report)
        self.assertEqual(said, [f"{NAMED}300 records, 0 good, 300 bad: see tmx summary"])

    def test_no_whole_record(self) -> None:
        for length in (0, 255):
            Path("short.rec").write_bytes(OCTETS[:length])
            for given in ("short.rec", io.BytesIO(OCTETS[:length])):
                recording = tmx.Recording(given, SETTINGS)
                named = "short.rec: " if given == "short.rec" else ""
                for call in (*self.calls(recording), recording.summary):
                    self.assertEqual(self.warnings_of(call), [f"{named}no whole record: the recording has {length} octets"])

    def test_nothing_of_what_was_chosen(self) -> None:
        for chosen, said in (
            ({"apid": 10}, "no packet of application 10"),
            ({"apid": [101, 11, 5]}, "no packet of applications 5 and 11"),
            ({"channel": 5}, "no packet of channel 5"),
            ({"channel": [3, 5, 7]}, "no packet of channels 5 and 7"),
            ({"channel": 5, "apid": 101}, "no packet of channel 5"),
            ({"channel": [3, 1], "apid": [200, 102]}, "no packet of application 102 on channels 1 and 3"),
            ({"channel": [3, 5], "apid": 200}, "no packet of channel 5, and none of application 200 on channels 3 and 5"),
        ):
            self.assertEqual(self.warnings_of(lambda: list(example().packets(**chosen))), [NAMED + said])
        for apid, channel, said in (
            (10, None, "no packet of application 10"),
            (10, [3, 5], "no packet of application 10 on channels 3 and 5"),
            (101, [3, 5], "no packet of application 101 on channel 5"),
        ):
            self.assertEqual(self.warnings_of(lambda: example().fields(ATTITUDE, apid, channel=channel)), [NAMED + said])
            said_of_blocks = self.warnings_of(lambda: list(example().fields(ATTITUDE, apid, channel=channel, blocks=7)))
            self.assertEqual(said_of_blocks, [NAMED + said])
        recording = tmx.Recording(RECORDING, tmx.Settings(42, 256, True, channels=[5, 6]))
        self.assertEqual(self.warnings_of(recording.summary), [f"{NAMED}no good frame of channels 5 and 6, which the settings choose"])
        self.is_told_once(lambda: list(recording.packets()), f"^{NAMED}no good frame of channel 5, 6; 300 records, 0 good, 1 bad, ")

    @needs("numpy")
    def test_an_array_says_the_same(self) -> None:
        for chosen in ({}, {"apid": 10}, {"channel": [3, 5, 7]}, {"channel": [3, 5], "apid": 200}, {"channel": 3, "apid": [101, 102]}):
            said = self.warnings_of(lambda: list(example().packets(**chosen)))
            self.assertEqual(self.warnings_of(lambda: example().packets_array(**chosen)), said)
        self.is_told_once(tmx.Recording(RECORDING, OTHER).packets_array)

    def test_nothing_of_a_channel_of_the_settings(self) -> None:
        self.program('"$real" "$@" 2>/dev/null; echo "  no good frame of channel 5; 300 records, 299 good: see tmx summary" >&2')
        recording = tmx.Recording(RECORDING, tmx.Settings(42, 256, True, channels=[0, 5]))
        calls = (
            lambda: list(recording.packets()),
            lambda: list(recording.packets(apid=10)),
            lambda: recording.fields(ATTITUDE, 101),
            recording.report,
            lambda: recording.extract("out"),
            recording.summary,
        )
        for call in calls:
            self.is_told_once(call, "no good frame of channel 5")

    def test_packets_that_are_too_short_came(self) -> None:
        Path("d.csv").write_text("name,data_type,bit_length\nA,str,40000\n")
        for channel in (None, 3, [0, 3]):
            call = lambda: self.assertEqual(example().fields("d.csv", 101, channel=channel).rows, 0)  # noqa: E731, B023
            self.assertEqual(self.warnings_of(call), [])
        said = self.warnings_of(lambda: example().fields("d.csv", 101, channel=[3, 5]))
        self.assertEqual(said, [f"{NAMED}no packet of application 101 on channel 5"])

    def test_steps_say_nothing(self) -> None:
        for call in (
            lambda: list(example().packets(10, checkpoint="chk", stop_after=100)),
            lambda: list(example().packets(10, resume="chk")),
            lambda: list(example().follow(10, timeout=0)),
            lambda: example().fields(ATTITUDE, 10, resume="chk"),
        ):
            self.assertEqual(self.warnings_of(call), [])

    def test_a_warning_can_be_an_error(self) -> None:
        with warnings.catch_warnings():
            warnings.simplefilter("error", tmx.TmxWarning)
            self.raises(tmx.TmxWarning, None, lambda: list(example().packets(10)))

    def test_settings_of_a_pipe_are_not_read_again(self) -> None:
        os.mkfifo("pipe")
        writer = threading.Thread(target=Path("pipe").write_bytes, args=[SETTINGS.read_bytes()], daemon=True)
        writer.start()
        self.assertEqual(len(tmx.Recording(RECORDING, "pipe").report()), 23)
        writer.join()

    def test_settings_that_the_program_takes(self) -> None:
        """A byte order mark, and TOML 1.1, which Python doesn't read: nothing is told then."""
        text = SETTINGS.read_text()
        Path("marked.toml").write_text("\ufeff" + text)
        Path("newer.toml").write_text(text.replace('"never"', '"\\x6eever"', 1))
        self.assertEqual(tmx.Settings.read("marked.toml"), tmx.Settings.read(SETTINGS))
        for name in ("marked.toml", "newer.toml"):
            recording = tmx.Recording(RECORDING, name)
            for call in (*self.calls(recording), recording.summary):
                self.assertEqual(self.warnings_of(call), [])
        self.assertEqual(len(list(tmx.Recording(RECORDING, "marked.toml").follow(timeout=0))), 848)

    def test_commands(self) -> None:
        OTHER.write("other")
        status, said = command("map", "--settings", "other", RECORDING)
        self.assertEqual(status, 0)
        self.assertRegex(said, "^tmx map: .*(no good frame|, 0 good, ).*\n$")

    def test_a_program_that_says_nothing(self) -> None:
        self.program('exec "$real" "$@" 2>/dev/null')
        self.is_told_once(lambda: list(tmx.Recording(RECORDING, OTHER).frames()), f"^{NAMED}no good frame$")


class Progress(TestCase):
    def calls(self, recording: tmx.Recording, **how: object):
        yield lambda: list(recording.packets(**how))
        yield lambda: list(recording.frames(**how))
        yield lambda: recording.report(**how)
        yield lambda: str(recording.summary(**how))
        yield lambda: recording.loss_map(**how).svg
        yield lambda: recording.fields(ATTITUDE, 101, **how).rows
        yield lambda: [it.rows for it in recording.fields(ATTITUDE, 101, blocks=100, **how)]
        yield lambda: recording.extract("extracted", **how)
        yield lambda: recording.split("split", **how)

    def test_a_function_is_told(self) -> None:
        Path("long.rec").write_bytes(OCTETS * 40)
        length = 40 * len(OCTETS)
        file = self.enterContext(open("long.rec", "rb"))
        self.enterContext(mock.patch("tmx.runs.SECONDS", 0))
        for given, total in (("long.rec", length), (file, length), (io.BytesIO(OCTETS * 40), None)):
            told: list[tuple[int, int | None]] = []
            plain, shown = (self.calls(tmx.Recording(given, SETTINGS), **it) for it in ({}, {"progress": lambda *it: told.append(it)}))
            for call, call_shown in zip(plain, shown):
                told.clear()
                self.assertEqual(call_shown(), call())
                self.assertEqual(told[-1], (length, total))
                self.assertEqual({it for _, it in told}, {total})
                self.assertEqual([it for it, _ in told], sorted(it for it, _ in told))

            list(tmx.Recording(given, SETTINGS).packets(progress=lambda *it: told.append(it)))
            self.assertGreater(len({it for it, _ in told}), 3)

    def test_a_step(self) -> None:
        told: list[tuple[int, int | None]] = []
        Path("long.rec").write_bytes(OCTETS * 40)
        recording = tmx.Recording("long.rec", SETTINGS)
        list(recording.packets(checkpoint="chk", stop_after=10, progress=lambda *it: told.append(it)))
        self.assertLess(told[-1][0], 30 * len(OCTETS))

    def test_a_function_that_raises(self) -> None:
        self.raises(ZeroDivisionError, None, example().report, progress=lambda *_: 1 // 0)

    def test_nothing_is_shown_elsewhere(self) -> None:
        with contextlib.redirect_stderr(io.StringIO()) as said:
            for call in self.calls(example(), progress=True):
                call()
        self.assertEqual(said.getvalue(), "")

    def at_a_terminal(self, script: str) -> tuple[str, str]:
        """What a script prints, and what a terminal gets on its standard error."""
        parent, child = pty.openpty()
        said, path = b"", f"{PACKAGE}:{os.environ.get('PYTHONPATH', '')}"
        line = [sys.executable, "-c", f"import tmx\nrecording = tmx.Recording({str(RECORDING)!r}, {str(SETTINGS)!r})\n{script}"]
        with open(parent, "rb", buffering=0) as terminal:
            how = {"stderr": child, "stdout": subprocess.PIPE, "text": True, "env": os.environ | {"PYTHONPATH": path}}
            with subprocess.Popen(line, **how) as ran:
                os.close(child)
                text = ran.stdout.read()
            with contextlib.suppress(OSError):
                said = terminal.read(100000)
        return text, said.decode()

    def test_a_line_of_our_own(self) -> None:
        without = "import sys\nsys.modules['tqdm'] = None\nfrom tmx import progress\nprogress.module = lambda name: None\n"
        found = self.at_a_terminal(f"{without}print(len(list(recording.packets(progress=True))))")
        self.assertEqual(found[0], "848\n")
        self.assertTrue(found[1].endswith("\r100%  0.1 of 0.1 MB\r\n"), found[1])
        found = self.at_a_terminal(f"{without}print(len(list(recording.packets())))")
        self.assertEqual(found, ("848\n", ""))

    @needs("tqdm")
    def test_tqdm(self) -> None:
        found = self.at_a_terminal("print(len(list(recording.packets(progress=True))))")
        self.assertEqual(found[0], "848\n")
        self.assertIn("76.8k/76.8k", found[1])

    def test_in_a_notebook(self) -> None:
        shell = type("ZMQInteractiveShell", (), {})()
        self.enterContext(mock.patch.dict(sys.modules, {"IPython": mock.Mock(get_ipython=lambda: shell)}))
        self.enterContext(mock.patch("tmx.progress.module", lambda name: None))
        with contextlib.redirect_stderr(io.StringIO()) as said:
            self.assertEqual(len(example().report(progress=True)), 23)
        self.assertTrue(said.getvalue().endswith("\r100%  0.1 of 0.1 MB\n"), said.getvalue())

    def test_a_line(self) -> None:
        with contextlib.redirect_stderr(io.StringIO()) as said:
            for length in (4_000_000, None, 0):
                bar = progress.Bar(length)
                bar.update(1_000_000)
                bar.close()
        self.assertEqual(said.getvalue(), "\r 25%  1.0 of 4.0 MB\n\r1.0 MB\n\r1.0 MB\n")


if __name__ == "__main__":
    unittest.main()
