"""Each error, by what brings it: wrong files, failing devices, and programs that are missing, too old or killed."""

import contextlib
import copy
import io
import json
import os
import pickle
import signal
import subprocess
import sys
import threading
import unittest
import warnings
from itertools import accumulate, product
from pathlib import Path
from unittest import mock

from support import ATTITUDE, PACKAGE, PROGRAM, RECORDING, SETTINGS, TestCase, command, example, tmx

from tmx import __main__ as commands
from tmx import errors, programs
from tmx.following import Wanted, next_step

SETTINGS_42 = tmx.Settings(spacecraft=42, frame_length=256, error_control=True)


class Refused(TestCase):
    def test_settings(self) -> None:
        Path("range").write_text("spacecraft = 1024\nframe_length = 256\nerror_control = true\n")
        Path("kind").write_text('spacecraft = 42\nframe_length = "256"\nerror_control = true\n')
        for settings, word, line in (
            ("range", "range", "range spacecraft"),
            ("kind", "kind", "kind frame_length"),
            (tmx.Settings(42, 256, None), "missing", "missing error_control"),  # type: ignore[arg-type]
            (tmx.Settings(42, 256, True, channels=[]), "range", "range channels"),
            (RECORDING, "toml", "toml"),
        ):
            recording = tmx.Recording(RECORDING, settings)
            for call in (recording.summary, recording.report, lambda: list(recording.packets()), lambda: next(recording.frames())):
                error = self.raises(tmx.SettingsError, word, call)
                self.assertEqual((error.line, error.status), (f"tmx: settings: {line}", 2))

    def test_definition(self) -> None:
        for text, word in (("name,data_type\n", "column"), ("name,data_type,bit_length\nA,uint,65\n", "bits"), ("a\nb,c\n", "csv")):
            self.folder.joinpath("d.csv").write_text(text)
            self.raises(tmx.DefinitionError, word, example().fields, "d.csv", 101)
        many = "name,data_type,bit_length\n" + "A,fill,1\n" * 1001
        self.folder.joinpath("d.csv").write_text(many)
        self.raises(tmx.DefinitionError, "too many", example().fields, "d.csv", 101)

    def test_columns(self) -> None:
        self.folder.joinpath("d.csv").write_text("name,data_type,bit_length\ntm_apid,uint,8\nF,float,32\n")
        self.raises(tmx.ColumnError, None, example().fields, "d.csv", 101)
        for time in ("NONE", "ANGLE_X", ("SECONDS", "FRACTION", "MODE"), ()):
            self.raises(tmx.ColumnError, None, example().fields, ATTITUDE, 101, time=time, epoch="2000-01-01")
        self.raises(tmx.ColumnError, None, example().fields, ATTITUDE, 101, time="SECONDS")
        for time in ({"SECONDS", "FRACTION"}, {"SECONDS": 1}, b"SECONDS", 7):
            self.raises(TypeError, None, example().fields, ATTITUDE, 101, time=time, epoch="2000-01-01")

    def test_checkpoint(self) -> None:
        list(example().packets(checkpoint="day.chk", stop_after=100))
        self.raises(tmx.CheckpointError, "magic", lambda: list(example().packets(resume=RECORDING)))
        how = {"checkpoint": "new.chk"}
        self.raises(tmx.CheckpointError, "magic", lambda: list(example().packets(resume=RECORDING, **how)))
        self.raises(tmx.FileError, "failed", lambda: list(example().packets(resume="none", **how)))
        self.raises(tmx.FileError, "failed", lambda: list(tmx.Recording("none", SETTINGS).packets(**how)))
        self.assertEqual(os.listdir(), ["day.chk"])
        other = tmx.Recording(RECORDING, SETTINGS_42)
        self.raises(tmx.CheckpointError, "settings", lambda: list(other.packets(resume="day.chk")))
        self.raises(tmx.CheckpointError, "settings", lambda: list(other.packets(resume="day.chk", checkpoint="day.chk")))
        short = tmx.Recording(io.BytesIO(RECORDING.read_bytes()[:2560]), SETTINGS)
        self.raises(tmx.RunError, "recording is shorter than the checkpoint", lambda: list(short.packets(resume="day.chk")))
        self.folder.joinpath("short.rec").write_bytes(RECORDING.read_bytes()[:2560])
        short = tmx.Recording("short.rec", SETTINGS)
        how = {"resume": "day.chk", "checkpoint": "day.chk"}
        self.raises(tmx.RunError, "recording is shorter than the checkpoint", lambda: list(short.packets(**how)))
        self.raises(tmx.UsageError, None, lambda: list(example().packets(stop_after=1)))

    def test_files(self) -> None:
        self.raises(tmx.FileError, "failed", tmx.Recording("none", SETTINGS).summary)
        self.raises(tmx.FileError, "failed", tmx.Recording(RECORDING, "none").summary)
        self.raises(tmx.FileError, "failed", example().fields, "none", 101)
        self.raises(tmx.FileError, "failed", lambda: list(example().packets(report=self.folder)))
        for name in ("long", "settings"):
            with open(name, "wb") as file:
                file.truncate(1048577)
            self.raises(tmx.FileError, "too long", tmx.Recording(RECORDING, name).summary)
        self.raises(FileNotFoundError, None, example().extract, "none/packets")

    def test_nothing_is_written_over(self) -> None:
        self.folder.joinpath("a.rec").write_bytes(RECORDING.read_bytes())
        self.folder.joinpath("a.toml").write_bytes(SETTINGS.read_bytes())
        list(example().packets(checkpoint="day.chk", stop_after=100))
        for name in ("b.rec", "apid-0100.pkt"):
            os.link("a.rec", name)
        files = {it.name: it.read_bytes() for it in self.folder.iterdir()}
        file = self.enterContext(open("a.rec", "rb"))
        for given, name in product(("a.rec", file), ("a.rec", "b.rec", "a.toml")):
            recording = tmx.Recording(given, "a.toml")
            self.raises(tmx.FileError, "failed", recording.extract, name)
            self.raises(tmx.FileError, "failed", lambda: list(recording.packets(checkpoint=name)))
        recording = tmx.Recording("a.rec", "a.toml")
        self.raises(tmx.FileError, "failed", lambda: list(recording.follow(checkpoint="b.rec", timeout=0)))
        for how in ("resume", "checkpoint", "report"):
            self.raises(tmx.FileError, "failed", recording.extract, "day.chk", **{how: "day.chk"})
        for name in ("day.chk", "new.chk"):
            self.raises(tmx.FileError, "failed", lambda: list(recording.packets(checkpoint=name, report=name)))
        self.raises(tmx.FileError, "failed", tmx.cut("a.rec", length=256).write, "b.rec")
        for given, option in product((file, tmx.cut("a.rec", length=256), tmx.cut(file, length=256)), ("report", "checkpoint")):
            recording, how = tmx.Recording(given, "a.toml"), {option: "b.rec"}
            self.raises(tmx.FileError, "failed", recording.extract, "b.rec")
            self.raises(tmx.FileError, "failed", recording.split, ".")
            self.raises(tmx.FileError, "failed", recording.extract, "new.pkt", **how)
            self.raises(tmx.FileError, "failed", recording.split, ".", **how)
            self.raises(tmx.FileError, "failed", recording.fields, ATTITUDE, 101, **how)
            self.raises(tmx.FileError, "failed", lambda: list(recording.packets(**how)))
            self.raises(tmx.FileError, "failed", recording.tables, {101: ATTITUDE}, report={101: "b.rec"})
        self.assertEqual({it.name: it.read_bytes() for it in self.folder.iterdir()}, files)

    def test_devices(self) -> None:
        self.raises(tmx.RunError, "read failed", tmx.Recording(self.folder, SETTINGS).summary)
        self.raises(tmx.RunError, "write failed", example().extract, "/dev/full")
        self.raises(tmx.RunError, "report failed", lambda: list(example().packets(report="/dev/full")))
        for text in (io.StringIO("text"), self.enterContext(open(RECORDING, encoding="utf-8"))):
            self.raises(TypeError, None, tmx.Recording(text, SETTINGS).summary)

    def test_errors_go_by_pickle(self) -> None:
        error = self.raises(tmx.FileError, "failed", tmx.Recording("none", SETTINGS).summary)
        again = pickle.loads(pickle.dumps(error))
        self.assertEqual((str(again), again.line, again.status, again.word), (str(error), error.line, 1, "failed"))
        given = tmx.XtceError("/Sat/C", "it contains itself")
        for again in (pickle.loads(pickle.dumps(given)), copy.copy(given)):
            self.assertEqual((str(again), again.path, again.reason), ("/Sat/C: it contains itself", "/Sat/C", "it contains itself"))
        left = [tmx.Error]
        while left:  # each other one
            kind = left.pop()
            left += kind.__subclasses__()
            if kind is not tmx.XtceError:
                error = kind("line", 1, "word") if issubclass(kind, tmx.ProgramError) else kind("why")
                self.assertEqual(str(pickle.loads(pickle.dumps(error))), str(error))
        self.assertEqual(pickle.loads(pickle.dumps(example())).summary(), example().summary())


class Commands(TestCase):
    def test_what_is_said(self) -> None:
        Path("folder").mkdir()
        for words, says in (
            (["cut", "--length", "5", "none"], "tmx cut: none: No such file or directory"),
            (["probe", "folder"], "tmx probe: folder: Is a directory"),
            (
                ["map", "--settings", "none", str(RECORDING)],
                "tmx: none: failed\n  the settings none: no such file; see that the name and the folder are right",
            ),
            (["cut-back", str(RECORDING)], f"tmx cut-back: {RECORDING}: no checkpoint"),
        ):
            with contextlib.redirect_stderr(io.StringIO()) as said:
                self.assertEqual(commands.main(words), 1)
            self.assertEqual(said.getvalue(), f"{says}\n")
        found = command("map", "--settings", SETTINGS, RECORDING, out="/dev/full")
        self.assertEqual(found, (1, "tmx map: standard output: No space left on device\n"))

    def test_words_that_are_refused(self) -> None:
        rules = ["--settings", SETTINGS]
        for words, says in (
            (["follow", *rules, "--interval", "-1", RECORDING, "steps"], "--interval takes seconds from 0 to "),
            (["follow", *rules, "--interval", "nan", RECORDING, "steps"], "--interval takes seconds from 0 to "),
            (["follow", *rules, "--interval", "1e300", RECORDING, "steps"], "--interval takes seconds from 0 to "),
            (["follow", *rules, "", "steps"], "the recording has no name"),
            (["watch", *rules, ""], "the recording has no name"),
        ):
            status, said = command(*words)
            self.assertEqual((status, said.splitlines()[-1].partition("error: ")[2].startswith(says)), (2, True), said)
        self.assertFalse(os.path.exists("steps"))
        for interval in (-1, float("nan"), 1e300):
            self.raises(ValueError, None, example().follow, interval=interval)

    def test_names_that_are_no_text(self) -> None:
        name = os.fsdecode(b"\xff.chk")
        list(example().packets(checkpoint=name))
        self.assertEqual(command("cut-back", name, out="out"), (0, ""))
        self.assertEqual(Path("out").read_bytes(), b"\xff.chk has 300 records\n")

    def closed(self, streams: str, *words: object, out: str = "out") -> tuple[int, str]:
        """The status of a command, some of whose standard streams are closed, and what it says on standard error."""
        line = ["sh", "-c", f'exec "$@" >{out} 2>said {streams}', "sh", sys.executable, "-m", "tmx", *map(str, words)]
        ran = subprocess.run(line, env=os.environ | {"PYTHONPATH": str(PACKAGE)}, timeout=60, check=False)
        return ran.returncode, Path("said").read_text()

    def test_closed_streams(self) -> None:
        for name, *words in (["probe"], ["cut", "--length", 9], *([it, "--settings", SETTINGS] for it in ("report", "map", "watch"))):
            status, said = self.closed("<&-", name, *words, "-")
            self.assertEqual((status, said), (1, f"tmx {name}: {'-' if name == 'watch' else 'standard input'}: Bad file descriptor\n"))
        self.assertEqual(self.closed("<&-", "map", "-", RECORDING), (1, "tmx map: standard input: Bad file descriptor\n"))
        octets = RECORDING.read_bytes()
        Path("watched").write_bytes(octets)
        status, said = self.closed(">&-", "watch", "--settings", SETTINGS, "--out", "packets", "watched")
        self.assertEqual((status, said), (1, "tmx watch: standard output: Bad file descriptor\n"))
        example().extract("wanted")
        self.assertEqual(Path("packets").read_bytes(), Path("wanted").read_bytes())
        Path("raw").write_bytes(b"x" + b"".join(b"\x1a\xcf\xfc\x1d" + octets[at : at + 256] for at in range(0, len(octets), 256)))
        wanted = b"".join(tmx.cut("raw", length=256))
        self.assertEqual(self.closed("2>&-", "cut", "--length", 256, "raw")[0], 0)
        self.assertEqual((Path("out").read_bytes(), bool(wanted)), (wanted, True))
        with mock.patch.object(sys, "stdin", None):
            self.raises(OSError, None, tmx.Recording("-", SETTINGS).summary)


class Reasons(TestCase):
    """Each error has its line, why it came, and the file that it is about."""

    def says(self, error: tmx.ProgramError, line: str, explanation: str, file: str | None) -> None:
        self.assertEqual((error.line, error.explanation, error.file), (line, explanation, file))
        self.assertEqual(str(error), f"{line}\n  {explanation}" if explanation else line)
        self.assertEqual(str(pickle.loads(pickle.dumps(error))), str(error))

    def test_files(self) -> None:
        right = "no such file; see that the name and the folder are right"
        for explain in ("0", "1", "other"):
            with mock.patch.dict(os.environ, {"TMX_EXPLAIN": explain}):
                error = self.raises(tmx.FileError, "failed", tmx.Recording(RECORDING, "none").summary)
                self.says(error, "tmx: none: failed", f"the settings none: {right}", "none")
        name = "a \\ \N{GREEK SMALL LETTER ALPHA}"
        error = self.raises(tmx.FileError, "failed", tmx.Recording(name, SETTINGS).summary)
        self.assertEqual((error.line, error.file), ("tmx: a \\x5c \\xce\\xb1: failed", name))
        error = self.raises(tmx.FileError, "failed", lambda: list(example().packets(report=self.folder)))
        self.assertEqual((error.file, error.explanation), (str(self.folder), f"the report {self.folder}: a folder; name a file"))
        error = self.raises(tmx.FileError, "failed", example().extract, SETTINGS)
        over = f"{SETTINGS} would be written over {SETTINGS}; name another file"
        self.says(error, f"tmx: {SETTINGS}: failed", over, str(SETTINGS))

        error = self.raises(tmx.RunError, "write failed", example().extract, "/dev/full")
        full = "No space left on device (os error 28); mend this, or name another"
        self.says(error, "tmx: write failed", f"/dev/full: {full}", "/dev/full")
        missing = self.raises(FileNotFoundError, None, example().extract, "none/out")
        self.assertEqual(missing.filename, "none/out")

    def test_refused_files(self) -> None:
        Path("s.toml").write_text("spacecraft = 42\nframe_length = 5\nerror_control = true\n")
        error = self.raises(tmx.SettingsError, "range", tmx.Recording(RECORDING, "s.toml").summary)
        why = "the value of frame_length has to be an integer from 9 to 2048"
        self.says(error, "tmx: settings: range frame_length", f"the settings s.toml: {why}", "s.toml")
        error = self.raises(tmx.SettingsError, "range", tmx.Recording(RECORDING, tmx.Settings(42, 256, True, ocf="x")).summary)
        self.says(error, "tmx: settings: range ocf", 'the settings: the value of ocf has to be "flag", "always" or "never"', None)
        Path("d.csv").write_text("name,data_type,bit_length\nA,uint,65\n")
        error = self.raises(tmx.DefinitionError, "bits", example().fields, "d.csv", 101)
        self.assertEqual((error.line, error.file), ("tmx: definition: bits row 1", "d.csv"))
        self.assertIn("field A of type uint: bit_length is 65", error.explanation)
        list(example().packets(checkpoint="chk", stop_after=9))
        Path("short.rec").write_bytes(RECORDING.read_bytes()[:256])
        error = self.raises(tmx.RunError, None, lambda: list(tmx.Recording("short.rec", SETTINGS).packets(resume="chk")))
        self.assertEqual((error.word, error.file), ("recording is shorter than the checkpoint", "short.rec"))
        other = tmx.Recording(RECORDING, SETTINGS_42)
        error = self.raises(tmx.CheckpointError, "settings", lambda: list(other.packets(resume="chk")))
        self.assertEqual(error.file, "chk")
        self.assertRegex(error.explanation, "^the checkpoint to go on from chk: .* in the settings; take the settings that")
        error = self.raises(tmx.CheckpointError, "magic", lambda: list(example().packets(resume=SETTINGS)))
        self.says(error, "tmx: checkpoint: magic", "", str(SETTINGS))

    def test_what_a_program_prints_of_a_good_run(self) -> None:
        self.program('"$real" "$@"; status=$?; echo "  300 records, 299 good, 1 bad: see tmx summary" >&2; exit $status')
        with warnings.catch_warnings():
            warnings.simplefilter("error")
            self.assertEqual(len(example().report()), 23)
            self.assertEqual((len(list(example().packets())), example().fields(ATTITUDE, 101).rows), (848, 503))
        for said, line, explanation in (
            ("tmx: read failed\n  one\n  two\n", "tmx: read failed", "one\ntwo"),
            ("error: no\n  --settings\n\nFor more\n  why\n", "error: no\n  --settings\n\nFor more", "why"),
            ("  why\n", "", "why"),
            ("", "", ""),
        ):
            self.assertEqual(errors.told(said), (line, explanation))

    def test_a_report_with_an_explanation(self) -> None:
        list(example().packets(report="report"))
        frames = "".join(f"{it}\n" for it in example().frames())
        Path("frames").write_text(frames)
        report = Path("report").read_text()
        list(example().packets(checkpoint="chk", stop_after=300))
        Path("explained").write_text(f"{report}  300 records, 299 good, 1 bad: see tmx summary\n")
        for name in ("report", "explained"):
            self.assertEqual(command("map", "frames", name, out=f"{name}.svg"), (0, ""))
        self.assertEqual(Path("explained.svg").read_bytes(), Path("report.svg").read_bytes())
        self.assertEqual(tmx.cut_back("chk", "explained"), {"explained": 0})


class Streams(TestCase):
    def test_a_stream_is_read_from_where_it_stands(self) -> None:
        file = io.BytesIO(b"noise" + RECORDING.read_bytes())
        file.seek(5)
        recording = tmx.Recording(file, SETTINGS)
        self.assertEqual([recording.summary(), recording.summary()], [example().summary()] * 2)

    def test_a_named_pipe(self) -> None:
        os.mkfifo("pipe")
        writer = threading.Thread(target=Path("pipe").write_bytes, args=[RECORDING.read_bytes()], daemon=True)
        writer.start()
        self.assertEqual(list(tmx.Recording("pipe", SETTINGS).packets()), list(example().packets()))
        writer.join()

    def test_names_of_descriptors(self) -> None:
        """The program has other descriptors: its standard input is empty."""
        with open(RECORDING, "rb") as file:
            for name in (f"/dev/fd/{file.fileno()}", f"/proc/self/fd/{file.fileno()}"):
                self.assertEqual(tmx.Recording(name, SETTINGS).summary().recording.records, 300)
            line = [sys.executable, "-m", "tmx", "report", "--json", "--settings", SETTINGS, "/dev/stdin"]
            ran = subprocess.run(line, stdin=file, capture_output=True, check=True, env=os.environ | {"PYTHONPATH": str(PACKAGE)})
        self.assertEqual(json.loads(ran.stdout)["recording"]["counts"]["records"], 300)

    def test_a_pipe_is_read_once(self) -> None:
        read, written = os.pipe()
        with open(read, "rb") as file, open(written, "wb") as to:
            to.write(RECORDING.read_bytes()[:20480])
            to.close()
            recording = tmx.Recording(file, SETTINGS)
            self.assertEqual(len(list(recording.frames())), 80)
            self.raises(tmx.ConsumedError, None, recording.summary)

    def test_a_stream_is_read_by_one_at_a_time(self) -> None:
        recording = tmx.Recording(io.BytesIO(RECORDING.read_bytes()), SETTINGS)
        frames = recording.frames()
        next(frames)
        self.raises(tmx.ConsumedError, None, recording.summary)
        frames.close()
        self.assertEqual(recording.summary(), example().summary())

    def test_a_stream_that_fails(self) -> None:
        failing = mock.Mock(spec=["read"], read=mock.Mock(side_effect=[RECORDING.read_bytes()[:2560], OSError("torn off")]))
        packets = tmx.Recording(failing, SETTINGS).packets()
        self.raises(OSError, None, lambda: list(packets))
        failing.read.side_effect = [RECORDING.read_bytes() * 20, OSError("torn off"), b""]  # much, so that rows come before
        self.raises(OSError, None, tmx.Recording(failing, SETTINGS).fields, ATTITUDE, 101)


class Programs(TestCase):
    def test_missing(self) -> None:
        with mock.patch.dict(os.environ, {"TMX": "/nowhere/tmx"}):
            self.raises(tmx.ProgramMissingError, None, example().summary)
        with mock.patch.dict(os.environ, {"PATH": "/nowhere"}):
            del os.environ["TMX"]
            self.raises(tmx.ProgramMissingError, None, lambda: list(example().packets()))
            self.assertTrue(repr(example()).endswith(", no program>"))

    def test_where_it_is_looked_for(self) -> None:
        for name in ("path", "package"):
            Path(name).mkdir()
            Path(name, "tmx").symlink_to(PROGRAM)
        path, beside = self.folder / "path", self.folder / "package" / "tmx"
        with mock.patch.dict(os.environ, {"PATH": str(path)}), mock.patch.object(programs, "BESIDE", beside):
            self.assertEqual(tmx.program(), tmx.Program(PROGRAM, "TMX"))
            for _ in range(2):
                os.environ["TMX"] = ""
                self.assertEqual(tmx.program(), tmx.Program(str(beside), "package"))
                del os.environ["TMX"]
            beside.unlink()
            self.assertEqual(tmx.program(), tmx.Program(str(path / "tmx"), "PATH"))
            self.assertEqual(repr(example()), f"<Recording {str(RECORDING)!r}, settings {SETTINGS!r}, program {path / 'tmx'}>")
            self.assertEqual(example().summary().recording.records, 300)

    def test_another_version(self) -> None:
        self.program("")
        for told in ("echo tmx 0.1.1", "echo tmx 0.1.0; exit 1", "echo", "exit 3"):
            Path("program").write_text(f"#!/bin/sh\n{told}\n")
            for call in (example().summary, lambda: list(example().packets()), lambda: example().fields(ATTITUDE, 101)):
                error = self.raises(tmx.VersionError, None, call)
                self.assertIn(f"{self.folder / 'program'} is not tmx {tmx.__version__}", str(error))
            os.utime("program", ns=(0, len(told)))
        with mock.patch.dict(os.environ, {"TMX": "/bin/true"}):
            self.raises(tmx.VersionError, None, lambda: list(example().packets()))
        Path("program").write_text("#!/bin/sh\nkill -KILL $$\n")
        self.raises(tmx.KilledError, "SIGKILL", example().summary)

    def test_the_version_is_asked_once(self) -> None:
        self.program("")
        Path("program").write_text(f'#!/bin/sh\necho "$1" >>asked\nexec {PROGRAM} "$@"\n')
        example().summary()
        example().report()
        self.assertEqual(Path("asked").read_text().split(), ["--version", "summary", "extract"])

    def test_a_status_that_is_lost(self) -> None:
        self.addCleanup(signal.signal, signal.SIGCHLD, signal.signal(signal.SIGCHLD, signal.SIG_IGN))
        for call in (tmx.Recording("none", SETTINGS).summary, tmx.program):
            self.assertIn("SIGCHLD", str(self.raises(tmx.Error, None, call)))

    def test_too_old(self) -> None:
        for what in ("unrecognized subcommand 'summary'", "unexpected argument '--settings' found"):
            self.program(f'echo "error: {what}" >&2; exit 2')
            self.raises(tmx.VersionError, None, example().summary)

    def test_other_lines(self) -> None:
        self.program('echo "frame record=0 channel=9"; exit 0')
        self.raises(tmx.VersionError, None, lambda: list(example().frames()))
        self.program('"$real" "$@" && "$real" "$@"')
        self.raises(tmx.VersionError, None, example().summary)
        self.program("exit 0")
        self.raises(tmx.VersionError, None, example().summary)
        self.raises(tmx.DisagreementError, None, example().fields, ATTITUDE, 101)

    def test_no_program(self) -> None:
        self.folder.joinpath("text").write_text("no program")
        self.folder.joinpath("text").chmod(0o755)
        with mock.patch.dict(os.environ, {"TMX": str(self.folder / "text")}):
            self.raises(tmx.ProgramMissingError, None, example().summary)

    def test_out_of_memory(self) -> None:
        self.program('echo "tmx: out of memory" >&2; exit 3')
        self.assertEqual(self.raises(tmx.OutOfMemoryError, "out of memory", example().summary).status, 3)

    def killed(self, command: str, how: str) -> list[tmx.Packet]:
        """The packets that come when a program writes some of them and is killed then."""
        self.program(f'[ "$1" = {command} ] || exec "$real" "$@"\n{how}\nkill -KILL $$')
        found, packets = [], example().packets()
        try:
            for packet in packets:
                found.append(packet)
        except tmx.KilledError as error:
            self.assertEqual((error.status, error.word), (-9, "SIGKILL"))
            return found
        self.fail("no error")

    def test_killed(self) -> None:
        whole = list(example().packets())
        there = sum(it <= 30000 for it in accumulate(16 + len(it.octets) for it in whole))
        self.assertEqual(self.killed("packets", '"$real" "$@" | head -c 30000'), whole[:there])
        self.assertEqual(self.killed("packets", ""), [])
        self.assertEqual(self.killed("packets", '"$real" "$@"'), whole)

    def test_killed_at_the_end(self) -> None:
        self.program('"$real" "$@"\ncase $* in *" -- "* | extract*) kill -KILL $$; esac')  # not where only settings are looked at
        recording = example()
        for call in (
            lambda: list(recording.frames()),
            lambda: list(recording.packets(checkpoint="chk")),
            lambda: list(recording.follow(timeout=0)),
            recording.report,
            recording.summary,
            lambda: recording.fields(ATTITUDE, 101),
            recording.loss_map,
            lambda: recording.extract("extracted"),
            lambda: recording.split("split"),
            lambda: next_step(RECORDING, SETTINGS, "steps", Wanted()),
        ):
            self.raises(tmx.KilledError, "SIGKILL", call)
        self.program("kill -40 $$")
        self.assertEqual(self.raises(tmx.KilledError, "signal 40", example().summary).status, -40)

    def test_killed_while_a_stream_is_fed(self) -> None:
        self.program('[ "$1" = packets ] || exec "$real" "$@"\nhead -c 1000 > /dev/null\nkill -KILL $$')
        recording = tmx.Recording(io.BytesIO(RECORDING.read_bytes() * 50), SETTINGS)
        self.raises(tmx.KilledError, "SIGKILL", lambda: list(recording.packets()))

    def test_disagreement(self) -> None:
        self.program('[ "$1" = frames ] || exec "$real" "$@"\n"$real" "$@" | head -c 30000')
        self.raises(tmx.DisagreementError, None, lambda: list(example().frames()))


if __name__ == "__main__":
    unittest.main()
