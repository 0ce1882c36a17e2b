"""`watch`: what it counts beside the summary, what it leaves, and how it is shown."""

import io
import os
import pty
import random
import re
import select
import signal
import struct
import subprocess
import sys
import threading
import time
import unittest
from collections import Counter, deque
from contextlib import redirect_stderr
from fcntl import ioctl
from pathlib import Path
from termios import TIOCSWINSZ
from types import SimpleNamespace
from unittest import mock

from support import PACKAGE, RECORDING, SETTINGS, TestCase, damaged, example, lines, tmx

from tmx import screen, watching
from tmx.totals import Heads, Rate, Rates, Totals
from tmx.watching import Wanted, watch

OCTETS = RECORDING.read_bytes()
DEADLINE = float(os.environ.get("DEADLINE", 60))  # seconds for what takes none


class Watcher:
    """Somebody who looks, does something at each look, and goes when all is done and something has come."""

    def __init__(self, *deeds, then=lambda watched: True) -> None:
        self.deeds, self.then = list(deeds), then
        self.is_open = True
        self.last = None
        self.until = time.monotonic() + DEADLINE

    def show(self, watched) -> None:
        self.last = watched
        if not self.is_open:
            return
        if self.deeds:
            self.deeds.pop(0)()
        if not self.deeds and self.then(watched):
            self.is_open = False
        elif time.monotonic() > self.until:
            raise AssertionError(f"it doesn't come: {watched.totals}")


def appending(path: str, octets: bytes):
    def append() -> None:
        with open(path, "ab") as file:
            file.write(octets)

    return append


def pieces(octets: bytes, seed: int) -> list[bytes]:
    """The octets in some pieces of any length."""
    chance = random.Random(seed)
    cuts = sorted(chance.randrange(len(octets) + 1) for _ in range(chance.randrange(1, 8)))
    return [octets[at:end] for at, end in zip([0, *cuts], [*cuts, len(octets)])]


def watched_file(octets: bytes, seed: int, **words) -> tuple[tmx.Summary, Totals]:
    """What is counted of a file that comes piece by piece."""
    Path("growing").unlink(missing_ok=True)
    watcher = Watcher(*(appending("growing", it) for it in pieces(octets, seed)))
    with redirect_stderr(io.StringIO()):
        summary, error = watch(Wanted("growing", "settings", 0.001, **words), watcher)
    assert error is None
    return summary, watcher.last.totals


class Counted(TestCase):
    def compare(self, totals: Totals, recording: tmx.Recording) -> None:
        """The totals are those of one summary, and the counts those of the last packets."""
        summary = recording.summary()
        said = summary.recording
        self.assertEqual((totals.records, totals.good, totals.bad, totals.rest), (said.records, said.good, said.bad, said.rest))
        self.assertEqual((totals.faults, totals.missing), (summary.faults, summary.master.missing))
        self.assertEqual(
            {number: (it.frames, it.missing, it.dropped) for number, it in totals.channels.items()},
            {number: (it.frames, it.missing, it.lost) for number, it in summary.channels.items()},
        )
        last = {(it.channel, it.apid): it.count for it in recording.packets()}
        self.assertEqual(
            {key: (it.packets, it.count) for key, it in totals.applications.items()},
            {key: (it.packets, last[key]) for key, it in summary.applications.items()},
        )
        report = lines(recording.report())
        self.assertEqual([line for _, line in totals.reported], report[-5:])
        self.assertEqual(totals.lines, len(report))

    def test_files_that_grow(self) -> None:
        faults: Counter[str] = Counter()
        for seed in range(2000, 2020):
            with self.subTest(seed=seed):
                _, octets = damaged(seed)
                summary, totals = watched_file(octets, seed, out="out", report="report")
                recording = tmx.Recording("recording", "settings")
                self.compare(totals, recording)
                self.assertEqual(lines(summary.lines()), lines(recording.summary().lines()))
                recording.extract("wanted", report="wanted.report")
                self.assertEqual(Path("out").read_bytes(), Path("wanted").read_bytes())
                self.assertEqual(Path("report").read_bytes(), Path("wanted.report").read_bytes())
                faults += totals.faults
        self.assertGreater(len(faults), 3)

    def test_recordings_that_are_cut_anywhere(self) -> None:
        tmx.Settings(42, 256, True, channels=(0, 3)).write("settings")
        for length in (0, 100, 255, 256, 257, 30000, 60001, len(OCTETS)):
            with self.subTest(length=length):
                Path("recording").write_bytes(OCTETS[:length])
                _, totals = watched_file(OCTETS[:length], length)
                self.compare(totals, tmx.Recording("recording", "settings"))

    def test_a_named_pipe(self) -> None:
        os.mkfifo("pipe")

        def write() -> None:
            with open("pipe", "wb", buffering=0) as to:
                for piece in pieces(OCTETS, 7):
                    to.write(piece)

        writer = threading.Thread(target=write)
        writer.start()
        watcher = Watcher(then=lambda _: False)
        _, error = watch(Wanted("pipe", SETTINGS, 0.001), watcher)
        writer.join()
        self.assertIsNone(error)
        self.compare(watcher.last.totals, example())

    def test_a_file_that_is_long(self) -> None:
        octets = OCTETS * 100  # more than the pipes and the memory before them hold
        Path("recording").write_bytes(octets)
        self.program('[ "$1" = frames ] || sleep 0.3\nexec "$real" "$@"')  # they begin to read when others wait already
        watcher = Watcher(then=lambda it: it.totals.records == 300 * 100)
        watch(Wanted("recording", SETTINGS, 0.001, out="out", report="report"), watcher)
        recording = tmx.Recording("recording", SETTINGS)
        self.compare(watcher.last.totals, recording)
        recording.extract("wanted", report="wanted.report")
        self.assertEqual(Path("out").read_bytes(), Path("wanted").read_bytes())
        self.assertEqual(Path("report").read_bytes(), Path("wanted.report").read_bytes())

    def test_a_line_that_is_none(self) -> None:
        with self.assertRaisesRegex(tmx.VersionError, "packer record=1"):
            Totals().add_frames(b"bad record=0 fault=crc\npacker record=1\n", 0.0)

    def test_heads(self) -> None:
        """In pieces of any length, of packets that differ in the header's other bits too."""
        leads = ((3, 0x0805, 0xC001, 7), (0, 0x0005, 0x4002, 300), (3, 0x1005, 0x8003, 8), (3, 0x0806, 0xFFFF, 65542))
        octets = b"".join(
            struct.pack("<10xBxI", channel, length) + struct.pack(">HHH", first, sequence, length - 7) + b"\xff" * (length - 6)
            for channel, first, sequence, length in leads
        )
        for piece in (1, 5, 22, 23, 1000, len(octets)):
            heads, totals = Heads(), Totals()
            for at in range(0, len(octets), piece):
                heads.add(octets[at : at + piece])
            totals.add_packets(heads, 1.0)
            found = {key: (it.packets, it.count) for key, it in totals.applications.items()}
            self.assertEqual(found, {(3, 5): (2, 3), (0, 5): (1, 2), (3, 6): (1, 16383)})
            self.assertEqual(heads.found + heads.sequences, [])
        for wrong in (octets[:10] + b"\x08" + octets[11:], octets[:11] + b"\x01" + octets[12:]):
            heads.add(wrong)
            self.raises(tmx.DisagreementError, None, totals.add_packets, heads, 1.0)


    def test_much_is_counted_at_once(self) -> None:
        """Few packets wait for their time."""
        octets = subprocess.run([os.environ["TMX"], "packets", "--binary", "--settings", SETTINGS, RECORDING], capture_output=True)
        for many, counted in ((848, 848), (849, 0)):
            runs = SimpleNamespace(pass_on=lambda seconds: None, kept=[deque(), deque([octets.stdout]), deque()])
            coming, reporting = SimpleNamespace(ring=mock.Mock(), octets=0), SimpleNamespace(kept=deque())
            watched = watching.Pass(coming, runs, reporting, Totals(), None)
            watched.next_count = time.monotonic() + DEADLINE
            with mock.patch("tmx.watching.MANY", many):
                watched.pass_on()
            self.assertEqual(sum(it.packets for it in watched.totals.applications.values()), counted)

    def test_lines_in_pieces(self) -> None:
        text = "\n".join(lines(example().report())).encode() + b"\n"
        for seed in range(20):
            cut = watching.WholeLines()
            found = [cut.add(deque([it])) for it in pieces(text, seed)]
            self.assertEqual((b"".join(found), {it[-1:] for it in found if it}), (text, {b"\n"}))


class Times(TestCase):
    def test_lock(self) -> None:
        totals = Totals()
        said = [screen.lock(totals, 5.0)]
        totals.add_frames(b"bad record=0 fault=crc\n", 5.0)
        said.append(screen.lock(totals, 5.0))
        totals.add_frames(b"frame record=1 channel=0 master=0 ..\n", 6.0)
        said += [screen.lock(totals, it) for it in (6.0, 7.9, 8.1, 66.2)]
        totals.add_frames(b"bad record=2 fault=crc\n", 67.0)
        said.append(screen.lock(totals, 67.0))
        self.assertEqual(said, ["-", "-", "LOCK", "LOCK", "2s", "60s", "61s"])

    def test_rates(self) -> None:
        rates = Rates()
        rates.add(0.0, 0, 0)
        rates.add(100.0, 0, 0)
        for second in range(101, 141):
            rates.add(float(second), 10 * (second - 100), 1000 * (second - 100))
        self.assertEqual((rates.recent(), rates.whole()), (Rate(10.0, 8000.0), Rate(10.0, 8000.0)))
        for tenth in range(1, 101):
            rates.add(140 + tenth / 10, 400, 40000)
        self.assertEqual((rates.recent(), rates.whole()), (Rate(), Rate(8.0, 6400.0)))

    def test_the_last_lines_of_the_report(self) -> None:
        totals = Totals()
        for number in range(4):
            totals.add_report(b"vca record=%d channel=0\nvca record=%d channel=1\n" % (number, number), f"at {number}")
        wanted = [(f"at {it // 2}", f"vca record={it // 2} channel={it % 2}") for it in range(3, 8)]
        self.assertEqual((list(totals.reported), totals.lines), (wanted, 8))

    def test_the_clock_of_the_report(self) -> None:
        report, times = example().report(), ["first"]
        Path("growing").write_bytes(OCTETS[: 200 * 256])

        def go_on(watched) -> bool:
            if times == ["first"] and watched.totals.lines == sum(it.record < 200 for it in report):
                times.append("second")
                appending("growing", OCTETS[200 * 256 :])()
            return watched.totals.records == 300

        watcher = Watcher(then=go_on)
        with mock.patch("tmx.watching.clock", lambda: times[-1]):
            watch(Wanted("growing", SETTINGS, 0.001), watcher)
        wanted = zip(["first"] * 3 + ["second"] * 2, lines(report)[-5:])
        self.assertEqual(list(watcher.last.totals.reported), list(wanted))


def take_signals() -> None:
    """What a shell has a program in the background ignore is not ignored."""
    for number in (signal.SIGINT, signal.SIGTERM, signal.SIGHUP):
        signal.signal(number, signal.SIG_DFL)


class Started:
    """A run of the command, whose standard output is read as it comes."""

    def __init__(self, *words: object, stdin=subprocess.PIPE, stdout=subprocess.PIPE) -> None:
        line = [sys.executable, "-m", "tmx", "watch", "--settings", str(SETTINGS), *map(str, words)]
        env = {key: it for key, it in os.environ.items() if key not in ("COLUMNS", "LINES")}
        env |= {"PYTHONPATH": str(PACKAGE), "TERM": "xterm"}
        pipes = {"stdin": stdin, "stdout": stdout, "stderr": subprocess.PIPE}
        self.process = subprocess.Popen(line, env=env, start_new_session=True, bufsize=0, preexec_fn=take_signals, **pipes)
        self.output = self.process.stdout
        self.said, self.began = b"", time.monotonic()

    def __enter__(self) -> "Started":
        return self

    def __exit__(self, *_: object) -> None:
        self.process.kill()
        self.process.wait()
        for file in (self.process.stdin, self.process.stdout, self.process.stderr):
            if file is not None:
                file.close()

    def until(self, form: bytes) -> None:
        """Reads until what it says ends in a line of this form, or in what comes before a time that is long."""
        end = time.monotonic() + DEADLINE
        while not re.search(form, self.said):
            if time.monotonic() > end or not self.read():
                raise AssertionError(f"no {form!r} in {self.said[-2000:]!r}")

    def read(self) -> bytes:
        if not select.select([self.output], [], [], DEADLINE)[0]:
            return b""
        try:
            octets = os.read(self.output if isinstance(self.output, int) else self.output.fileno(), 1 << 16)
        except OSError:  # of a terminal that is closed
            octets = b""
        self.said += octets
        return octets

    def ended(self) -> tuple[int, str]:
        """The status, and what it said on standard error."""
        end = time.monotonic() + DEADLINE
        while time.monotonic() < end and self.read():
            pass
        return self.process.wait(DEADLINE), self.process.stderr.read().decode()


def refusal(*words: object) -> tuple[int, str]:
    """The status of a run that ends by itself, and what it says on standard error."""
    with Started(*words) as run:
        return run.ended()


class Refused(TestCase):
    def test_a_file_that_is_not_there_yet(self) -> None:
        error = io.StringIO()
        watcher = Watcher(*[lambda: None] * 3, appending("growing", OCTETS), then=lambda it: it.totals.records == 300)
        with redirect_stderr(error):
            watch(Wanted("growing", SETTINGS, 0.001), watcher)
        self.assertEqual(error.getvalue(), "tmx watch: growing isn't there yet\n")
        self.assertEqual(watcher.last.totals.records, 300)

    def is_refused(self, deed, form: str) -> None:
        """What was read of a file before this deed is counted and whole, and then the reason is told."""
        Path("growing").write_bytes(OCTETS[:25600])
        watcher = Watcher(then=lambda it: it.totals.records == 100 and bool(deed()))
        _, error = watch(Wanted("growing", SETTINGS, 0.001, out="out", report="report"), watcher)
        self.assertIs(type(error), watching.ReplacedError)
        self.assertRegex(str(error), form)
        Path("before").write_bytes(OCTETS[:25600])
        recording = tmx.Recording("before", SETTINGS)
        self.assertEqual(Path("out").read_bytes(), b"".join(it.octets for it in recording.packets()))
        self.assertEqual(Path("report").read_text().splitlines(), lines(recording.report()))

    def test_a_file_that_shrinks(self) -> None:
        self.is_refused(lambda: os.truncate("growing", 25000), "^growing has 25000 octets, and 25600 were read")

    def test_a_file_that_is_replaced(self) -> None:
        def replace() -> None:
            Path("new").write_bytes(OCTETS)
            os.replace("new", "growing")

        self.is_refused(replace, "^growing is another file")

    def test_a_file_that_loses_its_name(self) -> None:
        Path("growing").write_bytes(OCTETS[:25600])
        deeds = (lambda: os.rename("growing", "other"), appending("other", OCTETS[25600:]))
        watcher = Watcher(*deeds, then=lambda it: it.totals.records == 300)
        self.assertIsNone(watch(Wanted("growing", SETTINGS, 0.001), watcher)[1])
        self.assertEqual(watcher.last.totals.records, 300)

    def test_files_that_would_be_written_over(self) -> None:
        Path("rec").write_bytes(OCTETS)
        Path("set").write_bytes(SETTINGS.read_bytes())
        for words in (["--out", "rec"], ["--report", "rec"], ["--out", "set"], ["--out", "new", "--report", "./new"]):
            status, said = refusal("--settings", "set", *words, "rec")
            self.assertEqual((status, said.splitlines()[0]), (1, f"tmx: {words[-1]}: failed"))
        self.assertEqual((Path("rec").read_bytes(), Path("set").read_bytes()), (OCTETS, SETTINGS.read_bytes()))

    def test_settings(self) -> None:
        Path("bad").write_text("spacecraft = 1024\nframe_length = 256\nerror_control = true\n")
        Path("out").write_text("before")
        status, said = refusal("--settings", "bad", "--out", "out", RECORDING)
        self.assertEqual((status, said.splitlines()[0]), (2, "tmx: settings: range spacecraft"))
        self.assertEqual(Path("out").read_text(), "before")
        status, said = refusal("--every", "0", RECORDING)
        self.assertEqual((status, said.splitlines()[-1].partition("error: ")[2]), (2, "--every takes a number over 0"))

    def test_a_folder(self) -> None:
        status, said = refusal(".")
        self.assertEqual((status, said), (1, "tmx watch: .: Is a directory\n"))

    def test_a_program_that_fails(self) -> None:
        self.program('[ "$1" != packets ] || { echo "tmx: out of memory" >&2; exit 3; }\nexec "$real" "$@"')
        status, said = refusal(RECORDING)
        self.assertEqual((status, said), (3, "tmx: out of memory\n"))

    @unittest.skipUnless(os.path.exists("/dev/full"), "no /dev/full")
    def test_packets_and_a_report_that_find_no_room(self) -> None:
        status, said = refusal("--out", "/dev/full", RECORDING)
        self.assertEqual((status, said.splitlines()[0]), (1, "tmx: write failed"))
        self.assertIn("/dev/full", said)
        Path("rec").write_bytes(OCTETS)
        status, said = refusal("--report", "/dev/full", "rec")
        self.assertEqual((status, said), (1, "tmx watch: /dev/full: No space left on device\n"))


class Run(TestCase):
    def left(self, octets: bytes) -> None:
        """The files are those of these octets."""
        Path("came").write_bytes(octets)
        recording = tmx.Recording("came", SETTINGS)
        recording.extract("wanted", report="wanted.report")
        self.assertEqual(Path("out").read_bytes(), Path("wanted").read_bytes())
        self.assertEqual(Path("report").read_bytes(), Path("wanted.report").read_bytes())

    def test_plain_lines(self) -> None:
        Path("rec").write_bytes(OCTETS)
        with open("rec", "rb") as stdin, Started("--every", 0.01, stdin=stdin) as run:
            self.assertEqual(run.ended(), (0, ""))
        said = run.said.decode()
        self.assertNotIn("\x1b", said)
        plain, _, summary = said.partition("300 records: ")
        self.assertEqual(f"300 records: {summary}", f"{example().summary()}\n")
        time_of_day = "[0-9]{4}-[0-9]{2}-[0-9]{2}T[0-9]{2}:[0-9]{2}:[0-9]{2}Z"
        reported = [it.partition(" ")[2] for it in plain.splitlines() if not re.match(f"{time_of_day} (LOCK|-) ", it)]
        self.assertEqual(reported, lines(example().report())[-5:])
        last = plain.splitlines()[-1]
        numbers = r"records=300 good=299 bad=1 crc=1 frames/s=[0-9]+ bits/s=[0-9]+ missing=2 dropped=738 packets=848"
        self.assertRegex(last, f"^{time_of_day} LOCK {numbers}$")

    def test_half_a_record(self) -> None:
        with Started("--every", 0.01) as run:
            run.process.stdin.write(OCTETS[:128])
            run.until(rb" - records=0 good=0 .*\n")
            run.process.stdin.write(OCTETS[128:300])
            run.until(rb" LOCK records=1 good=1 .*\n")
            run.process.stdin.close()
            self.assertEqual(run.ended(), (0, ""))
        self.assertIn(b"\n1 records: 1 good, 0 bad, 44 octets left over.", run.said)

    def test_signals(self) -> None:
        half = OCTETS[: 156 * 256 + 100]  # packets and segments are open, and a record is
        for number in (signal.SIGINT, signal.SIGTERM, signal.SIGHUP):
            Path("rec").write_bytes(half)
            with self.subTest(signal=number), Started("--every", 0.01, "--out", "out", "--report", "report", "rec") as run:
                run.until(rb" records=156 .*\n")
                os.killpg(run.process.pid, number)  # as the terminal sends it
                self.assertEqual(run.ended(), (0, ""))
                self.left(half)
                summary = tmx.Recording("rec", SETTINGS).summary()
                plain, _, behind = run.said.decode().partition(f"\n{summary}\n")
                self.assertEqual(behind, "")
                dropped = re.findall(" dropped=([0-9]+) ", plain)
                lost = sum(it.lost for it in summary.channels.values())
                self.assertEqual(int(dropped[-1]), lost)  # with what a closed end drops
                self.assertLess(int(dropped[-2]), lost)

    def test_a_signal_of_a_pipe_that_stays_open(self) -> None:
        with Started("--every", 0.01, "--out", "out", "--report", "report") as run:
            run.process.stdin.write(OCTETS[:50000])
            run.until(rb" records=195 .*\n")
            run.process.send_signal(signal.SIGINT)
            self.assertEqual(run.ended(), (0, ""))
        self.left(OCTETS[:50000])

    @unittest.skipUnless(os.path.exists("/dev/full"), "no /dev/full")
    def test_an_output_that_finds_no_room(self) -> None:
        Path("rec").write_bytes(OCTETS)
        with open("/dev/full", "wb") as full, Started("--out", "out", "--report", "report", "rec", stdout=full) as run:
            self.assertEqual(run.process.wait(DEADLINE), 1)
            self.assertEqual(run.process.stderr.read(), b"tmx watch: standard output: No space left on device\n")
        self.left(OCTETS)

    def test_a_second_signal_ends_it_at_once(self) -> None:
        Path("rec").write_bytes(OCTETS)
        self.program('[ "$1" != summary ] || exec sleep 600\nexec "$real" "$@"')
        with Started("--every", 0.01, "rec") as run:
            run.until(rb" records=300 .*\n")
            while run.process.poll() is None and time.monotonic() < run.began + DEADLINE:
                run.process.send_signal(signal.SIGINT)
                time.sleep(0.01)
            self.assertIn(run.process.returncode, (130, -signal.SIGINT))

    def test_a_reader_that_has_ended(self) -> None:
        Path("rec").write_bytes(OCTETS)
        with Started("--every", 0.01, "--out", "out", "--report", "report", "rec") as run:
            run.until(rb" records=300 .*\n")
            run.process.stdout.close()
            self.assertEqual((run.process.wait(DEADLINE), run.process.stderr.read()), (0, b""))
            run.process.stdout = None
        self.left(OCTETS)


class Terminal(TestCase):
    def started(self, rows: int, columns: int, *words: object) -> tuple[Started, int]:
        terminal, end = pty.openpty()
        ioctl(end, TIOCSWINSZ, struct.pack("HHHH", rows, columns, 0, 0))
        run = Started("--every", 0.01, *words, stdin=end, stdout=end)
        os.close(end)
        run.output = terminal
        self.addCleanup(os.close, terminal)
        return run, terminal

    def drawings(self, said: bytes) -> list[list[str]]:
        return [re.sub("\x1b\\[[KJ]", "", it).split("\r\n") for it in said.decode().split("\x1b[H")[1:]]

    def test_a_drawing_takes_the_place_of_the_last(self) -> None:
        Path("rec").write_bytes(OCTETS)
        run, _ = self.started(40, 100, "rec")
        with run:
            run.until(rb"300 records: 299 good, 1 bad \(1 by crc\)[^\x07]*\x1b\[H")
            os.killpg(run.process.pid, signal.SIGINT)
            self.assertEqual(run.ended(), (0, ""))
        drawing, _, behind = run.said.rpartition(b"\r\n\x1b[?25h")
        self.assertTrue(drawing.startswith(b"\x1b[?25l\x1b[2J\x1b[H"))
        self.assertEqual(behind.decode().replace("\r\n", "\n"), f"{example().summary()}\n")
        last = self.drawings(drawing)[-1]
        self.assertRegex(last[1], r"^LOCK  300 records: 299 good, 1 bad \(1 by crc\); master channel: 2 frames missing$")
        self.assertIn("      1     148        1      632", last)
        self.assertRegex("\n".join(last), "\n      0   100      147 +115 +[0-9]+s\n")
        self.assertEqual([it.partition("  ")[2] for it in last[-5:]], lines(example().report())[-5:])

    def test_a_small_terminal(self) -> None:
        Path("rec").write_bytes(OCTETS)
        sizes = ((18, 60, "and 8 more"), (20, 60, "and 6 more"), (24, 60, "and 2 more"), (5, 20, None), (1, 1, None))
        for rows, columns, more in sizes:
            run, _ = self.started(rows, columns, "rec")
            with run, self.subTest(rows=rows):
                run.until(rb"(?s)2J(.*\x1b\[H){5}")
                run.process.send_signal(signal.SIGTERM)
                run.ended()
            drawing = self.drawings(run.said.rpartition(b"\r\n\x1b[?25h")[0])[-1]
            self.assertLessEqual(len(drawing), rows)
            self.assertLess(max(map(len, drawing)), columns)
            if more:
                self.assertIn(more, drawing)

    def test_the_cursor_is_there_behind_an_error(self) -> None:
        Path("bad").write_text("spacecraft = 1024\n")
        run, _ = self.started(24, 80, "--settings", "bad", RECORDING)
        with run:
            self.assertEqual(run.ended()[0], 2)
        self.assertTrue(run.said.endswith(b"\x1b[?25h"))


if __name__ == "__main__":
    unittest.main()
