"""A pass that is recorded and watched at once: the commands of README.md as they stand there, with a feeder in place of `nc`.

Whatever becomes of tmx, the recording has to be whole.  The feeder brings a half, waits until it is told to go on, brings the
rest, and ends at once.
"""

import fcntl
import hashlib
import os
import pty
import select
import signal
import subprocess
import tempfile
import termios
import time
from pathlib import Path

from blocks import CLONE, COMMAND, block_of

# Seconds: other trials may have the processors and the disk.
LIMIT = 60
# What stands on the PATH for `nc`, and for tmx, whose number the trial has to know.
FEEDER = "#!/bin/sh\ncat first\nuntil [ -e go ]; do sleep 0.01; done\nexec cat rest\n"
PROGRAM = '#!/bin/sh\necho $$ >number.new\nmv number.new number\nexec {} "$@"\n'


def until(is_done):
    """Whether something comes to be so in time."""
    last = time.monotonic() + LIMIT
    while not is_done():
        if time.monotonic() > last:
            return False
        time.sleep(0.005)
    return True


def prepare(terminal):
    """What is done in a new process before the shell. One that is started behind `&` may find signals ignored."""
    signal.signal(signal.SIGINT, signal.SIG_DFL)
    if terminal is not None:
        fcntl.ioctl(terminal, termios.TIOCSCTTY, 0)


class Screen:
    """A terminal, and all that was drawn on it."""

    def __init__(self):
        self.keyboard, self.terminal = pty.openpty()
        self.drawn = b""

    def shows(self, text):
        """Whether this was drawn by now."""
        while select.select([self.keyboard], [], [], 0)[0]:
            self.drawn += os.read(self.keyboard, 65536)
        return text in self.drawn

    def close(self):
        os.close(self.keyboard)
        os.close(self.terminal)


class Pass:
    """The commands of README.md, running in a folder of their own over a recording that comes in two halves."""

    def __init__(self, folder, tmx, settings, octets, word):
        self.folder, self.octets, self.shell, self.commands = folder, octets, None, block_of("README.md", "nc -l", word)
        half = len(octets) // 2
        if settings is not None:
            self.put("s.toml", settings)
        self.put("first", octets[:half])
        self.put("rest", octets[half:])
        (folder / "bin").mkdir()
        programs = {"nc": FEEDER, "tmx": PROGRAM.format(tmx)} | {f"tmx-{it}": COMMAND.format(it) for it in ("watch", "report")}
        for name, text in programs.items():
            self.put(f"bin/{name}", text.encode())
            (folder / "bin" / name).chmod(0o755)
        self.variables = os.environ | {"PATH": f"{folder / 'bin'}:{os.environ['PATH']}", "TMX": str(tmx), "TERM": "xterm"}
        self.variables |= {"PYTHONPATH": str(CLONE / "python"), "PYTHONDONTWRITEBYTECODE": "1"}

    def put(self, name, octets):
        (self.folder / name).write_bytes(octets)

    def has(self, name):
        return (self.folder / name).read_bytes() if (self.folder / name).exists() else b""

    def start(self, out, terminal=None):
        """Starts a shell with the commands. At a terminal it gives each pipe a group of its own, as a user's shell does."""
        words = ["bash", "-c", ("" if terminal is None else "set -m\n") + self.commands]
        with open(self.folder / "errors", "wb") as errors:
            self.shell = subprocess.Popen(
                words,
                cwd=self.folder,
                env=self.variables,
                stdin=subprocess.DEVNULL if terminal is None else terminal,
                stdout=out,
                stderr=errors if terminal is None else terminal,
                start_new_session=True,
                preexec_fn=lambda: prepare(terminal),
            )

    def number(self):
        """The number of the program, once it is there."""
        return int(self.has("number")) if until(lambda: self.has("number")) else 0

    def is_running(self):
        try:
            return Path(f"/proc/{self.number()}/stat").read_text(encoding="ascii").rpartition(") ")[2][0] != "Z"
        except (FileNotFoundError, ProcessLookupError):
            return False

    def comes(self, is_done):
        """Whether something comes to be so in time, and before the program has ended."""
        return until(lambda: is_done() or not self.is_running()) and is_done()

    def go_on(self):
        self.put("go", b"")

    def wrong_recording(self):
        """What is wrong with the recording, once it is whole or can't become so any more."""
        if until(lambda: len(self.has("pass.rec")) >= len(self.octets)) and self.has("pass.rec") == self.octets:
            return ""
        return f"of {len(self.octets)} octets the recording has {len(self.has('pass.rec'))}"

    def wrong_end(self, status):
        """What is wrong with the end of the commands, which is that of the program."""
        try:
            found = self.shell.wait(LIMIT)
        except subprocess.TimeoutExpired:
            self.shell.kill()
            self.shell.wait()
            return "the commands don't end"
        return "" if found == status else f"status {found}, not {status}: {self.has('errors')[-200:]!r}"


class Passes:
    """The trials of a recording with these settings. `tell` takes a name, and what is wrong."""

    def __init__(self, tmx, tell, settings, octets):
        self.tmx, self.tell, self.settings, self.octets = tmx, tell, settings, octets

    def begin(self, settings=True, word=" tmx packets "):
        folder = Path(tempfile.mkdtemp(prefix="pass", dir="."))
        return Pass(folder.resolve(), self.tmx, self.settings if settings else None, self.octets, word)

    def watched(self, name, by_half, wanted):
        """A good pass: what its first half gives comes while it lasts, and all else by its end."""
        watched = self.begin()
        with open(watched.folder / "out", "wb") as out:
            watched.start(out)
        wrong = "" if watched.comes(lambda: watched.has("out") == by_half) else "the lines of the first half don't come"
        watched.go_on()
        wrong = watched.wrong_recording() or wrong or watched.wrong_end(0)
        found = {"out": watched.has("out"), "report": watched.has("report.txt"), "errors": watched.has("errors")}
        self.tell(name, wrong or ", ".join(f"other {it}" for it in found if found[it] != wanted.get(it, b"")))

    def ended(self, name, status, settings=True, out=None, is_killed=False):
        """The program ends by a fault, or is killed, before the recording goes on."""
        ended = self.begin(settings)
        with open(out or ended.folder / "out", "wb") as file:
            ended.start(file)
        wrong = "" if not is_killed or ended.comes(lambda: ended.has("out")) else "no line comes"
        if is_killed and not wrong:
            os.kill(ended.number(), signal.SIGKILL)
        wrong = wrong or ("" if until(lambda: not ended.is_running()) else "the program doesn't end")
        ended.go_on()
        self.tell(name, ended.wrong_recording() or wrong or ended.wrong_end(status))

    def stalled(self, name):
        """Nobody reads what the program writes, until the recording is whole."""
        stalled = self.begin()
        reading, writing = os.pipe()
        stalled.start(writing)
        os.close(writing)
        stalled.go_on()
        wrong = stalled.wrong_recording() or ("" if stalled.is_running() else "the program has ended")
        os.close(reading)
        self.tell(name, wrong or stalled.wrong_end(1))

    def interrupted(self, name):
        """Ctrl-C at the terminal ends the programs of the pipe. The one that records goes on."""
        interrupted = self.begin()
        keyboard, terminal = pty.openpty()
        with open(interrupted.folder / "out", "wb") as out:
            interrupted.start(out, terminal)
        wrong = "" if interrupted.comes(lambda: interrupted.has("out")) else "no line comes"
        os.write(keyboard, b"\x03")
        wrong = wrong or ("" if until(lambda: not interrupted.is_running()) else "the program doesn't end")
        wrong = wrong or interrupted.wrong_end(128 + signal.SIGINT)
        interrupted.go_on()
        self.tell(name, interrupted.wrong_recording() or wrong)
        os.close(keyboard)
        os.close(terminal)

    def shown(self, name, by_half, whole, summary, records):
        """tmx-watch shows both halves and ends by Ctrl-C with the summary. Then tmx-report writes a page of all records."""
        shown, screen = self.begin(word="tmx-watch"), Screen()
        shown.start(screen.terminal, screen.terminal)
        wrong = "" if until(lambda: screen.shows(by_half)) else "the first half isn't shown"
        shown.go_on()
        wrong = wrong or ("" if until(lambda: screen.shows(whole)) else "the second half isn't shown")
        os.write(screen.keyboard, b"\x03")
        until(lambda: screen.shows(summary) and shown.shell.poll() is not None)
        wrong = wrong or ("" if screen.shows(summary) else f"no {summary!r} at the end, but {screen.drawn[-200:]!r}")
        wrong = shown.wrong_recording() or wrong or shown.wrong_end(0)
        page, digest = shown.has("pass.html"), hashlib.sha256(self.octets).hexdigest()
        wanted = [f"<tr><th scope=\"row\">Records</th><td>{records:,}</td></tr>".encode(), digest.encode(), b"</html>"]
        self.tell(name, wrong or ", ".join(f"no {it!r} in pass.html of {len(page)} octets" for it in wanted if it not in page))
        screen.close()

    def with_faults(self):
        """Whatever becomes of the program, the recording is whole. No pipe holds its half."""
        self.ended("a pass with settings that aren't there is recorded whole", 1, settings=False)
        self.ended("a pass whose lines go to a full disk is recorded whole", 1, out="/dev/full")
        self.ended("a pass whose program is killed is recorded whole", 128 + signal.SIGKILL, is_killed=True)
        self.stalled("a pass whose lines nobody reads is recorded whole")
        self.interrupted("a pass whose pipe is ended by Ctrl-C is recorded whole")
