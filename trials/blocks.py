#!/usr/bin/env python3
"""The commands that pages show, run as they stand there over copies of the example.

    blocks.py TMX

They are those of README.md, example/README.md, docs/PYTHON.md and the manual that nothing else runs: passes.py has those of a
pass, recipes.sh those of docs/RECIPES.md.  Each block runs in a folder of its own, and ends at the first command that fails.
What is wanted is what the page says, or what reference.py works out.

Prints `plan N`, and a line `ok ..`, `FAILED: ..` or `SKIPPED: ..` for each.
"""

import importlib.util
import os
import re
import shutil
import subprocess
import sys
import tempfile
from pathlib import Path

import reference

CLONE = Path(__file__).resolve().parent.parent
EXAMPLE = CLONE / "example"
RECORDING = (EXAMPLE / "pass.rec").read_bytes()
# A command of the package for Python.
COMMAND = '#!/bin/sh\nexec python3 -m tmx {} "$@"\n'


def block_of(page, *words):
    """The one indented block of a page that has all these words, without what it is indented by."""
    blocks = re.findall(r"(?:^ {4}.*\n)+", (CLONE / page).read_text(encoding="utf-8"), re.M)
    blocks = [it for it in blocks if all(word in it for word in words)]
    if len(blocks) != 1:
        raise SystemExit(f"{page} has {len(blocks)} blocks with {words}, not one")
    return re.sub(r"^ {4}", "", blocks[0], flags=re.M)


def examples_of_manual():
    """The commands of the manual's examples, but for those of a pass."""
    text = (CLONE / "docs" / "tmx.1").read_text(encoding="utf-8").split("\n.Sh EXAMPLES\n")[1].split("\n.Sh ")[0]
    return "".join(f"{it}\n" for it in re.findall(r"^\.Dl (.*)$", text, re.M) if re.match("tmx |zcat |mkdir ", it))


def variables(folder, tmx):
    """The environment in which `tmx` and the package's commands are there."""
    (folder / "bin").mkdir()
    (folder / "bin" / "tmx").symlink_to(tmx)
    for command in ("watch", "report"):
        path = folder / "bin" / f"tmx-{command}"
        path.write_text(COMMAND.format(command), encoding="ascii")
        path.chmod(0o755)
    own = {"PATH": f"{folder / 'bin'}:{os.environ['PATH']}", "PYTHONPATH": str(CLONE / "python"), "PYTHONDONTWRITEBYTECODE": "1"}
    return os.environ | own | {"TMX": str(tmx)}


class Folder:
    """A folder with the example's files under the names that pages use."""

    def __init__(self, tmx):
        self.path = Path(tempfile.mkdtemp(prefix="block", dir=".")).resolve()
        self.variables = variables(self.path, tmx)
        shutil.copytree(EXAMPLE, self.path / "example")
        for name, source in {"s.toml": "settings.toml", "pass.rec": "pass.rec", "fields.csv": "attitude.csv"}.items():
            shutil.copy(EXAMPLE / source, self.path / name)
        shutil.copy(EXAMPLE / "attitude.csv", self.path)
        subprocess.run(["gzip", "-k", "pass.rec"], cwd=self.path, check=True)

    def run(self, *words):
        """What commands print, or what is wrong with them.  The report on standard error is left out."""
        ran = subprocess.run(words, cwd=self.path, env=self.variables, capture_output=True, check=False, stdin=subprocess.DEVNULL)
        if ran.returncode:
            raise AssertionError(f"status {ran.returncode}: {ran.stderr[-300:]!r}")
        return ran.stdout.decode()

    def shell(self, commands):
        return self.run("bash", "-euo", "pipefail", "-c", commands)

    def python(self, commands):
        return self.run(sys.executable, "-c", commands)

    def read(self, name):
        return (self.path / name).read_bytes()


def same(what, found, wanted):
    if found != wanted:
        raise AssertionError(f"{what}: {str(found)[:200]!r}, not {str(wanted)[:200]!r}")


class Trials:
    def __init__(self, tmx):
        self.tmx, self.failed = tmx, False
        reader, _ = reference.read_recording(reference.Settings(EXAMPLE / "settings.toml"), RECORDING)
        self.octets = b"".join(it[1] for it in reader.packets)
        self.lines = [it[2] for it in reader.packets]
        self.report = list(reader.report_of(None))

    def example(self, folder):
        """Of example/README.md, with the size of its table."""
        said = folder.shell(block_of("example/README.md", "tmx frames")).splitlines()
        same("packets", said[300:1148], self.lines)
        same("pass.pkt", folder.read("pass.pkt"), self.octets)
        same("report.txt", folder.read("report.txt").decode().splitlines(), self.report)
        table = folder.read("attitude.table.csv").decode().splitlines()
        same("rows and columns", (len(table) - 1, {len(it.split(",")) for it in table}), (503, {14}))
        same("the last line", said[-1][:11], "application")

    def angle(self, folder):
        """Of example/README.md: the greatest angle of the table."""
        commands = block_of("example/README.md", "tmx frames") + block_of("example/README.md", "sqlite3")
        same("the greatest angle", folder.shell(commands).splitlines()[-1], "899")

    def script(self, folder):
        """The script that makes the example."""
        (folder.path / "example" / "pass.rec").unlink()
        folder.shell("python3 example/make.py")
        same("pass.rec", folder.read("example/pass.rec") == RECORDING, True)

    def manual(self, folder):
        shutil.copy(EXAMPLE / "pass.rec", folder.path / "growing.rec")
        said = folder.shell(examples_of_manual()).splitlines()
        same("packets", (said[300:1148], said[-848:]), (self.lines, self.lines))
        same("pass.pkt", folder.read("pass.pkt"), self.octets)
        same("rows.csv", folder.read("rows.csv").count(b"\n"), 504)

    def growing(self, folder):
        """Of README.md: the second command goes on where the first has ended."""
        first, second = block_of("README.md", "growing.rec").splitlines()
        said = ""
        for commands, octets in ((first, 40000), (second, len(RECORDING))):
            (folder.path / "growing.rec").write_bytes(RECORDING[:octets])
            said += folder.shell(commands)
        same("packets", said.splitlines(), self.lines)

    def smallest(self, folder):
        (folder.path / "s.toml").write_text(block_of("README.md", "spacecraft ="), encoding="ascii")
        same("frames of nothing", folder.shell("tmx frames --settings s.toml /dev/null"), "")

    def package(self, folder):
        """Of README.md, in Python."""
        folder.python(block_of("README.md", "import tmx").replace(": ...", ": print(packet)"))

    def cut(self, folder):
        frames = (RECORDING[at : at + 256] for at in range(0, len(RECORDING), 256))
        (folder.path / "raw.bin").write_bytes(b"".join(b"\x1a\xcf\xfc\x1d" + it for it in frames))
        said = folder.python("import tmx\n" + block_of("docs/PYTHON.md", "tmx.cut("))
        same("the summary", said.splitlines()[0][:42], "300 records: 299 good, 1 bad (1 by crc). M")

    def page(self, folder):
        folder.shell(block_of("docs/PYTHON.md", "tmx-report"))
        page = folder.read("pass.html").decode()
        same("the page", [it in page for it in ("Orbit 4711", "Kiruna", "299 of 301", "</html>")], [True] * 4)

    def tell(self, name, trial, *needs):
        """Says how a trial went.  One that needs modules or programs that aren't there is left out."""
        missing = [it for it in needs if importlib.util.find_spec(it) is None and shutil.which(it) is None]
        if missing:
            print(f"SKIPPED: {name}: no {', '.join(missing)}", flush=True)
            return
        try:
            trial(Folder(self.tmx))
            print(f"ok {name}", flush=True)
        except AssertionError as error:
            self.failed = True
            print(f"FAILED: {name}: {error}".replace("\n", " "), flush=True)


def main(tmx):
    trials = Trials(Path(tmx).resolve())
    print("plan 9", flush=True)
    trials.tell("the commands of example/README.md", trials.example)
    trials.tell("the greatest angle of example/README.md", trials.angle, "sqlite3")
    trials.tell("the script that makes the example", trials.script)
    trials.tell("the examples of the manual", trials.manual)
    trials.tell("a recording that grows, of README.md", trials.growing)
    trials.tell("the smallest settings of README.md", trials.smallest)
    trials.tell("the lines in Python of README.md", trials.package, "pandas")
    trials.tell("cutting a raw stream, of PYTHON.md", trials.cut)
    trials.tell("a page of a pass, of PYTHON.md", trials.page)
    return 1 if trials.failed else 0


if __name__ == "__main__":
    sys.exit(main(*sys.argv[1:]))
