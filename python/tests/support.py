"""What all tests share: the package, the program, the example, the reference, and recordings with damage.

TMX is the program; without it the one that `./build` made.
"""

import importlib.util
import os
import random
import subprocess
import sys
import tempfile
import unittest
import warnings
from pathlib import Path

TESTS = Path(__file__).resolve().parent
PACKAGE = TESTS.parent
CLONE = PACKAGE.parent
EXAMPLE = CLONE / "example"
RECORDING, SETTINGS = EXAMPLE / "pass.rec", EXAMPLE / "settings.toml"
ATTITUDE, HOUSEKEEPING = EXAMPLE / "attitude.csv", EXAMPLE / "housekeeping.csv"
DEFINITION = CLONE / "trials" / "fields.csv"

os.environ.setdefault("TMX", str(CLONE / "crates" / "tmx" / "out" / "tmx"))
os.environ["TMX"] = PROGRAM = os.path.abspath(os.environ["TMX"])
sys.dont_write_bytecode = True
sys.path[:0] = [str(PACKAGE), str(CLONE / "trials")]

import anything  # noqa: E402
import reference  # noqa: E402

import tmx  # noqa: E402

warnings.simplefilter("ignore", tmx.TmxWarning)  # many damaged recordings have nothing good; some tests look at the warnings


class TestCase(unittest.TestCase):
    """A test in a folder of its own, which is taken away behind it."""

    def setUp(self) -> None:
        folder = tempfile.TemporaryDirectory()
        self.addCleanup(folder.cleanup)
        self.folder = Path(folder.name)
        self.addCleanup(os.chdir, os.getcwd())
        os.chdir(self.folder)

    def program(self, script: str) -> None:
        """Has a shell script stand for the program, for the rest of the test.  `$real` is the program, which says the version."""
        path = self.folder / "program"
        path.write_text(f'#!/bin/sh\nreal={PROGRAM}\n[ "$1" != --version ] || exec "$real" --version\n{script}\n')
        path.chmod(0o755)
        self.addCleanup(os.environ.__setitem__, "TMX", PROGRAM)
        os.environ["TMX"] = str(path)

    def raises(self, kind: type[Exception], word: str | None, call, *words, **named) -> Exception:
        """The error that a call raises, of just this kind and with this word."""
        with self.assertRaises(kind) as found:
            call(*words, **named)
        self.assertIs(type(found.exception), kind)
        if word is not None:
            self.assertEqual(found.exception.word, word)
        return found.exception


def command(*words: object, out: str = os.devnull) -> tuple[int, str]:
    """The status of one of the package's commands, and what it says on standard error."""
    line = [sys.executable, "-m", "tmx", *map(str, words)]
    with open(out, "wb") as file:
        ran = subprocess.run(line, stdout=file, stderr=subprocess.PIPE, text=True, env=os.environ | {"PYTHONPATH": str(PACKAGE)})
    return ran.returncode, ran.stderr


def needs(*modules: str):
    """Leaves a test out, or a class of them, where modules are not there."""
    missing = [it for it in modules if importlib.util.find_spec(it) is None]
    return unittest.skipIf(missing, ", ".join(f"{it} is not there" for it in missing))


def example() -> tmx.Recording:
    return tmx.Recording(RECORDING, SETTINGS)


def damaged(seed: int) -> tuple[reference.Settings, bytes]:
    """Random settings and a damaged recording, in the files `settings` and `recording` of the current folder."""
    chance = random.Random(seed)
    settings = anything.make_settings(chance, ".")
    return settings, anything.make_recording(chance, seed, settings, ".")


def lines(items) -> list[str]:
    return [str(it) for it in items]
