"""The program `tmx`: where it is, and whether it is of this package's version."""

import os
import shutil
import signal
import subprocess
import sys
from dataclasses import dataclass
from functools import cache
from pathlib import Path
from typing import NoReturn

from .errors import Error, ProgramMissingError, VersionError, error_of

VERSION = "0.1.0"  # of this package, and of the program that it runs
BESIDE = Path(__file__).resolve().parent / "bin" / "tmx"  # where a wheel with the program has it


@dataclass(frozen=True)
class Program:
    """The program that is run: its path, what led there (`TMX`, `package` or `PATH`), and its version."""

    path: str
    by: str
    version: str = VERSION


def find_program() -> Program:
    """The program that TMX names, else the one beside this package, else the one on the PATH.  It isn't run.

    Raises ProgramMissingError where there is none.
    """
    named = os.environ.get("TMX")
    for by, name in [("TMX", named)] if named else [("package", str(BESIDE)), ("PATH", "tmx")]:
        if found := shutil.which(name):
            return Program(os.path.abspath(found), by)
    elsewhere = f"TMX doesn't name it, and neither {BESIDE} nor the PATH has it"
    raise ProgramMissingError(f"the program is missing: {f'TMX names {named!r}, which is no program' if named else elsewhere}")


def program() -> Program:
    """The program that this package runs.  Raises ProgramMissingError, and VersionError where it is of another version.

    Raises Error where the signal SIGCHLD is ignored: the system tells no status of a program then.
    """
    if signal.getsignal(signal.SIGCHLD) == signal.SIG_IGN:
        raise Error("SIGCHLD is ignored, so the program's status would be lost: set it to signal.SIG_DFL")
    found = find_program()
    status = os.stat(found.path)
    check_version(found.path, status.st_mtime_ns, status.st_ino)
    return found


@cache
def check_version(path: str, *_: int) -> None:
    """Asks the program for its version, once for each state of its file.  Raises VersionError where that is another one."""
    try:
        ran = subprocess.run([path, "--version"], stdin=subprocess.DEVNULL, capture_output=True, text=True, errors="replace")
    except OSError as error:
        raise ProgramMissingError(f"the program can't be started: {path}: {error.strerror}") from None
    said = ran.stdout.partition("\n")[0]
    if said == f"tmx {VERSION}" and ran.returncode == 0:
        return
    if ran.returncode < 0:
        raise error_of("", ran.returncode)
    raise VersionError(f"{path} is not tmx {VERSION}, which this package needs: by --version it says {said[:200]!r}")


def become() -> NoReturn:
    """Becomes the program beside this package, by the words of this process: what the command `tmx` of a wheel does."""
    for number in (signal.SIGPIPE, signal.SIGXFSZ):  # Python ignores them, and the program would too
        signal.signal(number, signal.SIG_DFL)
    os.execv(BESIDE, ["tmx", *sys.argv[1:]])
