"""Checkpoints, in which the program keeps a job that goes on later, and files that are written whole or not at all.

Nothing of checkpoints is read here but the number of records that are done.  The program checks all else.
"""

import os
import re
import secrets
import shutil
from pathlib import Path
from types import TracebackType
from typing import IO, Self

from .errors import Error

Name = str | os.PathLike[str]

LINE = re.compile(rb"(?:[a-z]+ record=)?([0-9]+)[ ,].*\n")
HEAD = re.compile(rb"tm_record,.*\n")


class CutBackError(Error):
    """A file can't be cut back to a checkpoint: it is none, or none that `tmx` writes beside one."""


def records_done(name: Name) -> int:
    """How many records a checkpoint has.  Raises OSError, and CutBackError where it is no checkpoint."""
    with open(name, "rb") as file:
        octets = file.read(24)
    if octets[:4] != b"TMXC" or len(octets) < 24:
        raise CutBackError(f"{os.fspath(name)}: no checkpoint")
    place = 17 if octets[4] == 1 else 20  # the settings before it are shorter in version 1
    return int.from_bytes(octets[place : place + 4], "big")


def cut_back(checkpoint: Name, *names: Name) -> dict[str, int]:
    """Cuts outputs back to a checkpoint, when a run that went on from it was ended before it could write its own.

    The files are lists of `tmx packets`, rows of `tmx fields`, and reports.  Lines of records that the checkpoint doesn't
    have are taken off their ends, and so is a last line that isn't whole.  Answers how many octets each file lost, by its
    name.  Raises OSError, and CutBackError where a file is no such file; nothing of any file is cut then.
    """
    done = records_done(checkpoint)
    lengths = {os.fspath(it): length_until(it, done) for it in names}
    lost = {}
    for name, length in lengths.items():
        lost[name] = os.path.getsize(name) - length
        os.truncate(name, length)
    return lost


def length_until(name: Name, done: int) -> int:
    """The octets of the lines of records that are done."""
    length = 0
    with open(name, "rb") as file:
        for line in file:
            found = LINE.fullmatch(line)
            if not line.endswith(b"\n") or found and int(found[1]) >= done:
                break
            if not found and not line.startswith(b"  ") and (length or not HEAD.fullmatch(line)):
                raise CutBackError(f"{os.fspath(name)}: no list of packets, rows of fields or report; nothing of it is cut")
            length += len(line)
    return length


class NewFile:
    """A file that takes its place when the block ends without an error.  Until then another one beside it is written.

    file  is written, and `path` is its name
    With `append` it goes to the end of a file that is there.  What is no regular file, as a device, is written at once.
    """

    def __init__(self, name: Name, append: bool = False) -> None:
        """Raises OSError where there can be no file in its folder."""
        self.name = Path(os.path.realpath(name))
        self.is_direct = self.name.exists() and not self.name.is_file() or Path(name).is_relative_to("/dev")
        self.append = append and self.name.exists()
        self.path = self.name if self.is_direct else self.name.with_name(f".tmx-{secrets.token_hex(4)}")
        mode = "xb" if not self.is_direct else "ab" if append else "wb"
        try:
            self.file: IO[bytes] = open(self.path, mode)
        except OSError as error:
            raise OSError(error.errno, error.strerror, os.fspath(name)) from None

    def __enter__(self) -> Self:
        return self

    def __exit__(self, kind: type[BaseException] | None, error: BaseException | None, trace: TracebackType | None) -> None:
        try:
            self.file.close()
            if kind is None and not self.is_direct:
                self.keep()
        finally:
            if not self.is_direct:
                for left in (self.path, Path(f"{self.path}.new")):  # of a checkpoint the program writes the other one first
                    left.unlink(missing_ok=True)

    def keep(self) -> None:
        """Puts it in its place, when all of it is on the disk."""
        if self.append:
            append(self.path, self.name)
            return
        with open(self.path, "rb") as file:
            os.fsync(file.fileno())
        if self.name.exists():
            shutil.copymode(self.name, self.path)
        os.replace(self.path, self.name)


def append(part: Path, whole: Path) -> None:
    """Puts the octets of a file behind those of another, all or none."""
    with open(part, "rb") as octets, open(whole, "ab") as file:
        length = file.tell()
        try:
            shutil.copyfileobj(octets, file, 1 << 20)
            file.flush()
            os.fsync(file.fileno())
        except BaseException:
            os.truncate(whole, length)
            raise
