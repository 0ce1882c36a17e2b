"""Where the octets of a recording come from: a file, or a stream that is read from its beginning to its end."""

import errno
import io
import os
import re
import stat
import sys
from contextlib import suppress
from typing import Any, Protocol

from .errors import ConsumedError, DisagreementError, FileError

BLOCK = 1 << 17  # octets that are fed at once
OWN = re.compile("/dev/(stdin|fd/[0-9]+)|/proc/(self|thread-self|[0-9]+)/fd/[0-9]+")  # names that mean another file to the program


class Stream(Protocol):
    """A binary stream, as a file, `gzip.open` and `tmx.cut` give it."""

    def read(self, most: int, /) -> bytes: ...


class Part(io.FileIO):
    """The octets that a file has when it is opened, as a stream that can go back.  What is appended later isn't read.

    octets  how many these are

    Raises OSError where it can't be opened, and DisagreementError where some of its octets are gone when they are read.
    """

    def __init__(self, path: str) -> None:
        super().__init__(path)
        self.path = path
        self.octets = os.fstat(self.fileno()).st_size

    def read(self, most: int | None = -1, /) -> bytes:
        left = max(0, self.octets - self.tell())
        octets = super().read(left if most is None or most < 0 else min(most, left)) or b""
        if left and most and not octets:
            raise self.cut(self.tell())
        return octets

    def check(self) -> None:
        """Raises DisagreementError where the file has fewer octets now."""
        if (now := os.fstat(self.fileno()).st_size) < self.octets:
            raise self.cut(now)

    def cut(self, now: int) -> DisagreementError:
        return DisagreementError(f"{self.path} had {self.octets} octets, and has {now}: the file was cut while it was read")


class Source:
    """A file by its name, or a binary stream.  Raises TypeError where it is neither.

    path    the name of a file; each run of the program reads from it what it needs. None for a stream
    stream  the stream, while a run reads it; None for a file.  What is named and is no file, as a pipe, is a stream too, and
            so is a file by the name of a descriptor, as /dev/stdin, which the program doesn't have
    """

    def __init__(self, recording: str | os.PathLike[str] | Stream) -> None:
        self.given: Any = os.fspath(recording) if isinstance(recording, (str, os.PathLike)) else recording
        if not isinstance(self.given, str) and not hasattr(self.given, "read"):
            raise TypeError(f"a recording is the name of a file, or a binary stream, and not {type(recording).__name__}")
        self.stream: Any = None
        self.was_read = False
        self.fed = 0  # octets of the stream that were read so far
        self.beginning = None if isinstance(self.given, str) else position(self.given)

    def __repr__(self) -> str:
        return repr(self.given)

    @property
    def path(self) -> str | None:
        """Its name, where it has one; also where no such file is there, which the program says."""
        return self.given if isinstance(self.given, str) and self.given != "-" else None

    @property
    def name(self) -> str | None:
        """What names it to a reader; None of a stream without a name."""
        said = "standard input" if self.given == "-" else self.path or getattr(self.given, "name", None)
        return said if isinstance(said, str) else None

    @property
    def file(self) -> str | int | None:
        """The file that is read, by its name or its descriptor; None where there is none.  Of a `Cut` it is that of its stream."""
        if self.path is not None:
            return self.path
        if isinstance(source := getattr(self.given, "source", None), Source):
            return source.file
        try:
            return int((sys.stdin if self.given == "-" else self.given).fileno())
        except (AttributeError, OSError, ValueError):
            return None

    @property
    def words(self) -> list[str]:
        """The word of the command line that names it; a stream has none."""
        return ["--", self.given] if self.stream is None else []

    @property
    def is_stream(self) -> bool:
        """Whether it has to be fed: where the octets that one program reads are lost for another."""
        path = self.path
        if path is None or not os.path.exists(path) or os.path.isdir(path):
            return path is None
        return OWN.fullmatch(path) is not None or not stat.S_ISREG(os.stat(path).st_mode)

    def part(self) -> Part | None:
        """The octets that a file has now, by its name; None of a stream, and where it can't be opened: the program says why."""
        with suppress(OSError):
            return None if self.path is None or self.is_stream else Part(self.path)
        return None

    def open(self) -> None:
        """Opens what has to be fed to programs, at its beginning.  Raises what `open_stream` does."""
        if self.is_stream:
            self.open_stream()

    def open_stream(self) -> None:
        """Opens it as a stream, at its beginning.

        Raises OSError, and ConsumedError where it is being read, or was read and has no way back.
        """
        if self.stream is not None:
            raise ConsumedError("the recording is a stream, and is being read: only one thing at a time can read it")
        self.fed = 0
        if self.path is not None:
            self.stream = open(self.path, "rb") if self.is_stream else Part(self.path)
            return
        if self.was_read and self.beginning is None:
            raise ConsumedError("the recording is a stream that can be read only once, and was read already")
        if self.given == "-" and sys.stdin is None:  # it is closed
            raise OSError(errno.EBADF, os.strerror(errno.EBADF), "standard input")
        self.stream = sys.stdin.buffer if self.given == "-" else self.given
        if self.beginning is not None:
            self.stream.seek(self.beginning)
        self.was_read = True

    def close(self) -> None:
        """Closes what `open` has opened."""
        if self.stream is not None and self.path is not None:
            self.stream.close()
        self.stream = None

    def read_block(self) -> bytes:
        """The next octets of the stream, as many as there are; none at its end.  Raises TypeError where they are no octets."""
        read = getattr(self.stream, "read1", self.stream.read)
        if isinstance(self.stream, io.TextIOBase) or not isinstance(block := read(BLOCK), (bytes, bytearray, memoryview)):
            raise TypeError("a recording has to be a binary stream, whose read() gives bytes")
        octets = bytes(block)
        self.fed += len(octets)
        return octets

    def octets(self) -> int | None:
        """How many octets it has: of a file all, of a stream those that were read.  None where no such file is there."""
        return file_length(self.path) if self.path is not None and not self.is_stream else self.fed

    def length(self) -> int | None:
        """How many octets are read of it to its end; None where that isn't known before."""
        if self.path is not None:
            return file_length(self.path)
        if isinstance(self.given, Part):
            return self.given.octets
        if not isinstance(getattr(self.given, "raw", self.given), io.FileIO):  # as gzip's
            return None
        length = file_length(self.given.fileno())
        return None if length is None else max(0, length - (self.beginning or 0))


def file_length(file: str | int) -> int | None:
    """The octets of a regular file, by its name or its descriptor."""
    try:
        status = os.stat(file)
    except OSError:
        return None
    return status.st_size if stat.S_ISREG(status.st_mode) else None


def refuse_to_overwrite(path: str | os.PathLike[str], *others: object) -> None:
    """Raises FileError where what is to be written is one of the other files.  Those are names or descriptors, or no files."""
    for other in others:
        if isinstance(other, (str, os.PathLike, int)) and are_one_file(path, other):
            name, over = os.fspath(path), "the recording" if isinstance(other, int) else os.fspath(other)
            raise FileError(f"tmx: {name}: failed", 1, "failed", f"{name} would be written over {over}; name another file", name)


def are_one_file(one: str | os.PathLike[str], other: str | os.PathLike[str] | int) -> bool:
    """Whether both are one regular file, or one that isn't there yet."""
    if os.path.exists(one) and os.path.exists(other):
        return os.path.isfile(one) and os.path.samefile(one, other)
    return not isinstance(other, int) and os.path.realpath(one) == os.path.realpath(other)


def position(stream: Any) -> int | None:
    """Where a stream stands, if it can go back there."""
    try:
        return int(stream.tell()) if stream.seekable() else None
    except (AttributeError, OSError):
        return None
