"""The errors of this package.

All are `Error`.  Those of the program have its line, its status and its word, as docs/FORMATS.md lists them.
"""

import os
import re
import signal
from collections.abc import Sequence


class Error(Exception):
    """Any error of this package."""


class ProgramMissingError(Error):
    """The program `tmx` is not there: neither TMX nor this package nor the PATH has it."""


class LibraryMissingError(Error):
    """The library `libtmx` is not there: neither TMX_LIBRARY nor this package nor the system has it."""


class VersionError(Error):
    """The program is another one than this package needs: of another version, or one with other words or lines."""


class DisagreementError(Error):
    """What the program gives is cut short, or disagrees with itself or a file, as where the recording changed meanwhile."""


class ConsumedError(Error):
    """The recording is a pipe that was read already.  Name a file, or read the pipe once."""


class ClosedError(Error):
    """An engine was closed, and is called again."""


class ColumnError(Error):
    """A column that was asked for can't be given: two have its name, or it is none of the table."""


class ProgramError(Error):
    """The program ended with a fault.

    line         what it printed on standard error
    status       its status, 1 to 3; of a program that was ended by a signal the signal's number, negative
    word         the word of the fault, as `missing` in `tmx: settings: missing spacecraft`
    explanation  why, and what to do, where the program says so
    file         the name of the file that it is about, where there is one
    """

    def __init__(self, line: str, status: int, word: str, explanation: str = "", file: str | None = None) -> None:
        super().__init__(line, status, word, explanation, file)
        self.line = line
        self.status = status
        self.word = word
        self.explanation = explanation
        self.file = file

    def __str__(self) -> str:
        """The line, and behind it the explanation, as a terminal shows both."""
        return f"{self.line}\n  {self.explanation}" if self.explanation else self.line

    def rename(self, name: str, to: str | None) -> None:
        """Says a file that the program knows by this name as the caller knows it; None where it has no name there."""
        self.explanation = self.explanation.replace(f" {name}", "") if to is None else self.explanation.replace(name, to)
        self.file = to if self.file in (None, name) else self.file


class UsageError(ProgramError):
    """Words of the command line are wrong, as an application over 2047."""


class SettingsError(ProgramError):
    """The settings are refused."""


class DefinitionError(ProgramError):
    """The definition of fields is refused."""


class CheckpointError(ProgramError):
    """The checkpoint is refused, or isn't of these settings."""


class FileError(ProgramError):
    """A file can't be opened, made, read or written, is too long, or would be written over."""


class RunError(ProgramError):
    """The run failed: reading, writing, too many records, a recording that is shorter than its checkpoint."""


class OutOfMemoryError(RunError):
    """The program found no memory."""


class KilledError(RunError):
    """The program was ended by a signal."""


class TmxWarning(UserWarning):
    """An answer is empty: no frame is good, or nothing of a chosen channel or application came."""


REFUSALS = {"settings": SettingsError, "definition": DefinitionError, "checkpoint": CheckpointError}

# The word of the command line before the file of a fault.
FILES = {
    "settings": "--settings",
    "definition": "--definition",
    "checkpoint": "--resume",
    "report failed": "--report",
    "write failed": "--dir",
    "read failed": "--",
    "too many records": "--",
    "recording is shorter than the checkpoint": "--",
}


def error_of(text: str, status: int, words: Sequence[str] = ()) -> Error:
    """The error of a program that ended with a status other than 0, by what it printed on standard error and by its words."""
    if status < 0:
        return killed(-status)
    line, explanation = told(text)
    if not line.startswith("tmx: "):
        return usage(line, status, explanation)
    said = line.removeprefix("tmx: ")
    first, _, rest = said.partition(": ")
    if status == 2 and first in REFUSALS and rest != "too long":
        return REFUSALS[first](line, status, refusal(rest), explanation, word_behind(FILES[first], words))
    for word in ("failed", "too long"):
        if said.endswith(f": {word}"):
            name = os.fsdecode(unescaped(said.removesuffix(f": {word}").encode()))
            return FileError(line, status, word, explanation, name)
    if status == 3:
        return OutOfMemoryError(line, status, said)
    if said.startswith("--"):
        return UsageError(line, status, said, explanation)
    return RunError(line, status, said, explanation, word_behind(FILES.get(said), words))


def told(text: str) -> tuple[str, str]:
    """What a program printed on standard error: its line, and what explains it, whose line begins with two spaces."""
    lines = text.splitlines()
    end = len(lines)
    while end and lines[end - 1].startswith("  "):
        end -= 1
    return "\n".join(lines[:end]).rstrip("\n"), "\n".join(it.strip() for it in lines[end:])


def word_behind(option: str | None, words: Sequence[str]) -> str | None:
    """The word that follows an option of a command line; None where it isn't there."""
    return next((word for before, word in zip(words, words[1:]) if before == option), None)


def unescaped(text: bytes) -> bytes:
    """The octets of a text in which those other than 20 to 7E, and the backslash, stand as `\\x` and two digits."""
    return text.decode("unicode_escape").encode("latin-1")


def refusal(said: str) -> str:
    """The word of a refusal, without the key, the row or the name that it is about."""
    return "too many" if said == "too many" else said.partition(" ")[0]


def killed(number: int) -> KilledError:
    """The error of a program that a signal ended."""
    try:
        name = signal.Signals(number).name
    except ValueError:
        name = f"signal {number}"
    return KilledError(f"tmx: ended by {name}", -number, name)


def usage(text: str, status: int, explanation: str) -> Error:
    """The error of words that the program doesn't take.  A command or an option that it doesn't know is none of the caller's."""
    if re.match("error: (unrecognized subcommand|unexpected argument)", text):
        return VersionError(f"the program is too old, or is another one: {text.splitlines()[0]}")
    return UsageError(text, status, "usage", explanation)
