"""Settings: how the records of a recording are cut and read."""

import json
import os
import tomllib
from collections.abc import Iterable, Iterator, Sequence
from contextlib import contextmanager
from dataclasses import dataclass, fields
from tempfile import NamedTemporaryFile
from typing import Self

from .arguments import CHANNELS, number

# The numbers of settings, and from where to where they go.
NUMBERS = {
    "spacecraft": range(1024),
    "frame_length": range(9, 2049),
    "skip_before": range(1025),
    "skip_after": range(1025),
    "max_packet": range(7, 65543),
}


@dataclass(frozen=True)
class Settings:
    """The keys of a settings file, as docs/FORMATS.md has them.

    spacecraft     the spacecraft's number, 0 to 1023
    frame_length   the octets of a frame, 9 to 2048
    error_control  whether frames end with two octets of error control
    skip_before    the octets of a record before its frame, 0 to 1024, as a sync marker
    skip_after     the octets of a record behind its frame, 0 to 1024, as check symbols
    secondary      secondary headers: `flag` (each frame's flag says), `always` or `never`
    ocf            operational control fields, by the same words
    channels       the virtual channels that are wanted, each 0 to 7; None is all
    max_packet     the octets of the longest packet, 7 to 65542; None is 65542

    Raises TypeError where a number is none, and ValueError where it is out of its range.  The program looks at all else: what it
    refuses is a SettingsError.
    """

    spacecraft: int
    frame_length: int
    error_control: bool
    skip_before: int = 0
    skip_after: int = 0
    secondary: str = "flag"
    ocf: str = "flag"
    channels: Sequence[int] | None = None
    max_packet: int | None = None

    def __post_init__(self) -> None:
        """Values of other types, as those of numpy, become int and bool."""
        for name, among in NUMBERS.items():
            if (value := getattr(self, name)) is not None:
                object.__setattr__(self, name, number(name, value, among))
        if getattr(self.error_control, "dtype", None) == bool:
            object.__setattr__(self, "error_control", bool(self.error_control))
        if self.channels is not None:
            if isinstance(self.channels, (str, bytes, bytearray, memoryview)) or not isinstance(self.channels, Iterable):
                raise TypeError(f"channels takes a list of numbers, and not {self.channels!r}")
            object.__setattr__(self, "channels", tuple(number("channels", it, CHANNELS) for it in self.channels))

    @classmethod
    def read(cls, path: str | os.PathLike[str]) -> Self:
        """The settings of a file.

        Raises OSError, ValueError (no TOML, a number out of its range) or TypeError (no number, keys that settings don't have, or
        lack).
        """
        with open(path, encoding="utf-8-sig", newline="") as file:
            return cls(**tomllib.loads(file.read()))

    @property
    def record_length(self) -> int:
        """The octets of a record: of a frame and what is passed over before and behind it."""
        return self.skip_before + self.frame_length + self.skip_after

    def toml(self) -> str:
        """The text of a settings file, whose values are spelled as in JSON.  Keys that have their default are left out."""
        said = ((it.name, getattr(self, it.name)) for it in fields(self) if getattr(self, it.name) != it.default)
        return "".join(f"{key} = {json.dumps(value)}\n" for key, value in said if value is not None)

    def write(self, path: str | os.PathLike[str]) -> None:
        """Writes a settings file."""
        with open(path, "w", encoding="utf-8") as file:
            file.write(self.toml())


@contextmanager
def settings_file(settings: Settings | str | os.PathLike[str]) -> Iterator[str]:
    """The name of a file with these settings; one of settings that have no file is there for so long."""
    if not isinstance(settings, Settings):
        yield os.fspath(settings)
        return
    with NamedTemporaryFile("w", suffix=".toml", encoding="utf-8") as file:
        file.write(settings.toml())
        file.flush()
        yield file.name
