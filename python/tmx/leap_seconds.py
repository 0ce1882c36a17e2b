"""Leap seconds: the UTC of times in scales without them, as TAI and GPS, by a table in the form of `leap-seconds.list`."""

import os
from bisect import bisect_right
from dataclasses import dataclass
from datetime import UTC, datetime
from functools import lru_cache
from typing import Any

from .errors import Error
from .notes import warn

NANOSECONDS = 10**9
SYSTEM = "/usr/share/zoneinfo/leap-seconds.list"
BEFORE_1970 = 2208988800  # seconds from 1900, from which the table counts


class LeapSecondsError(Error):
    """The table of leap seconds can't be read."""


@dataclass(frozen=True)
class LeapSeconds:
    """From which TAI on TAI is how far ahead of UTC, in nanoseconds behind 1970.  Before the first it is as far ahead as then.

    `name` is the table's file, and `expires` the UTC until which it is known.
    """

    starts: tuple[int, ...]
    ahead: tuple[int, ...]
    name: str
    expires: int

    def warn_of_late(self, latest: int) -> None:
        """Warns where a time, in nanoseconds behind 1970, is later than the table is known."""
        if latest > self.expires:
            until = datetime.fromtimestamp(self.expires // NANOSECONDS, UTC).date()
            warn(f"leap seconds are known until {until}, by {self.name}: later times may be wrong by a second")

    def utc(self, tai: int) -> int:
        """The UTC of a time in TAI.  A leap second has that of the second behind it."""
        return tai - self.ahead[max(0, bisect_right(self.starts, tai) - 1)]

    def utc_of_array(self, numpy: Any, tai: Any) -> Any:
        """The same of an array of int64."""
        places = numpy.searchsorted(numpy.array(self.starts), tai, "right") - 1
        return tai - numpy.array(self.ahead)[numpy.maximum(places, 0)]


def leap_seconds() -> LeapSeconds:
    """The table that the environment variable TMX_LEAP_SECONDS names, else the system's.  Raises LeapSecondsError."""
    return read_leap_seconds(os.environ.get("TMX_LEAP_SECONDS", SYSTEM))


@lru_cache
def read_leap_seconds(name: str) -> LeapSeconds:
    """The table of a file: lines with seconds from 1900 and TAI less UTC, and behind `#@` until when it is known."""
    try:
        with open(name, encoding="ascii") as file:
            lines = file.read().splitlines()
        expires = next(int(it.split()[1]) for it in lines if it.startswith("#@"))
        rows = [tuple(map(int, it.split()[:2])) for it in lines if it and not it.startswith("#")]
        utc, ahead = zip(*((second - BEFORE_1970, seconds) for second, seconds in rows))
    except (OSError, ValueError, StopIteration, IndexError) as error:
        said = error.strerror if isinstance(error, OSError) else "it is no table of leap seconds"
        raise LeapSecondsError(f"{name}: {said}; let TMX_LEAP_SECONDS name a leap-seconds.list") from None
    starts = tuple((it + seconds) * NANOSECONDS for it, seconds in zip(utc, ahead))
    return LeapSeconds(starts, tuple(it * NANOSECONDS for it in ahead), name, (expires - BEFORE_1970) * NANOSECONDS)
