"""Times of rows: an epoch, and the seconds and their binary fraction behind it."""

import re
from collections.abc import Iterable, Sequence
from dataclasses import dataclass
from datetime import date, datetime, timedelta
from typing import Any, Protocol

from .leap_seconds import NANOSECONDS, LeapSeconds, leap_seconds
from .values import module

FIRST, LAST = -(2**63) + 1, 2**63 - 1  # nanoseconds behind 1970 that a datetime64[ns] may have
NONE = -(2**63)  # of NaT
SCALES = {"TAI": "1958-01-01", "GPS": "1980-01-06T00:00:19", "J2000": "2000-01-01T11:59:27.816"}  # second 0 in TAI


class Datetime64(Protocol):
    """A numpy.datetime64."""

    def astype(self, dtype: str, /) -> Any: ...


Epoch = str | date | datetime | Datetime64


@dataclass(frozen=True)
class Clock:
    """The nanoseconds from 1970 to second 0.  With leap seconds both that and all times are in TAI, else in UTC."""

    begin: int
    leaps: LeapSeconds | None = None

    @property
    def first(self) -> int:
        """The first time that has its UTC in a datetime64[ns]."""
        return FIRST if self.leaps is None else FIRST + self.leaps.ahead[0]

    def utc(self, passed: int) -> int:
        """The nanoseconds from 1970 in UTC, so many nanoseconds behind second 0."""
        return self.begin + passed if self.leaps is None else self.leaps.utc(self.begin + passed)


def clock_of(epoch: Epoch) -> Clock:
    """How times behind an epoch are read.  `TAI`, `GPS` and `J2000` count leap seconds, `UNIX` and the time of second 0 don't.

    Raises what `nanoseconds` does, and LeapSecondsError.
    """
    if isinstance(epoch, str) and epoch.upper() in SCALES:
        return Clock(nanoseconds(SCALES[epoch.upper()]), leap_seconds())
    return Clock(0 if isinstance(epoch, str) and epoch.upper() == "UNIX" else nanoseconds(epoch))


def times_of(passed: Iterable[int | None], clock: Clock) -> tuple[Any, int]:
    """The time so many nanoseconds behind second 0, for each, and how many are none or out of range, as `times` gives both."""
    numpy = module("numpy")
    if numpy is None:
        found = [None if it is None else clock.utc(it) for it in passed]
        if clock.leaps is not None:
            clock.leaps.warn_of_late(max((it for it in found if it is not None), default=0))
        dates = [None if it is None else time_at(it // 1000) for it in found]
        return dates, dates.count(None)
    begin, first = clock.begin, clock.first
    counted = [NONE if it is None or not first <= begin + it <= LAST else begin + it for it in passed]
    return utc_of_array(numpy, numpy.array(counted, "int64"), clock)


def utc_of_array(numpy: Any, counted: Any, clock: Clock) -> tuple[Any, int]:
    """The UTC of a clock's times, in nanoseconds behind 1970 as an array of int64, and how many are none.  The array is used."""
    none = counted == NONE
    if clock.leaps is not None:
        counted[~none] = clock.leaps.utc_of_array(numpy, counted[~none])
        clock.leaps.warn_of_late(int(counted.max(initial=0)))
    return counted.view("datetime64[ns]"), int(none.sum())


def times(seconds: Any, fractions: Any, bits: int, epoch: Epoch) -> tuple[Any, int]:
    """The time of each row, and how many are out of range.  A fraction has so many bits; without fractions there are none.

    An array of `datetime64[ns]`, rounded down, with NaT where a time is out of range; without numpy a list of datetime, rounded
    down to microseconds, with None there.
    """
    clock, numpy = clock_of(epoch), module("numpy")
    if numpy is None:
        pairs = zip(seconds, fractions or [0] * len(seconds))
        return times_of((second * NANOSECONDS + (fraction * NANOSECONDS >> bits) for second, fraction in pairs), clock)
    passed = None if fractions is None else nanoseconds_of_fractions(fractions.astype("uint64"), bits)
    return utc_of_array(numpy, array_of_times(numpy, seconds.astype("uint64"), passed, clock.begin), clock)


def time_at(microseconds: int) -> datetime | None:
    """The time so many microseconds behind 1970; None where there is none."""
    try:
        return datetime(1970, 1, 1) + timedelta(microseconds=microseconds)
    except OverflowError:
        return None


def nanoseconds_of_fractions(fractions: Any, bits: int) -> Any:
    """The nanoseconds of binary fractions of a second, of so many bits up to 64, rounded down."""
    low = min(bits, 32)  # so that each product has 64 bits
    high, rest = divmod(fractions, 2**low)
    return high * NANOSECONDS + (rest * NANOSECONDS >> low) >> bits - low


def array_of_times(numpy: Any, seconds: Any, passed: Any, begin: int) -> Any:
    """The times so many seconds, and nanoseconds less than one, behind second 0; NONE where that is out of range.

    All is worked out modulo 2^64, so only what comes out has to be in range.
    """
    least, most = max(0, -((begin - FIRST) // NANOSECONDS)), (LAST - begin) // NANOSECONDS - 1
    bad = numpy.ones(len(seconds), bool)
    if most >= 0:
        bad = (seconds < numpy.uint64(least)) | (seconds > numpy.uint64(min(most, 2**64 - 1)))
    found = seconds * numpy.uint64(NANOSECONDS) + numpy.uint64(begin % 2**64)
    if passed is not None:
        found += passed
    found[bad] = NONE % 2**64
    return found.view("int64")


def nanoseconds(epoch: Epoch) -> int:
    """Those from 1970 to an epoch; one with a zone is changed to UTC.

    Raises TypeError and ValueError where it is no time, or a text of more than microseconds, which Python cuts off.
    """
    rest = getattr(epoch, "nanosecond", 0)  # of pandas.Timestamp
    found: Any = epoch
    if isinstance(epoch, str):
        if re.search("[.,][0-9]{7}", epoch):
            raise ValueError(f"{epoch!r} has more than microseconds: take a numpy.datetime64 or a pandas.Timestamp")
        found = datetime.fromisoformat(epoch)
    elif type(epoch).__name__ == "datetime64":
        found = epoch.astype("datetime64[us]").item()  # type: ignore[union-attr]
        if isinstance(found, datetime):
            rest = int((epoch - epoch.astype("datetime64[us]")).astype("timedelta64[ns]").astype("int64"))  # type: ignore
    elif isinstance(epoch, date) and not isinstance(epoch, datetime):
        found = datetime(epoch.year, epoch.month, epoch.day)
    elif not isinstance(epoch, datetime):
        raise TypeError(f"an epoch is a text, a date or a time, and {epoch!r} is none")
    if not isinstance(found, datetime) or found != found:
        raise ValueError(f"{epoch!r} is no time from the year 1 to 9999")
    passed = found.replace(tzinfo=None) - datetime(1970, 1, 1) - (found.utcoffset() or timedelta())
    return passed // timedelta(microseconds=1) * 1000 + rest
