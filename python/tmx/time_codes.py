"""Time codes of CCSDS 301.0-B-4 and counts of seconds: how a time stands in octets or in a number."""

import re
import struct
from collections.abc import Iterable, Sequence
from dataclasses import dataclass, replace
from fractions import Fraction
from typing import Any

from .errors import ColumnError
from .leap_seconds import NANOSECONDS
from .scaling import Scale, floors, in_64_bits, nearests, scale_of
from .times import LAST, NONE, Clock, Epoch, array_of_times, clock_of, nanoseconds_of_fractions, times_of, utc_of_array
from .values import module

SECOND, DAY = 10**6, 86400 * 10**6  # in microseconds
EPOCHS = {"cds": "1958-01-01", ">f8": "1970-01-01", "<f8": "1970-01-01"}  # of second 0, where none is given
LAYOUTS = {6: (2, 0), 7: (3, 0), 8: (2, 2), 9: (3, 2), 10: (2, 4), 11: (3, 4)}  # of CDS: octets of days, and below a millisecond
FORM = r"(?:(cds)(6|7|8|9|10|11)?|(cuc)(?:([1-7])\.([0-9]|10))?|([<>]f8))"
MOST_OCTETS = 20  # of a time, its P-field included


@dataclass(frozen=True)
class Code:
    """How a time stands in octets.

    kind    `cds`, `cuc`, `>f8` or `<f8`
    coarse  the octets of days, of seconds, or of the float
    fine    the octets of what is less than a millisecond, or than a second
    lead    the octets before it that tell the others, the P-field of CCSDS 301.0-B-4; none if they aren't there
    """

    kind: str
    coarse: int
    fine: int = 0
    lead: bytes = b""

    @property
    def octets(self) -> int:
        return len(self.lead) + self.coarse + (4 if self.kind == "cds" else 0) + self.fine

    @property
    def unit(self) -> int:
        """The parts of a second that the octets below a millisecond count."""
        return 10**12 if self.fine == 4 else SECOND

    def passed(self, octets: bytes, second: int = SECOND) -> int | None:
        """The time behind second 0, in so many parts of a second, rounded down; None where the octets are no such time.

        A float is the nearest microsecond, since most have no more, and of two the later.
        """
        if len(octets) < self.octets or not octets.startswith(self.lead):
            return None
        said = octets[len(self.lead) : self.octets]
        if self.kind == "cds":
            return self.of_days(said, second)
        if self.kind == "cuc":
            return int.from_bytes(said) * second >> 8 * self.fine
        (seconds,) = struct.unpack(f"{self.kind[0]}d", said)
        found = Scale(SECOND, 0, 1).nearest(seconds)
        return None if found is None else found * (second // SECOND)

    def of_days(self, said: bytes, second: int) -> int | None:
        days, milliseconds = int.from_bytes(said[: self.coarse]), int.from_bytes(said[self.coarse : self.coarse + 4])
        below = int.from_bytes(said[self.coarse + 4 :])
        if milliseconds * 1000 >= DAY + SECOND or below * 1000 >= self.unit:  # a day may have a leap second
            return None
        return (days * 86400 + milliseconds // 1000) * second + milliseconds % 1000 * second // 1000 + below * second // self.unit


def code_of_lead(kind: str, octets: bytes) -> Code | None:
    """How a time stands in octets that begin with its P-field; None where it is none of this kind."""
    first, second = octets[:2].ljust(2, b"\0")
    if kind == "cds" and first & 0xF0 == 0x40 and first & 3 != 3:
        return Code(kind, 3 if first & 4 else 2, (0, 2, 4)[first & 3], octets[:1])
    if kind == "cuc" and first & 0x70 in (0x10, 0x20):
        coarse, fine = (first >> 2 & 3) + 1, first & 3
        if first < 0x80:
            return Code(kind, coarse, fine, octets[:1])
        if second < 0x80:
            return Code(kind, coarse + (second >> 5 & 3), fine + (second >> 2 & 7), octets[:2])
    return None


def code_of(form: str, octets: bytes) -> Code | None:
    """How a time of this form stands; where the form names no octets, by the P-field that these begin with."""
    said = re.fullmatch(FORM, form)
    assert said is not None
    if said[6]:
        return Code(form, 8)
    if said[2]:
        return Code("cds", *LAYOUTS[int(said[2])])
    if said[4]:
        return Code("cuc", int(said[4]), int(said[5]))
    return code_of_lead(form, octets)


@dataclass(frozen=True)
class TimeCode:
    """Times in a column of octets.

    form   `cds6` to `cds11` and `cuc4.2` by their octets, `cds` and `cuc` with a P-field, `>f8` and `<f8` in seconds
    epoch  the time of second 0, or a scale: `TAI`, `GPS`, `J2000` or `UNIX`; without it 1958 for CDS, and 1970 for floats

    Raises ValueError where the form is none, or a CUC has no epoch.
    """

    form: str
    epoch: Epoch | None = None

    def __post_init__(self) -> None:
        if not re.fullmatch(FORM, self.form):
            raise ValueError(f"a time is of the form cds8, cuc4.2 or >f8, and not {self.form!r}")
        if self.epoch is None and self.form[:3] not in EPOCHS:
            raise ValueError("times of cuc need an epoch, as TAI")

    def times(self, name: str, values: Iterable[Any]) -> tuple[Any, int]:
        """The time of each value, and how many are none.  Raises ColumnError where the column isn't of octets."""
        octets = list(values)
        if not all(isinstance(it, bytes) for it in octets):
            raise ColumnError(f"the column {name!r} has no octets, and {self.form} stands in octets: see Ticks")
        code = next(filter(None, (code_of(self.form, it) for it in octets)), None)
        clock, numpy = clock_of(EPOCHS[self.form[:3]] if self.epoch is None else self.epoch), module("numpy")
        if numpy is not None and code is not None and code.fine <= 8:
            return utc_of_array(numpy, counted_in_octets(numpy, octets, code, clock), clock)
        return times_of((None if code is None else code.passed(it, NANOSECONDS) for it in octets), clock)


@dataclass(frozen=True)
class Ticks:
    """Times in a column of numbers: so many seconds to each, and so many more, behind second 0.

    epoch    the time of second 0, or a scale: `TAI`, `GPS`, `J2000` or `UNIX`
    seconds  how long one is, as a number or a text, "0.001"; a float of up to 15 digits is the decimal that was written
    offset   the seconds that are added, in the same way

    Raises ValueError where a text is no number, or a number not finite.
    """

    epoch: Epoch
    seconds: Fraction | int | float | str = 1
    offset: Fraction | int | float | str = 0

    def __post_init__(self) -> None:
        fraction_of(self.seconds), fraction_of(self.offset)

    def times(self, name: str, values: Any) -> tuple[Any, int]:
        """The time of each value, and how many are none: of a whole number rounded down, of a float the nearest microsecond.

        Of two that are as near the later one is taken.  Raises ColumnError where the column has no numbers.
        """
        seconds, offset = fraction_of(self.seconds), fraction_of(self.offset)
        nanoseconds, microseconds = (scale_of(seconds, offset, it) for it in (NANOSECONDS, SECOND))
        numpy, clock = module("numpy"), clock_of(self.epoch)
        if numpy is not None and isinstance(values, numpy.ndarray) and values.dtype.kind in "uif" and values.ndim == 1:
            if values.dtype.kind == "f":
                counted = counted_floats(numpy, values, microseconds, clock)
            else:
                counted = counted_numbers(numpy, values, nanoseconds, clock)
            if counted is not None:
                return utc_of_array(numpy, counted, clock)
        numbers = values.tolist() if hasattr(values, "tolist") else list(values)
        if not all(isinstance(it, (int, float)) for it in numbers):
            raise ColumnError(f"the column {name!r} has no numbers, and ticks are numbers: see TimeCode")
        return times_of((passed_of(it, nanoseconds, microseconds) for it in numbers), clock)


def fraction_of(number: Any) -> Fraction:
    """The value of a number, also of numpy's, or of a text.  Raises TypeError and ValueError where it is none.

    A float of up to 15 digits is the decimal that it was written as: 0.001 is a thousandth.
    """
    try:
        value = number.item() if hasattr(number, "item") else number
        said = f"{value:.15g}" if isinstance(value, float) else ""
        return Fraction(said if said and float(said) == value else value)
    except (ArithmeticError, ValueError):
        raise ValueError(f"{number!r} is no number of seconds") from None


def passed_of(number: int | float, nanoseconds: Scale, microseconds: Scale) -> int | None:
    """The nanoseconds of a number, of a float the nearest microseconds; None where that is not finite."""
    if isinstance(number, int):
        return nanoseconds.floor(number)
    found = microseconds.nearest(number)
    return None if found is None else found * 1000


# Arrays of numpy: times in nanoseconds from 1970 by the clock's scale.


def counted_in_octets(numpy: Any, octets: Sequence[bytes], code: Code, clock: Clock) -> Any:
    """The times of octets that stand so, with at most 8 below a second."""
    length, lead = code.octets, len(code.lead)
    lengths = numpy.fromiter(map(len, octets), int, len(octets))
    if (lengths != lengths[0]).any() or lengths[0] < length:
        octets = [it[:length].ljust(length, b"\0") for it in octets]
    rows = numpy.frombuffer(b"".join(octets), "u1").reshape(len(octets), -1)
    is_time = (lengths >= length) & (rows[:, :lead] == numpy.frombuffer(code.lead, "u1")).all(axis=1)
    if code.kind not in ("cds", "cuc"):
        floats = numpy.ascontiguousarray(rows[:, :length]).view(f"{code.kind[0]}f8")[:, 0]
        return numpy.where(is_time, counted_floats(numpy, floats, Scale(SECOND, 0, 1), clock), NONE)

    def numbers(first: int, count: int) -> Any:
        padded = numpy.zeros((len(rows), 8), "u1")
        padded[:, 8 - count :] = rows[:, first : first + count]
        return padded.view(">u8")[:, 0].astype("uint64")

    coarse, fine = numbers(lead, code.coarse), numbers(length - code.fine, code.fine)
    if code.kind == "cuc":
        passed = nanoseconds_of_fractions(fine, 8 * code.fine)
    else:
        milliseconds = numbers(lead + code.coarse, 4)
        is_time &= (milliseconds * 1000 < DAY + SECOND) & (fine * 1000 < code.unit)
        coarse, passed = coarse * 86400 + milliseconds // 1000, milliseconds % 1000 * 10**6 + fine * NANOSECONDS // code.unit
    return numpy.where(is_time, array_of_times(numpy, coarse, passed, clock.begin), NONE)


def counted_numbers(numpy: Any, values: Any, nanoseconds: Scale, clock: Clock) -> Any:
    """The times of whole numbers; None where 64 bits are too few for the scale."""
    shifted = replace(nanoseconds, offset=nanoseconds.offset + clock.begin * nanoseconds.whole)
    found = floors(numpy, values, shifted, clock.first, LAST)
    return None if found is None else numpy.where(found[1], found[0], NONE)


def counted_floats(numpy: Any, values: Any, microseconds: Scale, clock: Clock) -> Any:
    """The times of floats; None where 64 bits are too few for the scale."""
    least, most = -((clock.begin - clock.first) // 1000), (LAST - clock.begin) // 1000
    found = nearests(numpy, values, microseconds, least, most)
    return None if found is None else numpy.where(found[1], found[0] * 1000 + in_64_bits(clock.begin), NONE)
