"""Numbers as nanoseconds and as microseconds, worked out exactly."""

import math
from dataclasses import dataclass
from fractions import Fraction
from typing import Any


@dataclass(frozen=True)
class Scale:
    """A number has `(number * factor + offset) / whole` parts of a second.  All three are integers, and `whole` is positive."""

    factor: int
    offset: int
    whole: int

    def floor(self, number: int) -> int:
        """The parts of a whole number, rounded down."""
        return (number * self.factor + self.offset) // self.whole

    def nearest(self, number: float) -> int | None:
        """The nearest whole parts of a float, and of two the later; None where it is not finite."""
        if not math.isfinite(number):
            return None
        above, below = number.as_integer_ratio()
        whole = self.whole * below
        return (2 * (above * self.factor + self.offset * below) + whole) // (2 * whole)


def scale_of(seconds: Fraction, offset: Fraction, parts: int) -> Scale:
    """A number has so many seconds for each of its ones, and so many more; a second has so many parts."""
    factor, more = seconds * parts, offset * parts
    whole = math.lcm(factor.denominator, more.denominator)
    return Scale(int(factor * whole), int(more * whole), whole)


# Arrays of numpy.  Integers are worked out modulo 2^64, so only what comes out has to be in range.


def in_64_bits(number: int) -> int:
    return (number + 2**63) % 2**64 - 2**63


def is_small(scale: Scale) -> bool:
    """Whether `divided` takes it."""
    return 0 < scale.factor and scale.whole * (scale.factor + 1) < 2**63


def divided(numbers: Any, scale: Scale) -> tuple[Any, Any]:
    """The parts of whole numbers in 64 bits, rounded down, and how much is left of each, times `whole`."""
    times, rests = divmod(numbers, numbers.dtype.type(scale.whole))
    low, left = divmod(rests.astype("int64") * scale.factor + scale.offset % scale.whole, scale.whole)
    return times.astype("int64") * scale.factor + low + in_64_bits(scale.offset // scale.whole), left


def floors(numpy: Any, numbers: Any, scale: Scale, first: int, last: int) -> tuple[Any, Any] | None:
    """The parts of whole numbers, rounded down, and whether each is in this range; None where 64 bits are too few."""
    if not is_small(scale):
        return None
    numbers = numbers.astype("int64" if numbers.dtype.kind == "i" else "uint64")
    least, most = (-((scale.offset - it * scale.whole) // scale.factor) for it in (first, last + 1))
    bounds = numpy.iinfo(numbers.dtype)
    least, most = max(least, bounds.min), min(most - 1, bounds.max)
    if least > most:
        return numpy.zeros(len(numbers), "int64"), numpy.zeros(len(numbers), bool)
    return divided(numbers, scale)[0], (numbers >= numbers.dtype.type(least)) & (numbers <= numbers.dtype.type(most))


def nearests(numpy: Any, numbers: Any, scale: Scale, first: int, last: int) -> tuple[Any, Any] | None:
    """The nearest parts of floats, and whether each is in this range, within 2^59; None where 64 bits are too few.

    Where doubles don't tell on which side of a half a float is, it is worked out in integers.
    """
    if not is_small(scale) or abs(scale.offset) >= scale.whole << 59:
        return None
    unit = scale.factor / scale.whole
    with numpy.errstate(over="ignore", invalid="ignore"):
        numbers = numbers.astype("float64")
        has_some = numpy.abs(numbers) * unit < 2.0**60
    is_short = has_some & (numpy.abs(numbers) < 2.0**62)
    rests, wholes = numpy.modf(numpy.where(is_short, numbers, 0.0))
    found, left = divided(wholes.astype("int64"), scale)
    ends = (left + rests * scale.factor) / scale.whole + 0.5
    found += numpy.floor(ends).astype("int64")
    is_near = numpy.abs(ends - numpy.rint(ends)) <= (2 + unit) * 2.0**-49  # to a half, by more than all roundings
    places = numpy.flatnonzero(has_some & (is_near | ~is_short))
    found[places] = [scale.nearest(it) for it in numbers[places].tolist()]
    return found, has_some & (found >= first) & (found <= last)
