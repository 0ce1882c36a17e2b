"""Numbers that a caller gives.  Each is taken for what it says, or refused."""

import operator
from collections.abc import Iterable
from typing import Any, SupportsIndex

Number = SupportsIndex
Numbers = SupportsIndex | Iterable[SupportsIndex] | None

APPLICATIONS, CHANNELS, RECORDS = range(2048), range(8), range(1, 1 << 32)
LONGEST_WAIT = 1_000_000_000  # seconds


def number(what: str, value: Any, among: range) -> int:
    """A number of any whole type.

    Raises TypeError where it is none, as a text, a float or a truth value, and ValueError where it is out of its range.
    """
    try:
        found = None if isinstance(value, bool) or getattr(value, "dtype", None) == bool else operator.index(value)
    except TypeError:
        found = None
    if found is None:
        raise TypeError(f"{what} takes whole numbers, and not {value!r}")
    if found not in among:
        raise ValueError(f"{what} takes numbers from {among[0]} to {among[-1]}, and not {found}")
    return found


def numbers(what: str, values: Any, among: range) -> frozenset[int] | None:
    """One number or several, also an array or a column; None is all.  Raises what `number` does."""
    if values is None:
        return None
    try:
        several = [values] if isinstance(values, (str, bytes, bytearray, memoryview)) else iter(values)
    except TypeError:
        several = [values]
    return frozenset(number(what, it, among) for it in several)


def seconds(what: str, value: float) -> float:
    """How long to wait.  Raises ValueError where nobody can wait so long."""
    if not 0 <= value <= LONGEST_WAIT:
        raise ValueError(f"{what} takes seconds from 0 to {LONGEST_WAIT}, and not {value}")
    return value
