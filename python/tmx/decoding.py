"""What raw values of fields mean: labels, calibrated values, texts and times, each in a column before its raw one."""

import codecs
import math
from bisect import bisect_right
from collections.abc import ItemsView, Iterable, Mapping, Sequence, Set, ValuesView
from dataclasses import dataclass
from itertools import compress
from operator import index
from typing import TYPE_CHECKING, Any, Protocol, SupportsFloat

from .arrays import objects
from .definition import Column, column_named
from .errors import ColumnError
from .time_codes import Ticks, TimeCode
from .values import module

if TYPE_CHECKING:
    from .fields import Fields

RAW = "_raw"  # how the name of a raw column ends
MARKS = {"utf-16": (codecs.BOM_UTF16_BE, codecs.BOM_UTF16_LE), "utf-32": (codecs.BOM_UTF32_BE, codecs.BOM_UTF32_LE)}


class Names(Protocol):
    """A Mapping from numbers, ranges, or both to labels."""

    def items(self) -> ItemsView[int | range, str]: ...

    def values(self) -> ValuesView[str]: ...


class Decoder(Protocol):
    """What makes a column of its raw one.  `type` is the type of the new column."""

    type: str

    def values(self, name: str, raw: Any) -> Any: ...


# Calibrations.


class Series(Protocol):
    """A series of numpy, as those of `numpy.polynomial` and a `numpy.poly1d`."""

    @property
    def coef(self) -> Any: ...

    def __call__(self, values: Any, /) -> Any: ...


SERIES = ("Polynomial", "Chebyshev", "Legendre", "Laguerre", "Hermite", "HermiteE")  # of numpy.polynomial


@dataclass(frozen=True, init=False)
class Polynomial:
    """A calibration: the sum of coefficients times powers of the raw value, from the power 0 up.

    Raises TypeError where they are no numbers in an order, and ValueError where there are none.
    """

    coefficients: Sequence[float]
    type = "float"

    def __init__(self, coefficients: Iterable[SupportsFloat]) -> None:
        if isinstance(coefficients, (str, bytes, bytearray, memoryview, Mapping, Set)) or getattr(coefficients, "ndim", 1) != 1:
            raise TypeError(f"a polynomial takes a list of coefficients, and not {coefficients!r}")
        if callable(coefficients):  # as a series of numpy, whose coefficients may be of other terms, or in another order
            said = f"{type(coefficients).__module__}.{type(coefficients).__qualname__}"
            raise TypeError(f"a polynomial takes a list of coefficients, and not {said}; a series of numpy is a curve itself")
        object.__setattr__(self, "coefficients", tuple(map(float, coefficients)))
        if not self.coefficients:
            raise ValueError("a polynomial has coefficients")

    def values(self, name: str, raw: Any) -> Any:
        numpy, given = module("numpy"), floats(name, raw)
        if numpy is not None:
            return numpy.polynomial.polynomial.polyval(given, self.coefficients)
        return [horner(self.coefficients, it) for it in given]


def horner(coefficients: Sequence[float], value: float) -> float:
    """A polynomial's value, worked out as numpy does."""
    found = coefficients[-1] + value * 0
    for coefficient in coefficients[-2::-1]:
        found = coefficient + found * value
    return found


@dataclass(frozen=True)
class Called:
    """A calibration by a series of numpy, which maps its domain to its window and adds its terms itself.

    Raises TypeError where its coefficients are no real numbers.
    """

    series: Series
    type = "float"

    def __post_init__(self) -> None:
        if self.series.coef.dtype.kind not in "uif":
            raise TypeError(f"a calibration has real coefficients, and not {self.series.coef!r}")

    def values(self, name: str, raw: Any) -> Any:
        return self.series(floats(name, raw)).astype("float64")


@dataclass(frozen=True, init=False)
class Spline:
    """A calibration by points, pairs of a raw value and its calibrated value.

    order        1 for straight lines between points; 0 for steps, each from its point up to the next
    extrapolate  whether the first and last lines, or steps, go on beyond the points; else there is no value there: NaN

    Raises ValueError where there are no points, two of one raw value, or one that is not finite, or the order is another.
    """

    points: Sequence[tuple[float, float]]
    order: int = 1
    extrapolate: bool = False
    type = "float"

    def __init__(self, points: Iterable[Iterable[SupportsFloat]], order: int = 1, extrapolate: bool = False) -> None:
        if order not in (0, 1):
            raise ValueError(f"a spline is of order 0 or 1, and not {order}")
        numbers = tuple((float(raw), float(value)) for raw, value in points)
        for name, value in (("points", numbers), ("order", order), ("extrapolate", extrapolate)):
            object.__setattr__(self, name, value)
        if not self.points or len(dict(self.points)) < len(self.points):
            raise ValueError("a spline has points, each of another raw value")
        if not all(math.isfinite(raw) for raw, _ in self.points):
            raise ValueError("a spline has points of finite raw values")

    def values(self, name: str, raw: Any) -> Any:
        numpy, given = module("numpy"), floats(name, raw)
        raws, calibrated = zip(*sorted(self.points))
        if numpy is None:
            return [self.value(raws, calibrated, it) for it in given]
        kinds, places = numpy.unique(given, return_inverse=True)
        return numpy.array([self.value(raws, calibrated, it) for it in kinds.tolist()], float)[places].reshape(raw.shape)

    def value(self, raws: Sequence[float], calibrated: Sequence[float], raw: float) -> float:
        if math.isnan(raw) or not (self.extrapolate or raws[0] <= raw <= raws[-1]):
            return math.nan
        at = bisect_right(raws, raw) - 1
        if self.order == 0 or raw == raws[at]:
            return calibrated[max(at, 0)]
        if len(raws) == 1:
            return calibrated[0]
        at = min(max(at, 0), len(raws) - 2)
        slope = (calibrated[at + 1] - calibrated[at]) / (raws[at + 1] - raws[at])
        return calibrated[at] + slope * (raw - raws[at])


def floats(name: str, raw: Any) -> Any:
    """A column of numbers as floats.  Raises ColumnError where it is none."""
    if not is_numbers(raw, "uif", (int, float)):
        raise ColumnError(f"the column {name!r} has no numbers, and only numbers are calibrated")
    return [float(it) for it in raw] if module("numpy") is None else raw.astype("float64")


def is_numbers(raw: Any, kinds: str, types: tuple[type, ...]) -> bool:
    """Whether a column has numbers, by the kinds that numpy has for them, or by their types."""
    return all(isinstance(it, types) for it in raw) if module("numpy") is None else raw.dtype.kind in kinds


# Labels.


@dataclass(frozen=True)
class Labels:
    """The label of each raw value, or of each range of them: the first that has it.  Others have none."""

    labels: Names
    type = "label"

    def values(self, name: str, raw: Any) -> Any:
        ranges = [(it if isinstance(it, range) else (index(it),), label) for it, label in self.labels.items()]
        names = list(dict.fromkeys(self.labels.values()))
        codes = {label: code for code, label in enumerate(names)}
        numpy, pandas = module("numpy"), module("pandas")

        def code_of(value: int) -> int:
            return next((codes[label] for among, label in ranges if value in among), -1)

        if not is_numbers(raw, "ui", (int,)) or getattr(raw, "ndim", 1) > 1:
            raise ColumnError(f"the column {name!r} has no whole numbers, and only these have labels")
        if numpy is None:
            found_of = {it: [*names, None][code_of(it)] for it in set(raw)}
            return [found_of[it] for it in raw]
        kinds, places = numpy.unique(raw, return_inverse=True)
        found = numpy.array([code_of(it) for it in kinds.tolist()], int)[places]
        return numpy.array([*names, None], object)[found] if pandas is None else pandas.Categorical.from_codes(found, names)


@dataclass(frozen=True)
class Truth:
    """Whether a raw number is another one than 0, and how comparisons spell both."""

    zero: str = "false"
    one: str = "true"
    type = "bool"

    def values(self, name: str, raw: Any) -> Any:
        return [it != 0 for it in raw] if module("numpy") is None else raw != 0


@dataclass(frozen=True)
class Text:
    """A text in an encoding, which may end before its field does.  What isn't in the encoding is shown by a replacement character.

    In `utf-16` and `utf-32` a byte order mark at the text's beginning tells the order of its octets, and is no part of the text.
    Without the mark the most significant octet comes first, or with `is_little` the least significant one.
    """

    encoding: str
    end: bytes | None = None
    is_little: bool = False
    type = "text"

    def values(self, name: str, raw: Any) -> Any:
        octets = (it if self.end is None else it.partition(self.end)[0] for it in raw)
        return objects([it.decode(self.encoding_of(it), "replace") for it in octets])

    def encoding_of(self, octets: bytes) -> str:
        marks = MARKS.get(self.encoding)
        if marks is None or octets.startswith(marks):
            return self.encoding
        return f"{self.encoding}-{'le' if self.is_little else 'be'}"


@dataclass(frozen=True)
class Timed:
    """The time of each value."""

    code: TimeCode | Ticks
    type = "time"

    def values(self, name: str, raw: Any) -> Any:
        return self.code.times(name, raw)[0]


# Tables.


Curve = Iterable[SupportsFloat] | Series | Polynomial | Spline


def curve_of(curve: Any) -> Decoder:
    """The calibration that a caller names.  Raises TypeError and ValueError as Polynomial and Called do."""
    if isinstance(curve, (Polynomial, Spline)):
        return curve
    numpy = module("numpy")
    if numpy is not None and isinstance(curve, (numpy.poly1d, *(getattr(numpy.polynomial, it) for it in SERIES))):
        return Called(curve)
    return Polynomial(curve)


def decoders_of(
    labels: Mapping[str, Names] | None,
    curves: Mapping[str, Curve] | None,
    times: Mapping[str, TimeCode | Ticks] | None,
) -> dict[str, Decoder]:
    """What a caller asks for, by column.  Raises ColumnError where a column comes twice."""
    found: dict[str, Decoder] = {}
    asked: list[tuple[str, Decoder]] = [(name, Labels(it)) for name, it in (labels or {}).items()]
    for name, curve in (curves or {}).items():
        asked.append((name, curve_of(curve)))
    asked += [(name, Timed(it)) for name, it in (times or {}).items()]
    for name, decoder in asked:
        if name in found:
            raise ColumnError(f"the column {name!r} is to be decoded in two ways")
        found[name] = decoder
    return found


def decoded(fields: "Fields", decoders: Mapping[str, Decoder], raws: Mapping[str, str] | None = None) -> "Fields":
    """The table with decoded columns; behind each stands the raw one, whose name `raws` may have.

    Raises ColumnError where one isn't there, or two are.
    """
    raws = {it: f"{it}{RAW}" for it in decoders} | dict(raws or {})
    for name in decoders:
        column_named(fields.columns, name)
        if raws[name] in fields:
            raise ColumnError(f"the table has a column {raws[name]!r} already")
    columns: list[Column] = []
    values: list[Any] = []
    bad = fields.bad_times
    for column in fields.columns:
        raw = fields[column.name]
        decoder = decoders.get(column.name)
        if decoder is not None:
            columns.append(Column(column.name, decoder.type, column.bits))
            values.append(decoder.values(column.name, raw))
            bad += no_times(values[-1]) if decoder.type == "time" else 0
            column = Column(raws[column.name], column.type, column.bits)
        columns.append(column)
        values.append(raw)
    found = fields.with_columns(columns, values)
    found.bad_times = bad
    return found


def no_times(times: Any) -> int:
    """How many times of a column are none."""
    numpy = module("numpy")
    return int(times.count(None) if numpy is None else numpy.isnat(times).sum())


def rows_where(fields: "Fields", kept: Sequence[bool]) -> "Fields":
    """The rows of a table for which this holds.  Its times are those of columns."""
    numpy = module("numpy")

    def chosen(values: Any) -> Any:
        return list(compress(values, kept)) if numpy is None else values[numpy.array(kept, bool)]

    found = fields.with_columns(fields.columns, [chosen(it) for it in fields.values()])
    found.bad_times = sum(no_times(found[it.name]) for it in found.columns if it.type == "time")
    return found
