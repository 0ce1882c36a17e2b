"""Columns of octets as columns of arrays: values of one width, one behind another."""

import re
import struct
from collections.abc import Iterator, Mapping, Sequence
from dataclasses import dataclass
from typing import TYPE_CHECKING, Any

from .definition import Column, column_named
from .errors import ColumnError
from .values import module

if TYPE_CHECKING:
    from .fields import Fields

PACKED = re.compile("(u?)int([1-9]|[1-5][0-9]|6[0-4])")
PLAIN = re.compile("[<>|]?([uif])([1248])")
CODES = {"u": " BH I   Q", "i": " bh i   q", "f": "  e f   d"}  # of struct, by octets


@dataclass(frozen=True)
class Form:
    """How the values of an array stand: as a type of numpy, or packed in so many bits each."""

    said: str
    bits: int
    is_packed: bool
    is_signed: bool = False

    def count(self, column: Column) -> int:
        """How many values a column of octets has.  Raises ColumnError where that is no whole number."""
        count, rest = divmod(column.bits, self.bits)
        if column.type != "str" or not count or rest >= (8 if self.is_packed else 1):
            said = f"is of type {column.type} and has {column.bits} bits"
            raise ColumnError(f"the column {column.name!r} {said}: no array of {self.said}")
        return count


def form_of(said: Any) -> Form:
    """The form that a caller names.  Raises TypeError and ValueError where it is none."""
    text, numpy = said if isinstance(said, str) else "", module("numpy")
    packed, plain = PACKED.fullmatch(text), PLAIN.fullmatch(text)
    if packed is not None:
        return Form(said, int(packed[2]), True, not packed[1])
    if numpy is not None and not re.fullmatch("u?int[0-9]+", text):
        is_type = isinstance(said, numpy.dtype) or isinstance(said, type) and issubclass(said, numpy.generic)
        kind = numpy.dtype(said) if text or is_type else None
        if kind is None or kind.hasobject or not kind.itemsize or kind.kind == "b":
            raise ValueError(f"an array is of numbers, and not of {said!r}")
        return Form(said, 8 * kind.itemsize, False)
    if plain is None or CODES[plain[1]][int(plain[2])] == " ":
        raise ValueError(f"an array is of a form as >u2, <f4 or uint12, and not {said!r}; other types need numpy")
    return Form(said, 8 * int(plain[2]), False)


def with_arrays(fields: "Fields", forms: Mapping[str, Any]) -> "Fields":
    """The table with arrays in place of these columns of octets.  Raises ColumnError and ValueError."""
    values = dict(fields)
    for name, said in forms.items():
        form, column = form_of(said), column_named(fields.columns, name)
        values[name] = array_of(values[name], form, form.count(column))
    columns = [Column(it.name, "array", it.bits) if it.name in forms else it for it in fields.columns]
    return fields.with_columns(columns, list(values.values()))


def objects(values: Sequence[Any]) -> Any:
    """Values of any kind as a column."""
    numpy = module("numpy")
    if numpy is None:
        return list(values)
    found = numpy.empty(len(values), object)
    found[:] = values
    return found


def single_columns(fields: "Fields") -> dict[str, Any]:
    """The columns by their names, each of an array as one for each of its values: `NAME[0]`, and of its members: `NAME[0].MEMBER`.

    All are in this machine's byte order, since pandas takes no other.  Raises ColumnError where two have one name.
    """
    found: dict[str, Any] = {}
    for column, values in fields.items():
        for name, single in singles(column, values):
            if name in found or name != column and name in fields:
                raise ColumnError(f"the column {column!r} has a value {name!r}, and another column has this name")
            found[name] = single
    return found


def singles(name: str, values: Any) -> Iterator[tuple[str, Any]]:
    """The columns of a column, with their names."""
    numpy = module("numpy")
    if numpy is None or not isinstance(values, numpy.ndarray):
        yield name, values
    elif values.ndim > 1:
        for number in range(values.shape[1]):
            yield from singles(f"{name}[{number}]", values[:, number])
    elif values.dtype.names:
        for member in values.dtype.names:
            yield from singles(f"{name}.{member}", values[member])
    else:
        yield name, values.astype(values.dtype.newbyteorder("="), copy=False)


def array_of(values: Any, form: Form, count: int) -> Any:
    """The values of each row, as a row of a two-dimensional array, which lies in the rows; without numpy as a tuple."""
    numpy = module("numpy")
    if numpy is None:
        return [unpacked(it, form, count) if form.is_packed else plain(it, form, count) for it in values]
    if not form.is_packed:
        return values.view((form.said, (count,)))
    width = next(it for it in (8, 16, 32, 64) if form.bits <= it)
    each = values.view(("u1", (values.dtype.itemsize,)))
    bits = numpy.unpackbits(each, axis=1)[:, : count * form.bits]
    padded = numpy.zeros((len(values), count, width), "u1")
    padded[:, :, width - form.bits :] = bits.reshape(len(values), count, form.bits)
    if form.is_signed:
        padded[:, :, : width - form.bits] = padded[:, :, width - form.bits, None]
    kind = f"{'i' if form.is_signed else 'u'}{width // 8}"
    return numpy.packbits(padded, axis=2).view(f">{kind}").reshape(len(values), count).astype(kind)


def plain(octets: bytes, form: Form, count: int) -> tuple[Any, ...]:
    found = PLAIN.fullmatch(form.said)
    assert found is not None
    order = form.said[0] if form.said[0] in "<>" else "="
    return struct.unpack(f"{order}{count}{CODES[found[1]][int(found[2])]}", octets)


def unpacked(octets: bytes, form: Form, count: int) -> tuple[int, ...]:
    whole, bits = int.from_bytes(octets), form.bits
    ends = (8 * len(octets) - bits * (it + 1) for it in range(count))
    found = (whole >> it & (1 << bits) - 1 for it in ends)
    return tuple(it - (it >> bits - 1 << bits) if form.is_signed else it for it in found)
