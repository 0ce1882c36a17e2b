"""Columns of values, read from the rows that `tmx fields --binary` writes: arrays where numpy is there, else lists."""

import codecs
import importlib
import importlib.util
import struct
from collections.abc import Collection, Iterable, Sequence
from dataclasses import dataclass
from itertools import accumulate
from typing import Any

from .definition import Column

ROWS = 10000  # that are read at once without numpy
LEAD = 16  # octets of a row before its fields
OWN_PLACES = (0, 8, 4, 6)  # in a row, of the columns of tmx itself
CODES = {"uint": "BHIQ", "int": "bhiq", "float": " efd"}  # of struct, by octets: 1, 2, 4 and 8
KINDS = {"uint": "u", "int": "i", "float": "f", "str": "V"}  # of numpy


def module(name: str) -> Any:
    """A module that may be there, or None."""
    return importlib.import_module(name) if importlib.util.find_spec(name) else None


@dataclass(frozen=True)
class Encoding:
    """How texts are decoded: an encoding, and what is done where octets aren't in it, as `bytes.decode` has both.

    `octets` are columns that are no texts.
    """

    name: str
    errors: str
    octets: frozenset[str] = frozenset()

    def texts(self, values: Sequence[bytes], column: str, first: int) -> Sequence[Any]:
        """The texts of a column from a row on.  Raises UnicodeDecodeError that names column and row."""
        if column in self.octets:
            return values
        found: list[str] = []
        try:
            for value in values:
                found.append(value.decode(self.name, self.errors))
        except UnicodeDecodeError as error:
            error.reason += f": column {column!r}, row {first + len(found)}"
            raise
        return found


def encoding_of(name: str | None, errors: str, octets: Iterable[str] = ()) -> Encoding | None:
    """How texts are decoded; None where they stay octets.  Raises LookupError where one of both isn't known."""
    codecs.lookup_error(errors)
    return None if name is None else Encoding(codecs.lookup(name).name, errors, frozenset(octets))


@dataclass(frozen=True)
class Kinds:
    """The columns that rows have, those of tmx itself first, and how their texts are decoded; without an encoding they stay octets.

    `arrays` are the columns that become arrays.
    """

    columns: Sequence[Column]
    encoding: Encoding | None = None
    arrays: Collection[str] = ()

    def places(self) -> list[int]:
        """Where each column begins in a row, and last how many octets a row has."""
        return [*OWN_PLACES, *accumulate(map(octets_of, self.columns[len(OWN_PLACES) :]), initial=LEAD)]

    def read(self, rows: bytearray, first: int) -> list[Any]:
        """The values of each column of these rows, the number of the first among all rows being this."""
        numpy = module("numpy")
        return read_as_lists(self, rows, first) if numpy is None else read_as_arrays(numpy, self, rows, first)

    def texts(self, values: Sequence[bytes], column: Column, first: int) -> Sequence[Any]:
        """The values of a `str` column."""
        return values if self.encoding is None else self.encoding.texts(values, column.name, first)


def octets_of(column: Column) -> int:
    """Those of a value in a row."""
    if column.type in ("str", "float"):
        return column.bits // 8
    return next(it for it in (1, 2, 4, 8) if column.bits <= 8 * it)


# Lists of Python.


def code_of(column: Column) -> str:
    octets = octets_of(column)
    return f"{octets}s" if column.type == "str" else CODES[column.type][octets.bit_length() - 1]


def read_as_lists(kinds: Kinds, rows: bytearray, first: int) -> list[list[Any]]:
    record, channel, apid, count, *fields = map(code_of, kinds.columns)
    form = struct.Struct(f"<{record}{apid}{count}{channel}7x{''.join(fields)}")
    found: list[list[Any]] = [[] for _ in kinds.columns]
    with memoryview(rows) as octets:
        for at in range(0, len(rows), ROWS * form.size):
            records, apids, counts, channels, *others = zip(*form.iter_unpack(octets[at : at + ROWS * form.size]))
            for column, values, more in zip(kinds.columns, found, (records, channels, apids, counts, *others)):
                values += kinds.texts(more, column, first + at // form.size) if column.type == "str" else more
    return found


# Arrays of numpy.


def read_as_arrays(numpy: Any, kinds: Kinds, rows: bytearray, first: int) -> list[Any]:
    """Columns that lie in the rows; those of `str` are arrays of objects."""
    *places, length = kinds.places()
    names = [f"column {number}" for number in range(len(places))]
    formats = [f"<{KINDS[it.type]}{octets_of(it)}" for it in kinds.columns]
    kind = numpy.dtype({"names": names, "formats": formats, "offsets": places, "itemsize": length})
    table = numpy.frombuffer(rows, kind)
    return [array_of(numpy, table[name], kinds, it, first) for name, it in zip(names, kinds.columns)]


def array_of(numpy: Any, values: Any, kinds: Kinds, column: Column, first: int) -> Any:
    if column.type != "str" or column.name in kinds.arrays:
        return values
    found = numpy.empty(len(values), object)  # numpy's own types for octets take zeros off their ends
    found[:] = kinds.texts(values.tolist(), column, first)
    return found
