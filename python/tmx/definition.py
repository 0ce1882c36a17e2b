"""Definitions of fields: which columns a table has, and the kind of each.

The program reads the definition, and refuses a wrong one.  Here it is read a second time for the kinds of its fields; the
names have to be those that the program prints.
"""

import csv
import os
from collections.abc import Iterator, Sequence
from contextlib import contextmanager
from dataclasses import dataclass
from threading import Lock

from .errors import ColumnError

Name = str | os.PathLike[str]

LONGEST_VALUE = 1 << 21  # octets of a value in a CSV
LIMIT = Lock()  # of one thread at a time, since the limit of the module csv is that of all
HEADER = 48  # bits of a packet's header, behind which the first field begins
LEAD = (("tm_record", 32), ("tm_channel", 8), ("tm_apid", 16), ("tm_count", 16))  # with bits that hold the number


@contextmanager
def long_values() -> Iterator[None]:
    """Lets values of a CSV be as long as any that the program reads or prints."""
    with LIMIT:
        before = csv.field_size_limit(LONGEST_VALUE)
        try:
            yield
        finally:
            csv.field_size_limit(before)


@dataclass(frozen=True, slots=True)
class Column:
    """A column of a table: its name, its type and the bits of its raw value.

    The type is `uint`, `int`, `float` or `str`.  What the package makes of these is `label`, `bool`, `text`, `time`, `array` or
    `rest`; a calibrated value is `float`.
    """

    name: str
    type: str
    bits: int


def read_definition(path: Name) -> list[Column]:
    """The columns that the rows of a definition have.  It has to be one that the program takes.

    Raises ColumnError where a field has the name of one of tmx's own columns.
    """
    head, *rows = records(path)
    name, kind, bits = (head.index(it) for it in ("name", "data_type", "bit_length"))
    columns = [Column(it, "uint", wide) for it, wide in LEAD]
    for row in rows:
        if row[kind] == "fill":
            continue
        if any(row[name] == it for it, _ in LEAD):
            raise ColumnError(f"the definition has a field {row[name]!r}, which is a column of tmx itself: name it otherwise")
        columns.append(Column(row[name], row[kind], int(row[bits])))
    return columns


def records(path: Name) -> list[list[str]]:
    """The heading of a definition, and its fields."""
    with long_values(), open(path, encoding="utf-8-sig", errors="surrogateescape", newline="") as file:
        return [[it.strip(" \t") for it in record] for record in csv.reader(file) if record]


def last_bit(path: Name) -> int:
    """The bit behind the last one of any field, those of type `fill` included: a packet needs so many for a row."""
    head, *rows = records(path)
    length, offset = head.index("bit_length"), head.index("bit_offset") if "bit_offset" in head else None
    end = last = HEADER
    for row in rows:
        begin = int(row[offset]) if offset is not None and row[offset] else end
        end = begin + int(row[length])
        last = max(last, end)
    return last


def column_named(columns: Sequence[Column], name: str) -> Column:
    """The column of this name.  Raises ColumnError where there is none."""
    for column in columns:
        if column.name == name:
            return column
    raise ColumnError(f"there is no column {name!r}")
