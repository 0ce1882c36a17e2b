"""The octets of each record that the settings pass over, as a station writes them: times of receipt, markers, qualities."""

from collections.abc import Callable, Iterator
from dataclasses import dataclass, field
from typing import Any, TypeVar

from .arrays import objects
from .definition import Column, Name
from .fields import Fields
from .progress import Progress, showing
from .settings import Settings
from .source import Source
from .steps import record_length
from .values import module


Made = TypeVar("Made")


def skipped(
    source: Source, settings: Name | Settings, rows: int | None, progress: Progress, make: Callable[["Octets"], Made]
) -> Iterator[Made]:
    """What is made of the octets of so many records; without a number of all.  Only the first may have none."""
    length = record_length(settings)
    known = settings if isinstance(settings, Settings) else Settings.read(settings)
    octets = Octets(known, 0)
    for record in records_of(source, length, progress):
        octets.befores.append(record[: known.skip_before])
        octets.afters.append(record[length - known.skip_after :])
        if len(octets.befores) == rows:
            yield make(octets)
            octets = Octets(known, octets.first + rows)
    if octets.befores or not octets.first:
        yield make(octets)


@dataclass
class Octets:
    """The octets before and after each of some frames, the first of which is that of this record."""

    settings: Settings
    first: int
    befores: list[bytes] = field(default_factory=list)
    afters: list[bytes] = field(default_factory=list)


def records_of(source: Source, length: int, progress: Progress) -> Iterator[bytes]:
    """The whole records of a recording.  Other calls may read a file meanwhile."""
    source, rest = source if source.path is None else Source(source.path), b""
    source.open_stream()
    try:
        with showing(progress, source.length()) as show:
            while block := source.read_block():
                rest += block
                end = len(rest) // length * length
                for at in range(0, end, length):
                    yield rest[at : at + length]
                rest = rest[end:]
                if show is not None:
                    show(source.fed)
    finally:
        source.close()


def table_of(octets: Octets) -> Fields:
    numbers, numpy = range(octets.first, octets.first + len(octets.befores)), module("numpy")
    records = list(numbers) if numpy is None else numpy.array(numbers, "u4")
    bits = 8 * octets.settings.skip_before, 8 * octets.settings.skip_after
    columns = [Column("tm_record", "uint", 32), Column("before", "str", bits[0]), Column("after", "str", bits[1])]
    return Fields(columns, [records, objects(octets.befores), objects(octets.afters)])


def array_of(octets: Octets) -> Any:
    """The same as a structured array of numpy, without the numbers of the records."""
    numpy = module("numpy")
    parts = ("before", octets.settings.skip_before, octets.befores), ("after", octets.settings.skip_after, octets.afters)
    found = numpy.empty(len(octets.befores), [(name, f"V{length}") for name, length, _ in parts])
    for name, length, values in parts:
        if length:
            found[name] = numpy.frombuffer(b"".join(values), f"V{length}")
    return found
