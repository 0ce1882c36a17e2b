"""Fields of an application's packets: a table of columns by name."""

import copy
import csv
import io
import os
import shutil
import struct
import sys
import tempfile
from collections.abc import Collection, ItemsView, Iterable, Iterator, KeysView, Mapping, Sequence
from contextlib import contextmanager
from dataclasses import dataclass, field
from itertools import compress, islice
from typing import IO, Any

from .arrays import single_columns, with_arrays
from .decoding import Curve, Names, decoded, decoders_of
from .definition import Column, column_named, long_values, read_definition
from .errors import ColumnError, DisagreementError, word_behind
from .lines import ShortPacket, read_lines
from .notes import numbered, warn, warn_of_nothing
from .progress import Progress
from .rests import Rests
from .runs import Command, Runs, line_blocks, running
from .settings import Settings
from .sieve import Sieve
from .source import Source, refuse_to_overwrite
from .steps import reads_all
from .tables import html_table, text_table
from .time_codes import Ticks, TimeCode
from .times import Epoch, times
from .values import Encoding, Kinds, module

Name = str | os.PathLike[str]

MOST_ROWS, MOST_COLUMNS = 10, 20  # that are shown
MOST_SHORT = 100  # packets without a row that are kept of tables that come one by one
SHORT_PACKET = b"shortpacket "  # how its line begins
CHANNEL = 8  # its place in a row
FRAME = 2048  # octets of a frame of `long_packet`


class Fields(Mapping[str, Any]):
    """A table: columns by their names, a row for each packet.

    A column is an array of numpy where that is there, else a list.  Integers have the smallest type that holds their bits;
    floats are decoded from their raw bits, 16, 32 or 64 of them; values of `str` are `bytes`, or text where an encoding was
    named, in an array of objects.

    columns        the name, the type and the bits of each column
    time           the time of each row, where it was asked for, else None
    bad_times      how many times are out of range: NaT, or without numpy None
    parameters     for each column the parameter of an XTCE file that it has, or a part of one; empty without such a file
    short_packets  the packets of the application that have no row, since they are shorter than the definition; of an XTCE
                   container those that keep its conditions.  Of tables that come one by one the last has the first hundred
    short_count    how many they are, in the last of such tables too
    unclear_count  of an XTCE container how many packets are too short to tell whether they keep its conditions
    """

    def __init__(self, columns: Sequence[Column], values: Sequence[Any]) -> None:
        self.columns = list(columns)
        self.by_name = {it.name: found for it, found in zip(columns, values)}
        self.short_lines: list[bytes] = []
        self.short_count = self.unclear_count = 0
        self.time: Any = None
        self.bad_times = 0
        self.parameters: dict[str, str] = {}

    def __getitem__(self, name: str) -> Any:
        return self.by_name[name]

    def __iter__(self) -> Iterator[str]:
        return iter(self.by_name)

    def __len__(self) -> int:
        """How many columns it has; `rows` says how many rows."""
        return len(self.by_name)

    def __eq__(self, other: object) -> bool:
        """Whether both have columns of the same names, with the same values.  A NaN is the same as another one."""
        if not isinstance(other, Mapping):
            return False
        one, two = lists_of(self), lists_of(other)
        return one.keys() == two.keys() and all(it == two[name] or repr(it) == repr(two[name]) for name, it in one.items())

    def keys(self) -> KeysView[str]:
        """The names of the columns.  Raises TypeError where xarray asks."""
        refuse_xarray()
        return super().keys()

    def items(self) -> ItemsView[str, Any]:
        """The columns with their names.  Raises TypeError where xarray asks."""
        refuse_xarray()
        return super().items()

    def __array__(self, *how: Any, **named: Any) -> None:
        """Raises TypeError: numpy, and pandas.DataFrame too, would make an array of the names."""
        raise TypeError("a table is no array: to_pandas() makes a DataFrame of it, and to_numpy() an array of each column")

    @property
    def short_packets(self) -> list[ShortPacket]:
        """The packets that have no row."""
        return list(read_lines(b"".join(self.short_lines).decode("ascii"), (ShortPacket,)))

    @property
    def rows(self) -> int:
        """How many rows it has."""
        return len(self["tm_record"])

    def is_empty(self) -> bool:
        """Whether no packet of the application came."""
        return not self.rows and not self.short_count

    def decoded(
        self,
        *,
        labels: Mapping[str, Names] | None = None,
        curves: Mapping[str, Curve] | None = None,
        times: Mapping[str, TimeCode | Ticks] | None = None,
    ) -> "Fields":
        """The table with what the raw values of columns mean.  Behind such a column stands the raw one, with `_raw` in its name.

        labels  for a column the label of each number or range: a pandas.Categorical, or without pandas texts and None
        curves  for a column the coefficients of a polynomial from the power 0 up, a Polynomial, a Spline or a series of numpy;
                these make floats
        times   for a column of octets a TimeCode, for one of numbers Ticks: times as `fields` gives them

        Raises ColumnError where a column isn't there, or isn't of a fitting type.
        """
        return decoded(self, decoders_of(labels, curves, times))

    def with_columns(self, columns: Sequence[Column], values: Sequence[Any]) -> "Fields":
        """A table with other columns, and all else of this one."""
        found = copy.copy(self)
        found.columns = list(columns)
        found.by_name = {it.name: value for it, value in zip(columns, values)}
        return found

    def to_numpy(self) -> dict[str, Any]:
        """The columns as arrays of numpy, by name.  Raises ImportError where numpy isn't there."""
        numpy = module("numpy")
        if numpy is None:
            raise ImportError("numpy is not there: without it columns are lists")
        return {name: numpy.asarray(it) for name, it in self.by_name.items()}

    def to_pandas(self) -> Any:
        """A pandas.DataFrame, with the time as index where it was asked for.  Raises ImportError where pandas isn't there."""
        pandas = module("pandas")
        if pandas is None:
            raise ImportError("pandas is not there: without it columns are arrays of numpy, or lists")
        index = None if self.time is None else pandas.DatetimeIndex(self.time, name="time")
        return pandas.DataFrame(single_columns(self), index=index, copy=False)

    def shown(self) -> tuple[list[str], list[list[Any]]]:
        """The head and the first rows."""
        columns = list(self.by_name.values()) if self.time is None else [self.time, *self.by_name.values()]
        head = list(self) if self.time is None else ["time", *self]
        return head, [[it[row] for it in columns] for row in range(min(self.rows, MOST_ROWS))]

    def ending(self) -> str:
        """How much of it there is."""
        short, unclear, bad = self.short_count, self.unclear_count, self.bad_times
        said = f", {short} packet{'s' * (short != 1)} too short for a row" if short else ""
        said += f", {unclear} packet{'s' * (unclear != 1)} too short to tell the container" if unclear else ""
        said += f", {bad} time{'s' * (bad != 1)} out of range" if bad else ""
        return f"{self.rows} rows, {len(self)} columns{said}"

    def __repr__(self) -> str:
        width = shutil.get_terminal_size().columns
        return f"{text_table(*self.shown(), width)}\n{self.ending()}"

    def _repr_html_(self) -> str:
        """Of many columns the first and the last ones."""
        head, rows = self.shown()
        if len(head) > MOST_COLUMNS:
            half = MOST_COLUMNS // 2
            head, *rows = [[*it[:half], "...", *it[-half:]] for it in (head, *rows)]
        return f"{html_table(head, rows)}<p>{self.ending()}</p>"


def refuse_xarray() -> None:
    """Raises TypeError where xarray called the caller: it makes a dimension of each column, and has no way to ask for another."""
    if sys._getframe(2).f_globals.get("__name__", "").startswith("xarray."):
        raise TypeError("xarray would make a dimension of each column of the table: give it to_pandas().to_xarray()")


def lists_of(table: Mapping[str, Any]) -> dict[str, list[Any]]:
    """The columns as lists, whatever holds them."""
    return {name: it.tolist() if hasattr(it, "tolist") else it for name, it in table.items()}


@dataclass(frozen=True)
class Time:
    """The columns of the seconds, and of their binary fraction, and the time of second 0."""

    names: Sequence[str]
    epoch: Epoch

    def add_to(self, fields: Fields) -> None:
        """Gives each row its time.  Raises ColumnError where a column isn't there, or isn't of `uint`."""
        if not 1 <= len(self.names) <= 2:
            raise ColumnError("a time is made of one column, the seconds, or of two, the seconds and their binary fraction")
        columns = [column_named(fields.columns, it) for it in self.names]
        for column in columns:
            if column.type != "uint":
                raise ColumnError(f"the column {column.name!r} is of type {column.type}; a time is made of columns of type uint")
        seconds, fractions = fields[columns[0].name], fields[columns[1].name] if len(columns) == 2 else None
        fields.time, fields.bad_times = times(seconds, fractions, columns[-1].bits, self.epoch)


def time_of(names: str | Sequence[str] | None, epoch: Epoch | None) -> Time | None:
    """What makes times, where they are asked for.

    Raises ColumnError where columns or the epoch are missing, and TypeError where the columns have no order.
    """
    if names is None and epoch is None:
        return None
    if names is None or epoch is None:
        raise ColumnError("`time` and `epoch` go together")
    if not isinstance(names, (str, list, tuple)):
        raise TypeError(f"`time` takes a column, or a list or tuple of columns, and not {names!r}")
    return Time([names] if isinstance(names, str) else names, epoch)


@dataclass(frozen=True)
class Table:
    """What a table is made of.

    definition, apid  the definition, and the application
    channels          those whose packets have rows; None is all
    encoding          of texts; without one they are octets
    time              what makes the time of each row
    report            a file that the report goes to
    step              the words of a job that goes on, or stops early
    arrays            the columns of octets that are arrays, and of what
    rest              what gives the octets behind the fields
    sieve             what tells which packets that are too short for a row are those of an XTCE container
    """

    definition: Name
    apid: int
    channels: frozenset[int] | None = None
    encoding: Encoding | None = None
    time: Time | None = None
    report: Name | None = None
    step: Sequence[str] = ()
    arrays: Mapping[str, Any] = field(default_factory=dict)
    rest: Rests | None = None
    sieve: Sieve | None = None

    def whole(self, found: Fields) -> Fields:
        """The table with its times, its arrays and what follows its fields."""
        if self.time is not None:
            self.time.add_to(found)
        found = with_arrays(found, self.arrays) if self.arrays else found
        return found if self.rest is None else self.rest.add_to(found)

    def rows(self, pieces: Iterable[bytes], length: int, missing: set[int]) -> Iterator[bytes]:
        """The rows of the chosen channels, all being of so many octets.  Channels that come leave `missing`."""
        for rows in pieces:
            check_leads(rows, length, self.apid)
            if self.channels is None:
                yield rows
                continue
            channels = rows[CHANNEL::length]
            missing.difference_update(channels)
            each = (rows[at : at + length] for at in range(0, len(rows), length))
            yield b"".join(compress(each, map(self.channels.__contains__, channels)))

    def short_lines(self, report: Iterable[bytes], missing: set[int]) -> Iterator[bytes]:
        """The lines of packets that are too short for a row.  Their channels leave `missing`."""
        for line in report:
            if line.startswith(SHORT_PACKET):
                channel = int(line.split(b"channel=")[1][:1])
                if self.channels is None or channel in self.channels:
                    missing.discard(channel)
                    yield line


def read_tables(
    table: Table, source: Source, settings: Name | Settings, rows: int | None, progress: Progress
) -> Iterator[Fields]:
    """What `tmx fields` gives, as tables of so many rows, or as one.  The last has the packets that are too short for a row."""
    missing, sieve, is_stream = set(table.channels or ()), table.sieve, source.is_stream
    most = None if rows is None else MOST_SHORT
    with report_file(table, source, settings) as report:
        line = ["--definition", os.fspath(table.definition), "--apid", str(table.apid), "--report", report]
        command = Command(["fields", "--binary", *line, *table.step])
        others = [] if table.rest is None else [table.rest.command]
        if sieve is not None:
            sieve.most = most
            others += [sieve.command] if is_stream else []
        with running(source, settings, command, *others, progress=progress) as runs:
            if sieve is not None and is_stream:
                runs.takers[len(others)] = sieve.take
            first = runs.chunk(0)
            if not first and (fault := runs.runs[0].fault()):
                raise fault
            kinds = Kinds(columns_of(table.definition), table.encoding, table.arrays)
            length = kinds.places()[-1]
            if table.rest is not None:
                table.rest.read(runs, table.definition)
            tables = tables_of(table, kinds, table.rows(whole_rows(runs, first, length), length, missing), length, rows)
            last = next(tables)
            for following in tables:
                yield last
                last = following
            if table.rest is not None:
                table.rest.finish()
            runs.finish()
        with open(report, "ab+") as lines:
            lines.seek(0)
            short = table.short_lines(lines, missing)
            last.short_lines = list(islice(short, most))
            last.short_count = len(last.short_lines) + sum(1 for _ in short)
    if reads_all(table.step):
        warn_of_missing(table, runs, settings, last.is_empty(), missing)
    if sieve is not None and last.short_count:
        if not is_stream:
            with running(source, settings, sieve.command) as again:
                sieve.read(again, last.short_count)
        sieve.give_to(last)
    yield last


def warn_of_missing(table: Table, runs: Runs, settings: Name | Settings, is_empty: bool, missing: Collection[int]) -> None:
    """Warns where no packet of the application came, or none of a channel."""
    if not warn_of_nothing(runs, settings) and (is_empty or missing):
        where = f" on {numbered('channel', missing)}" if missing else ""
        warn(f"no packet of application {table.apid}{where}", runs.source)


@contextmanager
def report_file(table: Table, source: Source, settings: Name | Settings) -> Iterator[str]:
    """The name of a file for the report, which goes to the table's at the end, if a run has made it.

    Raises FileError where the table's is another file of the run.
    """
    with tempfile.TemporaryDirectory() as folder:
        report = os.path.join(folder, "report")
        if table.report is None:
            yield report
            return
        kept = [word_behind(it, table.step) for it in ("--checkpoint", "--resume")]
        refuse_to_overwrite(table.report, source.file, settings, table.definition, *kept)
        with open(table.report, "ab") as file:
            try:
                yield report
            finally:
                if os.path.exists(report):
                    if "--resume" not in table.step and os.path.isfile(table.report):
                        file.truncate(0)
                    with open(report, "rb") as made:
                        shutil.copyfileobj(made, file)


# Rows.


def tables_of(table: Table, kinds: Kinds, pieces: Iterable[bytes], length: int, rows: int | None) -> Iterator[Fields]:
    """Tables of so many rows, each of so many octets; without a number one of all.  Only the first may have none."""
    done, kept, most = 0, bytearray(), None if rows is None else rows * length

    for piece in pieces:
        kept += piece
        while most is not None and len(kept) >= most:
            yield table.whole(Fields(kinds.columns, kinds.read(kept[:most], done)))
            del kept[:most]
            done += most // length
    if kept or not done:
        yield table.whole(Fields(kinds.columns, kinds.read(kept, done)))


def whole_rows(runs: Runs, octets: bytes, length: int) -> Iterator[bytes]:
    """What the first run gives from these octets on, in whole rows.  Raises DisagreementError where the last isn't whole."""
    rest = b""
    while octets:
        octets = rest + octets
        end = len(octets) - len(octets) % length
        rest = octets[end:]
        if end:
            yield octets[:end]
        octets = runs.chunk(0)
    if rest:
        raise runs.runs[0].fault() or other_length(length)


def other_length(length: int) -> DisagreementError:
    return DisagreementError(f"the program's rows have another length than {length} octets, which the definition says")


def check_leads(rows: bytes, length: int, apid: int) -> None:
    """Raises DisagreementError where a row is of another application, or its lead isn't of the form of docs/FORMATS.md."""
    number = len(rows) // length
    applications, zeros = rows[4::length] + rows[5::length], b"".join(rows[place::length] for place in range(CHANNEL + 1, 16))
    wanted = bytes([apid & 255]) * number + bytes([apid >> 8]) * number
    if applications != wanted or zeros.strip(b"\0") or max(rows[CHANNEL::length]) > 7:
        raise DisagreementError("the program gave rows whose leads aren't of the application, or aren't of the definition's length")


def columns_of(definition: Name) -> list[Column]:
    """The columns of a definition.  Raises DisagreementError where the program prints other names, or its row has another length."""
    columns = read_definition(definition)
    line = ["fields", "--definition", os.fspath(definition), "--apid", "0", "--report", os.devnull]
    printed, written = Command(line), Command([*line, "--binary"])
    with running(Source(io.BytesIO(long_packet())), Settings(0, FRAME, False), printed, written) as runs:
        text = b"".join(line_blocks(runs, 0)).decode("utf-8", "surrogateescape")
        row = b"".join(iter(lambda: runs.chunk(1), b""))
        runs.finish()
    with long_values():
        head: list[str] = next(csv.reader(io.StringIO(text, newline="")), [])
    names, length = [it.name for it in columns], Kinds(columns).places()[-1]
    if head != names:
        raise DisagreementError(f"the program's columns are not those of the definition: {head} and {names}")
    if len(row) != length:
        raise other_length(length)
    return columns


def long_packet() -> bytes:
    """A recording with one packet, of application 0, which has 65542 octets, enough for any definition, and ends with the last frame."""
    frames, room = 33, FRAME - 6
    data = (b"\0\0\xc0\0\xff\xff" + bytes(65536)).rjust(frames * room, b"\0")
    pointers = [len(data) - 65542, *[2047] * (frames - 1)]
    heads = (struct.pack(">HBBH", 0, it, it, 0x1800 | pointer) for it, pointer in enumerate(pointers))
    return b"".join(head + data[it * room : (it + 1) * room] for it, head in enumerate(heads))
