"""XTCE files (CCSDS 660.0-B, OMG 1.1 and 1.2): a mission's packets as tables.

    system = tmx.xtce.read("mission.xml")
    table = system.fields(recording, "HOUSEKEEPING")

What has no fixed place in a packet is refused, container by container.  docs/MISSIONS.md is the guide.
"""

import csv
import io
import os
import re
from collections import Counter
from collections.abc import Iterator, Sequence
from contextlib import contextmanager
from tempfile import NamedTemporaryFile

from .arguments import APPLICATIONS, CHANNELS, RECORDS, Number, Numbers, number, numbers
from .decoding import RAW, Timed, decoded, rows_where
from .definition import LEAD
from .fields import Fields, Table, read_tables
from .notes import warn
from .progress import Progress
from .recording import Recording
from .sieve import Sieve
from .xtce_conditions import Condition, Field, application, condition, field_of, is_application
from .xtce_file import Index, XtceError, read_root
from .xtce_layout import Layout, Placed, layout
from .xtce_types import MOST

__all__ = ["Field", "System", "XtceError", "read"]

SPACE = re.compile("[\t\r\n]")  # what is a space in a name, as XML Schema has it
LONGEST_DEFINITION = 1 << 20  # octets of a definition that the program reads
HEADING = ("name", "data_type", "bit_length", "bit_offset")


def read(path: str | os.PathLike[str]) -> "System":
    """What an XTCE file says.  Raises XtceError where it is none, has a DOCTYPE, or includes other files; and OSError."""
    index = Index()
    index.add(read_root(path))
    return System(index)


class System:
    """The containers of a file, by their paths, as `/Mission/Instrument/HOUSEKEEPING`.

    Where only one container has a name, that is enough to name it.
    """

    def __init__(self, index: Index) -> None:
        self.index = index

    def __repr__(self) -> str:
        return f"<System of {len(self.containers)} containers>"

    @property
    def containers(self) -> list[str]:
        """The paths of all containers."""
        return list(self.index.containers)

    def refusals(self) -> dict[str, str]:
        """Why a container can't be read, for each of these."""
        found = {}
        for path in self.containers:
            try:
                self.asked(path)
            except XtceError as error:
                found[path] = str(error)
        return found

    def path(self, container: str) -> str:
        """The path of a container.  Raises XtceError where there is none of this name, or several."""
        if container in self.index.twice:
            raise XtceError(container, "two elements have this path")
        if container in self.index.containers:
            return container
        found = [it for it in self.index.containers if it.rpartition("/")[2] == container]
        if len(found) != 1:
            raise XtceError(container, f"this may be {' or '.join(found)}" if found else "there is no such container")
        return found[0]

    def columns(self, container: str) -> list[Field]:
        """The fields of a container, with those of its base containers.  Raises XtceError."""
        return columns_of(self.path(container), layout(self.index, self.path(container)))

    def apid(self, container: str) -> int | None:
        """The application that the container's packets have; None where it doesn't say.  Raises XtceError."""
        return self.asked(container)[1]

    def definition(self, container: str) -> str:
        """The definition of the container's fields, for `tmx fields`.  Raises XtceError."""
        return definition_of(self.columns(container))

    def asked(self, container: str) -> tuple[list[Field], int | None, list[Condition]]:
        """The fields, the application, and what else the packets have to keep."""
        path = self.path(container)
        found = layout(self.index, path)
        fields = columns_of(path, found)
        applications, conditions = set(), []
        for compared in found.compared:
            field = field_of(fields, compared, path)
            if is_application(field, compared):
                applications.add(application(field, compared, path))
            else:
                conditions.append(condition(field, compared, path))
        if len(applications) > 1:
            raise XtceError(path, f"its packets are to have the applications {sorted(applications)} at once")
        return fields, next(iter(applications), None), conditions

    def fields(
        self,
        recording: Recording,
        container: str,
        *,
        apid: Number | None = None,
        channel: Numbers = None,
        report: str | os.PathLike[str] | None = None,
        progress: Progress = False,
    ) -> Fields:
        """The decoded table of a container's packets.

        A parameter's value stands in the column of its name; where that is decoded, the raw one stands behind it.  If a container
        has one absolute time, that is also the time of each row.  `apid` says the application where the container doesn't; where
        it does, another number is refused.

        The table's `short_packets` keep the container's conditions, and are shorter than it.  `unclear_count` says how many others
        are so short that their fields for some condition are missing, and keep the other conditions.

        Raises XtceError, and what `Recording.fields` raises.
        """
        (found,) = self.tables(recording, container, None, apid, channel, report, progress)
        return found

    def blocks(
        self,
        recording: Recording,
        container: str,
        rows: Number,
        *,
        apid: Number | None = None,
        channel: Numbers = None,
        report: str | os.PathLike[str] | None = None,
        progress: Progress = False,
    ) -> Iterator[Fields]:
        """The same as tables one by one, each made of this number of packets without those of other containers.

        The last one has `short_count`, and of `short_packets` the first hundred.
        """
        return self.tables(recording, container, number("rows", rows, RECORDS), apid, channel, report, progress)

    def tables(
        self,
        recording: Recording,
        container: str,
        rows: int | None,
        apid: Number | None,
        channel: Numbers,
        report: str | os.PathLike[str] | None,
        progress: Progress,
    ) -> Iterator[Fields]:
        """The tables of `blocks`, or without a number of rows one of all.  Warns where packets came and none has a row."""
        fields, application, conditions = self.wanted(container, apid)
        channels = numbers("channel", channel, CHANNELS)
        sieve = Sieve(application, channels, max((it.end for it in fields), default=0), conditions)
        came = kept = 0
        with definition_file(definition_of(fields)) as name:
            table = Table(name, application, channels, report=report, sieve=sieve if conditions else None)
            for found in read_tables(table, recording.source, recording.settings, rows, progress):
                chosen = table_of(found, fields, conditions)
                came, kept = came + found.rows, kept + chosen.rows
                yield chosen
        if conditions and not kept and (came := came + sieve.seen):
            own, unclear = chosen.short_count, chosen.unclear_count
            said = f"no packet of {self.path(container)} among {came} of application {application}"
            said += f", but {own} of it {'is' if own == 1 else 'are'} too short for a row" if own else ""
            said += f", and {unclear} {'is' if unclear == 1 else 'are'} too short to tell" if unclear else ""
            warn(said, recording.source)

    def wanted(self, container: str, apid: Number | None) -> tuple[list[Field], int, list[Condition]]:
        """The same as `asked`, with an application."""
        fields, said, conditions = self.asked(container)
        found = said if apid is None else number("apid", apid, APPLICATIONS)
        if found is None:
            raise XtceError(self.path(container), "its packets have no application: say one by apid")
        if said is not None and found != said:
            raise XtceError(self.path(container), f"its packets have the application {said}, and apid says {found}")
        return fields, found, conditions


@contextmanager
def definition_file(text: str) -> Iterator[str]:
    """A file with a definition, for so long."""
    with NamedTemporaryFile("w", suffix=".csv", encoding="utf-8") as file:
        file.write(text)
        file.flush()
        yield file.name


def table_of(found: Fields, fields: Sequence[Field], conditions: Sequence[Condition]) -> Fields:
    """The decoded rows that keep the conditions."""
    decoders = {it.name: it.decoder for it in fields if it.decoder is not None}
    found = decoded(found, decoders, {it.name: it.raw for it in fields})
    found.parameters = {column: it.parameter + it.part for it in fields for column in (it.name, it.raw)}
    if conditions:
        kept = [all(row) for row in zip(*(it.kept(found) for it in conditions))]
        found = rows_where(found, kept)
    times = [it.name for it in fields if isinstance(it.decoder, Timed)]
    if len(times) == 1:
        found.time = found[times[0]]
    return found


def columns_of(path: str, found: Layout) -> list[Field]:
    """The fields of a layout with the names of their columns.  Raises XtceError where no definition can have them."""
    if len(found.placed) > MOST:
        raise XtceError(path, f"it has {len(found.placed)} fields, and a definition at most {MOST}")
    places = Counter((it.path, it.suffix) for it in found.placed)
    if twice := next((it for it, count in places.items() if count > 1), None):
        raise XtceError(path, f"the parameter {''.join(twice)} stands in it twice")
    parameters: dict[str, set[str]] = {}
    for it in found.placed:
        parameters.setdefault(short(it), set()).add(it.path)
    taken = {name for name, _ in LEAD}
    names = [free((short(it) if len(parameters[short(it)]) == 1 else it.path) + it.suffix, taken) for it in found.placed]
    raws = [name if it.kind.decoder is None else free(name + RAW, taken) for it, name in zip(found.placed, names)]
    fields = [field_at(*it) for it in zip(found.placed, names, raws)]
    if (octets := len(definition_of(fields).encode())) > LONGEST_DEFINITION:
        raise XtceError(path, f"its definition has {octets} octets, and may have {LONGEST_DEFINITION}: its names are too long")
    return fields


def short(placed: Placed) -> str:
    """A parameter's name without its path."""
    return placed.path.rpartition("/")[2]


def free(name: str, taken: set[str]) -> str:
    """The name of a column, without the spaces that a definition takes off its ends, which no other column has."""
    found = SPACE.sub(" ", name).strip(" ")
    while not found or found in taken:
        found += "_"
    taken.add(found)
    return found


def field_at(placed: Placed, name: str, raw: str) -> Field:
    kind = placed.kind
    return Field(name, placed.path, kind.data_type, kind.bits, placed.offset, kind.decoder, raw, placed.suffix)


def definition_of(fields: Sequence[Field]) -> str:
    """The definition of fields, as a CSV."""
    text = io.StringIO()
    rows = csv.writer(text, lineterminator="\n")
    rows.writerow(HEADING)
    rows.writerows((it.name, it.type, it.bits, it.offset) for it in fields)
    return text.getvalue()
