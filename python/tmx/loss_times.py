"""When records came: the times that stand beside losses.

A station may put a time of receipt into octets of each record that the settings pass over.  Else an application's packets may
have a time on board.
"""

import re
from bisect import bisect_left, bisect_right
from collections.abc import Iterable
from dataclasses import dataclass
from datetime import datetime
from typing import Any, Protocol

from .arguments import APPLICATIONS, CHANNELS, number
from .definition import Name
from .errors import Error
from .fields import Fields
from .leap_seconds import NANOSECONDS
from .recording import Recording
from .settings import Settings
from .time_codes import EPOCHS, FORM, MOST_OCTETS, Code, code_of
from .times import clock_of, time_at

RECEIPT = re.compile(f"(0|[1-9][0-9]{{0,3}}):{FORM}", re.IGNORECASE)
ROWS = 10000  # of packets that are held at once


class TimeError(Error):
    """Times can't be read where they are said to be."""


@dataclass(frozen=True)
class Receipt:
    """Where each record has its time of receipt: the place of its first octet, its form, and second 0.  `--receipt` says both.

    Forms are `cds6` to `cds11` and `cuc4.2` by their octets, `cds` and `cuc` with a P-field, `>f8` and `<f8`.
    """

    place: int
    form: str
    epoch: str

    def code(self, octets: bytes) -> Code:
        """How the first record's time stands there.  Raises TimeError where no P-field does."""
        if (found := code_of(self.form, octets)) is None:
            other = {"cds": "cds8", "cuc": "cuc4.2"}[self.form]
            raise TimeError(f"octet {self.place} of the first record is no P-field of {self.form}; a form without one is {other}")
        return found


def receipt_of(said: str, epoch: str | None) -> Receipt:
    """What the words `--receipt` and `--epoch` say.  Raises ValueError."""
    found = RECEIPT.fullmatch(said)
    if found is None:
        raise ValueError(f"--receipt takes OFFSET:FORMAT, as 0:cds8, 4:cuc4.2 or 0:>f8, and not {said!r}")
    form = said.partition(":")[2].lower()
    if epoch is None and form.startswith("cuc"):
        raise ValueError("--receipt of cuc needs --epoch: TAI, GPS, or the UTC of its second 0")
    epoch = epoch or EPOCHS[form[:3]]
    clock_of(epoch)
    return Receipt(int(found[1]), form, epoch)


@dataclass(frozen=True)
class Measured:
    """Which packets have a time on board: an application, of one channel or of all, its definition, the columns and second 0."""

    definition: Name
    apid: int
    channel: int | None
    columns: tuple[str, ...]
    epoch: str


def times_wanted(
    receipt: str | None, columns: str | None, definition: str | None, apid: int | None, channel: int | None, epoch: str | None
) -> Receipt | Measured | None:
    """What the words of a command line ask for.  Raises ValueError where they don't go together."""
    if receipt is not None and (columns, definition, apid, channel) != (None, None, None, None):
        raise ValueError("--receipt goes without --time, --definition, --apid and --channel")
    if receipt is not None:
        return receipt_of(receipt, epoch)
    if columns is not None and definition is not None and apid is not None and epoch is not None:
        clock_of(epoch)
        where = None if channel is None else number("--channel", channel, CHANNELS)
        return Measured(definition, number("--apid", apid, APPLICATIONS), where, tuple(columns.split(",")), epoch)
    if (columns, definition, apid, channel, epoch) != (None, None, None, None, None):
        raise ValueError("--time needs --definition, --apid and --epoch, and these and --channel need --time")
    return None


# Times of records.


class Times(Protocol):
    """Times by records: the last one that is known at a record or before it, and the first one at it or behind it."""

    said: str  # what they are

    def before(self, record: int) -> datetime | None: ...

    def after(self, record: int) -> datetime | None: ...


class NoTimes:
    said = ""

    def before(self, record: int) -> datetime | None:
        return None

    def after(self, record: int) -> datetime | None:
        return None


class ReceiptTimes:
    """The time of receipt that each record has, of those that so many octets have."""

    def __init__(self, path: str, settings: Settings, receipt: Receipt, octets: int) -> None:
        """Raises TimeError where its octets aren't passed over, or are no time in the first record."""
        self.path, self.length, self.place = path, settings.record_length, receipt.place
        self.records = octets // self.length
        self.clock = clock_of(receipt.epoch)
        self.said = f"Times are those of receipt: octet {receipt.place} of each record, {receipt.form} from {receipt.epoch} on."
        if self.records:
            self.code = receipt.code(self.octets_of(0))
            self.check(settings, receipt.form)

    def check(self, settings: Settings, form: str) -> None:
        end, frame_end = self.place + self.code.octets, settings.skip_before + settings.frame_length
        if not (end <= settings.skip_before or frame_end <= self.place and end <= self.length):
            where = f"skip_before = {settings.skip_before}, skip_after = {settings.skip_after}"
            raise TimeError(f"octets {self.place} to {end - 1} of a record aren't passed over by {where}")
        if self.before(0) is None:
            raise TimeError(f"octets {self.place} to {end - 1} of the first record are no time of {form}")

    def octets_of(self, record: int) -> bytes:
        with open(self.path, "rb") as file:
            file.seek(record * self.length + self.place)
            return file.read(MOST_OCTETS)

    def before(self, record: int) -> datetime | None:
        """What is known at the recording's end has no time."""
        passed = self.code.passed(self.octets_of(record), NANOSECONDS) if record < self.records else None
        return None if passed is None else time_at(self.clock.utc(passed) // 1000)

    def after(self, record: int) -> datetime | None:
        return self.before(record)


class MeasuredTimes:
    """The times of an application's packets, each at the record that completes its packet."""

    def __init__(self, recording: Recording, measured: Measured, records: Iterable[int]) -> None:
        """Looks for the times of these records in one run, and holds no others.  Raises what `Recording.fields` does."""
        where = "" if measured.channel is None else f" on channel {measured.channel}"
        self.said = f"Times are those of the packets of application {measured.apid}{where}, from {measured.epoch} on."
        self.wanted = sorted(set(records))
        self.befores: list[datetime | None] = []
        self.afters: list[datetime | None] = []
        last: datetime | None = None
        which, channel = (measured.definition, measured.apid), measured.channel
        for table in recording.fields(*which, channel=channel, time=measured.columns, epoch=measured.epoch, blocks=ROWS):
            last = self.take(table, last)
        self.befores += [last] * (len(self.wanted) - len(self.befores))
        self.afters += [None] * (len(self.wanted) - len(self.afters))

    def take(self, table: Fields, last: datetime | None) -> datetime | None:
        """Takes the times of a block of packets behind others, whose last time is known.  Its own last time."""
        records, times = listed(table["tm_record"]), datetimes(table.time)
        if not records:
            return last
        for record in self.wanted[len(self.befores) :]:
            if record >= records[-1]:
                break
            at = bisect_right(records, record)
            self.befores.append(times[at - 1] if at else last)
        for record in self.wanted[len(self.afters) :]:
            if record > records[-1]:
                break
            self.afters.append(times[bisect_left(records, record)])
        return times[-1]

    def before(self, record: int) -> datetime | None:
        return self.befores[self.wanted.index(record)]

    def after(self, record: int) -> datetime | None:
        return self.afters[self.wanted.index(record)]


def listed(values: Any) -> list[Any]:
    """A column as a list, whatever holds it."""
    return list(values.tolist() if hasattr(values, "tolist") else values)


def datetimes(times: Any) -> list[datetime | None]:
    """The times of a table, whatever holds them."""
    return listed(times.astype("datetime64[us]") if hasattr(times, "astype") else times)


def utc(time: datetime | None) -> str | None:
    """A time as it is written, rounded down to milliseconds."""
    return None if time is None else f"{time.isoformat(timespec='milliseconds')}Z"
