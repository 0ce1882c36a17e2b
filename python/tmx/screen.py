"""How a pass is shown: as a table that is drawn over and over at a terminal, as lines with a time elsewhere."""

import os
import shutil
import time
from abc import ABC, abstractmethod
from collections.abc import Callable, Sequence
from errno import EIO, EPIPE
from typing import Self

from .tables import text_table
from .totals import Rate, Totals
from .watching import Pass, clock

Put = Callable[[bytes], None]

LOCK = 2.0  # seconds for which a good frame counts

HIDE, SHOW = b"\x1b[?25l", b"\x1b[?25h"  # the cursor
CLEAR, HOME, END_OF_LINE, END = b"\x1b[2J", b"\x1b[H", b"\x1b[K", b"\x1b[J"


class Output(ABC):
    """Where a pass is shown.  It isn't open any more when nobody takes it, as behind a closed pipe, or it failed by `error`."""

    def __init__(self, put: Put) -> None:
        self.write = put
        self.is_open = True
        self.error: OSError | None = None

    def put(self, octets: bytes) -> None:
        """Writes.  A fault doesn't end the pass at once, so that its files are whole."""
        try:
            self.write(octets)
        except OSError as error:
            self.is_open = False
            self.error = None if error.errno in (EPIPE, EIO) else error

    def __enter__(self) -> Self:
        return self

    def __exit__(self, *_: object) -> None:
        pass

    @abstractmethod
    def show(self, watched: Pass) -> None: ...


class Screen(Output):
    """A terminal.  Each drawing takes the place of the last one, in one write, so that nothing flickers."""

    def __enter__(self) -> Self:
        self.put(HIDE + CLEAR)
        return self

    def __exit__(self, *_: object) -> None:
        self.put(b"\n" + SHOW)

    def show(self, watched: Pass) -> None:
        columns, rows = shutil.get_terminal_size()
        lines = [it[: columns - 1].encode(errors="replace") for it in table(watched, rows, time.monotonic())]
        self.put(HOME + (END_OF_LINE + b"\n").join(lines) + END_OF_LINE + END)


class Log(Output):
    """A file or a pipe.  It gets a line for each look, and the last lines of the report that came since."""

    def __init__(self, put: Put) -> None:
        super().__init__(put)
        self.lines = 0  # of the report that came before

    def show(self, watched: Pass) -> None:
        new = watched.totals.lines - self.lines
        self.lines = watched.totals.lines
        reported = list(watched.totals.reported)[-new:] if new else []
        lines = [f"{at} {line}" for at, line in reported] + [plain_line(watched, time.monotonic())]
        self.put("".join(f"{it}\n" for it in lines).encode())


def is_terminal() -> bool:
    """Whether standard output is a terminal that can be drawn on."""
    return os.isatty(1) and os.environ.get("TERM") != "dumb"


def plain_line(watched: Pass, now: float) -> str:
    """What came until now, in a line."""
    totals, recent = watched.totals, watched.rates.recent()
    faults = "".join(f" {word}={number}" for word, number in totals.faults.items())
    missing, dropped = (sum(getattr(it, name) for it in totals.channels.values()) for name in ("missing", "dropped"))
    packets = sum(it.packets for it in totals.applications.values())
    return (
        f"{clock()} {lock(totals, now)} records={totals.records} good={totals.good} bad={totals.bad}{faults}"
        f" frames/s={recent.frames:.0f} bits/s={recent.bits:.0f} missing={missing} dropped={dropped} packets={packets}"
    )


def lock(totals: Totals, now: float) -> str:
    """`LOCK`, or how many seconds ago the last good frame came."""
    if totals.last_good is None:
        return "-"
    seconds = now - totals.last_good
    return "LOCK" if seconds < LOCK else f"{seconds:.0f}s"


def table(watched: Pass, rows: int, now: float) -> list[str]:
    """The lines of a drawing that has so many rows at most.  Applications take what room the rest leaves."""
    reported = [f"{at}  {line}" for at, line in watched.totals.reported]
    head = [*heading(watched, now), "", *channel_lines(watched.totals)]
    tail = ["", *reported] if reported else []
    room = rows - len(head) - len(tail) - 1
    applications = application_lines(watched.totals, room, now)
    return [*head, *([""] if applications else []), *applications, *tail][:rows]


def heading(watched: Pass, now: float) -> list[str]:
    totals = watched.totals
    faults = ", ".join(f"{number} by {word}" for word, number in totals.faults.items())
    bad = f"{totals.bad} bad" + (f" ({faults})" if faults else "")
    master = f"master channel: {totals.missing} frames missing"
    name = "standard input" if watched.coming.name == "-" else watched.coming.name
    return [
        f"{clock()}  {name}",
        f"{state(watched, now)}  {totals.records} records: {totals.good} good, {bad}; {master}",
        f"last 10 s: {spelled(watched.rates.recent())}; in all: {spelled(watched.rates.whole())}",
    ]


def state(watched: Pass, now: float) -> str:
    if watched.coming.descriptor is None:
        return "isn't there yet"
    said = lock(watched.totals, now)
    return {"LOCK": "LOCK", "-": "no good frame yet"}.get(said, f"last good frame {said} ago")


def spelled(rate: Rate) -> str:
    return f"{rate.frames:.0f} frames/s, {rate.bits / 1e6:.2f} Mbit/s"


def channel_lines(totals: Totals) -> list[str]:
    rows = [[number, it.frames, it.missing, it.dropped] for number, it in sorted(totals.channels.items())]
    return text_table(["channel", "frames", "missing", "dropped"], rows).splitlines() if rows else []


def application_lines(totals: Totals, room: int, now: float) -> list[str]:
    """As many applications as there is room for, and how many more there are."""
    found = sorted(totals.applications.items())
    shown = len(found) if len(found) < room else max(0, room - 2)
    rows: Sequence[Sequence[object]] = [
        [channel, apid, it.packets, it.count, f"{now - it.came:.0f}s"] for (channel, apid), it in found[:shown]
    ]
    lines = text_table(["channel", "apid", "packets", "count", "since"], rows).splitlines() if rows else []
    return lines if shown == len(found) else [*lines, f"and {len(found) - shown} more"]
