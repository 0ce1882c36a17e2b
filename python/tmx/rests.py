"""What follows the fields of a packet: octets of any number, as a column beside them."""

import os
from collections.abc import Iterator
from dataclasses import dataclass, field
from itertools import islice
from typing import TYPE_CHECKING

from .arrays import objects
from .definition import Column, Name, last_bit
from .errors import ColumnError, DisagreementError
from .packets import Chosen, all_packets
from .runs import Command, Runs

if TYPE_CHECKING:
    from .fields import Fields

LISTED = 1  # the number of the run that gives packets
Rest = tuple[int, int, int, bytes]  # a packet's record, channel and sequence count, and what follows its fields


@dataclass
class Rests:
    """The rests of an application's packets, in the order of the rows.

    name     the name of their column
    chosen   the packets that have rows
    command  what gives the packets beside the rows
    """

    name: str
    chosen: Chosen
    command: Command = Command(["packets", "--binary", "--report", os.devnull])
    found: Iterator[Rest] = field(default_factory=lambda: iter(()))

    def read(self, runs: Runs, definition: Name) -> None:
        """Takes them from the second run.  The program has to have taken the definition."""
        bits = last_bit(definition)
        begin = -(-bits // 8)
        self.found = (
            (it.record, it.channel, it.count, it.octets[begin:])
            for it in all_packets(runs, LISTED)
            if self.chosen.has(it.apid, it.channel) and 8 * len(it.octets) >= bits
        )

    def add_to(self, fields: "Fields") -> "Fields":
        """The table with the rests of its rows.

        Raises ColumnError where it has a column of their name, and DisagreementError where the packets are others.
        """
        if self.name in fields:
            raise ColumnError(f"the table has a column {self.name!r} already: name the rest otherwise")
        rests = list(islice(self.found, fields.rows))
        numbers = (fields[it] for it in ("tm_record", "tm_channel", "tm_count"))
        rows = list(zip(*(it.tolist() if hasattr(it, "tolist") else it for it in numbers)))
        if [it[:3] for it in rests] != rows:
            raise DisagreementError("the packets that the program gives aren't those of its rows: did the recording change?")
        columns = [*fields.columns, Column(self.name, "rest", 0)]
        return fields.with_columns(columns, [*fields.values(), objects([it[3] for it in rests])])

    def finish(self) -> None:
        """Raises DisagreementError where packets are left."""
        if next(self.found, None) is not None:
            raise DisagreementError("the program gives more packets than rows: did the recording change?")

