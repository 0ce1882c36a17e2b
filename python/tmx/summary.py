"""What came of a recording and what was lost, in numbers."""

from collections.abc import Iterator, Sequence
from dataclasses import dataclass, fields
from html import escape

from .errors import VersionError
from .lines import (
    ApplicationCounts,
    ChannelCounts,
    FaultCounts,
    Line,
    LossCounts,
    MasterCounts,
    RecordingCounts,
)
from .tables import html_table, text_table


@dataclass(frozen=True)
class Summary:
    """The lines of `tmx summary`.

    recording     whole records, good and bad ones, and the octets that are left
    faults        how many records have each fault, by its word
    master        gaps of the master channel, and frames that are missing there
    channels      what came of each channel that had a good frame, by its number
    losses        dropped parts and octets, by channel and reason
    applications  what came of each application, by channel and application

    `str` of it is a table, and `lines()` are the lines.
    """

    recording: RecordingCounts
    faults: dict[str, int]
    master: MasterCounts
    channels: dict[int, ChannelCounts]
    losses: dict[tuple[int, str], LossCounts]
    applications: dict[tuple[int, int], ApplicationCounts]

    def lines(self) -> Iterator[Line]:
        """The lines, in the program's order."""
        yield self.recording
        yield from (FaultCounts(word, records) for word, records in self.faults.items())
        yield self.master
        for channel, counts in self.channels.items():
            yield counts
            yield from (it for it in self.losses.values() if it.channel == channel)
        yield from self.applications.values()

    def __str__(self) -> str:
        parts = [self.heading()]
        parts += [text_table(*table_of(it)) for it in self.tables() if it]
        return "\n\n".join(parts)

    def _repr_html_(self) -> str:
        parts = [f"<p>{escape(self.heading())}</p>"]
        parts += [html_table(*table_of(it)) for it in self.tables() if it]
        return "".join(parts)

    def heading(self) -> str:
        """What is said of the whole recording."""
        said, faults = self.recording, self.faults_text()
        rest = f", {said.rest} octets left over" if said.rest else ""
        bad = f"{said.bad} bad" + (f" ({faults})" if faults else "")
        return (
            f"{said.records} records: {said.good} good, {bad}{rest}."
            f" Master channel: {self.master.gaps} gaps, {self.master.missing} frames missing."
        )

    def faults_text(self) -> str:
        return ", ".join(f"{number} by {word}" for word, number in self.faults.items())

    def reason_for_nothing(self) -> str:
        """What is said of a recording without a good frame."""
        said = self.recording
        if not said.records:
            return no_record(said.rest)
        return f"no good frame in {said.records} records: {self.faults_text()}"

    def tables(self) -> list[Sequence[Line]]:
        return [list(self.channels.values()), list(self.losses.values()), list(self.applications.values())]


def no_record(octets: int) -> str:
    """What is said of a recording that has fewer octets than a record."""
    return f"no whole record: the recording has {octets} octets"


def table_of(lines: Sequence[Line]) -> tuple[list[str], list[list[object]]]:
    """The head and the rows of a table of lines of one kind."""
    names = [it.name for it in fields(lines[0])]
    rows = [["-" if (value := getattr(line, it)) is None else value for it in names] for line in lines]
    return names, rows


def summary_of(lines: Sequence[Line]) -> Summary:
    """The summary that these lines are."""
    recordings = [it for it in lines if isinstance(it, RecordingCounts)]
    masters = [it for it in lines if isinstance(it, MasterCounts)]
    if len(recordings) != 1 or len(masters) != 1:
        raise VersionError("the program's summary has not one line `recording` and one line `master`")
    return Summary(
        recordings[0],
        {it.fault: it.records for it in lines if isinstance(it, FaultCounts)},
        masters[0],
        {it.channel: it for it in lines if isinstance(it, ChannelCounts)},
        {(it.channel, it.reason): it for it in lines if isinstance(it, LossCounts)},
        {(it.channel, it.apid): it for it in lines if isinstance(it, ApplicationCounts)},
    )
