"""Groups: data that was sent in several packets, put together again.

Which groups are whole the program's report says.  Here their octets are joined.
"""

import os
from collections.abc import Iterator
from dataclasses import dataclass, field

from .arguments import Number, Numbers, number
from .definition import Name
from .errors import DisagreementError
from .lines import Broken, Group, Line, Packet, Stray, read_lines
from .notes import numbered, warn, warn_of_nothing
from .packets import Chosen, all_packets, chosen
from .progress import Progress
from .runs import Command, Runs, running, single_lines
from .settings import Settings
from .source import Source

LISTED, REPORTED = 0, 1  # the numbers of the two runs
HEADER = 6  # octets of a packet's primary header
IDLE = 2047  # the application of idle packets, which are in no group
NOTES: tuple[type[Line], ...] = (Group, Broken, Stray)
WORDS = tuple(f"{it.word} " for it in NOTES)  # how their lines begin

Note = Group | Broken | Stray


@dataclass(frozen=True, slots=True)
class JoinedGroup:
    """The user data of a whole group of segments.

    record   the record that completes its last packet, from 0
    channel  the virtual channel, 0 to 7
    apid     the application, 0 to 2046
    first    the sequence count of its first packet
    last     the sequence count of its last packet
    octets   the packets' data, joined in their order without their headers of six octets
    """

    record: int
    channel: int
    apid: int
    first: int
    last: int
    octets: bytes = field(repr=False)


Segments = list[tuple[int, bytes]]  # the sequence count and the data of each


@dataclass
class OpenGroups:
    """The segments of groups that may become whole, by channel and application.

    chosen            those that are wanted
    secondary_header  how many octets are taken off a packet that has a secondary header
    came              whether any segment came
    """

    chosen: Chosen
    secondary_header: int
    segments: dict[tuple[int, int], Segments] = field(default_factory=dict)
    came: bool = False

    def take(self, packet: Packet) -> None:
        """Holds a packet of a chosen application, where it may be one of a group that becomes whole."""
        key, flags, count = (packet.channel, packet.apid), packet.flags, packet.count
        data = packet.octets[HEADER + (self.secondary_header if packet.secondary else 0) :]
        self.came = self.came or flags != "unsegmented"
        if flags == "first":
            self.segments[key] = [(count, data)]
            return
        held = self.segments.get(key)
        if held is not None and flags != "unsegmented" and (held[-1][0] + 1) % 16384 == count:
            held.append((count, data))
        else:
            self.segments.pop(key, None)

    def join(self, note: Group) -> JoinedGroup:
        """What the report calls whole.  Raises DisagreementError where the packets that came are others."""
        held = self.segments.pop((note.channel, note.apid), None)
        if held is None or held[0][0] != note.first:  # `until` looks at the last
            raise DisagreementError(f"the packets that came don't make the group of the report: {note}")
        octets = b"".join(data for _, data in held)
        return JoinedGroup(note.record, note.channel, note.apid, note.first, note.last, octets)


def groups(
    source: Source, settings: Name | Settings, apid: Numbers, channel: Numbers, header: Number, progress: Progress
) -> Iterator[JoinedGroup | Broken | Stray]:
    """The groups of a recording.  Refuses wrong arguments at once."""
    wanted = OpenGroups(chosen(apid, channel), number("secondary_header", header, range(65537)))
    return read_groups(source, settings, wanted, progress)


def read_groups(
    source: Source, settings: Name | Settings, wanted: OpenGroups, progress: Progress
) -> Iterator[JoinedGroup | Broken | Stray]:
    listed = Command(["packets", "--binary", "--report", os.devnull])
    reported = Command(["extract"], reads="report")
    with running(source, settings, listed, reported, progress=progress) as runs:
        yield from joined(runs, wanted)
        runs.finish()
    if not warn_of_nothing(runs, settings) and not wanted.came:
        named = ("application", wanted.chosen.apids), ("channel", wanted.chosen.channels)
        said = [numbered(word, them) for word, them in named if them]
        warn(f"no segment of a group{' of ' if said else ''}{' on '.join(said)}", runs.source)


def joined(runs: Runs, wanted: OpenGroups) -> Iterator[JoinedGroup | Broken | Stray]:
    """What the notes of the report say, in their order.  At each last segment its note is waited for."""
    lines = (it for it in single_lines(runs, REPORTED) if it.startswith(WORDS))
    notes: Iterator[Note] = (note for line in lines for note in read_lines(line, NOTES))
    for packet in all_packets(runs, LISTED):
        if packet.apid == IDLE:
            continue
        if wanted.chosen.has(packet.apid, packet.channel):
            wanted.take(packet)
        if packet.flags == "last":
            yield from until(notes, (packet.record, packet.channel, packet.apid, packet.count), wanted)
    for note in notes:
        if isinstance(note, Group):
            raise DisagreementError(f"no packet completes the group of the report: {note}")
        if wanted.chosen.has(note.apid, note.channel):
            yield note


def until(notes: Iterator[Note], place: tuple[int, int, int, int], wanted: OpenGroups) -> Iterator[JoinedGroup | Broken | Stray]:
    """The notes down to that of a last segment: a whole group, or a stray.  Raises DisagreementError where it isn't there."""
    for note in notes:
        count = note.count if isinstance(note, Stray) else note.last
        here = not isinstance(note, Broken) and (note.record, note.channel, note.apid, count) == place
        if isinstance(note, Group) and not here:
            break
        if wanted.chosen.has(note.apid, note.channel):
            yield wanted.join(note) if isinstance(note, Group) else note
        if here:
            return
    raise DisagreementError(f"the report says nothing of the last segment of record, channel, application and count {place}")
