"""What came of a pass, as a page: one HTML file, without scripts and without anything from outside.

The texts say what each number means.  All that comes from files or words is escaped.
"""

import os
import shlex
from collections import Counter
from collections.abc import Iterable, Iterator, Sequence
from urllib.parse import quote

from .damage import Span
from .doubts import IDLE, TWICE
from .loss_map import counted, figure, spelled
from .report import DOUBTFUL, ChannelPart, Findings

NONE, STREAM = "–", "standard input"
COLOURS = {"good": "#005f99", "amiss": "#c84400"}  # of a word that says yes or no
POLICY = "default-src 'none'; style-src 'unsafe-inline'"  # a browser fetches and runs nothing
STYLE = """
@page { size: A4; margin: 12mm }
body { margin: 0 auto; max-width: 1060px; padding: 12px; color: #222; background: #fff;
  font: 14px/1.45 "DejaVu Sans", Verdana, Arial, sans-serif }
h1 { margin: 0; font-size: 22px } h2 { margin: 26px 0 6px; font-size: 16px; break-after: avoid }
h1, p, code, .plain td { overflow-wrap: anywhere }
p { margin: 6px 0; max-width: 820px }
table { border-collapse: collapse; margin: 6px 0 }
th, td { border: 1px solid #bbb; padding: 3px 7px; text-align: left; vertical-align: top; font-size: 13px }
th { background: #f0f0f0 } tr { break-inside: avoid }
.figure { text-align: right } .figure, time { white-space: nowrap }
code { font: 12px "DejaVu Sans Mono", monospace }
.across { overflow-x: auto } .across svg { width: 100%; min-width: 700px; height: auto }
@media print {
  body { max-width: none; padding: 0; font-size: 9pt } th, td { font-size: 6.5pt; padding: 1pt 2pt } code { font-size: 7pt }
  .across { overflow: visible; padding-right: 2px } .across svg { min-width: 0 }
}
"""
STYLE += "".join(f".{kind} {{ color: {colour}; font-weight: bold }}\n" for kind, colour in COLOURS.items())

FRAMES = """Expected are the good frames of all channels, and those that the master channel's counts miss. A missing frame
was damaged if its record came and is bad, else it was never received. The rule: of n frames that are missing between two
good ones with k bad records between them, the smaller of n and k were damaged. Counts run modulo 256, so a loss of 256
frames doesn't show, nor does a multiple. If only some of the channels were recorded, the others' frames count as never
received: look at the channels then."""
UNPLACED = """Bad records without room in a gap are no missing frames by these counts. They came before the first good
frame or behind the last, are frames of another sender or none, or 256 frames more are missing."""
CHANNELS = """Expected are a channel's good frames, and those that its own counts miss, modulo 256. No bad record says of
which channel it was. So its damaged frames are one number only where the counts tell it, else the least and the most that
they may be. At most, they are the bad records in its gaps. At least, they are those of them that can be no other channel's,
and what is missing beyond all frames that were never received meanwhile. A bad record can be a channel's if it lies in its
gap, before its first good frame or behind its last. Idle frames have idle data alone, VCA frames a VCA_SDU."""
OCTETS = """Data are the octets in the data fields of good frames, those of idle frames and of frames with a VCA_SDU left
out. Each of them is in a whole packet, or lost by one of the reasons: data = in packets + lost. The octets of missing
frames are in none of these numbers."""
APPLICATIONS = """Expected are the packets that came whole, and those that the sequence counts miss, modulo 16,384. Those of
idle packets, application 2047, say nothing. A record is the one that completes the packet. Groups are data in several
packets: whole ones, broken ones, and strays, packets that are in none."""
SHARED = """An application that comes on several channels is counted on each of them alone. If its counts run over all of
them, packets of the others seem to be missing."""
OUTAGES = """A gap of a channel's counts, from its last good frame before to its first one behind, those with most missing
frames first. A longer gap shows its frames modulo 256. Lost octets are those of packets that the gap has cut, before and
behind it."""
REASONS = {
    "pointer": "a packet that doesn't end where the next frame says",
    "gap": "a packet that missing frames have cut",
    "vca": "a packet that a VCA frame has cut",
    "end": "a packet that the recording's end has cut",
    "no-start": "octets before the next start of a packet",
    "version": "what stands behind a start of no packet of version 0",
    "length": "a packet longer than max_packet",
}
ABSENT = {"channels": "all", "max_packet": "65542"}  # settings that aren't given
VERSIONS = {"logic": "sum of the logic that proved tmx", "package": "package for Python", "python": "Python"}
NO_CHANNEL = "No chosen channel has a good frame."
LINES = """What is bad or lost, and each whole group, record by record, in the program's words, which docs/FORMATS.md of tmx
explains."""


class Markup(str):
    """A text that is HTML already."""


class Name(int):
    """A number that names a channel, an application, a record or a count.  It has no commas, as in the program's lines."""


Number = int | float | Span


def element(name: str, words: str, attributes: str = "") -> Markup:
    """An element.  A text in it is escaped."""
    return Markup(f"<{name}{attributes}>{words if isinstance(words, Markup) else spelled(words)}</{name}>")


def joined(parts: Iterable[str], between: str = "\n") -> Markup:
    return Markup(between.join(parts))


Cell = str | Number | bool | None


def cell(value: Cell) -> Markup:
    if isinstance(value, bool):
        return element("td", verdict("yes" if value else "NO", value))
    if isinstance(value, str):
        return element("td", value)
    return element("td", NONE if value is None else written(value), ' class="figure"')


def written(value: Number) -> str:
    """A number as it stands in a table."""
    if isinstance(value, Span):
        return figure(value.least) if value.least == value.most else f"{figure(value.least)} to {figure(value.most)}"
    if isinstance(value, float):
        return f"{value:.2f}%"
    return str(int(value)) if isinstance(value, Name) else figure(value)


def stamp(time: str | None) -> Cell:
    return None if time is None else element("time", time)


def verdict(words: str, is_good: bool) -> Markup:
    return element("strong", words, f' class="{"good" if is_good else "amiss"}"')


def table(head: Sequence[str], rows: Iterable[Sequence[Cell]]) -> Markup:
    """A table that scrolls where the window is too narrow."""
    top = element("thead", element("tr", joined((element("th", it, ' scope="col"') for it in head), "")))
    body = element("tbody", joined(element("tr", joined(map(cell, row), "")) for row in rows))
    return element("div", element("table", joined([top, body])), ' class="across"')


def pairs(rows: Iterable[tuple[str, str]]) -> Markup:
    """A table of names and values."""
    body = (element("tr", joined([element("th", name, ' scope="row"'), element("td", value)], "")) for name, value in rows)
    return element("table", element("tbody", joined(body)), ' class="plain"')


def section(head: str, *parts: str) -> Markup:
    """A heading and what stands below it: elements, or texts of paragraphs."""
    found = [it if isinstance(it, Markup) else element("p", it) for it in parts if it]
    return joined([element("h2", head), *found])


# The parts of the page.


def beginning(found: Findings) -> Iterator[Markup]:
    yield element("h1", found.title)
    given = [(name, it) for name, it in (("Station", found.station), ("Pass", found.pass_)) if it is not None]
    times, recording = found.times, found.recording
    if times is not None:
        given += [("First record", times.first or NONE), ("Last record", times.last or NONE), ("Times", times.said)]
    rows = [*given, ("Recording", recording.name or STREAM), ("SHA-256", recording.sha256)]
    rows += [("Octets", figure(recording.octets)), ("Records", figure(recording.counts.records))]
    if recording.counts.rest:
        rows.append(("Octets behind them", figure(recording.counts.rest)))
    yield element("p", joined(in_short(found), " "))
    yield pairs(rows)
    yield element("p", "Records are counted from 0. Percentages are rounded down.")


def in_short(found: Findings) -> Iterator[str]:
    """What came of the pass, in some sentences."""
    frames, octets, counts = found.frames, found.octets, found.recording.counts
    if not counts.good:
        why = ", ".join(f"{figure(number)} by {word}" for word, number in found.recording.faults.items())
        yield verdict(f"No frame is good, of {counted(counts.records, 'record')}{f': {why}' if why else ''}.", False)
        return
    share = f"{figure(octets.octets)} of {figure(octets.data)}"
    data = f"the data of good frames{' of the chosen channels' if found.settings['channels'] else ''}"
    if frames.percent is None or frames.expected is None:
        yield f"{counted(counts.good, 'frame')} {'is' if counts.good == 1 else 'are'} good. {no_percentage(found)}"
        yield f"Of {data} {share} octets are in whole packets."
    else:
        yield f"{frames.percent:.2f}% of the frames are good: {figure(counts.good)} of {figure(frames.expected)}."
        parts = f"{figure(frames.damaged)} damaged, {figure(frames.never_received)} never received"
        yield f"{figure(frames.master.missing)} missing: {parts}." if frames.master.missing else "The counts miss none."
    if octets.percent is not None:
        yield f"{octets.percent:.2f}% of {data} is in whole packets: {share} octets."
    yield verdict(f"They {'add' if octets.adds_up else 'do NOT add'} up: data = in packets + lost.", octets.adds_up)


def no_percentage(found: Findings) -> str:
    """Why there is no percentage; nothing where there is one."""
    why = "; ".join(found.frames.doubts)
    return f"The counts don't tell how many frames are missing, so there is no percentage: {why}." if why else ""


def frames_section(found: Findings) -> Markup:
    frames, counts = found.frames, found.recording.counts
    rows: list[tuple[str, int | None, float | None]] = [
        ("Good", counts.good, frames.percent),
        ("Damaged", frames.damaged, None),
        ("Never received", frames.never_received, None),
        ("Expected, the sum of these", frames.expected, None),
        ("Bad records", counts.bad, None),
        *((f"Bad records: {word}", number, None) for word, number in found.recording.faults.items()),
        ("Bad records without room in a gap", frames.unplaced, None),
        ("Gaps of the master channel", frames.master.gaps, None),
    ]
    notes = [no_percentage(found), UNPLACED if frames.unplaced else "", twice_text("the master channel", frames.twice)]
    return section("Frames", table(("Frames", "Number", "Of expected"), rows), FRAMES, *notes)


def twice_text(of: str, gaps: int) -> str:
    return f"In {counted(gaps, 'gap')} of {of} 255 frames are missing: perhaps a frame was recorded twice." if gaps else ""


def channels_section(found: Findings) -> Markup:
    head = ("Channel", "Good", "Expected", "Of expected", "Missing", "Damaged", "Never received", "Gaps", "Idle", "VCA")
    rows: list[list[Cell]] = []
    for it in found.channels:
        rows.append([Name(it.counts.channel), it.counts.frames, it.expected, it.percent, it.counts.missing])
        rows[-1] += [it.damaged, it.never_received, it.counts.gaps, it.counts.idle, it.counts.vca]
    if not rows:
        return section("Channels: frames", NO_CHANNEL)
    notes = [twice_text(f"channel {it.counts.channel}", it.twice) or wrapped_text(it) for it in found.channels]
    return section("Channels: frames", table(head, rows), CHANNELS, *notes)


def wrapped_text(channel: ChannelPart) -> str:
    """Why a channel has no percentage, where the packets that its applications miss say so."""
    why = "the packets that its sequence counts miss have more octets than its missing frames and lost parts"
    return f"Channel {channel.counts.channel} has no percentage: {why}." if channel.is_wrapped else ""


def octets_section(found: Findings) -> Markup:
    head = ("Channel", "Data", "In packets", "Of data", "Lost", "Packets", "Parts lost", "Octets lost, by reason", "Adds up")
    rows: list[list[Cell]] = []
    for it in found.channels:
        reasons = ", ".join(f"{figure(number)} {reason}" for reason, number in it.reasons.items()) or NONE
        rows.append([Name(it.counts.channel), it.octets.data, it.octets.octets, it.octets.percent, it.octets.lost])
        rows[-1] += [it.counts.packets, it.counts.dropped, reasons, it.octets.adds_up]
    if not rows:
        return section("Channels: octets", NO_CHANNEL)
    whole, counts = found.octets, [it.counts for it in found.channels]
    rows.append(["All", whole.data, whole.octets, whole.percent, whole.lost])
    rows[-1] += [sum(it.packets for it in counts), sum(it.dropped for it in counts), NONE, whole.adds_up]
    why = [f"{reason}, {words}" for reason, words in REASONS.items() if any(reason in it.reasons for it in found.channels)]
    return section("Channels: octets", table(head, rows), OCTETS, f"Reasons: {'; '.join(why)}." if why else "")


def applications_section(found: Findings) -> Markup:
    head = ["Channel", "Application", "Received", "Expected", "Of expected", "Missing", "Gaps", "Octets"]
    head += ["First count", "First record", "Last count", "Last record", "Groups", "Broken", "Strays"]
    rows: list[list[Cell]] = []
    notes = []
    for it in found.applications:
        counts = it.counts
        rows.append([Name(counts.channel), Name(counts.apid), counts.packets, it.expected, it.percent, counts.missing, counts.gaps])
        rows[-1] += [counts.octets, Name(it.first_count), Name(counts.first), Name(it.last_count), Name(counts.last)]
        rows[-1] += [counts.groups, counts.broken, counts.strays]
        if it.doubtful:
            gaps = f"In {counted(it.doubtful, 'gap')} of application {counts.apid} on channel {counts.channel}"
            notes.append(f"{gaps} {figure(DOUBTFUL)} packets or more are missing: perhaps packets came twice, or not in order.")
    gapped = Counter(it.counts.apid for it in found.applications if it.counts.missing and it.counts.apid != IDLE)
    notes += [SHARED] if max(gapped.values(), default=0) > 1 else []
    if not rows:
        return section("Applications", "No packet came whole.")
    return section("Applications", table(head, rows), APPLICATIONS, *notes)


def map_section(picture: str) -> Markup:
    said = "The tables have its sums. A browser shows the numbers of a place on hover."
    return section("Where it was lost", element("div", Markup(picture), ' class="across"'), said)


def outages_section(found: Findings) -> Markup:
    head = ["Channel", "Good record before", "Good record behind", "Frames missing", "Damaged", "Never received", "Octets lost"]
    rows: list[list[Cell]] = []
    for it in found.outages:
        rows.append([*map(Name, (it.channel, it.before, it.record)), it.missing, it.damaged, it.never_received, it.octets])
        rows[-1] += [stamp(it.begin), stamp(it.end)] if found.times else []
    if not rows:
        return section("The longest outages", "No channel has a gap.")
    head += ["From (UTC)", "To (UTC)"] if found.times else []
    said = f"{figure(len(rows))} of {counted(sum(it.counts.gaps for it in found.channels), 'gap')}."
    twice = twice_text("these", sum(it.missing == TWICE for it in found.outages))
    return section("The longest outages", table(head, rows), f"{said} {OUTAGES}", twice)


def lines_section(found: Findings) -> Markup:
    report, times = found.report, found.times is not None
    rows = [[*([stamp(time)] if times else []), element("code", line)] for time, line in report.first]
    if not rows:
        return section("The report", "It has no line: no record is bad, no octet was dropped, and no count has a gap.")
    said = spelled(f"{LINES} Here are {figure(len(rows))} of {counted(report.lines, 'line')}.")
    words = element("p", joined([said, whole_report(found)], " "))
    return section("The report", words, table([*(["UTC"] if times else []), "Line"], rows))


def whole_report(found: Findings) -> str:
    """Where all lines are, or what makes them."""
    if found.report.file is not None:
        name = found.report.file
        return joined(["All are in", element("a", name, f' href="{quote(os.fsencode(name))}"')], " ") + "."
    words = ["tmx", "extract", "--settings", str(found.settings["file"]), "--report", "report.txt"]
    recording = "< RECORDING" if found.recording.name is None else shlex.join(["--", found.recording.name])
    return joined(["This writes all to report.txt:", element("code", f"{shlex.join(words)} {recording} > /dev/null")], " ")


def settings_section(found: Findings) -> Markup:
    rows = [(key, ABSENT[key] if value is None else setting(value)) for key, value in found.settings.items()]
    versions = [(VERSIONS.get(key, key), it) for key, it in found.versions.items()]
    return section("Settings and versions", pairs([*rows, *versions]))


def setting(value: object) -> str:
    """A value of the settings."""
    if isinstance(value, bool):
        return "true" if value else "false"
    return ", ".join(map(str, value)) if isinstance(value, (tuple, list)) else str(value)


def parted(svg: str) -> tuple[str, str]:
    """A picture without its style, and the style, since an e-mail had better have one alone."""
    before, _, rest = svg.partition("<style>")
    style, _, behind = rest.partition("</style>")
    return before + behind, style


def page(found: Findings, svg: str) -> str:
    """The page, with the map of losses, an SVG."""
    picture, style = parted(svg)
    parts = (frames_section, channels_section, octets_section, applications_section)
    body = [*beginning(found), *(it(found) for it in parts), map_section(picture)]
    body += [outages_section(found), lines_section(found), settings_section(found)]
    head = [
        '<meta charset="utf-8">',
        f'<meta http-equiv="Content-Security-Policy" content="{POLICY}">',
        '<meta name="viewport" content="width=device-width, initial-scale=1">',
        element("title", found.title),
        element("style", Markup(STYLE + style)),
    ]
    whole = element("html", joined([element("head", joined(head)), element("body", joined(body))]), ' lang="en"')
    return f"<!DOCTYPE html>\n{whole}\n"
