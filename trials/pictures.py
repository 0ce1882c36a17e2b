#!/usr/bin/env python3
"""Tries `python3 -m tmx map` on recordings whose frames and reports reference.py works out.

    pictures.py RECORDS

Draws the example, recordings of eight channels with damage, empty ones, noise, and three of so many records.  The figures
that a picture says on hover are counted again from the lines.  Each mark has to stand at the records that it names, and
each part of a band has to show the worst of them.  The marks of a bad frame light up together, and say in which bands they
stand.  The highest bar of each row bears its number, and bars stand apart from the band below.  Texts must not lie over each
other.  The colour-blind have to tell the colours apart.  Alters lines, and has each such input refused with one line that
names file and line.  Prints a line `ok ..` or `FAILED: ..` for each, behind `plan N` for all.  Works in the current folder.
"""

import os
import random
import re
import subprocess
import sys
import xml.etree.ElementTree as tree
from collections import Counter
from itertools import combinations
from pathlib import Path

import colours
import reference

HERE = Path(__file__).resolve().parent
PACKAGE = HERE.parent / "python"
SVG = "{http://www.w3.org/2000/svg}"
MOST_OCTETS = 3500000  # of a picture
LEAST_DISTANCE = 0.07  # of two colours
LEAST_SPACE = 3  # between a bar and the band below

sys.dont_write_bytecode = True
sys.path.insert(0, str(PACKAGE))
from tmx import loss_map  # noqa: E402


def tell(name, wrong):
    print(f"FAILED: {name}: {wrong}" if wrong else f"ok {name}")


def draw(frames, report):
    Path("frames").write_text(frames, encoding="latin-1")
    Path("report").write_text(report, encoding="latin-1")
    words = [sys.executable, "-m", "tmx", "map", "--title", "A < B & C", "frames", "report"]
    found = os.environ | {"PYTHONPATH": str(PACKAGE), "PYTHONDONTWRITEBYTECODE": "1"}
    return subprocess.run(words, capture_output=True, text=True, check=False, env=found)


# Recordings.


def eight_channels(settings, records, seed):
    """A recording of all channels, with damage of each kind."""
    chance = random.Random(seed)
    senders, found, master = {it: reference.Sender(chance) for it in range(8)}, [], 0
    while len(found) < records:
        name = chance.choices(range(8), range(8, 0, -1))[0]
        frame = reference.likely_frame(chance, settings, senders[name], name, master)
        master += 1
        if chance.random() < 0.98:
            found.append(frame)
    return b"".join(found)


def lines_of(settings, recording):
    """What `tmx frames` prints, and the report."""
    reader, _ = reference.read_recording(settings, recording)
    return "".join(f"{it}\n" for it in reader.frames), "".join(f"{it}\n" for it in reader.report_of(None))


def many_records(records, lines):
    """So many frames of the lines, over and over, with their records and counts set right, and no report."""
    kinds = re.findall(r"kind=\S+ place=\S+ .*", lines)
    count = "frame record={} channel=0 master={} count={} {}\n"
    return "".join(count.format(it, it % 256, it % 256, kinds[it % len(kinds)]) for it in range(records))


class Damaged:
    """Lines of frames of eight channels, and of a report, with damage that is more or less likely."""

    def __init__(self, seed, likely):
        self.chance, self.likely = random.Random(seed), likely
        self.frames, self.report = [], []
        self.counts = {}  # the last of each channel
        self.master = 0  # the next one
        self.last_master = None

    def strikes(self):
        return self.chance.random() < self.likely

    def add(self, record):
        if self.strikes():
            self.frames.append(f"bad record={record} fault={self.chance.choice(reference.FAULTS)}\n")
            self.report.append(self.frames[-1])
            self.master += 1
        else:
            name = self.chance.randrange(8)
            self.add_good(record, name, self.chance.randrange(1, 256) if name in self.counts and self.strikes() else 0)

    def add_good(self, record, name, lost):
        """A frame of a channel, and so many of its frames lost before it."""
        self.counts[name] = (self.counts.get(name, -1) + 1 + lost) % 256
        self.master += lost
        said = f"record={record} channel={name}"
        kind = self.chance.choice(("packets", "packets", "nostart", "idle", "vca"))
        counts = f"master={self.master % 256} count={self.counts[name]}"
        place = "0" if kind == "packets" else "-"
        self.frames.append(
            f"frame {said} {counts} kind={kind} place={place} secondary=0 ocf=no order=0 segment=3 octets=2040\n"
        )
        missing = 0 if self.last_master is None else (self.master - self.last_master - 1) % 256
        if missing:
            self.report.append(f"mastergap record={record} expected=0 found=0 missing={missing}\n")
        if lost:
            self.report.append(f"gap {said} expected=0 found=0 missing={lost}\n")
            self.report += [f"drop {said} from=0 at=0 {it}\n" for it in self.lost_parts()]
        self.last_master, self.master = self.master, self.master + 1

    def lost_parts(self):
        for reason in self.chance.sample(("pointer", "gap", "vca", "no-start", "version", "length"), 3):
            yield f"octets={self.chance.randrange(1, 65542)} reason={reason}"


def damaged_records(records, likely):
    made = Damaged(records, likely)
    for record in range(records):
        made.add(record)
    return "".join(made.frames), "".join(made.report)


# Figures.


def wanted_figures(frames, report):
    """What the lines say: of each channel frames, missing ones, and octets by reason; faults; the master channel's gaps."""
    found, last = Counter(), {}
    for line in frames.splitlines():
        said = dict(re.findall(r"(\w+)=(\S+)", line))
        if line.startswith("frame "):
            name = said["channel"]
            found[name, "idle" if said["kind"] == "idle" else "VCA" if said["kind"] == "vca" else "good"] += 1
            found[name, "missing"] += (int(said["count"]) - last.get(name, int(said["count"]) - 1) - 1) % 256
            last[name] = int(said["count"])
        elif line.startswith("bad "):
            found["bad", said["fault"]] += 1
    for line in report.splitlines():
        said = dict(re.findall(r"(\w+)=(\S+)", line))
        if line.startswith("drop "):
            found[said["channel"], said["reason"]] += int(said["octets"])
        elif line.startswith("mastergap "):
            found["master", "missing"] += int(said["missing"])
    return +found


def found_figures(picture):
    """The same by what the picture says on hover."""
    found = Counter()
    for title in picture.iter(f"{SVG}title"):
        words = title.text.replace(",", "")
        name = re.match(r"Channel (\d)", words)
        if name:
            pattern = r"(\d+) octets? by (\S+)" if "dropped" in words else r"(\d+) (?:with a )?(good|idle|VCA|missing)"
            for number, what in re.findall(pattern, words):
                found[name[1], what] += int(number)
        elif "bad frame" in words:
            for number, fault in re.findall(r"(\d+) by ([\w-]+)", words):
                found["bad", fault] += int(number)
        elif "master channel" in words:
            found["master", "missing"] += int(re.search(r"(\d+) frames? missing", words)[1])
    return +found


# Where marks and texts stand.

WORST_FIRST = ("missing", "bad", "VCA", "good", "idle")


def marks(picture):
    """Each mark that says something on hover: its classes, its left border, its width, and what it says."""
    for mark in (it for it in picture.iter() if it.find(f"{SVG}title") is not None and it is not picture):
        box = mark if mark.tag == f"{SVG}rect" else mark.find(f"{SVG}rect")
        yield box.get("class"), float(box.get("x")), float(box.get("width")), mark.find(f"{SVG}title").text


def misplaced(picture, records):
    """The first mark that doesn't stand at the records that it names, or doesn't show the worst of them."""
    for kind, x, width, words in marks(picture):
        place, said = words.replace(",", "").split(": ", 1)
        ends = [int(it) for it in re.search(r"[Rr]ecords? (\d+)(?: to (\d+))?", place).groups() if it]
        left = loss_map.LEFT + loss_map.PLOT * ends[0] / records
        right = loss_map.LEFT + loss_map.PLOT * (ends[-1] + 1) / records
        if abs(x - left) > 0.01 or abs(x + width - right) > 0.02:
            return f"{words} stands from {x} to {x + width}; "
        if kind.startswith("hover s-"):
            found = re.findall(r"\d+ (?:with a )?(missing|bad|VCA|good|idle)", said)
            if kind != f"hover s-{min(found, key=WORST_FIRST.index).lower()}":
                return f"{words} is shown as {kind}; "
    return ""


def suspected(frames):
    """Of each bad record the channels that miss frames around it, by what the lines say."""
    found, last, bad = {}, {}, []
    for line in frames.splitlines():
        said = dict(re.findall(r"(\w+)=(\S+)", line))
        if line.startswith("bad "):
            bad.append(int(said["record"]))
        elif line.startswith("frame "):
            name, count = said["channel"], int(said["count"])
            before, known = last.get(name, (len(bad), count - 1))
            if (count - known) % 256 != 1:
                for record in bad[before:]:
                    found.setdefault(record, set()).add(name)
            last[name] = len(bad), count
    return found


def columns_of(frames):
    """How many records a column has."""
    records = frames.count("record=") - frames.count("short ")
    return max(1, -(-records // loss_map.MOST_COLUMNS))


def wanted_bands(frames):
    """For the column of each bad record: in which bands it stands, and of each of these with which others it shares a record."""
    each, bands = columns_of(frames), {}
    for record, names in suspected(frames).items():
        column = bands.setdefault(record // each, {})
        for name in names:
            column.setdefault(name, set()).update(names - {name})
    return bands


def found_bands(picture, frames):
    """The same by the groups of marks that light up together. Each has a bar of bad frames."""
    each, bands = columns_of(frames), {}
    for group in (it for it in picture.iter(f"{SVG}g") if it.find(f"{SVG}title") is None):
        bar, *marks_of_bands = [it.find(f"{SVG}title").text.replace(",", "") for it in group]
        here = bands.setdefault(int(re.match(r"Records? (\d+)", bar)[1]) // each, {})
        for words in marks_of_bands:
            also = re.search(r"\d bad of no known channel \(also in the bands? of channels? ([^)]*)\)", words)
            here[re.match(r"Channel (\d)", words)[1]] = set(re.findall(r"\d", also[1])) if also else set()
        perhaps = bar.partition("; perhaps of channel")[2]
        if set(re.findall(r"\d", perhaps)) != set(here):
            return {bar: here}
    return bands


def apart(picture):
    """Marks of bad frames that don't stand in a group, and bars that touch the band below."""
    grouped = {it for group in picture.iter(f"{SVG}g") for it in group}
    for mark in picture.iter(f"{SVG}rect"):
        title = mark.find(f"{SVG}title")
        if title is not None and mark not in grouped and re.search(r"\d bad, of", title.text):
            return f"{title.text} doesn't light up with others; "
    tops = [float(it.get("y")) for it in picture.iter(f"{SVG}rect") if it.get("class") == "frame"]
    for bar in (it for it in picture.iter(f"{SVG}rect") if it.get("class", "").startswith("r-")):
        bottom = float(bar.get("y")) + float(bar.get("height"))
        if any(bottom < top < bottom + LEAST_SPACE for top in tops):
            return f"a bar ends at {bottom}, and its band is below it at once; "
    return ""


def numbers_of_bars(picture):
    """For each row of bars the number of its highest, and where the number has to stand: above it, within two of its width."""
    rows = {}
    for kind, x, width, words in marks(picture):
        said = words.replace(",", "")
        if "dropped" in said:
            row, numbers = said[:9], re.findall(r"(\d+) octets? by", said)
        elif kind in ("hover faults", "hover master"):
            row, numbers = kind, re.findall(r"(\d+) (?:bad frames?|frames? missing)", said)
        else:
            continue
        number = sum(map(int, numbers))
        if row not in rows or number > rows[row][0]:
            rows[row] = number, x + width / 2
    return rows


def unnumbered(picture):
    """A row whose highest bar bears another number, or none."""
    there = [it for it in picture.iter(f"{SVG}text") if it.get("class") == "small middle"]
    rows = numbers_of_bars(picture)
    for row, (number, middle) in rows.items():
        said = [it for it in there if it.text == f"{number:,}"]
        if not any(abs(float(it.get("x")) - middle) < 50 for it in said):
            return f"the highest bar of {row} doesn't bear {number}; "
    return "" if len(there) == len(rows) else f"{len(there)} numbers on bars of {len(rows)} rows; "


def text_box(text):
    """The borders of a text: left, right, above and below.  Letters are 0.6 of their height wide, which is ample."""
    kind = text.get("class").split()
    size = 16 if "head" in kind else 11 if "small" in kind else 12
    x, y, width = float(text.get("x")), float(text.get("y")), 0.6 * size * len(text.text)
    left = x - width if "end" in kind else x - width / 2 if "middle" in kind else x
    return left, left + width, y - 0.75 * size, y + 0.2 * size


def unreadable(picture):
    """Texts that lie over each other, or not all in the picture."""
    texts = [(it.text, text_box(it)) for it in picture.iter(f"{SVG}text")]
    wide, high = float(picture.get("width")), float(picture.get("height"))
    for words, (left, right, above, below) in texts:
        if left < 0 or right > wide or above < 0 or below > high:
            return f"{words} is cut off; "
    for (one, here), (other, there) in combinations(texts, 2):
        if here[0] < there[1] and there[0] < here[1] and here[2] < there[3] and there[2] < here[3]:
            return f"{one} lies over {other}; "
    return ""


def too_like(kinds):
    """Two of the colours, or one and the white behind them, that some can hardly tell apart."""
    for (one, colour), (other, another) in combinations([*kinds.items(), ("white", "#ffffff")], 2):
        for seen in colours.SEEN:
            found = colours.distance(colour, another, seen)
            if found < LEAST_DISTANCE:
                return f"{one} and {other} are {found:.3f} apart with {seen}"
    return ""


def judge(frames, report, texts=()):
    """What is wrong with the picture of these lines."""
    ran = draw(frames, report)
    if ran.returncode or ran.stderr:
        return f"status {ran.returncode}: {ran.stderr[:300].strip()}"
    picture = tree.fromstring(ran.stdout)
    wanted, found = wanted_figures(frames, report), found_figures(picture)
    if wanted != found:
        return f"figures: wanted {wanted - found}, found {found - wanted}"
    if len(ran.stdout) > MOST_OCTETS:
        return f"{len(ran.stdout)} octets"
    wrong = misplaced(picture, frames.count("record=") - frames.count("short ")) + unreadable(picture)
    there = {it.text for it in picture.iter(f"{SVG}text")}
    wrong += apart(picture) + unnumbered(picture)
    if found_bands(picture, frames) != (bands := wanted_bands(frames)):
        wrong += f"bands of bad frames: wanted {str(bands)[:300]}, found {str(found_bands(picture, frames))[:300]}; "
    return wrong + "".join(f"no text {it}; " for it in ("A < B & C", *texts) if it not in there)


def pictures(settings, records):
    example = HERE.parent / "example"
    lines = lines_of(reference.Settings(example / "settings.toml"), (example / "pass.rec").read_bytes())
    tell("the example", judge(*lines, ["Channel 0", "84 frames", "106 octets dropped", "no frame of this channel here"]))
    for number, seed in ((1, 1), (50, 2), (399, 3), (400, 4), (401, 5), (3000, 6), (8111, 7)):
        recording = eight_channels(settings, number, seed)
        tell(f"{number} records of eight channels", judge(*lines_of(settings, recording)))
    tell("an empty recording", judge("", "", ["The recording has no whole record."]))
    short = lines_of(settings, bytes(7))
    tell("7 octets", judge(*short, ["The recording has no whole record."]))
    noise = lines_of(settings, random.Random(1).randbytes(300 * 900 + 5))
    tell("noise", judge(*noise, ["No frame is good."]))
    tell(f"{records} records", judge(many_records(records, lines[0]), ""))
    tell(f"{records} records of eight channels, damage here and there", judge(*damaged_records(records, 50 / records)))
    tell(f"{records} records of eight channels, damage everywhere", judge(*damaged_records(records, 0.1)))
    tell("the same size, however many records", same_size())
    great = "drop record=193 channel=0 from=193 at=0 octets=9999999999 reason=length\n"
    behind = lines[1].index("seqgap record=193")
    greatest = lines[1][:behind] + 9 * great + lines[1][behind:]
    tell("great figures", judge(lines[0], greatest, ["90,000,000,097 octets dropped"]))
    unknown = lines[1].replace("mastergap record=155 expected=255 found=0 missing=1\n", "")
    tell("a gap of the master channel that the report doesn't know", judge(lines[0], unknown))
    tell("colours of frames", too_like(loss_map.STATE_COLOURS))
    tell("colours of reasons", too_like(loss_map.REASONS))
    tell("the colour of missing frames", too_like({"missing": loss_map.STATE_COLOURS["missing"]} | loss_map.REASONS))
    return lines


def same_size():
    sizes = set()
    for records in (401, 5000, 40000):
        picture = tree.fromstring(draw(*damaged_records(records, 20 / records)).stdout)
        sizes.add((picture.get("width"), picture.get("height")))
    return sizes if len(sizes) != 1 else ""


# What is refused.


def refusals(frames, report):
    """Each alteration: what it is, the two files, and the line that is wanted."""
    line = frames.splitlines(keepends=True)
    no_frame, no_report = "no line of `tmx frames`", "no line of a report"
    behind, above = frames + "short record=300 octets=5\n" * 2, report[: report.index("mastergap")].count("\n") + 1
    fault, reason = report.replace("fault=crc", "fault=layout"), report.replace("reason=no-start", "reason=why")
    channel = report.replace("\ngap record=155 channel=1", "\ngap record=155 channel=0")
    ends = "the report ends with"
    bad, no_gaps = "bad record=189 fault=crc\n", re.sub("mastergap .*\n", "", report)
    yield "files in the wrong order", report, frames, f"frames, line 1: {no_frame}"
    yield "a list of frames as the report", frames, frames, f"report, line 1: {no_report}"
    yield "a report of more", "".join(line[:150]), report, f"report, line {above}: the frames have no record 155"
    yield "a line left out", "".join(line[:4] + line[5:]), report, "frames, line 5: record 5 is not the next one"
    yield "a line twice", "".join(line[:4] + line[3:]), report, "frames, line 5: record 3 is not the next one"
    yield "a line behind the last", behind, report, "frames, line 302: record 300 is not the next one"
    yield "a count over 255", frames.replace("count=17 ", "count=256 ", 1), report, f"frames, line 1: {no_frame}"
    yield "a channel over 7", frames.replace("channel=3", "channel=8"), report, f"frames, line 1: {no_frame}"
    yield "a line that is cut off", frames[:-20], report, f"frames, line 300: {no_frame}"
    yield "octets that are no text", "\x00\xff\xfe" * 100, report, f"frames, line 1: {no_frame}"
    yield "another fault", frames, fault, "report, line 15: the frames say otherwise of record 189"
    yield "another channel", frames, channel, "report, line 6: the frames say otherwise of record 155"
    yield "another reason", frames, reason, f"report, line 8: {no_report}"
    yield "an empty line", frames, report + "\n", f"report, line 24: {no_report}"
    yield "a report without frames", "", report, "report, line 1: the frames have no record 31"
    yield "a last line without its end", frames, report[:-1], f"report, line 23: {no_report}"
    yield "a last line that is cut in its number", frames[:-3], report, f"frames, line 300: {no_frame}"
    yield "a line without end", "0" * 5000000, report, f"frames, line 1: {no_frame}"
    yield "no report", frames, "", f"report, line 1: {ends} 0 of 1 `bad` lines"
    yield "a report without its end", frames, report[: report.index("bad ")], f"report, line 15: {ends} 0 of 1 `bad` lines"
    yield "a report without master gaps", frames, no_gaps, f"report, line 22: {ends} 0 of 2 `mastergap` lines"
    yield "a report twice", frames, report * 2, "report, line 24: record 31 stands behind record 282"
    yield "a bad frame twice", frames, report.replace(bad, bad * 2), "report, line 16: a second `bad` of record 189"


def refused(name, frames, report, wanted):
    ran = draw(frames, report)
    if (ran.returncode, ran.stdout, ran.stderr) == (1, "", f"tmx map: {wanted}\n"):
        tell(f"refused: {name}", "")
    else:
        tell(f"refused: {name}", f"status {ran.returncode}: {ran.stderr[:300]}")


def main(records):
    print("plan 43", flush=True)
    lines = "spacecraft = 5\nframe_length = 300\nerror_control = true\nmax_packet = 3007\n"
    Path("settings").write_text(lines, encoding="ascii")
    for trial in refusals(*pictures(reference.Settings("settings"), int(records))):
        refused(*trial)


if __name__ == "__main__":
    main(*sys.argv[1:])
