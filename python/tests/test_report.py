"""The page of a pass, over recordings whose losses are known since they are made here."""

import binascii
import io
import json
import os
import random
import re
import shutil
import struct
import subprocess
import sys
import threading
import unittest
from collections import Counter
from datetime import datetime, timedelta
from html.parser import HTMLParser
from itertools import combinations
from pathlib import Path

from support import ATTITUDE, EXAMPLE, PROGRAM, RECORDING, SETTINGS, TestCase, command, damaged, example, tmx

import colours
from tmx.damage import Span
from tmx.loss_times import Receipt, TimeError, receipt_of
from tmx.report import Asked, Findings, Losses, find
from tmx.report_page import COLOURS, page
from tmx.time_codes import Code, code_of_lead

GOOD, DAMAGED, LOST = "good", "damaged", "lost"
FIELD, PACKET = 24, 12  # octets of a data field, which has two packets
HERE = "spacecraft = 42\nframe_length = 32\nerror_control = true\n"
LEAST_DISTANCE = 0.15  # of two colours
ON_BOARD = "--time A --definition d.csv --apid 101 --epoch 2000-01-01"
BEGIN = datetime(2026, 11, 29, 10, 30)  # of the receipt of record 0, the others each half a second later


# Recordings.


def frame(channel: int, master: int, count: int, application: int, number: int, spacecraft: int = 42) -> bytes:
    """A frame whose data field holds two packets of an application, the first of which has this number."""
    head = (spacecraft << 4 | channel << 1).to_bytes(2, "big") + bytes([master % 256, count % 256]) + (0x1800).to_bytes(2, "big")
    packets = b""
    for it in (number, number + 1):
        lead = (application << 32 | (0xC000 | it % 16384) << 16 | PACKET - 7).to_bytes(6, "big")
        packets += lead + bytes(PACKET - 6)
    octets = head + packets
    return octets + binascii.crc_hqx(octets, 0xFFFF).to_bytes(2, "big")


def made(plan: list[tuple[int, str]], one_application: bool = False) -> bytes:
    """A recording of frames that were sent: of each its channel, and what became of it.

    Each channel has an application of its own, or all have the same one.
    """
    counts: Counter[int] = Counter()
    found = []
    for master, (channel, fate) in enumerate(plan):
        packets = (100, 2 * master) if one_application else (100 + channel, 2 * counts[channel])
        octets = frame(channel, master, counts[channel], *packets)
        counts[channel] += 1
        if fate == DAMAGED:
            octets = octets[:-1] + bytes([octets[-1] ^ 1])
        if fate != LOST:
            found.append(octets)
    return b"".join(found)


def between(fates: list[str]) -> Counter[str]:
    """What became of the frames between the first good one and the last."""
    places = [at for at, fate in enumerate(fates) if fate == GOOD]
    return Counter(fates[places[0] : places[-1]])


def plan_of(text: str) -> list[tuple[int, str]]:
    """A plan as `0 1 0x 1-`: channels, `x` where a frame is damaged, and `-` where it is lost."""
    fates = {"": GOOD, "x": DAMAGED, "-": LOST}
    return [(int(it[0]), fates[it[1:]]) for it in text.split()]


# Pages.


class Page(HTMLParser):
    """A page's elements, its tables by the headings above them, and its texts outside of the style."""

    VOID = ("meta",)

    def __init__(self, text: str) -> None:
        super().__init__()
        self.open: list[str] = []
        self.elements: Counter[str] = Counter()
        self.attributes: list[tuple[str, str, str | None]] = []
        self.head, self.tables, self.texts = "", {}, []
        self.unbalanced = False
        self.feed(text)

    def handle_starttag(self, tag, attributes) -> None:
        self.elements[tag] += 1
        self.attributes += [(tag, *it) for it in attributes]
        if tag not in self.VOID:
            self.open.append(tag)
        if tag == "tr":
            self.tables.setdefault(self.head, []).append([])
        elif tag in ("td", "th"):
            self.tables[self.head][-1].append("")

    def handle_startendtag(self, tag, attributes) -> None:
        self.elements[tag] += 1
        self.attributes += [(tag, *it) for it in attributes]

    def handle_endtag(self, tag) -> None:
        self.unbalanced |= not self.open or self.open.pop() != tag

    def handle_data(self, data) -> None:
        if "h2" in self.open:
            self.head = data
        if {"td", "th"} & set(self.open):
            self.tables[self.head][-1][-1] += data
        if "style" not in self.open:
            self.texts.append(data)

    def text(self) -> str:
        return " ".join(" ".join(self.texts).split())


def numbers_in(value: object) -> list[float]:
    """All numbers of an object of JSON."""
    if isinstance(value, bool) or value is None or isinstance(value, str):
        return []
    if isinstance(value, (int, float)):
        return [value]
    return [number for it in (value.values() if isinstance(value, dict) else value) for number in numbers_in(it)]


class ReportCase(TestCase):
    def find(self, recording: bytes | str | Path, settings: str | Path = HERE, **asked) -> tuple[Findings, Page]:
        """What is found in a recording, by settings or their file, and the page."""
        if isinstance(recording, bytes):
            Path("pass.rec").write_bytes(recording)
            recording = "pass.rec"
        if "\n" in str(settings):
            Path("s.toml").write_text(str(settings))
            settings = "s.toml"
        found, svg = find(str(recording), str(settings), Asked(**asked))
        shown = Page(page(found, svg))
        self.assertEqual((shown.open, shown.unbalanced), ([], False))
        self.agree(found, shown)
        return found, shown

    def agree(self, found: Findings, shown: Page) -> None:
        """Each number of the JSON stands on the page, but those that were made of no line."""
        there = set(re.findall(r"\d+(?:\.\d+)?", shown.text().replace(",", "")))
        said = found.json()
        hidden = {"twice", "doubtful"}  # they come in a sentence, if they aren't 0
        for name in ("recording", "frames", "octets", "channels", "applications", "outages"):
            parts = said[name] if isinstance(said[name], list) else [said[name]]
            for part in parts:
                for number in numbers_in({key: it for key, it in part.items() if key not in hidden}):
                    self.assertIn(f"{number:.2f}" if isinstance(number, float) else str(number), there, (name, part))


class Numbers(ReportCase):
    def test_the_example(self) -> None:
        """As example/README.md says what went wrong."""
        found, shown = self.find(RECORDING, SETTINGS)
        frames, octets = found.frames, found.octets
        self.assertEqual((frames.expected, frames.percent, frames.damaged, frames.never_received), (301, 99.33, 1, 1))
        self.assertEqual((octets.data, octets.octets, octets.lost, octets.percent, octets.adds_up), (70200, 69462, 738, 98.94, True))
        damage = {it.counts.channel: (it.damaged, it.never_received) for it in found.channels}
        one, none = Span(1, 1), Span(0, 0)
        self.assertEqual(damage, {0: (one, none), 1: (none, one), 3: (none, none)})
        outages = [(it.channel, it.before, it.record, it.missing, it.damaged, it.octets) for it in found.outages]
        self.assertEqual(outages, [(1, 153, 155, 1, none, 632), (0, 185, 193, 1, one, 106)])
        self.assertEqual((found.report.lines, [line for _, line in found.report.first]), (23, [str(it) for it in example().report()]))
        said = "99.33% of the frames are good: 299 of 301. 2 missing: 1 damaged, 1 never received."
        self.assertIn(said, shown.text())
        self.assertIn("They add up: data = in packets + lost.", shown.text())
        self.assertEqual(shown.tables["Channels: frames"][1], "0 84 85 98.82% 1 1 0 1 0 0".split())
        self.assertEqual(shown.tables["Applications"][1], "0 100 147 150 98.00% 3 1 10,976 16350 3 115 299 0 0 0".split())
        octets_of_1 = ["1", "35,216", "34,584", "98.20%", "632", "87", "3", "320 gap, 312 no-start", "yes"]
        self.assertEqual(shown.tables["Channels: octets"][2], octets_of_1)

    def test_the_recording(self) -> None:
        found, shown = self.find(RECORDING, SETTINGS)
        self.assertEqual(found.recording.sha256, subprocess.check_output(["sha256sum", RECORDING], text=True).split()[0])
        self.assertEqual((found.recording.octets, found.title), (76800, "pass.rec"))
        settings = dict(shown.tables["Settings and versions"])
        self.assertEqual((settings["channels"], settings["max_packet"], settings["skip_after"]), ("0, 1, 3", "880", "0"))
        said = subprocess.check_output([PROGRAM, "--version"], text=True).split()
        self.assertEqual([settings["tmx"], settings["sum of the logic that proved tmx"]], [said[1], said[3]])
        self.assertEqual(settings["package for Python"], tmx.__version__)
        settings = dict(self.find(made(plan_of("0")))[1].tables["Settings and versions"])
        self.assertEqual((settings["channels"], settings["max_packet"]), ("all", "65542"))

    def test_which_frames_were_damaged(self) -> None:
        for text, master, channels in (
            ("0 0x 0", (1, 0, 0), {0: (1, 1)}),
            ("0 0- 0", (0, 1, 0), {0: (0, 0)}),
            ("0 0x 0- 0x 0", (2, 1, 0), {0: (2, 2)}),
            ("0 1 0x 1x 0 1", (2, 0, 0), {0: (1, 1), 1: (1, 1)}),  # both lie in both gaps, and none was never received
            ("0 1 0x 1- 0 1", (1, 1, 0), {0: (0, 1), 1: (0, 1)}),  # the counts don't tell which
            ("0 1 0x 1 1- 1 0", (1, 1, 0), {0: (1, 1), 1: (0, 0)}),  # the bad one lies in the gap of channel 0 alone
            ("1 0 0x 0- 0 1x 1", (2, 1, 0), {0: (1, 1), 1: (0, 1)}),  # of channel 0 two are missing, and one was never received
            ("1 0 1x 0- 0", (1, 1, 0), {1: (0, 0), 0: (0, 1)}),  # channel 1 doesn't come again, so its frames aren't missed
            ("0 1x 0- 0 1", (1, 1, 0), {0: (0, 1), 1: (0, 0)}),  # nor before it comes
            ("0x 0 0 0x", (0, 0, 2), {0: (0, 0)}),  # nothing tells of the first and the last
        ):
            with self.subTest(text):
                found, shown = self.find(made(plan_of(text)))
                frames = found.frames
                self.assertEqual((frames.damaged, frames.never_received, frames.unplaced), master)
                self.assertEqual({it.counts.channel: (it.damaged.least, it.damaged.most) for it in found.channels}, channels)
                self.assertEqual("Bad records without room in a gap are no missing frames" in shown.text(), master[2] > 0)
        self.assertEqual(self.find(made(plan_of("0 1 0x 1- 0 1")))[1].tables["Channels: frames"][1][5:7], ["0 to 1"] * 2)

    def test_damage_by_chance(self) -> None:
        for seed in range(80):
            with self.subTest(seed=seed):
                self.compare(random.Random(seed))

    def compare(self, chance: random.Random) -> None:
        """The master channel tells all between its good frames, and what is said of a channel holds what is true there."""
        number, weights = chance.randrange(1, 4), [8, chance.randrange(4), chance.randrange(4)]
        plan = [(chance.randrange(number), chance.choices((GOOD, DAMAGED, LOST), weights)[0]) for _ in range(120)]
        found, _ = self.find(made(plan))
        fates = between([fate for _, fate in plan])
        self.assertEqual((found.frames.damaged, found.frames.never_received), (fates[DAMAGED], fates[LOST]))
        for it in found.channels:
            fates = between([fate for channel, fate in plan if channel == it.counts.channel])
            self.assertLessEqual(it.damaged.least, fates[DAMAGED])
            self.assertGreaterEqual(it.damaged.most, fates[DAMAGED])
            self.assertEqual(it.never_received, Span(it.counts.missing - it.damaged.most, it.counts.missing - it.damaged.least))
            if number == 1 or not found.frames.never_received or not found.frames.damaged:
                self.assertEqual(it.damaged.least, it.damaged.most)

    def test_counts_that_have_gone_round(self) -> None:
        found, shown = self.find(made([(0, GOOD)] + [(0, LOST)] * 256 + [(0, GOOD)]))
        self.assertEqual((found.frames.never_received, found.outages), (0, []))
        found, shown = self.find(made([(0, GOOD)] + [(0, DAMAGED)] * 300 + [(0, GOOD)]))
        self.assertEqual((found.frames.damaged, found.frames.unplaced), (44, 256))
        octets = made(plan_of("0 0 0 0"))
        found, shown = self.find(octets[:64] + octets[32:])
        self.assertEqual((found.frames.twice, found.channels[0].twice), (1, 1))
        self.assertIn("In 1 gap of channel 0 255 frames are missing: perhaps a frame was recorded twice.", shown.text())
        self.assertIn("In 1 gap of application 100 on channel 0 8,192 packets or more are missing", shown.text())
        plan = [(0, GOOD), (1, GOOD), *[(1, LOST)] * 100, (0, GOOD), *[(1, LOST)] * 156, (0, GOOD), (1, GOOD)]
        found, _ = self.find(made(plan))  # of channel 1 256 frames, of which the master channel alone tells
        self.assertEqual((found.frames.never_received, [it.counts.missing for it in found.channels]), (256, [0, 0]))

    def test_doubtful_gaps(self) -> None:
        losses = Losses()
        for missing in (8191, 8192, 16383):
            losses.look(tmx.SequenceGap(9, 1, 5, 0, missing, missing))
        self.assertEqual(losses.doubtful, {(1, 5): 2})

    def test_outages(self) -> None:
        plan, wanted = [(0, GOOD)], []
        for number, missing in enumerate(random.Random(1).sample(range(1, 90), 30)):
            plan += [*[(0, LOST)] * missing, (0, GOOD)]
            wanted.append((missing, number, number + 1))
        found, shown = self.find(made(plan))
        self.assertEqual([(it.missing, it.before, it.record) for it in found.outages], sorted(wanted, reverse=True)[:20])
        self.assertIn("20 of 30 gaps.", shown.text())

    def test_octets_of_outages(self) -> None:
        """Those dropped by gap and behind it by no-start, as long as nothing else is dropped."""
        for seed in range(30):
            with self.subTest(seed=seed):
                damaged(seed)
                found, _ = self.find("recording", "settings")
                lost: dict[int, list[int]] = {}
                open_ones: dict[int, int] = {}
                for it in tmx.Recording("recording", "settings").report():
                    if isinstance(it, tmx.Gap):
                        open_ones[it.channel] = it.record
                    elif isinstance(it, tmx.Dropped) and it.reason in ("gap", "no-start"):
                        lost.setdefault(open_ones.get(it.channel, -1), []).append(it.octets)
                    elif isinstance(it, tmx.Dropped) or isinstance(it, tmx.Vca) and open_ones.get(it.channel) != it.record:
                        open_ones.pop(it.channel, None)
                for it in found.outages:
                    self.assertEqual(it.octets, sum(lost.get(it.record, [])), it)

    def test_first_and_last_counts(self) -> None:
        for seed in range(30):
            with self.subTest(seed=seed):
                damaged(seed)
                ends: dict[tuple[int, int], list[int]] = {}
                for it in tmx.Recording("recording", "settings").packets():
                    ends.setdefault((it.channel, it.apid), []).append(it.count)
                found, _ = self.find("recording", "settings")
                said = {(it.counts.channel, it.counts.apid): [it.first_count, it.last_count] for it in found.applications}
                self.assertEqual(said, {key: [counts[0], counts[-1]] for key, counts in ends.items()})

    def test_packets_expected(self) -> None:
        found, _ = self.find(made(plan_of("0 1 0- 0- 0 1")))
        said = {it.counts.apid: (it.counts.packets, it.expected, it.percent, it.first_count, it.last_count) for it in found.applications}
        self.assertEqual(said, {100: (4, 8, 50.0, 0, 7), 101: (4, 4, 100.0, 0, 3)})
        found, _ = self.find(made([(0, GOOD)] * 2500 + [(1, GOOD), (2, GOOD), (1, GOOD)] + [(0, GOOD)] * 2500))
        said = {it.counts.apid: (it.first_count, it.last_count) for it in found.applications}
        self.assertEqual(said, {100: (0, 9999), 101: (0, 3), 102: (0, 1)})
        idle = [it for it in self.find(RECORDING, SETTINGS)[0].applications if it.counts.apid == 2047]
        self.assertEqual([(it.expected, it.percent) for it in idle], [(None, None)] * 3)

    def test_percentages_are_rounded_down(self) -> None:
        found, shown = self.find(made([(0, GOOD)] * 30000 + [(0, LOST)] + [(0, GOOD)]))
        self.assertEqual(found.frames.percent, 99.99)
        self.assertNotIn("100.00%", [row[2] for row in shown.tables["Frames"]])

    def test_what_does_not_add_up(self) -> None:
        self.program('"$real" "$@" | sed "s/ lost=106 / lost=105 /"')
        found, svg = find(str(RECORDING), str(SETTINGS), Asked())
        self.assertEqual(([it.octets.adds_up for it in found.channels], found.octets.adds_up), ([False, True, True], False))
        shown = Page(page(found, svg))
        self.assertIn("They do NOT add up", shown.text())
        self.assertEqual([row[-1] for row in shown.tables["Channels: octets"]], ["Adds up", "NO", "yes", "yes", "NO"])


class Doubts(ReportCase):
    """There is no percentage where the counts, which run modulo 256, don't tell how many frames are missing."""

    CHANNELS = "between good frames the channels' counts miss more frames than the master channel's count does"
    PACKETS = "the packets that the sequence counts miss have more octets than the missing frames and the lost parts"

    def without(self, octets: bytes, *why: str) -> Findings:
        """What is found of a recording of which the page gives no percentage, for just these reasons."""
        found, shown = self.find(octets)
        self.assertEqual(found.frames.doubts, list(why))
        self.assertNotIn("%", shown.text())
        self.assertNotIn("None", shown.text())
        said = found.json()
        parts = [said["frames"], said["octets"], *said["channels"], *said["applications"], *(it["octets"] for it in said["channels"])]
        self.assertEqual({it["percent"] for it in parts}, {None})
        self.assertEqual({it["expected"] for it in [said["frames"], *said["channels"], *said["applications"]]}, {None})
        good = f"{found.recording.counts.good:,} frames are good. "
        self.assertIn(f"{good}The counts don't tell how many frames are missing, so there is no percentage: {'; '.join(why)}.", shown.text())
        return found

    def outage(self, channels: int, missing: int, fate: str, number: int = 12000) -> bytes:
        """A recording of frames of channels by chance, of which so many in its middle were lost or damaged."""
        chance, begin = random.Random(missing), number // 3
        return made([(chance.randrange(channels), fate if begin <= it < begin + missing else GOOD) for it in range(number)])

    def test_a_long_outage(self) -> None:
        """Of 12,000 frames 3,604 are missing, which is 14 times 256 and 20."""
        found = self.without(self.outage(4, 3604, LOST), self.CHANNELS, self.PACKETS)
        self.assertEqual((found.recording.counts.good, found.frames.master.missing), (8396, 20))
        bad = "between good frames the gaps of the master channel have no place for 3,584 bad records"
        self.without(self.outage(4, 3604, DAMAGED), self.CHANNELS, self.PACKETS, bad)
        self.without(self.outage(1, 3604, DAMAGED), self.PACKETS, bad)

    def test_an_outage_of_one_channel(self) -> None:
        """The master channel's count and the channel's are one.  Each frame has two packets."""
        for missing in (256, 276, 512, 3604, 7680):
            self.without(self.outage(1, missing, LOST), self.PACKETS)

    def test_an_outage_within_others(self) -> None:
        """400 frames of channel 1 are lost, which comes no more, so that in all the channels' counts miss less than the master's."""
        begun = [*[(1, GOOD), (0, GOOD)], *[*[(1, LOST)] * 200, (0, GOOD)] * 2, (2, GOOD), (3, GOOD)]
        for lost, master, channels in (((196, 60, 0), 400, 256), ((150, 150, 150), 594, 450)):
            plan = [(channel, LOST) for channel, number in zip((0, 2, 3), lost) for _ in range(number)]
            found = self.without(made([*begun, *plan, *((it, GOOD) for it in (0, 2, 3))]), self.CHANNELS)
            self.assertEqual((found.frames.master.missing, sum(it.counts.missing for it in found.channels)), (master, channels))

    def test_a_frame_that_came_twice(self) -> None:
        octets = made([(0, GOOD)] * 5)
        twice = "in 1 gap of the master channel 255 frames are missing, as where one was recorded twice"
        self.without(octets[:96] + octets[64:], self.PACKETS, twice)

    def test_ordinary_losses(self) -> None:
        """The percentage is that of the frames between the first good one and the last, which is what was sent there."""
        for seed in range(40):
            with self.subTest(seed=seed):
                chance = random.Random(seed)
                number = chance.randrange(1, 5)
                plan = [(chance.randrange(number), chance.choices((GOOD, DAMAGED, LOST), (97, 2, 1))[0]) for _ in range(3000)]
                at = chance.randrange(100, 2500)
                plan[at : at + 40] = [(channel, LOST) for channel, _ in plan[at : at + 40]]
                found, shown = self.find(made(plan))
                fates = between([fate for _, fate in plan])
                good, sent = fates[GOOD] + 1, fates.total() + 1
                self.assertEqual((found.frames.doubts, found.frames.expected), ([], sent))
                self.assertIn(f"{good * 10000 // sent / 100:.2f}% of the frames are good: {good:,} of {sent:,}.", shown.text())
                self.assertEqual([it.percent is None for it in found.channels], [False] * number)

    def test_counts_of_packets_on_several_channels(self) -> None:
        """An application whose packets are counted over two channels has gaps on each, and nothing is lost."""
        found, shown = self.find(made([(it % 2, GOOD) for it in range(100)], True))
        self.assertEqual([it.counts.missing for it in found.applications], [98, 98])
        self.assertIn("100.00% of the frames are good: 100 of 100.", shown.text())

    def test_frames_of_another_sender(self) -> None:
        """Their error control holds.  A record of noise is no frame, and finds no place either."""
        octets = made([(0, GOOD)] * 4)
        found, shown = self.find(octets[:64] + frame(0, 9, 9, 100, 0, 43) + octets[64:])
        self.assertEqual((found.frames.doubts, found.recording.faults), ([], {"spacecraft": 1}))
        self.assertIn("100.00% of the frames are good: 4 of 4.", shown.text())
        self.without(octets[:64] + bytes(32) + octets[64:], "between good frames the gaps of the master channel have no place for 1 bad record")
        self.assertEqual(self.find(bytes(32) + octets + bytes(32))[0].frames.doubts, [])

    def test_a_channel_that_lost_256(self) -> None:
        """The master channel's count tells it, since frames of another channel came between them.  The channel's own doesn't."""
        plan = [(0, GOOD), (1, GOOD), *[(1, LOST)] * 100, (0, GOOD), *[(1, LOST)] * 156, (0, GOOD), (1, GOOD)]
        found, shown = self.find(made(plan))
        self.assertIn("1.91% of the frames are good: 5 of 261.", shown.text())
        self.assertEqual([(it.counts.channel, it.expected, it.percent) for it in found.channels], [(0, 3, 100.0), (1, None, None)])
        said = "Channel 1 has no percentage: the packets that its sequence counts miss have more octets than its missing frames"
        self.assertIn(said, shown.text())
        self.assertEqual([it.percent for it in found.applications], [100.0, 0.77])  # 4 packets of 516

    def test_damaged_frames_of_a_channel(self) -> None:
        """Of channel 0 225 frames were lost and 25 damaged, of channel 1 20 lost: 270, of which the master channel shows 14."""
        ends = [(0, GOOD), (1, GOOD)]
        found, shown = self.find(made([*ends, *[(0, LOST)] * 225, *[(1, LOST)] * 20, *[(0, DAMAGED)] * 25, *ends]))
        self.assertEqual([(it.damaged, it.never_received) for it in found.channels], [(Span(0, 25), Span(225, 250)), (Span(0, 20), Span(0, 20))])
        self.assertEqual(shown.tables["Channels: frames"][2][5:7], ["0 to 20"] * 2)

    def test_packets_that_came_twice(self) -> None:
        """16,383 packets would be missing.  An application's percentage is given where its gaps are shorter than 8,192."""
        octets = made([(0, GOOD)] * 5)
        found, shown = self.find(octets[:96] + octets[64:])
        self.assertEqual([(it.expected, it.percent, it.doubtful) for it in found.applications], [(None, None, 1)])


class Sentences(ReportCase):
    def test_data_of_good_frames(self) -> None:
        """Two frames of packets have 24 octets each; that of a VCA_SDU and those of channels that aren't chosen have no such data."""
        whole = made(plan_of("0 1 0 0"))
        head = whole[96:100] + b"\x58\x00" + whole[102:126]  # the same frame, with a VCA_SDU
        octets = whole[:96] + head + binascii.crc_hqx(head, 0xFFFF).to_bytes(2, "big")
        said = self.find(octets)[1].text()
        self.assertIn("100.00% of the data of good frames is in whole packets: 72 of 72 octets.", said)
        self.assertIn("those of idle frames and of frames with a VCA_SDU left out", said)
        said = self.find(octets, f"{HERE}channels = [0]\n")[1].text()
        self.assertIn("100.00% of the data of good frames of the chosen channels is in whole packets: 48 of 48 octets.", said)

    def test_a_loss_that_nothing_shows(self) -> None:
        """256 frames without packets are lost: of idle data alone, by the pointer 2046."""
        idle = []
        for count in (0, 1, 258, 259):
            head = bytes([0x02, 0xA0, count % 256, count % 256, 0x1F, 0xFE]) + bytes(24)
            idle.append(head + binascii.crc_hqx(head, 0xFFFF).to_bytes(2, "big"))
        said = self.find(b"".join(idle))[1].text()
        self.assertIn("The counts miss none.", said)
        self.assertIn("It has no line: no record is bad, no octet was dropped, and no count has a gap.", said)

    def test_an_application_on_several_channels(self) -> None:
        said = "If its counts run over all of them, packets of the others seem to be missing."
        self.assertIn(said, self.find(made([(it % 2, GOOD) for it in range(9)], True))[1].text())
        self.assertNotIn(said, self.find(made([(0, GOOD)] * 9, True))[1].text())

    def test_an_outage_of_255(self) -> None:
        octets = made([(0, GOOD)] * 5)
        said = self.find(octets[:96] + octets[64:])[1].text()
        self.assertIn("In 1 gap of these 255 frames are missing: perhaps a frame was recorded twice.", said)

    def test_whole_groups(self) -> None:
        head = bytes([0x02, 0xA0, 0, 0, 0x18, 0]) + b"".join(bytes.fromhex(f"0064 {it}000 0005") + bytes(6) for it in "48")
        head = head[:20] + b"\x80\x01" + head[22:]  # the last segment is the next one
        found, shown = self.find(head + binascii.crc_hqx(head, 0xFFFF).to_bytes(2, "big"))
        self.assertEqual([line for _, line in found.report.first], ["group record=0 channel=0 apid=100 first=0 last=1"])
        self.assertIn("What is bad or lost, and each whole group, record by record", shown.text())


class Recordings(ReportCase):
    def test_an_empty_recording(self) -> None:
        found, shown = self.find(b"")
        self.assertEqual((found.frames.percent, found.octets.percent, found.channels, found.report.lines), (None, None, [], 0))
        self.assertIn("No frame is good, of 0 records.", shown.text())
        self.assertIn("The recording has no whole record.", shown.text())

    def test_no_good_frame(self) -> None:
        found, shown = self.find(bytes(100))
        self.assertIn("No frame is good, of 3 records: 3 by crc.", shown.text())
        self.assertEqual((found.frames.unplaced, found.recording.counts.rest), (3, 4))
        self.assertIn("No chosen channel has a good frame.", shown.text())
        self.assertIn(["Octets behind them", "4"], shown.tables[""])

    def test_channels_that_are_not_chosen(self) -> None:
        found, _ = self.find(made(plan_of("0 1 1x 0x 0 1")), f"{HERE}channels = [1]\n")
        self.assertEqual([(it.counts.channel, it.damaged) for it in found.channels], [(1, Span(1, 1))])
        self.assertEqual((found.frames.expected, found.frames.damaged), (6, 2))

    def test_nothing_is_lost(self) -> None:
        _, shown = self.find(made(plan_of("0 1 0 1")))
        for said in ("The counts miss none.", "No channel has a gap.", "It has no line: no record is bad, no octet was dropped, and no count has a gap."):
            self.assertIn(said, shown.text())

    def test_streams(self) -> None:
        wanted = self.find(RECORDING, SETTINGS)[0].json()
        line = [sys.executable, "-m", "tmx", "report", "--json", "--settings", str(SETTINGS), "-"]
        named = os.environ | {"PYTHONPATH": str(EXAMPLE.parent / "python")}
        ran = subprocess.run(line, input=RECORDING.read_bytes(), capture_output=True, check=True, env=named)
        found = json.loads(ran.stdout)
        self.assertEqual((found["recording"].pop("name"), found["title"], ran.stderr), (None, "A pass", b""))
        del wanted["recording"]["name"], wanted["title"], found["title"]
        self.assertEqual(found, json.loads(json.dumps(wanted)))
        os.mkfifo("pipe")
        writer = threading.Thread(target=lambda: Path("pipe").write_bytes(RECORDING.read_bytes()))
        writer.start()
        self.assertEqual(self.find("pipe", SETTINGS)[0].recording.octets, 76800)
        writer.join()

    def test_refusals(self) -> None:
        Path("pass.rec").write_bytes(made(plan_of("0 0")))
        Path("s.toml").write_text(HERE)
        Path("wrong.toml").write_text("spacecraft = 42\nframe_length = 32\n")
        Path("newer.toml").write_text(HERE + 'ocf = "\\x66lag"\n')
        Path("d.csv").write_text("name,data_type,bit_length\nA,uint,32\n")
        Path("folder").mkdir()
        for words, status, said in (
            ("--settings s.toml folder", 1, "tmx: read failed\n  the recording folder: a folder; name a file"),
            ("--settings s.toml nowhere", 1, "tmx: nowhere: failed\n  the recording nowhere: no such file"),
            ("--settings nowhere pass.rec", 1, "tmx: nowhere: failed\n  the settings nowhere: no such file"),
            ("--settings wrong.toml pass.rec", 1, "tmx: settings: missing error_control"),
            ("--settings newer.toml pass.rec", 1, "tmx: settings: toml\n  the settings newer.toml: Python reads TOML 1.0 alone"),
            ("--settings s.toml --report pass.rec pass.rec", 1, "tmx: pass.rec: failed\n  pass.rec would be written over pass.rec"),
            ("--settings s.toml --report s.toml pass.rec", 1, "tmx: s.toml: failed"),
            (f"--settings s.toml --report d.csv {ON_BOARD} pass.rec", 1, "d.csv would be written over d.csv"),
            ("--settings s.toml --report no/report pass.rec", 1, "tmx report: no/report: No such file or directory"),
            ("--settings s.toml --receipt 0:cds8 pass.rec", 1, "tmx report: octets 0 to 7 of a record aren't passed over"),
            ("--settings s.toml --receipt 0:cuc4.2 pass.rec", 2, "--receipt of cuc needs --epoch"),
            ("--settings s.toml --receipt cds pass.rec", 2, "--receipt takes OFFSET:FORMAT"),
            ("--settings s.toml --receipt 0:cds5 pass.rec", 2, "--receipt takes OFFSET:FORMAT"),
            ("--settings s.toml --receipt 0:>f8 --apid 3 pass.rec", 2, "--receipt goes without --time"),
            ("--settings s.toml --time SECONDS pass.rec", 2, "--time needs --definition, --apid and --epoch"),
            ("--settings s.toml --epoch 2000-01-01 pass.rec", 2, "--time needs --definition, --apid and --epoch"),
            ("--settings s.toml --receipt 0:cds8 --epoch now pass.rec", 2, "Invalid isoformat string"),
            (f"--settings s.toml {ON_BOARD.replace('A ', 'NO ')} pass.rec", 1, "tmx report: there is no column 'NO'"),
            (f"--settings s.toml {ON_BOARD.replace('101', '2048')} pass.rec", 2, "--apid takes numbers from 0 to 2047"),
            ("--settings s.toml", 2, "the following arguments are required: RECORDING"),
        ):
            with self.subTest(words):
                found = command("report", *words.split(), out="page")
                self.assertEqual((found[0], Path("page").read_bytes()), (status, b""))
                self.assertIn(said, found[1])
        self.assertEqual((Path("pass.rec").read_bytes(), Path("s.toml").read_text()), (made(plan_of("0 0")), HERE))

    def test_a_recording_that_changes(self) -> None:
        Path("pass.rec").write_bytes(made(plan_of("0 0 0")))
        Path("s.toml").write_text(HERE)
        for when in ("frames", "packets"):
            self.program(f'[ $1 != {when} ] || truncate -s 64 pass.rec; exec "$real" "$@"')
            Path("pass.rec").write_bytes(made(plan_of("0 0 0")))
            status, said = command("report", "--settings", "s.toml", "pass.rec", out="page")
            self.assertEqual((status, Path("page").read_bytes()), (1, b""), when)
            self.assertIn("had 96 octets, and has 64: the file was cut while it was read", said)


class Lines(ReportCase):
    def test_the_first_ones_and_all(self) -> None:
        plan = [(0, GOOD), (0, LOST)] * 150 + [(0, GOOD)]
        found, shown = self.find(made(plan), report="all of it.txt")
        lines = [str(it) for it in tmx.Recording("pass.rec", "s.toml").report()]
        self.assertEqual(Path("all of it.txt").read_text().splitlines(), lines)
        self.assertEqual((found.report.lines, len(lines) > 200), (len(lines), True))
        self.assertEqual([row[-1] for row in shown.tables["The report"][1:]], lines[:200])
        self.assertIn(("a", "href", "all%20of%20it.txt"), shown.attributes)
        self.assertIn(f"Here are 200 of {len(lines)} lines. All are in all of it.txt", shown.text())

    def test_the_words_that_write_all(self) -> None:
        Path("my pass.rec").write_bytes(made(plan_of("0 0- 0 0x 0")))
        _, shown = self.find("my pass.rec")
        line = re.search(r"This writes all to report.txt: (.*?) UTC|This writes all to report.txt: (.*? /dev/null)", shown.text())
        Path("bin").mkdir()
        Path("bin/tmx").symlink_to(PROGRAM)
        subprocess.run(line[2], shell=True, check=True, env={"PATH": f"{self.folder}/bin:{os.environ['PATH']}"})
        lines = [str(it) for it in tmx.Recording("my pass.rec", "s.toml").report()]
        self.assertEqual((Path("report.txt").read_text().splitlines(), len(lines)), (lines, 7))

    def test_a_report_that_fails_leaves_its_file(self) -> None:
        Path("report.txt").write_text("before")
        self.program('[ $1 != packets ] || { "$real" "$@" >/dev/null; kill -KILL $$; }; exec "$real" "$@"')
        self.assertEqual(command("report", "--settings", SETTINGS, "--report", "report.txt", RECORDING)[0], 1)
        self.assertEqual((Path("report.txt").read_text(), sorted(os.listdir())), ("before", ["program", "report.txt"]))


class TimesOfLosses(ReportCase):
    def stamped(self, spell, before: bool = True) -> bytes:
        """Frames with times of receipt, before each or behind it; in record 2 one is damaged, and before record 4 two are lost."""
        octets = made(plan_of("0 0 0x 0 0- 0- 0 0"))
        frames = [octets[at : at + 32] for at in range(0, len(octets), 32)]
        stamps = [spell(BEGIN + number * timedelta(seconds=0.5)) for number in range(len(frames))]
        return b"".join(b"\xaa\xbb" + stamp + one if before else one + b"\xaa\xbb" + stamp for one, stamp in zip(frames, stamps))

    def passed(self, time: datetime, epoch: datetime) -> tuple[int, int]:
        """The days and the milliseconds of the day."""
        span = time - epoch
        return span.days, span.seconds * 1000 + span.microseconds // 1000

    def cds(self, time: datetime, lead: bytes = b"", days: int = 2, below: int = 2, epoch: datetime = datetime(1958, 1, 1)) -> bytes:
        """With 999 microseconds, or as many picoseconds and one less than a microsecond of these."""
        day, millisecond = self.passed(time, epoch)
        rest = {0: b"", 2: (999).to_bytes(2, "big"), 4: (999_999_999).to_bytes(4, "big")}[below]
        return lead + day.to_bytes(days, "big") + millisecond.to_bytes(4, "big") + rest

    def cuc(self, time: datetime, lead: bytes, coarse: int, fine: int) -> bytes:
        return lead + int((time - datetime(2020, 1, 1)).total_seconds() * 256**fine).to_bytes(coarse + fine, "big")

    def test_times_of_receipt(self) -> None:
        forms = {
            "cds8": (self.cds, None),
            "CDS6": (lambda it: self.cds(it, below=0), None),
            "cds11": (lambda it: self.cds(it, days=3, below=4), None),
            "cds": (lambda it: self.cds(it, b"\x46", 3, 4), None),
            "cds9": (lambda it: self.cds(it, days=3, epoch=datetime(2000, 1, 1)), "2000-01-01"),
            "cuc4.2": (lambda it: self.cuc(it, b"", 4, 2), "2020-01-01"),
            "cuc": (lambda it: self.cuc(it, b"\x2d", 4, 1), "2020-01-01"),
            "cuc5.3": (lambda it: self.cuc(it, b"", 5, 3), "2020-01-01"),
            ">f8": (lambda it: struct.pack(">d", (it - datetime(1970, 1, 1)).total_seconds()), None),
            "<f8": (lambda it: struct.pack("<d", (it - datetime(1970, 1, 1)).total_seconds()), None),
        }
        for form, (spell, epoch) in forms.items():
            for before in (True, False):
                with self.subTest(form=form, before=before):
                    octets, skipped = self.stamped(spell, before), 2 + len(spell(BEGIN))
                    asked = receipt_of(f"{2 if before else 34}:{form}", epoch)
                    found, shown = self.find(octets, f"{HERE}skip_{'before' if before else 'after'} = {skipped}\n", times=asked)
                    self.times_are_right(found, shown)

    def times_are_right(self, found: Findings, shown: Page) -> None:
        def at(record: int) -> str:
            return f"{(BEGIN + record * timedelta(seconds=0.5)).isoformat(timespec='milliseconds')}Z"

        self.assertEqual((found.times.first, found.times.last), (at(0), at(5)))
        lines = [(time, int(line.split("record=")[1].split()[0])) for time, line in found.report.first]
        self.assertEqual([time for time, _ in lines], [at(record) for _, record in lines])
        self.assertEqual([(it.begin, it.end) for it in found.outages], [(at(3), at(4)), (at(1), at(3))])
        self.assertEqual(shown.tables["The longest outages"][1][-2:], [at(3), at(4)])
        self.assertEqual([row[0] for row in shown.tables["The report"][1:]], [time for time, _ in lines])

    def test_p_fields(self) -> None:
        """Those of CCSDS 301.0-B-4, 3.2.2 and 3.3.2."""
        for kind, octets, wanted in (
            ("cds", "40", (2, 0, 7)),
            ("cds", "41", (2, 2, 9)),
            ("cds", "4a", (2, 4, 11)),
            ("cds", "4d", (3, 2, 10)),
            ("cds", "43", None),
            ("cds", "c1", None),
            ("cds", "1e", None),
            ("cuc", "1e", (4, 2, 7)),
            ("cuc", "20", (1, 0, 2)),
            ("cuc", "9c 24", (5, 1, 8)),
            ("cuc", "af 7c", (7, 10, 19)),
            ("cuc", "9c 80", None),
            ("cuc", "41", None),
            ("cuc", "", None),
        ):
            found = code_of_lead(kind, bytes.fromhex(octets))
            self.assertEqual(found and (found.coarse, found.fine, found.octets), wanted, (kind, octets))

    def test_octets_that_are_no_time(self) -> None:
        code = Code("cds", 2, 2)
        leap = self.cds(BEGIN)[:2] + (86_400_999).to_bytes(4, "big") + bytes(2)
        self.assertIsNotNone(code.passed(leap))
        self.assertIsNone(code.passed(leap[:2] + (86_401_000).to_bytes(4, "big") + bytes(2)))
        self.assertIsNone(code.passed(leap[:6] + (1000).to_bytes(2, "big")))
        self.assertIsNone(code.passed(leap[:7]))
        self.assertIsNone(Code(">f8", 8).passed(struct.pack(">d", float("nan"))))
        octets = self.stamped(lambda it: self.cds(it, b"\x41"))
        torn = octets[: 2 * 43 + 2] + b"\x40" + octets[2 * 43 + 3 :]  # the P-field of record 2
        found, _ = self.find(torn, f"{HERE}skip_before = 11\n", times=Receipt(2, "cds", "1958-01-01"))
        self.assertEqual([time is None for time, line in found.report.first], ["record=2 " in line for _, line in found.report.first])
        for octets, receipt, said in (
            (octets, Receipt(3, "cds", "1958-01-01"), "octet 3 of the first record is no P-field of cds; a form without one is cds8"),
            (octets, Receipt(0, "cds8", "1958-01-01"), "octets 0 to 7 of the first record are no time of cds8"),
            (octets, Receipt(4, "cds8", "1958-01-01"), "octets 4 to 11 of a record aren't passed over by skip_before = 11"),
            (octets, Receipt(43, ">f8", "1970-01-01"), "octets 43 to 50 of a record aren't passed over"),
        ):
            with self.assertRaises(TimeError) as raised:
                self.find(octets, f"{HERE}skip_before = 11\n", times=receipt)
            self.assertIn(said, str(raised.exception))
        self.assertEqual(self.find(b"", times=Receipt(0, "cds8", "1958-01-01"))[0].times.first, None)

    def test_times_on_board(self) -> None:
        words = ("--time", "SECONDS,FRACTION", "--definition", ATTITUDE, "--apid", 101, "--epoch", "2000-01-01")
        for channel in (None, 0, 3):
            only = () if channel is None else ("--channel", channel)
            status = command("report", "--json", "--settings", SETTINGS, *words, *only, RECORDING, out="json")
            self.assertEqual(status, (0, ""))
            found = json.loads(Path("json").read_text())
            table = example().fields(ATTITUDE, 101, channel=channel, time=("SECONDS", "FRACTION"), epoch="2000-01-01")
            rows = list(zip(map(int, table["tm_record"]), ([str(it)[:23].replace(" ", "T") for it in table.time])))
            for time, line in found["report"]["first"]:
                record = int(line.split("record=")[1].split()[0])
                self.assertEqual(time, f"{[it for at, it in rows if at <= record][-1]}Z", line)
            for it in found["outages"]:
                self.assertEqual(it["begin"], f"{[time for at, time in rows if at <= it['before']][-1]}Z")
                behind = [time for at, time in rows if at >= it["record"]]
                self.assertEqual(it["end"], f"{behind[0]}Z")
        self.assertEqual(found["times"]["first"], f"{rows[0][1]}Z")
        self.assertEqual(found["times"]["last"], f"{rows[-1][1]}Z")

    def test_times_on_board_in_blocks(self) -> None:
        asked = {"time": "SECONDS,FRACTION", "definition": str(ATTITUDE), "apid": 101, "epoch": "2000-01-01"}
        measured = tmx.loss_times.times_wanted(None, asked["time"], asked["definition"], asked["apid"], 0, asked["epoch"])
        wanted = self.find(RECORDING, SETTINGS, times=measured)[0]
        for rows in (1, 7, 294, 295, 296):
            tmx.loss_times.ROWS, before = rows, tmx.loss_times.ROWS
            self.addCleanup(setattr, tmx.loss_times, "ROWS", before)
            self.assertEqual(self.find(RECORDING, SETTINGS, times=measured)[0], wanted, rows)
            tmx.loss_times.ROWS = before


class Safe(ReportCase):
    EVIL = "</title><script>alert('1')</script><img src=x onerror=\"a()\">&amp; \x00\x1b"

    def test_everything_is_escaped(self) -> None:
        name, settings, report = "<b>&\"'.rec", "<i>'.toml", "java<script>:'\".txt"
        Path(name).write_bytes(made(plan_of("0 0- 0 0x 0")))
        Path(settings).write_text(HERE)
        plain = self.find(made(plan_of("0 0- 0 0x 0")), station="S", pass_="P", report="r.txt")[1]
        for asked in ({}, {"report": report}):
            words = {"title": self.EVIL, "station": self.EVIL, "pass_": self.EVIL}
            found, shown = self.find(name, settings, **words, **asked)
            said = self.EVIL.replace("\x00", "?").replace("\x1b", "?")
            self.assertEqual(shown.tables[""][:2], [["Station", said], ["Pass", said]])
            self.assertEqual(dict(shown.tables["Settings and versions"])["file"], settings)
            self.assertIn(["Recording", name], shown.tables[""])
            self.assertEqual(shown.elements - plain.elements, Counter() if asked else Counter(code=1))
            kinds = {name for _, name, _ in shown.attributes}
            self.assertEqual([it for it in kinds if it.startswith("on") or it == "src"], [])
        self.assertEqual([it for _, name, it in shown.attributes if name == "href"], ["java%3Cscript%3E%3A%27%22.txt"])

    def test_words_that_are_no_text(self) -> None:
        octets, words = made(plan_of("0 0")), os.fsdecode(b"orbit \xff")
        self.assertEqual(self.find(octets, pass_=words)[1].tables[""][0], ["Pass", "orbit ?"])
        self.assertEqual(command("report", "--json", "--settings", "s.toml", "--pass", words, "pass.rec", out="json"), (0, ""))
        self.assertEqual(json.loads(Path("json").read_text())["pass"], words)

    def test_nothing_comes_from_outside(self) -> None:
        self.assertEqual(command("report", "--settings", SETTINGS, RECORDING, out="page"), (0, ""))
        text = Path("page").read_text()
        self.assertEqual(re.findall(r"(?:https?:)?//[^\s\"']+", text), ["http://www.w3.org/2000/svg"])
        self.assertEqual(re.findall(r"@import|url\(|<script|<link|<iframe|\ssrc=", text), [])
        self.assertEqual((Page(text).elements["style"], ".s-missing { fill:" in text), (1, True))

    def test_the_page_of_the_command(self) -> None:
        found, svg = find(str(RECORDING), str(SETTINGS), Asked("T", "S", "P"))
        words = ("--title", "T", "--station", "S", "--pass", "P", "--settings", SETTINGS, RECORDING)
        self.assertEqual((command("report", *words, out="page"), Path("page").read_text()), ((0, ""), page(found, svg)))
        self.assertEqual(command("report", "--json", *words, out="json"), (0, ""))
        self.assertEqual(json.loads(Path("json").read_text()), json.loads(json.dumps(found.json())))
        said = "tmx report: standard output: No space left on device\n"
        self.assertEqual(command("report", *words, out="/dev/full"), (1, said))

    def test_colours(self) -> None:
        for (_, one), (_, other) in combinations([*COLOURS.items(), ("black", "#222222"), ("white", "#ffffff")], 2):
            for seen in colours.SEEN:
                self.assertGreater(colours.distance(one, other, seen), LEAST_DISTANCE, (one, other, seen))


CHROMIUM = shutil.which("chromium")
# Tells the page around how wide the window is, how wide the page, and what sticks out.  The window itself isn't made narrower than 500.
MEASURE = """<script>
const shown = document.documentElement.clientWidth, parts = [...document.querySelectorAll("h1, h2, p, div, table.plain")];
const out = parts.filter(it => it.getBoundingClientRect().right > shown).map(it => it.tagName + it.textContent.slice(0, 30));
parent.postMessage(JSON.stringify([shown, document.documentElement.scrollWidth, out]), "*");
</script>"""
AROUND = """<!DOCTYPE html><body><script>onmessage = it => { document.body.dataset.said = it.data }</script>
<iframe src="measured.html" style="border: 0; width: WIDTHpx; height: 9000px"></iframe></body>"""


@unittest.skipIf(CHROMIUM is None, "chromium is not there")
class Browser(ReportCase):
    def browse(self, page: str, width: int, *words: str) -> subprocess.CompletedProcess[str]:
        line = [CHROMIUM, "--headless", "--no-sandbox", "--disable-gpu", "--disable-dev-shm-usage", "--hide-scrollbars"]
        line += ["--enable-logging=stderr", f"--user-data-dir={self.folder / 'profile'}", f"--window-size={width},2000", *words, f"file://{self.folder / page}"]
        return subprocess.run(line, capture_output=True, text=True, check=True, timeout=120)

    def test_two_widths(self) -> None:
        words = ("--time", "SECONDS,FRACTION", "--definition", ATTITUDE, "--apid", 101, "--epoch", "2000-01-01")
        self.assertEqual(command("report", "--station", "S" * 90, *words, "--settings", SETTINGS, RECORDING, out="page.html"), (0, ""))
        text = Path("page.html").read_text()
        Path("measured.html").write_text(re.sub("<meta http-equiv.*>", "", text).replace("</body>", f"{MEASURE}</body>"))
        for width in (400, 1200):
            ran = self.browse("page.html", width, f"--screenshot={self.folder / 'shot.png'}")
            self.assertNotIn("CONSOLE", ran.stderr)
            head = Path("shot.png").read_bytes()[:24]
            self.assertEqual((head[:8], struct.unpack(">2I", head[16:])), (b"\x89PNG\r\n\x1a\n", (width, 2000)))
            Path("around.html").write_text(AROUND.replace("WIDTH", str(width)))
            ran = self.browse("around.html", 1300, "--virtual-time-budget=5000", "--dump-dom")
            said = re.search('data-said="([^"]*)"', ran.stdout)[1].replace("&quot;", '"')
            self.assertEqual(json.loads(said), [width, width, []])

    def test_the_policy_lets_nothing_run(self) -> None:
        self.assertEqual(command("report", "--settings", SETTINGS, RECORDING, out="page.html"), (0, ""))
        Path("page.html").write_text(Path("page.html").read_text().replace("</body>", "<script>document.title = 'run'</script></body>"))
        ran = self.browse("page.html", 800, "--dump-dom")
        self.assertIn("CONSOLE", ran.stderr)
        self.assertNotIn("<title>run", ran.stdout)


if __name__ == "__main__":
    unittest.main()
