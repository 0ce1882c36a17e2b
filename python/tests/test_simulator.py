"""The simulator of passes by the standards' own vectors, and what the package gives of its passes beside their truth.

Passes have random seeds.  A failure names the seed, as `SEED=123`: with this variable the pass of this seed runs alone.
"""

import doctest
import io
import os
import random
import subprocess
import sys
import unittest
from collections import Counter
from collections.abc import Iterable
from pathlib import Path

import simulator
from simulator import Application, Channel, Form, Heard, Slip, Spacecraft, Truth
from support import TESTS, TestCase, needs, tmx

PASSES = 30
BASE = random.SystemRandom().randrange(10**6)
SEEDS = [int(os.environ["SEED"])] if "SEED" in os.environ else [*range(BASE, BASE + PASSES)]


class Vectors(unittest.TestCase):
    """What the standards give, and what was packed by hand."""

    def test_error_control(self) -> None:
        self.assertEqual(simulator.error_control(b"123456789").hex(), "29b1")
        self.assertEqual(simulator.error_control(b"").hex(), "ffff")

    def test_randomizer(self) -> None:
        sequence = simulator.randomize(bytes(600))
        self.assertEqual(sequence[:8].hex(), "ff480ec09a0d70bc")
        self.assertEqual((sequence[255:510], sequence[510:]), (sequence[:255], sequence[:90]))
        self.assertEqual(simulator.randomize(sequence[:500]), bytes(500))

    def test_times(self) -> None:
        """258.5 s are 0102.8 in hexadecimal.  The day 300 and 3 hours, 7 ms and 9 microseconds: 10,800,007 ms are A4CB87."""
        self.assertEqual(simulator.encode_cuc(258_500_000).hex(), "000001028000")
        self.assertEqual(simulator.encode_cuc(999_999).hex(), "00000000ffff")
        self.assertEqual(simulator.encode_cds(300 * 86_400_000_000 + 10_800_007_009).hex(), "012c00a4cb870009")

    def test_headers_of_frames(self) -> None:
        """00 0000101010 011 1: spacecraft 42, channel 3, with an OCF.  1 0 0 11 00000000101: a secondary header, place 5."""
        channel = Channel(3, ocf=True, secondary=4, extended=True)
        self.assertEqual(simulator.make_header(42, channel, 511, 0x01020304, 3 << 11 | 5).hex(), "02a7ff049805")
        self.assertEqual(simulator.make_secondary(channel, 0x01020304, random.Random(1)).hex(), "03010203")
        self.assertEqual(simulator.make_header(1023, Channel(0), 0, 1, 1 << 14).hex(), "3ff000014000")

    def test_headers_of_packets(self) -> None:
        """000 0 0 00100100011 01 00000000000101: application 0x123, first, count 5.  With a secondary header bit 4 is 1."""
        self.assertEqual(simulator.make_packet(0x123, 1, 5, b"", b"abc").hex(), "012340050002616263")
        self.assertEqual(simulator.make_packet(2047, 3, 16384 + 1, b"\x01\x02", b"a").hex(), "0fffc0010002010261")

    def test_control_word(self) -> None:
        """0 00 000 01, 000011 00, 0 1 0 1 0 10 0: channel 3, no bit lock, wait, FARM-B counter 2."""
        word = simulator.Clcw(3, no_bit_lock=True, wait=True, farm_b=2, report=0xA5)
        self.assertEqual(word.encode().hex(), "010c54a5")

    def test_example(self) -> None:
        self.assertEqual(doctest.testmod(simulator).failed, 0)

    @needs("mypy")
    def test_types(self) -> None:
        line = [sys.executable, "-m", "mypy", "--strict", "--cache-dir", os.devnull, str(TESTS / "simulator")]
        ran = subprocess.run(line, capture_output=True, text=True, check=False)
        self.assertEqual(ran.returncode, 0, ran.stdout + ran.stderr)


class Sending(unittest.TestCase):
    """Passes that were worked out by hand, and streams whose bits are looked at in the places that the truth names."""

    def test_a_frame_by_hand(self) -> None:
        """Packets of 10 octets in data fields of 16: the second frame's first packet begins at 4, the sixth's at 0 again."""
        craft = Spacecraft(42, (Channel(1, (Application(5, (4, 4)),)),), frame_length=24)
        sent = simulator.send(craft, 6, 1)
        self.assertEqual([it.octets[:6].hex() for it in sent.frames[:2]], ["02a200001800", "02a201011804"])
        self.assertEqual([int.from_bytes(it.octets[4:6], "big") % 2048 for it in sent.frames], [0, 4, 8, 2, 6, 0])
        whole = b"".join(it.octets for it in sent.packets)
        self.assertEqual(b"".join(it.octets[6:22] for it in sent.frames), whole[:96])
        self.assertEqual([it.frames for it in sent.packets[:4]], [[0], [0, 1], [1], [1, 2]])
        self.assertEqual([it.is_cut for it in sent.packets], [False] * 9 + [True])

    def test_a_loss_by_hand(self) -> None:
        """Without frame 1 the packets 1 to 3 are not whole; frame 4 came twice, and the packets 7 and 8 are in it."""
        craft = Spacecraft(42, (Channel(1, (Application(5, (4, 4)),)),), frame_length=24)
        sent = simulator.send(craft, 6, 1)
        truth = Truth(simulator.hear(sent, Form(), [simulator.Lost(1, 1), simulator.Twice(4)], 1))
        self.assertEqual([it.sent for it in truth.packets], [0, 4, 5, 6, 7, 7, 8])
        self.assertEqual([(it.record, it.expected, it.found, it.missing) for it in truth.gaps()], [(1, 1, 2, 1), (4, 5, 4, 255)])
        self.assertEqual([it.word for it in truth.fates()], ["good", "lost", "good", "good", "twice", "good"])
        self.assertEqual(truth.covered(5), [(sent.packets[0].time,) * 2, (sent.packets[4].time, sent.packets[8].time)])

    def test_places_in_streams(self) -> None:
        for seed in range(6):
            with self.subTest(seed=seed):
                heard = simulator.make_hard_stream(seed) if seed % 2 else simulator.make_stream(seed)
                bits = f"{int.from_bytes(heard.octets, 'big'):0{8 * len(heard.octets)}b}"
                kinds = Counter(self.look(heard, bits, it) for it in heard.passages)
                self.assertGreater(kinds["good"], 150)
                if seed % 2:
                    self.assertGreater(kinds["bad"], 10)
                    self.assertEqual(kinds["inverted"], 19)

    def look(self, heard: Heard, bits: str, it: simulator.Passage) -> str:
        """Whether a passage is as the truth has it."""
        if it.frame is None:
            return ""
        frame = heard.sent.frames[it.frame].octets
        found = int(bits[it.frame_at :][: 8 * len(frame)] or "0", 2).to_bytes(len(frame), "big")
        found = simulator.randomize(found) if heard.form.randomized else found
        self.assertEqual(found == frame, it.is_good, it)
        self.assertEqual(bits[max(0, it.marker_at) : it.frame_at] == f"{0x1ACFFC1D:032b}", it.has_marker, it)
        if it.is_inverted and 400 < it.frame < 420:
            self.assertEqual(bytes(octet ^ 255 for octet in found), frame)
            return "inverted"
        return "good" if it.is_good else "bad"

    def test_slips_of_bits(self) -> None:
        craft = Spacecraft(42, (Channel(0, kind="idle"),), frame_length=20)
        sent = simulator.send(craft, 3, 1)
        plain = b"".join(it.octets for it in sent.frames)
        bits = f"{int.from_bytes(plain, 'big'):0480b}"
        heard = simulator.hear(sent, Form(), [Slip(1, 7, -3), Slip(0, 0, -5), Slip(2, 100, -60)], 1)
        wanted = bits[5:167] + bits[170:420]
        self.assertEqual(heard.octets, int(wanted.ljust(416, "0"), 2).to_bytes(52, "big"))
        self.assertEqual([(it.at, it.bits) for it in heard.passages], [(0, 155), (155, 157), (312, 100)])
        longer = simulator.hear(sent, Form(), [Slip(1, 7, 9)], 1)
        self.assertEqual(f"{int.from_bytes(longer.octets, 'big'):0{8 * len(longer.octets)}b}"[176:489], bits[167:])


class Compared(TestCase):
    def same(self, what: str, found: Iterable[object], wanted: Iterable[object]) -> None:
        """Fails with the first of two rows that differs."""
        found, wanted = list(found), list(wanted)
        at = next((k for k, (one, other) in enumerate(zip(found, wanted)) if one != other), min(len(found), len(wanted)))
        numbers = f"{what}: {len(found)} found and {len(wanted)} wanted; number {at} is"
        self.assertTrue(found == wanted, f"{numbers} {str(found[at : at + 1])[:200]} and not {str(wanted[at : at + 1])[:200]}")


class Passes(Compared):
    """What the package gives of whole records, beside the truth."""

    def test_passes(self) -> None:
        seen: Counter[str] = Counter()
        for seed in SEEDS:
            with self.subTest(SEED=seed):
                made = simulator.make_pass(seed)
                for heard in made.stations:
                    truth = Truth(heard)
                    recording = self.recording(heard)
                    self.compare_packets(truth, recording)
                    self.compare_report(truth, recording)
                    self.compare_summary(truth, recording)
                    seen.update(self.kinds(truth))
        if len(SEEDS) == PASSES:
            wanted = {"good", "lost", "twice", "damaged", "foreign", "noise", "joined", "reset", "thousands"}
            self.assertEqual(wanted - {*seen}, set(), SEEDS)

    def recording(self, heard: Heard) -> tmx.Recording:
        """A station's recording, in a file of this test's folder."""
        Path("pass.rec").write_bytes(heard.octets)
        craft, form = heard.sent.spacecraft, heard.form
        words = {"skip_before": form.before, "skip_after": form.check, "error_control": craft.error_control}
        return tmx.Recording("pass.rec", tmx.Settings(spacecraft=craft.number, frame_length=craft.frame_length, **words))

    def compare_packets(self, truth: Truth, recording: tmx.Recording) -> None:
        """Each whole packet comes in its order, with its octets.  No other comes but those of several parts, which are known."""
        packets, joined = list(recording.packets()), truth.joined
        known = {it.octets for it in truth.sent.packets} | {it.octets for it in joined}
        self.same("never sent", [it for it in packets if it.octets not in known], [])
        wanted = [(it.record, it.begin, it.place, it.channel, it.octets) for it in truth.packets]
        self.same("packets", [(it.record, it.from_, it.at, it.channel, it.octets) for it in packets], wanted)
        sent = {it.number: (it.channel, it.apid, it.count, it.flags) for it in truth.sent.packets}
        flags = ("continuation", "first", "last", "unsegmented")
        headers = [(it.channel, it.apid, it.count, flags.index(it.flags)) for it in packets]
        self.same("headers", headers, [sent.get(it.sent, mine) for it, mine in zip(truth.packets, headers, strict=True)])

    def compare_report(self, truth: Truth, recording: tmx.Recording) -> None:
        """Each bad record is reported, and each gap, with its size modulo 256."""
        report = recording.report()
        has_code = truth.sent.spacecraft.error_control
        words = {"frame": "crc", "foreign": "spacecraft", "noise": "crc" if has_code else "version"}
        bad = [(k, words[truth.records[k].kind]) for k in truth.bad]
        self.same("bad records", [(it.record, it.fault) for it in report if isinstance(it, tmx.Bad)], bad)
        gaps = [(it.record, it.channel, it.expected, it.found, it.missing) for it in report if isinstance(it, tmx.Gap)]
        self.same("gaps", gaps, [(it.record, it.channel, it.expected, it.found, it.missing) for it in truth.gaps()])
        master = [(it.record, it.expected, it.found, it.missing) for it in report if isinstance(it, tmx.MasterGap)]
        self.same("master gaps", master, [(it.record, it.expected, it.found, it.missing) for it in truth.master_gaps()])
        vca = [(it.record, it.frame.channel) for it in truth.good if it.frame.kind == "vca"]
        self.same("VCA frames", [(it.record, it.channel) for it in report if isinstance(it, tmx.Vca)], vca)

    def compare_summary(self, truth: Truth, recording: tmx.Recording) -> None:
        """The totals are those of the truth."""
        summary = recording.summary()
        of_all = summary.recording
        wanted = (len(truth.records), len(truth.good), len(truth.bad), truth.rest)
        self.assertEqual((of_all.records, of_all.good, of_all.bad, of_all.rest), wanted)
        gaps, master = truth.gaps(), truth.master_gaps()
        self.assertEqual((summary.master.gaps, summary.master.missing), (len(master), sum(it.missing for it in master)))
        self.assertEqual(sorted(summary.channels), sorted(truth.chains))
        for number, chain in truth.chains.items():
            kinds, missing = Counter(it.frame.kind for it in chain), [it.missing for it in gaps if it.channel == number]
            found = summary.channels[number]
            self.assertEqual((found.frames, found.idle, found.vca), (len(chain), kinds["idle"], kinds["vca"]))
            self.assertEqual((found.gaps, found.missing), (len(missing), sum(missing)))
        counted = {key: (it.packets, it.octets) for key, it in summary.applications.items()}
        self.assertEqual(counted, {key: (it["packets"], it["octets"]) for key, it in truth.counted().items()})

    def kinds(self, truth: Truth) -> set[str]:
        """What there is in a recording."""
        found = {it.word for it in truth.fates()} | {it.kind for it in truth.records}
        found |= {"joined"} if truth.joined else set()
        found |= {"reset"} if truth.sent.resets else set()
        return found | ({"thousands"} if any(it.lost > 1999 for it in truth.master_gaps()) else set())


class Streams(Compared):
    def test_frames_that_are_cut(self) -> None:
        """`tmx.cut` finds each frame whose place its marker, or those before and after, tell; and no other."""
        cut_in_all = 0
        for seed in SEEDS:
            with self.subTest(SEED=seed):
                heard = simulator.make_stream(seed)
                length = heard.record_length - heard.form.before
                cut = tmx.cut(io.BytesIO(heard.octets), length=length, derandomize=heard.form.randomized)
                size = heard.sent.spacecraft.frame_length
                sent = {it.octets: it.number for it in heard.sent.frames}
                found = [sent[it[:size]] for it in cut if it[:size] in sent]
                wanted = [it.frame for it in simulator.cuttable(heard)]
                self.same("frames", found, wanted)
                cut_in_all += len(wanted)
        self.assertGreater(cut_in_all, 100 * len(SEEDS))


if __name__ == "__main__":
    unittest.main()
