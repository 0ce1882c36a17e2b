"""The engine, by the library that TMX_LIBRARY names, beside recordings that the program reads."""

import os
import random
import re
import unittest
from binascii import crc_hqx
from dataclasses import fields
from pathlib import Path
from unittest import mock

from support import CLONE, RECORDING, SETTINGS, TestCase, damaged, example, needs, tmx

from tmx import engine

HEADER = (CLONE / "include" / "tmx.h").read_text()
TYPES = {"uint64_t": "u8", "uint32_t": "u4", "uint16_t": "u2", "uint8_t": "u1"}
SMALLEST = {"EVENTS_ROOM": engine.EVENTS_MOST, "OCTETS_ROOM": 67583}


class Numbers(TestCase):
    def test_those_of_the_header(self) -> None:
        numbers = dict(re.findall("TMX_([A-Z_]+) = ([0-9]+)", HEADER))
        for word in ("DONE", "MORE", "EVENT_PACKET", "EVENTS_MOST", "CHECKPOINT_MOST", "LINE_MOST"):
            self.assertEqual(getattr(engine, word), int(numbers[word]), word)
        self.assertEqual(SMALLEST["OCTETS_ROOM"], int(numbers["OCTETS_MOST"]))

    def test_no_memory(self) -> None:
        error = engine.refused("tmx: out of memory")
        self.assertEqual((type(error), error.status, str(error)), (tmx.OutOfMemoryError, 3, "tmx: out of memory"))

    def test_an_event_is_read_as_the_header_has_it(self) -> None:
        members = re.findall(r"^ +(\w+) (\w+);", re.search(r"struct tmx_event {(.*?)\n};", HEADER, re.DOTALL)[1], re.MULTILINE)
        self.assertEqual([(TYPES[kind], name) for kind, name in members], [(kind[-2:], name.strip("_")) for kind, name in zip(engine.TYPES, engine.EventTuple._fields)])
        octets, at, places, values = bytes(range(48)), 0, {}, {}
        for kind, name in members:
            places[name], end = at, at + int(TYPES[kind][1])
            values[name], at = int.from_bytes(octets[at:end], "little"), end
        self.assertEqual(engine.EVENT.unpack(octets), tuple(values.values()))
        self.assertEqual(engine.PLACED.unpack(octets), tuple(values[it] for it in ("seen", "from", "octets", "at", "place", "kind", "channel")))
        self.assertEqual((engine.AT_PLACE, engine.KIND_PLACE), (places["at"], places["kind"]))


class Library:
    """Stands for the library, where that isn't there: it refuses what the header says, and counts records of nine octets.

    jobs   of each that is open the records that are done
    freed  how many were freed
    """

    def __init__(self) -> None:
        self.jobs: dict[int, int] = {}
        self.made = self.freed = 0

    def opened(self, job, records: int) -> int:
        self.made += 1
        job.value = self.made
        self.jobs[self.made] = records
        return engine.DONE

    def tmx_job_new(self, job, settings, length, refusal) -> int:
        if b"error_control" in settings:
            return self.opened(job, 0)
        refusal.line = b"tmx: settings: missing error_control"
        return 3

    def tmx_job_resume(self, job, settings, length, checkpoint, octets, refusal) -> int:
        if octets >= 24 and checkpoint[:4] == b"TMXC":
            return self.opened(job, int.from_bytes(checkpoint[20:24], "big"))
        refusal.line = b"tmx: checkpoint: " + (b"magic" if octets >= 24 else b"short")
        return 4

    def tmx_job_record_length(self, job) -> int:
        return 9

    def tmx_job_records(self, job) -> int:
        return self.jobs[job.value]

    def tmx_job_free(self, job) -> None:
        if job.value:
            del self.jobs[job.value]
            self.freed += 1

    def tmx_job_end(self, job, room, did) -> int:
        return engine.DONE


class Opening(TestCase):
    """When a job is opened and freed, and what is refused then."""

    def setUp(self) -> None:
        super().setUp()
        self.library = Library()
        self.enterContext(mock.patch.object(engine, "load_library", return_value=self.library))
        self.rules = tmx.Settings(spacecraft=42, frame_length=9, error_control=False)

    def test_the_constructor_opens_a_job(self) -> None:
        for checkpoint, records in ((None, 0), (b"TMXC" + bytes(16) + (848).to_bytes(4, "big"), 848)):
            opened = tmx.Engine(self.rules, checkpoint)
            self.assertEqual((opened.records, opened.record_length), (records, 9))
        opened = tmx.Engine(self.rules, bytearray(b"TMXC" + bytes(19) + b"\7"))
        self.assertEqual(opened.records, 7)
        self.raises(TypeError, None, tmx.Engine, self.rules, 848)

    def test_what_the_constructor_refuses(self) -> None:
        Path("s.toml").write_text("spacecraft = 42\nframe_length = 9\n")
        self.assertEqual(self.raises(tmx.SettingsError, "missing", tmx.Engine, "s.toml").status, 2)
        Path("empty.chk").touch()
        said = self.raises(tmx.CheckpointError, "short", list, example().packets(resume="empty.chk"))
        error = self.raises(tmx.CheckpointError, "short", tmx.Engine, self.rules, b"")
        self.assertEqual((error.line, error.status, str(error)), (said.line, said.status, "tmx: checkpoint: short"))
        self.raises(tmx.CheckpointError, "magic", tmx.Engine, self.rules, bytes(24))
        self.assertEqual((self.library.made, self.library.freed), (0, 0))

    def test_a_closed_engine(self) -> None:
        opened = tmx.Engine(self.rules)
        self.assertEqual(opened.close(), ([], []))
        self.assertEqual((self.library.jobs, self.library.freed), ({}, 1))
        with tmx.Engine(self.rules) as left:
            self.assertEqual((left.records, len(self.library.jobs)), (0, 1))
        with tmx.Engine(self.rules) as closed:
            closed.close_events()
        self.assertEqual((self.library.jobs, self.library.freed), ({}, 3))
        for it in (opened, left, closed):
            for call in (it.close, it.close_events, lambda: it.feed(b""), lambda: it.feed_events(b""), lambda: it.records, lambda: it.checkpoint):
                self.raises(tmx.ClosedError, None, call)
            self.assertEqual(it.record_length, 9)
        del opened, left, closed, it, call
        self.assertEqual(self.library.freed, 3)


@unittest.skipUnless("TMX_LIBRARY" in os.environ, "TMX_LIBRARY names no library")
class Engines(TestCase):
    def fed(self, settings, octets: bytes, sizes) -> tuple[list[tmx.Packet], list]:
        """What an engine gives of octets that come in chunks of these sizes."""
        engine, packets, report = tmx.Engine(settings), [], []
        while octets:
            size = next(sizes)
            given = engine.feed(octets[:size])
            octets = octets[size:]
            packets += given.packets
            report += given.report
        given = engine.close()
        return packets + given.packets, report + given.report

    def numbers(self, settings, octets: bytes) -> tuple[list[list], list[bytes]]:
        """The events of a recording in two chunks and its end, and the octets of all packets."""
        engine, half = tmx.Engine(settings), len(octets) // 2
        given = [engine.feed_events(octets[:half]), engine.feed_events(octets[half:]), engine.close_events()]
        return [[*it.events] for it in given], [it.octets for it in given]

    def test_chunks_give_what_the_recording_gives(self) -> None:
        for seed in range(2000, 2010):
            with self.subTest(seed=seed):
                _, octets = damaged(seed)
                chance, recording = random.Random(seed), tmx.Recording("recording", "settings")
                found = self.fed("settings", octets, iter(lambda: chance.choice([1, 7, 100, 5000, 100_000]), None))
                self.assertEqual(found, (list(recording.packets()), recording.report()))

    def test_engines_go_on_from_checkpoints(self) -> None:
        octets, recording = RECORDING.read_bytes(), example()
        size = len(octets) // 300
        list(recording.packets(checkpoint="chk", stop_after=100))
        with open("chk", "rb") as file:
            engine = tmx.Engine(tmx.Settings.read(SETTINGS), file.read())
        self.assertEqual((engine.records, engine.record_length), (100, 256))
        packets = [*engine.feed(octets[engine.records * engine.record_length :]).packets, *engine.close().packets]
        self.assertEqual(packets, list(recording.packets(resume="chk")))

    def test_a_second_engine_is_fed_from_where_the_first_stood(self) -> None:
        """The example has 848 packets, and the first engine has a part of record 150 too."""
        octets = RECORDING.read_bytes()
        with tmx.Engine(SETTINGS) as first:
            packets = first.feed(octets[: 150 * 256 + 100]).packets
            kept, records = first.checkpoint, first.records
        with tmx.Engine(SETTINGS, kept) as second:
            self.assertEqual((records, second.records, second.record_length), (150, 150, 256))
            packets += second.feed(octets[second.records * second.record_length :]).packets + second.close().packets
        self.assertEqual((len(packets), packets), (848, list(example().packets())))

    def test_packets_of_some_applications(self) -> None:
        octets, engine = RECORDING.read_bytes(), tmx.Engine(SETTINGS, apid=[101, 200])
        packets, report = (a + b for a, b in zip(engine.feed(octets), engine.close()))
        self.assertEqual((packets, report), (list(example().packets(apid=[101, 200])), example().report()))
        self.assertRaises(ValueError, tmx.Engine, SETTINGS, apid=2048)

    def test_a_closed_engine(self) -> None:
        engine = tmx.Engine(SETTINGS)
        engine.feed(RECORDING.read_bytes()[:-10])
        self.assertEqual(engine.records, 299)
        self.assertEqual([str(it) for it in engine.close().report][-1], "short record=299 octets=246")
        for call in (engine.close, lambda: engine.feed(b""), lambda: engine.checkpoint, lambda: engine.records):
            self.raises(tmx.ClosedError, None, call)

    def test_refusals(self) -> None:
        with open("settings", "w") as file:
            file.write("spacecraft = 42\nframe_length = 24\n")
        error = self.raises(tmx.SettingsError, "missing", tmx.Engine, "settings")
        self.assertEqual(str(error), "tmx: settings: missing error_control")
        for key in (it.name for it in fields(tmx.Settings)):
            values = {"spacecraft": "42", "frame_length": "256", "error_control": "true"} | {key: "1.5"}
            with open("settings", "w") as file:
                file.writelines(f"{name} = {value}\n" for name, value in values.items())
            error = self.raises(tmx.SettingsError, "kind", tmx.Engine, "settings")
            self.assertEqual(str(error), f"tmx: settings: kind {key}")
        for checkpoint, word in ((b"", "short"), (b"TMXC", "short"), (bytes(100), "magic")):
            error = self.raises(tmx.CheckpointError, word, tmx.Engine, SETTINGS, checkpoint)
            self.assertEqual((str(error), error.status), (f"tmx: checkpoint: {word}", 2))
        with open("settings", "w") as file:
            file.write("#" * 1048577)
        error = self.raises(tmx.FileError, "too long", tmx.Engine, "settings")
        self.assertEqual((str(error), error.status, error.file), ("tmx: settings: too long", 2, None))
        self.raises(tmx.FileError, "too long", tmx.Engine, SETTINGS, bytes(1048577))
        self.raises(tmx.LibraryMissingError, None, tmx.Engine, SETTINGS, library="./none.so")

    def test_a_refused_call_changes_nothing(self) -> None:
        settings = tmx.Settings(spacecraft=42, frame_length=9, error_control=False)
        begun = tmx.Engine(settings)
        kept = begun.checkpoint[:20] + (2**32 - 2).to_bytes(4, "big") + begun.checkpoint[24:-2]
        engine = tmx.Engine(settings, kept + crc_hqx(kept, 0xFFFF).to_bytes(2, "big"))
        engine.feed(bytes(8))
        self.assertEqual(self.raises(tmx.RunError, "too many records", engine.feed, bytes(10)).status, 1)
        self.assertEqual([str(it) for it in engine.feed(bytearray(9)).report], ["bad record=4294967294 fault=spacecraft"])
        self.raises(tmx.RunError, "too many records", engine.feed, bytes(1))
        self.assertEqual([str(it) for it in engine.close().report], ["short record=4294967295 octets=8"])

    def test_octets_that_a_job_doesnt_take(self) -> None:
        engine = tmx.Engine(SETTINGS)
        engine.job.end()
        self.raises(tmx.DisagreementError, None, engine.feed, bytes(1))

    def test_events_say_the_packets_and_the_report(self) -> None:
        for seed in range(2000, 2010):
            with self.subTest(seed=seed), mock.patch.object(engine, "module", return_value=None):
                _, octets = damaged(seed)
                recording = tmx.Recording("recording", "settings")
                events, packets = self.numbers("settings", octets)
                found = [(it, whole[it.at : it.at + it.octets]) for part, whole in zip(events, packets) for it in part]
                self.assertEqual(
                    [(it.seen, it.channel, it.from_, it.place, it.application, it.count, of) for it, of in found if it.kind == 1],
                    [(it.record, it.channel, it.from_, it.at, it.apid, it.count, it.octets) for it in recording.packets()],
                )
                self.assertEqual([it.seen for it, _ in found if it.kind != 1], [it.record for it in recording.report()])
                with mock.patch.multiple(engine, **SMALLEST):
                    self.assertEqual(self.numbers("settings", octets), (events, packets))

    @needs("numpy")
    def test_events_in_an_array(self) -> None:
        given, array = self.numbers(SETTINGS, RECORDING.read_bytes()), mock.patch.object(engine, "module", return_value=None)
        with array:
            listed = self.numbers(SETTINGS, RECORDING.read_bytes())
        self.assertEqual(([[it.tolist() for it in part] for part in given[0]], given[1]), listed)
        self.assertEqual(given[0][0][0]["from_"], listed[0][0][0].from_)
