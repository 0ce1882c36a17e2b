"""Jobs that stop and go on, and recordings that grow."""

import contextlib
import io
import os
import subprocess
import threading
import time
import unittest
from pathlib import Path
from unittest import mock

from support import ATTITUDE, RECORDING, SETTINGS, TestCase, command, damaged, example, reference, tmx

from tmx import __main__ as commands
from tmx import following

OCTETS = RECORDING.read_bytes()


class Steps(TestCase):
    def test_steps_give_what_one_run_gives(self) -> None:
        for seed in range(1000, 1020):
            with self.subTest(seed=seed):
                settings, octets = damaged(seed)
                for given in ("recording", io.BytesIO(octets)):
                    Path("chk").unlink(missing_ok=True)
                    self.compare(tmx.Recording(given, "settings"), len(octets) // settings.record)

    def compare(self, recording: tmx.Recording, records: int) -> None:
        found: list[tmx.Packet] = []
        for number in range(0, records + 1, records // 3 + 1):
            resume = "chk" if number else None
            found += recording.packets(checkpoint="chk", resume=resume, stop_after=records // 3 + 1, report="report")
            self.assertEqual(tmx.records_done("chk"), min(records, number + records // 3 + 1))
        found += recording.packets(checkpoint="chk", resume="chk")
        found += recording.packets(resume="chk", report="report")
        self.assertEqual(found, list(recording.packets()))
        self.assertEqual(Path("report").read_text().splitlines(), [str(it) for it in recording.report()])

    def test_a_job_that_is_ended_early_is_done_again(self) -> None:
        recording = example()
        first = list(recording.packets(checkpoint="chk", stop_after=100))
        before = Path("chk").read_bytes()
        packets = recording.packets(checkpoint="chk", resume="chk")
        begun = [next(packets) for _ in range(50)]
        packets.close()
        self.assertEqual(Path("chk").read_bytes(), before)
        again = list(recording.packets(checkpoint="chk", resume="chk"))
        self.assertEqual(again[:50], begun)
        self.assertEqual(first + again, list(recording.packets()))
        self.assertEqual(os.listdir(), ["chk"])

    def test_a_job_of_no_records(self) -> None:
        Path("empty").touch()
        self.assertEqual(list(tmx.Recording("empty", SETTINGS).packets(checkpoint="chk", report="report")), [])
        self.assertEqual((tmx.records_done("chk"), Path("report").read_bytes()), (0, b""))
        self.assertEqual(list(example().packets(resume="chk")), list(example().packets()))

    def test_jobs_of_each_version(self) -> None:
        tmx.Settings(42, 256, True).write("settings")
        recording = tmx.Recording(RECORDING, "settings")
        whole = list(recording.packets())
        for version in (1, 2, 3):
            _, jobs = reference.read_recording(reference.Settings("settings"), OCTETS, {20: version})
            Path("chk").write_bytes(jobs[20][1])
            self.assertEqual(tmx.records_done("chk"), 20, version)
            rest = list(recording.packets(resume="chk", checkpoint="chk"))
            self.assertEqual((rest, tmx.records_done("chk")), (whole[-len(rest) :], 300), version)

    def test_a_checkpoint_is_on_the_disk_before_it_takes_its_name(self) -> None:
        done = mock.Mock()
        with mock.patch("os.fsync", done.sync), mock.patch("os.replace", done.replace):
            list(example().packets(checkpoint="chk"))
        self.assertEqual([name for name, _, _ in done.mock_calls], ["sync", "replace"])

    def test_files_of_the_program(self) -> None:
        recording, step = example(), {"checkpoint": "chk", "stop_after": 100}
        recording.extract("whole")
        recording.extract("parts", **step)
        recording.extract("parts", resume="chk")
        self.assertEqual(Path("parts").read_bytes(), Path("whole").read_bytes())
        recording.split("parts.d", **step)
        recording.split("parts.d", resume="chk")
        recording.split("whole.d")
        self.assertEqual(*[{it.name: it.read_bytes() for it in Path(at).iterdir()} for at in ("parts.d", "whole.d")])
        whole = recording.fields(ATTITUDE, 101)
        parts = [recording.fields(ATTITUDE, 101, **step), recording.fields(ATTITUDE, 101, resume="chk")]
        for name in whole:
            self.assertEqual(list(whole[name]), [value for it in parts for value in it[name]])


class Whole(TestCase):
    """What is written has its name when it is whole."""

    def stands(self) -> dict[str, bytes]:
        return {it.name: it.read_bytes() for it in Path().iterdir() if it.name != "program"}

    def wanted(self) -> bytes:
        return b"".join(it.octets for it in example().packets())

    def test_a_run_that_is_killed_leaves_all_as_it_was(self) -> None:
        self.program('"$real" "$@" | head -c 30000\nkill -KILL $$')
        for before in ({}, {"out": b"before"}):
            for name, octets in before.items():
                Path(name).write_bytes(octets)
            self.raises(tmx.KilledError, None, example().extract, "out", checkpoint="chk")
            self.assertEqual(self.stands(), before)
        self.raises(tmx.KilledError, None, example().extract, "out", resume="chk")
        self.assertEqual(self.stands(), {"out": b"before"})

    def test_a_file_has_its_name_when_it_is_whole(self) -> None:
        self.program('"$real" "$@"; status=$?; ls -A >there; exit $status')
        example().extract("out", checkpoint="chk", report="report")
        there = Path("there").read_text().split()
        self.assertEqual(([it[:5] for it in there if it[0] == "."], {"chk", "out"} & set(there)), ([".tmx-"] * 2, set()))
        self.assertEqual(sorted(self.stands()), ["chk", "out", "report", "there"])
        self.assertEqual((Path("out").read_bytes(), tmx.records_done("chk")), (self.wanted(), 300))

    def test_what_an_ended_program_leaves(self) -> None:
        self.program('for word; do [ "$before" != --checkpoint ] || : >"$word.new"; before=$word; done; kill -TERM $$')
        self.raises(tmx.KilledError, "SIGTERM", example().extract, "out", checkpoint="chk")
        self.assertEqual(self.stands(), {})

    def test_long_names(self) -> None:
        out, checkpoint = "o" * 255, "c" * 255
        example().extract(out, checkpoint=checkpoint)
        self.assertEqual((Path(out).read_bytes(), tmx.records_done(checkpoint)), (self.wanted(), 300))

    def test_the_job_is_kept_behind_the_packets(self) -> None:
        done = mock.Mock()
        with mock.patch("os.replace", done.replace):
            example().extract("out", checkpoint="chk")
        self.assertEqual([Path(it.args[1]).name for it in done.replace.call_args_list], ["out", "chk"])
        with mock.patch("os.replace", side_effect=[OSError("torn off")]):
            self.raises(OSError, None, example().extract, "out", checkpoint="chk")
        self.assertEqual(self.stands(), {})

    def test_rights_and_links(self) -> None:
        self.addCleanup(os.umask, os.umask(0o027))
        example().extract("new", checkpoint="chk")
        self.assertEqual([Path(it).stat().st_mode & 0o777 for it in ("new", "chk")], [0o640] * 2)
        Path("old").touch()
        Path("old").chmod(0o604)
        Path("link").symlink_to("old")
        example().extract("link")
        self.assertEqual((Path("old").read_bytes(), Path("old").stat().st_mode & 0o777), (self.wanted(), 0o604))
        self.assertTrue(Path("link").is_symlink())

    def test_what_is_no_file(self) -> None:
        os.mkfifo("pipe")
        found: list[bytes] = []
        reader = threading.Thread(target=lambda: found.append(Path("pipe").read_bytes()))
        reader.start()
        example().extract("pipe")
        reader.join()
        self.assertEqual(found, [self.wanted()])
        example().extract("/dev/null")
        self.assertEqual(os.listdir(), ["pipe"])

    def test_octets_that_find_no_room_behind_others(self) -> None:
        example().extract("out", checkpoint="chk", stop_after=100)
        before = self.stands()
        with mock.patch("shutil.copyfileobj", lambda octets, file, *_: (file.write(octets.read(1000)), file.flush(), 1 // 0)):
            self.raises(ZeroDivisionError, None, example().extract, "out", resume="chk", checkpoint="chk")
        self.assertEqual(self.stands(), before)
        example().extract("out", resume="chk", checkpoint="chk")
        self.assertEqual((Path("out").read_bytes(), tmx.records_done("chk")), (self.wanted(), 300))

    def test_records_of_a_raw_stream(self) -> None:
        failing = mock.Mock(spec=["read"], read=mock.Mock(side_effect=[b"ab12345" * 20000, OSError("torn off")]))
        self.raises(OSError, None, tmx.cut(failing, b"ab", 5).write, "records")
        self.assertEqual(os.listdir(), [])
        tmx.cut(io.BytesIO(b"ab12345" * 3), b"ab", 5).write("records")
        self.assertEqual(self.stands(), {"records": b"12345" * 3})


class Follow(TestCase):
    def grow(self, file, octets: bytes, parts: int) -> None:
        """Writes some octets at a time."""
        length = len(octets) // parts + 1
        for at in range(0, len(octets), length):
            file.write(octets[at : at + length])
            file.flush()
            time.sleep(0.02)

    def test_a_file_that_grows(self) -> None:
        octets = RECORDING.read_bytes()
        with open("growing.rec", "wb") as file:
            writer = threading.Thread(target=self.grow, args=(file, octets, 12))
            writer.start()
            found = list(tmx.Recording("growing.rec", SETTINGS).follow(checkpoint="chk", interval=0.01, timeout=5))
            writer.join()
        self.assertEqual(found, list(example().packets()))
        self.assertEqual(tmx.records_done("chk"), 300)

    def test_how_long_a_file_is_waited_for(self) -> None:
        clock = mock.Mock(now=0)

        def sleep(seconds: float) -> None:
            clock.now += seconds
            Path("growing.rec").write_bytes(OCTETS[: 25600 * (1 + clock.now // 4)])

        sleep(0)
        with mock.patch("tmx.steps.time", mock.Mock(monotonic=lambda: clock.now, sleep=sleep)):
            found = list(tmx.Recording("growing.rec", SETTINGS).follow(interval=2, timeout=5))
        self.assertEqual((len(found), clock.now), (848, 14))

    def test_the_settings_are_asked_once(self) -> None:
        Path("longer.rec").write_bytes(OCTETS[:51200])
        self.program('echo "$*" >>asked; [ "$1" != packets ] || cat longer.rec >growing.rec; exec "$real" "$@"')
        Path("growing.rec").write_bytes(OCTETS[:25600])
        found = list(tmx.Recording("growing.rec", SETTINGS).follow(interval=0.01, timeout=0.1))
        asked = [it.partition(" ")[0] for it in Path("asked").read_text().splitlines()]
        self.assertEqual((bool(found), asked), (True, ["frames", "packets"]))

    def test_a_file_is_followed_from_where_the_job_stands(self) -> None:
        Path("-growing.rec").write_bytes(OCTETS[:50000])  # its name looks like an option
        recording = tmx.Recording("-growing.rec", SETTINGS)
        found = list(recording.follow(apid=101, channel=3, checkpoint="chk", timeout=0))
        Path("-growing.rec").write_bytes(OCTETS)
        found += recording.follow(apid=101, channel=3, checkpoint="chk", timeout=0)
        self.assertEqual(found, list(example().packets(apid=101, channel=3)))

    def test_a_file_that_is_shorter_than_its_job(self) -> None:
        list(example().packets(checkpoint="chk"))
        Path("short.rec").write_bytes(OCTETS[:25600])
        follow = tmx.Recording("short.rec", SETTINGS).follow(checkpoint="chk", timeout=0)
        self.raises(tmx.RunError, "recording is shorter than the checkpoint", lambda: list(follow))
        stream = tmx.Recording(io.BytesIO(OCTETS[:25600]), SETTINGS).follow(checkpoint="chk")
        self.raises(tmx.RunError, "recording is shorter than the checkpoint", lambda: list(stream))

    def test_a_stream_is_followed_from_where_the_job_stands(self) -> None:
        first = list(example().packets(checkpoint="chk", stop_after=100))
        octets = io.BytesIO(OCTETS)
        stream = mock.Mock(spec=["read"], read=lambda _: octets.read(20000))
        rest = tmx.Recording(stream, SETTINGS).follow(checkpoint="chk")
        self.assertEqual(first + list(rest), list(example().packets(checkpoint="other")))
        self.assertEqual(tmx.records_done("chk"), 300)

    def test_a_pipe(self) -> None:
        read, written = os.pipe()
        with open(read, "rb") as file, open(written, "wb") as to:
            recording = tmx.Recording(file, SETTINGS)
            packets = recording.follow()
            octets = RECORDING.read_bytes()
            self.grow(to, octets[:2660], 1)
            found = [next(packets)]  # it comes before the pipe ends
            writer = threading.Thread(target=lambda: (self.grow(to, octets[2660:], 12), to.close()))
            writer.start()
            found += packets
            writer.join()
        self.assertEqual(found, list(example().packets()))


class Commands(TestCase):
    def test_steps_with_files(self) -> None:
        octets = RECORDING.read_bytes()
        for length in (20000, 20010, 50000, 60000, len(octets)):
            Path("growing.rec").write_bytes(octets[:length])
            self.assertEqual(self.follow("steps"), "")
            if length == 50000:
                Path("steps/step-0000002.chk").unlink()  # as a crash leaves it
        names = [f"step-000000{number}.{kind}" for number in (1, 2, 3) for kind in ("chk", "packets", "report")]
        self.assertEqual(sorted(os.listdir("steps")), ["job", *names])
        listed = "".join(it.read_text() for it in sorted(Path("steps").glob("*.packets")))
        self.assertEqual(listed.splitlines(), [str(it) for it in example().packets()])
        Path("steps/step-0000001.chk").unlink()
        self.assertEqual(following.last_step("steps"), 3)

    def follow(self, folder: str, *words: object) -> str:
        """What a call of `follow` says on standard error."""
        return command("follow", "--once", "--settings", SETTINGS, *words, "growing.rec", folder)[1]

    def grow_with(self, folder: str, *words: object) -> None:
        """Steps of a growing recording; a whole one loses its checkpoint, and one more call finds nothing new."""
        for length in (30000, 60000, 76800, 76800):
            Path("growing.rec").write_bytes(RECORDING.read_bytes()[:length])
            self.assertEqual(self.follow(folder, *words), "")
            if length == 60000:
                Path(folder, "step-0000002.chk").unlink()

    def test_steps_of_each_command(self) -> None:
        recording = example()
        recording.extract("whole")
        self.grow_with("octets", "--command", "extract")
        self.assertEqual(b"".join(it.read_bytes() for it in sorted(Path("octets").glob("*.pkt"))), Path("whole").read_bytes())
        recording.split("whole.d")
        self.grow_with("apart", "--command", "split")
        for file in Path("whole.d").iterdir():
            parts = (it.read_bytes() for it in sorted(Path("apart").glob(f"*.split/{file.name}")))
            self.assertEqual(b"".join(parts), file.read_bytes())
        self.grow_with("rows", "--command", "fields", "--definition", ATTITUDE, "--apid", 101)
        rows = "".join(it.read_text() for it in sorted(Path("rows").glob("*.csv"))).splitlines()
        self.assertEqual(len(rows), 1 + recording.fields(ATTITUDE, 101).rows)

    def test_steps_as_a_recording_grows(self) -> None:
        lengths = iter((25600, len(OCTETS)))

        def grow(seconds: float) -> None:
            self.assertEqual(seconds, 7)
            length = next(lengths, None)
            if length is None:
                raise KeyboardInterrupt
            Path("growing.rec").write_bytes(OCTETS[:length])

        error = io.StringIO()
        with mock.patch("time.sleep", grow), mock.patch("tmx.__main__.put") as put, contextlib.redirect_stderr(error):
            status = commands.main(["follow", "--settings", str(SETTINGS), "--interval", "7", "growing.rec", "steps"])
        self.assertEqual((status, error.getvalue()), (130, "tmx follow: growing.rec isn't there yet\n"))
        said = "".join(it.args[0].decode() for it in put.call_args_list).splitlines()
        rate = "; at [0-9-]{10}T[0-9:]{8}Z [0-9]+ a second"
        self.assertEqual(len(said), 2)
        self.assertRegex(said[0], f"^steps/step-0000001.chk has 100 records{rate}, 0 bad, 0 frames missing, 0 octets dropped$")
        self.assertRegex(said[1], f"^steps/step-0000002.chk has 300 records{rate}, 1 bad, 2 frames missing, [0-9]+ octets dropped$")

    def test_a_folder_of_another_job_is_refused(self) -> None:
        fields = ("--command", "fields", "--definition", ATTITUDE, "--apid")
        self.grow_with("steps", *fields, 101)
        kept = {it.name: it.read_bytes() for it in Path("steps").iterdir()}
        says = "tmx follow: steps has steps of another {}: name another folder, or take the steps away\n".format
        self.assertEqual(self.follow("steps"), says("command"))
        self.assertEqual(self.follow("steps", *fields, 0), says("application"))
        Path("other.csv").write_text("name,data_type,bit_length\nA,uint,8\n")
        self.assertEqual(self.follow("steps", *fields[:3], "other.csv", "--apid", 101), says("definition"))
        Path("growing.rec").write_bytes(RECORDING.read_bytes()[256:] + RECORDING.read_bytes())
        self.assertEqual(self.follow("steps", *fields, 101), says("recording"))
        Path("growing.rec").write_bytes(RECORDING.read_bytes()[:5000])
        self.assertIn("growing.rec has fewer records than the steps of steps", self.follow("steps", *fields, 101))
        self.assertEqual({it.name: it.read_bytes() for it in Path("steps").iterdir()}, kept)

    def test_one_makes_steps_at_a_time(self) -> None:
        waits = 'readlink /proc/$$/fd/* >begun; timeout 60 sh -c "until [ -e end ]; do sleep 0.01; done"'
        self.program(f'[ "$1" != packets ] || {{ {waits}; }}\nexec "$real" "$@"')
        Path("growing.rec").write_bytes(OCTETS)
        first = threading.Thread(target=self.follow, args=["steps"])
        first.start()
        while first.is_alive() and not Path("begun").exists():
            time.sleep(0.01)
        self.assertIn("tmx follow: steps is in use: another process makes a step in it", self.follow("steps"))
        Path("end").touch()
        first.join()
        self.assertIn(str(self.folder / "steps"), Path("begun").read_text().splitlines())  # the program holds it too
        self.assertEqual(sorted(os.listdir("steps")), ["job", *(f"step-0000001.{it}" for it in ("chk", "packets", "report"))])
        self.assertEqual(self.follow("steps"), "")

    def test_what_follow_passes_on(self) -> None:
        why = "the recording growing.rec: no such file; see that the name and the folder are right"
        self.assertEqual(self.follow("steps"), f"tmx: growing.rec: failed\n  {why}\n")
        self.assertIn("--definition and --apid are for --command fields", self.follow("steps", "--apid", 101))
        status, said = command("follow", "--settings", SETTINGS, "-", "steps")
        self.assertEqual((status, said.splitlines()[-1].partition("follow ")[2]), (2, "reads a file that grows, and not standard input"))
        Path("growing.rec").write_bytes(bytes(100))
        self.assertEqual(self.follow("steps"), "")
        self.assertEqual(self.follow("steps", "--command", "fields", "--definition", ATTITUDE, "--apid", 0), "")
        self.assertEqual(os.listdir("steps"), [])

    def test_the_checkpoint_of_a_step_is_taken_away_first(self) -> None:
        step = following.Step(".", 1, following.Wanted())
        with mock.patch.object(Path, "unlink", autospec=True) as unlink:
            step.remove()
        self.assertEqual(unlink.call_args_list[0].args, (step.checkpoint,))


class CutBack(TestCase):
    def test_outputs_are_cut_back(self) -> None:
        recording = example()
        first = "".join(f"{it}\n" for it in recording.packets(checkpoint="chk", stop_after=100, report="report"))
        report = Path("report").read_text()
        Path("list").write_text(first + "".join(f"{it}\n" for it in recording.packets(resume="chk", report="report")) + "packet rec")
        Path("part").write_text(first + "packet rec")
        Path("other").write_text("something else\n")
        whole = [Path(it).read_text() for it in ("list", "report")]
        self.raises(tmx.CutBackError, None, tmx.cut_back, "chk", "list", "other")
        self.raises(tmx.CutBackError, None, tmx.cut_back, "other", "list")
        self.assertEqual([Path(it).read_text() for it in ("list", "report")], whole)
        lost = tmx.cut_back("chk", "list", "report", "part")
        self.assertEqual((Path("list").read_text(), Path("report").read_text()), (first, report))
        self.assertEqual(lost, {"list": len(whole[0]) - len(first), "report": len(whole[1]) - len(report), "part": 10})

    def test_rows_are_cut_back(self) -> None:
        line = [os.environ["TMX"], "fields", "--settings", SETTINGS, "--definition", ATTITUDE, "--apid", "101", RECORDING]
        line += ["--report", "report"]
        with open("rows", "wb") as rows:
            subprocess.run([*line, "--checkpoint", "chk", "--stop-after", "104"], stdout=rows, check=True)
            first = Path("rows").read_text()
            subprocess.run([*line, "--resume", "chk"], stdout=rows, check=True)
        cut = len(Path("rows").read_text()) - len(first)
        Path("twice").write_text(first * 2)
        self.raises(tmx.CutBackError, None, tmx.cut_back, "chk", "twice")
        self.assertEqual(command("cut-back", "chk", "report", "rows", out="said"), (0, ""))
        self.assertEqual(Path("said").read_text().splitlines()[2:], [f"rows: {cut} octets cut, {len(first)} stay"])
        self.assertEqual(Path("rows").read_text(), first)
        Path("short").write_bytes(Path("chk").read_bytes()[:23])
        self.raises(tmx.CutBackError, None, tmx.records_done, "short")


if __name__ == "__main__":
    unittest.main()
