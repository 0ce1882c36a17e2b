#!/usr/bin/env python3
"""What the pages say that a line or a status means, over small recordings whose truth is known.

    sentences.py TMX

Each row of TRIALS has a check, and the sentences of pages that it is for.  The check lays packets into frames from the bits of the
standard, leaves out, damages or repeats frames, runs the program, and sees that what the sentences say is true of what was put in.
A row fails too if a page hasn't one of its sentences any more, word by word: whoever changes a sentence changes its check.

Prints `plan N`, and a line `ok ..`, `FAILED: ..` or `SKIPPED: ..` for each row.  All files go to a temporary folder.
"""

import functools
import itertools
import os
import re
import shutil
import signal
import socket
import subprocess
import sys
import tempfile
import time
from binascii import crc_hqx
from collections.abc import Callable, Iterator, Sequence
from dataclasses import dataclass, field
from pathlib import Path

HERE = Path(__file__).resolve().parent
CLONE = HERE.parent
SPACECRAFT, OTHER_SPACECRAFT = 42, 43
DATA_FIELD = 20  # octets of a data field; a frame has 8 more
SETTINGS = f"spacecraft = {SPACECRAFT}\nframe_length = {DATA_FIELD + 8}\nerror_control = true\n"
CONTINUATION, FIRST, LAST, UNSEGMENTED = range(4)
NO_PACKET_STARTS = 2047
APID = 100
LIMIT = 60.0  # seconds: other trials may have the processors


# Frames and packets, from the bits of CCSDS 132.0-B-3 and 133.0-B-2.


def packed(*parts: tuple[int, int]) -> bytes:
    """Pairs of a number and a length: each number in as many bits, the most significant first."""
    bits = "".join(f"{number:0{length}b}" for number, length in parts)
    return int(bits, 2).to_bytes(len(bits) // 8, "big")


def packet(count: int, flags: int = UNSEGMENTED, octets: int = DATA_FIELD, apid: int = APID) -> bytes:
    """A packet whose data are the two octets of its count again and again."""
    head = packed((0, 3), (0, 1), (0, 1), (apid, 11), (flags, 2), (count % 16384, 14), (octets - 7, 16))
    return head + ((count % 65536).to_bytes(2, "big") * octets)[: octets - 6]


@dataclass
class Sender:
    """A spacecraft: the counts that its next frames have."""

    spacecraft: int = SPACECRAFT
    master: int = 0
    counts: dict[int, int] = field(default_factory=dict)

    def frame(self, data: bytes, pointer: int = 0, channel: int = 0, vca: bool = False, secondary: bool = False) -> bytes:
        count = self.counts.get(channel, 0)
        head = packed((0, 2), (self.spacecraft, 10), (channel, 3), (0, 1), (self.master % 256, 8), (count % 256, 8))
        head += packed((secondary, 1), (vca, 1), (0, 1), (3, 2), (pointer, 11))
        self.master, self.counts[channel] = self.master + 1, count + 1
        return head + data + packed((crc_hqx(head + data, 0xFFFF), 16))

    def frames(self, packets: Sequence[bytes], channel: int = 0) -> list[bytes]:
        """Frames of whole packets that fill them."""
        text = b"".join(packets)
        if len(text) % DATA_FIELD:
            raise ValueError(f"{len(text)} octets don't fill frames")
        starts = list(itertools.accumulate(map(len, packets), initial=0))[:-1]
        pointers = {it // DATA_FIELD: it % DATA_FIELD for it in reversed(starts)}
        numbers = range(len(text) // DATA_FIELD)
        return [self.frame(text[it * DATA_FIELD : (it + 1) * DATA_FIELD], pointers.get(it, NO_PACKET_STARTS), channel) for it in numbers]


def damaged(frame: bytes) -> bytes:
    """A frame with one wrong bit in its data."""
    return frame[:10] + bytes([frame[10] ^ 4]) + frame[11:]


# The program, and what it prints.


@dataclass(frozen=True)
class Line:
    word: str
    values: dict[str, str]

    def number(self, key: str) -> int:
        return int(self.values[key])


def lines(text: str) -> list[Line]:
    split = [it.split() for it in text.splitlines()]
    return [Line(it[0], dict(pair.split("=", 1) for pair in it[1:])) for it in split]


@dataclass(frozen=True)
class Ran:
    """What a run gave."""

    status: int
    out: bytes
    errors: str
    report: list[Line]

    def of(self, *words: str) -> list[Line]:
        return [it for it in self.report if it.word in words]


@dataclass(frozen=True)
class Program:
    tmx: Path
    folder: Path

    def prepare(self, recording: bytes) -> None:
        (self.folder / "s.toml").write_text(SETTINGS, encoding="ascii")
        (self.folder / "pass.rec").write_bytes(recording)

    def run(self, recording: Sequence[bytes] | bytes, *words: str) -> Ran:
        """A run over records, by a command and its further words."""
        self.prepare(recording if isinstance(recording, bytes) else b"".join(recording))
        command, *more = words or ("extract",)
        if command != "summary":
            more += ["--report", "report.txt"]
        line = [str(self.tmx), command, "--settings", "s.toml", *more, "pass.rec"]
        ran = subprocess.run(line, cwd=self.folder, capture_output=True, check=False, stdin=subprocess.DEVNULL, timeout=LIMIT)
        report = "" if command == "summary" else (self.folder / "report.txt").read_text(encoding="ascii")
        return Ran(ran.returncode, ran.stdout, ran.stderr.decode(), lines(report))

    def shell(self, commands: str) -> tuple[int, str, str]:
        variables = os.environ | {"TMX": str(self.tmx), "TMX_EXPLAIN": "0"}
        ran = subprocess.run(
            ["bash", "-c", commands], cwd=self.folder, capture_output=True, check=False, stdin=subprocess.DEVNULL, timeout=LIMIT,
            env=variables, text=True,
        )
        return ran.returncode, ran.stdout, ran.stderr


def same(what: str, found: object, wanted: object) -> None:
    if found != wanted:
        raise AssertionError(f"{what}: {str(found)[:300]}, not {str(wanted)[:300]}")


class Skipped(Exception):
    """What a trial needs isn't there."""


# Groups: each packet fills a frame of its own, and each frame may be lost, or one be recorded twice.


@dataclass(frozen=True)
class Segment:
    """A packet as it was sent: its count is its place in the list, and `group` is the sender's group to which it belongs, or 0."""

    flags: int
    group: int = 0


# Two groups, the second without the first one's end in the other list, where another packet or another group comes between.
IN_ORDER = [Segment(FIRST, 1), Segment(CONTINUATION, 1), Segment(LAST, 1), Segment(UNSEGMENTED), Segment(FIRST, 2), Segment(LAST, 2)]
BETWEEN = [Segment(FIRST, 1), Segment(UNSEGMENTED), Segment(LAST, 1), Segment(FIRST, 2), Segment(FIRST, 3), Segment(LAST, 3)]


def losses(number: int) -> Iterator[list[int]]:
    """For a number of frames each choice of those that are recorded, in order, and each choice with one of them twice."""
    for chosen in itertools.product((False, True), repeat=number):
        kept = [it for it, has in enumerate(chosen) if has]
        yield kept
        for twice in kept:
            yield sorted([*kept, twice])


@functools.cache
def runs_of_groups(tmx: Path) -> list[tuple[list[Segment], list[int], Ran]]:
    """The segments as sent, the counts that were recorded, and what the program said: some 500 recordings."""
    found = []
    with tempfile.TemporaryDirectory() as folder:
        for sent in (IN_ORDER, BETWEEN):
            frames = Sender().frames([packet(count, it.flags) for count, it in enumerate(sent)])
            for kept in losses(len(sent)):
                found.append((sent, kept, Program(tmx, Path(folder)).run([frames[it] for it in kept])))
    return found


def earlier_is_missing(sent: list[Segment], kept: list[int], count: int) -> bool:
    """Whether a segment of the group that was sent before this one isn't recorded."""
    return any(it.group == sent[count].group and other not in kept for other, it in enumerate(sent[:count]))


def check_strays(program: Program) -> None:
    causes: set[str] = set()
    for sent, kept, ran in runs_of_groups(program.tmx):
        broken = {sent[it.number("first")].group for it in ran.of("broken")}
        for line in ran.of("stray"):
            count = line.number("count")
            same("the flag of a stray", line.values["flag"], {CONTINUATION: "continuation", LAST: "last"}.get(sent[count].flags))
            found = {
                "missing": earlier_is_missing(sent, kept, count),
                "broken": sent[count].group in broken,
                "twice": kept.count(count) == 2,
            }
            same(f"a cause of the stray {count} of {kept}", any(found.values()), True)
            if sum(found.values()) == 1:
                causes |= {it for it, holds in found.items() if holds}
            if FIRST in (it.flags for at, it in enumerate(sent) if it.group == sent[count].group and at in kept):
                causes.add("its first is there")
    same("what makes a stray", causes, {"missing", "broken", "twice", "its first is there"})


def check_broken(program: Program) -> None:
    reasons, later, again = set(), set(), set()
    words = {FIRST: "first", UNSEGMENTED: "unsegmented"}
    for sent, kept, ran in runs_of_groups(program.tmx):
        strays = {it.number("count") for it in ran.of("stray")}
        whole = {it.number("first") for it in ran.of("group")}
        for line in ran.of("broken"):
            first, last = line.number("first"), line.number("last")
            at = line.number("record")
            same(f"the segments before the break in {kept}", kept[at - (last - first) - 1 : at], list(range(first, last + 1)))
            same("their group", {it.group for it in sent[first : last + 1]}, {sent[first].group})
            same("the first", sent[first].flags, FIRST)
            came = kept[at] if at < len(kept) else None
            reason = "end" if came is None else "gap" if came != last + 1 else words.get(sent[came].flags)
            same(f"what came in its place in {kept}", line.values["reason"], reason)
            reasons.add(reason)
            its_last = next((count for count, it in enumerate(sent) if (it.group, it.flags) == (sent[first].group, LAST)), -1)
            if its_last > last and its_last in kept[at:] and first not in kept[at:]:
                later.add(its_last in strays)
            if first in whole:
                again.add(len(kept) > len(set(kept)))
    same("reasons", reasons, {"gap", "first", "unsegmented", "end"})
    same("a broken group that comes whole has a frame twice", again, {True})
    same("a last segment that comes later is a stray", later, {True})


def check_groups(program: Program) -> None:
    """A group has a line exactly if its segments came one after the other: all of them, and nothing between."""
    for sent, kept, ran in runs_of_groups(program.tmx):
        wanted = set()
        for at, count in enumerate(kept):
            length = next((n for n in range(1, 4) if sent[count : count + n] and sent[count : count + n][-1].flags == LAST), 0)
            whole = list(range(count, count + length))
            if sent[count].flags == FIRST and length and kept[at : at + length] == whole and len({sent[it].group for it in whole}) == 1:
                wanted.add((str(count), str(count + length - 1)))
        same(f"whole groups of {kept}", {(it.values["first"], it.values["last"]) for it in ran.of("group")}, wanted)


# Gaps.


def between_two_good(lost: int, bad: int, foreign: int) -> list[bytes]:
    """Two good frames, and between them as many as the numbers say that were lost, damaged, and of another spacecraft."""
    sender = Sender()
    frames = sender.frames([packet(it) for it in range(lost + bad + 2)])
    others = Sender(OTHER_SPACECRAFT, 77).frames([packet(it) for it in range(foreign)])
    return [frames[0], *map(damaged, frames[1 : 1 + bad]), *others, frames[-1]]


def check_master_gap(program: Program) -> None:
    for lost, bad, foreign in itertools.product((0, 1, 2, 255, 256, 257), (0, 1, 2), (0, 1)):
        ran = program.run(between_two_good(lost, bad, foreign))
        what = f"{lost} lost, {bad} damaged, {foreign} of another spacecraft"
        faults = [it.values["fault"] for it in ran.of("bad")]
        same(f"bad frames: {what}", faults, ["crc"] * bad + ["spacecraft"] * foreign)
        for word in ("mastergap", "gap"):
            missing = [(it.number("record"), it.number("missing")) for it in ran.of(word)]
            wanted = (lost + bad) % 256
            same(f"{word}: {what}", missing, [(1 + bad + foreign, wanted)] if wanted else [])


def check_gap_of_channel(program: Program) -> None:
    """A bad frame is one of the M of its own channel, and of the master channel, and not of another channel."""
    sender = Sender()
    zero, one = sender.frames([packet(0)]), sender.frames([packet(0)], 1)
    lost_one = sender.frames([packet(1)], 1)
    zero += sender.frames([packet(1)])
    one += sender.frames([packet(2)], 1)
    ran = program.run([zero[0], one[0], damaged(lost_one[0]), zero[1], one[1]])
    same("gaps", [(it.values["channel"], it.number("missing")) for it in ran.of("gap")], [("1", 1)])
    same("master gaps", [(it.number("record"), it.number("missing")) for it in ran.of("mastergap")], [(3, 1)])


def check_bad_frame(program: Program) -> None:
    frames = Sender().frames([packet(it) for it in range(4)])
    foreign = Sender(OTHER_SPACECRAFT, 9).frames([packet(0)])
    cases = {
        "of the channel": ([frames[0], damaged(frames[1]), frames[2]], "crc", [1]),
        "after the last good frame": ([frames[0], frames[1], damaged(frames[2])], "crc", []),
        "before the first good frame": ([damaged(frames[0]), frames[1]], "crc", []),
        "of another spacecraft": ([frames[0], foreign[0], frames[1]], "spacecraft", []),
    }
    for what, (recording, fault, missing) in cases.items():
        ran = program.run(recording)
        same(f"the fault of a frame {what}", [it.values["fault"] for it in ran.of("bad")], [fault])
        for word in ("gap", "mastergap"):
            same(f"{word} by a bad frame {what}", [it.number("missing") for it in ran.of(word)], missing)


def check_frame_twice(program: Program) -> None:
    """A frame of one packet, and of two."""
    for sizes in ([20], [10, 10], [12, 8]):
        packets = [packet(it, octets=sizes[it % len(sizes)]) for it in range(3 * len(sizes))]
        frames = Sender().frames(packets)
        ran = program.run([frames[0], frames[1], frames[1], frames[2]])
        number = len(sizes)
        same("packets", ran.out, b"".join(packets[: 2 * number] + packets[number:]))
        for word in ("gap", "mastergap"):
            same(word, [it.number("missing") for it in ran.of(word)], [255])
        same("seqgap", [it.number("missing") for it in ran.of("seqgap")], [16384 - number])
        same("the seqgap is after the gap", [it.word for it in ran.report], ["mastergap", "gap", "seqgap"])


def check_two_channels(program: Program) -> None:
    """One application on two channels: each packet is given, nothing is lost, and each channel has gaps of counts."""
    sender, sent = Sender(), [packet(it) for it in range(6)]
    recording = list(itertools.chain.from_iterable(sender.frames([it], at % 2) for at, it in enumerate(sent)))
    ran = program.run(recording)
    same("packets", ran.out, b"".join(sent))
    same("lines", [(it.word, it.number("missing")) for it in ran.report], [("seqgap", 1)] * 4)
    found = [it.values for it in lines(program.run(recording, "summary").out.decode()) if it.word == "application"]
    same("gaps of the summary", [(it["channel"], it["gaps"], it["missing"]) for it in found], [("0", "2", "2"), ("1", "2", "2")])


def check_sequence_gap(program: Program) -> None:
    """Packets that weren't sent, or were lost with their frames; and with 256 frames."""
    not_sent = [packet(0), packet(5), packet(16383), packet(16384 + 3)]
    ran = program.run(Sender().frames(not_sent))
    same("not sent", [(it.word, it.number("missing")) for it in ran.report], [("seqgap", 4), ("seqgap", 16377), ("seqgap", 3)])
    frames = Sender().frames([packet(it) for it in range(300)])
    for lost, words in ((2, ["mastergap", "gap", "seqgap"]), (256, ["seqgap"]), (257, ["mastergap", "gap", "seqgap"])):
        ran = program.run([frames[0], *frames[1 + lost :]])
        same(f"lines by {lost} lost frames", [it.word for it in ran.report], words)
        same(f"packets missing by {lost} lost frames", ran.report[-1].number("missing"), lost)
    cut = Sender().frames([packet(0), packet(1, octets=30), packet(2, octets=10), packet(3)])
    ran = program.run([cut[0], cut[2], cut[3]])
    same("a drop and its seqgap", [it.word for it in ran.report], ["mastergap", "gap", "drop", "seqgap"])


# A loss of 256 frames.


def check_256_frames(program: Program) -> None:
    """Packets of 32 octets over fields of 20: frame 7 ends with packet 4, and 256 frames later frame 263 with packet 164."""
    sent = [packet(it, octets=32) for it in range(200)]
    frames = Sender().frames(sent)
    joined = sent[4][:12] + sent[164][12:]
    ran = program.run([*frames[:7], frames[263]], "extract", "--strict")
    same("packets", ran.out, b"".join(sent[:4]) + joined)
    same("a packet of two halves was never sent", joined in sent, False)
    same("lines and status", (ran.report, ran.status), ([], 0))
    ran = program.run([*frames[:7], *frames[263:272]])
    same("packets", ran.out, b"".join([*sent[:4], joined, *sent[165:170]]))
    same("lines", [(it.word, it.number("missing")) for it in ran.report], [("seqgap", 160)])
    ran = program.run([*frames[:7], *frames[262:264]])
    same("lines by 255 lost frames", [it.word for it in ran.report], ["mastergap", "gap", "drop", "drop", "seqgap"][: len(ran.report)])
    same("a gap by 255 lost frames", [it.number("missing") for it in ran.of("gap", "mastergap")], [255, 255])


def check_256_of_two_channels(program: Program) -> None:
    """A frame of another channel in the midst of the loss: the master channel shows it, and the channel doesn't."""
    sender, sent = Sender(), [packet(it, octets=32) for it in range(200)]
    frames = Sender().frames(sent)  # their data fields and pointers alone are used
    recording = []
    for number, frame in enumerate(frames[:264]):
        if number == 100:
            recording += sender.frames([packet(0, apid=7)], 1)
        pointer = int.from_bytes(frame[4:6], "big") & 2047
        made = sender.frame(frame[6:-2], pointer)
        recording += [made] if number < 7 or number == 263 else []
    ran = program.run(recording)
    same("lines", [(it.word, it.number("missing")) for it in ran.report], [("mastergap", 93), ("mastergap", 163)])
    same("packets", ran.out.count(sent[4][:12] + sent[164][12:]), 1)


# Statuses.


def check_strict(program: Program) -> None:
    whole = Sender().frames([packet(it) for it in range(3)])
    sender = Sender()
    with_vca = [*sender.frames([packet(0)]), sender.frame(bytes(DATA_FIELD), vca=True), *sender.frames([packet(1)])]
    inside = Sender().frames([packet(0, octets=30), packet(1, octets=30)])[:2]
    groups = Sender().frames([packet(0, FIRST), packet(1, LAST)])
    cases: dict[str, tuple[bytes, int, list[str]]] = {
        "whole": (b"".join(whole), 0, []),
        "octets left at the end": (b"".join(whole) + b"abc", 0, ["short"]),
        "a VCA frame": (b"".join(with_vca), 0, ["vca"]),
        "a whole group": (b"".join(groups), 0, ["group"]),
        "ends inside a packet": (b"".join(inside), 4, ["drop"]),
        "a bad frame": (whole[0] + damaged(whole[1]), 4, ["bad"]),
        "a lost frame": (whole[0] + whole[2], 4, ["mastergap", "gap", "seqgap"]),
        "no good frame": (damaged(whole[0]), 5, ["bad"]),
        "nothing": (b"", 5, []),
    }
    for what, (recording, status, words) in cases.items():
        ran = program.run(recording, "extract", "--strict")
        same(what, (ran.status, [it.word for it in ran.report]), (status, words))
        same(f"{what}, by summary", program.run(recording, "summary", "--strict").status, status)
        same(f"{what}, without --strict", program.run(recording).status, 0)


def check_strict_inside_a_packet(program: Program) -> None:
    """An undamaged recording that ends inside a packet, closed and kept."""
    inside = Sender().frames([packet(0, octets=30), packet(1, octets=30)])[:2]
    closed = program.run(inside, "extract", "--strict")
    same("closed", (closed.status, [it.values.get("reason") for it in closed.report]), (4, ["end"]))
    kept = program.run(inside, "extract", "--strict", "--checkpoint", "day.chk")
    same("with --checkpoint", (kept.status, kept.report), (0, []))
    same("summary with --checkpoint", program.shell('"$TMX" summary --settings s.toml --checkpoint day.chk pass.rec')[0], 2)


# Runs that end otherwise.


def wait_for(is_so: Callable[[], bool]) -> None:
    last = time.monotonic() + LIMIT
    while not is_so():
        if time.monotonic() > last:
            raise AssertionError("what is waited for doesn't come")
        time.sleep(0.01)


def kill_after(program: Program, octets: bytes, count: int) -> None:
    """Ends a resumed run by SIGKILL while it waits, once out.txt has this number of lines."""
    files = ["--settings", "s.toml", "--resume", "day.chk", "--checkpoint", "day.chk", "--report", "report.txt"]
    line, out = [str(program.tmx), "packets", *files], program.folder / "out.txt"
    with out.open("ab") as file, subprocess.Popen(line, cwd=program.folder, stdin=subprocess.PIPE, stdout=file) as run:
        try:
            assert run.stdin
            run.stdin.write(octets)
            run.stdin.flush()
            wait_for(lambda: run.poll() is not None or out.read_bytes().count(b"\n") >= count)
        finally:
            run.send_signal(signal.SIGKILL)
            run.communicate()
    same("the end of the run that is killed", run.returncode, -signal.SIGKILL)


def check_kill(program: Program) -> None:
    """40 records by a checkpoint, 60 by a run that is killed, and all by the run after: `>>` gives 60 of 100 lines twice.

    It gives each line once if the lines are cut back before.
    """
    frames = Sender().frames([packet(it) for it in range(100)])
    program.prepare(b"".join(frames))
    out, checkpoint = program.folder / "out.txt", program.folder / "day.chk"
    wanted = program.run(frames, "packets").out.decode()
    same("lines of one run", wanted.count("\n"), 100)
    words = '"$TMX" packets --settings s.toml --checkpoint day.chk --report report.txt'
    same("the first run", program.shell(f"{words} --stop-after 40 pass.rec > out.txt")[0], 0)
    lines_before, before = out.read_bytes(), checkpoint.read_bytes()
    same("the run after it", program.shell(f"{words} --resume day.chk pass.rec >> out.txt")[0], 0)
    same("two runs that end in order", out.read_text(encoding="ascii"), wanted)
    out.write_bytes(lines_before)
    checkpoint.write_bytes(before)
    kill_after(program, b"".join(frames), 100)
    same("the checkpoint after the kill", checkpoint.read_bytes() == before, True)
    package = f"PYTHONPATH='{CLONE / 'python'}' PYTHONDONTWRITEBYTECODE=1 '{sys.executable}' -m tmx"
    cut = f"cp out.txt cut.txt && {package} cut-back day.chk cut.txt && cp day.chk cut.chk"
    same("cut-back", program.shell(f"{cut} && {words.replace('day', 'cut')} --resume cut.chk pass.rec >> cut.txt")[0], 0)
    same("lines after cut-back", (program.folder / "cut.txt").read_text(encoding="ascii"), wanted)
    same("the run after the kill", program.shell(f"{words} --resume day.chk pass.rec >> out.txt")[0], 0)
    found = out.read_text(encoding="ascii").splitlines()
    same("lines", len(found), 160)
    same("lines that came twice", sorted(it for it in found if found.count(it) == 2)[::2], sorted(wanted.splitlines()[40:]))


def check_head(program: Program) -> None:
    """A reader that ends early: with more than a pipe holds, and with less."""
    for number, said in ((3000, (1, "tmx: write failed\n")), (3, (0, ""))):
        frames = Sender().frames([packet(it) for it in range(number)])
        program.prepare(b"".join(frames))
        commands = '"$TMX" packets --settings s.toml --report report.txt pass.rec | head -n 1; exit ${PIPESTATUS[0]}'
        status, out, errors = program.shell(commands)
        same(f"{number} lines", (status, errors), said)
        same("the lines of head", [(it.word, it.number("record")) for it in lines(out)], [("packet", 0)])


# netcat.


def free_port() -> int:
    with socket.socket() as made:
        made.bind(("127.0.0.1", 0))
        port: int = made.getsockname()[1]
        return port


def netcat(package: str, sign: str) -> str:
    """The program of a package of Debian: what it says of itself has the sign."""
    for name in ("nc", f"nc.{package.removeprefix('netcat-')}"):
        path = shutil.which(name)
        if path and sign in subprocess.run([path, "-h"], capture_output=True, text=True, check=False, timeout=LIMIT).stderr:
            return path
    raise Skipped(f"no nc of {package}")


def listening_ports(number: int) -> set[int]:
    """The ports of TCP on which a process listens."""
    found = set()
    for row in Path("/proc/net/tcp").read_text(encoding="ascii").splitlines()[1:]:
        place, state, inode = (row.split()[it] for it in (1, 3, 9))
        if state == "0A" and f"socket:[{inode}]" in (os.readlink(it) for it in Path(f"/proc/{number}/fd").iterdir()):
            found.add(int(place.rpartition(":")[2], 16))
    return found


def records_by(words: Sequence[str], port: int, out: Path) -> bool:
    """Whether netcat listens on the port, records what the first connection brings, and ends then."""
    with out.open("wb") as file, subprocess.Popen(words, stdin=subprocess.DEVNULL, stdout=file, stderr=subprocess.DEVNULL) as run:
        try:
            wait_for(lambda: run.poll() is not None or bool(listening_ports(run.pid)))
            if port not in listening_ports(run.pid):
                return False
            with socket.create_connection(("127.0.0.1", port), LIMIT) as sender:
                sender.sendall(b"first")
            wait_for(lambda: run.poll() is not None)
            with socket.socket() as sender:
                same("a second connection is refused", sender.connect_ex(("127.0.0.1", port)) != 0, True)
        finally:
            run.kill()
    same("what was recorded", out.read_bytes(), b"first")
    return True


def words_for_nc(path: str) -> list[str]:
    """The words of README.md, with a free port and on this machine's own address alone."""
    text = (CLONE / "README.md").read_text(encoding="utf-8")
    found = set(re.findall(r"^ {4}.*\bnc (-l.*?) >+ pass\.rec < /dev/null &$", text, re.M))
    same("forms of nc in README.md", len(found), 1)
    return [path, "-s", "127.0.0.1", *found.pop().split()]


def check_nc_openbsd(program: Program) -> None:
    path, port, out = netcat("netcat-openbsd", "OpenBSD"), str(free_port()), program.folder / "nc.out"
    same("nc of the page", records_by([port if it == "5000" else it for it in words_for_nc(path)], int(port), out), True)
    port = str(free_port())
    same("nc without -p", records_by([path, "-l", "127.0.0.1", port], int(port), out), True)


def check_nc_traditional(program: Program) -> None:
    path, port, out = netcat("netcat-traditional", "v1.10"), str(free_port()), program.folder / "nc.out"
    same("nc of the page", records_by([port if it == "5000" else it for it in words_for_nc(path)], int(port), out), True)
    port = str(free_port())
    same("nc without -p", records_by([path, "-s", "127.0.0.1", "-l", port], int(port), out), False)
    same("what nc without -p recorded", out.read_bytes(), b"")


# Pages beside what is measured or printed.


def block_with(page: str, words: str) -> list[str]:
    """The lines of the one indented block of a page that has these words."""
    text = (CLONE / page).read_text(encoding="utf-8")
    found = [it for it in re.findall(r"(?:^ {4}.*\n)+", text, re.M) if words in it]
    same(f"blocks of {page} with {words}", len(found), 1)
    return [it[4:] for it in found[0].splitlines()]


def check_excerpt(program: Program) -> None:
    """README's lines of the example's report, whose frames are read here bit by bit."""
    example = CLONE / "example"
    shutil.copy(example / "settings.toml", program.folder / "example.toml")
    octets = (example / "pass.rec").read_bytes()
    shutil.copy(example / "pass.rec", program.folder / "example.rec")
    same("the run", program.shell('"$TMX" extract --settings example.toml --report example.txt example.rec > out')[0], 0)
    report = (program.folder / "example.txt").read_text(encoding="ascii").splitlines()
    shown, at = block_with("README.md", "gap record=155 channel=1"), 0
    for before, text in zip(["", *shown], [*shown, ""]):
        if text == "...":
            continue
        found = report.index(text) if text else len(report)
        same(f"lines before {text or 'the end'}, and their mark", found > at, before == "...")
        at = found + 1
    dropped = {155: 256 - 6 - 2, 157: int.from_bytes(octets[157 * 256 + 4 : 157 * 256 + 6], "big") & 2047}
    same("the pointer of record 155", int.from_bytes(octets[155 * 256 + 4 : 155 * 256 + 6], "big") & 2047, NO_PACKET_STARTS)
    same("channels of records 155 to 157", [octets[it * 256 + 1] >> 1 & 7 == 1 for it in (155, 156, 157)], [True, False, True])
    same("octets after the gap", (dropped, sum(dropped.values())), ({155: 248, 157: 64}, 312))
    found_lines = [it for it in lines("\n".join(report)) if it.word == "drop" and it.values["reason"] == "no-start"]
    same("drops after the gap", {it.number("record"): it.number("octets") for it in found_lines if it.values["channel"] == "1"}, dropped)


def check_report_of_groups(program: Program) -> None:
    """A whole group is in the report, though nothing is bad or lost."""
    ran = program.run(Sender().frames([packet(0, FIRST), packet(1, CONTINUATION), packet(2, LAST)]))
    same("lines", [str(it) for it in ran.report], [str(lines(f"group record=2 channel=0 apid={APID} first=0 last=2")[0])])


def check_secondary_header(program: Program) -> None:
    """A secondary header of its first octet alone, which says the version 00 and a length of 1 less 1."""
    ran = program.run([Sender().frame(bytes(1) + packet(0, octets=DATA_FIELD - 1), secondary=True)], "packets")
    found = lines(ran.out.decode())
    same("packets", [(it.number("at"), it.number("octets")) for it in found], [(0, DATA_FIELD - 1)])


def check_lengths(program: Program) -> None:
    """The figures of RUNS.md are those of lengths.py."""
    line = [sys.executable, str(HERE / "lengths.py"), str(program.folder)]
    ran = subprocess.run(line, capture_output=True, text=True, check=True)
    form = re.compile(r"frames of (\d+), (\d+) packets of 7 to (\d+), (\d+) damaged, max_packet (\d+): .*?\boctets=(\d+)")
    found = [tuple(map(int, it)) for it in form.findall(ran.stdout)]
    text = plain("docs/RUNS.md")
    numbers = [it.replace(",", "") for it in re.findall(r"\d[\d,]*\d|\d", text[text.index("trials/lengths.py lays") :].split(" ## ")[0])]
    first, second, third = found[:2], found[2:4], found[4:]
    same("changed nothing", (first[0][5], second[0][5]), (first[1][5], second[1][5]))
    wanted = [third[0][1], 7, third[0][2], third[0][0], 4, third[0][3], third[0][5], third[1][4], third[1][5]]
    wanted += [first[1][2], first[1][4], first[1][5], first[1][0], second[1][5], second[1][0]]
    same("numbers of RUNS.md", [int(it) for it in numbers], wanted)


def check_minutes(_: Program) -> None:
    """README's minutes of ./build are those of PERFORMANCE.md, rounded."""
    measured = re.search(r"^\| `\./build` \(.*?\) \| ([\d.]+) \|", (CLONE / "docs" / "PERFORMANCE.md").read_text(encoding="utf-8"), re.M)
    said = re.search(r"The first time took (\d+) minutes", plain("README.md"))
    same("minutes", said and int(said[1]), measured and round(float(measured[1])))


def check_commands_of_package(_: Program) -> None:
    """PYTHON.md names each command that the package's help lists."""
    variables = os.environ | {"PYTHONPATH": str(CLONE / "python"), "PYTHONDONTWRITEBYTECODE": "1", "COLUMNS": "200"}
    said = subprocess.run([sys.executable, "-m", "tmx", "--help"], env=variables, capture_output=True, text=True, check=True).stdout
    commands = set(re.findall(r"^ {4}([a-z-]+)(?: |$)", said, re.M))
    sentence = re.search(r"The commands python3 -m tmx (.*?)\. pip", plain("docs/PYTHON.md"))
    found = set(re.findall(r"[a-z-]+", sentence[1])) if sentence else set()
    same("commands that PYTHON.md doesn't name", sorted(commands - found), [])
    same("how many there are", len(commands) > 6, True)


# What pages say.


@functools.cache
def plain(page: str) -> str:
    """The text of a page in one line, without its marks: of Markdown, of the manual, or of comments."""
    text = (CLONE / page).read_text(encoding="utf-8")
    if page.endswith(".1"):
        text = re.sub(r"^\.(?=Fl )|^\.(?!Nm$)[A-Z][a-z] |\.(?=Nm$)", "", text, flags=re.M)
        text = re.sub(r"^Nm$", "tmx", re.sub(r"\bFl (?=[-\w])", "-", text), flags=re.M)
        text = re.sub(r" ([.,;:])(?=\s)", r"\1", text)
    elif page.endswith(".md"):
        text = re.sub(r"\[([^\]]*)\]\([^)]*\)", r"\1", text).replace("`", "").replace("*", "")
    return " ".join(text.replace("`", "").split())


@dataclass(frozen=True)
class Trial:
    """A row: its name, its check, and pairs of the pages and the sentence that each of them has."""

    name: str
    check: Callable[[Program], None]
    sentences: tuple[tuple[str, str], ...] = ()


FORMATS, MANUAL, README, RUNS, PROVED = "docs/FORMATS.md", "docs/tmx.1", "README.md", "docs/RUNS.md", "docs/PROVED.md"
LINES, HEADER, PYTHON = "python/tmx/lines.py", "include/tmx.h", "docs/PYTHON.md"
FORMATS_AND_MANUAL = f"{FORMATS} {MANUAL}"
TRIALS = (
    Trial(
        "the lines of the example in README.md, and what is dropped there",
        check_excerpt,
        (
            (README, "From the report of the example, a recording of 300 frames, where ... is for lines that are left out here:"),
            (README, "So the 320 octets before the gap are dropped, and 312 after it: 248 in record 155, and 64 in record 157,"),
        ),
    ),
    Trial(
        "what a stray is",
        check_strays,
        (
            (
                FORMATS_AND_MANUAL,
                "segment in no open group: an earlier segment of its group is missing, its group is broken already, or the segment came"
                " twice.",
            ),
            (LINES, "An earlier segment of its group is missing, its group is broken already, or the segment came twice."),
            (HEADER, "/* a segment in no open group (channel, application, count, flags) */"),
            ("docs/PACKETS.md", "Or stray: a continuation or last is in no open group."),
        ),
    ),
    Trial(
        "what a broken group is",
        check_broken,
        (
            (
                FORMATS,
                "a group that is incomplete: its segments from the count first= to the count last= came, and then not its next one, but a"
                " gap of counts, the first of a group, an unsegmented packet or the recording's end, which is W.",
            ),
            (MANUAL, "A group that is incomplete: its segments from the count first= to the count last= came, and then not its next one."),
            (
                FORMATS_AND_MANUAL,
                "Don't put these segments together. The group's last segment may still come, as a stray, or the whole group, if a frame"
                " was recorded twice.",
            ),
            (LINES, "is incomplete: first and last are its first count and the last one before it was broken off."),
            (LINES, "Segments of the group may still come, its last one too, as Stray, or the whole group, if a frame was recorded twice."),
            (
                HEADER,
                "a group that is incomplete: its first count, and the last one before it was broken off; later segments of it may come as"
                " strays",
            ),
            ("docs/PACKETS.md", "The group's counts are those of its first packet and of its last one before this."),
        ),
    ),
    Trial("what a whole group is", check_groups, ((FORMATS, "a whole group: put it together."), (MANUAL, "Put it together."))),
    Trial(
        "whole groups are in the report",
        check_report_of_groups,
        (
            (FORMATS_AND_MANUAL, "The report of what is bad or lost, and of whole groups; standard error if it is left out;"),
            (MANUAL, "also give a report of what is bad or lost, and of whole groups."),
            (PYTHON, "report lists what is bad or lost, and whole groups."),
        ),
    ),
    Trial(
        "how many frames a gap of the master channel has",
        check_master_gap,
        (
            (
                FORMATS,
                "M frames of any channels, modulo 256, are missing between the good frame before and this one. A bad frame between them"
                " is one of the M, if it is a frame of this spacecraft.",
            ),
            (
                MANUAL,
                "M frames of any channels, modulo 256, are missing between the good frame before and this one. A bad frame between them"
                " is one of the M, if it is a frame of this spacecraft. Look for the others, which weren't recorded.",
            ),
            (LINES, "A bad frame between them is one of these, if it is a frame of this spacecraft."),
            (HEADER, "/* frames of any channels are missing before this record, bad ones too (expected, found, missing) */"),
        ),
    ),
    Trial(
        "a bad frame is missing in its channel and in no other",
        check_gap_of_channel,
        (
            (
                FORMATS_AND_MANUAL,
                "M frames of the channel, modulo 256, are missing between its good frame before and this one. A bad frame between them is"
                " one of the M, if it is a frame of this channel. missing=255 may be a frame recorded twice.",
            ),
            (LINES, "A bad frame between them is one of these, if it is a frame of the channel."),
        ),
    ),
    Trial(
        "bad frames that make a gap, and those that make none",
        check_bad_frame,
        (
            (
                RUNS,
                "A bad frame of the channel is missing: the next good frame of the channel has a gap. There is no gap if the channel has"
                " no good frame before or after it, nor for a frame of another spacecraft, whose fault is spacecraft.",
            ),
            (MANUAL, "With the fault spacecraft a frame may be another spacecraft's, and nothing is lost."),
        ),
    ),
    Trial(
        "a frame recorded twice",
        check_frame_twice,
        (
            (FORMATS_AND_MANUAL, "missing=255 may be a frame recorded twice."),
            (FORMATS_AND_MANUAL, "A frame recorded twice gives an M near 16384."),
            (FORMATS, "A frame recorded twice gives its packets twice."),
            (RUNS, "A frame recorded twice gives a gap with missing=255, and its packets are given twice."),
            (README, "each occurrence once: a frame recorded twice gives its packets twice."),
            (PROVED, "each occurrence once: a frame recorded twice gives its packets twice."),
            (MANUAL, "Each occurrence of a packet is given once: a frame recorded twice gives its packets twice."),
        ),
    ),
    Trial(
        "an application on two channels",
        check_two_channels,
        (
            (FORMATS, "An application whose packets go over two channels has gaps in each, though none of its packets may be missing."),
            (
                MANUAL,
                "If its channel has no gap and no dropped part, missing packets are perhaps on another channel, weren't sent, or were lost"
                " with a multiple of 256 frames.",
            ),
        ),
    ),
    Trial(
        "gaps of sequence counts, with and without lost frames",
        check_sequence_gap,
        (
            (
                FORMATS_AND_MANUAL,
                "M packets of the application, modulo 16384, are missing in this channel. A gap or drop line of the channel since the"
                " application's previous packet is the likely cause. Without such a line the packets are perhaps on another channel,"
                " weren't sent, or were lost with a multiple of 256 frames of the channel.",
            ),
            (LINES, "they are perhaps on another channel, weren't sent, or were lost with a multiple of 256 frames of the channel."),
        ),
    ),
    Trial(
        "a loss of 256 frames of the only channel",
        check_256_frames,
        (
            (
                RUNS,
                "A loss of 256 frames of the channel, or a multiple, gives no gap. If the pointers agree, the beginning of one packet and"
                " the end of another are then given as one whole packet, and no line says so. The master channel can show the loss, but"
                " not if the channel is the only one. At most a later seqgap line of an application tells that packets are missing.",
            ),
            (README, "So after a loss of 256 frames of a channel, or a multiple, the halves of two packets can be given as one."),
            (README, "and if there is one channel alone, no count of frames does."),
            (PROVED, "after a loss of 256 frames of a channel, or a multiple, the halves of two packets can count as one whole packet."),
            (MANUAL, "So after a loss of 256 frames of a channel, or a multiple, the halves of two packets can be given as one."),
            (FORMATS, "After a loss of 256 frames of a channel, or a multiple, the halves of two packets can be given as one."),
        ),
    ),
    Trial(
        "a loss of 256 frames of one of two channels",
        check_256_of_two_channels,
        ((README, "If a channel loses 256 frames, or a multiple of them, only the master channel can show it,"),),
    ),
    Trial(
        "statuses with --strict",
        check_strict,
        (
            (
                README,
                "the status is 5 without a good frame, and 4 if anything else is bad or lost, VCA frames and octets left at the end"
                " aside.",
            ),
            (
                FORMATS_AND_MANUAL,
                "Status 5 without a good frame of a chosen channel, else 4 if anything is bad or lost (VCA frames and octets left at the"
                " end aside)",
            ),
            (FORMATS, "So a recording with VCA frames, or with octets left at its end, has 0 if nothing else is lost."),
            (HEADER, "else 4 where anything is bad or lost, VCA frames and octets left at the end aside,"),
        ),
    ),
    Trial(
        "an undamaged recording that ends inside a packet, with --strict",
        check_strict_inside_a_packet,
        (
            (
                FORMATS,
                "One that ends inside a packet has 4 by the packet's drop line, with reason=end, even if it is undamaged. With"
                " --checkpoint the packet is kept, and the status is 0. A summary takes no checkpoint.",
            ),
            (
                MANUAL,
                "A recording that ends inside a packet has 4 by the packet's drop line even if it is undamaged; with"
                " --checkpoint the packet is kept, and the status is 0.",
            ),
        ),
    ),
    Trial(
        "a run that is killed, and the run after",
        check_kill,
        (
            (README, "gives in all what one run gives, if each run ends in order: after a kill outputs are ahead of the checkpoint."),
            (
                README,
                "If the second run is killed, what it wrote is ahead of day.chk, and a further run writes it again: cut the outputs back"
                " before.",
            ),
            (
                FORMATS,
                "If each run ends in order, the joined outputs are those of one run, but for a line that an older checkpoint can cost. A"
                " run that is killed has written more than its checkpoint says, and the run that goes on from there writes it again: cut"
                " the outputs back before.",
            ),
            (PROVED, "a job that is killed isn't stopped, and what it wrote after its checkpoint is written again."),
            (MANUAL, "A run that is killed has written more than its checkpoint says, and the run that goes on from there writes it again."),
        ),
    ),
    Trial(
        "a reader that ends early",
        check_head,
        (
            (
                FORMATS,
                "If a reader ends before all is written, as in tmx packets .. | head -n 1, the run ends with tmx: write failed and status 1."
                " This is expected: head has its lines, and tmx stops there. What a pipe holds, mostly 64 KiB, is written all the same.",
            ),
            (MANUAL, "If the reader ends before all is written, as head does, this is expected: the reader has its lines, and tmx stops there."),
        ),
    ),
    Trial(
        "nc of netcat-openbsd",
        check_nc_openbsd,
        (
            (
                README,
                "nc is in two packages of Debian, netcat-openbsd and netcat-traditional, and either will do. Without -p only the first"
                " listens on port 5000;",
            ),
            (README, "Both end when the sender disconnects for the first time: what it sends on a second connection isn't recorded."),
            (MANUAL, "It ends when the sender disconnects for the first time: what comes on a second connection isn't recorded."),
        ),
    ),
    Trial(
        "nc of netcat-traditional",
        check_nc_traditional,
        (
            (README, "the second takes a port of its own choice, and nothing is recorded."),
            (MANUAL, "without -p the second listens on a port of its own choice, and nothing is recorded."),
        ),
    ),
    Trial("a secondary header of one octet", check_secondary_header, (("docs/FRAMES.md", "| 1 to 64 octets, 1 being (own) |"),)),
    Trial("damaged lengths with and without max_packet", check_lengths),
    Trial("how long ./build takes", check_minutes),
    Trial("the commands of the package for Python", check_commands_of_package),
)


def lacks(trial: Trial) -> list[str]:
    """The sentences that pages don't have."""
    pairs = [(page, sentence) for pages, sentence in trial.sentences for page in pages.split()]
    return [f"{page} doesn't say any more: {sentence}" for page, sentence in pairs if sentence not in plain(page)]


def outcome(trial: Trial, program: Program) -> str:
    """How a trial went: `ok`, `SKIPPED` and why, or `FAILED` and why."""
    missing = lacks(trial)
    try:
        trial.check(program)
    except Skipped as reason:
        return f"FAILED: {trial.name}: {missing[0]}" if missing else f"SKIPPED: {trial.name}: {reason}"
    except (AssertionError, ValueError, LookupError, OSError, subprocess.SubprocessError) as error:
        missing.append(f"{type(error).__name__}: {error}")
    return f"FAILED: {trial.name}: {'; '.join(missing)}" if missing else f"ok {trial.name}"


def main(tmx: str) -> int:
    print(f"plan {len(TRIALS)}", flush=True)
    failed = False
    for trial in TRIALS:
        with tempfile.TemporaryDirectory() as folder:
            said = outcome(trial, Program(Path(tmx).resolve(), Path(folder)))
        failed = failed or said.startswith("FAILED")
        print(" ".join(said.split()), flush=True)
    return 1 if failed else 0


if __name__ == "__main__":
    sys.exit(main(*sys.argv[1:]))
