#!/usr/bin/env python3
"""Runs tmx in steps over a recording, ends many of the runs by a signal, and goes on from the checkpoint that stands.

    killed.py TMX COMMAND SETTINGS RECORDING STEP SEED WORD..

STEP is the number of records of a run; 0 has the recording grow by some octets before each run, which goes to its end.
WORD.. are further words of the command.  After a run that was ended, the outputs are cut to what they had when the
checkpoint that stands was written.  The joined outputs have to be those of one run, and a signal has to have ended
a run at least.  Prints what was done.  The status is 1 where something is wrong.  Works in the current folder.
"""

import os
import random
import shutil
import signal
import subprocess
import sys
import time
from pathlib import Path

SIGNALS = (signal.SIGKILL, signal.SIGKILL, signal.SIGTERM, signal.SIGINT)


def plain_signals():
    """A program that is started behind `&` may find signals ignored."""
    signal.signal(signal.SIGTERM, signal.SIG_DFL)
    signal.signal(signal.SIGINT, signal.SIG_DFL)


class Steps:
    def __init__(self, words):
        self.tmx, self.command, settings, self.recording, step, seed, *more = words
        self.words = ["--settings", settings, *more]
        self.stop = ["--stop-after", step] if step != "0" else []
        self.chance = random.Random(int(seed))
        self.folder = Path("steps")
        self.checkpoint = self.folder / "chk"
        self.longest = 0.01
        self.ended = self.left_over = self.overtaken = 0

    def line(self, folder, ending):
        words = [self.tmx, self.command, *self.words, "--report", folder / "report"]
        if self.command == "split":
            words += ["--dir", folder / "files"]
        return [*words, *ending, self.recording]

    def grow(self, octets):
        """Makes the recording longer, up to all that it is to have."""
        with open("grown", "ab") as file:
            file.write(self.all[file.tell() : file.tell() + octets])

    def whole(self):
        """One run that nothing stops."""
        folder = fresh("whole")
        with open(folder / "out", "wb") as out:
            subprocess.run(self.line(folder, []), stdout=out, check=True)
        return contents(folder)

    def run(self, ending, with_signal):
        """One run; whether it came to its end. Until a signal has ended one, each gets a signal at once."""
        with_signal = with_signal or not self.ended
        begun = time.monotonic()
        with open(self.folder / "out", "ab") as out:
            process = subprocess.Popen(
                self.line(self.folder, ending), stdout=out, stderr=subprocess.PIPE, preexec_fn=plain_signals
            )
            if with_signal:
                time.sleep(self.chance.uniform(0, self.longest) if self.ended else 0)
                process.send_signal(self.chance.choice(SIGNALS))
            errors = process.communicate()[1]
        if process.returncode > 0 or errors:
            sys.exit(f"status {process.returncode}: {errors[:200]!r}")
        if process.returncode == 0 and not with_signal:
            self.longest = time.monotonic() - begun
        return process.returncode == 0

    def held(self):
        return self.checkpoint.read_bytes() if self.checkpoint.exists() else b""

    def step(self, keeps, with_signal):
        """One run from the checkpoint; whether it came to its end. Where it didn't, and left no newer checkpoint, its output is taken back."""
        before, sizes = self.held(), {it: it.stat().st_size for it in outputs(self.folder)}
        ending = ["--resume", self.checkpoint] if before else []
        ending += ["--checkpoint", self.checkpoint, *self.stop] if keeps else []
        if self.run(ending, with_signal):
            return True
        self.ended += 1
        self.left_over += Path(f"{self.checkpoint}.new").exists()
        if self.held() != before:
            self.overtaken += 1
            return False
        for it in outputs(self.folder):
            if it in sizes:
                os.truncate(it, sizes[it])
            else:
                it.unlink()
        return False

    def records(self):
        return int.from_bytes(self.held()[20:24], "big")

    def advance(self):
        """One run that keeps its job. Where it came to its end the checkpoint has all the records that it was to take."""
        there = os.path.getsize(self.recording) // 256
        wanted = min(self.records() + int(self.stop[1]), there) if self.stop else there
        if self.step(True, self.chance.random() < 0.6) and self.records() != wanted:
            sys.exit(f"the checkpoint has {self.records()} records, and not {wanted}")

    def all_steps(self, records):
        self.folder = fresh("steps")
        self.checkpoint = self.folder / "chk"
        if not self.stop:
            self.all = Path(self.recording).read_bytes()
            self.recording = "grown"
            Path("grown").write_bytes(b"")
        while self.records() < records:
            if not self.stop:
                self.grow(self.chance.choice((1, 100, 1500, 6000)))
            self.advance()
        while not self.step(False, self.chance.random() < 0.6):
            pass
        return contents(self.folder)


def fresh(name):
    shutil.rmtree(name, ignore_errors=True)
    os.makedirs(f"{name}/files")
    return Path(name)


def outputs(folder):
    found = [folder / "out", folder / "report", *sorted((folder / "files").iterdir())]
    return [it for it in found if it.exists()]


def contents(folder):
    return {it.name: it.read_bytes() for it in outputs(folder)}


def main(words):
    steps = Steps(words)
    wanted = steps.whole()
    records = os.path.getsize(steps.recording) // 256
    found = steps.all_steps(records)
    print(
        f"{steps.ended} runs ended by a signal, {steps.left_over} of them with a file chk.new left over,"
        f" {steps.overtaken} of them behind their checkpoint"
    )
    if not steps.ended:
        sys.exit("no run was ended by a signal")
    if found != wanted:
        names = [it for it in wanted.keys() | found.keys() if wanted.get(it) != found.get(it)]
        sys.exit(f"not what one run gives: {sorted(names)}")


if __name__ == "__main__":
    main(sys.argv[1:])
