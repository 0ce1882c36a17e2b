#!/usr/bin/env python3
"""Compares tmx with reference.py under random settings, over damaged recordings, in one run and in steps.

    anything.py TMX DEFINITION SECONDS SEED

DEFINITION is fields.csv.  Works in folders in the current one, until so many seconds are over, on two cases at a time: while tmx
works for one, what the other is to give is worked out.  The checkpoints of the steps are compared too, and some steps go on from the
same job as an older version spells it.  Prints how much was compared, and which seeds show a difference; the status is 1 then.
"""

import random
import subprocess
import sys
import tempfile
import time
from concurrent.futures import ThreadPoolExecutor
from pathlib import Path

import reference

LENGTHS = (9, 10, 11, 12, 13, 14, 16, 18, 20, 24, 30, 40, 64, 100, 256, 300, 1115, 2047, 2048)
PARTS = ("flag", "always", "never")
AT_ONCE = 16
LIMITS = (7, 8, 9, 12, 20, 50, 100, 200, 300, 1000, 3000, 65541, reference.LONGEST_PACKET)


def make_settings(chance, folder):
    text = (
        f"spacecraft = {chance.choice((0, 5, 1023))}\n"
        f"frame_length = {chance.choice(LENGTHS)}\n"
        f"error_control = {chance.choice(('true', 'false'))}\n"
        f"skip_before = {chance.choice((0, 0, 1, 4, 1024))}\n"
        f"skip_after = {chance.choice((0, 0, 3, 160))}\n"
        f'secondary = "{chance.choice(PARTS)}"\n'
        f'ocf = "{chance.choice(PARTS)}"\n'
    )
    if chance.random() < 0.4:
        text += f"channels = {chance.sample(range(8), chance.randrange(1, 8))}\n"
    if chance.random() < 0.7:
        text += f"max_packet = {chance.choice(LIMITS)}\n"
    path = Path(folder, "settings")
    path.write_text(text, encoding="ascii")
    return reference.Settings(path)


def make_recording(chance, seed, settings, folder):
    octets = min(60000, settings.record * chance.randrange(1, 400)) + chance.choice((0, 0, 3))
    recording = bytearray(reference.likely(seed, octets, settings))
    if chance.random() < 0.15:
        for _ in range(len(recording) // 300):
            recording[chance.randrange(len(recording))] = chance.randrange(256)
    Path(folder, "recording").write_bytes(recording)
    return bytes(recording)


def text_of(lines):
    return "".join(f"{line}\n" for line in lines).encode("ascii")


def wanted(reader, application):
    """Standard output and report of each command that can be stopped."""
    report = text_of(reader.report_of(None))
    return {
        "packets": (text_of(it[2] for it in reader.packets), report),
        "packets --binary": (b"".join(reference.binary_packets(reader.packets)), report),
        "extract": (b"".join(it[1] for it in reader.packets), report),
        "fields": (text_of(reference.rows(reader.packets, application)), text_of(reader.report_of(application))),
        "fields --binary": (b"".join(reference.binary_rows(reader.packets, application)), text_of(reader.report_of(application))),
    }


def run(words, folder):
    ran = subprocess.run([*words, "recording"], capture_output=True, cwd=folder, check=False)
    return ran.returncode, ran.stdout, ran.stderr


def make_stops(chance, settings, records):
    """After which records a job is stopped, and which version its checkpoint has."""
    versions = (1, 2, 3, 3) if settings.max_packet == reference.LONGEST_PACKET else (2, 3, 3)
    stops, done = {}, 0
    while done < records:
        done = min(records, done + chance.randrange(1, max(2, records // 2)))
        stops[done] = chance.choice(versions)
    return stops


def run_in_steps(words, kept, folder):
    """The status of the last run, and what all runs gave, joined."""
    out, report, done, resume, file = b"", b"", 0, [], Path(folder, "chk")
    for records, (written, resumed) in kept.items():
        status, *found = run([*words, *resume, "--checkpoint", "chk", "--stop-after", str(records - done)], folder)
        if status or file.read_bytes() != written:
            return status, f"the checkpoint after {records} records", *found
        file.write_bytes(resumed)
        out, report, done, resume = out + found[0], report + found[1], records, ["--resume", "chk"]
    status, *found = run([*words, *resume], folder)
    return status, out + found[0], report + found[1]


def pieces(reader, application):
    """By command the lines and the octets that stand for them, of the head none; and the report."""
    rows = [b"", *reference.binary_rows(reader.packets, application)]
    return {
        "packets": ([it[2] for it in reader.packets], list(reference.binary_packets(reader.packets)), reader.report_of(None)),
        "fields": (list(reference.rows(reader.packets, application)), rows, reader.report_of(application)),
    }


def goes_on_in_the_other_form(words, stop, wanted, folder):
    """Whether jobs that stop and go on in the other form give the lines up to the stop and the octets of the others, or first the octets."""
    lines, octets, report = *wanted[:2], text_of(wanted[2])
    stopping = ["--checkpoint", "chk", "--stop-after", str(stop)]
    status, text, before = run([*words, *stopping], folder)
    end, rest, after = run([*words, "--binary", "--resume", "chk"], folder)
    done = text.count(b"\n")
    right = (status, end, text, rest, before + after) == (0, 0, text_of(lines[:done]), b"".join(octets[done:]), report)
    status, first, before = run([*words, "--binary", *stopping], folder)
    end, rest, after = run([*words, "--resume", "chk"], folder)
    return right and (status, end, first, rest, before + after) == (0, 0, b"".join(octets[:done]), text_of(lines[done:]), report)


def compare_whole(tmx, settings, reader, octets, folder):
    """How many runs of the commands that can't be stopped were compared, and which of them differ."""
    whole = {
        "frames": text_of(reader.frames),
        "summary": text_of(reference.summary(settings, reader, *divmod(octets, settings.record))),
    }
    return len(whole), [it for it in whole if run([tmx, it, "--settings", "settings"], folder) != (0, whole[it], b"")]


def compare(tmx, definition, seed, folder):
    """How many runs were compared, and the commands that differ."""
    chance = random.Random(seed)
    settings = make_settings(chance, folder)
    recording = make_recording(chance, seed, settings, folder)
    application = chance.choice((0, 5, 100, 2046, 2047))
    stops = make_stops(chance, settings, len(recording) // settings.record)
    reader, _ = reference.read_recording(settings, recording)
    stopped, kept = reference.read_recording(settings, recording, stops)
    in_steps = wanted(stopped, application)
    changing = pieces(reader, application)
    number, wrong = compare_whole(tmx, settings, reader, len(recording), folder)
    for command, both in wanted(reader, application).items():
        words = [tmx, *command.split(), "--settings", "settings"]
        if command.startswith("fields"):
            words += ["--definition", definition, "--apid", str(application)]
        if command in changing and not goes_on_in_the_other_form(words, chance.randrange(1, 400), changing[command], folder):
            wrong.append(f"{command}, then in the other form")
        number += 4 if command in changing else 2
        if run(words, folder) != (0, *both) or run_in_steps(words, kept, folder) != (0, *in_steps[command]):
            wrong.append(command)
    return number, [f"seed {seed}: {command}" for command in wrong]


def compare_apart(tmx, definition, seed):
    """The same in a folder of its own."""
    with tempfile.TemporaryDirectory(dir=".") as folder:
        return compare(tmx, definition, seed, folder)


def main(tmx, definition, seconds, first):
    tmx, definition = Path(tmx).resolve(), Path(definition).resolve()
    first, end, number, wrong = int(first), time.monotonic() + float(seconds), 0, []
    with ThreadPoolExecutor(2) as pool:
        while time.monotonic() < end:
            seeds = range(first, first + AT_ONCE)
            for more, differ in pool.map(lambda seed: compare_apart(tmx, definition, seed), seeds):
                number, wrong = number + more, wrong + differ
            first += AT_ONCE
    print(f"{number} runs compared, up to seed {first - 1}, {len(wrong)} of them differ")
    if wrong or not number:
        sys.exit("\n".join(wrong[:10]) or 1)


if __name__ == "__main__":
    main(*sys.argv[1:])
