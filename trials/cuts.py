#!/usr/bin/env python3
"""Runs `split` with little memory, and looks at what its files have where memory runs out.

    cuts.py TMX SETTINGS RECORDING

RECORDING is taken five times over, as one.  Its packets stand in an order, by reference.py.  Where memory runs out the files have to
have just the packets before one place in that order, and else all.  Limits of the address space rise from none to enough.  Prints how
often memory ran out, and the least and the most octets that the files had then; the status is 1 where something is wrong.  Works in
the current folder.
"""

import os
import resource
import shutil
import subprocess
import sys
from pathlib import Path

import reference

TIMES = 5
LIMITS = range(2000, 9000, 4)  # KiB
ENOUGH = 25  # so many limits behind one another

# How a run ends that didn't begin: the program isn't found or loaded, or it is killed.
UNBEGUN = (126, 127, -9, -11)

# The C library asks for no more than it needs, so that each limit has its own place.
FEW = {**os.environ, "MALLOC_TOP_PAD_": "0"}


def files_of(folder):
    """What the files of a folder hold, by their application; a file of no octets is left out."""
    held = {int(path.name[5:9]): path.read_bytes() for path in Path(folder).iterdir()}
    return {application: octets for application, octets in held.items() if octets}


def ends_at_one_place(files, packets):
    """The files have just the packets before one place."""
    left, wanted = sum(map(len, files.values())), {}
    for application, octets, *_ in packets:
        if left > 0:
            wanted.setdefault(application, bytearray()).extend(octets)
            left -= len(octets)
    return left == 0 and wanted == files


def run(words, limit):
    """The status and the line of a run of `split` with so much memory, and what its files have."""
    shutil.rmtree("split", ignore_errors=True)
    Path("split").mkdir()
    octets = limit * 1024
    ran = subprocess.run(
        words, capture_output=True, check=False, env=FEW, preexec_fn=lambda: resource.setrlimit(resource.RLIMIT_AS, (octets, octets))
    )
    return ran.returncode, ran.stderr, files_of("split")


def main(tmx, settings, recording):
    octets = Path(recording).read_bytes() * TIMES
    Path("repeated").write_bytes(octets)
    packets = reference.read_recording(reference.Settings(settings), octets)[0].packets
    whole, out_of_memory, enough = sum(len(it[1]) for it in packets), [], 0
    # A program that rt hasn't built needs more of the stack, which can't grow in little memory.
    passed_over = () if b"rattle logic=" in Path(tmx).read_bytes() else (-11,)
    words = [tmx, "split", "--settings", settings, "--dir", "split", "--report", "report", "repeated"]
    for limit in LIMITS:
        status, line, files = run(words, limit)
        found = sum(map(len, files.values()))
        if not ends_at_one_place(files, packets):
            return f"{limit} KiB: the files don't end at one place: { {it: len(files[it]) for it in files} }"
        enough = enough + 1 if (status, line, found) == (0, b"", whole) else 0
        if (status, line) == (3, b"tmx: out of memory\n"):
            out_of_memory.append(found)
        elif not enough and status not in (passed_over if out_of_memory else UNBEGUN):
            return f"{limit} KiB: status {status}, {found} of {whole} octets, {line[:100]!r}"
        if enough == ENOUGH:
            break
    if not any(out_of_memory) or enough < ENOUGH:
        return f"out of memory with {out_of_memory} octets, status {status} at the end"
    print(f"out of memory {len(out_of_memory)} times, with {min(out_of_memory)} to {max(out_of_memory)} of {whole} octets written")
    return 0


if __name__ == "__main__":
    sys.exit(main(*sys.argv[1:]))
