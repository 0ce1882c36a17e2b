#!/usr/bin/env python3
"""Runs tmx with a recording and a report that have one number, each on a device of its own.

    one_number.py TMX SETTINGS RECORDING EXPECTED

The recording is in memory, as standard input, and the report in /dev/shm.  The one with the lower number is made again until both have
one.  They are two files, so the run has to give what it gives of any others, which is in the folder EXPECTED.  The status is 0 if it does,
1 if not, and 3 if no such files could be made here.
"""

import os
import subprocess
import sys
import tempfile
from pathlib import Path

# So many files are made at the most.
MOST = 1_000_000


def file_in_memory():
    return open(os.memfd_create("recording"), "w+b", buffering=0)


def make_pair(name):
    """Makes a file of this name, and one in memory that has its number. Returns this one, or none if there are no such files."""
    name.touch()
    memory = file_in_memory()
    for _ in range(MOST):
        here, there = os.fstat(memory.fileno()), name.stat()
        if here.st_dev == there.st_dev:
            return None
        if here.st_ino == there.st_ino:
            return memory
        if here.st_ino < there.st_ino:
            memory.close()
            memory = file_in_memory()
        else:
            name.unlink()
            name.touch()
    return None


def main(tmx, settings, recording, expected):
    try:
        folder = tempfile.TemporaryDirectory(dir="/dev/shm")
    except OSError as error:
        print(error)
        return 3
    with folder:
        report = Path(folder.name) / "report"
        memory = make_pair(report)
        if memory is None:
            print("no file in memory has the number of one in /dev/shm")
            return 3
        with memory:
            memory.write(Path(recording).read_bytes())
            memory.seek(0)
            words = [tmx, "packets", "--settings", settings, "--report", str(report)]
            run = subprocess.run(words, stdin=memory, capture_output=True, check=False)
        given = {"packets": run.stdout, "report": report.read_bytes()}
        wrong = [name for name, octets in given.items() if octets != Path(expected, name).read_bytes()]
        if run.returncode or run.stderr or wrong:
            print(f"status {run.returncode}, {run.stderr[:100]!r}, wrong are {wrong}")
            return 1
        return 0


if __name__ == "__main__":
    sys.exit(main(*sys.argv[1:]))
