"""Measures `watch`: what it costs at 100 Mbit/s, and how fast it catches up with a recording.

    watched.py RECORDING SETTINGS OCTETS [SECONDS]

The recording comes again and again: to a file at 12.5 MB/s for so many seconds (20), and then as a file of so many octets that is
there already.  Shares are of one processor, user and system, the first two seconds left out.  Needs Linux.
"""

import os
import shutil
import signal
import subprocess
import sys
import tempfile
import time
from pathlib import Path

from support import PACKAGE, tmx

RATE = 12.5e6  # octets a second
TICKS = os.sysconf("SC_CLK_TCK")


def started(recording: Path, settings: str, out: int) -> subprocess.Popen[bytes]:
    line = [sys.executable, "-m", "tmx", "watch", "--every", "0.2", "--settings", settings, str(recording)]
    return subprocess.Popen(line, env=os.environ | {"PYTHONPATH": str(PACKAGE)}, stdout=out)


def spent(process: int | str) -> float:
    """The processor seconds of a process so far."""
    values = Path(f"/proc/{process}/stat").read_text().rpartition(")")[2].split()
    return (int(values[11]) + int(values[12])) / TICKS


def shares(process: int) -> tuple[float, float, float]:
    """The time, and the processor seconds of a run and of its programs so far."""
    programs = Path(f"/proc/{process}/task/{process}/children").read_text().split()
    return time.monotonic(), spent(process), sum(map(spent, programs))


def until(run: subprocess.Popen[bytes], records: int) -> None:
    assert run.stdout is not None
    next(it for it in run.stdout if f" records={records} ".encode() in it)


def ended(run: subprocess.Popen[bytes]) -> None:
    run.send_signal(signal.SIGTERM)
    run.communicate()
    if run.returncode:
        raise SystemExit(f"status {run.returncode} of watch")


def at_rate(octets: bytes, recording: Path, settings: str, seconds: float) -> None:
    """Says what it costs while octets come to a file at the rate."""
    recording.touch()
    run, given, before = started(recording, settings, subprocess.DEVNULL), 0, None
    with open(recording, "ab", buffering=0) as file:
        began = time.monotonic()
        while (now := time.monotonic() - began) < seconds:
            while given < now * RATE:
                at = given % len(octets)
                given += file.write(octets[at : at + int(now * RATE) - given + 1])
            if before is None and now > 2:
                before = shares(run.pid)
            time.sleep(0.01)
    took, own, programs = (it - earlier for it, earlier in zip(shares(run.pid), before))
    ended(run)
    print(f"at 12.5 MB/s: watch {own / took:.1%}, its programs {programs / took:.1%}")


def catching_up(octets: bytes, recording: Path, settings: str, length: int, record: int) -> None:
    """Says how fast it reads a file of so many octets that is there already, also by its own processor time."""
    with open(recording, "wb") as file:
        while file.tell() < length:
            file.write(octets)
        length = file.tell()
    began = time.monotonic()
    run = started(recording, settings, subprocess.PIPE)
    until(run, length // record)
    took, own = time.monotonic() - began, spent(run.pid)
    speed, cost = length / took / 1e6, length / own / 1e6
    print(f"{length} octets in {took:.2f} s: {speed:.0f} MB/s, and {cost:.0f} MB in a second of its own")
    ended(run)


def main(name: str, settings: str, length: str, seconds: str = "20") -> None:
    octets, record = Path(name).read_bytes(), tmx.Settings.read(settings).record_length
    octets = octets[: len(octets) // (256 * record) * 256 * record]  # so that the counts go on behind it
    folder = tempfile.mkdtemp()
    try:
        at_rate(octets, Path(folder, "growing"), settings, float(seconds))
        catching_up(octets, Path(folder, "long"), settings, int(length), record)
    finally:
        shutil.rmtree(folder)
    print(f"load {os.getloadavg()[0]:.1f}")


if __name__ == "__main__":
    main(*sys.argv[1:])
