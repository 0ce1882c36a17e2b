"""Times packets(), packets_array() and fields().to_pandas() over a recording, beside numpy by hand over the files of `tmx split`.

    speed.py RECORDING SETTINGS [ROUNDS]

Reads the fields of the application with the most packets, which all have to be of one length.  Prints the median of the rounds,
in seconds, and the least; the memory of the table; and the most that the process had beyond what it began with.
"""

import os
import re
import statistics
import subprocess
import sys
import tempfile
import time
from collections import Counter
from pathlib import Path

import numpy
import pandas
from support import tmx

DEFINITION = """name,data_type,bit_length
SECONDS,uint,32
FRACTION,uint,16
X,int,16
Y,int,16
Z,int,16
RATE,float,32
MODE,uint,8
"""
BY_HAND = [
    *(("header", "V6"), ("SECONDS", ">u4"), ("FRACTION", ">u2"), ("X", ">i2"), ("Y", ">i2"), ("Z", ">i2")),
    *(("RATE", ">f4"), ("MODE", "u1")),
]


class Speed:
    """What is timed, over one recording."""

    def __init__(self, name: str, settings: str, folder: str) -> None:
        self.name, self.settings, self.folder = name, settings, folder
        self.recording = tmx.Recording(name, settings)
        self.definition = Path(folder, "definition.csv")
        self.definition.write_text(DEFINITION)
        octets: Counter[int] = Counter()
        packets: Counter[int] = Counter()
        for (_, apid), counts in self.recording.summary().applications.items():
            packets[apid] += counts.packets
            octets[apid] += counts.octets
        self.apid, self.rows = max((it for it in packets.items() if it[0] != 2047), key=lambda it: it[1])
        self.length = octets[self.apid] // self.rows
        if any(len(it.octets) != self.length for it in self.recording.packets(self.apid)):
            sys.exit(f"packets of application {self.apid} have several lengths")
        self.number = packets.total()

    def packets(self) -> None:
        for _ in self.recording.packets():
            pass

    def packets_array(self) -> None:
        self.recording.packets_array()

    def to_pandas(self) -> pandas.DataFrame:
        return self.recording.fields(self.definition, self.apid).to_pandas()

    def by_hand(self) -> pandas.DataFrame:
        line = [os.environ["TMX"], "split", "--settings", self.settings, "--dir", self.folder, "--report", os.devnull, self.name]
        subprocess.run(line, check=True)
        kind = numpy.dtype([*BY_HAND, ("rest", f"V{self.length - numpy.dtype(BY_HAND).itemsize}")])
        rows = numpy.fromfile(Path(self.folder, f"apid-{self.apid:04}.pkt"), kind)
        return pandas.DataFrame({name: rows[name].astype(rows[name].dtype.newbyteorder("=")) for name, _ in BY_HAND[1:]})


def timed(calls, rounds: int) -> dict[str, list[float]]:
    """The seconds of each call, in turn."""
    times: dict[str, list[float]] = {it.__name__: [] for it in calls}
    for _ in range(rounds):
        for call in calls:
            began = time.perf_counter()
            call()
            times[call.__name__].append(time.perf_counter() - began)
    return times


def memory(which: str) -> int:
    """Octets of this process: what it has (`RSS`), or had at most (`HWM`)."""
    return int(re.search(rf"^Vm{which}:\s*([0-9]+) kB$", Path("/proc/self/status").read_text(), re.MULTILINE)[1]) << 10


def main(name: str, settings: str, rounds: str = "5") -> None:
    with tempfile.TemporaryDirectory() as folder:
        speed = Speed(name, settings, folder)
        before = memory("RSS")
        table = speed.to_pandas()
        most, needs = memory("HWM") - before, int(table.memory_usage(index=False).sum())
        wanted = speed.by_hand()
        if not table[list(wanted)].equals(wanted):
            sys.exit("the table isn't what numpy reads by hand")
        print(f"octets={os.path.getsize(name)} packets={speed.number} rows={speed.rows} table={needs} most={most}")
        times = timed([speed.packets, speed.packets_array, speed.to_pandas, speed.by_hand], int(rounds))
    for call, seconds in times.items():
        print(f"{call} {statistics.median(seconds):.3f} (least {min(seconds):.3f})")
    print(f"to_pandas / by_hand = {statistics.median(times['to_pandas']) / statistics.median(times['by_hand']):.2f}")


if __name__ == "__main__":
    main(*sys.argv[1:])
