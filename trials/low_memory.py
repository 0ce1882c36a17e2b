#!/usr/bin/env python3
"""Runs tmx with each of its requests for memory refused in turn.

    low_memory.py TMX LIBRARY SETTINGS RECORDING DEFINITION CASE

LIBRARY is for LD_PRELOAD: it refuses the request whose number the variable REFUSED has, the first being 1, and makes a file `refused`
when it does.  DEFINITION is fields.csv, and CASE a command, `waiting` (`split` of standard input, which may wait), `help`, or a fault:
`unknown`, `missing` or `clash`.  A run has to end with status 3 and its line,
or just as it does with all memory; what that gives is worked out by reference.py, but for the help.  After status 3 each output has a
prefix of what belongs there, in whole lines or packets; the files of `split`, but for one at the most, have just the packets before one
place; an older checkpoint is as it was; and there is no further file.  Prints how many requests there are, and how many of them gave status 3; the status is 1
where something is wrong.  Works in the current folder.
"""

import os
import subprocess
import sys
import tempfile
from collections import Counter
from concurrent.futures import ThreadPoolExecutor
from dataclasses import dataclass, field
from itertools import accumulate
from pathlib import Path

import reference
from cuts import ends_at_one_place, files_of

OUT_OF_MEMORY = (3, b"tmx: out of memory\n")
OLDER = b"an older checkpoint\n"
REPORT = ["--report", "report"]
FILES = {"checkpoint", "refused", "report", "split"}
AT_ONCE = 64


@dataclass
class Case:
    """The words of a run, and what it ends with and gives where it has all memory: `out` goes to standard output, and the others to files."""

    words: list
    out: bytes = b""
    report: bytes = b""
    checkpoint: bytes = OLDER
    packets: list = field(default_factory=list)
    # The lengths of whole packets together, where standard output isn't lines.
    ends: set = None
    ending: tuple = (0, b"")
    # What standard input is.
    feeder: str = os.devnull
    # Links in the folder of the run, and what they lead to.
    links: dict = field(default_factory=dict)


def text_of(lines):
    return "".join(f"{line}\n" for line in lines).encode("ascii")


def in_octets(case, pieces):
    """The run in the binary form, which gives these."""
    case.words.append("--binary")
    case.out, case.ends = b"".join(pieces), {0, *accumulate(map(len, pieces))}
    return case


class Known:
    """What is known of the recording."""

    def __init__(self, tmx, settings, recording, definition):
        self.tmx, self.file, self.recording, self.definition = tmx, settings, recording, definition
        self.octets = Path(recording).read_bytes()
        self.settings = reference.Settings(settings)
        self.reader = reference.read_recording(self.settings, self.octets)[0]

    def words(self, command, *more):
        return [self.tmx, command, "--settings", self.file, *more, self.recording]

    def frames(self):
        return Case(self.words("frames"), text_of(self.reader.frames))

    def summary(self):
        sizes = divmod(len(self.octets), self.settings.record)
        return Case(self.words("summary"), text_of(reference.summary(self.settings, self.reader, *sizes)))

    def packets(self):
        lines = (it[2] for it in self.reader.packets)
        return Case(self.words("packets", *REPORT), text_of(lines), text_of(self.reader.report_of(None)))

    def application(self):
        return Counter(it[0] for it in self.reader.packets).most_common(1)[0][0]

    def fields(self):
        application = self.application()
        words = self.words("fields", *REPORT, "--definition", self.definition, "--apid", str(application))
        return Case(words, text_of(reference.rows(self.reader.packets, application)), text_of(self.reader.report_of(application)))

    def binary_packets(self):
        return in_octets(self.packets(), list(reference.binary_packets(self.reader.packets)))

    def binary_fields(self):
        return in_octets(self.fields(), list(reference.binary_rows(self.reader.packets, self.application())))

    def extract(self):
        """From a checkpoint before any record, to a new one."""
        reader, version = reference.Reader(self.settings), reference.VERSION
        Path("start").write_bytes(reference.checkpoint(reader, 0, version))
        for number, frame in reference.records_of(self.settings, self.octets):
            reader.take(number, frame)
        packets = [it[1] for it in reader.packets]
        words = self.words("extract", *REPORT, "--resume", str(Path("start").resolve()), "--checkpoint", "checkpoint")
        kept = reference.checkpoint(reader, len(self.octets) // self.settings.record, version)
        ends = {0, *accumulate(map(len, packets))}
        return Case(words, b"".join(packets), text_of(reader.report_of(None)), kept, ends=ends)

    def split(self):
        words = self.words("split", *REPORT, "--dir", "split")
        return Case(words, report=text_of(self.reader.report_of(None)), packets=self.reader.packets)

    def waiting(self):
        """Of standard input, which may wait: the files are written out behind the last record, too."""
        case = self.split()
        case.words.remove(self.recording)
        case.feeder = self.recording
        return case

    def help(self):
        words = [self.tmx, "--help"]
        return Case(words, subprocess.run(words, capture_output=True, check=True).stdout)

    def unknown(self):
        """A fault with a word of the settings."""
        Path("unknown").write_text(Path(self.file).read_text(encoding="ascii") + "colour = 1\n", encoding="ascii")
        words = [self.tmx, "packets", "--settings", str(Path("unknown").resolve()), self.recording]
        return Case(words, ending=(2, b"tmx: settings: unknown colour\n"))

    def missing(self):
        """A fault with the name of a file."""
        return Case([self.tmx, "packets", "--settings", self.file, "missing.rec"], ending=(1, b"tmx: missing.rec: failed\n"))

    def clash(self):
        """The fault of a report that is a link to the checkpoint, which isn't there yet. It doesn't come where the link is taken for none."""
        words = self.words("packets", "--report", "later", "--checkpoint", "unmade")
        return Case(words, ending=(1, b"tmx: later: failed\n"), links={"later": "unmade"})


def is_prefix(found, whole, ends=None):
    """Octets are a prefix of others: of whole lines, or of one of these lengths."""
    at_end = len(found) in ends if ends else found[-1:] in (b"", b"\n")
    return at_end and whole.startswith(found)


def are_prefixes(files, packets):
    """Each file has whole packets of its application, from the first on, and all but one at the most have just those before one place.

    Where the request was one for the writing of a file, this lacks what was held for it.
    """
    own = {application: [] for application, *_ in packets}
    for application, octets, *_ in packets:
        own[application].append(octets)
    prefixes = all(is_prefix(files[it], b"".join(own[it]), {0, *accumulate(map(len, own[it]))}) for it in files)
    return prefixes and any(
        ends_at_one_place({it: files[it] for it in files if it != left_out}, [it for it in packets if it[0] != left_out])
        for left_out in (None, *own)
    )


def wrong_without_memory(case, out, report, checkpoint, files):
    """What is wrong with what a run has given that ran out of memory."""
    if not is_prefix(out, case.out, case.ends):
        return f"standard output ends with {out[-60:]!r}"
    if not is_prefix(report, case.report):
        return f"the report ends with {report[-60:]!r}"
    if not are_prefixes(files, case.packets):
        return f"the files don't end at one place: { {it: len(files[it]) for it in files} }"
    return "" if checkpoint == OLDER else "the checkpoint is another"


def wrong_when_whole(case, out, report, checkpoint, files):
    """Likewise, of one that ended as with all memory."""
    octets = sum(map(len, files.values()))
    split = ends_at_one_place(files, case.packets) and octets == sum(len(it[1]) for it in case.packets)
    same = {"standard output": out == case.out, "the report": report == case.report, "the checkpoint": checkpoint == case.checkpoint}
    return ", ".join(name for name, right in {**same, "the files": split}.items() if not right)


def attempt(case, library, number):
    """Whether the request of this number was refused, the run's ending, and what is wrong."""
    with tempfile.TemporaryDirectory(dir=".") as folder:
        path = Path(folder)
        (path / "split").mkdir()
        (path / "checkpoint").write_bytes(OLDER)
        for link, target in case.links.items():
            (path / link).symlink_to(target)
        more = {**os.environ, "LD_PRELOAD": library, "REFUSED": str(number)}
        with open(case.feeder, "rb") as feeder:
            ran = subprocess.run(case.words, stdin=feeder, capture_output=True, cwd=folder, env=more, check=False)
        ending, names = (ran.returncode, ran.stderr), {it.name for it in path.iterdir()}
        report = (path / "report").read_bytes() if "report" in names else b""
        given = ran.stdout, report, (path / "checkpoint").read_bytes(), files_of(path / "split")
        if added := names - FILES - case.links.keys():
            wrong = f"there is {', '.join(added)}"
        elif ending == case.ending:
            wrong = wrong_when_whole(case, *given)
        elif ending == OUT_OF_MEMORY and "refused" in names:
            wrong = wrong_without_memory(case, *given)
        else:
            wrong = f"status {ran.returncode}, {ran.stderr[:100]!r}"
        return "refused" in names, ending, wrong


def main(*words):
    *files, name = words
    tmx, library, settings, recording, definition = (str(Path(it).resolve()) for it in files)
    case, out_of_memory, begin = getattr(Known(tmx, settings, recording, definition), name)(), 0, 1
    with ThreadPoolExecutor(os.cpu_count()) as pool:
        while True:
            runs = list(pool.map(lambda number: attempt(case, library, number), range(begin, begin + AT_ONCE)))
            for number, (refused, ending, wrong) in enumerate(runs, begin):
                if wrong:
                    sys.exit(f"request {number}: {wrong}")
                out_of_memory += ending == OUT_OF_MEMORY
                if not refused:
                    print(f"{number - 1} requests, {out_of_memory} of them out of memory")
                    return 0 if out_of_memory else 1
            begin += AT_ONCE


if __name__ == "__main__":
    sys.exit(main(*sys.argv[1:]))
