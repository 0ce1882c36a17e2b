#!/usr/bin/env python3
"""What the program says behind the line of a fault: at a terminal, and elsewhere where TMX_EXPLAIN says so.

    terminal.py TMX

Each case is a command line, the line of its fault, and the line that explains it. It is run four times. Standard error is a pipe, which has
to get the line of the fault alone, and with TMX_EXPLAIN=1 both. Or it is a terminal, which gets both, and with TMX_EXPLAIN=0 the line of the
fault alone. The status is the same, and so is what the files hold afterwards.

Each explanation has to be a row of the table in docs/FORMATS.md, and each row has to come in some case. So has each text of the code, which
stands in crates/tm_explanations/src and crates/tm_faults/src/explanation.rt.

Prints a line `ok ..` or `FAILED: ..` for each.
"""

import gzip
import os
import pty
import re
import shutil
import subprocess
import sys
import termios
import threading
from binascii import crc_hqx
from dataclasses import dataclass
from pathlib import Path

HERE = Path(__file__).resolve().parent.parent
FORMATS = (HERE / "docs" / "FORMATS.md").read_text(encoding="utf-8")
CRATES = HERE / "crates"
HEADING = "\n### At a terminal\n"
VALUE = re.compile(r"\{\w*\}|\b(?!UTF\b|TMXC\b)[A-Z]+\b")  # what stands in a text for a value
NOBODY = 65534
LIMIT = 30  # seconds in which a run at a terminal has to end


@dataclass(frozen=True)
class Case:
    """A command line for sh, its status, the line of its fault, if it has one, and what is said behind that at a terminal."""

    words: str
    status: int
    line: str = ""
    said: str = ""
    as_nobody: bool = False
    fed: str = ""  # a file that standard input gets through a pipe
    unread: bool = False  # standard output is a pipe that nobody reads
    before: str = ""  # a command of sh before it


SETTINGS = "frames --settings {} pass.rec"
RECORDING = "frames --settings s.toml {}"
PACKETS = "packets --settings s.toml {} pass.rec"
EXTRACT = "extract --settings s.toml --report /dev/null pass.rec"
SPLIT = "split --settings s.toml --dir {} --report /dev/null pass.rec"
FIELDS = "fields --settings s.toml --definition {} --apid 1 pass.rec"
RESUMED = "packets --settings s.toml --resume {} pass.rec"


def failed(words, name, said, as_nobody=False):
    """The case of a file that fails: its name, as the line of the fault has it, and what is said of it."""
    return Case(words, 1, f"{name}: failed", said, as_nobody)


def of_missing():
    """Cases of files that aren't there, or whose folder isn't."""

    def missing(words, file, name=None):
        said = f"the {file}: no such file; see that the name and the folder are right"
        return failed(words, name or file.split()[-1], said)

    return [
        missing(SETTINGS.format("none.toml"), "settings none.toml"),
        missing(SETTINGS.format("-"), "settings -"),
        missing(f"{SETTINGS.format('none.toml')} > /dev/full", "settings none.toml"),
        missing(FIELDS.format("none.csv"), "definition none.csv"),
        missing(RESUMED.format("none.chk"), "checkpoint to go on from none.chk"),
        missing(RECORDING.format("none.rec"), "recording none.rec"),
        missing(RECORDING.format(r"'\033[31m'"), r"recording \x5c033[31m"),
        missing(RECORDING.format("\"$(printf 'a\\033[31m')\""), r"recording a\x1b[31m"),
        missing(
            RECORDING.format("\"$(printf 'gr\\303\\266\\303\\237e-\\357\\274\\222.rec')\""),
            "recording größe-２.rec",
            r"gr\xc3\xb6\xc3\x9fe-\xef\xbc\x92.rec",
        ),
        missing(
            RECORDING.format("\"$(printf '\\303\\266\\302\\233\\342\\200\\256.rec')\""),
            r"recording ö\xc2\x9b\xe2\x80\xae.rec",
            r"\xc3\xb6\xc2\x9b\xe2\x80\xae.rec",
        ),
        failed(RECORDING.format("-"), "-", "the recording -: no such file; leave RECORDING out to read standard input"),
        failed(PACKETS.format("--report no/-"), "no/-", "the report no/-: no such folder; make it, or name another"),
        failed(PACKETS.format("--checkpoint no/c"), "no/c", "the file beside the checkpoint no/c.new: no such folder; make it, or name another"),
        Case(SPLIT.format("no"), 1, "write failed", "the folder no: no such folder; make it, or name another"),
        Case(SPLIT.format("s.toml"), 1, "write failed", "the folder s.toml: not a folder; name one that is there"),
    ]


def of_files():
    """Cases of files that can't be opened, made or read."""

    def folder(words, file):
        return failed(words, "dir", f"the {file} dir: a folder; name a file")

    def shut(words, file, name):
        return failed(words, name, f"the {file}: no permission; see with ls -l who may do it", True)

    return [
        folder(SETTINGS.format("dir"), "settings"),
        folder(PACKETS.format("--report dir"), "report"),
        folder("split --settings s.toml --dir dir --report dir pass.rec", "report"),
        folder(PACKETS.format("--checkpoint dir"), "checkpoint"),
        failed(PACKETS.format("--checkpoint pipe"), "pipe", "the checkpoint pipe: a pipe or a device; name a file"),
        failed(PACKETS.format("--checkpoint beside"), "beside", "the file beside the checkpoint beside.new: a folder; name a file"),
        failed(RECORDING.format("''"), "", "the recording: an empty name; name a file"),
        failed("split --settings s.toml --dir '' pass.rec", "", "the folder: an empty name; name a file"),
        shut(PACKETS.format("--resume c.chk --checkpoint c.chk"), "file beside the checkpoint c.chk.new", "c.chk"),
        shut(PACKETS.format("--resume shut.chk --checkpoint shut.chk"), "checkpoint to go on from shut.chk", "shut.chk"),
        shut(SETTINGS.format("shut.toml"), "settings shut.toml", "shut.toml"),
        shut(PACKETS.format("--report r.txt"), "report r.txt", "r.txt"),
        failed(RECORDING.format("pass.rec/x"), "pass.rec/x", "the recording pass.rec/x: Not a directory (os error 20); mend this, or name another"),
        Case(SETTINGS.format("long.toml"), 2, "long.toml: too long"),
        Case(FIELDS.format("long.toml"), 2, "long.toml: too long"),
        Case(SETTINGS.format("large.toml"), 2, "large.toml: too long"),
        Case(SETTINGS.format("/dev/zero"), 2, "/dev/zero: too long"),
    ]


def of_clashes():
    """Cases of files that would be written over other files of the run."""

    def over(written, read):
        return f"{written} would be written over the {read}; name another file"

    def clash(words, name, written, read):
        return failed(PACKETS.format(words), name, over(f"the {written}", read))

    packets = "packets/apid-0100.pkt"
    fields = "fields --settings s.toml --definition f.csv --apid 1 --report {} pass.rec"
    return [
        clash("--report pass.rec", "pass.rec", "report pass.rec", "recording pass.rec"),
        clash("--report link.rec", "link.rec", "report link.rec", "recording pass.rec"),
        clash("--report s.toml", "s.toml", "report s.toml", "settings s.toml"),
        clash("--checkpoint pass.rec", "pass.rec", "checkpoint pass.rec", "recording pass.rec"),
        clash("--checkpoint s.toml", "s.toml", "checkpoint s.toml", "settings s.toml"),
        clash("--report r --checkpoint r", "r", "report r", "checkpoint r"),
        clash("--report pass.rec --checkpoint pass.rec", "pass.rec", "checkpoint pass.rec", "recording pass.rec"),
        clash("--report r.new --checkpoint r", "r", "file beside the checkpoint r.new", "report r.new"),
        clash("--resume c.chk --report c.chk", "c.chk", "report c.chk", "checkpoint to go on from c.chk"),
        failed(fields.format("f.csv"), "f.csv", over("the report f.csv", "definition f.csv")),
        failed(f"split --settings s.toml --dir packets --report /dev/null {packets}", packets, over(f"a file of packets {packets}", f"recording {packets}")),
        failed(f"split --settings s.toml --dir packets --report {packets} pass.rec", packets, over(f"a file of packets {packets}", f"report {packets}")),
        Case(f"{RECORDING.format('pass.rec')} >> s.toml", 1, "write failed", over("standard output", "settings s.toml")),
        Case(f"{fields.format('r')} >> f.csv", 1, "write failed", over("standard output", "definition f.csv")),
    ]


def of_pipes():
    """Cases of files that are no regular ones: a pipe that nobody writes to any more would never end."""

    def piped(words, file, line, said=""):
        return Case(words, 2, line, said, before=f"cat {file} > pipe &")

    return [
        piped(SETTINGS.format("pipe"), "bad.toml", "settings: toml"),
        piped(
            SETTINGS.format("pipe"),
            "missing.toml",
            "settings: missing spacecraft",
            "the settings pipe: the value of spacecraft has to be an integer from 0 to 1023",
        ),
        piped(FIELDS.format("pipe"), "kind.csv", "definition: kind row 1"),
        Case(FIELDS.format("/dev/stdin"), 2, "definition: kind row 1", fed="kind.csv"),
        piped(RESUMED.format("pipe"), "short.chk", "checkpoint: short"),
    ]


def of_settings():
    """Cases of settings that are refused."""

    def refused(name, line, said=""):
        return Case(SETTINGS.format(f"{name}.toml"), 2, f"settings: {line}", said and f"the settings {name}.toml{said}")

    def toml(name, line, column, why):
        return refused(name, "toml", f", line {line}, column {column}: {why}; write lines key = value, each key once")

    def unknown(name, word, key):
        return refused(name, f"unknown {word}", f": the key may be meant for {key}; correct it, or take it out")

    def value(name, line, key):
        return refused(name, f"{line} {key}", f": the value of {key} has to be {VALUES[key]}")

    return [
        toml("bad", 2, 15, "invalid value, expected a string, number, boolean, date-time, array or inline table"),
        toml("twice", 5, 1, "duplicate key"),
        toml("letter", 3, 20, "unexpected key or value, expected newline, `#`"),
        toml("latin", 2, 6, "not UTF-8"),
        unknown("typo", "frame_lenght", "frame_length"),
        *[unknown(f"word-{word}", word, key) for word, key in MEANT.items()],
        *[refused(f"word-{word}", f"unknown {word}") for word in MEANINGLESS],
        value("missing", "missing", "spacecraft"),
        value("kind-spacecraft", "kind", "spacecraft"),
        *[value(f"range-{key}", "kind" if key == "error_control" else "range", key) for key in VALUES],
    ]


MEANT = {
    **{"scid": "spacecraft", "vcid": "channels", "fecf": "error_control", "crc": "error_control", "asm": "skip_before", "rs": "skip_after"},
    **{"ofc": "ocf", "channel": "channels"},
}
# Near none: all characters would have to be others.
MEANINGLESS = ["bananas", "vc", "len", "x"]
MOST = {"spacecraft": 1023, "frame_length": 2048, "skip_before": 1024, "skip_after": 1024, "max_packet": 65542}
LEAST = {"frame_length": 9, "max_packet": 7}
VALUES = {key: f"an integer from {LEAST.get(key, 0)} to {most}" for key, most in MOST.items()} | {
    "secondary": '"flag", "always" or "never"',
    "ocf": '"flag", "always" or "never"',
    "error_control": "true or false",
    "channels": "an array of distinct integers from 0 to 7, at least one",
}


def of_definitions():
    """Cases of definitions that are refused."""

    def refused(name, line, said=""):
        return Case(FIELDS.format(f"{name}.csv"), 2, f"definition: {line}", said and f"the definition {name}.csv{said}")

    def lengths(name, row):
        return refused(name, "csv", f": row {row} has 2 values, and the heading 3; give each line as many, and quote a value with a comma")

    def length(name, value, values, row=1, field="a", data_type=None):
        said = f", field {field} of type {data_type or name}: bit_length is {value}; it has to be {values}, in one to nine digits"
        return refused(name, f"bits row {row}", said)

    return [
        lengths("lengths", 2),
        lengths("short-rows", 1),
        refused("empty", "column name"),
        refused("semicolons", "column name"),
        refused("column", "column bit_length"),
        refused("columns", "column name"),
        refused("kind", "kind row 1"),
        refused("array", "array row 1"),
        length("uint", 70, "1 to 64", 2, "b"),
        length("feed", 70, "1 to 64", 1, r"\x0ca", "uint"),
        length("latin", 70, "1 to 64", 1, "", "uint"),
        length("float", 8, "16, 32 or 64"),
        length("str", 9, "a multiple of 8 from 8 to 524336"),
        length("fill", 0, "1 to 524336"),
        refused(
            "offset",
            "offset row 1",
            ", field a of type uint: bit_offset is 0000000008; it has to be at most 524336 less the length, in one to nine digits",
        ),
        refused("names", "name row 3"),
        refused("filler", "name row 3"),
        refused("nameless", "name row 1"),
        refused("many", "too many"),
    ]


def of_checkpoints():
    """Cases of checkpoints that are refused, and of recordings that are shorter."""

    def refused(word, said=""):
        return Case(RESUMED.format(f"{word}.chk"), 2, f"checkpoint: {word}", said and f"the checkpoint to go on from {word}.chk: {said}")

    def differs(settings, name, key, there, here):
        said = f"{key} is {there} there, and {here} in the settings {settings}.toml; take the settings that it was written with"
        words = f"packets --settings {settings}.toml --resume {name}.chk pass.rec"
        return Case(words, 2, "checkpoint: settings", f"the checkpoint to go on from {name}.chk: {said}")

    def shorter(words, file, name="c", fed=""):
        said = f"{file}: fewer than the 100 records that are done in the checkpoint to go on from {name}.chk;"
        said += " give the recording of the checkpoint, from its beginning"
        line = "recording is shorter than the checkpoint"
        return Case(f"packets --settings s.toml --resume {name}.chk {words}", 2, line, said, fed=fed)

    return [
        *[refused(word) for word in ("short", "magic", "check", "state", "trailing")],
        refused("version", "version 9, and 1 to 3 are read; take a newer tmx, or begin anew"),
        *[differs(f"other-{key}", "c", key, there, here) for key, there, here in DIFFERENT],
        differs("other-max_packet", "oldest", "max_packet", "65542", "100"),
        shorter("short.rec", "the recording short.rec", "oldest"),
        shorter("short.rec", "the recording short.rec"),
        shorter("< short.rec", "standard input"),
        shorter("", "standard input", fed="short.rec"),
    ]


DIFFERENT = (
    ("spacecraft", "42", "43"),
    ("frame_length", "256", "24"),
    ("skip_before", "0", "1"),
    ("skip_after", "0", "2"),
    ("secondary", '"flag"', '"always"'),
    ("ocf", '"flag"', '"never"'),
    ("error_control", "true", "false"),
    ("channels", "[0, 1, 2, 3, 4, 5, 6, 7]", "[0, 2]"),
    ("max_packet", "65542", "100"),
)


def of_runs():
    """Cases of runs that end early, and of words."""
    full = "No space left on device (os error 28); mend this, or name another"
    return [
        Case(RECORDING.format("dir"), 1, "read failed", "the recording dir: a folder; name a file"),
        Case(RECORDING.format("< dir"), 1, "read failed", "standard input: a folder; name a file"),
        Case(RECORDING.format("<&-"), 1, "read failed", "standard input: closed; open it, or name a file"),
        Case(
            RECORDING.format("/proc/self/mem"),
            1,
            "read failed",
            "the recording /proc/self/mem: Input/output error (os error 5); mend this, or name another",
        ),
        Case(f"{EXTRACT} > /dev/full", 1, "write failed", f"standard output: {full}"),
        Case(f"{EXTRACT} >&-", 1, "write failed", "standard output: closed; open it, or name a file"),
        Case(EXTRACT, 1, "write failed", "standard output: the program that reads it has ended; see why", unread=True),
        Case("--help > /dev/full", 1, "write failed", f"standard output: {full}"),
        Case(PACKETS.format("--report /dev/full"), 1, "report failed", f"the report /dev/full: {full}"),
        Case(SPLIT.format("full"), 1, "write failed", f"the folder full: {full}"),
        Case(
            SPLIT.format("blocked"),
            1,
            "write failed",
            "a file of packets blocked/apid-0100.pkt: Is a directory (os error 21); mend this, or name another",
        ),
        Case(SPLIT.format("shut"), 1, "write failed", "a file of packets shut/apid-0100.pkt: no permission; see with ls -l who may do it", True),
        Case(SPLIT.format("dir"), 1, "write failed", "the folder dir: no permission; see with ls -l who may do it", True),
        Case("packets --settings tiny.toml --resume last.chk many.rec", 1, "too many records"),
        Case("packets --settings s.toml --stop-after 3 pass.rec", 2, "--stop-after needs --checkpoint"),
    ]


# What was lost: records, good and bad ones, missing frames, dropped octets.
COUNTS = "{} records, {} good, {} bad, {} frames missing, {} octets dropped: see tmx summary"


def of_losses():
    """Cases of runs that are done, and of what they have lost."""
    wrong = "--settings other-spacecraft.toml"
    quiet, rows = f"{wrong} --report /dev/null", "--settings s.toml --report /dev/null --definition"
    some, chosen = COUNTS.format(300, 299, 1, 2, 738), "--settings chosen.toml --report /dev/null"

    def bad(records):
        return f"{COUNTS.format(records, 0, records, 0, 0)}, or python3 -m tmx probe"

    return [
        Case(f"frames {wrong} pass.rec", 0, said=bad(300)),
        Case(f"frames {wrong}", 0, said=bad(300), fed="pass.rec"),
        Case(f"extract {quiet} pass.rec", 0, said=bad(300)),
        Case(f"extract {quiet}", 0, said=bad(300), fed="pass.rec"),
        Case(f"split {quiet} --dir packets pass.rec", 0, said=bad(300)),
        Case(f"packets {quiet} --checkpoint bad.chk --stop-after 7 pass.rec", 0, said=bad(7)),
        Case(f"packets {quiet} --resume bad.chk pass.rec", 0, said=bad(293)),
        Case(f"packets --strict {quiet} pass.rec", 5, said=bad(300)),
        Case("packets --settings s.toml --report /dev/null half.rec", 0, said=COUNTS.format(2, 1, 1, 0, 6)),
        Case(f"summary {wrong} pass.rec", 0),
        Case(f"summary --strict {wrong} pass.rec", 5),
        Case("summary --strict --settings s.toml pass.rec", 4),
        Case("frames --settings s.toml pass.rec", 0),
        Case(EXTRACT, 0, said=some),
        Case(f"{EXTRACT} --strict", 4, said=some),
        Case(f"extract {quiet}", 0, said=COUNTS.format(*[0] * 5)),
        Case(f"extract --strict {quiet}", 5, said=COUNTS.format(*[0] * 5)),
        Case(f"fields {rows} f.csv --apid 101 pass.rec", 0, said=some),
        Case(f"fields {rows} f.csv --apid 999 pass.rec", 0, said=f"no packet of application 999; {some}"),
        Case(f"fields {rows} f.csv --apid 999 --checkpoint good.chk good.rec", 0, said="no packet of application 999: see tmx summary"),
        Case(
            f"fields {rows} wide.csv --apid 101 pass.rec",
            0,
            said=f"all 503 packets of application 101 are too short; {some}",
        ),
        Case(f"packets {chosen} --checkpoint good.chk good.rec", 0, said="no good frame of channel 5, 7: see tmx summary"),
        Case("packets --settings s.toml --report /dev/null --checkpoint good.chk good.rec", 0),
        Case("packets --strict --settings s.toml --report /dev/null --checkpoint good.chk good.rec", 0),
        Case("frames --settings s.toml pass.rec.gz", 0, said="the recording pass.rec.gz: packed by gzip; unpack it first"),
        Case("frames --settings s.toml pass.rec.zst", 0, said="the recording pass.rec.zst: packed by zstd; unpack it first"),
        Case("frames --settings s.toml < pass.rec.gz", 0, said="standard input: packed by gzip; unpack it first"),
        Case("frames --settings tiny.toml pipe", 0, said=bad(3), before="cat head.gz > pipe &"),
    ]


# Runs whose report goes to standard error, and what is said behind it.
REPORTED = (
    Case("packets --settings other-spacecraft.toml pass.rec", 0),
    Case("packets --settings s.toml pass.rec.gz", 0, said="the recording pass.rec.gz: packed by gzip; unpack it first"),
    Case(
        "fields --settings s.toml --definition wide.csv --apid 101 pass.rec",
        0,
        said="all 503 packets of application 101 are too short: see tmx summary",
    ),
)


# The folder in which all cases run.


def with_check(octets):
    return octets + crc_hqx(octets, 0xFFFF).to_bytes(2, "big")


def make_settings():
    """The files of settings that cases name."""
    right = {"spacecraft": "42", "frame_length": "256", "error_control": "true"}

    def write(name, **changed):
        lines = [f"{key} = {value}\n" for key, value in (right | changed).items() if value]
        Path(f"{name}.toml").write_text("".join(lines), encoding="utf-8")

    Path("bad.toml").write_text("spacecraft = 42\nframe_length == 256\n", encoding="utf-8")
    Path("letter.toml").write_text('spacecraft = 42\n# é\nframe_length = "é" 3\n', encoding="utf-8")
    with open("large.toml", "wb") as file:
        file.truncate(2**32 + 5)
    Path("latin.toml").write_bytes(b"spacecraft = 42\n# caf\xe9\n")
    Path("long.toml").write_bytes(b"\n" * 1048577)
    write("s")
    write("twice", max_packet="100\nspacecraft = 42")
    write("typo", frame_length="", frame_lenght="256")
    write("missing", spacecraft="")
    write("tiny", frame_length="9", error_control="false")
    write("chosen", channels="[0, 1, 3, 5, 7]")
    write("kind-spacecraft", spacecraft='"42"')
    for key, most in MOST.items():
        write(f"range-{key}", **{key: str(most + 1)})
    for key, value in (("secondary", '"yes"'), ("ocf", '"yes"'), ("error_control", '"yes"'), ("channels", "[8]")):
        write(f"range-{key}", **{key: value})
    for key, _, here in DIFFERENT:
        write(f"other-{key}", **{key: here})
    for word in [*MEANT, *MEANINGLESS]:
        write(f"word-{word}", **{word: "1"})
    write("shut")
    os.chmod("shut.toml", 0)


def make_definitions():
    heading = "name,data_type,bit_length"
    texts = {
        "lengths": f"{heading}\na,uint,8\nb,uint\n",
        "short-rows": f"{heading}\na,uint\nb,uint,8\nc\n",
        "empty": "",
        "semicolons": "name;data_type;bit_length\na;uint;8\n",
        "column": "name,data_type,bits\na,uint,8\n",
        "columns": "name,name,data_type,bit_length\na,b,uint,8\n",
        "wide": f"{heading}\na,str,80000\n",
        "kind": f"{heading}\na,uint8,8\n",
        "array": f"{heading}\na,uint(4),8\n",
        "uint": f"{heading}\na,uint,8\n b ,uint, 70\n",
        "feed": f"{heading}\n\fa,uint,70\n",
        "latin": f"{heading}\nH\udcf6he,uint,70\n",
        "float": f"{heading}\na,float,8\n",
        "str": f"{heading}\na,str,9\n",
        "fill": f"{heading}\na,fill,0\n",
        "offset": f"{heading},bit_offset\na,uint,8,0000000008\n",
        "names": f"{heading}\na,uint,8\nb,uint,8\na,uint,8\n",
        "filler": f"{heading}\na,fill,8\na,uint,8\na,uint,8\n",
        "nameless": f"{heading}\n,uint,8\n",
        "many": f"{heading}\n" + "".join(f"f{at},uint,8\n" for at in range(1001)),
    }
    for name, text in texts.items():
        Path(f"{name}.csv").write_text(text, encoding="utf-8", errors="surrogateescape")


def make_checkpoints():
    """A checkpoint of 100 records, and others with one thing wrong."""
    subprocess.run("./tmx packets --settings s.toml --checkpoint c.chk --stop-after 100 pass.rec", shell=True, capture_output=True, check=True)
    octets = Path("c.chk").read_bytes()
    shutil.copy("c.chk", "shut.chk")
    os.chmod("shut.chk", 0)
    line = [sys.executable, HERE / "trials" / "reference.py", "keep", "s.toml", "pass.rec", "100", "1"]
    Path("oldest.chk").write_bytes(subprocess.run(line, capture_output=True, check=True).stdout)
    inner = octets[:-2]
    wrong = {
        "short": octets[:20],
        "magic": b"XXXX" + octets[4:],
        "version": with_check(inner[:4] + b"\x09" + inner[5:]),
        "check": inner + bytes(2) if octets[-2:] != bytes(2) else inner + b"\1\1",
        "state": with_check(inner[:24] + b"\x07" + inner[25:]),
        "trailing": with_check(inner + b"\0"),
    }
    for name, text in wrong.items():
        Path(f"{name}.chk").write_bytes(text)
    settings = bytes.fromhex("002a 0009 0000 0000 00 00 00 ff 010006")
    Path("last.chk").write_bytes(with_check(b"TMXC\x03" + settings + b"\xff" * 4 + bytes(1 + 8 + 2)))
    with open("many.rec", "wb") as file:
        file.truncate(9 * 2**32)


def make_folder(tmx):
    example = HERE / "example"
    for name, copied in (("pass.rec", "pass.rec"), ("attitude.csv", "f.csv")):
        shutil.copy(example / name, copied)
    shutil.copy(tmx, "tmx")
    os.chmod("tmx", 0o755)  # so that nobody can run it, too
    Path("short.rec").write_bytes(Path("pass.rec").read_bytes()[: 78 * 256 + 32])
    Path("good.rec").write_bytes(Path("pass.rec").read_bytes()[: 20 * 256])
    Path("half.rec").write_bytes(Path("pass.rec").read_bytes()[: 2 * 256 - 1] + b"x")
    Path("pass.rec.gz").write_bytes(gzip.compress(Path("pass.rec").read_bytes()))
    Path("pass.rec.zst").write_bytes(bytes.fromhex("28b52ffd") + Path("pass.rec").read_bytes())
    Path("head.gz").write_bytes(bytes.fromhex("1f8b08000000000000") * 3)
    os.mkfifo("pipe")
    for name in ("dir", "beside.new", "packets", "full", "blocked", "shut"):
        os.mkdir(name)
    os.mkfifo("blocked/apid-0000.pkt")
    os.mkdir("blocked/apid-0100.pkt")
    Path("shut/apid-0100.pkt").touch(0)
    os.chmod("shut", 0o777)
    os.link("pass.rec", "link.rec")
    shutil.copy("pass.rec", "packets/apid-0100.pkt")
    for application in range(2048):
        os.symlink("/dev/full", f"full/apid-{application:04}.pkt")
    make_settings()
    make_definitions()
    make_checkpoints()


# How cases are run.


def start(case, errors, explain=None):
    """The program of a case, with this standard error and this value of TMX_EXPLAIN, if any."""
    variables = {name: value for name, value in os.environ.items() if name != "TMX_EXPLAIN"}
    if explain is not None:
        variables["TMX_EXPLAIN"] = explain
    fed = subprocess.Popen(["cat", case.fed], stdout=subprocess.PIPE) if case.fed else None
    output = subprocess.DEVNULL
    if case.unread:
        reading, output = os.pipe()
        os.close(reading)
    user = NOBODY if case.as_nobody and os.geteuid() == 0 else None
    program = subprocess.Popen(
        ["sh", "-c", f"{case.before} exec ./tmx {case.words}"],
        stdin=fed.stdout if fed else subprocess.DEVNULL,
        stdout=output,
        stderr=errors,
        user=user,
        env=variables,
    )
    if fed:
        fed.stdout.close()
    if case.unread:
        os.close(output)
    return program


def in_pipe(case, explain=None):
    program = start(case, subprocess.PIPE, explain)
    said = program.stderr.read()
    return program.wait(), said


def at_terminal(case, explain=None, typed=b""):
    """The status of a case, and what it says to a terminal, at which this is typed."""
    reading, errors = pty.openpty()
    form = termios.tcgetattr(errors)
    form[1] &= ~termios.OPOST
    form[3] &= ~termios.ECHO
    termios.tcsetattr(errors, termios.TCSANOW, form)
    os.write(reading, typed)
    program = start(case, errors, explain)
    os.close(errors)
    limit = threading.Timer(LIMIT, program.kill)
    limit.start()
    said = b""
    while True:
        try:
            octets = os.read(reading, 65536)
        except OSError:  # the other end is closed
            break
        if not octets:
            break
        said += octets
    os.close(reading)
    limit.cancel()
    return program.wait(), said


def contents():
    """What the files of the folder hold, but for the long ones."""
    return {path: path.read_bytes() for path in Path().rglob("*") if path.is_file() and not path.is_symlink() and path.stat().st_size < 2**21}


def mistake(case):
    """What is wrong with a case, if anything."""
    line = f"tmx: {case.line}\n".encode() if case.line else b""
    both = line + (f"  {case.said}\n".encode() if case.said else b"")
    first = in_pipe(case)
    if first != (case.status, line):
        return f"in a pipe: {first}"
    before = contents()
    for name, run, explain, wanted in (
        ("at a terminal", at_terminal, None, both),
        ("in a pipe by 1", in_pipe, "1", both),
        ("at a terminal by 0", at_terminal, "0", line),
    ):
        found = run(case, explain)
        if found != (case.status, wanted):
            return f"{name}: {found}, wanted {wanted}"
    return "" if contents() == before else "files were changed"


def value_mistake():
    """What is wrong with other values of TMX_EXPLAIN, if anything: they are as none."""
    case = Case(SETTINGS.format("none.toml"), 1)
    found = {value: (in_pipe(case, value) == in_pipe(case), at_terminal(case, value) == at_terminal(case)) for value in OTHER_VALUES}
    wrong = {value: same for value, same in found.items() if same != (True, True)}
    return str(wrong) if wrong else ""


OTHER_VALUES = ("", "2", "10", "01", " 1", "yes", "\udce9", "1" * 5000)


def report_mistake():
    """What is wrong where the report goes to standard error, if anything: what it tells is not said once more."""
    for case in REPORTED:
        alone, said = in_pipe(case), [at_terminal(case), in_pipe(case, "1")]
        wanted = 0, alone[1] + (f"  {case.said}\n".encode() if case.said else b"")
        if said != [wanted, wanted] or b" record=" not in alone[1]:
            return f"{said}, wanted {wanted}"
        if at_terminal(case, "0") != alone:
            return f"{case.words}: something is said by 0"
    return ""


def errors_mistake():
    """What is wrong where standard error is a file that is read, if anything: nothing may be written there."""
    before = Path("s.toml").read_bytes()
    with open("s.toml", "ab") as errors:
        statuses = [start(Case(SETTINGS.format("s.toml"), 1), errors, explain).wait() for explain in (None, "1")]
    return "" if statuses == [1, 1] and Path("s.toml").read_bytes() == before else f"{statuses}, {Path('s.toml').read_bytes()}"


def typed_mistake():
    """What is wrong where the settings are typed at the terminal, if anything: it would wait for more to be typed."""
    found = at_terminal(Case(SETTINGS.format("/dev/stderr"), 2), typed=b"spacecraft\n\x04")
    return "" if found == (2, b"tmx: settings: toml\n") else str(found)


def words_mistake(words, line, said):
    """What is wrong with words that are refused by a text of `clap`, which begins with a line, if anything."""
    case = Case(words, 2)
    status, text = in_pipe(case)
    if (status, text.decode().splitlines()[0]) != (2, line):
        return f"{status}, {text}"
    both = text + (f"  {said}\n".encode() if said else b"")
    found = at_terminal(case), in_pipe(case, "1"), at_terminal(case, "0")
    return "" if found == ((2, both), (2, both), (2, text)) else f"{found}, wanted {both}"


OF_STOP = "--stop-after takes a decimal number from 1 to 4294967295"
OF_APID = "--apid takes a decimal number from 0 to 2047"
JOINED = "a run reads one recording; join them by cat"
OTHER_WORD = "word 4, caf\\xe9.rec, is not UTF-8; rename the file, or give the recording to standard input: < FILE"
STOPPED = "packets --settings s.toml --checkpoint c --stop-after"
READ = "fields --settings s.toml --definition f.csv"
UNKNOWN = "error: unexpected argument '{}' found"
INVALID = "error: invalid value '{}' for '{} <N>': {}"

# Words, the first line of what `clap` says of them, and what is said behind. A word that is too long to be looked at comes before the last.
WRONG_WORDS = (
    (f"{STOPPED} ten pass.rec", INVALID.format("ten", "--stop-after", "invalid digit found in string"), OF_STOP),
    (f"{STOPPED}=0 pass.rec", INVALID.format("0", "--stop-after", "0 is not in 1..=4294967295"), OF_STOP),
    (f"{STOPPED} 4294967296 pass.rec", INVALID.format("4294967296", "--stop-after", "4294967296 is not in 1..=4294967295"), OF_STOP),
    (f"{READ} --apid 0x64 pass.rec", INVALID.format("0x64", "--apid", "invalid digit found in string"), OF_APID),
    (f"{READ} --apid=2048 pass.rec", INVALID.format("2048", "--apid", "2048 is not in 0..=2047"), OF_APID),
    ("packets --settings s.toml a.rec b.rec", UNKNOWN.format("b.rec"), JOINED),
    ("packets a.rec --settings=s.toml b.rec c.rec", UNKNOWN.format("b.rec"), JOINED),
    ("packets --settings s.toml --bananas a.rec", UNKNOWN.format("--bananas"), ""),
    ("packets pass.rec", "error: the following required arguments were not provided:", ""),
    ("bananas a.rec b.rec", "error: unrecognized subcommand 'bananas'", ""),
    ("frames --settings $(printf %05000d 0) \"$(printf 'caf\\351.rec')\"", "error: the arguments are not UTF-8", OTHER_WORD),
)


def memory_mistake():
    """What is wrong where memory runs out, if anything: the line stands alone."""
    found = set()
    for limit in range(2000, 40000, 500):
        found.add(at_terminal(Case(EXTRACT, 3, before=f"ulimit -v {limit};")))
    wrong = {one for one in found if one[0] == 3} - {(3, b"tmx: out of memory\n")}
    return str(wrong) if wrong else "" if (3, b"tmx: out of memory\n") in found else "memory never ran out"


# The table.


def rows():
    """The texts of the table in FORMATS.md, in their order."""
    part = re.split(r"\n###? ", FORMATS.split(HEADING)[1])[0]
    return re.findall(r"^\| .* \| `([^`]*)` \|$", part, re.M)


def pattern(text):
    """What a text stands for, with a value at each word in capitals."""
    return re.compile(".*".join(re.escape(part) for part in VALUE.split(text)))


def texts():
    """The texts of the code that have a value, in braces, or an advice."""
    sources = [*(CRATES / "tm_explanations" / "src").glob("*.rt"), CRATES / "tm_faults" / "src" / "explanation.rt"]
    found = [text for path in sources for text in re.findall(r'"((?:[^"\\]|\\.)*)"', path.read_text(encoding="utf-8"), re.S)]
    whole = [re.sub(r"\\\n\s*", "", text).removeprefix("; ") for text in found]
    return [text for text in whole if "; " in text or "{" in text]


def texts_mistake(cases):
    """Which texts of the code no case has."""
    patterns = {text: ".*".join(re.escape(part) for part in re.split(r"\{[^}]*\}", text)) for text in texts()}
    unseen = [text for text, form in patterns.items() if not any(re.search(form, one) for one in said_in(cases))]
    return f"no case: {unseen}" if unseen or len(patterns) < 20 else ""


def said_in(cases):
    """All that cases say behind the line of a fault."""
    return [case.said for case in [*cases, *REPORTED] if case.said] + [said for _, _, said in WRONG_WORDS if said]


def rows_mistake(cases):
    """Which rows no case has, and which cases have no row."""
    said = said_in(cases)
    missing = [row for row in rows() if not any(pattern(row).fullmatch(one) for one in said)]
    other = [one for one in said if not any(pattern(row).fullmatch(one) for row in rows())]
    return f"no case: {missing}; no row: {other}" if missing or other else ""


def tell(name, wrong):
    print(f"FAILED: {name}: {wrong}".replace("\n", " ") if wrong else f"ok {name}", flush=True)


def main():
    tmx = Path(sys.argv[1]).resolve()
    os.umask(0o022)
    os.mkdir("terminal")
    os.chdir("terminal")
    make_folder(tmx)
    kinds = of_missing, of_files, of_clashes, of_pipes, of_settings, of_definitions, of_checkpoints, of_runs, of_losses
    cases = [case for kind in kinds for case in kind()]
    print(f"plan {len(cases) + len(WRONG_WORDS) + 7}", flush=True)
    for case in cases:
        tell(f"terminal: {case.words}", mistake(case))
    tell("terminal: other values of TMX_EXPLAIN", value_mistake())
    tell("terminal: a report that goes there", report_mistake())
    tell("terminal: standard error that is a file that is read", errors_mistake())
    tell("terminal: settings that are typed there", typed_mistake())
    for words, line, said in WRONG_WORDS:
        tell(f"terminal: {words}", words_mistake(words, line, said))
    tell("terminal: memory that runs out", memory_mistake())
    tell("terminal: each text of the code comes", texts_mistake(cases))
    tell("terminal: each row of the table comes", rows_mistake(cases))


if __name__ == "__main__":
    main()
