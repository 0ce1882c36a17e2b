"""The package's commands: `python3 -m tmx COMMAND`."""

import argparse
import json
import os
import sys
import time
import warnings
from collections.abc import Callable, Iterable

from . import xtce
from .arguments import seconds
from .checkpoints import cut_back, records_done
from .errors import Error, ProgramError
from .following import OUTPUTS, Wanted, done_in, losses, next_step, steps
from .loss_map import drawing, lines_of_file
from .loss_times import times_wanted
from .markers import Cut, cut, hidden
from .probing import USUAL_MARKER, probe, repeated_marker
from .recording import Recording
from .report import Asked, find
from .report_page import page
from .screen import Log, Output, Screen, is_terminal
from .watching import Wanted as Watched
from .watching import watch


def put(octets: bytes) -> None:
    """Writes to standard output.  Raises OSError that says so."""
    try:
        with open(1, "wb", closefd=False) as out:
            out.write(octets)
    except OSError as error:
        raise OSError(error.errno, error.strerror, "standard output") from None


def hold_streams() -> None:
    """Has no file take the number of a standard stream that is closed.  Reading 0 and writing 1 still fail."""
    for number, mode in enumerate((os.O_WRONLY, os.O_RDONLY, os.O_WRONLY)):
        try:
            os.fstat(number)
        except OSError:
            os.open(os.devnull, mode)
    if sys.stderr is None:
        sys.stderr = open(2, "w", errors="backslashreplace")


def say(lines: Iterable[str]) -> None:
    put("".join(f"{it}\n" for it in lines).encode("utf-8", "surrogateescape"))


# The commands.


def map_words(parser: argparse.ArgumentParser) -> None:
    parser.add_argument("--title", default="What was lost", help="the picture's heading")
    parser.add_argument("--settings", metavar="FILE", help="the settings of the recording")
    what = "with --settings the recording, else two files: the frames and the report that tmx printed"
    parser.add_argument("files", nargs="+", metavar="FILE", help=what)


def draw_map(words: argparse.Namespace, parser: argparse.ArgumentParser) -> None:
    if len(words.files) != (2 if words.settings is None else 1):
        parser.error("the words are --settings SETTINGS RECORDING, or FRAMES REPORT")
    if words.settings is not None:
        svg = Recording(words.files[0], words.settings).loss_map(words.title).svg
    elif words.files == ["-", "-"]:
        parser.error("only one of the files can be standard input")
    else:
        svg = drawing(lines_of_file(words.files[0]), lines_of_file(words.files[1]), words.title)
    put(svg.encode())


def follow_words(parser: argparse.ArgumentParser) -> None:
    parser.add_argument("--settings", required=True, metavar="FILE", help="the settings of the recording")
    what = "the program's command for each step (packets)"
    parser.add_argument("--command", dest="job", choices=list(OUTPUTS), default="packets", help=what)
    parser.add_argument("--definition", metavar="FILE", help="the definition that fields needs")
    parser.add_argument("--apid", type=int, metavar="N", help="the application that fields needs")
    parser.add_argument("--once", action="store_true", help="one step, and no waiting for more")
    parser.add_argument("--interval", default=10.0, type=float, metavar="SECONDS", help="when it looks again (10)")
    parser.add_argument("recording", metavar="RECORDING", help="a file that grows")
    parser.add_argument("folder", metavar="FOLDER", help="where the files of the steps go")


def follow_recording(words: argparse.Namespace, parser: argparse.ArgumentParser) -> None:
    needed = [words.definition is not None, words.apid is not None]
    if needed != [words.job == "fields"] * 2:
        parser.error("--definition and --apid are for --command fields, which needs both")
    wanted = Wanted(words.job, words.definition, words.apid)
    if words.recording == "-":
        parser.error("follow reads a file that grows, and not standard input")
    if words.once:
        next_step(words.recording, words.settings, words.folder, wanted)
        return
    if not words.recording:
        parser.error("the recording has no name")
    try:
        interval = seconds("--interval", words.interval)
    except ValueError as error:
        parser.error(str(error))
    if not os.path.exists(words.recording):
        print(f"tmx follow: {words.recording} isn't there yet", file=sys.stderr)
    done, since = done_in(words.folder), time.monotonic()
    for step in steps(words.recording, words.settings, words.folder, wanted, interval):
        records, now = records_done(step), time.monotonic()
        rate, at = (records - done) / max(now - since, 1e-3), time.strftime("%FT%TZ", time.gmtime())
        say([f"{step} has {records} records; at {at} {rate:.0f} a second, {losses(step.with_suffix('.report'))}"])
        done, since = records, now


def cut_back_words(parser: argparse.ArgumentParser) -> None:
    parser.add_argument("checkpoint", metavar="CHECKPOINT")
    parser.add_argument("files", nargs="*", metavar="FILE", help="lists of packets, rows of fields, reports")


def cut_files_back(words: argparse.Namespace, parser: argparse.ArgumentParser) -> None:
    lost = cut_back(words.checkpoint, *words.files)
    lines = [f"{words.checkpoint} has {records_done(words.checkpoint)} records"]
    lines += [f"{name}: {octets} octets cut, {os.path.getsize(name)} stay" for name, octets in lost.items()]
    say(lines)


def probe_words(parser: argparse.ArgumentParser) -> None:
    parser.add_argument("recording", metavar="RECORDING", help="the recording; - is standard input")


def probe_recording(words: argparse.Namespace, parser: argparse.ArgumentParser) -> None:
    found = probe(words.recording)
    if not found:
        raise NothingFoundError(found.note)
    put(found[0].toml().encode())
    for other in found[1:]:
        said = f"{other.share:.1%} good frames, {other.whole:.1%} of data in whole packets"
        print(f"also: {', '.join(other.settings.toml().splitlines())}: {said}", file=sys.stderr)


class NothingFoundError(Error):
    """No settings fit a recording, or no record is placed in a stream, or in a large part of it."""


def cut_words(parser: argparse.ArgumentParser) -> None:
    parser.epilog = (
        "Where a stretch is in no record, between two records, before the first or after the last, and a record with its marker fits "
        "into it, the last line says so, and the status is 1. All records are written nevertheless."
    )
    parser.add_argument("--marker", default="1ACFFC1D", metavar="HEX", help="the sync marker (1ACFFC1D)")
    parser.add_argument("--length", required=True, type=int, metavar="N", help="the octets behind each marker")
    parser.add_argument("--flips", default=0, type=int, metavar="N", help="how many bits of a marker may be wrong (0)")
    what = "leaves out the record before a slip, which has no marker behind it; for frames without error control"
    parser.add_argument("--strict-markers", action="store_true", help=what)
    what = "takes the pseudo-random sequence of CCSDS 131.0-B off each record"
    parser.add_argument("--derandomize", action="store_true", help=what)
    parser.add_argument("stream", nargs="?", default="-", metavar="STREAM", help="the raw stream; standard input without it")


def cut_stream(words: argparse.Namespace, parser: argparse.ArgumentParser) -> None:
    try:
        how = {"strict": words.strict_markers, "derandomize": words.derandomize}
        found = cut(words.stream, words.marker, words.length, words.flips, **how)
    except ValueError as error:
        parser.error(str(error))
    said, block = 0, b"more"
    while block:
        block = found.read(1 << 18)
        put(block)
        for slip in found.slips[said:]:
            print(slip, file=sys.stderr)
        said = len(found.slips)
    print(f"cut records={found.records} slips={len(found.slips)} left={found.left_out}", file=sys.stderr)
    if not found.records:
        raise NothingFoundError(f"no record: {apart(found)}")
    if found.uncut:
        part = f"{found.uncut} of {found.window.end} octets"
        raise NothingFoundError(f"{part} are in no record, in stretches into which a record with its marker fits")


def apart(found: Cut) -> str:
    """What the markers of a stream without a record say."""
    if found.distance is not None:
        return f"most markers are {found.distance} octets apart: try --length {found.distance - len(found.marker)}"
    beginning = found.window.beginning()
    for marker in (found.marker, USUAL_MARKER):
        if mend := hidden(marker, beginning):
            return mend
    again = repeated_marker(beginning)
    if again is None:
        return "no two markers are there"
    marker, distance = again
    others = f"--marker {marker.hex().upper()} --length {distance - len(marker)}"
    return f"no two markers are there, but others are {distance} octets apart: try {others}"


def report_words(parser: argparse.ArgumentParser) -> None:
    parser.add_argument("--settings", required=True, metavar="FILE", help="the settings of the recording")
    parser.add_argument("--title", metavar="TEXT", help="the page's heading (the recording's name)")
    parser.add_argument("--station", metavar="TEXT", help="the station, as it is to stand there")
    parser.add_argument("--pass", dest="pass_", metavar="TEXT", help="the pass, as it is to stand there")
    parser.add_argument("--report", metavar="FILE", help="a file for all lines of the program's report, to which the page links")
    what = "times of receipt in octets that the settings pass over, from this octet of a record on, as 0:cds8, 4:cuc4.2 or 0:>f8"
    parser.add_argument("--receipt", metavar="OFFSET:FORMAT", help=what)
    what = "times of an application's packets: the column of seconds, and that of their binary fraction"
    parser.add_argument("--time", metavar="COLUMN[,COLUMN]", help=what)
    parser.add_argument("--definition", metavar="FILE", help="the definition that has these columns")
    parser.add_argument("--apid", type=int, metavar="N", help="the application of --time")
    parser.add_argument("--channel", type=int, metavar="N", help="the only channel of its packets (all)")
    parser.add_argument("--epoch", metavar="TIME", help="the UTC of second 0 of times, or TAI, GPS, J2000 or UNIX")
    parser.add_argument("--json", action="store_true", help="the same numbers as an object of JSON, and no page")
    parser.add_argument("recording", metavar="RECORDING", help="the recording; - is standard input, which is copied to a file")


def write_report(words: argparse.Namespace, parser: argparse.ArgumentParser) -> None:
    try:
        times = times_wanted(words.receipt, words.time, words.definition, words.apid, words.channel, words.epoch)
    except ValueError as error:
        parser.error(str(error))
    asked = Asked(words.title, words.station, words.pass_, words.report, times)
    found, svg = find(words.recording, words.settings, asked)
    put((json.dumps(found.json(), indent=1) + "\n" if words.json else page(found, svg)).encode())


def definition_words(parser: argparse.ArgumentParser) -> None:
    parser.epilog = "Without CONTAINER it lists all containers, each with its application and its fields, or why it can't be read."
    parser.add_argument("file", metavar="FILE", help="an XTCE file")
    parser.add_argument("container", nargs="?", metavar="CONTAINER", help="a container, by its name or its path")


def write_definition(words: argparse.Namespace, parser: argparse.ArgumentParser) -> None:
    system = xtce.read(words.file)
    if words.container is not None:
        put(system.definition(words.container).encode())
        return
    for path in system.containers:
        try:
            apid, fields = system.apid(path), len(system.columns(path))
            say([f"{path}: {f'application {apid}' if apid is not None else 'no application'}, {fields} field{'s' * (fields != 1)}"])
        except xtce.XtceError as error:
            say([f"{path}: refused: {error}"])


def watch_words(parser: argparse.ArgumentParser) -> None:
    parser.epilog = "Ctrl-C ends the pass: the files are whole then, the summary is printed, and the status is 0."
    parser.add_argument("--settings", required=True, metavar="FILE", help="the settings of the recording")
    parser.add_argument("--every", default=1.0, type=float, metavar="SECONDS", help="when it is shown again (1)")
    parser.add_argument("--out", metavar="FILE", help="a file for the packets, as tmx extract gives them")
    parser.add_argument("--report", metavar="FILE", help="a file for the report")
    what = "a file that grows or isn't there yet, or a pipe; standard input without it"
    parser.add_argument("recording", nargs="?", default="-", metavar="RECORDING", help=what)


def watch_recording(words: argparse.Namespace, parser: argparse.ArgumentParser) -> int:
    if not words.every > 0:
        parser.error("--every takes a number over 0")
    if not words.recording:
        parser.error("the recording has no name")
    wanted = Watched(words.recording, words.settings, words.every, words.out, words.report)
    output: Output = Screen(put) if is_terminal() else Log(put)
    try:
        with output as shown:
            summary, error = watch(wanted, shown)
        shown.put(f"{summary}\n".encode())
    except ProgramError as refused:
        print(refused, file=sys.stderr)
        return max(refused.status, 1)
    if fault := error or output.error:
        raise fault
    return 0


Words = argparse.Namespace
Command = tuple[str, Callable[[argparse.ArgumentParser], None], Callable[[Words, argparse.ArgumentParser], int | None]]

COMMANDS: dict[str, Command] = {
    "map": ("draws what was lost of a recording, as an SVG", map_words, draw_map),
    "probe": ("finds settings that fit an unknown recording", probe_words, probe_recording),
    "cut": ("cuts a raw stream with sync markers into records of one length", cut_words, cut_stream),
    "follow": ("reads a growing recording in steps, each with files of its own", follow_words, follow_recording),
    "report": ("writes a page of what came of a pass, with each loss", report_words, write_report),
    "watch": ("shows what comes of a recording while it comes", watch_words, watch_recording),
    "definition": ("makes a definition of fields of a container of an XTCE file", definition_words, write_definition),
    "cut-back": ("cuts outputs back to a checkpoint, after a run that was ended", cut_back_words, cut_files_back),
}


def reason(error: Exception) -> str:
    """What went wrong, in a line."""
    if isinstance(error, OSError) and error.strerror:
        return f"{error.filename}: {error.strerror}" if error.filename else error.strerror
    return str(error)


def perform(words: argparse.Namespace, parser: argparse.ArgumentParser) -> int:
    """Runs the command of these words, and answers the status."""
    hold_streams()
    try:
        with warnings.catch_warnings():
            warnings.showwarning = lambda warning, *_: print(f"tmx {words.command}: {warning}", file=sys.stderr)
            return COMMANDS[words.command][2](words, parser) or 0
    except KeyboardInterrupt:
        return 130
    except (Error, OSError) as error:
        said = str(error) if isinstance(error, ProgramError) else f"tmx {words.command}: {reason(error)}"
        print(said, file=sys.stderr)
        return 1


def main(arguments: list[str] | None = None) -> int:
    parser = argparse.ArgumentParser("python3 -m tmx", description="Works with recordings of TM transfer frames.")
    commands = parser.add_subparsers(dest="command", required=True, metavar="COMMAND")
    for name, (what, add_words, _) in COMMANDS.items():
        add_words(commands.add_parser(name, help=what, description=what.capitalize() + "."))
    words = parser.parse_args(arguments)
    return perform(words, commands.choices[words.command])


def run_alone(name: str) -> None:
    """A command by itself, as `tmx-cut`."""
    what, add_words, _ = COMMANDS[name]
    parser = argparse.ArgumentParser(f"tmx-{name}", description=what.capitalize() + ".")
    parser.set_defaults(command=name)
    add_words(parser)
    sys.exit(perform(parser.parse_args(), parser))


if __name__ == "__main__":
    sys.exit(main())
