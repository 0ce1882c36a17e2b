#!/usr/bin/env python3
"""Tries planted bugs in batches: the prover has to refuse each at a goal of the function in which the bug is planted.

    trials/bugs.py             tries those of each crate that has changed since all of its bugs were refused
    trials/bugs.py --all       tries all
    trials/bugs.py CRATE..     tries those of these crates

A bug is an edit crates/CRATE/bugs/NAME.edit, in the form of `rt help`: a line `file: PATH`, and then pairs of lines `old: TEXT` and `new: TEXT`.
Each TEXT is one line, and the old one is in the file once. Later pairs change what the earlier ones made. What `rt ci` tries is in must-fail/.

Bugs of different functions are planted at once, and one check of these functions judges them all. Its notes name each goal that is open, by
its place. A bug is refused only where a goal of its own function is open, or where an answer in its own function's proof fails. Else it is
NOT REFUSED, whatever else fails, also where that proof only names what the bug took away. A bug in a constant is one of the functions that name
the constant. One that changes an item, such as a struct, is tried alone, and so is one by which a lemma fails. BAD EDIT is one that can't be
applied or read, or that changes a contract. NOT TRIED is one for which the prover gave no verdict. All three fail.

The work tree isn't touched: all is done in a temporary folder, which TMPDIR chooses. The libraries below are those that `rt ci` proved from the
same files on this machine, or else it proves them first. With --built they are those that `rt lib` keeps in out/, and what `rt check` keeps
there of the crate itself isn't proved again. A crate whose bugs were all refused gets a line in trials/refused.txt: the day, and a sum of all
that its check reads. A crate that still has that sum isn't tried again.

It prints a line for each bug, and last `N passed, N failed, N skipped`. Its status is 0 if none failed."""

from __future__ import annotations

import argparse
import concurrent.futures
import contextlib
import datetime
import hashlib
import operator
import os
import pathlib
import re
import shutil
import signal
import subprocess
import sys
import tempfile
import threading
import time
from collections.abc import Callable, Iterable, Iterator
from dataclasses import dataclass, field

ROOT = pathlib.Path(__file__).resolve().parent.parent
CRATES = ROOT / "crates"
RECORD = ROOT / "trials" / "refused.txt"

# How bugs are judged. Another number has all of them tried again.
JUDGED = 1

# What a check reads of a crate, and what of those files no other crate can name.
PARTS = ("src", "specs", "proofs")
OWN_PROOFS = ("Answers.antt", "Invariants.antt", "Proof.antt")

# What one check takes of memory, mostly.
MEMORY = 3 << 30

REFUSED, MISSED, BAD, UNTRIED = "refused", "NOT REFUSED", "BAD EDIT", "NOT TRIED"

HEAD = re.compile(r"( *)(?:pub(?:\([\w:]+\))? )?(?:(?:const|unsafe|extern \"C\") )*fn (\w+)")
CONSTANT = re.compile(r"( *)(?:pub(?:\([\w:]+\))? )?(?:const|static) (\w+): ")
TYPE = re.compile(r"^(?:pub(?:\(\w+\))? )?(?:struct|enum) (\w+)", re.M)
BLOCK = re.compile(r"(?:pub(?:\([\w:]+\))? )?(impl|trait)\b(<.*?>(?= ))? ?(?:(.*?) for )?(?:&(?:'\w+ )?(?:mut )?)?(\w+)")

# What a check says of goals that are open, and of answers that fail by themselves, and not since something else did.
OPEN_GOAL = re.compile(r"note: (src/\S+?):(\d+):\d+: (?:it is not proved that )?(.*\(`[^`]+`\).*)")
UNANSWERED = re.compile(r"note: (`[^`]+`) of (proofs/\S+)/\w+\.antt must prove: .*")
FAILED_ANSWER = re.compile(r"(?:\./)?(proofs/\S+)/(?:Answers|Invariants|Proof)\.antt:\d+:\d+: error: .*")
FOLLOWS = re.compile(r": error: .*(?:was rejected|was not admitted|is not in scope|has no )")
FAILED_LEMMA = re.compile(r"(?:\./)?(?:proofs|specs)/(?!\S+/(?:Answers|Invariants|Proof)\.antt)\S+:\d+:\d+: error: .*")
UNREAD = re.compile(r"(?:\./)?(src/\S+?):(\d+):\d+: error\b.*")
UNKNOWN = re.compile(r"has no function `([^`]+)`")
VERDICT = re.compile(r"fn (\S+): (proved|not proved|no proof|could not tell)")


class Unusable(Exception):
    """Why an edit can't be applied."""


@dataclass(frozen=True)
class Place:
    """A function or a constant of a file: its name as rattle has it, its lines from its attributes on, and the first line of its body."""

    file: str
    name: str
    first: int
    body: int
    last: int
    is_function: bool

    @property
    def proofs(self) -> str:
        """The folder of a function's own proof files."""
        return "proofs/" + self.name.replace("::", "/")


@dataclass
class Bug:
    """A planted bug: its lines by their file and number, the functions that it is planted in, and what came of it."""

    crate: str
    name: str
    lines: dict[tuple[str, int], str]
    owners: list[Place]
    is_alone: bool = False
    is_in_constant: bool = False
    outcome: str = ""
    why: str = ""

    def __str__(self) -> str:
        return f"{'ok   ' if self.outcome == REFUSED else 'FAILED: '}{self.crate}/{self.name}: {self.outcome}{': ' if self.why else ''}{self.why}"


@dataclass
class Said:
    """What a check said: its status, its lines, and the functions' verdicts."""

    status: int
    lines: list[str]
    verdicts: dict[str, str] = field(default_factory=dict)

    def __post_init__(self) -> None:
        self.verdicts = {found[1]: found[2] for found in map(VERDICT.match, self.lines) if found}

    @property
    def judges(self) -> bool:
        """Whether the prover has come to its end."""
        return self.status in (0, 1) and bool(self.lines) and self.lines[-1].startswith("only=")


def read(path: pathlib.Path) -> str:
    return path.read_text(encoding="utf-8")


# The functions of a file.


def module_of(file: str) -> str:
    """What stands before the names of what a file declares."""
    return "".join(f"{it}::" for it in pathlib.PurePath(file).with_suffix("").parts[1:] if it not in ("lib", "main", "mod"))


def owner_of(file: str, line: str, types: dict[str, str]) -> str:
    """What stands before the names of the functions of an `impl` or a `trait`, by its first line and the files that declare types. The methods
    of a type have its module, and those of an `impl` of a trait have their own."""
    found = BLOCK.match(line)
    if not found:
        return module_of(file)
    _, generics, trait, name = found.groups()
    if not trait:
        return f"{module_of(types.get(name, file))}{name}::"
    is_any = re.search(rf"\b{name}\b", generics or "")
    shown = re.sub(r"'\w+|\W", "", trait.rpartition("::")[2])
    return f"{module_of(file)}{'Any' if is_any else name}{shown}::"


def end_of(lines: list[str], first: int, indent: str) -> int:
    """The last line of what begins at a line, by the layout of `rt fmt`: the next one that is indented no more and ends it."""
    for number in range(first, len(lines)):
        line = lines[number]
        if line.startswith(indent) and line[len(indent) :][:1].strip() and line.endswith(("}", ";")):
            return number
    raise Unusable(f"what begins at line {first + 1} has no end")


def body_of(lines: list[str], first: int, last: int, indent: str) -> int:
    """The first line of a function's body: the brace that opens it is at the end of a line that is indented no more."""
    outer = (at for at in range(first, last + 1) if lines[at].startswith(indent) and lines[at][len(indent) :][:1].strip())
    return next((at for at in outer if lines[at].endswith("{") or at == last), last)


def places_in(file: str, text: str, types: dict[str, str]) -> list[Place]:
    """The functions and constants of a file of src/."""
    lines, found, owner = text.splitlines(), [], module_of(file)
    for number, line in enumerate(lines):
        if line[:1].strip() and line[0] not in "{}":
            owner = owner_of(file, line, types)
        head = HEAD.match(line) or CONSTANT.match(line)
        if head:
            indent, name = head.groups()
            last = end_of(lines, number, indent)
            body = body_of(lines, number, last, indent)
            while lines[number - 1].startswith(f"{indent}#["):
                number -= 1
            found.append(Place(file, f"{owner if indent else module_of(file)}{name}", number, body, last, bool(HEAD.match(line))))
    return found


class Source:
    """The texts of a crate, and where its functions and constants are."""

    def __init__(self, crate: str) -> None:
        self.crate, self.folder = crate, CRATES / crate
        files = sorted((self.folder / "src").rglob("*.rt"))
        self.texts = {it.relative_to(self.folder).as_posix(): read(it) for it in files}
        types = {name: file for file, text in self.texts.items() for name in TYPE.findall(text)}
        self.places = [it for file, text in self.texts.items() for it in places_in(file, text, types)]

    def place_of(self, file: str, number: int) -> Place | None:
        """The innermost function or constant that has this line."""
        having = (it for it in self.places if it.file == file and it.first <= number <= it.last)
        return max(having, key=operator.attrgetter("first"), default=None)

    def naming(self, constant: Place) -> Iterator[Place]:
        """The functions that name a constant, or one that is made of it."""
        word = re.compile(rf"\b{constant.name.rpartition('::')[2]}\b")
        for it in self.places:
            body = self.texts[it.file].splitlines()[it.first : it.last + 1]
            if it != constant and word.search("\n".join(body)):
                yield from [it] if it.is_function else self.naming(it)


# Edits.


def pairs_in(text: str) -> Iterator[tuple[str, str, str]]:
    """The file, the old text and the new one of each pair of an edit."""
    path = old = None
    for line in text.split("\n"):
        if line.startswith("file: "):
            path = line[6:].strip()
        elif line.startswith("old: "):
            old = line[5:]
        elif line.startswith("new:"):
            if path is None or old is None:
                raise Unusable("a `new:` has no `old:` and `file:` before it")
            yield path, old, line[4:].removeprefix(" ")
            old = None
        elif line.strip() and not line.startswith("#"):
            raise Unusable(f"a line of it is not read: {line}")


def changed_lines(source: Source, text: str) -> dict[tuple[str, int], str]:
    """The lines that an edit changes, as they then are."""
    edited = dict(source.texts)
    for path, old, new in pairs_in(text):
        if path not in edited:
            raise Unusable(f"there is no file {path} in src/")
        if edited[path].count(old) != 1:
            raise Unusable(f"an `old:` text is in {path} {edited[path].count(old)} times, and not once")
        edited[path] = edited[path].replace(old, new)
    touched = [path for path in edited if edited[path] != source.texts[path]]
    rows = ((path, zip(source.texts[path].split("\n"), edited[path].split("\n"))) for path in touched)
    changed = {(path, number): after for path, both in rows for number, (before, after) in enumerate(both) if before != after}
    if not changed:
        raise Unusable("it changes nothing")
    return changed


def bug_of(source: Source, path: pathlib.Path) -> Bug:
    """An edit of a crate. Where it can't be applied, it has its outcome."""
    bug = Bug(source.crate, path.stem, {}, [])
    try:
        bug.lines = changed_lines(source, read(path))
        for file, number in bug.lines:
            place = source.place_of(file, number)
            if place is None:
                bug.is_alone = True
            elif not place.is_function:
                bug.is_in_constant = True
                bug.owners += source.naming(place)
            elif number < place.body:
                raise Unusable(f"line {number + 1} of {file} is in a signature or a contract")
            else:
                bug.owners.append(place)
        bug.owners = list(dict.fromkeys(bug.owners))
        if not bug.owners:
            raise Unusable("it is in no function, and in no constant that one names")
    except (OSError, UnicodeError, Unusable) as fault:
        bug.outcome, bug.why = BAD, str(fault)
    return bug


def batches_of(bugs: Iterable[Bug]) -> list[list[Bug]]:
    """Bugs that can be tried at once: no two of a batch are in one function, one in a constant isn't with others, and one that changes an item
    is alone."""
    batches: list[list[Bug]] = []
    for bug in bugs:
        apart = (it for it in batches if it[0].is_in_constant == bug.is_in_constant and not (bug.is_alone or it[0].is_alone))
        batch = next((it for it in apart if not any({*bug.owners} & {*other.owners} for other in it)), None)
        if batch is None:
            batches.append([bug])
        else:
            batch.append(bug)
    return batches


# The crates, and what a check of each reads.


def crates_below() -> dict[str, tuple[bool, list[str]]]:
    """Each crate of crates.txt: whether it is a static library, and what it uses, also of the kit."""
    rows = (line.partition(":") for line in read(ROOT / "crates.txt").splitlines() if line.strip() and line[0] != "#")
    return {head.split()[0]: (head.endswith(" staticlib"), several.split()) for head, _, several in rows}


def all_below(crate: str) -> list[str]:
    """The crates of the repository below a crate, each after those that it uses."""
    found: list[str] = []
    for it in crates_below()[crate][1]:
        if (CRATES / it).is_dir():
            found += [low for low in [*all_below(it), it] if low not in found]
    return found


def files_of(crate: str, *parts: str) -> list[pathlib.Path]:
    return sorted(it for part in parts for it in (CRATES / crate / part).rglob("*") if it.is_file())


def sum_of(crate: str, version: str) -> str:
    """A sum of all that the check of a crate with its bugs reads. Of the crates below these are not the proofs of their functions."""
    own = files_of(crate, *PARTS, "bugs")
    below = [it for low in all_below(crate) for it in files_of(low, *PARTS) if it.name not in OWN_PROOFS]
    used = [(it, crates_below()[it]) for it in [*all_below(crate), crate]]
    made = hashlib.sha256(repr((JUDGED, version, used)).encode())
    for path in [*own, *below]:
        made.update(repr((path.relative_to(ROOT).as_posix(), path.read_bytes())).encode())
    return made.hexdigest()


def record_read() -> dict[str, tuple[str, str]]:
    """The day on which all bugs of a crate were refused, and the sum of that time."""
    rows = read(RECORD).splitlines() if RECORD.exists() else []
    return {crate: (day, made) for crate, day, made in (it.split() for it in rows if it[:1] not in ("", "#"))}


def record(crate: str, made: str) -> None:
    """Notes that all bugs of a crate were refused today."""
    kept = {name: it for name, it in record_read().items() if (CRATES / name / "bugs").is_dir()}
    kept[crate] = datetime.date.today().isoformat(), made
    head = "# Written by bugs.py alone: the day on which all planted bugs of a crate were refused, and a sum of what their check read.\n"
    part = RECORD.with_suffix(".part")
    part.write_text(head + "".join(f"{name} {day} {it}\n" for name, (day, it) in sorted(kept.items())), encoding="utf-8")
    part.replace(RECORD)


# Checks.


def link_or_copy(one: str, other: str) -> None:
    """Gives a file that rt made another name, if rt replaces such a file and never writes into it, or else copies it."""
    with contextlib.suppress(OSError):
        if one.endswith(".oantt") or "/out/rlib/" in one:
            os.link(one, other)
            return
    shutil.copy2(one, other)


class Checks:
    """Checks of copies of the crates, in a folder of their own, and the processes that run them."""

    def __init__(self, folder: pathlib.Path, kit: pathlib.Path, is_built: bool, keep: pathlib.Path | None) -> None:
        self.folder, self.kit, self.is_built, self.keep = folder, kit, is_built, keep
        # The libraries below are in a repository of their own.
        self.below = folder / "below"
        self.below.mkdir()
        self.lock, self.running, self.is_over = threading.Lock(), set[subprocess.Popen[str]](), False
        # What the checks of each crate took of a processor.
        self.seconds: dict[str, float] = {}

    def run(self, words: list[str], place: pathlib.Path, **more: str) -> Said:
        """Runs a command in a group of processes of its own."""
        with self.lock:
            if self.is_over:
                raise KeyboardInterrupt
            how = {"cwd": place, "env": os.environ | more, "text": True, "errors": "replace", "start_new_session": True}
            ran = subprocess.Popen(words, stdin=subprocess.DEVNULL, stdout=subprocess.PIPE, stderr=subprocess.STDOUT, **how)  # type: ignore[call-overload]
            self.running.add(ran)
        out = ran.stdout.read()
        _, status, usage = os.wait4(ran.pid, 0)
        ran.returncode = os.waitstatus_to_exitcode(status)
        with self.lock:
            self.running.discard(ran)
            self.seconds[place.name] = self.seconds.get(place.name, 0) + usage.ru_utime + usage.ru_stime
        return Said(ran.returncode, out.rstrip("\n").split("\n"))

    def end(self) -> None:
        """Kills what runs, so that nothing is started after it."""
        with self.lock:
            self.is_over = True
            for it in self.running:
                with contextlib.suppress(ProcessLookupError):
                    os.killpg(it.pid, signal.SIGKILL)

    def copy(self, crate: str, to: pathlib.Path, *parts: str) -> None:
        """Copies parts of a crate."""
        for part in parts:
            copy: Callable[[str, str], object] = shutil.copy2
            if part.startswith("out"):
                copy = link_or_copy
            if (CRATES / crate / part).is_dir():
                shutil.copytree(CRATES / crate / part, to / part, copy_function=copy)

    def make_libraries(self, crates: list[str], jobs: int) -> str:
        """Has the libraries below these crates in the folder, and returns what went wrong."""
        lows = list(dict.fromkeys(low for crate in crates for low in all_below(crate)))
        for low in lows:
            self.copy(low, self.below / "crates" / low, *PARTS, *["out"] * self.is_built)
        lines = read(ROOT / "crates.txt").splitlines()
        wanted = [it for it in lines if it.partition(":")[0].split()[:1] in [[low] for low in lows]]
        (self.below / "crates.txt").write_text("".join(f"{it}\n" for it in wanted), encoding="utf-8")
        if (ROOT / "HANDLES").exists():
            shutil.copy2(ROOT / "HANDLES", self.below)
        (self.below / ".git").mkdir()
        steps = [(["rt", "ci"], self.below)] * bool(lows)
        if self.is_built:
            steps = [(["rt", "lib", "--jobs", str(jobs)], self.below / "crates" / low) for low in lows]
        for words, place in steps:
            said = self.run(words, place, RT_JOBS=str(jobs))
            if said.status:
                return "\n".join([f"the libraries can't be had: {' '.join(words)} in {place.name} ended with status {said.status}", *said.lines[-20:]])
        return ""

    def words(self, crate: str) -> list[str]:
        """The words of a check of a crate over these libraries, as rattle's help has them."""
        is_static, uses = crates_below()[crate]
        root = "src/main.rt" if (CRATES / crate / "src" / "main.rt").exists() else "src/lib.rt"
        rlib = {low: self.below / "crates" / low / "out" / "rlib" for low in all_below(crate)}
        found = [str(self.kit / "bin" / "rattle"), "check", "--crate-name", crate, root, "--jobs", "1", "--links", f"{crate}="]
        for it in ["std", *uses]:
            found += ["--extern", f"{it}={rlib.get(it, self.kit / 'rlibs')}/{it}.rlib"]
        for place in [self.kit / "rlibs", *rlib.values()]:
            found += ["-L", f"dependency={place}"]
        found += ["--antt-project", f"{self.kit}/rattle/logic/antt-project.json", "--logic-built", f"{self.kit}/logic_built"]
        return found + ["--crate-type", "staticlib"] * is_static

    def check(self, source: Source, bugs: list[Bug]) -> Said:
        """Checks the functions of these bugs with all of them planted, over what earlier checks of the crate kept."""
        place = self.folder / "tried" / source.crate
        edited = {file: text.split("\n") for file, text in source.texts.items()}
        for bug in bugs:
            for (file, number), line in bug.lines.items():
                edited[file][number] = line
        for file, lines in edited.items():
            (place / file).write_text("\n".join(lines), encoding="utf-8")
        only = dict.fromkeys(owner.name for bug in bugs for owner in bug.owners)
        words = [*self.words(source.crate), "--incremental", str(place / "out" / "incremental"), *(it for name in only for it in ("--only", name))]
        said = self.run(words, place)
        if self.keep:
            number = len(list(self.keep.glob(f"{source.crate}.*")))
            heads = [f"{bug.name}: {', '.join(it.name for it in bug.owners)}" for bug in bugs]
            (self.keep / f"{source.crate}.{number}").write_text("\n".join([*heads, "", *said.lines, f"status {said.status}"]), encoding="utf-8")
        return said


# What a check says of bugs.


def goals_of(bug: Bug, said: Said) -> tuple[list[str], list[str]]:
    """The goals of a bug's own functions that are open, and then the answers in their proofs that fail. Apart from these stand the answers that
    only name what isn't there."""
    goals: list[str] = []
    answers: list[str] = []
    follow: list[str] = []
    proofs = [it.proofs for it in bug.owners]
    for line in said.lines:
        goal, open_answer, answer = OPEN_GOAL.match(line), UNANSWERED.match(line), FAILED_ANSWER.match(line)
        if goal and any(it.file == goal[1] and it.first < int(goal[2]) <= it.last + 1 for it in bug.owners):
            goals.append(f"{goal[1]}:{goal[2]}: {goal[3]}")
        elif open_answer and open_answer[2] in proofs:
            answers.append(f"{open_answer[2]}: {open_answer[1]} has no proof")
        elif answer and answer[1] in proofs:
            (follow if FOLLOWS.search(line) else answers).append(line.removeprefix("./"))
    return goals + answers, follow


def judge(bug: Bug, said: Said) -> None:
    """Notes what came of a bug by a check that has come to its end."""
    verdicts = [said.verdicts.get(f"{bug.crate}::{it.name}", "no verdict") for it in bug.owners]
    goals, follow = goals_of(bug, said)
    unread = [it for it in said.lines for at in [UNREAD.match(it)] if at and (at[1], int(at[2]) - 1) in bug.lines]
    if unread:
        bug.outcome, bug.why = BAD, unread[0]
    elif goals and any(it in ("not proved", "no proof") for it in verdicts):
        bug.outcome, bug.why = REFUSED, goals[0]
    elif any(it in ("no verdict", "could not tell") for it in verdicts):
        bug.outcome, bug.why = UNTRIED, "the prover could not tell"
    else:
        bug.outcome, bug.why = MISSED, "".join(f"only a name in its proof is missing: {it}" for it in follow[:1])


def blamed(bug: Bug, said: Said) -> str:
    """What a check that came to no end says of this bug: an error in one of its lines, or that it knows no such function."""
    for line in said.lines:
        at, unknown = UNREAD.match(line), UNKNOWN.search(line)
        if at and (at[1], int(at[2]) - 1) in bug.lines or unknown and unknown[1] in [it.name for it in bug.owners]:
            return line
    return ""


def judge_unread(bug: Bug, said: Said) -> None:
    """Notes what came of a bug by a check that came to no end, and that is of this bug alone or blames it."""
    line = blamed(bug, said)
    bug.outcome = BAD if UNREAD.match(line) else UNTRIED
    bug.why = line or f"the check ended with status {said.status}: {said.lines[-1]}"


def try_batch(checks: Checks, source: Source, bugs: list[Bug]) -> None:
    """Tries bugs at once. Where the prover comes to no end, it tries again without those that are to blame. Where none is, or a lemma fails that
    several functions may need, it tries one half and then the other, until such a bug is alone."""
    said = checks.check(source, bugs)
    is_whole = len(bugs) == 1 or not any(map(FAILED_LEMMA.match, said.lines))
    bad = [] if said.judges else [it for it in bugs if len(bugs) == 1 or blamed(it, said)]
    for bug in bugs if said.judges and is_whole else bad:
        (judge if said.judges else judge_unread)(bug, said)
    left = [it for it in bugs if not it.outcome]
    half = 0 if bad else len(left) // 2
    for part in (left[:half], left[half:]):
        if part:
            try_batch(checks, source, part)


def try_crate(checks: Checks, source: Source, bugs: list[Bug]) -> None:
    """Tries all bugs of a crate that can be applied."""
    for batch in batches_of(it for it in bugs if not it.outcome):
        try_batch(checks, source, batch)
    shutil.rmtree(checks.folder / "tried" / source.crate)


# The run.


def free_memory() -> int:
    found = re.search(r"^MemAvailable: +(\d+) kB$", read(pathlib.Path("/proc/meminfo")), re.M)
    return 1024 * int(found[1]) if found else MEMORY


def bugs_of(source: Source) -> list[Bug]:
    return [bug_of(source, it) for it in sorted((CRATES / source.crate / "bugs").glob("*"))]


def tell(checks: Checks, crate: str, bugs: list[Bug], done: str) -> bool:
    """Says what came of a crate's bugs, and returns whether all were refused."""
    for bug in bugs:
        print(bug)
    refused = sum(it.outcome == REFUSED for it in bugs)
    print(f"note {crate}: {refused} of {len(bugs)} bugs are refused, in {checks.seconds.get(crate, 0):.0f} processor s: {done}", flush=True)
    return refused == len(bugs)


def try_crates(checks: Checks, sources: dict[str, Source], bugs: dict[str, list[Bug]], sums: dict[str, str], jobs: int) -> None:
    """Tries the bugs of crates side by side, the crates with the most of them first."""
    began = time.monotonic()
    order = sorted(bugs, key=lambda it: -len(bugs[it]))
    with concurrent.futures.ThreadPoolExecutor(jobs) as pool:
        runs = {pool.submit(try_crate, checks, sources[it], bugs[it]): it for it in order}
        try:
            for done, run in enumerate(concurrent.futures.as_completed(runs), 1):
                run.result()
                minutes = (time.monotonic() - began) / 60
                crate = runs[run]
                if tell(checks, crate, bugs[crate], f"crate {done} of {len(bugs)}, {minutes:.0f} minutes so far"):
                    record(crate, sums[crate])
        except BaseException:
            checks.end()
            pool.shutdown(cancel_futures=True)
            raise


def skip_unchanged(crates: list[str], version: str) -> tuple[list[str], int]:
    """The crates that have to be tried, and how many bugs are left out, which it says."""
    known, wanted, skipped = record_read(), [], 0
    for crate in crates:
        day, made = known.get(crate, ("", ""))
        if made != sum_of(crate, version):
            wanted.append(crate)
            continue
        many = len(list((CRATES / crate / "bugs").iterdir()))
        print(f"SKIPPED: {crate}: {many} planted bugs were refused on {day}, and nothing that their check reads has changed")
        skipped += many
    return wanted, skipped


def try_all(crates: list[str], version: str, said: argparse.Namespace) -> list[Bug]:
    """Tries the bugs of these crates as they are now, in a folder that is removed at any end."""
    kit = pathlib.Path(subprocess.run(["rt", "doc"], check=True, text=True, stdout=subprocess.PIPE).stdout.strip()).parent
    with tempfile.TemporaryDirectory(prefix="tmx-bugs-") as folder:
        checks = Checks(pathlib.Path(folder), kit, said.built, said.keep)
        try:
            sums = {it: sum_of(it, version) for it in crates}
            sources = {it: Source(it) for it in crates}
            bugs = {it: bugs_of(source) for it, source in sources.items()}
            for it in crates:
                checks.copy(it, checks.folder / "tried" / it, *PARTS, *["out/incremental"] * said.built)
            fault = checks.make_libraries(crates, said.jobs)
            if fault:
                print(fault)
                for bug in (bug for several in bugs.values() for bug in several):
                    bug.outcome, bug.why = UNTRIED, "there are no libraries"
                    print(bug)
            else:
                try_crates(checks, sources, bugs, sums, max(1, min(said.jobs, free_memory() // MEMORY)))
        finally:
            checks.end()
    return [it for several in bugs.values() for it in several]


def main() -> int:
    having = sorted(it.parent.name for it in CRATES.glob("*/bugs"))
    parser = argparse.ArgumentParser(description="Tries planted bugs in batches.")
    parser.add_argument("crates", nargs="*", metavar="CRATE", choices=[*having, []], help="try the bugs of these crates")
    parser.add_argument("--all", action="store_true", help="try the bugs of all crates, whether or not they have changed")
    parser.add_argument("--built", action="store_true", help="take the libraries that `rt lib` keeps in out/")
    parser.add_argument("--jobs", type=int, default=len(os.sched_getaffinity(0)), help="so many checks at once")
    parser.add_argument("--keep", type=pathlib.Path, metavar="FOLDER", help="keep what each check says in this folder")
    said = parser.parse_args()
    for number in (signal.SIGTERM, signal.SIGHUP):
        signal.signal(number, lambda *_: sys.exit(1))
    version = subprocess.run(["rt", "version"], check=True, text=True, stdout=subprocess.PIPE).stdout.strip()
    crates = said.crates or having
    wanted, skipped = (crates, 0) if said.all or said.crates else skip_unchanged(crates, version)
    tried = try_all(wanted, version, said) if wanted else []
    failed = [it for it in tried if it.outcome != REFUSED]
    print(f"{len(tried) - len(failed)} passed, {len(failed)} failed, {skipped} skipped")
    return 1 if failed else 0


if __name__ == "__main__":
    sys.exit(main())
