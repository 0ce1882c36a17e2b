#!/usr/bin/env python3
"""docs/PROVED.md and the tree agree, trials/GUARDS.md is made from them, and each link of each page leads somewhere.

    trials/promises.py            looks
    trials/promises.py --write    makes trials/GUARDS.md, and looks

A promise is an entry of PROVED.md: a heading, what it promises, and **Means:** with the main definitions, if there are any. Its anchor is that of
its heading. The entries stand before the section on what is only tested, each in the section of a crate.

What guards a promise says so by a comment `guards: ANCHOR`: a planted bug in the first lines of its edit, a test and a group of trials in the
first lines of its body, a worked example in the lines above it. Each planted bug and each test has to guard an entry, or be one for what is only
tested. Each entry has to have a guard, or say that the proof alone guards it. clauses.txt names the functions and clauses that carry each entry.
Among them have to be all public functions that have a contract.

What PROVED.md and clauses.txt name has to be there: definitions, in the file of specs/ that is linked; functions, in their file of src/, and their
clauses, at least one if none is named; functions and trials of the section on what the contracts let through. The files and headings that any page links
to have to be there, too. Three tables of docs/ARCHITECTURE.md have to have the files that name what came last, and no others. Each planted bug
has to fit the sources as they are.

Public are the functions that a crate's lib.rt hands out, by name or in a `pub mod`, and those of the types and traits that it hands out.
Those that a derive or an `impl` of std's traits gives aren't: they have no contract of their own. The functions of tm_tests and
tm_program_tests, whose devices only tests use, need no entry.

It prints a line for each fault, else one for each kind of thing that was looked for, and last how many passed and how many failed. Its
status is 0 if none failed. It proves nothing: whether an entry says what its clauses say is for its reader to see."""

import pathlib
import re
import sys
import textwrap
from dataclasses import dataclass, field

import bugs
import names

ROOT = pathlib.Path(__file__).resolve().parent.parent
CRATES = ROOT / "crates"
PAGE = ROOT / "docs" / "PROVED.md"
MADE = ROOT / "trials" / "GUARDS.md"
TABLE = ROOT / "trials" / "clauses.txt"

# The trait of std that thiserror's derive gives, without a name of its own in the source.
DERIVED = "Display"

# These have the tests, and devices for them.
FOR_TESTS = ("tm_tests", "tm_program_tests")

LINK = re.compile(r"\[([^\]]*)\]\(([^)\s]*)\)")
QUOTED = re.compile(r"`([^`]+)`")
NAMES = re.compile(r"[^`]*: ((?:(?:, | and )?`[^`]+`)+)")
ONLY_TESTED = "## What is only tested"
LET_THROUGH = "\n## What the contracts let through\n"
MEANS = "- **Means:** "
UNGUARDED = "The proof alone"
COLUMNS = 120

# How the made page begins.
HEAD = """# What guards each promise

`trials/promises.py --write` makes this page, and nothing is written here by hand. Its headings are those of
[PROVED.md](../docs/PROVED.md), which has the promises.

- **Clauses** are the functions that carry a promise, also private ones, from [clauses.txt](../trials/clauses.txt). In
  brackets stand those of their clauses that do. A function without brackets stands for all its clauses.
- **Planted bugs** are edits `NAME.edit` in the `bugs/` and the `must-fail/` of a crate. The gate applies each, and the
  prover has to refuse it.
- **Tests**, **worked examples** and [**trials**](../trials/README.md) of the built program stand in the linked files.

A crate stands before a name, as in `tm_c/lines_as_octets`, unless the section's heading names it first. Most guards
stand at one promise. Trials [`random`](../trials/groups/recordings.sh) and the test `worked_rows`, which run whole
recordings, guard more promises than they name.
"""

# The tables of docs/ARCHITECTURE.md: under which heading each stands, how its files name what came last, and where such files may be.
SOURCES = ("crates/*/src/*.rt", "crates/*/specs/**/*.antt")
TABLES = (
    ("A line of the report", "(?i)master_?gap", (*SOURCES, "docs/*.*", "example/*.md", "python/tmx/*.py", "trials/**/*.*")),
    ("A key of the settings", "(?i)max_?packet", (*SOURCES, "include/*.h", "python/tmx/*.py")),
    ("A command", r'"summary"|\bSummary\b', SOURCES),
)

# Where guards stand: the files of each kind, and what has their comments in front of their name or behind it.
GUARDS = (
    ("Planted bugs", "crates/*/*/*.edit", r"\A(?P<guards>(?:# guards: .*\n)*)"),
    ("Tests", "crates/*/src/*.rt", r"^#\[test\]\n(?:#\[.*\n)*fn (?P<name>\w+)\(.*\{\n(?P<guards>(?: +// guards: .*\n)*)"),
    ("Worked examples", "crates/*/proofs/**/*.antt", r"(?P<guards>(?:^-- guards: .*\n)+)(?P<name>\S+) "),
    ("Trials", "trials/groups/*.sh", r"^(?P<name>\w+)\(\) \{\n(?P<guards>(?: +# guards: .*\n)+)"),
)
GUARDING = re.compile(r"^\s*(?:#|//|--) guards: (.*)$", re.M)

TRIALS = re.compile(r"\btrials ((?:(?:, | and )?`\w+`)+)")
FUNCTION = re.compile(r"\s*(pub )?(?:pub\(\w+\) )?(?:const )?(?:unsafe )?(?:extern \"C\" )?fn (\w+)")
CLAUSE = re.compile(r"\s+(?:ensures|requires)\b(?: ([\w-]+))? \{")
BLOCK = re.compile(r"(?:pub(?:\(\w+\))? )?(impl|trait)\b(?:<.*?>(?= ))? ?(?:(.*) for )?(\w+)")


@dataclass
class Function:
    """A function of a file of src/: where it stands, and the names of its clauses; a clause without one has the name ``""``."""

    path: pathlib.Path
    name: str
    owner: str
    kind: str
    marked: bool
    clauses: list = field(default_factory=list)

    def __str__(self):
        owner = f"{self.owner}::" if self.owner else ""
        return f"{self.path.relative_to(CRATES)}: {owner}{self.name}"

    def has(self, clauses):
        """It has these clauses, or some if none is named. Those of an impl of a trait stand at the trait."""
        return self.kind == "of a trait" or bool(self.clauses) and all(it in self.clauses for it in clauses)


@dataclass
class Entry:
    """A promise: the line of its heading, the heading of its section, its own, what it promises, and what it means."""

    line: int
    section: str
    heading: str
    promise: str = ""
    means: str = ""

    @property
    def anchor(self):
        return slug(self.heading)


@dataclass
class Guard:
    """What guards promises: what kind it is, its file, its name, and the anchors of the promises."""

    kind: str
    path: pathlib.Path
    name: str
    anchors: list


def read(path):
    return path.read_text(encoding="utf-8")


def block_of(line):
    """What the first line of an impl or a trait opens: the type's or trait's name, and which of the three it is."""
    found = BLOCK.match(line)
    if not found:
        return "", ""
    return found.group(3), "trait" if found.group(1) == "trait" else "of a trait" if found.group(2) else "own"


def functions_in(path):
    """The functions of a file, with their clauses, by the layout that rt fmt gives it."""
    found, block, open_head = [], ("", ""), False
    for line in read(path).splitlines():
        if line[:1].strip() and line[0] not in "{}":
            block = block_of(line)
        head, clause = FUNCTION.match(line), CLAUSE.match(line)
        if head:
            found.append(Function(path, head.group(2), *block, bool(head.group(1))))
            open_head = True
        elif clause and open_head:
            found[-1].clauses.append(clause.group(1) or "")
        open_head = open_head and line.strip() != "}" and not line.endswith("{")
    return found


def handed_out(crate):
    """The names that a crate's lib.rt hands out of its own modules, and its public modules."""
    text = read(CRATES / crate / "src" / "lib.rt")
    uses = re.findall(r"^pub use (\w+)::(\{[^}]*\}|\w+);", text, re.M)
    own = {it for module, several in uses if f"mod {module};" in text for it in re.findall(r"\w+", several)}
    own.update(re.findall(r"^pub (?:fn|struct|enum|trait) (\w+)", text, re.M))
    return own, set(re.findall(r"^pub mod (\w+);", text, re.M))


def public_functions(functions):
    """Those that have a contract, and that crates hand out."""
    for path, those in functions.items():
        crate = path.relative_to(CRATES).parts[0]
        if crate in FOR_TESTS or not (path.parent / "lib.rt").exists():
            continue
        handed, modules = handed_out(crate)
        for it in those:
            is_out = path.stem in modules or (it.owner or it.name) in handed
            if is_out and (it.marked or it.kind == "trait") and it.clauses:
                yield it


def entries_of(text):
    """The entries of the page: each heading of the third level before what is only tested begins one, and any heading ends it."""
    section, found, entry = "", [], None
    for number, line in enumerate(text.partition(f"\n{ONLY_TESTED}\n")[0].splitlines(), 1):
        if line.startswith("## "):
            section, entry = line, None
        elif line.startswith("### "):
            entry = Entry(number, section, line[4:].strip())
            found.append(entry)
        elif entry and (entry.means or line.startswith(MEANS)):
            entry.means += f"{line.removeprefix(MEANS).strip()} "
        elif entry:
            entry.promise += f"{line}\n"
    return found


def slug(heading):
    return re.sub(r"[^\w\- ]", "", heading.strip("# ").lower()).replace(" ", "-")


def anchors_in(text):
    """The anchors of a page's headings. A comment in a block of code is none."""
    return [slug(it) for it in re.findall(r"^#+ .*$", re.sub(r"^```.*?^```", "", text, flags=re.M | re.S), re.M)]


def pages():
    """The pages for readers."""
    return sorted([*ROOT.glob("*.md"), *ROOT.glob("*/*.md")])


def wrong_links(page):
    """Links of a page that lead to no file, or to no heading of it; and links to another crate's file under a name that doesn't say so."""
    for name, target in LINK.findall(read(page)):
        if target.startswith("http"):
            continue
        place, _, anchor = target.partition("#")
        path = (page.parent / place).resolve() if place else page
        if not path.exists():
            yield f"{target} is not there"
        elif anchor and anchor not in anchors_in(read(path)):
            yield f"{target} has no such heading"
        elif "/" in name and path.is_relative_to(CRATES) and name.split("/")[0] != path.relative_to(CRATES).parts[0]:
            yield f"{target} is not of {name.split('/')[0]}"


def wrong_definitions(entry):
    """Names that stand directly behind a link to their file are looked for; what follows them, as `over std's ..`, is not."""
    for piece in entry.means.split("; "):
        link = LINK.search(piece)
        quoted = NAMES.match(piece[link.end() :]) if link else None
        if quoted:
            path = (PAGE.parent / link.group(2)).resolve()
            there = names.names_in(read(path)) if path.exists() else ()
            yield from (f"{it} is not defined in {path.name}" for it in QUOTED.findall(quoted.group(1)) if it not in there)
        elif QUOTED.search(piece) and (link or "std's" not in piece):
            yield f"no file is linked for {piece}"


def named_functions(functions, path, name):
    """The functions of a file by the name that is given, which may say the type or trait too."""
    owner, _, last = name.rpartition("::")
    return [it for it in functions.get(path, ()) if it.name == last and owner in ("", it.owner)]


def carriers_in(text, functions):
    """What each name of the table carries: the anchor of its entry, what is wrong, if anything, the functions, and the names that it has."""
    rows = re.sub(r"\n +", " ", re.sub(r"^#.*\n", "", text, flags=re.M)).splitlines()
    for anchor, _, files in (row.partition(": ") for row in rows):
        for place, _, several in (it.partition(" ") for it in files.split("; ")):
            for carrier in several.split(", "):
                name, *clauses = re.findall(r"[\w:-]+", carrier) or [carrier]
                found = named_functions(functions, CRATES / place.replace("/", "/src/"), name)
                able = [it for it in found if it.has(clauses)]
                wrong = f"{carrier} is no function of {place}" if not found else f"{place} has not the clauses of {carrier}"
                yield anchor, "" if able else wrong, able, [name, *clauses]


def groups_of_trials():
    """The groups that hostile.sh tries."""
    return read(ROOT / "trials" / "groups.txt").split()


def guards_in_tree():
    """All that may guard a promise. The planted bugs of a crate come by their names, in whichever folder they are."""
    for kind, pattern, form in GUARDS:
        for path in sorted(ROOT.glob(pattern), key=lambda it: str(it).replace("/bugs/", "/must-fail/")):
            for found in re.finditer(form, read(path), re.M):
                yield Guard(kind, path, found.groupdict().get("name", path.stem), GUARDING.findall(found["guards"]))


def wrong_guards(entries, guards):
    """Guards of nothing, comments that are nobody's, and entries that nothing guards."""
    anchors, groups = [entry.anchor for entry in entries], groups_of_trials()
    for it in guards:
        place = f"{it.path.relative_to(ROOT)}: {it.name}"
        if not it.anchors:
            yield f"{place} names no promise that it guards"
        if it.kind == "Trials" and it.name not in groups:
            yield f"{place} is no group of trials"
        yield from (f"{place} guards {anchor}, which is no promise" for anchor in it.anchors if anchor not in [*anchors, slug(ONLY_TESTED)])
    for path in {path for _, pattern, _ in GUARDS for path in ROOT.glob(pattern)}:
        if len(GUARDING.findall(read(path))) != sum(len(it.anchors) for it in guards if it.path == path):
            yield f"{path.relative_to(ROOT)} says that something is guarded where nothing stands that could"
    guarded = {anchor for it in guards for anchor in it.anchors}
    for entry in entries:
        if (UNGUARDED in entry.promise) == (entry.anchor in guarded):
            yield f"PROVED.md line {entry.line}: " + ("what is guarded says that it isn't" if entry.anchor in guarded else "nothing guards it")


def wrong_edits():
    """Planted bugs that can't be applied to the sources as they are."""
    for crate in sorted({path.parts[-3] for path in CRATES.glob("*/*/*.edit")}):
        source = bugs.Source(crate)
        yield from (f"{crate}/bugs/{it.name}: {it.why}" for it in bugs.bugs_of(source) if it.outcome)
        for path in sorted(CRATES.glob(f"{crate}/must-fail/*.edit")):
            try:
                bugs.changed_lines(source, read(path))
            except bugs.Unusable as fault:
                yield f"{crate}/must-fail/{path.stem}: {fault}"


def by_file(items, crate):
    """A part of the made page: links to files, each with what is named of it. Another crate's name stands before the file's."""
    files = {}
    for path, text in items:
        files.setdefault(path, []).append(text)
    for path, texts in files.items():
        owner = path.relative_to(ROOT).parts[1]
        shown = path.stem if owner in (crate, "groups", *FOR_TESTS) else f"{owner}/{path.stem}"
        yield f"[{shown}](../{path.relative_to(ROOT)}) {', '.join(texts)}"


def quoted(name, *clauses):
    """A function as the made page shows it, with its clauses in brackets."""
    return f"`{name}`" + (f" (`{'`, `'.join(clauses)}`)" if clauses else "")


def parts_of(anchor, crate, carriers, guards):
    """The parts of an entry of the made page: what each is called, and what it says."""
    named = [(able[0].path, quoted(*called)) for of, _, able, called in carriers if of == anchor and able]
    yield "Clauses", "; ".join(by_file(named, crate))
    for kind, _, _ in GUARDS:
        those = [it for it in guards if it.kind == kind and anchor in it.anchors]
        if kind == "Planted bugs":
            owners = [(it.path.relative_to(CRATES).parts[0], it.name) for it in those]
            yield kind, ", ".join(f"`{name}`" if owner == crate else f"`{owner}/{name}`" for owner, name in owners)
        else:
            yield kind, "; ".join(by_file([(it.path, f"`{it.name}`") for it in those], crate))


def made_page(entries, carriers, guards):
    """The page of what guards each promise."""
    made, section = [HEAD], ""
    for entry in [*entries, Entry(0, ONLY_TESTED, "")]:
        crate = (QUOTED.findall(entry.section) or [""])[0]
        if entry.section != section:
            section = entry.section
            made.append(f"\n{section}\n")
        if entry.heading:
            made.append(f"\n### {entry.heading}\n")
        made.append("\n")
        for name, text in parts_of(entry.anchor or slug(section), crate, carriers, guards):
            if text:
                line = f"- **{name}:** {text}"
                made.append(textwrap.fill(line, COLUMNS, subsequent_indent="  ", break_long_words=False, break_on_hyphens=False) + "\n")
    return "".join(made)


def wrong_bodies(text, functions):
    """Names in the section on what the contracts let through, and trials named behind the entries, that are none of the tree's."""
    tested, _, section = text.partition(f"\n{ONLY_TESTED}\n")[2].partition(LET_THROUGH)
    crates = {path.name for path in CRATES.iterdir()}
    source = "\n".join(map(read, functions))
    known = crates | set(re.findall(r"\b(?:struct|enum|trait) (\w+)", source)) | {DERIVED}
    every = [it for those in functions.values() for it in those]
    for row in re.findall(r"^\| (.*?) \| ", section, re.M):
        for name in QUOTED.findall(row):
            owner, _, last = name.rpartition("::")
            if name not in known and not any(it.name == last and owner in ("", it.owner) for it in every):
                yield f"{name}, whose bodies the contracts let through, is no function"
    for several in TRIALS.findall(re.sub(r"\s+", " ", tested + section)):
        yield from (f"{it} is no group of trials" for it in QUOTED.findall(several) if it not in groups_of_trials())
    if not tested or not section:
        yield "what is only tested, or what the contracts let through, has no section"


def wrong_lines(text):
    """Lines that are too long, but for rows of tables, and headings whose anchor an earlier one has."""
    yield from (f"PROVED.md line {number} has {len(line)} columns" for number, line in enumerate(text.splitlines(), 1) if len(line) > COLUMNS and line[:1] != "|")
    anchors = anchors_in(text)
    yield from (f"PROVED.md: two headings have the anchor #{it}" for it in dict.fromkeys(anchors) if anchors.count(it) > 1)


def judge(text, write):
    """The faults of each kind, by what was looked for."""
    entries = entries_of(text)
    functions = {path: functions_in(path) for path in sorted(CRATES.glob("*/src/*.rt"))}
    carriers = list(carriers_in(read(TABLE), functions))
    guards = list(guards_in_tree())
    anchors = [entry.anchor for entry in entries]
    carried = [anchor for anchor, _, _, _ in carriers]
    named = {id(it) for _, _, able, _ in carriers for it in able}
    made = made_page(entries, carriers, guards)
    if write:
        MADE.write_text(made, encoding="utf-8")
    return {
        "PROVED.md: each entry promises something": [f"PROVED.md line {it.line} promises nothing" for it in entries if not it.promise.strip()],
        "PROVED.md: each line is short, and each heading has an anchor": list(wrong_lines(text)),
        "PROVED.md: each definition is in its file": [f"PROVED.md line {it.line}: {wrong}" for it in entries for wrong in wrong_definitions(it)],
        "PROVED.md: each name that the contracts let through is there": list(wrong_bodies(text, functions)),
        "clauses.txt: each function and clause is in its file": [f"clauses.txt: {anchor}: {wrong}" for anchor, wrong, _, _ in carriers if wrong],
        "clauses.txt: each entry has functions": [f"clauses.txt: {it} is no promise" for it in carried if it not in anchors]
        + [f"clauses.txt: {it} has no functions" for it in anchors if it not in carried],
        "clauses.txt: each public function with a contract is named": [
            f"clauses.txt: no promise has {it}" for it in public_functions(functions) if id(it) not in named
        ],
        "each guard names its promise, and each promise has a guard": list(wrong_guards(entries, guards)),
        "GUARDS.md is what is made": [] if MADE.exists() and read(MADE) == made else ["GUARDS.md is another page than promises.py --write makes"],
    }


def wrong_places(heading, word, patterns):
    """What the table of a page lacks of the files that name a thing, and what it has too much."""
    page = ROOT / "docs" / "ARCHITECTURE.md"
    table = read(page).partition(f"\n### {heading}\n")[2].partition("\n### ")[0]
    crates = {path.name for path in CRATES.iterdir()}
    places = (it for row in re.findall(r"^\| (`.*?) \| ", table, re.M) for it in QUOTED.findall(row))
    listed = {f"crates/{it}" if it.split("/")[0] in crates else it for it in places}
    files = {path for pattern in patterns for path in ROOT.glob(pattern) if path.is_file() and path.parts[-3] not in FOR_TESTS}
    files -= {page, PAGE, MADE, TABLE, pathlib.Path(__file__).resolve(), *ROOT.glob("**/__pycache__/*")}
    naming = {str(path.relative_to(ROOT)) for path in files if re.search(word, path.read_text(encoding="utf-8", errors="replace"))}
    yield from (f"{heading}: {it} names it, and is in no row" for it in sorted(naming - listed))
    yield from (f"{heading}: {it} is in a row, and doesn't name it" for it in sorted(listed - naming))


def main(words):
    if words not in ([], ["--write"]):
        print("usage: promises.py [--write]", file=sys.stderr)
        return 2
    found = judge(read(PAGE), words == ["--write"])
    found["each planted bug can be applied"] = list(wrong_edits())
    found["each link of each page leads somewhere"] = [f"{page.relative_to(ROOT)}: {it}" for page in pages() for it in wrong_links(page)]
    found["ARCHITECTURE.md: each place is in its table"] = [f"ARCHITECTURE.md: {it}" for table in TABLES for it in wrong_places(*table)]
    for what, faults in found.items():
        for fault in dict.fromkeys(faults):
            print(f"FAILED: {fault}")
        if not faults:
            print(f"ok   {what}")
    failed = sum(len(dict.fromkeys(faults)) for faults in found.values())
    print(f"{sum(not faults for faults in found.values())} passed, {failed} failed")
    return 1 if failed else 0


if __name__ == "__main__":
    sys.exit(main(sys.argv[1:]))
