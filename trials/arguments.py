#!/usr/bin/env python3
"""What the docs say of the words of the command line is what the program's help says, and FORMATS.md and the manual agree.

    arguments.py TMX

Compared with `tmx --help` and `tmx COMMAND --help` are docs/FORMATS.md, docs/tmx.1 and README.md: which commands there are, in
which order; which words each takes and needs, in which order, with which values; what is said of them; ranges; examples; and
pages.  Each word of help has to stand in FORMATS.md and in the manual, in the same order.  More may stand between.

Compared with each other are FORMATS.md and the manual: keys of settings, with their ranges and what holds without them; columns
of definitions, with their numbers; the forms of printed lines; and the lines of faults.

The sum of the logic that `tmx --version` prints is the one of `rt version`, where there is `rt`, and README.md and PROVED.md
name it.  The manual names the version.

Prints a line `ok ..`, `FAILED: ..` or `SKIPPED: ..` for each, and at the end `plan N`, which is how many there were.
"""

import re
import shutil
import subprocess
import sys
from dataclasses import dataclass
from pathlib import Path

HERE = Path(__file__).resolve().parent.parent
DOCS = HERE / "docs"
FORMATS = (DOCS / "FORMATS.md").read_text(encoding="utf-8")
MANUAL = (DOCS / "tmx.1").read_text(encoding="utf-8")
README = (HERE / "README.md").read_text(encoding="utf-8")
PROVED = (DOCS / "PROVED.md").read_text(encoding="utf-8")
SPELLED = re.compile(r"(--[a-z-]+|[A-Z]{2,})(?: ([A-Z]+))?")  # a word, and what stands for its value
FOR_ALL = "--settings"
TOLD = []  # the names of all comparisons


@dataclass(frozen=True)
class Word:
    """A word of a command: its name, what stands for its value, whether it is needed, and what help says of it."""

    name: str
    value: str
    needed: bool
    said: str


def tell(name, wanted, found):
    """Says whether two things are the same."""
    TOLD.append(name)
    if wanted != found:
        if isinstance(wanted, set):
            wanted, found = sorted(wanted - found), sorted(found - wanted)
        print(f"FAILED: {name}: wanted {wanted}, found {found}".replace("\n", " "))
    else:
        print(f"ok {name}")


# What the program says.


def output_of(tmx, *words):
    return subprocess.run([tmx, *words], capture_output=True, text=True, check=True).stdout


def part_of(text, heading):
    """The lines of a part of a help, each in two: what is described, and how."""
    lines = text.split(f"\n{heading}:\n")[1].split("\n\n")[0].splitlines()
    return [re.split(r"  +", line.strip(), maxsplit=1) for line in lines]


def words_of(text):
    """The words of a command by its help, in their order; the recording is the last."""
    usage, found = re.search(r"^Usage: (.*)$", text, re.M)[1], []
    for spelled, said in part_of(text, "Options") + part_of(text, "Arguments"):
        if not spelled.startswith("-h"):
            name, value = SPELLED.search(spelled.replace("<", "").replace(">", "")).groups("")
            found.append(Word(name, value, f" {spelled}" in usage.replace(f"[{name}]", ""), said))
    return found


# What the docs say.


def section(heading):
    """A section of README.md."""
    return re.split(r"^## ", README.split(f"\n## {heading}\n")[1], flags=re.M)[0]


def rows_of(text, headings):
    """The cells of each row of the table with these headings, without backticks."""
    table = text.split(f"\n| {headings}")[1].split("\n\n")[0].splitlines()[2:]
    return [[cell.replace("`", "").strip() for cell in row.split("|")[1:-1]] for row in table]


def plain(lines):
    """The text of lines of the manual."""
    lines = (re.sub(r"^\.[A-Z][a-z] ", "", re.sub(r"\bFl (\w\b)?", lambda it: f"-{it[1] or ''}", line)) for line in lines)
    return " ".join(" ".join(lines).replace(r"\(dq", '"').replace(" .", ".").split())


def manual_section(heading):
    return MANUAL.split(f"\n.Sh {heading}\n")[1].split("\n.Sh ")[0].splitlines()


def items(heading):
    """The first list of a section of the manual: what each item describes, and how."""
    found = []
    for line in manual_section(heading):
        if line.startswith(".It "):
            found.append((plain([f".{re.sub(r'^(Cm|Li|Ic|Ar) ', '', line[4:])}"]).lstrip("."), []))
        elif line == ".El":
            break
        elif found:
            found[-1][1].append(re.sub(r"^\.Fl ", "-", line))
    return [(head, plain(text)) for head, text in found]


def formats_words():
    """The words of FORMATS.md: name and value, the commands that take it, whether it is needed, and what is said of it."""
    rows = rows_of(FORMATS, "Word | Commands |")
    return [(SPELLED.search(row[0]).groups(""), set(row[1].split(", ")), row[2] == "yes", row[3]) for row in rows]


def manual_words():
    """Those of the manual: name and value, and what is said of it; without those of help itself."""
    found = [(SPELLED.search(head.replace(" Ar ", " ")).groups(""), text) for head, text in items("OPTIONS")]
    return [it for it in found if it[0][0] not in ("--help", "--version")]


# Help and the docs.


def lacks(said, text):
    """The words of help from the first on that a text doesn't have in this order; none if it has all."""
    there = iter(re.findall(r"[\w'-]+", text.lower()))
    wanted = re.findall(r"[\w'-]+", said.lower())
    return next((" ".join(wanted[at:]) for at, word in enumerate(wanted) if word not in there), "")


def ranges(text):
    return set(re.findall(r"(\d+) to (\d+)", text))


def compare_text(where, name, said, text):
    """What help says stands in a text, and no other range."""
    tell(f"{where} says of {name} what help says", "", lacks(said, text))
    tell(f"{where} has the range of {name}", ranges(said), ranges(text))


def compare_commands(commands, helps):
    """Their order, the words that one alone needs, and what they do."""
    names, formats, described = list(commands), rows_of(FORMATS, "Command | What"), items("DESCRIPTION")
    readme = rows_of(section("Commands"), "Command |")
    synopsis = re.findall(r"^\.Cm (\w+)$", "\n".join(manual_section("SYNOPSIS")), re.M)
    orders = {"FORMATS.md": formats, "the manual": described, "README.md": readme, "the synopsis": [[it] for it in synopsis]}
    for where, rows in orders.items():
        tell(f"commands of {where}", names, [row[0] for row in rows])
    for where, rows in (("FORMATS.md", formats), ("README.md", readme)):
        for row in (it for it in rows if it[0] in helps):
            own = [it.name for it in words_of(helps[row[0]]) if it.needed and it.name != FOR_ALL]
            found = re.findall(r"--[a-z-]+", row[2 if where == "FORMATS.md" else 1].replace("takes no --report", ""))
            tell(f"words that {row[0]} alone needs in {where}", own, found)
    for (name, said), row, (_, text) in zip(commands.items(), formats, described):
        compare_text("FORMATS.md", name, said, row[1])
        compare_text("the manual", name, said, text)


def compare_words(helps):
    """Which words there are, in which order, who takes and needs them, and what is said of them."""
    formats, manual = formats_words(), manual_words()
    takers = {}
    for command, text in helps.items():
        for word in words_of(text):
            takers.setdefault(word, set()).add(command)
        names = [it.name for it in words_of(text)]
        for where, rows in (("FORMATS.md", formats), ("the manual", manual)):
            tell(f"order of the words of {command} in {where}", names, [row[0][0] for row in rows if row[0][0] in names])
    wanted = {(it.name, it.value, it.needed, frozenset(those)) for it, those in takers.items()}
    everyone = frozenset(helps)
    found = {(*name, needed, everyone if those == {"all"} else frozenset(those)) for name, those, needed, _ in formats}
    tell("words of FORMATS.md, their values, who takes them, and who needs them", wanted, found)
    tell("words of the manual, and their values", {it[:2] for it in wanted}, {name for name, _ in manual})
    texts = {"FORMATS.md": {row[0][0]: row[3] for row in formats}, "the manual": {row[0][0]: row[1] for row in manual}}
    for where, said in texts.items():
        for word in takers:
            compare_text(where, word.name, word.said, said.get(word.name, ""))


def compare_pages(text, helps):
    """The pages that help names are there, and the manual names them; it has each example of help."""
    pages = [it for it, _ in part_of(text, "Pages, in the folder docs")]
    tell("pages that help names", [], [it for it in pages if not (DOCS / it).exists()])
    manual = set(re.findall(r"^\.Pa (\S+\.md)", "\n".join(manual_section("SEE ALSO")), re.M))
    tell("pages that the manual names", set(), {it for it in pages if it.endswith(".md")} - manual)
    tell("pages of the manual that aren't there", [], [it for it in sorted(manual) if not (DOCS / it).exists()])
    examples = {it.split("Example:\n")[1].strip() for it in helps.values()}
    tell("examples of the manual", set(), examples - set(re.findall(r"^\.Dl (.*)$", MANUAL, re.M)))


def compare_pass():
    """The manual has the commands of README.md for a pass in progress."""
    block = next(it for it in re.findall(r"(?:^ {4}.*\n)+", README, re.M) if "nc -l" in it)
    lines = [it.removeprefix(r"\&") for it in re.findall(r"^\.Dl (.*)$", MANUAL, re.M)]
    tell("the commands for a pass in the manual", [], [it for it in re.findall(r"^ {4}(.*)$", block, re.M) if it not in lines])


def compare_names(helps):
    """Whatever looks like a word of the command line in FORMATS.md and the manual is one."""
    known = {it.name for text in helps.values() for it in words_of(text)} | {"--help", "--version"}
    tell("words that FORMATS.md names", set(), set(re.findall(r"(?<![\w-])--[a-z][a-z-]+", FORMATS)) - known)
    tell("words that the manual names", set(), {f"-{it}" for it in re.findall(r"\bFl (-[a-z-]+)", MANUAL)} - known)


# FORMATS.md and the manual.


def key_of_formats(row):
    """What a row of the table of settings says: ranges, words in quotes, and what holds without the key."""
    return ranges(row[1]), set(re.findall(r'"\w+"', row[1])), row[2]


def key_of_manual(text):
    absent = re.search(r"Without (?:it|them) (.*?)\.(?: |$)", text)
    return ranges(text), set(re.findall(r'"\w+"', text)), absent[1] if absent else "refused" if "has to be there" in text else ""


def compare_settings():
    wanted = {row[0]: key_of_formats(row) for row in rows_of(FORMATS, "Key |")}
    found = {name: key_of_manual(text) for head, text in items("SETTINGS") for name in head.split(" , ")}
    tell("keys of settings in the manual, in their order", list(wanted), list(found))
    for name, said in wanted.items():
        tell(f"the key {name} in the manual", said, found.get(name))


def numbers(text):
    """The numbers of a column; bit 48 may be named more than once."""
    found = sorted(map(int, re.findall(r"\d+", text)))
    return [it for it in found if it != 48]


def compare_definitions():
    wanted = {row[0]: numbers(row[1]) for row in rows_of(FORMATS, "Column |")}
    found = {name: numbers(text) for name, text in items("FIELD DEFINITIONS")}
    tell("columns of definitions in the manual, and their numbers", wanted, found)


def compare_lines():
    """The forms of all lines that are printed."""
    form = re.compile(r"(?<!\w)[a-z]+(?: [a-z]+=[A-Z]+)+(?! *[a-z]+=)")
    tell("forms of printed lines in the manual", set(form.findall(FORMATS)), set(form.findall(MANUAL)))


def faults_of_formats():
    """The lines of faults, with the words of the three refusals in them."""
    words = {"settings": rows_of(FORMATS, "Refusal |")}
    words["definition"] = rows_of(FORMATS[FORMATS.index("## Field definitions") :], "Refusal |")
    refused = FORMATS[FORMATS.index("A checkpoint is refused, in this order:") :].split("\n\n")[1]
    words["checkpoint"] = [[it] for it in re.findall(r"^\d\. `(\w+)`", refused, re.M)]
    found = {it for it in re.findall(r"`(tmx: [^`]*[^`: ])`", section_of_faults()) if "`" not in it}
    return found | {f"tmx: {what}: {row[0]}" for what, rows in words.items() for row in rows}


def compare_help(tmx, text, helps):
    """What `help` prints in place of `--help`."""
    tell("tmx help beside tmx --help", text, output_of(tmx, "help"))
    tell("tmx help COMMAND beside tmx COMMAND --help", helps, {name: output_of(tmx, "help", name) for name in helps})


def section_of_faults():
    return FORMATS.split("\n## Fault lines and statuses\n")[1].split("\n### ")[0]


def compare_faults():
    found = set()
    for head, _ in items("DIAGNOSTICS"):
        first, *others = head.split(" , ")
        found |= {first} | {f"{first.rpartition(' ')[0]} {it}" for it in others}
    tell("lines of faults in the manual", faults_of_formats(), found)
    rows = re.findall(r"\| (\d) \|", FORMATS.split("\n## Fault lines and statuses\n")[1])
    tell("statuses of the manual", set(rows), {head for head, _ in items("EXIT STATUS")})


def compare_sums(tmx):
    """The version, and the sum of the logic that proved the program."""
    first, second = output_of(tmx, "--version").splitlines()
    tell("the version that the manual names", f'.Os "{first}"', next(it for it in MANUAL.splitlines() if it.startswith(".Os")))
    name = "the second line of --version beside rt version"
    if shutil.which("rt"):
        tell(name, re.search(r"logic \w+$", output_of("rt", "version").strip())[0], second)
    else:
        TOLD.append(name)
        print(f"SKIPPED: {name}: no rt")
    for name, page in ("README.md", README), ("PROVED.md", PROVED):
        sums = set(re.findall(r"\b[0-9a-f]{16}\b", page))
        tell(f"sums of the logic in {name}", {second.removeprefix("logic ")}, sums)


def main(tmx):
    text = output_of(tmx, "--help")
    commands = dict(part_of(text, "Commands"))
    helps = {name: output_of(tmx, name, "--help") for name in commands}
    compare_help(tmx, text, helps)
    compare_commands(commands, helps)
    compare_words(helps)
    compare_pages(text, helps)
    compare_names(helps)
    compare_settings()
    compare_definitions()
    compare_lines()
    compare_faults()
    compare_sums(tmx)
    compare_pass()
    print(f"plan {len(TOLD)}")


if __name__ == "__main__":
    main(*sys.argv[1:])
