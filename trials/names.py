#!/usr/bin/env python3
"""A name means one thing in all crates, and says what it means. Comments are plain.

- Each name that the definitions in crates/*/specs/ give stands in one file of them alone. Lemmas that stand there are names too. Fields of
  records and variants are not: they are told apart by what stands before them.
- Each type of crates/*/src/ stands in one crate alone, but for those that several crates have to have. Types for tests are left out.
- No definition has the name of a type, unless it is what that type is seen as.
- No function of crates/*/src/ has a name of a kind that says too little: `make_job`, `write_item_line`, `take_next`, `copied`.
- No comment of crates/ has one of a few phrases that have to be read twice, a sentence that begins with "Of", or one of over 30 words.

It prints a line for each fault, else one for each kind of thing that was looked for, and last how many passed and how many failed. Its
status is 0 if none failed."""

import pathlib
import re
import sys

CRATES = pathlib.Path(__file__).resolve().parent.parent / "crates"

# What may stand before the name of a definition.
BEFORE = r"(?:(?:pub|abbrev|unfoldable|record|data)\s+)*"

# The first line of a definition, with its name: it begins at the margin, or by two spaces in a `module _`. Behind the name stand parameters
# and a colon, or at the line's end the parameters go on.
FIRST = re.compile(r"(?:  )?(" + BEFORE + r")([^\s:(){}]+)(?: *[({].*)?(?: :(?: |$)|[)}]$)")

# What a record or a `data` has begins further in than its first line.
HAS_PARTS = re.compile(r"\b(?:record|data)\b")

# Lines that define nothing.
OTHER = re.compile(r"\s*(?:--|(?:pub )?(?:use|mod|module)\b)")

TYPE = re.compile(r"^(?:pub(?:\(\w+\))? )?(?:struct|enum|trait|type) (\w+)", re.M)
FUNCTION = re.compile(r"^\s*(?:pub(?:\(\w+\))? )?(?:const )?(?:unsafe )?fn (\w+)", re.M)

# Each crate that runs out of memory says so by its own type.
SHARED_TYPES = {"NoMemory"}

# What contracts see of these types has their names.
SEEN_TYPES = {"Item", "Rules", "Tail"}
FOR_TESTS = ("tm_memory", "tm_tests", "tm_program_tests")

# Names that leave open what a function does, or what its result is. Each is followed by those that may stay.
VAGUE = (
    (re.compile(r"\w+_by"), "doesn't say what it does", ()),
    (re.compile(r"(?:put|take)_\w+"), "doesn't say whether it reads, writes or sets", ("take_front",)),
    (re.compile(r"[a-z]+ed|kept|lent|made|ran|taken|told"), "is neither a verb nor a noun", ("failed", "feed")),
)

COMMENT = re.compile(r"\s*(//[/!]?|--)(?: (.*))?$")
PHRASES = re.compile(r"\bof which\b|\bof whom\b|\bwant of\b|\b(?:is|are|be) lent\b|\bgone on with\b|\blet go of\b")
SENTENCE = re.compile(r"(?<=[.;:!?])\s+(?=[A-Z`(])")
WORDS = re.compile(r"[\w`'-]+")
MOST_WORDS = 30


def indent(line):
    return len(line) - len(line.lstrip())


def names_in(text):
    """The names that the definitions of a file give, in their order."""
    found = []
    parts_of = None
    for line in text.splitlines():
        if not line.strip() or (parts_of is not None and indent(line) > parts_of):
            continue
        parts_of = None
        first = None if OTHER.match(line) else FIRST.match(line)
        if first:
            found.append(first.group(2))
            if HAS_PARTS.search(first.group(1)):
                parts_of = indent(line)
    return found


def sources(*patterns):
    """The files of the crates by these patterns, and their texts. What rt made is left out."""
    for pattern in patterns:
        for path in sorted(CRATES.glob(pattern)):
            if path.relative_to(CRATES).parts[1] != "out":
                yield path.relative_to(CRATES), path.read_text(encoding="utf-8")


def by_name(found):
    """For each name where it stands, each place once."""
    places = {}
    for name, place in found:
        places.setdefault(name, []).append(place)
    return {name: list(dict.fromkeys(several)) for name, several in places.items()}


def shared_definitions():
    files = by_name((name, path) for path, text in sources("*/specs/**/*.antt") for name in names_in(text))
    for name, several in sorted(files.items()):
        if len(several) > 1:
            yield f"{name} is defined in {' and '.join(map(str, several))}"
    if not files:
        yield "no definitions were found"


def shared_types():
    files = ((path.parts[0], text) for path, text in sources("*/src/*.rt"))
    crates = by_name((name, crate) for crate, text in files if crate not in FOR_TESTS for name in TYPE.findall(text))
    for name, several in sorted(crates.items()):
        if len(several) > 1 and name not in SHARED_TYPES:
            yield f"the type {name} stands in {' and '.join(several)}"
    if not crates:
        yield "no types were found"


def names_of_types():
    types = by_name((name, path) for path, text in sources("*/src/*.rt") for name in TYPE.findall(text))
    for path, text in sources("*/specs/**/*.antt"):
        for name in names_in(text):
            if name in types and name not in SEEN_TYPES:
                yield f"{name} is defined in {path}, and is a type of {' and '.join(map(str, types[name]))}"
    for name in sorted(SEEN_TYPES - types.keys()):
        yield f"{name} may be a type and a definition, and is no type"


def vague_functions():
    functions = by_name((name, path) for path, text in sources("*/src/*.rt") for name in FUNCTION.findall(text))
    for name, several in sorted(functions.items()):
        for form, why, may_stay in VAGUE:
            if form.fullmatch(name) and name not in may_stay:
                yield f"{name} of {' and '.join(map(str, several))} {why}"
    if not functions:
        yield "no functions were found"


def comments(text):
    """The paragraphs of the comments of a file: the number of the first line, and the text."""
    paragraph, mark = None, None
    for number, line in enumerate(text.splitlines(), 1):
        found = COMMENT.match(line)
        if found and found.group(2) and paragraph and found.group(1) == mark:
            paragraph[1].append(found.group(2).strip())
            continue
        if paragraph:
            yield paragraph[0], " ".join(paragraph[1])
        paragraph, mark = ([number, [found.group(2).strip()]], found.group(1)) if found and found.group(2) else (None, None)
    if paragraph:
        yield paragraph[0], " ".join(paragraph[1])


def hard_comments():
    for path, text in sources("*/src/**/*.rt", "*/specs/**/*.antt", "*/proofs/**/*.antt"):
        for number, paragraph in comments(text):
            for sentence in SENTENCE.split(paragraph):
                phrase = PHRASES.search(sentence)
                if phrase:
                    yield f"{path}:{number} has '{phrase.group()}'"
                if sentence.startswith("Of "):
                    yield f"{path}:{number} has a sentence that begins with 'Of'"
                if len(WORDS.findall(sentence)) > MOST_WORDS:
                    yield f"{path}:{number} has a sentence of {len(WORDS.findall(sentence))} words: {sentence[:60]}.."


LOOKS = {
    "each name of a definition is defined in one file of specs/": shared_definitions,
    "each type stands in one crate": shared_types,
    "no definition has the name of a type that is another thing": names_of_types,
    "each function's name says what it does or gives": vague_functions,
    "each comment is plain": hard_comments,
}


def main():
    found = {what: list(look()) for what, look in LOOKS.items()}
    for what, faults in found.items():
        for fault in faults:
            print(f"FAILED: {fault}")
        if not faults:
            print(f"ok   {what}")
    failed = sum(map(len, found.values()))
    print(f"{sum(not faults for faults in found.values())} ok, {failed} failed")
    return 1 if failed else 0


if __name__ == "__main__":
    sys.exit(main())
