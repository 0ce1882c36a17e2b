"""XTCE files (CCSDS 660.0-B, OMG 1.1 and 1.2): what a file defines, by its paths, and the references between."""

import math
import os
import re
from collections.abc import Iterator
from dataclasses import dataclass, field
from typing import IO, Any, NoReturn
from xml.etree.ElementTree import Element, ParseError, XMLParser, parse
from xml.parsers import expat

from .errors import Error

SETS = {"ParameterTypeSet": "types", "ParameterSet": "parameters", "ContainerSet": "containers"}
WHAT = {"types": "type", "parameters": "parameter", "containers": "container"}
SPACES = " \t\r\n"
WHOLE = re.compile("[-+]?[0-9]+|0[xX][0-9a-fA-F]+|0[oO][0-7]+|0[bB][01]+")
BASES = {"0x": 16, "0o": 8, "0b": 2}
REAL = re.compile("[-+]?([0-9]+([.][0-9]*)?|[.][0-9]+)([eE][-+]?[0-9]{1,3})?")
MOST_LETTERS = 100  # of a number
ENCODINGS = ("IntegerDataEncoding", "FloatDataEncoding", "StringDataEncoding", "BinaryDataEncoding")
CALIBRATORS = ("PolynomialCalibrator", "SplineCalibrator", "MathOperationCalibrator")
ONCE = {it: it for it in (  # what an element has once at most; of a kind of several names any one counts
    *("EntryList", "BaseContainer", "RestrictionCriteria", "BinaryEncoding", "DefaultCalibrator", "EnumerationList", "Encoding"),
    *("ReferenceTime", "Epoch", "SizeInBits", "Fixed", "FixedValue", "TerminationChar", "LocationInContainerInBits", "RepeatEntry"),
    *("Count", "Offset", "DimensionList", "StartingIndex", "EndingIndex", "MemberList"),
)} | dict.fromkeys(ENCODINGS, "data encoding") | dict.fromkeys(CALIBRATORS, "calibrator")  # fmt: skip
INCLUDE = "{http://www.w3.org/2001/XInclude}include"


class XtceError(Error):
    """An XTCE file, or a part of it, can't be used.  `path` names the part, `reason` says why."""

    def __init__(self, path: str, reason: str) -> None:
        super().__init__(path, reason)
        self.path = path
        self.reason = reason

    def __str__(self) -> str:
        return f"{self.path}: {self.reason}"


# Elements.


def local(element: Element) -> str:
    """An element's name without its namespace."""
    return element.tag.rpartition("}")[2]


def below(element: Element | None) -> list[Element]:
    """The elements right below one."""
    return [] if element is None else list(element)


def children(element: Element | None, name: str) -> Iterator[Element]:
    """Those of this name."""
    return (it for it in below(element) if local(it) == name)


def child(element: Element | None, *names: str) -> Element | None:
    """The first element at the end of this path below one."""
    for name in names:
        element = next(children(element, name), None)
    return element


def doubled(element: Element) -> str | None:
    """What an element or one in it has twice, and may have once; None where there is nothing."""
    for it in element.iter():
        kinds = [ONCE[name] for inner in it if (name := local(inner)) in ONCE]
        if len(kinds) > len(set(kinds)):
            return next(kind for at, kind in enumerate(kinds) if kind in kinds[:at])
    return None


def says(element: Element, name: str, default: bool, path: str) -> bool:
    """The truth that an attribute says.  Raises XtceError where it says none."""
    said = element.get(name, str(default)).strip(SPACES).lower()
    if said not in ("true", "1", "false", "0"):
        raise XtceError(path, f"{name} is {shortened(element.get(name))}, which is neither true nor false")
    return said in ("true", "1")


def whole(text: str | None) -> int | None:
    """The whole number of a text, also one with `0x`, `0o` or `0b` before it.  None where it is none, or has over 64 bits."""
    said = WHOLE.fullmatch((text or "").strip(SPACES))
    if said is None or len(said[0]) > MOST_LETTERS:
        return None
    found = int(said[0], BASES.get(said[0][:2].lower(), 10))
    return found if -(1 << 63) <= found < 1 << 64 else None


def integer(text: str | None, path: str) -> int:
    """The same.  Raises XtceError where it is none."""
    found = whole(text)
    if found is None:
        raise XtceError(path, f"{shortened(text)} is no whole number of up to 64 bits")
    return found


def decimal(text: str | None) -> str | None:
    """The text of a finite number; None where it is none."""
    said = (text or "").strip(SPACES)
    return said if REAL.fullmatch(said) and len(said) <= MOST_LETTERS and math.isfinite(float(said)) else None


def real(text: str | None, path: str) -> float:
    """A finite number.  Raises XtceError."""
    said = decimal(text)
    if said is None:
        raise XtceError(path, f"{shortened(text)} is no finite number")
    return float(said)


def shortened(text: str | None) -> str:
    """A text as it is shown in a refusal."""
    said = repr(text)
    return said if len(said) <= MOST_LETTERS else f"{said[:MOST_LETTERS]}..."


def fixed(element: Element | None, path: str, what: str) -> int:
    """The number of a FixedValue.  Raises XtceError where the value is another, as one that a parameter has."""
    value = child(element, "FixedValue")
    if value is None:
        raise XtceError(path, f"{what} is not fixed")
    return integer(value.text, path)


# Files.


def read_root(path: str | os.PathLike[str]) -> Element:
    """The element of the whole file.  Raises XtceError where it is no XML, has a DOCTYPE, or includes other files; OSError."""
    name = os.fspath(path)
    with open(path, "rb") as file:
        try:
            refuse_doctype(file, name)
            file.seek(0)
            root = parse(file, XMLParser()).getroot()
        except (ParseError, expat.ExpatError, ValueError, LookupError) as error:
            raise XtceError(name, f"it is no XML: {error}") from None
    if next(root.iter(INCLUDE), None) is not None:
        raise XtceError(name, "it includes other files, which are not read")
    if local(root) != "SpaceSystem":
        raise XtceError(name, f"its element is {local(root)}, and not SpaceSystem")
    return root


class AtRoot(Exception):
    """The first element has come."""


def refuse_doctype(file: IO[bytes], name: str) -> None:
    """Looks at what stands before the first element: only a DOCTYPE there can define entities or name other files."""

    def refuse(*_: Any) -> NoReturn:
        raise XtceError(name, "it has a DOCTYPE, which is not read")

    def stop(*_: Any) -> NoReturn:
        raise AtRoot

    parser = expat.ParserCreate()
    parser.StartDoctypeDeclHandler, parser.StartElementHandler = refuse, stop
    try:
        parser.ParseFile(file)
    except AtRoot:
        return


@dataclass
class Index:
    """The elements that a file defines, by their paths: `/System/Part/NAME`.

    twice    paths that two of a kind have
    doubled  for elements of a kind what they have twice, and may have once
    """

    types: dict[str, Element] = field(default_factory=dict)
    parameters: dict[str, Element] = field(default_factory=dict)
    containers: dict[str, Element] = field(default_factory=dict)
    twice: set[str] = field(default_factory=set)
    doubled: dict[tuple[str, str], str] = field(default_factory=dict)

    def add(self, root: Element) -> None:
        """Adds what a SpaceSystem defines, and the systems in it."""
        systems = [(root, "")]
        while systems:
            system, above = systems.pop()
            path = f"{above}/{system.get('name', '')}"
            for group in below(child(system, "TelemetryMetaData")):
                if (kind := SETS.get(local(group))) is not None:
                    self.add_all(kind, group, path)
            systems += reversed([(it, path) for it in children(system, "SpaceSystem")])

    def add_all(self, kind: str, group: Element, system: str) -> None:
        found: dict[str, Element] = getattr(self, kind)
        for it in group:
            if it.get("name"):
                path = f"{system}/{it.get('name')}"
                self.twice |= {path} if path in found else set()
                found[path] = it
                if (said := doubled(it)) is not None:
                    self.doubled[kind, path] = said

    def find(self, kind: str, reference: str | None, of: str) -> str:
        """The path that a reference from the element of a path means: in its system, or in the nearest one around that has it.

        One that begins with `./` or `../` means only the path from its system.  Raises XtceError where there is none.
        """
        found: dict[str, Element] = getattr(self, kind)
        said = reference or ""
        system = of.rpartition("/")[0]
        while not said.startswith("/"):
            if (path := joined(system, said)) in found:
                said = path
                break
            if not system or said.startswith(("./", "../")):
                break
            system = system.rpartition("/")[0]
        if said in self.twice:
            raise XtceError(of, f"two elements have the path {said}")
        if said in found:
            if (kind, said) in self.doubled:
                raise XtceError(of, f"{said} has {self.doubled[kind, said]} twice")
            return said
        raise XtceError(of, f"there is no {WHAT[kind]} {said!r}")


def joined(system: str, reference: str) -> str:
    """The path of a reference from a system, with `.` and `..` worked out.  Above the root there is none."""
    parts = system.split("/")
    for part in reference.split("/"):
        if part == "..":
            if len(parts) < 2:
                return ""
            parts.pop()
        elif part != ".":
            parts.append(part)
    return "/".join(parts)
