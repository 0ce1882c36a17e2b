"""Where the parameters of an XTCE container stand in a packet, and what its packets have to keep."""

import re
from collections.abc import Iterator
from dataclasses import dataclass, field
from xml.etree.ElementTree import Element

from .xtce_file import Index, XtceError, below, child, children, fixed, local, says
from .xtce_types import MOST, MOST_STEPS, Kind, Types, refuse_orders

LONGEST = 8 * 65542  # bits of a packet


@dataclass(frozen=True)
class Placed:
    """A value in a packet: its parameter, what is behind that's name, its kind, and its first bit."""

    path: str
    suffix: str
    kind: Kind
    offset: int


@dataclass(frozen=True)
class Compared:
    """A comparison of RestrictionCriteria: a parameter or a part of it, how, with what, and whether its calibrated value."""

    parameter: str
    suffix: str
    order: str
    value: str
    is_calibrated: bool


@dataclass
class Layout:
    """The values of a container, with those of its base containers before them, and the comparisons of all."""

    placed: list[Placed] = field(default_factory=list)
    compared: list[Compared] = field(default_factory=list)


def layout(index: Index, path: str) -> Layout:
    """The layout of a container.  Raises XtceError where something has no fixed place, or isn't read."""
    try:
        return Walk(index).whole(path)
    except RecursionError:
        raise XtceError(path, "its containers are nested too deep") from None


class Walk:
    """Goes through a container's entries, those of its base containers first."""

    def __init__(self, index: Index) -> None:
        self.index = index
        self.types = Types(index)
        self.found = Layout()
        self.open: list[str] = []  # the containers that it is in

    def whole(self, path: str) -> Layout:
        self.container(path, 0, True)
        return self.found

    def container(self, path: str, start: int, is_outer: bool) -> int:
        """Places a container's values from a bit on.  Where the next entry begins."""
        if path in self.open:
            raise XtceError(path, "it contains itself")
        self.open.append(path)
        element, at = self.index.containers[path], start
        if local(element) != "SequenceContainer":
            raise XtceError(path, f"{local(element)} is not read")
        if ("containers", path) in self.index.doubled:
            raise XtceError(path, f"it has {self.index.doubled['containers', path]} twice")
        base = child(element, "BaseContainer")
        if base is not None:
            at = self.container(self.index.find("containers", base.get("containerRef"), path), start, is_outer)
            self.restrict(base, path, is_outer)
        for entry in below(child(element, "EntryList")):
            at = self.entry(entry, path, start, at)
        self.open.pop()
        encoding = child(element, "BinaryEncoding")
        if encoding is not None:
            refuse_orders(encoding, path, is_checked=True)
        size = child(encoding, "SizeInBits")
        return at if size is None or is_outer else start + fixed(size, path, "the size")

    def entry(self, entry: Element, path: str, start: int, previous: int) -> int:
        """Places what an entry refers to.  Where it ends."""
        self.types.steps += 1
        if self.types.steps > MOST_STEPS:
            raise XtceError(self.open[0], "too many types and containers stand in one another")
        kind = local(entry)
        if kind == "ContainerRefEntry":
            what = self.index.find("containers", entry.get("containerRef"), path)
        elif kind in ("ParameterRefEntry", "ArrayParameterRefEntry"):
            what = self.index.find("parameters", entry.get("parameterRef"), path)
        else:
            raise XtceError(path, f"{kind} is not read")
        if child(entry, "IncludeCondition") is not None:
            raise XtceError(path, f"{what} is there only on a condition")
        at = self.begin(entry, what, start, previous)
        for suffix, gap in repeats(entry, what):
            at += gap
            if kind == "ContainerRefEntry":
                if suffix:
                    raise XtceError(path, f"the container {what} is repeated, which is not read")
                at = self.container(what, at, False)
            else:
                at = self.parameter(entry, what, suffix, at)
        return at

    def begin(self, entry: Element, what: str, start: int, previous: int) -> int:
        """The first bit of an entry."""
        location = child(entry, "LocationInContainerInBits")
        if location is None:
            return previous
        reference = location.get("referenceLocation", "previousEntry")
        if reference not in ("containerStart", "previousEntry"):
            raise XtceError(what, f"a place from {reference} is not read")
        at = (start if reference == "containerStart" else previous) + fixed(location, what, "the place")
        if at < 0:
            raise XtceError(what, "it begins before the packet")
        return at

    def parameter(self, entry: Element, path: str, suffix: str, at: int) -> int:
        for kind in self.kinds(entry, path):
            self.found.placed.append(Placed(path, suffix + kind.suffix, kind, at))
            at += kind.bits
            if at > LONGEST:
                raise XtceError(path, f"it ends at bit {at}, and a packet has at most {LONGEST} bits")
        if len(self.found.placed) > MOST:
            raise XtceError(self.open[0], f"it has over {MOST} fields, and a definition at most these")
        return at

    def kinds(self, entry: Element, path: str) -> list[Kind]:
        """The values of a parameter.  An entry may say the dimensions of an array."""
        element = self.index.parameters[path]
        dimensions = child(entry, "DimensionList")
        if dimensions is None:
            return self.types.kinds(element.get("parameterTypeRef"), path, path)
        type_path = self.index.find("types", element.get("parameterTypeRef"), path)
        return self.types.array(self.index.types[type_path], type_path, path, dimensions)

    def restrict(self, base: Element, path: str, is_outer: bool) -> None:
        """Adds the comparisons of a base container's restriction."""
        for it in below(child(base, "RestrictionCriteria")):
            if not is_outer:
                raise XtceError(path, "it is included, and has RestrictionCriteria")
            if local(it) not in ("Comparison", "ComparisonList"):
                raise XtceError(path, f"{local(it)} is not read")
            for comparison in [it] if local(it) == "Comparison" else below(it):
                if local(comparison) != "Comparison":
                    raise XtceError(path, f"{local(comparison)} is not read")
                self.found.compared.append(self.comparison(comparison, path))

    def comparison(self, element: Element, path: str) -> Compared:
        name, suffix = parts(element.get("parameterRef", ""))
        if element.get("instance", "0") != "0":
            raise XtceError(path, f"the instance {element.get('instance')} of {name} is not read")
        parameter = self.index.find("parameters", name, path)
        order, value = element.get("comparisonOperator", "=="), element.get("value", "")
        return Compared(parameter, suffix, order, value, says(element, "useCalibratedValue", True, path))


def parts(reference: str) -> tuple[str, str]:
    """A reference to a parameter, and behind it that to a member or an element."""
    found = re.fullmatch(r"((?:.*/)?[^/.\[]*|\.\.)(.*)", reference)
    return (reference, "") if found is None else (found[1], found[2])


def repeats(entry: Element, path: str) -> Iterator[tuple[str, int]]:
    """What is behind the name of each repetition of an entry, and how many bits lie before it."""
    repeat = child(entry, "RepeatEntry")
    if repeat is None:
        yield "", 0
        return
    count = fixed(child(repeat, "Count"), path, "the number of repetitions")
    offset = child(repeat, "Offset")
    gap = 0 if offset is None else fixed(offset, path, "the distance of repetitions")
    if not 1 <= count <= MOST:
        raise XtceError(path, f"{count} repetitions are out of range")
    for number in range(count):
        yield f"[{number}]", gap if number else 0
