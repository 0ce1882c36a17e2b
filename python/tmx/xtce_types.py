"""The types of an XTCE file: how values stand in a packet, and what they mean."""

import codecs
from collections.abc import Iterator
from dataclasses import dataclass, replace
from fractions import Fraction
from itertools import product
from xml.etree.ElementTree import Element

from .decoding import Decoder, Labels, Polynomial, Spline, Text, Timed, Truth
from .leap_seconds import LeapSecondsError
from .time_codes import Ticks, fraction_of
from .xtce_file import ENCODINGS, Index, XtceError, below, child, children, decimal, fixed, integer, local, real, says

MOST = 1000  # fields of a definition
MOST_STEPS = 5 * MOST  # types and entries that are looked at for one container
INTEGERS = {"unsigned": "uint", "twosComplement": "int", "twosCompliment": "int"}  # the last as XTCE 1.1 spells it
FLOATS = ("IEEE754_1985", "IEEE754")
NUMBERS, WHOLE = ENCODINGS[:2], ENCODINGS[:1]
ALLOWED = {  # which encodings a type may have
    "IntegerParameterType": NUMBERS,
    "FloatParameterType": NUMBERS,
    "EnumeratedParameterType": WHOLE,
    "BooleanParameterType": WHOLE,
    "StringParameterType": ("StringDataEncoding",),
    "BinaryParameterType": ("BinaryDataEncoding",),
    "AbsoluteTimeParameterType": NUMBERS,
}
SEVERAL = ("ArrayParameterType", "AggregateParameterType")  # types of several values
CALIBRATED = ("IntegerParameterType", "FloatParameterType")
MOST_FIRST, LEAST_FIRST = "mostSignificantByteFirst", "leastSignificantByteFirst"
LITTLE = ("utf-16", "utf-16-le", "utf-32", "utf-32-le")  # encodings in which the least significant octet may come first
SINGLE = ("utf-8", "ascii", "iso8859-1", "cp1252")  # encodings in which an octet ends a text
SECONDS = {"seconds": Fraction(1), "picoSeconds": Fraction(1, 10**12), "days": Fraction(86400)}  # units of times
EPOCHS = {"TAI": "TAI", "GPS": "GPS", "J2000": "J2000", "UNIX": "UNIX", "POSIX": "UNIX"}


@dataclass(frozen=True)
class Kind:
    """A value: its type in a definition, its bits, what makes its meaning, and what is behind the parameter's name."""

    data_type: str
    bits: int
    decoder: Decoder | None = None
    suffix: str = ""


class Types:
    """The types of a file.  What they can't say is an XtceError with the path of the parameter."""

    def __init__(self, index: Index) -> None:
        self.index = index
        self.steps = 0  # types and entries that were looked at

    def kinds(self, name: str | None, of: str, path: str, depth: int = 0) -> list[Kind]:
        """The values of a type, one behind another: of an array and an aggregate several.  `of` has the reference."""
        type_path = self.index.find("types", name, of)
        element = self.index.types[type_path]
        self.steps += 1
        if depth > 20:
            raise XtceError(path, f"the type {type_path} contains itself")
        if self.steps > MOST_STEPS:
            raise XtceError(path, "too many types and containers stand in one another")
        if local(element) in SEVERAL and element.get("baseType") is not None:
            raise XtceError(path, f"the {local(element)} {type_path} extends another type, which is not read")
        if local(element) == "ArrayParameterType":
            return self.array(element, type_path, path, child(element, "DimensionList"), depth)
        if local(element) == "AggregateParameterType":
            found: list[Kind] = []
            for member in children(child(element, "MemberList"), "Member"):
                inner = self.kinds(member.get("typeRef"), type_path, path, depth + 1)
                found += [replace(it, suffix=f".{member.get('name')}{it.suffix}") for it in inner]
                if len(found) > MOST:
                    raise XtceError(path, f"the type {type_path} has over {MOST} values")
            return found
        return [self.single(Chain(self.chain(type_path, path)), path)]

    def array(self, element: Element, type_path: str, path: str, dimensions: Element | None, depth: int = 0) -> list[Kind]:
        """The values of an array of these dimensions."""
        inner = self.kinds(element.get("arrayTypeRef"), type_path, path, depth + 1)
        places = [indices(it, path) for it in children(dimensions, "Dimension")]
        total = len(inner)
        for it in places:
            total *= len(it)
        if not places or total > MOST:
            raise XtceError(path, f"an array has dimensions, and at most {MOST} values")
        names = ("".join(f"[{it}]" for it in place) for place in product(*places))
        return [replace(it, suffix=name + it.suffix) for name in names for it in inner]

    def chain(self, type_path: str, path: str) -> Iterator[Element]:
        """A type, and those that it extends."""
        seen: set[str] = set()
        while type_path not in seen:
            seen.add(type_path)
            element = self.index.types[type_path]
            yield element
            if element.get("baseType") is None:
                return
            type_path = self.index.find("types", element.get("baseType"), type_path)
        raise XtceError(path, f"the type {type_path} extends itself")

    def single(self, chain: "Chain", path: str) -> Kind:
        kind = local(chain.elements[0])
        if kind not in ALLOWED:
            raise XtceError(path, f"{kind} is not read")
        inside: list[Element | None] = [chain.child("Encoding")] if kind == "AbsoluteTimeParameterType" else [*chain.elements]
        encoding = next((it for element in inside for it in below(element) if local(it) in ENCODINGS), None)
        if encoding is None:
            raise XtceError(path, "its type has no data encoding")
        if local(encoding) not in ALLOWED[kind]:
            raise XtceError(path, f"{local(encoding)} of a {kind} is not read")
        data_type, bits = encoded(encoding, path)
        refuse_calibrators(encoding, kind, path)
        return Kind(data_type, bits, meaning(kind, chain, encoding, path))


class Chain:
    """A type and those that it extends, as one: the first that has something counts."""

    def __init__(self, elements: Iterator[Element]) -> None:
        self.elements = list(elements)

    def child(self, name: str) -> Element | None:
        return next((it for element in self.elements for it in children(element, name)), None)

    def get(self, name: str, default: str) -> str:
        return next((it for element in self.elements if (it := element.get(name)) is not None), default)


def indices(dimension: Element, path: str) -> range:
    """The indices of a dimension, its ends included."""
    ends = (fixed(child(dimension, it), path, "the size of an array") for it in ("StartingIndex", "EndingIndex"))
    start, end = ends
    if not 0 <= start <= end < start + MOST:
        raise XtceError(path, f"a dimension from {start} to {end} is none, or over {MOST}")
    return range(start, end + 1)


# How values stand in a packet.


def encoded(encoding: Element, path: str) -> tuple[str, int]:
    """The type and the bits of a field.  Raises XtceError where tmx has no such field."""
    kind = local(encoding)
    refuse_orders(encoding, path)
    if kind == "StringDataEncoding":
        if child(encoding, "SizeInBits", "LeadingSize") is not None:
            raise XtceError(path, "a text with a leading size is not read")
        return "str", octets(fixed(child(encoding, "SizeInBits", "Fixed"), path, "the size"), path)
    if kind == "BinaryDataEncoding":
        return "str", octets(fixed(child(encoding, "SizeInBits"), path, "the size"), path)
    if kind == "FloatDataEncoding":
        said, bits = encoding.get("encoding", FLOATS[0]), integer(encoding.get("sizeInBits", "32"), path)
        if said not in FLOATS or bits not in (16, 32, 64):
            raise XtceError(path, f"a float {said} of {bits} bits is not read")
        return "float", bits
    said, bits = encoding.get("encoding", "unsigned"), integer(encoding.get("sizeInBits", "8"), path)
    if said not in INTEGERS or not 1 <= bits <= 64:
        raise XtceError(path, f"an integer {said} of {bits} bits is not read")
    return INTEGERS[said], bits


def octets(bits: int, path: str) -> int:
    """A size in whole octets."""
    if bits < 8 or bits % 8:
        raise XtceError(path, f"{bits} bits are no whole octets")
    return bits


def refuse_orders(encoding: Element, path: str, is_checked: bool = False) -> None:
    """Refuses what doesn't have the most significant bit first, is made by an algorithm, or has check bits if it isn't to.

    Some texts may have the least significant octet first.
    """
    several = encoding.get("sizeInBits", "8" if local(encoding) in WHOLE else "16") != "8"
    if encoding.get("bitOrder", "mostSignificantBitFirst") != "mostSignificantBitFirst":
        raise XtceError(path, "the least significant bit comes first, which is not read")
    if several and encoding.get("byteOrder", MOST_FIRST) not in (MOST_FIRST, *little_of(encoding, path)):
        raise XtceError(path, f"the byte order {encoding.get('byteOrder')} is not read")
    if several and child(encoding, "ByteOrderList") is not None:
        raise XtceError(path, "a ByteOrderList is not read")
    if child(encoding, "FromBinaryTransformAlgorithm") is not None:
        raise XtceError(path, "algorithms are not run")
    if not is_checked and child(encoding, "ErrorDetectCorrect") is not None:
        raise XtceError(path, "ErrorDetectCorrect is not read")


def little_of(encoding: Element, path: str) -> tuple[str, ...]:
    """The other byte order, of a text whose encoding has one."""
    is_wide = local(encoding) == "StringDataEncoding" and encoding_named(encoding, path) in LITTLE
    return (LEAST_FIRST,) if is_wide else ()


def refuse_calibrators(encoding: Element, kind: str, path: str) -> None:
    if child(encoding, "ContextCalibratorList") is not None:
        raise XtceError(path, "context calibrators are not read")
    if kind not in CALIBRATED and child(encoding, "DefaultCalibrator") is not None:
        raise XtceError(path, f"a calibrator of a {kind} is not read")


# What values mean.


def meaning(kind: str, chain: Chain, encoding: Element, path: str) -> Decoder | None:
    if kind in CALIBRATED:
        return calibrator(child(encoding, "DefaultCalibrator"), path)
    if kind == "EnumeratedParameterType":
        return labels(chain.child("EnumerationList"), path)
    if kind == "BooleanParameterType":
        return Truth(chain.get("zeroStringValue", "false"), chain.get("oneStringValue", "true"))
    if kind == "StringParameterType":
        return text(encoding, path)
    return Timed(ticks(chain, path)) if kind == "AbsoluteTimeParameterType" else None


def calibrator(default: Element | None, path: str) -> Decoder | None:
    if default is None:
        return None
    polynomial, spline = child(default, "PolynomialCalibrator"), child(default, "SplineCalibrator")
    if polynomial is not None:
        return Polynomial(coefficients(polynomial, path))
    if spline is None:
        raise XtceError(path, "its calibrator is neither a polynomial nor a spline")
    found = [(real(it.get("raw"), path), real(it.get("calibrated"), path)) for it in children(spline, "SplinePoint")]
    try:
        return Spline(tuple(found), order_of(spline, path), says(spline, "extrapolate", False, path))
    except ValueError as error:
        raise XtceError(path, str(error)) from None


def order_of(spline: Element, path: str) -> int:
    """The order of a spline, which its points may say instead.  Raises XtceError where they say several."""
    whole = integer(spline.get("order", "1"), path)
    orders = {integer(it.get("order", str(whole)), path) for it in children(spline, "SplinePoint")} or {whole}
    if len(orders) > 1:
        said = " and ".join(map(str, sorted(orders)))
        raise XtceError(path, f"a spline whose points have the orders {said} is not read: all need the same one")
    return orders.pop()


def coefficients(polynomial: Element, path: str) -> tuple[float, ...]:
    """A polynomial's coefficients from the power 0 up."""
    found: dict[int, float] = {}
    for term in children(polynomial, "Term"):
        power = integer(term.get("exponent"), path)
        if not 0 <= power <= 100 or power in found:
            raise XtceError(path, f"a term of exponent {power} is out of range, or comes twice")
        found[power] = real(term.get("coefficient"), path)
    return tuple(found.get(it, 0.0) for it in range(max(found, default=0) + 1))


def labels(enumerations: Element | None, path: str) -> Labels:
    """The labels; of two of a value the first counts."""
    found: dict[int | range, str] = {}
    for it in children(enumerations, "Enumeration"):
        least = integer(it.get("value"), path)
        most = integer(it.get("maxValue", it.get("value")), path)
        if most < least:
            raise XtceError(path, f"an enumeration's values from {least} to {most} are none")
        found.setdefault(least if least == most else range(least, most + 1), it.get("label", ""))
    return Labels(found)


def encoding_named(encoding: Element, path: str) -> str:
    """The encoding of a text, as Python names it.  Raises XtceError where Python has none that decodes any octets."""
    try:
        name = codecs.lookup(encoding.get("encoding", "UTF-8")).name
        b"\xff[0".decode(name, "replace")
    except (LookupError, UnicodeError):
        raise XtceError(path, f"the encoding {encoding.get('encoding')} is not known") from None
    return name


def text(encoding: Element, path: str) -> Text:
    name = encoding_named(encoding, path)
    end = child(encoding, "SizeInBits", "TerminationChar")
    if end is None:
        return Text(name, is_little=encoding.get("byteOrder") == LEAST_FIRST)
    try:
        octets = bytes.fromhex(end.text or "")
    except ValueError:
        octets = b""
    if len(octets) != 1 or name not in SINGLE:
        raise XtceError(path, f"the end {end.text!r} of a text in {name} is not read")
    return Text(name, octets)


def ticks(chain: Chain, path: str) -> Ticks:
    """The seconds of a time behind its epoch."""
    encoding, reference = chain.child("Encoding"), chain.child("ReferenceTime")
    epoch = child(reference, "Epoch")
    if child(reference, "OffsetFrom") is not None:
        raise XtceError(path, "OffsetFrom of its time is not read")
    if epoch is None or encoding is None:
        raise XtceError(path, "its time has no reference epoch")
    units, said = encoding.get("units", "seconds"), (epoch.text or "").strip()
    if units not in SECONDS:
        raise XtceError(path, f"times in {units} are not read")
    try:
        scale, offset = (fraction_of(decimal(encoding.get(*it)) or "none") * SECONDS[units] for it in (("scale", "1"), ("offset", "0")))
        found = Ticks(EPOCHS.get(said, said), scale, offset)
        found.times(path, [])
        return found
    except LeapSecondsError as error:
        raise XtceError(path, f"its time counts leap seconds: {error}") from None
    except ValueError:
        raise XtceError(path, f"the scale, the offset or the epoch {said!r} of its time is not read") from None
