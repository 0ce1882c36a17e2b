"""The fields of an XTCE container, and what its packets have to keep."""

import operator
import struct
from collections.abc import Callable, Mapping, Sequence
from contextlib import suppress
from dataclasses import dataclass
from typing import Any

from .arrays import objects
from .decoding import Decoder, Labels, Text, Timed, Truth
from .fields import Fields
from .values import module
from .xtce_file import XtceError, decimal, whole
from .xtce_layout import Compared

APPLICATION = (5, 11)  # where a packet's header has its application: the first bit, and how many
ORDERS: Mapping[str, Callable[[Any, Any], Any]] = {
    "==": operator.eq,
    "!=": operator.ne,
    "<": operator.lt,
    "<=": operator.le,
    ">": operator.gt,
    ">=": operator.ge,
}
FLOATS = {16: ">e", 32: ">f", 64: ">d"}  # of struct, by bits
ARRAYS = {"uint": "u8", "int": "i8", "float": "f8"}  # of numpy


@dataclass(frozen=True)
class Field:
    """A field of a container.

    name       the name of its column: the parameter's, or its path where two of the container have one name, without spaces at its
               ends.  Behind a name that another column has stand as many underscores as make it another one
    parameter  the parameter's path
    type       `uint`, `int`, `float` or `str`
    bits       its length
    offset     where it begins, in bits from the packet's first bit
    decoder    what makes its meaning of its raw value; None where that is its value
    raw        the name of the column of its raw value
    part       what is behind the parameter's name: the member of an aggregate, or the index of an array, as `.MODE` or `[0]`
    """

    name: str
    parameter: str
    type: str
    bits: int
    offset: int
    decoder: Decoder | None
    raw: str
    part: str = ""

    @property
    def end(self) -> int:
        """The bit behind it."""
        return self.offset + self.bits

    def raw_value(self, octets: bytes) -> Any:
        """Its raw value in a packet that has it."""
        whole_octets = int.from_bytes(octets[self.offset // 8 : -(-self.end // 8)])
        found = whole_octets >> -self.end % 8 & (1 << self.bits) - 1
        if self.type == "float":
            return struct.unpack(FLOATS[self.bits], found.to_bytes(self.bits // 8))[0]
        if self.type == "str":
            return found.to_bytes(self.bits // 8)
        return found - (found >> self.bits - 1 << self.bits) if self.type == "int" else found

    def decoded(self, raw: Any) -> Any:
        """The meaning of a raw value."""
        if self.decoder is None:
            return raw
        numpy = module("numpy")
        if isinstance(raw, bytes):
            return self.decoder.values(self.name, objects([raw]))[0]
        return self.decoder.values(self.name, [raw] if numpy is None else numpy.array([raw], ARRAYS[self.type]))[0]


@dataclass(frozen=True)
class Condition:
    """What a packet has to keep: the raw value of a field, or its meaning, how it is compared, and with what."""

    field: Field
    is_raw: bool
    order: str
    value: Any

    @property
    def column(self) -> str:
        return self.field.raw if self.is_raw else self.field.name

    def kept(self, fields: Fields) -> Sequence[bool]:
        """Whether each row keeps it."""
        values, compare = fields[self.column], ORDERS[self.order]
        if isinstance(self.value, int) and not -(1 << 63) <= self.value < 1 << 63 and hasattr(values, "tolist"):
            values = values.tolist()  # numpy would compare this with int64 as floats
        if isinstance(values, list):
            return [bool(compare(it, self.value)) for it in values]
        return list(compare(values, self.value))

    def is_kept(self, raw: Any) -> bool:
        """Whether a packet with this raw value keeps it."""
        return bool(ORDERS[self.order](raw if self.is_raw else self.field.decoded(raw), self.value))


# Comparisons.


def field_of(fields: Sequence[Field], compared: Compared, path: str) -> Field:
    """The field that is compared.  Raises XtceError where it isn't among the container's."""
    for it in fields:
        if (it.parameter, it.part) == (compared.parameter, compared.suffix):
            return it
    raise XtceError(path, f"{compared.parameter}{compared.suffix} is compared, and has no place in it")


def is_application(field: Field, compared: Compared) -> bool:
    """Whether a comparison asks for an application: by its number, or by its label."""
    is_number = field.decoder is None or isinstance(field.decoder, Labels) or not compared.is_calibrated
    return is_number and compared.order == "==" and (field.offset, field.bits, field.type) == (*APPLICATION, "uint")


def application(field: Field, compared: Compared, path: str) -> int:
    """The application that a comparison asks for: a number, or its label."""
    if compared.is_calibrated and isinstance(field.decoder, Labels):
        found = [it for it, label in field.decoder.labels.items() if label == compared.value]
        if len(found) == 1 and isinstance(found[0], int):
            return found[0]
    value = number_of(compared.value)
    if not isinstance(value, int) or not 0 <= value <= 2047:
        raise XtceError(path, f"{compared.value!r} is no application")
    return value


def condition(field: Field, compared: Compared, path: str) -> Condition:
    """What a comparison asks of rows.  Raises XtceError where it isn't understood."""
    if compared.order not in ORDERS:
        raise XtceError(path, f"the comparison {compared.order!r} is not known")
    decoder = field.decoder if compared.is_calibrated else None
    by_name = isinstance(decoder, (Labels, Truth, Text))
    value: Any = compared.value if isinstance(decoder, (Labels, Text)) else number_of(compared.value)
    if isinstance(decoder, Labels) and value not in decoder.labels.values():
        value = None
    if isinstance(decoder, Truth):
        said = {"0": False, "false": False, "1": True, "true": True} | {decoder.zero: False, decoder.one: True}
        value = said.get(compared.value, said.get(compared.value.lower())) if decoder.zero != decoder.one else None
    if value is None or by_name and compared.order not in ("==", "!=") or isinstance(decoder, Timed):
        raise XtceError(path, f"{field.name} {compared.order} {compared.value!r} is not understood")
    if decoder is None and field.type == "str":
        raise XtceError(path, f"{field.name} has octets, which are not compared")
    if decoder is None and field.type == "float":
        value = rounded(value, field.bits)
    return Condition(field, decoder is None, compared.order, value)


def rounded(value: float, bits: int) -> float:
    """The nearest float of so many bits, which is what a field of that length can have."""
    found = float(value)
    with suppress(OverflowError):
        return float(struct.unpack(FLOATS[bits], struct.pack(FLOATS[bits], found))[0])
    return found


def number_of(text: str) -> int | float | None:
    """The number of a text, a whole one if it is that; None where it is none."""
    found, said = whole(text), decimal(text)
    if found is None and said is not None:
        value = float(said)
        return int(value) if value.is_integer() else value
    return found
