"""XTCE files: each construct and each refusal once, and random systems whose packets are made here."""

import copy
import io
import math
import os
import random
import struct
import subprocess
import time
import tracemalloc
import unittest
import warnings
from collections import Counter
from datetime import datetime, timedelta
from fractions import Fraction
from pathlib import Path
from unittest import mock
from xml.etree.ElementTree import Element, fromstring, tostring
from xml.sax.saxutils import quoteattr

from support import EXAMPLE, TestCase, command, example, needs, tmx

from test_decoding import WithModules, dates

SYSTEMS = int(os.environ.get("SYSTEMS", "30"))
NEW = 'xmlns="http://www.omg.org/spec/XTCE/20180204"'  # of XTCE 1.2
OLD = 'xmlns="http://www.omg.org/space/xtce"'  # of XTCE 1.1
HEADER = (("VERSION", 3), ("TYPE", 1), ("SECONDARY", 1), ("APID", 11), ("FLAGS", 2), ("COUNT", 14), ("LENGTH", 16))
APID, COUNT = 300, 5  # of the packets that are made here
INTEGER = '<IntegerParameterType name="T"><IntegerDataEncoding sizeInBits="{}" {}>{}</IntegerDataEncoding></IntegerParameterType>'


# Files.


def integers(*parameters: tuple[str, int]) -> tuple[str, str]:
    """The types and the parameters of unsigned integers."""
    types = {bits: INTEGER.format(bits, "", "").replace('"T"', f'"u{bits}"') for _, bits in parameters}
    return "".join(types.values()), "".join(f'<Parameter name="{name}" parameterTypeRef="u{bits}"/>' for name, bits in parameters)


def entries(*names: str) -> str:
    return "".join(f'<ParameterRefEntry parameterRef="{it}"/>' for it in names)


HEADER_TYPES, HEADER_PARAMETERS = integers(*HEADER)
OF_HEADER = entries(*(it for it, _ in HEADER))
PACKET = f'<SequenceContainer name="PACKET" abstract="true"><EntryList>{OF_HEADER}</EntryList></SequenceContainer>'
OF_300 = '<Comparison parameterRef="APID" value="300"/>'


def container(name: str, inside: str, criteria: str = OF_300, base: str = "PACKET", more: str = "") -> str:
    said = f'<BaseContainer containerRef="{base}"><RestrictionCriteria>{criteria}</RestrictionCriteria></BaseContainer>'
    return f'<SequenceContainer name="{name}">{more}<EntryList>{inside}</EntryList>{said}</SequenceContainer>'


def system(types: str, parameters: str, containers: str, inner: str = "", namespace: str = NEW, name: str = "Sat") -> str:
    return (
        f'<SpaceSystem name="{name}" {namespace}><TelemetryMetaData><ParameterTypeSet>{HEADER_TYPES}{types}</ParameterTypeSet>'
        f"<ParameterSet>{HEADER_PARAMETERS}{parameters}</ParameterSet><ContainerSet>{PACKET}{containers}</ContainerSet>"
        f"</TelemetryMetaData>{inner}</SpaceSystem>"
    )


def lower(parameters: str, types: str = "", containers: str = "") -> str:
    """A system within another."""
    return (
        f'<SpaceSystem name="Low"><TelemetryMetaData><ParameterTypeSet>{types}</ParameterTypeSet>'
        f"<ParameterSet>{parameters}</ParameterSet><ContainerSet>{containers}</ContainerSet></TelemetryMetaData></SpaceSystem>"
    )


def one(type_: str, entry: str = entries("A")) -> str:
    """A system of one parameter A of the type T in the container C."""
    return system(type_, '<Parameter name="A" parameterTypeRef="T"/>', container("C", entry))


def written(text: str) -> tmx.xtce.System:
    Path("system.xml").write_text(text, encoding="utf-8")
    return tmx.xtce.read("system.xml")


# Packets.


def recording_of(payloads: list[bytes], apid: int = APID) -> tmx.Recording:
    """A recording of frames that have one packet each."""
    frames = []
    for number, payload in enumerate(payloads):
        packet = struct.pack(">HHH", apid, 0xC000 | (COUNT + number) % 16384, len(payload) - 1) + payload
        frames.append(struct.pack(">HBBH", 42 << 4, number % 256, number % 256, 0) + packet)
    return tmx.Recording(io.BytesIO(b"".join(frames)), tmx.Settings(42, 12 + len(payloads[0]), False))


def table(text: str, *payloads: bytes, container: str = "C", **how) -> tmx.Fields:
    return written(text).fields(recording_of(list(payloads)), container, **how)


def plain(column) -> list:
    """The values of a column; None for what is none."""
    found = dates(column) if str(getattr(column, "dtype", "")).startswith("datetime64") else list(column)
    return [None if it is None or it != it else it.item() if hasattr(it, "item") else it for it in found]


# Each construct once.  Expected values are worked out by hand.

FLOAT = '<FloatParameterType name="T"><FloatDataEncoding sizeInBits="{}" {}/></FloatParameterType>'
CALIBRATED = "<DefaultCalibrator>{}</DefaultCalibrator>"
POLYNOMIAL = (
    '<PolynomialCalibrator><Term coefficient="0.5" exponent="2"/><Term coefficient="-3" exponent="0"/></PolynomialCalibrator>'
)
SPLINE = '<SplineCalibrator {}><SplinePoint raw="2" calibrated="10"/><SplinePoint raw="4" calibrated="20"/></SplineCalibrator>'
SPLINE_OF = SPLINE.replace('raw="2"', 'raw="2" order="{}"').replace('raw="4"', 'raw="4" order="{}"')
ENUMERATED = (
    '<EnumeratedParameterType name="T"><IntegerDataEncoding/><EnumerationList><Enumeration value="1" label="ON"/>'
    '<Enumeration value="0x10" maxValue="0x1F" label="SAFE"/></EnumerationList></EnumeratedParameterType>'
)
TEXT = (
    '<StringParameterType name="T"><StringDataEncoding {}><SizeInBits><Fixed><FixedValue>32</FixedValue></Fixed>{}</SizeInBits>'
    "</StringDataEncoding></StringParameterType>"
)
BINARY = (
    '<BinaryParameterType name="T"><BinaryDataEncoding><SizeInBits><FixedValue>{}</FixedValue></SizeInBits></BinaryDataEncoding>'
    "</BinaryParameterType>"
)
TIME = (
    '<AbsoluteTimeParameterType name="T"><Encoding {}>{}</Encoding><ReferenceTime>{}</ReferenceTime></AbsoluteTimeParameterType>'
)
U32, F64 = '<IntegerDataEncoding sizeInBits="32"/>', '<FloatDataEncoding sizeInBits="64"/>'
OF_2000 = "<Epoch>2000-01-01</Epoch>"
LITTLE = 'byteOrder="leastSignificantByteFirst"'
SECONDS = (1167264018).to_bytes(4, "big")  # of GPS, where 2017 began



def wide(encoding: str, more: str = "", size: int = 48) -> str:
    """The type of a text of so many bits, in an encoding of more than an octet."""
    return TEXT.format(f'encoding="{encoding}" {more}', "").replace(">32<", f">{size}<")


VALUES = (
    (INTEGER.format(16, "", ""), b"\xff\xfe", 65534),
    (INTEGER.format(12, 'encoding="twosComplement"', ""), b"\xff\xef", -2),
    (INTEGER.format(8, 'encoding="twosCompliment"', ""), b"\xfe\0", -2),
    (INTEGER.format(8, 'byteOrder="leastSignificantByteFirst"', ""), b"\x07\0", 7),
    (INTEGER.format(8, LITTLE, "").replace('sizeInBits="8"', ""), b"\x07\0", 7),
    (INTEGER.format(16, 'encoding="unsigned"', CALIBRATED.format(POLYNOMIAL)), b"\0\x0a", 47.0),
    (INTEGER.format(8, "", CALIBRATED.format(SPLINE.format(""))), b"\x03\0", 15.0),
    (INTEGER.format(8, "", CALIBRATED.format(SPLINE.format(""))), b"\x05\0", None),
    (INTEGER.format(8, "", CALIBRATED.format(SPLINE.format('extrapolate="true"'))), b"\x05\0", 25.0),
    (INTEGER.format(8, "", CALIBRATED.format(SPLINE.format('order="0"'))), b"\x03\0", 10.0),
    (INTEGER.format(8, "", CALIBRATED.format(SPLINE_OF.format("", 0, 0))), b"\x03\0", 10.0),
    (INTEGER.format(8, "", CALIBRATED.format(SPLINE_OF.format('order="0"', 1, 1))), b"\x03\0", 15.0),
    (FLOAT.format(32, ""), struct.pack(">f", 1.25), 1.25),
    (FLOAT.format(16, 'encoding="IEEE754"'), struct.pack(">e", -0.5), -0.5),
    (FLOAT.format(64, 'encoding="IEEE754_1985"'), struct.pack(">d", 0.1), 0.1),
    ('<FloatParameterType name="T"><IntegerDataEncoding/></FloatParameterType>', b"\x09\0", 9),
    ('<BooleanParameterType name="T"><IntegerDataEncoding sizeInBits="1"/></BooleanParameterType>', b"\x80", True),
    (ENUMERATED, b"\x01\0", "ON"),
    (ENUMERATED, b"\x1f\0", "SAFE"),
    (ENUMERATED, b"\x20\0", None),
    (ENUMERATED.replace("0x10", "0b11").replace("0x1F", "0o17"), b"\x0f\0", "SAFE"),
    (ENUMERATED.replace("0x10", "1").replace(' maxValue="0x1F"', ""), b"\x01\0", "ON"),
    (TEXT.format("", ""), b"ab\xc3\xa9", "abé"),
    (TEXT.format('encoding="US-ASCII"', "<TerminationChar>00</TerminationChar>"), b"ab\0x", "ab"),
    (TEXT.format('encoding="UTF-16BE"', ""), b"\0a\0b", "ab"),
    (TEXT.format('encoding="US-ASCII"', ""), b"ab\xffd", "ab\N{REPLACEMENT CHARACTER}d"),
    (wide("UTF-16"), bytes.fromhex("0062 0063 03a9"), "bcΩ"),
    (wide("UTF-16", 'byteOrder="mostSignificantByteFirst"'), bytes.fromhex("0062 0063 03a9"), "bcΩ"),
    (wide("UTF-16", 'byteOrder="leastSignificantByteFirst"'), bytes.fromhex("6200 6300 a903"), "bcΩ"),
    (wide("UTF-16", 'byteOrder="leastSignificantByteFirst"'), bytes.fromhex("feff 0062 03a9"), "bΩ"),
    (wide("UTF-16"), bytes.fromhex("fffe 6200 a903"), "bΩ"),
    (wide("UTF-16"), bytes.fromhex("feff 0062 feff"), "b\N{ZERO WIDTH NO-BREAK SPACE}"),
    (wide("UTF-16LE", 'byteOrder="leastSignificantByteFirst"'), bytes.fromhex("6200 6300 a903"), "bcΩ"),
    (wide("UTF-16LE"), bytes.fromhex("6200 6300 a903"), "bcΩ"),
    (wide("UTF-16BE"), bytes.fromhex("0062 0063 03a9"), "bcΩ"),
    (wide("UTF-32", size=64), bytes.fromhex("00000062 0001f600"), "b\N{GRINNING FACE}"),
    (wide("UTF-32", 'byteOrder="leastSignificantByteFirst"', 64), bytes.fromhex("62000000 00f60100"), "b\N{GRINNING FACE}"),
    (wide("UTF-32", size=64), bytes.fromhex("fffe0000 62000000"), "b"),
    (wide("UTF-32", 'byteOrder="leastSignificantByteFirst"', 64), bytes.fromhex("0000feff 00000062"), "b"),
    (BINARY.format(24), b"\0\xff\x80", b"\0\xff\x80"),
    (TIME.format("", U32, "<Epoch>UNIX</Epoch>"), (946684800).to_bytes(4, "big"), datetime(2000, 1, 1)),
    (TIME.format("", U32, "<Epoch>GPS</Epoch>"), SECONDS, datetime(2017, 1, 1)),
    (TIME.format('scale="0.5" offset="86400"', U32, OF_2000), b"\0\0\0\x03", datetime(2000, 1, 2, 0, 0, 1, 500000)),
    (TIME.format('units="days"', F64, "<Epoch>2000-01-01T12:00:00Z</Epoch>"), struct.pack(">d", 0.5), datetime(2000, 1, 2)),
    (TIME.format('units="picoSeconds" scale="1000000"', U32, OF_2000), b"\0\0\0\x03", datetime(2000, 1, 1, 0, 0, 0, 3)),
    (INTEGER.format(8, "", "").replace('name="T"', 'name="B"') + '<IntegerParameterType name="T" baseType="B"/>', b"\x05\0", 5),
)

LOCATED = (
    '<ParameterRefEntry parameterRef="A"><LocationInContainerInBits {}><FixedValue>{}</FixedValue></LocationInContainerInBits>'
    "</ParameterRefEntry>"
)
BYTE = INTEGER.format(8, "", "")
ARRAY = '<ArrayParameterType name="T" arrayTypeRef="u8" {}>{}</ArrayParameterType>'
ENDS = "<{0}><FixedValue>{{}}</FixedValue></{0}>"
DIMENSION = f"<Dimension>{ENDS.format('StartingIndex')}{ENDS.format('EndingIndex')}</Dimension>"
DIMENSIONS = f"<DimensionList>{DIMENSION * 2}</DimensionList>"
U8 = '<IntegerParameterType name="u8"><IntegerDataEncoding/></IntegerParameterType>'
REPEATED = (
    '<ParameterRefEntry parameterRef="A"><RepeatEntry><Count><FixedValue>3</FixedValue></Count>'
    "<Offset><FixedValue>8</FixedValue></Offset></RepeatEntry></ParameterRefEntry>"
)
MEMBERS = '<Member name="LOW" typeRef="u8"/><Member name="HIGH" typeRef="u8"/>'
AGGREGATE = f'<AggregateParameterType name="T"><MemberList>{MEMBERS}</MemberList></AggregateParameterType>'
ARRAY_ENTRY = f'<ArrayParameterRefEntry parameterRef="A">{DIMENSIONS.format(1, 1, 0, 1)}</ArrayParameterRefEntry>'

PLACES = (
    (one(BYTE, LOCATED.format("", 8)), {"A": 8 + 48}),
    (one(BYTE, LOCATED.format('referenceLocation="previousEntry"', -16)), {"A": 32}),
    (one(BYTE, LOCATED.format('referenceLocation="containerStart"', 64)), {"A": 64}),
    (one(BYTE, REPEATED), {"A[0]": 48, "A[1]": 64, "A[2]": 80}),
    (one(U8 + ARRAY.format("", DIMENSIONS.format(0, 1, 3, 4))), {"A[0][3]": 48, "A[0][4]": 56, "A[1][3]": 64, "A[1][4]": 72}),
    (one(U8 + ARRAY.format('numberOfDimensions="2"', ""), ARRAY_ENTRY), {"A[1][0]": 48, "A[1][1]": 56}),
    (one(U8 + AGGREGATE), {"A.LOW": 48, "A.HIGH": 56}),
)

# Each refusal once: the parameter or the container that it names, and why.

DYNAMIC = "<DynamicValue><ParameterInstanceRef parameterRef='COUNT'/></DynamicValue>"
NO_TYPE = '<StringParameterType name="T"/>'
REFUSED = (
    (one(INTEGER.format(65, "", "")), "/Sat/A: an integer unsigned of 65 bits is not read"),
    (one(INTEGER.format(8, 'encoding="signMagnitude"', "")), "/Sat/A: an integer signMagnitude of 8 bits is not read"),
    (one(INTEGER.format(16, LITTLE, "")), "/Sat/A: the byte order leastSignificantByteFirst is not read"),
    (one(INTEGER.format(16, "", "<ByteOrderList/>")), "/Sat/A: a ByteOrderList is not read"),
    (one(INTEGER.format(8, 'bitOrder="leastSignificantBitFirst"', "")), "/Sat/A: the least significant bit comes first"),
    (one(INTEGER.format(8, "", "<ErrorDetectCorrect/>")), "/Sat/A: ErrorDetectCorrect is not read"),
    (one(INTEGER.format(8, "", "<ContextCalibratorList/>")), "/Sat/A: context calibrators are not read"),
    (one(INTEGER.format(8, "", CALIBRATED.format("<MathOperationCalibrator/>"))), "/Sat/A: its calibrator is neither"),
    (one(INTEGER.format(8, "", CALIBRATED.format(SPLINE.format('order="2"')))), "/Sat/A: a spline is of order 0 or 1, and not 2"),
    (one(INTEGER.format(8, "", CALIBRATED.format(SPLINE_OF.format("", 2, 2)))), "/Sat/A: a spline is of order 0 or 1, and not 2"),
    (one(INTEGER.format(8, "", CALIBRATED.format(SPLINE_OF.format("", 0, 1)))), "/Sat/A: a spline whose points have the orders 0 and 1"),
    (one(INTEGER.format(8, "", CALIBRATED.format(SPLINE_OF.format("", 1, "x")))), "/Sat/A: 'x' is no whole number"),
    (one(INTEGER.format(8, "", CALIBRATED.format(POLYNOMIAL.replace('"2"', '"-2"')))), "/Sat/A: a term of exponent -2 is out"),
    (one(INTEGER.format("many", "", "")), "/Sat/A: 'many' is no whole number"),
    (one(FLOAT.format(32, 'encoding="MILSTD_1750A"')), "/Sat/A: a float MILSTD_1750A of 32 bits is not read"),
    (one(FLOAT.format(48, "")), "/Sat/A: a float IEEE754_1985 of 48 bits is not read"),
    (one(NO_TYPE), "/Sat/A: its type has no data encoding"),
    (one('<RelativeTimeParameterType name="T"/>'), "/Sat/A: RelativeTimeParameterType is not read"),
    (one(ENUMERATED.replace("<IntegerDataEncoding/>", "<FloatDataEncoding/>")), "/Sat/A: FloatDataEncoding of a EnumeratedPar"),
    (one(TEXT.format("", "").replace("Fixed>", "Dynamic>")), "/Sat/A: the size is not fixed"),
    (one(TEXT.format("", "<LeadingSize/>")), "/Sat/A: a text with a leading size is not read"),
    (one(TEXT.format('encoding="EBCDIC-7"', "")), "/Sat/A: the encoding EBCDIC-7 is not known"),
    (one(TEXT.format('encoding="hex"', "")), "/Sat/A: the encoding hex is not known"),
    (one(TEXT.format('encoding="idna"', "")), "/Sat/A: the encoding idna is not known"),
    (one(TEXT.format(f'encoding="UTF-16BE" {LITTLE}', "")), "/Sat/A: the byte order leastSignificantByteFirst is not read"),
    (one(TEXT.format(f'encoding="UTF-8" {LITTLE}', "")), "/Sat/A: the byte order leastSignificantByteFirst is not read"),
    (one(TEXT.format('encoding="UTF-16"', "<TerminationChar>00</TerminationChar>")), "/Sat/A: the end '00' of a text in utf-16"),
    (one(BINARY.format(12)), "/Sat/A: 12 bits are no whole octets"),
    (one(BINARY.format("8").replace("<FixedValue>8</FixedValue>", DYNAMIC)), "/Sat/A: the size is not fixed"),
    (one(BINARY.format(8).replace("<Size", "<FromBinaryTransformAlgorithm/><Size")), "/Sat/A: algorithms are not run"),
    (one(TIME.format("", U32, '<OffsetFrom parameterRef="COUNT"/>')), "/Sat/A: OffsetFrom of its time is not read"),
    (one(TIME.format("", U32, "")), "/Sat/A: its time has no reference epoch"),
    (one(TIME.format("", U32, "<Epoch>MJD</Epoch>")), "/Sat/A: the scale, the offset or the epoch 'MJD'"),
    (one(TIME.format('scale="1/0"', U32, "<Epoch>TAI</Epoch>")), "/Sat/A: the scale, the offset or the epoch 'TAI'"),
    (one(TIME.format('offset="inf"', U32, "<Epoch>TAI</Epoch>")), "/Sat/A: the scale, the offset or the epoch 'TAI'"),
    (one(TIME.format('units="months"', U32, "<Epoch>TAI</Epoch>")), "/Sat/A: times in months are not read"),
    (one(TIME.format("", "<BinaryDataEncoding/>", "<Epoch>TAI</Epoch>")), "/Sat/A: BinaryDataEncoding of a AbsoluteTimeParameterType"),
    (one(U8 + ARRAY.format("", "")), "/Sat/A: an array has dimensions, and at most 1000 values"),
    (one(U8 + ARRAY.format("", DIMENSIONS.format(0, 99, 0, 99))), "/Sat/A: an array has dimensions, and at most 1000 values"),
    (one(U8 + ARRAY.format("", DIMENSIONS.replace("<FixedValue>{}</FixedValue>", DYNAMIC))), "/Sat/A: the size of an array is not"),
    (one(ARRAY.format("", DIMENSIONS.format(0, 0, 0, 0)).replace("u8", "T")), "/Sat/A: the type /Sat/T contains itself"),
    (one('<IntegerParameterType name="T" baseType="T"/>'), "/Sat/A: the type /Sat/T extends itself"),
    (one(BYTE, LOCATED.format("", 0).replace("<FixedValue>0</FixedValue>", DYNAMIC)), "/Sat/A: the place is not fixed"),
    (one(BYTE, LOCATED.format('referenceLocation="nextEntry"', 0)), "/Sat/A: a place from nextEntry is not read"),
    (one(BYTE, LOCATED.format('referenceLocation="containerEnd"', 0)), "/Sat/A: a place from containerEnd is not read"),
    (one(BYTE, LOCATED.format("", -49)), "/Sat/A: it begins before the packet"),
    (one(BYTE, REPEATED.replace("<FixedValue>3</FixedValue>", DYNAMIC)), "/Sat/A: the number of repetitions is not fixed"),
    (one(BYTE, entries("A").replace("/>", "><IncludeCondition/></ParameterRefEntry>")), "/Sat/C: /Sat/A is there only on a condition"),
    (one(BYTE, "<IndirectParameterRefEntry/>"), "/Sat/C: IndirectParameterRefEntry is not read"),
    (one(BYTE, "<ParameterSegmentRefEntry/>"), "/Sat/C: ParameterSegmentRefEntry is not read"),
    (one(BYTE, entries("A") * 2), "/Sat/C: the parameter /Sat/A stands in it twice"),
    (one(BYTE, entries("B")), "/Sat/C: there is no parameter 'B'"),
    (one(BYTE, entries("../../X")), "/Sat/C: there is no parameter '../../X'"),
    (one(BYTE, entries("../../../A")), "/Sat/C: there is no parameter '../../../A'"),
    (one(INTEGER.format("1_6", "", "")), "/Sat/A: '1_6' is no whole number"),
    (one(INTEGER.format("0x" + "0" * 5000 + "8", "", "")), "/Sat/A: '0x0000"),
    (one(ENUMERATED.replace("0x1F", "0x0F")), "/Sat/A: an enumeration's values from 16 to 15 are none"),
    (one(INTEGER.format(8, "", CALIBRATED.format(SPLINE.format("").replace('"4"', '"nan"')))), "/Sat/A: 'nan' is no finite number"),
    (one(TIME.format('scale="1e999999999"', U32, "<Epoch>UNIX</Epoch>")), "/Sat/A: the scale, the offset or the epoch 'UNIX'"),
    (one(BYTE, LOCATED.format("", 8 * 65542 - 48 - 7)), "/Sat/A: it ends at bit 524337, and a packet has at most 524336 bits"),
    (one(BYTE, LOCATED.format("", 2**62)), "/Sat/A: it ends at bit 4611686018427387960, and a packet has at most 524336 bits"),
    (one(BINARY.format(8 * 65542)), "/Sat/A: it ends at bit 524384, and a packet has at most 524336 bits"),
    (one(BYTE, entries("N" * 1_048_576)).replace('name="A"', f'name="{"N" * 1_048_576}"'), "/Sat/C: its definition has 1048"),
    (one("", entries("A")), "/Sat/A: there is no type 'T'"),
    (system("", "", container("C", "", base="D")), "/Sat/C: there is no container 'D'"),
    (system("", "", container("C", "", base="C")), "/Sat/C: it contains itself"),
    (system("", "", container("C", "", "<BooleanExpression/>")), "/Sat/C: BooleanExpression is not read"),
    (system("", "", container("C", "", "<CustomAlgorithm/>")), "/Sat/C: CustomAlgorithm is not read"),
    (system("", "", container("C", "", f"{OF_300}<NextContainer/>")), "/Sat/C: NextContainer is not read"),
    (system("", "", container("C", "", OF_300.replace("/>", ' instance="-1"/>'))), "/Sat/C: the instance -1 of APID is not read"),
    (one(BYTE.replace("<IntegerData", "<FloatDataEncoding/><IntegerData")), "/Sat/A: /Sat/T has data encoding twice"),
    (one(INTEGER.format(8, "", CALIBRATED.format(POLYNOMIAL + SPLINE.format("")))), "/Sat/A: /Sat/T has calibrator twice"),
    (one(TIME.format("", U32, "<Epoch>UNIX</Epoch><Epoch>GPS</Epoch>")), "/Sat/A: /Sat/T has Epoch twice"),
    (system("", "", container("C", "", more="<EntryList/>")), "/Sat/C: it has EntryList twice"),
    (system("", "", container("C", "", f"{OF_300}</RestrictionCriteria><RestrictionCriteria>")), "/Sat/C: it has Restriction"),
    (system("", "", container("C", "", f"<ComparisonList>{OF_300}<Other/></ComparisonList>")), "/Sat/C: Other is not read"),
    (system("", "", container("C", "", OF_300.replace("/>", ' useCalibratedValue="yes"/>'))), "/Sat/C: useCalibratedValue is 'yes',"),
    (one(INTEGER.format(8, "", CALIBRATED.format(SPLINE.format('extrapolate="no"')))), "/Sat/A: extrapolate is 'no', which is neither"),
    (one(U8 + AGGREGATE.replace('name="T"', 'name="T" baseType="u8"')), "/Sat/A: the AggregateParameterType /Sat/T extends another"),
    (
        system("", "", container("C", "", more='<BinaryEncoding bitOrder="leastSignificantBitFirst"/>')),
        "/Sat/C: the least significant bit comes first",
    ),
    (
        system("", "", container("C", "", more="<BinaryEncoding><FromBinaryTransformAlgorithm/></BinaryEncoding>")),
        "/Sat/C: algorithms are not run",
    ),
    (
        system("", "", container("D", "") + container("C", '<ContainerRefEntry containerRef="D"/>')),
        "/Sat/D: it is included, and has RestrictionCriteria",
    ),
)
COMPARED = (
    ('<Comparison parameterRef="A" value="1"/>', "/Sat/A is compared, and has no place in it"),
    (OF_300.replace("300", "2048"), "'2048' is no application"),
    (f"<ComparisonList>{OF_300}{OF_300.replace('300', '301')}</ComparisonList>", r"the applications \[300, 301\] at once"),
    ('<Comparison parameterRef="COUNT" value="many"/>', "COUNT == 'many' is not understood"),
    ('<Comparison parameterRef="COUNT" comparisonOperator="=" value="1"/>', "the comparison '=' is not known"),
)


class System(TestCase):
    def test_values(self) -> None:
        for type_, payload, wanted in VALUES:
            with self.subTest(type=type_):
                found = table(one(type_), payload)
                self.assertEqual(plain(found["A"]), [wanted])
                self.assertEqual(plain(found["COUNT"]), [COUNT])

    def test_places(self) -> None:
        for text, wanted in PLACES:
            fields = written(text).columns("C")
            self.assertEqual([it.name for it in fields[:7]], [it for it, _ in HEADER])
            self.assertEqual({it.name: it.offset for it in fields[7:]}, wanted)

    def test_refusals(self) -> None:
        """The rest of the file serves: the container PACKET is read."""
        for text, said in REFUSED:
            with self.subTest(said=said):
                found = written(text)
                error = self.raises(tmx.XtceError, None, found.definition, "C")
                self.assertEqual((str(error)[: len(said)], error.path), (said, said.partition(":")[0]))
                self.assertIn("/Sat/C", found.refusals())
                self.assertEqual(found.definition("PACKET").splitlines()[4], "APID,uint,11,5")

    def test_refused_comparisons(self) -> None:
        for criteria, said in COMPARED:
            text = system(BYTE, '<Parameter name="A" parameterTypeRef="T"/>', container("C", "", criteria))
            with self.assertRaisesRegex(tmx.XtceError, f"^/Sat/C: .*{said}"):
                table(text, b"ab")
            self.assertRegex(written(text).refusals()["/Sat/C"], said)
        with self.assertRaisesRegex(tmx.XtceError, "^/Sat/PACKET: its packets have no application"):
            table(one(BYTE), b"ab", container="PACKET")
        self.assertEqual(plain(table(one(BYTE), b"ab", container="PACKET", apid=300)["LENGTH"]), [1])

    def test_an_application_that_is_said_too(self) -> None:
        """The container C has the application 300 by its restriction, and PACKET has none."""
        self.assertEqual(plain(table(one(BYTE), b"ab", apid=300)["A"]), [97])
        for wrong in (301, 0, 2047):
            with self.assertRaisesRegex(tmx.XtceError, f"^/Sat/C: its packets have the application 300, and apid says {wrong}$"):
                table(one(BYTE), b"ab", apid=wrong)
            with self.assertRaisesRegex(tmx.XtceError, "the application 300"):
                next(written(one(BYTE)).blocks(recording_of([b"ab"]), "C", 5, apid=wrong))
        for container in ("C", "PACKET"):
            self.raises(ValueError, None, table, one(BYTE), b"ab", container=container, apid=2048)
            self.raises(TypeError, None, table, one(BYTE), b"ab", container=container, apid="300")

    def test_containers(self) -> None:
        """Two levels of bases, each with entries and a restriction, and a container within another."""
        types, parameters = integers(("A", 4), ("B", 12), ("C", 8))
        size = "<BinaryEncoding><SizeInBits><FixedValue>16</FixedValue></SizeInBits></BinaryEncoding>"
        part = f'<SequenceContainer name="PART">{size}<EntryList>{entries("C")}</EntryList></SequenceContainer>'
        middle = container("MIDDLE", entries("A"))
        inner = f'{entries("/Sat/B")}<ContainerRefEntry containerRef="../PART"/>' + LOCATED.format("", 0).replace('"A"', '"LATE"')
        last = container("LAST", inner, '<Comparison parameterRef="A" value="7"/>', "MIDDLE")
        low = lower(f'<Parameter name="LATE" parameterTypeRef="u8"/>', U8, last)
        for namespace in (NEW, OLD, ""):
            text = system(types, parameters, part + middle, low, namespace)
            found = table(text, b"\x7a\xbc\x0d\x0e\x0f", b"\x6a\xbc\x0d\x0e\x0f", b"\x70\x01\x02\x03\x04", container="LAST")
            self.assertEqual([plain(found[it]) for it in ("A", "B", "C", "LATE")], [[7, 7], [0xABC, 1], [13, 2], [15, 4]])
            self.assertEqual(plain(found["tm_record"]), [0, 2])
        self.assertEqual(written(text).containers, ["/Sat/PACKET", "/Sat/PART", "/Sat/MIDDLE", "/Sat/Low/LAST"])

    def test_comparisons(self) -> None:
        spelled = 'oneStringValue="Yes" zeroStringValue="OFF"'
        boolean = f'<BooleanParameterType name="B" {spelled}><IntegerDataEncoding/></BooleanParameterType>'
        curve = INTEGER.format(8, "", CALIBRATED.format(POLYNOMIAL)).replace('name="T"', 'name="P"')
        parameters = "".join(f'<Parameter name="{it}" parameterTypeRef="{it}"/>' for it in "TBP")
        payloads = [bytes(it) for it in ((1, 0, 2), (16, 1, 4), (31, 9, 2), (99, 0, 0))]
        for said, wanted in (
            ('T" value="SAFE"', [1, 2]),
            ('T" comparisonOperator="!=" value="ON"', [1, 2, 3]),
            ('T" value="1"', None),
            ('B" value="on"', None),
            ('T" useCalibratedValue="false" value="0x10"', [1]),
            ('T" useCalibratedValue="false" comparisonOperator="&gt;=" value="31"', [2, 3]),
            ('B" value="true"', [1, 2]),
            ('B" comparisonOperator="!=" value="True"', [0, 3]),
            ('B" value="Yes"', [1, 2]),
            ('B" value="OFF"', [0, 3]),
            ('P" value="-1"', [0, 2]),
            ('P" comparisonOperator="&lt;" value="-1.0"', [3]),
            ('P" useCalibratedValue="false" comparisonOperator="&lt;=" value="2"', [0, 2, 3]),
            ('P" useCalibratedValue="0" comparisonOperator="&gt;" value="2"', [1]),
        ):
            criteria = f'<ComparisonList>{OF_300}<Comparison parameterRef="{said}/></ComparisonList>'
            text = system(ENUMERATED + boolean + curve, parameters, container("C", entries(*"TBP"), criteria))
            if wanted is None:
                self.assertRegex(written(text).refusals()["/Sat/C"], "is not understood$")
                continue
            self.assertEqual(plain(table(text, *payloads)["tm_record"]), wanted, said)
            blocks = written(text).blocks(recording_of(payloads), "C", 3)
            self.assertEqual([row for it in blocks for row in plain(it["tm_record"])], wanted, said)

    def test_comparisons_of_extremes(self) -> None:
        """2^63 - 1 and 2^63 are one number as floats of 64 bits, and 0.1 is none that a float of 32 bits can be."""
        wide, most = INTEGER.format(64, 'encoding="{}"', ""), (2**63 - 1).to_bytes(8, "big")
        for type_, payload, said, wanted in (
            (wide.format("twosComplement"), most, 'comparisonOperator="==" value="9223372036854775808"', []),
            (wide.format("twosComplement"), most, 'comparisonOperator="&lt;" value="9223372036854775808"', [0]),
            (wide.format("unsigned"), b"\xff" * 8, 'value="18446744073709551615"', [0]),
            (wide.format("unsigned"), b"\xff" * 7 + b"\xfe", 'value="18446744073709551615"', []),
            (wide.format("unsigned"), b"\xff" * 7 + b"\xfe", 'value="1.8446744073709551615e19"', []),
            (wide.format("unsigned"), b"\xff" * 8, 'comparisonOperator="&gt;" value="-1"', [0]),
            (FLOAT.format(32, ""), struct.pack(">f", 0.1), 'value="0.1"', [0]),
            (FLOAT.format(32, ""), struct.pack(">f", 0.1), 'comparisonOperator="&gt;" value="0.1"', []),
            (FLOAT.format(16, ""), struct.pack(">e", 0.1), 'value="0.1"', [0]),
            (FLOAT.format(32, ""), struct.pack(">f", 1e38), 'comparisonOperator="&lt;" value="1e39"', [0]),
            (FLOAT.format(64, ""), struct.pack(">d", 0.1), 'value="0.1"', [0]),
            (BYTE, b"\7", 'value="0b111"', [0]),
            (BYTE, b"\7", 'value="7.0"', [0]),
            (BYTE, b"\x0a", 'value="1_0"', None),
            (BYTE, b"\x0a", 'value="nan"', None),
        ):
            text = one(type_).replace(OF_300, f'<ComparisonList>{OF_300}<Comparison parameterRef="A" {said}/></ComparisonList>')
            if wanted is None:
                self.assertRegex(written(text).refusals()["/Sat/C"], "is not understood$")
            else:
                self.assertEqual(plain(table(text, payload)["tm_record"]), wanted, (type_, said))

    def test_truth_values_that_are_spelled_otherwise(self) -> None:
        """What a mission calls 0 and 1 counts before what they are called else."""
        for zero, one_, said, wanted in (
            ("true", "false", "true", [0]),
            ("true", "false", "false", [1]),
            ("1", "0", "1", [0]),
            ("OFF", "ON", "true", [1]),
            ("X", "X", "X", None),
        ):
            names = f'zeroStringValue="{zero}" oneStringValue="{one_}"'
            type_ = f'<BooleanParameterType name="T" {names}><IntegerDataEncoding/></BooleanParameterType>'
            both = f'<ComparisonList>{OF_300}<Comparison parameterRef="A" value="{said}"/></ComparisonList>'
            text = one(type_).replace(OF_300, both)
            if wanted is None:
                self.assertRegex(written(text).refusals()["/Sat/C"], "is not understood$")
            else:
                self.assertEqual(plain(table(text, b"\0", b"\1")["tm_record"]), wanted, (zero, one_, said))

    def test_an_application_that_is_calibrated(self) -> None:
        """Its calibrated value is 2 x; the comparison with 600 is kept by 300, which doesn't say which application that is."""
        double = CALIBRATED.format('<PolynomialCalibrator><Term coefficient="2" exponent="1"/></PolynomialCalibrator>')
        calibrated = INTEGER.format(11, "", double).replace('"T"', '"u11"')
        text = one(BYTE).replace(integers(("APID", 11))[0], calibrated).replace('value="300"', 'value="600"')
        self.assertEqual((written(text).apid("C"), written(text).refusals()), (None, {}))
        self.assertEqual(plain(table(text, b"ab", apid=300)["A"]), [97])
        self.assertEqual(written(text.replace('value="600"', 'value="300" useCalibratedValue="false"')).apid("C"), 300)

    def test_an_application_by_its_label(self) -> None:
        label = ENUMERATED.replace('"T"', '"u11"').replace("Encoding/>", 'Encoding sizeInBits="11"/>').replace("1F", "300")
        label = label.replace('value="1" label="ON"', 'value="300" label="HK"')
        text = one(BYTE).replace('value="300"', 'value="HK"')
        text = text.replace(integers(("APID", 11))[0], label)
        self.assertEqual(written(text).apid("C"), 300)

    def test_names(self) -> None:
        """A parameter of another system, of the same name."""
        other = '<Parameter name="A" parameterTypeRef="T"/>'
        text = one(BYTE, entries("A", "Low/A")).replace("</SpaceSystem>", f"{lower(other)}</SpaceSystem>")
        found = table(text, b"\x01\x02")
        self.assertEqual((plain(found["/Sat/A"]), plain(found["/Sat/Low/A"])), ([1], [2]))
        self.raises(tmx.XtceError, None, written(text).path, "D")
        twice = text.replace(lower(other), lower(other, "", PACKET))
        error = self.raises(tmx.XtceError, None, written(twice).path, "PACKET")
        self.assertEqual(error.reason, "this may be /Sat/PACKET or /Sat/Low/PACKET")

    def named(self, names: list[str], decoded: str = "") -> dict[str, str]:
        """The columns of parameters of these names, each of an octet: its parameter, or behind it its value.  Some are decoded."""
        types = U8 + INTEGER.format(8, "", CALIBRATED.format(POLYNOMIAL)).replace('"T"', '"P"')
        kinds = ["P" if it in decoded.split() else "u8" for it in names]
        said = "".join(f'<Parameter name={quoteattr(it)} parameterTypeRef="{kind}"/>' for it, kind in zip(names, kinds))
        inside = "".join(f"<ParameterRefEntry parameterRef={quoteattr(it)}/>" for it in names)
        text = system(types, said, container("C", inside))
        self.assertEqual(written(text).refusals(), {})
        found = table(text, bytes(range(1, len(names) + 1)))
        self.assertEqual(list(found), [it.name for it in found.columns])
        whole = {column: plain(found[column])[0] for column in list(found)[11:]}
        raw = {column: value for column, value in whole.items() if isinstance(value, int)}
        self.assertEqual(sorted(raw.values()), list(range(1, len(names) + 1)))
        self.assertEqual({it: names[value - 1] for it, value in raw.items()}, {it: found.parameters[it][5:] for it in raw})
        self.assertEqual(set(found.parameters), set(list(found)[4:]))
        return {it: found.parameters[it] for it in whole}

    def test_names_of_columns_that_are_taken(self) -> None:
        self.assertEqual(self.named(["X_raw", "X"], "X"), {"X_raw": "/Sat/X_raw", "X": "/Sat/X", "X_raw_": "/Sat/X"})
        self.assertEqual(self.named(["X", "X_raw"], "X"), {"X": "/Sat/X", "X_raw_": "/Sat/X", "X_raw": "/Sat/X_raw"})
        own = ["tm_count", "tm_record", "tm_channel", "tm_apid", "tm_count_"]
        wanted = ["tm_count_", "tm_record_", "tm_channel_", "tm_apid_", "tm_count__"]
        self.assertEqual(self.named(own), dict(zip(wanted, (f"/Sat/{it}" for it in own))))
        spaced = ["A", "A ", "\tA", " ", "B\r\nC", "B  C"]
        self.assertEqual(self.named(spaced), dict(zip(("A", "A_", "A__", "_", "B  C", "B  C_"), (f"/Sat/{it}" for it in spaced))))
        odd = ['"', "a,b", "\u2028", "A.B", "=1", "\N{GRINNING FACE}", "a\rb"]
        self.assertEqual(list(self.named(odd)), [*odd[:-1], "a b"])
        other = '<Parameter name="A.LOW" parameterTypeRef="u8"/></ParameterSet>'
        text = one(U8 + AGGREGATE, entries("A", "A.LOW")).replace("</ParameterSet>", other)
        fields = [(it.name, it.parameter, it.part, it.offset) for it in written(text).columns("C")[7:]]
        wanted = [("A.LOW", "/Sat/A", ".LOW", 48), ("A.HIGH", "/Sat/A", ".HIGH", 56), ("A.LOW_", "/Sat/A.LOW", "", 64)]
        self.assertEqual(fields, wanted)

    def test_names_that_are_compared(self) -> None:
        """Columns that have other names than their parameters are found by comparisons."""
        types, parameters = integers(("tm_count", 8), ("X_raw", 8))
        curve = INTEGER.format(8, "", CALIBRATED.format(POLYNOMIAL)).replace('"T"', '"P"')
        for said, wanted in (("tm_count", [1]), ("X_raw", [1, 2]), ("X", [0])):
            criteria = f'<ComparisonList>{OF_300}<Comparison parameterRef="{said}" useCalibratedValue="false" value="2"/></ComparisonList>'
            inside = container("C", entries("tm_count", "X", "X_raw"), criteria)
            text = system(types + curve, f'{parameters}<Parameter name="X" parameterTypeRef="P"/>', inside)
            self.assertEqual(plain(table(text, b"\0\2\0", b"\2\0\2", b"\0\0\2")["tm_record"]), wanted, said)

    def test_the_time_of_each_row(self) -> None:
        found = table(one(TIME.format("", U32, "<Epoch>UNIX</Epoch>")), bytes(4), b"\0\0\0\x01")
        self.assertEqual(dates(found.time), [datetime(1970, 1, 1), datetime(1970, 1, 1, 0, 0, 1)])
        self.assertEqual(plain(found["A_raw"]), [0, 1])
        before = written(one(TIME.format("", U32, "<Epoch>0001-01-01T00:00:00+10:00</Epoch>")))
        self.assertEqual(before.refusals(), {})

    def test_bad_times_of_other_rows(self) -> None:
        wide = TIME.format("", U32.replace("32", "64"), "<Epoch>UNIX</Epoch>")
        text = one(wide).replace(OF_300, f'<ComparisonList>{OF_300}<Comparison parameterRef="COUNT" value="6"/></ComparisonList>')
        self.assertEqual(table(text, b"\xff" * 8, bytes(8), bytes(8)).bad_times, 0)
        self.assertEqual(table(text, bytes(8), b"\xff" * 8, bytes(8)).bad_times, 1)

    def test_the_command(self) -> None:
        Path("system.xml").write_text(one(BYTE, entries("A", "B") + REPEATED).replace('value="300"', 'value="9"'))
        said = "tmx definition: /Sat/C: there is no parameter 'B'\n"
        self.assertEqual(command("definition", "system.xml", "C", out="out"), (1, said))
        self.assertEqual(command("definition", "system.xml", out="out"), (0, ""))
        said = ["/Sat/PACKET: no application, 7 fields", "/Sat/C: refused: /Sat/C: there is no parameter 'B'"]
        self.assertEqual(Path("out").read_text().splitlines(), said)
        written(one(BYTE))
        self.assertEqual(command("definition", "system.xml", "C", out="d.csv"), (0, ""))
        head = "name,data_type,bit_length,bit_offset\nVERSION,uint,3,0\nTYPE,uint,1,3\nSECONDARY,uint,1,4\nAPID,uint,11,5\n"
        self.assertEqual(Path("d.csv").read_text(), f"{head}FLAGS,uint,2,16\nCOUNT,uint,14,18\nLENGTH,uint,16,32\nA,uint,8,48\n")
        self.assertEqual(plain(recording_of([b"ab"]).fields("d.csv", APID)["A"]), [97])


class Files(TestCase):
    def refused(self, text: str, said: str) -> None:
        Path("system.xml").write_text(text)
        with self.assertRaisesRegex(tmx.XtceError, f"^system.xml: {said}"):
            tmx.xtce.read("system.xml")

    def test_files_that_are_refused(self) -> None:
        whole = one(BYTE)
        self.refused("", "it is no XML")
        self.refused(whole[:-9], "it is no XML")
        self.refused(whole.replace("Sat", "&there;"), "it is no XML")
        self.refused("<Other/>", "its element is Other, and not SpaceSystem")
        include = '<xi:include xmlns:xi="http://www.w3.org/2001/XInclude" href="x.xml"/>'
        self.refused(whole.replace("</Space", f"{include}</Space"), "it includes other files")
        self.refused(f'<!DOCTYPE SpaceSystem SYSTEM "system.dtd">{whole}', "it has a DOCTYPE")
        doctype = '<!DOCTYPE s [<!ENTITY e SYSTEM "/etc/passwd">]>'
        self.refused(f'<?xml version="1.0"?>\n<!-- a -->\n{doctype}{whole}', "it has a DOCTYPE")
        self.raises(FileNotFoundError, None, tmx.xtce.read, "none.xml")

    def test_paths_that_two_elements_have(self) -> None:
        parameter = '<Parameter name="A" parameterTypeRef="T"/>'
        found = written(one(BYTE).replace(parameter, parameter * 2))
        self.assertEqual(found.refusals(), {"/Sat/C": "/Sat/C: two elements have the path /Sat/A"})
        twice = written(one(BYTE).replace(PACKET, PACKET * 2))
        said = {"/Sat/PACKET: two elements have this path", "/Sat/C: two elements have the path /Sat/PACKET"}
        self.assertEqual(set(twice.refusals().values()), said)

    def test_nesting(self) -> None:
        """Systems in systems, and containers on containers."""
        inner = "".join(container(f"C{it}", "", base=f"C{it - 1}" if it else "PACKET") for it in range(3000))
        low = '<SpaceSystem name="Low">' * 5000 + "</SpaceSystem>" * 5000
        found = written(system("", "", inner, low))
        self.assertEqual(len(found.columns("C1")), 7)
        error = self.raises(tmx.XtceError, None, found.columns, "C2999")
        self.assertEqual(error.reason, "its containers are nested too deep")

    def test_containers_and_types_that_grow(self) -> None:
        """Forty containers, each twice in the next one, and twenty types, each ten times in the next one: all without a value."""
        begin, twice = time.monotonic(), '<ContainerRefEntry containerRef="C{0}"/>' * 2
        empty = '<SequenceContainer name="{}"><EntryList>{}</EntryList></SequenceContainer>'
        grown = "".join(empty.format(f"C{it}", twice.format(it - 1) if it else "") for it in range(40))
        error = self.raises(tmx.XtceError, None, written(system("", "", grown)).definition, "C39")
        self.assertEqual(str(error), "/Sat/C39: too many types and containers stand in one another")
        member = '<AggregateParameterType name="{}"><MemberList>{}</MemberList></AggregateParameterType>'
        ten = "".join(f'<Member name="M{it}" typeRef="{{0}}"/>' for it in range(10))
        grown = "".join(member.format("T" if it == 18 else f"T{it}", ten.format(f"T{it - 1}") if it else "") for it in range(19))
        self.assertIn("too many types and containers", written(one(grown)).refusals()["/Sat/C"])
        self.assertLess(time.monotonic() - begin, 5)

    def test_references_that_begin_with_points(self) -> None:
        """They mean one place: the system of Low has no A below it, though the file has one further up."""
        inner = container("C", entries("../A"), base="../../PACKET")
        lowest = lower("", "", inner).replace('name="Low"', 'name="Lowest"')
        low = lower("").replace("</TelemetryMetaData>", f"</TelemetryMetaData>{lowest}")
        text = one(BYTE).replace("</SpaceSystem>", f"{low}</SpaceSystem>")
        said = {"/Sat/Low/Lowest/C": "/Sat/Low/Lowest/C: there is no parameter '../A'"}
        self.assertEqual(written(text).refusals(), said)
        found = written(text.replace('"../A"', '"../../A"'))
        self.assertEqual((found.refusals(), found.columns("/Sat/Low/Lowest/C")[7].parameter), ({}, "/Sat/A"))
        self.assertEqual(written(text.replace('"../A"', '"A"')).columns("/Sat/Low/Lowest/C")[7].parameter, "/Sat/A")

    def test_a_table_of_leap_seconds_that_is_missing(self) -> None:
        """Only the container that needs it is refused."""
        text = one(TIME.format("", U32, "<Epoch>TAI</Epoch>")).replace(PACKET, PACKET + container("D", ""))
        self.enterContext(mock.patch.dict(os.environ, TMX_LEAP_SECONDS="none"))
        said = "/Sat/A: its time counts leap seconds: none: No such file or directory; let TMX_LEAP_SECONDS name a leap-seconds.list"
        self.assertEqual(written(text).refusals(), {"/Sat/C": said})
        self.raises(tmx.XtceError, None, table, text, bytes(4))
        self.assertEqual(command("definition", "system.xml", out="out"), (0, ""))
        wanted = ["/Sat/PACKET: no application, 7 fields", "/Sat/D: application 300, 7 fields", f"/Sat/C: refused: {said}"]
        self.assertEqual(Path("out").read_text().splitlines(), wanted)

    def test_entities_that_grow(self) -> None:
        grown = "".join(f'<!ENTITY e{it + 1} "{f"&e{it};" * 10}">' for it in range(12))
        begin = time.monotonic()
        self.refused(f'<!DOCTYPE s [<!ENTITY e0 "0123456789">{grown}]><SpaceSystem name="&e12;"/>', "it has a DOCTYPE")
        self.assertLess(time.monotonic() - begin, 5)


# Files that are spoilt.

SPOILT = (
    *("", " ", "-1", "0", "1", "7", "8", "65", "1e999", "1e99999999", "1e-99999999", "-0", "nan", "inf", "-inf", "0x", "0xF", "1/3", "1/0"),
    *("9" * 30, "0x" + "F" * 5000, "9" * 5000, "1_0", "\u0663", "true", "True", "..", ".", "/", "//", "../..", "../../../../A", "./A", "/A"),
    *("a" * 3000, "A\r", "A\n", "\tA ", 'A,"', "A.B", "A[0]", "\u2028", "\U0001F600", "tm_count", "A_raw", "hex", "undefined", "UTF-16"),
    *("TAI", "GPS", "0001-01-01", "9999-12-31T23:59:59", "2000-01-01T00:00:00.123456789", "signMagnitude", "leastSignificantByteFirst"),
    *("2", "100", "101", "300", "1000", "2047", "2048", "524336", "4294967296", "18446744073709551615", "18446744073709551616"),
)


def spoil(chance: random.Random, root: Element) -> None:
    """Takes away, doubles, exchanges or renames something of a file, or gives it another value."""
    elements = list(root.iter())
    parents = {it: parent for parent in elements for it in parent}
    one, other = chance.choice(elements), chance.choice(elements)
    names = list(one.attrib)
    kind = chance.randrange(12)
    if kind == 0 and names:
        del one.attrib[chance.choice(names)]
    elif kind == 1 and one in parents:
        parents[one].remove(one)
    elif kind == 2 and one in parents:
        parents[one].insert(chance.randrange(len(parents[one]) + 1), copy.deepcopy(one))
    elif kind == 3 and one in parents and other in parents:
        parents[other].append(copy.deepcopy(one))
        parents[one].remove(one)
    elif kind == 4:
        one.tag, other.tag = other.tag, one.tag
    elif kind == 5:
        one.attrib, other.attrib = other.attrib, one.attrib
    elif kind == 6 and names and other.attrib:
        one.set(chance.choice(names), chance.choice(list(other.attrib.values())))
    elif kind == 7:
        one.text = chance.choice(SPOILT)
    elif names:
        one.set(chance.choice(names), chance.choice(SPOILT))


class Spoilt(TestCase):
    """Nothing but XtceError comes of a file, whatever is wrong with it; a container that isn't refused can be read.

    The seed of a failure stands in its line.  `SEED` is the first one, and `SPOILT` how many there are.
    """

    def texts(self) -> list[str]:
        made = [one(type_) for type_, _, _ in VALUES] + [text for text, _ in PLACES] + [text for text, _ in REFUSED]
        return [(EXAMPLE / "mission.xml").read_text().replace(' xmlns="http://www.omg.org/spec/XTCE/20180204"', "")] * len(made) + made

    def test_spoilt_files(self) -> None:
        texts, first, many = self.texts(), int(os.environ.get("SEED", "0")), int(os.environ.get("SPOILT", "800"))
        refused = read = 0
        for seed in range(first, first + many):
            with self.subTest(seed=seed):
                chance = random.Random(seed)
                root = fromstring(chance.choice(texts))
                for _ in range(chance.choice((1, 2, 4, 8))):
                    spoil(chance, root)
                try:
                    found = written(tostring(root, "unicode"))
                except tmx.XtceError:
                    continue
                refusals = found.refusals()
                refused += len(refusals)
                for path in found.containers:
                    if path in refusals:
                        self.raises(tmx.XtceError, None, found.fields, recording_of([bytes(4)]), path, apid=300)
                    elif chance.random() < 0.1:
                        read += 1
                        self.read(found, path, chance)
        self.assertGreater(min(refused, read), many // 20)

    def read(self, found: tmx.xtce.System, path: str, chance: random.Random) -> None:
        """Reads a container that isn't refused, of packets of random octets."""
        apid, last = found.apid(path), max((it.offset + it.bits for it in found.columns(path)), default=0)
        payload = [chance.randbytes(min(max(1, -(-last // 8) - 6), 2030)) for _ in range(3)]
        rows = found.fields(recording_of(payload, 300 if apid is None else apid), path, apid=300 if apid is None else None)
        self.assertEqual([it.name for it in rows.columns], list(rows))
        self.assertLess(len(found.definition(path).encode()), 1 << 20)


# Packets that are too short.

SIZE = 48  # octets of data of a frame
LEVELS = system(
    *map(str.__add__, integers(("A", 8), ("D", 64)), ("", '<Parameter name="B" parameterTypeRef="u16"/>')),
    container("ANY", entries("A"))
    + container("LOW", entries("B"), '<Comparison parameterRef="A" value="7"/>', "ANY")
    + container("LAST", entries("D"), '<Comparison parameterRef="B" value="513"/>', "LOW"),
)
ENDS_OF = {"A": 7, "B": 9, "D": 17}  # the octets of a packet that has the field


def filled(payloads: list[bytes]) -> bytes:
    """Frames with one packet each, and behind it an idle one."""
    frames = []
    for number, payload in enumerate(payloads):
        packet = struct.pack(">HHH", APID, 0xC000 | number % 16384, len(payload) - 1) + payload
        idle = struct.pack(">HHH", 2047, 0xC000 | number % 16384, SIZE - len(packet) - 7) + bytes(SIZE - len(packet) - 6)
        frames.append(struct.pack(">HBBH", 42 << 4, number % 256, number % 256, 0) + packet + idle)
    return b"".join(frames)


class TooShort(TestCase):
    def given(self, payloads: list[bytes], kind: str) -> tmx.Recording:
        """A recording as a file, as a stream, or as a pipe that is read once."""
        octets, settings = filled(payloads), tmx.Settings(42, SIZE + 6, False)
        Path("it.rec").write_bytes(octets)
        if kind == "file":
            return tmx.Recording("it.rec", settings)
        if kind == "stream":
            return tmx.Recording(io.BytesIO(octets), settings)
        ran = self.enterContext(subprocess.Popen(["cat", "it.rec"], stdout=subprocess.PIPE))
        return tmx.Recording(ran.stdout, settings)

    def sorted(self, payloads: list[bytes], container: str) -> tuple[list[int], list[int], int]:
        """The records that have a row, those that are too short, and how many are too short to tell: by the octets themselves."""
        wanted = {"LAST": (("A", b"\7"), ("B", b"\2\1")), "LOW": (("A", b"\7"),), "ANY": ()}[container]
        needs = {"LAST": "D", "LOW": "B", "ANY": "A"}
        rows, short, unclear = [], [], 0
        for record, payload in enumerate(payloads):
            packet, there = bytes(6) + payload, [it for it in wanted if ENDS_OF[it[0]] <= 6 + len(payload)]
            if any(packet[ENDS_OF[name] - len(value) : ENDS_OF[name]] != value for name, value in there):
                continue
            if len(packet) >= ENDS_OF[needs[container]]:
                rows.append(record)
            elif len(there) == len(wanted):
                short.append(record)
            else:
                unclear += 1
        return rows, short, unclear

    def test_packets_of_other_containers(self) -> None:
        chance = random.Random(5)
        payloads = [chance.choice((b"\7", b"\x08")) + chance.choice((b"\2\1", b"\2\2")) + chance.randbytes(9) for _ in range(300)]
        payloads = [it[: chance.randrange(1, 13)] for it in payloads]
        for container in ("LAST", "LOW", "ANY"):
            rows, short, unclear = self.sorted(payloads, container)
            self.assertGreater(min(len(rows), len(short) or container == "ANY", unclear or container != "LAST"), 0)
            for kind in ("file", "stream", "pipe"):
                found = written(LEVELS).fields(self.given(payloads, kind), container)
                self.assertEqual((plain(found["tm_record"]), found.short_count, found.unclear_count), (rows, len(short), unclear))
                self.assertEqual([it.record for it in found.short_packets], short)
                lengths = [(it.found, it.needed, it.channel, it.from_, it.at) for it in found.short_packets]
                needed = {"LAST": 136, "LOW": 72, "ANY": 56}[container]
                self.assertEqual(lengths, [(48 + 8 * len(payloads[it]), needed, 0, it, 0) for it in short])
                ending = [f"{len(rows)} rows, {len(found)} columns"]
                ending += [f"{len(short)} packets too short for a row"] if short else []
                ending += [f"{unclear} packets too short to tell the container"] if unclear else []
                self.assertEqual(found.ending(), ", ".join(ending))
                *others, last = written(LEVELS).blocks(self.given(payloads, kind), container, 20)
                self.assertEqual((last.short_count, last.unclear_count), (len(short), unclear))
                self.assertEqual({(it.short_count, it.unclear_count) for it in others}, {(0, 0)})
            other = written(LEVELS).fields(self.given(payloads, "file"), container, channel=1)
            self.assertEqual((other.rows, other.short_count, other.unclear_count), (0, 0, 0))

    def test_blocks_keep_a_hundred(self) -> None:
        payloads = [b"\7\2\1"] * 250 + [b"\7\2\1" + bytes(8)]
        for kind in ("file", "stream"):
            (last,) = written(LEVELS).blocks(self.given(payloads, kind), "LAST", 10)
            self.assertEqual((last.rows, last.short_count, [it.record for it in last.short_packets]), (1, 250, list(range(100))))
            whole = written(LEVELS).fields(self.given(payloads, kind), "LAST")
            self.assertEqual((whole.short_count, len(whole.short_packets)), (250, 250))
            (last,) = written(LEVELS).blocks(self.given([b"\7"] * 250 + payloads[-1:], kind), "LOW", 10)
            self.assertEqual((last.short_count, len(last.short_packets), last.unclear_count), (250, 100, 0))

    def test_memory_of_blocks(self) -> None:
        """Lines of 60,000 packets that are too short have over 4 MB."""
        packets = struct.pack(">HHH3s", APID, 0xC000, 2, b"\7\2\1") * 226  # 2034 octets
        octets = b"".join(struct.pack(">HBBH", 42 << 4, it % 256, it % 256, 0) + packets for it in range(266))
        Path("d.csv").write_text("name,data_type,bit_length\nA,uint,64\n")
        system = written(LEVELS)
        (_,) = system.blocks(self.given([b"\7\2\1"], "file"), "LAST", 10)  # imports what is there
        Path("it.rec").write_bytes(octets)
        for given in ("it.rec", "stream"):
            recording = tmx.Recording(io.BytesIO(octets) if given == "stream" else given, tmx.Settings(42, 2040, False))
            for call in (lambda: system.blocks(recording, "LAST", 10), lambda: recording.fields("d.csv", APID, blocks=10)):
                tracemalloc.start()
                (last,) = call()
                _, most = tracemalloc.get_traced_memory()
                tracemalloc.stop()
                self.assertEqual((last.rows, last.short_count, len(last.short_packets)), (0, 226 * 266, 100))
                self.assertLess(most, 3 << 20)

    def test_the_example(self) -> None:
        """Each report of housekeeping has the length of its container: none is too short."""
        mission = tmx.xtce.read(EXAMPLE / "mission.xml")
        reports = Counter(it.octets[12:16].decode() for it in example().packets(apid=100))
        for container, name in (("POWER", "PWR "), ("THERMAL", "THM "), ("RADIO", "RAD ")):
            found = mission.fields(example(), container)
            self.assertEqual((found.rows, found.short_count, found.unclear_count, found.short_packets), (reports[name], 0, 0, []))

    def test_each_type_of_a_condition(self) -> None:
        """Short packets are judged as rows are: by whole numbers, floats, texts, truth values, labels and calibrated values."""
        spelled = '<BooleanParameterType name="B"><IntegerDataEncoding sizeInBits="1"/></BooleanParameterType>'
        curve = INTEGER.format(8, "", CALIBRATED.format(POLYNOMIAL)).replace('"T"', '"P"')
        signed = INTEGER.format(7, 'encoding="twosComplement"', "").replace('"T"', '"S"')
        text = wide("UTF-16", size=16).replace('"T"', '"X"')
        types = ENUMERATED + spelled + curve + signed + FLOAT.format(32, "").replace('"T"', '"F"') + text
        parameters = "".join(f'<Parameter name="{it}" parameterTypeRef="{it}"/>' for it in "BSTPFX")
        last = INTEGER.format(64, "", "").replace('"T"', '"L"')
        begin = struct.pack(">BBBf", 0x80 | 0x7E, 16, 4, 0.1) + "Ω".encode("utf-16-be")
        for said, wanted in (
            ('B" value="true"', 1), ('B" value="false"', 0), ('S" value="-2"', 1), ('S" comparisonOperator="&gt;" value="-2"', 0),
            ('T" value="SAFE"', 1), ('T" comparisonOperator="!=" value="SAFE"', 0), ('P" value="5"', 1), ('P" value="5.5"', 0),
            ('F" value="0.1"', 1), ('F" comparisonOperator="&gt;" value="0.1"', 0), ('X" value="Ω"', 1), ('X" value="a"', 0),
        ):  # fmt: skip
            criteria = f'<ComparisonList>{OF_300}<Comparison parameterRef="{said}/></ComparisonList>'
            inside = container("C", entries(*"BSTPFXL"), criteria)
            found = written(system(types + last, f'{parameters}<Parameter name="L" parameterTypeRef="L"/>', inside))
            payloads = [begin + bytes(7), begin + bytes(8), begin[:-2]]
            for kind in ("file", "stream"):
                rows = found.fields(self.given(payloads, kind), "C")
                unclear = 1 if said.startswith("X") else 0
                counts = (rows.rows, rows.short_count, rows.unclear_count)
                self.assertEqual(counts, (wanted, wanted * (2 - unclear), unclear), said)

    def test_no_row(self) -> None:
        payloads = [b"\7\2\2" + bytes(8)] * 5 + [b"\7\2\1", b"\7", b"\x08"]
        for call in (
            lambda given: written(LEVELS).fields(given, "LAST"),
            lambda given: list(written(LEVELS).blocks(given, "LAST", 2)),
        ):
            with self.assertWarns(tmx.TmxWarning) as said:
                call(self.given(payloads, "file"))
            told = "no packet of /Sat/LAST among 8 of application 300, but 1 of it is too short for a row, and 1 is too short to tell"
            self.assertEqual((str(said.warning), said.filename), (f"it.rec: {told}", __file__))
            with self.assertWarns(tmx.TmxWarning) as said:
                call(self.given(payloads[:5], "stream"))
            self.assertEqual(str(said.warning), "no packet of /Sat/LAST among 5 of application 300")
        with self.assertWarns(tmx.TmxWarning) as said:
            written(LEVELS.replace('"300"', '"301"')).fields(self.given(payloads, "file"), "LAST")
        self.assertEqual(str(said.warning), "it.rec: no packet of application 301")
        with warnings.catch_warnings():
            warnings.simplefilter("error")
            for container in ("LAST", "LOW", "ANY"):
                written(LEVELS).fields(self.given([*payloads, b"\7\2\1" + bytes(8)], "stream"), container)

    def test_a_recording_that_changes(self) -> None:
        """The fields are those of two packets.  When short ones are looked at, the recording has one, or four."""
        given = self.given([b"\7\2\1"] * 2, "file")
        for changed in ("head -c 54 it.rec", "cat it.rec it.rec"):
            again = f'{changed} > other.rec; exec "$real" packets --binary --report /dev/null --settings "$6" other.rec'
            self.program(f'case "$1" in packets) {again};; esac; exec "$real" "$@"')
            if changed.startswith("cat"):
                found = written(LEVELS).fields(given, "LAST")
                self.assertEqual((found.rows, found.short_count, [it.record for it in found.short_packets]), (0, 2, [0, 1]))
                continue
            with self.assertRaisesRegex(tmx.DisagreementError, "^packets too short for a row: 1 now, and 2 in the report: did the"):
                written(LEVELS).fields(given, "LAST")


# Random systems.


class Made:
    """A random parameter: its type as XTCE has it, its bits, and random values as they are sent and as they are meant."""

    def __init__(self, chance: random.Random, name: str) -> None:
        self.chance, self.name = chance, name
        self.bits = chance.choice((1, 3, 8, 12, 16, 31, 32, 33, 63, 64))
        kinds = [self.unsigned, self.signed, self.real, self.boolean, self.labelled, self.text, self.octets, self.when, self.curve]
        self.type, self.value = chance.choice([*kinds, self.ranged, self.line])()

    def whole(self, more: str = "", inside: str = "") -> str:
        return f'<IntegerDataEncoding sizeInBits="{self.bits}" {more}>{inside}</IntegerDataEncoding>'

    def named(self, kind: str, inside: str) -> str:
        return f'<{kind}ParameterType name="T{self.name}">{inside}</{kind}ParameterType>'

    def sent(self) -> int:
        return self.chance.choice((0, (1 << self.bits) - 1, self.chance.getrandbits(self.bits)))

    def unsigned(self):
        return self.named("Integer", self.whole()), lambda sent: sent

    def signed(self):
        text = self.named("Integer", self.whole('encoding="twosComplement"'))
        return text, lambda sent: sent - (sent >> self.bits - 1 << self.bits)

    def real(self):
        self.bits, form = self.chance.choice(((16, ">e"), (32, ">f"), (64, ">d")))
        text = self.named("Float", f'<FloatDataEncoding sizeInBits="{self.bits}"/>')
        return text, lambda sent: struct.unpack(form, sent.to_bytes(self.bits // 8, "big"))[0]

    def boolean(self):
        return self.named("Boolean", self.whole()), bool

    def labelled(self):
        known = {self.sent() for _ in range(3)}
        rows = "".join(f'<Enumeration value="{it}" label="L{it}"/>' for it in known)
        text = self.named("Enumerated", f"{self.whole()}<EnumerationList>{rows}</EnumerationList>")
        return text, lambda sent: f"L{sent}" if sent in known else None

    def ranged(self):
        """Labels of ranges that overlap: the first counts."""
        ends = [sorted((self.sent(), self.sent())) for _ in range(4)]
        rows = "".join(f'<Enumeration value="{least}" maxValue="{most}" label="R{it}"/>' for it, (least, most) in enumerate(ends))
        text = self.named("Enumerated", f"{self.whole()}<EnumerationList>{rows}</EnumerationList>")
        return text, lambda sent: next((f"R{it}" for it, (least, most) in enumerate(ends) if least <= sent <= most), None)

    def line(self):
        """Steps or lines between points, whose order stands at the spline or at each point."""
        self.bits = self.chance.randrange(4, 33)
        points = sorted({self.sent(): self.chance.randrange(-1000, 1000) for _ in range(6)}.items())
        order, extrapolate, at_points = (self.chance.randrange(2) for _ in range(3))
        own = f'order="{order}"' if at_points else ""
        rows = "".join(f'<SplinePoint {own} raw="{raw}" calibrated="{value}"/>' for raw, value in points)
        said = f'order="{1 - order if at_points else order}" extrapolate="{bool(extrapolate)}"'
        calibrator = CALIBRATED.format(f"<SplineCalibrator {said}>{rows}</SplineCalibrator>")

        def value(sent: int) -> float:
            if not extrapolate and not points[0][0] <= sent <= points[-1][0]:
                return math.nan
            at = max(0, sum(raw <= sent for raw, _ in points) - 1)
            if order == 0 or len(points) == 1:
                return float(points[at][1])
            at = min(at, len(points) - 2)
            (raw, low), (next_raw, high) = points[at : at + 2]
            return float(low + Fraction(high - low, next_raw - raw) * (sent - raw))

        return self.named("Float", self.whole("", calibrator)), value

    def text(self):
        self.bits = 8 * self.chance.randrange(1, 12)
        size = f"<SizeInBits><Fixed><FixedValue>{self.bits}</FixedValue></Fixed></SizeInBits>"
        said = f'<StringDataEncoding encoding="ISO-8859-1">{size}</StringDataEncoding>'
        return self.named("String", said), lambda sent: sent.to_bytes(self.bits // 8, "big").decode("latin-1")

    def octets(self):
        self.bits = 8 * self.chance.randrange(1, 12)
        said = f"<BinaryDataEncoding><SizeInBits><FixedValue>{self.bits}</FixedValue></SizeInBits></BinaryDataEncoding>"
        return self.named("Binary", said), lambda sent: sent.to_bytes(self.bits // 8, "big")

    def when(self):
        self.bits = self.chance.randrange(20, 33)
        said = f'<Encoding scale="0.25">{self.whole()}</Encoding><ReferenceTime><Epoch>1990-01-01T00:00:00</Epoch></ReferenceTime>'
        return self.named("AbsoluteTime", said), lambda sent: datetime(1990, 1, 1) + timedelta(seconds=sent / 4)

    def curve(self):
        self.bits = self.chance.randrange(1, 33)
        powers = [self.chance.choice((0, 1, -2.5, 1e-3)) for _ in range(4)]
        terms = "".join(f'<Term coefficient="{it}" exponent="{power}"/>' for power, it in enumerate(powers))
        said = self.whole("", CALIBRATED.format(f"<PolynomialCalibrator>{terms}</PolynomialCalibrator>"))
        return self.named("Float", said), lambda sent: math.fsum(it * sent**power for power, it in enumerate(powers))


def random_system(chance: random.Random) -> tuple[str, list[Made], dict[str, int], int]:
    """A system whose parameters stand in two containers, one the other's base, with holes between; and where, and all octets."""
    made = [Made(chance, f"P{it}") for it in range(chance.randrange(1, 15))]
    places, inside, at = {}, [], 48
    for it in made:
        gap = chance.choice((0, 0, 1, 13))
        places[it.name], begin = at + gap, chance.random() < 0.5
        where = f'<FixedValue>{at + gap if begin else gap}</FixedValue>'
        reference = "containerStart" if begin else "previousEntry"
        said = f'<LocationInContainerInBits referenceLocation="{reference}">{where}</LocationInContainerInBits>'
        inside.append(f'<ParameterRefEntry parameterRef="{it.name}">{said if gap or begin else ""}</ParameterRefEntry>')
        at += gap + it.bits
    cut = chance.randrange(len(made) + 1)
    base = container("BASE", "".join(inside[:cut]))
    last = container("C", "".join(inside[cut:]), '<Comparison parameterRef="COUNT" comparisonOperator="!=" value="6"/>', "BASE")
    parameters = "".join(f'<Parameter name="{it.name}" parameterTypeRef="T{it.name}"/>' for it in made)
    return system("".join(it.type for it in made), parameters, base + last), made, places, -(-at // 8) - 6


class RandomSystems(TestCase):
    def test_round_trips(self) -> None:
        for seed in range(SYSTEMS):
            with self.subTest(seed=seed):
                chance = random.Random(seed)
                text, made, places, octets = random_system(chance)
                rows = [{it.name: it.sent() for it in made} for _ in range(5)]
                payloads = []
                for row in rows:
                    packed = chance.getrandbits(8 * octets)
                    for it in made:
                        shift = 48 + 8 * octets - places[it.name] - it.bits
                        packed = packed & ~((1 << it.bits) - 1 << shift) | row[it.name] << shift
                    payloads.append(packed.to_bytes(octets, "big"))
                found = table(text, *payloads)
                self.assertEqual(plain(found["COUNT"]), [5, 7, 8, 9])
                for it in made:
                    self.compare(it, [row[it.name] for row in rows[:1] + rows[2:]], plain(found[it.name]))

    def compare(self, made: Made, sent: list[int], found: list) -> None:
        for one, value in zip(sent, found, strict=True):
            wanted = made.value(one)
            if isinstance(wanted, float) and not isinstance(value, str):
                both = wanted != wanted and value is None or wanted == value
                self.assertTrue(both or math.isclose(wanted, value, rel_tol=1e-9, abs_tol=1e-9), (made.type, one, wanted, value))
            else:
                self.assertEqual((value, type(value)), (wanted, type(wanted)), made.type)


class WithoutNumpy(WithModules):
    """The same with lists as columns."""

    def setUp(self) -> None:
        super().setUp()
        self.have(numpy=None, pandas=None)


@needs("numpy")
class SystemAsLists(System, WithoutNumpy):
    pass


@needs("numpy")
class TooShortAsLists(TooShort, WithoutNumpy):
    pass


@needs("numpy")
class RandomSystemsAsLists(RandomSystems, WithoutNumpy):
    pass


if __name__ == "__main__":
    unittest.main()
