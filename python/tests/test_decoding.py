"""What raw values mean: labels, calibrations and times, as arrays and as lists."""

import math
import os
import random
import struct
import unittest
import warnings
from datetime import datetime, timedelta
from fractions import Fraction
from pathlib import Path
from unittest import mock

from support import TestCase, needs, tmx

from test_values import rows_of
from tmx import values
from tmx.leap_seconds import SYSTEM
from tmx.time_codes import code_of

PLACES = [f"tmx.{it}.module" for it in ("values", "fields", "times", "time_codes", "arrays", "decoding", "xtce_conditions")]
# Rows of the table of the IERS, in seconds from 1900: TAI is 10, 19, 36 and 37 seconds ahead from 1972, 1980, July 2015 and 2017 on.
TABLE = "#@\t3991593600\n2272060800\t10\t# 1 Jan 1972\n2524521600\t19\n3644697600\t36\n3692217600\t37\n"
NEW_YEAR = datetime(2017, 1, 1)
POINTS = ((10, 1.0), (20, 3.0), (40, -1.0))


class WithModules(TestCase):
    def have(self, **modules) -> None:
        """Has other modules stand for these, for the rest of the test; None is one that isn't there."""
        there = values.module
        for place in PLACES:
            self.enterContext(mock.patch(place, lambda it: modules[it] if it in modules else there(it)))

    def table(self, text: str = TABLE) -> None:
        """Has this be the table of leap seconds."""
        Path("leap-seconds.list").write_text(text)
        self.enterContext(mock.patch.dict(os.environ, TMX_LEAP_SECONDS=str(self.folder / "leap-seconds.list")))


def column(payloads: list[bytes], kind: str, **how) -> tmx.Fields:
    """The table of one column A, decoded."""
    return rows_of(payloads, f"A,{kind},{8 * len(payloads[0])}\n").decoded(**{key: {"A": it} for key, it in how.items()})


def after_1970(microseconds: int) -> datetime:
    return datetime(1970, 1, 1) + timedelta(microseconds=microseconds)


def date_at(microseconds: int) -> datetime | None:
    """The same, and None behind the year 9999."""
    return after_1970(microseconds) if microseconds < 253402300800 * 10**6 else None


def octets(numbers) -> list[bytes]:
    return [it.to_bytes(1, "big") for it in numbers]


def dates(times) -> list:
    """Times to microseconds."""
    return times.astype("datetime64[us]").tolist() if hasattr(times, "astype") else times


class Columns:
    """What is tried of both kinds of columns."""

    def test_labels(self) -> None:
        table = column(octets([0, 1, 2, 5, 9, 10, 255]), "uint", labels={1: "ON", range(5, 10): "SAFE", 0: "OFF", 255: "ON"})
        self.assertEqual([it if isinstance(it, str) else None for it in table["A"]], ["OFF", "ON", None, "SAFE", "SAFE", None, "ON"])
        self.assertEqual((list(table)[4:], list(table["A_raw"])), (["A", "A_raw"], [0, 1, 2, 5, 9, 10, 255]))
        wide = column([b"\xff" * 8, b"\xff" * 7 + b"\xfe"], "uint", labels={2**64 - 1: "ALL"})
        self.assertEqual([it if isinstance(it, str) else None for it in wide["A"]], ["ALL", None])
        signed = column([b"\xff", b"\x7f"], "int", labels={-1: "LESS", 127: "MOST"})
        self.assertEqual(list(signed["A"]), ["LESS", "MOST"])

    def test_labels_that_overlap(self) -> None:
        """The first one that has a value counts."""
        for labels, wanted in (
            ({range(0, 10, 2): "EVEN", range(1, 10, 2): "ODD"}, ["EVEN", "ODD", "EVEN", "ODD", None]),
            ({range(0, 4): "ANY", 2: "TWO"}, ["ANY", "ANY", "ANY", "ANY", None]),
            ({2: "TWO", range(0, 4): "ANY"}, ["ANY", "ANY", "TWO", "ANY", None]),
            ({range(3, 0, -1): "DOWN"}, [None, "DOWN", "DOWN", "DOWN", None]),
        ):
            table = column(octets([0, 1, 2, 3, 200]), "uint", labels=labels)
            self.assertEqual([it if isinstance(it, str) else None for it in table["A"]], wanted, labels)
        for key in ("1", 1.0, None):
            self.raises(TypeError, None, column, octets([1]), "uint", labels={key: "ON"})

    def test_polynomials(self) -> None:
        """3 - 2 x + x^2 / 2, of x = 0, 1, 4 and 200."""
        for curve in ([3, -2, 0.5], tmx.Polynomial((3, -2, 0.5))):
            self.assertEqual(list(column(octets([0, 1, 4, 200]), "uint", curves=curve)["A"]), [3.0, 1.5, 3.0, 19603.0])
        self.assertEqual(list(column([b"\xf0"], "int", curves=[0, 2])["A"]), [-32.0])
        self.assertEqual(list(column([struct.pack(">f", 0.25)], "float", curves=[1, 2])["A"]), [1.5])
        once = tmx.Polynomial(map(float, ("0", "0.5")))
        for _ in range(2):
            self.assertEqual(list(column(octets([7]), "uint", curves=once)["A"]), [3.5])
        for curve in ("10", b"10", {1: 0.5, 0: 3}, {5, 0.01}, {0: 1}.keys(), 0.5, [1j], [[0, 1]]):
            self.raises(TypeError, None, tmx.Polynomial, curve)
        self.raises(ValueError, None, tmx.Polynomial, [])

    def test_splines(self) -> None:
        def found(order: int, extrapolate: bool) -> list[float | None]:
            curve = tmx.Spline(POINTS[::-1], order, extrapolate)
            return [None if math.isnan(it) else it for it in column(octets([0, 10, 15, 20, 35, 40, 50]), "uint", curves=curve)["A"]]

        self.assertEqual(found(1, False), [None, 1.0, 2.0, 3.0, 0.0, -1.0, None])
        self.assertEqual(found(1, True), [-1.0, 1.0, 2.0, 3.0, 0.0, -1.0, -3.0])
        self.assertEqual(found(0, False), [None, 1.0, 1.0, 3.0, 3.0, -1.0, None])
        self.assertEqual(found(0, True), [1.0, 1.0, 1.0, 3.0, 3.0, -1.0, -1.0])
        self.assertEqual(tmx.Spline(zip((0, 1), (2, 3))), tmx.Spline([(0, 2), (1, 3)]))
        for points, order in (((), 1), (((1, 2), (1, 3)), 1), (POINTS, 2), (((1, 2), (math.nan, 3)), 1), (((1, 2), (math.inf, 3)), 0)):
            self.raises(ValueError, None, tmx.Spline, points, order)

    def test_points_of_splines(self) -> None:
        """At a point's raw value stands just its calibrated value, at the last one too."""
        chance = random.Random(3)
        for number in range(40):
            raws = chance.sample(range(256), chance.randrange(1, 8))
            points = [(raw, chance.uniform(-1, 1) * 10 ** chance.randrange(-5, 5)) for raw in raws]
            curve = tmx.Spline(points, number % 2, number % 3 == 0)
            self.assertEqual(list(column(octets(raws), "uint", curves=curve)["A"]), [value for _, value in points])

    def test_times_without_leap_seconds(self) -> None:
        """Noon of January 1, 2000 is 15340.5 days behind 1958, and 946728000 seconds behind 1970."""
        day, noon = (15340).to_bytes(3, "big"), (43_200_000).to_bytes(4, "big")
        at = datetime(2000, 1, 1, 12)
        for form, epoch, code, below in (
            ("cds6", None, day[1:] + noon, 0),
            ("cds6", None, day[1:] + (43_200_789).to_bytes(4, "big"), 789_000),
            ("cds8", None, day[1:] + noon + b"\x01\xf4", 500),
            ("cds11", None, day + noon + (123_456_789).to_bytes(4, "big"), 123),
            ("cds", None, b"\x41" + day[1:] + noon + b"\x01\xf4", 500),
            (">f8", None, struct.pack(">d", 946728000.25), 250_000),
            ("<f8", None, struct.pack("<d", 946728000.25), 250_000),
            ("cuc4.2", "UNIX", (946728000).to_bytes(4, "big") + b"\x80\x00", 500_000),
            ("cuc", "1958-01-01", b"\x1d" + (15340 * 86400 + 43200).to_bytes(4, "big") + b"\x40", 250_000),
            ("cuc5.10", "1970-01-01", (946728000).to_bytes(5, "big") + b"\x20" + bytes(9), 125_000),
        ):
            table = column([code], "str", times=tmx.TimeCode(form, epoch))
            self.assertEqual(dates(table["A"]), [at.replace(microsecond=below)], form)
        nanoseconds = code_of("cds11", b"").passed(day + noon + (123_456_789).to_bytes(4, "big"), 10**9)
        self.assertEqual(nanoseconds, (15340 * 86400 + 43200) * 10**9 + 123_456)
        for seconds, raw in ((1, 946728000), ("0.001", 946728000_000), (2, 473364000)):
            table = column([raw.to_bytes(8, "big")], "uint", times=tmx.Ticks("UNIX", seconds))
            self.assertEqual(dates(table["A"]), [at])
        table = column([struct.pack(">d", 43200.5)], "float", times=tmx.Ticks("2000-01-01", 1, "-0.25"))
        self.assertEqual(dates(table["A"]), [at.replace(microsecond=250_000)])

    def test_codes_of_all_lengths(self) -> None:
        """Worked out in whole nanoseconds; with a P-field, with octets behind, cut short, and with another P-field."""
        chance = random.Random(4)
        for coarse in range(1, 8):
            for fine in range(11):
                seconds = [chance.getrandbits(min(8 * coarse, 33)) for _ in range(20)]
                parts = [0, 256**fine - 1, *(chance.randrange(256**fine) for _ in range(18))]
                codes = [it.to_bytes(coarse, "big") + part.to_bytes(fine, "big") for it, part in zip(seconds, parts)]
                below = (coarse > 4 or fine > 3) and bytes([max(coarse - 4, 0) << 5 | max(fine - 3, 0) << 2])
                lead = bytes([0x10 | bool(below) << 7 | min(coarse - 1, 3) << 2 | min(fine, 3)]) + (below or b"")
                wanted = [it * 10**9 + part * 10**9 // 256**fine for it, part in zip(seconds, parts)]
                self.coded("cuc", f"cuc{coarse}.{fine}", "1970-01-01", lead, codes, wanted)
        for number, (coarse, fine) in enumerate(((2, 0), (3, 0), (2, 2), (3, 2), (2, 4), (3, 4))):
            days = [0, 1, 65535, *(chance.randrange(256**coarse >> 2) for _ in range(17))]
            milliseconds = [chance.choice((chance.randrange(86_400_000), 86_400_999, 86_401_000, 2**32 - 1)) for _ in days]
            unit, most = ((0, 1), (1000, 1000), (Fraction(1, 1000), 10**9))[fine // 2]  # nanoseconds, and how many in a millisecond
            parts = [chance.choice((0, chance.randrange(most), most - 1, min(most, 256**fine - 1))) for _ in days]
            each = list(zip(days, milliseconds, parts))
            codes = [it[0].to_bytes(coarse, "big") + it[1].to_bytes(4, "big") + it[2].to_bytes(fine, "big") for it in each]
            good = [it[1] < 86_401_000 and it[2] < most for it in each]
            passed = [(day * 86_400_000 + thousandths) * 10**6 + math.floor(part * unit) for day, thousandths, part in each]
            wanted = [it - 4383 * 86400 * 10**9 if is_good else None for it, is_good in zip(passed, good)]
            lead = bytes([0x40 | (coarse == 3) << 2 | fine // 2])
            self.coded("cds", f"cds{(6, 7, 8, 9, 10, 11)[number]}", None, lead, codes, wanted)

    def coded(self, kind: str, form: str, epoch: str | None, lead: bytes, codes: list[bytes], wanted: list[int | None]) -> None:
        """Looks at the times of codes, which are so many nanoseconds behind 1970."""
        torn = [codes[0], codes[1][:-1], *codes[2:]]
        behind = [lead + it + b"behind"[number % 7 :] for number, it in enumerate(codes)]
        behind[3] = bytes([lead[0] ^ 0x20]) + behind[3][1:]
        missing = [[], [1], [3]]
        for code, given, left in zip((form, form, kind), (codes, torn, behind), missing):
            times, none = tmx.TimeCode(code, epoch).times("A", given)
            kept = [None if number in left else it for number, it in enumerate(wanted)]
            if hasattr(times, "dtype"):
                kept = [it if it is not None and -(2**63) < it < 2**63 else None for it in kept]
                found = [None if it == -(2**63) else it for it in times.astype("int64").tolist()]
                self.assertEqual((found, none), (kept, kept.count(None)), (form, code))
            else:
                self.assertEqual((times, none), ([None if it is None else date_at(it // 1000) for it in kept], times.count(None)), (form, code))

    def test_times_of_floats(self) -> None:
        """Eighths of a second, milliseconds and microseconds, worked out in whole microseconds."""
        chance = random.Random(1)
        wanted = [2113216822_250_000, 1700000000_123_000, 0, -1, -1_000, -125_000]
        for step, most in ((125_000, 2**33), (1_000, 2**32), (1, 2**31)):  # up to `most` seconds a double tells the steps apart
            wanted += [chance.randrange(-most * 10**6, most * 10**6, step) for _ in range(300)]
        payloads = [struct.pack(">d", float(Fraction(it, 10**6))) for it in wanted]
        dated = [after_1970(it) for it in wanted]
        self.assertEqual(dates(column(payloads, "float", times=tmx.Ticks("1970-01-01"))["A"]), dated)
        self.assertEqual(dates(column(payloads, "str", times=tmx.TimeCode(">f8"))["A"]), dated)
        self.assertEqual(dates(column([it[::-1] for it in payloads], "str", times=tmx.TimeCode("<f8"))["A"]), dated)
        receipts = [code_of(">f8", b"").passed(it, 10**9) for it in payloads]  # as the page of a pass reads them
        self.assertEqual(receipts, [it * 1000 for it in wanted])

    def test_halves_of_microseconds(self) -> None:
        """The later one is taken."""
        floats = (0.5, 1.5, 2.5, -0.5, -1.5, 0.49999999999999994, -0.5000000000000001, 2.0**51 + 0.5)
        table = column([struct.pack(">d", it) for it in floats], "float", times=tmx.Ticks("1970-01-01", "0.000001"))
        self.assertEqual(dates(table["A"]), [after_1970(it) for it in (1, 2, 3, 0, -1, 0, -1, 2**51 + 1)])
        codes = [struct.pack(">d", it / 2**7) for it in (1, 3, 5, -1, -3)]  # 7812.5 microseconds and more
        wanted = [after_1970(it) for it in (7813, 23438, 39063, -7812, -23437)]
        self.assertEqual(dates(column(codes, "str", times=tmx.TimeCode(">f8"))["A"]), wanted)

    def test_lengths_that_are_floats(self) -> None:
        """A float of up to 15 digits is the decimal that was written, and each other one its binary value."""
        for seconds, offset, raw, wanted in (
            (0.7, 0, 10, 7_000_000),
            (0.3, 0, 10, 3_000_000),
            (0.001, 0, 1700000000_123, 1700000000_123_000),
            (1, 0.3, 7, 7_300_000),
            (2.0**-32, 0, 1700000000 << 32 | 1 << 31, 1700000000_500_000),
            (2.0**-16, -0.25, 3 << 14, 500_000),
        ):
            times = column([raw.to_bytes(8, "big")], "uint", times=tmx.Ticks("1970-01-01", seconds, offset))["A"]
            self.assertEqual(dates(times), [after_1970(wanted)], seconds)
            if hasattr(times, "dtype"):
                self.assertEqual(times.astype("int64").tolist(), [wanted * 1000], seconds)

    def test_octets_that_are_no_time(self) -> None:
        codes = [b"\x41" + bytes(8), b"\x40" + bytes(8), b"\x41" + bytes(2) + (86_401_000).to_bytes(4, "big") + bytes(2)]
        table = column(codes, "str", times=tmx.TimeCode("cds"))
        self.assertEqual((dates(table["A"]), table.bad_times), ([datetime(1958, 1, 1), None, None], 2))
        table = column([bytes(9), b"\x50" + bytes(8), *codes], "str", times=tmx.TimeCode("cds"))
        self.assertEqual((dates(table["A"]), table.bad_times), ([None, None, datetime(1958, 1, 1), None, None], 4))
        table = column([struct.pack(">d", it) for it in (math.nan, math.inf, 0)], "float", times=tmx.Ticks("UNIX"))
        self.assertEqual((dates(table["A"]), table.bad_times), ([None, None, datetime(1970, 1, 1)], 2))

    def test_leap_seconds(self) -> None:
        """GPS had its second 1167264018, and TAI from 1958 its second 21550 * 86400 + 37, where 2017 began."""
        self.table()
        gps, tai = 1167264018, 21550 * 86400 + 37
        for scale, second in (("GPS", gps), ("TAI", tai)):
            raw = [it.to_bytes(4, "big") for it in (0, second - 2, second - 1, second, second + 1)]
            found = dates(column(raw, "uint", times=tmx.Ticks(scale))["A"])[1:]
            self.assertEqual([(it - NEW_YEAR).total_seconds() for it in found], [-1, 0, 0, 1])  # the leap second is told as the next
        self.assertEqual(dates(column([bytes(4)], "uint", times=tmx.Ticks("GPS"))["A"]), [datetime(1980, 1, 6)])
        j2000 = column([bytes(4), (17 * 365 + 5).to_bytes(4, "big")], "uint", times=tmx.Ticks("J2000", 86400))["A"]
        self.assertEqual(dates(j2000)[1], datetime(2017, 1, 1, 11, 58, 50, 816000))
        with self.assertWarnsRegex(tmx.TmxWarning, "^leap seconds are known until 2026-06-28, by .*leap-seconds.list: "):
            column([b"\xff" * 4], "uint", times=tmx.Ticks("GPS"))
        for epoch in ("gps", "GPS"):
            rows = rows_of([gps.to_bytes(4, "big") + b"\x80\0"], "S,uint,32\nF,uint,16\n", time=("S", "F"), epoch=epoch)
            self.assertEqual(dates(rows.time), [NEW_YEAR.replace(microsecond=500_000)])

    def test_tables_of_leap_seconds(self) -> None:
        self.table(TABLE.replace("3692217600\t37", "3692217600\t40"))
        found = column([(1167264018 + 3).to_bytes(4, "big")], "uint", times=tmx.Ticks("GPS"))["A"]
        self.assertEqual(dates(found), [NEW_YEAR])
        for text in ("", "no table\n", "#@ 1\n2272060800\n"):
            self.table(text)
            tmx.leap_seconds.read_leap_seconds.cache_clear()
            self.raises(tmx.LeapSecondsError, None, column, [bytes(4)], "uint", times=tmx.Ticks("TAI"))
        os.environ["TMX_LEAP_SECONDS"] = "none"
        error = self.raises(tmx.LeapSecondsError, None, column, [bytes(4)], "uint", times=tmx.Ticks("TAI"))
        self.assertIn("none: No such file or directory; let TMX_LEAP_SECONDS name", str(error))

    @unittest.skipUnless(os.path.exists(SYSTEM), f"{SYSTEM} is not there")
    def test_the_table_of_the_system(self) -> None:
        found = column([(1167264018).to_bytes(4, "big")], "uint", times=tmx.Ticks("GPS"))["A"]
        self.assertEqual(dates(found), [NEW_YEAR])

    def test_wrong_columns(self) -> None:
        table = rows_of([b"ab"], "A,uint,8\nA_raw,uint,8\n")
        self.raises(tmx.ColumnError, None, table.decoded, labels={"A": {0: "OFF"}})
        self.raises(tmx.ColumnError, None, table.decoded, labels={"B": {0: "OFF"}})
        table = rows_of([b"abcd"], "A,uint,8\nT,str,24\n")
        self.raises(tmx.ColumnError, None, table.decoded, labels={"A": {0: "OFF"}}, curves={"A": [0, 1]})
        self.raises(tmx.ColumnError, None, table.decoded, times={"A": tmx.TimeCode("cds8")})
        self.raises(tmx.ColumnError, None, table.decoded, times={"T": tmx.Ticks("UNIX")})
        self.raises(tmx.ColumnError, None, table.decoded, curves={"T": [0, 1]})
        self.raises(tmx.ColumnError, None, table.decoded, labels={"T": {0: "OFF"}})
        for form, epoch in (("cuc4.2", None), ("cds5", None), ("", "TAI")):
            self.raises(ValueError, None, tmx.TimeCode, form, epoch)
        for seconds in ("a second", "1/0", math.inf, math.nan):
            self.raises(ValueError, None, tmx.Ticks, "TAI", seconds)
            self.raises(ValueError, None, tmx.Ticks, "TAI", 1, seconds)
        self.raises(TypeError, None, tmx.Ticks, "TAI", None)


EDGES = (-(2**63), -(2**63) + 10**10, -1, 0, 10**9, 14832288 * 10**11 + 36 * 10**9, 2**63 - 10**10, 2**63)  # in nanoseconds from 1970
AHEAD = ((0, 10), (2524521600, 19), (3644697600, 36), (3692217600, 37))  # as TABLE has it, and before 1972 as then


def wanted_time(number: int | float, second: int, factor: Fraction, offset: Fraction, has_leaps: bool) -> int | None:
    """The nanoseconds from 1970 in UTC; None where numpy has no such time.  Second 0 is so many seconds behind 1970."""
    if not math.isfinite(number):
        return None
    passed = Fraction(number) * factor + offset
    exact = math.floor(passed * 10**6 + Fraction(1, 2)) * 1000 if isinstance(number, float) else math.floor(passed * 10**9)
    exact += second * 10**9
    if not -(2**63) < exact < 2**63:
        return None
    if has_leaps:
        exact -= [ahead for utc, ahead in AHEAD if exact >= (utc - 2208988800 + ahead) * 10**9 or not utc][-1] * 10**9
    return exact if -(2**63) < exact else None


class AsLists(Columns, WithModules):
    def setUp(self) -> None:
        super().setUp()
        self.have(numpy=None, pandas=None)


@needs("numpy")
class AsArrays(Columns, WithModules):
    def setUp(self) -> None:
        super().setUp()
        self.have(pandas=None)

    def test_numbers_of_numpy(self) -> None:
        import numpy

        for kind in (numpy.float32, numpy.float64, numpy.int32, numpy.uint8, numpy.int64):
            times = column(octets([250]), "uint", times=tmx.Ticks("1970-01-01", kind(100), kind(1)))["A"]
            self.assertEqual(times.astype("int64").tolist(), [25001 * 10**9], kind)
        self.assertEqual(tmx.Spline(numpy.array([[0, 0], [10, 5]])), tmx.Spline([(0, 0), (10, 5)]))
        self.assertEqual(tmx.Settings(42, 256, numpy.bool_(True)).toml(), tmx.Settings(42, 256, True).toml())
        for key in (numpy.uint8(255), numpy.int64(255)):
            self.assertEqual(list(column(octets([255]), "uint", labels={key: "ON"})["A"]), ["ON"])

    def test_ticks_beside_fractions(self) -> None:
        """Numbers of all sizes, worked out by fractions; without numpy the microseconds are the same."""
        import numpy

        chance = random.Random(2)
        self.table()
        seconds = ["1", "0.001", "1e-9", "1/65536", "86400", "1/3", Fraction(1, 2**56), Fraction(10**9, 7), -1, 0]
        offsets = [0, "-0.25", "1e9", "1/3", -(10**12), "3e17"]
        epochs = {"1970-01-01": 0, "0001-01-01": -719162 * 86400, "9999-12-31": 2932896 * 86400, "TAI": -4383 * 86400, "GPS": 315964819}
        for number, (epoch, second) in enumerate(epochs.items()):
            for unit in seconds:
                factor, offset = Fraction(unit), Fraction(offsets[(number + seconds.index(unit)) % len(offsets)])
                near = [(Fraction(it, 10**9) - second - offset) / (factor or 1) for it in EDGES]
                whole = [math.floor(it) + more for it in near for more in (-1, 0, 1, 2)]
                whole += [chance.getrandbits(chance.randrange(1, 65)) for _ in range(40)]
                floats = [it for exact in [*whole, *near] for it in (float(exact), math.nextafter(float(exact), math.inf))]
                floats += [math.nan, math.inf, -math.inf, 1e300, 5e-324, -0.0, *(chance.uniform(-1, 1) ** 9 * 1e19 for _ in range(40))]
                floats += [chance.randrange(-(10**16), 10**16) / 2**20 for _ in range(40)]
                for kind, least, most in (("uint64", 0, 2**64), ("int64", -(2**63), 2**63), ("int8", -128, 128), ("float64", 0, 0)):
                    values = [it for it in whole if least <= it < most] if most else floats
                    array, ticks = numpy.array(values, kind), tmx.Ticks(epoch, unit, offset)
                    wanted = [wanted_time(it, second, factor, offset, epoch in ("TAI", "GPS")) for it in values]
                    with warnings.catch_warnings():
                        warnings.simplefilter("error")
                        warnings.simplefilter("ignore", tmx.TmxWarning)
                        times, none = ticks.times("A", array)
                        lists, _ = ticks.times("A", values)
                    found = [None if it == -(2**63) else it for it in times.astype("int64").tolist()]
                    self.assertEqual((found, none), (wanted, wanted.count(None)), (epoch, unit, offset, kind))
                    self.assertEqual(lists.tolist(), times.tolist())
                    with mock.patch("tmx.times.module", lambda name: None), mock.patch("tmx.time_codes.module", lambda name: None):
                        told = ticks.times("A", values)[0]
                    kept = [(it, time) for it, time in zip(told, found) if time is not None]
                    self.assertEqual([it for it, _ in kept], [after_1970(time // 1000) for _, time in kept])

    def test_series_of_numpy(self) -> None:
        """By hand: of x = 0, 100, 150 and 200 the domain from 0 to 200 makes u = -1, 0, 1/2 and 1."""
        import numpy
        from numpy import polynomial

        domain = {"domain": [0, 200]}
        for curve, wanted in (
            (polynomial.Polynomial([1, 2, 0.5], **domain), [-0.5, 1, 2.125, 3.5]),
            (polynomial.Polynomial([1, 2, 0.5], **domain, window=[0, 200]), [1, 5201, 11551, 20401]),
            (polynomial.Chebyshev([1, 2, 3], **domain), [2, -2, 0.5, 6]),  # 2 u^2 - 1
            (polynomial.Legendre([1, 2, 3], **domain), [2, -0.5, 1.625, 6]),  # (3 u^2 - 1) / 2
            (polynomial.Laguerre([1, 2, 3], **domain, window=[-1, 1]), [15.5, 6, 2.375, -0.5]),  # 1 - u, and 1 - 2 u + u^2 / 2
            (polynomial.Hermite([1, 2, 3], **domain, window=[-1, 1]), [3, -5, 0, 11]),  # 2 u, and 4 u^2 - 2
            (polynomial.HermiteE([1, 2, 3], **domain, window=[-1, 1]), [-1, -2, -0.25, 3]),  # u^2 - 1
            (numpy.poly1d([0.5, -2, 3]), [3, 4803, 10953, 19603]),  # the highest power first
            (numpy.poly1d([1, 100], r=True), [100, 0, 50 * 149, 100 * 199]),  # (u - 1) (u - 100)
            (numpy.array([3, -2, 0.5]), [3, 4803, 10953, 19603]),
            (numpy.array([3, -2], "int8"), [3, -197, -297, -397]),
        ):
            found = column(octets([0, 100, 150, 200]), "uint", curves=curve)["A"]
            self.assertEqual((found.tolist(), found.dtype), (wanted, "float64"), repr(curve))
        arrays = rows_of([b"\0\x64", b"\x96\xc8"], "A,str,16\n", arrays={"A": "u1"})
        found = arrays.decoded(curves={"A": polynomial.Chebyshev([1, 2, 3], **domain)})["A"]
        self.assertEqual(found.tolist(), [[2, -2], [0.5, 6]])

    def test_series_that_are_refused(self) -> None:
        import numpy
        from numpy import polynomial

        for series in (polynomial.Polynomial([1, 2]), polynomial.Chebyshev([1, 2]), numpy.poly1d([1, 2]), lambda it: it):
            said = str(self.raises(TypeError, None, tmx.Polynomial, series))
            self.assertRegex(said, rf"^a polynomial takes a list of coefficients, and not [a-z.]*{type(series).__name__}; a series of ")
        for curve in (lambda it: it, polynomial.Chebyshev([1j]), numpy.poly1d([1, 1j]), numpy.array([[1]]), numpy.array(1)):
            self.raises(TypeError, None, column, octets([0]), "uint", curves=curve)
        self.raises(ValueError, None, column, octets([0]), "uint", curves=numpy.array([]))
        self.raises(tmx.ColumnError, None, column, octets([0]), "str", curves=polynomial.Chebyshev([1]))

    def test_calibrators_beside_numpy(self) -> None:
        import numpy

        raw = numpy.arange(256)
        table = column(octets(range(256)), "uint", curves=[1.5, -0.25, 0.125, 1e-3])
        numpy.testing.assert_allclose(table["A"], numpy.polyval([1e-3, 0.125, -0.25, 1.5], raw), rtol=1e-14)
        points = [(5, 1.0), (17, 30.5), (99, -4.25), (200, 7.0)]
        table = column(octets(range(256)), "uint", curves=tmx.Spline(points))
        wanted = numpy.interp(raw, *zip(*points), left=numpy.nan, right=numpy.nan)
        numpy.testing.assert_allclose(table["A"], wanted, rtol=1e-14)


@needs("numpy", "pandas")
class AsFrames(Columns, WithModules):
    def test_categories(self) -> None:
        table = column(octets([1, 0, 2]), "uint", labels={0: "OFF", 1: "ON", 3: "NEVER"})
        self.assertEqual(list(table.to_pandas()["A"].cat.categories), ["OFF", "ON", "NEVER"])
        self.assertEqual(table.to_pandas()["A"].isna().tolist(), [False, False, True])
        self.assertEqual(table.to_numpy()["A"].tolist()[:2], ["ON", "OFF"])


if __name__ == "__main__":
    unittest.main()
