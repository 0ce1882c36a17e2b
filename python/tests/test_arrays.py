"""Columns of arrays and of rests, beside single fields and whole packets."""

import io
import math
import os
import random
import struct
import unittest

from support import DEFINITION, TestCase, damaged, needs, reference, tmx

from test_decoding import WithModules
from test_values import rows_of

RECORDINGS = int(os.environ.get("DAMAGED", "200")) // 4
WIDTHS = ("uint12", "int12", "uint1", "int1", "uint7", "int33", "uint64", "int64", "uint16")


def listed(column) -> list:
    """The rows of a column as tuples."""
    return [tuple(it) for it in (column.tolist() if hasattr(column, "tolist") else column)]


class Columns:
    """What is tried of both kinds of columns."""

    def test_numbers(self) -> None:
        payloads = [bytes(range(16)), b"\xff" * 8 + b"\x80" + bytes(7)]
        for form in (">u2", "<u2", ">i4", "<i8", ">f4", "<f8", ">f2", "u1", "i1"):
            code = form[0] + form[-2:].translate(str.maketrans({"u": "", "i": "", "f": ""}))
            letter = {"u1": "B", "i1": "b", "u2": "H", "i4": "i", "i8": "q", "f4": "f", "f8": "d", "f2": "e"}[form[-2:]]
            code = (form[0] if form[0] in "<>" else ">") + letter * (16 // int(form[-1]))
            found = rows_of(payloads, "S,str,128\n", arrays={"S": form})
            self.assertEqual(repr(listed(found["S"])), repr([struct.unpack(code, it) for it in payloads]), form)
            self.assertEqual(found.columns[4], tmx.Column("S", "array", 128))

    def test_odd_widths_are_those_of_single_fields(self) -> None:
        chance = random.Random(1)
        payloads = [bytes(33), b"\xff" * 33, *(chance.randbytes(33) for _ in range(5))]
        for form in WIDTHS:
            kind, bits = form.rstrip("0123456789"), int(form.lstrip("uint"))
            count = 33 * 8 // bits
            octets = -(-count * bits // 8)
            single = rows_of(payloads, "".join(f"F{it},{kind},{bits}\n" for it in range(count)))
            found = rows_of(payloads, f"S,str,{8 * octets}\n", arrays={"S": form})
            self.assertEqual(listed(found["S"]), list(zip(*(map(int, single[f"F{it}"]) for it in range(count)))), form)

    def test_arrays_beside_texts(self) -> None:
        payloads = [b"abcd\xff\xfe", b"efgh\x00\x01"]
        found = rows_of(payloads, "T,str,32\nS,str,16\n", arrays={"S": ">u2"}, encoding="ascii")
        self.assertEqual((list(found["T"]), listed(found["S"])), (["abcd", "efgh"], [(0xFFFE,), (1,)]))
        blocks = list(rows_of(payloads, "T,str,32\nS,str,16\n", arrays={"S": "uint4"}, blocks=1))
        self.assertEqual([listed(it["S"]) for it in blocks], [[(15, 15, 15, 14)], [(0, 0, 0, 1)]])

    def test_tables_that_are_equal(self) -> None:
        definition = "A,uint,8\nS,str,16\nT,str,8\n"
        one, same, other = (rows_of([it, b"abcd"], definition, arrays={"S": "u1"}) for it in (b"1234", b"1234", b"1254"))
        self.assertEqual((one == same, one == other, one != other, one == 5), (True, False, True, False))
        self.assertEqual(one, dict(same))
        self.assertEqual(one.decoded(labels={"A": {97: "ON"}}) == same.decoded(labels={"A": {49: "ON"}}), False)

    def test_tables_with_nan(self) -> None:
        definition, arrays = "A,float,32\nS,str,32\nB,uint,8\n", {"S": ">f4"}
        nan = struct.pack(">ffB", math.nan, math.nan, 1)
        one, same, other = (rows_of([nan, it], definition, arrays=arrays) for it in (nan, nan, nan[:-1] + b"\2"))
        number = rows_of([nan, struct.pack(">ffB", 1, math.nan, 1)], definition, arrays=arrays)
        self.assertEqual((one == one, one == same, one == other, one == number), (True, True, False, False))
        self.assertEqual(one.decoded(curves={"B": tmx.Spline([(5, 0)])}), same.decoded(curves={"B": tmx.Spline([(5, 0)])}))

    def test_no_rows(self) -> None:
        recording = tmx.Recording(io.BytesIO(b""), tmx.Settings(42, 100, False))
        (self.folder / "d.csv").write_text("name,data_type,bit_length\nS,str,24\n")
        for form in ("u1", "uint12"):
            self.assertEqual(listed(recording.fields("d.csv", 300, arrays={"S": form}, rest="R")["S"]), [])

    def test_wrong_arrays(self) -> None:
        for form in (">u4", "uint25", "uint16"):
            self.raises(tmx.ColumnError, None, rows_of, [b"abc"], "S,str,24\n", arrays={"S": form})
        self.raises(tmx.ColumnError, None, rows_of, [b"abc"], "S,uint,24\n", arrays={"S": "u1"})
        self.raises(tmx.ColumnError, None, rows_of, [b"abc"], "S,str,24\n", arrays={"T": "u1"})
        for form in ("many", "", None, bool, int, "uint0", "int0", "uint65", "bool", "O", ["u1"]):
            with self.assertRaises((ValueError, TypeError), msg=form):
                rows_of([bytes(8)], "S,str,64\n", arrays={"S": form})

    def test_rests(self) -> None:
        """Of damaged recordings the octets behind the definition's last bit, which is bit 70."""
        for seed in range(RECORDINGS):
            with self.subTest(seed=seed):
                settings, octets = damaged(seed)
                reader, _ = reference.read_recording(settings, octets)
                apid = (0, 5, 100)[seed % 3]
                long = [it for it in reader.packets if it[0] == apid and 8 * len(it[1]) >= reference.NEEDED]
                for channels in (None, (0, 1, 5)):
                    wanted = [it[1][9:] for it in long if channels is None or int(it[3].split(",")[1]) in channels]
                    recording = tmx.Recording(io.BytesIO(octets) if seed % 2 else "recording", "settings")
                    found = recording.fields(DEFINITION, apid, channel=channels, rest="REST")
                    self.assertEqual(list(found["REST"]), wanted)
                    blocks = recording.fields(DEFINITION, apid, channel=channels, rest="REST", blocks=3)
                    self.assertEqual([rest for it in blocks for rest in it["REST"]], wanted)

    def test_where_rests_begin(self) -> None:
        for definition, wanted in (
            ("A,uint,8,\n", b"bcdef"),
            ("A,uint,9,\n", b"cdef"),
            ("A,uint,8,64\nB,uint,8,\nC,uint,8,48\n", b"ef"),
            ("A,uint,8,\nF,fill,16,\n", b"def"),
            ("A,uint,48,\n", b""),
        ):
            found = rows_of([b"abcdef"], definition, "name,data_type,bit_length,bit_offset", rest="REST")
            self.assertEqual(list(found["REST"]), [wanted], definition)

    def test_wrong_rests(self) -> None:
        self.raises(tmx.ColumnError, None, rows_of, [b"ab"], "A,uint,8\n", rest="A")
        self.raises(ValueError, None, rows_of, [b"ab"], "A,uint,8\n", rest="R", checkpoint="c", stop_after=1)
        self.raises(tmx.DefinitionError, "kind", rows_of, [b"ab"], "A,none,8\n", rest="R")
        self.program('[ "$1" = packets ] || exec "$real" "$@"\n"$real" "$@" | head -c 24')
        self.raises(tmx.DisagreementError, None, rows_of, [b"ab"] * 3, "A,uint,8\n", rest="R")
        self.program('[ "$1" = fields ] || exec "$real" "$@"\nhead -c 14 | "$real" "$@"')
        self.raises(tmx.DisagreementError, None, rows_of, [b"ab"] * 3, "A,uint,8\n", rest="R")


class AsLists(Columns, WithModules):
    def setUp(self) -> None:
        super().setUp()
        self.have(numpy=None, pandas=None)


@needs("numpy")
class AsArrays(Columns, WithModules):
    def test_arrays_that_are_decoded(self) -> None:
        found = rows_of([b"\x01\x02", b"\x04\x01"], "S,str,16\n", arrays={"S": "u1"})
        for curve in (tmx.Spline([(0, 0), (4, 2)]), [0, 0.5]):
            self.assertEqual(listed(found.decoded(curves={"S": curve})["S"]), [(0.5, 1.0), (2.0, 0.5)])
        self.raises(tmx.ColumnError, None, found.decoded, labels={"S": {1: "ON"}})

    def test_types_of_numpy(self) -> None:
        import numpy

        for form in (numpy.uint16, numpy.dtype(">f4"), numpy.dtype([("A", "u1"), ("B", ">u2"), ("C", "u1")]), "double"):
            self.assertEqual(rows_of([bytes(8)], "S,str,64\n", arrays={"S": form})["S"].dtype, form)

    def test_shapes(self) -> None:
        found = rows_of([bytes(range(8))] * 3, "S,str,64\n", arrays={"S": ">u2"})
        self.assertEqual((found["S"].shape, found["S"].dtype), ((3, 4), ">u2"))
        self.assertEqual(found["S"].strides, (24, 2))  # it lies in the rows, of 16 octets and these
        self.assertEqual(rows_of([bytes(3)], "S,str,24\n", arrays={"S": "uint12"})["S"].dtype, "uint16")
        self.assertEqual(rows_of([bytes(3)], "S,str,24\n", arrays={"S": "int7"})["S"].dtype, "int8")


@needs("numpy", "pandas")
class AsFrames(WithModules):
    def test_columns_of_values(self) -> None:
        table = rows_of([b"\x01\x23\x45", b"\x67\x89\xab"], "S,str,24\n", arrays={"S": "uint12"}).to_pandas()
        self.assertEqual((table["S[0]"].tolist(), table["S[1]"].tolist()), ([0x012, 0x678], [0x345, 0x9AB]))

    def test_byte_orders(self) -> None:
        """pandas has no columns of another byte order than this machine's."""
        rows = [(770, -2, 1.5), (5, 6, -0.25), (65535, -32768, 0.0)]
        payloads = [struct.pack(">Hhf", *it) for it in rows]
        arrays = {"A": ">u2", "B": ">i2", "C": ">f4"}
        for forms in (arrays, {name: form.replace(">", "<") for name, form in arrays.items()}):
            given = payloads if forms is arrays else [struct.pack("<Hhf", *it) for it in rows]
            table = rows_of(given, "A,str,16\nB,str,16\nC,str,32\n", arrays=forms).to_pandas()
            for number, name in enumerate(("A[0]", "B[0]", "C[0]")):
                self.assertEqual(table[name].tolist(), [it[number] for it in rows])
                self.assertEqual(table.sort_values(name)[name].tolist(), sorted(it[number] for it in rows))
                self.assertEqual(table.describe()[name]["max"], max(it[number] for it in rows))
            self.assertEqual(table.loc[table["A[0]"] > 5, "B[0]"].tolist(), [-2, -32768])

    def test_columns_of_members(self) -> None:
        import numpy

        kind = numpy.dtype([("X", "u1"), ("Y", ">u2"), ("Z", "i1", 2)])
        table = rows_of([bytes.fromhex("01 0203 04ff 05 0607 08fe")], "S,str,80\n", arrays={"S": kind}).to_pandas()
        wanted = {"S[0].X": 1, "S[0].Y": 0x203, "S[0].Z[0]": 4, "S[0].Z[1]": -1}
        wanted |= {"S[1].X": 5, "S[1].Y": 0x607, "S[1].Z[0]": 8, "S[1].Z[1]": -2}
        self.assertEqual({name: table[name].tolist() for name in table.columns[4:]}, {name: [it] for name, it in wanted.items()})

    def test_names_that_come_twice(self) -> None:
        for definition in ("S,str,16\nS[1],uint,8\n", "S[1],uint,8\nS,str,16\n"):
            table = rows_of([b"abc"], definition, arrays={"S": "u1"})
            error = self.raises(tmx.ColumnError, None, table.to_pandas)
            self.assertEqual(str(error), "the column 'S' has a value 'S[1]', and another column has this name")


if __name__ == "__main__":
    unittest.main()
