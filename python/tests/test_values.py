"""Columns of fields: their types, floats, texts and times, as lists and as arrays."""

import csv
import io
import math
import os
import re
import struct
import subprocess
import unittest
from datetime import date, datetime, timedelta
from pathlib import Path
from unittest import mock

from support import ATTITUDE, HOUSEKEEPING, RECORDING, SETTINGS, TestCase, example, needs, tmx

from tmx import values
from tmx.definition import read_definition

SHORT = re.compile("^shortpacket .*\n", re.MULTILINE)
FLOATS = (0.0, -0.0, 1.0, -2.5, 65504.0, 2.0**-24, math.inf, -math.inf, math.nan)
TEXTS = (b"plain!", b'a,b"c\'', b"\\x41\\\\", b"\0\xff\r\n \0", b"      ", b"NA\0\0\0\0", b"\xc3\xa9abcd")


def packets_of(payloads: list[bytes]) -> bytes:
    """A recording of frames without error control that have one packet each, of application 300."""
    frames = []
    for number, payload in enumerate(payloads):
        head = struct.pack(">HBBH", 42 << 4, number % 256, number % 256, 0)
        packet = struct.pack(">HHH", 300, 0xC000 | number, len(payload) - 1) + payload
        frames.append(head + packet)
    return b"".join(frames)


def rows_of(payloads: list[bytes], definition: str, head: str = "name,data_type,bit_length", **how) -> tmx.Fields:
    Path("definition.csv").write_text(f"{head}\n{definition}", errors="surrogateescape")
    settings = tmx.Settings(42, 12 + len(payloads[0]), False)
    return tmx.Recording(io.BytesIO(packets_of(payloads)), settings).fields("definition.csv", 300, **how)


def printed(definition: Path, apid: int) -> str:
    """What `tmx fields` prints of the example."""
    line = [os.environ["TMX"], "fields", "--settings", SETTINGS, "--definition", definition, "--apid", str(apid), RECORDING]
    return subprocess.run(line, capture_output=True, text=True, check=True).stdout


class WithModules(TestCase):
    def have(self, **modules) -> None:
        """Has other modules stand for these, for the rest of the test; None is one that isn't there."""
        there = values.module
        for name in ("tmx.values.module", "tmx.fields.module", "tmx.packets.module", "tmx.times.module"):
            self.enterContext(mock.patch(name, lambda it: modules[it] if it in modules else there(it)))


class Columns:
    """What is tried of both kinds of columns."""

    def times(self, fields: tmx.Fields) -> list[datetime]:
        return list(fields.time)

    def test_the_example(self) -> None:
        for definition, apid in ((ATTITUDE, 101), (HOUSEKEEPING, 100), (ATTITUDE, 5)):
            text = printed(definition, apid)
            rows = list(csv.DictReader(io.StringIO(text)))
            fields = example().fields(definition, apid, encoding="ascii")
            self.assertEqual(fields.rows, len(rows))
            self.assertEqual(list(fields), text.partition("\n")[0].split(","))
            for name in fields:
                self.assertEqual([str(it) for it in fields[name]], [row[name] for row in rows])

    def test_floats(self) -> None:
        payloads = [struct.pack(">efd", it, it, it) for it in FLOATS]
        fields = rows_of(payloads, "A,float,16\nB,float,32\nC,float,64\n")
        for column in "ABC":
            found = [struct.pack(">d", it) for it in fields[column]]
            self.assertEqual(found, [struct.pack(">d", it) for it in FLOATS], column)

    def test_integers(self) -> None:
        payloads = [b"\0" * 16, b"\xff" * 16, b"\x80" + b"\0" * 15, bytes(range(16))]
        fields = rows_of(payloads, "A,uint,64,\nB,int,64,\nD,int,9,48\n", "name,data_type,bit_length,bit_offset")
        self.assertEqual(list(fields["A"]), [int.from_bytes(it[:8], "big") for it in payloads])
        self.assertEqual(list(fields["B"]), [int.from_bytes(it[8:], "big", signed=True) for it in payloads])
        self.assertEqual(list(fields["D"]), [int.from_bytes(it[:2], "big", signed=True) >> 7 for it in payloads])

    def test_texts(self) -> None:
        self.assertEqual(list(rows_of(list(TEXTS), "T,str,48\n")["T"]), list(TEXTS))
        texts = [it.decode("latin-1") for it in TEXTS]
        self.assertEqual(list(rows_of(list(TEXTS), "T,str,48\n", encoding="latin-1")["T"]), texts)

    def test_texts_that_are_not_in_the_encoding(self) -> None:
        texts = [b"abc", b"def", b"d\xfff", b"ghi"]
        for blocks in (None, 1, 2, 3):
            how = {"encoding": "ascii"} if blocks is None else {"encoding": "ascii", "blocks": blocks}
            error = self.raises(UnicodeDecodeError, None, lambda: list(rows_of(texts, "T,str,24\n", **how)))
            self.assertIn("column 'T', row 2", str(error))
            self.assertEqual((error.object, error.start), (b"d\xfff", 1))
        for errors in ("replace", "ignore", "backslashreplace", "surrogateescape"):
            wanted = [it.decode("ascii", errors) for it in texts]
            self.assertEqual(list(rows_of(texts, "T,str,24\n", encoding="ascii", errors=errors)["T"]), wanted)
        for how in ({"encoding": "no such one"}, {"encoding": "ascii", "errors": "no such one"}):
            for those in (texts, [b"abc"]):
                self.raises(LookupError, None, rows_of, those, "T,str,24\n", **how)

    def test_long_texts(self) -> None:
        texts = [it * 20 for it in TEXTS]
        self.assertEqual(list(rows_of(texts, "T,str,960\n")["T"]), texts)
        for length in (64, 65, 1500):
            others = [b"\\" * length, b"\0" * length, b"a" * length]
            self.assertEqual(list(rows_of(others, f"T,str,{8 * length}\n")["T"]), others)

    def test_the_longest_text(self) -> None:
        packet = (300).to_bytes(2, "big") + b"\xc0\0\xff\xff" + b"\xff" * 65536
        frames = []
        for number in range(34):
            part = packet[number * 2042 : (number + 1) * 2042]
            filler = 2042 - len(part)
            pointer = 0 if number == 0 else 2047
            if filler and number == 32:
                part += b"\x07\xff\xc0\0" + (filler - 7).to_bytes(2, "big") + bytes(filler - 6)
                pointer = 2042 - filler
            if part:
                frames.append(struct.pack(">HBBH", 42 << 4, number, number, pointer) + part)
        Path("definition.csv").write_text("name,data_type,bit_length\nT,str,524288\n")
        recording = tmx.Recording(io.BytesIO(b"".join(frames)), tmx.Settings(42, 2048, False))
        self.assertEqual(list(recording.fields("definition.csv", 300)["T"]), [b"\xff" * 65536])

    def test_names_that_csv_quotes(self) -> None:
        fields = rows_of([b"ab"], '"A, ""quoted""\nname",uint,8\n\N{GREEK SMALL LETTER ALPHA},uint,8\n')
        self.assertEqual(list(fields)[4:], ['A, "quoted"\nname', "\N{GREEK SMALL LETTER ALPHA}"])

    def test_other_names(self) -> None:
        long, limit = "L" * 200_000, csv.field_size_limit()
        fields = rows_of([b"abc"], f" \fA\t,uint,8\n\udcff,uint,8\n{long},uint,8\n", "\ufeffname,data_type,bit_length")
        self.assertEqual(list(fields)[4:6], ["\fA", "\udcff"])
        self.assertTrue(long in fields)
        self.assertEqual(csv.field_size_limit(), limit)

    def test_times(self) -> None:
        payloads = [struct.pack(">IQ", *it) for it in ((0, 0), (1, 1 << 63), (2**32 - 1, 0xFFFF << 48))]
        begin = datetime(1958, 2, 3)
        wanted = [begin, begin + timedelta(seconds=1.5), begin + timedelta(seconds=2**32 - 1, microseconds=999984)]
        for bits in (16, 64):
            fields = rows_of(payloads, f"S,uint,32\nF,uint,{bits}\n", time=("S", "F"), epoch="1958-02-03")
            self.assertEqual(self.times(fields), wanted)
        for epoch in ("1958-02-03T01:00:00+01:00", begin, date(1958, 2, 3)):
            fields = rows_of(payloads, "S,uint,32\nF,uint,16\n", time="S", epoch=epoch)
            self.assertEqual(self.times(fields), [it.replace(microsecond=0) for it in wanted])

    def test_epochs_of_nanoseconds(self) -> None:
        for epoch in ("2000-01-01T00:00:00.123456789", "2000-01-01T00:00:00,1234567+01:00"):
            self.raises(ValueError, None, rows_of, [b"a"], "S,uint,8\n", time="S", epoch=epoch)

    def test_an_epoch_before_the_year_1(self) -> None:
        payload = struct.pack(">Q", 36000 + (datetime(2000, 1, 1) - datetime(1, 1, 1)).days * 86400)
        fields = rows_of([payload], "S,uint,64\n", time="S", epoch="0001-01-01T00:00:00+10:00")
        self.assertEqual(self.times(fields), [datetime(2000, 1, 1)])

    def test_times_out_of_range(self) -> None:
        payloads = [struct.pack(">Q", it) for it in (0, 1 << 63, 2**64 - 1, 86400)]
        fields = rows_of(payloads, "S,uint,64\n", time="S", epoch="2000-01-01")
        self.assertEqual(self.times(fields), [datetime(2000, 1, 1), None, None, datetime(2000, 1, 2)])
        self.assertEqual((fields.bad_times, fields.rows, list(fields["S"])), (2, 4, [0, 1 << 63, 2**64 - 1, 86400]))
        self.assertTrue(repr(fields).endswith("\n4 rows, 5 columns, 2 times out of range"))
        self.assertEqual(rows_of(payloads[:1], "S,uint,64\n", time="S", epoch="2000-01-01").bad_times, 0)

    def test_an_epoch_long_ago(self) -> None:
        days = (datetime(2025, 9, 28) - datetime(1, 1, 1)).days
        payloads = [struct.pack(">QH", days * 86400 + it, 1 << 15) for it in (0, 1)]
        fields = rows_of(payloads, "S,uint,64\nF,uint,16\n", time=("S", "F"), epoch="0001-01-01")
        wanted = datetime(2025, 9, 28, 0, 0, 0, 500000)
        self.assertEqual((self.times(fields), fields.bad_times), ([wanted, wanted + timedelta(seconds=1)], 0))

    def test_short_packets(self) -> None:
        fields = rows_of([b"ab", b"cd"], "S,uint,64\n")
        self.assertEqual(fields.rows, 0)
        short = [tmx.ShortPacket(record=it, channel=0, from_=it, at=0, needed=112, found=64) for it in (0, 1)]
        self.assertEqual(fields.short_packets, short)
        self.assertTrue(repr(fields).endswith("\n0 rows, 5 columns, 2 packets too short for a row"))

    def test_channels(self) -> None:
        whole = example().fields(ATTITUDE, 101)
        for channels in (3, [0, 5], [0, 3], []):
            wanted = {channels} if isinstance(channels, int) else set(channels)
            found = example().fields(ATTITUDE, 101, channel=channels)
            for name in whole:
                kept = [it for it, channel in zip(whole[name], whole["tm_channel"]) if channel in wanted]
                self.assertEqual(list(found[name]), kept)
        definition = Path("d.csv")
        definition.write_text("name,data_type,bit_length\nA,uint,64\nB,fill,4000\n")
        short = example().fields(definition, 101).short_packets
        found = example().fields(definition, 101, channel=3).short_packets
        self.assertEqual((len(short), found), (503, [it for it in short if it.channel == 3]))

    def test_blocks(self) -> None:
        definition = Path("d.csv")
        definition.write_text("name,data_type,bit_length\nA,uint,64\nB,str,5000\n")
        for name, apid in ((ATTITUDE, 101), (definition, 200), (ATTITUDE, 5)):
            how = {"time": "tm_record", "epoch": "2000-01-01"}
            whole = example().fields(name, apid, **how)
            for rows in (1, 7, whole.rows, whole.rows + 1, max(1, whole.rows - 1)):
                tables = list(example().fields(name, apid, blocks=rows or 1, **how))
                self.assertEqual([it.rows for it in tables[:-1]], [rows or 1] * (len(tables) - 1))
                self.assertEqual(sum(it.rows for it in tables), whole.rows)
                self.assertEqual([it for table in tables for it in self.times(table)], self.times(whole))
                self.assertEqual([it for table in tables for it in table["tm_count"]], list(whole["tm_count"]))
                self.assertEqual([len(it.short_packets) for it in tables], [0] * (len(tables) - 1) + [len(whole.short_packets)])

    def test_a_report(self) -> None:
        definition = Path("d.csv")
        definition.write_text("name,data_type,bit_length\nA,uint,64\nB,str,5000\n")
        line = [os.environ["TMX"], "fields", "--settings", SETTINGS, "--definition", definition, "--apid", "200", RECORDING]
        wanted = subprocess.run([*line, "--report", "wanted"], stdout=subprocess.DEVNULL, check=True)
        for how in ({}, {"blocks": 5}):
            found = example().fields(definition, 200, report="report", **how)
            last = found if isinstance(found, tmx.Fields) else list(found)[-1]
            self.assertEqual(Path("report").read_bytes(), Path("wanted").read_bytes(), wanted)
            self.assertGreater(len(last.short_packets), 0)
            self.assertEqual("".join(f"{it}\n" for it in last.short_packets), "".join(SHORT.findall(Path("wanted").read_text())))
            Path("report").unlink()
        self.raises(FileNotFoundError, None, example().fields, definition, 200, report="none/report")
        for name in (RECORDING, SETTINGS, definition):
            self.raises(tmx.FileError, "failed", example().fields, definition, 200, report=name)

    def test_a_report_goes_on(self) -> None:
        example().fields(ATTITUDE, 101, report="whole")
        example().fields(ATTITUDE, 101, report="parts", checkpoint="day.chk", stop_after=150)
        for refused in (SETTINGS, "none"):
            with self.assertRaises(tmx.Error):
                example().fields(refused, 101, report="parts")
        with self.assertRaises(tmx.Error):
            example().fields(ATTITUDE, 101, report="parts", resume="none.chk")
        example().fields(ATTITUDE, 101, report="parts", resume="day.chk")
        self.assertEqual(Path("parts").read_bytes(), Path("whole").read_bytes())
        example().fields(ATTITUDE, 101, report="parts")
        example().fields(ATTITUDE, 101, report="/dev/null")
        self.assertEqual(Path("parts").read_bytes(), Path("whole").read_bytes())

    def test_shown(self) -> None:
        fields = example().fields(ATTITUDE, 101, time="SECONDS", epoch="2000-01-01")
        with mock.patch.dict(os.environ, {"COLUMNS": "200"}):
            self.assertEqual(repr(fields).splitlines()[11:], ["503 rows, 14 columns"])
        for width in (50, 80, 120):
            with mock.patch.dict(os.environ, {"COLUMNS": str(width)}):
                parts = repr(fields).rpartition("\n")[0].split("\n\n")
            self.assertLessEqual(max(len(it) for part in parts for it in part.splitlines()), width)
            heads = [it.partition("\n")[0].split() for it in parts]
            self.assertEqual([it[0] for it in heads], ["time"] * len(parts))
            self.assertEqual([it[-1] for it in heads], ["\\"] * (len(parts) - 1) + ["STARS"])
            self.assertEqual([name for it in heads for name in it[1:] if name != "\\"], list(fields))
        self.assertIn("<th>ANGLE_X</th>", fields._repr_html_())
        self.assertIn("<td>&lt;b&gt;</td>", rows_of([b"<b>"], "T,str,24\n", encoding="ascii")._repr_html_())
        wide = rows_of([bytes(range(100))], "".join(f"C{it},uint,8\n" for it in range(100)))._repr_html_()
        self.assertEqual(re.findall("<th>(.*?)</th>", wide)[9:12], ["C5", "...", "C90"])
        self.assertEqual(re.findall("<td>(.*?)</td>", wide)[9:12], ["5", "...", "90"])


class Lists(Columns, WithModules):
    """Columns where numpy isn't there, or as if it weren't, of rows that are read in several blocks."""

    def setUp(self) -> None:
        super().setUp()
        self.have(numpy=None, pandas=None)
        self.enterContext(mock.patch.object(values, "ROWS", 2))

    def test_what_needs_modules(self) -> None:
        fields = example().fields(ATTITUDE, 101)
        self.raises(ImportError, None, fields.to_numpy)
        self.raises(ImportError, None, fields.to_pandas)
        self.raises(ImportError, None, example().packets_array)


@needs("numpy")
class Arrays(Columns, TestCase):
    def times(self, fields: tmx.Fields) -> list[datetime]:
        return fields.time.astype("datetime64[us]").tolist()  # of NaT it has None

    def test_types(self) -> None:
        head = "name,data_type,bit_length,bit_offset"
        columns = "C,uint,1,\nD,int,9,\nE,uint,17,48\nF,int,33,48\nG,float,16,48\nH,float,32,48\nI,float,64,48\nJ,str,8,48\n"
        wanted = "uint32 uint8 uint16 uint16 uint8 int16 uint32 int64 float16 float32 float64 object"
        self.assertEqual(" ".join(str(it.dtype) for it in rows_of([bytes(8)], columns, head).values()), wanted)

    def test_nanoseconds(self) -> None:
        fields = rows_of([b"\0\1\xff\xff"], "S,uint,16\nF,uint,16\n", time=("S", "F"), epoch="1970-01-01")
        self.assertEqual(fields.time.astype("int64").tolist(), [1_999_984_741])

    def test_fractions_of_all_widths(self) -> None:
        for bits in (1, 31, 32, 33, 34, 35, 40, 63, 64):
            fractions = {0, 1, 1100 % 2**bits, 2**bits // 3, 2**bits - 1}
            payloads = [struct.pack(">BQ", 1, it << 64 - bits) for it in fractions]
            fields = rows_of(payloads, f"S,uint,8\nF,uint,{bits}\n", time=("S", "F"), epoch="1970-01-01")
            wanted = [10**9 + (it * 10**9 >> bits) for it in fractions]
            self.assertEqual(fields.time.astype("int64").tolist(), wanted, bits)

    def test_numpy(self) -> None:
        self.assertEqual(int(example().fields(ATTITUDE, 101).to_numpy()["ANGLE_X"].max()), 899)

    @needs("pandas")
    def test_pandas(self) -> None:
        import numpy

        fields = example().fields(ATTITUDE, 101, time=("SECONDS", "FRACTION"), epoch="2000-01-01")
        table = fields.to_pandas()
        self.assertEqual((len(table), list(table.columns), table.index.name), (503, list(fields), "time"))
        self.assertEqual(int(table["ANGLE_X"].max()), 899)
        self.assertEqual([str(it) for it in table.dtypes], [str(it.dtype) for it in fields.to_numpy().values()])
        self.assertEqual([it for it in fields if not numpy.shares_memory(table[it].to_numpy(), fields[it])], [])
        fields["ANGLE_X"][:] += 1
        self.assertEqual(int(fields["ANGLE_X"].max()), 900)


@needs("numpy")
class OtherTables(TestCase):
    """What others make of a table that is given to them as it is."""

    def tables(self) -> list[tmx.Fields]:
        timed = example().fields(ATTITUDE, 101, time=("SECONDS", "FRACTION"), epoch="2000-01-01")
        arrays = rows_of([b"abcd", b"efgh"], "A,uint,16\nS,str,16\n", arrays={"S": ">u1"})
        return [timed, timed.decoded(labels={"MODE": {0: "OFF"}}), arrays, rows_of([b"ab"], "A,uint,16\n")]

    def test_a_mapping(self) -> None:
        table = self.tables()[-1]
        names = ["tm_record", "tm_channel", "tm_apid", "tm_count", "A"]
        self.assertEqual((list(table), list(table.keys()), len(table), "A" in table, "B" in table), (names, names, 5, True, False))
        self.assertEqual({name: values.tolist() for name, values in table.items()}, dict(zip(names, ([0], [0], [300], [0], [0x6162]))))

    def test_arrays(self) -> None:
        import numpy

        for table in self.tables():
            for call in (numpy.asarray, numpy.array, lambda it: numpy.array([it, it]), lambda it: numpy.array(it, object)):
                self.assertRegex(str(self.raises(TypeError, None, call, table)), r"^a table is no array: .*to_numpy\(\)")

    @needs("pandas")
    def test_frames(self) -> None:
        import pandas

        for table in self.tables():
            for call in (pandas.DataFrame, pandas.DataFrame.from_dict, lambda it: pandas.DataFrame(it, columns=["tm_count"])):
                self.assertRegex(str(self.raises(TypeError, None, call, table)), r"^a table is no array: to_pandas\(\)")
        packets = pandas.DataFrame(example().packets(apid=101))
        self.assertEqual((packets.shape, packets["count"].tolist()), ((503, 10), [it.count for it in example().packets(apid=101)]))

    @needs("pandas", "xarray")
    def test_datasets(self) -> None:
        import xarray

        empty = xarray.Dataset()
        for table in self.tables():
            for call in (xarray.Dataset, lambda it: xarray.Dataset(coords=it), empty.assign, empty.update):
                self.assertRegex(str(self.raises(TypeError, None, call, table)), r"to_pandas\(\).to_xarray\(\)$")
            self.raises(TypeError, None, xarray.DataArray, table)
            made = table.to_pandas().to_xarray()
            self.assertEqual([len(made.dims), *made.dims.values()], [1, table.rows])
            self.assertEqual(made["tm_count"].values.tolist(), table["tm_count"].tolist())
        self.assertEqual(list(self.tables()[0].to_pandas().to_xarray().dims), ["time"])


class StandIns(WithModules):
    """What numpy and pandas are called with, on machines without them too."""

    def test_what_numpy_reads(self) -> None:
        numpy = mock.MagicMock()
        self.have(numpy=numpy)
        fields = "A,uint,8,48\nB,uint,9,\nP,fill,7,\nC,int,32,\nD,int,33,\nE,float,32,\nF,str,512,48\nG,str,8,48\n"
        Path("d.csv").write_text(f"name,data_type,bit_length,bit_offset\n{fields}")
        rows = bytearray()
        values.Kinds(read_definition("d.csv")).read(rows, 0)
        types = "<u4 <u1 <u2 <u2 <u1 <u2 <i4 <i8 <f4 <V64 <V1".split()
        names, places = [f"column {number}" for number in range(len(types))], [0, 8, 4, 6, 16, 17, 19, 23, 31, 35, 99]
        numpy.dtype.assert_called_once_with({"names": names, "formats": types, "offsets": places, "itemsize": 100})
        numpy.frombuffer.assert_called_once_with(rows, numpy.dtype.return_value)

    def test_what_a_table_of_pandas_is_made_of(self) -> None:
        pandas = mock.Mock()
        self.have(pandas=pandas)
        fields = example().fields(ATTITUDE, 101, time="SECONDS", epoch="2000-01-01")
        self.assertIs(fields.to_pandas(), pandas.DataFrame.return_value)
        pandas.DatetimeIndex.assert_called_once_with(fields.time, name="time")
        pandas.DataFrame.assert_called_once_with(dict(fields), index=pandas.DatetimeIndex.return_value, copy=False)
        example().fields(ATTITUDE, 101).to_pandas()
        self.assertIsNone(pandas.DataFrame.call_args.kwargs["index"])


if __name__ == "__main__":
    unittest.main()
