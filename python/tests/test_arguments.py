"""Arguments mean what they say: numbers of any whole kind are taken, and all else is refused at once."""

import unittest
from datetime import date, datetime

from support import ATTITUDE, RECORDING, SETTINGS, TestCase, example, needs, tmx

WHOLE = list(example().packets())


class Number:
    """A whole number of another type."""

    def __init__(self, value: int) -> None:
        self.value = value

    def __index__(self) -> int:
        return self.value


class Chosen(TestCase):
    def gives(self, apids: set[int], channels: set[int], **chosen: object) -> None:
        """What packets are wanted, by one number or several of any type."""
        wanted = [it for it in WHOLE if it.apid in apids and it.channel in channels]
        self.assertEqual(list(example().packets(**chosen)), wanted)

    def test_numbers(self) -> None:
        every = set(range(8))
        for apid in (101, Number(101), [101], (Number(101), 101), {101: 0}, iter([101]), range(101, 102)):
            self.gives({101}, every, apid=apid)
        self.gives({100, 200}, {0, 1}, apid=[100, 200], channel=range(2))
        self.gives(set(), every, apid=[])

    @needs("numpy")
    def test_arrays(self) -> None:
        import numpy

        self.gives({101}, {3}, apid=numpy.int64(101), channel=numpy.uint8(3))
        self.gives({100, 200}, {0, 1}, apid=numpy.array([100, 200], "uint16"), channel=numpy.arange(2))
        self.gives({101}, {3}, apid=numpy.array(101), channel=numpy.array(3))
        self.assertEqual(example().fields(ATTITUDE, numpy.int16(101), channel=numpy.array([3])).rows, 208)
        wrong = (numpy.float64(101), numpy.array([101.0]), numpy.bool_(True), numpy.array([[101]]), numpy.array(["101"]))
        for value in wrong:
            self.raises(TypeError, None, example().packets, apid=value)
        self.assertEqual(tmx.Settings(numpy.int64(42), numpy.uint16(256), True).toml(), tmx.Settings(42, 256, True).toml())

    @needs("pandas")
    def test_columns_of_pandas(self) -> None:
        import pandas

        self.gives({100, 200}, {0, 1, 3}, apid=pandas.Series([100, 200]), channel=pandas.DataFrame({"a": [0, 1, 3]})["a"])
        for values in ([100.0], ["100"], [100, None]):
            self.raises(TypeError, None, example().packets, apid=pandas.Series(values))

    def test_what_is_no_number(self) -> None:
        for call in (example().packets, example().follow, lambda **chosen: example().fields(ATTITUDE, 101, **chosen)):
            for value in ("10", b"10", bytearray(b"1"), 10.0, [10.0], ["10"], True, [False], object(), [None], 1 + 0j):
                error = self.raises(TypeError, None, call, channel=value)
                self.assertIn("channel takes whole numbers, and not ", str(error))
        for value in ("101", 101.0, True, None):
            self.raises(TypeError, None, example().fields, ATTITUDE, value)

    def test_ranges(self) -> None:
        for apid in (-1, 2048, [3000], [0, -1]):
            error = self.raises(ValueError, None, example().packets, apid)
            self.assertIn("apid takes numbers from 0 to 2047, and not ", str(error))
        for channel in (-1, 8, [9], Number(8)):
            error = self.raises(ValueError, None, example().follow, channel=channel)
            self.assertIn("channel takes numbers from 0 to 7, and not ", str(error))
        for apid in (-1, 2048):
            self.raises(ValueError, None, example().fields, ATTITUDE, apid)

    def test_how_many_records(self) -> None:
        step = {"checkpoint": "chk"}
        calls = (
            example().packets,
            lambda **how: example().fields(ATTITUDE, 101, **how),
            lambda **how: example().extract("out", **how),
            lambda **how: example().split("out", **how),
        )
        for call in calls:
            for value in (0, -1, 1 << 32):
                self.raises(ValueError, None, call, stop_after=value, **step)
            for value in ("10", 10.0, True):
                self.raises(TypeError, None, call, stop_after=value, **step)
        self.assertEqual(list(self.folder.iterdir()), [])
        self.assertEqual(len(list(example().packets(stop_after=Number(100), **step))), 254)
        for blocks, kind in ((0, ValueError), (-5, ValueError), (10.0, TypeError), ("10", TypeError), (True, TypeError)):
            self.raises(kind, None, example().fields, ATTITUDE, 101, blocks=blocks)

    def test_settings(self) -> None:
        right = {"spacecraft": 42, "frame_length": 256, "error_control": True}
        for name, wrong in (
            ("spacecraft", (-1, 1024)),
            ("frame_length", (-1, 8, 2049)),
            ("skip_before", (-1, 1025)),
            ("skip_after", (-1, 1025)),
            ("max_packet", (6, 65543)),
            ("channels", ([8], [-1, 0])),
        ):
            for value in wrong:
                error = self.raises(ValueError, None, tmx.Settings, **right | {name: value})
                self.assertIn(f"{name} takes numbers from ", str(error))
            for value in ("1", 1.0, True) if name != "channels" else ("12", [1.0], [True]):
                self.raises(TypeError, None, tmx.Settings, **right | {name: value})
        settings = tmx.Settings(Number(42), Number(256), True, channels=[Number(0), 3])
        self.assertEqual(settings, tmx.Settings(42, 256, True, channels=(0, 3)))
        self.assertEqual(len({settings, tmx.Settings(42, 256, True, channels=range(0, 4, 3))}), 1)

    def test_recordings(self) -> None:
        for given in (b"pass.rec", bytearray(b"octets"), 5, None):
            for call in (tmx.probe, tmx.cut, lambda it: tmx.Recording(it, SETTINGS)):
                error = self.raises(TypeError, None, call, given)
                self.assertEqual(str(error), f"a recording is the name of a file, or a binary stream, and not {type(given).__name__}")

    def test_an_error_of_the_caller(self) -> None:
        def failing():
            yield 100
            raise TypeError("the caller's own")

        self.assertEqual(str(self.raises(TypeError, None, example().packets, failing())), "the caller's own")

    def test_raw_streams(self) -> None:
        for length, flips in ((0, 0), (-5, 0), (5, -1), (5, 16)):
            self.raises(ValueError, None, tmx.cut, RECORDING, "1ACF", length, flips)
        for length, flips in ((5.0, 0), (5, "0"), (True, 0)):
            self.raises(TypeError, None, tmx.cut, RECORDING, "1ACF", length, flips)
        for marker in (0x1ACFFC1D, 4, True, Number(4)):
            error = self.raises(TypeError, None, tmx.cut, RECORDING, marker, 5)
            self.assertIn("the marker takes octets or hexadecimal, and not ", str(error))
        self.assertEqual(tmx.cut(RECORDING, [0x1A, 0xCF], 5).marker, b"\x1a\xcf")


class Epochs(TestCase):
    """All that a time of second 0 may be."""

    def begin(self, epoch: object) -> object:
        fields = tmx.Recording(RECORDING, SETTINGS).fields(ATTITUDE, 101, time="SECONDS", epoch=epoch)
        return fields.time[0]

    def test_what_is_no_time(self) -> None:
        for epoch, kind in ((2000, TypeError), (b"2000-01-01", TypeError), (object(), TypeError), ("now", ValueError)):
            self.raises(kind, None, self.begin, epoch)

    @needs("numpy")
    def test_of_numpy(self) -> None:
        import numpy

        wanted = self.begin("2000-01-01T12:00")
        for epoch in ("2000-01-01T12", "2000-01-01T12:00:00.000", "2000-01-01T12:00:00.000000000"):
            self.assertEqual(self.begin(numpy.datetime64(epoch)), wanted)
        self.assertEqual(self.begin(numpy.datetime64("2000-01-01")), self.begin(date(2000, 1, 1)))
        later = self.begin(numpy.datetime64("2000-01-01T00:00:00.123456789")) - self.begin("2000-01-01")
        self.assertEqual(later, numpy.timedelta64(123456789, "ns"))
        for epoch in (numpy.datetime64("NaT"), numpy.datetime64("20000-01-01")):
            self.raises(ValueError, None, self.begin, epoch)

    @needs("pandas")
    def test_of_pandas(self) -> None:
        import pandas

        wanted = self.begin(datetime(2000, 1, 1, 12))
        for epoch in ("2000-01-01T12:00", "2000-01-01T14:00+02:00"):
            self.assertEqual(self.begin(pandas.Timestamp(epoch)), wanted)
        self.assertEqual(int(self.begin(pandas.Timestamp("2000-01-01T12:00:00.000000007")) - wanted), 7)
        self.raises(ValueError, None, self.begin, pandas.NaT)


if __name__ == "__main__":
    unittest.main()
