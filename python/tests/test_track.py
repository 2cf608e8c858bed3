"""Fixes, their degrees and times, and the summary."""
import ctypes
import datetime
import random
import struct
import unittest

import hivebasket
from cases import BAD, FINE, FIVE, HEAD, LEAP
from hivebasket._library import library
from hivebasket._numpy import numpy

UTC = datetime.timezone.utc


def bits(*numbers):
    """Two zeros of different sign are not the same here."""
    return struct.pack(f"{len(numbers)}d", *numbers)


def by_the_library(fix):
    told = (ctypes.c_double * 2)()
    assert library.hive_degrees(fix.lat, fix.lat_letter[0], fix.lat_decimals, fix.lon, fix.lon_letter[0], fix.lon_decimals, told, 2) == 0
    return bits(*told)


class Tracked(unittest.TestCase):
    def test_fixes(self):
        first, second = hivebasket.track(FINE)
        self.assertEqual(tuple(first), (4, 0, 432015, 1, 30900001234, b"N", 4, 150000009, b"W", 4, b"A", 100, 120))
        self.assertEqual(tuple(second), (5, 1, 4, 1, 54000000000, b"S", 4, 108000000000, b"E", 4, b"V", -12, -9999))

    def test_no_fixes(self):
        self.assertEqual(len(hivebasket.track(HEAD)), 0)
        self.assertEqual([len(part) for part in hivebasket.degrees(hivebasket.track(HEAD))], [0, 0])
        self.assertEqual([len(part) for part in hivebasket.times(hivebasket.track(HEAD), datetime.date(2024, 7, 15))], [0, 0])

    def test_refused(self):
        self.assertRaises(hivebasket.Refused, hivebasket.track, BAD)

    def test_degrees(self):
        lat, lon = hivebasket.degrees(hivebasket.track(FINE))
        self.assertEqual(bits(*lat), bits(30900001234 / 600000000, -90.0))
        self.assertEqual(bits(*lon), bits(-150000009 / 600000000, 180.0))

    def test_plain_zero(self):
        fixes = hivebasket.track(HEAD + b"B1200000000000S00000000WA0010000120\r\n")
        (lat,), (lon,) = hivebasket.degrees(fixes)
        self.assertEqual(bits(lat, lon), bits(0.0, 0.0))

    def test_degrees_are_the_librarys(self):
        rng, fixes = random.Random(3), []
        for _ in range(20_000):
            a, o = rng.randrange(5), rng.randrange(5)
            lat, lon = rng.randrange(5_400_000 * 10**a + 1), rng.randrange(10_800_000 * 10**o + 1)
            fixes.append(hivebasket.Fix(1, 0, 0, 0, lat, rng.choice([b"N", b"S"]), a, lon, rng.choice([b"E", b"W"]), o, b"A", 0, 0))
        self.assertTrue(all(bits(*hivebasket.degrees(fix)) == by_the_library(fix) for fix in fixes))
        lat, lon = hivebasket.degrees(fixes if numpy is None else numpy.array(fixes, hivebasket.RECORD))
        self.assertTrue(all(bits(lat[n], lon[n]) == by_the_library(fix) for n, fix in enumerate(fixes)))

    def test_times(self):
        when, leap = hivebasket.times(hivebasket.track(FINE), hivebasket.check(FINE).date)
        wanted = [datetime.datetime(2024, 7, 15, 12, 0, 1, 500_000), datetime.datetime(2024, 7, 16, 0, 0, 0, 400_000)]
        self.assertEqual([one.replace(tzinfo=None) for one in (when if numpy is None else when.tolist())], wanted)
        self.assertEqual(list(leap), [False, False])

    def test_the_leap_second(self):
        when, leap = hivebasket.times(hivebasket.track(LEAP), hivebasket.check(LEAP).date)
        wanted = [datetime.datetime(2017, 1, 1), datetime.datetime(2017, 1, 1, 0, 0, 5)]
        self.assertEqual([one.replace(tzinfo=None) for one in (when if numpy is None else when.tolist())], wanted)
        self.assertEqual(list(leap), [True, False])


class Summed(unittest.TestCase):
    def test_summary(self):
        told = hivebasket.summary(FINE)
        self.assertEqual((str(told.start), str(told.end)), ("2024-07-15T12:00:01Z", "2024-07-16T00:00:00Z"))
        self.assertEqual(told[3:], (100, -12, 51.5, 51.5, -0.25, -0.25))
        self.assertEqual((told.fixes, told.start.when.tzinfo), (2, UTC))

    def test_the_leap_second(self):
        told = hivebasket.summary(LEAP)
        self.assertEqual((str(told.start), told.start.leap, str(told.end), told.end.leap), ("2016-12-31T23:59:60Z", True, "2017-01-01T00:00:05Z", False))
        self.assertEqual(told[5:], (-1 / 60000, 2 / 60000, -1 / 60000, 2 / 60000))

    def test_nothing_to_tell(self):
        self.assertEqual(hivebasket.summary(HEAD), (0, *[None] * 8))
        told = hivebasket.summary(HEAD + b"B1200005130000N00015000WV0142000120\r\n")
        self.assertEqual(told[3:], (1420, 1420, None, None, None, None))

    def test_many_runs(self):
        line = b"B1200005130000N00015000WA0010000120\r\n"
        for count in (255, 256, 257, 512, 513):
            self.assertEqual(hivebasket.summary(HEAD + line * count).fixes, count)

    def test_of_a_flight(self):
        flight = hivebasket.check(FIVE)
        self.assertEqual(hivebasket.summary(flight), hivebasket.summary(FIVE))


if __name__ == "__main__":
    unittest.main()
