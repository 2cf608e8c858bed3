"""Checked, refused, and whatever a file is given as."""
import concurrent.futures
import datetime
import mmap
import pickle
import tempfile
import unittest
from pathlib import Path

import hivebasket
from cases import BAD, FIVE, HEAD, WIDE

CALLS = (hivebasket.check, hivebasket.track, hivebasket.summary, hivebasket.lines, hivebasket.columns, hivebasket.declaration)


class Checked(unittest.TestCase):
    def test_a_flight(self):
        flight = hivebasket.check(FIVE)
        self.assertEqual((flight.date, flight.lines, flight.fixes, flight.k_lines, flight.n_lines, flight.signed), (datetime.date(2024, 7, 15), 5, 1, 0, 0, True))
        self.assertNotIn("AXYZ", repr(flight))
        flight = hivebasket.check(WIDE)
        self.assertEqual((flight.lines, flight.fixes, flight.k_lines, flight.n_lines), (12, 2, 1, 1))

    def test_strictly(self):
        self.assertEqual(hivebasket.check(FIVE, strict=True), hivebasket.check(FIVE))
        unsigned = FIVE[: -len(b"GABC\r\n")]
        self.assertFalse(hivebasket.check(unsigned).signed)
        with self.assertRaises(hivebasket.Refused) as raised:
            hivebasket.check(unsigned, strict=True)
        self.assertEqual((raised.exception.number, raised.exception.line, raised.exception.byte), (16, 5, 0))

    def test_a_refusal(self):
        with self.assertRaises(ValueError) as raised:
            hivebasket.check(BAD)
        refused = raised.exception
        self.assertIsInstance(refused, hivebasket.Refused)
        self.assertEqual((refused.number, refused.name, refused.line, refused.byte, refused.whose), (23, "POSITION", 3, 8, 0))
        self.assertEqual(refused.explanation, "REFUSED 23 POSITION, line 3, byte 8: latitude or longitude against its rule\nB1200009000001N00015000WA0010000120\n       ^\n")
        self.assertEqual(str(refused), refused.reason)
        self.assertEqual(refused.reason, refused.explanation.split("\n")[0])

    def test_a_refusal_pickled(self):
        with self.assertRaises(hivebasket.Refused) as raised:
            hivebasket.check(BAD)
        for protocol in range(pickle.HIGHEST_PROTOCOL + 1):
            again = pickle.loads(pickle.dumps(raised.exception, protocol))
            self.assertIs(type(again), hivebasket.Refused)
            self.assertEqual((again.__dict__, again.args), (raised.exception.__dict__, raised.exception.args))

    def test_nothing(self):
        for data, number in ((b"", 1), (b"\n", 3), (b"A", 3), (b"\r\n", 4), (HEAD[:9], 16)):
            for call in CALLS:
                with self.assertRaises(hivebasket.Refused) as raised:
                    call(data)
                self.assertEqual(raised.exception.number, number)

    def test_a_flight_pickled(self):
        flight = hivebasket.check(FIVE)
        self.assertEqual(pickle.loads(pickle.dumps(flight)), flight)


class Given(unittest.TestCase):
    def test_every_source(self):
        with tempfile.TemporaryDirectory() as folder:
            path = Path(folder, "a flight.igc")
            path.write_bytes(WIDE)
            with path.open("rb") as file, mmap.mmap(file.fileno(), 0, access=mmap.ACCESS_READ) as mapped:
                for source in (bytearray(WIDE), memoryview(WIDE), memoryview(b"x" + WIDE)[1:], mapped, path, str(path), hivebasket.check(WIDE)):
                    self.assertEqual(hivebasket.check(source), hivebasket.check(WIDE))
                    self.assertEqual([tuple(fix) for fix in hivebasket.track(source)], [tuple(fix) for fix in hivebasket.track(WIDE)])
                    self.assertEqual(hivebasket.summary(source), hivebasket.summary(WIDE))
                    self.assertEqual(hivebasket.lines(source)[:], hivebasket.lines(WIDE)[:])
                    self.assertEqual(hivebasket.merge(source, WIDE), WIDE)
                    self.assertIsNone(hivebasket.declaration(source))

    def test_every_second_byte(self):
        doubled = bytes(byte for one in WIDE for byte in (one, 0))
        self.assertEqual(hivebasket.check(memoryview(doubled)[::2]), hivebasket.check(WIDE))

    def test_over_the_limit(self):
        with tempfile.TemporaryDirectory() as folder:
            path = Path(folder, "long.igc")
            with path.open("wb") as file:
                file.truncate(1 << 33)
            with self.assertRaises(hivebasket.Refused) as raised:
                hivebasket.check(path)
            self.assertEqual((raised.exception.number, raised.exception.line), (2, 0))

    def test_no_file(self):
        self.assertRaises(FileNotFoundError, hivebasket.check, "no such file.igc")
        self.assertRaises(IsADirectoryError, hivebasket.check, Path("/"))

    def test_on_threads(self):
        wanted = [tuple(fix) for fix in hivebasket.track(WIDE)]
        with concurrent.futures.ThreadPoolExecutor(4) as pool:
            for fixes in pool.map(hivebasket.track, [WIDE] * 500):
                self.assertEqual([tuple(fix) for fix in fixes], wanted)


if __name__ == "__main__":
    unittest.main()
