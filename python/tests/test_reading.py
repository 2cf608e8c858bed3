"""Generated files held against the independent reading: TOLD is the folder that told.rs has written."""
import collections
import datetime
import json
import os
import struct
import unittest
from pathlib import Path

import hivebasket
from hivebasket._numpy import numpy

TOLD = os.environ.get("TOLD", "")
DAYS = datetime.timedelta(days=1)


def bits(numbers):
    return struct.pack(f"{len(numbers)}d", *numbers)


class Held(unittest.TestCase):
    """Each file: everything that the package says of it."""

    def file(self, data, told):
        if "refused" in told:
            for call in (hivebasket.check, hivebasket.track, hivebasket.summary, hivebasket.lines, hivebasket.columns, hivebasket.declaration):
                self.refused(told["refused"], call, data)
            return told["refused"][0]
        flight = hivebasket.check(data)
        self.assertEqual(flight.date, datetime.date(*told["date"]))
        self.assertEqual([flight.lines, flight.fixes, flight.k_lines, flight.n_lines, flight.signed], told["counts"])
        if told["strict"]:
            self.refused(told["strict"], hivebasket.check, data, strict=True)
        else:
            self.assertEqual(hivebasket.check(data, strict=True), flight)
        self.track(flight, told["track"])
        self.summary(flight, told["summary"])
        for family, (entries, rows) in told["columns"].items():
            self.columns(flight, family, [tuple(entry) for entry in entries], rows)
        found = hivebasket.lines(flight)
        self.assertEqual(found.kinds, told["kinds"])
        self.assertEqual(b"".join(line.text + b"\r\n" for line in found), data)
        self.declaration(flight, told["declaration"])
        return 0

    def refused(self, wanted, call, *words, **more):
        with self.assertRaises(hivebasket.Refused) as raised:
            call(*words, **more)
        refused = raised.exception
        self.assertEqual([refused.number, refused.line, refused.byte, refused.explanation], wanted)

    def track(self, flight, wanted):
        fixes = hivebasket.track(flight)
        lat, lon = hivebasket.degrees(fixes)
        found = [fix if isinstance(fix, tuple) else fix.item() for fix in fixes]
        self.assertEqual([[one.decode() if isinstance(one, bytes) else one for one in fix] for fix in found], [row[:13] for row in wanted])
        self.assertEqual(bits(list(lat)) + bits(list(lon)), bits([row[13] for row in wanted]) + bits([row[14] for row in wanted]))
        when, leap = hivebasket.times(fixes, flight.date)
        midnight = datetime.datetime.combine(flight.date, datetime.time())
        for n, row in enumerate(wanted):
            since = DAYS * row[1] + datetime.timedelta(milliseconds=row[2] * 1000 // 10 ** row[3])
            self.assertEqual((when[n] if numpy is None else when[n].item()).replace(tzinfo=None), midnight + since)
            self.assertEqual(bool(leap[n]), row[2] // 10 ** row[3] == 86_400)

    def summary(self, flight, wanted):
        count, day, seconds, last_day, last_seconds, highest, lowest, placed, south, north, west, east = wanted
        told = hivebasket.summary(flight)
        self.assertEqual(told.fixes, count)
        if count:
            midnight = datetime.datetime.combine(flight.date, datetime.time(), datetime.timezone.utc)
            ends = [(midnight + DAYS * days + datetime.timedelta(seconds=after), after == 86_400) for days, after in ((day, seconds), (last_day, last_seconds))]
            self.assertEqual([tuple(told.start), tuple(told.end), told.highest, told.lowest], [*ends, highest, lowest])
        else:
            self.assertEqual([told.start, told.end, told.highest, told.lowest], [None] * 4)
        self.assertEqual(list(told[5:]), [side / 60_000 for side in (south, north, west, east)] if placed else [None] * 4)

    def columns(self, flight, family, entries, rows):
        self.assertEqual(list(hivebasket.layout(flight, family)), entries)
        found = hivebasket.columns(flight, family=family)
        codes = [entry[0] for entry in entries]
        self.assertEqual(list(found) if numpy is None else list(found.dtype.names or ()), codes)
        none = None if numpy is None else hivebasket.NO_NUMBER
        for n, code in enumerate(codes):
            self.assertEqual(list(found[code]), [none if row[n] is None else row[n] for row in rows])

    def declaration(self, flight, wanted):
        told = hivebasket.declaration(flight)
        if wanted is None:
            return self.assertIsNone(told)
        declared, seconds, day, task, turns, text, line, points = wanted
        midnight = datetime.datetime(*declared, tzinfo=datetime.timezone.utc)
        self.assertEqual(told.declared, (midnight + datetime.timedelta(seconds=seconds), seconds == 86_400))
        self.assertEqual(told.flight, day and datetime.date(*day))
        self.assertEqual([told.task, told.turns, told.text, told.line], [task, turns, text, line])
        self.assertEqual([list(point[1:]) for point in told.points], points)
        self.assertEqual(bits([one for point in told.points for one in point[1:3]]), bits([one for point in points for one in point[:2]]))
        roles = ["take-off", "start", *(f"turn {n}" for n in range(1, turns + 1)), "finish", "landing"]
        self.assertEqual([point.role for point in told.points], roles)

    def pair(self, first, second, told):
        if "merged" in told:
            self.assertEqual(hivebasket.merge(first, second), told["merged"].encode("latin-1"))
            self.assertEqual(hivebasket.merge(second, first), told["merged"].encode("latin-1"))
            return 0
        with self.assertRaises(hivebasket.Refused) as raised:
            hivebasket.merge(first, second)
        refused = raised.exception
        self.assertEqual([refused.number, refused.line, refused.byte, refused.whose], told["unmerged"])
        return refused.number

    def test_every_file(self):
        files, at = (Path(TOLD) / "files").read_bytes(), 0
        met, merged = collections.Counter(), collections.Counter()

        def take(length):
            nonlocal at
            at += length
            return files[at - length : at]

        with (Path(TOLD) / "told").open() as lines:
            for n, line in enumerate(lines):
                told = json.loads(line)
                with self.subTest(file=n):
                    if "bytes" in told:
                        met[self.file(take(told["bytes"]), told)] += 1
                    else:
                        merged[self.pair(take(told["first"]), take(told["second"]), told)] += 1
        self.assertEqual(at, len(files))
        # what a run must meet, so that it is no empty one: every refusal of a file but the limit and the table's, and every outcome of a merge but those two
        self.assertLessEqual({0, *range(3, 15), 16, *range(22, 26)}, set(met))
        self.assertLessEqual({0, 26}, set(merged))
        print(f"told: {sum(met.values())} files ({met[0]} accepted), {sum(merged.values())} pairs ({merged[0]} merged)")


if __name__ == "__main__":
    unittest.main()
