"""Lines and their kinds, columns, and the declaration."""
import datetime
import unittest

import hivebasket
from cases import BAD, FINE, FIVE, HEAD, TASK, WIDE
from hivebasket._numpy import numpy


def listed(table):
    """Columns as lists, None where a text is no number."""
    if numpy is None:
        return table
    return {code: [None if number == hivebasket.NO_NUMBER else number for number in table[code].tolist()] for code in table.dtype.names}


class Lines(unittest.TestCase):
    def test_lines(self):
        found = hivebasket.lines(WIDE)
        self.assertEqual((len(found), found.kinds), (12, "AHIJMBKNBLGl"))
        self.assertEqual(b"".join(line.text + b"\r\n" for line in found), WIDE)
        self.assertEqual(found[1], (2, "H", 9, b"HFDTE150724"))
        self.assertEqual(found[-1], (12, hivebasket.NOTE, len(WIDE) - 6, b"LTWO"))
        self.assertEqual([line.number for line in found[2:5]], [3, 4, 5])
        self.assertEqual([line.number for line in found.of("B")], [6, 9])
        self.assertEqual([line.text for line in found.of("L")], [b"LONE"])
        self.assertRaises(IndexError, found.__getitem__, 12)

    def test_no_notes(self):
        self.assertEqual(hivebasket.lines(HEAD + b"LONE\r\n").kinds, "AHL")


class Columns(unittest.TestCase):
    def test_layout(self):
        self.assertEqual(hivebasket.layout(WIDE), (("QQQ", 36, 36), ("R2D", 37, 39), ("ENL", 40, 42)))
        self.assertEqual((hivebasket.layout(WIDE, "K"), hivebasket.layout(WIDE, "N")), ((("HDT", 8, 10),), (("HRT", 8, 9),)))
        self.assertEqual(hivebasket.layout(HEAD), ())
        self.assertRaises(KeyError, hivebasket.layout, WIDE, "L")

    def test_all(self):
        self.assertEqual(listed(hivebasket.columns(WIDE)), {"QQQ": [7, None], "R2D": [-12, None], "ENL": [42, 7]})
        self.assertEqual(listed(hivebasket.columns(WIDE, family="K")), {"HDT": [90]})
        self.assertEqual(listed(hivebasket.columns(WIDE, family="N")), {"HRT": [77]})
        self.assertEqual(listed(hivebasket.columns(FINE)), {"TDS": [5, 4], "LAD": [1234, 0], "LOD": [9, 0]})

    def test_some(self):
        self.assertEqual(listed(hivebasket.columns(WIDE, ["ENL", "QQQ"])), {"ENL": [42, 7], "QQQ": [7, None]})
        self.assertEqual(list(listed(hivebasket.columns(WIDE, ["ENL", "QQQ"]))), ["ENL", "QQQ"])

    def test_none(self):
        self.assertEqual(len(hivebasket.columns(HEAD + b"I013638FXA\r\n")["FXA"]), 0)
        bare = hivebasket.columns(HEAD + b"B1200005130000N00015000WA0010000120\r\n")
        self.assertEqual(len(bare), 0 if numpy is None else 1)

    def test_refused(self):
        for codes, family, number in ((["MOP"], "B", 19), (["ENL", "ENL"], "B", 17), ([], "B", 17), (["ENLX"], "B", 17), (["EN", "LFXA"], "B", 17), (["ENL"], "L", 17)):
            with self.assertRaises(hivebasket.Refused) as raised:
                hivebasket.columns(WIDE, codes, family)
            self.assertEqual((raised.exception.number, raised.exception.line), (number, 0))
        with self.assertRaises(hivebasket.Refused) as raised:
            hivebasket.columns(BAD, ["ENL"])
        self.assertEqual((raised.exception.number, raised.exception.line), (23, 3))


class Declared(unittest.TestCase):
    def test_declaration(self):
        told = hivebasket.declaration(TASK)
        self.assertEqual((str(told.declared), told.declared.leap), ("2024-07-14T23:59:60Z", True))
        self.assertEqual((told.flight, told.task, told.turns, told.text, told.line), (datetime.date(2024, 7, 16), 12, 1, "AROUND", 3))
        home = (51.5, -0.25)
        self.assertEqual(told.points, (
            ("take-off", *home, "HOME"), ("start", *home, ""), ("turn 1", 52.0, 1.0, "MILL"), ("finish", 0.0, 0.0, "NOWHERE"), ("landing", *home, "HOME"),
        ))

    def test_none(self):
        self.assertIsNone(hivebasket.declaration(FIVE))


if __name__ == "__main__":
    unittest.main()
