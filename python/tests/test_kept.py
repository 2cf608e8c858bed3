"""Copies brought together, and the shelf."""
import mmap
import tempfile
import unittest

import hivebasket
from cases import BAD, FINE, FIVE


class Merged(unittest.TestCase):
    def test_notes(self):
        self.assertEqual(hivebasket.merge(FIVE + b"LB\r\n", FIVE + b"LA\r\nLB\r\n"), FIVE + b"LA\r\nLB\r\n")

    def test_refused(self):
        for first, second, number, whose in ((FIVE, FINE, 26, 0), (BAD, FIVE, 23, 1), (FIVE, BAD, 23, 2), (b"", b"", 1, 1)):
            with self.assertRaises(hivebasket.Refused) as raised:
                hivebasket.merge(first, second)
            self.assertEqual((raised.exception.number, raised.exception.whose), (number, whose))
            if number == 23:
                self.assertIn("B1200009000001N", raised.exception.explanation)


class Shelved(unittest.TestCase):
    def test_a_mapping(self):
        shelf = hivebasket.Shelf(4096)
        shelf[7], shelf[4_294_967_295] = FIVE, FINE
        self.assertEqual(dict(shelf), {7: FIVE, 4_294_967_295: FINE})
        self.assertEqual((len(shelf), 7 in shelf, 8 in shelf, "7" in shelf, shelf.get(8)), (2, True, False, False, None))
        del shelf[7]
        shelf.pack()
        self.assertEqual((list(shelf), shelf.pop(4_294_967_295), len(shelf)), ([4_294_967_295], FINE, 0))

    def test_put_anew(self):
        shelf = hivebasket.Shelf(768 + len(FIVE))
        shelf[7] = FIVE
        shelf[7] = FIVE[:-6]
        self.assertEqual(shelf[7], FIVE[:-6])
        for data, number in ((BAD, 23), (FINE, 30)):
            with self.assertRaises(hivebasket.Refused) as raised:
                shelf[7] = data
            self.assertEqual((raised.exception.number, dict(shelf)), (number, {7: FIVE[:-6]}))

    def test_refused(self):
        shelf = hivebasket.Shelf(4096)
        for number, data, refused in ((0, FIVE, 28), (1, BAD, 23), (1, b"", 1)):
            with self.assertRaises(hivebasket.Refused) as raised:
                shelf[number] = data
            self.assertEqual(raised.exception.number, refused)
        for call in (shelf.__getitem__, shelf.__delitem__):
            self.assertRaises(KeyError, call, 8)
        for buffer in (700, 0, 16_777_217, bytearray(b"x" * 4096)):
            with self.assertRaises(hivebasket.Refused) as raised:
                hivebasket.Shelf(buffer)
            self.assertEqual(raised.exception.number, 27)

    def test_sixty_four(self):
        shelf = hivebasket.Shelf(100_000)
        for number in range(1, 65):
            shelf[number] = FIVE
        self.assertEqual(list(shelf), list(range(1, 65)))
        with self.assertRaises(hivebasket.Refused) as raised:
            shelf[65] = FIVE
        self.assertEqual(raised.exception.number, 29)

    def test_in_a_file(self):
        with tempfile.TemporaryFile() as file:
            file.truncate(4096)
            with mmap.mmap(file.fileno(), 0) as mapped:
                shelf = hivebasket.Shelf(mapped)
                shelf[7] = FIVE
                kept = shelf.tobytes()
                del shelf
            file.seek(0)
            self.assertEqual(file.read(), kept)
            self.assertEqual(dict(hivebasket.Shelf(bytearray(kept))), {7: FIVE})
        self.assertRaises(TypeError, hivebasket.Shelf, b"\0" * 4096)


if __name__ == "__main__":
    unittest.main()
