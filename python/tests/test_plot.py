"""Pictures: made as PNG and SVG, of what they show; and the table for pandas."""
import subprocess
import sys
import tempfile
import unittest
import xml.etree.ElementTree
from pathlib import Path

import flights
import hivebasket
from cases import BAD, FINE, FIVE, HEAD, LEAP, TASK, WIDE

try:
    import matplotlib
except ImportError:
    matplotlib = None
try:
    import pandas
except ImportError:
    pandas = None

DAY = "\r\n".join(flights.flight(8, 900)).encode() + b"\r\n"


@unittest.skipUnless(matplotlib, "matplotlib is not installed")
class Plotted(unittest.TestCase):
    def test_what_is_shown(self):
        figure = hivebasket.plot(DAY, "a day")
        barogram, noise, course, colours = figure.axes
        self.assertEqual([axes.get_ylabel() for axes in figure.axes], ["altitude, m", "ENL", "", "pressure altitude, m"])
        fixes = hivebasket.track(DAY)
        heights = {line.get_label(): list(line.get_ydata()) for line in barogram.lines}
        self.assertEqual(heights, {"pressure": list(fixes["pressure"]), "GNSS": list(fixes["gnss"])})
        (track,) = (collection for collection in course.collections if len(collection.get_segments()) == 899)
        lat, lon = hivebasket.degrees(fixes)
        self.assertEqual([tuple(point) for point in track.get_segments()[0]], [(lon[0], lat[0]), (lon[1], lat[1])])
        self.assertEqual(list(track.get_array()), list(fixes["pressure"][1:]))
        labels = sorted(text.get_text() for text in course.texts)
        self.assertEqual(labels, ["take-off, start, finish, landing\nHOME FIELD, START, FINISH", "turn 1\nNORTH MILL", "turn 2\nEAST BRIDGE"])
        self.assertIn("a day\nfixes 900, ", figure.texts[0].get_text() if figure.texts else figure._suptitle.get_text())

    def test_every_kind(self):
        for data in (FIVE, FINE, LEAP, WIDE, TASK, HEAD, HEAD + b"B1200005130000N00015000WV0010000120\r\n"):
            with tempfile.TemporaryDirectory() as folder:
                hivebasket.plot(data).savefig(Path(folder, "x.png"))

    def test_no_piece_around_the_world(self):
        data = HEAD + b"".join(b"B12000%d5130000N%sA0010000120\r\n" % (n, place) for n, place in enumerate((b"17959000E", b"17959500E", b"17959500W", b"17959000W")))
        course = hivebasket.plot(data).axes[1]
        self.assertEqual([len(collection.get_segments()) for collection in course.collections], [2])

    def test_files(self):
        with tempfile.TemporaryDirectory() as folder:
            path = Path(folder, "x.igc")
            path.write_bytes(DAY)

            def run(*words):
                ended = subprocess.run([sys.executable, "-m", "hivebasket", "plot", *map(str, words)], capture_output=True, text=True)
                return ended.returncode, ended.stdout

            self.assertEqual(run(path, "-o", Path(folder, "x.png")), (0, ""))
            self.assertEqual(Path(folder, "x.png").read_bytes()[:8], b"\x89PNG\r\n\x1a\n")
            self.assertEqual(run(path, "-o", Path(folder, "x.svg")), (0, ""))
            self.assertEqual(xml.etree.ElementTree.parse(Path(folder, "x.svg")).getroot().tag, "{http://www.w3.org/2000/svg}svg")
            path.write_bytes(BAD)
            self.assertEqual(run(path, "-o", Path(folder, "y.png")), (1, "REFUSED 23 POSITION, line 3, byte 8: latitude or longitude against its rule\nB1200009000001N00015000WA0010000120\n       ^\n"))
            self.assertFalse(Path(folder, "y.png").exists())
            self.assertEqual(run(Path(folder, "none.igc"), "-o", "y.png")[0], 2)


@unittest.skipUnless(pandas, "pandas is not installed")
class Framed(unittest.TestCase):
    def test_a_table(self):
        table = hivebasket.to_pandas(WIDE)
        self.assertEqual(list(table.columns), ["time", "leap", "lat", "lon", "pressure", "gnss", "valid", "line", "QQQ", "R2D", "ENL"])
        self.assertEqual(table["ENL"].tolist(), [42, 7])
        self.assertEqual(table["R2D"].isna().tolist(), [False, True])
        self.assertEqual(str(table["time"][0]), "2024-07-15 12:00:00")
        self.assertEqual(table["lat"].tolist(), [51.5, 51.5])

    def test_no_columns(self):
        self.assertEqual(hivebasket.to_pandas(LEAP)["leap"].tolist(), [True, False])
        self.assertEqual(len(hivebasket.to_pandas(HEAD)), 0)


if __name__ == "__main__":
    unittest.main()
