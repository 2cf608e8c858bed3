"""A season of 2,000 generated flights: the same rows on every road, also where it is cut off, where files change, and where a worker is killed."""
import contextlib
import csv
import io
import multiprocessing
import os
import random
import shutil
import signal
import sqlite3
import subprocess
import sys
import tempfile
import unittest
from pathlib import Path

import flights
from hivebasket.roads import on_processes
from hivebasket.rows import Known, Row, row_of
from hivebasket.season import BUNCH, Bar, names_in, season
from hivebasket.stores import store_of

COUNT, LEAST, MOST = 2_000, 60, 180

try:
    import distributed
except ImportError:
    distributed = None


def setUpModule():
    global FOLDER, WANTED, WORK
    WORK = Path(tempfile.mkdtemp())
    FOLDER = WORK / "season"
    flights.make(FOLDER, COUNT, LEAST, MOST)
    season(FOLDER, WORK / "turn.csv", by="turn")
    WANTED = rows_in(WORK / "turn.csv")


def tearDownModule():
    shutil.rmtree(WORK)


def rows_in(path):
    return store_of(Path(path)).rows()


@contextlib.contextmanager
def copied(count):
    """A folder of its own with the first of the flights, by their numbers."""
    with tempfile.TemporaryDirectory() as work:
        folder = Path(work, "flights")
        folder.mkdir()
        for name in sorted(names_in(FOLDER), key=os.path.basename)[:count]:
            shutil.copy(FOLDER / name, folder / Path(name).name)
        yield folder, Path(work)


class InTurn(unittest.TestCase):
    """What the rows say, against what is known from the making of the files."""

    def test_rows(self):
        self.assertEqual([row.file for row in WANTED.values()], sorted(f"club{n % 10}/{n:05d}.IGC" for n in range(COUNT)))
        for row in WANTED.values():
            number = int(row.file[-9:-4])
            lines = len(flights.flight(number, random.Random(number).randrange(LEAST, MOST + 1))) if number < 200 else None
            if number % 20 == 19:
                self.assertEqual((row.verdict, row.number, row.name, row.byte, row.fixes), ("refused", 23, "POSITION", 8, None))
                self.assertTrue(lines is None or row.line == flights.spoiled_at(number, lines) + 1)
                self.assertEqual(row.reason, f"REFUSED 23 POSITION, line {row.line}, byte 8: latitude or longitude against its rule")
            else:
                self.assertEqual((row.verdict, row.date, row.signed, row.number), ("accepted", f"2024-{number % 12 + 1:02d}-{number % 28 + 1:02d}", 1, None))
                self.assertEqual(row.lines, row.fixes + 12)
                self.assertTrue(lines is None or row.lines == lines)
                self.assertTrue(row.lowest <= row.highest and row.south <= row.north and row.west <= row.east and row.first < row.last)

    def test_the_csv(self):
        with (WORK / "turn.csv").open(newline="") as file:
            table = list(csv.DictReader(file))
        self.assertEqual((len(table), list(table[0])), (COUNT, list(Row._fields)))
        self.assertFalse((WORK / "turn.csv.part").exists())


class OnRoads(unittest.TestCase):
    def held(self, output, made=COUNT, **how):
        told = season(FOLDER, WORK / output, **how)
        self.assertEqual((told.files, told.made, told.kept, told.accepted, told.refused, told.unread), (COUNT, made, COUNT - made, COUNT - COUNT // 20, COUNT // 20, 0))
        self.assertEqual(rows_in(WORK / output), WANTED)

    def test_threads(self):
        self.held("threads.csv", by="threads", jobs=3)

    def test_processes(self):
        self.held("processes.csv", by="processes", jobs=2)
        self.assertEqual((WORK / "processes.csv").read_bytes(), (WORK / "turn.csv").read_bytes())
        self.held("processes.csv", by="processes", jobs=2, made=0)

    def test_sqlite(self):
        self.held("season.sqlite", by="threads", jobs=2)
        with contextlib.closing(sqlite3.connect(WORK / "season.sqlite")) as base:
            self.assertEqual(base.execute("SELECT count(*), sum(fixes) FROM flights WHERE verdict = 'accepted'").fetchone(), (COUNT - COUNT // 20, sum(row.fixes or 0 for row in WANTED.values())))
        self.held("season.sqlite", by="turn", made=0)

    def test_a_worker_killed(self):
        killed = []

        def kill_one(done, _):
            if not killed:
                killed.append(multiprocessing.active_children()[0].pid)
                os.kill(killed[0], signal.SIGKILL)

        self.held("killed.csv", by="processes", jobs=2, progress=kill_one)
        self.assertEqual(len(killed), 1)

    def test_a_file_that_kills(self):
        """The pool is made anew three times, then the files go one by one, and the one that kills its process is told."""
        bunches = [[("a", None), ("deadly", None)], [("b", None)]]
        done = {task: row for bunch, rows in on_processes(deadly, bunches, 2) for task, row in zip(bunch, rows)}
        self.assertEqual(sorted(name for name, _ in done), ["a", "b", "deadly"])
        self.assertEqual({name: row.verdict for (name, _), row in done.items()}, {"a": "accepted", "b": "accepted", "deadly": "unread"})

    @unittest.skipUnless(distributed, "distributed is not installed")
    def test_a_cluster(self):
        with distributed.LocalCluster(n_workers=2, threads_per_worker=1, host="127.0.0.1", protocol="tcp", dashboard_address=None, silence_logs=50) as cluster:
            self.held("cluster.csv", cluster=cluster.scheduler_address)
            killed = []

            def kill_one(done, _):
                if not killed:
                    with distributed.Client(cluster, set_as_default=False) as client:
                        killed.extend(sorted(client.run(os.getpid).values())[:1])
                    os.kill(killed[0], signal.SIGKILL)

            self.held("cluster_killed.csv", cluster=cluster.scheduler_address, progress=kill_one)
            self.assertEqual(len(killed), 1)


def deadly(bunch):
    if any(name == "deadly" for name, _ in bunch):
        os.kill(os.getpid(), signal.SIGKILL)
    return [Row(name, 0, 0, "", "accepted") for name, _ in bunch]


class Resumed(unittest.TestCase):
    def test_cut_off(self):
        """A season that ends in the middle goes on where it ended, from a CSV file and from a table."""
        for output in ("cut.csv", "cut.sqlite"):
            def cut(done, _):
                if done >= 10 * BUNCH:
                    raise KeyboardInterrupt

            with self.assertRaises(KeyboardInterrupt):
                season(FOLDER, WORK / output, by="threads", jobs=2, progress=cut)
            told = season(FOLDER, WORK / output, by="threads", jobs=2)
            self.assertEqual((told.kept, told.made), (10 * BUNCH, COUNT - 10 * BUNCH))
            self.assertEqual(rows_in(WORK / output), WANTED)

    def test_a_torn_row(self):
        with copied(60) as (folder, work):
            def cut(done, _):
                raise KeyboardInterrupt

            with self.assertRaises(KeyboardInterrupt):
                season(folder, work / "x.csv", by="turn", progress=cut)
            part = work / "x.csv.part"
            lines = sorted(part.read_bytes().splitlines(keepends=True), key=lambda line: line.startswith(b"00019.IGC"))
            self.assertTrue(lines[-1].endswith(b'against its rule"\n'))
            part.write_bytes(b"".join(lines)[:-3])
            told = season(folder, work / "x.csv", by="turn")
            self.assertEqual((told.kept, told.made), (BUNCH - 1, 11))
            season(folder, work / "y.csv", by="turn")
            self.assertEqual(rows_in(work / "x.csv"), rows_in(work / "y.csv"))

    def test_changes(self):
        for output in ("x.csv", "x.sqlite"):
            with copied(60) as (folder, work):
                self.assertEqual(season(folder, work / output, by="turn").made, 60)
                names = names_in(folder)
                (folder / names[3]).unlink()
                (folder / names[5]).write_bytes((folder / names[6]).read_bytes())
                (folder / "new.igc").write_bytes(b"")
                (folder / "gone.igc").symlink_to("nowhere")
                (folder / "a note.txt").write_text("no flight")
                told = season(folder, work / output, by="turn")
                self.assertEqual((told.files, told.made, told.kept, told.unread), (61, 3, 58, 1))
                rows = rows_in(work / output)
                self.assertEqual(sorted(rows), names_in(folder))
                self.assertEqual((rows["new.igc"].number, rows["new.igc"].size), (1, 0))
                self.assertEqual((rows["gone.igc"].verdict, rows["gone.igc"].reason), ("unread", "No such file or directory"))
                self.assertEqual(rows[names[5]].sha256, rows[names[6]].sha256)
                # the one that could not be read is tried again
                self.assertEqual(season(folder, work / output, by="turn").made, 1)

    def test_the_same_size_and_time(self):
        with copied(3) as (folder, work):
            season(folder, work / "x.csv", by="turn")
            path = folder / names_in(folder)[0]
            before = path.stat()
            path.write_bytes(path.read_bytes().replace(b"PILOT 0", b"PILOT X"))
            os.utime(path, ns=(before.st_atime_ns, before.st_mtime_ns))
            self.assertEqual(season(folder, work / "x.csv", by="turn").made, 0)
            self.assertEqual(season(folder, work / "x.csv", by="turn", anew=True).made, 1)
            self.assertEqual(season(folder, work / "x.csv", by="turn", anew=True).made, 0)
            path.write_bytes(path.read_bytes().replace(b"PILOT X", b"PILOT Y"))
            os.utime(path, ns=(before.st_atime_ns, before.st_mtime_ns + 1))
            self.assertEqual(season(folder, work / "x.csv", by="turn").made, 1)

    def test_names(self):
        with copied(1) as (folder, work):
            name = names_in(folder)[0]
            for odd in (b"a,b \"c\".igc", b"line\nbreak.igc", b"\xff\xfe.IGC", "Übung é.igc".encode()):
                shutil.copy(folder / name, os.fsencode(folder) + b"/" + odd)
            for output in ("x.csv", "x.sqlite"):
                self.assertEqual(season(folder, work / output, by="turn").made, 5)
                self.assertEqual(season(folder, work / output, by="turn").made, 0)
                self.assertIn("\\xff\\xfe.IGC", rows_in(work / output))
                self.assertIn("line\\nbreak.igc", rows_in(work / output))

    def test_another_table(self):
        with copied(1) as (folder, work):
            (work / "mine.csv").write_text("name,points\nAda,1000\n")
            self.assertRaises(ValueError, season, folder, work / "mine.csv", by="turn")
            self.assertEqual((work / "mine.csv").read_text(), "name,points\nAda,1000\n")
            self.assertRaises(ValueError, season, folder, work / "mine.txt", by="turn")

    def test_a_long_file(self):
        with tempfile.TemporaryDirectory() as folder:
            with Path(folder, "long.igc").open("wb") as file:
                file.truncate(40_000_000)
            row = row_of(folder, "long.igc")
            self.assertEqual((row.number, row.size), (2, 40_000_000))
            self.assertIsNone(row_of(folder, "long.igc", Known(row.size, row.time, row.sha256), anew=True))


class Commanded(unittest.TestCase):
    def test_season(self):
        with copied(40) as (folder, work):
            def run(*words):
                ended = subprocess.run([sys.executable, "-m", "hivebasket", "season", str(folder), *words], capture_output=True, text=True)
                return ended.returncode, ended.stdout.rsplit(";", 1)[0], ended.stderr

            words = "40 files: 38 accepted, 2 refused, 0 unread; %d rows made, %d kept"
            self.assertEqual(run("-o", str(work / "x.csv")), (1, words % (40, 0), ""))
            self.assertEqual(run("-o", str(work / "x.csv"), "--jobs", "1", "--by", "turn"), (1, words % (0, 40), ""))
            self.assertEqual(run("-o", str(work / "x.txt"))[0], 2)
            self.assertEqual(run()[0], 2)


class Progress(unittest.TestCase):
    def test_without_tqdm(self):
        bar = Bar()
        bar._shows = True
        kept, sys.modules["tqdm"] = sys.modules.get("tqdm"), None
        try:
            with contextlib.redirect_stderr(io.StringIO()) as said:
                bar(1, 2)
                bar(2, 2)
        finally:
            sys.modules.pop("tqdm") if kept is None else sys.modules.update(tqdm=kept)
        self.assertEqual(said.getvalue(), "\r1 of 2 files\r2 of 2 files\n")


if __name__ == "__main__":
    unittest.main()
