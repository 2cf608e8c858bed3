"""How long the package takes, beside plain Python, in one run: one large file, then a season's folder on every road.

    bench.py file FIXES              one file of so many fixes
    bench.py season FOLDER [JOBS]    a folder of files (tests/flights.py makes one), as a table

Each time is the best of some, and behind it the processor's time of this process: on a machine with other work the second is the steadier. Of processes and a cluster it counts the reading
and writing of rows alone.
"""
from __future__ import annotations

import hashlib
import sys
import tempfile
import time
from pathlib import Path
from typing import Any, Callable, List, Tuple

sys.path[:0] = [str(Path(__file__).resolve().parent / name) for name in ("src", "tests")]
import flights  # noqa: E402
import hivebasket  # noqa: E402
from hivebasket.season import names_in, season  # noqa: E402


def plain(data: bytes) -> List[Tuple[Any, ...]]:
    """What a script does that trusts the file: B lines cut at their usual places, nothing checked, no day counted."""
    fixes = []
    for line in data.split(b"\r\n"):
        if line[:1] == b"B":
            seconds = int(line[1:3]) * 3600 + int(line[3:5]) * 60 + int(line[5:7])
            lat, lon = int(line[7:9]) + int(line[9:14]) / 60_000, int(line[15:18]) + int(line[18:23]) / 60_000
            fixes.append((seconds, -lat if line[14:15] == b"S" else lat, -lon if line[23:24] == b"W" else lon, line[24:25], int(line[25:30]), int(line[30:35]), int(line[40:43])))
    return fixes


def best(name: str, call: Callable[[], Any], turns: int = 5, of: int = 0) -> None:
    took = []
    for _ in range(turns):
        began, used = time.perf_counter(), time.process_time()
        call()
        took.append((time.perf_counter() - began, time.process_time() - used))
    wall, used = min(one[0] for one in took), min(one[1] for one in took)
    rate = f"   {of / wall:8.0f} files a second" if of else ""
    print(f"{name:62} {wall * 1000:9.1f} ms   processor {used * 1000:9.1f} ms{rate}", flush=True)


def one_file(fixes: int) -> None:
    data = "\r\n".join(flights.flight(8, fixes)).encode() + b"\r\n"
    flight = hivebasket.check(data)
    print(f"one file: {len(data)} bytes, {flight.fixes} fixes")
    records = hivebasket.track(flight)
    best("check", lambda: hivebasket.check(data))
    best("track of a checked flight, a numpy array", lambda: hivebasket.track(flight))
    best("columns FXA, SIU, ENL of a checked flight, a numpy array", lambda: hivebasket.columns(flight, ["FXA", "SIU", "ENL"]))
    best("summary of a checked flight", lambda: hivebasket.summary(flight))
    best("degrees of the track", lambda: hivebasket.degrees(records))
    best("times of the track", lambda: hivebasket.times(records, flight.date))
    best("all that plain Python gives below: check, track, degrees, ENL", lambda: everything(data))
    best("lines, all texts", lambda: list(hivebasket.lines(flight)), 2)
    best("plain Python, nothing checked, a list of tuples", lambda: plain(data), 3)


def everything(data: bytes) -> None:
    flight = hivebasket.check(data)
    hivebasket.degrees(hivebasket.track(flight))
    hivebasket.columns(flight, ["ENL"])


def parts(folder: str, names: List[str]) -> None:
    """Where the time of one core goes."""
    count = len(names)
    held = [Path(folder, name).read_bytes() for name in names]
    checked = []
    for data in held:
        try:
            checked.append(hivebasket.check(data))
        except hivebasket.Refused:
            pass

    def check_all() -> None:
        for data in held:
            try:
                hivebasket.check(data)
            except hivebasket.Refused:
                pass

    best("  of it: files read (from the memory of the system)", lambda: [Path(folder, name).read_bytes() for name in names], 3, count)
    best("  of it: sha256", lambda: [hashlib.sha256(data).digest() for data in held], 3, count)
    best("  of it: check", check_all, 3, count)
    best("  of it: summary of the accepted", lambda: [hivebasket.summary(flight) for flight in checked], 3, count)


def folder_by_all(folder: str, jobs: int) -> None:
    names = names_in(folder)
    size = sum(Path(folder, name).stat().st_size for name in names)
    count = len(names)
    print(f"a season: {count} files, {size // 1_000_000} MB, {jobs} workers")
    with tempfile.TemporaryDirectory() as work:
        def made(output: str, **how: Any) -> Callable[[], None]:
            def run() -> None:
                Path(work, output).unlink(missing_ok=True)
                season(folder, Path(work, output), **how)
            return run

        best("in turn", made("turn.csv", by="turn"), 3, count)
        parts(folder, names)
        best("threads", made("threads.csv", by="threads", jobs=jobs), 3, count)
        best("processes", made("processes.csv", by="processes", jobs=jobs), 3, count)
        best("processes, into SQLite", made("processes.sqlite", by="processes", jobs=jobs), 3, count)
        best("again, nothing has changed", lambda: season(folder, Path(work, "processes.csv"), by="processes", jobs=jobs), 3, count)
        best("plain Python in turn, fixes alone (200 files)", lambda: [plain(Path(folder, name).read_bytes()) for name in names[:200]], 1, 200)
        try:
            from distributed import LocalCluster
        except ImportError:
            print("dask.distributed is not installed: left out")
            return
        began = time.perf_counter()
        with LocalCluster(n_workers=jobs, threads_per_worker=1, host="127.0.0.1", protocol="tcp", dashboard_address=None, silence_logs=50) as cluster:
            print(f"a cluster of {jobs} workers began in {time.perf_counter() - began:.1f} s")
            address = cluster.scheduler_address
            best("cluster, dask.distributed over TCP on loopback", made("cluster.csv", cluster=address), 3, count)
            for bunch in (50, 5):
                name = f"cluster again, nothing has changed, {-(-count // bunch)} bunches of {bunch}"
                best(name, lambda: season(folder, Path(work, "cluster.csv"), cluster=address, bunch=bunch), 3, count)


if __name__ == "__main__":
    if sys.argv[1:2] == ["file"]:
        one_file(int(sys.argv[2]))
    elif sys.argv[1:2] == ["season"]:
        folder_by_all(sys.argv[2], int(sys.argv[3]) if len(sys.argv) > 3 else 2)
    else:
        sys.exit(__doc__)
