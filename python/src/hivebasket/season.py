"""A season's folder as one table: a row for each file, on all cores or on a cluster; rows of files that have not changed are kept."""
from __future__ import annotations

import os
import sys
import time
from pathlib import Path
from typing import Any, Callable, Iterator, List, NamedTuple, Optional, Sequence, Union

from .roads import road
from .rows import ACCEPTED, REFUSED, Known, Row, shown
from .stores import Store, store_of

BUNCH = 50
"""How many files a worker takes at a time: some milliseconds of work."""

ROADS = ("turn", "threads", "processes", "cluster")
Progress = Callable[[int, int], None]


class Outcome(NamedTuple):
    """What became of a season: how many files, how many rows were made and how many kept, how many files are accepted, refused, unread; and the seconds that it took."""

    files: int
    made: int
    kept: int
    accepted: int
    refused: int
    unread: int
    seconds: float


def names_in(folder: Union[str, "os.PathLike[str]"]) -> List[str]:
    """The names of all files of a folder, and of the folders in it, that end with .igc, in order; capitals or not."""
    return sorted(_walk(os.fspath(folder), ""))


def _walk(folder: str, below: str) -> Iterator[str]:
    with os.scandir(folder) as entries:
        for entry in entries:
            if entry.is_dir(follow_symlinks=False):
                yield from _walk(entry.path, f"{below}{entry.name}/")
            elif entry.name.lower().endswith(".igc"):
                yield below + entry.name


def season(
    folder: Union[str, "os.PathLike[str]"],
    output: Union[str, "os.PathLike[str]"],
    *,
    by: str = "processes",
    jobs: Optional[int] = None,
    cluster: str = "",
    bunch: int = BUNCH,
    anew: bool = False,
    progress: Optional[Progress] = None,
) -> Outcome:
    """Makes or brings up to date the table of a folder, a .csv or .sqlite file.

    by: turn, threads, processes (jobs of them, one a core where none is said), or cluster, which is dask.distributed at the address `cluster`; its workers need this package and the
    folder at the same path. bunch: how many files a worker takes at a time. anew: tells changes by the sha256 of every file, not by size and time. progress: called with how many files are
    done, and how many there are. Rows are put into the table once a second, and whenever this ends; a run that was killed has lost the rows of its last second.

    A script that calls this with processes begins with `if __name__ == "__main__":`, since its workers import it.
    """
    if by not in ROADS:
        raise ValueError(f"by is one of {', '.join(ROADS)}")
    began, place = time.perf_counter(), os.path.abspath(folder)
    names = names_in(place)
    store = store_of(Path(output))
    rows = store.rows()
    known = {name: Known(row.size, row.time, row.sha256) for name in names if (row := rows.get(shown(name))) and row.sha256}
    bunches = [[(name, known.get(name)) for name in names[n : n + bunch]] for n in range(0, len(names), bunch)]
    workers = max(1, jobs or len(os.sched_getaffinity(0)))
    done = made = 0
    with _Pending(store) as pending:
        for given, fresh in road("cluster" if cluster else by, place, bunches, workers, cluster, anew):
            new = [row for row in fresh if row is not None]
            pending.add(new)
            rows.update((row.file, row) for row in new)
            made, done = made + len(new), done + len(given)
            if progress:
                progress(done, len(names))
    whole = [rows[shown(name)] for name in names]
    store.finish(whole)
    return _outcome(whole, made, time.perf_counter() - began)


class _Pending:
    """Rows on their way into the table: put once a second, and at the end, however that comes."""

    def __init__(self, store: Store) -> None:
        self._store, self._put_at = store, time.monotonic()
        self._rows: List[Row] = []

    def __enter__(self) -> "_Pending":
        return self

    def add(self, rows: Sequence[Row]) -> None:
        self._rows.extend(rows)
        if time.monotonic() - self._put_at > 1:
            self._put()

    def _put(self) -> None:
        if self._rows:
            self._store.put(self._rows)
        self._rows, self._put_at = [], time.monotonic()

    def __exit__(self, *_: Any) -> None:
        self._put()


def _outcome(rows: Sequence[Row], made: int, seconds: float) -> Outcome:
    accepted, refused = (sum(row.verdict == verdict for row in rows) for verdict in (ACCEPTED, REFUSED))
    return Outcome(len(rows), made, len(rows) - made, accepted, refused, len(rows) - accepted - refused, seconds)


class Bar:
    """A progress bar on standard error: tqdm's where that is installed, else a line that counts. Shows nothing where standard error is no terminal."""

    def __init__(self) -> None:
        self._bar: Any = None
        self._shows = sys.stderr.isatty()

    def __call__(self, done: int, files: int) -> None:
        if not self._shows:
            return
        try:
            from tqdm import tqdm
        except ImportError:
            print(f"\r{done} of {files} files", end="\n" if done == files else "", file=sys.stderr, flush=True)
            return
        if self._bar is None:
            self._bar = tqdm(total=files, unit=" files", file=sys.stderr)
        self._bar.update(done - self._bar.n)
        if done == files:
            self._bar.close()
