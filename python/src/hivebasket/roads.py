"""Roads on which the files of a season are worked through: in turn, on threads, on processes, on a cluster. Each gives every bunch of files with its rows, in any order."""
from __future__ import annotations

import concurrent.futures
import functools
import multiprocessing
from concurrent.futures.process import BrokenProcessPool
from typing import Any, Callable, Iterator, List, Optional, Sequence, Tuple

from .rows import UNREAD, Row, Task, rows_of, shown

Bunch = Sequence[Task]
Done = Iterator[Tuple[Bunch, List[Optional[Row]]]]
_AHEAD = 4  # bunches under way for each worker
_TRIES = 3


def in_turn(work: Callable[[Bunch], List[Optional[Row]]], bunches: Sequence[Bunch]) -> Done:
    """One bunch after the other."""
    return ((bunch, work(bunch)) for bunch in bunches)


def on_pool(pool: concurrent.futures.Executor, workers: int, work: Callable[[Bunch], List[Optional[Row]]], bunches: Sequence[Bunch], under_way: List[Bunch]) -> Done:
    """On a pool, with a few bunches ahead for each worker. under_way: the bunches that are not given yet, also where the pool breaks."""
    waiting, futures = iter(bunches), {}
    under_way[:] = bunches
    while True:
        for bunch in waiting:
            futures[pool.submit(work, bunch)] = bunch
            if len(futures) >= _AHEAD * workers:
                break
        if not futures:
            return
        for future in concurrent.futures.wait(futures, return_when=concurrent.futures.FIRST_COMPLETED).done:
            bunch, rows = futures.pop(future), future.result()
            under_way.remove(bunch)
            yield bunch, rows


def on_threads(work: Callable[[Bunch], List[Optional[Row]]], bunches: Sequence[Bunch], workers: int) -> Done:
    """On threads of this process: a call of the library lets the others run."""
    with concurrent.futures.ThreadPoolExecutor(workers) as pool:
        yield from on_pool(pool, workers, work, bunches, [])


def on_processes(work: Callable[[Bunch], List[Optional[Row]]], bunches: Sequence[Bunch], workers: int) -> Done:
    """On processes. Where one of them is killed, the pool is made anew and what was under way is done again; at the third time file by file."""
    context = multiprocessing.get_context("forkserver")
    context.set_forkserver_preload(["hivebasket.rows"])
    left = list(bunches)
    for _ in range(_TRIES):
        try:
            with concurrent.futures.ProcessPoolExecutor(workers, context) as pool:
                yield from on_pool(pool, workers, work, left[:], left)
            return
        except BrokenProcessPool:
            continue
    for bunch in left:
        yield bunch, [row for task in bunch for row in _alone(context, work, task)]


def _alone(context: Any, work: Callable[[Bunch], List[Optional[Row]]], task: Task) -> List[Optional[Row]]:
    """One file in a process of its own; where that is killed, the row says so."""
    try:
        with concurrent.futures.ProcessPoolExecutor(1, context) as pool:
            return pool.submit(work, [task]).result()
    except BrokenProcessPool:
        return [Row(shown(task[0]), None, None, None, UNREAD, reason="the process that read it was killed")]


def on_cluster(work: Callable[[Bunch], List[Optional[Row]]], bunches: Sequence[Bunch], address: str) -> Done:
    """On the workers of a dask.distributed scheduler. What a lost worker had under way goes to another."""
    from distributed import Client, as_completed

    with Client(address) as client:
        workers = max(1, sum(client.nthreads().values()))
        waiting = iter(bunches)
        given = {}

        def give() -> Iterator[Any]:
            for bunch in waiting:
                future = client.submit(work, bunch, pure=False)
                given[future.key] = bunch
                yield future
                return

        done = as_completed([future for _ in range(_AHEAD * workers) for future in give()])
        for future in done:
            yield given.pop(future.key), future.result()
            for more in give():
                done.add(more)


def road(by: str, folder: str, bunches: Sequence[Bunch], workers: int, cluster: str = "", anew: bool = False) -> Done:
    """The road of that name: turn, threads, processes or cluster."""
    work = functools.partial(rows_of, folder, anew=anew)
    if by == "cluster":
        return on_cluster(work, bunches, cluster)
    if by == "processes":
        return on_processes(work, bunches, workers)
    if by == "threads":
        return on_threads(work, bunches, workers)
    return in_turn(work, bunches)
