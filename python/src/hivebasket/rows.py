"""A row of a season's table: one file, checked and summed up, or why it is refused."""
from __future__ import annotations

import hashlib
import os
from typing import Dict, List, NamedTuple, Optional, Sequence, Tuple

from .flight import check
from .refusals import Refused
from .source import LIMIT
from .summary import summary

ACCEPTED, REFUSED, UNREAD = "accepted", "refused", "unread"


class Row(NamedTuple):
    """A file of a season. The first four tell whether it has changed; behind the verdict stand what the check and the summary say, then why it is refused. None: nothing to tell."""

    file: str
    size: Optional[int]
    time: Optional[int]
    sha256: Optional[str]
    verdict: str
    date: Optional[str] = None
    signed: Optional[int] = None
    lines: Optional[int] = None
    fixes: Optional[int] = None
    k_lines: Optional[int] = None
    n_lines: Optional[int] = None
    first: Optional[str] = None
    last: Optional[str] = None
    highest: Optional[int] = None
    lowest: Optional[int] = None
    south: Optional[float] = None
    north: Optional[float] = None
    west: Optional[float] = None
    east: Optional[float] = None
    number: Optional[int] = None
    name: Optional[str] = None
    line: Optional[int] = None
    byte: Optional[int] = None
    reason: Optional[str] = None


KINDS: Dict[str, type] = {name: str for name in Row._fields}
KINDS.update({name: int for name in ("size", "time", "signed", "lines", "fixes", "k_lines", "n_lines", "highest", "lowest", "number", "line", "byte")})
KINDS.update({name: float for name in ("south", "north", "west", "east")})


class Known(NamedTuple):
    """What an earlier season knows of a file: its size, its time in nanoseconds, and the sha256 of its bytes."""

    size: Optional[int]
    time: Optional[int]
    sha256: Optional[str]


Task = Tuple[str, Optional[Known]]
"""A file's name, and what is known of it."""


def shown(name: str) -> str:
    """A file's name as a table can have it: bytes that are no UTF-8, and characters that cannot be printed, are told as \\xNN."""
    text = os.fsencode(name).decode("utf-8", "backslashreplace")
    return "".join(one if one.isprintable() else one.encode("unicode_escape").decode("ascii") for one in text)


def row_of(folder: str, name: str, known: Optional[Known] = None, anew: bool = False) -> Optional[Row]:
    """The row of a file; None where the file is as it is known: of the same size and time; where anew is set, of the same bytes too."""
    told, path = shown(name), os.path.join(folder, name)
    try:
        found = os.stat(path)
        size, time = found.st_size, found.st_mtime_ns
        if known and not anew and (known.size, known.time) == (size, time):
            return None
        data, digest = _read(path)
    except OSError as error:
        return Row(told, None, None, None, UNREAD, reason=error.strerror or str(error))
    if known == Known(size, time, digest):
        return None
    return judged(Row(told, size, time, digest, ACCEPTED), data)


def judged(row: Row, data: bytes) -> Row:
    """The row of a file with what the library says of its bytes."""
    try:
        flight = check(data)
        told = summary(flight)
    except Refused as refused:
        return row._replace(verdict=REFUSED, number=refused.number, name=refused.name, line=refused.line, byte=refused.byte, reason=refused.reason)
    return row._replace(
        date=flight.date.isoformat(), signed=int(flight.signed), lines=flight.lines, fixes=flight.fixes, k_lines=flight.k_lines, n_lines=flight.n_lines,
        first=told.start and str(told.start), last=told.end and str(told.end), highest=told.highest, lowest=told.lowest,
        south=told.south, north=told.north, west=told.west, east=told.east,
    )


def _read(path: str) -> Tuple[bytes, str]:
    """The bytes of a file, of one over the limit a byte more than that; and the sha256 of all of them."""
    with open(path, "rb", buffering=0) as file:
        data = file.read(LIMIT + 1)
        digest = hashlib.sha256(data)
        while len(data) > LIMIT:
            more = file.read(1 << 20)
            if not more:
                break
            digest.update(more)
    return data, digest.hexdigest()


def rows_of(folder: str, tasks: Sequence[Task], anew: bool = False) -> List[Optional[Row]]:
    """The rows of some files, in their order: what a worker does at a time."""
    return [row_of(folder, name, known, anew) for name, known in tasks]
