"""The declaration of a file: its head and its points."""
from __future__ import annotations

import ctypes
import datetime
from typing import NamedTuple, Optional, Tuple

from ._library import library
from .moments import Moment, moment
from .refusals import answered
from .source import Source, held
from .track import position

_MOST_NUMBERS = 6 * (99 + 4)


class Point(NamedTuple):
    """A declared point: take-off, start, turn 1 and so on, finish or landing; its degrees, south and west negative; and the text of its line."""

    role: str
    lat: float
    lon: float
    text: str


class Declaration(NamedTuple):
    """A declaration: when it was made; the day that it is for, None where that is not given; its task's number, its number of turn points, and its text; the number of its first line; and its points."""

    declared: Moment
    flight: Optional[datetime.date]
    task: int
    turns: int
    text: str
    line: int
    points: Tuple[Point, ...]


def declaration(source: Source) -> Optional[Declaration]:
    """The declaration of a file, None where it has none.

    >>> head, point = b"C150724093000000000000100TRY\\r\\n", b"C5130000N00015000W%s\\r\\n"
    >>> points = b"".join(point % name for name in (b"FIELD", b"LINE", b"RING", b"FIELD"))
    >>> told = declaration(b"AXYZ001\\r\\nHFDTE150724\\r\\n" + head + points)
    >>> print(told.declared, told.flight, told.task, told.turns, told.text)
    2024-07-15T09:30:00Z None 1 0 TRY
    >>> told.points[1]
    Point(role='start', lat=51.5, lon=-0.25, text='LINE')
    """
    data = held(source)
    numbers = (ctypes.c_uint64 * _MOST_NUMBERS)()
    answer = answered(library.hive_declaration, data, len(data), numbers, len(numbers), of=data)
    day, month, year, seconds, flight_day, flight_month, flight_year, task, turns, count, line, start, length = answer[2:15]
    if not count:
        return None

    def text(at: int, wide: int) -> str:
        return data[at : at + wide].decode("latin-1")

    def point(n: int) -> Point:
        lat, lat_letter, lon, lon_letter, at, wide = numbers[6 * n : 6 * n + 6]
        return Point(_role(n, count), *position(lat, lat_letter, 0, lon, lon_letter, 0), text(at, wide))

    declared = moment(datetime.date(year, month, day), 0, seconds)
    flight = datetime.date(flight_year, flight_month, flight_day) if flight_day else None
    return Declaration(declared, flight, task, turns, text(start, length), line, tuple(point(n) for n in range(count)))


def _role(n: int, count: int) -> str:
    """What a point is, by its place among so many."""
    return {0: "take-off", 1: "start", count - 2: "finish", count - 1: "landing"}.get(n, f"turn {n - 1}")
