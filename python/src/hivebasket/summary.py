"""A flight in short: first and last fix, heights and box."""
from __future__ import annotations

import ctypes
from typing import NamedTuple, Optional, Tuple

from ._library import library
from .flight import checked
from .moments import Moment, moment
from .refusals import answered
from .source import Source
from .track import position

_TOLD, _RUN = 12, 256


class Summary(NamedTuple):
    """A flight in short. start, end: of the first and of the last fix. highest, lowest: pressure altitudes in metres. The box is of the fixes marked A, in degrees. None: nothing to tell."""

    fixes: int
    start: Optional[Moment]
    end: Optional[Moment]
    highest: Optional[int]
    lowest: Optional[int]
    south: Optional[float]
    north: Optional[float]
    west: Optional[float]
    east: Optional[float]


def summary(source: Source) -> Summary:
    """The summary of a file.

    >>> told = summary(b"AXYZ001\\r\\nHFDTE150724\\r\\nB1200005130000N00015000WA0010000120\\r\\n")
    >>> print(told.start, told.highest, told.south, told.west)
    2024-07-15T12:00:00Z 100 51.5 -0.25
    """
    flight = checked(source)
    data = flight.data
    room = _TOLD * (1 + -(-flight.fixes // _RUN))
    told = (ctypes.c_int32 * room)()
    answered(library.hive_summary, data, len(data), 0, told, room, of=data)
    fixes, day, seconds, last_day, last_seconds, highest, lowest, placed, south, north, west, east = told[:_TOLD]
    if not fixes:
        return Summary(0, *[None] * 8)
    start, end = moment(flight.date, day, seconds), moment(flight.date, last_day, last_seconds)
    if not placed:
        return Summary(fixes, start, end, highest, lowest, *[None] * 4)
    least, greatest = _corner(south, west), _corner(north, east)
    return Summary(fixes, start, end, highest, lowest, least[0], greatest[0], least[1], greatest[1])


def _corner(lat: int, lon: int) -> Tuple[float, float]:
    """A corner of the box, given in signed thousandths of a minute, in degrees."""
    return position(abs(lat), ord("S" if lat < 0 else "N"), 0, abs(lon), ord("W" if lon < 0 else "E"), 0)
