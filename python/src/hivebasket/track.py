"""All fixes of a file: as a numpy array of records, or as a list where numpy is not installed; their degrees and their times."""
from __future__ import annotations

import ctypes
import datetime
import struct
from typing import Any, NamedTuple, Tuple

from ._library import library
from ._numpy import numpy
from .flight import checked
from .moments import LEAP, moment
from .refusals import Refused, answered
from .source import Source


class Fix(NamedTuple):
    """A fix. time, lat and lon are counts, of seconds of the day and of thousandths of a minute, times ten for each of their decimals; the altitudes are metres."""

    line: int
    day: int
    time: int
    time_decimals: int
    lat: int
    lat_letter: bytes
    lat_decimals: int
    lon: int
    lon_letter: bytes
    lon_decimals: int
    valid: bytes
    pressure: int
    gnss: int


SIZE = 64
_RECORD = struct.Struct("<IIIB3xQcB6xQcB6xc3xii4x")
RECORD: Any = None if numpy is None else numpy.dtype({
    "names": list(Fix._fields),
    "formats": ["u4", "u4", "u4", "u1", "u8", "S1", "u1", "u8", "S1", "u1", "S1", "i4", "i4"],
    "offsets": [0, 4, 8, 12, 16, 24, 25, 32, 40, 41, 48, 52, 56],
    "itemsize": SIZE,
})
"""The numpy type of a record, struct hive_record of c/hivebasket.h; None without numpy."""

Fixes = Any
"""A numpy array of RECORD; without numpy a list of Fix."""


class Times(NamedTuple):
    """The times of fixes, and which of them are the leap second: `when` is then the midnight behind it. Arrays of datetime64[ms] and of bool; without numpy lists of datetime and of bool."""

    when: Any
    leap: Any


def track(source: Source) -> Fixes:
    """All fixes of a file, in the order of their lines.

    >>> fixes = track(b"AXYZ001\\r\\nHFDTE150724\\r\\nB1200005130000N00015000WA0010000120\\r\\n")
    >>> Fix(*fixes[0])
    Fix(line=3, day=0, time=43200, time_decimals=0, lat=3090000, lat_letter=b'N', lat_decimals=0, lon=15000, lon_letter=b'W', lon_decimals=0, valid=b'A', pressure=100, gnss=120)
    """
    flight = checked(source)
    data, count = flight.data, flight.fixes
    if numpy is None:
        room = ctypes.create_string_buffer(SIZE * count) if count else None
        answered(library.hive_track, data, len(data), room, count, of=data)
        return [Fix._make(fix) for fix in _RECORD.iter_unpack(room.raw if room else b"")]
    records = numpy.empty(count, RECORD)
    answered(library.hive_track, data, len(data), records.ctypes.data, count, of=data)
    return records


def position(lat: int, lat_letter: int, lat_decimals: int, lon: int, lon_letter: int, lon_decimals: int) -> Tuple[float, float]:
    """A position in degrees, as hive_degrees tells it."""
    told = (ctypes.c_double * 2)()
    number = library.hive_degrees(lat, lat_letter, lat_decimals, lon, lon_letter, lon_decimals, told, 2)
    if number:
        raise Refused(number)
    return told[0], told[1]


def degrees(fixes: Fixes) -> Tuple[Any, Any]:
    """Latitude and longitude in degrees, south and west negative, of one Fix, or of each of an array or list. Every bit is that of hive_degrees.

    >>> fixes = track(b"AXYZ001\\r\\nHFDTE150724\\r\\nB1200005130000N00015000WA0010000120\\r\\n")
    >>> lat, lon = degrees(fixes)
    >>> float(lat[0]), float(lon[0])
    (51.5, -0.25)
    """
    if isinstance(fixes, Fix):
        return position(fixes.lat, fixes.lat_letter[0], fixes.lat_decimals, fixes.lon, fixes.lon_letter[0], fixes.lon_decimals)
    if numpy is None or isinstance(fixes, list):
        pairs = [degrees(fix) for fix in fixes]
        return [lat for lat, _ in pairs], [lon for _, lon in pairs]
    return _degrees(fixes, "lat", b"S"), _degrees(fixes, "lon", b"W")


def _degrees(fixes: Fixes, name: str, negative: bytes) -> Any:
    """One division of exact numbers for each count, then the sign; added 0.0 makes a plain zero of a negative one."""
    whole = 60_000.0 * numpy.array([1.0, 10.0, 100.0, 1000.0, 10000.0])
    sign = numpy.where(fixes[name + "_letter"] == negative, -1.0, 1.0)
    return fixes[name] / whole[fixes[name + "_decimals"]] * sign + 0.0


def times(fixes: Fixes, date: datetime.date) -> Times:
    """The times of fixes of a flight of that date (`check(..).date`), and which of them are the leap second.

    >>> fixes = track(b"AXYZ001\\r\\nHFDTE311216\\r\\nB2359600000001S00000002EA0010000120\\r\\nB0000000000001S00000002EA0010000120\\r\\n")
    >>> when, leap = times(fixes, datetime.date(2016, 12, 31))
    >>> [bool(one) for one in leap]
    [True, False]
    >>> bool(when[0] == when[1])
    True
    """
    if numpy is None or isinstance(fixes, list):
        told = [moment(date, fix.day, fix.time, fix.time_decimals) for fix in fixes]
        return Times([one.when for one in told], [one.leap for one in told])
    tens = numpy.array([1, 10, 100, 1000])[fixes["time_decimals"]]
    count = fixes["time"].astype("i8")
    since = fixes["day"].astype("i8") * 86_400_000 + count * 1000 // tens
    return Times(numpy.datetime64(date, "ms") + since.astype("m8[ms]"), count // tens == LEAP)
