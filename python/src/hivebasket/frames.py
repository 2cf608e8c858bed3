"""A flight as a pandas table."""
from __future__ import annotations

from typing import Any

from .columns import NO_NUMBER, columns
from .flight import checked
from .source import Source
from .track import degrees, times, track


def to_pandas(source: Source) -> Any:
    """The fixes of a file as a pandas DataFrame: time, whether it is the leap second, degrees, altitudes, whether marked A, line, and a column of type Int64 for each column of the B lines.

    >>> data = b"AXYZ001\\r\\nHFDTE150724\\r\\nI023638FXA3940SIU\\r\\nB1200005130000N00015000WA001000012001208\\r\\n"
    >>> list(to_pandas(data).columns)
    ['time', 'leap', 'lat', 'lon', 'pressure', 'gnss', 'valid', 'line', 'FXA', 'SIU']
    """
    import pandas

    flight = checked(source)
    fixes = track(flight)
    (when, leap), (lat, lon) = times(fixes, flight.date), degrees(fixes)
    table = pandas.DataFrame({
        "time": when.astype("M8[ns]"),
        "leap": leap,
        "lat": lat,
        "lon": lon,
        "pressure": fixes["pressure"],
        "gnss": fixes["gnss"],
        "valid": fixes["valid"] == b"A",
        "line": fixes["line"],
    })
    found = columns(flight)
    for code in found.dtype.names or ():
        table[code] = pandas.array(found[code], dtype="Int64")
        table.loc[found[code] == NO_NUMBER, code] = pandas.NA
    return table
