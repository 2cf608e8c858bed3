"""IGC flight recorder files, checked and read by proved functions.

    flight = hivebasket.check("flight.igc")       # raises hivebasket.Refused, with number, line and byte
    fixes = hivebasket.track(flight)              # a numpy array of records
    lat, lon = hivebasket.degrees(fixes)
    noise = hivebasket.columns(flight, ["ENL"])["ENL"]
    hivebasket.plot(flight).savefig("flight.png")

What a call answers is proved for every input, but for the compiler's back end. Python only calls, converts and shows: no fact about a file is worked out here.
"""
from __future__ import annotations

from .columns import NO_NUMBER, Column, columns, layout
from .declaration import Declaration, Point, declaration
from .flight import Flight, check
from .frames import to_pandas
from .lines import NOTE, Line, Lines, lines
from .merging import merge
from .moments import Moment
from .plot import plot
from .refusals import Refused
from .shelf import Shelf
from .summary import Summary, summary
from .track import RECORD, Fix, Times, degrees, times, track

__all__ = [
    "check", "track", "columns", "layout", "summary", "merge", "degrees", "times", "declaration", "lines", "to_pandas", "plot", "Shelf", "Refused",
    "Flight", "Fix", "Times", "Column", "Summary", "Moment", "Declaration", "Point", "Line", "Lines", "RECORD", "NO_NUMBER", "NOTE",
]
__version__ = "1.0.0"
