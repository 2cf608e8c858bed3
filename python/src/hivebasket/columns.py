"""The columns of B, K and N lines: where a file's own I, J and M lines say that they stand, and their numbers, a whole file at once."""
from __future__ import annotations

import ctypes
from typing import Any, Dict, Iterator, NamedTuple, Optional, Sequence, Tuple

from ._library import ANSWER, Answer, library
from ._numpy import numpy
from .flight import checked
from .lines import lines
from .refusals import Refused, answered
from .source import Source

NO_NUMBER = -(2**63)
"""What stands in an array for a column's text that is no number."""

MOST = 13
_LAYOUTS = {"B": "I", "K": "J", "N": "M"}


class Column(NamedTuple):
    """A column: its code, and its first and its last byte in the line, counted from 1."""

    code: str
    first: int
    last: int


def layout(source: Source, family: str = "B") -> Tuple[Column, ...]:
    """The columns of a file's B, K or N lines, as its I, J or M line tells them.

    >>> layout(b"AXYZ001\\r\\nHFDTE150724\\r\\nI023638FXA3940SIU\\r\\n")
    (Column(code='FXA', first=36, last=38), Column(code='SIU', first=39, last=40))
    """
    told = next(lines(source).of(_LAYOUTS[family]), None)
    return () if told is None else tuple(_columns_at(told.text))


def _columns_at(line: bytes) -> Iterator[Column]:
    """The columns that a layout line tells, up to the number that the library refuses."""
    answer = Answer()
    for n in range(1, MOST + 1):
        if library.hive_column_at(line, len(line), n, answer, ANSWER):
            return
        yield Column(bytes(answer[2:5]).decode("ascii"), answer[5], answer[6])


def columns(source: Source, codes: Optional[Sequence[str]] = None, family: str = "B") -> Any:
    """The numbers of columns, of each B, K or N line of a file: those of the codes given, or all that the file has.

    A numpy array with a field of type i8 for each code, NO_NUMBER where a text is no number. Without numpy a dict of a list for each code, None where a text is no number.

    >>> data = b"AXYZ001\\r\\nHFDTE150724\\r\\nI023638FXA3940SIU\\r\\nB1200005130000N00015000WA001000012001208\\r\\n"
    >>> [int(number) for number in columns(data, ["SIU"])["SIU"]]
    [8]
    """
    flight = checked(source)
    data = flight.data
    asked = [column.code for column in layout(flight, family)] if codes is None else list(codes)
    rows = {"B": flight.fixes, "K": flight.k_lines, "N": flight.n_lines}.get(family, 0)
    room = (ctypes.c_int64 * (rows * len(asked)))()
    if asked or codes is not None:
        three = b"".join(code.encode("latin-1") for code in asked)
        if any(len(code) != 3 for code in asked):
            raise Refused(17)
        answered(library.hive_columns, data, len(data), ord(family), three, len(three), room, len(room), of=data)
    return _shown(asked, rows, room)


def _shown(codes: Sequence[str], rows: int, room: Any) -> Any:
    """The list that a call filled, row by row, as columns."""
    if numpy is None:
        numbers = [None if number == NO_NUMBER else number for number in room]
        by_code: Dict[str, Any] = {code: numbers[n :: len(codes)] for n, code in enumerate(codes)}
        return by_code
    kind = numpy.dtype([(code, "<i8") for code in codes])
    return numpy.zeros(rows, kind) if not codes else numpy.frombuffer(room, kind) if rows else numpy.empty(0, kind)
