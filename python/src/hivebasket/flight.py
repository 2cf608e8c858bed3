"""A file checked: what the check says of it."""
from __future__ import annotations

import ctypes
import datetime
from dataclasses import dataclass, field

from ._library import library
from .refusals import answered
from .source import Source, held


@dataclass(frozen=True)
class Flight:
    """What the check says of a file, with the file's bytes. Every other function takes it in place of the file, which is then not read again."""

    date: datetime.date
    lines: int
    fixes: int
    k_lines: int
    n_lines: int
    signed: bool
    data: bytes = field(repr=False)


def check(source: Source, *, strict: bool = False) -> Flight:
    """Checks a whole file. Raises Refused where it breaks a rule; with strict=True, for a claim, also where it has no G line.

    >>> check(b"AXYZ001\\r\\nHFDTE150724\\r\\nB1200005130000N00015000WA0010000120\\r\\n")
    Flight(date=datetime.date(2024, 7, 15), lines=3, fixes=1, k_lines=0, n_lines=0, signed=False)
    """
    data = held(source)
    answer = answered(library.hive_count, data, len(data), of=data)
    lines = int(answer[5])
    if strict:
        table = (ctypes.c_uint32 * lines)()
        answer = answered(library.hive_check_strict, data, len(data), table, lines, of=data)
    return Flight(datetime.date(answer[4], answer[3], answer[2]), lines, answer[6], answer[7], answer[10], bool(answer[12]), data)


def checked(source: Source) -> Flight:
    """The flight itself, or the check of the file."""
    return source if isinstance(source, Flight) else check(source)
