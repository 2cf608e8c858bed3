"""Two copies of a file with different notes, brought together."""
from __future__ import annotations

import ctypes

from ._library import ANSWER, Answer, library
from .refusals import Refused
from .source import LIMIT, Source, held


def merge(first: Source, second: Source) -> bytes:
    """Of two copies of a signed file, one that has the notes of both, those behind the last G line. The order of the copies changes nothing.

    >>> day = b"AXYZ001\\r\\nHFDTE150724\\r\\nGABC\\r\\n"
    >>> merge(day + b"LTWO\\r\\n", day + b"LONE\\r\\n")
    b'AXYZ001\\r\\nHFDTE150724\\r\\nGABC\\r\\nLONE\\r\\nLTWO\\r\\n'
    """
    one, other = held(first), held(second)
    room = min(len(one) + len(other), LIMIT)
    out, answer = ctypes.create_string_buffer(max(room, 1)), Answer()
    number = library.hive_merge(one, len(one), other, len(other), out, room, answer, ANSWER)
    if number:
        whose = answer[3]
        raise Refused(number, answer[0], answer[1], (b"", one, other)[whose], whose)
    return out.raw[: answer[2]]
