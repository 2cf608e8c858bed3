"""The lines of a file: what each is, and its text."""
from __future__ import annotations

import ctypes
from typing import Iterator, List, NamedTuple, Sequence, Union, overload

from ._library import ANSWER, Answer, library
from .flight import checked
from .refusals import Refused, answered
from .source import Source

NOTE = "l"
"""The kind of a note: an L line behind the last G line."""


class Line(NamedTuple):
    """A line: its number, counted from 1; its kind, which is its letter, or NOTE; how many bytes of the file stand before it; and its text, without CR LF."""

    number: int
    kind: str
    start: int
    text: bytes


class Lines(Sequence[Line]):
    """The lines of a file, line 1 at place 0. A line is looked up when it is asked for.

    kinds: the kind of each line, as a text of one letter for each line.
    """

    def __init__(self, data: bytes, table: "ctypes.Array[ctypes.c_uint32]", kinds: str) -> None:
        self._data, self._table, self.kinds = data, table, kinds

    def __len__(self) -> int:
        return len(self.kinds)

    def _at(self, place: int) -> Line:
        data, number = self._data, place + 1
        answer = answered(library.hive_line, data, len(data), self._table, len(self._table), number)
        start, length = answer[2], answer[3]
        return Line(number, self.kinds[place], start, data[start : start + length])

    @overload
    def __getitem__(self, place: int) -> Line: ...
    @overload
    def __getitem__(self, place: slice) -> List[Line]: ...

    def __getitem__(self, place: Union[int, slice]) -> Union[Line, List[Line]]:
        if isinstance(place, slice):
            return [self._at(one) for one in range(len(self))[place]]
        return self._at(range(len(self))[place])

    def __iter__(self) -> Iterator[Line]:
        data, table, answer = self._data, self._table, Answer()
        for number, kind in enumerate(self.kinds, 1):
            refused = library.hive_line(data, len(data), table, len(table), number, answer, ANSWER)
            if refused:
                raise Refused(refused)
            start = answer[2]
            yield Line(number, kind, start, data[start : start + answer[3]])

    def of(self, kind: str) -> Iterator[Line]:
        """The lines of one kind, in their order."""
        place = self.kinds.find(kind)
        while place >= 0:
            yield self._at(place)
            place = self.kinds.find(kind, place + 1)


def lines(source: Source) -> Lines:
    """The lines of a file.

    >>> found = lines(b"AXYZ001\\r\\nHFDTE150724\\r\\nLONE\\r\\nGABC\\r\\nLTWO\\r\\n")
    >>> found.kinds
    'AHLGl'
    >>> found[1]
    Line(number=2, kind='H', start=9, text=b'HFDTE150724')
    >>> [line.text for line in found.of(NOTE)]
    [b'LTWO']
    """
    flight = checked(source)
    data, count = flight.data, flight.lines
    table, kinds = (ctypes.c_uint32 * count)(), ctypes.create_string_buffer(count)
    answered(library.hive_check, data, len(data), table, count, of=data)
    answered(library.hive_kinds, data, len(data), kinds, count, of=data)
    return Lines(data, table, kinds.raw.decode("ascii"))
