"""A shelf of up to 64 flights in one buffer, as a mapping of flight numbers to files."""
from __future__ import annotations

import ctypes
import mmap
import struct
import threading
from typing import Any, Iterator, MutableMapping, Union

from ._library import Call, library
from .refusals import NOT_FOUND, Refused, answered
from .source import Source, held

_CONTENTS = 768


class Shelf(MutableMapping[int, bytes]):
    """Up to 64 flights by their numbers, in a buffer of 768 to 16,777,216 bytes. Given as a size, for an empty shelf, or as a buffer that can be written: a bytearray, a memory map.

    A file is checked before it is put on the shelf. A flight's bytes come back as they were put. A number that is in use is put anew by removing it first; where the new file is refused
    the old one stays.

    >>> data = b"AXYZ001\\r\\nHFDTE150724\\r\\nGABC\\r\\n"
    >>> shelf = Shelf(1000)
    >>> shelf[7] = data
    >>> shelf[7] == data, 7 in shelf, list(shelf)
    (True, True, [7])
    >>> del shelf[7]
    >>> shelf.pack()
    """

    def __init__(self, buffer: Union[int, bytearray, memoryview, mmap.mmap]) -> None:
        self._view = memoryview(bytearray(buffer) if isinstance(buffer, int) else buffer).cast("B")
        self._lent = (ctypes.c_uint8 * len(self._view)).from_buffer(self._view)
        self._one_at_a_time = threading.RLock()
        self._found(0)

    def _call(self, call: Call, *words: Any, of: bytes = b"") -> Any:
        with self._one_at_a_time:
            return answered(call, self._lent, len(self._view), *words, of=of)

    def _found(self, number: int) -> Any:
        """Where a flight's body stands; None where the shelf does not hold it."""
        try:
            return self._call(library.hive_shelf_ask, number)
        except Refused as refused:
            if refused.number == NOT_FOUND:
                return None
            raise

    def __getitem__(self, number: int) -> bytes:
        with self._one_at_a_time:
            found = self._found(number)
            if found is None:
                raise KeyError(number)
            return bytes(self._view[found[2] : found[2] + found[3]])

    def __setitem__(self, number: int, source: Source) -> None:
        data = held(source)
        with self._one_at_a_time:
            before = bytes(self._view) if number in self else None
            if before is not None:
                self._call(library.hive_shelf_remove, number)
            try:
                self._call(library.hive_shelf_add, number, data, len(data), of=data)
            except Refused:
                if before is not None:
                    self._view[:] = before
                raise

    def __delitem__(self, number: int) -> None:
        with self._one_at_a_time:
            if self._found(number) is None:
                raise KeyError(number)
            self._call(library.hive_shelf_remove, number)

    def __contains__(self, number: object) -> bool:
        return isinstance(number, int) and self._found(number) is not None

    def __iter__(self) -> Iterator[int]:
        """The numbers in the table of contents, each of which the library then finds."""
        with self._one_at_a_time:
            numbers = [number for number, _, _ in struct.iter_unpack("<III", self._view[:_CONTENTS])]
        return (number for number in numbers if self._found(number) is not None)

    def __len__(self) -> int:
        return sum(1 for _ in self)

    def pack(self) -> None:
        """Moves the flights to the front, without gaps."""
        self._call(library.hive_shelf_pack)

    def tobytes(self) -> bytes:
        """The whole buffer, as it stands in a file of `igc shelf`."""
        with self._one_at_a_time:
            return bytes(self._view)
