"""The bytes of a file, from whatever a caller has of it."""
from __future__ import annotations

import mmap
import os
from typing import TYPE_CHECKING, Union

if TYPE_CHECKING:
    from .flight import Flight

Data = Union[bytes, bytearray, memoryview, mmap.mmap]
Source = Union[Data, str, "os.PathLike[str]", "Flight"]
"""A file: its bytes, or a memory map of them; its path, as text or as a Path; or the Flight that `check` gave."""

LIMIT = 16_777_216
"""The most bytes that a file may have. Of a longer one a byte more is read, so that the library refuses it."""


def held(source: Source) -> bytes:
    """The bytes of a file. All but bytes are copied, so that no other thread can change what a call reads."""
    if isinstance(source, bytes):
        return source
    if isinstance(source, (bytearray, memoryview, mmap.mmap)):
        return bytes(memoryview(source))
    if isinstance(source, (str, os.PathLike)):
        with open(source, "rb") as file:
            return file.read(LIMIT + 1)
    return source.data
