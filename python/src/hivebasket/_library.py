"""The shared library (c/hivebasket.h) by ctypes: where it lies, what each call takes, and the lent answer of sixteen numbers."""
from __future__ import annotations

import ctypes
import os
import platform
from pathlib import Path
from typing import Any, Callable, Dict, Iterator, Optional

_WORDS: Dict[str, Any] = {"B": ctypes.c_uint8, "I": ctypes.c_uint32, "Q": ctypes.c_uint64, "n": ctypes.c_size_t, "p": ctypes.c_void_p}

# What a call takes, a letter for each word of c/hivebasket.h. Behind each p, a pointer, stands n, how many elements it leads to.
_CALLS = {
    "hive_count": "pnpn",
    "hive_check_strict": "pnpnpn",
    "hive_check": "pnpnpn",
    "hive_line": "pnpnnpn",
    "hive_kinds": "pnpnpn",
    "hive_column_at": "pnnpn",
    "hive_track": "pnpnpn",
    "hive_columns": "pnBpnpnpn",
    "hive_summary": "pnIpnpn",
    "hive_declaration": "pnpnpn",
    "hive_degrees": "QBBQBBpn",
    "hive_merge": "pnpnpnpn",
    "hive_shelf_add": "pnIpnpn",
    "hive_shelf_ask": "pnIpn",
    "hive_shelf_remove": "pnIpn",
    "hive_shelf_pack": "pnpn",
    "hive_name": "Ipnpn",
    "hive_explain": "pnIIIpnpn",
}

ANSWER = 16
Answer = ctypes.c_uint64 * ANSWER
Call = Callable[..., int]


def _places() -> Iterator[Path]:
    """Where the library may lie: where HIVEBASKET_LIBRARY says, in the wheel, and in the repository."""
    told, here = os.environ.get("HIVEBASKET_LIBRARY"), Path(__file__).resolve()
    if told:
        yield Path(told)
        return
    yield here.with_name("libhivebasket.so")
    if len(here.parents) > 3:
        yield here.parents[3] / "target" / "lib" / platform.machine() / "libhivebasket.so"


class Library:
    """The loaded library. Each call is an attribute, bound when it is first used."""

    def __init__(self) -> None:
        self.path: Optional[Path] = next((place for place in _places() if place.exists()), None)
        if self.path is None:
            raise ImportError("libhivebasket.so is not there: c/build makes it, HIVEBASKET_LIBRARY names another place")
        self._loaded = ctypes.CDLL(str(self.path))

    def __getattr__(self, name: str) -> Call:
        words = _CALLS.get(name)
        if words is None:
            raise AttributeError(name)
        try:
            call = self._loaded[name]
        except AttributeError:
            raise NotImplementedError(f"{self.path} has no {name}: it is older than this package") from None
        call.argtypes = [_WORDS[word] for word in words]
        call.restype = ctypes.c_uint32
        bound: Call = call
        setattr(self, name, bound)
        return bound


library = Library()
