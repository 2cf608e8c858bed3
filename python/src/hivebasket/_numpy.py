"""numpy, or None where it is not installed."""
from __future__ import annotations

from typing import Any

numpy: Any
try:
    import numpy as _numpy

    numpy = _numpy
except ImportError:
    numpy = None
