"""Runs the examples in the docstrings of every module of the package, and those of python/README.md."""
import doctest
import importlib
import importlib.util
import pkgutil
import sys
from pathlib import Path

import hivebasket
from hivebasket._numpy import numpy

failed = tried = 0
for found in pkgutil.iter_modules(hivebasket.__path__):
    if found.name == "__main__" or found.name == "frames" and importlib.util.find_spec("pandas") is None:
        continue
    result = doctest.testmod(importlib.import_module(f"hivebasket.{found.name}"))
    failed, tried = failed + result.failed, tried + result.attempted
readme = Path(__file__).resolve().parents[1] / "README.md"
if numpy is not None:
    result = doctest.testfile(str(readme), module_relative=False)
    failed, tried = failed + result.failed, tried + result.attempted
print(f"done: {tried} examples")
sys.exit(1 if failed or tried < 30 else 0)
