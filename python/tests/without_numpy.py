"""Runs unittest as if numpy were not installed: without_numpy.py WORDS.."""
import sys
import unittest

sys.modules["numpy"] = None
if __name__ == "__main__":
    unittest.main(module=None)
