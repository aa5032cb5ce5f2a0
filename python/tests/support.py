"""What several tests need."""
import os
import subprocess
import sys
import unittest
from pathlib import Path

import mc33

try:
    import numpy
except ImportError:
    numpy = None

PACKAGE = Path(__file__).resolve().parent.parent
TIED = [1, -1, 1, -1, -1, -1, -1, -1]
LEVEL = [3, -1, -1, -1, -1, -1, 3, -1]
UNTILED = [1, 2, 1, 2, 1, 4, 1, 4]
CORNERS = TIED + LEVEL + UNTILED
NUMBERS = [3, 0, 4, 0, 13, 0]
ROWS = bytes([4, 0, 0, 0, 0, 1, 6, 0, 0, 6, 0, 3, 255, 0, 5, 0, 0, 6])
# The rows of the same corners by their signs: the last are all above 0.
ROWS_BY_SIGNS = ROWS[:12] + bytes(6)

needs_numpy = unittest.skipUnless(numpy, "numpy is not there")


def said(routine, *arguments):
    """The answer, or the refusal's number."""
    try:
        return routine(*arguments)
    except mc33.Refused as refused:
        return refused.number


def run(*arguments, timeout=120, library=None, path=PACKAGE, LD_LIBRARY_PATH="", **others):
    """Runs this python with the package at hand."""
    environment = {**os.environ, "PYTHONPATH": str(path), "LD_LIBRARY_PATH": LD_LIBRARY_PATH}
    if library is not None:
        environment["MC33_LIBRARY"] = str(library)
    for stream in ("stdout", "stderr"):
        others.setdefault(stream, subprocess.PIPE)
    return subprocess.run([sys.executable, *map(str, arguments)], env=environment, timeout=timeout, **others)
