"""The package's version. Its major number is the library's."""
from __future__ import annotations

VERSION = "5.2.0"
MAJOR = int(VERSION.split(".")[0])
