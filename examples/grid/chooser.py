"""The package mc33 of this repository, from wherever the example is started."""
import sys
from pathlib import Path

sys.path.insert(0, str(Path(__file__).resolve().parents[2] / "python"))
import mc33  # noqa: E402, F401
