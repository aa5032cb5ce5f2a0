"""What documents 01 and 02 count: the codes with their names; each case's configurations and most readings."""
from __future__ import annotations

from typing import Dict

# The bytes of a cube's row in a list's answers: code, row, column, centre + 2 * unsettled, unmatched, readings.
ROW = 6

# Codes that are no tiling.
EMPTY = 0
NO_TILING = 255

# The tilings' names by code.
TILINGS: Dict[int, str] = dict(enumerate(
    "1 2 3_1 3_2 4_1 4_2 5 6_1_1 6_1_2 6_2 7_1 7_2 7_3 7_4_1 7_4_2 8 9 10_1_1 10_1_1_ 10_1_2 10_2 10_2_ 11 12_1_1 "
    "12_1_1_ 12_1_2 12_2 12_2_ 13_1 13_1_ 13_2 13_2_ 13_3 13_3_ 13_4 13_5_1 13_5_2 14".split(), 1))

# The configurations by case.
CONFIGURATIONS: Dict[int, range] = {0: range(-1, 0), **{
    case: range(count) for case, count in enumerate((16, 24, 24, 8, 48, 48, 16, 6, 8, 6, 12, 24, 2, 12), 1)}}

# How many readings a choice makes at most, by case.
MOST_READINGS: Dict[int, int] = dict(enumerate((0, 0, 0, 1, 3, 0, 2, 6, 0, 0, 3, 0, 4, 7, 0)))
