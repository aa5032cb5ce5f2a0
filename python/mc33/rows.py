"""Choices, and the rows of bytes in which lists give them."""
from __future__ import annotations

from itertools import starmap
from typing import Any, Collection, Dict, Iterable, List, NamedTuple, Tuple

from .buffers import ANSWERS, check, held
from .tables import EMPTY, NO_TILING, ROW, TILINGS

CODES = bytes([EMPTY, *TILINGS, NO_TILING])
CENTRES = bytes(rest % 2 for rest in range(256))
UNSETTLED = bytes(rest // 2 for rest in range(256))

# The kind of each code as a bit: EMPTY, a tiling, NO_TILING. A code that is none of them has no bit.
KINDS = bytes((code == EMPTY) + 2 * (code in TILINGS) + 4 * (code == NO_TILING) for code in range(256))

# What each byte behind the code can be: with EMPTY, with a tiling, with NO_TILING.
ANY, ZERO = range(256), range(1)
KNOWN: Dict[str, Tuple[Collection[int], ...]] = {
    "row": (ZERO, ANY, ANY),
    "column": (ZERO, ANY, ANY),
    "centre + 2 * unsettled": (ZERO, range(8), ZERO),
    "unmatched": (ZERO, range(4), ZERO),
    "readings": (ZERO, range(8), (6,)),
}


def _strange(known: Tuple[Collection[int], ...]) -> bytes:
    """For each value of a byte, the kinds of code with which it cannot be."""
    return bytes(sum(1 << kind for kind, values in enumerate(known) if byte not in values) for byte in range(256))


STRANGE = {name: _strange(known) for name, known in KNOWN.items()}


class Choice(NamedTuple):
    """What is chosen for a cube. A later major version may add fields at the end.

    `unsettled` is how many of its edge readings were crossed with a product of zero or blank, 0 to 3: the cube of all
    ones in case 4 has 3. Code EMPTY has zeros. Code NO_TILING has the configuration as row and the sub-configuration
    as column.

    `unmatched` is how many picks of an edge to read found no diagonal of the cube with both ends on the side that they
    look for, so that edge 0 was left over: 0 to 3, and 0 or all of the picks.

    `readings` is how many face tests and edge readings were made for the choice, and one more where the case-13 test
    was: at most MOST_READINGS of the case. Code EMPTY has 0, code NO_TILING 6.
    """

    code: int
    row: int
    column: int
    centre: int
    unsettled: int
    unmatched: int
    readings: int

    @property
    def name(self) -> str:
        """The tiling's name, as '10_1_1_'; '' where there is no tiling."""
        return TILINGS.get(self.code, "")


class Columns(NamedTuple):
    """The fields of all rows, each field's together: numpy arrays of uint8, or bytearrays without numpy."""

    code: Any
    row: Any
    column: Any
    centre: Any
    unsettled: Any
    unmatched: Any
    readings: Any


def _check_code(code: bytearray) -> None:
    strange = code.translate(None, CODES)
    if strange:
        raise ValueError(f"row {code.index(strange[0])} has code {strange[0]}, which no row of this version has")


def _check_behind(code: bytearray, behind: Iterable[bytearray]) -> None:
    """Whether the bytes behind the codes can be there. The rows are looked at together, as the bytes of one number."""
    kinds = int.from_bytes(code.translate(KINDS), "little")
    for (name, strange), column in zip(STRANGE.items(), behind):
        both = kinds & int.from_bytes(column.translate(strange), "little")
        if both:
            marks = both.to_bytes(len(code), "little")
            place = len(marks) - len(marks.lstrip(b"\0"))
            found = f"code {code[place]} and {name} {column[place]}"
            raise ValueError(f"row {place} has {found}, which no row of this version has")


def _split(answers: Iterable[int]) -> Columns:
    with held(answers, ANSWERS) as view:
        check(view, ANSWERS)
        rows = bytearray(view)
    if len(rows) % ROW:
        raise ValueError(f"answers have {len(rows)} bytes, which is no whole number of rows of {ROW} bytes")
    code, *behind = (rows[place::ROW] for place in range(ROW))
    _check_code(code)
    _check_behind(code, behind)
    row, column, rest, unmatched, readings = behind
    return Columns(code, row, column, rest.translate(CENTRES), rest.translate(UNSETTLED), unmatched, readings)


def columns(answers: Iterable[int]) -> Columns:
    """The columns of the rows that a list wrote, copied. ValueError for bytes that are no rows of this version.

    A list of four-byte rows, as versions before 5.0 wrote them, bears no mark: it may pass for other rows.
    """
    split = _split(answers)
    try:
        import numpy
    except ImportError:
        return split
    return Columns(*(numpy.frombuffer(column, numpy.uint8) for column in split))


def choices(answers: Iterable[int]) -> List[Choice]:
    """The choices that a list wrote. ValueError for bytes that are no rows of this version.

    A list of four-byte rows, as versions before 5.0 wrote them, bears no mark: it may pass for other rows.
    """
    return list(starmap(Choice, zip(*_split(answers))))
