"""The refusals, by document 01's numbers. There is no 9."""
from __future__ import annotations

from typing import Dict, Optional

from .release import VERSION
from .tables import ROW

REFUSALS: Dict[int, str] = {
    1: "the case is below 0 or above 14",
    2: "the configuration is not one of the case's",
    3: "a corner is a NaN or infinite",
    4: "the face number is not -6..-1 or 1..6",
    5: "the edge number is not 0..11",
    6: "the list has not 8 corner values (and 2 numbers) a cube",
    7: f"the list has fewer than {ROW} answer bytes a cube",
    8: "the line is malformed",
}
# These are of a list as a whole: their place is 0 and names no cube.
OF_THE_WHOLE = (6, 7)


def refusal_text(number: int) -> str:
    """What a refusal's number means. A number that a later library gives has a text too."""
    return REFUSALS.get(number, f"a refusal that version {VERSION} of this package does not know")


class Refused(Exception):
    """No answer: the refusal's number, and for a list the refused cube's place, counted from 0 (0 for 6 and 7)."""

    def __init__(self, number: int, place: Optional[int] = None) -> None:
        super().__init__(number, place)
        self.number = number
        self.place = place

    def __str__(self) -> str:
        cube = "" if self.place is None or self.number in OF_THE_WHOLE else f"cube {self.place} "
        return f"{cube}refused {self.number}: {refusal_text(self.number)}"
