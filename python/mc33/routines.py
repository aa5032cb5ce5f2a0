"""The routines for a single cube, and the root."""
from __future__ import annotations

from typing import Iterable, NamedTuple, Optional

from .library import ChoiceRecord, CubeRecord, loaded
from .refusals import Refused
from .rows import Choice
from .tables import EMPTY, NO_TILING, TILINGS
from .values import single, whole

RISING, BEYOND, CROSSED, BLANK = "rising", "beyond", "crossed", "blank"
KINDS = {1: RISING, 2: BEYOND, 3: CROSSED, 4: BLANK}
TRUSTS = {1: "sure", 2: "turned", 3: "unknown"}


class Reading(NamedTuple):
    """What is read at an edge: 'rising', 'beyond' with t, 'crossed' with t and product, or 'blank'.

    A choice counts it as unsettled where the product is zero and where it is blank.
    """

    kind: str
    t: Optional[float] = None
    product: Optional[float] = None


class FaceTrust(NamedTuple):
    """A face answer, and whether it is the true join, that of the values as exact numbers: its trust.

    'sure': it is, or the exact numbers are a tie too. 'turned': they join the other two corners. 'unknown': the four
    values do not alternate, or the magnitude of one is not from 1e-6 as an f32 to 2^63.
    """

    answer: bool
    trust: str


class Family(NamedTuple):
    """A case (0 to 14) with one of its configurations; case 0 has -1 alone."""

    case: int
    configuration: int


def _cube(corners: Iterable[float]) -> CubeRecord:
    values = list(corners)
    if len(values) != 8:
        raise ValueError(f"a cube has 8 corner values, and these are {len(values)}")
    return CubeRecord(*(single(f"corners[{corner}]", value) for corner, value in enumerate(values)))


def _look_at(refusal: int) -> None:
    if refusal:
        raise Refused(refusal)


def choose(case: int, configuration: int, corners: Iterable[float]) -> Choice:
    """Chooses the tiling for a case (0 to 14), one of its configurations (-1 alone for case 0) and 8 corner values.

    Raises Refused 1, 2 and 3, in this order.
    """
    numbers = whole("case", case), whole("configuration", configuration)
    return _chosen(loaded().mc33_choose(*numbers, _cube(corners)))


def family_of(corner_set: int) -> Family:
    """The case and configuration of a set of corners, 0..255, whose bit n is corner n.

    The set of a cube is that of its corners above 0; a zero of either sign does not belong to it. 0 and 255 have
    case 0, and each other set is the only one of its case and configuration. The table that is looked into is proved
    to be what its rule says (docs/PROOFS.md of the repository).
    """
    said = loaded().mc33_family_of(whole("corner_set", corner_set, "B"))
    return Family(said.case, said.configuration)


def choose_signs(corners: Iterable[float]) -> Choice:
    """Chooses the tiling for 8 corner values by their signs: as `choose` for the family of the set of corners above 0.

    A zero of either sign does not belong to the set. Where no corner is a zero `unmatched` is 0.

    Raises Refused 3 alone.
    """
    return _chosen(loaded().mc33_choose_signs(_cube(corners)))


def _chosen(said: ChoiceRecord) -> Choice:
    _look_at(said.refusal)
    if said.code not in TILINGS and said.code not in (EMPTY, NO_TILING):
        raise ValueError(f"the library gave code {said.code}, which this version does not know")
    return Choice(said.code, said.row, said.column, said.centre, said.unsettled, said.unmatched, said.readings)


def test_face(corners: Iterable[float], face: int) -> bool:
    """Tests a face: -6..-1 or 1..6. Raises Refused 4, then 3."""
    said = loaded().mc33_face(_cube(corners), whole("face", face))
    _look_at(said.refusal)
    return bool(said.answer == 1)


def trust_face(corners: Iterable[float], face: int) -> FaceTrust:
    """Tests a face as `test_face` does, and tells whether the answer is the true join. Raises Refused 4, then 3.

    Let a, b, c, d be the values round the face and E = a×c - b×d, exact and not rounded: the true answer is True where
    face × a × E is above 0, and False where it is below. The face test rounds; below 2^-23 it has a tie, which goes by
    the face number's sign. So at ties, and nowhere else, an answer may be turned.

    Proved, of values that alternate with magnitudes from 1e-6 as an f32 to 2^63: it is sure where |E| is at least 2^-22
    and at least 2^-22 × (|a×c| + |b×d|), and where the answer is no tie. A choice goes by the answer, turned or not,
    and so do both cubes that meet at the face: there is no slot.
    """
    said = loaded().mc33_trust_face(_cube(corners), whole("face", face))
    _look_at(said.refusal)
    if said.trust not in TRUSTS:
        raise ValueError(f"the library gave a trust {said.trust}, which this version does not know")
    return FaceTrust(said.answer == 1, TRUSTS[said.trust])


def read_edge(corners: Iterable[float], edge: int) -> Reading:
    """Reads an edge: 0..11. Raises Refused 5, then 3."""
    said = loaded().mc33_edge(_cube(corners), whole("edge", edge))
    _look_at(said.refusal)
    if said.kind not in KINDS:
        raise ValueError(f"the library gave a reading of kind {said.kind}, which this version does not know")
    kind = KINDS[said.kind]
    t = said.t if kind in (BEYOND, CROSSED) else None
    return Reading(kind, t, said.product if kind == CROSSED else None)


def root(x: float) -> float:
    """The f32 square root, the nearest value: a NaN for a NaN and below zero, each zero and +infinity for itself."""
    return float(loaded().mc33_root(single("x", x)))


def root_bits(bits: int) -> int:
    """The same on bit patterns. The root of a NaN and of a value below zero is always 7fc00000."""
    return int(loaded().mc33_root_bits(whole("bits", bits, "I")))


def version() -> int:
    """The library's version, 1000 * major + minor. ImportError where there is no library."""
    return int(loaded().mc33_version())
