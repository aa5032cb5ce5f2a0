"""Choices for lists of cubes."""
from __future__ import annotations

from typing import Any, Iterable, Sequence, Tuple, TypeVar, overload

from .buffers import ANSWERS, CORNERS, NUMBERS, Items, address, check, check_apart, check_room, count, held, held_room
from .library import loaded
from .refusals import Refused
from .tables import ROW

Room = TypeVar("Room")
Lent = Tuple[memoryview, Items]


def _fill(name: str, given: Sequence[Lent], answers: memoryview) -> None:
    """Lends the library's list function what is given, and the answers."""
    check_room(answers)
    for view, items in given:
        check_apart(answers, view, items)
    lent = *given, (answers, ANSWERS)
    outcome = getattr(loaded(), name)(*(part for view, items in lent for part in (address(view), count(view, items))))
    if outcome.refusal:
        raise Refused(outcome.refusal, outcome.place)


def _answered(name: str, given: Sequence[Lent], answers: Any) -> Any:
    """The answers, a new bytearray where there are none, with a row for each cube; `given` begins with the corners."""
    for view, items in given:
        check(view, items)
    if answers is None:
        answers = bytearray(count(*given[0]) // CORNERS.width * ROW)
    with held_room(answers) as room:
        _fill(name, given, room)
    return answers


@overload
def choose_list(  # type: ignore[misc]  # None fits Room too, and the first one stands
    corners: Iterable[float], numbers: Iterable[int], answers: None = None) -> bytearray: ...


@overload
def choose_list(corners: Iterable[float], numbers: Iterable[int], answers: Room) -> Room: ...


def choose_list(corners: Iterable[float], numbers: Iterable[int], answers: Any = None) -> Any:
    """Chooses for a list of cubes: 8 corner values and 2 numbers (case and configuration) a cube.

    Gives `answers`, or a new bytearray without them, with a row of ROW bytes a cube: code, row, column,
    centre + 2 * unsettled, unmatched, readings. `columns` and `choices` read the rows; bytes past the last cube's
    stay as they are.

    Contiguous buffers are taken without a copy: corners of f32 (array('f'), numpy float32), flat or (n, 8); numbers
    of i8, flat or (n, 2); answers of u8 that can be written, flat or (n, ROW). Corners and numbers may also be lists
    or other iterables of numbers. Buffers that do not fit are a TypeError, ValueError or BufferError.

    The buffers are held for the length of the call, in which other threads run: they cannot be resized meanwhile
    (BufferError). Their values should not be changed meanwhile either; the rows are then of neither list.

    Raises Refused with the number and the cube's place; a refused list has every answer byte unchanged.
    """
    with held(corners, CORNERS) as cubes, held(numbers, NUMBERS) as pairs:
        return _answered("mc33_list", [(cubes, CORNERS), (pairs, NUMBERS)], answers)


@overload
def choose_list_signs(  # type: ignore[misc]  # as above
    corners: Iterable[float], answers: None = None) -> bytearray: ...


@overload
def choose_list_signs(corners: Iterable[float], answers: Room) -> Room: ...


def choose_list_signs(corners: Iterable[float], answers: Any = None) -> Any:
    """Chooses for a list of cubes by their signs, as `choose_signs` for each: 8 corner values a cube, and no numbers.

    Corners and answers are taken, held and given as in `choose_list`, and the rows are the same. A corner belongs to
    its cube's set if its value is above 0; a zero of either sign does not.

    Raises Refused 6, 7, or 3 with the place of the first cube that is not finite; a refused list has every answer byte
    unchanged.
    """
    with held(corners, CORNERS) as cubes:
        return _answered("mc33_list_signs", [(cubes, CORNERS)], answers)
