"""Numbers made to fit the library's types, or an error that says which one does not."""
from __future__ import annotations

from array import array
from math import isfinite, isinf
from operator import index
from reprlib import repr as shortened
from typing import Any

RANGES = {"b": (-128, 127), "B": (0, 255), "I": (0, 2**32 - 1)}


def whole(name: str, value: Any, letter: str = "b") -> int:
    """A whole number in the range of the letter's type."""
    try:
        number = index(value)
    except TypeError:
        raise TypeError(f"{name} is {shortened(value)}, which is no whole number") from None
    low, high = RANGES[letter]
    if not low <= number <= high:
        raise OverflowError(f"{name} is {shortened(number)}, which is not in {low}..{high}")
    return number


def single(name: str, value: Any) -> float:
    """A number rounded to f32."""
    try:
        rounded: float = array("f", [value])[0]
        if isinf(rounded) and not isinf(value):
            raise OverflowError
    except TypeError:
        raise TypeError(f"{name} is {shortened(value)}, which is no number") from None
    except OverflowError:
        raise OverflowError(f"{name} is {shortened(value)}, which does not fit f32") from None
    return rounded


def _look_at_each(letter: str, name: str, values: Any) -> None:
    for place, value in enumerate(values):
        if letter == "f":
            single(f"{name}[{place}]", value)
        else:
            whole(f"{name}[{place}]", value, letter)


def made(letter: str, name: str, values: Any) -> "array[Any]":
    """An array of the values. A finite value that comes out infinite makes the sum infinite or a NaN."""
    try:
        listed = values if isinstance(values, (list, tuple)) else list(values)
    except TypeError:
        raise TypeError(f"{name} is {shortened(values)}, which is no buffer and no list of numbers") from None
    try:
        items = array(letter, listed)
    except (TypeError, OverflowError):
        _look_at_each(letter, name, listed)
        raise
    if not isfinite(sum(items)):
        _look_at_each(letter, name, listed)
    return items
