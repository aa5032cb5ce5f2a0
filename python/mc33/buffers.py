"""Memory that is lent to the library: which fits, and where it starts.

A memoryview holds its memory: until it is released, an array, a bytearray and the like refuse to grow or shrink
(BufferError).
"""
from __future__ import annotations

import ctypes
import sys
from ctypes import POINTER, c_char_p, c_int, c_ssize_t, c_void_p, py_object
from reprlib import repr as shortened
from typing import Any, NamedTuple, Sequence

from .tables import ROW
from .values import made


class Items(NamedTuple):
    """What a buffer has to hold: items of the type `letter` (`type` in words) of `size` bytes, `width` a cube."""

    name: str
    letter: str
    type: str
    size: int
    width: int


CORNERS = Items("corners", "f", "f32", 4, 8)
NUMBERS = Items("numbers", "b", "i8", 1, 2)
ANSWERS = Items("answers", "B", "u8", 1, ROW)

OWN_ORDER = ("", "@", "=", "<" if sys.byteorder == "little" else ">")


class _Buffer(ctypes.Structure):
    """CPython's Py_buffer."""

    _fields_ = [
        ("buf", c_void_p), ("obj", c_void_p), ("len", c_ssize_t), ("itemsize", c_ssize_t), ("readonly", c_int),
        ("ndim", c_int), ("format", c_char_p), ("shape", c_void_p), ("strides", c_void_p), ("suboffsets", c_void_p),
        ("internal", c_void_p),
    ]


_get = ctypes.pythonapi.PyObject_GetBuffer
_get.restype, _get.argtypes = c_int, [py_object, POINTER(_Buffer), c_int]
_release = ctypes.pythonapi.PyBuffer_Release
_release.restype, _release.argtypes = None, [POINTER(_Buffer)]


def address(view: memoryview) -> int:
    """Where the memory of a contiguous view starts, until the view is released; 0 where it has no items."""
    buffer = _Buffer()
    _get(view, buffer, 0)
    try:
        start: int = buffer.buf if view.nbytes else 0
        return start
    finally:
        _release(buffer)


def held(values: Any, items: Items) -> memoryview:
    """Holds a buffer as it is, and an array made of any other values."""
    try:
        return memoryview(values)
    except TypeError:
        return memoryview(made(items.letter, items.name, values))


def held_room(answers: Any) -> memoryview:
    """Holds a buffer to be written."""
    try:
        return memoryview(answers)
    except TypeError:
        raise TypeError(f"answers are {shortened(answers)}, which is no buffer to write into") from None


def count(view: memoryview, items: Items) -> int:
    """How many items a view has. Its own itemsize is 0 for an empty ctypes array in Python 3.9."""
    return view.nbytes // items.size


def check_shape(shape: Sequence[int], items: Items) -> None:
    if len(shape) != 1 and (len(shape) != 2 or shape[1] != items.width):
        raise ValueError(f"{items.name} have the shape {tuple(shape)}; it has to be flat or (n, {items.width})")


def check(view: memoryview, items: Items) -> None:
    """Whether the library can be lent this memory as it is; if not, an error in words."""
    order, letter = view.format[:-1], view.format[-1:]
    if letter != items.letter or (items.size > 1 and order not in OWN_ORDER):
        wanted = f"{items.type} in this machine's byte order ({items.letter!r})"
        raise TypeError(f"{items.name} have items of format {view.format!r}; they have to be {wanted}")
    check_shape(view.shape or (), items)
    if not view.c_contiguous:
        raise BufferError(f"{items.name} are not contiguous in C order; make a copy of them")
    if address(view) % items.size:
        raise BufferError(f"{items.name} do not start at a multiple of {items.size} bytes; make a copy of them")


def check_room(view: memoryview) -> None:
    check(view, ANSWERS)
    if view.readonly:
        raise BufferError("answers are read-only")


def check_apart(room: memoryview, view: memoryview, items: Items) -> None:
    start, other = address(room), address(view)
    if start < other + view.nbytes and other < start + room.nbytes:
        raise ValueError(f"answers overlap {items.name} in memory")
