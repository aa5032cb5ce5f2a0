"""Files of corners, numbers and rows: raw little-endian items, or .npy where the name ends so. '-' is standard input
or output, raw. numpy is not needed."""
from __future__ import annotations

from array import array
from ast import literal_eval
from contextlib import contextmanager
from errno import EAGAIN
from math import prod
from os import strerror
from typing import IO, Any, Dict, Iterator

from .buffers import ANSWERS, Items, check_shape
from .tables import ROW

MAGIC = b"\x93NUMPY"
LONGEST_HEAD = 10000
TYPES = {"f": "<f4", "b": "|i1", "B": "|u1"}


class Malformed(ValueError):
    """A file that does not hold what it should."""


def _head(file: IO[bytes]) -> Dict[str, Any]:
    """The head of a .npy file: a magic word, two bytes of version, a length, and so many bytes of a dict."""
    start = file.read(8)
    if len(start) < 8 or not start.startswith(MAGIC):
        raise Malformed("it is no .npy file")
    length = int.from_bytes(file.read(2 if start[6] == 1 else 4), "little")
    try:
        head = literal_eval(file.read(min(length, LONGEST_HEAD)).decode("latin1"))
        if all(isinstance(side, int) and side >= 0 for side in head["shape"]):
            return {key: head[key] for key in ("descr", "fortran_order", "shape")}
    except (ValueError, SyntaxError, KeyError, TypeError, RecursionError, MemoryError):
        pass
    raise Malformed("its .npy head cannot be read")


def _check_head(head: Dict[str, Any], items: Items, length: int) -> None:
    wanted = TYPES[items.letter]
    if head["descr"] != wanted:
        raise Malformed(f"its items are of type {head['descr']!r}; {items.name} have to be {wanted!r}")
    check_shape(head["shape"], items)
    if head["fortran_order"] and len(head["shape"]) > 1:
        raise Malformed("its items are in Fortran order; they have to be in C order")
    asked = prod(head["shape"]) * items.size
    if length != asked:
        raise Malformed(f"it has {length} bytes of items, and its shape {head['shape']} asks for {asked}")


def _rest(file: IO[bytes]) -> bytearray:
    """The bytes up to the file's end, and no fewer where a descriptor would block."""
    data = bytearray()
    while True:
        part = file.read(1 << 20)
        if part is None:
            raise OSError(EAGAIN, strerror(EAGAIN))
        if not part:
            return data
        data += part


def _items(file: IO[bytes], items: Items, npy: bool) -> "array[Any]":
    head = _head(file) if npy else None
    data = _rest(file)
    if head:
        _check_head(head, items, len(data))
    if len(data) % items.size:
        raise Malformed(f"its {len(data)} bytes are no whole number of {items.type} values")
    values = array(items.letter)
    values.frombytes(data)
    return values


@contextmanager
def _opened(name: str, mode: str, standard: int) -> Iterator[IO[bytes]]:
    """The file, or for '-' the standard one. An OSError, also one from the closing, has the name."""
    try:
        with open(standard if name == "-" else name, mode, closefd=name != "-") as file:
            yield file
    except OSError as error:
        raise OSError(error.errno, error.strerror, name) from None


def read(name: str, items: Items) -> "array[Any]":
    """The items of a file. OSError where it cannot be read, Malformed where they are others."""
    try:
        with _opened(name, "rb", 0) as file:
            return _items(file, items, name.endswith(".npy"))
    except ValueError as error:
        raise Malformed(f"{name}: {error}") from None


def _npy_start(cubes: int) -> bytes:
    head = f"{{'descr': '{TYPES[ANSWERS.letter]}', 'fortran_order': False, 'shape': ({cubes}, {ROW}), }}"
    padding = -(len(MAGIC) + 4 + len(head) + 1) % 64
    text = (head + padding * " " + "\n").encode("ascii")
    return MAGIC + b"\x01\x00" + len(text).to_bytes(2, "little") + text


def write(name: str, rows: bytearray) -> None:
    """Writes the rows. OSError where they could not all be written."""
    with _opened(name, "wb", 1) as file:
        if name.endswith(".npy"):
            file.write(_npy_start(len(rows) // ROW))
        file.write(rows)
