"""The shared object and its functions, as include/mc33.h has them. It is loaded at the first call that needs it."""
from __future__ import annotations

import ctypes
import os
from ctypes import c_float, c_int8, c_size_t, c_uint8, c_uint32, c_uint64, c_void_p
from functools import lru_cache
from pathlib import Path
from typing import Any, Dict, List, Tuple

from .release import MAJOR, VERSION

BUILT = Path(__file__).resolve().parents[2] / "target" / "staticlib" / "libmc33.so"
INSTALLED = f"libmc33.so.{MAJOR}"
HOW = "Make it with ./install.sh at the top of the repository, or set MC33_LIBRARY to the file."


class CubeRecord(ctypes.Structure):
    _fields_ = [(f"c{corner}", c_float) for corner in range(8)]


class ChoiceRecord(ctypes.Structure):
    _fields_ = [(name, c_uint8) for name in (
        "refusal", "code", "row", "column", "centre", "unsettled", "unmatched", "readings")]


class FamilyRecord(ctypes.Structure):
    _fields_ = [("case", c_int8), ("configuration", c_int8)]


class FaceRecord(ctypes.Structure):
    _fields_ = [("refusal", c_uint8), ("answer", c_uint8)]


class FaceTrustRecord(ctypes.Structure):
    _fields_ = [(name, c_uint8) for name in ("refusal", "answer", "trust")]


class EdgeRecord(ctypes.Structure):
    _fields_ = [("refusal", c_uint8), ("kind", c_uint8), ("t", c_float), ("product", c_float)]


class OutcomeRecord(ctypes.Structure):
    _fields_ = [("refusal", c_uint64), ("place", c_uint64)]


# What each function gives and takes.
FUNCTIONS: Dict[str, Tuple[Any, List[Any]]] = {
    "mc33_version": (c_uint32, []),
    "mc33_choose": (ChoiceRecord, [c_int8, c_int8, CubeRecord]),
    "mc33_family_of": (FamilyRecord, [c_uint8]),
    "mc33_choose_signs": (ChoiceRecord, [CubeRecord]),
    "mc33_face": (FaceRecord, [CubeRecord, c_int8]),
    "mc33_trust_face": (FaceTrustRecord, [CubeRecord, c_int8]),
    "mc33_edge": (EdgeRecord, [CubeRecord, c_int8]),
    "mc33_root": (c_float, [c_float]),
    "mc33_root_bits": (c_uint32, [c_uint32]),
    "mc33_list": (OutcomeRecord, 3 * [c_void_p, c_size_t]),
    "mc33_list_signs": (OutcomeRecord, 2 * [c_void_p, c_size_t]),
}


def _opened(path: str) -> ctypes.CDLL:
    try:
        return ctypes.CDLL(path)
    except OSError as error:
        raise ImportError(f"mc33's shared object could not be loaded: {error}. {HOW}", path=path) from None


def _declare(library: ctypes.CDLL, path: str) -> None:
    for name, (gives, takes) in FUNCTIONS.items():
        try:
            function = getattr(library, name)
        except AttributeError:
            what = f"it is not mc33's shared object, or one before version {VERSION}"
            raise ImportError(f"{path} has no {name}, so {what}. {HOW}", path=path) from None
        function.restype, function.argtypes = gives, takes


def _where() -> str:
    """The file that MC33_LIBRARY names; or the one that the repository builds; or else the system's."""
    named = os.environ.get("MC33_LIBRARY")
    return os.path.abspath(named or BUILT) if named or BUILT.exists() else INSTALLED


@lru_cache(maxsize=None)
def loaded() -> ctypes.CDLL:
    """The library; ImportError without it."""
    path = _where()
    library = _opened(path)
    _declare(library, path)
    major, minor = divmod(library.mc33_version(), 1000)
    if major != MAJOR:
        found = f"{path} has version {major}.{minor}, and version {VERSION} of this package needs {MAJOR}"
        raise ImportError(f"{found}. {HOW}", path=path)
    return library
