"""The library as ctypes sees it. include/kcore.h says what each function does."""

from __future__ import annotations

import ctypes
import os
import platform
from pathlib import Path
from typing import Any

DONE, WRONG_CORE_LENGTH, WRONG_ORDER_LENGTH, WRONG_MEMBERS_LENGTH, NOT_A_VERTEX, NO_MEMORY, NOT_CERTIFIED = range(7)
WRONG_RANK_LENGTH, WRONG_COUNTS_LENGTH = 7, 8
LOOP, GREATER_FIRST, NOT_ABOVE, NOT_AGREED = range(10, 14)
NOT_OPEN, TOO_MANY_VERTICES, TOO_FEW_VERTICES = range(14, 17)
WRONG_OFFSETS_LENGTH, NOT_FROM_ZERO, DESCENDING, LONG_ROW, WRONG_LAST_OFFSET = range(17, 22)

#: How many vertices a keeper can have, as KCORE_KEEPER_VERTICES of include/kcore.h has it.
KEEPER_VERTICES = 16777216

#: The version of this package and of the library that it calls.
__version__ = "0.1.0"


def _packed(version: str) -> int:
    major, minor, patch = map(int, version.split("."))
    return major << 16 | minor << 8 | patch


#: The same version as KCORE_VERSION of include/kcore.h has it.
VERSION = _packed(__version__)

# Where the library lies in an installed package, and where c/build.sh makes it and dist/library.sh unpacks it in a checkout.
_FILE = Path(__file__).resolve()
_PLACES = (_FILE.with_name("libkcore.so"), _FILE.parents[2] / "build" / "libkcore.so")

# Where Linux tells what the processor has, and what of that the library's instructions want. Some virtual machines hide it.
_PROCESSOR = Path("/proc/cpuinfo")
_WANTED = {"cx16", "popcnt", "ssse3", "sse4_1", "sse4_2"}

_REMEDY = "in the checkout unpack it by dist/library.sh or make it by c/build.sh, or name another in KCORE_LIBRARY"


class Edge(ctypes.Structure):
    """Two vertices that are joined."""

    _fields_ = [("u", ctypes.c_uint32), ("v", ctypes.c_uint32)]


class Answer(ctypes.Structure):
    """How a call ended: a status, and a number that goes with it."""

    _fields_ = [("status", ctypes.c_uint32), ("number", ctypes.c_size_t)]


def _dotted(version: int) -> str:
    return f"{version >> 16}.{version >> 8 & 255}.{version & 255}"


def _found() -> Path:
    """The path of the library: the one that KCORE_LIBRARY names, or else the first that is there."""
    named = os.environ.get("KCORE_LIBRARY")
    places = (Path(named),) if named else _PLACES
    for path in places:
        if path.exists():
            return path
    raise ImportError(f"there is no library {' or '.join(map(str, places))}: {_REMEDY}")


def _lacking() -> set[str]:
    """What this processor lacks of the level x86-64-v2, as far as Linux tells. There the first call would end the process."""
    if platform.machine() != "x86_64":
        return set()
    try:
        with _PROCESSOR.open() as told:
            flags = next((line for line in told if line.startswith("flags")), None)
    except OSError:
        return set()
    return _WANTED.difference(flags.split()) if flags else set()


def _load() -> ctypes.CDLL:
    """The library, loaded. Raises ImportError where there is none, it is of another version, or this processor can't run it."""
    path = _found()
    if lacking := _lacking():
        raise ImportError(f"{path} is for processors of the level x86-64-v2, and this one lacks {', '.join(sorted(lacking))}")
    try:
        library = ctypes.CDLL(str(path.resolve()))
    except OSError as cause:
        raise ImportError(f"{path} is no library that can be loaded ({cause}): {_REMEDY}") from None
    try:
        library.kcore_version.argtypes, library.kcore_version.restype = [], ctypes.c_uint32
    except AttributeError:
        raise ImportError(f"{path} tells no version, and this module calls version {__version__}: {_REMEDY}") from None
    version = library.kcore_version()
    if version != VERSION:
        raise ImportError(f"{path} is version {_dotted(version)}, and this module calls version {__version__}: {_REMEDY}")
    return library


_library = _load()
_number, _length, _list = ctypes.c_uint32, ctypes.c_size_t, ctypes.c_void_p


def _declared(name: str, result: Any, *arguments: Any) -> Any:
    function = getattr(_library, name)
    function.argtypes, function.restype = list(arguments), result
    return function


def _function(name: str, *arguments: Any) -> Any:
    return _declared(name, Answer, _number, *arguments)


def _keeper_function(name: str, *arguments: Any) -> Any:
    return _declared(name, Answer, _list, *arguments)


_edges = (_list, _length)
_numbers = (_list, _length)
_rows = (*_numbers, *_numbers)
core_numbers = _function("kcore_core_numbers", *_edges, *_numbers)
degeneracy_order = _function("kcore_degeneracy_order", *_edges, *_numbers, *_numbers)
check = _function("kcore_check", *_edges, *_numbers, *_numbers)
k_core = _function("kcore_k_core", *_edges, _number, *_numbers)
core_numbers_csr = _function("kcore_core_numbers_csr", *_rows, *_numbers)
degeneracy_order_csr = _function("kcore_degeneracy_order_csr", *_rows, *_numbers, *_numbers)
check_csr = _function("kcore_check_csr", *_rows, *_numbers, *_numbers)
k_core_csr = _function("kcore_k_core_csr", *_rows, _number, *_numbers)
tally = _function("kcore_tally", Edge, *_edges, *_numbers, *_numbers, *_numbers)
verdict = _function("kcore_verdict", *_numbers, *_numbers)
h_index_round = _declared("kcore_h_index_round", Answer, *_numbers, *_numbers, *_numbers, *_numbers)
keeper_size = _declared("kcore_keeper_size", _length)
keeper_align = _declared("kcore_keeper_align", _length)
keeper_open = _keeper_function("kcore_keeper_open", _number, *_edges)
keeper_apply = _keeper_function("kcore_keeper_apply", _list, _length)
keeper_changes = _keeper_function("kcore_keeper_changes", _length, _list, _length)
keeper_grow = _keeper_function("kcore_keeper_grow", _number)
keeper_core_numbers = _keeper_function("kcore_keeper_core_numbers", *_numbers)
keeper_order = _keeper_function("kcore_keeper_order", *_numbers)
keeper_before = _keeper_function("kcore_keeper_before", _number, _number)
keeper_end = _declared("kcore_keeper_end", None, _list)
