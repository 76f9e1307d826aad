"""The functions of the shared library, as include/uldhvamm.h declares them.

A table or a byte string passes as a pointer and the number of its entries. Byte strings pass as `bytes`, without a copy; tables pass as
ctypes arrays. Those that are written are each call's own, and a cost table that the enquirer reads may be shared by calls, so that what
the header asks of pointers holds.
"""

from __future__ import annotations

import ctypes
from pathlib import Path
from typing import Any, Callable, NamedTuple

_BYTES: list[Any] = [ctypes.c_char_p, ctypes.c_size_t]
_TABLE_8: list[Any] = [ctypes.POINTER(ctypes.c_uint8), ctypes.c_size_t]
_TABLE_16: list[Any] = [ctypes.POINTER(ctypes.c_uint16), ctypes.c_size_t]
_TABLE_32: list[Any] = [ctypes.POINTER(ctypes.c_uint32), ctypes.c_size_t]
_TABLE_64: list[Any] = [ctypes.POINTER(ctypes.c_uint64), ctypes.c_size_t]
_NUMBER: list[Any] = [ctypes.c_uint32]

# starts, ends, prices, landings
_LEGS_AND_LANDINGS: list[Any] = [*_TABLE_16, *_TABLE_16, *_TABLE_32, *_TABLE_16]

# by_end, places
_INDEX: list[Any] = [*_TABLE_16, *_TABLE_16]

# sheet, legs and landings, index of the legs, cells, marks, plan buffer, answer
_PLAN: list[Any] = [*_BYTES, *_LEGS_AND_LANDINGS, *_INDEX, *_TABLE_32, *_TABLE_8, *_TABLE_8, *_TABLE_64]

# sheet, plan file, legs and landings, marks, answer
_READ_PLAN: list[Any] = [*_BYTES, *_BYTES, *_LEGS_AND_LANDINGS, *_TABLE_8, *_TABLE_64]

# sheet, plan file, legs and landings, marks, shares, answer
_SHARES: list[Any] = [*_BYTES, *_BYTES, *_LEGS_AND_LANDINGS, *_TABLE_8, *_TABLE_32, *_TABLE_64]

# cells, sites, stations, site, subset, answer
_CELL: list[Any] = [*_TABLE_32, *_NUMBER, *_NUMBER, *_NUMBER, *_NUMBER, *_TABLE_64]

# cells, landings, sites, stations, subset, answer
_BEST_SENDER: list[Any] = [*_TABLE_32, *_TABLE_16, *_NUMBER, *_NUMBER, *_NUMBER, *_TABLE_64]


# The number of the interface that is declared here.
INTERFACE = 3


class Functions(NamedTuple):
    """The functions, without `uldhvamm_` before their names. Each takes the arguments of the header, in its order, and returns its number.

    A number of four bytes is passed as its lowest 32 bits: that it fits is for the caller to test.
    """

    plan: Callable[..., int]
    read_plan: Callable[..., int]
    shares: Callable[..., int]
    cell: Callable[..., int]
    best_sender: Callable[..., int]


def functions_of(path: Path) -> Functions:
    """The functions of the shared library at this path. A library with another interface or without one of them is an `ImportError`."""
    shared = ctypes.CDLL(str(path.absolute()))
    interface = _interface_of(shared)
    if interface != INTERFACE:
        raise ImportError(f"{path} has interface {interface}, and this package has interface {INTERFACE}")
    try:
        return _functions_in(shared)
    except AttributeError as fault:
        raise ImportError(f"{path} lacks a function: {fault}") from None


def _functions_in(shared: ctypes.CDLL) -> Functions:
    """The functions of a shared library. One that it lacks is an `AttributeError`."""
    return Functions(
        plan=_declared(shared.uldhvamm_plan, _PLAN),
        read_plan=_declared(shared.uldhvamm_read_plan, _READ_PLAN),
        shares=_declared(shared.uldhvamm_shares, _SHARES),
        cell=_declared(shared.uldhvamm_cell, _CELL),
        best_sender=_declared(shared.uldhvamm_best_sender, _BEST_SENDER),
    )


def _interface_of(shared: ctypes.CDLL) -> int:
    """The interface of a shared library; 0 where it does not say which it has."""
    try:
        asked = _declared(shared.uldhvamm_interface, [])
    except AttributeError:
        return 0
    return asked()


def _declared(function: Any, arguments: list[Any]) -> Callable[..., int]:
    """A function of the library with its types declared."""
    function.argtypes = arguments
    function.restype = ctypes.c_uint32
    declared: Callable[..., int] = function
    return declared
