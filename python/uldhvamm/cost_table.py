"""Cost tables with their landing sets, which the planning leaves and the enquirer is lent."""

from __future__ import annotations

import ctypes
from typing import Any, Iterable

from .formats import fitting

# A cell for which there is no tree: "none" in document 01.
NO_COST = 4294967295


class CostTable:
    """A cost table with its landing sets and its numbers of sites and stations beside it.

    A subset of k stations is a number, in which station i is worth 2^i. Cell v times 2^k + W is the least total in cents of a tree from
    site v that reaches every station of W, or 4294967295 where there is none. Landing entry v is the set of the stations that are heard
    at site v, and 1024 more where the site may send. `Library.cost_table` gives the finished table of a sheet. A table may also be made
    of any numbers: what they mean then rests on whoever made it, and the enquirer refuses a bad head, too few cells or, for a best
    sender, too few landing entries. A cell or a head number that does not fit four bytes, or a landing entry that does not fit two, is a
    ValueError.
    """

    def __init__(self, sites: int, stations: int, cells: Iterable[int], landings: Iterable[int]) -> None:
        costs = [fitting("cell", cell, 4) for cell in cells]
        entries = [fitting("landing entry", entry, 2) for entry in landings]
        self._sites = fitting("number of sites", sites, 4)
        self._stations = fitting("number of stations", stations, 4)
        self._cells: Any = (ctypes.c_uint32 * len(costs))(*costs)
        self._landings: Any = (ctypes.c_uint16 * len(entries))(*entries)

    @classmethod
    def of_arrays(cls, sites: int, stations: int, cells: Any, landings: Any) -> CostTable:
        """A table of ctypes arrays of c_uint32 and of c_uint16, which are kept and not copied. Other arrays are a TypeError."""
        table = cls(sites, stations, (), ())
        table._cells = _array_of(ctypes.c_uint32, cells, "the cells are to be a ctypes array of c_uint32")
        table._landings = _array_of(ctypes.c_uint16, landings, "the landing entries are to be a ctypes array of c_uint16")
        return table

    @property
    def sites(self) -> int:
        """The number of sites."""
        return self._sites

    @property
    def stations(self) -> int:
        """The number of stations."""
        return self._stations

    @property
    def cells(self) -> tuple[int, ...]:
        """The cells, copied."""
        return tuple(self._cells)

    @property
    def landings(self) -> tuple[int, ...]:
        """The landing entries, copied."""
        return tuple(self._landings)

    @property
    def lent_cells(self) -> Any:
        """The cells as the library takes them. The library only reads them."""
        return self._cells

    @property
    def lent_landings(self) -> Any:
        """The landing entries as the library takes them. The library only reads them."""
        return self._landings

    def __repr__(self) -> str:
        counts = f"{len(self._cells)} cells, {len(self._landings)} landing entries"
        return f"CostTable(sites={self._sites}, stations={self._stations}, {counts})"


def _array_of(entry: Any, array: Any, fault: str) -> Any:
    """The array, where it is a ctypes array of such entries; else a TypeError with these words."""
    if not isinstance(array, ctypes.Array) or array._type_ is not entry:
        raise TypeError(fault)
    return array
