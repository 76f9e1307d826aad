"""The planner's library: loading it, lending it tables, and decoding what it answers."""

from __future__ import annotations

import ctypes
import os
import struct
from pathlib import Path
from typing import Any, Union

from .answers import Accepted, BestSender, Cell, Plan, PlannedLeg, Refusal, Shares
from .cost_table import NO_COST, CostTable
from .formats import fitting
from .native import Functions, functions_of

MAX_SITES = 1024
MAX_STATIONS = 10
MAX_LEGS = 8192

# What the enquirer writes where a subset has no best sender.
NO_SENDER = 18446744073709551615

# What the planning returns where it has filled the tables: 0 for a plan, 12 and 13.
_FINISHED = (0, 12, 13)

# The types of the tables for a sheet at the limits. A plan file has 10 bytes and 4 for each leg, and a tree has fewer legs than sites.
_LegSites = ctypes.c_uint16 * MAX_LEGS
_LegNumbers = ctypes.c_uint16 * MAX_LEGS
_LegPrices = ctypes.c_uint32 * MAX_LEGS
_SiteSets = ctypes.c_uint16 * MAX_SITES
_SitePlaces = ctypes.c_uint16 * (MAX_SITES + 1)
_SiteMarks = ctypes.c_uint8 * MAX_SITES
_PlanBytes = ctypes.c_uint8 * (10 + 4 * (MAX_SITES - 1))
_StationShares = ctypes.c_uint32 * MAX_STATIONS
_Answer = ctypes.c_uint64 * 3
_ShareAnswer = ctypes.c_uint64 * 4
_Value = ctypes.c_uint64 * 1


class _Tables:
    """The tables and the buffer that one call is lent, and its answer.

    All but the cells have the length that a sheet at the limits needs, about 90 kB together. So they are long enough for every good
    sheet, and no other sheet needs any. The cells of a sheet at the limits have 4 MB, which take longer to clear than a small sheet
    takes to plan. So their number is taken from the head, by `_cells_for`.
    """

    def __init__(self, cells: int) -> None:
        self.starts = _LegSites()
        self.ends = _LegSites()
        self.prices = _LegPrices()
        self.landings = _SiteSets()
        self.by_end = _LegNumbers()
        self.places = _SitePlaces()
        self.cells = (ctypes.c_uint32 * cells)()
        self.marks = _SiteMarks()
        self.plan = _PlanBytes()
        self.shares = _StationShares()
        self.answer = _Answer()

    def leg(self, number: int) -> PlannedLeg:
        """The leg with this number."""
        return PlannedLeg(number, self.starts[number], self.ends[number], self.prices[number])

    def planned(self) -> Plan:
        """The plan that the call has left."""
        root, total, count = self.answer[:]
        file = bytes(self.plan[: 10 + 4 * count])
        numbers = (number for _, number in struct.iter_unpack(">2sH", file[10:]))
        return Plan(root, total, tuple(self.leg(number) for number in numbers), file)


class Library:
    """The planning, the plan reader, the shares and the enquirer of a shared library.

    A call writes to tables of its own and keeps nothing, so one Library, and one CostTable, may be used in any number of threads at
    once. The interpreter's lock is free while the library works.
    """

    def __init__(self, path: Path) -> None:
        self._functions: Functions = functions_of(path)

    def plan(self, sheet: bytes) -> Union[Plan, Refusal]:
        """The cheapest plan for a sheet, or why there is none."""
        number, tables = self._planned(_plain(sheet))
        return tables.planned() if number == 0 else Refusal(number, tables.answer[0])

    def read_plan(self, sheet: bytes, file: bytes) -> Union[Accepted, Refusal]:
        """Whether a plan file is that of a directed tree of the sheet's legs, from a sender to every station, with its true total."""
        tables = _Tables(0)
        lent = _lent_to_reader(_plain(sheet), _plain(file), tables)
        number = self._functions.read_plan(*lent, *_lent(tables.answer))
        return Accepted(*tables.answer[:]) if number == 0 else Refusal(number, tables.answer[0])

    def shares(self, sheet: bytes, file: bytes) -> Union[Shares, Refusal]:
        """What each station pays of a plan file, or why the file is refused, as `read_plan` refuses it.

        A station sits at the lowest of its landings that the plan holds. The price of a leg is split over the stations that sit at its end
        or further on in the tree; the lowest of them pay the odd cents, one each.
        """
        given = _plain(sheet)
        tables, answer = _Tables(0), _ShareAnswer()
        lent = _lent_to_reader(given, _plain(file), tables)
        number = self._functions.shares(*lent, *_lent(tables.shares), *_lent(answer))
        if number != 0:
            return Refusal(number, answer[0])
        root, total, legs, unassigned = answer[:]
        _, stations = _head_of(given)
        return Shares(root, total, legs, tuple(tables.shares[:stations]), unassigned)

    def cost_table(self, sheet: bytes) -> Union[CostTable, Refusal]:
        """The cost table of a sheet and its landing sets, as the planning leaves them, also where there is no plan; or why the sheet is
        refused.
        """
        given = _plain(sheet)
        number, tables = self._planned(given)
        if number not in _FINISHED:
            return Refusal(number, tables.answer[0])
        sites, stations = _head_of(given)
        return CostTable.of_arrays(sites, stations, tables.cells, (ctypes.c_uint16 * sites)(*tables.landings[:sites]))

    def cell(self, table: CostTable, site: int, subset: int) -> Union[Cell, Refusal]:
        """The cell of a site and a subset of the stations, in which station i is worth 2^i.

        Refused are, in this order: a bad head (3), too few cells (11), a site (4) or a subset (5) that the table has not. A number that
        does not fit four bytes is a ValueError.
        """
        value = _Value()
        asked = [fitting("site", site, 4), fitting("subset", subset, 4)]
        _require_table(table)
        number = self._functions.cell(*_lent(table.lent_cells), table.sites, table.stations, *asked, *_lent(value))
        if number != 0:
            return Refusal(number, value[0])
        return Cell(None if value[0] == NO_COST else value[0])

    def best_sender(self, table: CostTable, subset: int) -> Union[BestSender, Refusal]:
        """Of the sites that may send, the lowest of those whose cell of a subset of the stations is least, where that is finite, or that
        there is none. Station i is worth 2^i in the subset.

        Refused are, in this order: a bad head (3), too few cells or landing entries (11), a subset that the table has not (5). A number
        that does not fit four bytes is a ValueError.
        """
        value = _Value()
        asked = fitting("subset", subset, 4)
        _require_table(table)
        tables = [*_lent(table.lent_cells), *_lent(table.lent_landings)]
        number = self._functions.best_sender(*tables, table.sites, table.stations, asked, *_lent(value))
        if number != 0:
            return Refusal(number, value[0])
        return BestSender(None if value[0] == NO_SENDER else value[0])

    def _planned(self, given: bytes) -> tuple[int, _Tables]:
        """Plans a sheet. The number that is returned, and the tables afterwards."""
        tables = _Tables(_cells_for(given))
        number = self._functions.plan(
            *_lent(given),
            *_lent(tables.starts),
            *_lent(tables.ends),
            *_lent(tables.prices),
            *_lent(tables.landings),
            *_lent(tables.by_end),
            *_lent(tables.places),
            *_lent(tables.cells),
            *_lent(tables.marks),
            *_lent(tables.plan),
            *_lent(tables.answer),
        )
        return number, tables


def load(path: Union[str, os.PathLike[str], None] = None) -> Library:
    """The library at a path.

    Without a path it is the file that the environment variable ULDHVAMM_LIBRARY names, else target/outside/libuldhvamm.so in the
    repository that holds this package.
    """
    file = default_path() if path is None else Path(path)
    if not file.is_file():
        raise FileNotFoundError(
            f"{file} is missing. The command `tests/outside`, run in the repository's root, builds target/outside/libuldhvamm.so."
        )
    return Library(file)


def default_path() -> Path:
    """The file that is loaded when no path is given."""
    named = os.environ.get("ULDHVAMM_LIBRARY")
    if named:
        return Path(named)
    return Path(__file__).resolve().parents[2] / "target" / "outside" / "libuldhvamm.so"


def _cells_for(sheet: bytes) -> int:
    """The number of cells that a sheet needs: sites times 2 to the power of stations.

    A head that is cut or above a limit makes no good sheet, and needs none. Nothing rests on this function but that a good sheet is
    planned: the library reads the head itself, and answers 11 where the cells are too few.
    """
    if len(sheet) < 5:
        return 0
    sites, stations = _head_of(sheet)
    if sites > MAX_SITES or stations > MAX_STATIONS:
        return 0
    return sites << stations


def _head_of(sheet: bytes) -> tuple[int, int]:
    """The numbers of sites and stations in the head of a sheet, its first five bytes."""
    sites, stations = struct.unpack_from(">HB", sheet, 2)
    return sites, stations


def _plain(data: bytes) -> bytes:
    """The bytes themselves; those of a subclass, which may have a length of its own, are copied."""
    if not isinstance(data, bytes):
        raise TypeError(f"bytes are needed, not {type(data).__name__}")
    return bytes(data)


def _lent_to_reader(sheet: bytes, file: bytes, tables: _Tables) -> list[Any]:
    """What the plan reader and the sharing are lent: the sheet, the file, and the tables for legs, landings and marks."""
    lent = [sheet, file, tables.starts, tables.ends, tables.prices, tables.landings, tables.marks]
    return [part for entries in lent for part in _lent(entries)]


def _lent(entries: Any) -> tuple[Any, int]:
    """A table or a byte string as the library takes it: where it begins, and the number of its entries."""
    return entries, len(entries)


def _require_table(table: CostTable) -> None:
    """Raises a TypeError where this is no cost table."""
    if not isinstance(table, CostTable):
        raise TypeError(f"a CostTable is needed, not {type(table).__name__}")
