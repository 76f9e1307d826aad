"""The enquirer: cells and best senders of the worked sheets and of random small sheets by trial, each refusal, and numbers out of range."""

from __future__ import annotations

import ctypes
import random
import unittest
from concurrent.futures import ThreadPoolExecutor
from typing import Collection, Optional, Union

from brute import cells_by_growth, some_site_reaches_all
from test_brute import small_case
from uldhvamm import BestSender, Cell, CostTable, Family, Landing, Leg, Plan, Refusal, Sender, build_sheet, load
from worked import SHEETS

NONE = 4294967295

# The cells of sheets A, D and E, one row a site; None is "none". The legs of A.
ROWS_OF_A: list[list[Optional[int]]] = [
    [0, 5, 6, 10, 0, 5, 6, 10],
    [0, 3, 3, 6, None, None, None, None],
    [0, 0, None, None, None, None, None, None],
    [0, None, 0, None, None, None, None, None],
]
LEGS_OF_A = [Leg(0, 1, 4), Leg(1, 2, 3), Leg(1, 3, 3), Leg(0, 2, 5), Leg(0, 3, 6)]
ROWS_OF_D: list[list[Optional[int]]] = [[0, 0, 7, 7], [0, 7, 0, 7]]
ROWS_OF_E: list[list[Optional[int]]] = [[0, 0, None, None], [0, None, 0, None]]


# The landing entry of a site that may send and hears no station.
SENDER = 1024


def best_of(rows: list[list[Optional[int]]], senders: Collection[int], subset: int) -> list[int]:
    """Every sender whose cell of a subset is least among the senders and finite, the lowest first: the best sender is the first of them."""
    costs = [(cost, site) for site, row in enumerate(rows) if site in senders and (cost := row[subset]) is not None]
    return [site for cost, site in costs if cost == min(costs)[0]]


class Enquirer(unittest.TestCase):
    """Questions about tables that the planning has left, and about tables of any numbers."""

    def setUp(self) -> None:
        self.library = load()

    def finished(self, sheet: bytes) -> CostTable:
        """The cost table of a good sheet."""
        table = self.library.cost_table(sheet)
        assert isinstance(table, CostTable), table
        return table

    def compare(self, table: CostTable, rows: list[list[Optional[int]]], senders: Collection[int]) -> int:
        """Tests every cell and every best sender of a table. Gives the number of subsets of which several senders cost least."""
        ties = 0
        for site, row in enumerate(rows):
            self.assertEqual([self.library.cell(table, site, subset) for subset in range(len(row))], [Cell(cost) for cost in row])
        for subset in range(len(rows[0])):
            best = best_of(rows, senders, subset)
            ties += len(best) > 1
            self.assertEqual(self.library.best_sender(table, subset), BestSender(best[0] if best else None))
        return ties

    def test_worked_sheets(self) -> None:
        for name, rows, ties in [("A", ROWS_OF_A, 1), ("D", ROWS_OF_D, 2), ("E", ROWS_OF_E, 1)]:
            with self.subTest(sheet=name):
                table = self.finished(SHEETS[name])
                self.assertEqual((table.sites, table.stations), (len(rows), len(rows[0]).bit_length() - 1))
                self.assertEqual(table.cells, tuple(NONE if cost is None else cost for row in rows for cost in row))
                self.assertEqual(self.compare(table, rows, range(len(rows))), ties)

    def test_the_best_sender_of_all_stations_is_the_root_of_the_plan(self) -> None:
        for name in ["A", "B", "C", "D", "G"]:
            with self.subTest(sheet=name):
                plan = self.library.plan(SHEETS[name])
                assert isinstance(plan, Plan)
                table = self.finished(SHEETS[name])
                full = (1 << table.stations) - 1
                self.assertEqual(self.library.best_sender(table, full), BestSender(plan.root))
                self.assertEqual(self.library.cell(table, plan.root, full), Cell(plan.total))

    def test_of_several_cheapest_senders_the_lowest_is_named(self) -> None:
        cells = [0, 4, 0, 7, 0, 4, 0, 4]
        for senders, station, empty in [("1111", 0, 0), ("0111", 2, 1), ("0011", 2, 2), ("0101", 3, 1), ("0001", 3, 3), ("0100", 1, 1)]:
            with self.subTest(senders=senders):
                table = CostTable(4, 1, cells, [SENDER * int(flag) for flag in senders])
                self.assertEqual(self.library.best_sender(table, 1), BestSender(station))
                self.assertEqual(self.library.best_sender(table, 0), BestSender(empty))

    def test_a_sheet_without_a_plan_has_a_table(self) -> None:
        self.assertEqual(self.library.plan(SHEETS["E"]), Refusal(12, 0))
        table = self.finished(SHEETS["E"])
        self.assertEqual(self.library.best_sender(table, 3), BestSender(None))
        self.assertEqual(self.library.cell(table, 0, 3), Cell(None))

    def test_the_empty_subset(self) -> None:
        table = self.finished(SHEETS["A"])
        self.assertEqual([self.library.cell(table, site, 0) for site in range(4)], [Cell(0)] * 4)
        self.assertEqual(self.library.best_sender(table, 0), BestSender(0))

    def test_sheets_with_senders(self) -> None:
        for senders, entries in [([1], (4, 1024, 1, 2)), ([3, 2], (4, 0, 1025, 1026)), ([1, 0, 1], (1028, 1024, 1, 2))]:
            with self.subTest(senders=senders):
                rows = [*LEGS_OF_A, Landing(0, 2), Landing(1, 3), Landing(2, 0), *map(Sender, senders)]
                table = self.finished(build_sheet(4, 3, rows))
                self.assertEqual(table.landings, entries)
                self.compare(table, ROWS_OF_A, senders)
        self.assertEqual(self.finished(SHEETS["A"]).landings, (1028, 1024, 1025, 1026))

    def test_refused_sheets_have_no_table(self) -> None:
        for name, refusal in {"F": Refusal(7, 5), "H": Refusal(7, 5), "I": Refusal(1, 0), "J": Refusal(9, 12)}.items():
            self.assertEqual(self.library.cost_table(SHEETS[name]), refusal)
        for sites, stations in [(0, 1), (1025, 1), (1, 0), (1, 11)]:
            self.assertEqual(self.library.cost_table(build_sheet(sites, stations, [])), Refusal(3, 0))
        with self.assertRaisesRegex(TypeError, "bytes are needed"):
            self.library.cost_table("HD")  # type: ignore[arg-type]

    def test_random_sheets(self) -> None:
        chance = random.Random(7)
        ties = unreached = unlicensed = 0
        for _ in range(500):
            case = small_case(chance, most_sites=7, most_links=16, most_stations=4)
            rows = cells_by_growth(case.network)
            ties += self.compare(self.finished(case.sheet), rows, case.network.senders)
            if not best_of(rows, case.network.senders, len(rows[0]) - 1):
                reached = some_site_reaches_all(rows)
                unlicensed += reached
                unreached += not reached
        self.assertGreater(min(ties, unreached, unlicensed), 20)

    def test_any_cells(self) -> None:
        rows: list[list[Optional[int]]] = [
            [NONE - 1, None, 4, 2**31],
            [NONE - 1, None, 4, 2**31 - 1],
            [None, None, 3, 2**31],
            [None, None, None, 2**31 - 1],
        ]
        cells = [NONE if cost is None else cost for row in rows for cost in row]
        for more in [[], [0], [0] * 9]:
            table = CostTable(4, 2, cells + more, [SENDER] * 4 + more)
            self.assertEqual(self.compare(table, rows, range(4)), 2)
        self.assertEqual(self.library.best_sender(CostTable(3, 2, cells, [SENDER] * 3), 3), BestSender(1))

    def test_any_landing_entries(self) -> None:
        rows: list[list[Optional[int]]] = [[0, 7], [0, 8], [0, 9]]
        for entries, senders in [
            ([0, 1024, 1024], [1, 2]),
            ([1023, 2047, 0], [1]),
            ([63488, 64511, 65535], [2]),
            ([3072, 0, 33792], [0, 2]),
            ([0, 0, 0], []),
            ([0, 0, 0, 1024], []),
        ]:
            with self.subTest(entries=entries):
                table = CostTable(3, 1, [0, 7, 0, 8, 0, 9], entries)
                self.assertEqual(table.landings, tuple(entries))
                self.compare(table, rows, senders)

    def test_bad_heads_are_refused(self) -> None:
        for sites, stations in [(0, 1), (1025, 1), (NONE, 1), (65537, 1), (1, 0), (1, 11), (1, 257), (1, NONE), (0, 0)]:
            for cells in [[], [0] * 4096]:
                table = CostTable(sites, stations, cells, [])
                self.refused(self.library.cell(table, NONE, NONE), 3, "bad head", Family.SHEET)
                self.refused(self.library.best_sender(table, 0), 3, "bad head", Family.SHEET)

    def test_short_tables_are_refused(self) -> None:
        for length in [0, 1, 31]:
            table = CostTable(4, 3, [0] * length, [SENDER] * 4)
            for subset in [0, 8]:
                self.refused(self.library.cell(table, 4, subset), 11, "short tables", Family.TABLES)
                self.refused(self.library.cell(table, 0, subset), 11, "short tables", Family.TABLES)
                self.refused(self.library.best_sender(table, subset), 11, "short tables", Family.TABLES)
        for length in [0, 1, 3]:
            table = CostTable(4, 3, [0] * 32, [SENDER] * length)
            self.assertEqual(self.library.cell(table, 3, 7), Cell(0))
            for subset in [0, 8]:
                self.refused(self.library.best_sender(table, subset), 11, "short tables", Family.TABLES)

    def test_sites_and_subsets_past_the_end_are_refused(self) -> None:
        table = CostTable(4, 3, [0] * 32, [SENDER] * 4)
        for site in [4, 65536, NONE]:
            self.refused(self.library.cell(table, site, 0), 4, "no such site", Family.SHEET)
            self.refused(self.library.cell(table, site, 8), 4, "no such site", Family.SHEET)
        for subset in [8, 65536, NONE]:
            self.refused(self.library.cell(table, 3, subset), 5, "no such station", Family.SHEET)
            self.refused(self.library.best_sender(table, subset), 5, "no such station", Family.SHEET)

    def refused(self, answer: Union[Cell, BestSender, Refusal], number: int, word: str, family: Family) -> None:
        """Tests that an answer is a refusal, at place 0."""
        self.assertEqual(answer, Refusal(number, 0))
        assert isinstance(answer, Refusal)
        self.assertEqual((answer.word, answer.family), (word, family))

    def test_numbers_that_do_not_fit_are_errors(self) -> None:
        table = CostTable(1, 1, [0, 0], [SENDER])
        faulty = [
            lambda: CostTable(NONE + 1, 1, [0, 0], [SENDER]),
            lambda: CostTable(-1, 1, [0, 0], [SENDER]),
            lambda: CostTable(1, NONE + 1, [0, 0], [SENDER]),
            lambda: CostTable(1, -1, [0, 0], [SENDER]),
            lambda: CostTable(1, 1, [0, NONE + 1], [SENDER]),
            lambda: CostTable(1, 1, [-1, 0], [SENDER]),
            lambda: self.library.cell(table, NONE + 1, 0),
            lambda: self.library.cell(table, -1, 0),
            lambda: self.library.cell(table, 0, NONE + 1),
            lambda: self.library.cell(table, 0, -1),
            lambda: self.library.best_sender(table, NONE + 1),
            lambda: self.library.best_sender(table, -1),
        ]
        for place, ask in enumerate(faulty):
            with self.subTest(place=place), self.assertRaisesRegex(ValueError, "does not fit 4 bytes"):
                ask()
        for entry in [-1, 65536]:
            with self.assertRaisesRegex(ValueError, "landing entry .* does not fit 2 bytes"):
                CostTable(1, 1, [0, 0], [entry])

    def test_what_is_no_number_or_table_is_an_error(self) -> None:
        table = CostTable(1, 1, [0, 0], [SENDER])
        with self.assertRaises(TypeError):
            CostTable(1, 1, [0.5, 0], [SENDER])  # type: ignore[list-item]
        with self.assertRaises(TypeError):
            CostTable(1, 1, [0, 0], [0.5])  # type: ignore[list-item]
        costs, entries = (ctypes.c_uint32 * 2)(), (ctypes.c_uint16 * 1)()
        with self.assertRaisesRegex(TypeError, "the cells are to be a ctypes array of c_uint32"):
            CostTable.of_arrays(1, 1, entries, entries)
        with self.assertRaisesRegex(TypeError, "the landing entries are to be a ctypes array of c_uint16"):
            CostTable.of_arrays(1, 1, costs, [SENDER])
        with self.assertRaises(TypeError):
            self.library.cell(table, 0.5, 0)  # type: ignore[arg-type]
        with self.assertRaisesRegex(TypeError, "a CostTable is needed, not list"):
            self.library.cell([0, 0], 0, 0)  # type: ignore[arg-type]
        with self.assertRaisesRegex(TypeError, "a CostTable is needed, not Refusal"):
            self.library.best_sender(self.library.cost_table(b""), 0)  # type: ignore[arg-type]

    def test_a_table_at_the_limits(self) -> None:
        chain = [Leg(site, site + 1, 1000000) for site in reversed(range(1023))]
        table = self.finished(build_sheet(1024, 10, [*chain, *(Landing(station, 1023) for station in range(10))]))
        for site in [0, 1, 512, 1023]:
            self.assertEqual(self.library.cell(table, site, 1023), Cell(1000000 * (1023 - site)))
        self.assertEqual(self.library.best_sender(table, 1023), BestSender(1023))
        self.assertEqual(self.library.cell(table, 1024, 1023), Refusal(4, 0))
        self.assertEqual(self.library.best_sender(table, 1024), Refusal(5, 0))

    def test_threads_share_a_table(self) -> None:
        table = self.finished(SHEETS["A"])
        places = [(site, subset) for site in range(4) for subset in range(8)] * 40
        with ThreadPoolExecutor(max_workers=4) as pool:
            answers = list(pool.map(lambda place: self.library.cell(table, *place), places))
        self.assertEqual(answers, [Cell(ROWS_OF_A[site][subset]) for site, subset in places])


if __name__ == "__main__":
    unittest.main()
