"""The library's functions as the header declares them: what they write to answers and tables of any length, and what they leave alone."""

from __future__ import annotations

import ctypes
import random
import unittest
from typing import Any, Optional
from unittest import mock

from uldhvamm import Landing, Leg, build_plan, build_sheet
from uldhvamm.library import default_path
from uldhvamm.native import INTERFACE, functions_of
from worked import FILE_K, FILE_L, FILE_OF_A, SHEETS

NONE = 4294967295

# The tables in the header's order, with the types of their entries.
ENTRIES = {
    "starts": ctypes.c_uint16,
    "ends": ctypes.c_uint16,
    "prices": ctypes.c_uint32,
    "landings": ctypes.c_uint16,
    "by_end": ctypes.c_uint16,
    "places": ctypes.c_uint16,
    "cells": ctypes.c_uint32,
    "marks": ctypes.c_uint8,
    "plan": ctypes.c_uint8,
    "shares": ctypes.c_uint32,
    "answer": ctypes.c_uint64,
}

# Those that only the engine is lent, and those that each function is not lent.
ENGINE_ONLY = ("by_end", "places", "cells", "plan")
NOT_LENT = {"plan": ("shares",), "read_plan": (*ENGINE_ONLY, "shares"), "shares": ENGINE_ONLY}

# What sheets A and E leave in the tables, and A with the record `SR 1` before its end.
LEGS_OF_A = {"starts": [0, 1, 1, 0, 0], "ends": [1, 2, 3, 2, 3], "prices": [4, 3, 3, 5, 6], "landings": [1028, 1024, 1025, 1026]}
CELLS_OF_A = [
    *[0, 5, 6, 10, 0, 5, 6, 10],
    *[0, 3, 3, 6, NONE, NONE, NONE, NONE],
    *[0, 0, NONE, NONE, NONE, NONE, NONE, NONE],
    *[0, NONE, 0, NONE, NONE, NONE, NONE, NONE],
]
INDEX_OF_A = {"by_end": [0, 1, 3, 2, 4], "places": [0, 0, 1, 3, 5]}
TABLES_OF_A: dict[str, list[int]] = {**LEGS_OF_A, **INDEX_OF_A, "cells": CELLS_OF_A, "marks": [1, 1, 1, 1]}
TABLES_OF_E = {"landings": [1025, 1026], "places": [0, 0, 0], "cells": [0, 0, NONE, NONE, 0, NONE, 0, NONE], "marks": [1, 1]}
A_WITH_SENDER = SHEETS["A"][:-2] + b"SR\0\x01ED"
LEGS_WITH_SENDER = {**LEGS_OF_A, "landings": [4, 1024, 1, 2]}

# The least lengths for sheet A, and its plan file's.
NEEDED = {"starts": 5, "ends": 5, "prices": 5, "landings": 4, "by_end": 5, "places": 5, "cells": 32, "marks": 4, "plan": 22, "shares": 3}


def over(first: list[int], entries: list[int]) -> list[int]:
    """Entries of which the first ones are others."""
    return first + entries[len(first) :]


class Native(unittest.TestCase):
    """Each call is lent the first entries of arrays that are filled with garbage, and all of their entries are compared afterwards."""

    def setUp(self) -> None:
        self.functions = functions_of(default_path())
        self.chance = random.Random(6)

    def call(self, function: str, strings: list[bytes], lengths: dict[str, int]) -> tuple[int, dict[str, list[int]], dict[str, list[int]]]:
        """Calls a function with a sheet, or with a sheet and a file. The number that is returned, and the arrays before and after."""
        arrays: dict[str, Any] = {name: self.garbage(entry, lengths[name] + 3) for name, entry in ENTRIES.items()}
        before = {name: list(array) for name, array in arrays.items()}
        arguments: list[Any] = [part for string in strings for part in (string, len(string))]
        for name in ENTRIES:
            if name not in NOT_LENT[function]:
                arguments += [arrays[name], lengths[name]]
        number = getattr(self.functions, function)(*arguments)
        return number, before, {name: list(array) for name, array in arrays.items()}

    def garbage(self, entry: Any, length: int) -> Any:
        """An array of random entries."""
        return (entry * length)(*(self.chance.getrandbits(8 * ctypes.sizeof(entry)) for _ in range(length)))

    def tried(
        self, sheet: bytes, file: Optional[bytes], number: int, values: list[int], written: dict[str, list[int]], **other: int
    ) -> None:
        """Tests the planning of a sheet or, where a file is given, the reading of that file."""
        if file is None:
            self.compared("plan", [sheet], number, values, written, other)
        else:
            self.compared("read_plan", [sheet, file], number, values, written, other)

    def shared(self, sheet: bytes, file: bytes, number: int, values: list[int], written: dict[str, list[int]], **other: int) -> None:
        """Tests the sharing of a file."""
        self.compared("shares", [sheet, file], number, values, written, other)

    def compared(
        self, function: str, strings: list[bytes], number: int, values: list[int], written: dict[str, list[int]], other: dict[str, int]
    ) -> None:
        """Tests a call with answers of 0 to 5 entries: its number, the values in the answer, what is written, and that no more is."""
        for length in range(6):
            returned, before, after = self.call(function, strings, {**NEEDED, **other, "answer": length})
            self.assertEqual(returned, number, (function, other))
            expected = {**written, "answer": values[:length]}
            kept = {name: over(expected.get(name, []), entries) for name, entries in before.items()}
            self.assertEqual(after, kept, (function, length, other))

    def test_the_interface(self) -> None:
        self.assertEqual(ctypes.CDLL(str(default_path().absolute())).uldhvamm_interface(), INTERFACE)

    def test_another_interface_is_refused(self) -> None:
        with mock.patch("uldhvamm.native.INTERFACE", INTERFACE + 1), self.assertRaises(ImportError):
            functions_of(default_path())

    def test_a_library_without_an_interface_is_refused(self) -> None:
        with mock.patch("ctypes.CDLL", return_value=object()), self.assertRaises(ImportError):
            functions_of(default_path())

    def test_a_library_that_lacks_a_function_is_refused(self) -> None:
        lacking = mock.Mock(spec=["uldhvamm_interface", "uldhvamm_plan", "uldhvamm_read_plan", "uldhvamm_cell", "uldhvamm_best_sender"])
        lacking.uldhvamm_interface.return_value = INTERFACE
        with mock.patch("ctypes.CDLL", return_value=lacking), self.assertRaisesRegex(ImportError, "uldhvamm_shares"):
            functions_of(default_path())

    def test_a_plan(self) -> None:
        self.tried(SHEETS["A"], None, 0, [0, 10, 3], {**TABLES_OF_A, "plan": list(FILE_OF_A)})

    def test_longer_tables(self) -> None:
        longer = {name: length + 2 for name, length in NEEDED.items()}
        self.tried(SHEETS["A"], None, 0, [0, 10, 3], {**TABLES_OF_A, "plan": list(FILE_OF_A)}, **longer)
        self.tried(SHEETS["A"], FILE_OF_A, 0, [0, 10, 3], {**LEGS_OF_A, "marks": [1, 1, 1, 1]}, **longer)

    def test_refusals_of_the_sheet_write_the_place_alone(self) -> None:
        for name, number, place in [("F", 7, 5), ("I", 1, 0), ("J", 9, 12)]:
            self.tried(SHEETS[name], None, number, [place], {})
            self.tried(SHEETS[name], FILE_OF_A, number, [place], {})

    def test_short_tables_write_the_place_alone(self) -> None:
        for name in ["starts", "ends", "prices", "landings", "by_end", "places", "cells", "marks"]:
            for length in [0, NEEDED[name] - 1]:
                self.tried(SHEETS["A"], None, 11, [0], {}, **{name: length})
                if name not in ENGINE_ONLY:
                    self.tried(SHEETS["A"], FILE_OF_A, 11, [0], {}, **{name: length})

    def test_no_plan_fills_the_tables(self) -> None:
        self.tried(SHEETS["E"], None, 12, [0], TABLES_OF_E)
        self.tried(SHEETS["E"], None, 12, [0], TABLES_OF_E, plan=0, starts=0, ends=0, prices=0, by_end=0)

    def test_no_plan_for_want_of_a_licence_fills_the_tables(self) -> None:
        self.tried(A_WITH_SENDER, None, 12, [0], {**TABLES_OF_A, **LEGS_WITH_SENDER})
        self.tried(A_WITH_SENDER, None, 12, [0], {**TABLES_OF_A, **LEGS_WITH_SENDER}, plan=0)

    def test_a_short_buffer_is_untouched(self) -> None:
        for length in [0, 10, 21]:
            self.tried(SHEETS["A"], None, 13, [0], TABLES_OF_A, plan=length)

    def test_the_index_of_random_sheets(self) -> None:
        for _ in range(300):
            sites = self.chance.randint(2, 40)
            legs = [Leg(*self.chance.sample(range(sites), 2), price=1) for _ in range(self.chance.randint(0, 60))]
            sheet = build_sheet(sites, 1, [*legs, Landing(0, 0)])
            for_legs = dict.fromkeys(["starts", "ends", "prices", "by_end"], len(legs))
            for_sites = {"landings": sites, "places": sites + 1, "cells": 2 * sites, "marks": sites}
            number, before, after = self.call("plan", [sheet], {**NEEDED, **for_legs, **for_sites, "answer": 3})
            by_end = sorted(range(len(legs)), key=lambda leg: legs[leg].end)
            places = [sum(leg.end < site for leg in legs) for site in range(sites + 1)]
            self.assertEqual(number, 0)
            self.assertEqual(after["by_end"], over(by_end, before["by_end"]), sheet)
            self.assertEqual(after["places"], over(places, before["places"]), sheet)

    def test_an_acceptance(self) -> None:
        self.tried(SHEETS["A"], FILE_OF_A, 0, [0, 10, 3], {**LEGS_OF_A, "marks": [1, 1, 1, 1]})

    def test_refusals_of_the_file(self) -> None:
        marked = {**LEGS_OF_A, "marks": [1, 1, 1, 1]}
        self.tried(SHEETS["A"], b"", 14, [0], LEGS_OF_A)
        self.tried(SHEETS["A"], FILE_OF_A + b"\0", 15, [22], LEGS_OF_A)
        self.tried(SHEETS["A"], build_plan(0, 10, [0, 5]), 16, [14], LEGS_OF_A)
        self.tried(SHEETS["A"], FILE_K, 17, [0], marked)
        self.tried(SHEETS["A"], build_plan(0, 7, [0, 1]), 18, [0], {**LEGS_OF_A, "marks": [1, 1, 1, 0]})
        self.tried(SHEETS["A"], FILE_L, 19, [0], marked)
        marked = {**LEGS_WITH_SENDER, "marks": [1, 1, 1, 1]}
        self.tried(A_WITH_SENDER, FILE_OF_A, 20, [0], marked)
        self.tried(A_WITH_SENDER, FILE_L, 20, [0], marked)
        self.tried(A_WITH_SENDER, FILE_K, 17, [0], marked)
        self.tried(A_WITH_SENDER, build_plan(0, 7, [0, 1]), 20, [0], {**marked, "marks": [1, 1, 1, 0]})

    def test_shares(self) -> None:
        marked = {**LEGS_OF_A, "marks": [1, 1, 1, 1]}
        longer = {name: length + 2 for name, length in NEEDED.items()}
        for lengths in [NEEDED, longer]:
            self.shared(SHEETS["A"], FILE_OF_A, 0, [0, 10, 3, 0], {**marked, "shares": [5, 5, 0]}, **lengths)
            self.shared(SHEETS["A"], build_plan(0, 15, [0, 3, 4]), 0, [0, 15, 3, 4], {**marked, "shares": [5, 6, 0]}, **lengths)
        self.shared(SHEETS["B"], build_plan(0, 0, []), 0, [0, 0, 0, 0], {"landings": [1025], "marks": [1], "shares": [0]}, shares=1)

    def test_refusals_leave_the_shares(self) -> None:
        marked = {**LEGS_OF_A, "marks": [1, 1, 1, 1]}
        for name, number, place in [("F", 7, 5), ("I", 1, 0), ("J", 9, 12)]:
            self.shared(SHEETS[name], FILE_OF_A, number, [place], {})
            self.shared(SHEETS[name], FILE_OF_A, number, [place], {}, shares=0)
        self.shared(SHEETS["A"], b"", 14, [0], LEGS_OF_A)
        self.shared(SHEETS["A"], FILE_OF_A + b"\0", 15, [22], LEGS_OF_A)
        self.shared(SHEETS["A"], build_plan(0, 10, [0, 5]), 16, [14], LEGS_OF_A)
        self.shared(SHEETS["A"], FILE_K, 17, [0], marked)
        self.shared(SHEETS["A"], build_plan(0, 7, [0, 1]), 18, [0], {**LEGS_OF_A, "marks": [1, 1, 1, 0]})
        self.shared(SHEETS["A"], FILE_L, 19, [0], marked)
        self.shared(A_WITH_SENDER, FILE_OF_A, 20, [0], {**LEGS_WITH_SENDER, "marks": [1, 1, 1, 1]})

    def test_short_tables_leave_the_shares(self) -> None:
        for name in ["starts", "ends", "prices", "landings", "marks", "shares"]:
            for length in [0, NEEDED[name] - 1]:
                for file in [FILE_OF_A, b"", FILE_K]:
                    self.shared(SHEETS["A"], file, 11, [0], {}, **{name: length})

    def test_null_pointers_for_empty_tables(self) -> None:
        empty: list[Any] = [None, 0]
        answer = (ctypes.c_uint64 * 3)(9, 9, 9)
        self.assertEqual(self.functions.plan(*empty * 10, answer, 3), 1)
        self.assertEqual(self.functions.read_plan(*empty * 7, answer, 3), 1)
        self.assertEqual(self.functions.shares(*empty * 8, answer, 3), 1)
        self.assertEqual(list(answer), [0, 9, 9])
        self.assertEqual(self.functions.plan(SHEETS["A"], 72, *empty * 10), 11)
        self.assertEqual(self.functions.read_plan(SHEETS["A"], 72, *empty * 7), 11)
        self.assertEqual(self.functions.shares(SHEETS["A"], 72, *empty * 8), 11)
        self.assertEqual(self.functions.cell(*empty, 1, 1, 0, 0, *empty), 11)
        self.assertEqual(self.functions.best_sender(*empty, *empty, 1, 1, 0, *empty), 11)
        cells = (ctypes.c_uint32 * 2)(0, 3)
        landings = (ctypes.c_uint16 * 1)(1024)
        self.assertEqual(self.functions.cell(cells, 2, 1, 1, 0, 1, *empty), 0)
        self.assertEqual(self.functions.best_sender(cells, 2, *empty, 1, 1, 1, *empty), 11)
        self.assertEqual(self.functions.best_sender(*empty, landings, 1, 1, 1, 1, *empty), 11)
        self.assertEqual(self.functions.best_sender(cells, 2, landings, 1, 1, 1, 1, *empty), 0)

    def asked_cell(self, numbers: list[int], number: int, value: int, length: int = 32) -> None:
        """Tests a question about the first so many cells of sheet A, with answers of 0 to 4 entries, and that nothing else is written."""
        for entries in range(5):
            cells = (ctypes.c_uint32 * len(CELLS_OF_A))(*CELLS_OF_A)
            answer = self.garbage(ctypes.c_uint64, entries + 3)
            before = list(answer)
            self.assertEqual(self.functions.cell(cells, length, *numbers, answer, entries), number, numbers)
            self.assertEqual(list(answer), over([value][:entries], before), numbers)
            self.assertEqual(list(cells), CELLS_OF_A)

    def asked_sender(self, numbers: list[int], number: int, value: int, length: int = 32, flags: Optional[list[int]] = None) -> None:
        """The same of a best sender, with these landing entries; without them they are those of sheet A."""
        given = LEGS_OF_A["landings"] if flags is None else flags
        for entries in range(5):
            cells = (ctypes.c_uint32 * len(CELLS_OF_A))(*CELLS_OF_A)
            landings = (ctypes.c_uint16 * len(given))(*given)
            answer = self.garbage(ctypes.c_uint64, entries + 3)
            before = list(answer)
            arguments = [cells, length, landings, len(given), *numbers, answer, entries]
            self.assertEqual(self.functions.best_sender(*arguments), number, numbers)
            self.assertEqual(list(answer), over([value][:entries], before), numbers)
            self.assertEqual((list(cells), list(landings)), (CELLS_OF_A, given))

    def test_cells(self) -> None:
        for place, cell in enumerate(CELLS_OF_A):
            self.asked_cell([4, 3, place // 8, place % 8], 0, cell)
        self.asked_cell([3, 3, 2, 1], 0, 0)
        self.asked_cell([3, 3, 2, 1], 0, 0, length=24)

    def test_senders(self) -> None:
        for subset, site in [(0, 0), (1, 2), (2, 3), (3, 1), (4, 0), (5, 0), (6, 0), (7, 0)]:
            self.asked_sender([4, 3, subset], 0, site)
        unserved = (ctypes.c_uint32 * 4)(0, NONE, 0, NONE)
        landings = (ctypes.c_uint16 * 2)(1024, 1024)
        answer = (ctypes.c_uint64 * 2)(9, 9)
        self.assertEqual(self.functions.best_sender(unserved, 4, landings, 2, 2, 1, 1, answer, 2), 0)
        self.assertEqual(list(answer), [2**64 - 1, 9])

    def test_senders_by_their_flags(self) -> None:
        none = 2**64 - 1
        for subset, site in [(0, 1), (1, 1), (2, 1), (3, 1), (4, none), (7, none)]:
            self.asked_sender([4, 3, subset], 0, site, flags=[4, 1024, 1, 2])
        for subset, site in [(0, 3), (1, none), (2, 3), (3, none)]:
            self.asked_sender([4, 3, subset], 0, site, flags=[63488, 1023, 2048, 65535])
        self.asked_sender([4, 3, 0], 0, 2, flags=[4, 0, 1025, 1026])
        self.asked_sender([4, 3, 0], 0, none, flags=[0, 0, 0, 0])
        self.asked_sender([4, 3, 3], 0, none, flags=[0, 0, 0, 0, 1024])
        for subset in [0, 7, 8]:
            self.asked_sender([4, 3, subset], 11, 0, flags=[1024, 1024, 1024])
            self.asked_sender([4, 3, subset], 11, 0, flags=[])
            self.asked_sender([4, 11, subset], 3, 0, flags=[])

    def test_refusals_of_the_enquirer(self) -> None:
        highest = 2**32 - 1
        for sites, stations in [(0, 3), (1025, 3), (highest, 3), (65540, 3), (4, 0), (4, 11), (4, 259), (4, highest)]:
            for site, subset in [(0, 0), (highest, highest)]:
                self.asked_cell([sites, stations, site, subset], 3, 0)
                self.asked_sender([sites, stations, subset], 3, 0, length=0)
        for site, subset in [(0, 0), (4, 0), (0, 8), (highest, highest)]:
            self.asked_cell([4, 3, site, subset], 11, 0, length=31)
            self.asked_sender([4, 3, subset], 11, 0, length=31)
        for site in [4, 5, 65536, highest]:
            self.asked_cell([4, 3, site, 0], 4, 0)
            self.asked_cell([4, 3, site, 8], 4, 0)
        for subset in [8, 9, 65536, highest]:
            self.asked_cell([4, 3, 3, subset], 5, 0)
            self.asked_sender([4, 3, subset], 5, 0)


if __name__ == "__main__":
    unittest.main()
