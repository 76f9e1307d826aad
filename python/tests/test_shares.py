"""What the stations pay: shares worked out by hand, random trees against the definition of document 02, and refusals."""

from __future__ import annotations

import random
import unittest

from brute import is_tree, refusal_of, total_of
from shares import split_of
from test_brute import Case, small_case, tiny_case
from uldhvamm import BothWays, Landing, Leg, Plan, Refusal, Row, Sender, Shares, build_plan, build_sheet, load
from worked import FILE_K, FILE_L, FILE_OF_A, SHEETS


class Worked(unittest.TestCase):
    """Shares that are worked out by hand."""

    def setUp(self) -> None:
        self.library = load()

    def shared(self, sheet: bytes, root: int, total: int, legs: list[int], shares: list[int], unassigned: int) -> None:
        """Tests the shares of a tree, its legs in both directions."""
        expected = Shares(root, total, len(legs), tuple(shares), unassigned)
        self.assertEqual(self.library.shares(sheet, build_plan(root, total, legs)), expected)
        self.assertEqual(self.library.shares(sheet, build_plan(root, total, legs[::-1])), expected)

    def test_a(self) -> None:
        # Leg 0 is 2 for station 0 and 2 for station 1, leg 1 is 3 for station 0, leg 2 is 3 for station 1. Station 2 sits at the root.
        self.shared(SHEETS["A"], 0, 10, [0, 1, 2], [5, 5, 0], 0)
        self.shared(SHEETS["A"], 0, 11, [3, 4], [5, 6, 0], 0)
        self.shared(SHEETS["A"], 0, 15, [0, 3, 4], [5, 6, 0], 4)

    def test_b_to_d(self) -> None:
        self.shared(SHEETS["B"], 0, 0, [], [0], 0)
        self.shared(SHEETS["C"], 0, 4, [1], [0, 4], 0)
        self.shared(SHEETS["C"], 0, 13, [0, 1], [0, 9], 4)
        self.shared(SHEETS["D"], 0, 7, [0], [0, 7], 0)
        self.shared(SHEETS["D"], 1, 7, [1], [7, 0], 0)

    def test_the_lowest_stations_pay_the_odd_cents(self) -> None:
        for price, shares in [(1, [1, 0, 0]), (2, [1, 1, 0]), (10, [4, 3, 3]), (11, [4, 4, 3]), (1000000, [333334, 333333, 333333])]:
            sheet = build_sheet(2, 3, [Leg(0, 1, price), *(Landing(station, 1) for station in range(3))])
            self.shared(sheet, 0, price, [0], shares, 0)
        others = build_sheet(2, 3, [Leg(0, 1, 7), Landing(0, 0), Landing(1, 1), Landing(2, 1)])
        self.shared(others, 0, 7, [0], [0, 4, 3], 0)

    def test_a_station_sits_at_its_lowest_landing_that_is_held(self) -> None:
        landings = [Landing(0, 2), Landing(0, 1)]
        near = build_sheet(3, 1, [Leg(0, 1, 6), Leg(1, 2, 4), *landings])
        self.shared(near, 0, 10, [0, 1], [6], 4)
        far = build_sheet(3, 1, [Leg(0, 2, 6), Leg(2, 1, 4), *landings])
        self.shared(far, 0, 10, [0, 1], [10], 0)
        self.shared(far, 0, 6, [0], [6], 0)
        root = build_sheet(3, 1, [Leg(2, 1, 5), Leg(0, 1, 3), Landing(0, 0), *landings])
        self.shared(root, 2, 5, [0], [5], 0)
        self.shared(root, 0, 3, [1], [0], 3)

    def test_the_largest_shares(self) -> None:
        row: list[Row] = [Leg(site, site + 1, 1000000) for site in range(1023)]
        everyone = [Landing(station, 1023) for station in range(10)]
        one = build_sheet(1024, 1, [*row, Landing(0, 1023)])
        self.shared(one, 0, 1023000000, list(range(1023)), [1023000000], 0)
        ten = build_sheet(1024, 10, [*row, *everyone])
        self.shared(ten, 0, 1023000000, list(range(1023)), [102300000] * 10, 0)
        nobody = build_sheet(1024, 1, [*row, Landing(0, 0)])
        self.shared(nobody, 0, 1023000000, list(range(1023)), [0], 1023000000)

    def test_the_examples_of_the_readme(self) -> None:
        rows: list[Row] = [Leg(0, 1, 900), BothWays(1, 2, 400), Landing(0, 0), Landing(1, 2)]
        self.shared(build_sheet(3, 2, rows), 0, 1300, [0, 1], [0, 1300], 0)
        rows = [Leg(0, 1, 1000), Leg(1, 2, 500), Leg(1, 3, 201), Landing(0, 2), Landing(1, 2), Landing(2, 3), Landing(3, 0)]
        self.shared(build_sheet(4, 4, rows), 0, 1701, [0, 1, 2], [584, 583, 534, 0], 0)


class Refused(unittest.TestCase):
    """The refusals are those of the plan reader."""

    def setUp(self) -> None:
        self.library = load()

    def test_sheets(self) -> None:
        for name, refusal in [("F", Refusal(7, 5)), ("H", Refusal(7, 5)), ("I", Refusal(1, 0)), ("J", Refusal(9, 12))]:
            self.assertEqual(self.library.shares(SHEETS[name], FILE_OF_A), refusal)

    def test_files(self) -> None:
        licensed = SHEETS["A"][:-2] + b"SR\0\x01ED"
        expected = [
            (b"", Refusal(14, 0)),
            (FILE_OF_A[:-1], Refusal(14, 0)),
            (b"GN" + FILE_OF_A[2:], Refusal(15, 0)),
            (FILE_OF_A + b"L", Refusal(15, 22)),
            (build_plan(4, 10, [0, 1, 2]), Refusal(16, 0)),
            (build_plan(0, 10, [0, 1, 5]), Refusal(16, 18)),
            (FILE_K, Refusal(17, 0)),
            (build_plan(0, 7, [0, 1]), Refusal(18, 0)),
            (FILE_L, Refusal(19, 0)),
        ]
        for file, refusal in expected:
            self.assertEqual(self.library.shares(SHEETS["A"], file), refusal)
        self.assertEqual(self.library.shares(licensed, FILE_OF_A), Refusal(20, 0))
        self.assertEqual(self.library.shares(build_sheet(2, 1, [Landing(0, 0), Sender(1)]), build_plan(0, 0, [])), Refusal(20, 0))

    def test_only_bytes_are_taken(self) -> None:
        for other in ["PN", bytearray(FILE_OF_A), None, 22]:
            with self.assertRaisesRegex(TypeError, "bytes are needed"):
                self.library.shares(SHEETS["A"], other)  # type: ignore[arg-type]
            with self.assertRaisesRegex(TypeError, "bytes are needed"):
                self.library.shares(other, FILE_OF_A)  # type: ignore[arg-type]


class Trial(unittest.TestCase):
    """Random small trees against the definition."""

    def setUp(self) -> None:
        self.library = load()

    def compare(self, case: Case, root: int, legs: list[int]) -> int:
        """Tests the shares of an accepted tree, and gives the unassigned sum."""
        total, split = total_of(case.network, legs), split_of(case.network, root, legs)
        self.assertEqual(sum(split.shares) + split.unassigned, total, case)
        answer = self.library.shares(case.sheet, build_plan(root, total, legs))
        self.assertEqual(answer, Shares(root, total, len(legs), split.shares, split.unassigned), case)
        return split.unassigned

    def grown(self, chance: random.Random, case: Case, root: int) -> list[int]:
        """The legs of a tree from a root that holds every site that the root reaches, in random order."""
        legs: list[int] = []
        while True:
            more = [leg for leg in range(len(case.network.legs)) if is_tree(case.network, root, [*legs, leg])]
            if not more:
                chance.shuffle(legs)
                return legs
            legs.append(chance.choice(more))

    def test_plans_leave_nothing_unassigned(self) -> None:
        chance = random.Random(7)
        plans = 0
        for _ in range(2000):
            case = small_case(chance, most_sites=8, most_links=20, most_stations=5)
            plan = self.library.plan(case.sheet)
            if isinstance(plan, Plan):
                plans += 1
                self.assertEqual(self.compare(case, plan.root, [leg.number for leg in plan.legs]), 0, case)
        self.assertGreater(plans, 500)

    def test_trees(self) -> None:
        chance = random.Random(8)
        seen = {"paid whole": 0, "paid in part": 0, "not paid": 0, "refused": 0}
        for _ in range(4000):
            case = tiny_case(chance)
            root = chance.randrange(case.network.sites)
            legs = self.grown(chance, case, root)
            total = total_of(case.network, legs)
            refusal = refusal_of(case.network, root, total, legs)
            if refusal:
                seen["refused"] += 1
                self.assertEqual(self.library.shares(case.sheet, build_plan(root, total, legs)), Refusal(refusal, 0), case)
                continue
            unassigned = self.compare(case, root, legs)
            seen["paid whole" if unassigned == 0 else "paid in part" if unassigned < total else "not paid"] += 1
        self.assertGreater(min(seen.values()), 100, seen)


if __name__ == "__main__":
    unittest.main()
