"""Random small sheets: the library's plans against those by trial, and plan files against the rules of documents 01 and 02 for the
plan reader.
"""

from __future__ import annotations

import random
import unittest
from typing import Callable, NamedTuple

from brute import Cells, Network, cells_by_growth, cells_by_sublists, network_of, planned, refusal_of, some_site_reaches_all, total_of
from uldhvamm import Accepted, BothWays, Landing, Leg, Plan, Refusal, Row, Sender, build_plan, build_sheet, load


class Case(NamedTuple):
    """A good sheet and its network."""

    sheet: bytes
    network: Network


def small_case(chance: random.Random, most_sites: int, most_links: int, most_stations: int) -> Case:
    """A random good sheet. Prices are low, so that many totals are equal; some legs are parallel; records are in any order.

    A third of the sheets let every site send, the others one or more, some of them by two records.
    """
    sites = chance.randint(1, most_sites)
    stations = chance.randint(1, most_stations)
    highest = chance.choice([1, 3, 9, 1000000])
    rows: list[Row] = []
    for _ in range(chance.randint(0, most_links) if sites > 1 else 0):
        start, end = chance.sample(range(sites), 2)
        kinds: list[Callable[[int, int, int], Row]] = [Leg, Leg, BothWays]
        rows.append(chance.choice(kinds)(start, end, chance.randint(1, highest)))
    for station in range(stations):
        rows += [Landing(station, chance.randrange(sites)) for _ in range(chance.choice([1, 1, 2]))]
    rows += [Sender(chance.randrange(sites)) for _ in range(chance.choice([0, 0, 1, 1, 2, sites]))]
    chance.shuffle(rows)
    return Case(build_sheet(sites, stations, rows), network_of(sites, stations, rows))


def tiny_case(chance: random.Random) -> Case:
    """A random sheet with few enough legs to try every sublist of them."""
    while True:
        case = small_case(chance, most_sites=5, most_links=7, most_stations=3)
        if len(case.network.legs) <= 8:
            return case


class Planning(unittest.TestCase):
    """The library's plan, leg by leg."""

    def setUp(self) -> None:
        self.library = load()
        self.plans = 0
        self.unreached = 0
        self.unlicensed = 0

    def compare(self, case: Case, cells: Cells) -> None:
        """Tests the answer to a sheet against the plan from a cost table."""
        expected = planned(case.network, cells)
        answer = self.library.plan(case.sheet)
        if expected is None:
            if some_site_reaches_all(cells):
                self.unlicensed += 1
            else:
                self.unreached += 1
            self.assertEqual(answer, Refusal(12, 0), case)
            return
        self.plans += 1
        root, total, legs = expected
        assert isinstance(answer, Plan), case
        self.assertEqual((answer.root, answer.total, answer.file), (root, total, build_plan(root, total, legs)), case)
        listed = tuple((leg.number, leg.start, leg.end, leg.price) for leg in answer.legs)
        self.assertEqual(listed, tuple((leg, *case.network.legs[leg]) for leg in legs), case)
        self.assertEqual(self.library.read_plan(case.sheet, answer.file), Accepted(root, total, len(legs)), case)

    def test_every_sublist_of_the_legs(self) -> None:
        chance = random.Random(1)
        for _ in range(4000):
            case = tiny_case(chance)
            self.compare(case, cells_by_sublists(case.network))
        self.assertGreater(min(self.plans, self.unreached, self.unlicensed), 200)

    def test_every_set_of_sites(self) -> None:
        chance = random.Random(2)
        for _ in range(1000):
            case = small_case(chance, most_sites=8, most_links=20, most_stations=5)
            self.compare(case, cells_by_growth(case.network))
        self.assertGreater(min(self.plans, self.unreached, self.unlicensed), 50)

    def test_both_trials_agree(self) -> None:
        chance = random.Random(3)
        for _ in range(100):
            network = tiny_case(chance).network
            self.assertEqual(cells_by_sublists(network), cells_by_growth(network), network)


class Reading(unittest.TestCase):
    """What the plan reader says to plans that are changed, and to lists of legs."""

    def setUp(self) -> None:
        self.library = load()

    def number(self, case: Case, root: int, total: int, legs: list[int]) -> int:
        """The number of the reader's refusal of a plan file, which is at place 0, or 0 for an acceptance."""
        answer = self.library.read_plan(case.sheet, build_plan(root, total, legs))
        if isinstance(answer, Accepted):
            self.assertEqual(answer, Accepted(root, total, len(legs)), case)
            return 0
        self.assertEqual(answer.place, 0, case)
        return answer.number

    def test_changed_plans_are_refused(self) -> None:
        chance = random.Random(4)
        seen: set[int] = set()
        for _ in range(400):
            case = tiny_case(chance)
            plan = self.library.plan(case.sheet)
            if isinstance(plan, Plan):
                seen |= self.change(case, plan)
        self.assertEqual(seen, {17, 18})

    def change(self, case: Case, plan: Plan) -> set[int]:
        """Tests changes of a plan's numbers, and gives the refusals of the plan without one of its legs."""
        root, total, legs = plan.root, plan.total, [leg.number for leg in plan.legs]
        self.assertEqual(self.number(case, root, total + 1, legs), 19)
        self.assertEqual(self.number(case, root, total, legs[::-1]), 0)
        self.assertEqual(self.library.read_plan(case.sheet, build_plan(len(case.network.heard), total, legs)), Refusal(16, 0))
        unknown = build_plan(root, total, [*legs, len(case.network.legs)])
        self.assertEqual(self.library.read_plan(case.sheet, unknown), Refusal(16, len(plan.file)))
        self.assertEqual(self.library.read_plan(case.sheet, plan.file + b"L"), Refusal(15, len(plan.file)))
        self.assertEqual(self.library.read_plan(case.sheet, plan.file[:-1]), Refusal(14, 0))
        self.assertEqual({self.number(case, root, total, [*legs, leg]) for leg in legs}, {17} if legs else set())
        dropped = {self.number(case, root, total, legs[:place] + legs[place + 1 :]) for place in range(len(legs))}
        self.assertLessEqual(dropped, {17, 18})
        return dropped

    def test_lists_of_legs_are_read_by_the_rules(self) -> None:
        chance = random.Random(5)
        seen = {0: 0, 17: 0, 18: 0, 19: 0, 20: 0}
        for _ in range(3000):
            case = tiny_case(chance)
            legs = chance.sample(range(len(case.network.legs)), chance.randint(0, min(4, len(case.network.legs))))
            root = chance.randrange(case.network.sites)
            total = total_of(case.network, legs) + chance.choice([0, 0, 1])
            expected = refusal_of(case.network, root, total, legs)
            seen[expected] += 1
            answer = self.library.read_plan(case.sheet, build_plan(root, total, legs))
            self.assertEqual(answer, Refusal(expected, 0) if expected else Accepted(root, total, len(legs)), case)
        self.assertGreater(min(seen.values()), 50, seen)


if __name__ == "__main__":
    unittest.main()
