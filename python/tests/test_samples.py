"""The files of samples/: the sheets byte by byte, and what the desk program is to write for each, as text of the library's answer.

The desk program itself is run by tests/outside. Each sample is within its limits, so it answers as the library does.
"""

from __future__ import annotations

import unittest
from pathlib import Path
from typing import Union

from brute import cells_by_growth, network_of, planned
from shares import Split, split_of
from uldhvamm import BothWays, Landing, Leg, Plan, Refusal, Row, Sender, Shares, build_plan, build_sheet, load
from worked import SHEETS

SAMPLES = Path(__file__).resolve().parents[2] / "samples"

FJORD: list[Row] = [
    BothWays(0, 1, 9500),
    BothWays(0, 4, 6000),
    BothWays(1, 6, 14000),
    Leg(6, 2, 21000),
    Leg(6, 9, 26500),
    BothWays(2, 3, 11000),
    BothWays(4, 5, 5500),
    Leg(5, 10, 8000),
    BothWays(10, 9, 17500),
    BothWays(6, 7, 19000),
    Leg(7, 8, 12500),
    Leg(8, 7, 13500),
    BothWays(8, 3, 23000),
    Leg(1, 2, 33000),
    Leg(0, 7, 30500),
    BothWays(7, 11, 7500),
    Leg(11, 8, 16500),
    Leg(9, 6, 24000),
    Leg(4, 10, 12000),
    BothWays(5, 11, 15500),
    Leg(3, 2, 10000),
    Landing(0, 3),
    Landing(0, 8),
    Landing(1, 2),
    Landing(1, 3),
    Landing(2, 4),
    Landing(2, 5),
    Landing(3, 9),
    Landing(4, 7),
    Landing(4, 8),
    Landing(4, 11),
]

# The legs and landings of licence and unlicensed, which differ in their senders.
LICENCE: list[Row] = [Leg(0, 1, 300), Leg(0, 2, 200), Leg(1, 0, 350), Leg(3, 0, 400), Landing(0, 1), Landing(1, 2)]


def listing(answer: Union[Plan, Refusal]) -> str:
    """The text of the desk program for an answer."""
    if isinstance(answer, Refusal):
        return f"refused {answer.number} at {answer.place}\n"
    lines = [f"root {answer.root} total {answer.total} legs {len(answer.legs)}\n"]
    lines += [f"leg {leg.number} from {leg.start} to {leg.end} price {leg.price}\n" for leg in answer.legs]
    return "".join(lines)


class Samples(unittest.TestCase):
    """Each sample has a sheet and a text."""

    def test_the_sheets_are_those_named(self) -> None:
        sheets = {
            **SHEETS,
            "fjord": build_sheet(12, 5, FJORD),
            "licence": build_sheet(4, 2, [*LICENCE, Sender(1), Sender(3)]),
            "unlicensed": build_sheet(4, 2, [*LICENCE, Sender(2)]),
        }
        self.assertEqual({path.stem: path.read_bytes() for path in SAMPLES.glob("*.sheet")}, sheets)

    def test_the_texts_are_those_of_the_answers(self) -> None:
        library = load()
        texts = {path.stem: listing(library.plan(path.read_bytes())) for path in SAMPLES.glob("*.sheet")}
        self.assertEqual({path.stem: path.read_bytes().decode("ascii") for path in SAMPLES.glob("*.txt")}, texts)

    def test_the_plan_of_the_fjord_is_the_one_by_trial(self) -> None:
        network = network_of(12, 5, FJORD)
        cells = cells_by_growth(network)
        expected = planned(network, cells)
        self.assertEqual(expected, (5, 80500, [12, 13, 28, 25, 19]))
        assert expected is not None
        answer = load().plan(build_sheet(12, 5, FJORD))
        assert isinstance(answer, Plan)
        self.assertEqual(answer.file, build_plan(*expected))
        self.assertEqual([cells[site][31] for site in (0, 11)], [92000, 80500])

    def test_the_shares_of_the_fjord_are_those_of_the_definition(self) -> None:
        legs = [12, 13, 28, 25, 19]
        split = split_of(network_of(12, 5, FJORD), 5, legs)
        self.assertEqual(split, Split((22167, 22167, 0, 25500, 10666), 0))
        answer = load().shares(build_sheet(12, 5, FJORD), build_plan(5, 80500, legs))
        self.assertEqual(answer, Shares(5, 80500, 5, split.shares, split.unassigned))

    def test_the_plans_of_licence_and_unlicensed_are_those_by_trial(self) -> None:
        cells = cells_by_growth(network_of(4, 2, LICENCE))
        self.assertEqual([row[3] for row in cells], [500, 550, None, 900])
        for senders, expected in [
            ([], (0, 500, [0, 1])),
            ([Sender(1), Sender(3)], (1, 550, [2, 1])),
            ([Sender(2)], None),
        ]:
            rows = [*LICENCE, *senders]
            self.assertEqual(planned(network_of(4, 2, rows), cells), expected)
            answer = load().plan(build_sheet(4, 2, rows))
            if expected is None:
                self.assertEqual(answer, Refusal(12, 0))
            else:
                assert isinstance(answer, Plan)
                self.assertEqual(answer.file, build_plan(*expected))


if __name__ == "__main__":
    unittest.main()
