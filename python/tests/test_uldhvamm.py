"""The package: encoding, loading, the worked cases A to L of document 01, every refusal that a caller can meet, and threads."""

from __future__ import annotations

import os
import unittest
from concurrent.futures import ThreadPoolExecutor
from pathlib import Path
from unittest import mock

from uldhvamm import Accepted, BothWays, Family, Landing, Leg, Plan, PlannedLeg, Refusal, Row, Sender, build_plan, build_sheet, load
from worked import FILE_K, FILE_L, FILE_OF_A, SHEETS


class Encoding(unittest.TestCase):
    """Sheets and plan files as bytes."""

    def test_sheets_are_those_of_document_01(self) -> None:
        legs = [Leg(0, 1, 4), Leg(1, 2, 3), Leg(1, 3, 3), Leg(0, 2, 5), Leg(0, 3, 6)]
        sheet = build_sheet(4, 3, [*legs, Landing(0, 2), Landing(1, 3), Landing(2, 0)])
        self.assertEqual(len(sheet), 72)
        self.assertEqual(sheet, SHEETS["A"])
        self.assertEqual(build_sheet(2, 2, [BothWays(0, 1, 7), Landing(0, 0), Landing(1, 1)]), SHEETS["D"])

    def test_numbers_have_the_highest_byte_first(self) -> None:
        sheet = build_sheet(0x0102, 0x03, [Leg(0x0405, 0x0607, 0x08090A0B), BothWays(1, 2, 3), Landing(0x0C, 0x0D0E), Sender(0x0F10)])
        self.assertEqual(
            sheet,
            b"HD\x01\x02\x03"
            b"LK\x04\x05\x06\x07\x08\x09\x0a\x0b"
            b"BK\x00\x01\x00\x02\x00\x00\x00\x03"
            b"ST\x0c\x0d\x0e"
            b"SR\x0f\x10"
            b"ED",
        )
        self.assertEqual(build_plan(0x0102, 0x03040506, [0x0708]), b"PN\x01\x02\x03\x04\x05\x06\x00\x01LG\x07\x08")

    def test_the_highest_numbers_fit(self) -> None:
        rows: list[Row] = [Leg(65535, 65535, 4294967295), Landing(255, 65535), Sender(65535)]
        records = b"HD" + b"\xff" * 3 + b"LK" + b"\xff" * 8 + b"ST" + b"\xff" * 3 + b"SR" + b"\xff" * 2 + b"ED"
        self.assertEqual(build_sheet(65535, 255, rows), records)
        self.assertEqual(build_plan(65535, 4294967295, [65535]), b"PN" + b"\xff" * 6 + b"\x00\x01LG\xff\xff")
        self.assertEqual(len(build_plan(0, 0, [0] * 65535)), 10 + 4 * 65535)

    def test_numbers_that_do_not_fit_are_errors(self) -> None:
        faulty = [
            lambda: build_sheet(65536, 1, []),
            lambda: build_sheet(-1, 1, []),
            lambda: build_sheet(1, 256, []),
            lambda: build_sheet(1, 1, [Leg(65536, 0, 1)]),
            lambda: build_sheet(1, 1, [Leg(0, 65536, 1)]),
            lambda: build_sheet(1, 1, [Leg(0, 0, 4294967296)]),
            lambda: build_sheet(1, 1, [BothWays(0, -1, 1)]),
            lambda: build_sheet(1, 1, [Landing(256, 0)]),
            lambda: build_sheet(1, 1, [Landing(0, 65536)]),
            lambda: build_sheet(1, 1, [Sender(65536)]),
            lambda: build_sheet(1, 1, [Sender(-1)]),
            lambda: build_plan(65536, 0, []),
            lambda: build_plan(0, 4294967296, []),
            lambda: build_plan(0, 0, [65536]),
            lambda: build_plan(0, 0, [0] * 65536),
        ]
        for place, build in enumerate(faulty):
            with self.subTest(place=place), self.assertRaisesRegex(ValueError, "does not fit"):
                build()

    def test_what_is_no_number_or_row_is_an_error(self) -> None:
        with self.assertRaises(TypeError):
            build_sheet(1, 1, [Leg(0, 1, 2.5)])  # type: ignore[arg-type]
        with self.assertRaises(TypeError):
            build_sheet(1, 1, [(0, 1, 2)])  # type: ignore[list-item]


class Loading(unittest.TestCase):
    """Where the library is looked for."""

    def test_a_missing_file_names_the_command(self) -> None:
        with self.assertRaisesRegex(FileNotFoundError, "nowhere.so is missing.*tests/outside"):
            load("nowhere.so")

    def test_the_environment_names_the_file(self) -> None:
        with mock.patch.dict(os.environ, {"ULDHVAMM_LIBRARY": "named.so"}):
            with self.assertRaisesRegex(FileNotFoundError, "named.so is missing"):
                load()

    def test_without_a_name_it_is_the_file_in_target(self) -> None:
        with mock.patch.dict(os.environ), mock.patch.object(Path, "is_file", return_value=False):
            os.environ.pop("ULDHVAMM_LIBRARY", None)
            with self.assertRaisesRegex(FileNotFoundError, os.path.join("target", "outside", "libuldhvamm.so") + " is missing"):
                load()


class Worked(unittest.TestCase):
    """The worked cases of document 01."""

    def setUp(self) -> None:
        self.library = load()

    def test_a(self) -> None:
        legs = (PlannedLeg(0, 0, 1, 4), PlannedLeg(1, 1, 2, 3), PlannedLeg(2, 1, 3, 3))
        self.assertEqual(self.library.plan(SHEETS["A"]), Plan(0, 10, legs, FILE_OF_A))
        self.assertEqual(self.library.read_plan(SHEETS["A"], FILE_OF_A), Accepted(0, 10, 3))

    def test_plans_of_b_to_g(self) -> None:
        expected = {
            "B": Plan(0, 0, (), b"PN\0\0\0\0\0\0\0\0"),
            "C": Plan(0, 4, (PlannedLeg(1, 0, 2, 4),), b"PN\0\0\0\0\0\x04\0\x01LG\0\x01"),
            "D": Plan(0, 7, (PlannedLeg(0, 0, 1, 7),), b"PN\0\0\0\0\0\x07\0\x01LG\0\0"),
            "G": Plan(0, 1000000, (PlannedLeg(0, 0, 1, 1000000),), b"PN\0\0\0\x0f\x42\x40\0\x01LG\0\0"),
        }
        for name, plan in expected.items():
            with self.subTest(sheet=name):
                self.assertEqual(self.library.plan(SHEETS[name]), plan)
                self.assertEqual(self.library.read_plan(SHEETS[name], plan.file), Accepted(0, plan.total, len(plan.legs)))

    def test_refusals_of_e_to_j(self) -> None:
        expected = {"E": Refusal(12, 0), "F": Refusal(7, 5), "H": Refusal(7, 5), "I": Refusal(1, 0), "J": Refusal(9, 12)}
        for name, refusal in expected.items():
            with self.subTest(sheet=name):
                self.assertEqual(self.library.plan(SHEETS[name]), refusal)

    def test_files_k_and_l(self) -> None:
        self.assertEqual(self.library.read_plan(SHEETS["A"], FILE_K), Refusal(17, 0))
        self.assertEqual(self.library.read_plan(SHEETS["A"], FILE_L), Refusal(19, 0))


class Refusals(unittest.TestCase):
    """Number, word, place and family of the refusals. 11 and 13 do not occur: the tables are always long enough."""

    def setUp(self) -> None:
        self.library = load()

    def refused(self, sheet: bytes, number: int, word: str, place: int, family: Family) -> None:
        """Tests that the engine refuses a sheet, and the reader too where the sheet is the cause."""
        answer = self.library.plan(sheet)
        self.assertEqual(answer, Refusal(number, place))
        assert isinstance(answer, Refusal)
        self.assertEqual((answer.word, answer.family), (word, family))
        self.assertEqual(str(answer), f"refused {number} at {place}: {word}")
        if family is Family.SHEET:
            self.assertEqual(self.library.read_plan(sheet, FILE_OF_A), answer)

    def file_refused(self, file: bytes, number: int, word: str, place: int, sheet: bytes = SHEETS["A"]) -> None:
        """Tests that the reader refuses a plan file against a sheet, which is A where none is named."""
        answer = self.library.read_plan(sheet, file)
        self.assertEqual(answer, Refusal(number, place))
        assert isinstance(answer, Refusal)
        self.assertEqual((answer.word, answer.family), (word, Family.PLAN_FILE))

    def test_1(self) -> None:
        for sheet, place in [(b"H", 0), (b"HD\0\x01", 0), (SHEETS["A"][:-1], 70), (SHEETS["A"][:-2], 70), (SHEETS["A"][:14], 5)]:
            self.refused(sheet, 1, "short sheet", place, Family.SHEET)
        for sheet, place in [(SHEETS["A"][:-2] + b"SR", 70), (SHEETS["A"][:-2] + b"SR\0", 70), (SHEETS["A"][:-2] + b"SR\0\0", 74)]:
            self.refused(sheet, 1, "short sheet", place, Family.SHEET)

    def test_2(self) -> None:
        for sheet, place in [(b"hd\0\x01\x01ED", 0), (b"HD\0\x01\x01HD\0\x01\x01ED", 5), (SHEETS["A"][:-2] + b"XX", 70)]:
            self.refused(sheet, 2, "strange mark", place, Family.SHEET)

    def test_3(self) -> None:
        for sites, stations in [(0, 1), (1025, 1), (65535, 1), (1, 0), (1, 11), (1, 255)]:
            self.refused(build_sheet(sites, stations, [Landing(0, 0)]), 3, "bad head", 0, Family.SHEET)

    def test_4(self) -> None:
        rows: list[Row] = [Leg(2, 0, 1), Leg(0, 2, 1), BothWays(65535, 0, 1), Landing(0, 2), Sender(2), Sender(65535)]
        for row in rows:
            self.refused(build_sheet(2, 1, [Leg(0, 1, 1), row]), 4, "no such site", 15, Family.SHEET)

    def test_5_and_6(self) -> None:
        good = Leg(0, 1, 1)
        self.refused(build_sheet(2, 1, [good, Landing(1, 0)]), 5, "no such station", 15, Family.SHEET)
        self.refused(build_sheet(2, 1, [good, good, BothWays(1, 1, 1)]), 6, "loop", 25, Family.SHEET)

    def test_7(self) -> None:
        for price in [0, 1000001, 4294967295]:
            self.refused(build_sheet(2, 1, [Leg(0, 1, 1), Leg(1, 0, price)]), 7, "bad price", 15, Family.SHEET)

    def test_8_to_10(self) -> None:
        one, both, landing = Leg(0, 1, 1), BothWays(0, 1, 1), Landing(0, 0)
        self.refused(build_sheet(2, 1, [one] * 8193), 8, "too many legs", 81925, Family.SHEET)
        self.refused(build_sheet(2, 1, [both] * 4097), 8, "too many legs", 40965, Family.SHEET)
        self.refused(build_sheet(2, 1, [*[one] * 8191, both]), 8, "too many legs", 81915, Family.SHEET)
        self.refused(SHEETS["A"] + b"ED", 9, "after the end", 72, Family.SHEET)
        self.refused(build_sheet(1, 2, [landing]), 10, "unheard", 10, Family.SHEET)

    def test_12(self) -> None:
        self.refused(SHEETS["E"], 12, "no plan", 0, Family.SEARCH)
        apart = build_sheet(3, 2, [Leg(0, 2, 1), Leg(1, 2, 1), Landing(0, 0), Landing(1, 1)])
        self.refused(apart, 12, "no plan", 0, Family.SEARCH)
        self.refused(SHEETS["A"][:-2] + b"SR\0\x01ED", 12, "no plan", 0, Family.SEARCH)

    def test_14(self) -> None:
        for file in [b"", FILE_OF_A[:9], FILE_OF_A[:-1], build_plan(0, 0, [])[:8] + b"\xff\xff"]:
            self.file_refused(file, 14, "cut plan", 0)

    def test_15(self) -> None:
        for file, place in [(b"XX" + FILE_OF_A[2:], 0), (FILE_OF_A + b"LG\0\0", 22), (FILE_OF_A[:14] + b"XX" + FILE_OF_A[16:], 14)]:
            self.file_refused(file, 15, "bad plan", place)

    def test_16(self) -> None:
        self.file_refused(build_plan(4, 10, [0, 1, 2]), 16, "unknown number", 0)
        self.file_refused(build_plan(0, 10, [0, 1, 5]), 16, "unknown number", 18)

    def test_17(self) -> None:
        for root, legs in [(1, [0, 1, 2]), (0, [0, 1, 3]), (0, [1, 2]), (0, [0, 1, 2, 2])]:
            self.file_refused(build_plan(root, 10, legs), 17, "no tree", 0)

    def test_18(self) -> None:
        files: list[tuple[int, list[int]]] = [(0, [0, 1]), (1, [1, 2]), (3, [])]
        for root, legs in files:
            self.file_refused(build_plan(root, 10, legs), 18, "station missed", 0)

    def test_19(self) -> None:
        for total in [0, 9, 4294967295]:
            self.file_refused(build_plan(0, total, [0, 1, 2]), 19, "false total", 0)

    def test_20(self) -> None:
        sheet = SHEETS["A"][:-2] + b"SR\0\x01ED"
        for root, total, legs in [(0, 10, [0, 1, 2]), (0, 11, [0, 1, 2]), (0, 7, [0, 1]), (3, 0, [])]:
            self.file_refused(build_plan(root, total, legs), 20, "not a sender", 0, sheet)
        self.file_refused(FILE_K, 17, "no tree", 0, sheet)
        self.file_refused(build_plan(1, 6, [1, 2]), 18, "station missed", 0, sheet)

    def test_numbers_of_no_refusal_are_errors(self) -> None:
        for number in [0, 21]:
            with self.assertRaises(ValueError):
                Refusal(number, 0)
        self.assertEqual([Refusal(number, 0).family for number in [11, 13]], [Family.TABLES] * 2)
        self.assertEqual([Refusal(number, 0).word for number in [11, 13]], ["short tables", "short buffer"])


class Limits(unittest.TestCase):
    """Sheets at the limits, arguments of other types, and threads."""

    def setUp(self) -> None:
        self.library = load()

    def test_a_sheet_at_every_limit_is_planned(self) -> None:
        chain = [Leg(site, site + 1, 1000000) for site in reversed(range(1023))]
        others = [Leg(0, 1, 1000000)] * (8192 - 1023)
        landings = [Landing(station, 0 if station == 0 else 1023) for station in range(10)]
        sheet = build_sheet(1024, 10, [*chain, *others, *landings])
        answer = self.library.plan(sheet)
        assert isinstance(answer, Plan)
        self.assertEqual((answer.root, answer.total), (0, 1023000000))
        legs = tuple(PlannedLeg(1022 - site, site, site + 1, 1000000) for site in range(1023))
        self.assertTrue(answer.legs == legs, "the legs differ")
        self.assertEqual(answer.file, build_plan(0, 1023000000, range(1022, -1, -1)))
        self.assertEqual(self.library.read_plan(sheet, answer.file), Accepted(0, 1023000000, 1023))

    def test_only_bytes_are_taken(self) -> None:
        for other in ["HD", bytearray(SHEETS["A"]), None, 72]:
            with self.subTest(other=other):
                with self.assertRaisesRegex(TypeError, "bytes are needed"):
                    self.library.plan(other)  # type: ignore[arg-type]
                with self.assertRaisesRegex(TypeError, "bytes are needed"):
                    self.library.read_plan(SHEETS["A"], other)  # type: ignore[arg-type]

    def test_threads_share_a_library(self) -> None:
        names = list(SHEETS) * 40
        alone = {name: self.library.plan(sheet) for name, sheet in SHEETS.items()}
        with ThreadPoolExecutor(max_workers=4) as pool:
            together = list(pool.map(lambda name: self.library.plan(SHEETS[name]), names))
        for name, answer in zip(names, together):
            self.assertEqual(answer, alone[name], name)


if __name__ == "__main__":
    unittest.main()
