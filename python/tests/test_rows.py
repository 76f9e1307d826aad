"""Sheets made from rows of text: the samples by the rows of their account, and rows that are no records."""

from __future__ import annotations

import contextlib
import io
import re
import tempfile
import unittest
from pathlib import Path

from uldhvamm.__main__ import main, sheet_of

SAMPLES = Path(__file__).resolve().parents[2] / "samples"


def accounts() -> dict[str, str]:
    """The rows of each sample in samples/README.md, one on a line: the first column of its table."""
    rows: dict[str, list[str]] = {}
    name = ""
    for line in (SAMPLES / "README.md").read_text(encoding="utf-8").splitlines():
        heading = re.match(r"## (\w+):", line)
        if heading:
            name = heading.group(1)
        record = re.match(r"\| `([A-Z]{2})`([ 0-9]*)\|", line)
        if record and name:
            rows.setdefault(name, []).append(record.group(1) + record.group(2))
    return {name: "\n".join(lines) for name, lines in rows.items()}


class Rows(unittest.TestCase):
    """Rows of text as a sheet."""

    def test_the_accounts_are_the_samples(self) -> None:
        # I has no row, and J has a byte that is no record
        found = accounts()
        self.assertEqual(sorted(found), ["A", "B", "C", "D", "E", "F", "G", "H", "J", "fjord", "licence", "unlicensed"])
        for name, rows in found.items():
            sheet = (SAMPLES / f"{name}.sheet").read_bytes()
            self.assertEqual(sheet_of(rows), sheet[:-1] if name == "J" else sheet, name)

    def test_spaces_empty_lines_and_remarks(self) -> None:
        self.assertEqual(sheet_of("# B\n\n  HD 1   1 # one site\nST 0 0\r\nED"), (SAMPLES / "B.sheet").read_bytes())

    def test_rows_that_are_no_records(self) -> None:
        for rows, fault in [
            ("HD 1 1\nXX 0", "line 2: XX is none of HD, LK, BK, ST, SR, ED"),
            ("HD 1", "line 1: HD takes 2 numbers, not 1"),
            ("ED 0", "line 1: ED takes 0 numbers, not 1"),
            ("\nST 0 -1", "line 2: -1 is no number"),
            ("LK 0 1 4.5", "line 1: 4.5 is no number"),
            ("LK 0 65536 4", "line 1: end 65536 does not fit 2 bytes"),
            ("SR", "line 1: SR takes 1 number, not 0"),
            ("SR 0 1", "line 1: SR takes 1 number, not 2"),
            ("SR 65536", "line 1: site 65536 does not fit 2 bytes"),
        ]:
            with self.assertRaises(ValueError) as raised:
                sheet_of(rows)
            self.assertEqual(str(raised.exception), fault)

    def test_a_sender(self) -> None:
        self.assertEqual(sheet_of("HD 4 1\nSR 3\nST 0 0\nSR 258\nED"), b"HD\0\x04\x01SR\0\x03ST\0\0\0SR\x01\x02ED")

    def test_the_command(self) -> None:
        with tempfile.TemporaryDirectory() as folder:
            rows, sheet = Path(folder) / "rows.txt", Path(folder) / "made.sheet"
            rows.write_text("HD 1 1\nST 0 0\nED\n", encoding="utf-8")
            said = io.StringIO()
            with contextlib.redirect_stdout(said):
                self.assertEqual(main([str(rows), str(sheet)]), 0)
            self.assertEqual(said.getvalue(), f"{sheet}: 12 bytes\n")
            self.assertEqual(sheet.read_bytes(), (SAMPLES / "B.sheet").read_bytes())

    def test_the_rows_are_not_written_over(self) -> None:
        with tempfile.TemporaryDirectory() as folder:
            rows = Path(folder) / "rows.txt"
            rows.write_text("\ufeffHD 1 1\nST 0 0\nED\n", encoding="utf-8")
            with contextlib.redirect_stderr(io.StringIO()):
                self.assertEqual(main([str(rows), str(rows)]), 1)
            self.assertEqual(rows.read_text(encoding="utf-8-sig"), "HD 1 1\nST 0 0\nED\n")

    def test_the_command_with_a_fault_writes_nothing(self) -> None:
        with tempfile.TemporaryDirectory() as folder:
            rows, sheet = Path(folder) / "rows.txt", Path(folder) / "made.sheet"
            rows.write_text("HD 1\n", encoding="utf-8")
            said = io.StringIO()
            with contextlib.redirect_stderr(said):
                self.assertEqual(main([str(rows), str(sheet)]), 1)
                self.assertEqual(main([str(rows)]), 2)
            self.assertIn("line 1: HD takes 2 numbers, not 1", said.getvalue())
            self.assertFalse(sheet.exists())


if __name__ == "__main__":
    unittest.main()
