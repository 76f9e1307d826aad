"""Makes a sheet from rows of text: `python3 -m uldhvamm ROWS SHEET`.

ROWS is a text file with one record on a line, its mark and its numbers apart by spaces: `HD 4 3`, `LK 0 1 4`, `BK 0 1 7`, `ST 0 2`, `SR 3`,
`ED`. Empty lines and what follows a `#` are passed over. SHEET is the file that is written.
"""

from __future__ import annotations

import sys
from pathlib import Path

from .formats import encode_words


def sheet_of(text: str) -> bytes:
    """The sheet with these rows. A row that is no record is a ValueError that names its line."""
    records: list[bytes] = []
    for number, line in enumerate(text.splitlines(), start=1):
        words = line.split("#", 1)[0].split()
        if not words:
            continue
        try:
            records.append(encode_words(words))
        except ValueError as fault:
            raise ValueError(f"line {number}: {fault}") from None
    return b"".join(records)


def main(arguments: list[str]) -> int:
    """Reads the rows, writes the sheet, and says how long it is."""
    if len(arguments) != 2:
        print("usage: python3 -m uldhvamm ROWS SHEET", file=sys.stderr)
        return 2
    rows, sheet = (Path(argument) for argument in arguments)
    try:
        made = sheet_of(rows.read_text(encoding="utf-8-sig"))
        if sheet.exists() and sheet.samefile(rows):
            raise ValueError(f"{sheet} holds the rows; the sheet needs a file of its own")
        sheet.write_bytes(made)
    except (OSError, ValueError) as fault:
        print(fault, file=sys.stderr)
        return 1
    print(f"{sheet}: {len(made)} bytes")
    return 0


if __name__ == "__main__":
    sys.exit(main(sys.argv[1:]))
