"""The worked sheets A to J of document 01, and the plan files of A that it names, as bytes written out."""

from __future__ import annotations


def _bytes(*records: str) -> bytes:
    """The bytes of records: a mark in letters, then its fields in hexadecimal."""
    return b"".join(record[:2].encode("ascii") + bytes.fromhex(record[2:]) for record in records)


_A = _bytes(
    "HD 0004 03",
    "LK 0000 0001 00000004",
    "LK 0001 0002 00000003",
    "LK 0001 0003 00000003",
    "LK 0000 0002 00000005",
    "LK 0000 0003 00000006",
    "ST 00 0002",
    "ST 01 0003",
    "ST 02 0000",
    "ED",
)
_B = _bytes("HD 0001 01", "ST 00 0000", "ED")
_C = _bytes("HD 0003 02", "LK 0000 0001 00000009", "LK 0000 0002 00000004", "ST 00 0000", "ST 01 0001", "ST 01 0002", "ED")
_D = _bytes("HD 0002 02", "BK 0000 0001 00000007", "ST 00 0000", "ST 01 0001", "ED")
_E = _bytes("HD 0002 02", "ST 00 0000", "ST 01 0001", "ED")
_F = _bytes("HD 0002 02", "BK 0000 0001 00000000", "ST 00 0000", "ST 01 0001", "ED")
_G = _bytes("HD 0002 02", "BK 0000 0001 000F4240", "ST 00 0000", "ST 01 0001", "ED")
_H = _bytes("HD 0002 02", "BK 0000 0001 000F4241", "ST 00 0000", "ST 01 0001", "ED")
_I = b""
_J = _B + b"\x00"

SHEETS = {"A": _A, "B": _B, "C": _C, "D": _D, "E": _E, "F": _F, "G": _G, "H": _H, "I": _I, "J": _J}

FILE_OF_A = _bytes("PN 0000 0000000A 0003", "LG 0000", "LG 0001", "LG 0002")
FILE_K = _bytes("PN 0000 0000000A 0004", "LG 0000", "LG 0001", "LG 0002", "LG 0002")
FILE_L = _bytes("PN 0000 0000000B 0003", "LG 0000", "LG 0001", "LG 0002")
