"""What the library answers: a plan, an accepted plan file, its shares, a cell, a best sender, or a refusal with its number, word, place and
family after documents 01 and 02.
"""

from __future__ import annotations

import enum
from dataclasses import dataclass
from typing import Optional


@dataclass(frozen=True)
class PlannedLeg:
    """A leg of a plan: its number on the sheet, its start and end, and its price in cents."""

    number: int
    start: int
    end: int
    price: int


@dataclass(frozen=True)
class Plan:
    """A plan: the root (the sending site), the total in cents, the legs in the plan's order, and the plan file."""

    root: int
    total: int
    legs: tuple[PlannedLeg, ...]
    file: bytes


@dataclass(frozen=True)
class Accepted:
    """An accepted plan file: its root (the sending site), its total in cents and its number of legs."""

    root: int
    total: int
    legs: int


@dataclass(frozen=True)
class Shares:
    """The shares of an accepted plan file: its root (the sending site), its total in cents, its number of legs, what each station pays in
    cents, station 0 first, and the sum of the legs that serve no station. The shares and this sum make the total.
    """

    root: int
    total: int
    legs: int
    shares: tuple[int, ...]
    unassigned: int


@dataclass(frozen=True)
class Cell:
    """A cell of a cost table: the least total in cents of a tree from a site to a subset of the stations, or None where there is none."""

    cost: Optional[int]


@dataclass(frozen=True)
class BestSender:
    """The best sender of a subset: of the sites that may send, the lowest of those whose cell is least, or None where none has a finite
    cell.
    """

    site: Optional[int]


class Family(enum.Enum):
    """What caused a refusal."""

    SHEET = "sheet"
    TABLES = "tables"
    SEARCH = "search"
    PLAN_FILE = "plan file"


_WORDS = {
    1: "short sheet",
    2: "strange mark",
    3: "bad head",
    4: "no such site",
    5: "no such station",
    6: "loop",
    7: "bad price",
    8: "too many legs",
    9: "after the end",
    10: "unheard",
    11: "short tables",
    12: "no plan",
    13: "short buffer",
    14: "cut plan",
    15: "bad plan",
    16: "unknown number",
    17: "no tree",
    18: "station missed",
    19: "false total",
    20: "not a sender",
}


@dataclass(frozen=True)
class Refusal:
    """A refusal: its number in documents 01 and 02, and its place.

    The place of 1 to 10 counts in the bytes of the sheet, that of 15 and 16 in those of the plan file; that of the others, and of all
    that the enquirer gives, is 0.
    """

    number: int
    place: int

    def __post_init__(self) -> None:
        if self.number not in _WORDS:
            raise ValueError(f"no refusal has the number {self.number}")

    @property
    def word(self) -> str:
        """The word for it in documents 01 and 02."""
        return _WORDS[self.number]

    @property
    def family(self) -> Family:
        """What caused it."""
        if self.number <= 10:
            return Family.SHEET
        if self.number == 12:
            return Family.SEARCH
        if self.number <= 13:
            return Family.TABLES
        return Family.PLAN_FILE

    def __str__(self) -> str:
        return f"refused {self.number} at {self.place}: {self.word}"
