"""The bytes of sheets and plan files.

Numbers are unsigned, highest byte first. These functions only encode: a sheet or a plan file with faults is encoded as it is asked
for, and the library refuses it. A number that does not fit its bytes is a ValueError; nothing is cut.
"""

from __future__ import annotations

import operator
from dataclasses import dataclass
from typing import Iterable, Sequence, Union


@dataclass(frozen=True)
class Leg:
    """A record `LK`: one leg, from one site to another, with a price in cents."""

    start: int
    end: int
    price: int


@dataclass(frozen=True)
class BothWays:
    """A record `BK`: two legs, from start to end and back, each at the price in cents."""

    start: int
    end: int
    price: int


@dataclass(frozen=True)
class Landing:
    """A record `ST`: a station can be heard at a site."""

    station: int
    site: int


@dataclass(frozen=True)
class Sender:
    """A record `SR`: a site may send. A sheet without one lets every site send."""

    site: int


Row = Union[Leg, BothWays, Landing, Sender]


# The fields of each record of a sheet: their names and their bytes.
_FIELDS: dict[str, tuple[tuple[str, int], ...]] = {
    "HD": (("number of sites", 2), ("number of stations", 1)),
    "LK": (("start", 2), ("end", 2), ("price", 4)),
    "BK": (("start", 2), ("end", 2), ("price", 4)),
    "ST": (("station", 1), ("site", 2)),
    "SR": (("site", 2),),
    "ED": (),
}


def build_sheet(sites: int, stations: int, rows: Iterable[Row]) -> bytes:
    """The sheet with so many sites and stations and these rows, in their order. Head and end are added."""
    return _record("HD", (sites, stations)) + b"".join(_row(row) for row in rows) + _record("ED", ())


def encode_words(words: Sequence[str]) -> bytes:
    """The bytes of a record that is written as words: its mark, and its numbers in decimal. Other words are a ValueError."""
    mark, numbers = words[0], words[1:]
    if mark not in _FIELDS:
        raise ValueError(f"{mark} is none of {', '.join(_FIELDS)}")
    needed = len(_FIELDS[mark])
    if len(numbers) != needed:
        raise ValueError(f"{mark} takes {needed} {'number' if needed == 1 else 'numbers'}, not {len(numbers)}")
    for number in numbers:
        if not (number.isascii() and number.isdigit()):
            raise ValueError(f"{number} is no number")
    return _record(mark, [int(number) for number in numbers])


def build_plan(root: int, total: int, legs: Sequence[int]) -> bytes:
    """The plan file with this root (the sending site), this total in cents and these leg numbers, in their order."""
    head = b"PN" + _number("root", root, 2) + _number("total", total, 4) + _number("number of legs", len(legs), 2)
    return head + b"".join(b"LG" + _number("leg", leg, 2) for leg in legs)


def _row(row: Row) -> bytes:
    """The bytes of a row."""
    if isinstance(row, Leg):
        return _record("LK", (row.start, row.end, row.price))
    if isinstance(row, BothWays):
        return _record("BK", (row.start, row.end, row.price))
    if isinstance(row, Landing):
        return _record("ST", (row.station, row.site))
    if isinstance(row, Sender):
        return _record("SR", (row.site,))
    raise TypeError(f"a row is a Leg, a BothWays, a Landing or a Sender, not {row!r}")


def _record(mark: str, numbers: Sequence[int]) -> bytes:
    """The bytes of a record: its mark and its fields."""
    fields = (_number(name, number, width) for (name, width), number in zip(_FIELDS[mark], numbers))
    return mark.encode("ascii") + b"".join(fields)


def _number(name: str, value: int, width: int) -> bytes:
    """A number in so many bytes."""
    return fitting(name, value, width).to_bytes(width, "big")


def fitting(name: str, value: int, width: int) -> int:
    """A number that fits so many bytes. What is no whole number is a TypeError."""
    number = operator.index(value)
    if not 0 <= number < 256**width:
        raise ValueError(f"{name} {number} does not fit {width} bytes")
    return number
