"""Uldhvamm, a planner of radio relays, for Python.

From a sheet (sites, priced one-way legs, listening stations, the sites where each station can be heard, and the sites that may send) the
planner finds the cheapest directed tree of legs that leads from a site that may send to every station. The planning, the plan reader, the
shares and the enquirer are those of the library libuldhvamm.so; this package encodes sheets and plan files, calls the library and decodes
its answers. It needs nothing but the standard library.

    from uldhvamm import BothWays, CostTable, Landing, Leg, Plan, Sender, build_sheet, load

    library = load()
    sheet = build_sheet(3, 2, [Leg(0, 1, 900), BothWays(1, 2, 400), Landing(0, 0), Landing(1, 2)])
    licensed = build_sheet(2, 1, [Landing(0, 0), Landing(0, 1), Sender(1)])  # only site 1 may send
    answer = library.plan(sheet)
    if isinstance(answer, Plan):
        print(answer.root, answer.total, answer.legs)
        print(library.shares(sheet, answer.file))  # what each station pays
    else:
        print(answer)

The enquirer answers questions about the cost table of a sheet. A subset of the stations is a number, in which station i is worth 2^i:

    table = library.cost_table(sheet)
    if isinstance(table, CostTable):
        print(library.cell(table, site=1, subset=2))
        print(library.best_sender(table, subset=3))
"""

from .answers import Accepted, BestSender, Cell, Family, Plan, PlannedLeg, Refusal, Shares
from .cost_table import CostTable
from .formats import BothWays, Landing, Leg, Row, Sender, build_plan, build_sheet
from .library import Library, load

__all__ = [
    "Accepted",
    "BestSender",
    "BothWays",
    "Cell",
    "CostTable",
    "Family",
    "Landing",
    "Leg",
    "Library",
    "Plan",
    "PlannedLeg",
    "Refusal",
    "Row",
    "Sender",
    "Shares",
    "build_plan",
    "build_sheet",
    "load",
]
