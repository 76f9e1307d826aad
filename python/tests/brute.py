"""Plans by trial, after documents 01 and 02 and without the library: every sublist of the legs, or every set of sites grown leg by leg."""

from __future__ import annotations

from dataclasses import dataclass
from itertools import product
from typing import Iterator, Optional, Sequence

from uldhvamm import BothWays, Landing, Row, Sender

# A cost table: entry v, then entry W, is the least total at site v for the set W of stations, or None.
Cells = list[list[Optional[int]]]


@dataclass(frozen=True)
class Network:
    """The sites, stations and legs (start, end, price) of a sheet, each site's set of stations as a number, and the sites that may send."""

    sites: int
    stations: int
    legs: tuple[tuple[int, int, int], ...]
    heard: tuple[int, ...]
    senders: frozenset[int]


def network_of(sites: int, stations: int, rows: Sequence[Row]) -> Network:
    """The network of a good sheet's rows."""
    legs: list[tuple[int, int, int]] = []
    heard = [0] * sites
    senders: set[int] = set()
    for row in rows:
        if isinstance(row, Landing):
            heard[row.site] |= 1 << row.station
        elif isinstance(row, Sender):
            senders.add(row.site)
        else:
            legs.append((row.start, row.end, row.price))
        if isinstance(row, BothWays):
            legs.append((row.end, row.start, row.price))
    return Network(sites, stations, tuple(legs), tuple(heard), frozenset(senders or range(sites)))


def total_of(network: Network, listed: Sequence[int]) -> int:
    """The sum of the prices of listed legs."""
    return sum(network.legs[leg][2] for leg in listed)


def is_tree(network: Network, root: int, listed: Sequence[int]) -> bool:
    """Whether no listed leg ends at the root, no two end at one site, and each start is reached from the root."""
    ends = [network.legs[leg][1] for leg in listed]
    if root in ends or len(set(ends)) < len(ends):
        return False
    reached = {root}
    for _ in listed:
        reached.update(network.legs[leg][1] for leg in listed if network.legs[leg][0] in reached)
    return all(network.legs[leg][0] in reached for leg in listed)


def stations_of(network: Network, root: int, listed: Sequence[int]) -> int:
    """The set of stations that are heard at the root or at the end of a listed leg."""
    stations = network.heard[root]
    for leg in listed:
        stations |= network.heard[network.legs[leg][1]]
    return stations


def refusal_of(network: Network, root: int, total: int, listed: Sequence[int]) -> int:
    """The number of the refusal that is due to a plan file of legs on the sheet, or 0."""
    if not is_tree(network, root, listed):
        return 17
    if root not in network.senders:
        return 20
    if stations_of(network, root, listed) != (1 << network.stations) - 1:
        return 18
    return 0 if total == total_of(network, listed) else 19


def cells_by_sublists(network: Network) -> Cells:
    """The cost table, by trying every sublist of the legs with every root."""
    cells = [_empty_row(network) for _ in range(network.sites)]
    for listed, root in product(_sublists(len(network.legs)), range(network.sites)):
        if is_tree(network, root, listed):
            _lower(cells[root], stations_of(network, root, listed), total_of(network, listed))
    return cells


def cells_by_growth(network: Network) -> Cells:
    """The cost table, by the least total of a tree for each root and each set of held sites. A tree grows leg by leg from its root."""
    return [_row_by_growth(network, root) for root in range(network.sites)]


def planned(network: Network, cells: Cells) -> Optional[tuple[int, int, list[int]]]:
    """Root, total and legs of the plan by the stated rule, from a finished cost table; None where there is no plan from a sender."""
    full = (1 << network.stations) - 1
    finite = [(row[full], site) for site, row in enumerate(cells) if site in network.senders and row[full] is not None]
    if not finite:
        return None
    total, root = min(finite)
    assert total is not None
    return root, total, list(_followed(network, cells, root, full))


def some_site_reaches_all(cells: Cells) -> bool:
    """Whether some site, a sender or not, has a tree to every station."""
    return any(row[-1] is not None for row in cells)


def _empty_row(network: Network) -> list[Optional[int]]:
    """The row of a site without any tree but the empty set's."""
    return [0] + [None] * ((1 << network.stations) - 1)


def _sublists(length: int) -> Iterator[list[int]]:
    """Every sublist of the numbers below a length."""
    for chosen in range(1 << length):
        yield [number for number in range(length) if chosen >> number & 1]


def _lower(row: list[Optional[int]], stations: int, total: int) -> None:
    """Lowers the cells of the sets that a tree with these stations serves."""
    for subset, cell in enumerate(row):
        if subset & ~stations == 0 and (cell is None or total < cell):
            row[subset] = total


def _row_by_growth(network: Network, root: int) -> list[Optional[int]]:
    """The row of a site, from the trees that grow from it."""
    row = _empty_row(network)
    for sites, total in _grown(network, root).items():
        _lower(row, _heard_in(network, sites), total)
    return row


def _heard_in(network: Network, sites: int) -> int:
    """The set of stations that are heard at some site of a set."""
    stations = 0
    for site, heard in enumerate(network.heard):
        stations |= heard if sites >> site & 1 else 0
    return stations


def _grown(network: Network, root: int) -> dict[int, int]:
    """The least total of a tree with this root, for each set of sites that one holds. A set is a number, and grows with each leg."""
    least = {1 << root: 0}
    for sites in range(1 << network.sites):
        if sites in least:
            _grow(network, least, sites)
    return least


def _grow(network: Network, least: dict[int, int], sites: int) -> None:
    """Lowers the totals of the sets that have one site more, by each leg from a site of the set to another site."""
    for start, end, price in network.legs:
        if sites >> start & 1 and not sites >> end & 1:
            more, total = sites | 1 << end, least[sites] + price
            least[more] = min(least.get(more, total), total)


def _followed(network: Network, cells: Cells, site: int, subset: int) -> Iterator[int]:
    """The legs that are added at a site for a set."""
    single = subset & (subset - 1) == 0
    if subset == 0 or (single and network.heard[site] & subset):
        return
    for number, (start, end, price) in enumerate(network.legs):
        rest = cells[end][subset]
        if start == site and rest is not None and price + rest == cells[site][subset]:
            yield number
            yield from _followed(network, cells, end, subset)
            return
    part = next(part for part in range(1, subset) if _splits(cells[site], subset, part))
    yield from _followed(network, cells, site, part)
    yield from _followed(network, cells, site, subset & ~part)


def _splits(row: list[Optional[int]], subset: int, part: int) -> bool:
    """Whether a part lies within a set, and the cells of the part and of the rest add up to that of the set."""
    if part & ~subset:
        return False
    first, second = row[part], row[subset & ~part]
    return first is not None and second is not None and first + second == row[subset]
