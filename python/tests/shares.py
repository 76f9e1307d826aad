"""The shares of a plan straight from document 02 (W-204), without the library: where each station sits, which legs have its seat at or
below their end, and what it pays of each.
"""

from __future__ import annotations

from typing import NamedTuple, Sequence

from brute import Network


class Split(NamedTuple):
    """What each station pays, and the sum of the legs that serve no station."""

    shares: tuple[int, ...]
    unassigned: int


def split_of(network: Network, root: int, listed: Sequence[int]) -> Split:
    """The shares of a tree that holds a landing of every station."""
    held = {root, *(network.legs[leg][1] for leg in listed)}
    seats = [min(site for site in held if network.heard[site] >> station & 1) for station in range(network.stations)]
    shares, unassigned = [0] * network.stations, 0
    for leg in listed:
        _, end, price = network.legs[leg]
        below = _sites_below(network, end, listed)
        served = [station for station, seat in enumerate(seats) if seat in below]
        if not served:
            unassigned += price
        for place, station in enumerate(served):
            quotient, remainder = divmod(price, len(served))
            shares[station] += quotient + (1 if place < remainder else 0)
    return Split(tuple(shares), unassigned)


def _sites_below(network: Network, site: int, listed: Sequence[int]) -> set[int]:
    """The sites to which paths of listed legs lead from a site, the site itself among them."""
    below = {site}
    for _ in listed:
        below.update(network.legs[leg][1] for leg in listed if network.legs[leg][0] in below)
    return below
