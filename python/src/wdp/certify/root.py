"""Prices of the shared rows at the root of a search, and the columns that are the nearest to a
choice at them.
"""
from operator import attrgetter
from time import monotonic

import numpy as np
from scipy.optimize import linprog

from wdp.certify.bounds import Bound
from wdp.certify.layout import Array, Layout
from wdp.certify.nodes import Node

_FEW = 20  # columns of each block that prices are first found for


def find_nearest(bound: Bound, count: int) -> Array:
    """Which columns are, of each block, the so many whose reduced cost is the least."""
    reduced = bound.compute_reduced_costs()
    is_near = np.zeros(bound.layout.count, bool)
    for members in bound.layout.blocks.members:
        is_near[members[np.argsort(reduced[members], kind="stable")[:count]]] = True
    return is_near


def find_root_prices(layout: Layout, seconds: float) -> list[int]:
    """The best whole prices of the shared rows for the relaxation; any are right, and if HiGHS
    finds none they are 0.

    HiGHS gets a few columns of each block, and then those that pay most at its prices, until no
    other column pays more.
    """
    late = monotonic() + seconds
    root = Node(layout.is_open)
    bound = Bound(layout, root, prices=[0] * len(layout.shared.rows))
    best = bound
    is_taken = np.zeros(layout.count, bool)
    while layout.shared.rows and layout.blocks.members:
        is_taken |= find_nearest(bound, _FEW)
        if 2 * is_taken.sum() >= layout.is_open.sum():
            is_taken = layout.is_open
        prices = solve_prices(layout, is_taken, late - monotonic())
        if prices is None:
            break
        bound = Bound(layout, root, prices=prices)
        best = max(best, bound, key=attrgetter("value"))
        of_taken = Bound(layout, Node(is_taken), prices=prices)
        is_all = is_taken is layout.is_open
        if is_all or of_taken.value - bound.value <= layout.rounding_loss:
            break
    return best.prices


def solve_prices(layout: Layout, is_taken: Array, seconds: float) -> list[int] | None:
    """The prices of the relaxation with these columns alone, in whole numbers; None if HiGHS
    fails.
    """
    unit = max(1, layout.largest_cost) / 1000
    places = np.flatnonzero(is_taken)
    result = linprog(
        layout.costs[places] / unit,
        A_ub=layout.linear.matrix[:, places],
        b_ub=layout.linear.right_sides,
        bounds=(0, 1),
        method="highs-ds",
        options={"time_limit": max(1.0, seconds)},
    )
    if result.status != 0:
        return None
    duals = result.ineqlin.marginals[len(layout.blocks.members) :]
    return [max(0, round(-float(dual) * unit)) for dual in duals]
