"""Linear relaxations of a program below a node of the search.

Costs are exact reduced costs at whole root prices, in units of a thousandth of the gap. So floating
point has digits where they matter, though the amounts are large and nearly tied. Each shared row
may be overstepped at a price of 20 gaps, so every node has a solution; for the same reason no cost
needs to be above 20 gaps.
"""
from dataclasses import dataclass

import numpy as np
from scipy.sparse import coo_matrix, csr_matrix

from wdp.certify.bounds import Bound
from wdp.certify.layout import Array
from wdp.certify.nodes import Node
from wdp.certify.simplex import MOST_STEPS, Simplex

_UNITS_IN_GAP = 1000
_CAP_IN_GAPS = 20
POSITIVE = 1e-6  # values above are taken for more than 0


def _add_slacks(rows: csr_matrix, shared: int) -> coo_matrix:
    """Rows with further columns: a slack for each, and what oversteps each of the last ones, which
    are shared.
    """
    height, count = rows.shape
    entries = rows.tocoo()
    slacks = np.arange(height)
    over = np.arange(height - shared, height)
    data = np.concatenate([entries.data, np.ones(height), -np.ones(shared)])
    of_rows = np.concatenate([entries.row, slacks, over])
    of_columns = np.concatenate([entries.col, np.arange(count, count + height + shared)])
    return coo_matrix((data, (of_rows, of_columns)), (height, count + height + shared))


class Relaxation:
    """The relaxation of a bound's program below its node, for a search that misses by this gap.

    Its columns are those that are allowed at first, as `core` and `part`, a slack for each row, and what
    oversteps each shared row, in this order. Objectives are in units above the bound's value.
    """

    def __init__(self, bound: Bound, gap: int) -> None:
        layout = bound.layout
        self.layout = layout
        self.core = np.flatnonzero(bound.node.allowed)
        self.part = layout.take_part(self.core)
        self.count = len(self.core)
        self.gap = gap
        self.root_prices = bound.prices
        self._base = bound.value
        self._unit = max(gap, 1) / _UNITS_IN_GAP
        rows = layout.linear.matrix[:, self.core]
        right_sides = layout.linear.right_sides
        blocks = len(layout.blocks.members)
        shared = len(layout.shared.rows)
        # no slack is above what the row could be short of at all: boxed columns are never dual
        # infeasible
        reach = (abs(right_sides) + abs(rows).sum(axis=1).A1)[blocks:]
        uppers = [1.0] * (self.count + blocks) + reach.tolist() * 2
        # the columns and the slacks of blocks whose upper bound is 1 and not 0
        self._is_free: Array = np.ones(self.count + blocks, bool)
        matrix = _add_slacks(rows, shared)
        self._simplex = Simplex(matrix, right_sides, first_slack=self.count)
        for column, (cost, upper) in enumerate(zip(self._list_costs(bound), uppers, strict=True)):
            self._simplex.set_cost(column, cost)
            self._simplex.set_upper(column, upper)

    def _list_costs(self, bound: Bound) -> list[float]:
        """The cost of each column in units."""
        cap = float(_CAP_IN_GAPS * _UNITS_IN_GAP)
        reduced = bound.compute_reduced_costs(self.part).astype(object)
        costs = [*reduced, *(-part for part in bound.parts), *bound.prices]
        in_units = [min(cap, float(cost / self._unit)) for cost in costs]
        return in_units + [cap] * len(bound.prices)

    def enter(self, node: Node, basis: list[int] | None = None) -> None:
        """Takes the bounds of a node, and the basis to start from."""
        is_free = np.ones(len(self._is_free), bool)
        node.allowed.take(self.core, out=is_free[: self.count])
        for block in node.forced:
            is_free[self.count + block] = False
        changed = (is_free != self._is_free).nonzero()[0]
        self._is_free = is_free
        for column, upper in zip(changed.tolist(), is_free[changed].tolist(), strict=True):
            self._simplex.set_upper(column, 1.0 if upper else 0.0)
        if basis:
            self._simplex.set_basis(basis)

    def solve(
        self, *, limit: float | None = None, steps: int = MOST_STEPS, seconds: float = np.inf
    ) -> float | None:
        """The least objective, None if GLPK fails. It may stop above `limit`."""
        if limit is None:
            return self._simplex.solve(steps=steps, seconds=seconds)
        return self._simplex.solve(limit=limit, steps=steps, seconds=seconds)

    def to_units(self, objective: int) -> float:
        """An objective of the program in the units of this relaxation."""
        return (objective - self._base) / self._unit

    def find_basis(self) -> list[int] | None:
        """The basic variables, None if the basis can't be factorized."""
        return self._simplex.find_basis()

    def round_prices(self, scale: int) -> list[int]:
        """The prices of the shared rows at a scale, rounded."""
        first = len(self.layout.blocks.members)
        duals = self._simplex.read_duals(range(first, self._simplex.height))
        added = (round(scale * -dual * self._unit) for dual in duals)
        pairs = zip(self.root_prices, added, strict=True)
        return [max(0, scale * price + more) for price, more in pairs]

    def read_values(self) -> Array:
        """The values of the columns of `core`."""
        return np.array(self._simplex.read_values(range(self.count)))

    def measure_overstep(self) -> float:
        """By how much the shared rows are overstepped in all."""
        first = self.count + self._simplex.height
        last = first + len(self.root_prices)
        return sum(map(float, self._simplex.read_values(range(first, last))))


@dataclass(frozen=True, eq=False)
class Visit:
    """A subtree that is to come, with a relaxation that has its columns and the basis to start
    from.
    """

    node: Node
    relaxation: Relaxation
    basis: list[int] | None = None
