"""The search for the inequalities by rounding that raise the bound of a search's root."""
from dataclasses import dataclass
from time import monotonic

import numpy as np
from scipy.optimize import linprog
from scipy.sparse import csr_matrix, vstack

from wdp.certify.layout import Array, Layout
from wdp.certify.rounding import Inequality, Rounding

_ROUNDS = 20
_MOST_IDLE = 3  # rounds in turn that gain less than the least part of the gap
_LEAST_GAIN = 0.01
_MOST = 100  # inequalities before idle ones are dropped
_FIXED_PART = 0.1  # of the columns, whose fixing makes inequalities useful
_PRICED = 1e-9  # prices above are taken for more than 0


@dataclass(frozen=True, eq=False)
class Relaxed:
    """A solution of the relaxation with inequalities: its objective, the values and the reduced
    costs of all columns, and the inequalities that have a price.
    """

    objective: float
    values: Array
    reduced: Array
    active: list[Inequality]


class _Gains:
    """Whether rounds still raise the objective, whose goal is to be reached."""

    def __init__(self, goal: float) -> None:
        self.goal = goal
        self.best = -np.inf
        self.idle = 0

    def take(self, objective: float) -> None:
        """Takes what a round comes to."""
        is_gain = objective - self.best >= _LEAST_GAIN * (self.goal - objective)
        self.idle = 0 if is_gain else self.idle + 1
        self.best = max(self.best, objective)

    def is_over(self) -> bool:
        """Whether too many rounds in turn gained too little."""
        return self.idle >= _MOST_IDLE


class Strengthening:
    """The search for inequalities that show that no objective is below `least`, of the columns that
    are open.

    Numbers of cost are in parts of the largest one.
    """

    def __init__(self, layout: Layout, is_open: Array, least: int) -> None:
        self.layout = layout
        self.is_open = is_open
        self.rounding = Rounding(layout)
        self._unit = max(1, layout.largest_cost) / 1000
        self.goal = (least - layout.constant) / self._unit

    def find_inequalities(self, seconds: float, known: str = "") -> list[Inequality]:
        """Those that have a price at the end, and those by which columns were fixed on the way.

        It begins with those that are known, a line of multipliers each, and ends after some
        seconds.
        """
        late = monotonic() + seconds
        is_left = self.is_open.copy()
        taken = [self.rounding.parse(line) for line in known.splitlines()]
        useful: dict[Inequality, None] = {}
        gains = _Gains(self.goal)
        for turn in range(_ROUNDS):
            relaxed = self.relax(taken, is_left)
            if relaxed is None or monotonic() > late:
                break
            gap = self.goal - relaxed.objective
            gains.take(relaxed.objective)
            new: list[Inequality] = []
            if gap > 0 and not gains.is_over():
                new = self.rounding.find_worst(relaxed.values)
            beyond = is_left & (relaxed.reduced > gap)
            is_end = not new or turn == _ROUNDS - 1
            if is_end or beyond.sum() > _FIXED_PART * is_left.sum():
                useful.update(dict.fromkeys(relaxed.active))
            if is_end:
                break
            is_left &= ~beyond
            taken = (relaxed.active if len(taken) > _MOST else taken) + new
        last = self.relax(taken, self.is_open)
        return list({**useful, **dict.fromkeys(last.active if last else ())})

    def relax(self, taken: list[Inequality], is_left: Array) -> Relaxed | None:
        """HiGHS's solution with these inequalities and columns; None if it fails."""
        layout = self.layout
        places = np.flatnonzero(is_left)
        numbers = [inequality.row.numbers for inequality in taken]
        added = csr_matrix(np.array(numbers, float).reshape(-1, layout.count))
        rows = vstack([layout.linear.matrix, added], "csr")
        sides = [*layout.linear.right_sides, *(inequality.row.limit for inequality in taken)]
        costs = layout.costs / self._unit
        result = linprog(
            costs[places], A_ub=rows[:, places], b_ub=sides, bounds=(0, 1), method="highs-ds"
        )
        if result.status != 0:
            return None
        values = np.zeros(layout.count)
        values[places] = result.x
        marginals = result.ineqlin.marginals
        prices = -marginals[len(layout.linear.right_sides) :]
        pairs = zip(taken, prices, strict=True)
        return Relaxed(
            objective=float(result.fun),
            values=values,
            reduced=costs - rows.T @ marginals,
            active=[inequality for inequality, price in pairs if price > _PRICED],
        )
