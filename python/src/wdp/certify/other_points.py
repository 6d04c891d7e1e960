"""Searches for points beside an optimal one that are as good, which show that there are no others.
"""
import contextlib
from collections.abc import Sequence
from typing import NoReturn

import numpy as np

from wdp.certify.layout import Array, Layout, SplitRow
from wdp.certify.nodes import Node
from wdp.certify.relaxation import Visit
from wdp.certify.search import CertificateSearch, Hints
from wdp.progress import Say, say_nothing


class Beaten(Exception):
    """Another point is as good as the one that is to be the only one, or better by `gain`."""

    def __init__(self, gain: int) -> None:
        super().__init__(gain)
        self.gain = gain


class UniquenessSearch(CertificateSearch):
    """A search for a point beside these that is as good as the first of them: a certificate shows
    that there is none, or it ends as Beaten at that point.
    """

    def __init__(
        self,
        layout: Layout,
        points: Sequence[set[int]],
        *,
        seconds: float | None = None,
        say: Say = say_nothing,
        known_rows: str = "",
    ) -> None:
        below = layout.add_splits([_exclude_point(layout, ones) for ones in points])
        hints = Hints(known_rows=known_rows)
        super().__init__(below, points[0], seconds=seconds, say=say, hints=hints)
        self.points = points
        self.least += 1
        self._begins_with_promising = False  # (it would only find the points that are known)

    def _try_point(self, places: set[int]) -> bool:
        if places | self.layout.fixed_ones in self.points:
            return False
        return super()._try_point(places)

    def _describe_bound(self) -> str:
        return f"no other point has an objective below {self.root_value}"

    def _go_on_from_better(self, gain: int) -> NoReturn:
        raise Beaten(gain - 1)


class _Enough(Exception):
    """A search has found as many points as it may."""


class TieSearch(UniquenessSearch):
    """A search for all points beside one that are as good, up to so many: it goes on at each,
    without a row that excludes it.

    Its tree leaves these points out, so that it is no certificate.
    """

    def __init__(
        self,
        layout: Layout,
        ones: set[int],
        *,
        most: int,
        seconds: float | None = None,
        say: Say = say_nothing,
        known_rows: str = "",
    ) -> None:
        super().__init__(layout, [ones], seconds=seconds, say=say, known_rows=known_rows)
        self.most = most
        self.ties: list[set[int]] = []

    def find_ties(self) -> None:
        """Finds all of them, as `ties`. Raises LimitReached, and Beaten at a point that is
        better.
        """
        with contextlib.suppress(_Enough):
            self.find_certificate()

    def _try_point(self, places: set[int]) -> bool:
        """Takes a point that is as good; none is better, so that the search goes on as before."""
        ones = places | self.layout.fixed_ones
        is_known = ones in self.points or ones in self.ties
        objective = self.program.compute_objective(ones)
        if is_known or objective >= self.least or self.program.find_fault(ones):
            return False
        if objective < self.least - 1:
            raise Beaten(self.least - 1 - objective)
        self.ties.append(ones)
        self.clock.report_event(f"{len(self.ties)} other points are as good")
        if len(self.ties) == self.most:
            raise _Enough
        return False

    def _branch(self, visit: Visit, reached: float | None) -> None:
        """Splits off a point that was found, if there is one below the node, so that one side has
        it alone.
        """
        for ones in self.ties:
            if _is_below(self.layout, visit.node, ones):
                places = _find_difference(self.layout, visit.node, ones)
                if places is not None:
                    self._split_at(visit, places)
                return
        super()._branch(visit, reached)

    def _show_point(self, node: Node) -> None:
        """Shows a node with one point, unless that is as good."""
        places = np.flatnonzero(node.allowed)
        self._try_point(set(places.tolist()))
        if set(places.tolist()) | self.layout.fixed_ones not in self.ties:
            super()._show_point(node)


def _is_below(layout: Layout, node: Node, ones: set[int]) -> bool:
    """Whether a point is among those that a node leaves."""
    open_ones = [place for place in ones if layout.is_open[place]]
    won = {int(layout.blocks.of_columns[place]) for place in open_ones}
    return bool(node.allowed[open_ones].all()) and won.issuperset(node.forced)


def _find_difference(layout: Layout, node: Node, ones: set[int]) -> Array | None:
    """The columns at which to split, of the first block in which a node leaves more than this
    point has; None if the node leaves the point alone.
    """
    for block, members in enumerate(layout.blocks.members):
        left: Array = members[node.allowed[members]]
        won: Array = left[[place in ones for place in left.tolist()]]
        if len(won) and (len(left) > 1 or block not in node.forced):
            return won
        if len(left) and not len(won):
            return left
    return None


def _exclude_point(layout: Layout, ones: set[int]) -> SplitRow:
    """The row that all points but this one meet: of the open columns at 1 one is 0, or another is
    1. It is the second side of a split that is open above the root of the certificate.
    """
    numbers = -layout.is_open.astype(np.int64)
    open_ones = [place for place in ones if layout.is_open[place]]
    numbers[open_ones] = 1
    return SplitRow(numbers, len(open_ones) - 1)
