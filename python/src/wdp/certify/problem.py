"""A 0-1 program that is read once: what a solver gets of it, and the search for its certificate."""
import math
import re
from collections.abc import Collection, Mapping, Sequence
from dataclasses import replace
from functools import cached_property

import numpy as np

from wdp.certify.bounds import Bound
from wdp.certify.layout import Array, Layout
from wdp.certify.limits import LimitReached
from wdp.certify.nodes import Node
from wdp.certify.other_points import Beaten, TieSearch, UniquenessSearch
from wdp.certify.outcomes import Optimum, Uniqueness
from wdp.certify.root import find_nearest, find_root_prices
from wdp.certify.search import CertificateSearch, Hints
from wdp.progress import Say, say_nothing
from wdp.solve import make_empty_solution
from wdp.texts.zero_one import (
    ZeroOne,
    format_program,
    format_solution,
    read_program,
    read_solution,
)

_HOLDER = re.compile(r"X([0-9]+)_[0-9]+")  # the column of a bid, with the bidder's number
MOST_OF_BLOCK = 80  # columns of each block that a solver gets at first


class Problem:
    """A 0-1 program, to be solved and certified, also with other costs, or without some bidders.

    `known_rows` are multipliers of rows that were of use where a program with more bidders was
    certified.
    """

    def __init__(self, layout: Layout, known_rows: str = "") -> None:
        self.layout = layout
        self.program = layout.program
        self.known_rows = known_rows

    @classmethod
    def read(cls, text: bytes) -> "Problem":
        """The problem of a text in MPS. Raises Unclear if it is cut off."""
        return cls(Layout(read_program(text)))

    @cached_property
    def holders(self) -> Array:
        """The number of each column's bidder in the rules, or 0."""
        matches = (_HOLDER.fullmatch(column.name) for column in self.program.columns)
        return np.array([int(match[1]) if match else 0 for match in matches], np.int64)

    @cached_property
    def prices(self) -> list[int]:
        """The prices of the relaxation's shared rows."""
        return find_root_prices(self.layout, math.inf)

    @cached_property
    def root(self) -> Bound:
        """What these prices show of all points."""
        return Bound(self.layout, Node(self.layout.is_open), prices=self.prices)

    def leave_out(self, bidders: Collection[int]) -> "Problem":
        """The problem of the group that leaves out these bidders, by their numbers in the rules.

        Nothing is read again.
        """
        others = np.flatnonzero(~np.isin(self.holders, [*bidders]))
        return Problem(self.layout.restrict(others), self.known_rows)

    def raise_costs(self, surplus: Mapping[int, int], parts: int = 1) -> "Problem":
        """The problem in which a column of a bidder costs so many times as much, and its surplus
        more, by the bidder's number in the rules. Others, which are always 1, cost nothing.
        """
        columns = [
            replace(column, cost=parts * column.cost + surplus.get(holder, 0) if holder else 0)
            for column, holder in zip(self.program.columns, self.holders.tolist(), strict=True)
        ]
        program = ZeroOne(self.program.rows, columns)
        return Problem(Layout(program, self.layout.entries), self.known_rows)

    def format(self) -> bytes:
        """The program in MPS."""
        return format_program(self.program)

    def format_promising(self) -> bytes:
        """The program in MPS for a solver: of the columns that may well be 1, or all of it if they
        are half of it.

        A point of it is a point of the whole program, by the same names.
        """
        return self.format_part(self.find_promising())

    def find_promising(self) -> Array:
        """Which columns may well be 1: of each block those with the least reduced cost."""
        return find_nearest(self.root, MOST_OF_BLOCK)

    def find_within(self, solution: bytes, part: float) -> Array:
        """Which columns have a reduced cost of at most this part of the gap between the root's
        bound and a solution.

        A solution that is better has no other ones than those within all of it.
        """
        gap = self.root.compute_gap(self.compute_objective(solution))
        reduced = self.root.compute_reduced_costs()
        is_within: Array = self.layout.is_open & (reduced <= part * max(0, gap))
        return is_within

    def is_most(self, is_taken: Array) -> bool:
        """Whether these columns are so many that a solver may as well have all."""
        return bool(2 * is_taken.sum() >= self.layout.is_open.sum())

    def format_part(self, is_taken: Array) -> bytes:
        """The program in MPS of these columns and the fixed ones, or all of it if they are most."""
        if self.is_most(is_taken):
            return self.format()
        places = np.flatnonzero(is_taken | ~self.layout.is_open)
        columns = [self.program.columns[place] for place in places]
        return format_program(ZeroOne(self.program.rows, columns))

    def read_ones(self, solution: bytes) -> set[int]:
        """The places of the columns at 1. Raises Refused if the solution isn't a point."""
        return read_solution(solution, self.program, "the solution")

    def compute_objective(self, solution: bytes) -> int:
        """The objective of a solution. Raises Refused if that isn't a point."""
        return self.program.compute_objective(self.read_ones(solution))

    def make_empty_solution(self) -> bytes:
        """The solution in which all columns are 0 that may be. Raises Refused if it isn't a
        point.
        """
        return make_empty_solution(self.program)

    def find_optimum(
        self,
        solution: bytes,
        *,
        seconds: float | None = None,
        say: Say = say_nothing,
        lines: float = math.inf,
        earlier: str = "",
    ) -> Optimum:
        """An optimal solution and its certificate.

        The search begins at a solution, and goes on with the tree of an earlier search that ended
        there; it may take so many seconds, and write so many lines. Raises Refused if the solution
        isn't a point, and LimitReached, which has the best one that is known, and the tree.
        """
        ones = self.read_ones(solution)
        hints = Hints(prices=self.prices, known_rows=self.known_rows, earlier=earlier)
        search = CertificateSearch(
            self.layout, ones, seconds=seconds, lines=lines, say=say, hints=hints
        )
        before = search.least
        try:
            certificate = search.find_certificate()
        except LimitReached as reached:
            reached.solution = format_solution(search.ones, self.program)
            raise
        gain = before - search.least
        return Optimum(
            solution=format_solution(search.ones, self.program) if gain else solution,
            certificate=certificate,
            gain=gain,
            rows=search.tree.format_rows(),
        )

    def prepare_ties(
        self,
        solution: bytes,
        *,
        most: int,
        seconds: float | None = None,
        say: Say = say_nothing,
    ) -> TieSearch:
        """A search for all points that are as good as an optimal solution, up to so many."""
        return TieSearch(
            self.layout,
            self.read_ones(solution),
            most=most,
            seconds=seconds,
            say=say,
            known_rows=self.known_rows,
        )

    def check_unique(
        self,
        solution: bytes,
        others: Sequence[bytes] = (),
        *,
        seconds: float | None = None,
        say: Say = say_nothing,
    ) -> Uniqueness:
        """Whether an optimal solution and these others are the only ones.

        Raises what `find_optimum` does.
        """
        points = [self.read_ones(text) for text in (solution, *others)]
        search = UniquenessSearch(
            self.layout, points, seconds=seconds, say=say, known_rows=self.known_rows
        )
        try:
            return Uniqueness(search.find_certificate())
        except Beaten as beaten:
            other = format_solution(search.ones, self.program)
            return Uniqueness(None, other=other, gain=beaten.gain)
