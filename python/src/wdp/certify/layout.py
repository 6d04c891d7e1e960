"""A program as the search sees it: blocks of columns of which at most one is 1, and the rows that
blocks share.

In an auction's program the blocks are the bidders, and the shared rows are those of categories and
pools. A row makes a block if it says 'at most 1' with coefficients 1, of columns that have no block
yet. A column outside of all such rows is a block of its own, without a row. Columns that are fixed
are in no block; what those at 1 take is taken from the right sides. All shared rows are at most
their right sides: one that is at least its own is turned round, and an equation is there both ways.
"""
from collections.abc import Iterator, Sequence
from dataclasses import dataclass
from functools import cached_property
from typing import Any

import numpy as np
from numpy.typing import DTypeLike, NDArray
from scipy.sparse import csr_matrix, vstack

from wdp.results import make_entries
from wdp.texts.refusals import Refused
from wdp.texts.zero_one import AT_LEAST, AT_MOST, EQUAL, Row, ZeroOne

Array = NDArray[Any]

LARGEST_TABLE = 2 * 10**8  # columns by shared rows
_TURNS = {AT_MOST: (1,), AT_LEAST: (-1,), EQUAL: (1, -1)}


@dataclass(frozen=True, eq=False)
class SplitRow:
    """A row for a split that is open above the root: what it counts of each column, and the most
    that it allows.
    """

    numbers: Array
    limit: int


@dataclass(frozen=True, eq=False)
class Blocks:
    """The open columns in blocks, of each of which at most one is 1.

    `members` has the columns of each block, and `rows` the place of its row in the program, or
    None. `order` has the columns block by block, and `starts` the place of each block's first one
    there. `of_columns` has the block of each column, or -1.
    """

    members: list[Array]
    rows: list[int | None]
    order: Array
    starts: Array
    of_columns: Array

    @classmethod
    def find(cls, program: ZeroOne, entries: csr_matrix, is_open: Array) -> "Blocks":
        """The blocks of a program's open columns."""
        pairs = list(_find_blocks(program, entries, is_open))
        members = [columns for columns, _ in pairs]
        order = np.concatenate([np.zeros(0, int), *members])
        ends = np.cumsum([0, *map(len, members)])
        of_columns: Array = np.full(len(is_open), -1)
        of_columns[order] = np.repeat(np.arange(len(members)), np.diff(ends))
        return cls(
            members=members,
            rows=[row for _, row in pairs],
            order=order,
            starts=ends[:-1],
            of_columns=of_columns,
        )

    def spread(self, numbers: Sequence[int], dtype: DTypeLike) -> Array:
        """For each column the number of its block, or 0."""
        padded: Array = np.array([*numbers, 0], dtype)
        return padded[self.of_columns]

    def find_least(self, values: Array) -> list[int]:
        """The least of the values that the columns of each block have."""
        if not self.members:
            return []
        least: list[int] = np.minimum.reduceat(values[self.order], self.starts).tolist()
        return least


@dataclass(frozen=True, eq=False)
class Part:
    """Some open columns of a layout in their order, by their `places`: their costs, what they take
    of shared rows, and the block of each.

    `order` has their indexes block by block, `starts` where each block begins there that has one of
    them, and `numbers` these blocks.
    """

    places: Array
    costs: Array
    loads: Array
    order: Array
    starts: Array
    numbers: list[int]

    def find_least(self, values: Array) -> list[tuple[int, int]]:
        """Each block that has a column here, with the least of the values of these."""
        if not self.numbers:
            return []
        least: list[int] = np.minimum.reduceat(values[self.order], self.starts).tolist()
        return list(zip(self.numbers, least, strict=True))


def _find_blocks(
    program: ZeroOne, entries: csr_matrix, is_open: Array
) -> Iterator[tuple[Array, int | None]]:
    """The columns of each block, and the place of its row or None."""
    is_free = is_open.copy()
    for place, (row, held) in enumerate(zip(program.rows, entries, strict=True)):
        is_choice = row.kind == AT_MOST and row.right_side == 1 and (held.data == 1).all()
        if is_choice and held.nnz and is_free[held.indices].all():
            is_free[held.indices] = False
            yield held.indices, place
    for place in np.flatnonzero(is_free):
        yield np.array([place]), None


@dataclass(frozen=True)
class SharedRow:
    """The place of a row that blocks share, and -1 as its sign if it is turned round, else 1."""

    place: int
    sign: int


@dataclass(frozen=True, eq=False)
class SharedRows:
    """The rows that blocks share, each at most its right side.

    The first `own_count` of the rows are the program's own, and the others those of splits above
    the root. `loads` has what each column takes of each row, and `largest_loads` the largest
    absolute value for each row. `right_sides` are what the columns that are fixed to 1 leave.
    """

    rows: list[SharedRow]
    own_count: int
    loads: Array
    largest_loads: list[int]
    right_sides: list[int]


@dataclass(frozen=True, eq=False)
class LinearRows:
    """Rows as a solver of linear programs takes them: a row 'at most 1' for each block, and the
    shared rows after them.
    """

    matrix: csr_matrix
    right_sides: Array


class Layout:
    """A program's columns in blocks, and what they take of shared rows.

    `rows` are those of the program, and after them those of splits that are open above the root.
    Raises Refused if there are too many columns by shared rows.
    """

    def __init__(
        self,
        program: ZeroOne,
        entries: csr_matrix | None = None,
        splits: Sequence[SplitRow] = (),
    ) -> None:
        self.program = program
        self.entries = make_entries(program) if entries is None else entries
        self.splits = list(splits)
        self.rows = [*program.rows, *(Row("", AT_MOST, split.limit) for split in splits)]
        self.count = len(program.columns)
        self.is_open: Array = np.array([not column.is_fixed for column in program.columns], bool)
        self.costs: Array = np.array([column.cost for column in program.columns], np.int64)
        self.blocks = Blocks.find(program, self.entries, self.is_open)
        self.shared = self._find_shared_rows()

    @cached_property
    def fixed_ones(self) -> set[int]:
        """The places of the columns that are fixed to 1."""
        columns = self.program.columns
        return {place for place, column in enumerate(columns) if column.lower == 1}

    @cached_property
    def constant(self) -> int:
        """What the columns cost that are fixed to 1."""
        return self.program.compute_objective(sorted(self.fixed_ones))

    @cached_property
    def largest_cost(self) -> int:
        """The largest absolute value of a column's cost."""
        return max((abs(column.cost) for column in self.program.columns), default=0)

    @cached_property
    def rounding_loss(self) -> int:
        """The most that prices lose by rounding, at any scale and in its units, if each moves by a
        half.
        """
        moved = sum(abs(number) for number in self.shared.right_sides)
        loads = sum(self.shared.largest_loads)
        return (moved + len(self.blocks.members) * loads) // 2 + 1

    @cached_property
    def linear(self) -> LinearRows:
        """The rows for a solver of linear programs."""
        blocks = self.blocks
        count = len(blocks.members)
        ends = np.append(blocks.starts, len(blocks.order))
        ones = np.ones(len(blocks.order))
        of_blocks = csr_matrix((ones, blocks.order, ends), (count, self.count))
        of_shared = csr_matrix(self.shared.loads.T, dtype=float)
        return LinearRows(
            matrix=vstack([of_blocks, of_shared], "csr"),
            right_sides=np.array([1] * count + self.shared.right_sides, float),
        )

    @cached_property
    def split_names(self) -> Array:
        """What a split says of each column."""
        return np.array([f"{column.name} 1" for column in self.program.columns], object)

    @property
    def split_places(self) -> range:
        """The places in `rows` of those of splits."""
        return range(len(self.program.rows), len(self.rows))

    def _list_shared_rows(self) -> list[SharedRow]:
        """The program's rows that are of no block, but for those that no column has and that are
        met.
        """
        counts = np.diff(self.entries.indptr).tolist()
        of_blocks = set(self.blocks.rows)
        return [
            SharedRow(place, sign)
            for place, row in enumerate(self.program.rows)
            if place not in of_blocks and (counts[place] or not row.is_met_by(0))
            for sign in _TURNS[row.kind]
        ]

    def _find_shared_rows(self) -> SharedRows:
        """The rows that blocks share, and what they leave to the open columns."""
        own_rows = self._list_shared_rows()
        rows = own_rows + [SharedRow(place, 1) for place in self.split_places]
        if self.count * len(rows) > LARGEST_TABLE:
            raise Refused(f"too many columns by shared rows: {self.count} by {len(rows)}")
        loads: Array = np.zeros((self.count, len(rows)), np.int64)
        for number, row in enumerate(own_rows):
            begin, end = self.entries.indptr[row.place : row.place + 2]
            data = self.entries.data[begin:end]
            loads[self.entries.indices[begin:end], number] = row.sign * data
        for number, split in enumerate(self.splits, len(own_rows)):
            loads[:, number] = split.numbers
        taken = [sum(map(int, column)) for column in loads[sorted(self.fixed_ones)].T]
        sides = [row.sign * self.rows[row.place].right_side for row in rows]
        return SharedRows(
            rows=rows,
            own_count=len(own_rows),
            loads=loads,
            largest_loads=[int(abs(column).max(initial=0)) for column in loads.T],
            right_sides=[side - part for side, part in zip(sides, taken, strict=True)],
        )

    def take_part(self, places: Array) -> Part:
        """The part of these open columns."""
        of_columns = self.blocks.of_columns[places]
        order = np.argsort(of_columns, kind="stable")
        numbers, starts = np.unique(of_columns[order], return_index=True)
        return Part(
            places=places,
            costs=self.costs[places],
            loads=self.shared.loads[places],
            order=order,
            starts=starts,
            numbers=numbers.tolist(),
        )

    def add_splits(self, splits: Sequence[SplitRow]) -> "Layout":
        """The layout below more splits."""
        return Layout(self.program, self.entries, splits=[*self.splits, *splits])

    def restrict(self, places: Sequence[int] | Array) -> "Layout":
        """The layout of the same program with these columns alone."""
        columns = [self.program.columns[place] for place in places]
        return Layout(ZeroOne(self.program.rows, columns), self.entries[:, places])
