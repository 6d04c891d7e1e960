"""The programs of an auction, and its outcome: winners, totals and costs in whole pounds, and what
is known of other outcomes.
"""
from __future__ import annotations

from dataclasses import dataclass, field
from fractions import Fraction
from collections.abc import Mapping, Sequence
from itertools import chain
from typing import TYPE_CHECKING

from wdp.frames import Columns, Tabular, make_columns
from wdp.texts.refusals import need
from wdp.texts.zero_one import ZeroOne, read_program

if TYPE_CHECKING:
    import pandas
    import scipy.sparse


@dataclass(frozen=True)
class Winner:
    """A winning bid: the bidder's name, the bid's number in the bidder's form from 1, its amount in
    whole pounds, and the lots of each category that it wins, without those of which it wins none.
    """

    bidder: str
    bid: int
    amount: int
    lots: Mapping[str, int] = field(default_factory=dict, compare=False)


@dataclass(frozen=True)
class Allocation(Tabular):
    """Who wins what, in the order of the rules, and the total in pounds: the amounts, and the value
    of unsold lots.
    """

    winners: tuple[Winner, ...]
    total: int

    def _columns(self) -> Columns:
        rows = [(winner.bidder, winner.bid, winner.amount) for winner in self.winners]
        columns = dict(make_columns(["bidder", "bid", "amount"], rows))
        for name in dict.fromkeys(name for winner in self.winners for name in winner.lots):
            columns[name] = [winner.lots.get(name, 0) for winner in self.winners]
        return columns


@dataclass(frozen=True)
class Group(Allocation):
    """The outcome of a group: its number from 1, the names of the bidders that are left out,
    winners, total and opportunity cost in pounds: how much more the others and the value of unsold
    lots would bring without it.
    """

    number: int
    names: tuple[str, ...]
    cost: int


@dataclass(frozen=True)
class Prices(Tabular):
    """What each winner of group 1 pays, by the bidder's name, and their sum: `exact` prices in
    pounds, and `paid`, each rounded up to whole pounds. It is proved that no group of bidders,
    listed or not, pays less than its opportunity cost, and that nobody pays less than the reserve.

    With `is_by_rule` it is proved, too, that for these winners no lower sum of exact prices does
    this, and that of such prices these are the nearest, by the sum of squares, to what each winner
    would pay alone, the greater of its opportunity cost and its reserve.
    """

    paid: Mapping[str, int]
    exact: Mapping[str, Fraction]
    is_by_rule: bool

    @property
    def total(self) -> int:
        """What is paid in all."""
        return sum(self.paid.values())

    @property
    def exact_total(self) -> Fraction:
        """The sum of the exact prices."""
        return sum(self.exact.values(), Fraction(0))

    @property
    def _caption(self) -> str:  # type: ignore[override]
        return "by the rule" if self.is_by_rule else "not shown to be by the rule"

    def _columns(self) -> Columns:
        rows = [(name, self.exact[name], price) for name, price in self.paid.items()]
        return make_columns(["bidder", "exact", "paid"], rows)


@dataclass(frozen=True)
class Report(Tabular, Sequence[Group]):
    """The outcome of each group: by its place, or one after the other. `is_certified` is whether
    certificates showed that each total is the greatest one: without them it is the solver's word.

    `ties` are other allocations of group 1's total that are known, in the order of the program.
    `has_all_awards` is whether it is proved that besides these and group 1's own no allocation has
    so great a total. `prices` are those that the input gave, if it did.
    """

    groups: tuple[Group, ...]
    is_certified: bool = False
    ties: tuple[Allocation, ...] = ()
    has_all_awards: bool = False
    prices: Prices | None = None

    @property
    def awards(self) -> tuple[Allocation, ...]:
        """The allocations of group 1's total that are known, numbered from 1 in this order: its
        own, and those that tie with it.
        """
        return (*self.groups[:1], *self.ties)

    def __len__(self) -> int:
        return len(self.groups)

    def __getitem__(self, place: int) -> Group:  # type: ignore[override]
        return self.groups[place]

    @property
    def _caption(self) -> str:  # type: ignore[override]
        return "certified" if self.is_certified else "not certified"

    def _columns(self) -> Columns:
        rows = [
            (group.number, join_names(group.names), group.total, group.cost)
            for group in self.groups
        ]
        return make_columns(["group", "left_out", "total", "cost"], rows)


@dataclass(frozen=True, repr=False)
class Program:
    """The 0-1 program of a group: its number from 1, the names of the bidders that are left out,
    and the text in MPS.
    """

    group: int
    names: tuple[str, ...]
    text: str

    def __repr__(self) -> str:
        size = f"{join_names(self.names)} left out, {len(self.text)} bytes"
        return f"<wdp.Program of group {self.group}, {size}>"

    def matrix(self) -> Matrix:
        """What the text says. Raises Missing without scipy, and Unclear if the text is cut off."""
        return Matrix.of(read_program(self.text.encode()))


@dataclass(frozen=True, eq=False)
class Matrix:
    """A 0-1 program to be minimised: costs in pounds, minus the nets of the bids, and bounds of the
    columns; of the rows senses (`L`: at most), right sides in lots, loads or bids, and entries, a
    row of the matrix each.
    """

    columns: tuple[str, ...]
    costs: tuple[int, ...]
    lower: tuple[int, ...]
    upper: tuple[int, ...]
    rows: tuple[str, ...]
    senses: tuple[str, ...]
    right_sides: tuple[int, ...]
    entries: scipy.sparse.csr_matrix

    @classmethod
    def of(cls, program: ZeroOne) -> Matrix:
        """A program as a matrix; Missing without scipy."""
        return cls(
            columns=tuple(column.name for column in program.columns),
            costs=tuple(column.cost for column in program.columns),
            lower=tuple(column.lower for column in program.columns),
            upper=tuple(column.upper for column in program.columns),
            rows=tuple(row.name for row in program.rows),
            senses=tuple(row.kind for row in program.rows),
            right_sides=tuple(row.right_side for row in program.rows),
            entries=make_entries(program),
        )

    def to_frame(self) -> pandas.DataFrame:
        """The entries as a sparse data frame, a row for each row by its name. Raises Missing
        without pandas.
        """
        need("to_frame", "pandas")
        import pandas

        make_frame = pandas.DataFrame.sparse.from_spmatrix
        return make_frame(self.entries, index=list(self.rows), columns=list(self.columns))


def make_entries(program: ZeroOne) -> scipy.sparse.csr_matrix:
    """What each column takes of each row; Missing without scipy."""
    need("a matrix", "scipy")
    import numpy as np
    import scipy.sparse

    counts = [len(column.entries) for column in program.columns]
    starts = np.concatenate([[0], np.cumsum(counts, dtype=np.int64)])
    entries = chain.from_iterable(column.entries for column in program.columns)
    pairs = np.fromiter(chain.from_iterable(entries), np.int64, 2 * int(starts[-1]))
    shape = (len(program.rows), len(program.columns))
    by_columns = scipy.sparse.csc_matrix((pairs[1::2], pairs[::2], starts), shape=shape)
    by_columns.sum_duplicates()
    return by_columns.tocsr()


@dataclass(frozen=True)
class Counts:
    """The size of a program in MPS: rows without the objective, columns, and entries outside the
    objective.
    """

    rows: int
    columns: int
    entries: int


@dataclass(frozen=True)
class Solutions(Tabular, Sequence[str]):
    """A solver's answer to the program of each group, in the order of the groups, as solutions in
    docs/REFERENCE.md.
    """

    texts: tuple[str, ...]
    solver: str

    def _columns(self) -> Columns:
        rows = [
            (group, *line.split(maxsplit=1))
            for group, text in enumerate(self.texts, 1)
            for line in text.splitlines()
            if line and not line.startswith("#")
        ]
        return make_columns(["group", "column", "value"], rows)

    def __len__(self) -> int:
        return len(self.texts)

    def __getitem__(self, place: int) -> str:  # type: ignore[override]
        return self.texts[place]


def join_names(names: Sequence[str]) -> str:
    """A group's names as the program prints them.

    >>> join_names(("Beta", "Gamma")), join_names(())
    ('Beta+Gamma', '-')
    """
    return "+".join(names) or "-"
