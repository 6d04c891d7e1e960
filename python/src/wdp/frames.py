"""Results as tables: data frames, and what a notebook shows."""
from __future__ import annotations

import html
from collections.abc import Mapping, Sequence
from typing import TYPE_CHECKING

from wdp.texts.refusals import need

if TYPE_CHECKING:
    import pandas

Columns = Mapping[str, Sequence[object]]


class Tabular:
    """A result with rows, by columns."""

    _caption = ""

    def _columns(self) -> Columns:
        raise NotImplementedError

    def to_frame(self) -> pandas.DataFrame:
        """A data frame. Amounts, totals, costs and what is paid are whole pounds. Its rows are

        - of an allocation the winners, with bidder, bid, amount, and lots by category
        - of a report the groups, with group, left_out (names joined by `+`, or `-`), total and cost
        - of prices the winners, with bidder, exact (a `fractions.Fraction` of pounds) and paid
        - of a comparison the bidders that win by one of two reports, with bidder, and of each
          report, `_before` and `_now`: bid, amount, (opportunity) cost and price; blank if it has none
        - of solutions the columns that they name, with group, column and value
        - of lost bids the bids, with bidder, bid, amount, needed, lacked, fate and reason
        - of what `explain` finds the findings, with part, number, kind, record, field and cause;
          or, if there are none, the bids in no program, with bidder and why

        Raises Missing without pandas.
        """
        need("to_frame", "pandas")
        import pandas

        return pandas.DataFrame(dict(self._columns()))

    def _repr_html_(self) -> str:
        columns = self._columns()
        rows = ["".join(f"<th>{html.escape(name)}</th>" for name in columns)]
        for row in zip(*columns.values(), strict=True):
            rows.append("".join(f"<td>{html.escape(str(cell))}</td>" for cell in row))
        lines = "".join(f"<tr>{row}</tr>" for row in rows)
        return f"<table><caption>{self._caption}</caption>{lines}</table>"


def make_columns(names: Sequence[str], rows: Sequence[Sequence[object]]) -> Columns:
    """Columns with these names, of rows that have a value for each.

    >>> make_columns(["bidder", "bid"], [("Alpha", 1), ("Beta", 2)])
    {'bidder': ['Alpha', 'Beta'], 'bid': [1, 2]}
    """
    return {name: [row[index] for row in rows] for index, name in enumerate(names)}
