"""The table of two outcomes side by side, as people read it."""
from collections.abc import Sequence

from wdp.comparison import Comparison, Standing
from wdp.office.faults import CellValue
from wdp.publish.tables import DisplayTable
from wdp.results import Report

_TWICE = ("before", "now")


def make_changes_table(comparison: Comparison) -> DisplayTable:
    """What each bidder wins, costs and pays by one outcome and by the other; prices if one of
    them has some.
    """
    names = ["Wins", "Opportunity cost"]
    if any(report.prices for report in (comparison.before, comparison.now)):
        names.append("Price")
    count = len(names)
    rows = []
    for change in comparison.changes:
        before = _list_cells(change.before)[:count]
        rows.append([change.bidder, *_alternate(before, _list_cells(change.now)[:count])])
    sums = _list_sums(comparison.before)[:count]
    return DisplayTable(
        name="changes",
        headings=["Bidder", *(f"{name} {when}" for name in names for when in _TWICE)],
        rows=rows,
        sums=["All", *_alternate(sums, _list_sums(comparison.now)[:count])],
    )


def _alternate(before: Sequence[CellValue], now: Sequence[CellValue]) -> list[CellValue]:
    """The cells of before, each with that of now after it."""
    return [cell for pair in zip(before, now, strict=True) for cell in pair]


def _list_cells(standing: Standing) -> list[CellValue]:
    """What a bidder wins, costs and pays."""
    winner = standing.winner
    wins = "nothing"
    if winner is not None:
        lots = ", ".join(f"{count:,} of {name}" for name, count in winner.lots.items())
        wins = f"{winner.amount:,} for {lots} (bid {winner.bid:,})"
    return [wins, standing.cost, standing.price]


def _list_sums(report: Report) -> list[CellValue]:
    """The total of a report's first group, and what is paid in all."""
    paid = report.prices.total if report.prices else None
    return [f"{report[0].total:,} in all", None, paid]
