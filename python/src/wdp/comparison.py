"""Two outcomes side by side: what each bidder wins, costs and pays by one and by the other."""
from __future__ import annotations

from collections.abc import Iterable
from dataclasses import dataclass

from wdp.frames import Columns, Tabular, make_columns
from wdp.results import Report, Winner

_COLUMNS = (
    "bidder",
    "bid_before",
    "bid_now",
    "amount_before",
    "amount_now",
    "cost_before",
    "cost_now",
    "price_before",
    "price_now",
)


@dataclass(frozen=True)
class Standing:
    """What a report says of a bidder: its winning bid, None if it wins nothing; its opportunity
    cost alone in pounds, None if the bidder alone is no group of the report; and what it pays in
    whole pounds, None if the report has no prices or the bidder wins nothing.
    """

    winner: Winner | None
    cost: int | None
    price: int | None


@dataclass(frozen=True)
class Change:
    """What two reports say of a bidder: the one of before, and the one of now."""

    bidder: str
    before: Standing
    now: Standing

    @property
    def is_change(self) -> bool:
        """Whether they say something else."""
        return self.before != self.now


@dataclass(frozen=True)
class Comparison(Tabular):
    """Two reports of auctions with the same bidders, side by side: in `changes` each bidder that
    wins by one of them, in the order of the rules.
    """

    before: Report
    now: Report
    changes: tuple[Change, ...]

    _caption = "before and now"

    def _columns(self) -> Columns:
        return make_columns(_COLUMNS, [_list_values(change) for change in self.changes])


def compare_reports(
    before: Report, now: Report, bidders: Iterable[str], named: Iterable[str] = ()
) -> Comparison:
    """Two reports side by side, of these bidders those that win by one of them, and those that are
    `named`.
    """
    shown = {winner.bidder for report in (before, now) for winner in report[0].winners}
    shown.update(named)
    changes = [
        Change(bidder=name, before=_find_standing(before, name), now=_find_standing(now, name))
        for name in bidders
        if name in shown
    ]
    return Comparison(before=before, now=now, changes=tuple(changes))


def _find_standing(report: Report, bidder: str) -> Standing:
    """What a report says of a bidder."""
    winners = {winner.bidder: winner for winner in report[0].winners}
    # (of a group that is listed twice the first one counts)
    costs = {group.names: group.cost for group in reversed(report.groups)}
    return Standing(
        winner=winners.get(bidder),
        cost=costs.get((bidder,)),
        price=report.prices.paid.get(bidder) if report.prices else None,
    )


def _list_values(change: Change) -> tuple[object, ...]:
    """The values of a change in the order of the columns."""
    before = change.before
    now = change.now
    return (
        change.bidder,
        before.winner.bid if before.winner else None,
        now.winner.bid if now.winner else None,
        before.winner.amount if before.winner else None,
        now.winner.amount if now.winner else None,
        before.cost,
        now.cost,
        before.price,
        now.price,
    )
