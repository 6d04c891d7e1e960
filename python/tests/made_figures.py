"""Figures of results made of a few numbers, as no small auction has them: of many winners, of one
who pays nothing, of nobody.
"""
import math
from collections.abc import Mapping, Sequence
from fractions import Fraction
from typing import NamedTuple

from wdp.publish.figures import (
    AwardFigures,
    BidderFigures,
    CategoryFigures,
    Figures,
    GroupFigures,
    PricesFigures,
    WinnerFigures,
)

DIGEST = "0" * 64


class Bidder(NamedTuple):
    """A bidder, what it bids for the lots that it wins and what it pays for them, which is rounded
    up.
    """

    name: str
    lots: Sequence[int]
    amount: int = 0
    price: int | Fraction | None = None
    reserve: int = 0
    cost: int | None = None


def _make_bidder(bidder: Bidder) -> BidderFigures:
    return BidderFigures(
        name=bidder.name,
        lots=bidder.lots,
        bids=1,
        bid=1 if any(bidder.lots) else None,
        amount=bidder.amount,
        price=None if bidder.price is None else math.ceil(bidder.price),
        exact_price=None if bidder.price is None else Fraction(bidder.price),
        reserve=bidder.reserve,
        cost=bidder.cost,
        cost_group=None,
    )


def _make_categories(
    supplies: Mapping[str, int], bidders: Sequence[Bidder], value: int
) -> list[CategoryFigures]:
    categories = []
    for index, (name, supply) in enumerate(supplies.items()):
        sold = sum(bidder.lots[index] for bidder in bidders)
        category = CategoryFigures(
            name=name,
            supply=supply,
            sold=sold,
            unsold=supply - sold,
            reserve=0,
            value=value,
            value_left=(supply - sold) * value,
        )
        categories.append(category)
    return categories


def _make_prices(bidders: Sequence[Bidder], is_by_rule: bool) -> PricesFigures | None:
    prices = [bidder.price for bidder in bidders if bidder.price is not None]
    if not prices:
        return None
    return PricesFigures(
        total=sum(map(math.ceil, prices)),
        exact_total=Fraction(sum(prices)),
        is_by_rule=is_by_rule,
        groups=[],
        reserves=[],
    )


def make_figures(
    supplies: Mapping[str, int],
    bidders: Sequence[Bidder],
    *,
    value: int = 0,
    currency: str | None = None,
    names: Mapping[str, str] | None = None,
    is_by_rule: bool = True,
    awards: int = 1,
) -> Figures:
    """The figures of an award of these bidders; an unsold lot is worth `value`, and so many awards
    are known to reach its total.
    """
    categories = _make_categories(supplies, bidders, value)
    winners = [
        WinnerFigures(name=bidder.name, bid=1, amount=bidder.amount, lots=bidder.lots)
        for bidder in bidders
        if any(bidder.lots)
    ]
    amounts = sum(winner.amount for winner in winners)
    value_left = sum(category.value_left for category in categories)
    group = GroupFigures(
        number=1,
        left_out=[],
        winners=winners,
        total=amounts + value_left,
        cost=0,
        paid=None,
        is_added=False,
    )
    return Figures(
        certified=True,
        title="Award",
        currency=currency,
        total=amounts + value_left,
        amounts=amounts,
        value_left=value_left,
        bidders=[_make_bidder(bidder) for bidder in bidders],
        categories=categories,
        pools=[],
        groups=[group],
        prices=_make_prices(bidders, is_by_rule),
        proof="all",
        award=1,
        drawn=None,
        awards=[
            AwardFigures(number=number, winners=winners, costs=[0], can_be_first=True)
            for number in range(1, awards + 1)
        ],
        left_out=[],
        names=names or {},
        input_sha256=DIGEST,
        report_sha256=DIGEST,
        audit=None,
        wdp="wdp",
    )
