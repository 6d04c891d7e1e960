"""The figures of an auction's results, as docs/results.schema.json describes them.

Amounts, totals, costs and prices are pounds. `lots` are counts in the order of the categories in
the rules. What isn't known is None.
"""
from collections.abc import Iterable, Mapping, Sequence
from dataclasses import dataclass
from fractions import Fraction
from typing import Literal

from wdp.audits import find_left_out_bid
from wdp.awards import KnownAwards
from wdp.office.faults import format_number
from wdp.office.findings import LeftOutBid
from wdp.results import Allocation, Report
from wdp.texts.accepted import Accepted

# what is proved of the awards that reach a total: that they are all, that they reach it, or nothing
Proof = Literal["all", "some", "none"]


@dataclass(frozen=True)
class WinnerFigures:
    """A winning bid: the bidder's name, and the number of the bid in its form, from 1, its amount
    and its lots.
    """

    name: str
    bid: int
    amount: int
    lots: Sequence[int]


@dataclass(frozen=True)
class BidderFigures:
    """A bidder and what it wins.

    `bids` is how many bids its form has, and `bid` the number of the one that wins, None if none
    does; `lots` and `amount` are then 0. `price` is what the bidder pays, and `reserve` the reserve
    of its lots. `cost` is the opportunity cost of the bidder alone, who is group `cost_group`.
    """

    name: str
    lots: Sequence[int]
    bids: int
    bid: int | None
    amount: int
    price: int | None
    exact_price: Fraction | None
    reserve: int
    cost: int | None
    cost_group: int | None

    @property
    def is_winner(self) -> bool:
        """Whether a bid of the bidder wins."""
        return self.bid is not None

    @property
    def price_alone(self) -> int | None:
        """What a winner would pay alone."""
        return None if self.cost is None else max(self.cost, self.reserve)


@dataclass(frozen=True)
class CategoryFigures:
    """The lots of a category: how many there are, are sold and stay unsold.

    `reserve` is that of one lot, `value` what one unsold lot is worth, and `value_left` what all
    unsold ones are.
    """

    name: str
    supply: int
    sold: int
    unsold: int
    reserve: int
    value: int
    value_left: int


@dataclass(frozen=True)
class PoolFigures:
    """What the sold lots load a pool with, its cap, and what is left of that."""

    name: str
    load: int
    cap: int
    left: int


@dataclass(frozen=True)
class GroupFigures:
    """A group: its number from 1, who is left out, and who wins then, with the total.

    `cost` is the group's opportunity cost, and `paid` what its bidders pay together. A group that
    `is_added` isn't of the input, but shows the prices.
    """

    number: int
    left_out: Sequence[str]
    winners: Sequence[WinnerFigures]
    total: int
    cost: int
    paid: int | None
    is_added: bool


@dataclass(frozen=True)
class PricesFigures:
    """What is shown of the prices: the sum of what is paid, that of the exact prices, and whether
    these are the ones of the rule.

    By exact prices `groups`, which are numbers, pay just their opportunity cost, and `reserves`,
    which are names of bidders, just the reserve.
    """

    total: int
    exact_total: Fraction
    is_by_rule: bool
    groups: Sequence[int]
    reserves: Sequence[str]


@dataclass(frozen=True)
class AwardFigures:
    """An award of the total: its number from 1, who wins, and what each group costs by it.

    An audit can't have it first if one of its bids is in no program.
    """

    number: int
    winners: Sequence[WinnerFigures]
    costs: Sequence[int]
    can_be_first: bool


@dataclass(frozen=True)
class LeftOutFigures:
    """A bid that is in no program: the bidder, and which bid it is and why, in words."""

    bidder: str
    why: str


@dataclass(frozen=True)
class AuditFigures:
    """The SHA-256 of an audit, of the input at its end, and of all that `wdp verify` prints of it:
    added groups, prices and ties, too.

    `input_bytes` is how long the input is. The audit has `added_bytes` more in it, the lines of
    groups that were added, after the first `bytes_before`.
    """

    sha256: str
    input_sha256: str
    report_sha256: str
    input_bytes: int
    bytes_before: int
    added_bytes: int


@dataclass(frozen=True)
class Figures:
    """The figures of an auction's results, in the order of results.json.

    `certified` is whether an audit shows each total to be the greatest one. `total` is that of the
    first group: `amounts`, which the winners bid, and `value_left`, what the unsold lots are worth.
    `proof` says what is proved of the `awards` that reach it; these are the figures of number
    `award`, which is also `drawn` if a draw decided.
    `left_out` are the bids in no program, `names` what the office calls bidders and categories, by
    their names in the rules, and `wdp` the version of the program.
    """

    certified: bool
    title: str
    currency: str | None
    total: int
    amounts: int
    value_left: int
    bidders: Sequence[BidderFigures]
    categories: Sequence[CategoryFigures]
    pools: Sequence[PoolFigures]
    groups: Sequence[GroupFigures]
    prices: PricesFigures | None
    proof: Proof
    award: int
    drawn: int | None
    awards: Sequence[AwardFigures]
    left_out: Sequence[LeftOutFigures]
    names: Mapping[str, str]
    input_sha256: str
    report_sha256: str
    audit: AuditFigures | None
    wdp: str

    @property
    def known_awards(self) -> KnownAwards:
        """What is known of the awards of the total, and which of them these figures are of."""
        return KnownAwards(
            len(self.awards),
            are_all=self.proof == "all",
            number=self.award,
            is_drawn=self.drawn is not None,
        )

    @property
    def winners(self) -> list[BidderFigures]:
        """The bidders that win something."""
        return [bidder for bidder in self.bidders if bidder.is_winner]

    @property
    def lots(self) -> int:
        """How many lots there are in all."""
        return sum(category.supply for category in self.categories)

    @property
    def unsold(self) -> int:
        """How many lots stay unsold in all."""
        return sum(category.unsold for category in self.categories)

    def find_name(self, code: str) -> str:
        """What the office calls a bidder or category; its name in the rules if it has no other."""
        return self.names.get(code, code)

    def format_name(self, code: str) -> str:
        """What the office calls a bidder or category, followed by its name in the rules, if these
        differ: `800 MHz (A)`.
        """
        return f"{self.names[code]} ({code})" if code in self.names else code

    def join_names(self, codes: Sequence[str]) -> str:
        """What the office calls bidders, with `,` between them, or with `;` if a name has a comma;
        `nobody` if there are none.
        """
        names = [self.find_name(code) for code in codes]
        separator = "; " if any("," in name for name in names) else ", "
        return separator.join(names) or "nobody"

    def format_amount(self, amount: int | Fraction) -> str:
        """An amount with its currency: `1,000 GBP`."""
        return f"{format_number(amount)} {self.currency or ''}".rstrip()

    def format_lots(self, lots: Iterable[int]) -> str:
        """Lots in words: `2 of 800 MHz, 1 of B`."""
        pairs = zip(lots, self.categories, strict=True)
        return ", ".join(
            f"{count:,} of {self.find_name(category.name)}" for count, category in pairs if count
        )


def _make_winners(award: Allocation, auction: Accepted) -> list[WinnerFigures]:
    """The winning bids of an award, with their lots."""
    winners = []
    for winner in award.winners:
        bid = auction.bids[winner.bidder][winner.bid - 1]
        figures = WinnerFigures(
            name=winner.bidder,
            bid=winner.bid,
            amount=winner.amount,
            lots=bid.lots,
        )
        winners.append(figures)
    return winners


def make_bidders(report: Report, auction: Accepted) -> list[BidderFigures]:
    """The bidders, in the order of the rules."""
    winners = {each.name: each for each in _make_winners(report.groups[0], auction)}
    categories = auction.rules.categories
    # (of a group that is listed twice the first one counts)
    groups = {group.names: group for group in reversed(report.groups)}
    bidders = []
    for name in auction.rules.bidders:
        winner = winners.get(name)
        lots = winner.lots if winner else [0] * len(categories)
        group = groups.get((name,))
        pairs = zip(lots, categories, strict=True)
        bidder = BidderFigures(
            name=name,
            lots=lots,
            bids=len(auction.bids.get(name, ())),
            bid=winner.bid if winner else None,
            amount=winner.amount if winner else 0,
            price=report.prices.paid.get(name, 0) if report.prices else None,
            exact_price=report.prices.exact.get(name, Fraction(0)) if report.prices else None,
            reserve=sum(count * category.reserve for count, category in pairs),
            cost=group.cost if group else None,
            cost_group=group.number if group else None,
        )
        bidders.append(bidder)
    return bidders


def count_sold(bidders: Sequence[BidderFigures], auction: Accepted) -> list[int]:
    """How many lots of each category these bidders win."""
    return [
        sum(bidder.lots[index] for bidder in bidders)
        for index in range(len(auction.rules.categories))
    ]


def make_categories(sold: Sequence[int], auction: Accepted) -> list[CategoryFigures]:
    """The categories, of which so many lots are sold."""
    return [
        CategoryFigures(
            name=category.name,
            supply=category.supply,
            sold=count,
            unsold=category.supply - count,
            reserve=category.reserve,
            value=category.value,
            value_left=(category.supply - count) * category.value,
        )
        for count, category in zip(sold, auction.rules.categories, strict=True)
    ]


def make_pools(sold: Sequence[int], auction: Accepted) -> list[PoolFigures]:
    """The pools, with the load of the lots of each category that are sold."""
    pools = []
    for pool in auction.rules.pools:
        load = auction.rules.load(pool, sold)
        pools.append(PoolFigures(name=pool.name, load=load, cap=pool.cap, left=pool.cap - load))
    return pools


def make_groups(report: Report, auction: Accepted) -> list[GroupFigures]:
    """The groups of a report; those after the input's own were added to show the prices."""
    paid = report.prices.paid if report.prices else None
    return [
        GroupFigures(
            number=group.number,
            left_out=group.names,
            winners=_make_winners(group, auction),
            total=group.total,
            cost=group.cost,
            paid=None if paid is None else sum(paid.get(name, 0) for name in group.names),
            is_added=group.number > len(auction.groups),
        )
        for group in report.groups
    ]


def make_prices(report: Report, bidders: Iterable[BidderFigures]) -> PricesFigures | None:
    """What is shown of the prices; None if the report has none."""
    prices = report.prices
    if prices is None:
        return None
    groups = [
        group.number
        for group in report.groups
        if group.names and sum(prices.exact.get(name, 0) for name in group.names) == group.cost
    ]
    reserves = [
        bidder.name
        for bidder in bidders
        if bidder.is_winner and bidder.exact_price == bidder.reserve
    ]
    return PricesFigures(
        total=prices.total,
        exact_total=prices.exact_total,
        is_by_rule=prices.is_by_rule,
        groups=groups,
        reserves=reserves,
    )


def _compute_costs(award: Allocation, report: Report) -> list[int]:
    """What each group of a report costs by another award of the same total."""
    amounts = {winner.bidder: winner.amount for winner in award.winners}
    return [
        group.total - award.total + sum(amounts.get(name, 0) for name in group.names)
        for group in report.groups
    ]


def make_awards(
    awards: Sequence[Allocation],
    report: Report,
    auction: Accepted,
    *,
    left_out: Sequence[LeftOutBid],
) -> list[AwardFigures]:
    """The awards that are known to tie, numbered from 1 in this order; `left_out` are the bids in
    no program.
    """
    return [
        AwardFigures(
            number=number,
            winners=_make_winners(award, auction),
            costs=_compute_costs(award, report),
            can_be_first=find_left_out_bid(award, left_out) is None,
        )
        for number, award in enumerate(awards, 1)
    ]
