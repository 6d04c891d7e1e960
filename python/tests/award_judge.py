"""What the objects of an award have to say: each figure by its definition in docs/REFERENCE.md
alone, in whole numbers and exact fractions, the judge of tests. It imports nothing of the package.
"""
import json
import math
from collections.abc import Iterable, Mapping, Sequence
from dataclasses import dataclass
from fractions import Fraction
from hashlib import sha256
from typing import Any

from award_auctions import AuctionTexts
from priced_auctions import feasible
from tied_auctions import Allocation, Auction, Bid, Group, Winner

Object = dict[str, Any]
MOST_OTHERS = 64


@dataclass(frozen=True)
class Outcome:
    """What an audit shows of an auction: who wins without each group, in the order of the groups;
    what each winner of the first one pays in pounds, if there are prices; and other awards. `last`
    is what is known of further awards.
    """

    groups: Sequence[Group]
    won: Sequence[Allocation]
    is_proved: bool = True
    prices: Mapping[int, Fraction] | None = None
    is_by_rule: bool = False
    awards: Sequence[Allocation] = ()
    last: str | None = None


@dataclass(frozen=True)
class Judge:
    """Lists the objects of what is shown of an auction."""

    source: AuctionTexts
    outcome: Outcome

    @property
    def auction(self) -> Auction:
        return self.source.auction

    @property
    def first(self) -> Allocation:
        return self.outcome.won[0]

    def list_objects(self) -> list[Object]:
        """All objects, in their order."""
        return [
            *list_forms(self.source),
            *self.list_categories(),
            *self.list_pools(),
            *self.list_groups(),
            *self.list_prices(),
            *self.list_awards(),
            *self.list_sums(),
            {"proved": self.list_proved()},
        ]

    # ---- lots

    def list_categories(self) -> list[Object]:
        sold = self.count_sold()
        categories = []
        for place, name in enumerate(self.source.categories):
            unsold = self.auction.supply[place] - sold[place]
            categories.append(
                {
                    "category": name,
                    "supply": self.auction.supply[place],
                    "reserve": self.auction.reserves[place],
                    "value": self.auction.values[place],
                    "sold": sold[place],
                    "unsold": unsold,
                    "value_left": unsold * self.auction.values[place],
                }
            )
        return categories

    def list_pools(self) -> list[Object]:
        sold = self.count_sold()
        pools = []
        for name, pool in zip(self.source.pools, self.auction.pools, strict=True):
            load = sum(weight * count for weight, count in zip(pool.weights, sold, strict=True))
            pools.append({"pool": name, "cap": pool.cap, "load": load, "left": pool.cap - load})
        return pools

    def count_sold(self) -> list[int]:
        return count_lots(self.auction, self.first)

    # ---- groups and awards

    def list_groups(self) -> list[Object]:
        """Each group, followed by its winners."""
        objects: list[Object] = []
        pairs = zip(self.outcome.groups, self.outcome.won, strict=True)
        for number, (group, allocation) in enumerate(pairs, 1):
            objects.append(
                {
                    "group": number,
                    "left_out": [self.source.bidders[bidder - 1] for bidder in sorted(group)],
                    "total": find_total(self.auction, allocation),
                    "cost": self.find_cost(self.first, group, allocation),
                    "pays": self.sum_paid(group),
                }
            )
            objects += self.list_winners({"group": number}, allocation)
        return objects

    def list_winners(self, of: Object, allocation: Allocation) -> list[Object]:
        winners = []
        for bidder, number in allocation:
            bid = find_bid(self.auction, (bidder, number))
            pairs = zip(self.source.categories, bid.package, strict=True)
            winners.append(
                {
                    **of,
                    "winner": self.source.bidders[bidder - 1],
                    "bid": number,
                    "amount": bid.amount,
                    "lots": {name: count for name, count in pairs if count},
                    "reserve": find_reserve(self.auction, bid),
                }
            )
        return winners

    def find_cost(self, award: Allocation, group: Group, without: Allocation) -> int:
        """What a group costs if this award is the first one, by what is won without the group."""
        amounts = [find_bid(self.auction, winner).amount for winner in award if winner[0] in group]
        others = find_total(self.auction, award) - sum(amounts)
        return find_total(self.auction, without) - others

    def sum_paid(self, group: Group) -> int | None:
        """What the winners of a group pay in whole pounds."""
        prices = self.outcome.prices
        if prices is None:
            return None
        return sum(math.ceil(price) for bidder, price in prices.items() if bidder in group)

    def list_awards(self) -> list[Object]:
        """Each other award, followed by its winners."""
        objects: list[Object] = []
        for number, award in enumerate(self.outcome.awards, 2):
            pairs = zip(self.outcome.groups, self.outcome.won, strict=True)
            objects.append(
                {
                    "award": number,
                    "total": find_total(self.auction, award),
                    "costs": [self.find_cost(award, *pair) for pair in pairs],
                }
            )
            objects += self.list_winners({"award": number}, award)
        return objects

    # ---- prices

    def list_prices(self) -> list[Object]:
        if self.outcome.prices is None:
            return []
        objects = []
        for winner in self.first:
            bidder, _ = winner
            exact = self.outcome.prices[bidder]
            objects.append(
                {
                    "price": self.source.bidders[bidder - 1],
                    "pays": math.ceil(exact),
                    "exact": [exact.numerator, exact.denominator],
                    "alone": self.find_alone(winner),
                    "bound_by": self.list_binding(bidder),
                    "by_reserve": exact == self.find_reserve_of(winner),
                }
            )
        return objects

    def find_reserve_of(self, winner: Winner) -> int:
        return find_reserve(self.auction, find_bid(self.auction, winner))

    def find_alone(self, winner: Winner) -> int | None:
        """The greater of what the winner costs the others and the reserve of its lots."""
        for group, allocation in zip(self.outcome.groups, self.outcome.won, strict=True):
            if list(group) == [winner[0]]:
                cost = self.find_cost(self.first, group, allocation)
                return max(cost, self.find_reserve_of(winner))
        return None

    def list_binding(self, bidder: int) -> list[int]:
        """The numbers of the bidder's groups whose exact prices come to just the group's cost."""
        prices = self.outcome.prices or {}
        numbers = []
        pairs = zip(self.outcome.groups, self.outcome.won, strict=True)
        for number, (group, allocation) in enumerate(pairs, 1):
            paid = sum(price for each, price in prices.items() if each in group)
            is_bound = paid == self.find_cost(self.first, group, allocation)
            if bidder in group and is_bound:
                numbers.append(number)
        return numbers

    # ---- sums, and what is proved

    def list_sums(self) -> list[Object]:
        amounts = [find_bid(self.auction, winner).amount for winner in self.first]
        reserves = [self.find_reserve_of(winner) for winner in self.first]
        sold = sum(self.count_sold())
        left = zip(self.auction.supply, self.count_sold(), self.auction.values, strict=True)
        sums: list[Object] = [
            {"sum": "winners", "amount": sum(amounts), "reserve": sum(reserves)},
            {
                "sum": "lots",
                "supply": sum(self.auction.supply),
                "sold": sold,
                "unsold": sum(self.auction.supply) - sold,
                "value_left": sum((supply - count) * value for supply, count, value in left),
            },
        ]
        if self.outcome.prices is not None:
            exact = sum(self.outcome.prices.values(), Fraction(0))
            sums.append(
                {
                    "sum": "prices",
                    "pays": sum(math.ceil(price) for price in self.outcome.prices.values()),
                    "exact": [exact.numerator, exact.denominator],
                    "alone": sum_known(map(self.find_alone, self.first)),
                }
            )
        return sums

    def list_proved(self) -> list[str]:
        if not self.outcome.is_proved:
            return []
        proved = ["totals", "costs"]
        if self.outcome.prices is not None:
            proved.append("prices")
        if self.outcome.is_by_rule:
            proved.append("by the rule")
        if self.outcome.last is not None:
            proved.append(self.outcome.last)
        return proved


def list_forms(source: AuctionTexts) -> list[Object]:
    """What `forms` says of the rules, and of the last form of each bidder."""
    last = dict(source.forms)
    objects: list[Object] = [{"rules": sha256(source.rules).hexdigest(), "step": source.step}]
    for number, (name, bids) in enumerate(
        zip(source.bidders, source.auction.forms, strict=True), 1
    ):
        text = last.get(number)
        objects.append(
            {
                "form": name,
                "bids": None if text is None else len(bids),
                "sha256": None if text is None else sha256(text).hexdigest(),
            }
        )
    return objects


def format_objects(objects: Iterable[Object]) -> bytes:
    """A line for each object."""
    return "".join(f"{json.dumps(each)}\n" for each in objects).encode("ascii")


# ---- lots, amounts and reserves of bids


def find_bid(auction: Auction, winner: Winner) -> Bid:
    bidder, number = winner
    return auction.forms[bidder - 1][number - 1]


def find_reserve(auction: Auction, bid: Bid) -> int:
    pairs = zip(auction.reserves, bid.package, strict=True)
    return sum(reserve * count for reserve, count in pairs)


def count_lots(auction: Auction, allocation: Allocation) -> list[int]:
    """How many lots of each category the winners have."""
    packages = [find_bid(auction, winner).package for winner in allocation]
    return [sum(package[place] for package in packages) for place in range(len(auction.supply))]


def find_total(auction: Auction, allocation: Allocation) -> int:
    """The amounts, and the values of the lots that nobody has."""
    amounts = [find_bid(auction, winner).amount for winner in allocation]
    lots = zip(auction.supply, count_lots(auction, allocation), auction.values, strict=True)
    return sum(amounts) + sum((supply - count) * value for supply, count, value in lots)


def sum_known(numbers: Iterable[int | None]) -> int | None:
    """The sum, if all are known."""
    total = 0
    for number in numbers:
        if number is None:
            return None
        total += number
    return total


# ---- which awards follow from others


def list_others(auction: Auction, known: Sequence[Allocation]) -> tuple[list[Allocation], str]:
    """All awards but the first of these, in the order in which they are printed, and the word for
    what is known of further ones. Those of bids with columns are known.
    """
    best = find_total(auction, known[0])
    awards = [award for award in feasible(auction) if find_total(auction, award) == best]

    def find_place(award: Allocation) -> tuple[object, ...]:
        """Those that are known come first. Of those that follow from one of them, a winner's bid
        there comes before those that stand in for it.
        """
        kept = tuple((bidder, find_stood_for(auction, bidder, number)) for bidder, number in award)
        digits = [0 if winner == own else winner[1] for winner, own in zip(award, kept)]
        return any(digits), known.index(kept), digits

    others = sorted(awards, key=find_place)[1:]
    if not others:
        return [], "unique"
    return others[:MOST_OTHERS], "no other" if len(others) <= MOST_OTHERS else "and more"


def find_stood_for(auction: Auction, bidder: int, number: int) -> int:
    """The bid for which this one stands in, or the bid itself, if it has a column."""
    form = auction.forms[bidder - 1]
    bid = form[number - 1]
    if has_column(auction, form, bid):
        return number
    return next(
        other
        for other, each in enumerate(form, 1)
        if has_column(auction, form, each)
        and find_net(auction, each) == find_net(auction, bid)
        and is_covered(each, bid)
    )


def has_column(auction: Auction, form: Sequence[Bid], bid: Bid) -> bool:
    """Whether a bid fits alone, brings what its lots are worth, and isn't dominated."""
    if any(count > supply for count, supply in zip(bid.package, auction.supply, strict=True)):
        return False
    for pool in auction.pools:
        pairs = zip(pool.weights, bid.package, strict=True)
        if sum(weight * count for weight, count in pairs) > pool.cap:
            return False
    if find_net(auction, bid) < 0:
        return False
    return not any(
        each.package != bid.package
        and is_covered(each, bid)
        and find_net(auction, each) >= find_net(auction, bid)
        for each in form
    )


def find_net(auction: Auction, bid: Bid) -> int:
    pairs = zip(auction.values, bid.package, strict=True)
    return bid.amount - sum(value * count for value, count in pairs)


def is_covered(bid: Bid, by: Bid) -> bool:
    """Whether a bid asks for at most as many lots of each category as another one."""
    return all(count <= most for count, most in zip(bid.package, by.package, strict=True))
