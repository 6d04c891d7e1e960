"""Small random auctions with prices in parts of a pound, and whether prices are those of the rule, by
its definition alone: in exact fractions, over all groups of winners, by a simplex method of its own.
"""
import random
from collections.abc import Iterable, Iterator, Sequence
from fractions import Fraction

import tied_auctions as tied
from tied_auctions import Auction, Bid, Pool, weighed

Package = tuple[int, ...]  # lots of each category
Allocation = tuple[tuple[int, int], ...]  # of each winner the bidder and the bid, from 1
Number = int | Fraction


def random_auction(draw: random.Random) -> Auction:
    """Either a few categories, or single lots that losers want together, which several winners have
    to pay for.
    """
    return draw.choice([_draw_categories, _draw_single_lots])(draw)


def drawn(number: int) -> tuple[Auction, list[tuple[int, ...]]]:
    """The random auction of this number, and the groups that are asked for."""
    draw = random.Random(f"rule {number}")
    auction = random_auction(draw)
    return auction, draw.choice([[()], [(), (1,)], [(), (2,), (1,), (2,)], [(), (1, 2)]])


def _draw_categories(draw: random.Random) -> Auction:
    kinds = range(draw.randint(1, 4))
    supply = tuple(draw.randint(1, 3) for _ in kinds)
    values, reserves = _draw_values(draw, kinds)
    most = draw.choice([4, 10, 40])
    forms = []
    for _ in range(draw.randint(2, 6)):
        packages = {tuple(draw.choice([0, 0, 1, 1, 2]) for _ in kinds) for _ in range(3)}
        forms.append(_draw_form(draw, sorted(packages), reserves=reserves, most=most))
    return Auction(
        version=3,
        supply=supply,
        values=values,
        pools=_draw_pools(draw, supply),
        forms=forms,
        reserves=reserves,
    )


def _draw_single_lots(draw: random.Random) -> Auction:
    kinds = range(draw.randint(4, 6))
    supply = tuple(1 for _ in kinds)
    values, reserves = _draw_values(draw, kinds)
    single = [tuple(int(kind == lot) for kind in kinds) for lot in kinds]
    forms = []
    for lot in kinds:
        packages = dict.fromkeys([single[lot], *draw.sample(single, draw.choice([0, 0, 1]))])
        forms.append(_draw_form(draw, list(packages), reserves=reserves, most=60))
    for _ in range(draw.randint(1, len(kinds))):
        wanted = draw.sample(kinds, draw.randint(2, len(kinds) // 2 + 1))
        package = tuple(int(lot in wanted) for lot in kinds)
        amount = weighed(reserves, package) + draw.randint(8, 34) * len(wanted)
        forms.append([Bid(amount, package)])
    draw.shuffle(forms)
    return Auction(
        version=3,
        supply=supply,
        values=values,
        pools=_draw_pools(draw, supply),
        forms=forms,
        reserves=reserves,
    )


def _draw_values(draw: random.Random, kinds: Iterable[int]) -> tuple[Package, Package]:
    """What each lot is worth unsold, often nothing, and reserves, each at least that."""
    has_values = draw.random() < 0.4
    values = tuple(draw.choice([0, 1, 2]) if has_values else 0 for _ in kinds)
    return values, tuple(value + draw.choice([0, 0, 1, 3]) for value in values)


def _draw_pools(draw: random.Random, supply: Package) -> list[Pool]:
    if draw.random() < 0.7:
        return []
    weights = tuple(draw.choice([0, 1, 1, 2]) for _ in supply)
    return [Pool(draw.randint(1, sum(supply) + 2), weights)]


def _draw_form(
    draw: random.Random, packages: Iterable[Package], *, reserves: Package, most: int
) -> list[Bid]:
    """A bid for each package, of at most so much above the reserve for each lot."""
    return [
        Bid(max(1, weighed(reserves, package) + draw.randint(0, most) * sum(package)), package)
        for package in packages
        if any(package)
    ]


class Costs:
    """What each group of an award's winners costs, and what each would pay alone, by all that is
    feasible.
    """

    def __init__(self, auction: Auction, won: Allocation) -> None:
        self.winners = [bidder for bidder, _ in won]
        bids = [tied.bid_of(auction, winner) for winner in won]
        self.amounts: list[int] = [bid.amount for bid in bids]
        self.reserves: list[int] = [tied.reserve_of(auction, bid) for bid in bids]
        total: int = tied.total(auction, won)
        # the greatest total by who of these winners wins in it
        greatest: dict[frozenset[int], int] = {}
        for allocation in feasible(auction):
            who = frozenset(self.winners).intersection(bidder for bidder, _ in allocation)
            greatest[who] = max(tied.total(auction, allocation), greatest.get(who, 0))
        self.is_best = total == max(greatest.values())
        self.costs: dict[tuple[int, ...], int] = {}
        for group in filter(None, tied.subsets(range(len(won)))):
            without = {self.winners[place] for place in group}
            best = max(total for who, total in greatest.items() if not who & without)
            self.costs[group] = best - total + sum(self.amounts[place] for place in group)
        self.alone = [
            max(self.costs[place,], reserve) for place, reserve in enumerate(self.reserves)
        ]

    def fault_of(self, prices: Sequence[Number]) -> str | None:
        """Why prices aren't those of the rule, or None.

        Of the least sum are those of which no others have a lower one. The nearest of these are
        those from which, in the direction of what each would pay alone, none of these lie farther.
        """
        count = len(self.winners)
        rows = [[int(place in group) for place in range(count)] for group in self.costs]
        rows += [[int(place == winner) for place in range(count)] for winner in range(count)]
        needs: list[Number] = [*self.costs.values(), *self.reserves]
        pairs = zip(rows, needs, strict=True)
        if any(_multiply(row, prices) < need for row, need in pairs):
            return "a group isn't covered, or a reserve isn't met"
        total = _find_lowest(rows, needs, [1] * count)
        if sum(prices) != total:
            return f"the least sum is {total}"
        apart = [price - alone for price, alone in zip(prices, self.alone, strict=True)]
        least = _find_lowest([*rows, [-1] * count], [*needs, -total], apart)
        return None if _multiply(apart, prices) == least else "others are nearer"


def feasible(auction: Auction) -> Iterator[Allocation]:
    """All feasible allocations; what doesn't fit isn't gone on with."""
    return _extend(auction, 1, ())


def _extend(auction: Auction, bidder: int, before: Allocation) -> Iterator[Allocation]:
    """All feasible allocations that begin with this one, of the bidders before this one."""
    if bidder > len(auction.forms):
        yield before
        return
    yield from _extend(auction, bidder + 1, before)
    for bid in range(1, len(auction.forms[bidder - 1]) + 1):
        more = (*before, (bidder, bid))
        if tied.is_feasible(auction, more):
            yield from _extend(auction, bidder + 1, more)


def _multiply(first: Iterable[Number], second: Iterable[Number]) -> Number:
    return sum(x * y for x, y in zip(first, second, strict=True))


def _find_lowest(
    rows: Sequence[Sequence[int]], needs: Sequence[Number], costs: Sequence[Number]
) -> Fraction:
    """The least that prices cost which meet all rows; costs are at least 0. The simplex method for
    the weights, by Bland's rule.
    """
    count = len(costs)
    table = [
        [
            *(Fraction(row[place]) for row in rows),
            *(Fraction(place == other) for other in range(count)),
        ]
        for place in range(count)
    ]
    right = [Fraction(cost) for cost in costs]
    goal = [Fraction(-need) for need in needs] + [Fraction(0)] * count
    basis = [len(rows) + place for place in range(count)]
    value = Fraction(0)
    while (enters := next((n for n, gain in enumerate(goal) if gain < 0), None)) is not None:
        _, _, leaves = min(
            (right[place] / line[enters], basis[place], place)
            for place, line in enumerate(table)
            if line[enters] > 0
        )
        pivot = table[leaves][enters]
        pivot_line = [number / pivot for number in table[leaves]]
        table[leaves] = pivot_line
        right[leaves] /= pivot
        for place, line in enumerate(table):
            factor = line[enters]
            if place != leaves and factor:
                table[place] = _subtract(line, pivot_line, factor)
                right[place] -= factor * right[leaves]
        factor = goal[enters]
        goal = _subtract(goal, pivot_line, factor)
        value -= factor * right[leaves]
        basis[leaves] = enters
    return value


def _subtract(
    line: Iterable[Fraction], other: Iterable[Fraction], factor: Fraction
) -> list[Fraction]:
    """A line without so many times the other one."""
    return [x - factor * y for x, y in zip(line, other, strict=True)]


def kinds_of(auction: Auction, won: Allocation, prices: Iterable[Number]) -> dict[str, bool]:
    """What an auction counts as in a table of how many of each kind were tried."""
    largest = max((Fraction(price).denominator for price in prices), default=1)
    return {
        "in parts": largest > 1,
        "in thirds or less": largest > 2,
        "with pools": bool(auction.pools),
        "with values": any(auction.values),
        "with five winners": len(won) >= 5,
    }


def permuted(auction: Auction, draw: random.Random) -> tuple[Auction, list[int]]:
    """The auction with its bidders in another order, and the place of each before."""
    order = draw.sample(range(len(auction.forms)), len(auction.forms))
    return auction._replace(forms=[auction.forms[place] for place in order]), order
