"""Small random auctions with steps, values and pools, and what each lost bid lacked in them, by the
definition alone: all combinations of bids are listed.
"""
import itertools
import random
from collections.abc import Iterator, Sequence
from typing import NamedTuple

NAMES = ("Alpha", "Beta", "Gamma", "Delta")
CATEGORIES = ("A", "B", "C")
Lots = tuple[int, ...]
Won = tuple[int, int]  # a bidder and a bid of its form, each numbered from 1


class Bid(NamedTuple):
    """An amount, and how many lots of each category it is for."""

    amount: int
    lots: Lots


class Pool(NamedTuple):
    """A cap, and what a lot of each category loads."""

    cap: int
    weights: Lots


class Auction(NamedTuple):
    """An auction: the step of amounts, lots of each category and what each is worth unsold, pools,
    and the bids of each bidder.
    """

    step: int
    supply: Lots
    values: Lots
    pools: Sequence[Pool]
    forms: Sequence[Sequence[Bid]]


class Lacked(NamedTuple):
    """The lowest amount that would have tied or won, None if there is none, and whether it ties."""

    needed: int | None
    ties: bool


def weigh(weights: Lots, lots: Lots) -> int:
    return sum(weight * count for weight, count in zip(weights, lots, strict=True))


def list_combinations(auction: Auction) -> Iterator[tuple[frozenset[Won], int]]:
    """Each feasible combination of bids, with its total."""
    numbers = [range(len(form) + 1) for form in auction.forms]
    for chosen in itertools.product(*numbers):
        won = frozenset((bidder, bid) for bidder, bid in enumerate(chosen, 1) if bid)
        bids = [auction.forms[bidder - 1][bid - 1] for bidder, bid in won]
        sold = tuple(sum(bid.lots[kind] for bid in bids) for kind in range(len(auction.supply)))
        left = tuple(most - count for most, count in zip(auction.supply, sold, strict=True))
        if min(left) < 0 or any(weigh(pool.weights, sold) > pool.cap for pool in auction.pools):
            continue
        yield won, sum(bid.amount for bid in bids) + weigh(auction.values, left)


def find_lacked(auction: Auction) -> dict[Won, Lacked]:
    """What each bid lacked that loses; for one that wins somewhere with the greatest total, too,
    that it ties with its own amount.
    """
    combinations = list(list_combinations(auction))
    lacked = {}
    for bidder, form in enumerate(auction.forms, 1):
        for number, bid in enumerate(form, 1):
            key = (bidder, number)
            with_it = [total for won, total in combinations if key in won]
            without = max(total for won, total in combinations if key not in won)
            if not with_it:
                lacked[key] = Lacked(None, ties=False)
                continue
            others = max(with_it) - bid.amount
            amounts = itertools.count(auction.step, auction.step)
            needed = next(amount for amount in amounts if others + amount >= without)
            lacked[key] = Lacked(needed, ties=others + needed == without)
    return lacked


def format_input(auction: Auction) -> str:
    """The input, with the empty group."""
    names = NAMES[: len(auction.forms)]
    kinds = CATEGORIES[: len(auction.supply)]
    lines = ["%rules", f"rules,3,{auction.step},,,"]
    rows = zip(kinds, auction.supply, auction.values, strict=True)
    lines += [f"category,{name},{supply},0,1,{value}" for name, supply, value in rows]
    for number, pool in enumerate(auction.pools, 1):
        lines.append(f"pool,P{number},{pool.cap},,,")
        for name, weight in zip(kinds, pool.weights, strict=True):
            lines += [f"member,P{number},{name},{weight},,"] if weight else []
    lines += [f"bidder,{name},99,1,," for name in names]
    for name, form in zip(names, auction.forms, strict=True):
        lines += ["%form", ",".join([name, *kinds])]
        lines += [",".join(map(str, [bid.amount, *bid.lots])) for bid in form]
    return "".join(f"{line}\n" for line in [*lines, "%groups", "-"])


def draw_auction(number: int) -> Auction:
    """The random auction of this number."""
    draw = random.Random(f"lost bids {number}")
    step = draw.choice([1, 1, 2, 5, 10])
    kinds = range(draw.randint(1, 3))
    supply = tuple(draw.randint(2, 5) for _ in kinds)
    has_values = draw.random() < 0.5
    values = tuple(draw.choice([0, 1, 3, 7]) if has_values else 0 for _ in kinds)
    pools = []
    for _ in range(draw.choice([0, 0, 1, 2])):
        weights = tuple(draw.choice([0, 1, 1, 2, 3]) for _ in kinds)
        pools.append(Pool(draw.randint(3, 12), weights))
    forms = [_draw_form(draw, step, supply) for _ in range(draw.randint(2, 4))]
    return Auction(step, supply=supply, values=values, pools=pools, forms=forms)


def _draw_form(draw: random.Random, step: int, supply: Lots) -> list[Bid]:
    """Bids for different packages, few amounts among them, so that some tie or are dominated."""
    packages = {tuple(draw.choice([0, 1, 1, 2, 3]) for _ in supply) for _ in range(3)}
    bids = [
        Bid(step * draw.randint(1, 4) * max(1, sum(lots) - draw.randint(0, 1)), lots)
        for lots in sorted(packages)
        if any(lots)
    ]
    draw.shuffle(bids)
    return bids
