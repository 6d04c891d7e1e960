"""Small random auctions in which much ties, and all that can win in them, by the definitions of
docs/REFERENCE.md alone.
"""
import itertools
import random
from collections.abc import Callable, Collection, Iterable, Sequence
from typing import NamedTuple, TypeVar

BIDDERS = "Alpha Beta Gamma Delta Epsilon Zeta Eta Theta Iota Kappa Lambda Mu Nu Xi".split()
CATEGORIES = "ABCDEF"
_Thing = TypeVar("_Thing")
Package = tuple[int, ...]  # how many lots of each category
Winner = tuple[int, int]  # a bidder and a bid of its form, each numbered from 1
Allocation = tuple[Winner, ...]  # of rising bidders
Group = Collection[int]  # the numbers of the bidders that are left out


class Bid(NamedTuple):
    """A bid: its amount, and the lots that it is for."""

    amount: int
    package: Package


class Pool(NamedTuple):
    """A pool: its cap, and what a lot of each category loads it with."""

    cap: int
    weights: tuple[int, ...]


class Auction(NamedTuple):
    """An auction: the version of its rules, lots of each category and what each is worth unsold,
    pools, the bids of each bidder, and reserves of lots.
    """

    version: int
    supply: tuple[int, ...]
    values: tuple[int, ...]
    pools: Sequence[Pool]
    forms: Sequence[Sequence[Bid]]
    reserves: tuple[int, ...] = (0, 0, 0)


def weighed(weights: Iterable[int], quantities: Iterable[int]) -> int:
    """The sum of the quantities by their weights; there may be more weights than quantities."""
    pairs = zip(weights, quantities, strict=False)
    return sum(weight * quantity for weight, quantity in pairs)


def bid_of(auction: Auction, winner: Winner) -> Bid:
    bidder, number = winner
    return auction.forms[bidder - 1][number - 1]


def reserve_of(auction: Auction, bid: Bid) -> int:
    return weighed(auction.reserves, bid.package)


def sold(auction: Auction, allocation: Allocation) -> list[int]:
    """How many lots of each category the winners take together."""
    packages = [bid_of(auction, winner).package for winner in allocation]
    return [sum(package[index] for package in packages) for index in range(len(auction.supply))]


def is_feasible(auction: Auction, allocation: Allocation) -> bool:
    """Whether the lots suffice, and no pool is loaded above its cap."""
    lots = sold(auction, allocation)
    if any(taken > most for taken, most in zip(lots, auction.supply, strict=True)):
        return False
    return all(weighed(pool.weights, lots) <= pool.cap for pool in auction.pools)


def total(auction: Auction, allocation: Allocation) -> int:
    """The amounts, and the value of the lots that are left."""
    pairs = zip(auction.supply, sold(auction, allocation), strict=True)
    left = [most - taken for most, taken in pairs]
    amounts = sum(bid_of(auction, winner).amount for winner in allocation)
    return amounts + weighed(auction.values, left)


def allocations(auction: Auction, left_out: Group = ()) -> list[Allocation]:
    """All that is feasible if these bidders are left out, whatever `wdp` keeps of their bids."""
    choices: list[list[Winner | None]] = []
    for bidder, form in enumerate(auction.forms, 1):
        choices.append([None])
        if bidder not in left_out:
            choices[-1] += [(bidder, number) for number in range(1, len(form) + 1)]
    combinations = [
        tuple(winner for winner in chosen if winner) for chosen in itertools.product(*choices)
    ]
    return [allocation for allocation in combinations if is_feasible(auction, allocation)]


def greatest(auction: Auction, left_out: Group = ()) -> list[Allocation]:
    """All allocations of the greatest total."""
    feasible = allocations(auction, left_out)
    most = max(total(auction, allocation) for allocation in feasible)
    return [allocation for allocation in feasible if total(auction, allocation) == most]


def subsets(things: Sequence[_Thing]) -> list[tuple[_Thing, ...]]:
    """All choices of some of these things, the smallest first."""
    sizes = range(len(things) + 1)
    return [some for size in sizes for some in itertools.combinations(things, size)]


def cost_of(auction: Auction, won: Allocation, group: Group) -> int:
    """What bidders cost the others if these win."""
    amounts = sum(bid_of(auction, winner).amount for winner in won if winner[0] in group)
    return total(auction, greatest(auction, group)[0]) - (total(auction, won) - amounts)


def names_of(bidders: Iterable[int]) -> str:
    """A group as a line of an input names it."""
    return "+".join(BIDDERS[bidder - 1] for bidder in sorted(bidders)) or "-"


def winners_text(auction: Auction, allocation: Allocation) -> str:
    """The winners and the total, as `wdp map` prints them."""
    lines = []
    for bidder, number in allocation:
        amount = bid_of(auction, (bidder, number)).amount
        lines.append(f"{BIDDERS[bidder - 1]} {number} {amount}\n")
    return "".join(lines) + f"total {total(auction, allocation)}\n"


def report_text(auction: Auction, groups: Iterable[Group], won: Sequence[Allocation]) -> str:
    """What `wdp report` prints of the groups and of what is won without each."""
    text = ""
    for number, (group, allocation) in enumerate(zip(groups, won, strict=True), 1):
        winners = winners_text(auction, allocation)
        cost = cost_of(auction, won[0], group)
        text += f"group {number} {names_of(group)}\n{winners}cost {cost}\n"
    return text


def input_text(auction: Auction, groups: Iterable[Group]) -> str:
    """The input of an auction with these groups."""
    names = BIDDERS[: len(auction.forms)]
    lines = _list_rules(auction, names)
    for name, bids in zip(names, auction.forms, strict=True):
        lines += ["%form", ",".join([name, *CATEGORIES[: len(auction.supply)]])]
        lines += [",".join(map(str, (bid.amount, *bid.package))) for bid in bids]
    return "".join(f"{line}\n" for line in [*lines, "%groups", *map(names_of, groups)])


def _list_rules(auction: Auction, names: Sequence[str]) -> list[str]:
    """The lines of the rules, in which a value of unsold lots is from version 2 on."""
    has_values = auction.version > 1
    end = "," if has_values else ""
    lines = ["%rules", f"rules,{auction.version},1,,{end}"]
    for index, supply in enumerate(auction.supply):
        line = f"category,{CATEGORIES[index]},{supply},{auction.reserves[index]},1"
        lines.append(f"{line},{auction.values[index]}" if has_values else line)
    for number, pool in enumerate(auction.pools, 1):
        lines.append(f"pool,Pool{number},{pool.cap},,,")
        for name, weight in zip(CATEGORIES, pool.weights, strict=False):
            if weight:
                lines.append(f"member,Pool{number},{name},{weight},,")
    return lines + [f"bidder,{name},100,1,{end}" for name in names]


def random_auction(draw: random.Random, most: int = 4) -> Auction:
    """An auction with so many bids in a form at most."""
    version = draw.choice([1, 1, 2, 3, 3])
    size = draw.choice([1, 1, 1, 10**9])
    kinds = range(draw.randrange(1, 4))
    supply = tuple(draw.randrange(1, 4) for _ in kinds)
    values = tuple(size * draw.choice([0, 0, 1, 2]) if version > 1 else 0 for _ in kinds)
    pools = [_draw_pool(draw, len(kinds)) for _ in range(draw.randrange(3))]
    draw_package = _draw_too_large_package if draw.random() < 0.05 else _draw_package
    forms = []
    for _ in range(draw.randrange(2, 5)):
        packages = _draw_amounts(
            draw, supply, values, size=size, draw_package=draw_package, most=most
        )
        forms.append(_draw_form(draw, packages, values, most=most))
    return Auction(
        version=version,
        supply=supply,
        values=values,
        pools=pools if version == 3 else [],
        forms=forms,
    )


def with_reserves(auction: Auction, draw: random.Random) -> Auction:
    """An auction with reserves of lots that each bid meets."""
    bids = [bid for form in auction.forms for bid in form]
    most = min((bid.amount // sum(bid.package) for bid in bids), default=0)
    reserves = tuple(draw.randrange(most + 1) for _ in auction.supply)
    return auction._replace(reserves=reserves)


def _draw_pool(draw: random.Random, count: int) -> Pool:
    """A pool of so many categories."""
    cap = draw.randrange(0, 7)
    return Pool(cap, tuple(draw.choice([0, 1, 1, 2]) for _ in range(count)))


def _draw_package(draw: random.Random, supply: Package) -> Package:
    """Some lots, of a category also more than there are."""
    package = tuple(draw.choice([0, 0, 1, 1, 1, 2, 3]) for _ in supply)
    return package if any(package) else _draw_package(draw, supply)


def _draw_too_large_package(draw: random.Random, supply: Package) -> Package:
    """More lots than there are, so that nobody wins."""
    category = draw.randrange(len(supply))
    return tuple(
        lots + 1 if index == category else draw.randrange(2) for index, lots in enumerate(supply)
    )


def _draw_amounts(
    draw: random.Random,
    supply: Package,
    values: tuple[int, ...],
    *,
    size: int,
    draw_package: Callable[[random.Random, Package], Package],
    most: int,
) -> dict[Package, int]:
    """Packages with amounts, of any net from -1 on, most of few amounts."""
    amounts: dict[Package, int] = {}
    for _ in range(draw.choice([0, 1, 1, 2, 2, 3, 4]) * most // 4):
        package = draw_package(draw, supply)
        net = size * draw.choice([-1, 0, 0, 1, 2, 2, 3, 3, 4])
        amounts[package] = max(size, weighed(values, package) + net)
    return amounts


def _draw_form(
    draw: random.Random, amounts: dict[Package, int], values: tuple[int, ...], *, most: int
) -> list[Bid]:
    """Bids of these packages, and of larger ones of the same net, which nobody needs."""
    count = min(len(amounts), draw.choice([0, 0, 1, 2]), most - len(amounts))
    for package in draw.sample(list(amounts), count):
        category = draw.randrange(len(package))
        wider = list(package)
        wider[category] += 1
        amounts.setdefault(tuple(wider), amounts[package] + values[category])
    bids = [Bid(amount, package) for package, amount in amounts.items()]
    draw.shuffle(bids)
    return bids
