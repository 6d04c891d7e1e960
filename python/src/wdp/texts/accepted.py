"""The auction of an input in which the program found no fault; nothing is judged here."""
from collections.abc import Iterable, Sequence
from dataclasses import dataclass, field

from wdp.texts.parts import list_groups, parse_parts
from wdp.texts.refusals import Refused
from wdp.texts.tables import TableRow

KINDS = ("rules", "form", "groups")


@dataclass(frozen=True)
class Category:
    """A category of lots: how many there are, and the reserve, the points and the value of an
    unsold lot of each.
    """

    name: str
    supply: int
    reserve: int
    points: int
    value: int = 0


@dataclass(frozen=True)
class Pool:
    """A pool: the greatest load that a bidder may win, and the load of a lot of each category that
    is in it.
    """

    name: str
    cap: int
    weights: dict[str, int]


@dataclass(frozen=True, slots=True)
class Bid:
    """A bid: its amount in pounds, and how many lots of each category it is for, in the order of
    the rules.
    """

    amount: int
    lots: tuple[int, ...]


@dataclass
class AcceptedRules:
    """The rules; amounts are whole pounds, and bidders are numbered from 1 in their order.

    Of each bidder's name `eligibilities` has the points, and `sessions` how many there are.
    """

    step: int
    categories: list[Category] = field(default_factory=list)
    bidders: list[str] = field(default_factory=list)
    eligibilities: dict[str, int] = field(default_factory=dict)
    sessions: dict[str, int] = field(default_factory=dict)
    pools: list[Pool] = field(default_factory=list)

    def load(self, pool: Pool, lots: Iterable[int]) -> int:
        """What so many lots of each category are in a pool."""
        pairs = zip(lots, self.categories, strict=True)
        return sum(count * pool.weights.get(category.name, 0) for count, category in pairs)

    def fits(self, lots: Sequence[int]) -> bool:
        """Whether there are so many lots of each category, and room for them in each pool."""
        pairs = zip(lots, self.categories, strict=True)
        if any(count > category.supply for count, category in pairs):
            return False
        return all(self.load(pool, lots) <= pool.cap for pool in self.pools)


@dataclass(frozen=True)
class Accepted:
    """The rules, the bids of each bidder that has a form, by the last one, and the names that each
    group leaves out.
    """

    rules: AcceptedRules
    bids: dict[str, list[Bid]]
    groups: list[list[str]]


def parse_rules(rows: Iterable[TableRow]) -> AcceptedRules:
    """The rules of accepted records; one of several errors, as ValueError, if no program accepts
    them.
    """
    rules = AcceptedRules(step=1)
    for kind, name, *values in (row.values for row in rows):
        if kind == "rules":
            rules.step = int(values[0])
        elif kind == "category":
            rules.categories.append(Category(name, *map(int, values)))
        elif kind == "bidder":
            rules.bidders.append(name)
            rules.eligibilities[name] = int(values[0])
            rules.sessions[name] = int(values[1])
        elif kind == "pool":
            rules.pools.append(Pool(name, cap=int(values[0]), weights={}))
        else:
            pool = next(pool for pool in rules.pools if pool.name == name)
            pool.weights[values[0]] = int(values[1])
    return rules


def parse_form(rows: Iterable[TableRow]) -> tuple[str, list[Bid]]:
    """The bidder of an accepted form, and its bids; errors are those of `parse_rules`."""
    head, *records = (row.values for row in rows)
    bids = [Bid(int(amount), tuple(map(int, lots))) for amount, *lots in records]
    return head[0], bids


def read(data: bytes, source: str) -> Accepted:
    """The auction of an input that the program accepted; Refused if it can't be one."""
    parts = list(parse_parts(data))
    for part in parts:
        if part.kind not in KINDS:
            raise Refused(f"{source}:{part.line}: a part %{part.kind} isn't of an auction's input")
    try:
        rules = parse_rules(next(part.rows() for part in parts if part.kind == "rules"))
        forms = dict(parse_form(part.rows()) for part in parts if part.kind == "form")
        bids = {name: forms[name] for name in rules.bidders if name in forms}
        left_out = [set(line.split("+")) for line in list_groups(data)]
        groups = [[name for name in rules.bidders if name in names] for names in left_out]
        return Accepted(rules, bids, groups)
    except (IndexError, StopIteration, TypeError, ValueError):
        raise Refused(f"{source}: it isn't an input that wdp accepts") from None
