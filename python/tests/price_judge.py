"""Whether the parts %prices, %cover and %rule of an audit show what they claim: the definitions alone,
in Python's whole numbers, the judge of tests. docs/REFERENCE.md has the grammar.
"""
import math
import re
from collections.abc import Mapping
from dataclasses import dataclass, replace
from fractions import Fraction

from oracle import Checker

from wdp.results import Report
from wdp.texts import accepted
from wdp.texts.parts import parse_parts
from wdp.texts.tables import split_lines
from wdp.texts.zero_one import FIELD, ZeroOne, read_solution

KINDS = ("prices", "cover", "rule")
NUMBER = re.compile("[0-9]{1,18}")
PRICE = re.compile("([0-9]{1,18})(?:/([0-9]{1,18}))?")
MOST_PARTS = 10**6
MOST_DENOMINATOR = 10**6

Prices = dict[str, Fraction]
Weights = tuple[int, ...]  # of the least sum, and of the nearest prices


class Untrue(ValueError):
    """A part doesn't show what it claims, or can't be read."""


def require(is_so: object, why: str) -> None:
    if not is_so:
        raise Untrue(why)


def list_lines(text: bytes) -> list[list[str]]:
    """The fields of each line that has any and is no comment."""
    lines = (line for line in split_lines(text.decode("latin-1")) if line[:1] != "#")
    return [fields for line in lines if (fields := FIELD.findall(line))]


def parse_price(field: str) -> Fraction:
    match = PRICE.fullmatch(field)
    if match is None:
        raise Untrue("no price")
    denominator = int(match[2] or 1)
    require(1 <= denominator <= MOST_DENOMINATOR, "a denominator")
    return Fraction(int(match[1]), denominator)


def read_denominator(field: str) -> int:
    """The denominator of a price, as it is written."""
    return int(field.partition("/")[2] or 1)


def parse_whole(field: str) -> int:
    require(NUMBER.fullmatch(field), "no number")
    return int(field)


@dataclass(frozen=True)
class PriceRule:
    """The scales, the push, and weights by the numbers of groups and by the names of winners."""

    scale: int
    near_scale: int
    push: int
    groups: Mapping[int, Weights]
    winners: Mapping[str, Weights]


def parse_rule(text: bytes) -> PriceRule:
    head, *lines = list_lines(text) or [[]]
    require(len(head) == 3, "fields of the rule")
    require(all(len(fields) == 3 for fields in lines), "fields of the rule")
    groups: dict[int, Weights] = {}
    winners: dict[str, Weights] = {}
    for place, *fields in lines:
        is_group = bool(NUMBER.fullmatch(place))
        is_twice = int(place) in groups if is_group else place in winners
        require(not is_twice, "a place is there twice")
        weights = tuple(map(parse_whole, fields))
        if is_group:
            groups[int(place)] = weights
        else:
            winners[place] = weights
    scale, near_scale, push = map(parse_whole, head)
    return PriceRule(scale, near_scale, push, groups=groups, winners=winners)


class Audit:
    """An audit whose report is known: the winners of group 1 with amounts and reserves, and the
    groups with their costs. `parts` are those of prices, by their kinds. `is_large` says whether a
    checker that adds up in 128 bits may stop in the cover.
    """

    def __init__(self, data: bytes, program: ZeroOne, report: Report) -> None:
        """`program` is that of group 1, and `report` what is proved of the groups."""
        parts = list(parse_parts(data))
        self.parts = {part.kind: part.text for part in parts if part.kind in KINDS}
        self.program = program
        self.report = report
        text = b"".join(part.head + part.text for part in parts if part.kind in accepted.KINDS)
        self.auction = accepted.read(text, "the input")
        first = next(part.text for part in parts if part.kind == "solution")
        self.ones = read_solution(first, program, "solution 1")
        self.amounts = {winner.bidder: winner.amount for winner in report[0].winners}
        reserves = {each.name: each.reserve for each in self.auction.rules.categories}
        self.reserves = {
            winner.bidder: sum(count * reserves[name] for name, count in winner.lots.items())
            for winner in report[0].winners
        }
        self.unsold = report[0].total - sum(self.amounts.values())
        self.is_large = False

    def read_prices(self) -> tuple[Prices, int]:
        """The prices of the winners, and in how many parts of a pound they are."""
        prices: Prices = {}
        parts = 1
        for fields in list_lines(self.parts["prices"]):
            require(len(fields) == 2, "fields of a price")
            name, price = fields
            require(name in self.amounts and name not in prices, "no winner, or twice")
            prices[name] = parse_price(price)
            parts = math.lcm(parts, read_denominator(price))
            require(parts <= MOST_PARTS, "too many parts")
        require(set(prices) == set(self.amounts), "a winner has no price")
        for name, exact in prices.items():
            is_within = self.reserves[name] <= exact <= self.amounts[name]
            require(is_within, "a price is out of range")
        return {name: prices[name] for name in self.amounts}, parts

    def check_cover(self, prices: Prices, parts: int) -> None:
        """No point of the program in parts, raised by the surplus, has an objective below what all
        lots are worth, less the revenue. What they are worth is the column of no bid, which is
        always 1: it is left out of the costs.
        """
        bidders = self.auction.rules.bidders
        columns = []
        worth = 0
        for column in self.program.columns:
            number = re.fullmatch("X([0-9]+)_[0-9]+", column.name)
            if number is None:
                worth -= parts * column.cost
                columns.append(replace(column, cost=0))
                continue
            name = bidders[int(number[1]) - 1]
            surplus = Fraction(0)
            if name in prices:
                surplus = parts * (self.amounts[name] - prices[name])
            columns.append(replace(column, cost=parts * column.cost + int(surplus)))
        raised = ZeroOne(self.program.rows, columns)
        revenue = parts * (sum(prices.values()) + self.unsold)
        assert raised.compute_objective(self.ones) == worth - revenue
        verdict = Checker(raised).verdict(worth - int(revenue), self.parts["cover"])
        self.is_large = bool(verdict.large_lines)
        require(verdict.fault is None, f"cover: {verdict.fault}")

    def find_alone(self) -> dict[str, int]:
        """What each winner would pay alone, by the first group of it alone."""
        costs: dict[str, int] = {}
        for group in self.report:
            if len(group.names) == 1:
                costs.setdefault(group.names[0], group.cost)
        require(set(self.amounts) <= set(costs), "a winner isn't listed alone")
        return {name: max(costs[name], self.reserves[name]) for name in self.amounts}

    def check_rule(self, prices: Prices, parts: int) -> None:
        """Each weight is on a group or a reserve that is paid and no more, and the weights show
        that the sum is the least, and that the prices are the nearest.
        """
        rule = parse_rule(self.parts["rule"])
        require(rule.scale >= 1 and rule.near_scale >= 1, "a scale is 0")
        require(all(1 <= number <= len(self.report) for number in rule.groups), "no such group")
        require(set(rule.winners) <= set(prices), "no such winner")
        for number, weights in rule.groups.items():
            group = self.report[number - 1]
            paid = sum(prices.get(name, 0) for name in group.names)
            is_tight = not any(weights) or paid <= group.cost
            require(is_tight, "a group with a weight pays more")
        for name, weights in rule.winners.items():
            is_tight = not any(weights) or prices[name] <= self.reserves[name]
            require(is_tight, "a winner with a weight pays more")
        alone = self.find_alone()
        for name, price in prices.items():
            least, near = rule.winners.get(name, (0, 0))
            for number, weights in rule.groups.items():
                if name in self.report[number - 1].names:
                    least += weights[0]
                    near += weights[1]
            require(least == rule.scale, "least")
            pulled = rule.near_scale * parts * (price - alone[name]) + rule.push
            require(pulled == near, "nearest")

    def format_answer(self) -> str:
        """What `wdp verify` prints of the prices; Untrue if it has to refuse them."""
        prices, parts = self.read_prices()
        self.check_cover(prices, parts)
        answer = format_prices(prices)
        if "rule" in self.parts:
            self.check_rule(prices, parts)
            answer += "by the rule\n"
        return answer


def format_prices(prices: Mapping[str, Fraction | int]) -> str:
    """The lines of exact prices by the winners' names, and of their sum."""
    text = "prices\n"
    total = 0
    for name, price in prices.items():
        exact = f" {price}" if Fraction(price).denominator > 1 else ""
        text += f"{name} {math.ceil(price)}{exact}\n"
        total += math.ceil(price)
    exact_total = sum(prices.values())
    return text + f"sum {total}" + (f" {exact_total}" if exact_total != total else "") + "\n"
