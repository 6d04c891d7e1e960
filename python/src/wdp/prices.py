"""What the winners pay, by the rule of clock auctions, and the search for it.

A group is covered if its winners pay at least its opportunity cost. Every allocation shows what the
winners whom it leaves out cost at least. Some allocations give prices; then the program that is
raised by the winners' surplus has a better point, which is a further allocation, or a certificate
shows that it has none, and the prices cover every group. `wdp verify` is the judge of what comes of
it.
"""
from __future__ import annotations

import functools
import math
import re
from collections.abc import Callable, Collection, Iterable, Sequence
from contextlib import nullcontext
from dataclasses import dataclass
from fractions import Fraction
from operator import mul
from pathlib import Path
from typing import TYPE_CHECKING

from wdp import certify, solve
from wdp.certify.limits import TooLarge
from wdp.office.faults import format_number
from wdp.progress import Say, say_nothing
from wdp.rule import Group, Rule, WholeRule, find_prices_above, sum_prices
from wdp.steps import AtOnce
from wdp.texts import accepted
from wdp.texts.refusals import NotSolved, Refused

if TYPE_CHECKING:
    from wdp.certify.problem import Problem

_BID = re.compile(r"X([0-9]+)_([0-9]+)")
_BIDDER_IN_SOLUTION = re.compile(rb"(?m)^X([0-9]+)_")
MOST_GROUPS = 1024
MOST_PARTS = 10**6  # of a pound
MOST_DIGITS = 18


@dataclass(frozen=True)
class _Payment:
    """What each winner pays, in parts of a pound."""

    parts: int
    prices: list[int]

    @classmethod
    def from_exact(cls, prices: Sequence[Fraction]) -> _Payment:
        """These prices, in as many parts of a pound as they need."""
        parts = math.lcm(*(price.denominator for price in prices))
        return cls(parts, [int(price * parts) for price in prices])

    @classmethod
    def round_up(cls, prices: Sequence[Fraction]) -> _Payment:
        """These prices, each rounded up to whole pounds."""
        return cls(1, [math.ceil(price) for price in prices])

    def to_fractions(self) -> list[Fraction]:
        """The prices in pounds."""
        return [Fraction(price, self.parts) for price in self.prices]


@dataclass(frozen=True)
class _Plan:
    """Prices that cover the groups that are known. They are those of the rule for these groups, as
    `text` shows if the groups of `added` follow the listed ones; or these rounded up, if they are
    beyond a limit.
    """

    payment: _Payment
    added: list[str]
    text: str
    limit: str | None = None


@dataclass(frozen=True)
class Priced:
    """The groups that are to be added to the listed ones, and the parts of an audit. If the exact
    prices are beyond a limit, these are rounded up, and only shown to cover every group.
    """

    added: list[str]
    parts: bytes
    limit: str | None


class _BeyondLimit(Refused):
    """Why exact prices can't be written with what shows them."""


@dataclass(frozen=True)
class _Winners:
    """The winners of an allocation in the order of the rules: their numbers there from 1, names,
    and the amounts and reserves of their bids in pounds.
    """

    numbers: list[int]
    names: list[str]
    amounts: list[int]
    reserves: list[int]

    @classmethod
    def read(cls, auction: accepted.Accepted, columns: Iterable[str]) -> _Winners:
        """Those of the columns that are 1."""
        matches = [_BID.fullmatch(column) for column in columns]
        won = [(int(match[1]), int(match[2])) for match in matches if match]
        names = [auction.rules.bidders[bidder - 1] for bidder, _ in won]
        bids = [auction.bids[name][bid - 1] for name, (_, bid) in zip(names, won, strict=True)]
        reserves = [category.reserve for category in auction.rules.categories]
        return cls(
            numbers=[bidder for bidder, _ in won],
            names=names,
            amounts=[bid.amount for bid in bids],
            reserves=[sum(map(mul, bid.lots, reserves)) for bid in bids],
        )

    def format_group(self, group: Group) -> str:
        """The names of a group, joined."""
        return "+".join(self.names[place] for place in sorted(group))


class _KnownCosts:
    """What groups of winners are known to cost at least, in pounds."""

    def __init__(self, winners: _Winners) -> None:
        self._winners = winners
        self._costs: dict[Group, int] = {}

    def __getitem__(self, group: Group) -> int:
        return self._costs[group]

    def learn(self, group: Group, cost: int) -> None:
        """Takes what a group costs at least."""
        if group:
            self._costs[group] = max(cost, self._costs.get(group, cost))

    def are_covered_by(self, prices: Sequence[Fraction]) -> bool:
        """Whether prices cover the groups that are known."""
        return all(sum_prices(group, prices) >= cost for group, cost in self._costs.items())

    def is_reserve(self, group: Group) -> bool:
        """Whether a group is of one winner, whose reserve is above its opportunity cost."""
        if len(group) != 1:
            return False
        return all(self._winners.reserves[place] > self._find_alone(place) for place in group)

    def find_prices(self) -> tuple[list[Fraction], Rule]:
        """The prices of the rule by the groups that are known, and what shows them."""
        while True:
            floors = self._list_floors()
            gaps = {
                group: cost - sum(floors[place] for place in group)
                for group, cost in self._costs.items()
            }
            rule = find_prices_above(gaps, len(floors))
            prices = [floor + more for floor, more in zip(floors, rule.above, strict=True)]
            if not self._learn_from_amounts(prices):
                return prices, rule

    def _find_alone(self, place: int) -> int:
        return self._costs.get(frozenset([place]), 0)

    def _list_floors(self) -> list[int]:
        """What each winner would pay alone."""
        pairs = enumerate(self._winners.reserves)
        return [max(self._find_alone(place), reserve) for place, reserve in pairs]

    def _learn_from_amounts(self, prices: Sequence[Fraction]) -> bool:
        """Whether a price is above the winner's amount. Then what the others of its groups cost
        follows: at least what the group costs, less that amount.
        """
        amounts = self._winners.amounts
        over = [place for place, price in enumerate(prices) if price > amounts[place]]
        for place in over:
            for group, cost in list(self._costs.items()):
                if place in group and sum_prices(group, prices) <= cost:
                    self.learn(group - {place}, cost - amounts[place])
        return bool(over)


class Award:
    """The award of group 1, and what groups of its winners are known to cost at least."""

    def __init__(
        self, data: bytes, problem: Problem, solutions: Sequence[bytes], listed: Sequence[str]
    ) -> None:
        """Of the input, the problem of group 1, and each group's solution with the line of the
        names that it leaves out. Refused if a solution has a greater total than group 1's.
        """
        self.problem = problem
        self.solution = solutions[0]
        ones = self.problem.read_ones(self.solution)
        self._total = -self.problem.program.compute_objective(ones)
        columns = [self.problem.program.columns[place].name for place in sorted(ones)]
        self.winners = _Winners.read(accepted.read(data, "the input"), columns)
        self.places = {bidder: place for place, bidder in enumerate(self.winners.numbers)}
        self.costs = _KnownCosts(self.winners)
        self.listed = [frozenset(line.split("+")) for line in listed]
        for group, (text, names) in enumerate(zip(solutions, self.listed, strict=True), 1):
            self.learn(text, names, called=f"that of group {group}")

    def learn(
        self, solution: bytes, names: Collection[str] = (), *, called: str = "another one"
    ) -> Group:
        """Takes from an allocation what the winners cost at least whom it leaves out, and what
        those of these names do. Gives the former. Refused, with what it is called, if it has a
        greater total than the award: then winners would cost more than they bid.
        """
        ones = self.problem.read_ones(solution)
        won = {self.places.get(int(self.problem.holders[place])) for place in ones}
        winners = list(enumerate(self.winners.names))
        left_out = frozenset(place for place, _ in winners if place not in won)
        asked = frozenset(place for place, name in winners if name in names)
        gain = -self._total - self.problem.program.compute_objective(ones)
        if gain > 0:
            raise Refused(f"group 1's solution isn't optimal: {called} brings {gain:,} more")
        for group in (left_out, asked):
            self.costs.learn(group, gain + sum(self.winners.amounts[place] for place in group))
        return left_out

    def raise_program(self, payment: _Payment) -> Problem:
        """The program in parts, in which each winner's columns cost more by its surplus."""
        surplus = {
            bidder: payment.parts * self.winners.amounts[place] - payment.prices[place]
            for bidder, place in self.places.items()
        }
        return self.problem.raise_costs(surplus, payment.parts)

    def make_plan(self, limit: str | None) -> _Plan:
        """The prices of the rule by the groups that are known, or these rounded up if they are
        beyond a limit, as this one that is known of.
        """
        prices, rule = self.costs.find_prices()
        payment = _Payment.from_exact(prices)
        shown = rule.scale(payment.parts)
        try:
            if limit is not None:
                raise _BeyondLimit(limit)
            self._check_limits(payment, shown)
            added, text = self._format_rule(shown)
        except _BeyondLimit as beyond:
            return _Plan(_Payment.round_up(prices), added=[], text="", limit=beyond.text)
        return _Plan(payment, added=added, text=text)

    def finish(self, plan: _Plan, cover: bytes) -> Priced:
        """What a plan comes to whose prices a certificate shows to cover every group."""
        prices = zip(self.winners.names, plan.payment.to_fractions(), strict=True)
        text = "%prices\n" + "".join(f"{name} {price}\n" for name, price in prices)
        parts = text.encode() + b"%cover\n" + cover + plan.text.encode()
        return Priced(added=plan.added, parts=parts, limit=plan.limit)

    def _check_limits(self, payment: _Payment, shown: WholeRule) -> None:
        """Raises _BeyondLimit if a number of exact prices or of what shows them is too large."""
        parts = payment.parts
        if parts > MOST_PARTS:
            why = f"they have {parts:,} parts of a pound, which is above {MOST_PARTS:,}"
            raise _BeyondLimit(why)
        largest = max([0, *payment.prices, *shown.list_numbers()])
        if len(str(largest)) > MOST_DIGITS:
            raise _BeyondLimit(f"the number {largest:,} has more than {MOST_DIGITS} digits")

    def _format_rule(self, shown: WholeRule) -> tuple[list[str], str]:
        """The groups that show prices beside the listed ones, and the part that does. Raises
        _BeyondLimit if there are too many groups.
        """
        numbers = self._number_groups()
        added: list[str] = []
        of_groups: dict[int, str] = {}
        of_reserves: list[str] = []
        for group in shown.list_groups():
            weights = f"{shown.least.get(group, 0)} {shown.near.get(group, 0)}"
            names = self.winners.format_group(group)
            if self.costs.is_reserve(group):
                of_reserves.append(f"{names} {weights}")
                continue
            left_out = frozenset(self.winners.names[place] for place in group)
            if left_out not in numbers:
                added.append(names)
                numbers[left_out] = len(self.listed) + len(added)
            of_groups[numbers[left_out]] = weights
        if len(self.listed) + len(added) > MOST_GROUPS:
            raise _BeyondLimit(f"with what binds them there are more than {MOST_GROUPS:,} groups")
        lines = [f"{shown.scale} {shown.near_scale} {shown.push}"]
        lines += [f"{number} {of_groups[number]}" for number in sorted(of_groups)]
        return added, "%rule\n" + "".join(f"{line}\n" for line in [*lines, *of_reserves])

    def _number_groups(self) -> dict[frozenset[str], int]:
        """The numbers of the listed groups, by the names that they leave out; of a group that is
        listed twice the first one counts. Raises _BeyondLimit if a winner alone isn't listed.
        """
        numbers: dict[frozenset[str], int] = {}
        for number, names in enumerate(self.listed, 1):
            numbers.setdefault(names, number)
        if any(frozenset([name]) not in numbers for name in self.winners.names):
            raise _BeyondLimit(f"with each winner alone there are more than {MOST_GROUPS:,} groups")
        return numbers


def _forget(solution: bytes) -> None:
    """Keeps no allocation."""


@dataclass
class Search:
    """The search for prices that cover every group: a solver looks for allocations that show what
    further groups cost, and the certificate is the judge.

    Within `at_once` nothing is begun that would have to be put away. `keep` gets each allocation
    that showed something, and `say` a line about it. `limit` is what no exact prices can be within,
    once that is known. The seconds are for each solver's run and each certificate.
    """

    award: Award
    solver: str
    seconds: float | None = None
    at_once: AtOnce = nullcontext
    log: Path | None = None
    say: Say = say_nothing
    keep: Callable[[bytes], None] = _forget
    limit: str | None = None

    def run(self) -> Priced:
        """What the winners pay, with what shows it."""
        while True:
            with self.at_once():
                plan = self.award.make_plan(self.limit)
                raised = self.award.raise_program(plan.payment)
                promising = raised.format_promising()
            answer = functools.cache(self._answer)
            if self._learn(answer(promising), plan):
                continue
            cover = self._find_cover(plan, raised, answer)
            if cover is not None and not self._learn(cover.solution, plan):
                return self.award.finish(plan, cover.certificate)

    def _answer(self, program: bytes) -> bytes | None:
        """A solver's point of a raised program, if it has one in its time."""
        try:
            return solve.find_point(program, self.solver, seconds=self.seconds, log=self.log)
        except NotSolved as failed:
            if failed.status != solve.TIME_OUT:
                raise
            return None

    def _learn(self, solution: bytes | None, plan: _Plan) -> bool:
        """Whether an allocation shows that prices don't cover a group. It is kept then."""
        if solution is None:
            return False
        prices = plan.payment.to_fractions()
        group = self.award.learn(solution)
        if self.award.costs.are_covered_by(prices):
            return False
        cost = self.award.costs[group]
        covered = format_number(sum_prices(group, prices))
        names = self.award.winners.format_group(group)
        self.say(f"{names} costs at least {cost:,}; the prices so far cover {covered} of that")
        self.keep(solution)
        return True

    def _find_cover(
        self, plan: _Plan, raised: Problem, answer: Callable[[bytes], bytes | None]
    ) -> certify.Optimum | None:
        """The certificate that no point of the raised program is better than the award, or of a
        point that is. None if that has no room for exact prices.
        """
        from wdp.certify.settling import settle

        known = self.award.solution

        def ask(turn: int, text: bytes | None) -> bytes | None:
            point = answer(raised.format() if text is None else text)
            if point is None:
                return known
            is_worse = raised.compute_objective(point) > raised.compute_objective(known)
            return known if is_worse else point

        try:
            return settle(raised, ask, seconds=self.seconds, at_once=self.at_once)
        except TooLarge as large:
            if plan.limit is not None:
                raise
            self.limit = large.text
            return None


def list_alone(data: bytes, solution: bytes, listed: Sequence[str]) -> list[str]:
    """The winners of a solution who are no group alone yet, if there may be so many groups; else
    none of them.
    """
    rules = accepted.read(data, "the input").rules
    winners = [rules.bidders[int(number) - 1] for number in _BIDDER_IN_SOLUTION.findall(solution)]
    added = [name for name in winners if name not in listed]
    return added if len(listed) + len(added) <= MOST_GROUPS else []
