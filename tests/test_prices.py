"""`wdp verify` beside an independent judge of prices (python/tests/price_judge.py), on prices that are true and on others.

Whatever the judge finds true is printed, and nothing else is: a weight or a push that is moved by one, a price by a part of a pound,
a group that doesn't bind, a line that is lost, and what damages of the texts come to. (Which fault is named is shown by cases.)
"""

from __future__ import annotations

import math
import random
import re
from collections.abc import Iterator
from fractions import Fraction

import pytest
import tied_auctions as tied
from commands import run_program
from damage import damage_certificate
from price_judge import KINDS, Audit, Untrue
from priced_auctions import Costs, drawn
from trials.program_runs import done, row, seen

import wdp as package
from wdp import certify, solve
from wdp.texts.parts import parse_parts
from wdp.texts.zero_one import read_program

AUCTIONS = 200  # that are priced
BLOCK = 10  # in one test
DAMAGES = 30  # of each auction
PRICES = 8  # of each auction


class Trial:
    """An audit with prices, and what the program and the judge say of it if its parts of prices are others."""

    def __init__(self, wdp: str, number: int) -> None:
        auction, groups = drawn(number)
        text = tied.input_text(auction, groups)
        asked = package.Auction.from_text(text, program=wdp)
        audit = asked.prices(asked.certify(), "highs").audit
        self.wdp = wdp
        self.number = number
        self.auction = auction
        self.rest = b"".join(it.head + it.text for it in parse_parts(audit) if it.kind not in KINDS)
        self.parts = {it.kind: it.text for it in parse_parts(audit) if it.kind in KINDS}
        self.program = b"* " + run_program(wdp, "compile", text.encode()).split(b"* program ")[1]
        self.first = read_program(self.program)
        self.printed = run_program(wdp, "verify", self.rest)
        self.report = package.Auction.from_text(self.rest, program=wdp).verify([], [])

    def costs(self) -> Costs:
        """What the winners cost, by all that is feasible."""
        winners = self.report[0].winners
        won = ((tied.BIDDERS.index(each.bidder) + 1, each.bid) for each in winners)
        return Costs(self.auction, tuple(won))

    def cover(self, costs: Costs, prices: list[Fraction]) -> bytes:
        """A certificate of the least objective of group 1's program in parts, raised by the surplus of these prices."""
        parts = math.lcm(*(price.denominator for price in prices))
        surplus = {
            bidder: int(parts * (amount - price))
            for bidder, amount, price in zip(costs.winners, costs.amounts, prices)
        }
        problem = certify.read_problem(self.program).raise_costs(surplus, parts)
        first = next(it.text for it in parse_parts(self.rest) if it.kind == "solution")
        return problem.find_optimum(first).certificate

    def try_with(self, **others: bytes | None) -> bool:
        """Whether these parts in the place of its own are true, as the judge and the program agree."""
        parts = {kind: text for kind, text in {**self.parts, **others}.items() if text is not None}
        data = b"".join(b"%%%s\n%s\n" % (kind.encode(), text) for kind, text in parts.items())
        audit = Audit(data + self.rest, self.first, self.report)
        status, out, err = told = seen(self.wdp, ["verify"], data + self.rest)
        try:
            words = audit.format_answer()
        except Untrue as why:
            assert (status, out) == (1, b""), (why, told)
            return False
        if audit.is_large and status == 1:
            assert err.startswith(b"wdp: cover: 1 TooLarge"), told
            return True
        assert told == done(self.printed + words.encode())
        return True


@pytest.fixture(scope="module", params=range(0, AUCTIONS, BLOCK))
def trials(request: pytest.FixtureRequest, wdp: str) -> Iterator[list[Trial]]:
    """A block of audits, which all tests take before the next block is made. The solver only finds that nobody wins, at once: the
    search for certificates has to find what is better."""
    with pytest.MonkeyPatch.context() as patch:
        patch.setattr(
            solve, "find_point", lambda program, *_, **__: solve.find_empty_solution(program)
        )
        yield [Trial(wdp, number) for number in range(request.param, request.param + BLOCK)]


def numbers_moved(text: bytes) -> list[bytes]:
    """The text with a number one more or one less that isn't a line's place."""
    moved = []
    for found in re.finditer(rb"(?<= )[0-9]+", text):
        for number in (int(found[0]) + 1, int(found[0]) - 1):
            if number >= 0:
                moved.append(text[: found.start()] + b"%d" % number + text[found.end() :])
    return moved


def lines_lost(text: bytes) -> list[bytes]:
    lines = text.splitlines(keepends=True)
    return [b"".join(lines[:at] + lines[at + 1 :]) for at in range(len(lines))]


def prices_moved(text: bytes) -> list[bytes]:
    """The text with each price one part more and one less."""
    moved = []
    lines = [line.split() for line in text.splitlines()]
    parts = max((Fraction(price.decode()).denominator for _, price in lines), default=1)
    for at in range(len(lines)):
        for by in (Fraction(1, parts), Fraction(-1, parts)):
            prices = [
                Fraction(price.decode()) + by * (own == at) for own, (_, price) in enumerate(lines)
            ]
            if min(prices) >= 0:
                moved.append(
                    b"".join(
                        b"%s %s\n" % (name, str(price).encode())
                        for (name, _), price in zip(lines, prices)
                    )
                )
    return moved


def test_true_and_false_prices(trials: list[Trial]) -> None:
    for trial in trials:
        with row(f"auction {trial.number}: {trial.parts}"):
            assert trial.try_with()
            assert trial.try_with(rule=None)
            rule = trial.parts["rule"]
            head, *weights = rule.splitlines(keepends=True)
            if weights:  # (without a winner any scale, and any push, is right)
                least, near, push = head.split()
                heads = numbers_moved(b" %s" % least) + numbers_moved(b" %s" % push)
                wrong = [b"%s %s %s\n" % (scale, near, push) for scale in heads[:2]]
                wrong += [b"%s %s %s\n" % (least, near, moved) for moved in heads[2:]]
                wrong = [text + b"".join(weights) for text in wrong] + lines_lost(rule)
                wrong += [head + lines for lines in numbers_moved(b"".join(weights))]
                wrong += [rule + b"%d 1 0\n" % group for group in slack_groups(trial)]
                wrong += [rule + b"%d 0 1\n" % group for group in slack_groups(trial)]
                assert not any(trial.try_with(rule=text) for text in wrong)
                moved = prices_moved(trial.parts["prices"])
                assert not any(trial.try_with(prices=text) for text in moved)
                for text in moved:
                    trial.try_with(prices=text, rule=None)


def slack_groups(trial: Trial) -> list[int]:
    """The listed groups of winners that pay more than their cost, and have no line."""
    found = (line.split() for line in trial.parts["prices"].decode().splitlines())
    prices = {name: Fraction(price) for name, price in found}
    return [
        group.number
        for group in trial.report
        if sum(prices.get(name, Fraction(0)) for name in group.names) > group.cost
    ]


def random_prices(draw: random.Random, costs: Costs) -> list[Fraction]:
    """Prices between reserve and amount, many near to what the winner costs alone."""
    prices = []
    parts = draw.choice([1, 1, 2, 3])
    for reserve, alone, amount in zip(costs.reserves, costs.alone, costs.amounts):
        near = alone + Fraction(draw.randint(-1, 3 * parts), parts)
        price = draw.choice([Fraction(reserve), Fraction(amount), Fraction(alone), near, near])
        prices.append(min(max(price, Fraction(reserve)), Fraction(amount)))
    return prices


def test_a_cover_is_accepted_if_and_only_if_each_group_is_covered(trials: list[Trial]) -> None:
    draw = random.Random(trials[0].number)
    said = set()
    for trial in trials:
        costs = trial.costs()
        names = [winner.bidder for winner in trial.report[0].winners]
        for _ in range(PRICES):
            prices = random_prices(draw, costs)
            is_covering = all(
                sum(prices[at] for at in group) >= cost for group, cost in costs.costs.items()
            )
            text = "".join(f"{name} {price}\n" for name, price in zip(names, prices)).encode()
            with row(f"auction {trial.number}: {text!r}"):
                cover = trial.cover(costs, prices)
                assert trial.try_with(prices=text, cover=cover, rule=None) == is_covering
            said.add(is_covering)
    assert len(said) == 2


def test_damaged_parts(trials: list[Trial]) -> None:
    """Never a false word; some damages leave a part true."""
    draw = random.Random(trials[0].number)
    true = 0
    for trial in trials:
        for damage in range(DAMAGES):
            kind = draw.choice(KINDS)
            seed = f"{trial.number} {damage}"
            text, names = damage_certificate(trial.parts[kind], "prices", seed)
            with row(f"auction {trial.number}, {kind} damaged ({'+'.join(names)}): {text!r}"):
                true += trial.try_with(**{kind: text})
    assert 0 < true < BLOCK * DAMAGES
