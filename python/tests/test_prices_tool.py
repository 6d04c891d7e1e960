"""What the winners pay, as `wdp-office prices` and `auction` find it, beside the definition of the
rule, and by hand.

AUCTIONS in the environment is how many random auctions are priced, by default 1,000.
"""
import functools
import itertools
import json
import math
import os
import random
import re
import subprocess
from collections.abc import Iterable, Mapping, Sequence
from fractions import Fraction
from pathlib import Path
from typing import Any

import priced_auctions
import pytest
import tied_auctions
import wdp as package
from commands import (
    SCHEMA,
    TIED,
    WORKED,
    AuctionFolder,
    CommandResult,
    check_stopped,
    finish,
    parse_rows,
    read_text,
    run,
    run_program,
    start,
    write_solver,
)
from price_judge import format_prices
from priced_auctions import Costs, drawn
from tied_auctions import BIDDERS, Bid, Pool
from trials.program_runs import row
from wdp import certify, prices, rule, solve
from wdp.certify import settling
from wdp.certify.limits import TooLarge
from wdp.folder import Folder

AUCTIONS = int(os.environ.get("AUCTIONS", "1000"))
BLOCK = 25  # random auctions in one test
# how many of the random auctions are of these kinds at least, of each 1,000
KINDS = {
    "in parts": 150,
    "in thirds or less": 20,
    "with pools": 100,
    "with values": 100,
    "with five winners": 100,
}
Groups = Sequence[tuple[int, ...]]  # each of the numbers of its bidders


def list_winners(report: package.Report) -> tuple[tuple[int, int], ...]:
    """The winners of group 1 as the definitions have them."""
    winners = report[0].winners
    return tuple((BIDDERS.index(winner.bidder) + 1, winner.bid) for winner in winners)


@pytest.fixture
def no_solver(monkeypatch: pytest.MonkeyPatch) -> None:
    """A solver that only finds that nobody wins, at once: the search for certificates has to find
    what is better.
    """

    def answer(program: bytes, *options: Any, **others: Any) -> bytes:
        return solve.find_empty_solution(program)

    monkeypatch.setattr(solve, "find_point", answer)


def find_prices(
    wdp: str, auction: tied_auctions.Auction, groups: Groups, ties: bool = False
) -> package.Outcome:
    text = tied_auctions.input_text(auction, groups)
    asked = package.Auction.from_text(text, program=wdp)
    return asked.prices(asked.certify(ties=ties), "highs")


def read_prices(outcome: package.Outcome) -> package.Prices:
    assert outcome.report.prices is not None
    return outcome.report.prices


def list_exact(outcome: package.Outcome) -> list[Fraction]:
    return list(read_prices(outcome).exact.values())


def print_prices(wdp: str, outcome: package.Outcome) -> str:
    """What `wdp verify` prints of the prices."""
    verified = run_program(wdp, "verify", outcome.audit).decode()
    match = re.search(r"(?m)^prices\n(.*\n)*?(?=unique\n|tie\n|no other\n|\Z)", verified)
    assert match, verified
    return match[0]


def check_rule(wdp: str, auction: tied_auctions.Auction, groups: Groups) -> None:
    """The prices of an auction are those of the rule, by its definition."""
    outcome = find_prices(wdp, auction, groups)
    paid = read_prices(outcome)
    costs = Costs(auction, list_winners(outcome.report))
    assert costs.is_best
    assert costs.fault_of(list(paid.exact.values())) is None
    assert paid.paid == {name: math.ceil(price) for name, price in paid.exact.items()}
    assert paid.is_by_rule
    assert outcome.limit is None
    assert print_prices(wdp, outcome) == format_prices(paid.exact) + "by the rule\n"
    listed = ["+".join(group.names) or "-" for group in outcome.report]
    assert listed[: len(groups)] == [tied_auctions.names_of(group) for group in groups]


@pytest.mark.usefixtures("no_solver")
@pytest.mark.parametrize("first", range(0, AUCTIONS, BLOCK))
def test_prices_of_random_auctions_are_those_of_the_rule(wdp: str, first: int) -> None:
    for number in range(first, first + BLOCK):
        auction, groups = drawn(number)
        with row(f"auction {number}: {tied_auctions.input_text(auction, groups)}"):
            check_rule(wdp, auction, groups)


def list_gaps(costs: Costs) -> dict[rule.Group, int]:
    """What each group has to pay above what its winners would pay alone."""
    return {
        frozenset(group): cost - sum(costs.alone[place] for place in group)
        for group, cost in costs.costs.items()
    }


def test_what_the_random_auctions_are() -> None:
    """(Here by the costs of all groups, so that nothing is solved.)"""
    counted = dict.fromkeys(KINDS, 0)
    for number in range(1000):
        auction, _ = drawn(number)
        won = max(
            priced_auctions.feasible(auction),
            key=functools.partial(tied_auctions.total, auction),
        )
        above = rule.find_prices_above(list_gaps(Costs(auction, won)), len(won)).above
        for kind, is_so in priced_auctions.kinds_of(auction, won, above).items():
            counted[kind] += is_so
    assert {kind: count for kind, count in counted.items() if count < KINDS[kind]} == {}


def has_one_award(auction: tied_auctions.Auction) -> bool:
    """Whether nobody else can win with the greatest total."""
    allocations = priced_auctions.feasible(auction)
    totals = [tied_auctions.total(auction, allocation) for allocation in allocations]
    return totals.count(max(totals)) == 1


def find_with_one_award(most: int) -> list[int]:
    """The first of the random auctions in which nobody else can win with the greatest total."""
    numbers = (number for number in itertools.count() if has_one_award(drawn(number)[0]))
    return list(itertools.islice(numbers, most))


WITH_ONE_AWARD = find_with_one_award(200)


def check_another_order(wdp: str, number: int) -> None:
    """The same bidders win, and pay the same, if they are in another order."""
    auction, _ = drawn(number)
    other, order = priced_auctions.permuted(auction, random.Random(number))
    first = find_prices(wdp, auction, [()], ties=True)
    again = find_prices(wdp, other, [()], ties=True)
    names = {BIDDERS[index]: BIDDERS[place] for index, place in enumerate(order)}
    for outcome in (first, again):
        assert outcome.report.has_all_awards
        assert len(outcome.report.awards) == 1
        assert read_prices(outcome).is_by_rule
    bids = {names[won.bidder]: won.bid for won in again.report[0].winners}
    assert bids == {won.bidder: won.bid for won in first.report[0].winners}
    exact = {names[name]: price for name, price in read_prices(again).exact.items()}
    assert exact == read_prices(first).exact


@pytest.mark.usefixtures("no_solver")
@pytest.mark.parametrize("first", range(0, len(WITH_ONE_AWARD), BLOCK))
def test_the_order_of_the_rules_changes_nothing(wdp: str, first: int) -> None:
    """Where nobody else can win, the same bidders win, and each pays the same, whatever the
    bidders' order.
    """
    for number in WITH_ONE_AWARD[first : first + BLOCK]:
        with row(f"auction {number}"):
            check_another_order(wdp, number)


Form = list[tuple[int, tuple[int, ...]]]  # of each bid the amount and the package


def make_auction(
    forms: Iterable[Form],
    supply: tuple[int, ...],
    *,
    values: tuple[int, ...] = (),
    reserves: tuple[int, ...] = (),
    pools: Sequence[Pool] = (),
) -> tied_auctions.Auction:
    nothing = (0,) * len(supply)
    return tied_auctions.Auction(
        version=3,
        supply=supply,
        values=values or nothing,
        pools=list(pools),
        forms=[[Bid(amount, lots) for amount, lots in form] for form in forms],
        reserves=reserves or nothing,
    )


def make_singles(amount: int) -> list[Form]:
    """Three bidders, each of whom wants a lot of its own."""
    return [[(amount, (1, 0, 0))], [(amount, (0, 1, 0))], [(amount, (0, 0, 1))]]


def make_pairs(amount: int) -> list[Form]:
    """Three bidders, each of whom wants two of three lots."""
    return [[(amount, (1, 1, 0))], [(amount, (0, 1, 1))], [(amount, (1, 0, 1))]]


# Alpha and Beta have a lot each, and Gamma wants both.
TWO: list[Form] = [[(20, (1, 0))], [(20, (0, 1))], [(10, (1, 1))]]
WORKED_FORMS: list[Form] = [
    [(30, (1, 0)), (50, (2, 1)), (28, (1, 1))],
    [(20, (1, 0)), (45, (3, 0))],
    [(12, (0, 1))],
]
THREE_ALIKE = make_auction([*make_singles(20), *make_pairs(15)], (1, 1, 1))
WORKED_AUCTION = make_auction(WORKED_FORMS, (2, 1), reserves=(10, 5))

# Auctions, and the exact prices of their winners, worked by hand from the definitions.
BY_HAND = {
    # each two cost 15, and nobody alone costs anything
    "three alike": (THREE_ALIKE, "15/2 15/2 15/2"),
    "whole": (make_auction([*make_singles(40), *make_pairs(30)], (1, 1, 1)), "15 15 15"),
    # Beta and Gamma cost 20, and alone they would pay their reserves of 10 and 5
    "worked": (WORKED_AUCTION, "10 25/2 15/2"),
    "nothing is wanted twice": (make_auction(TWO[:2], (1, 1)), "0 0"),
    "halves": (make_auction(TWO, (1, 1)), "5 5"),
    # alone Alpha would pay its reserve of 4: each pays 3 more
    "reserve": (make_auction(TWO, (1, 1), reserves=(4, 0)), "7 3"),
    "reserve alone": (make_auction(TWO[:2], (1, 1), reserves=(4, 3)), "4 3"),
    # alone Alpha costs the 3 that its lot is worth unsold, and both cost 10
    "value": (make_auction(TWO, (1, 1), values=(3, 0), reserves=(3, 0)), "13/2 7/2"),
    # the pool has room for Gamma only if both others win nothing
    "pool": (
        make_auction(
            [[(20, (1, 0, 0))], [(20, (0, 1, 0))], [(15, (0, 0, 1))]],
            (1, 1, 1),
            pools=[Pool(2, (1, 1, 2))],
        ),
        "15/2 15/2",
    ),
    # Beta's first bid is in no program, and brings as much as its second one
    "dropped bid": (make_auction([[(12, (2,))], [(6, (2,)), (6, (1,))]], (2,)), "6"),
    "one winner": (make_auction([[(20, (1,))], [(12, (1,))]], (1,)), "12"),
    "no winner": (make_auction([[(20, (2,))]], (1,)), ""),
}


@pytest.mark.parametrize("auction, wanted", BY_HAND.values(), ids=BY_HAND)
def test_prices_by_hand(wdp: str, auction: tied_auctions.Auction, wanted: str) -> None:
    outcome = find_prices(wdp, auction, [()])
    exact = list_exact(outcome)
    assert " ".join(map(str, exact)) == wanted
    assert Costs(auction, list_winners(outcome.report)).fault_of(exact) is None
    paid = read_prices(outcome)
    assert print_prices(wdp, outcome) == format_prices(paid.exact) + "by the rule\n"
    by_hand = [Fraction(price) for price in wanted.split()]
    assert paid.total == sum(map(math.ceil, by_hand))
    assert paid.exact_total == sum(by_hand)


@pytest.mark.parametrize("groups", [[(), (3,), (3,)], [(), (3,), (2, 3), (2, 3), (3,)]])
def test_a_group_may_be_listed_twice(wdp: str, groups: Groups) -> None:
    paid = read_prices(find_prices(wdp, WORKED_AUCTION, groups))
    assert paid.is_by_rule
    assert list(paid.paid.values()) == [10, 13, 8]


WORTH = 10_000 * 10**12  # of the lots of a category that has a value, if they aren't sold


def format_dear(amounts: Sequence[int], valued: int) -> str:
    """An auction in which each of these bidders but the last wants a lot of `Wanted`, and the last
    one all of them; and nobody wants the lots of so many other categories, whose lots are worth as
    much as any may be.
    """
    names = BIDDERS[: len(amounts)]
    quantities = [1] * (len(amounts) - 1) + [max(1, len(amounts) - 1)]
    others = [f"Valued{number}" for number in range(valued)]
    lines = ["%rules", "rules,2,1,,,"]
    lines += [f"category,{name},10000,1,0,1000000000000" for name in others]
    lines += [f"category,Wanted,{len(amounts) - 1},1,1,0"]
    lines += [f"bidder,{name},10000,1,," for name in names]
    for name, amount, quantity in zip(names, amounts, quantities, strict=True):
        lines += ["%form", ",".join([name, *others, "Wanted"])]
        lines += [",".join([str(amount), *("0" for _ in others), str(quantity)])]
    return "".join(f"{line}\n" for line in [*lines, "%groups", "-"])


def price_text(wdp: str, text: str) -> package.Outcome:
    asked = package.Auction.from_text(text, program=wdp)
    return asked.prices(asked.certify(), "highs")


def test_prices_of_the_rule_if_all_lots_are_worth_much(wdp: str) -> None:
    """Five winners share what the sixth bidder offers, so each pays a fifth. In fifths of a pound
    the lots of the other categories are worth more than 10^18.
    """
    outcome = price_text(wdp, format_dear([20, 20, 20, 20, 20, 21], valued=31))
    assert 31 * WORTH * 5 > 10**18
    assert outcome.limit is None
    assert list_exact(outcome) == [Fraction(21, 5)] * 5
    exact = dict.fromkeys(BIDDERS[:5], Fraction(21, 5))
    assert print_prices(wdp, outcome) == format_prices(exact) + "by the rule\n"


def test_a_cover_if_all_lots_are_worth_much_in_many_parts(wdp: str) -> None:
    """Beta's bid makes Alpha pay 20. A price that is a thousandth higher covers all groups, though
    it isn't that of the rule; one that is a thousandth lower doesn't.
    """
    assert WORTH * 1000 > 10**18
    audit = price_text(wdp, format_dear([30, 20], valued=1)).audit
    without_rule, lines = re.subn(rb"%rule\n(?:[^%].*\n)+", b"", audit)
    assert lines == 1
    cover = re.compile(rb"%cover\n(?:[^%].*\n)+")

    def verify(text: bytes, thousandths: int) -> CommandResult:
        """Of an audit in which Alpha pays so much, with a certificate that the judge took."""
        line = f"Alpha {thousandths}/1000\n".encode()
        text, count = re.subn(rb"(?<=%prices\n)Alpha 20\n", line, text)
        assert count == 1
        text, count = cover.subn(b"%%cover\nbound 1 C2 %d\n" % max(thousandths, 20_000), text)
        assert count == 1
        words = {"stdin": subprocess.PIPE, "stdout": subprocess.PIPE, "stderr": subprocess.PIPE}
        return finish(start([wdp, "verify"], **words), text)

    higher = verify(without_rule, 20_001)
    assert (higher.status, higher.err) == (0, "")
    assert higher.out.endswith("prices\nAlpha 21 20001/1000\nsum 21 20001/1000\n")
    assert verify(audit, 20_001).err == "wdp: rule: 14 NotLeast\n"
    assert verify(without_rule, 19_999).err == "wdp: cover: 9 NotShown at line 1\n"


# The exact prices of the worked example are beyond a limit in turn: two parts of a pound, a weight
# or a price in parts of two digits, four groups.
LIMITS = [
    ("MOST_PARTS", 1, "they have 2 parts of a pound, which is above 1"),
    ("MOST_DIGITS", 1, "the number 25 has more than 1 digits"),
    ("MOST_GROUPS", 3, "with each winner alone there are more than 3 groups"),
    ("MOST_GROUPS", 4, "with what binds them there are more than 4 groups"),
]


@pytest.mark.parametrize("name, most, why", LIMITS, ids=[why for *_, why in LIMITS])
def test_beyond_a_limit_prices_are_rounded_up_and_only_cover(
    wdp: str, monkeypatch: pytest.MonkeyPatch, name: str, most: int, why: str
) -> None:
    monkeypatch.setattr(prices, name, most)
    outcome = find_prices(wdp, WORKED_AUCTION, [()])
    paid = read_prices(outcome)
    assert outcome.limit == why
    assert paid.paid == paid.exact
    assert not paid.is_by_rule
    assert b"%rule\n" not in outcome.audit.replace(b"%rules\n", b"")
    costs = Costs(WORKED_AUCTION, list_winners(outcome.report))
    sums = list(paid.paid.values())
    for group, cost in costs.costs.items():
        assert sum(sums[place] for place in group) >= cost
    assert print_prices(wdp, outcome) == format_prices(paid.paid)


def limit_certificates(monkeypatch: pytest.MonkeyPatch, most: int) -> None:
    """No certificate has room for a column that costs more."""
    settle = settling.settle

    def refuse(problem: Any, *options: Any, **others: Any) -> Any:
        if problem.layout.largest_cost > most:
            raise TooLarge("too large")
        return settle(problem, *options, **others)

    monkeypatch.setattr(settling, "settle", refuse)


def test_a_certificate_that_has_no_room_for_exact_prices(
    wdp: str, monkeypatch: pytest.MonkeyPatch
) -> None:
    """They are rounded up."""
    limit_certificates(monkeypatch, 50)
    outcome = find_prices(wdp, WORKED_AUCTION, [()])
    paid = read_prices(outcome)
    assert outcome.limit == "too large"
    assert not paid.is_by_rule
    assert list(paid.paid.values()) == [10, 13, 8]


def test_a_certificate_that_has_no_room_for_any_prices(
    wdp: str, monkeypatch: pytest.MonkeyPatch
) -> None:
    limit_certificates(monkeypatch, 1)
    with pytest.raises(package.Refused, match="too large"):
        find_prices(wdp, WORKED_AUCTION, [()])


# The rule itself, on gaps of groups: whatever floating point proposes, whole numbers find the same
# prices and what shows them.
Gaps = dict[rule.Group, int]


def draw_gaps(draw: random.Random, count: int, unit: int) -> Gaps:
    return {
        frozenset(draw.sample(range(count), draw.randint(2, min(count, 6)))): draw.randint(1, unit)
        for _ in range(3 * count)
    }


def check_shown(gaps: Gaps, count: int, found: rule.Rule) -> None:
    """What shows prices does: they cover all gaps, and none are lower or nearer."""
    for winner in range(count):
        of_least = [weight for group, weight in found.least.items() if winner in group]
        of_near = [weight for group, weight in found.near.items() if winner in group]
        assert sum(of_least) == 1
        assert sum(of_near) == found.above[winner] + found.push
    for group in {*found.least, *found.near}:
        assert rule.sum_prices(group, found.above) == (gaps[group] if len(group) > 1 else 0)
    assert all(rule.sum_prices(group, found.above) >= gap for group, gap in gaps.items())
    assert min([*found.least.values(), *found.near.values(), *found.above, found.push]) >= 0


@pytest.mark.parametrize("count, unit", [(4, 5), (6, 100), (12, 10**12), (20, 10**4)])
def test_whole_numbers_decide_which_groups_bind(
    monkeypatch: pytest.MonkeyPatch, count: int, unit: int
) -> None:
    draw = random.Random(count)

    def propose(needs: Mapping[rule.Group, int], winners: int) -> list[rule.Group]:
        return draw.choices(list(needs), k=size)

    for _ in range(5):
        gaps = draw_gaps(draw, count, unit)
        found = rule.find_prices_above(gaps, count)
        check_shown(gaps, count, found)
        for size in (0, 1, count, 2 * count):
            # nothing, too little, too much, what binds nobody, and what follows from others
            with monkeypatch.context() as patched:
                patched.setattr(rule, "propose_groups", propose)
                again = rule.find_prices_above(gaps, count)
            assert again.above == found.above
            check_shown(gaps, count, again)


def test_many_winners_and_large_amounts() -> None:
    gaps = draw_gaps(random.Random(1), 60, 10**12)
    check_shown(gaps, 60, rule.find_prices_above(gaps, 60))


# what docs/OFFICE.md shows of the prices of the worked example
TABLE = read_text("docs", "OFFICE.md").split("prices worked --quiet 2> printed.txt\n")[1]
TABLE = TABLE.split("```")[0]
ADDED = """\
group 5 Gamma
Alpha 2 50
total 50
cost 0
prices
Alpha 10
Beta 13 25/2
Gamma 8 15/2
sum 31 30
by the rule
"""


def run_prices(*arguments: object) -> CommandResult:
    # (what a solver starts is ended by a process that is forked, which pytest isn't to be)
    return run("prices", *arguments, stdin=subprocess.DEVNULL)


def check_table(*arguments: object) -> None:
    """The command prints the table of the worked example."""
    seen = run_prices(*arguments)
    assert seen.status == 0, seen
    assert seen.out == TABLE


@pytest.fixture
def unpriced(auction: AuctionFolder) -> AuctionFolder:
    """An auction without prices."""
    auction.read_messages("--no-prices")
    return auction


def test_without_prices(unpriced: AuctionFolder) -> None:
    assert b"%prices" not in unpriced.read("audit.txt")
    assert not unpriced.has("prices.txt")


def test_an_audit_gets_prices(unpriced: AuctionFolder, tmp_path: Path) -> None:
    """The groups that are added come after those asked for; what has prices gets the same again."""
    path = tmp_path / "priced.txt"
    for award in (unpriced.where / "audit.txt", path):
        check_table(award, "--output", path, "--replace")
        verified = run_program(unpriced.wdp, "verify", path.read_bytes())
        assert verified == unpriced.read("report.txt") + ADDED.encode()
    assert path.read_bytes().endswith(WORKED + b"Gamma\n")


def test_a_folder_gets_the_prices_of_its_audit(unpriced: AuctionFolder, tmp_path: Path) -> None:
    report = unpriced.read("report.txt")
    path = tmp_path / "priced.txt"
    check_table(unpriced.where / "audit.txt", "--output", path)
    check_table(unpriced.where)
    assert unpriced.read_outcome() == (report, path.read_bytes())


def test_auction_finds_what_prices_finds(unpriced: AuctionFolder) -> None:
    check_table(unpriced.where)
    before = unpriced.read_outcome()
    text = unpriced.read("prices.txt")
    # what was left there is cut
    unpriced.put("prices.txt", text[: len(text) // 2])
    assert "prices.txt isn't what was left there" in unpriced.read_messages(status=1)
    (unpriced.where / "prices.txt").unlink()
    unpriced.read_messages()
    assert unpriced.read("prices.txt") == text
    assert unpriced.read_outcome() == before


# what an audit of version 1 has of prices
OF_VERSION_1 = b"%prices\nAlpha 10\nBeta 14\nGamma 6\n%cover\nbound 1\n%weights\n1\n4 1\nAlpha 1\n"


def test_an_audit_of_version_1_gets_prices_of_the_rule(
    unpriced: AuctionFolder, tmp_path: Path
) -> None:
    old = tmp_path / "old.txt"
    path = tmp_path / "priced.txt"
    old.write_bytes(OF_VERSION_1 + unpriced.read("audit.txt"))
    check_table(old, "--output", path)
    assert run_program(unpriced.wdp, "verify", path.read_bytes()).endswith(ADDED.encode())


# a line of a group that prices have to cover
FOUND = r"auction: prices: ([\w+]+ costs at least \d+; the prices so far cover [\d /]+ of that)\n"


def test_a_run_that_was_cut_goes_on(auction: AuctionFolder, tmp_path: Path) -> None:
    """The allocation that showed what two of three cost is kept, and what comes of it is the
    same.
    """
    auction.put("input.txt", tied_auctions.input_text(THREE_ALIKE, [()]).encode())
    # only raised programs have no bid of 20; the solver answers the first of them, and fails with
    # the second
    count = f'echo >> {tmp_path}/raised; [ "$(wc -l < {tmp_path}/raised)" = 1 ] || exit 7'
    failing = f'grep -q "OBJ -20$" "$1" || {{ {count}; }}; rest "$@"'
    said = auction.read_messages(*write_solver(tmp_path, failing), status=1)
    before = re.findall(FOUND, said)
    assert len(before) == 1
    assert "no prices; the next run looks for them again" in said
    assert auction.has("prices/1.txt")
    assert not auction.has("prices.txt")
    said = auction.read_messages()
    assert "auction: prices: 1 group found by an earlier run" in said
    after = re.findall(FOUND, said)
    assert len(after) > 1
    again = AuctionFolder(tmp_path / "again", auction.wdp, auction.read("input.txt"))
    assert re.findall(FOUND, again.read_messages()) == before + after
    assert again.read_outcome() == auction.read_outcome()


COMMANDS = 30  # random auctions that the command is run on


def check_command(wdp: str, folder: Path, number: int) -> None:
    """The page of a random auction has the prices of the rule."""
    auction, groups = drawn(number)
    text = tied_auctions.input_text(auction, groups).encode()
    run_of = AuctionFolder(folder / str(number), wdp, text)
    run_of.read_messages("--quiet")
    _, figures = read_published(run_of)
    winners = [bidder for bidder in figures["bidders"] if bidder["bid"]]
    exact = {winner["name"]: Fraction(winner["exact_price"]) for winner in winners}
    verified = run_program(wdp, "verify", run_of.read("audit.txt")).decode()
    assert verified.endswith(format_prices(exact) + "by the rule\n")
    won = tuple((BIDDERS.index(winner["name"]) + 1, winner["bid"]) for winner in winners)
    assert Costs(auction, won).fault_of(list(exact.values())) is None


@pytest.mark.parametrize("first", range(0, COMMANDS, 3))
def test_the_command_on_random_auctions(wdp: str, tmp_path: Path, first: int) -> None:
    for number in range(first, first + 3):
        check_command(wdp, tmp_path, number)


@pytest.mark.parametrize("data", [WORKED, b""], ids=["an input", "nothing"])
def test_what_has_no_prices(tmp_path: Path, data: bytes) -> None:
    cut = tmp_path / "cut.txt"
    path = tmp_path / "priced.txt"
    cut.write_bytes(data)
    said = f"prices: {cut}: it has no certificates, so it is no audit"
    check_stopped(run_prices(cut, "--output", path), said)
    assert not path.exists()


# What a solver says of the program that is raised by the surplus of the first prices, in halves of
# a pound, in which Alpha's first bid costs the 10 that it pays. That nobody wins is worse than the
# award, and the certificate's search goes on; the others say no point of it.
LIES = """
echo "# nobody" > "$2" | found
printf "X1_1 1\\nX1_2 1\\n" > "$2" | none
echo X1_1 nan > "$2" | none
exit 7 | none
kill -9 $$ | none
"""


@pytest.mark.parametrize("lie, outcome", parse_rows(LIES))
def test_a_false_answer_leaves_prices_to_the_next_run(
    auction: AuctionFolder, whole: AuctionFolder, tmp_path: Path, lie: str, outcome: str
) -> None:
    """An award without prices is there, and the next run has them."""
    lying = f'if grep -q "X1_1 OBJ -20$" "$1"; then {lie}; else rest "$@"; fi'
    solver = write_solver(tmp_path, lying)
    said = auction.read_messages("--ties", *solver, status=int(outcome == "none"))
    if outcome == "none":
        assert "no prices; the next run looks for them again" in said
        assert b"%prices" not in auction.read("audit.txt")
        assert auction.read("report.txt") == whole.read("report.txt")
        assert json.loads(auction.read("results/results.json"))["prices"] is None
        auction.read_messages("--ties")
    assert auction.read_outcome() == whole.read_outcome()


# Solutions of group 1 of the worked example that aren't optimal, which has a total of 62, and what
# the groups after it show: without Alpha 32, without Beta 50, without Beta and Gamma 50, and then
# without each other winner alone.
NOT_OPTIMAL = """
X1_1 1 | that of group 2 brings 2 more
X2_1 1⏎X3_1 1 | that of group 3 brings 18 more
X1_1 1⏎X3_1 1 | that of group 3 brings 8 more
"""


@pytest.mark.parametrize("planted, said", parse_rows(NOT_OPTIMAL))
def test_a_solution_of_group_1_that_another_group_shows_not_to_be_optimal(
    unpriced: AuctionFolder, planted: str, said: str
) -> None:
    """Its prices would be above what winners bid, so none are looked for."""
    Folder(unpriced.where).leave("solutions/1.txt", f"{planted}\n".encode())
    for name in ("report.txt", "audit.txt"):
        (unpriced.where / name).unlink()
    messages = unpriced.read_messages(status=1)
    assert f"auction: prices: group 1's solution isn't optimal: {said}\n" in messages
    assert not unpriced.has("prices.txt")


def test_a_solution_of_group_1_that_the_search_for_prices_shows_not_to_be_optimal() -> None:
    """Alpha and Gamma win 42, and no group is listed beside theirs."""
    text = tied_auctions.input_text(WORKED_AUCTION, [()]).encode()
    [program] = package.Auction.from_text(text).compile()
    problem = certify.read_problem(program.text.encode())
    award = prices.Award(text, problem, solutions=[b"X1_1 1\nX3_1 1\n"], listed=["-"])
    award.learn(b"X1_1 1\n")
    why = "group 1's solution isn't optimal: another one brings 20 more"
    with pytest.raises(package.Refused, match=why):
        award.learn(b"X1_1 1\nX2_1 1\nX3_1 1\n")


def read_published(auction: AuctionFolder) -> tuple[str, dict[str, Any]]:
    """The page and results.json, which is as the schema says."""
    figures = json.loads(auction.read("results/results.json"))
    SCHEMA.validate(figures)
    return auction.read("results/results.html").decode(), figures


def test_the_figures_have_the_prices(whole: AuctionFolder) -> None:
    _, figures = read_published(whole)
    assert figures["prices"] == {
        "total": 31,
        "exact_total": "30",
        "is_by_rule": True,
        "groups": [4],
        "reserves": ["Alpha"],
    }


def test_each_bidder_has_its_price(whole: AuctionFolder) -> None:
    _, figures = read_published(whole)
    assert [each["price"] for each in figures["bidders"]] == [10, 13, 8]
    assert [each["exact_price"] for each in figures["bidders"]] == ["10", "25/2", "15/2"]


def test_each_group_has_what_is_paid(whole: AuctionFolder) -> None:
    _, figures = read_published(whole)
    paid = [(each["paid"], each["is_added"]) for each in figures["groups"]]
    assert paid == [(0, False), (10, False), (13, False), (21, False), (8, True)]


PROVED = [
    "no group of bidders, listed or not, pays less than its opportunity cost, and nobody less than"
    " the reserve.",
    "for these winners no sum of exact prices below 30 does this.",
    "of all exact prices of that sum that do this, these are the nearest to what each winner would"
    " pay alone.",
]


@pytest.mark.parametrize("sentence", PROVED)
def test_the_page_says_what_is_proved_of_the_prices(whole: AuctionFolder, sentence: str) -> None:
    page, _ = read_published(whole)
    assert f"<p>Proved: {sentence}</p>" in page


def test_the_table_of_bidders_has_the_prices(whole: AuctionFolder) -> None:
    heading = "bidder,amount,price,exact price,opportunity cost,group,reserve,bid"
    assert whole.read("results/bidders.csv").decode() == (
        f"\ufeff{heading},lots of A,lots of B\n"
        "Alpha,30,10,10,0,2,10,1,1,0\n"
        "Beta,20,13,12 1/2,8,3,10,1,1,0\n"
        "Gamma,12,8,7 1/2,0,5,5,1,0,1\n"
    )


@pytest.mark.parametrize("is_first", [False, True], ids=["groups_last", "groups_first"])
def test_anyone_repeats_the_audit_with_added_groups(
    auction: AuctionFolder, wdp: str, is_first: bool
) -> None:
    """The second of the page's commands leaves the added groups out."""
    if is_first:
        rest, head, groups = WORKED.partition(b"%groups")
        auction.put("input.txt", head + groups + rest.rstrip(b"\n"))
    auction.read_messages()
    page, figures = read_published(auction)
    assert figures["audit"]["added_bytes"] == len("Gamma\n")
    listed = "<dt><code>(.*?)</code></dt><dd><code>(.*?)</code>"
    commands = re.findall(listed, page.replace("&lt;", "<"))
    for command, wanted in commands:
        shell = ["sh", "-c", f'wdp() {{ "{wdp}" "$@"; }}; {command}']
        output = subprocess.check_output(shell, cwd=auction.where / "results", text=True)
        assert output.split()[0] == wanted, command
    assert len(commands) == 3


BELONG = "These prices belong to the winners of this page"


@pytest.fixture(scope="module")
def tied(tmp_path_factory: pytest.TempPathFactory, wdp: str) -> AuctionFolder:
    """An auction in which either of two bidders may win, and pays the 20 that the other one
    bids.
    """
    auction = AuctionFolder(tmp_path_factory.mktemp("tied") / "auction", wdp, TIED)
    assert "proved: these 2 awards, and no other, reach" in auction.read_messages("--ties")
    return auction


def read_winner(auction: AuctionFolder) -> str:
    """The name of the only winner, who pays 20."""
    verified = run_program(auction.wdp, "verify", auction.read("audit.txt"))
    match = re.search(rb"prices\n(\w+) 20\nsum 20\nby the rule\n", verified)
    assert match, verified
    return match[1].decode()


def test_a_tie_is_certified(tied: AuctionFolder) -> None:
    assert tied.read("ties.txt").startswith(b"%tie\nX")
    assert tied.read("audit.txt").count(b"%tie\n") == 1
    assert read_published(tied)[1]["certified"]


def test_prices_of_a_tie_belong_to_the_winners_of_the_page(tied: AuctionFolder) -> None:
    assert read_winner(tied) in ("Alpha", "Beta")
    others = "another award has prices of its own, which may have another sum."
    assert f"{BELONG}; {others}" in read_published(tied)[0]


def test_an_award_that_is_drawn_gets_prices_of_its_own(tied: AuctionFolder, tmp_path: Path) -> None:
    """Those of the first one aren't its own."""
    files = [tied.where / "input.txt", tied.where / "report.txt"]
    award = AuctionFolder(tmp_path / "drawn", tied.wdp)
    path = tmp_path / "priced.txt"
    figures: dict[str, Any] = {}
    for audit, has_prices in ((tied.where / "audit.txt", False), (path, True)):
        words = ["--audit", audit, "--drawn", 2, "--output", award.where / "results"]
        assert run("results", *files, *words, "--replace").status == 0
        page, figures = read_published(award)
        assert figures["drawn"] == 2
        assert (figures["prices"] is not None) == has_prices
        assert (BELONG in page) == has_prices
        written = ["--output", path, "--replace"]
        assert run_prices(award.where / "results/audit.txt", *written).status == 0
    (winner,) = (each["name"] for each in figures["bidders"] if each["bid"])
    assert winner != read_winner(tied)
    assert figures["prices"]["total"] == 20
