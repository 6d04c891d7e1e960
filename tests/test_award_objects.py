"""`wdp verify --json`, `report --json` and `forms --json` beside a judge of each figure (python/tests/award_judge.py).

Of random auctions the lines are the judge's, byte for byte, for any number of workers, and what is printed without --json is made of
them. Prices are those of the rule or others that cover every group. Nothing is printed of an audit that is refused. Each object, and
each one of a case, is as docs/award.schema.json says, and each member there is of some object.
"""

from __future__ import annotations

import json
import math
import random
import re
from collections import Counter
from collections.abc import Iterable, Iterator
from dataclasses import dataclass
from fractions import Fraction
from functools import cache, partial
from typing import Any

import jsonschema
import pytest
from award_auctions import AuctionTexts, draw_auction
from award_judge import Judge, Object, Outcome, format_objects, has_column, list_others
from commands import read_text, run_program
from damage import damage_certificate
from priced_auctions import feasible
from tied_auctions import Allocation, Auction, Bid, bid_of
from trials.cases import list_cases, read_case
from trials.program_runs import Seen, done, row, seen

import wdp as package
from wdp import certify, solve

AUCTIONS = 300
BLOCK = 10  # in one test
DAMAGES = 6  # of each audit
WORKERS = ("1", "4", "64")
COMMANDS = ("verify", "report", "forms")
# what prices an audit has: none, those of the rule, these without what shows that they are, or others
PRICES = ("none", "rule", "rule", "unruled", "others")
PART = re.compile(rb"^%(\w+)\n(.*?)(?=^%|\Z)", re.DOTALL | re.MULTILINE)
COLUMN = re.compile(r"X([0-9]+)_([0-9]+) 1")
SCHEMA = json.loads(read_text("docs", "award.schema.json"))
VALIDATOR = jsonschema.Draft202012Validator(SCHEMA)

# of so many auctions at least each of this is true
LEAST = {
    "a pool with a load": 40,
    "two pools with different loads": 20,
    "two winners with different reserves": 40,
    "a winner of lots of several categories": 40,
    "some lots of a category are sold, and more or fewer aren't": 40,
    "lots that are left are worth something": 40,
    "a reserve binds a price": 40,
    "a group binds a price": 40,
    "a group that was added binds a price": 10,
    "a group of several binds a price": 20,
    "a group with a winner doesn't bind its price": 40,
    "a winner alone pays its reserve, above its cost": 20,
    "a winner alone pays its cost, which is its reserve": 10,
    "a winner isn't listed alone": 20,
    "a price is a fraction": 25,
    "the exact sum is whole, and less is rounded up": 3,
    "prices of the rule": 80,
    "other prices": 80,
    "no prices": 40,
    "a group is listed twice": 60,
    "a group of nobody that wins": 40,
    "the empty group comes again": 10,
    "names of a group in another order": 40,
    "a bidder without a form": 40,
    "a form without a bid": 20,
    "a form that is replaced": 40,
    "nobody wins": 10,
    "unique": 40,
    "no other": 40,
    "and more": 5,
    "another award, and nothing on further ones": 8,
    "a group costs more by another award": 15,
    "a group costs less by another award": 20,
    "a negative cost": 40,
    "a step above 1": 80,
}


@dataclass(frozen=True)
class Audit:
    """An auction, and the parts of an audit of it, each with its kind."""

    source: AuctionTexts
    parts: list[tuple[str, bytes]]

    def text(self) -> bytes:
        return b"".join(b"%%%s\n%s" % (kind.encode(), text) for kind, text in self.parts)

    def texts(self, kind: str) -> list[bytes]:
        return [text for own, text in self.parts if own == kind]

    def without(self, *kinds: str) -> Audit:
        return Audit(self.source, [part for part in self.parts if part[0] not in kinds])

    def with_part(self, kind: str, text: bytes) -> Audit:
        """The audit with this part in the place of those of its kind."""
        return Audit(self.source, [*self.without(kind).parts, (kind, text)])

    def shuffle(self, draw: random.Random) -> Audit:
        """The audit with its kinds of parts in any order, and mixed."""
        kinds = [kind for kind, _ in self.parts]
        draw.shuffle(kinds)
        left = {kind: self.texts(kind) for kind in kinds}
        return Audit(self.source, [(kind, left[kind].pop(0)) for kind in kinds])

    def keep_report_parts(self) -> Audit:
        """What `report` takes."""
        return self.without("certificate", "tie", "unique", "prices", "cover", "rule")

    def list_groups(self) -> list[tuple[int, ...]]:
        """The bidders of each group, as they are listed."""
        (text,) = self.texts("groups")
        numbers = {name: number for number, name in enumerate(self.source.bidders, 1)}
        lines = [line.split("+") for line in text.decode().split("\n")[:-1]]
        return [tuple(numbers[name] for name in line if name != "-") for line in lines]

    def list_prices(self) -> dict[int, Fraction] | None:
        """What each winner pays, in the order of the rules."""
        for text in self.texts("prices"):
            lines = (line.split() for line in text.decode().splitlines())
            prices = {name: Fraction(price) for name, price in lines}
            names = enumerate(self.source.bidders, 1)
            return {number: prices[name] for number, name in names if name in prices}
        return None

    def read(self) -> Outcome:
        """What `verify` shows."""
        won = [read_winners(text) for text in self.texts("solution")]
        awards = [read_winners(text) for text in self.texts("tie")]
        last = None
        if self.texts("unique"):
            awards, last = list_others(self.source.auction, [won[0], *awards])
        return Outcome(
            groups=self.list_groups(),
            won=won,
            prices=self.list_prices(),
            is_by_rule=bool(self.texts("rule")),
            awards=awards,
            last=last,
        )

    def read_report(self) -> Outcome:
        """What `report` says."""
        won = [read_winners(text) for text in self.texts("solution")]
        return Outcome(groups=self.list_groups(), won=won, is_proved=False)


def read_winners(solution: bytes) -> Allocation:
    found = COLUMN.findall(solution.decode())
    return tuple(sorted((int(bidder), int(bid)) for bidder, bid in found))


def format_solution(audit: Audit, allocation: Allocation) -> bytes:
    """The solution, with the column of what all lots are worth, if it has that."""
    (first, *_) = audit.texts("solution")
    columns = [f"X{bidder}_{bid}" for bidder, bid in allocation]
    columns += ["K"] if b"K 1" in first else []
    return "".join(f"{column} 1\n" for column in columns).encode()


# ---- audits


@cache
def make_audit(wdp: str, number: int) -> Audit:
    """The audit of the random auction of this number. Its solutions, certificates and prices are found by the package, and no figure
    is."""
    draw = random.Random(f"audit {number}")
    source = draw_auction(number)
    auction = package.Auction.from_text(source.text(), program=wdp)
    certification = auction.certify(ties=draw.random() < 0.8)
    audit = parse_audit(source, certification.audit)
    kind = draw.choice(PRICES)
    if kind != "none":
        priced = parse_audit(source, auction.prices(certification, "highs").audit)
        if kind == "others":
            audit = with_other_prices(wdp, draw.choice([audit, priced]), priced, draw)
        else:
            audit = priced if kind == "rule" else priced.without("rule")
    if audit.texts("tie") and draw.random() < 0.4:
        audit = audit.without("unique")
    return audit.shuffle(draw)


def parse_audit(source: AuctionTexts, text: bytes) -> Audit:
    return Audit(source, [(kind.decode(), text) for kind, text in PART.findall(text)])


def with_other_prices(wdp: str, audit: Audit, priced: Audit, draw: random.Random) -> Audit:
    """The audit with prices that are those of the rule or more, up to the amounts, in parts of a pound."""
    prices = {}
    fields = []
    denominator = draw.choice([1, 1, 2, 3, 60])
    for bidder, price in (priced.list_prices() or {}).items():
        amount = find_amount(audit, bidder)
        more = Fraction(draw.randint(0, 2 * denominator), denominator)
        prices[bidder] = draw.choice([price, min(amount, price + more), Fraction(amount)])
        times = draw.choice([1, 1, 2])
        over = times * prices[bidder].denominator
        written = f"{times * prices[bidder].numerator}/{over}" if over > 1 else str(prices[bidder])
        fields.append((audit.source.bidders[bidder - 1], written, over))
    parts = math.lcm(*(over for _, _, over in fields))
    draw.shuffle(fields)
    text = "".join(f"{name} {written}\n" for name, written, _ in fields)
    covered = audit.without("rule").with_part("prices", text.encode())
    return covered.with_part("cover", find_cover(wdp, audit, prices, parts))


def find_amount(audit: Audit, bidder: int) -> int:
    """What a winner bids."""
    first = read_winners(audit.texts("solution")[0])
    return next(
        bid_of(audit.source.auction, winner).amount for winner in first if winner[0] == bidder
    )


def find_cover(wdp: str, audit: Audit, prices: dict[int, Fraction], parts: int) -> bytes:
    """A certificate that these prices cover every group."""
    compiled = run_program(wdp, "compile", audit.source.text())
    problem = certify.read_problem(b"* " + compiled.split(b"* program ")[1])
    surplus = {
        bidder: int(parts * (find_amount(audit, bidder) - price))
        for bidder, price in prices.items()
    }
    raised = problem.raise_costs(surplus, parts)
    return bytes(raised.find_optimum(audit.texts("solution")[0]).certificate)


@pytest.fixture(scope="module", autouse=True)
def quick_solver() -> Iterator[None]:
    """The solver only finds that nobody wins: the search for certificates has to find what is better."""
    with pytest.MonkeyPatch.context() as patch:
        patch.setattr(
            solve, "find_point", lambda program, *_, **__: solve.find_empty_solution(program)
        )
        yield


# ---- words that are made of objects


def make_words(objects: Iterable[Object]) -> str:
    """What `verify` or `report` prints without --json, of the members of these objects alone."""
    blocks: dict[str, list[str]] = {}
    ends: dict[str, str] = {}
    prices = []
    last = []
    for each in objects:
        kind, value = next(iter(each.items()))
        if "winner" in each:
            blocks[f"{kind} {value}"].append(f"{each['winner']} {each['bid']} {each['amount']}\n")
        elif kind == "group":
            blocks[f"group {value}"] = [f"group {value} {'+'.join(each['left_out']) or '-'}\n"]
            ends[f"group {value}"] = f"total {each['total']}\ncost {each['cost']}\n"
        elif kind == "award":
            blocks[f"award {value}"] = ["tie\n"]
            ends[f"award {value}"] = f"total {each['total']}\n"
        elif kind == "price":
            prices.append(f"{value} {make_amount(each)}\n")
        elif kind == "sum" and value == "prices":
            prices = ["prices\n", *prices, f"sum {make_amount(each)}\n"]
        elif kind == "proved":
            last = [f"{word}\n" for word in value if word not in ("totals", "costs", "prices")]
    if "by the rule\n" in last:
        last.remove("by the rule\n")
        prices.append("by the rule\n")
    texts = ["".join(lines) + ends[name] for name, lines in blocks.items()]
    groups = sum(name.startswith("group") for name in blocks)
    return "".join([*texts[:groups], *prices, *texts[groups:], *last])


def make_amount(said: Object) -> str:
    """What is paid, and the exact amount if it is another one."""
    exact = Fraction(*said["exact"])
    assert said["exact"] == [exact.numerator, exact.denominator]
    return f"{said['pays']}" + ("" if exact == said["pays"] else f" {exact}")


def make_forms(objects: Iterable[Object]) -> str:
    """What `forms` prints without --json."""
    words = ""
    for each in objects:
        if "rules" in each:
            words += f"%rules {each['rules']}\n"
        elif "form" in each:
            has_form = each["bids"] is not None
            end = f"{each['bids']} {each['sha256']}" if has_form else "-"
            words += f"%form {each['form']} {end}\n"
    return words


# ---- tests


def read_objects(output: bytes) -> list[Object]:
    """The objects of an output, each of which is as the schema says, and as Python prints it."""
    objects = [json.loads(line) for line in output.decode("ascii").splitlines()]
    assert format_objects(objects) == output
    for each in objects:
        VALIDATOR.validate(each)
    return objects


def run(wdp: str, command: str, text: bytes, *words: str) -> Seen:
    return seen(wdp, [command, *words], text)


def expect(wdp: str, command: str, text: bytes, judge: Judge) -> None:
    """The objects are the judge's, and say what the words do."""
    wanted = done(format_objects(judge.list_objects()))
    for workers in WORKERS:
        assert run(wdp, command, text, "--json", "--workers", workers) == wanted
    assert run(wdp, command, text, "--json") == wanted
    objects = read_objects(wanted[1])
    assert run(wdp, command, text) == done(make_words(objects))
    forms = [each for each in objects if {"rules", "form"} & {*each}]
    assert objects[: len(forms)] == forms
    assert run(wdp, "forms", text, "--json") == done(format_objects(forms))
    assert run(wdp, "forms", text) == done(make_forms(forms))


@pytest.fixture(scope="module", params=range(0, AUCTIONS, BLOCK))
def block(request: pytest.FixtureRequest) -> range:
    return range(request.param, request.param + BLOCK)


def test_an_audit(wdp: str, block: range) -> None:
    for number in block:
        audit = make_audit(wdp, number)
        with row(f"auction {number}: {audit.text()!r}"):
            judge = Judge(audit.source, audit.read())
            expect(wdp, "verify", audit.text(), judge)
            wanted = done(format_objects(judge.list_objects()))
            assert run(wdp, "verify", audit.text(), "--forms", "--json") == wanted


def test_a_report(wdp: str, block: range) -> None:
    """Also of solutions that aren't the best ones."""
    for number in block:
        audit = make_audit(wdp, number).keep_report_parts()
        for report in (audit, with_any_winners(audit, number)):
            with row(f"auction {number}: {report.text()!r}"):
                judge = Judge(report.source, report.read_report())
                expect(wdp, "report", report.text(), judge)


def with_any_winners(audit: Audit, number: int) -> Audit:
    """The audit with solutions of which few are the best ones."""
    draw = random.Random(f"any winners {number}")
    auction = audit.source.auction
    possible = [award for award in feasible(auction) if are_kept(auction, award)]
    solutions = []
    for group in audit.list_groups():
        others = [award for award in possible if not {bidder for bidder, _ in award} & {*group}]
        solutions.append(("solution", format_solution(audit, draw.choice(others))))
    return Audit(audit.source, [*audit.without("solution").parts, *solutions])


def are_kept(auction: Auction, award: Allocation) -> bool:
    """Whether each bid has a column."""
    forms = (auction.forms[bidder - 1] for bidder, _ in award)
    bids = (bid_of(auction, winner) for winner in award)
    return all(map(partial(has_column, auction), forms, bids))


def test_a_refused_audit(wdp: str, block: range) -> None:
    """Nothing is printed of it, and the line of the refusal is the same; some damages leave an audit true."""
    counts = Counter[bool]()
    for number in block:
        audit = make_audit(wdp, number)
        draw = random.Random(f"damage {number}")
        for damage in range(DAMAGES):
            place = draw.randrange(len(audit.parts))
            kind, text = audit.parts[place]
            damaged, names = damage_certificate(text, kind, damage)
            parts = [*audit.parts]
            parts[place] = (kind, damaged)
            data = Audit(audit.source, parts).text()
            with row(f"auction {number}, {kind} damaged ({'+'.join(names)}): {data!r}"):
                said = run(wdp, "verify", data)
                objects = run(wdp, "verify", data, "--json")
                is_refused = said[0] != 0
                assert is_refused == (said[:2] == (1, b""))
                if is_refused:
                    assert objects == said
                else:
                    assert done(make_words(read_objects(objects[1]))) == said
                counts[is_refused] += 1
    assert counts[True] > DAMAGES


@pytest.mark.parametrize("command", ["text", "compile", "map", "check"])
def test_a_command_without_objects(wdp: str, command: str) -> None:
    status, output, error = run(wdp, command, b"", "--json")
    assert (status, output) == (2, b"")
    assert error.startswith(b"error: unexpected argument '--json' found\n")


def test_the_file_of_the_output_has_the_objects(wdp: str, tmp_path: Any) -> None:
    audit = make_audit(wdp, 0)
    for command in COMMANDS:
        text = audit.keep_report_parts().text() if command == "report" else audit.text()
        printed = run(wdp, command, text, "--json")
        words = [command, "--json", "-o", "out"]
        assert seen(wdp, words, text, cwd=tmp_path) == (0, b"", b"")
        assert done((tmp_path / "out").read_bytes()) == printed
        assert seen(wdp, words, b"%rules\n", cwd=tmp_path)[:2] == (1, b"")
        assert done((tmp_path / "out").read_bytes()) == printed


def test_the_greatest_numbers(wdp: str) -> None:
    """Sums of exact prices that 64 bits don't hold, and of lots that are worth much."""
    winners = range(1, 32)
    price = Fraction(10**18 - 1, 10**6)
    value = 10**12
    auction = Auction(
        version=2,
        supply=(31, 10_000),
        values=(0, value),
        pools=[],
        forms=[[Bid(10**12, (1, 0))] for _ in winners],
        reserves=(10**12 - 1, 0),
    )
    bidders = [f"B{number}" for number in winners]
    rules = f"rules,2,1,,,\ncategory,A,31,{10**12 - 1},0,0\ncategory,L,10000,0,0,{value}\n"
    rules += "".join(f"bidder,{name},0,1,,\n" for name in bidders)
    forms = [
        (number, f"{name},A,L\n{10**12},1,0\n".encode()) for number, name in enumerate(bidders, 1)
    ]
    source = AuctionTexts(
        auction=auction,
        step=1,
        bidders=bidders,
        categories=["A", "L"],
        pools=[],
        groups=[(), tuple(winners)],
        rules=rules.encode(),
        forms=forms,
    )
    won = tuple((number, 1) for number in winners)
    outcome = Outcome(groups=source.groups, won=[won, ()], prices=dict.fromkeys(winners, price))
    solution = "".join(f"X{number}_1 1\n" for number in winners)
    rows = "".join(f" B{number} {10**12}" for number in winners)
    in_parts = "".join(f" B{number} {10**18 - 1}" for number in winners)
    text = source.text().decode() + f"%solution\n{solution}K 1\n%solution\nK 1\n"
    text += f"%certificate\nbound 1{rows}\n%certificate\nbound 1\n%cover\nbound 1{in_parts}\n"
    text += "%prices\n" + "".join(f"{name} {10**18 - 1}/{10**6}\n" for name in bidders)
    judge = Judge(source, outcome)
    expect(wdp, "verify", text.encode(), judge)
    (total,) = (each for each in judge.list_objects() if each.get("sum") == "prices")
    assert total["exact"] == [31 * (10**18 - 1), 10**6] and total["exact"][0] > 2**64


# ---- what is tried, and the schema


def list_kinds(audit: Audit, objects: list[Object], report: list[Object]) -> dict[str, bool]:
    """What is true of an audit, by the objects of `verify`, and of `report` for other solutions."""
    return {
        **list_lots(objects),
        **list_payments(audit, objects),
        **list_groups(audit, objects),
        **list_last(objects),
        "a negative cost": any(each.get("cost", 0) < 0 for each in report),
        "a step above 1": audit.source.step > 1,
    }


def list_lots(objects: list[Object]) -> dict[str, bool]:
    loads = {each["load"] for each in objects if "load" in each}
    winners = [each for each in objects if each.get("group") == 1 and "winner" in each]
    return {
        "a pool with a load": any(loads),
        "two pools with different loads": len(loads) > 1,
        "two winners with different reserves": len({each["reserve"] for each in winners}) > 1,
        "a winner of lots of several categories": any(len(each["lots"]) > 1 for each in winners),
        "some lots of a category are sold, and more or fewer aren't": any(
            each["sold"] and each["unsold"] not in (0, each["sold"])
            for each in objects
            if "supply" in each and "category" in each
        ),
        "lots that are left are worth something": any(each.get("value_left") for each in objects),
        "a bidder without a form": any(each.get("bids", 0) is None for each in objects),
        "a form without a bid": any(each.get("bids") == 0 for each in objects),
    }


def list_payments(audit: Audit, objects: list[Object]) -> dict[str, bool]:
    prices = [each for each in objects if "price" in each]
    sums = [each for each in objects if each.get("sum") == "prices"]
    (proved,) = (each["proved"] for each in objects if "proved" in each)
    groups = {each["group"]: each for each in objects if "left_out" in each}
    bound = {number for each in prices for number in each["bound_by"]}
    first = [each for each in objects if each.get("group") == 1 and "winner" in each]
    reserves = {each["winner"]: each["reserve"] for each in first}
    costs: dict[str, int] = {}
    for each in groups.values():
        if len(each["left_out"]) == 1:
            costs.setdefault(each["left_out"][0], each["cost"])
    alone = [each for each in prices if each["alone"] is not None]
    return {
        "a reserve binds a price": any(each["by_reserve"] for each in prices),
        "a group binds a price": bool(bound),
        "a group that was added binds a price": any(
            number > len(audit.source.groups) for number in bound
        ),
        "a group of several binds a price": any(
            len(groups[number]["left_out"]) > 1 for number in bound
        ),
        "a group with a winner doesn't bind its price": any(
            each["price"] in group["left_out"] and number not in each["bound_by"]
            for each in prices
            for number, group in groups.items()
        ),
        "a winner alone pays its reserve, above its cost": any(
            each["alone"] == reserves[each["price"]] > costs[each["price"]] for each in alone
        ),
        "a winner alone pays its cost, which is its reserve": any(
            each["alone"] == reserves[each["price"]] == costs[each["price"]] for each in alone
        ),
        "a winner isn't listed alone": len(alone) < len(prices),
        "a price is a fraction": any(each["exact"][1] > 1 for each in prices),
        "the exact sum is whole, and less is rounded up": any(
            each["exact"][1] == 1 and each["exact"][0] < each["pays"] for each in sums
        ),
        "prices of the rule": "by the rule" in proved,
        "other prices": "prices" in proved and "by the rule" not in proved,
        "no prices": "prices" not in proved,
    }


def list_groups(audit: Audit, objects: list[Object]) -> dict[str, bool]:
    listed = audit.list_groups()
    first = {each["winner"] for each in objects if each.get("group") == 1 and "winner" in each}
    names = [each["left_out"] for each in objects if "left_out" in each]
    forms = [number for number, _ in audit.source.forms]
    return {
        "a group is listed twice": len({tuple(each) for each in names if each})
        < sum(map(bool, names)),
        "a group of nobody that wins": any(each and not first & {*each} for each in names),
        "the empty group comes again": names.count([]) > 1,
        "names of a group in another order": any([*each] != sorted(each) for each in listed),
        "a form that is replaced": len({*forms}) < len(forms),
        "nobody wins": not first,
    }


def list_last(objects: list[Object]) -> dict[str, bool]:
    (proved,) = (each["proved"] for each in objects if "proved" in each)
    awards = [each for each in objects if "costs" in each]
    costs = [each["cost"] for each in objects if "left_out" in each]
    kinds = {word: word in proved for word in ("unique", "no other", "and more")}
    pairs = [pair for each in awards for pair in zip(each["costs"], costs, strict=True)]
    return {
        **kinds,
        "another award, and nothing on further ones": bool(awards) and not any(kinds.values()),
        "a group costs more by another award": any(new > old for new, old in pairs),
        "a group costs less by another award": any(new < old for new, old in pairs),
    }


def judge_audit(wdp: str, number: int) -> tuple[Audit, list[Object], list[Object]]:
    """The audit of a random auction, and the judge's objects of it, and of a report on other solutions."""
    audit = make_audit(wdp, number)
    report = with_any_winners(audit.keep_report_parts(), number)
    return (
        audit,
        Judge(audit.source, audit.read()).list_objects(),
        Judge(report.source, report.read_report()).list_objects(),
    )


def test_each_kind_of_audit_and_each_member_of_the_schema_comes_up(wdp: str) -> None:
    counts = Counter[str]()
    members = Counter[str]()
    for number in range(AUCTIONS):
        audit, objects, report = judge_audit(wdp, number)
        counts.update(kind for kind, is_so in list_kinds(audit, objects, report).items() if is_so)
        for each in [*objects, *report]:
            VALIDATOR.validate(each)
            members.update(list_members(each))
    assert {kind: counts[kind] for kind, least in LEAST.items() if counts[kind] < least} == {}
    assert {*LEAST} == {*counts}
    assert {*members} == {*list_schema_members()}


def list_members(said: Object) -> Iterator[str]:
    """The members of an object, each with its kind, and whether it is null; and the words of a list of them."""
    kind = name_kind(said)
    for name, value in said.items():
        yield f"{kind}.{name}"
        if value is None:
            yield f"{kind}.{name} is null"
        if kind == "proved":
            yield from (f"{kind}.{name} has {word}" for word in value)


def name_kind(said: Object) -> str:
    """What the schema calls an object: its first member, with `winner` or the word of a sum."""
    first = next(iter(said))
    if first == "sum":
        return f"sum_of_{said['sum']}"
    return f"winner_of_{first}" if "winner" in said else first


def list_schema_members() -> Iterator[str]:
    """The same of all objects that the schema takes."""
    for place in SCHEMA["oneOf"]:
        kind = place["$ref"].removeprefix("#/$defs/")
        for name, member in SCHEMA["$defs"][kind]["properties"].items():
            yield f"{kind}.{name}"
            if "null" in member.get("type", []) or {"type": "null"} in member.get("anyOf", []):
                yield f"{kind}.{name} is null"
            for word in member.get("items", {}).get("enum", []):
                yield f"{kind}.{name} has {word}"


def test_the_schema_is_one() -> None:
    jsonschema.Draft202012Validator.check_schema(SCHEMA)
    for place in SCHEMA["oneOf"]:
        made = SCHEMA["$defs"][place["$ref"].removeprefix("#/$defs/")]
        assert made["required"] == [*made["properties"]]
        assert made["additionalProperties"] is False


def test_the_reference_lists_each_member() -> None:
    """In the order of the schema."""
    section = read_text("docs", "REFERENCE.md").partition("\n## Objects of an award\n")[2]
    rows = re.findall(r"(?m)^\| (.*?) ?\| (`.*?) \|", section.partition("\n## ")[0])
    members: list[list[str]] = []
    for kind, names in rows:
        members += [[]] if kind else []
        members[-1] += re.findall(r"`(\w+)`", names)
    kinds = (place["$ref"].removeprefix("#/$defs/") for place in SCHEMA["oneOf"])
    assert members == [[*SCHEMA["$defs"][kind]["properties"]] for kind in kinds]


def list_object_cases() -> list[str]:
    """The cases that print objects of an award."""
    words = {name: read_case(name).words() for name in list_cases()}
    return [name for name, it in words.items() if b"--json" in it and it[0].decode() in COMMANDS]


def test_each_member_of_the_schema_is_in_a_case() -> None:
    """(That there are more than 64 other awards is said of random auctions.)"""
    cases = (read_case(name).stdout.splitlines() for name in list_object_cases())
    members = {
        member for lines in cases for line in lines for member in list_members(json.loads(line))
    }
    assert {*list_schema_members()} - members == {"proved.proved has and more"}


@pytest.mark.parametrize("name", list_object_cases())
def test_case(wdp: str, name: str) -> None:
    """Its objects are as the schema says, in the order of their members there, and say what the words do."""
    case = read_case(name)
    if case.wanted()[0]:
        assert case.stdout == b""
        return
    objects = read_objects(case.stdout)
    for each in objects:
        assert [*each] == [*SCHEMA["$defs"][name_kind(each)]["properties"]]
    command = case.words()[0].decode()
    make = make_forms if command == "forms" else make_words
    assert run(wdp, command, case.stdin) == done(make(objects))
    if command == "verify":
        assert run(wdp, command, case.stdin, "--forms", "--json") == done(case.stdout)
