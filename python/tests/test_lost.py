"""What lost bids lacked: of random auctions beside a list of all combinations of bids, of the worked
example by hand, in a folder of the command, and with faults that are planted.
"""
import json
import shutil
from collections.abc import Mapping
from pathlib import Path
from typing import NamedTuple

import lost_auctions
import pytest
from commands import (
    WORKED,
    AuctionFolder,
    CommandResult,
    check_stopped,
    list_files,
    parse_rows,
    run,
    run_program,
)
from lost_auctions import NAMES, Lacked
from trials.program_runs import row

import wdp as package
from wdp.folder import Folder
from wdp.lost import inputs, lowering, proofs, search
from wdp.lost.bids import BidKey, Fate, LostBid
from wdp.texts.accepted import AcceptedRules, Bid

AUCTIONS = 100
BLOCK = 10
# so many of the lost bids of the random auctions have to be of each kind
KINDS = {
    "ties": 200,
    "wins": 40,
    "tied with its own amount": 20,
    "no amount would do": 50,
    "in no program as it is": 100,
    "with a pool": 100,
    "with values": 100,
    "with a step above 1": 100,
}


def certify(text: str | bytes, wdp: str) -> package.Outcome:
    return package.Auction.from_text(text, program=wdp).certify()


def list_lost(text: str | bytes, wdp: str) -> dict[BidKey, LostBid]:
    return {BidKey(bid.bidder, bid.bid): bid for bid in certify(text, wdp).lost()}


def get_fate(lacked: Lacked, amount: int) -> Fate:
    """What is to be said of a bid with this amount that lacked this."""
    if lacked.needed is None:
        return Fate.UNFIT
    if lacked.needed == amount:
        return Fate.TIED
    return Fate.TIES if lacked.ties else Fate.WINS


def find_difference(auction: lost_auctions.Auction, wdp: str) -> str | None:
    """What is found of an auction in another way than by its definition; None if nothing is."""
    wanted = lost_auctions.find_lacked(auction)
    found = list_lost(lost_auctions.format_input(auction), wdp)
    winners = {key for key in wanted if BidKey(NAMES[key[0] - 1], key[1]) not in found}
    if len({bidder for bidder, _ in winners}) < len(winners):
        return f"these are said to win together: {winners}"
    for (bidder, number), lacked in wanted.items():
        bid = found.get(BidKey(NAMES[bidder - 1], number))
        if bid is None:
            continue
        amount = auction.forms[bidder - 1][number - 1].amount
        if (bid.needed, bid.fate) != (lacked.needed, get_fate(lacked, amount)):
            return f"{bid} and not {lacked}"
    return None


@pytest.mark.parametrize("first", range(0, AUCTIONS, BLOCK))
def test_what_lost_bids_of_random_auctions_lacked(wdp: str, first: int) -> None:
    for number in range(first, first + BLOCK):
        auction = lost_auctions.draw_auction(number)
        with row(f"auction {number}: {lost_auctions.format_input(auction)}"):
            assert find_difference(auction, wdp) is None


def list_kinds(auction: lost_auctions.Auction, key: tuple[int, int], lacked: Lacked) -> list[str]:
    """Of which kinds a bid is."""
    bid = auction.forms[key[0] - 1][key[1] - 1]
    fate = get_fate(lacked, bid.amount)
    is_of = {
        "ties": fate is Fate.TIES,
        "wins": fate is Fate.WINS,
        "tied with its own amount": fate is Fate.TIED,
        "no amount would do": fate is Fate.UNFIT,
        "in no program as it is": is_dominated(auction, key),
        "with a pool": len(auction.pools) > 0,
        "with values": any(auction.values),
        "with a step above 1": auction.step > 1,
    }
    return [kind for kind, is_so in is_of.items() if is_so]


def is_dominated(auction: lost_auctions.Auction, key: tuple[int, int]) -> bool:
    """Whether a bid of the same form asks for less, and brings as much."""
    form = auction.forms[key[0] - 1]
    bid = form[key[1] - 1]
    nets = {each: each.amount - lost_auctions.weigh(auction.values, each.lots) for each in form}
    return any(
        other.lots != bid.lots
        and all(less <= more for less, more in zip(other.lots, bid.lots, strict=True))
        and nets[other] >= nets[bid]
        for other in form
    )


def test_of_which_kinds_the_random_bids_are() -> None:
    counts = dict.fromkeys(KINDS, 0)
    for number in range(AUCTIONS):
        auction = lost_auctions.draw_auction(number)
        greatest = max(total for _, total in lost_auctions.list_combinations(auction))
        for key, lacked in lost_auctions.find_lacked(auction).items():
            wins = [total for won, total in lost_auctions.list_combinations(auction) if key in won]
            amount = auction.forms[key[0] - 1][key[1] - 1].amount
            if max(wins, default=0) < greatest or lacked.needed == amount:
                for kind in list_kinds(auction, key, lacked):
                    counts[kind] += 1
    assert {kind: count for kind, count in counts.items() if count < KINDS[kind]} == {}


class Fault(NamedTuple):
    """A fault in the search: the module and the name of what is replaced, and by what."""

    module: object
    name: str
    faulty: object


def take_a_lot_too_few(rules: AcceptedRules, bid: Bid) -> dict[str, int]:
    taken = lowering.measure_taken(rules, bid)
    first = next(number for number, count in enumerate(bid.lots, 1) if count)
    return {**taken, f"C{first}": taken[f"C{first}"] - 1}


def take_nothing_from_pools(rules: AcceptedRules, bid: Bid) -> dict[str, int]:
    taken = lowering.measure_taken(rules, bid)
    return {name: count for name, count in taken.items() if name.startswith("C")}


def leave_the_bidder_in(problem: lowering.Problem, bidder: int) -> lowering.Array:
    return problem.holders > -1


FAULTS = {
    "a lot too few is taken": Fault(search, "measure_taken", take_a_lot_too_few),
    "the caps of pools are kept": Fault(search, "measure_taken", take_nothing_from_pools),
    "the bidder is left in": Fault(lowering, "_find_others", leave_the_bidder_in),
}


@pytest.mark.parametrize("name", FAULTS)
def test_a_planted_fault_is_found(name: str, wdp: str, monkeypatch: pytest.MonkeyPatch) -> None:
    """No wrong amount is given: what a fault finds `wdp verify` refuses, or says that it's not
    what was found.
    """
    monkeypatch.setattr(FAULTS[name].module, FAULTS[name].name, FAULTS[name].faulty)
    refusals = 0
    for number in range(BLOCK):
        try:
            assert find_difference(lost_auctions.draw_auction(number), wdp) is None
        except package.Refused:
            refusals += 1
    assert refusals > 0


@pytest.mark.parametrize("name", FAULTS)
def test_the_list_tells_a_planted_fault_that_nobody_judges(
    name: str, wdp: str, monkeypatch: pytest.MonkeyPatch
) -> None:
    """The same without audits: the amounts aren't those of the list."""
    monkeypatch.setattr(FAULTS[name].module, FAULTS[name].name, FAULTS[name].faulty)
    monkeypatch.setattr(search, "Shower", AnswerOfNobody)
    auctions = map(lost_auctions.draw_auction, range(BLOCK))
    assert [each for each in auctions if find_difference(each, wdp)]


class AnswerOfNobody:
    """In the place of what makes audits: there are none."""

    def __init__(self, *_: object, **__: object) -> None:
        pass

    def try_amount(self, amount: int) -> "AnswerOfNobody":
        self.amount = amount
        self.has_column = True
        return self

    def show_tie(self, _: object) -> None:
        pass

    show_win = show_tie
    show_loss = show_tie


def test_without_a_fault_the_list_agrees_though_nobody_judges(
    wdp: str, monkeypatch: pytest.MonkeyPatch
) -> None:
    monkeypatch.setattr(search, "Shower", AnswerOfNobody)
    auctions = map(lost_auctions.draw_auction, range(BLOCK))
    assert [each for each in auctions if find_difference(each, wdp)] == []


def test_a_certificate_that_no_numbers_fit_into_is_searched(
    wdp: str, monkeypatch: pytest.MonkeyPatch
) -> None:
    monkeypatch.setattr(proofs, "_LARGEST", 0)
    for number in range(BLOCK):
        assert find_difference(lost_auctions.draw_auction(number), wdp) is None


def change_in(data: bytes, before: bytes, after: bytes) -> bytes:
    assert data.count(before) == 1
    return data.replace(before, after)


# the worked example by hand: its total is 62, and nobody else than Alpha can win with bid 2
WORKED_BIDS = """
Alpha |2 |50 |62   |TIES
Alpha |3 |28 |42   |TIES
Beta  |2 |45 |None |UNFIT
"""


@pytest.fixture(scope="module")
def worked(wdp: str) -> dict[BidKey, LostBid]:
    return list_lost(WORKED, wdp)


def test_the_worked_example_by_hand(worked: Mapping[BidKey, LostBid]) -> None:
    found = [(*key, bid.amount, bid.needed, bid.fate.name) for key, bid in worked.items()]
    assert [tuple(map(str, each)) for each in found] == parse_rows(WORKED_BIDS)


def test_an_audit_differs_from_the_input_in_one_field(worked: Mapping[BidKey, LostBid]) -> None:
    audit = worked[BidKey("Alpha", 3)].audit
    alone = WORKED.partition(b"%groups")[0] + b"%groups\n-\n"
    assert audit is not None
    assert audit.endswith(change_in(alone, b"28,1,1", b"42,1,1"))


def test_wdp_prints_that_a_bid_ties(worked: Mapping[BidKey, LostBid], wdp: str) -> None:
    audit = worked[BidKey("Alpha", 3)].audit
    assert audit is not None
    report = b"group 1 -\nAlpha 1 30\nBeta 1 20\nGamma 1 12\ntotal 62\ncost 0\n"
    assert run_program(wdp, "verify", audit) == report + b"tie\nAlpha 3 42\nBeta 1 20\ntotal 62\n"


class Case(NamedTuple):
    """A lost bid by hand: the step, lots of A and what each is worth unsold, and each form's bids;
    what the bid needed, and the amount of its audit; what `wdp verify` prints of that, and of the
    audit one step below, if there is one.
    """

    step: int
    supply: int
    value: int
    forms: dict[str, str]
    bid: BidKey
    needed: int | None
    fate: Fate
    shown: int | None
    printed: str | None
    below: str | None = None


MOST = 10**12
CASES = {
    # the award's total is 53 with the unsold lot, which no multiple of 10 is
    "an amount between two steps": Case(
        step=10,
        supply=3,
        value=3,
        forms={"Alpha": "30,1", "Beta": "20,1", "Gamma": "10,3"},
        bid=BidKey("Gamma", 1),
        needed=60,
        fate=Fate.WINS,
        shown=60,
        printed="Gamma 1 60, total 60",
        below="Alpha 1 30, Beta 1 20, total 53",
    ),
    "less than the lots are worth": Case(
        step=1,
        supply=1,
        value=5,
        forms={"Alpha": "3,1"},
        bid=BidKey("Alpha", 1),
        needed=5,
        fate=Fate.TIES,
        shown=5,
        printed="total 5, tie, Alpha 1 5, total 5",
    ),
    # with 30 for two lots the bid has no column, since bid 1 brings as much; with 31 it wins
    "a tie with a smaller bid of the form": Case(
        step=1,
        supply=2,
        value=0,
        forms={"Alpha": "30,1 20,2"},
        bid=BidKey("Alpha", 2),
        needed=30,
        fate=Fate.TIES,
        shown=31,
        printed="Alpha 2 31, total 31",
        below="Alpha 1 30, total 30",
    ),
    # with 30 for one lot it is the bid for two that has no column
    "a tie with a larger bid of the form, which wins": Case(
        step=1,
        supply=2,
        value=0,
        forms={"Alpha": "20,1 30,2"},
        bid=BidKey("Alpha", 1),
        needed=30,
        fate=Fate.TIES,
        shown=30,
        printed="Alpha 1 30, total 30",
    ),
    "a tie with its own amount, in no program": Case(
        step=5,
        supply=2,
        value=0,
        forms={"Alpha": "30,1 30,2"},
        bid=BidKey("Alpha", 2),
        needed=30,
        fate=Fate.TIED,
        shown=35,
        printed="Alpha 2 35, total 35",
        below="Alpha 1 30, total 30",
    ),
    # the bidder's own bid for 30 isn't there any more if this one wins
    "a bid of a winner": Case(
        step=1,
        supply=2,
        value=0,
        forms={"Alpha": "30,1 31,2", "Beta": "20,1"},
        bid=BidKey("Alpha", 2),
        needed=50,
        fate=Fate.TIES,
        shown=50,
        printed="Alpha 1 30, Beta 1 20, total 50, tie, Alpha 2 50, total 50",
    ),
    "nothing within the limit": Case(
        step=3 * 10**11,
        supply=2,
        value=0,
        forms={"Alpha": "900000000000,1", "Beta": "900000000000,1", "Gamma": "300000000000,2"},
        bid=BidKey("Gamma", 1),
        needed=None,
        fate=Fate.BEYOND,
        shown=9 * 10**11,
        printed="Alpha 1 900000000000, Beta 1 900000000000, total 1800000000000",
    ),
    # with one step more it would win, but there is no such amount
    "a tie with a smaller bid at the limit": Case(
        step=1,
        supply=2,
        value=0,
        forms={"Alpha": f"{MOST},1 5,2"},
        bid=BidKey("Alpha", 2),
        needed=MOST,
        fate=Fate.TIES,
        shown=None,
        printed=None,
    ),
}


def format_case(case: Case) -> str:
    lines = ["%rules", f"rules,3,{case.step},,,", f"category,A,{case.supply},0,1,{case.value}"]
    lines += [f"bidder,{name},9,1,," for name in case.forms]
    for name, bids in case.forms.items():
        lines += ["%form", f"{name},A", *bids.split()]
    return "".join(f"{line}\n" for line in [*lines, "%groups", "-"])


def read_printed(audit: bytes, wdp: str) -> str:
    """What `wdp verify` prints, without the lines of the group, in one line."""
    lines = run_program(wdp, "verify", audit).decode().splitlines()
    return ", ".join(line for line in lines if not line.startswith(("group", "cost")))


@pytest.mark.parametrize("name", CASES)
def test_a_bid_by_hand(name: str, wdp: str) -> None:
    case = CASES[name]
    bid = list_lost(format_case(case), wdp)[case.bid]
    assert (bid.needed, bid.fate, bid.shown) == (case.needed, case.fate, case.shown)
    assert (bid.audit and read_printed(bid.audit, wdp)) == case.printed
    below = bid.audit_below
    assert (below and read_printed(below, wdp)) == case.below


def test_one_of_two_that_tie_lost_by_the_draw(wdp: str) -> None:
    case = CASES["a bid of a winner"]
    forms = {"Alpha": "10,1", "Beta": "10,1"}
    bids = list_lost(format_case(case._replace(supply=1, forms=forms)), wdp)
    assert [(bid.needed, bid.lacked, bid.fate) for bid in bids.values()] == [(10, 0, Fate.TIED)]


# Gamma's bid for one of B leaves room for Alpha's lot in the pool, or for Beta's, and not for both
POOL = """\
%rules
rules,3,1,,,
category,A,2,0,1,0
category,B,2,0,1,0
pool,Both,3,,,
member,Both,A,2,,
member,Both,B,1,,
bidder,Alpha,9,1,,
bidder,Beta,9,1,,
bidder,Gamma,9,1,,
%form
Alpha,A,B
30,1,0
%form
Beta,A,B
20,0,1
%form
Gamma,A,B
10,0,1
10,0,2
10,2,0
%groups
-
"""


def test_what_is_left_of_a_pool_by_hand(wdp: str) -> None:
    bids = list_lost(POOL, wdp)
    needed = {key.number: bid.needed for key, bid in bids.items() if key.bidder == "Gamma"}
    assert needed == {1: 20, 2: 50, 3: None}
    assert bids[BidKey("Gamma", 3)].reason == "loads pool Both with 4, above its cap of 3"


# a form before the last, quotes, ends of lines and a mark that are as they were
FORMS = """
Alpha,A⏎30,1⏎20,2⏎           |1 |Alpha,A⏎7,1⏎20,2⏎
Alpha,A⏎30,1⏎20,2            |2 |Alpha,A⏎30,1⏎7,2
Alpha,A␍30,1␍20,2␍           |2 |Alpha,A␍30,1␍7,2␍
Alpha,A␍⏎␍⏎30,1␍⏎20,2␍⏎      |1 |Alpha,A␍⏎␍⏎7,1␍⏎20,2␍⏎
"Alpha",A⏎"30",1⏎"20"0,"2"⏎  |2 |"Alpha",A⏎"30",1⏎7,"2"⏎
﻿Alpha,A⏎30,1⏎          |1 |﻿Alpha,A⏎7,1⏎
"""


@pytest.mark.parametrize(("form", "number", "changed"), parse_rows(FORMS))
def test_nothing_but_the_amount_changes(form: str, number: str, changed: str) -> None:
    before = "%rules\n\n%form\nAlpha,A\n1,1\n1,2\n%form\n"
    end = "%form\nBeta,A\n30,1\n20,2\n"
    data = before + form + ("" if form.endswith(("\n", "\r")) else "\n") + end
    wanted = before + changed + ("" if form.endswith(("\n", "\r")) else "\n") + end
    key = BidKey("Alpha", int(number))
    assert inputs.change_amount(data.encode(), key, 7).decode() == wanted


@pytest.mark.parametrize("key", [BidKey("Alpha", 3), BidKey("Alpha", 0), BidKey("Beta", 1)])
def test_there_is_no_such_bid(key: BidKey) -> None:
    with pytest.raises(package.Refused, match="there is no (bid|form) "):
        inputs.change_amount(b"%form\nAlpha,A\n30,1\n20,2\n", key, 7)


def test_the_input_keeps_all_but_its_other_groups() -> None:
    before = b"%groups\n-\nAlpha\n%rules\nrules,1,1,,\n"
    assert inputs.keep_first_group(before) == b"%groups\n-\n%rules\nrules,1,1,,\n"


ALPHA = """\
Lost bids of Alpha

Bid  Amount  Needed  Lacked  Outcome                                                    Lots
  2      50      62      12  would have tied                                            2 of A, 1 of B
  3      28      42      14  would have tied; with its amount it is dominated by bid 1  1 of A, 1 of B

Needed is the lowest amount, in steps of 1, at which the bid would have tied or won, all other bids as they are.
"""
BETA = """\
Lost bids of Beta

Bid  Amount  Needed  Lacked  Outcome                                                                    Lots
  2      45                  doesn't fit: no amount would do; it asks for 3 of A, of which there are 2  3 of A

Needed is the lowest amount, in steps of 1, at which the bid would have tied or won, all other bids as they are.
"""
FILES = {
    "of_award.txt",
    "Alpha.txt",
    "Alpha/2.json",
    "Alpha/2.txt",
    "Alpha/3.json",
    "Alpha/3.txt",
    "Beta.txt",
    "Beta/2.json",
}


@pytest.fixture
def award(whole: AuctionFolder, tmp_path: Path) -> AuctionFolder:
    """A copy of the folder of the worked example's award."""
    shutil.copytree(whole.where, tmp_path / "award")
    copied = object.__new__(AuctionFolder)
    vars(copied).update(vars(whole), where=tmp_path / "award")
    return copied


def find_lost(award: AuctionFolder, *words: object) -> CommandResult:
    return run("lost", award.where, *words, env=award.make_environment())


def test_the_command_leaves_an_audit_for_each_bid(award: AuctionFolder, wdp: str) -> None:
    before = list_files(award.where)
    seen = find_lost(award)
    assert (seen.status, seen.out) == (0, ALPHA + BETA)
    assert "lost: 2 solves for 3 lost bids, of which 1 can't fit\n" in seen.err
    made = {name for name in list_files(award.where) - before if not name.startswith("sums/")}
    assert made == {f"lost/{name}" for name in FILES}
    assert award.read("lost/Alpha.txt").decode() == ALPHA
    assert "tie, Alpha 2 62, " in read_printed(award.read("lost/Alpha/2.txt"), wdp)


def test_nothing_of_it_is_in_what_is_published(award: AuctionFolder) -> None:
    before = {name: award.read(f"results/{name}") for name in list_files(award.where / "results")}
    assert find_lost(award).status == 0
    after = {name: award.read(f"results/{name}") for name in list_files(award.where / "results")}
    assert after == before


def test_what_is_found_stays(award: AuctionFolder) -> None:
    assert find_lost(award, "--bidder", "Alpha", "--bid", 2).status == 0
    kept = (award.where / "lost/Alpha/2.txt").stat()
    seen = find_lost(award)
    assert "lost: 1 solve for 3 lost bids" in seen.err
    assert (award.where / "lost/Alpha/2.txt").stat() == kept
    assert award.read("lost/Alpha.txt").decode() == ALPHA


def test_what_is_of_another_award_goes(award: AuctionFolder) -> None:
    assert find_lost(award, "--quiet").status == 0
    folder = Folder(award.where)
    folder.leave("lost/of_award.txt", b"another\n")
    folder.leave("lost/Gamma.txt", b"of another\n")
    assert find_lost(award, "--quiet").status == 0
    assert list_files(award.where / "lost") == FILES
    assert not award.has("sums/lost/Gamma.txt.sha256")


# what is asked for, and what is wrong with it
WRONG = """
--bidder Alpa          |lost: there is no bidder Alpa; the nearest name is Alpha
--bidder Gamma         |lost: Gamma has no other bid than the one that won
--bidder Alpha --bid 1 |lost: bid 1 of Alpha won
--bidder Alpha --bid 7 |lost: there is no form with bid 7 of Alpha
--bid 7                |lost: there is no bid 7
--bid 1                |lost: each bid 1 won
--bid 0                |wdp-office lost: error: argument --bid: it takes a number of a bid, not '0'
"""


@pytest.mark.parametrize(("words", "message"), parse_rows(WRONG))
def test_there_is_no_such_lost_bid(words: str, message: str, award: AuctionFolder) -> None:
    seen = run("lost", award.where, "--wdp", award.wdp, *words.split())
    assert seen == (2, "", f"{message}\n")
    assert not award.has("lost")


def test_a_folder_without_an_award(award: AuctionFolder) -> None:
    (award.where / "audit.txt").unlink()
    check_stopped(find_lost(award), "/award/audit.txt isn't there; wdp-office auction makes it")
    shutil.rmtree(award.where)
    check_stopped(find_lost(award), "/award is no folder of an auction")


def test_a_record_that_changed(award: AuctionFolder) -> None:
    assert find_lost(award, "--quiet").status == 0
    award.put("lost/Alpha/3.json", award.read("lost/Alpha/2.json"))
    check_stopped(find_lost(award, "--quiet"), "/lost/Alpha/3.json isn't what was left there")
    (award.where / "lost/Alpha/3.json").unlink()
    assert find_lost(award).out == ALPHA + BETA


def test_the_names_of_the_office(award: AuctionFolder) -> None:
    award.put("names.csv", b"Alpha,Alpha plc\nA,800 MHz\n")
    award.put("page.json", b'{"title": "Two bands", "currency": "GBP"}\n')
    (award.where / "sums/page.json.sha256").unlink()
    text = find_lost(award, "--bidder", "Alpha").out
    assert text.startswith("Lost bids of Alpha plc (Alpha)\n\nBid  Amount, GBP  Needed, GBP  ")
    assert "  1 of 800 MHz, 1 of B\n" in text
    assert "in steps of 1 GBP, " in text


# Alpha and Beta bid for 1 to 102 of 102 lots, so that each has 102 bids; Alpha wins all
MANY = "".join(
    [
        "%rules\nrules,1,1,,\ncategory,A,102,0,1\nbidder,Alpha,999,1,\nbidder,Beta,999,1,\n",
        "%form\nAlpha,A\n",
        *[f"{1000 + 100 * lots},{lots}\n" for lots in range(1, 103)],
        "%form\nBeta,A\n",
        *[f"{lots},{lots}\n" for lots in range(1, 103)],
        "%groups\n-\n",
    ]
)


def test_many_solves_and_those_that_fail(tmp_path: Path, wdp: str) -> None:
    folder = AuctionFolder(tmp_path / "many", wdp, MANY.encode())
    folder.read_messages("--no-prices", "--quiet")
    message = "lost: 203 solves for 203 lost bids; for more than 100 say --bidder NAME or --bid J\n"
    assert find_lost(folder) == (2, "", message)
    # (of bids for 50 lots: 52 bids of the other bidder fit beside each, of which a solver is asked)
    words = ["--bid", 50, "--quiet", "--solver-command", "false {mps} {out}"]
    seen = find_lost(folder, *words)
    assert (seen.status, seen.out) == (1, "")
    assert "lost: bid 50 of Beta: false ended with status 1" in seen.err
    assert seen.err.endswith("lost: 2 of 2 bids are missing: bid 50 of Alpha, bid 50 of Beta\n")
    # (of a bid for all lots nobody is asked)
    assert find_lost(folder, "--bidder", "Beta", "--bid", 102, "--quiet").status == 0
    assert json.loads(folder.read("lost/Beta/102.json"))["needed"] == 1000 + 100 * 102


def test_lost_bids_as_a_data_frame(wdp: str) -> None:
    pytest.importorskip("pandas", reason="pandas isn't there")
    frame = certify(WORKED, wdp).lost("Alpha").to_frame()
    assert list(frame) == ["bidder", "bid", "amount", "needed", "lacked", "fate", "reason"]
    assert frame["needed"].tolist() == [62, 42]
    assert frame["reason"].tolist() == [None, "is dominated by bid 1"]


def test_a_certificate_with_comments(tmp_path: Path, wdp: str) -> None:
    """Numbers as programs have them, names that come twice, and a comment beyond ASCII."""
    outcome = certify(WORKED, wdp)
    certificate = outcome.certificates[0]
    assert certificate.startswith("bound 1 ")
    rewritten = certificate.replace("bound 1 ", "# caf\xe9 split 0\n\nbound 1.0 C1 0e1 ", 1)
    audit = tmp_path / "audit.txt"
    audit.write_bytes(outcome.audit.replace(certificate.encode(), rewritten.encode(), 1))
    again = package.Auction.from_audit(audit, program=wdp).outcome
    assert again is not None
    assert again.certificates[0] == rewritten
    assert [bid.needed for bid in again.lost("Alpha")] == [62, 42]


# what is asked for in Python, and what is wrong with it
WRONG_CALLS = {
    "there is no bidder Alpa; the nearest name is Alpha": {"bidder": "Alpa"},
    "bid 1 of Alpha won": {"bidder": "Alpha", "bid": 1},
    "there is no bid 9": {"bid": 9},
    "time_limit: -1 is no number of seconds above 0": {"time_limit": -1},
    "a solver is cbc, highs, or a command with {mps} in it, on one line": {"solver": ""},
}


def test_wrong_arguments_of_lost(wdp: str) -> None:
    outcome = certify(WORKED, wdp)
    for message, arguments in WRONG_CALLS.items():
        with pytest.raises(package.WrongArgument) as caught:
            outcome.lost(**arguments)  # type: ignore[arg-type]
        assert str(caught.value) == message
