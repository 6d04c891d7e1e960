"""All awards of a tie: of small random auctions beside a list of all that can win, made from the
definitions over all bids; auctions of the command; and awards that are made the first.
"""
import json
import random
from collections.abc import Sequence
from itertools import islice
from pathlib import Path
from typing import Any, NamedTuple

import pytest
import tied_auctions
from commands import SCHEMA, AuctionFolder, parse_rows, run, run_program
from tied_auctions import BIDDERS
from trials.program_runs import row

import wdp as package
from wdp import audits

AUCTIONS = 1_000
BLOCK = 25
# so many of the random auctions have to be of each kind
KINDS = {
    "a tie": 300,
    "a tie of three or more": 80,
    "a tie of bids that all have columns": 100,
    "a tie by a bid without a column": 100,
    "no tie": 100,
    "a pool": 50,
    "a value of unsold lots": 100,
    "nobody wins": 100,
}
Award = tuple[tuple[int, int], ...]  # winners (bidder, bid), each numbered from 1


def make_auction(number: int) -> tied_auctions.Auction:
    """The random auction of this number."""
    return tied_auctions.random_auction(random.Random(f"all awards {number}"))


def list_winners(award: package.Allocation) -> Award:
    """The winners as the definitions have them."""
    return tuple((BIDDERS.index(winner.bidder) + 1, winner.bid) for winner in award.winners)


def format_ending(auction: tied_auctions.Auction, awards: Sequence[Award]) -> tuple[list[str], str]:
    """What `wdp verify` prints after the report, in any order of the awards but the first."""
    texts = [f"tie\n{tied_auctions.winners_text(auction, award)}" for award in awards[1:]]
    return sorted(texts), "no other\n" if texts else "unique\n"


def read_ending(output: str) -> tuple[list[str], str]:
    """The awards after the report that `wdp verify` prints, and the last line."""
    _, *ties = output.removesuffix("unique\n").removesuffix("no other\n").split("tie\n")
    return sorted(f"tie\n{text}" for text in ties), output.splitlines(keepends=True)[-1]


def check_awards(wdp: str, auction: tied_auctions.Auction) -> None:
    """The awards are those of the greatest total, each once, and so `wdp verify` says."""
    text = tied_auctions.input_text(auction, [()])
    certified = package.Auction.from_text(text, program=wdp).certify(ties=True)
    awards = [list_winners(award) for award in certified.report.awards]
    assert certified.report.has_all_awards
    assert sorted(awards) == sorted(tied_auctions.greatest(auction))
    printed = run_program(wdp, "verify", certified.audit).decode()
    assert read_ending(printed) == format_ending(auction, awards)


@pytest.mark.parametrize("first", range(0, AUCTIONS, BLOCK))
def test_the_awards_of_random_auctions_are_all(wdp: str, first: int) -> None:
    for number in range(first, first + BLOCK):
        auction = make_auction(number)
        with row(f"auction {number}: {tied_auctions.input_text(auction, [()])}"):
            check_awards(wdp, auction)


def compute_net(auction: tied_auctions.Auction, bid: tied_auctions.Bid) -> int:
    return int(bid.amount - tied_auctions.weighed(auction.values, bid.package))


def dominates(
    auction: tied_auctions.Auction, bid: tied_auctions.Bid, other: tied_auctions.Bid
) -> bool:
    """Whether a bid of the same form asks for less than another one, and brings as much."""
    pairs = zip(bid.package, other.package, strict=True)
    is_smaller = bid.package != other.package and all(lots <= most for lots, most in pairs)
    return is_smaller and compute_net(auction, bid) >= compute_net(auction, other)


def is_kept(auction: tied_auctions.Auction, bidder: int, number: int) -> bool:
    """Whether no other bid of the form is at least as good, so that the bid has a column, if the
    lots suffice for it.
    """
    form = auction.forms[bidder - 1]
    return not any(dominates(auction, other, form[number - 1]) for other in form)


def list_kinds(auction: tied_auctions.Auction) -> dict[str, bool]:
    """Of which kinds an auction is."""
    awards = tied_auctions.greatest(auction)
    is_tie = len(awards) > 1
    has_columns = all(is_kept(auction, *winner) for award in awards for winner in award)
    return {
        "a tie": is_tie,
        "a tie of three or more": len(awards) > 2,
        "a tie of bids that all have columns": is_tie and has_columns,
        "a tie by a bid without a column": not has_columns,
        "no tie": len(awards) == 1,
        "a pool": is_tie and len(auction.pools) > 0,
        "a value of unsold lots": is_tie and any(auction.values),
        "nobody wins": () in awards,
    }


def test_what_the_random_auctions_are() -> None:
    counts = dict.fromkeys(KINDS, 0)
    for number in range(AUCTIONS):
        for kind, is_so in list_kinds(make_auction(number)).items():
            counts[kind] += is_so
    assert {kind: count for kind, count in counts.items() if count < KINDS[kind]} == {}


def list_tied(most: int) -> list[int]:
    """The numbers of the first random auctions that have a tie."""
    numbers = (number for number in range(AUCTIONS) if list_kinds(make_auction(number))["a tie"])
    return list(islice(numbers, most))


def read_figures(auction: AuctionFolder, folder: str = "results") -> Any:
    """The figures of results, which are as the schema says."""
    figures = json.loads(auction.read(f"{folder}/results.json"))
    SCHEMA.validate(figures)
    return figures


class TiedRun(NamedTuple):
    """A random auction with a tie, and the folder of the command's run on it."""

    auction: tied_auctions.Auction
    data: bytes
    folder: AuctionFolder


@pytest.fixture(scope="module", params=list_tied(30))
def tied(
    request: pytest.FixtureRequest, tmp_path_factory: pytest.TempPathFactory, wdp: str
) -> TiedRun:
    auction = make_auction(request.param)
    data = tied_auctions.input_text(auction, [()]).encode()
    folder = AuctionFolder(tmp_path_factory.mktemp("tied") / "auction", wdp, data)
    folder.read_messages("--ties", "--jobs", 1)
    return TiedRun(auction, data, folder)


def test_the_command_lists_all_awards(tied: TiedRun) -> None:
    figures = read_figures(tied.folder)
    winners = [
        tuple((BIDDERS.index(winner["name"]) + 1, winner["bid"]) for winner in award["winners"])
        for award in figures["awards"]
    ]
    assert figures["proof"] == "all"
    assert sorted(winners) == sorted(tied_auctions.greatest(tied.auction))


def test_awards_are_numbered_from_1(tied: TiedRun) -> None:
    awards = read_figures(tied.folder)["awards"]
    assert [award["number"] for award in awards] == list(range(1, len(awards) + 1))


def test_the_first_award_is_that_of_the_report(tied: TiedRun) -> None:
    figures = read_figures(tied.folder)
    assert figures["awards"][0]["costs"] == [group["cost"] for group in figures["groups"]]


def test_the_number_of_jobs_changes_no_byte(tied: TiedRun, tmp_path: Path) -> None:
    four = AuctionFolder(tmp_path / "four", tied.folder.wdp, tied.data)
    four.read_messages("--ties", "--jobs", 4)
    assert four.read_outcome() == tied.folder.read_outcome()


# One lot, for which three offer 20, and another one, for which Delta offers 7 alone, as for both.
THREE = b"""\
%rules
rules,1,1,,
category,A,1,5,1
category,B,1,1,1
bidder,Alpha,9,1,
bidder,Beta,9,1,
bidder,Gamma,9,1,
bidder,Delta,9,1,
%form
Alpha,A,B
20,1,0
%form
Beta,A,B
20,1,0
%form
Gamma,A,B
20,1,0
%form
Delta,A,B
7,0,1
%groups
-
Delta
"""


@pytest.fixture
def three(tmp_path: Path, wdp: str) -> AuctionFolder:
    auction = AuctionFolder(tmp_path / "three", wdp, THREE)
    assert "proved: these 3 awards, and no other, reach" in auction.read_messages("--ties")
    return auction


@pytest.mark.parametrize("number", [1, 2, 3])
def test_an_award_that_is_made_the_first_changes_no_other_byte(
    three: AuctionFolder, number: int
) -> None:
    before = three.read_outcome()
    three.read_messages("--award", number)
    assert three.read_outcome() == before


@pytest.mark.parametrize("number", [2, 3])
def test_an_award_that_is_made_the_first(three: AuctionFolder, number: int) -> None:
    """Delta wins in each, and pays the reserve; the other winner pays what another one offers."""
    award = read_figures(three)["awards"][number - 1]
    winner = next(won["name"] for won in award["winners"] if won["name"] != "Delta")
    messages = three.read_messages("--award", number)
    assert f"award {number} is the first of" in messages
    audit = three.read(f"awards/{number}/audit.txt")
    printed = run_program(three.wdp, "verify", audit).decode()
    assert printed.startswith(f"group 1 -\n{winner} 1 20\nDelta 1 7\ntotal ")
    assert f"prices\n{winner} 20\nDelta 1\nsum 21\nby the rule\n" in printed
    assert printed.endswith("no other\n")
    assert audits.list_numbers(audit) == [number, *sorted({1, 2, 3} - {number})]


def forget(folder: AuctionFolder, *names: str) -> None:
    """Takes files away as if they had never been left."""
    for name in names:
        (folder.where / name).unlink()
        (folder.where / f"sums/{name}.sha256").unlink()


def test_prices_are_found_without_a_search_for_ties(three: AuctionFolder) -> None:
    """Only the winners and what they pay are printed."""
    forget(three, "ties.txt", "ties/1.txt", "ties/2.txt")
    result = run("prices", three.where, "--quiet", env=three.make_environment())
    assert result.status == 0
    assert [line.split()[0] for line in result.out.splitlines()][0::3] == ["Winner", "All"]
    assert not three.has("ties.txt")


def test_prices_of_an_audit_with_ties(three: AuctionFolder) -> None:
    audit = three.where / "audit.txt"
    priced = three.where / "priced.txt"
    result = run("prices", audit, "--output", priced, "--quiet", env=three.make_environment())
    assert result.status == 0
    assert "Award" not in result.out
    assert priced.read_bytes() == audit.read_bytes()


@pytest.mark.parametrize("audit, has_prices", [("audit.txt", False), ("awards/3/audit.txt", True)])
def test_a_drawn_award_is_published_with_its_prices(
    three: AuctionFolder, audit: str, has_prices: bool
) -> None:
    three.read_messages("--award", 3)
    files = [three.where / "input.txt", three.where / "report.txt"]
    options = ["--audit", three.where / audit, "--drawn", 3, "--output", three.where / "drawn"]
    assert run("results", *files, *options).status == 0
    figures = read_figures(three, "drawn")
    awards = figures["awards"]
    assert figures["award"] == 3
    assert figures["drawn"] == 3
    assert awards[0]["winners"] != awards[2]["winners"]
    assert figures["groups"][0]["winners"] == awards[2]["winners"]
    assert (figures["prices"] is not None) == has_prices


@pytest.mark.parametrize("kept", [0, 1, 2])
def test_awards_that_a_run_found_are_kept(three: AuctionFolder, kept: int) -> None:
    """A run that was cut goes on from them, and leaves the same bytes."""
    before = three.read_outcome()
    for name in ["ties.txt", *["ties/1.txt", "ties/2.txt"][kept:]]:
        (three.where / name).unlink()
    three.read_messages("--ties")
    assert three.read_outcome() == before
    assert three.has("ties/2.txt")


def make_many(count: int) -> bytes:
    """An auction of one lot, for which so many bidders offer the same."""
    names = [f"N{number}" for number in range(count)]
    lines = [
        "%rules",
        "rules,1,1,,",
        "category,A,1,5,1",
        *(f"bidder,{name},9,1," for name in names),
    ]
    for name in names:
        lines += ["%form", f"{name},A", "10,1"]
    return "".join(f"{line}\n" for line in [*lines, "%groups", "-"]).encode()


def test_more_awards_than_an_audit_lists(tmp_path: Path, wdp: str) -> None:
    auction = AuctionFolder(tmp_path / "many", wdp, make_many(66))
    messages = auction.read_messages("--ties", "--no-prices")
    figures = read_figures(auction)
    audit = auction.read("audit.txt")
    at_least = "at least these 65 awards reach the total of group 1: don't draw from these alone"
    assert at_least in messages
    assert "an audit lists no more awards: 64 beside the first" in messages
    assert figures["proof"] == "some"
    assert len(figures["awards"]) == 65
    assert audit.count(b"%tie\n") == 64
    assert b"%unique" not in audit


def test_awards_of_a_search_that_did_not_end_may_not_be_all(three: AuctionFolder) -> None:
    forget(three, "ties.txt", "ties/2.txt")
    messages = three.read_messages()
    audit = three.read("audit.txt")
    at_least = "at least these 2 awards reach the total of group 1: don't draw from these alone"
    assert at_least in messages
    assert read_figures(three)["proof"] == "some"
    assert audit.count(b"%tie\n") == 1
    assert b"%unique" not in audit


# Alpha offers as much for two lots as for one, and so does Beta.
FOUR_LOTS = b"""\
%rules
rules,1,1,,
category,A,4,5,1
bidder,Alpha,9,1,
bidder,Beta,9,1,
%form
Alpha,A
30,1
30,2
%form
Beta,A
40,1
40,2
%groups
-
"""


@pytest.fixture
def four(tmp_path: Path, wdp: str) -> AuctionFolder:
    return AuctionFolder(tmp_path / "four", wdp, FOUR_LOTS)


# the number of an award that can't be the first, and why
REFUSED = """
2 | award 2 can't be the first of an audit: bid 2 of Beta is in no program | 1
3 | award 3 can't be the first of an audit: bid 2 of Alpha is in no program | 1
4 | award 4 can't be the first of an audit: bid 2 of Alpha is in no program | 1
5 | there is no award 5: there are 4 awards | 2
0 | argument --award: it takes a number of an award, not '0' | 2
"""


@pytest.mark.parametrize("number, why, status", parse_rows(REFUSED))
def test_an_award_that_cannot_be_the_first(
    four: AuctionFolder, number: str, why: str, status: str
) -> None:
    assert why in four.read_messages("--award", number, status=int(status))
    assert not four.has("awards")


def test_the_awards_of_four_lots(four: AuctionFolder) -> None:
    messages = four.read_messages("--ties")
    awards = read_figures(four)["awards"]
    bids = [[winner["bid"] for winner in award["winners"]] for award in awards]
    assert "proved: these 4 awards, and no other, reach the total of group 1" in messages
    assert bids == [[1, 1], [1, 2], [2, 1], [2, 2]]
    assert [award["can_be_first"] for award in awards] == [True, False, False, False]


# options that don't go together
WRONG = """
--award 2 --step report | --award goes with DIR, and not with --step
--award 2 --no-certify | --ties needs certificates, and --no-certify makes none
"""


@pytest.mark.parametrize("options, why", parse_rows(WRONG))
def test_options_that_do_not_go_together(four: AuctionFolder, options: str, why: str) -> None:
    assert why in four.read_messages(*options.split(), status=2)


def test_an_award_of_no_folder(four: AuctionFolder) -> None:
    messages = four.read_messages("--award", 2, folder=False, status=2)
    assert "--award goes with DIR, and not with --step" in messages


# a certificate by two points, and by these in the other order
LINES = """
bound 1 2 3 4 B1 5 | bound 1 3 2 4 B1 5
bound 0 2 3 | bound 0 3 2
split 0 X1_1 1 | split 0 X1_1 1
# bound 1 2 3 | # bound 1 2 3
"""


@pytest.mark.parametrize("line, wanted", parse_rows(LINES))
def test_multipliers_of_points_in_another_order(line: str, wanted: str) -> None:
    assert audits._reorder_points(f"{line}\n".encode(), [1, 0]) == f"{wanted}\n".encode()


# an audit of three awards with each of them first
BY_FIRST = {
    1: b"""\
%solution
X1_1 1
%certificate
bound 1
%tie
X2_1 1
%tie
X3_1 1
%unique
bound 1 7 8 9 B1 2
%rules
""",
    2: b"""\
%solution
# award 2
X2_1 1
%certificate
bound 1
%tie
# award 1
X1_1 1
%tie
# award 3
X3_1 1
%unique
bound 1 8 7 9 B1 2
%rules
""",
    3: b"""\
%solution
# award 3
X3_1 1
%certificate
bound 1
%tie
# award 1
X1_1 1
%tie
# award 2
X2_1 1
%unique
bound 1 9 7 8 B1 2
%rules
""",
}


@pytest.mark.parametrize("before", BY_FIRST)
@pytest.mark.parametrize("number", BY_FIRST)
def test_an_audit_with_another_award_first(before: int, number: int) -> None:
    assert audits.put_first(BY_FIRST[before], number) == BY_FIRST[number]
