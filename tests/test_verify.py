"""`wdp verify` beside an independent checker, and all that can win in small auctions, listed from the definitions over all bids.
(What else is refused is shown by cases.)

- What the search among all other points comes to is claimed: `unique` is printed if the list has one allocation of the greatest
  total, and else `tie` and another of the list, or all others, and `no other`, if these have bids without a column.
- Of damaged certificates the report is printed if the checker finds the bound shown, and else the number, the kind and the line of its
  first fault. If the checker says that a sum could leave 128 bits at a line, `wdp` may stop there.
"""

import random
import re

import pytest
import tied_auctions as tied
from commands import ROOT, run_program
from damage import damage_certificate
from oracle import Checker
from trials.program_runs import KINDS, done, refused, row, seen
from wdp.certify.layout import Layout
from wdp.certify.other_points import Beaten, UniquenessSearch
from wdp.certify.search import CertificateSearch
from wdp.texts.zero_one import read_program, read_solution, format_solution

# so many auctions are tried in one test
COUNT = 25
# an auction of each kind that has to come up
NUMBERS = {"tie": 0, "only": 1, "only nobody": 2, "tie by a bid without a column": 10}


def programs_of(wdp, text):
    pieces = run_program(wdp, "compile", text).split(b"* program ")[1:]
    return [read_program(b"* " + piece) for piece in pieces]


def point_of(program, allocation):
    """The point at which these bids win, or None where one of them has no column."""
    places = [program.column_places.get("X%d_%d" % winner) for winner in allocation]
    fixed = {place for place, column in enumerate(program.columns) if column.lower == 1}
    return None if None in places else fixed.union(places)


class Group:
    """A group of an auction: what is won without it, as one of the allocations of greatest total, and its certificate."""

    def __init__(self, auction, program, left_out, draw):
        self.program = program
        self.best = tied.greatest(auction, left_out)
        self.kept = [it for it in self.best if point_of(program, it) is not None]
        assert self.kept, "nothing of the greatest total has columns"
        self.won = draw.choice(self.kept)
        self.ones = point_of(program, self.won)
        self.certificate = CertificateSearch(Layout(program), self.ones).find_certificate()
        verdict = Checker(program).verdict(program.compute_objective(self.ones), self.certificate)
        assert verdict == (None, [])


def answered(auction, text, groups, answers):
    """The input with what answers its groups, and the report on it."""
    text += b"".join(b"%solution\n" + format_solution(it.ones, it.program) for it in answers)
    text += b"".join(b"%certificate\n" + it.certificate for it in answers)
    return text, tied.report_text(auction, groups, [it.won for it in answers])


def claimed(wdp, number):
    """What an auction is called here, where all is as it has to be."""
    draw = random.Random(f"1 {number}")
    auction = tied.random_auction(draw)
    groups = [()] + [(draw.randrange(1, len(auction.forms) + 1),)] * (draw.random() < 0.3)
    text = tied.input_text(auction, groups).encode()
    programs = programs_of(wdp, text)
    answers = [Group(auction, *it, draw) for it in zip(programs, groups, strict=True)]
    text, report = answered(auction, text, groups, answers)
    first = answers[0]

    def expect(claim, outcome):
        with row(f"auction {number}: {tied.input_text(auction, [()])}"):
            assert seen(wdp, ["verify"], text + claim) == done(report + outcome)

    search = UniquenessSearch(Layout(first.program), [first.ones])
    try:
        only = b"%unique\n" + search.find_certificate()
    except Beaten as beaten:
        other = next(it for it in first.kept if point_of(first.program, it) == search.ones)
        assert beaten.gain == 0 and other != first.won
        claim = b"%tie\n" + format_solution(search.ones, first.program)
        expect(claim, "tie\n" + tied.winners_text(auction, other))
        return "tie"
    assert first.kept == [first.won]
    verdict = Checker(first.program).only_verdict([first.ones], only.removeprefix(b"%unique\n"))
    assert verdict == (None, [])
    if first.best == [first.won]:
        expect(only, "unique\n")
        return "only" if first.won else "only nobody"
    # bids without a column may still do as well in winners' places
    following = sorted(set(first.best) - {first.won}, key=lambda award: order(first.won, award))
    ties = [f"tie\n{tied.winners_text(auction, award)}" for award in following]
    expect(only, "".join(ties) + "no other\n")
    return "tie by a bid without a column"


def order(won, award):
    """What awards of the same winners are ordered by: each winner's own bid comes first, and then the others by number."""
    pairs = zip(won, award, strict=True)
    return [0 if winner == own else winner[1] for own, winner in pairs]


@pytest.mark.parametrize("first", range(0, 1_000, COUNT))
def test_winners(wdp, first):
    kinds = {number: claimed(wdp, number) for number in range(first, first + COUNT)}
    assert first or [kinds[number] for number in NUMBERS.values()] == list(NUMBERS)


# so many certificates are tried in one test; a solution, an auction, and what is damaged
DAMAGES = 200
CERTIFICATES = ROOT / "fixtures/certificates"


class Certified:
    """An auction with a certificate of its total, or one that no other is as good, which is the last part of a text, and is damaged."""

    def __init__(self, wdp, text):
        parts = re.split(rb"(?m)^%(\w+)\n", text)
        of = dict(zip(parts[1::2], parts[2::2]))
        kind = parts[-2]
        self.damaged = parts[-1]
        self.before = text.removesuffix(self.damaged)
        uncertified = text.partition(b"%certificate")[0]
        program = programs_of(wdp, uncertified.removeprefix(b"%solution\n" + of[b"solution"]))[0]
        ones = read_solution(of[b"solution"], program, "the solution")
        checker = Checker(program)
        self.report = seen(wdp, ["report"], uncertified)[1]
        self.what = "certificate 1"
        self.judge = lambda it: checker.verdict(program.compute_objective(ones), it)
        if kind == b"unique":
            self.report = self.report + b"unique\n"
            self.what = "unique"
            self.judge = lambda it: checker.only_verdict([ones], it)

    def wanted(self, certificate):
        """What wdp may say: status, output and standard error."""
        fault, large_lines = self.judge(certificate)
        faults = [(fault.line, fault.kind)] if fault else []
        faults += [(line, "TooLarge") for line in large_lines]
        told = [f"{KINDS.index(kind) + 1} {kind} at line {line}" for line, kind in faults]
        shown = [] if fault else [done(self.report)]
        return [refused(f"{self.what}: {it}") for it in told] + shown


@pytest.fixture(scope="module")
def prepared(wdp):
    return [Certified(wdp, path.read_bytes()) for path in sorted(CERTIFICATES.iterdir())]


@pytest.mark.parametrize("first", range(0, 10_000, DAMAGES))
def test_damaged(wdp, prepared, first):
    """The first copies are whole."""
    for number in range(first, first + DAMAGES):
        auction = prepared[number % len(prepared)]
        is_whole = number < len(prepared)
        whole = auction.damaged, []
        certificate, names = whole if is_whole else damage_certificate(auction.damaged, "1", number)
        with row(f"certificate {number} ({'+'.join(names)})"):
            wanted = auction.wanted(certificate)
            assert not is_whole or wanted == [done(auction.report)]
            assert seen(wdp, ["verify"], auction.before + certificate) in wanted
