"""Inequalities by rounding: each holds of all points, and so do the lines that show it."""
import random
from collections.abc import Sequence

import numpy as np
import pytest

from oracle import Checker
from test_problem import make_wide_program
from tied_auctions import subsets
from wdp.certify import search
from wdp.certify.layout import Layout
from wdp.certify.other_points import Beaten, UniquenessSearch
from wdp.certify.problem import Problem
from wdp.certify.rounding import LARGEST, MOST_CHOICES, Inequality, Rounding, list_multipliers
from wdp.certify.search import CertificateSearch, Hints
from wdp.certify.strengthening import Strengthening
from wdp.texts.zero_one import AT_LEAST, AT_MOST, EQUAL, Column, Row, ZeroOne
from zero_one_programs import draw_small_program

HALVES = np.array([0.5, 0.5, 0.5])
# the most shared rows with a multiplier, of each divisor
MOST_ROWS = {2: 6, 3: 3, 4: 2, 5: 2}


def list_points(program: ZeroOne) -> list[set[int]]:
    """All points of a small program."""
    points: list[set[int]] = [set(places) for places in subsets(range(len(program.columns)))]
    return [ones for ones in points if program.find_fault(ones) is None]


def format_alone(layout: Layout, inequality: Inequality, above: int) -> bytes:
    """A certificate that shows one inequality, below so many splits without columns.

    On the first side nothing is shown, which a leaf without multipliers says of a bound that is low
    enough.
    """
    lines = ["split 0"] * above + [inequality.format_split(layout)]
    lines += ["bound 1" + " 0" * (above + 1), inequality.format_leaf(layout, above)]
    lines += ["bound 1" + " 0" * depth for depth in range(above, 0, -1)]
    return "".join(f"{line}\n" for line in lines).encode()


def check_inequalities(layout: Layout, inequalities: Sequence[Inequality]) -> None:
    """Each point meets them, and the checker has no point on the second side of their splits."""
    program = layout.program
    checker = Checker(program)
    low = sum(min(0, column.cost) for column in program.columns)
    for above, inequality in enumerate(inequalities):
        for ones in list_points(program):
            free = sorted(ones - layout.fixed_ones)
            assert sum(inequality.row.numbers[free]) <= inequality.row.limit
        text = format_alone(layout, inequality, above)
        assert checker.verdict(low, text) == (None, [])


def draw_with_small_costs(draw: random.Random) -> ZeroOne:
    """Rows turned round, equations, columns that are fixed or without a block, and coefficients of
    both signs.
    """
    program = draw_small_program(draw)
    for column in program.columns:
        column.cost = -draw.randrange(1, 20)
    return program


@pytest.mark.parametrize("seed", range(4))
def test_each_inequality_against_all_points(seed: int) -> None:
    draw = random.Random(seed)
    count = 0
    other_kinds = 0
    while count < 40:
        program = draw_with_small_costs(draw)
        layout = Layout(program)
        if not list_points(program) or not layout.blocks.members:
            continue
        values = np.array([draw.choice([0, 0.2, 0.5, 0.5, 0.8]) for _ in program.columns])
        inequalities = list(Rounding(layout).find_broken(values * layout.is_open))
        check_inequalities(layout, inequalities)
        count += len(inequalities)
        other_kinds += sum(row.kind != AT_MOST for row in program.rows)
    assert other_kinds


def make_odd(sides: Sequence[tuple[str, int]]) -> ZeroOne:
    """Three bids for one lot each of two of three categories: halves of all are the best
    fractions.
    """
    rows = [Row(f"C{number}", kind, side) for number, (kind, side) in enumerate(sides, 1)]
    signs = [-1 if kind == AT_LEAST else 1 for kind, _ in sides]
    columns = []
    for number, pair in enumerate([(0, 1), (0, 2), (1, 2)], 1):
        columns.append(Column(f"X{number}_1", -2, [(place, signs[place]) for place in pair]))
    return ZeroOne(rows, columns)


@pytest.mark.parametrize("kinds", [AT_MOST * 3, AT_LEAST + AT_MOST * 2, AT_LEAST * 3])
def test_of_three_in_pairs_one_at_most_wins(kinds: str) -> None:
    """Of the three sums of two at most 1 comes: all three at most 1, whichever way the rows are
    turned.
    """
    signs = [-1 if kind == AT_LEAST else 1 for kind in kinds]
    layout = Layout(make_odd(list(zip(kinds, signs, strict=True))))
    (inequality,) = Strengthening(layout, layout.is_open, -2).find_inequalities(60)
    assert inequality.row.numbers.tolist() == [1, 1, 1]
    assert inequality.row.limit == 1
    assert inequality.format_split(layout) == "split 1 X1_1 1 X2_1 1 X3_1 1"
    rows = " ".join(f"C{number} {sign}" for number, sign in enumerate(signs, 1))
    assert inequality.format_leaf(layout, 2) == f"bound 0 0 0 2 {rows}"
    check_inequalities(layout, [inequality])


def test_equations_count_both_ways() -> None:
    rows = [Row("E", EQUAL, 1), Row("C2", AT_MOST, 1), Row("C3", AT_MOST, 1)]
    layout = Layout(ZeroOne(rows, make_odd([(AT_MOST, 1)] * 3).columns))
    inequalities = Rounding(layout).find_worst(HALVES)
    assert inequalities
    check_inequalities(layout, inequalities)


def test_rows_of_small_numbers_are_rounded() -> None:
    rounding = Rounding(Layout(make_odd([(AT_MOST, 1)] * 3)))
    assert list(rounding.find_broken(HALVES))


def test_rows_of_large_numbers_are_left_alone() -> None:
    program = make_odd([(AT_MOST, LARGEST)] * 3)
    for column in program.columns:
        column.entries = [(row, LARGEST) for row, _ in column.entries]
    rounding = Rounding(Layout(program))
    assert not rounding.is_usable.any()
    assert list(rounding.find_broken(HALVES)) == []


@pytest.mark.parametrize("rows", [0, 1, 3, 12])
@pytest.mark.parametrize("divisor", MOST_CHOICES)
def test_multipliers_that_are_tried(divisor: int, rows: int) -> None:
    multipliers = list_multipliers(rows, divisor)
    assert multipliers.shape[1] == rows
    assert len(multipliers) <= MOST_CHOICES[divisor]
    assert (multipliers >= 0).all()
    assert (multipliers < divisor).all()
    used = (multipliers != 0).sum(1)
    assert (used > 0).all()
    assert (used <= MOST_ROWS[divisor]).all()
    assert len({tuple(line) for line in multipliers.tolist()}) == len(multipliers)


@pytest.mark.parametrize("seed", range(3))
def test_they_raise_the_bound(seed: int) -> None:
    layout = Layout(make_wide_program(seed, bidders=5, bids=30))
    optimum = CertificateSearch(layout, set())
    optimum.find_certificate()
    strengthening = Strengthening(layout, layout.is_open, optimum.least)
    inequalities = strengthening.find_inequalities(60)
    plain = strengthening.relax([], layout.is_open)
    stronger = strengthening.relax(inequalities, layout.is_open)
    assert plain is not None
    assert stronger is not None
    assert plain.objective <= stronger.objective
    assert stronger.objective <= strengthening.goal + 1e-6
    assert not inequalities or stronger.objective > plain.objective


@pytest.mark.parametrize("lines", [0, 3, 10**9])
@pytest.mark.parametrize("seed", range(4))
def test_certificates_with_them(monkeypatch: pytest.MonkeyPatch, seed: int, lines: int) -> None:
    """Whenever the search begins again with them, the checker accepts the text, and for no more."""
    monkeypatch.setattr(search, "_PLAIN_LINES", lines)
    monkeypatch.setattr(search, "_COLUMNS_OF_LINE", 10**9)
    program = make_wide_program(seed, bidders=4, bids=12)
    optimum = CertificateSearch(Layout(program), set())
    text = optimum.find_certificate()
    assert bool(optimum.tree.head) == (lines < 10**9)
    checker = Checker(program)
    assert checker.verdict(optimum.least, text) == (None, [])
    assert checker.verdict(optimum.least + 1, text).fault is not None
    others = UniquenessSearch(Layout(program), [optimum.ones])
    try:
        assert checker.only_verdict([optimum.ones], others.find_certificate()) == (None, [])
    except Beaten as beaten:
        assert beaten.gain == 0


@pytest.mark.parametrize("seed, bidders, bids", [(37, 2, 4), (55, 2, 2), (97, 3, 2)])
def test_a_complete_tree_is_not_begun_again(
    monkeypatch: pytest.MonkeyPatch, seed: int, bidders: int, bids: int
) -> None:
    """A search with known inequalities takes them up only if something is left to be shown. (Each
    of these programs has a tree of three lines, which is complete when they could be taken up.)
    """

    def strengthen(self: CertificateSearch, prices: list[int]) -> bool:
        assert self.tree.tasks, "a complete tree was begun again"
        self._is_strong = True
        return False

    program = make_wide_program(seed, bidders=bidders, bids=bids)
    optimum = CertificateSearch(Layout(program), set())
    optimum.find_certificate()
    monkeypatch.setattr(CertificateSearch, "_strengthen", strengthen)
    hints = Hints(known_rows="2 C1 1\n")
    again = CertificateSearch(Layout(program), optimum.ones, hints=hints)
    assert len(again.find_certificate().splitlines()) == 3


def find_with_bidders(problem: Problem) -> list[str]:
    """The multipliers of a problem's inequalities, a line each."""
    strengthening = Strengthening(problem.layout, problem.layout.is_open, 0)
    inequalities = strengthening.find_inequalities(60)
    assert inequalities
    return [inequality.format_multipliers(problem.layout) for inequality in inequalities]


@pytest.mark.parametrize("seed", range(3))
def test_multipliers_come_to_the_same_where_they_were_found(seed: int) -> None:
    layout = Layout(make_wide_program(seed, bidders=4, bids=4))
    inequalities = Strengthening(layout, layout.is_open, 0).find_inequalities(60)
    assert inequalities
    for inequality in inequalities:
        text = inequality.format_multipliers(layout)
        again = Rounding(layout).parse(text)
        assert again.format_multipliers(layout) == text
        assert again.row.limit == inequality.row.limit
        assert (again.row.numbers == inequality.row.numbers).all()


@pytest.mark.parametrize("seed", range(3))
def test_multipliers_serve_a_program_with_fewer_bidders(seed: int) -> None:
    """They hold of all points where a bidder is missing."""
    problem = Problem(Layout(make_wide_program(seed, bidders=4, bids=4)))
    fewer = problem.leave_out({2})
    for text in find_with_bidders(problem):
        inequality = Rounding(fewer.layout).parse(text)
        assert " B2 " not in inequality.format_multipliers(fewer.layout)
        check_inequalities(fewer.layout, [inequality])
