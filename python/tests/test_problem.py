"""A program that is read once: by whole columns, without some bidders, with other costs, and what a
solver gets of it.
"""
import random
from collections.abc import Iterator

import pytest

from commands import EXAMPLES, read_text, run_program
from wdp.certify.bounds import Bound
from wdp.certify.layout import Layout
from wdp.certify.nodes import Node
from wdp.certify.problem import MOST_OF_BLOCK, Problem
from wdp.certify.root import find_root_prices, solve_prices
from wdp.solve import find_empty_solution
from wdp.texts.refusals import Unclear
from wdp.texts.zero_one import (
    AT_MOST,
    Column,
    FastReader,
    Row,
    ZeroOne,
    format_program,
    read_program,
)

SMALL = read_text("fixtures", "solvers", "three.mps").encode()
NAMES = ["worked", "worked_pool", "spectrum_cap", "twelve_bands"]


def compile_groups(wdp: str, data: bytes) -> Iterator[tuple[list[int], bytes]]:
    """The bidders that each group of an input leaves out, by their numbers, and its program's
    text.
    """
    names = [line.split(b",")[1] for line in data.splitlines() if line.startswith(b"bidder,")]
    for part in run_program(wdp, "compile", data).split(b"* program ")[1:]:
        head, _, text = part.partition(b"\n")
        left_out = head.split()[1].split(b"+")
        yield [number for number, name in enumerate(names, 1) if name in left_out], text


def make_wide_program(seed: int, *, bidders: int = 6, bids: int = 200) -> ZeroOne:
    """An auction in which each bidder has many bids, so that a solver gets a part of them."""
    draw = random.Random(seed)
    supply = [5, 7, 4, 9]
    rows = [Row(f"B{number}", AT_MOST, 1) for number in range(1, bidders + 1)]
    rows += [Row(f"C{number}", AT_MOST, lots) for number, lots in enumerate(supply, 1)]
    columns = []
    for bidder in range(bidders):
        for bid in range(1, bids + 1):
            lots = [draw.randrange(most + 1) for most in supply]
            worth = sum(draw.randrange(90, 111) * count for count in lots)
            entries = [(bidder, 1)]
            entries += [(bidders + place, count) for place, count in enumerate(lots) if count]
            columns.append(Column(f"X{bidder + 1}_{bid}", -worth, entries))
    return ZeroOne(rows, columns)


@pytest.mark.parametrize("name", NAMES)
def test_texts_of_the_program_are_read_by_columns(wdp: str, name: str) -> None:
    for _, text in compile_groups(wdp, (EXAMPLES / f"{name}.txt").read_bytes()):
        by_columns = FastReader(text).read()
        by_lines = read_program(b"* a comment\n" + text)
        assert by_columns.rows == by_lines.rows
        assert by_columns.columns == by_lines.columns


NEARLY_THE_SAME = [
    ("ENDATA\n", "ENDATA\n\n"),
    (" X1_1 B1 1\n", " X1_1 B1 1.0\n"),
    (" X1_1 B1 1\n", " X1_1 B1 1 C1 1\n"),
    (" X1_1 B1 1\n", " X1_1 B1 1\n X1_1 C2 0\n"),
    (" UP BND X1_1 1\n", " BV BND X1_1\n"),
    (" UP BND X1_1 1\n UP BND X1_2 1\n", " UP BND X1_2 1\n UP BND X1_1 1\n"),
    (" X2_1 OBJ -20\n X2_1 B2 1\n", " X2_1 B2 1\n X2_1 OBJ -20\n"),
]


@pytest.mark.parametrize("old, new", NEARLY_THE_SAME)
def test_texts_that_are_written_otherwise_are_read_by_lines(old: str, new: str) -> None:
    text = SMALL.replace(old.encode(), new.encode(), 1)
    assert text != SMALL
    with pytest.raises((KeyError, ValueError)):
        FastReader(text).read()
    assert [column.cost for column in read_program(text).columns] == [-30, -50, -20, -12]


def test_texts_that_are_cut_off() -> None:
    for end in range(len(SMALL) - 1):
        with pytest.raises(Unclear):
            read_program(SMALL[:end])


@pytest.mark.parametrize("name", NAMES)
def test_a_group_is_group_1_without_some_bidders(wdp: str, name: str) -> None:
    (_, first), *others = compile_groups(wdp, (EXAMPLES / f"{name}.txt").read_bytes())
    whole = Problem.read(first)
    assert others
    for left_out, text in others:
        derived = whole.leave_out(left_out)
        assert derived.format() == format_program(read_program(text))
        read = Problem.read(text)
        assert derived.prices == read.prices
        assert derived.format_promising() == read.format_promising()
        nobody = find_empty_solution(text)
        assert derived.find_optimum(nobody) == read.find_optimum(nobody)


@pytest.fixture
def worked(wdp: str) -> Problem:
    _, text = next(compile_groups(wdp, (EXAMPLES / "worked.txt").read_bytes()))
    return Problem.read(text)


def test_a_surplus_raises_the_costs_of_its_bidder(worked: Problem) -> None:
    raised = worked.raise_costs({1: 7, 3: 2})
    costs = {column.name: column.cost for column in raised.program.columns}
    assert costs == {"X1_1": -23, "X1_2": -43, "X2_1": -20, "X3_1": -10}


def test_costs_are_in_parts_and_what_all_lots_are_worth_is_in_none() -> None:
    """It is the cost of `K`, which is the same at every point."""
    columns = [
        Column("X1_1", -30, [(0, 1)]),
        Column("X2_1", -20, [(0, 1)]),
        Column("K", -40, lower=1),
    ]
    problem = Problem(Layout(ZeroOne([Row("C1", AT_MOST, 1)], columns)))
    raised = problem.raise_costs({1: 9}, parts=2)
    assert [column.cost for column in raised.program.columns] == [-51, -40, 0]


def test_other_costs_leave_the_problem_as_it_is(worked: Problem) -> None:
    worked.raise_costs({1: 7, 3: 2})
    assert [column.cost for column in worked.program.columns] == [-30, -50, -20, -12]


def test_an_optimum_with_other_costs_is_the_same_from_each_solution(worked: Problem) -> None:
    raised = worked.raise_costs({1: 7, 3: 2})
    from_nobody = raised.find_optimum(b"").solution
    assert from_nobody == raised.find_optimum(b"X1_2 1\n").solution


@pytest.mark.parametrize("seed", range(5))
def test_prices_of_few_columns_are_as_good_as_those_of_all(seed: int) -> None:
    layout = Layout(make_wide_program(seed))
    root = Node(layout.is_open)
    few = find_root_prices(layout, 60)
    of_all = solve_prices(layout, layout.is_open, 60)
    assert of_all is not None
    values = [Bound(layout, root, prices=prices).value for prices in (few, of_all)]
    assert abs(values[0] - values[1]) <= 2 * layout.rounding_loss


@pytest.mark.parametrize("seed", range(3))
def test_a_solver_gets_the_promising_columns(seed: int) -> None:
    program = make_wide_program(seed)
    problem = Problem(Layout(program))
    reduced = problem.root.compute_reduced_costs()
    part = read_program(problem.format_promising())
    assert part.rows == program.rows
    names = {column.name for column in part.columns}
    for bidder in range(1, 7):
        places = [place for place, holder in enumerate(problem.holders) if holder == bidder]
        taken = [place for place in places if program.columns[place].name in names]
        rest = [place for place in places if program.columns[place].name not in names]
        assert len(taken) == MOST_OF_BLOCK
        assert reduced[taken].max() <= reduced[rest].min()


@pytest.mark.parametrize("seed", range(3))
def test_half_of_the_columns_are_no_small_part(seed: int) -> None:
    problem = Problem(Layout(make_wide_program(seed, bids=150)))
    assert problem.format_promising().count(b" OBJ ") == 6 * 150


def test_a_program_without_columns() -> None:
    nobody = ZeroOne([Row("B1", AT_MOST, 1), Row("C1", AT_MOST, 2)], [])
    assert format_program(nobody) == b"NAME wdp\nROWS\n N OBJ\nCOLUMNS\nRHS\nENDATA\n"


@pytest.fixture
def free_problem() -> Problem:
    """A problem without rows, in which a column is fixed to 1."""
    return Problem(Layout(ZeroOne([], [Column("K", -80, [], 1, 1), Column("X1_1", -3)])))


def test_a_small_program_is_promising(free_problem: Problem) -> None:
    assert free_problem.format_promising() == free_problem.format()


def test_an_optimum_of_a_program_without_rows(free_problem: Problem) -> None:
    assert free_problem.find_optimum(b"K 1\n").solution == b"K 1\nX1_1 1\n"
