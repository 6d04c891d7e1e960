"""Certificates: what is optimal gets one that the oracle accepts, a better point is found, and so
is a tie.

tests/test_verify.py holds the oracle beside the proved program.
"""
import itertools
import random
from collections.abc import Callable
from pathlib import Path
from typing import NamedTuple

import pytest

from commands import hide_library, read_text, run
from damage import OF_CERTIFICATE, damage_certificate
from oracle import Checker
from tied_auctions import subsets
from wdp.certify.layout import Layout
from wdp.certify.limits import LimitReached
from wdp.certify.other_points import Beaten, UniquenessSearch
from wdp.certify.problem import Problem
from wdp.certify.search import CertificateSearch
from wdp.certify.ties import find_ties
from wdp.texts.answers import MOST_TIES
from wdp.texts.zero_one import (
    AT_MOST,
    Column,
    Row,
    ZeroOne,
    format_solution,
    read_program,
    read_solution,
)
from zero_one_programs import draw_near_tied_bids, draw_small_program, make_alike, make_auction


class Certificate(NamedTuple):
    """The best point of a search, and the text that shows it."""

    ones: set[int]
    text: bytes


def certify(program: ZeroOne, ones: set[int]) -> Certificate:
    """What a search comes to from a point; its certificate shows the least objective, and not one
    more.
    """
    search = CertificateSearch(Layout(program), set(ones))
    text = search.find_certificate()
    least = program.compute_objective(search.ones)
    assert search.least == least
    assert program.find_fault(search.ones) is None
    checker = Checker(program)
    assert checker.verdict(least, text) == (None, [])
    assert checker.verdict(least + 1, text).fault is not None
    return Certificate(search.ones, text)


def is_only(program: ZeroOne, ones: set[int]) -> bool:
    """Whether the search among all other points shows that there is none as good; else another one
    is found.
    """
    search = UniquenessSearch(Layout(program), [set(ones)])
    try:
        text = search.find_certificate()
    except Beaten as beaten:
        objective = program.compute_objective(search.ones)
        assert objective == program.compute_objective(ones) - beaten.gain
        assert search.ones != ones
        assert program.find_fault(search.ones) is None
        return False
    assert Checker(program).only_verdict([ones], text) == (None, [])
    return True


def check_all_ties(program: ZeroOne, best: list[set[int]]) -> None:
    """The search from the first one of the best points finds each other one once, and shows that
    there are no more.
    """
    ties = find_ties(Problem(Layout(program)), format_solution(best[0], program))
    points = [read_solution(text, program, "a tie") for text in ties.points]
    assert len(points) == len(best) - 1
    assert all(ones in points for ones in best[1:])
    assert ties.unique is not None
    assert Checker(program).only_verdict([best[0], *points], ties.unique) == (None, [])


# how many awards there are, by so many bidders and lots, up to the limit of an audit
ALIKE = [(1, 1, 1), (3, 1, 3), (4, 2, 6), (8, 3, 56), (65, 1, 65)]


@pytest.mark.parametrize("count, lots, awards", ALIKE)
def test_all_ties_of_bidders_who_are_alike(count: int, lots: int, awards: int) -> None:
    best = [set(places) for places in itertools.combinations(range(count), lots)]
    assert len(best) == awards
    check_all_ties(make_alike(count, lots), best)


@pytest.mark.parametrize("count, lots", [(66, 1), (12, 2), (30, 15)])
def test_more_ties_than_an_audit_lists(count: int, lots: int) -> None:
    program = make_alike(count, lots)
    first = format_solution(range(lots), program)
    ties = find_ties(Problem(Layout(program)), first)
    assert ties.unique is None
    assert len({first, *ties.points}) == 1 + MOST_TIES
    for text in ties.points:
        ones = read_solution(text, program, "a tie")
        assert program.compute_objective(ones) == -30 * lots


def test_ties_that_are_found_before_a_limit() -> None:
    """The search is the same each time, so that one that ends later begins with these."""
    kept: list[bytes] = []
    program = make_alike(12, 2)
    first = format_solution(range(2), program)
    with pytest.raises(LimitReached):
        find_ties(Problem(Layout(program)), first, seconds=1e-9, keep=kept.extend)
    ties = find_ties(Problem(Layout(program)), first, keep=kept.extend)
    assert tuple(kept) == ties.points


def test_ties_are_the_same_each_time() -> None:
    program = make_alike(12, 2)
    first = format_solution(range(2), program)
    ties = [find_ties(Problem(Layout(program)), first) for _ in range(2)]
    assert ties[0] == ties[1]


ChangeCost = Callable[[random.Random, int], int]
COSTS: dict[str, tuple[int, int, ChangeCost]] = {
    "any": (1, 200, lambda draw, cost: cost),
    "tied": (2, 200, lambda draw, cost: draw.choice([-2, -1, -1, 0])),
    # sums beyond 64 bits
    "wide": (7, 50, lambda draw, cost: cost * 10**16 + draw.randrange(2)),
}


def list_points(program: ZeroOne) -> list[set[int]]:
    """All points of a small program, the best ones first."""
    points: list[set[int]] = [set(places) for places in subsets(range(len(program.columns)))]
    feasible = [ones for ones in points if program.find_fault(ones) is None]
    return sorted(feasible, key=program.compute_objective)


def check_small_program(program: ZeroOne, points: list[set[int]]) -> None:
    """What the searches find of a program is what is true of all its points."""
    least = program.compute_objective(points[0])
    best = [ones for ones in points if program.compute_objective(ones) == least]
    for ones in (points[0], points[-1]):
        assert program.compute_objective(certify(program, ones).ones) == least
    assert is_only(program, points[0]) == (len(best) == 1), vars(program)
    if len(best) <= MOST_TIES:
        check_all_ties(program, best)


@pytest.mark.parametrize("seed, count, change_cost", COSTS.values(), ids=COSTS)
def test_small_programs_of_which_each_point_is_tried(
    seed: int, count: int, change_cost: ChangeCost
) -> None:
    draw = random.Random(seed)
    while count:
        program = draw_small_program(draw)
        for column in program.columns:
            column.cost = change_cost(draw, column.cost)
        points = list_points(program)
        if points:
            count -= 1
            check_small_program(program, points)


@pytest.mark.parametrize("lot_value", [10**7, 10**9, 10**11])
@pytest.mark.parametrize("supply", [(6, 5), (8, 8), (4, 4, 3)])
def test_near_tied_auctions(lot_value: int, supply: tuple[int, ...]) -> None:
    """The certificate shows that the point is a best one, and so does what is found among all other
    points.
    """
    draw = random.Random(f"{lot_value} {supply}")
    program = make_auction(supply, draw_near_tied_bids(draw, supply, lot_value))
    best = certify(program, set()).ones
    assert certify(program, best).ones == best
    is_only(program, best)


def test_an_auction_without_bidders() -> None:
    assert certify(make_auction([2, 1], []), set()).text == b"bound 1\n"


FIXED = {
    "none": [],
    "to 1": [Column("K", -80, [], 1, 1)],
    "to 0": [Column("X", -80, [], 0, 0)],
}


@pytest.mark.parametrize("rows", [[], [Row("C", AT_MOST, 1)]], ids=["no row", "a row"])
@pytest.mark.parametrize("columns", FIXED.values(), ids=FIXED)
def test_programs_whose_columns_are_fixed(columns: list[Column], rows: list[Row]) -> None:
    program = ZeroOne(rows, columns)
    ones = {place for place, column in enumerate(columns) if column.lower}
    assert certify(program, ones).ones == ones
    assert is_only(program, ones)


def test_nobody_wins_alone() -> None:
    assert is_only(make_auction([1], [[(-1, (1,))]]), set())


def test_an_offer_of_nothing_ties_with_nobody() -> None:
    assert not is_only(make_auction([1], [[(0, (1,))]]), set())


def test_the_row_of_other_points_is_no_block() -> None:
    """It is X0 + X1 at most 1, which looks like the row of a block."""
    program = ZeroOne([], [Column("X0", -3), Column("X1", -4)])
    assert is_only(program, {0, 1})
    assert not is_only(program, {0})


@pytest.fixture
def near_tied() -> ZeroOne:
    supply = (5, 5, 5)
    return make_auction(supply, draw_near_tied_bids(random.Random(4), supply, 10**9))


@pytest.fixture
def best(near_tied: ZeroOne) -> set[int]:
    return certify(near_tied, set()).ones


def test_a_limit_of_lines(near_tied: ZeroOne, best: set[int]) -> None:
    message = "limit .*is reached after .* the least objective is between"
    with pytest.raises(LimitReached, match=message) as reached:
        CertificateSearch(Layout(near_tied), best, lines=1).find_certificate()
    assert reached.value.status == 4


def test_a_limit_of_time(near_tied: ZeroOne, best: set[int]) -> None:
    with pytest.raises(LimitReached, match="the time limit of 1e-09 seconds is reached"):
        CertificateSearch(Layout(near_tied), best, seconds=1e-9).find_certificate()


def test_a_limit_of_time_among_other_points(near_tied: ZeroOne, best: set[int]) -> None:
    with pytest.raises(LimitReached, match="no other point has an objective below"):
        UniquenessSearch(Layout(near_tied), [best], seconds=1e-9).find_certificate()


SMALL = read_text("fixtures", "solvers", "three.mps").encode()
BEST = b"X1_1 1\nX2_1 1\nX3_1 1\n"
WORSE = b"X1_2 1\n"
CHECKER = Checker(read_program(SMALL))


@pytest.fixture
def folder(tmp_path: Path, monkeypatch: pytest.MonkeyPatch) -> Path:
    """A folder with a program and two solutions, in which commands run."""
    for name, text in (("p.mps", SMALL), ("best", BEST), ("worse", WORSE)):
        (tmp_path / name).write_bytes(text)
    monkeypatch.chdir(tmp_path)
    return tmp_path


@pytest.mark.usefixtures("folder")
def test_the_command_prints_a_certificate() -> None:
    seen = run("certify", "p.mps", "best")
    assert seen.status == 0
    assert CHECKER.verdict(-62, seen.out.encode()).fault is None


def test_the_command_writes_a_better_solution_with_its_certificate(folder: Path) -> None:
    seen = run(
        "certify", "--solution-output", "better", "--output", "certificate", "p.mps", "worse"
    )
    assert seen.status == 0
    assert seen.out == ""
    assert (folder / "better").read_bytes() == BEST
    assert CHECKER.verdict(-62, (folder / "certificate").read_bytes()).fault is None


@pytest.mark.usefixtures("folder")
def test_the_command_certifies_that_a_solution_is_the_only_one() -> None:
    seen = run("certify", "--unique", "p.mps", "best")
    assert seen.status == 0
    assert CHECKER.only_verdict([{0, 2, 3}], seen.out.encode()).fault is None


def test_the_command_prints_a_tie(folder: Path) -> None:
    (folder / "p.mps").write_bytes(SMALL.replace(b" X1_2 OBJ -50\n", b" X1_2 OBJ -62\n"))
    seen = run("certify", "--unique", "p.mps", "best")
    assert seen.status == 5
    assert seen.out == WORSE.decode()
    assert "a tie" in seen.err


def test_a_missing_package(folder: Path) -> None:
    seen = run("certify", "p.mps", "best", **hide_library("swiglpk", folder))
    assert seen.status == 1
    assert "apt-get install -y python3-swiglpk" in seen.err


# Three columns, any two of which exclude one another: halves of all three are the best fractions,
# at -3.
ODD = """ROWS
 N OBJ
 L A1
 L A2
 L B
COLUMNS
 X1 OBJ -2 A1 1
 X1 A2 1
 X2 OBJ -2 A1 1
 X2 B 1
 X3 OBJ -2 A2 1
 X3 B 1
RHS
 R A1 1 A2 1
 R B 1
BOUNDS
 BV X1
 BV X2
 BV X3
ENDATA
"""
SHOWN = b"# X1 is 0, or it is 1\nsplit 0 X1 1\n\nbound 1 2 B 2\nbound 1 2 A1 2 A2 2\n"
KINDS = "NumberText NumberRange UnknownColumn UnknownRow Sign Fields NotShown NoEnd Beyond shown"


@pytest.fixture
def odd_checker() -> Checker:
    return Checker(read_program(ODD.encode()))


def test_a_certificate_shows_one_bound(odd_checker: Checker) -> None:
    assert odd_checker.verdict(-2, SHOWN) == (None, [])
    assert odd_checker.verdict(-1, SHOWN).fault == (4, "NotShown")


def test_prices_alone_show_too_little(odd_checker: Checker) -> None:
    assert odd_checker.verdict(-2, b"bound 1 A1 1 A2 1 B 1\n").fault == (1, "NotShown")


# The size of a leaf is all that it adds up: of the first one costs 6, the split 2 * (1 + 0), the
# row 2 * (2 + 1); of the second one 6, 2 * (1 + 1), and two rows.
SIZES: list[tuple[int, list[int]]] = [(14, [4, 5]), (15, [5]), (22, [5]), (23, [])]


@pytest.mark.parametrize("size, large_lines", SIZES)
def test_the_size_of_a_leaf(odd_checker: Checker, size: int, large_lines: list[int]) -> None:
    assert odd_checker.verdict(1 - (2**126 - size), SHOWN) == (None, large_lines)


@pytest.mark.parametrize("missing, kind", [(0, "NotShown"), (1, "Fields")])
def test_a_deep_tree_is_read(odd_checker: Checker, missing: int, kind: str) -> None:
    depth = 100_000
    text = b"split 0\n" * depth + b"bound 1" + b" 0" * (depth - missing)
    assert odd_checker.verdict(-2, text).fault == (depth + 1, kind)


def test_a_damaged_certificate_shows_no_more(odd_checker: Checker) -> None:
    kinds: set[str] = set()
    for number in range(1500):
        text, names = damage_certificate(SHOWN, "kinds", number)
        fault = odd_checker.verdict(-2, text).fault
        kinds.update([*names, fault.kind if fault else "shown"])
        assert odd_checker.verdict(-1, text).fault is not None, names
    assert kinds == {*OF_CERTIFICATE, *KINDS.split()}
