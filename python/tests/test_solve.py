"""Reading programs and solutions, and the points of cbc and HiGHS.

runs.txt has other solvers by a command, and such as lie, test_auction.py what they start.
"""
import argparse
import re
import subprocess
from pathlib import Path

import pytest

from commands import parse_rows, read_text, run, write_script
from wdp import solve
from wdp.checks import check_solver
from wdp.commands.arguments import add_solver_options
from wdp.texts.refusals import NotSolved, Refused, WrongArgument
from wdp.texts.zero_one import ZeroOne, read_program, read_solution

SMALL = read_text("fixtures", "solvers", "three.mps").encode()
BEST = b"X1_1 1\nX2_1 1\nX3_1 1\n"

# A program that `wdp check` accepts; runs.txt has some that it refuses.
OTHER_WAYS = """* made elsewhere \xff⏎NAME⏎OBJSENSE MIN⏎ROWS⏎\tN OBJ⏎ N SPARE⏎ N SPARE2⏎ L B3⏎ L C1⏎ G C2⏎⏎COLUMNS
 X3_1 OBJ -1.2e1 SPARE 7⏎ X3_1 SPARE2 1 B3 1.0⏎ X3_1 C2 10e-1 C1 0⏎ M 'MARKER' 'INTORG'⏎ K OBJ -80
RHS⏎ B3 1 C1 2.0⏎ RHS C2 1⏎BOUNDS⏎ BV X3_1⏎ FX BND K 1⏎ENDATA⏎not read⏎"""


@pytest.fixture(params=["\n", "\r\n"], ids=["LF", "CRLF"])
def program(request: pytest.FixtureRequest) -> ZeroOne:
    """The program that is written otherwise than `wdp` does it."""
    text = OTHER_WAYS.replace("⏎", "\n").replace("\n", request.param)
    return read_program(text.encode("latin-1"))


def test_each_solver_with_a_name_has_a_call_and_is_named_where_solvers_are() -> None:
    parser = argparse.ArgumentParser()
    add_solver_options(parser)
    names = next(each.choices for each in parser._actions if each.dest == "solver" and each.choices)
    for name in names:
        assert solve._split_command(name)
        assert f"`--solver {name}`" in read_text("docs", "OFFICE.md")
        with pytest.raises(WrongArgument, match=name):
            check_solver("")


def test_rows_that_are_written_otherwise(program: ZeroOne) -> None:
    rows = [(row.name, row.kind, row.right_side) for row in program.rows]
    assert rows == [("B3", "L", 1), ("C1", "L", 2), ("C2", "G", 1)]


def test_columns_that_are_written_otherwise(program: ZeroOne) -> None:
    x3_1, k = program.columns
    assert (x3_1.name, x3_1.cost, x3_1.entries) == ("X3_1", -12, [(0, 1), (2, 1)])
    assert (x3_1.lower, x3_1.upper) == (0, 1)
    assert (k.name, k.cost, k.entries) == ("K", -80, [])
    assert (k.lower, k.upper) == (1, 1)


def test_a_solution_with_a_comment_and_values_near_1(program: ZeroOne) -> None:
    assert read_solution(b"# all\nX3_1 0.999999\n\nK\t1", program, "s") == {0, 1}


def test_a_solution_without_a_fixed_column(program: ZeroOne) -> None:
    with pytest.raises(Refused, match="^s: the bound of column K is broken$"):
        read_solution(b"X3_1 1\n", program, "s")


SOLVERS = pytest.mark.parametrize("solver", ["cbc", "highs"])
HEAD = b"NAME wdp\nROWS\n N OBJ\n L B1\nCOLUMNS\n"
END = b"RHS\n RHS B1 1\n"
BOUNDS = b"BOUNDS\n BV BND X1_1\nENDATA\n"
INFEASIBLE = HEAD.replace(b" L", b" G") + b" X1_1 OBJ 1\n" + END + BOUNDS


@SOLVERS
def test_a_solver_finds_the_best_point(solver: str) -> None:
    assert solve.find_point(SMALL, solver) == BEST


@SOLVERS
def test_a_point_with_columns_that_are_fixed_to_0(solver: str) -> None:
    without_alpha = re.sub(rb" UP (BND X1_.) 1", rb" FX \1 0", SMALL)
    assert solve.find_point(without_alpha, solver, 60) == b"X2_1 1\nX3_1 1\n"


@SOLVERS
def test_a_program_without_columns(solver: str) -> None:
    assert solve.find_point(HEAD + END + b"ENDATA\n", solver) == b""


@SOLVERS
def test_a_column_that_is_fixed_to_1(solver: str) -> None:
    fixed = b" K OBJ -80\nRHS\n RHS B1 1\nBOUNDS\n BV BND K\n FX BND K 1\nENDATA\n"
    assert solve.find_point(HEAD + fixed, solver) == b"K 1\n"


@SOLVERS
def test_a_program_without_a_point(solver: str) -> None:
    with pytest.raises(NotSolved) as failed:
        solve.find_point(INFEASIBLE, solver)
    assert failed.value.status == solve.NO_POINT


def test_the_empty_solution() -> None:
    assert solve.find_empty_solution(SMALL) == b""


def test_an_empty_solution_that_is_no_point() -> None:
    with pytest.raises(Refused, match="no point is known to begin with: the row B1 is broken"):
        solve.find_empty_solution(INFEASIBLE)


OF_CBC = parse_rows(
    """
Stopped on time (no integer solution - continuous used) - objective value -9.5 | no solution yet
Infeasible - objective value 0 | found no solution
Optimal - objective value -62⏎  0 X1_1 1 | a line that isn't understood
"""
)


@pytest.mark.parametrize("text, message", OF_CBC)
def test_answers_of_cbc(text: str, message: str) -> None:
    with pytest.raises(Refused, match=message):
        solve.read_cbc_answer(text.encode() + b"\n")


def test_a_solver_that_does_not_end(tmp_path: Path, monkeypatch: pytest.MonkeyPatch) -> None:
    monkeypatch.setattr(solve, "_LONGEST_GRACE", 1)
    endless = f"'{write_script(tmp_path / 'a solver', 'sleep 7000')}' {{mps}}"
    with pytest.raises(NotSolved, match="overstepped its limit of 1 s and was ended") as failed:
        solve.find_point(SMALL, endless, 1)
    assert failed.value.status == solve.TIME_OUT


def test_the_command_prints_the_point_and_keeps_the_log(
    tmp_path: Path, monkeypatch: pytest.MonkeyPatch
) -> None:
    (tmp_path / "p.mps").write_bytes(SMALL)
    monkeypatch.chdir(tmp_path)
    seen = run("solve", "--solver", "cbc", "--log", "log", "p.mps", stdin=subprocess.DEVNULL)
    assert seen == (0, BEST.decode(), "")
    assert b"cbc" in (tmp_path / "log").read_bytes().lower()
