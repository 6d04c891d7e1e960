"""Limits: a search that gives up and goes on later, how far a run is, how long it took, and how
many steps memory has room for.
"""
import re
from dataclasses import replace
from pathlib import Path
from typing import Any

import pytest

from commands import EXAMPLES, AuctionFolder
from oracle import Checker
from test_problem import make_wide_program
from wdp import memory, progress
from wdp.runs.solutions import format_percent
from wdp.certify import search
from wdp.certify.layout import Layout
from wdp.certify.limits import LimitReached
from wdp.certify.outcomes import Optimum
from wdp.certify.problem import Problem
from wdp.certify.search import CertificateSearch
from wdp.certify.settling import TURNS, settle
from wdp.certify.unfinished import Unfinished


@pytest.mark.parametrize("plain", [0, 5, 10**9])
@pytest.mark.parametrize("seed", range(4))
def test_a_search_goes_on_where_another_gave_up(
    monkeypatch: pytest.MonkeyPatch, seed: int, plain: int
) -> None:
    """After each limit of lines: the solution is never worse, and the lines together are a
    certificate.
    """
    monkeypatch.setattr(search, "_PLAIN_LINES", plain)
    monkeypatch.setattr(search, "_COLUMNS_OF_LINE", 10**9)
    program = make_wide_program(seed, bidders=4, bids=12)
    problem = Problem(Layout(program))
    whole = problem.find_optimum(b"")
    solution = b""
    tree = ""
    turns = 0
    least = 0
    while True:
        lines = len(Unfinished.parse(tree).lines) + 2
        try:
            found = problem.find_optimum(solution, lines=lines, earlier=tree)
            break
        except LimitReached as reached:
            assert not reached.is_late
            assert reached.least <= least
            assert reached.bound <= problem.compute_objective(whole.solution)
            solution = reached.solution
            tree = reached.tree
            least = reached.least
            turns += 1
    assert turns
    best = problem.compute_objective(whole.solution)
    assert problem.compute_objective(found.solution) == best
    assert Checker(program).verdict(best, found.certificate) == (None, [])


def test_an_unfinished_tree_as_a_text() -> None:
    text = "row 2 C1 1 B3 1\nsplit 0 X1_1 1\nbound 1 0 C1 4\nvisit\nleaf bound 1 2\n"
    tree = Unfinished.parse(text)
    assert tree == Unfinished(
        ["2 C1 1 B3 1"], ["split 0 X1_1 1", "bound 1 0 C1 4"], [None, "bound 1 2"]
    )
    assert tree.format() == text


def test_how_near_the_greatest_total_is() -> None:
    for least, bound, part in ((-97, -100, 0.03), (-100, -100, 0), (0, -50, 1), (0, 0, 0)):
        reached = LimitReached("", is_late=True, least=least, bound=bound, tree="")
        assert reached.part_missing == part
    shown = [format_percent(part) for part in (0, 0.0001, 0.0031, 0.03, 1)]
    assert shown == ["0 %", "0.1 %", "0.4 %", "3 %", "100 %"]


def test_a_run_that_gives_up_and_goes_on(
    auction: AuctionFolder, tmp_path: Path, monkeypatch: pytest.MonkeyPatch
) -> None:
    """A search without time: each group is named with its gap, there is no report, and the next run
    takes the trees up.
    """
    nothing = tmp_path / "nothing.py"
    nothing.write_text(
        "import sys\nfrom wdp.certify import limits\n"
        "limits.Clock.measure = lambda self: 10.0 ** 9\n"
        "from wdp import cli\nsys.exit(cli.main())\n"
    )
    monkeypatch.setattr("commands.COMMAND", nothing)
    auction.put("input.txt", (EXAMPLES / "twelve_bands.txt").read_bytes())
    said = auction.read_messages("--time-limit", "7", status=1)
    near = r"auction: group (\d+): within [\d.]+ % of the greatest total, not proved; "
    given_up = re.findall(near + "the search ended at its limit of 7 s\n", said)
    assert given_up
    last = said.splitlines()[-1]
    assert f"no report: {len(given_up)} of 13 groups are missing: " in last
    assert "run again, with --time-limit 14 for twice the time" in last
    assert not auction.has("report.txt")
    assert not auction.has("results")
    for group in given_up:
        assert auction.has(f"unfinished/{group}.txt")
    monkeypatch.undo()
    said = auction.read_messages("--time-limit", "600", "--no-prices")
    assert "not proved" not in said
    assert len(re.findall(rb"(?m)^total \d+$", auction.read("report.txt"))) == 13


class RecordedAsk:
    """A solver that answers with nobody, and what it was asked."""

    def __init__(self, answer: bytes | None) -> None:
        self.answer = answer
        self.turns: list[tuple[int, int | None]] = []

    def __call__(self, turn: int, text: bytes | None) -> bytes | None:
        self.turns.append((turn, None if text is None else text.count(b" OBJ ")))
        return self.answer


def test_a_solver_gets_more_columns_in_turns(monkeypatch: pytest.MonkeyPatch) -> None:
    short = [replace(turn, lines=0) for turn in TURNS[:-1]]
    monkeypatch.setattr("wdp.certify.settling.TURNS", [*short, TURNS[-1]])
    problem = Problem(Layout(make_wide_program(3)))
    best = problem.find_optimum(b"").solution
    asked = RecordedAsk(b"")
    found = settle(problem, asked)
    assert problem.compute_objective(found.solution) == problem.compute_objective(best)
    sizes = [columns or problem.layout.count for _, columns in asked.turns]
    assert [turn for turn, _ in asked.turns][0] == 1
    assert sizes == sorted({*sizes})
    assert sizes[0] == 6 * 80
    # one that has no answer in time isn't asked again
    asked = RecordedAsk(None)
    assert problem.compute_objective(settle(problem, asked).solution) == problem.compute_objective(
        best
    )
    assert len(asked.turns) == 1


@pytest.mark.parametrize("is_better", [False, True])
def test_a_search_goes_on_unless_the_solver_has_a_better_answer(
    monkeypatch: pytest.MonkeyPatch, is_better: bool
) -> None:
    """With a better one it begins again; either way the whole is a certificate."""
    monkeypatch.setattr("wdp.certify.settling.TURNS", [replace(TURNS[0], lines=6), TURNS[-1]])
    program = make_wide_program(3)
    problem = Problem(Layout(program))
    best = problem.find_optimum(b"").solution
    least = problem.compute_objective(best)
    monkeypatch.setattr(CertificateSearch, "_dive", lambda *_: False)
    monkeypatch.setattr(CertificateSearch, "_try_promising", lambda *_: None)
    earlier: list[str] = []
    find_optimum = problem.find_optimum

    def find_and_record(solution: bytes, **given: Any) -> Optimum:
        earlier.append(given["earlier"])
        return find_optimum(solution, **given)

    monkeypatch.setattr(problem, "find_optimum", find_and_record)
    answers = iter([b"", best if is_better else b""])
    found = settle(problem, lambda turn, text: next(answers))
    assert problem.compute_objective(found.solution) == least
    assert Checker(program).verdict(least, found.certificate) == (None, [])
    assert [bool(tree) for tree in earlier] == [False, not is_better]


def test_a_small_program_goes_whole_to_the_solver() -> None:
    problem = Problem(Layout(make_wide_program(1, bids=20)))
    asked = RecordedAsk(problem.find_optimum(b"").solution)
    assert settle(problem, asked).gain == 0
    assert asked.turns == [(0, None)]


def test_memory_that_is_left(tmp_path: Path) -> None:
    meminfo = tmp_path / "meminfo"
    meminfo.write_text("MemTotal: 8000 kB\nMemFree: 1 kB\nMemAvailable: 5000 kB\n")
    assert memory.measure_free(meminfo, tmp_path) == 5000 * 1024
    numbers = {"memory.max": "3000000\n", "memory.current": "1000000\n"}
    numbers["memory.stat"] = "anon 5\ninactive_file 500\nactive_file 7\n"
    for name, text in numbers.items():
        (tmp_path / name).write_text(text)
    assert memory.measure_free(meminfo, tmp_path) == 2_000_500
    (tmp_path / "memory.max").write_text("max\n")
    assert memory.measure_free(meminfo, tmp_path) == 5000 * 1024
    assert memory.measure_free(tmp_path / "none", tmp_path) is None
    assert memory.measure_free() is not None


def test_jobs_that_memory_has_room_for() -> None:
    one = memory.estimate_step(25_000)
    assert one < memory.estimate_step(100_000)
    rows = [(4, 100 * one, 4), (4, 2 * one, 2), (4, 2 * one - 1, 1), (4, 0, 1), (3, None, 3)]
    for jobs, left, fit in rows:
        assert memory.limit_jobs(jobs, 25_000, left) == fit


def test_a_run_with_little_memory(
    auction: AuctionFolder, monkeypatch: pytest.MonkeyPatch, tmp_path: Path
) -> None:
    little = tmp_path / "little.py"
    little.write_text(
        "import sys\nfrom wdp import memory\nmemory.measure_free = lambda: 10 ** 6\n"
        "from wdp import cli\nsys.exit(cli.main())\n"
    )
    monkeypatch.setattr("commands.COMMAND", little)
    said = auction.read_messages("--no-prices", "--jobs", "3")
    assert "4 groups, 0 done, 1 at a time, by cbc; 4 columns with nobody left out\n" in said
    assert "1 at a time and not 3, for which there isn't memory enough\n" in said


def test_a_run_tells_how_long_its_steps_took(auction: AuctionFolder) -> None:
    said = auction.read_messages()
    took = next(line for line in said.splitlines() if "it took" in line)
    # (a group that begins and ends between two looks at those that are at work isn't seen)
    longest = r"(; the longest, group \d: [\d.]+ s)?"
    assert re.fullmatch(rf"auction: it took [\d.]+ s: [^;]*{longest}", took)
    for kind in ("programs", "groups", "prices", "report"):
        assert re.search(rf"[:,] {kind} [\d.]+ s([,;]|$)", took), kind
    assert "it took" not in auction.read_messages("--quiet")


def test_a_time_is_rounded_as_people_read_it() -> None:
    rows = [
        (0, "0 s"),
        (0.049, "0 s"),
        (0.05, "0.1 s"),
        (9.94, "9.9 s"),
        (10, "10 s"),
        (599, "599 s"),
    ]
    for seconds, text in [*rows, (600, "10 min"), (7290, "122 min")]:
        assert progress.format_seconds(seconds) == text
    times = progress.Times({"programs": 1.0, "groups": 12.0})
    times.take("group 2", 3.0)
    times.take("group 3", 2.0)
    assert times.format() == "13 s: programs 1.0 s, groups 12 s; the longest, group 2: 3.0 s"
