"""Groups that take over what shows a smaller one: it holds, and the bytes don't depend on what is
done first.
"""
import random
import subprocess
import time
from collections.abc import Callable, Collection
from functools import partial
from pathlib import Path

import pytest

from commands import ROOT, AuctionFolder, run_program, start, write_script
from oracle import Checker
from test_auction import HOW, OFFICE, SNAKEMAKE
from test_problem import compile_groups
from tied_auctions import input_text, random_auction, subsets
from wdp import groups, solve, steps
from wdp.certify.problem import Problem
from wdp.texts.certificates import has_bid, remove_bidders
from wdp.texts.zero_one import read_program, read_solution


@pytest.mark.parametrize("seed", range(12))
def test_what_is_taken_over_shows_the_larger_group(wdp: str, seed: int) -> None:
    """Of small auctions in which much ties: each pair of groups, by the checker of the tests."""
    draw = random.Random(seed)
    auction = random_auction(draw)
    numbers = range(1, len(auction.forms) + 1)
    text = input_text(auction, subsets(numbers)).encode()
    found = {}
    for left_out, program in compile_groups(wdp, text):
        shown = Problem.read(program).find_optimum(solve.find_empty_solution(program))
        found[frozenset(left_out)] = read_program(program), shown
    taken = 0
    for small, (_, shown) in found.items():
        for large, (program, own) in found.items():
            if small < large and not has_bid(shown.solution, large - small):
                taken += 1
                least = program.compute_objective(read_solution(shown.solution, program, "taken"))
                assert least == program.compute_objective(
                    read_solution(own.solution, program, "own")
                )
                certificate = remove_bidders(shown.certificate, large - small)
                assert Checker(program).verdict(least, certificate) == (None, [])
    assert taken or not any(auction.forms)


def test_names_that_begin_alike() -> None:
    certificate = b"split 0 X1_1 1 X11_1 1 X1_12 1\nbound 1 -2 B1 3 B11 4 C1 5\nbound 0 1 B1 2\n"
    less = b"split 0 X11_1 1\nbound 1 -2 B11 4 C1 5\nbound 0 1\n"
    assert remove_bidders(certificate, {1, 2}) == less
    assert remove_bidders(certificate, set()) == certificate
    assert has_bid(b"X2_1 1\nX11_4 1\n", {11})
    assert not has_bid(b"X11_4 1\n", {1, 4})


def test_the_order_of_groups() -> None:
    names = "- A B A+B A+B+C C A+C".split()
    sets = {number: groups.parse_names(line) for number, line in enumerate(names, 1)}
    assert groups.find_smaller(sets, 5) == [1, 2, 3, 6, 4, 7]
    assert groups.find_smaller(sets, 7) == [1, 2, 6]
    assert groups.find_smaller(sets, 1) == []


@pytest.mark.parametrize("jobs", [1, 2, 7])
def test_steps_wait_for_others(tmp_path: Path, jobs: int) -> None:
    def step(name: str, seconds: float, needed: Collection[str]) -> int:
        assert all((tmp_path / other).exists() for other in needed), name
        time.sleep(seconds)
        (tmp_path / name).touch()
        return int(name == "b")

    after: dict[str, list[str]] = {"c": ["a", "b", "elsewhere"], "d": ["c"], "a": []}
    work = {
        name: partial(step, name, seconds, set(after.get(name, ())) - {"elsewhere"})
        for name, seconds in (("d", 0), ("c", 0.1), ("b", 0.2), ("a", 0.3))
    }
    # (one that fails is waited for no longer)
    assert steps.run(work, jobs=jobs, after=after) == {"a": 0, "b": 1, "c": 0, "d": 0}


@pytest.fixture
def many(tmp_path: Path, wdp: str) -> Callable[[str], AuctionFolder]:
    """Makes an auction with losers, and groups of one, two and three bidders."""
    size = [9, 15, 3, 25]
    text = subprocess.run([ROOT / "bench/make_input", *map(str, size)], capture_output=True).stdout
    head, _, listed = text.partition(b"%groups\n")
    listed = b"-\n" + b"".join(listed.splitlines(keepends=True)[:0:-1])
    return lambda name: AuctionFolder(tmp_path / name, wdp, head + b"%groups\n" + listed)


def test_the_same_bytes_with_any_number_of_jobs_and_by_snakemake(
    many: Callable[[str], AuctionFolder], tmp_path: Path
) -> None:
    outcomes = []
    for jobs in (1, 4):
        auction = many(f"with {jobs} jobs")
        auction.read_messages("--no-prices", "--jobs", jobs)
        outcomes.append(auction.read_outcome())
    write_script(tmp_path / "wdp-office", OFFICE)
    auction = many("by snakemake")
    path = f"{tmp_path}:{auction.make_environment()['PATH']}"
    words = [*SNAKEMAKE, auction.where, *HOW[:-1], "words=--no-prices"]
    made = start(words, env=auction.make_environment(PATH=path), cwd=tmp_path)
    made.communicate(timeout=600)
    assert made.returncode == 0
    outcomes.append(auction.read_outcome())
    assert outcomes[0] == outcomes[1]
    assert outcomes[1] == outcomes[2]
    # a group of losers costs no solver
    asked = {path.name.split(".")[0] for path in (auction.where / "answers").iterdir()}
    assert len(asked) < len(auction.read("programs/names.txt").split())
    assert run_program(auction.wdp, "verify", auction.read("audit.txt")).startswith(outcomes[0][0])
