"""Runs whose messages nobody reads, or whose parent ignores that they end: they do their work, end,
and leave nothing.
"""
import os
import signal
import subprocess
import sys
from pathlib import Path

import pytest

from commands import COMMAND, ROOT, WORKED, AuctionFolder, find_processes, finish, start, wait_for

MPS = ROOT / "fixtures/solvers/three.mps"
REPORT = (ROOT / "examples/worked.report.txt").read_bytes()


def make_environment(auction: AuctionFolder) -> dict[str, str]:
    """What a run has in its surroundings: its messages are kept back until a line is printed."""
    return {
        name: text
        for name, text in auction.make_environment().items()
        if name != "PYTHONUNBUFFERED"
    }


# how a shell has standard error closed, full, or cut off
UNREAD = ["2>&-", "2>/dev/full", "2>&1 >report | head -n 0", ">&- 2>&-"]


@pytest.mark.parametrize("how", UNREAD)
@pytest.mark.parametrize("words", ["", "--jobs 1 --no-prices", "--no-certify"])
def test_nobody_reads_standard_error(
    auction: AuctionFolder, tmp_path: Path, how: str, words: str
) -> None:
    line = f'set -o pipefail; "$@" {words} {how}'
    command = ["bash", "-c", line, "-", sys.executable, COMMAND, "auction", auction.where]
    seen = finish(start(command, env=make_environment(auction), cwd=tmp_path))
    assert seen.status == 0, seen
    assert seen.out == "", seen
    name = "report.uncertified.txt" if "--no-certify" in words else "report.txt"
    assert auction.read(name) == REPORT
    assert auction.has("results/results.html")
    wait_for(lambda: not find_processes(auction.mark))


@pytest.mark.parametrize("how", UNREAD[:3])
def test_a_failing_step_says_so_to_nobody(auction: AuctionFolder, tmp_path: Path, how: str) -> None:
    auction.put("input.txt", WORKED.replace(b"30,1,0", b"x,1,0"))
    line = f'set -o pipefail; "$@" {how}'
    command = ["bash", "-c", line, "-", sys.executable, COMMAND, "auction", auction.where]
    seen = finish(start(command, env=make_environment(auction), cwd=tmp_path))
    assert seen.status == 1, seen
    assert seen.out == "", seen
    assert not auction.has("report.txt")


def ignore_children() -> None:
    signal.signal(signal.SIGCHLD, signal.SIG_IGN)


@pytest.mark.parametrize("words", [["auction"], ["auction", "--solver", "highs"]])
def test_a_parent_that_ignores_the_ends_of_children(
    auction: AuctionFolder, words: list[str]
) -> None:
    command = [sys.executable, COMMAND, words[0], auction.where, *words[1:]]
    seen = finish(start(command, env=make_environment(auction), preexec_fn=ignore_children))
    assert seen.status == 0, seen
    assert auction.read("report.txt") == REPORT, seen


def test_solvers_of_a_parent_that_ignores_the_ends_of_children(wdp: str) -> None:
    for solver in ("cbc", "highs"):
        command = [sys.executable, COMMAND, "solve", "--solver", solver, MPS]
        seen = finish(start(command, env={**os.environ, "WDP": wdp}, preexec_fn=ignore_children))
        assert seen.status == 0, seen
        assert seen.out == "X1_1 1\nX2_1 1\nX3_1 1\n", seen
    command = [sys.executable, COMMAND, "solve", "--solver-command", "false {mps}", MPS]
    seen = finish(start(command, env={**os.environ, "WDP": wdp}, preexec_fn=ignore_children))
    assert seen.status == 1
    assert seen.out == ""
    assert "ended with status 1" in seen.err


def test_a_library_call_in_a_process_that_ignores_the_ends_of_children(wdp: str) -> None:
    """Nobody can know then how the program ended."""
    call = "import wdp; from wdp import example; wdp.Auction.from_text(example.INPUT).compile()"
    seen = subprocess.run(
        [sys.executable, "-c", call],
        preexec_fn=ignore_children,
        capture_output=True,
        text=True,
        timeout=60,
        env={**os.environ, "WDP": wdp, "PYTHONPATH": f"{ROOT}/python/src"},
    )
    why = "wdp.Unclear: this process ignores SIGCHLD, so that nobody knows how a program ends"
    assert seen.stderr.splitlines()[-1] == why


# a step that gets two signals at once, as from a terminal and from the process that waits for it
TWO_SIGNALS = """
import os, signal
from wdp import steps


def step():
    signals = {signal.SIGINT, signal.SIGTERM}
    signal.pthread_sigmask(signal.SIG_BLOCK, signals)
    for number in signals:
        os.kill(os.getpid(), number)
    signal.pthread_sigmask(signal.SIG_UNBLOCK, signals)
    sum(range(1_000_000))


print(steps.run({"a step": step}))
"""


def test_two_signals_at_once() -> None:
    """Python prints a traceback of a signal whose handler goes before it is called."""
    environment = {**os.environ, "PYTHONPATH": f"{ROOT}/python/src"}
    seen = finish(start([sys.executable, "-c", TWO_SIGNALS], env=environment))
    assert seen == (0, "{'a step': 130}\n", "")
