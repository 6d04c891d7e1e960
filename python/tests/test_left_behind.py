"""Solvers, folders and files that are odd in some way: each is worked with or refused in one line,
nothing hangs or is left.
"""
import hashlib
import os
import signal
import subprocess
import sys
import time
from pathlib import Path

import pytest

from commands import (
    COMMAND,
    ROOT,
    AuctionFolder,
    OfficeFolder,
    check_stopped,
    find_processes,
    finish,
    make_environment,
    run,
    run_program,
    start,
    wait_for,
    write_solver,
)
from wdp.files import Unreadable, read_rest

MPS = ROOT / "fixtures/solvers/three.mps"
REPORT = (ROOT / "examples/worked.report.txt").read_bytes()
POINT = "X1_1 1\nX2_1 1\nX3_1 1\n"
# as many bids of a bidder called `group` as groups, and one, of which the last one wins: its line
# is `group 3 30`
OF_GROUP = """%rules
rules,1,1,,
category,A,3,1,1
bidder,group,9,1,
bidder,Beta,9,1,
%form
group,A
10,1
15,2
30,3
%form
Beta,A
5,1
%groups
-
Beta
"""


def test_a_bidder_who_is_called_group(tmp_path: Path, wdp: str) -> None:
    """A line of its winning bid isn't taken for the head of a group, and the digest is that of the
    complete report.
    """
    auction = AuctionFolder(tmp_path / "auction", wdp, OF_GROUP.encode())
    auction.read_messages()
    report = auction.read("report.txt")
    assert report.startswith(b"group 1 -\ngroup 3 30\ntotal 30\n")
    assert hashlib.sha256(report).hexdigest().encode() in auction.read("results/results.html")
    (tmp_path / "report.txt").write_bytes(report)
    words = [
        auction.where / "input.txt",
        tmp_path / "report.txt",
        "--audit",
        auction.where / "audit.txt",
    ]
    assert run("results", *words, "--output", tmp_path / "out").status == 0
    cut = report.splitlines(True)[0]
    (tmp_path / "report.txt").write_bytes(cut)
    check_stopped(run("results", *words, "--output", tmp_path / "cut"), "isn't the report")


@pytest.mark.parametrize("name", ["100%", "a%sb", "-x", "{mps}", "a b'c\"d", "é\udcff"])
def test_folders_of_any_name(tmp_path: Path, wdp: str, name: str) -> None:
    auction = AuctionFolder(tmp_path / name, wdp)
    auction.read_messages("--solver", "cbc", "--no-prices", TMPDIR=str(tmp_path))
    assert auction.read("report.txt") == REPORT
    answer = run(
        "solve", "--solver", "cbc", MPS, env=make_environment(WDP=wdp, TMPDIR=str(auction.where))
    )
    assert answer == (0, POINT, "")


def test_a_relative_folder_gives_solvers_a_whole_path(tmp_path: Path, wdp: str) -> None:
    auction = AuctionFolder(tmp_path / "auction", wdp)
    _, command = write_solver(tmp_path, 'mktemp -d > /dev/null && rest "$@"')
    words = ["--solver-command", command, "--jobs", "1", "--no-prices"]
    call = [sys.executable, COMMAND, "auction", "auction", *words]
    seen = finish(start(call, cwd=tmp_path, env=auction.make_environment()))
    assert seen.status == 0, seen
    assert auction.read("report.txt") == REPORT, seen


HUNDRED = "hundred=$(printf 'd/%.0s' $(seq 100))"
NESTED = (
    f"{HUNDRED}; i=0; while [ $i -lt 30 ]; do mkdir -p $hundred; cd -P $hundred; i=$((i+1)); done"
)


def test_nested_folders_are_taken_away(tmp_path: Path, wdp: str) -> None:
    """A solver that leaves three thousand, one within the other, in its folder, in the temporary
    one and in the auction's.
    """
    auction = AuctionFolder(tmp_path / "auction", wdp)
    for place in (".", "$TMPDIR", auction.where):
        nest = f'own=$PWD; (cd "{place}" && {NESTED}); cd "$own"; rest "$@"'
        auction.read_messages(
            *write_solver(tmp_path, nest), "--jobs", "1", "--no-prices", TMPDIR=str(tmp_path)
        )
        assert auction.read("report.txt") == REPORT
        assert not auction.has(".running")
        subprocess.run(
            ["rm", "-rf", auction.where / "solutions/1.txt", auction.where / "answers/1.txt"]
        )
        subprocess.run(["rm", "-rf", auction.where / "certificates/1.txt"])
    subprocess.run(["rm", "-rf", auction.where], check=True)
    words = write_solver(tmp_path, NESTED + '; echo "#"')
    where = tmp_path / "temporary"
    where.mkdir()
    seen = run("solve", *words, MPS, env=make_environment(WDP=wdp, TMPDIR=str(where)))
    assert seen.status == 1
    assert os.listdir(where) == []


def test_a_file_that_gives_nothing_is_refused(tmp_path: Path) -> None:
    path = tmp_path / "pipe"
    os.mkfifo(path)
    # open for writing too, so that a read finds neither bytes nor an end
    with open(os.open(path, os.O_RDWR | os.O_NONBLOCK), "rb") as file:
        with pytest.raises(Unreadable, match="no file that can be read to its end"):
            read_rest(file, str(path), 10)


def test_files_of_the_kernel_or_that_are_no_text(
    tmp_path: Path, wdp: str, office: OfficeFolder
) -> None:
    (office.forms / "Fox.csv").unlink()
    (office.forms / "Fox.csv").symlink_to("/proc/kmsg")
    # it has what the kernel said since it was last read, or gives nothing
    check_stopped(office.gather(), "forms/Fox.csv:")
    auction = AuctionFolder(tmp_path / "auction", wdp)
    auction.read_messages("--no-prices")
    for data in (b"-\nAl\xffpha\nBeta\nBeta+Gamma\n", b"\xef\xbb\xbf-\nAlpha\nBeta\nBeta+Gamma\n"):
        line = f"{hashlib.sha256(data).hexdigest()}  programs/names.txt\n"
        auction.put("programs/names.txt", data)
        auction.put("sums/programs/names.txt.sha256", line.encode())
        said = auction.read_messages("--no-prices", status=1)
        assert "names.txt isn't what was left there" in said
        assert said.count("\n") == 1


KERNEL = "explain @; solve @; certify @ @; prices @ --output out; results @ --output out; form @ --output out"
KERNEL += "; auction new --input @; gather @ forms groups.txt --output out"


@pytest.mark.parametrize("words", KERNEL.split("; "))
def test_a_file_of_the_kernel_that_is_named(tmp_path: Path, wdp: str, words: str) -> None:
    """Nobody waits for what the kernel may say; what it says is no input."""
    named = words.replace("@", "/proc/kmsg").split()
    seen = run(*named, cwd=tmp_path, env=make_environment(WDP=wdp))
    assert seen.status == 1, seen


@pytest.mark.parametrize("number", [signal.SIGTERM, signal.SIGKILL])
def test_a_killed_solve_leaves_no_folder(tmp_path: Path, wdp: str, mark: str, number: int) -> None:
    where = tmp_path / "temporary"
    where.mkdir()
    words = write_solver(tmp_path, "sleep 7000")
    started = start(
        [sys.executable, COMMAND, "solve", *words, MPS],
        env=make_environment(WDP=wdp, TMPDIR=str(where)),
    )
    wait_for(lambda: list(where.glob("solve.*/free.mps")) and len(find_processes(mark)) > 3)
    time.sleep(0.3)
    started.send_signal(number)
    finish(started)
    wait_for(lambda: not find_processes(mark), 30)
    wait_for(lambda: os.listdir(where) == [], 10)


@pytest.mark.parametrize("solver", ["cbc", "highs"])
def test_programs_without_columns(tmp_path: Path, wdp: str, solver: str) -> None:
    """One whose rows nothing meets has no solution; of any other nothing is the solution."""
    for right, status in ((1, 3), (0, 0)):
        text = f"NAME x\nROWS\n N OBJ\n G LEAST\nCOLUMNS\nRHS\n RHS LEAST {right}\nENDATA\n"
        (tmp_path / "it.mps").write_text(text)
        assert run_program(wdp, "check", text.encode()).startswith(b"rows 1 columns 0")
        seen = run("solve", "--solver", solver, tmp_path / "it.mps")
        assert seen.status == status, seen
        assert seen.out == "", seen
        assert ("the row LEAST is broken" in seen.err) == bool(status)


FORKED = """
import os, sys, wdp
from wdp import example
auction = wdp.Auction.from_text(example.INPUT)
certified = auction.certify(auction.solve("highs"))
if child := os.fork():
    sys.exit(os.waitstatus_to_exitcode(os.waitpid(child, 0)[1]))
os._exit(0 if auction.solve("highs")[0] == "X1_1 1\\nX2_1 1\\nX3_1 1\\n" else 1)
"""


def test_highs_in_a_forked_child(wdp: str) -> None:
    """Its threads aren't there after a fork of a process that has used them."""
    for name in ("numpy", "scipy", "swiglpk"):
        pytest.importorskip(name, reason=f"{name} isn't there")
    seen = subprocess.run(
        [sys.executable, "-c", FORKED], env=make_environment(WDP=wdp), timeout=120
    )
    assert seen.returncode == 0


def test_highs_is_ended_at_its_limit(
    tmp_path: Path, wdp: str, mark: str, monkeypatch: pytest.MonkeyPatch
) -> None:
    """(A stand-in for scipy doesn't end.)"""
    (tmp_path / "scipy").mkdir()
    (tmp_path / "scipy/__init__.py").write_text(
        "import time, sys\nif 'wdp.cli' not in sys.modules: time.sleep(7000)\n"
    )
    how = make_environment(WDP=wdp, PYTHONPATH=f"{tmp_path}:{ROOT}/python/src")
    seen = run("solve", "--solver", "highs", "--time-limit", "1", MPS, env=how)
    check_stopped(seen, "HiGHS overstepped its limit of 1 s and was ended", status=4)
    wait_for(lambda: not find_processes(mark), 30)
