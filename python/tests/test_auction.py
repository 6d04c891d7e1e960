"""The way through an auction: with a folder and without, ended and gone on with, beside liars, and
by Snakemake.

KILLS in the environment is how many runs are ended at random moments, by default 8; of Snakemake's
a tenth of that.
"""
import contextlib
import json
import os
import pty
import random
import re
import shlex
import shutil
import signal
import socket
import subprocess
import sys
import time
from collections.abc import Callable, Iterator
from pathlib import Path
from typing import Any

import pytest

from commands import (
    EXAMPLES,
    REPORTED,
    ROOT,
    TIED,
    WORKED,
    AuctionFolder,
    CommandResult,
    find_processes,
    finish,
    parse_rows,
    read_text,
    run,
    run_program,
    start,
    wait_for,
    write_script,
    write_solver,
)

TOTALS = b"62 32 50 50".split()
TABLES = [f"{name}.csv" for name in ("bidders", "categories", "groups", "pools")]
RESULTS = ["audit.txt", *TABLES, "results.html", "results.json"]
KILLS = int(os.environ.get("KILLS", "8"))
ENDINGS = [signal.SIGTERM, signal.SIGINT, signal.SIGHUP, signal.SIGKILL]


def read_totals(report: bytes) -> list[bytes]:
    return re.findall(rb"(?m)^total ([0-9]+)$", report)


def is_certified(auction: AuctionFolder) -> bool:
    return bool(json.loads(auction.read("results/results.json"))["certified"])


def list_results(auction: AuctionFolder) -> list[str]:
    return sorted(os.listdir(auction.where / "results"))


class PagedAuction(AuctionFolder):
    """An auction that a run has brought to its page, with the run's messages."""

    messages = ""


@pytest.fixture(scope="module")
def paged(tmp_path_factory: pytest.TempPathFactory, wdp: str) -> PagedAuction:
    """(No test changes its files; a run of it does nothing again.)"""
    auction = PagedAuction(tmp_path_factory.mktemp("paged") / "an auction's $(folder)", wdp)
    seen = auction.run("--ties", "--title", "Lots & <more>", "--currency", "GBP")
    assert seen.status == 0, seen
    assert seen.out == ""
    auction.messages = seen.err
    return auction


def test_a_run_makes_the_page(paged: PagedAuction) -> None:
    assert list_results(paged) == RESULTS
    assert is_certified(paged)
    assert b"Lots &amp; &lt;more&gt;" in paged.read("results/results.html")


def test_a_run_makes_a_certified_report(paged: PagedAuction) -> None:
    report, audit = paged.read_outcome()
    assert read_totals(report) == TOTALS
    assert run_program(paged.wdp, "verify", audit).endswith(b"by the rule\nunique\n")


def test_the_last_message_says_how_to_repeat_the_audit(paged: PagedAuction) -> None:
    assert "proved: nobody else can win" in paged.messages
    hint = paged.messages.partition("and wdp verify <")[2].partition(" prints it again")[0]
    assert shlex.split(hint) == [f"{paged.where}/audit.txt"]


def test_each_file_has_its_sum(paged: PagedAuction) -> None:
    sums = [path.relative_to(paged.where) for path in paged.where.glob("sums/**/*.sha256")]
    check = ["sha256sum", "--check", "--quiet", *map(str, sums)]
    subprocess.run(check, cwd=paged.where, check=True)


def test_nothing_is_done_again(paged: PagedAuction) -> None:
    before = paged.read_outcome()
    made = (paged.where / "certificates/1.txt").stat().st_mtime_ns
    assert "4 groups, 4 done" in paged.read_messages("--ties")
    assert paged.read_outcome() == before
    assert (paged.where / "certificates/1.txt").stat().st_mtime_ns == made


def test_the_audit_alone_makes_the_same_results(paged: PagedAuction, tmp_path: Path) -> None:
    """Although a group was added to those of the input."""
    alone = tmp_path / "alone"
    audit = paged.where / "audit.txt"
    assert b"# added\n" in paged.read("audit.txt")
    words = ["--output", alone, "--title", "Lots & <more>", "--currency", "GBP"]
    assert run("results", audit, *words).status == 0
    paths = list(paged.where.glob("results/*"))
    assert sorted(os.listdir(alone)) == sorted(path.name for path in paths)
    for path in paths:
        assert (alone / path.name).read_bytes() == path.read_bytes(), path


def test_an_audit_is_no_input(auction: AuctionFolder, paged: PagedAuction) -> None:
    auction.put("input.txt", paged.read("audit.txt"))
    said = auction.read_messages(status=1)
    assert re.fullmatch("auction: .*/input.txt is an audit, .* wdp-office results .*\n", said)


def test_title_and_currency_are_kept(paged: PagedAuction) -> None:
    paged.read_messages("--ties")
    assert b"Lots &amp; &lt;more&gt;" in paged.read("results/results.html")
    assert json.loads(paged.read("results/results.json"))["currency"] == "GBP"


def read_example(name: str) -> tuple[bytes, bytes]:
    """The input of an example, and its report."""
    return (EXAMPLES / f"{name}.txt").read_bytes(), (EXAMPLES / f"{name}.report.txt").read_bytes()


@pytest.mark.parametrize("name", REPORTED)
def test_highs_gives_the_report_beside_the_example(auction: AuctionFolder, name: str) -> None:
    text, report = read_example(name)
    seen = auction.run("--solver", "highs", "--no-certify", folder=False, data=text)
    assert seen.status == 0, seen.err
    assert seen.out.encode() == report


@pytest.mark.parametrize("name", REPORTED)
def test_cbc_gives_the_report_beside_the_example(auction: AuctionFolder, name: str) -> None:
    """`wdp verify` prints it again from what is kept, then the groups that were added, and the
    prices.
    """
    text, report = read_example(name)
    auction.put("input.txt", text)
    auction.read_messages("--solver", "cbc")
    assert auction.read("report.txt") == report
    verified = run_program(auction.wdp, "verify", auction.read("audit.txt"))
    paid = rb"\w+ \d+( \d+(/\d+)?)?\n"
    more = rb"(group \d+ .*\n)?prices\n(" + paid + rb")+by the rule\n"
    assert re.fullmatch(re.escape(report) + more, verified, re.DOTALL)


@pytest.fixture
def temporary(tmp_path: Path) -> Path:
    """A folder for what is temporary."""
    folder = tmp_path / "temporary"
    folder.mkdir()
    return folder


def test_an_input_without_a_folder_is_refused(auction: AuctionFolder, temporary: Path) -> None:
    refused = auction.run(folder=False, data=b"", TMPDIR=str(temporary))
    assert refused.err.endswith("wdp-office explain - prints what is wrong\n")
    assert list(temporary.iterdir()) == []


def test_without_a_folder(auction: AuctionFolder, temporary: Path) -> None:
    seen = auction.run(folder=False, data=WORKED, TMPDIR=str(temporary))
    assert read_totals(seen.out.encode()) == TOTALS
    assert "each total is certified" in seen.err
    assert list(temporary.iterdir()) == []


@pytest.mark.parametrize("number", ENDINGS)
def test_ended_without_a_folder(
    auction: AuctionFolder, temporary: Path, number: signal.Signals
) -> None:
    started = auction.start(folder=False, stdin=subprocess.PIPE, TMPDIR=str(temporary))
    # (Python itself tries whether it can write there)
    wait_for(lambda: list(temporary.glob("auction.*")))
    started.send_signal(number)
    finish(started)
    wait_for(lambda: not find_processes(auction.mark))
    assert list(temporary.glob("auction.*")) == []


def test_certificates_are_the_judge_of_answers(auction: AuctionFolder, tmp_path: Path) -> None:
    # in group 3 Alpha's bid 1 in place of bid 2, in group 1 nobody; group 4 takes over from group 3
    alpha = 'if ! grep -q X2_1 "$1"; then echo X1_1 1 > "$2"'
    text = alpha + '; elif grep -q X1_1 "$1"; then echo "# nobody" > "$2"; else rest "$@"; fi'
    said = auction.read_messages(*write_solver(tmp_path, text))
    assert read_totals(auction.read("report.txt")) == TOTALS
    for group, more in ((1, 62), (3, 20)):
        why = f"the answer of {tmp_path}/solver wasn't the best one: another brings {more} more"
        assert f"group {group}: {why}" in said
    assert auction.read("answers/3.txt") == b"X1_1 1\n"
    assert auction.read("solutions/3.txt") != b"X1_1 1\n"
    assert not auction.has("answers/4.txt")
    assert auction.read("solutions/4.txt") == auction.read("solutions/3.txt")


# no number, of other groups, none, one that hides and kills its parent, and one without an end
LIARS = """
echo X1_1 nan > "$2"
echo X2_1 1 > "$2"; echo X3_1 1 >> "$2"
exit 0
(setsid sleep 7000 &) ; setsid sleep 7000 & kill -9 $PPID; rest "$@"
yes "X1_1 1" > "$2"
"""


@pytest.mark.parametrize("lie", [lie for lie, in parse_rows(LIARS)])
def test_a_false_answer_makes_no_page(auction: AuctionFolder, tmp_path: Path, lie: str) -> None:
    """No answer makes a false page: it is refused, or it counts for nothing; another solver goes
    on.
    """
    said = auction.read_messages(*write_solver(tmp_path, lie), status=1)
    assert not auction.has("report.txt"), said
    assert not auction.has("results"), said
    assert "no report: " in said
    assert "groups are missing: " in said
    auction.read_messages()
    assert read_totals(auction.read("report.txt")) == TOTALS


def test_the_search_begins_from_nothing_if_the_solver_has_none_in_time(
    auction: AuctionFolder, tmp_path: Path
) -> None:
    asleep = write_solver(tmp_path, "sleep 7000")
    said = auction.read_messages(*asleep, "--time-limit", "1", "--jobs", "4")
    assert "the search begins from nothing" in said
    assert read_totals(auction.read("report.txt")) == TOTALS


def test_without_certificates(auction: AuctionFolder) -> None:
    said = auction.read_messages("--no-certify")
    assert "not certified: nothing shows" in said.splitlines()[-1]
    assert not is_certified(auction)
    assert read_totals(auction.read("report.uncertified.txt")) == TOTALS
    assert not auction.has("report.txt")
    assert not auction.has("audit.txt")


def test_a_certified_report_takes_the_place_of_another(auction: AuctionFolder) -> None:
    """With certificates the other report goes, and it comes back in no run."""
    auction.read_messages("--no-certify")
    auction.read_messages()
    assert not auction.has("report.uncertified.txt")
    before = (auction.read_outcome(), auction.read("results/results.html"))
    assert "report.txt is certified" in auction.read_messages("--no-certify", status=1)
    assert not auction.has("report.uncertified.txt")
    assert (auction.read_outcome(), auction.read("results/results.html")) == before


def test_a_solution_counts_as_an_answer(auction: AuctionFolder) -> None:
    """Once the certified report is gone."""
    auction.read_messages("--no-certify")
    auction.read_messages()
    for name in ("report.txt", "answers/2.txt", "answers/3.txt"):
        (auction.where / name).unlink()
    auction.read_messages("--no-certify", "--step", "3")
    assert auction.read("answers/3.txt") == auction.read("solutions/3.txt")
    auction.read_messages("--no-certify")
    assert read_totals(auction.read("report.uncertified.txt")) == TOTALS


WORSE = 'if grep -q X1_1 "$1" && grep -q X2_1 "$1"; then echo X3_1 1 > "$2"; else rest "$@"; fi'
NOBODY = 'grep -q X2_1 "$1" && rest "$@" || echo "# nobody" > "$2"'
DISPROVED = [
    (WORSE, "the answer to group 1 isn't optimal"),
    (NOBODY, "of group 3 is -42, below 0"),
]


@pytest.mark.parametrize("text, said", DISPROVED)
def test_what_a_report_disproves_by_itself(
    auction: AuctionFolder, tmp_path: Path, text: str, said: str
) -> None:
    lying = write_solver(tmp_path, text)
    assert said in auction.read_messages("--no-certify", *lying, status=3)
    assert not auction.has("report.uncertified.txt")
    assert not auction.has("results")


BAD_INPUTS = [(b"", "wrong number of"), (WORKED.replace(b"\n-\n", b"\n"), "not empty")]


def test_an_input_without_programs_is_replaced(auction: AuctionFolder, tmp_path: Path) -> None:
    (auction.where / "input.txt").unlink()
    path = tmp_path / "bad.txt"
    for data, why in BAD_INPUTS:
        path.write_bytes(data)
        assert why in auction.read_messages("--input", path, status=1)
    path.write_bytes(WORKED)
    failing = write_solver(tmp_path, "exit 1")
    assert "groups are missing" in auction.read_messages("--input", path, *failing, status=1)


def test_an_input_that_changes_while_a_run_goes_on(auction: AuctionFolder, tmp_path: Path) -> None:
    other = tmp_path / "other.txt"
    other.write_bytes(TIED)
    changing = write_solver(tmp_path, f'cp "{other}" ../../input.txt; rest "$@"')
    assert "input.txt isn't what was left there" in auction.read_messages(*changing, status=1)
    assert not auction.has("report.txt")
    assert not auction.has("results")
    auction.put("input.txt", WORKED)
    auction.read_messages()
    assert read_totals(auction.read("report.txt")) == TOTALS


def test_a_folder_belongs_to_one_input(auction: AuctionFolder, tmp_path: Path) -> None:
    other = tmp_path / "other.txt"
    other.write_bytes(TIED)
    auction.read_messages()
    before = auction.read_outcome()
    said = auction.read_messages("--input", other, status=1)
    assert "is another input; take another folder" in said
    auction.put("input.txt", TIED)
    assert "input.txt isn't what was left there" in auction.read_messages(status=1)
    (auction.where / "input.txt").unlink()
    assert "is another input" in auction.read_messages("--input", other, status=1)
    auction.put("input.txt", WORKED)
    (auction.where / "sums/input.txt.sha256").unlink()
    assert "it says which input" in auction.read_messages(status=1)
    assert auction.read_outcome() == before


CHANGES = ["echo >> $0", "rm $0; mkfifo $0", "ln -sf /dev/zero $0", "rm $0"]


@pytest.mark.parametrize("change", CHANGES)
def test_files_that_are_not_what_their_step_left(auction: AuctionFolder, change: str) -> None:
    auction.read_messages()
    before = auction.read_outcome()
    for name in ("certificates/2.txt", "solutions/1.txt", "programs/3.mps"):
        path = auction.where / name
        subprocess.run(["sh", "-c", change, name], cwd=auction.where, check=True)
        (auction.where / "certificates/3.txt").unlink(missing_ok=True)
        if path.exists():
            assert name in auction.read_messages(status=1)
            path.unlink()
        auction.read_messages()
        assert auction.read_outcome() == before


# what is done in the folder, and what a run says of it, which ends with status 1
REFUSED = """
sed -i 's/%rules/%form/' input.txt | wdp: input: wrong number of rules
sed -i '/^-$/d' input.txt | group 1 is not empty
sed -i 's/30,1,0/x,1,0/' input.txt | wdp: form 1:
rm input.txt; mkfifo input.txt | input.txt: it is a pipe
ln -sf /dev/zero input.txt | input.txt: it is a device
rm -r "$PWD" | is no folder
mkfifo names.csv | names.csv: it is a pipe
mkfifo .lock | .lock: it is a pipe
"""


@pytest.mark.parametrize("change, why", parse_rows(REFUSED))
def test_inputs_that_are_refused(auction: AuctionFolder, change: str, why: str) -> None:
    subprocess.run(["sh", "-c", change], cwd=auction.where, check=True)
    assert why in auction.read_messages(status=1)


# what may be in page.json of a folder and is no page
SPOILT = ["[" * 40_000, *'[] null 5 {"title":"\\ud800"} {"title":["x"],"currency":5}'.split()]


def test_what_is_no_page_is_refused(auction: AuctionFolder) -> None:
    """Whether a run left a page there or not; --replace takes it for nothing."""
    for text in SPOILT:
        auction.put("page.json", text.encode())
        said = auction.read_messages("--no-prices", status=1)
        assert "page.json is no title and currency as auction keeps them: delete it" in said
    os.mkfifo(auction.where / ".running")
    auction.read_messages("--no-prices", "--replace")
    before = (auction.read("page.json"), auction.read("results/results.html"))
    auction.put("page.json", SPOILT[0].encode())
    assert "page.json isn't what was left there" in auction.read_messages("--no-prices", status=1)
    auction.read_messages("--no-prices", "--replace")
    assert (auction.read("page.json"), auction.read("results/results.html")) == before


class Terminal:
    """A terminal, and what is shown at it."""

    def __init__(self) -> None:
        self.master, self.end = pty.openpty()
        self.shown = b""

    def read_until(self, text: bytes) -> None:
        while text not in self.shown:
            self.shown += os.read(self.master, 1_000)

    def read_rest(self) -> None:
        with contextlib.suppress(OSError):  # (the end of a terminal)
            while more := os.read(self.master, 1_000):
                self.shown += more


def test_progress_is_one_line_at_a_terminal_and_a_second_run_is_refused(
    auction: AuctionFolder, tmp_path: Path
) -> None:
    terminal = Terminal()
    slow = write_solver(tmp_path, 'while [ ! -e "$0.go" ]; do sleep 0.05; done; rest "$@"')
    started = auction.start(*slow, stderr=terminal.end)
    os.close(terminal.end)
    terminal.read_until(b"0 of 4 groups done; at work: ")
    others: list[list[str]] = [[], ["--step", "2"]]
    for words in others:
        second = finish(auction.start(*words))
        assert second.status == 1
        assert "another run works in" in second.err
    (tmp_path / "solver.go").touch()
    terminal.read_rest()
    assert finish(started).status == 0
    assert b"\r\x1b[K0 of 4 groups" in terminal.shown
    assert b"\n0 of 4" not in terminal.shown


def test_messages_that_go_to_no_terminal_are_few_plain_lines(auction: AuctionFolder) -> None:
    auction.read_messages()
    said = auction.read_messages("--no-prices")
    assert "\x1b" not in said
    assert said.count("\n") < 8


@contextlib.contextmanager
def mount_disk(disk: Path, kilobytes: int) -> Iterator[None]:
    """Within this a folder is a disk of that size."""
    mount = ["mount", "-t", "tmpfs", "-o", f"size={kilobytes}k", "none", str(disk)]
    subprocess.run(mount, check=True)
    try:
        yield
    finally:
        subprocess.run(["umount", disk], check=True)


@pytest.mark.parametrize("kilobytes", [4, 24, 48, 72, 96, 128, 160])
def test_a_full_disk(
    auction: AuctionFolder, tmp_path: Path, whole: AuctionFolder, kilobytes: int
) -> None:
    """Wherever the disk is full, the place is named, nothing half is left, and the next run goes
    on.
    """
    disk = tmp_path / "disk"
    disk.mkdir()
    auction.where = disk / "auction"
    with mount_disk(disk, kilobytes):
        auction.where.mkdir()
        auction.put("input.txt", WORKED)
        said = auction.read_messages("--ties", TMPDIR=str(tmp_path), status=1)
        assert re.search("No space left on device|database or disk is full", said), said
        assert not auction.has("results") or list_results(auction) == RESULTS
        subprocess.run(["mount", "-o", "remount,size=10m", disk], check=True)
        auction.read_messages("--ties")
        assert auction.read_outcome() == whole.read_outcome()


Begin = Callable[[], "subprocess.Popen[bytes]"]


def end_and_go_on(
    auction: AuctionFolder,
    *,
    number: signal.Signals,
    seconds: float,
    begin: Begin,
    go_on: Callable[[], object],
    own: str = "Traceback",
) -> tuple[bytes, bytes]:
    """Ends a run so many seconds after it began; nothing is at work then, and the next run goes on.
    What that leaves.
    """
    started = begin()
    wait_for(lambda: auction.has(".running") or auction.has("programs"))
    time.sleep(seconds)
    started.send_signal(number)
    finish(started, own=own)
    wait_for(lambda: not find_processes(auction.mark))
    assert number == signal.SIGKILL or not list(auction.where.rglob(".writing-*"))
    go_on()
    return auction.read_outcome()


@pytest.mark.parametrize("turn", range(KILLS))
def test_ended_at_a_random_moment(
    auction: AuctionFolder, tmp_path: Path, whole: AuctionFolder, turn: int
) -> None:
    # a solver with children of its own, some of which hide
    slow = write_solver(tmp_path, 'setsid sleep 7000 & (setsid sleep 7000 &); sleep 0.2; rest "$@"')
    outcome = end_and_go_on(
        auction,
        number=ENDINGS[turn % 4],
        seconds=random.Random(turn).uniform(0, 2),
        begin=lambda: auction.start("--ties", *slow),
        go_on=lambda: auction.read_messages("--ties"),
    )
    assert outcome == whole.read_outcome()


# A run by Snakemake, as docs/OFFICE.md has it, and by the profile of Slurm with stand-ins for its
# commands.
SNAKEMAKE = ["snakemake", "--snakefile", ROOT / "python/src/wdp/Snakefile", "--directory"]


def find_in_office(pattern: str) -> str:
    """What the first group of a pattern has of docs/OFFICE.md."""
    match = re.search(pattern, read_text("docs", "OFFICE.md"))
    assert match, pattern
    return match[1]


HOW = find_in_office("--directory cluster (.*) --config ").split()
HOW += ["--config", "words=--ties"]
# the page's command for Slurm, but for its options of steps
BY_SLURM = find_in_office("(?m)^(snakemake .* --profile .*)$").replace("--solver cbc", "--ties")
OFFICE = f'PYTHONPATH={ROOT}/python/src exec {sys.executable} -m wdp "$@"'
STAND_INS = {
    "wdp-office": OFFICE,
    # (Slurm doesn't make the folder of a job's output)
    "sbatch": (
        "[ -d logs ] || exit 1; for script; do :; done; "
        'python3 "$script"; echo $? > {0}/$$; echo $$'
    ),
    "scontrol": (
        'grep -q "^0$" {0}/$4 && state=COMPLETED || state=FAILED; echo "x JobState=$state x"'
    ),
}

BeginBySnakemake = Callable[..., "subprocess.Popen[bytes]"]


@pytest.fixture
def by_snakemake(tmp_path: Path) -> BeginBySnakemake:
    """Begins a run of an auction by Snakemake."""
    for name, text in STAND_INS.items():
        write_script(tmp_path / name, text.format(tmp_path))

    def begin(auction: AuctionFolder, *words: str) -> "subprocess.Popen[bytes]":
        return start(
            [*SNAKEMAKE, auction.where, *(words or HOW)],
            env=auction.make_environment(PATH=f"{tmp_path}:{os.environ['PATH']}"),
            cwd=tmp_path,
            stderr=subprocess.STDOUT,
        )

    return begin


def test_snakemake_leaves_the_same_bytes(
    auction: AuctionFolder, whole: AuctionFolder, by_snakemake: BeginBySnakemake
) -> None:
    seen = finish(by_snakemake(auction))
    assert seen.status == 0, seen.out
    assert auction.read_outcome() == whole.read_outcome()
    assert auction.has("results/results.html")


@pytest.fixture(scope="module")
def close(tmp_path_factory: pytest.TempPathFactory, wdp: str) -> AuctionFolder:
    """A run, one group at a time, of bids so close together that groups share inequalities, that
    others take over a certificate, and that prices need groups that aren't listed.
    """
    words = ["8", "14", "6", "9", "--close", "--pool", "--variant", "2"]
    data = subprocess.run([ROOT / "bench/near_target", *words], stdout=subprocess.PIPE, check=True)
    auction = AuctionFolder(tmp_path_factory.mktemp("close") / "auction", wdp, data.stdout)
    auction.read_messages("--ties", "--jobs", 1)
    assert auction.read("inequalities.txt")
    assert auction.has("prices/1.txt")
    assert len(list(auction.where.glob("answers/*"))) < len(list(auction.where.glob("solutions/*")))
    return auction


def test_the_number_of_jobs_changes_no_byte(close: AuctionFolder, tmp_path: Path) -> None:
    four = AuctionFolder(tmp_path / "four", close.wdp, close.read("input.txt"))
    four.read_messages("--ties", "--jobs", 4)
    assert four.read_outcome() == close.read_outcome()


@pytest.mark.parametrize("seconds", [1, 3, 5])
def test_a_kill_changes_no_byte(close: AuctionFolder, tmp_path: Path, seconds: int) -> None:
    killed = AuctionFolder(tmp_path / "killed", close.wdp, close.read("input.txt"))
    outcome = end_and_go_on(
        killed,
        number=signal.SIGKILL,
        seconds=seconds,
        begin=lambda: killed.start("--ties"),
        go_on=lambda: killed.read_messages("--ties"),
    )
    assert outcome == close.read_outcome()


def test_snakemake_changes_no_byte(
    close: AuctionFolder, tmp_path: Path, by_snakemake: BeginBySnakemake
) -> None:
    auction = AuctionFolder(tmp_path / "steps", close.wdp, close.read("input.txt"))
    seen = finish(by_snakemake(auction))
    assert seen.status == 0, seen.out
    assert auction.read_outcome() == close.read_outcome()


def run_by_slurm(auction: AuctionFolder, tmp_path: Path, **more: str) -> CommandResult:
    """The page's command, in the tree, on an auction whose path a shell may read (Snakemake hands
    those of jobs to one).
    """
    auction.where = auction.where.rename(tmp_path / "slurm")
    path = f"{tmp_path}:{os.environ['PATH']}"
    started = start(
        ["sh", "-c", BY_SLURM.replace(" DIR ", f" {auction.where} ")],
        cwd=ROOT,
        stderr=subprocess.STDOUT,
        env=auction.make_environment(PATH=path, **more),
    )
    return finish(started)


@pytest.mark.usefixtures("by_snakemake")
def test_the_command_for_slurm_with_stand_ins(
    auction: AuctionFolder, whole: AuctionFolder, tmp_path: Path
) -> None:
    seen = run_by_slurm(auction, tmp_path)
    assert seen.status == 0, seen.out
    assert auction.read_outcome() == whole.read_outcome()
    assert auction.has("results/results.html")


SLURM = """ClusterName=wdp
SlurmctldHost={host}(127.0.0.1)
SlurmctldPort={ports[0]}
SlurmdPort={ports[1]}
SlurmUser=root
AuthType=auth/none
CredType=cred/none
ProctrackType=proctrack/linuxproc
TaskPlugin=task/none
MpiDefault=none
SelectType=select/cons_tres
SelectTypeParameters=CR_CPU
ReturnToService=2
StateSaveLocation={folder}/state
SlurmdSpoolDir={folder}/spool
SlurmctldPidFile={folder}/slurmctld.pid
SlurmdPidFile={folder}/slurmd.pid
SlurmctldLogFile={folder}/slurmctld.log
SlurmdLogFile={folder}/slurmd.log
NodeName={host} NodeAddr=127.0.0.1 CPUs={processors} State=UNKNOWN
PartitionName=all Nodes={host} Default=YES MaxTime=INFINITE State=UP
"""


def find_free_ports() -> list[int]:
    """Two ports that nobody has."""
    servers = [socket.create_server(("127.0.0.1", 0)) for _ in range(2)]
    ports = [int(server.getsockname()[1]) for server in servers]
    for server in servers:
        server.close()
    return ports


@pytest.fixture
def slurm(tmp_path: Path) -> Iterator[dict[str, str]]:
    """Slurm on this machine alone; the surroundings of its commands."""
    folder = tmp_path / "of_slurm"
    for name in ("state", "spool"):
        (folder / name).mkdir(parents=True)
    text = SLURM.format(
        host=socket.gethostname().split(".")[0],
        ports=find_free_ports(),
        folder=folder,
        processors=len(os.sched_getaffinity(0)),
    )
    (folder / "slurm.conf").write_text(text)
    more = {"SLURM_CONF": str(folder / "slurm.conf")}
    surroundings: dict[str, Any] = {"env": {**os.environ, **more}}
    daemons = [start([name, "-D"], **surroundings) for name in ("slurmctld", "slurmd")]
    try:
        state = ["sinfo", "--noheader", "--format", "%T"]
        wait_for(lambda: "idle" in finish(start(state, **surroundings)).out, 60)
        yield more
    finally:
        for daemon in reversed(daemons):
            daemon.terminate()
            daemon.communicate(timeout=60)


if shutil.which("slurmctld") and os.getuid() == 0:

    @pytest.mark.usefixtures("by_snakemake")
    def test_the_command_for_slurm(
        auction: AuctionFolder, whole: AuctionFolder, tmp_path: Path, slurm: dict[str, str]
    ) -> None:
        for name in ("sbatch", "scontrol"):
            (tmp_path / name).unlink()
        seen = run_by_slurm(auction, tmp_path, **slurm)
        assert seen.status == 0, seen.out
        assert auction.read_outcome() == whole.read_outcome()
        assert auction.has("results/results.html")
        assert list((auction.where / "logs").glob("slurm.*.log"))


def test_a_second_run_of_snakemake_is_refused(
    auction: AuctionFolder, by_snakemake: BeginBySnakemake
) -> None:
    first = by_snakemake(auction)
    wait_for(lambda: auction.has("programs/names.txt"))
    first.send_signal(signal.SIGSTOP)
    seen = finish(by_snakemake(auction))
    first.send_signal(signal.SIGCONT)
    assert seen.status == 1
    assert "another run of Snakemake works in this folder" in seen.out
    assert finish(first).status == 0


@pytest.mark.parametrize("turn", range(KILLS // 10 or 1))
def test_snakemake_ended_at_a_random_moment(
    auction: AuctionFolder, whole: AuctionFolder, by_snakemake: BeginBySnakemake, turn: int
) -> None:
    def go_on() -> None:
        assert finish(by_snakemake(auction)).status == 0

    # (jobs that run on after Snakemake was killed end by themselves; its handler of SIGTERM waits
    # for a lock that the thread which it interrupts may hold)
    outcome = end_and_go_on(
        auction,
        number=(signal.SIGKILL, signal.SIGINT)[turn % 2],
        seconds=random.Random(turn).uniform(0, 6),
        begin=lambda: by_snakemake(auction),
        go_on=go_on,
        # (Snakemake itself may end in a traceback, our steps may not)
        own="wdp/__main__.py",
    )
    assert outcome == whole.read_outcome()
