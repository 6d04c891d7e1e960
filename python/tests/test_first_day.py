"""What a newcomer, a bidder and an office type on their first day: each is answered by what was
asked for, or by a line that says what to type.
"""
import hashlib
import resource
import shutil
from pathlib import Path

import pytest
from commands import (
    COMMAND,
    EXAMPLES,
    WORKED,
    AuctionFolder,
    OfficeFolder,
    check_stopped,
    finish,
    make_environment,
    run,
    start,
)

from wdp import files

OFFICE = EXAMPLES / "office"
RULES = OFFICE / "rules.csv"
FORMS = OFFICE / "forms"


def test_a_bidder_checks_a_form() -> None:
    """Whether others have forms isn't asked."""
    assert run("explain", RULES, FORMS / "Aster.csv") == (0, "nothing is wrong\n", "")
    lines = run("explain", RULES, FORMS / "Siskin.csv", "--bids")
    assert lines.out.startswith("Siskin: ")
    assert lines.status == 0


def test_a_bidder_checks_a_form_that_is_wrong(tmp_path: Path) -> None:
    form = tmp_path / "Aster.csv"
    form.write_text("Aster,Low,Mid,High\n12500050,1,0,0\n")
    seen = run("explain", RULES, form)
    assert seen == (1, f"{form}:2:1: '12500050' isn't a multiple of 100000\n1 fault\n", "")


def test_explain_takes_the_line_of_gather(tmp_path: Path) -> None:
    """With `explain` in the place of `gather`: the faults are the same, and nothing is written."""
    written = ["--output", "input.txt", "--receipt", "receipt.txt", "--parts", "parts"]
    options = [path if path.startswith("--") else tmp_path / path for path in written]
    words = [RULES, FORMS, "--groups", "each", *options]
    explained = run("explain", *words)
    gathered = run("gather", *words)
    assert explained.status == gathered.status == 1
    assert explained.out.splitlines()[:-1] == gathered.err.splitlines()[:-1]
    assert list(tmp_path.iterdir()) == []


WRONG_OPTIONS = [
    (["--groups", "all"], "--groups takes each, or winners FILE"),
    (["--groups", "each"], "give GROUPS or --groups, one of them"),
]


@pytest.mark.parametrize("options, why", WRONG_OPTIONS)
def test_explain_refuses_what_gather_refuses(options: list[str], why: str) -> None:
    paths = [RULES, FORMS, OFFICE / "groups.txt"]
    check_stopped(run("explain", *paths, *options), why, status=2)
    check_stopped(run("gather", *paths, *options), why, status=2)


@pytest.mark.parametrize("has_own", [True, False])
def test_a_form_in_the_file_of_another_bidder_is_one_fault(
    office: OfficeFolder, has_own: bool
) -> None:
    """Neither is it asked whether that bidder bids, nor which of two forms counts."""
    own = office.forms / "Bee.csv"
    moved = office.forms / "Ant.csv"
    shutil.copy(own, moved)
    if not has_own:
        own.unlink()
    (line,) = [line for line in office.explain() if "Ant" in line or "Bee" in line]
    assert line.startswith(f"{moved}:1:1: the file's name doesn't name Bee, whose form ")


def test_a_whole_input_is_no_rules(tmp_path: Path) -> None:
    path = EXAMPLES / "worked.txt"
    why = f"{path}: it is a whole input of wdp, and not its rules alone; wdp-office explain {path} "
    check_stopped(run("gather", path, FORMS, "--groups", "each"), why)
    check_stopped(run("form", path, "--output", tmp_path / "forms"), why)


@pytest.mark.parametrize(
    "command, hint",
    [
        ("echo {mps}", "the command has to print lines NAME VALUE, or to write them to {out}"),
        ("cbc {mps} -solve", "write them to {out}; --solver cbc calls cbc itself"),
        ("cbc {free} -solve -solution {out}", "to write lines NAME VALUE to {out}; --solver cbc calls cbc itself"),
    ],
)
def test_a_command_that_prints_no_solution(tmp_path: Path, wdp: str, command: str, hint: str) -> None:
    folder = AuctionFolder(tmp_path / "auction", wdp)
    seen = folder.run("--no-certify", "--solver-command", command)
    assert seen.status == 1
    assert hint in seen.err


def test_results_take_a_folder(tmp_path: Path, whole: AuctionFolder) -> None:
    of_folder = run("results", whole.where, "--output", tmp_path / "folder")
    of_audit = run("results", whole.where / "audit.txt", "--output", tmp_path / "audit")
    assert of_folder.status == of_audit.status == 0
    names = {path.name for path in (tmp_path / "audit").iterdir()}
    assert "audit.txt" in names
    for name in names:
        made = [tmp_path / kind / name for kind in ("folder", "audit")]
        assert made[0].read_bytes() == made[1].read_bytes()


@pytest.mark.parametrize("command", ["lost", "letters"])
def test_a_file_in_the_place_of_the_folder(whole: AuctionFolder, command: str) -> None:
    audit = whole.where / "audit.txt"
    why = f"{command}: {audit} is a file: {command} takes the folder of an auction: wdp-office {command}"
    check_stopped(run(command, audit), why, str(whole.where), status=2)


def test_certify_begins_from_nothing(tmp_path: Path, whole: AuctionFolder, wdp: str) -> None:
    """What it prints are the parts that `wdp verify` takes before the input."""
    alone = WORKED.partition(b"%groups")[0] + b"%groups\n-\n"
    seen = run("certify", whole.where / "programs" / "1.mps")
    assert seen.status == 0
    audit = tmp_path / "audit.txt"
    audit.write_bytes(seen.out.encode() + alone)
    verified = finish(start([wdp, "verify", audit]))
    assert verified.status == 0, verified.err
    assert verified.out.endswith("total 62\ncost 0\n")


def hide_libraries(folder: Path, *names: str) -> dict[str, str]:
    for name in names:
        (folder / f"{name}.py").write_text("raise ImportError\n")
    path = f"{folder}:{COMMAND.parents[1]}"
    return make_environment(PYTHONPATH=path, PATH=str(folder))


ALL_NEEDS = (
    "a certificate needs Debian's packages python3-numpy python3-scipy python3-swiglpk, HiGHS needs "
    "Debian's packages python3-numpy python3-scipy, the page needs Debian's packages python3-jinja2: "
    "apt-get install -y python3-numpy python3-scipy python3-swiglpk python3-jinja2\n"
)


def test_what_a_run_needs_is_one_line_before_it_begins(tmp_path: Path) -> None:
    """On a machine without a library and without cbc; nothing is made."""
    libraries = tmp_path / "libraries"
    libraries.mkdir()
    env = hide_libraries(libraries, "numpy", "scipy", "swiglpk", "jinja2")
    words = ["auction", tmp_path / "new", "--input", EXAMPLES / "worked.txt"]
    seen = run(*words, env=env)
    assert seen == (1, "", f"auction: {ALL_NEEDS}")
    assert not (tmp_path / "new").exists()


def test_the_page_is_looked_for_before_the_run(tmp_path: Path) -> None:
    libraries = tmp_path / "libraries"
    libraries.mkdir()
    env = hide_libraries(libraries, "jinja2")
    seen = run("auction", tmp_path / "new", "--input", EXAMPLES / "worked.txt", env=env)
    check_stopped(seen, "auction: the page needs Debian's packages python3-jinja2: apt-get install ")
    assert not (tmp_path / "new").exists()


def test_the_audit_is_left_whatever_the_page_needs(tmp_path: Path, wdp: str) -> None:
    folder = AuctionFolder(tmp_path / "auction", wdp)
    folder.put("names.csv", b"Nobody,Nobody plc\n")
    assert "names.csv" in folder.read_messages(status=1)
    report, audit = folder.read_outcome()
    assert report == (EXAMPLES / "worked.report.txt").read_bytes()
    assert finish(start([wdp, "verify", folder.where / "audit.txt"])).status == 0
    assert not folder.has("results")
    (folder.where / "names.csv").unlink()
    folder.read_messages()
    assert folder.read_outcome() == (report, audit)
    assert folder.has("results/results.html")


KIBIBYTES = 400_000  # of address space


def test_the_example_runs_in_little_memory(tmp_path: Path) -> None:
    most = KIBIBYTES * 1024
    limit = {"preexec_fn": lambda: resource.setrlimit(resource.RLIMIT_AS, (most, most))}
    words = ["auction", tmp_path / "new", "--input", EXAMPLES / "worked.txt", "--jobs", 1]
    assert run(*words, **limit).status == 0


def test_a_file_is_read_by_its_size(tmp_path: Path) -> None:
    """No room is asked for that it hasn't, however large it may be."""
    path = tmp_path / "file"
    path.write_bytes(b"x" * 200_000)
    assert files.read(str(path), 2**62) == b"x" * 200_000
    assert files.read(str(path), 200_000) == b"x" * 200_000
    assert files.read("/proc/self/status", 2**62).startswith(b"Name:")
    with pytest.raises(files.Unreadable, match="more than 199,999 bytes"):
        files.read(str(path), 199_999)
    with pytest.raises(files.Unreadable, match="more than 10 bytes"):
        files.read("/proc/self/status", 10)


def test_receipts_come_with_the_forms(tmp_path: Path, wdp: str) -> None:
    """The last form of a bidder counts; whoever has none gets a receipt alone."""
    data = WORKED.replace(b"%form\nGamma,A,B\n12,0,1\n", b"")
    data = data.replace(b"%groups\n", b"%form\nAlpha,A,B\n31,1,0\n%groups\n")
    folder = AuctionFolder(tmp_path / "auction", wdp, data=data)
    assert run("letters", folder.where, "--receipts").status == 0
    assert folder.read("receipts/Alpha.csv") == b"Alpha,A,B\n31,1,0\n"
    assert folder.read("receipts/Beta.csv") == b"Beta,A,B\n20,1,0\n45,3,0\n"
    assert not folder.has("receipts/Gamma.csv")
    digest = hashlib.sha256(folder.read("receipts/Alpha.csv")).hexdigest()
    printed = f"$ sha256sum Alpha.csv\n{digest}  Alpha.csv\n"
    assert printed in folder.read("receipts/Alpha.txt").decode()
    assert "sha256sum" not in folder.read("receipts/Gamma.txt").decode()


@pytest.mark.parametrize("command", ["solve", "certify"])
def test_an_input_in_the_place_of_a_program(command: str) -> None:
    why = "wdp: program: 3 Section at line 1; this is an input of wdp: wdp text or wdp compile makes"
    check_stopped(run(command, EXAMPLES / "worked.txt"), why)


ARGUMENTS = [
    ("solve --solver gurobi", "it takes cbc or highs, not 'gurobi'; any other solver goes by --solver-c"),
    ("solve --time-limit 0", "argument --time-limit: it takes a number of seconds, 1 or more, not '0'"),
    ("auction --jobs many", "argument --jobs: it takes a number of jobs, 1 to 1000, not 'many'"),
    ("nosuch", "there is no command 'nosuch'; wdp-office --help lists all"),
    ("gahter", "there is no command 'gahter'; the nearest one is gather"),
]


@pytest.mark.parametrize("words, why", ARGUMENTS)
def test_arguments_that_are_wrong(words: str, why: str) -> None:
    check_stopped(run(*words.split()), why, status=2)
