"""A finished folder whose files are deleted, cut or changed, and folders in which a file of the
office's is in the way: what is missing is made again, and nothing that isn't as it was left is
believed or written over.
"""
import hashlib
import json
import shutil
import tempfile
from collections.abc import Iterator, Mapping
from pathlib import Path
from typing import Any

import pytest
from commands import (
    ROOT,
    AuctionFolder,
    CommandResult,
    OfficeFolder,
    check_stopped,
    list_files,
    parse_rows,
    run,
)
from results_folder import TIED_AUDIT

# the worked example, in which Alpha's second bid ties with the award of three winners
TIED = b"""\
%rules
rules,1,1,,
category,A,2,10,1
category,B,1,5,1
bidder,Alpha,9,2,
bidder,Beta,9,1,
bidder,Gamma,9,1,
%form
Alpha,A,B
30,1,0
62,2,1
28,1,1
%form
Beta,A,B
20,1,0
45,3,0
%form
Gamma,A,B
12,0,1
%groups
-
Alpha
Beta+Gamma
"""
# what a finished folder has, apart from logs: by the command that makes it again, and what no
# command needs any more
MADE = """
auction --ties     | audit.txt award.txt format.txt page.json prices.txt report.txt ties.txt
auction --ties     | programs/1.mps programs/2.mps programs/3.mps programs/names.txt
auction --ties     | certificates/1.txt certificates/2.txt certificates/3.txt
auction --ties     | solutions/1.txt solutions/2.txt solutions/3.txt
auction --ties     | results/audit.txt results/bidders.csv results/categories.csv results/groups.csv
auction --ties     | results/pools.csv results/results.html results/results.json
lost               | lost/Alpha.txt lost/Beta.txt lost/Gamma.txt lost/of_award.txt
lost               | lost/Alpha/1.json lost/Alpha/1.txt lost/Alpha/3.json lost/Alpha/3.txt
lost               | lost/Beta/1.json lost/Beta/1.txt lost/Beta/2.json lost/Gamma/1.json lost/Gamma/1.txt
letters            | letters/Alpha.csv letters/Alpha.html letters/Alpha.txt letters/Beta.csv
letters            | letters/Beta.html letters/Beta.txt letters/Gamma.csv letters/Gamma.html letters/Gamma.txt
letters --receipts | receipts/Alpha.csv receipts/Alpha.html receipts/Alpha.txt receipts/Beta.csv
letters --receipts | receipts/Beta.html receipts/Beta.txt receipts/Gamma.csv receipts/Gamma.html receipts/Gamma.txt
"""
UNNEEDED = ["answers/1.txt", "answers/2.txt", "inequalities.txt", "ties/1.txt"]
MAKERS = {name: words for words, names in parse_rows(MADE) for name in names.split()}


@pytest.fixture(scope="module")
def finished(tmp_path_factory: pytest.TempPathFactory, wdp: str) -> AuctionFolder:
    """A folder with all that commands leave, whose first award is Alpha's."""
    folder = AuctionFolder(tmp_path_factory.mktemp("finished") / "auction", wdp, TIED)
    for words in dict.fromkeys(MAKERS.values()):
        seen = run_in(folder, words)
        assert seen.status == 0, seen
    return folder


@pytest.fixture
def folder(finished: AuctionFolder, tmp_path: Path) -> AuctionFolder:
    """A copy of the finished folder."""
    shutil.copytree(finished.where, tmp_path / "auction")
    copied = object.__new__(AuctionFolder)
    vars(copied).update(vars(finished), where=tmp_path / "auction")
    return copied


def run_in(folder: AuctionFolder, words: str, **how: Any) -> CommandResult:
    """Runs a command in a folder; in this process, where what its steps say isn't seen, unless
    something is said of another one.
    """
    command, *options = words.split()
    quiet = ["--quiet"] if command in ("auction", "lost") else []
    tempfile.gettempdir()  # (which is kept: that of a run is gone when it ends)
    return run(command, folder.where, *options, *quiet, "--wdp", folder.wdp, **how)


def read_files(folder: AuctionFolder) -> dict[str, bytes]:
    """What a folder has, apart from logs and the file that keeps other runs out."""
    names = list_files(folder.where)
    return {name: folder.read(name) for name in names if not name.startswith(("logs/", ".lock"))}


def test_the_finished_folder_has_these_files(finished: AuctionFolder) -> None:
    files = read_files(finished).keys()
    sums = {name.removesuffix(".sha256")[5:] for name in files if name.startswith("sums/")}
    assert sums == {*MAKERS, *UNNEEDED, "input.txt"}
    assert {name for name in files if not name.startswith("sums/")} == sums


@pytest.mark.parametrize("name", [name for name in MAKERS if name != "page.json"])
def test_a_file_that_is_missing_is_made_again(folder: AuctionFolder, name: str) -> None:
    before = read_files(folder)
    (folder.where / name).unlink()
    seen = run_in(folder, MAKERS[name])
    assert seen.status == 0, seen
    assert read_files(folder) == before
    is_whole = name.startswith(("letters/", "receipts/", "results/"))
    is_text = name.startswith("lost/") and name.count("/") == 1
    assert is_whole or is_text or f"{name} isn't there any more" in seen.err or "lost/" in name


@pytest.mark.parametrize(
    "words", ["auction --ties", "lost", "letters", "letters --receipts", "prices"]
)
def test_a_title_that_is_missing_is_said_again(folder: AuctionFolder, words: str) -> None:
    """Nothing else has it, and what has no title needs none."""
    assert run_in(folder, "auction --ties --title Bands").status == 0
    assert run_in(folder, "lost").status == 0
    before = read_files(folder)
    (folder.where / "page.json").unlink()
    seen = run_in(folder, words)
    assert seen.status == 1, seen
    why = "isn't there any more, which has the title and the currency"
    assert f"{folder.where}/page.json {why}" in seen.err
    assert run_in(folder, "auction --ties --title Bands").status == 0
    assert read_files(folder) == before


def test_no_title_is_made_again(folder: AuctionFolder) -> None:
    before = read_files(folder)
    (folder.where / "page.json").unlink()
    seen = run_in(folder, "letters")
    assert seen.status == 0, seen
    assert read_files(folder) == before


@pytest.mark.parametrize("words", ["auction", "prices"])
def test_ties_that_are_missing_are_found_again(folder: AuctionFolder, words: str) -> None:
    """Whoever misses them, so that the audit shows no less than it did."""
    before = read_files(folder)
    (folder.where / "ties.txt").unlink()
    seen = run_in(folder, words)
    assert seen.status == 0, seen
    assert read_files(folder) == before


@pytest.mark.parametrize("name", UNNEEDED)
def test_a_file_that_is_missing_and_that_nobody_needs(folder: AuctionFolder, name: str) -> None:
    before = read_files(folder)
    (folder.where / name).unlink()
    seen = run_in(folder, "auction --ties")
    assert seen.status == 0, seen
    assert read_files(folder) == {key: text for key, text in before.items() if key != name}


def damage(data: bytes) -> Iterator[bytes]:
    """A file that was cut, and one of which a byte was changed; of an empty one, one that has more."""
    if not data:
        yield b"\n"
        return
    yield data[: len(data) // 2]
    place = len(data) // 3
    yield data[:place] + bytes([data[place] ^ 1]) + data[place + 1 :]


@pytest.mark.parametrize("name", [*MAKERS, *UNNEEDED, "input.txt"])
def test_a_file_that_was_cut_or_changed_is_kept_and_named(folder: AuctionFolder, name: str) -> None:
    for data in damage(folder.read(name)):
        folder.put(name, data)
        before = read_files(folder)
        seen = run_in(folder, MAKERS.get(name, "auction --ties"))
        assert seen.status == 1, seen
        assert f"{folder.where}/{name}" in seen.err
        assert read_files(folder) == before


SUMS = ["award.txt", "programs/2.mps", "prices.txt", "report.txt", "solutions/1.txt", "ties.txt"]


@pytest.mark.parametrize("name", [*SUMS, "results/results.json"])
def test_sums_that_were_deleted_or_cut(folder: AuctionFolder, name: str) -> None:
    before = read_files(folder)
    path = folder.where / f"sums/{name}.sha256"
    path.write_bytes(path.read_bytes()[:30])
    check_stopped(run_in(folder, "auction --ties"), f"{folder.where}/{name}")
    path.unlink()
    seen = run_in(folder, "auction --ties")
    if seen.status:
        check_stopped(seen, f"{folder.where}/{name}")
        assert folder.read(name) == before[name]
        assert run_in(folder, "auction --ties --replace").status == 0
    assert read_files(folder) == before


@pytest.mark.parametrize("name", ["certificates/2.txt", "answers/1.txt", "lost/Alpha/3.json"])
def test_what_is_replaced(folder: AuctionFolder, name: str) -> None:
    """What nobody needs any more is only taken away."""
    before = read_files(folder)
    folder.put(name, b"mine\n")
    seen = run_in(folder, f"{MAKERS.get(name, 'auction --ties')} --replace")
    assert seen.status == 0, seen
    if name in UNNEEDED:
        before = {key: text for key, text in before.items() if name not in key}
    assert read_files(folder) == before


def leave(folder: AuctionFolder, name: str, data: bytes) -> None:
    """Writes a file as if a command had left it."""
    folder.put(name, data)
    line = f"{hashlib.sha256(data).hexdigest()}  {name}\n"
    folder.put(f"sums/{name}.sha256", line.encode())


# what is put into the fields of records, each of another type or another one of its own
OTHERS: Mapping[str, list[Any]] = {
    "bidder": ["Beta", "x' ; touch mine ; '", 5, None],
    "bid": [1, 2, True, "3"],
    "amount": [29, 29.0, "28", None],
    "lots": [{"A": 2, "B": 1}, {}, [], None, "A"],
    "needed": [41, 43, "42", None, True],
    "reason": ["has a bid that \x1b[2K", None, 5],
    "shown": [41, None, "42", 10**30],
    "fate": ["WINS", "TIED", "UNFIT", "BEYOND", "NONE", 5],
}


@pytest.mark.parametrize("field", OTHERS)
def test_a_record_that_says_something_else(folder: AuctionFolder, field: str) -> None:
    """Its sum was made right."""
    name = "lost/Alpha/3.json"
    fields = json.loads(folder.read(name))
    before = read_files(folder)
    for value in OTHERS[field]:
        leave(folder, name, (json.dumps({**fields, field: value}) + "\n").encode())
        for words in ("letters", "lost"):
            seen = run_in(folder, words)
            check_stopped(seen, f"{folder.where}/{name}: its audit shows something else")
    assert run_in(folder, "lost --replace").status == 0
    assert read_files(folder) == before


RECORDS = [name for name in MAKERS if name.endswith(".json") and name.startswith("lost/")]


@pytest.mark.parametrize("name", RECORDS)
def test_each_record_that_says_something_else(folder: AuctionFolder, name: str) -> None:
    """Each of its fields is changed, and left out, with its sum made right."""
    fields = json.loads(folder.read(name))
    assert fields.keys() == OTHERS.keys()
    for field, value in fields.items():
        other = next(each for each in OTHERS[field] if each != value)
        less = {key: each for key, each in fields.items() if key != field}
        for changed in ({**fields, field: other}, less):
            leave(folder, name, (json.dumps(changed) + "\n").encode())
            check_stopped(run_in(folder, "letters"), f"{folder.where}/{name}")


# what is put in the place of an audit, and what is said of the record; its sum was made right
AUDITS = {
    "the audit of another bid": ("lost/Alpha/1.txt", "shows no amount that is enough"),
    "the award's own audit": ("audit.txt", "isn't of the award's input"),
    "no audit": ("input.txt", "isn't of the award's input"),
}


@pytest.mark.parametrize("of", AUDITS)
def test_an_audit_of_something_else(folder: AuctionFolder, of: str) -> None:
    source, said = AUDITS[of]
    leave(folder, "lost/Alpha/3.txt", folder.read(source))
    for words in ("letters", "lost"):
        check_stopped(run_in(folder, words), "lost/Alpha/3.json: ", said)


def test_an_audit_that_proves_less(folder: AuctionFolder) -> None:
    """Its input has an amount that isn't enough, or its certificate isn't one."""
    audit = folder.read("lost/Alpha/3.txt")
    for old, new in (
        (b"\n42,1,1\n", b"\n41,1,1\n"),
        (b"%certificate\n", b"%certificate\nbound 0\n"),
    ):
        assert audit.count(old) == 1
        leave(folder, "lost/Alpha/3.txt", audit.replace(old, new))
        for words in ("letters", "lost"):
            seen = run_in(folder, words)
            check_stopped(seen, "lost/Alpha/3.json: wdp verify refuses its audit: ")


def test_an_award_that_is_made_again_as_another_one(folder: AuctionFolder) -> None:
    """Ties and prices that were of the first one are found anew."""
    for name in ("solutions/1.txt", "certificates/1.txt"):
        (folder.where / name).unlink()
    award = folder.read("ties/1.txt")
    leave(folder, "award.txt", f"{hashlib.sha256(award).hexdigest()}\n".encode())
    seen = run_in(folder, "auction --ties", env=folder.make_environment())
    assert seen.status == 0, seen
    assert "group 1 has another award than before: ties and prices are found anew" in seen.err


def test_groups_that_were_added_for_another_award(folder: AuctionFolder) -> None:
    """Programs, solutions and certificates of a number count for the group of that number alone."""
    seen = run_in(folder, "auction --award 2")
    assert seen.status == 0, seen
    second = folder.where / "awards/2"
    added = (second / "programs/added.txt").read_text().splitlines()
    assert added == ["Beta", "Gamma"]
    before = {path: path.read_bytes() for path in second.rglob("*.*") if "logs" not in path.parts}
    for number, other in ((4, 5), (5, 4)):
        for kind, end in (("programs", "mps"), ("solutions", "txt"), ("certificates", "txt")):
            name = f"awards/2/{kind}/{number}.{end}"
            folder.put(name, before[second / f"{kind}/{other}.{end}"])
            line = f"{hashlib.sha256(folder.read(name)).hexdigest()}  {kind}/{number}.{end}\n"
            folder.put(f"awards/2/sums/{kind}/{number}.{end}.sha256", line.encode())
    (second / "programs/added.txt").unlink()
    (second / "prices.txt").unlink()
    seen = run_in(folder, "auction --award 2")
    assert seen.status == 0, seen
    assert (second / "audit.txt").read_bytes() == before[second / "audit.txt"]


OF_AN_AWARD = "award.txt audit.txt input.txt prices.txt report.txt ties.txt unpriced.txt certificates/1.txt certificates/2.txt"


@pytest.mark.parametrize(
    "name", [*OF_AN_AWARD.split(), "programs/1.mps", "solutions/1.txt", "solutions/3.txt"]
)
def test_an_award_of_which_a_file_is_missing(folder: AuctionFolder, name: str) -> None:
    """It is made again as this award, and not as another one that ties with it."""
    assert run_in(folder, "auction --award 2").status == 0
    before = read_files(folder)
    (folder.where / "awards/2" / name).unlink()
    seen = run_in(folder, "auction --award 2")
    assert seen.status == 0, seen
    after = read_files(folder)
    others = {key: text for key, text in after.items() if "/logs/" not in key}
    assert others == {key: text for key, text in before.items() if "/logs/" not in key}


OF_ITS_AUDIT = ["certificates/1.txt", "input.txt", "solutions/1.txt", "ties.txt", "unpriced.txt"]


@pytest.mark.parametrize("name", OF_ITS_AUDIT)
def test_an_award_of_which_a_file_is_replaced(folder: AuctionFolder, name: str) -> None:
    """It is made again as this award."""
    assert run_in(folder, "auction --award 2").status == 0
    before = read_files(folder)
    folder.put(f"awards/2/{name}", b"mine\n")
    seen = run_in(folder, "auction --award 2")
    assert seen.status == 1, seen
    assert (
        f"awards/2/{name} isn't what was left there: put that back, or wdp-office auction"
        in seen.err
    )
    assert folder.read(f"awards/2/{name}") == b"mine\n"
    seen = run_in(folder, "auction --award 2 --replace")
    assert seen.status == 0, seen
    after = {key: text for key, text in read_files(folder).items() if "/logs/" not in key}
    assert after == {key: text for key, text in before.items() if "/logs/" not in key}


def test_an_award_of_which_a_file_was_changed(folder: AuctionFolder) -> None:
    """Another list of awards would have award 2 made anew: what the office wrote there stays."""
    assert run_in(folder, "auction --award 2").status == 0
    note = folder.where / "awards/2/note.txt"
    note.write_bytes(b"mine\n")
    folder.put("awards/2/report.txt", b"mine\n")
    unpriced = folder.read("awards/2/unpriced.txt") + b"\n"
    folder.put("awards/2/unpriced.txt", unpriced)
    line = f"{hashlib.sha256(unpriced).hexdigest()}  unpriced.txt\n"
    folder.put("awards/2/sums/unpriced.txt.sha256", line.encode())
    check_stopped(run_in(folder, "auction --award 2"), "awards/2/report.txt isn't what was left")
    assert folder.read("awards/2/report.txt") == b"mine\n"
    seen = run_in(folder, "auction --award 2 --replace")
    assert seen.status == 0, seen
    assert folder.read("awards/2/report.txt").startswith(b"group 1 -\n")
    assert note.read_bytes() == b"mine\n"


# a file of the office's in a folder with an input alone, and the command that would write it
IN_THE_WAY = """
auction            | answers/1.txt
auction            | audit.txt
auction            | certificates/2.txt
auction            | format.txt
auction            | prices.txt
auction            | programs/1.mps
auction            | report.txt
auction            | results/results.html
auction            | solutions/1.txt
letters --receipts | receipts/Beta.txt
"""


@pytest.mark.parametrize("words, name", parse_rows(IN_THE_WAY))
def test_a_file_of_the_office_in_the_way(tmp_path: Path, wdp: str, words: str, name: str) -> None:
    folder = AuctionFolder(tmp_path / "auction", wdp, TIED)
    path = folder.where / name
    path.parent.mkdir(exist_ok=True)
    path.write_bytes(b"mine\n")
    check_stopped(run_in(folder, words, env=folder.make_environment()), str(path))
    assert path.read_bytes() == b"mine\n"
    seen = run_in(folder, f"{words} --replace")
    assert seen.status == 0, seen
    assert path.read_bytes() != b"mine\n"


# the same in the finished folder, of which the rest was taken away
LATER = """
lost    | lost | lost/Alpha.txt
lost    | lost | lost/Alpha/3.txt
lost    | lost | lost/of_award.txt
letters | letters | letters/Beta.html
"""


@pytest.mark.parametrize("words, kind, name", parse_rows(LATER))
def test_a_file_of_the_office_in_a_later_folder(
    folder: AuctionFolder, words: str, kind: str, name: str
) -> None:
    for gone in (kind, f"sums/{kind}"):
        shutil.rmtree(folder.where / gone)
    path = folder.where / name
    path.parent.mkdir(parents=True)
    path.write_bytes(b"mine\n")
    seen = run_in(folder, words)
    assert seen.status == 1, seen
    assert str(path) in seen.err
    assert path.read_bytes() == b"mine\n"
    assert run_in(folder, f"{words} --replace").status == 0
    assert path.read_bytes() != b"mine\n"


def test_a_log_of_the_office_is_kept(tmp_path: Path, wdp: str) -> None:
    folder = AuctionFolder(tmp_path / "auction", wdp, TIED)
    (folder.where / "logs").mkdir()
    folder.put("logs/1.txt", b"mine\n")
    assert run_in(folder, "auction --no-prices").status == 0
    assert folder.read("logs/1.txt") == b"mine\n"
    assert folder.has("logs/1-2.txt")


def test_folders_that_are_named(office: OfficeFolder) -> None:
    """`--parts` and `--output` take a folder with the same files, and no others."""
    audit = office.write("audit.txt", TIED_AUDIT)
    parts = office.folder / "parts"
    out = office.folder / "out"
    blank = office.folder / "blank"
    calls = {
        parts
        / "Fox.csv": ["gather", *office.files, "--output", office.folder / "x", "--parts", parts],
        out / "groups.csv": ["results", audit, "--output", out],
    }
    for path, words in calls.items():
        assert run(*words).status == 0
        assert run(*words).status == 0
        path.write_bytes(b"mine\n")
        check_stopped(run(*words), str(path))
        assert path.read_bytes() == b"mine\n"
        assert run(*words, "--replace").status == 0
        assert path.read_bytes() != b"mine\n"
    blank.mkdir()
    (blank / "Fox.csv").write_bytes(b"mine\n")
    check_stopped(run("form", office.rules, "--output", blank), "it has files; name a new folder")
    assert (blank / "Fox.csv").read_bytes() == b"mine\n"


# commands that write a file that is named, and its option
NAMED = """
gather  | --output
gather  | --receipt
prices  | --output
certify | --output
certify | --solution-output
solve   | --log
"""


@pytest.mark.parametrize("command, option", parse_rows(NAMED))
def test_files_that_are_named(office: OfficeFolder, command: str, option: str) -> None:
    """One with something in it is kept, and named; an empty one isn't anybody's."""
    read = {"gather": office.files, "prices": [office.write("audit.txt", TIED_AUDIT)]}
    path = office.write("named", "mine\n")
    call = [command, *read.get(command, [ROOT / "fixtures/solvers/three.mps"]), option, path]
    seen = run(*call)
    check_stopped(seen, f"{path}: it is there, and is kept; --replace puts the new one there")
    assert (seen.out, path.read_text()) == ("", "mine\n")
    assert run(*call, "--replace").status == 0
    written = path.read_bytes()
    assert written != b"mine\n"
    path.write_bytes(b"")
    assert run(*call).status == 0
    assert bool(path.read_bytes()) == bool(written)


def test_a_folder_of_another_format(folder: AuctionFolder) -> None:
    leave(folder, "format.txt", b"3\n")
    seen = run_in(folder, "auction --ties", env=folder.make_environment())
    check_stopped(seen, "format.txt is of another version of wdp-office")


def test_a_folder_of_version_1_goes_on(folder: AuctionFolder) -> None:
    """Its prices are found anew, by the rule, and the results that it has stay, by another name."""
    before = read_files(folder)
    leave(folder, "prices.txt", b"%prices\nAlpha 32\n%cover\nbound 0\n%weights\n1\n%groups\n")
    for name in ("format.txt", "award.txt"):
        (folder.where / name).unlink()
        (folder.where / f"sums/{name}.sha256").unlink()
    shutil.rmtree(folder.where / "sums/results")
    folder.put("results/results.html", b"of version 1\n")
    seen = run_in(folder, "auction --ties")
    assert seen.status == 0, seen
    assert "the prices in the folder are of version 1: they are found anew" in seen.err
    after = read_files(folder)
    assert after["results.earlier/results.html"] == b"of version 1\n"
    assert {name: text for name, text in after.items() if "earlier" not in name} == before
