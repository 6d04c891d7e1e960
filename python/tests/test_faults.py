"""Each line of `wdp explain` comes out once, in words and at its place, of inputs and files made by
hand and of damaged ones.

DAMAGES in the environment is how many are tried of each kind, by default 60.
"""
import os
import random
import re
import shutil
import subprocess
from pathlib import Path

import pytest

from commands import (
    EVIL,
    EXAMPLES,
    ROOT,
    OfficeFolder,
    check_stopped,
    parse_rows,
    read_text,
    run,
)
from damage import ACCEPTED, damage_input
from wdp import files
from wdp.office.explaining import explain
from wdp.program import find_program
from wdp.texts import accepted
from wdp.texts.accepted import Bid, Category, Pool
from wdp.texts.refusals import Refused
from wdp.texts.tables import Records, format_record

DAMAGES = int(os.environ.get("DAMAGES", "60"))
AFTER = "the forms and groups are read once the parts and the rules are right"
NAME = EVIL + "\udcff Heron.csv"
# a fault of a value that is quoted; a line of the program, and how it comes after a fault; rows
# that are alike have one
QUOTED = re.compile(r"(?P<path>.*?):(?P<line>[0-9]+):(?P<column>[0-9]+): '(?P<value>[^'\\]*)' ")
OF_PROGRAM = re.compile(r"(?m)^((?:rules|groups|form \d+): \d+ \w+(?: at \w+ \d+)?)")
IN_BRACKETS = re.compile(r"\(wdp: (.*?)(?:, earlier bid \d+)?\)$")
ALIKE = re.compile("nothing but zeros|s between (its|their) fields|more faults")


def explain_lines(folder: Path, text: bytes) -> list[str]:
    """What explain prints of an input, without its path."""
    path = folder / "input.txt"
    path.write_bytes(text)
    seen = run("explain", path)
    assert seen.err == ""
    return seen.out.replace(str(path), "").splitlines()


def read_by_hand(name: str) -> tuple[bytes, list[str]]:
    """An input made by hand, and the lines of its faults, which follow each line that has some.

    It has what spreadsheets write: CR LF, quotes, a field over two lines, empty lines, a byte order
    mark (⌂).
    """
    text = ""
    faults: list[str] = []
    for line in read_text("fixtures", "office", name).splitlines():
        if line.startswith("  ^ "):
            faults.append(f":{text.count(chr(10))}{line[4:]}")
        else:
            text += line.replace("␍", "\r").replace("⌂", "\ufeff") + "\n"
    return text.encode(), faults


def test_each_fault_of_an_input(tmp_path: Path) -> None:
    text, faults = read_by_hand("by_hand.txt")
    # forms come before groups, which are in lines 1 to 5
    wanted = sorted(faults, key=lambda line: int(line.split(":")[1]) < 6)
    assert explain_lines(tmp_path, text) == [*wanted, f"{len(wanted)} faults"]
    text, faults = read_by_hand("rules_by_hand.txt")
    for each in (text, b"%rules\n" + text[7:].replace(b"\n", b"\r")):
        assert explain_lines(tmp_path, each) == [*faults, AFTER, f"{len(faults)} faults"]


def check_place(line: str, texts: dict[str, str]) -> None:
    """The value that a fault quotes is in the file at the place that the fault names."""
    assert line.isprintable(), line
    assert len(line) < 1_000, line
    match = QUOTED.match(line)
    if match and match["path"] in texts and match["value"]:
        lines = re.split("\r\n|\r|\n", texts[match["path"]])
        rest = lines[int(match["line"]) - 1][int(match["column"]) - 1 :].replace('"', "")
        assert rest.startswith(match["value"].replace('"', "")), (line, rest)


@pytest.mark.parametrize("version", range(len(ACCEPTED)))
def test_damaged_inputs(tmp_path: Path, wdp: str, version: int) -> None:
    """Each of the program's lines comes out once, unless rows are alike, and at its place."""
    for seed in range(DAMAGES):
        text = damage_input(ACCEPTED[version], seed)
        *lines, _ = explain_lines(tmp_path, text)
        done = subprocess.run([wdp, "explain"], input=text, capture_output=True)
        refusals = OF_PROGRAM.findall(done.stdout.decode("ascii"))
        printed = [refusal for line in lines for refusal in IN_BRACKETS.findall(line)]
        if not ALIKE.search(str(lines)):
            assert [each for each in printed if not each.startswith("input")] == refusals, text
        # (groups count no CR alone)
        decoded = text.decode("utf-8", "replace")
        texts = {} if re.search("\r(?!\n)", decoded.partition("%groups")[2]) else {"": decoded}
        for line in lines:
            check_place(line, texts)


def test_each_fault_of_each_file(office: OfficeFolder) -> None:
    (office.forms / "Bee.csv").unlink()
    shutil.copytree(ROOT / "fixtures/office/faulty", office.folder, dirs_exist_ok=True)
    assert office.list_faults() == (office.folder / "faults.txt").read_text().splitlines()
    text = "sep=;\nrules;2;1,5;;;;\n;;;;;;\ncategory;Low;6;1000;2;;\nbidder;Ant;20;1;;;\n"
    office.write("rules.csv", text.encode("utf-16"))
    comma = "2:9: '1,5' isn't 1 to 18 digits: it has a comma; write digits alone"
    empty = "4:23: '' isn't 1 to 18 digits: the field is empty"
    rules = office.rules
    assert office.explain() == [f"{rules}:{comma}", f"{rules}:{empty}", AFTER, "2 faults"]
    check_stopped(office.gather(), comma, empty)


NAMES = (
    "Heron.csv|Heron (2).csv|Wren.csv.bak|Teal|teal.csv|Aster-Wren.csv|x.csv|Linnet.xlsx|a\nb.csv"
)
WORDS = ["", "--last-wins time", "--last-wins time --any-file-name", "--allow-empty Wren"]


def damage_folder(draw: random.Random, folder: Path) -> None:
    """Up to three files changed, renamed, doubled or taken away."""
    for _ in range(draw.randrange(1, 4)):
        path = draw.choice(sorted(folder.iterdir()))
        kind = draw.randrange(8)
        other = folder / draw.choice([name for name in NAMES.split("|") if name != path.name])
        text = path.read_bytes() or b"x"
        if kind < 3:
            path.unlink()
        if kind in (1, 2):
            other.write_bytes(text)
        if kind == 3:
            path.write_bytes(text[: draw.randrange(len(text))])
        if kind > 3:
            path.write_bytes(damage_input(text, draw.randrange(10**9)))


def read_any(path: Path) -> str:
    """The text of a file, in UTF-16 if it begins as that does."""
    data = path.read_bytes()
    is_wide = data[:2] in (b"\xff\xfe", b"\xfe\xff")
    return data.decode("utf-16" if is_wide else "utf-8-sig", "replace")


@pytest.mark.parametrize("seed", range(DAMAGES * 2))
def test_a_damaged_folder(tmp_path: Path, seed: int) -> None:
    """It is refused in lines, each at its place, or joined with no bid changed."""
    draw = random.Random(seed)
    sample = EXAMPLES / "office"
    forms = tmp_path / "forms"
    shutil.copytree(sample / "forms", forms)
    damage_folder(draw, forms)
    usual = "--last-wins time --allow-missing Teal --allow-unended Wren"
    options = (usual if draw.random() < 0.7 else draw.choice(WORDS)).split()
    if draw.random() < 0.2:
        options += ["--expect", str(sample / "counts.csv")]
    seen = run("gather", sample / "rules.csv", forms, sample / "groups.txt", *options)
    texts = {str(path): read_any(path) for path in forms.iterdir() if path.suffix != ".xlsx"}
    if seen.status:
        check_stopped(seen, "nothing is written")
        for line in seen.err.splitlines():
            check_place(line, texts)
    bids = [re.findall("[0-9]+", text) for text in texts.values()]
    for joined in seen.out.split("%groups")[0].split("%form\n")[1:]:
        assert re.findall("[0-9]+", joined) in bids


def test_an_endless_input() -> None:
    with open("/dev/zero", "rb") as endless:
        seen = run("explain", "-", stdin=endless)
    assert "input: it has more than 134,217,728 bytes (wdp: input: too large)\n" in seen.out


def test_a_file_that_becomes_a_pipe_or_grows_while_it_is_read(
    tmp_path: Path, monkeypatch: pytest.MonkeyPatch
) -> None:
    file = tmp_path / "file"
    file.write_text("x")
    os.mkfifo(tmp_path / "pipe")
    before = os.stat(file)
    fstat = os.fstat

    def grow(number: int) -> os.stat_result:
        status = fstat(number)
        os.utime(file, (1, 1))
        return status

    with monkeypatch.context() as changed:
        changed.setattr("wdp.files.os.stat", lambda path: before)
        with pytest.raises(files.Unreadable, match="it is a pipe"):
            files.read(str(tmp_path / "pipe"), 100, regular=True)
    monkeypatch.setattr("wdp.files.os.fstat", grow)
    with pytest.raises(files.Unreadable, match="it changed while it was read"):
        files.read(str(file), 100)


def test_a_line_break_in_a_name_forges_no_line(office: OfficeFolder) -> None:
    """(runs.txt has such names in a folder.)"""
    evil = office.folder / NAME
    rules, forms, groups = office.files
    commands: list[list[object]] = [
        ["gather", evil, forms, groups],
        ["gather", rules, evil, groups],
        ["gather", *office.files, "--output", evil / "none"],
        ["gather", *office.files, "--allow-missing", NAME],
        ["explain", evil],
    ]
    for command in commands:
        seen = run(*command)
        printed = seen.out + seen.err
        assert seen.status in (1, 2)
        assert "x\\ntotal 1\\x1b" in printed
        assert all(map(str.isprintable, printed.split("\n")))


def test_an_accepted_input_is_read_however_it_is_written() -> None:
    """Byte order marks, CR LF, quotes, empty lines, leading zeros, text in fields that aren't read,
    two forms of a bidder.
    """
    data = ACCEPTED[2].replace(b"\n50,2,1", b'\r\n\n0050,"2",1\r')
    data = data.replace(b"Low,2,", b'Low,02,"of\nMay"').replace(b"Alpha+Gamma", b"Gamma+Alpha\r")
    data = data.replace(b"%form\nAlpha", b'%form\nBeta,A,B\n99,1,0\n%form\n\xef\xbb\xbf"Alpha"')
    found = explain(find_program(), data, True)
    assert not found.findings
    assert ("Beta", "form 1 is replaced by form 3") in found.left_out
    auction = accepted.read(data, "input")
    assert auction.rules == accepted.read(ACCEPTED[2], "input").rules
    assert auction.rules.categories[0] == Category("A", 2, 10, 1, 0)
    assert auction.rules.pools == [Pool("Low", 2, {"A": 1, "B": 1})]
    assert auction.bids["Alpha"] == [Bid(30, (1, 0)), Bid(50, (2, 1)), Bid(28, (1, 1))]
    assert auction.bids["Beta"] == [Bid(20, (1, 0)), Bid(45, (3, 0))]
    assert auction.groups == [[], ["Beta"], ["Alpha", "Gamma"]]
    for text in (b"", b"%rules\nrules,1,x,,\n", b"%rules\nrules,1,1,,\n%form\nAnt,A\nx,1\n"):
        with pytest.raises(Refused):
            accepted.read(text, "input")


def test_records_and_what_is_written_is_read_back() -> None:
    for text, wanted in parse_rows(read_text("fixtures", "office", "records.txt")):
        lines = [line.split(" ") for line in wanted.split("/") if line]
        records = [
            ["" if field == "#" else field.replace("_", " ") for field in line] for line in lines
        ]
        assert [row.values for row in Records(text)] == records
    assert [row.values for row in Records(" a , b")] == [[" a ", " b"]]
    draw = random.Random(5)
    for _ in range(2_000):
        fields = ["".join(draw.choices('ab,;"%\r\n\t \ufeff', k=size)) for size in (0, 1, 2, 4)]
        row = draw.sample(["x", *fields], draw.randrange(1, 6))
        assert [each.values for each in Records(format_record(row))] == [row]
    # neither a head of a part, nor a mark that is dropped
    assert format_record(["%form", "\ufeffFox"]) == '"%form","\ufeffFox"\n'
