"""`wdp explain --json` says in objects what `wdp explain` says in words.

From each object the line in words is made as docs/REFERENCE.md describes both, of its members alone and of all of them, and has to be
the line that is printed without --json, byte for byte: of cases as they are, in several files and for each command, of inputs with
planted faults and at the limits, of damaged inputs, and of bids that are in no program.
"""

from __future__ import annotations

import itertools
import json
import os
import random
import re
import shutil
from collections import Counter
from pathlib import Path

import pytest
from damage import ACCEPTED, damage_input
from tied_auctions import input_text, random_auction
from trials.cases import Case, list_cases, read_case
from trials.faulty_inputs import PLANTED, limits, planted
from trials.program_runs import row, seen
from trials.planted import MOST_LINES
from trials.program import ROOT

OFFICE = Path(ROOT, "fixtures", "files", "office")
COMMANDS = ["", "text", "compile", "map", "report", "verify"]
# so many damages of each version, and auctions whose bids are in no program, are tried; and of each reason are at least so many
DAMAGES = 100
AUCTIONS = 100
LEAST_REASONS = 20
# names of the files into which an input is cut, some of which are printed with escapes, or look like what a line begins with
NAMES = ["a.txt", "it's", "form 1: 2 Header", "M\u00fcller", "a\nb", r"\x0a", "input: ", "b: c"]
# the members of a fault in their order, and those that are no numbers
FAULT = "file part number fault code record line earlier_bid bidder other_file field name found cut cause".split()
TEXTS = {"file", "part", "fault", "bidder", "other_file", "found", "cause", "reason"}
TEXTS |= {"category", "pool"}
# why a bid is in no program, or a form doesn't count, and the members behind the reason in their order
REASONS = {
    "OverSupply": (
        "asks for {asked} of {category}, of which there are {supply}",
        ["category", "asked", "supply"],
    ),
    "OverCap": (
        "loads pool {pool} with {load}, above its cap of {cap}",
        ["pool", "load", "cap"],
    ),
    "BelowWorth": ("brings {less} less than its lots are worth unsold", ["less"]),
    "Dominated": ("is dominated by bid {by}", ["by"]),
    "Replaced": ("is replaced by form {by}", ["by"]),
}


def make_bid_line(said):
    """The line in words of a bid that is in no program, or a form that is replaced."""
    words, members = REASONS[said["reason"]]
    what = "form" if said["reason"] == "Replaced" else "bid"
    assert list(said) == ["bidder", what, "reason", *members]
    return f"{said['bidder']}: {what} {said[what]} {words.format(**said)}"


def take_found(said):
    """What stands at the place of a fault, as it is quoted."""
    shown = f"'{said.pop('found')}'"
    return shown + "..." if said.pop("cut", False) else shown


def take_detail(said, kind):
    """What follows the place of a fault, whose field or name is numbered; its members are taken."""
    if kind in said:
        return f", {kind} {said.pop(kind)}: {take_found(said)} {said.pop('cause')}"
    if "found" in said:
        return f": the text begins with {take_found(said)} and {said.pop('cause')}"
    return f": {said.pop('cause')}" if "cause" in said else ""


def make_fault_line(said):
    """The line in words of a fault."""
    assert list(said) == [name for name in FAULT if name in said]
    said = dict(said)
    file = said.pop("file")
    part = said.pop("part")
    fault = said.pop("fault")
    line = "" if file is None else f"{file}: "
    if fault == "another form":
        assert part == "form" and said.pop("number") > 0
        line += f"another form of {said.pop('bidder')} is in {said.pop('other_file')}"
        line += "; say --last-wins where the later one counts"
    elif fault == "part not known":
        line += f"{part}: part {said.pop('number')} not known" + take_detail(said, "field")
    else:
        what, kind = ("line", "name") if part == "groups" else ("record", "field")
        line += f"form {said.pop('number')}: " if part == "form" else f"{part}: "
        line += f"{said.pop('code')} " if "code" in said else ""
        line += fault
        line += f" at {what} {said.pop(what)}" if what in said else ""
        line += f", earlier bid {said.pop('earlier_bid')}" if "earlier_bid" in said else ""
        line += take_detail(said, kind)
    assert not said, "members of which the line has nothing"
    return line


def check_members(said):
    """Each member has its type: of numbers those from 0, and `cut` is there where it is true."""
    for name, value in said.items():
        if name == "cut":
            assert value is True
        elif name in TEXTS:
            assert isinstance(value, str) or name == "file" and value is None
        else:
            assert type(value) is int and value >= 0


def make_line(said):
    """The line in words of an object."""
    check_members(said)
    if "reason" in said:
        return make_bid_line(said)
    if "more" in said:
        assert list(said) == ["more"]
        return f"and {said['more']} more"
    return make_fault_line(said)


def expect_same(wdp, words, text, **more):
    """The objects are those of the lines in words, with the same status, and say nothing else; gives the objects."""
    status, lines, faults = seen(wdp, ["explain", *words], text, **more)
    status_of_json, printed, faults_of_json = seen(wdp, ["explain", "--json", *words], text, **more)
    assert (status_of_json, faults_of_json) == (status, faults)
    assert not (faults and printed)
    *texts, rest = printed.decode("ascii").split("\n")
    objects = [json.loads(text) for text in texts]
    assert [json.dumps(said) for said in objects] == texts and rest == ""
    assert "".join(make_line(said) + "\n" for said in objects) == lines.decode("ascii")
    return objects


def words_for(command):
    return ["--for", command] if command else []


def is_explained(case: Case) -> bool:
    """Whether a case is of an input that `explain` takes."""
    words = case.words()
    return words[:1] == [b"explain"] and b"--help" not in words and case.wanted()[0] < 2


CASES = [name for name in list_cases() if is_explained(read_case(name))]
OPTIONS = list(itertools.product(COMMANDS, ([], ["--bids"])))


@pytest.mark.parametrize("name", CASES)
def test_case(wdp, name):
    text = read_case(name).stdin
    for command, more in OPTIONS:
        with row(f"for {command} {more}"):
            expect_same(wdp, words_for(command) + more, text)


def cut_at_heads(text):
    """The parts of an input, each with its head; what comes before the first one is the first."""
    pieces = [piece for piece in re.split(rb"(?m)^(?=%)", text) if piece]
    return [piece if piece.endswith(b"\n") else piece + b"\n" for piece in pieces]


def write_files(folder, texts):
    """Files with these texts; gives their names."""
    names = [NAMES[place] if place < len(NAMES) else str(place) for place in range(len(texts))]
    for name, text in zip(names, texts):
        Path(folder, name).write_bytes(text)
    return names


@pytest.mark.parametrize("name", CASES)
def test_case_in_several_files(wdp, tmp_path, name):
    names = write_files(tmp_path, cut_at_heads(read_case(name).stdin))
    for command, more in OPTIONS:
        for last in ([], ["--last-wins"]):
            words = [*words_for(command), *more, *last, "--", *names]
            with row(" ".join(words)):
                expect_same(wdp, words, b"", cwd=tmp_path)


@pytest.mark.parametrize("size", PLANTED, ids=str)
def test_planted(wdp, size):
    auction = planted(*size)
    objects = expect_same(wdp, [], auction.text().encode("latin-1"))
    told = sum(map(len, auction.told.values()))
    assert len(objects) == min(told, MOST_LINES + 1)
    assert told <= MOST_LINES or objects[-1] == {"more": told - MOST_LINES}


@pytest.mark.parametrize("size", PLANTED[::8], ids=str)
def test_planted_in_several_files(wdp, tmp_path, size):
    draw = random.Random(str(size))
    pieces = cut_at_heads(planted(*size).text().encode("latin-1"))
    while len(pieces) > 4:
        place = draw.randrange(1, len(pieces))
        pieces[place - 1 : place + 1] = [pieces[place - 1] + pieces[place]]
    names = write_files(tmp_path, pieces)
    objects = expect_same(wdp, ["--", *names], b"", cwd=tmp_path)
    assert all("more" in said or said["file"] is not None for said in objects)


@pytest.mark.parametrize("text", [pytest.param(text, id=name) for name, text, _ in limits()])
def test_limits(wdp, text):
    expect_same(wdp, [], text.encode("latin-1"))


@pytest.mark.parametrize("byte", range(256), ids="{:02x}".format)
def test_byte(wdp, tmp_path, byte):
    """A byte before the first part, in a field and in a file's name is shown before it gets into a string: all that is there prints."""
    odd = b"x" + bytes([byte])
    text = read_case("explain_all_faults").stdin.replace(b"31,1,x", b"31,1," + odd)
    objects = expect_same(wdp, [], odd) + expect_same(wdp, [], text)
    if byte not in b"\0/":
        name = os.fsdecode(odd)
        Path(tmp_path, name).write_bytes(text)
        objects += expect_same(wdp, [name], b"", cwd=tmp_path)
    texts = [value for said in objects for value in said.values() if isinstance(value, str)]
    assert texts and all(text.isascii() and text.isprintable() for text in texts)


@pytest.mark.parametrize("version", range(len(ACCEPTED)))
def test_damaged(wdp, version):
    for seed in range(DAMAGES):
        with row(f"damaged by {seed}"):
            expect_same(wdp, ["--bids"], damage_input(ACCEPTED[version], seed))


def test_bids(wdp):
    counts = Counter()
    for number in range(AUCTIONS):
        draw = random.Random(f"bids {number}")
        text = input_text(random_auction(draw, draw.choice((4, 20, 200))), [()]).encode()
        with row(f"auction {number}"):
            objects = expect_same(wdp, ["--bids"], text)
        counts.update(said["reason"] for said in objects)
    assert not [it for it in REASONS if counts[it] < LEAST_REASONS and it != "Replaced"], counts


# files that are named, and the number of the form in the file that has another one of Gamma, and in which files it and the first are
ANOTHER = """rules.txt gamma.txt later.txt          | 1 | later.txt | gamma.txt
rules.txt alpha.txt mixed.txt both.txt          | 1 | both.txt  | mixed.txt
rules.txt gamma.txt mixed.txt later.txt         | 2 | mixed.txt | gamma.txt
rules.txt gamma.txt forms.txt                   | 3 | forms.txt | gamma.txt
all.txt it's                                    | 1 | it\\'s     | all.txt
rules.txt it's later.txt                        | 1 | later.txt | it\\'s"""


@pytest.mark.parametrize("line", ANOTHER.splitlines())
def test_another_form(wdp, tmp_path, line):
    names, number, file, other = (cell.strip() for cell in line.split("|"))
    folder = shutil.copytree(OFFICE, tmp_path / "office")
    shutil.copy(folder / "earlier.txt", folder / "it's")
    wanted = {"file": file, "part": "form", "number": int(number), "fault": "another form"}
    wanted |= {"bidder": "Gamma", "other_file": other}
    words = [*names.split(), "lots.txt"]
    objects = expect_same(wdp, words, b"", cwd=folder)
    assert [*objects[0].items()] == [*wanted.items()]
    assert [said["part"] for said in objects] == ["form", "groups"]
    objects = expect_same(wdp, ["--last-wins", *words], b"", cwd=folder)
    assert [said["part"] for said in objects] == ["groups"]


def test_the_file_of_the_output_has_the_objects(wdp, tmp_path):
    text = read_case("explain_all_faults").stdin
    printed = seen(wdp, ["explain", "--json"], text)[1]
    assert seen(wdp, ["explain", "--json", "-o", "out"], text, cwd=tmp_path) == (1, b"", b"")
    assert (tmp_path / "out").read_bytes() == printed
    # where the input can't be read, the file stays
    refused = seen(wdp, ["explain", "--json", "-o", "out", "none"], b"", cwd=tmp_path)
    assert refused == (1, b"", b"wdp: none: no such file or directory\n")
    assert (tmp_path / "out").read_bytes() == printed
