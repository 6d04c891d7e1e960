"""`wdp-solve` beside all that can win in small auctions, listed from the definitions over all bids; what it refuses, and its limit.

- Of each auction `wdp verify` accepts what is written, and prints the greatest totals, the costs and every other award of the list.
- The bytes that came in are the end of what is written.
"""

import random
import subprocess

import pytest
import tied_auctions as tied
from commands import ROOT, WORKED
from trials.program_runs import done, refusals, row, seen

# so many auctions are tried in one test
COUNT = 50
PROVED = b"wdp: group 1: not proved after 1 steps\n"
# bids so close together that the relaxation of the first group isn't whole
SPLIT = """%rules
rules,1,1,,
category,A,1,1,1
category,B,1,1,1
category,C,1,1,1
bidder,Alpha,9,1,
bidder,Beta,9,1,
bidder,Gamma,9,1,
%form
Alpha,A,B,C
2,1,1,0
%form
Beta,A,B,C
2,1,0,1
%form
Gamma,A,B,C
2,0,1,1
%groups
-
Alpha
"""


def solved(wdp_solve, text, *words):
    """What is written of an input that is solved."""
    status, out, err = seen(wdp_solve, list(words), text)
    assert (status, err) == (0, b"")
    assert out.endswith(text.encode() if isinstance(text, str) else text)
    return out


def report_of(wdp, audit):
    status, out, err = seen(wdp, ["verify"], audit)
    assert (status, err) == (0, b"")
    return out.decode()


def blocks_of(report):
    """The lines on each group, and those on each tie after them; and the last line."""
    groups, ties, block = [], [], []
    for line in report.splitlines():
        if line.startswith("group "):
            block = []
            groups.append(block)
        elif line == "tie":
            block = []
            ties.append(block)
        elif line in ("unique", "no other", "and more"):
            return groups, ties, line
        else:
            block.append(line)
    return groups, ties, ""


def winners_in(auction, block):
    """The allocation of a block's lines."""
    pairs = [line.split()[:2] for line in block if line.split()[0] in tied.BIDDERS]
    return tuple((tied.BIDDERS.index(name) + 1, int(bid)) for name, bid in pairs)


def check_auction(wdp, wdp_solve, number):
    draw = random.Random(f"solve {number}")
    auction = tied.random_auction(draw)
    bidders = range(1, len(auction.forms) + 1)
    groups = [(), *([bidder] for bidder in bidders), draw.sample(bidders, 2)]
    text = tied.input_text(auction, groups)
    with row(f"auction {number}: {text}"):
        report = report_of(wdp, solved(wdp_solve, text, "--ties"))
        blocks, ties, last = blocks_of(report)
        assert len(blocks) == len(groups)
        won = [winners_in(auction, block) for block in blocks]
        for group, allocation in zip(groups, won, strict=True):
            assert allocation in tied.greatest(auction, group)
        assert report.startswith(tied.report_text(auction, groups, won))
        awards = {won[0], *(winners_in(auction, block) for block in ties)}
        wanted = set(tied.greatest(auction))
        assert awards == wanted if last != "and more" else awards <= wanted
        assert last == ("unique" if len(wanted) == 1 else "no other")


@pytest.mark.parametrize("first", range(0, 2_000, COUNT))
def test_enumerated(wdp, wdp_solve, first):
    for number in range(first, first + COUNT):
        check_auction(wdp, wdp_solve, number)


@pytest.mark.parametrize("seed", [1, 2])
def test_same_bytes(wdp, wdp_solve, seed):
    """Any number of workers writes the same."""
    made = subprocess.run(
        [ROOT / "bench/small_auctions", str(seed + 6)], stdout=subprocess.PIPE, check=True
    ).stdout
    first = solved(wdp_solve, made)
    assert solved(wdp_solve, made, "--workers", "4") == first
    assert solved(wdp_solve, made, "--workers", "64") == first
    assert report_of(wdp, first)


@pytest.mark.parametrize(
    "text",
    [
        b"",
        b"x",
        b"%rules\n",
        WORKED + b"%rules\n",
        WORKED + b"%solution\nX1_1 1\n",
        WORKED + b"%certificate\nbound 0 1\n",
        WORKED + b"%nothing\n",
        WORKED.replace(b"30,1,0", b"30,1"),
        WORKED.replace(b"Beta+Gamma", b"Delta"),
        WORKED.replace(b"rules,1,1", b"rules,9,1"),
    ],
)
def test_refused_as_compile_does(wdp, wdp_solve, text):
    refused = seen(wdp, ["compile"], text)
    assert refused[0] == 1
    assert seen(wdp_solve, [], text) == refused


def test_group_1_is_empty(wdp, wdp_solve):
    text = WORKED.replace(b"%groups\n-\n", b"%groups\n")
    assert seen(wdp_solve, [], text) == (1, b"", b"wdp: groups: group 1 is not empty\n")


def test_files(wdp, wdp_solve, tmp_path):
    rules, rest = WORKED[: WORKED.index(b"%form")], WORKED[WORKED.index(b"%form") :]
    (tmp_path / "rules.txt").write_bytes(rules)
    (tmp_path / "rest.txt").write_bytes(rest)
    words = ["rules.txt", "rest.txt", "-o", "audit.txt"]
    assert seen(wdp_solve, words, b"", cwd=tmp_path) == done("")
    assert (tmp_path / "audit.txt").read_bytes() == solved(wdp_solve, WORKED)
    fault = b"wdp: none.txt: no such file or directory\n"
    assert seen(wdp_solve, ["none.txt"], b"", cwd=tmp_path) == (1, b"", fault)
    assert seen(wdp_solve, ["--from", "none.txt"], WORKED, cwd=tmp_path) == (1, b"", fault)


def test_steps(wdp, wdp_solve):
    """At the limit nothing is written, or solutions that `report` takes and `verify` refuses."""
    assert seen(wdp_solve, ["--steps", "1"], SPLIT) == (3, b"", PROVED)
    status, out, err = seen(wdp_solve, ["--steps", "1", "--unproved"], SPLIT)
    assert (status, err) == (3, PROVED)
    assert out.endswith(SPLIT.encode())
    assert seen(wdp, ["report"], out)[0] == 0
    assert seen(wdp, ["verify"], out)[0] == 1


def test_from_solutions(wdp, wdp_solve, tmp_path):
    """Points that are known are begun with; one that isn't feasible is refused as `report` refuses it."""
    known = tmp_path / "known.txt"
    known.write_bytes(b"%solution\nX1_1 1\n%solution\n# nobody\n")
    audit = solved(wdp_solve, SPLIT, "--from", str(known))
    assert "total 2\n" in report_of(wdp, audit)
    for wrong in [b"X1_1 1\nX2_1 1\n", b"X1_2 1\n", b"X1_1 2\n"]:
        text = b"%solution\n" + wrong + b"%solution\n# nobody\n"
        known.write_bytes(text)
        status, out, err = seen(wdp_solve, ["--from", str(known)], SPLIT)
        report = seen(wdp, ["report"], SPLIT.encode() + text)
        assert (status, out) == (1, b"") == report[:2]
        assert err.partition(b"solution")[2] == report[2].partition(b"solution")[2]


def test_words(wdp_solve):
    assert seen(wdp_solve, ["--steps", "0"], b"")[0] == 2
    assert seen(wdp_solve, ["--workers", "65"], b"")[0] == 2
    assert seen(wdp_solve, ["--nothing"], b"")[0] == 2
    assert seen(wdp_solve, ["--version"], b"")[0] == 0
    status, out, err = seen(wdp_solve, ["--help"], b"")
    assert (status, err) == (0, b"")
    for option in "--workers --steps --ties --unproved --from --last-wins --output".split():
        assert option.encode() in out


def test_refused_memory(wdp_solve, failing, tmp_path):
    """Where memory is refused nothing is written, or all of it."""
    whole = solved(wdp_solve, SPLIT, "--ties")
    for number, was_met, environment in refusals(failing, tmp_path):
        status, out, err = seen(wdp_solve, ["--ties"], SPLIT, env=environment)
        with row(f"request {number}"):
            if was_met():
                assert (status, out, err) in [
                    (1, b"", b"wdp: out of memory\n"),
                    (0, whole, b""),
                ]
