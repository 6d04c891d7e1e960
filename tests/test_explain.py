"""`wdp explain` on inputs of which every fault is known, or the first one.

The first line is the refusal: of cases, and of damaged inputs. If faults are planted into an auction, the lines are those that were
planted, each once and in order. Of auctions without a fault the lines of `explain --bids` are those that comparing all bids finds.
"""

import itertools
import random
import re
from collections import Counter

import pytest
from damage import ACCEPTED, damage_input
from tied_auctions import input_text, random_auction
from trials import left_out
from trials.cases import Case, list_cases, read_case
from trials.explain_details import is_line_of
from trials.faulty_inputs import PLANTED, limits, planted
from trials.program_runs import row, seen
from trials.planted import BID_PLANTS, GROUP_PLANTS, RULES, Planted

PARTS = b"%rules %form %groups %solution %certificate %unique %tie %prices %cover %rule".split()
OF_VERSION_1 = ": %weights is of version 1, and wdp-office prices makes %rule in its place"
# so many damages of each version, and auctions whose bids are left out, are tried in one test; and of those are at least so many
DAMAGES = 350
LEAST_DAMAGES = {"": 20, "rules": 250, "form": 200, "groups": 40, "input": 75}
AUCTIONS = 600
LEAST_REASONS = 100
LINE = re.compile(
    r"(rules|form|groups)(?: (\d+))?: (\d+) [A-Za-z]+(?: at (?:record|line) (\d+))?"
    r"(?:, earlier bid \d+|(?:, (?:field|name) (\d+))?(?:: .*)?)"
)
ALONE = re.compile(r"form \d+: CallLimit|input: [a-z0-9 ]+(?:: .*)?")
# the refusals of cases that `explain` tells, too
OF_AUCTIONS = re.compile("rules: |form |groups: (?!no group|group 1 )")


def heads(text):
    return [line.removesuffix(b"\r") for line in re.findall(rb"^%[^\n]*", text, re.MULTILINE)]


def fault_of_parts(text):
    """What is wrong with the parts as `explain` takes them, or nothing."""
    names = heads(text)
    unknown = [number for number, name in enumerate(names, 1) if name not in PARTS]
    if text and not text.startswith(b"%"):
        return "input: bytes before the first part"
    if unknown:
        of_version_1 = names[unknown[0] - 1] == b"%weights"
        return f"input: part {unknown[0]} not known" + OF_VERSION_1 * of_version_1
    if names.count(b"%rules") != 1:
        return "input: wrong number of rules"
    return "input: wrong number of groups" if names.count(b"%groups") > 1 else ""


def line_of(said):
    return said.decode("latin-1").removeprefix("wdp: ").removesuffix("\n")


def refusal_of(program, text):
    """The line that refuses an input whole, without its head; nothing where it is accepted."""
    status, _, said = seen(program, ["compile" if b"%groups" in heads(text) else "text"], text)
    return line_of(said) if status == int(bool(said)) else f"status {status}"


def order_of(line):
    """Where a line stands: rules before forms before groups; by form, record, number and field, or by line and name."""
    match = LINE.fullmatch(line)
    if not match:
        return (3,) if ALONE.fullmatch(line) else ()
    form, number, record, field = (int(part or 0) for part in match.groups()[1:])
    of_form = (1, form, record, number, field)
    of_groups = (2, record, field)
    return {"rules": (0, record), "form": of_form, "groups": of_groups}[match[1]]


def explained(wdp, text):
    """The lines of `explain`, which come with the status that belongs to them."""
    status, output, said = seen(wdp, ["explain"], text)
    *lines, rest = output.decode("latin-1").split("\n")
    assert (status, rest, said) == (int(bool(lines)), "", b"")
    return lines


def expect_first(wdp, text, refusal):
    """The first line is this refusal, and all are lines of faults in their order; nothing where nothing is refused."""
    lines = explained(wdp, text)
    orders = [order_of(line) for line in lines]
    assert orders == sorted(set(orders)) and () not in orders
    assert is_line_of(lines[0], refusal) if lines else not refusal, (lines[:1], refusal)


def expect_all(wdp, text, wanted):
    """The lines are these, and the first one is the refusal."""
    text = text.encode("latin-1")
    assert explained(wdp, text) == wanted
    assert is_line_of(wanted[0] if wanted else "", refusal_of(wdp, text))


def is_of_an_input(case: Case) -> bool:
    """Whether a case has an input that no command is named for; the cases of `--for` have all that is printed."""
    words = case.words()
    others = {b"help", b"--help", b"-h", b"--version", b"-V"} & set(words)
    others |= {word for word in words if word.startswith(b"--for")}
    return not others and case.wanted()[0] < 2


@pytest.mark.parametrize("name", [it for it in list_cases() if is_of_an_input(read_case(it))])
def test_case(wdp, name):
    """What is refused for its rules, forms or groups is told; nothing is, where the fault is elsewhere, but of the parts."""
    case = read_case(name)
    line = line_of(case.stderr)
    refusal = line if OF_AUCTIONS.match(line) else fault_of_parts(case.stdin)
    is_explained = case.wanted()[0] == 1 and not case.stderr
    expect_first(wdp, case.stdin, refusal_of(wdp, case.stdin) if is_explained else refusal)


@pytest.mark.parametrize("first", range(0, 700, DAMAGES))
def test_damaged(wdp, first):
    counts = Counter()
    for version, seed in itertools.product(range(3), range(first, first + DAMAGES)):
        with row(f"version {version + 1}, damaged by {seed}"):
            text = damage_input(ACCEPTED[version], seed)
            refusal = refusal_of(wdp, text)
            counts[refusal.partition(" ")[0].removesuffix(":")] += 1
            expect_first(wdp, text, refusal)
            assert fault_of_parts(text) == (refusal if refusal.startswith("input: ") else "")
    assert not [kind for kind, least in LEAST_DAMAGES.items() if counts[kind] < least], counts


@pytest.mark.parametrize("size", PLANTED, ids=str)
def test_planted(wdp, size):
    auction = planted(*size)
    expect_all(wdp, auction.text(), auction.lines())


def test_each_fault_is_planted():
    of_all = [planted(*size).told.values() for size in PLANTED if size[0] <= 1_000]
    faults = {(fault, bool(field)) for told in of_all for place in told for fault, field in place}
    plants = [fault for _, told in BID_PLANTS + GROUP_PLANTS for fault in told]
    assert faults == {(fault, bool(field)) for fault, field in [*plants, ("2 Header", None)]}


@pytest.mark.parametrize("count, number", itertools.product((2, 10), range(5)))
def test_behind_faulty_rules_nothing_is_told_of_forms_and_groups(wdp, count, number):
    draw = random.Random(f"rules {count} {number}")
    faulty = [record for record, it in enumerate(RULES, 1) if it[1]]
    chosen = sorted(draw.sample(faulty, count))
    rules = [it[record in chosen] for record, it in enumerate(RULES, 1)]
    wanted = ["rules: {2} at record %d{3}".format(*RULES[it - 1]) % it for it in chosen]
    expect_all(wdp, Planted(draw, 60).plant(10).text(rules), wanted)


@pytest.mark.parametrize("text, wanted", [pytest.param(*row, id=name) for name, *row in limits()])
def test_limits(wdp, text, wanted):
    expect_all(wdp, text, wanted)


@pytest.mark.parametrize("first", range(0, 1_200, AUCTIONS))
def test_bids_left_out(wdp, first):
    counts = Counter()
    for number in range(first, first + AUCTIONS):
        draw = random.Random(f"bids {number}")
        drawn = random_auction(draw, draw.choice((4, 20, 200)))
        text = input_text(drawn, [()]).encode()
        wanted = "".join(left_out.lines(drawn))
        counts.update(re.findall(r": bid \d+ ([a-z]+)", wanted))
        with row(f"auction {number}"):
            assert seen(wdp, ["explain", "--bids"], text) == (0, wanted.encode(), b"")
            assert seen(wdp, ["explain"], text) == (0, b"", b"")
    assert not [it for it in ("asks", "loads", "brings", "is") if counts[it] < LEAST_REASONS]
