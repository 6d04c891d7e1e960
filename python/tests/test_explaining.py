"""What `wdp explain --json` prints is read member by member, and a program that prints anything
else is refused in one line.
"""
import json
from collections.abc import Iterator
from pathlib import Path

import pytest

from commands import write_script
from wdp.office.findings import Explained, LeftOutBid
from wdp.office.explaining import explain
from wdp.texts.refusals import Refused

# lines of faults, with the program's line in words, cut where the cause begins
FAULTS = {
    '{"file": null, "part": "rules", "fault": "FieldCount", "code": 3, "record": 2, '
    '"cause": "1 fields in place of 6"}': (
        "rules: 3 FieldCount at record 2",
        "1 field in place of 6",
    ),
    '{"file": null, "part": "rules", "fault": "TooLarge", "code": 1}': ("rules: 1 TooLarge", None),
    '{"file": null, "part": "form", "number": 1, "fault": "QuantityText", "code": 8, "record": 2, '
    '"field": 3, "found": "x", "cause": "isn\'t 1 to 18 digits"}': (
        "form 1: 8 QuantityText at record 2",
        "'x' isn't 1 to 18 digits",
    ),
    '{"file": null, "part": "form", "number": 12, "fault": "AmountText", "code": 5, "record": 3, '
    '"field": 1, "found": "\\\\xc2\\\\xa312 it\\\\\'s", "cut": true, "cause": "isn\'t 1 to 18 digits"}': (
        "form 12: 5 AmountText at record 3",
        "'£12 it\\'s'... isn't 1 to 18 digits",
    ),
    '{"file": null, "part": "form", "number": 1, "fault": "RepeatedPackage", "code": 13, '
    '"record": 5, "earlier_bid": 1}': (
        "form 1: 13 RepeatedPackage at record 5, earlier bid 1",
        None,
    ),
    '{"file": null, "part": "form", "number": 1001, "fault": "CallLimit"}': (
        "form 1001: CallLimit",
        None,
    ),
    '{"file": null, "part": "groups", "fault": "UnknownBidder", "code": 3, "line": 2, "name": 1, '
    '"found": ", name 9: x", "cause": "is no bidder\'s name"}': (
        "groups: 3 UnknownBidder at line 2",
        "', name 9: x' is no bidder's name",
    ),
    '{"file": null, "part": "input", "fault": "bytes before the first part", '
    '"found": "\\\\xef\\\\xbb\\\\xbf%rules", "cause": "has no %rules before it"}': (
        "input: bytes before the first part",
        "the text begins with '\\ufeff%rules' and has no %rules before it",
    ),
    '{"file": null, "part": "input", "fault": "wrong number of rules", '
    '"cause": "0 rules in place of 1"}': ("input: wrong number of rules", "0 rules in place of 1"),
    '{"file": null, "part": "input", "number": 5, "fault": "part not known"}': (
        "input: part 5 not known",
        None,
    ),
}
BIDS = {
    '{"bidder": "Alpha", "bid": 2, "reason": "OverSupply", "category": "A", "asked": 5, '
    '"supply": 4}': "bid 2 asks for 5 of A, of which there are 4",
    '{"bidder": "Alpha", "bid": 3, "reason": "OverCap", "pool": "Low", "load": 60, '
    '"cap": 50}': "bid 3 loads pool Low with 60, above its cap of 50",
    '{"bidder": "Alpha", "bid": 4, "reason": "BelowWorth", "less": 999999999999999999}': (
        "bid 4 brings 999999999999999999 less than its lots are worth unsold"
    ),
    '{"bidder": "Alpha", "bid": 5, "reason": "Dominated", "by": 1}': "bid 5 is dominated by bid 1",
    '{"bidder": "Alpha", "form": 2, "reason": "Replaced", "by": 5}': (
        "form 2 is replaced by form 5"
    ),
}
FAULT = next(iter(FAULTS))
BID = next(iter(BIDS))
MORE = '{"more": 12}'
# members that a line of a fault may lack
OPTIONAL = ("record", "line", "cause", "cut")


def explain_by(folder: Path, text: str | bytes, status: int = 1) -> Explained:
    """What is understood of a program that prints this text and ends with this status."""
    said = folder / "said"
    said.write_bytes(text if isinstance(text, bytes) else text.encode())
    program = write_script(folder / "wdp", f"cat '{said}'; exit {status}")
    return explain(str(program), b"", with_bids=status == 0)


def check_refused(folder: Path, text: str | bytes, status: int = 1) -> None:
    """A text isn't understood, and one short line says so."""
    with pytest.raises(Refused) as refused:
        explain_by(folder, text, status)
    assert refused.value.text.startswith("wdp explain printed a line that isn't understood: '")
    assert refused.value.text.isprintable()
    assert len(refused.value.text) < 120


def join_lines(*lines: str) -> str:
    return "".join(f"{line}\n" for line in lines)


def test_faults(tmp_path: Path) -> None:
    found = explain_by(tmp_path, join_lines(*FAULTS, MORE))
    words = [(finding.refusal, finding.cause) for finding in found.findings]
    assert words == list(FAULTS.values())
    assert found.more == 12
    refused = [finding.refused for finding in found.findings]
    assert [each.text for each in refused] == [f"wdp: {refusal}" for refusal, _ in words]
    rows = zip(refused, found.findings, strict=True)
    for each, finding in rows:
        assert (each.part, each.number, each.kind) == (finding.part, finding.number, finding.kind)
        assert (each.kind_number, each.at) == (finding.code, finding.record)
        assert each.field == finding.earlier_bid
    fields = [finding.field for finding in found.findings if finding.field is not None]
    assert fields == [3, 1, 1]
    assert list(found.by_part()["form", 1]) == [found.findings[2], found.findings[4]]


def test_bids(tmp_path: Path) -> None:
    found = explain_by(tmp_path, join_lines(*BIDS), status=0)
    assert found.left_out == [("Alpha", why) for why in BIDS.values()]
    assert found.bids[3] == LeftOutBid("Alpha", bid=5, words="is dominated by bid 1")
    assert found.bids[4] == LeftOutBid("Alpha", form=2, words="is replaced by form 5")
    assert explain_by(tmp_path, b"", status=0) == Explained()


def change_members(line: str) -> Iterator[tuple[str, str]]:
    """Lines that lack a member of this one, have one twice, have another one, or one of another
    type; each with the name of that member.
    """
    members = list(json.loads(line).items())
    for place, (name, value) in enumerate(members):
        before = members[:place]
        after = members[place + 1 :]
        yield name, format_object([*before, *after])
        yield "", format_object([*before, (name, value), *members[place:]])
        yield "", format_object([*before, (f"{name}s", value), *after])
        yield "", format_object([*before, ("more", 1), *members[place:]])
        yield "", format_object([*after, (name, value), *before])
        for other in list_others(value):
            yield "", format_object([*before, (name, other), *after])
    yield "", format_object([*members, ("more", 1)])


def list_others(value: object) -> list[object]:
    """Values that no member may have where this one is right."""
    others: list[object] = [False, float("nan"), 1.0, 1e9, -1, 10**18, 10**400, [], {}, [value]]
    others += [{"a": value}, "caf\u00e9", "\x1b[2J", "a\nb", "\ud800"]
    if value is not None:
        others.append(None)
    if value is not True:
        others.append(True)
    others.append(1 if isinstance(value, str) else "1")
    return others


def format_object(members: list[tuple[str, object]]) -> str:
    """An object with these members, which may be there twice."""
    pairs = (f"{json.dumps(name)}: {json.dumps(value)}" for name, value in members)
    return "{" + ", ".join(pairs) + "}"


@pytest.mark.parametrize("line", [*FAULTS, *BIDS])
def test_members_that_are_not_right(tmp_path: Path, line: str) -> None:
    status = 1 if line in FAULTS else 0
    has_found = '"found"' in line
    for name, changed in change_members(line):
        may_lack = name in OPTIONAL and (name == "cut" or not has_found)
        if changed != line and not may_lack:
            check_refused(tmp_path, join_lines(changed), status)


@pytest.mark.parametrize("line", [FAULT, BID, MORE])
def test_a_line_that_is_cut(tmp_path: Path, line: str) -> None:
    status = 0 if line == BID else 1
    before = join_lines(FAULT) if line == MORE else ""
    for end in range(1, len(line) + 1):
        check_refused(tmp_path, before + line[:end], status)
        if end < len(line):
            check_refused(tmp_path, before + join_lines(line[:end]), status)


OF_FORM = next(line for line in FAULTS if '"form"' in line)
OTHERS = {
    "a fault behind the count": join_lines(FAULT, MORE, FAULT),
    "two counts": join_lines(FAULT, MORE, MORE),
    "a count alone": join_lines(MORE),
    "a count that is none": join_lines(FAULT, '{"more": "12"}'),
    "a count with more": join_lines(FAULT, '{"more": 12, "less": 1}'),
    "a bid among faults": join_lines(FAULT, BID),
    "words": "rules: 3 FieldCount at record 2: 5 fields in place of 6\n",
    "an empty line": join_lines(FAULT, "", FAULT),
    "nothing but an empty line": "\n",
    "no object": join_lines("null"),
    "a list of pairs": join_lines(json.dumps(list(json.loads(FAULT).items()))),
    "two objects": join_lines(FAULT + FAULT),
    "something behind it": join_lines(FAULT + " x"),
    "a byte order mark": "\ufeff" + join_lines(FAULT),
    "a NUL": join_lines(FAULT) + "\0\n",
    "not UTF-8": join_lines(FAULT).encode().replace(b"place", b"pl\xffce"),
    "letters beyond ASCII": join_lines(FAULT.replace("place", "pl\u00e4ce")),
    "an escape of a control character": join_lines(FAULT.replace("place", r"pl\u001bce")),
    "no part": join_lines(FAULT.replace("rules", "prices")),
    "a form without a number": join_lines(FAULT.replace("rules", "form")),
    "a form of number 0": join_lines(OF_FORM.replace('"number": 1', '"number": 0')),
    "groups with a record": join_lines(FAULT.replace("rules", "groups")),
    "a name of a form": join_lines(OF_FORM.replace('"field"', '"name"')),
    "a field without its record": join_lines(OF_FORM.replace('"record": 2, ', "")),
    "cut at nothing": join_lines(FAULT.replace('"cause"', '"cut": true, "cause"')),
    "a file of one text": join_lines(FAULT.replace("null", '"a.txt"')),
    "a huge number": join_lines(FAULT.replace('"record": 2', '"record": ' + "2" * 800)),
    "a number of 5,000 digits": join_lines(
        FAULT.replace('"record": 2', '"record": ' + "2" * 5_000)
    ),
    "lists in lists": join_lines("[" * 900),
    "100,000 objects in objects": join_lines('{"file": ' * 100_000 + "1" + "}" * 100_000),
    "50 MB": join_lines(FAULT.replace("place", "x" * 50_000_000)),
    "50 MB of no object": join_lines("x" * 50_000_000),
}


@pytest.mark.parametrize("text", [pytest.param(text, id=name) for name, text in OTHERS.items()])
def test_what_is_not_understood(tmp_path: Path, text: str | bytes) -> None:
    check_refused(tmp_path, text)


def test_bids_that_are_not_understood(tmp_path: Path) -> None:
    replaced = list(BIDS)[4]
    for line in (
        FAULT,
        MORE,
        BID.replace("OverSupply", "OverCap"),
        BID.replace("OverSupply", "Cheap"),
        BID.replace('"bid"', '"form"'),
        BID.replace('"bid": 2', '"bid": 0'),
        replaced.replace('"form"', '"bid"'),
        replaced.replace("Replaced", "Dominated"),
        "",
    ):
        check_refused(tmp_path, join_lines(BID, line), status=0)


def test_statuses_and_messages(tmp_path: Path) -> None:
    """(A program of an earlier version doesn't know the option.)"""
    unknown = "error: unexpected argument '--json' found"
    scripts = {
        f'echo "{unknown}" >&2; exit 2': unknown,
        f"echo '{MORE}'; exit 3": "it ended with status 3",
        "exit 1": "it ended with status 1",
        f"echo '{MORE}'": "it ended with status 0",
        f"echo '{MORE}'; echo odd >&2; exit 1": "odd",
    }
    for script, why in scripts.items():
        program = write_script(tmp_path / "wdp", script)
        with pytest.raises(Refused) as refused:
            explain(str(program), b"x" * 1_000_000)
        assert refused.value.text == f"wdp explain: {why}"
