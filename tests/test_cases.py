"""The program gives what each case of cases/ says, and what fixtures/faults.txt and fixtures/solvers do: status, output and standard
error, byte for byte.

A row of faults is a change to an accepted text, and the line that refuses it, in which the package finds its pieces; tools/pages
puts the common ones into docs/REFERENCE.md. If it is of rules, forms or groups, `explain` prints it first, followed by its field or
name and the cause. The texts of solvers were written back from ours (commands.txt there says how), and answers.txt has what `wdp check` answers.
"""

import json
import re
from hashlib import sha256

import pytest
from commands import ROOT
from trials import cases, faults
from trials.cases import list_cases, parse_case, read_case
from trials.explain_details import NUMBERED, is_line_of
from trials.program_runs import done, refused, seen
from wdp import Refused
from wdp.office.located_faults import CAUSES

# a refusal's part with its number, and the fault's number and name
PIECES = re.compile(r"(\w+)(?: ([0-9]+))?: ([0-9]+ [A-Z]\w+)?")
TEXTS = ROOT / "fixtures/solvers"
ANSWERS = dict(line.split(": ", 1) for line in (TEXTS / "answers.txt").read_text().splitlines())


@pytest.mark.parametrize("name", list_cases())
def test_case(wdp, name):
    case = read_case(name)
    assert seen(wdp, case.words(), case.stdin) == case.wanted()


def list_audits() -> list[str]:
    """The cases in which `verify` reads an input, and prints words of it."""
    words = {name: read_case(name).words() for name in list_cases()}
    others = {b"--help", b"--forms", b"--json"}
    return [name for name, it in words.items() if it[:1] == [b"verify"] and not others & {*it}]


@pytest.mark.parametrize("name", list_audits())
def test_forms_come_before_what_verify_prints(wdp, name):
    """What `verify` refuses is refused with the same line, and nothing is printed of it."""
    case = read_case(name)
    status, output, errors = case.wanted()
    forms = b"" if status else seen(wdp, ["forms"], case.stdin)[1]
    assert seen(wdp, [*case.words(), b"--forms"], case.stdin) == (status, forms + output, errors)


def test_the_lines_of_forms_have_the_digests_of_the_parts(wdp):
    """By another SHA-256, of the bytes between two heads of an audit."""
    audit = (ROOT / "examples/prices.txt").read_bytes()
    heads = re.compile(rb"^%(\w+)\n(.*?)(?=^%|\Z)", re.DOTALL | re.MULTILINE)
    texts = [text for head, text in heads.findall(audit) if head in (b"rules", b"form")]
    output = seen(wdp, ["verify", "--forms"], audit)[1].decode()
    lines = output.splitlines()[: len(texts)]
    assert [line.split()[-1] for line in lines] == [sha256(text).hexdigest() for text in texts]


# the parts of a case, which have what a head looks like, a CR, bytes that are no text, and no last LF
PARTS = {
    "args": b"explain\n--bids\n",
    "stdin": b"%form\n=== stdin 3 ===\nabc\r",
    "stdout": b"\n\xff\x00\n=== status 1 ===\n",
    "stderr": b"",
    "status": b"1\n",
}
HEADS = {name: b"=== %s %d ===\n" % (name.encode(), len(it)) for name, it in PARTS.items()}
# the part that comes first names what is wrong with the head after it
FIRST = {"args": "args", **dict(zip(list(PARTS)[1:], PARTS))}


def make_case(**heads: bytes) -> bytes:
    """The text of the case, with these heads in place of its own."""
    parts = PARTS.items()
    return b"".join(heads.get(name, HEADS[name]) + text + b"\n" for name, text in parts)


def test_the_parts_of_a_case():
    case = parse_case(make_case())
    assert case._asdict() == PARTS
    assert case.words() == [b"explain", b"--bids"]
    assert case.wanted() == (1, PARTS["stdout"], b"")


@pytest.mark.parametrize("name", PARTS)
@pytest.mark.parametrize("more", [-2, -1, 1, 2, 40, 10**8])
def test_a_head_with_another_length(name, more):
    size = len(PARTS[name])
    head = b"=== %s %d ===\n" % (name.encode(), max(size + more, 0) or 1)
    with pytest.raises(ValueError, match=f"^{name} has .* by its head, and {size} in the file$"):
        parse_case(make_case(**{name: head}))


@pytest.mark.parametrize("name", PARTS)
@pytest.mark.parametrize(
    "old, new",
    [
        (b" ===", b""),
        (b"=== ", b"== "),
        (b" ", b"s "),
        (b" ", b"  "),
        (b"\n", b"\r\n"),
        (b" ===", b"x ==="),
    ],
)
def test_a_head_that_is_none(name, old, new):
    with pytest.raises(ValueError, match=f"^({name}|{FIRST[name]}|.*'=== {name} LENGTH ===')"):
        parse_case(make_case(**{name: HEADS[name].replace(old, new)}))


@pytest.mark.parametrize("name", PARTS)
def test_a_head_that_comes_twice_or_not_at_all(name):
    for head in (HEADS[name] * 2, HEADS[name] + PARTS[name] + b"\n" + HEADS[name], b""):
        with pytest.raises(
            ValueError, match=f"^({name}|{FIRST[name]}) has|'=== {name} LENGTH ==='"
        ):
            parse_case(make_case(**{name: head}))


def test_a_case_that_is_cut_or_goes_on():
    text = make_case()
    for size in range(len(text)):
        with pytest.raises(ValueError, match="has|LENGTH"):
            parse_case(text[:size])
    with pytest.raises(ValueError, match="^status has 2 bytes by its head, and 3 in the file$"):
        parse_case(text + b"\n")


def test_a_status_that_is_no_digit():
    for status in (b"x\n", b"1 ", b"\n\n", b"-1"):
        with pytest.raises(ValueError, match="^the status isn't a digit"):
            parse_case(make_case().replace(b"2 ===\n1\n", b"2 ===\n" + status))


def test_a_damaged_case_is_named(tmp_path, monkeypatch):
    monkeypatch.setattr(cases, "CASES", tmp_path)
    (tmp_path / "one").write_bytes(make_case()[:-1])
    with pytest.raises(ValueError, match="^cases/one: status has 2 bytes"):
        read_case("one")


@pytest.mark.parametrize("name", sorted({*ANSWERS, *(it.name for it in TEXTS.glob("*.mps"))}))
def test_text_of_a_solver(wdp, name):
    answer = ANSWERS[name]
    fault = answer.removeprefix("wdp: ")
    wanted = done(answer + "\n") if fault == answer else refused(fault)
    assert seen(wdp, ["check"], (TEXTS / name).read_bytes()) == wanted


def changes():
    """The words, the changed text and the line of each; the text is empty where it hasn't what is to be changed."""
    for section in faults.sections():
        words = section.command.split()
        base = section.text()
        for row in section.rows:
            old, new = (part.replace("⏎", "\n") for part in (row.old, row.new))
            line = row.line.removeprefix("wdp: ")
            text = base.replace(old, new, 1) if old in base else ""
            if old:
                yield pytest.param(words, text, line, id=f"{line} by {new!r}")


@pytest.mark.parametrize("words, text, line", changes())
def test_example_of_a_fault(wdp, words, text, line):
    assert seen(wdp, words, text) == refused(line)
    pieces = Refused(f"wdp: {line}")
    part, number, fault = PIECES.match(line).groups()
    assert (pieces.text, pieces.part) == (f"wdp: {line}", part)
    assert number in (None, str(pieces.number))
    assert fault in (None, f"{pieces.kind_number} {pieces.kind}")
    if NUMBERED.match(line):
        status, output, said = seen(wdp, ["explain"], text)
        assert (status, said) == (1, b"")
        assert is_line_of(output.decode(errors="replace").split("\n")[0], line)
        output = seen(wdp, ["explain", "--json"], text)[1]
        fault = json.loads(output.splitlines()[0])
        has_words = {"cause", "earlier_bid"} & {*fault} or fault["fault"] in CAUSES
        assert has_words, f"an office has no words for {fault['fault']}"
