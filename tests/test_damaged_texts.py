"""The program on damaged texts: cut at every byte, with odd numbers and values, too long, and many. What each
text has to give is in tables here and in fixtures/damaged, made by hand from what the formats say."""

import os
import re
import tempfile

import pytest
from damage import TEXTS
from trials.program_runs import done, refused, seen
from trials.worked import ALPHA, MADE_ELSEWHERE, NO_COLUMN, ONE_BID_OF_ALPHA, ONE_COLUMN, RULES
from trials.worked import TWO_BIDS_OF_ALPHA, auction, rules_and

SIZES = "rows 3 columns 1 entries 2\n"
CHECK = ["check"]
TEXT = ["text"]
MAP = ["map", "--group", "1"]
ONE_WINNER = done("Alpha 1 30\ntotal 30\n")

# What is told of a text that ends behind a byte, by the letter beside the byte's line, always at that line. A text that ends with the
# line's end is told the same as one that ends just before it.
TOLD = {".": "21 NoEnd", "s": "3 Section", "f": "5 Fields", "m": "15 Marker", "n": "12 NumberText"}
TOLD |= {"w": "13 NotWhole", "r": "9 UnknownRow", "b": "17 BoundType", "c": "16 UnknownColumn"}
# of a form, likewise, by its records
TOLD_OF_FORM = {"h": "2 Header", "f": "4 FieldCount", "q": "8 QuantityText"}
READ_OF_FORM = ["", NO_COLUMN, ONE_BID_OF_ALPHA, TWO_BIDS_OF_ALPHA, TWO_BIDS_OF_ALPHA]


def cuts(table, end, whole):
    """Each text that is cut, the number of its last line, and its letter."""
    yield "", 0, "."
    before = ""
    for number, row in enumerate((TEXTS / table).read_text().splitlines(), 1):
        letters, _, line = row.partition("|")
        letters = letters.rstrip()
        line = line + end
        for size, letter in enumerate(letters + (letters[-1:] or ".") * len(end), 1):
            yield before + line[:size], number, letter
        assert size == len(line)
        before += line
    assert before == whole


def cut_texts():
    elsewhere = cuts("elsewhere.txt", "\r\n", MADE_ELSEWHERE)
    for text, number, letter in (*cuts("program.txt", "\n", ONE_COLUMN), *elsewhere):
        fault = refused(f"program: {TOLD.get(letter)} at line {number}")
        yield f"program cut to {text!r}", CHECK, text, done(SIZES) if letter == "A" else fault
    for text, number, letter in [*cuts("form.txt", "\n", ALPHA)][1:]:
        fault = refused(f"form 1: {TOLD_OF_FORM.get(letter)} at record {number}")
        wanted = done(READ_OF_FORM[number]) if letter == "A" else fault
        yield f"form cut to {text!r}", TEXT, rules_and(text), wanted


def tokens(table):
    """Texts of numbers, and what is told of each; in a text `99*` is so many of what follows."""
    for line in (TEXTS / table).read_text(encoding="utf-8").splitlines():
        told, _, texts = line.partition(": ")
        whole = re.sub(r"(\d\d)\*(.)", lambda it: int(it[1]) * it[2], texts)
        yield from ((told, token) for token in whole.split())


def numbers():
    accepted = {"accepted": SIZES, "a zero": "rows 3 columns 1 entries 1\n"}
    for told, it in tokens("numbers.txt"):
        fault = refused(f"program: {told} at line 10")
        wanted = done(accepted[told]) if told in accepted else fault
        yield f"number {it}", CHECK, ONE_COLUMN.replace(" X3_1 B3 1\n", f" X3_1 B3 {it}\n"), wanted
    accepted = {"zero": done("total 0\n"), "one": ONE_WINNER}
    for told, it in tokens("values.txt"):
        wanted = accepted.get(told) or refused(f"solution 1: {told} at line 1")
        yield f"value {it}", MAP, auction("-\n", f"X1_1 {it}\n"), wanted


def many_forms():
    """Forms beyond those that are read at once: a faulty one ends the reading, and the first faulty one is told."""
    header = ("", "2 Header at record 1")
    fields = ("Alpha,A,B\n30,1\n", "4 FieldCount at record 2")
    both = {4_096: fields, 4_097: header}
    apart = {4_200: fields, 4_500: header}
    for faulty in ({4_096: header}, {4_097: fields}, both, apart):
        forms = [faulty.get(number, [ALPHA])[0] for number in range(1, 5_001)]
        first = min(faulty)
        wanted = refused(f"form {first}: {faulty[first][1]}")
        yield f"5,000 forms, faulty in {list(faulty)}", TEXT, rules_and(*forms), wanted
    no_form = refused("form 1: 2 Header at record 1")
    yield "two million forms without a header", TEXT, rules_and(*[""] * 2_000_000), no_form


ROWS = [*cut_texts(), *numbers(), *many_forms()]


@pytest.mark.parametrize("words, text, wanted", [pytest.param(*it, id=name) for name, *it in ROWS])
def test_text(wdp, words, text, wanted):
    assert seen(wdp, words, text) == wanted


REPORT = done("group 1 -\ntotal 0\ncost 0\ngroup 2 Beta\ntotal 0\ncost 0\n")
UNKNOWN = refused("groups: 3 UnknownBidder at line 1")
TWO_BIDS = done(TWO_BIDS_OF_ALPHA)
# Each text at its limit in MiB and one byte above it: which it is, its words, what comes before it, its beginning, what fills it up, which
# isn't read, or is a comment or an empty line, and what is told at the limit.
LIMITS = [
    ("program", CHECK, "", ONE_COLUMN, 64, b"\0", done(SIZES)),
    ("solution 1", MAP, auction("-\n", ""), "X1_1 1\n#", 64, b"\0", ONE_WINNER),
    ("solution 2", ["report"], auction("-\nBeta\n", "", ""), "#", 64, b"\0", REPORT),
    ("rules", TEXT, "%rules\n", RULES, 4, b"\n", done(NO_COLUMN)),
    ("form 1", TEXT, rules_and(""), ALPHA, 4, b"\n", TWO_BIDS),
    ("form 2", TEXT, rules_and("Alpha,A,B\n", ""), ALPHA, 4, b"\n", TWO_BIDS),
    ("groups", ["compile"], auction(""), "-", 4, b"-", UNKNOWN),
    ("input", CHECK, "", ONE_COLUMN, 128, b"\0", refused("program: 1 TooLarge")),
    ("input", TEXT, "", "%rules\n", 128, b"\0", refused("rules: 1 TooLarge")),
]


@pytest.mark.parametrize("is_above", [False, True], ids=["at its limit", "a byte above"])
@pytest.mark.parametrize("what, words, before, text, limit, fill, at_limit", LIMITS)
def test_size(wdp, what, words, before, text, limit, fill, at_limit, is_above):
    with tempfile.TemporaryFile() as file:
        file.write(f"{before}{text}".encode())
        whole = len(before) + (limit << 20) + is_above
        if fill == b"\0":
            file.truncate(whole)
        else:
            file.write(fill * (whole - file.tell()))
        file.flush()
        os.lseek(file.fileno(), 0, os.SEEK_SET)
        above = "input: too large" if what == "input" else f"{what}: 1 TooLarge"
        assert seen(wdp, words, file) == (refused(above) if is_above else at_limit)
