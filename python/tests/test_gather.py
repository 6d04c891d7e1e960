"""An office's files joined into one input, and the receipt. (test_runs.py has what is asked of the
office, and what is refused.)
"""
import contextlib
import hashlib
import os
import random
import re
import zipfile
from collections.abc import Callable, Sequence
from datetime import date
from pathlib import Path

import openpyxl
import pytest

import workbooks
from commands import (
    BIDDERS,
    BY_HAND,
    OfficeFolder,
    check_stopped,
    limit_files,
    parse_rows,
    read_text,
    run,
)
from wdp.files import Unreadable
from wdp.office.sheets import parse_table
from wdp.office.versions import format_time

DIGITS = "; write digits alone"


def test_nine_exports_join_to_the_text_made_by_hand(office: OfficeFolder) -> None:
    """As it is written, the receipt names each file and reads the rules back."""
    files = office.folder / "input.txt", office.folder / "receipt.txt"
    seen = office.gather("--output", files[0], "--receipt", files[1])
    assert seen.out == ""
    assert [file.read_text() for file in files] == [BY_HAND, seen.err]
    assert office.gather().out == BY_HAND
    assert office.gather("--output", "-").out == BY_HAND
    assert not Path("-").exists()
    assert office.explain() == ["nothing is wrong"]
    lines = seen.err.split("\n\n")[0].splitlines()
    assert [line.split(": ")[0] for line in lines] == ["rules", *BIDDERS, "groups", "input"]
    winners = ["winners", str(office.folder / "report.txt")]
    for rule, groups in ((["each"], BIDDERS), (winners, ["Bee", "Fox"])):
        joined = office.gather("--groups", *rule).out
        assert joined.split("%groups\n")[1].split() == ["-", *groups]


LINE = re.compile(
    r"(\w+): file (.*?), .*?, SHA-256 (\w+); its part in the input SHA-256 (\w+)(?:; (.*))?"
)


def test_the_receipt_has_both_digests_and_parts_are_written(office: OfficeFolder) -> None:
    """A part's bytes are those between the heads of the input, and differ from the file's only if a
    change is named.
    """
    parts = office.folder / "parts"
    words = ["--output", office.folder / "input.txt", "--parts", parts]
    seen = office.gather(*words)
    assert seen.status == 0, seen.err
    texts = re.split(rb"(?m)^%(?:rules|form|groups)\n", (office.folder / "input.txt").read_bytes())
    lines = seen.err.split("\n\n")[0].splitlines()[:-1]
    for line, text in zip(lines, texts[1:], strict=True):
        match = LINE.fullmatch(line)
        assert match
        name, path, of_file, of_part, changes = match.groups()
        assert of_file == hashlib.sha256(Path(path).read_bytes()).hexdigest()
        assert of_part == hashlib.sha256(text).hexdigest()
        assert changes or of_file == of_part
        if name != "groups":
            assert (
                parts / ("%rules.csv" if name == "rules" else f"{name}.csv")
            ).read_bytes() == text
    assert len(list(parts.iterdir())) == len(BIDDERS) + 1
    # it is written anew, but no other file is lost
    assert office.gather(*words).status == 0
    (parts / "mine.txt").write_text("kept")
    check_stopped(office.gather(*words), "it has other files, as mine.txt")
    for folder in (office.forms, office.folder, office.forms / "parts", "-"):
        seen = office.gather("--parts", folder)
        check_stopped(
            seen, "has other files, or is read in the next run; name a new folder", status=2
        )


PIECES = [
    "a",
    "1",
    "12",
    "%x",
    "\ufeff",
    ",",
    ";",
    "\t",
    '"',
    '""',
    '"a,b"',
    " ",
    "\n",
    "\r\n",
    "\r",
    "\n\n",
]


def test_no_change_of_a_table_goes_without_a_word() -> None:
    draw = random.Random(1)
    changed = 0
    for _ in range(20_000):
        data = "".join(draw.choices(PIECES, k=draw.randint(1, 12))).encode()
        with contextlib.suppress(Unreadable):
            file = parse_table("a.csv", data, 100)
            file.trim(draw.randint(1, 3))
            if not file.faults and file.text != data:
                assert file.changes, data
                changed += 1
    assert changed > 1000


def test_times_have_no_last_year() -> None:
    # (no file system here has such times; 400 years have 146,097 days)
    assert format_time(21 * 146_097 * 86_400 * 10**9) == "10370-01-01 00:00:00.000000000"
    assert format_time(10**40) == f"{10**31} s after 1970-01-01.000000000"


def test_both_files_are_written_or_neither_and_a_link_stays_one(office: OfficeFolder) -> None:
    named = "--output", office.write("input.txt", "older"), "--receipt", office.folder / "receipt"
    words = *named, "--replace"
    before = office.snapshot()
    check_stopped(office.gather(*words, **limit_files(2_000)), f"{words[3]}: File too large\n")
    assert office.snapshot() == before
    words[3].symlink_to("elsewhere.txt")
    seen = office.gather(*words)
    assert seen.status == 0
    assert words[1].read_text() == BY_HAND
    assert os.readlink(words[3]) == "elsewhere.txt"
    assert words[3].read_text() == seen.err


SHEET = [["Fox", "Low", "High"], [5000, 2, 1], [9900, 4, 0], [3000, 0, 3]]


@pytest.fixture
def workbook(office: OfficeFolder) -> Callable[..., None]:
    """Writes a workbook of Fox in the place of its form, whose first sheet is Bids; changes its
    text.
    """
    path = office.forms / "Fox.xlsx"

    def write(
        sheet: list[list[object]], old: bytes = b"", new: bytes = b"", more: Sequence[str] = ()
    ) -> None:
        book = openpyxl.Workbook()
        book.active.title = "Bids"
        for title in more:
            book.create_sheet(title)
        for name in {"Bids", "Final"}.intersection(book.sheetnames):
            for row in sheet:
                book[name].append(row)
        (office.forms / "Fox.csv").unlink(missing_ok=True)
        book.save(path)
        with zipfile.ZipFile(path) as read:
            parts = {name: read.read(name) for name in read.namelist()}
        first = "xl/worksheets/sheet1.xml"
        parts[first], count = re.subn(old, new, parts[first], count=1)
        assert count == 1, parts[first]
        with zipfile.ZipFile(path, "w", zipfile.ZIP_DEFLATED) as written:
            for name, data in parts.items():
                written.writestr(name, data)

    return write


NO_DIGITS = "isn't 1 to 18 digits"
CELLS = [
    (1300.5, f"'1300.5' {NO_DIGITS}: it has a point{DIGITS}"),
    ("many", f"'many' {NO_DIGITS}"),
    (True, f"'TRUE' {NO_DIGITS}"),
    (1e17, f"'1e+17' {NO_DIGITS}: it is in scientific notation, as spreadsheets show wide numbers"),
    (None, f"'' {NO_DIGITS}: the field is empty"),
    (-5000, f"'-5000' {NO_DIGITS}: it has a minus sign{DIGITS}"),
    ("=1*5", "its formula has no stored value; open the workbook in a spreadsheet, and save it"),
    ("#REF!", f"'#REF!' {NO_DIGITS}: it is a spreadsheet's word for an error{DIGITS}"),
    (date(2026, 5, 1), f"'2026-05-01' {NO_DIGITS}: it is a date, as spreadsheets make of what"),
]


def test_a_workbook_is_read_by_its_sheets_and_cells(
    office: OfficeFolder, workbook: Callable[..., None]
) -> None:
    floats = [9900.0, 4.0, 0]
    workbook([SHEET[0] + [None], [], SHEET[1], floats, [None] * 3, SHEET[3]], more=["Notes"])
    seen = office.gather()
    assert seen.out == BY_HAND
    assert "; read from sheet Bids, of 2 sheets, empty rows dropped: 2" in seen.err
    # (openpyxl stores no value of a formula, so one is put beside it as a spreadsheet does)
    sheet = [SHEET[0], ["=2500*2", 2, 1], *SHEET[2:]]
    workbook(sheet, rb"<f>2500\*2</f><v(?: ?/|></v)>", b"<f>2500*2</f><v>5000</v>")
    seen = office.gather()
    assert seen.out == BY_HAND, seen.err
    assert "1 formula taken by its stored value: A2" in seen.err
    workbook(SHEET, more=["Final"])
    why = "its sheet 'Final' begins as a form does, too; say --sheet NAME for the one that counts"
    assert office.list_faults() == [f"forms/Fox.xlsx: {why}"]
    for name in ("Bids", "Final"):
        assert office.gather("--sheet", name).out == BY_HAND
    why = "it has no sheet 'final', but 'Bids', 'Final'"
    assert office.list_faults("--sheet", "final") == [f"forms/Fox.xlsx: {why}"]
    for value, why in CELLS:
        workbook([SHEET[0], SHEET[1], [value, 4, 0]])
        (line,) = office.list_faults()
        assert line.startswith(f"forms/Fox.xlsx:Bids!A3: {why}")


HARM = [
    (b"<sheetData>", b"<sheetData>" + b" " * 2**27, ": of more than 67,108,864 bytes, unpacked"),
    (b'r="C4"', b'r="XFD4"', ":Bids!XFD4: it is beyond the first 256 cells of its row"),
    (b"<v>5000</v>", b"<v>x</v>", f":Bids!A2: 'x' {NO_DIGITS}"),
    (b"<v>5000</v>", b"<v>1_0</v>", f":Bids!A2: '1_0' {NO_DIGITS}"),
    (b"<sheetData>", b"<sheetData", ":Bids: its XML is broken: not well-formed"),
]


@pytest.mark.parametrize("old, new, why", HARM, ids=["bomb", "wide", "letters", "dash", "torn"])
def test_a_workbook_made_to_harm(
    office: OfficeFolder, workbook: Callable[..., None], old: bytes, new: bytes, why: str
) -> None:
    workbook(SHEET, old, new)
    (line,) = office.list_faults()
    place, words = why.split(": ", 1)
    assert line.startswith(f"forms/Fox.xlsx{place}: ")
    assert words in line


@pytest.mark.parametrize(
    "name, wanted", parse_rows(read_text("fixtures", "office", "workbooks.txt"))
)
def test_workbooks_that_were_made(name: str, wanted: str) -> None:
    """Each is read as a spreadsheet shows it, or refused with the cell, in a moment."""
    assert workbooks.read_outcome(workbooks.make_workbook(name)) == wanted


def test_there_are_enough_of_each_kind() -> None:
    listed = [
        name.rpartition("_")[0]
        for name, _ in parse_rows(read_text("fixtures", "office", "workbooks.txt"))
    ]
    assert len(workbooks.list_names()) >= 300
    for kind in workbooks.KINDS:
        assert listed.count(kind.__name__) >= 3, kind


def test_a_hidden_sheet_is_settled_by_the_name_of_the_one_that_counts(office: OfficeFolder) -> None:
    (office.forms / "Fox.csv").unlink()
    (office.forms / "Fox.xlsx").write_bytes(workbooks.make_workbook("hidden_00"))
    assert office.gather("--sheet", "Final").out == BY_HAND
    why = "forms/Fox.xlsx: its sheet 'Bids' is hidden; show it if it counts"
    assert office.list_faults("--sheet", "Bids") == [why]


@pytest.fixture
def two_sheets(office: OfficeFolder) -> Callable[..., None]:
    """Writes a workbook of Fox, whose second sheet has these rows, and what comes after them."""

    def write(rows: list[list[object]], after: str = "") -> None:
        first = "Bids", workbooks.make_body(SHEET)
        second = "Final", workbooks.make_body(rows) + after
        (office.forms / "Fox.csv").unlink()
        (office.forms / "Fox.xlsx").write_bytes(workbooks.RawWorkbook(first, second).bytes())

    return write


def test_a_form_below_a_title_on_another_sheet(
    office: OfficeFolder, two_sheets: Callable[..., None]
) -> None:
    two_sheets([["Final bids"], [], ["Fox", "Low", "High"], [1, 1, 1]])
    why = "its sheet 'Final' begins as a form does, too; say --sheet NAME for the one that counts"
    assert office.list_faults() == [f"forms/Fox.xlsx: {why}"]
    assert office.gather("--sheet", "Bids").out == BY_HAND


def test_another_sheet_may_have_what_is_no_form(
    office: OfficeFolder, two_sheets: Callable[..., None]
) -> None:
    """Nothing is said of its cells."""
    merged = '<mergeCells><mergeCell ref="A1:B1"/></mergeCells>'
    two_sheets([["Notes", "covered"], ["for Fox"]], merged)
    assert office.gather().out == BY_HAND


def test_rules_may_be_a_workbook(office: OfficeFolder, tmp_path: Path) -> None:
    """Read like a form, also for blank forms; what is wrong has its cell."""
    lines = (line.split(",") for line in office.rules.read_text().split())
    sheet: list[list[int | str | None]] = [
        [int(field) if field.isdecimal() else field or None for field in line] for line in lines
    ]
    office.rules = office.folder / "rules.xlsx"
    office.files = [office.rules, office.forms, office.groups]
    office.rules.write_bytes(workbooks.write_rows(sheet))
    seen = office.gather()
    assert seen.out == BY_HAND, seen.err
    assert "; read from sheet Bids" in seen.err, seen.err
    assert run("form", office.rules, "--output", tmp_path / "blank").status == 0
    office.rules.write_bytes(workbooks.write_rows(sheet, workbooks.hide_row))
    (line,) = office.list_faults()
    assert line.startswith("rules.xlsx:Bids!A3: its row is hidden")
    sheet[1][2] = "4"
    office.rules.write_bytes(workbooks.write_rows(sheet))
    assert office.list_faults() == ["rules.xlsx:Bids!C2: '4' is a text; turn it into a number"]
