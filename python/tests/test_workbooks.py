"""Workbooks that show something else than their cells have, and innocent ones beside them; what
other programs write; damaged ones; and what the libraries of archives and XML raise.

MUTATED in the environment is how many damaged workbooks are read, by default 200.
"""
import io
import os
import random
import re
import shutil
import subprocess
from collections.abc import Callable
from pathlib import Path
from typing import Any

import openpyxl.comments
import pytest

import workbooks
from commands import OfficeFolder
from hand_made import make_like_apple, make_like_excel, make_like_google
from mutated import mutate
from odd_workbooks import (
    AC,
    COMPATIBLE,
    ODD,
    TAKEN,
    Odd,
    comment,
    condition,
    linked,
    make_odd,
    make_styles,
)
from wdp.files import Unreadable
from wdp.office.known import KNOWN, ORDERED
from wdp.office.workbooks import read_workbook

RULE = "<cfRule type='expression' priority='1'/>"
OTHER_NAMES = "".join(f" y:a{number}=''" for number in range(101))
SPILLS = "".join(
    f"<row>{'<c><f t=%sarray%s ref=%sA1:C9%s>1</f><v>1</v></c>' % (4 * (chr(34),)) * 41}</row>"
    for _ in range(101)
)
NESTED = "<mc:AlternateContent><mc:Choice>" * 40 + "</mc:Choice></mc:AlternateContent>" * 40
# what no form has so much of, with what is said of it
TOO_MUCH: dict[str, tuple[Callable[[], bytes], str]] = {
    "conditions": (
        lambda: make_odd(Odd(after=condition(RULE * 501))),
        "Bids: it has more than 500 conditions",
    ),
    "what a sheet is linked to": (
        lambda: make_odd(Odd(**linked_often(9))),
        "Bids: what is read of it has more than 67,108,864 bytes, unpacked",
    ),
    "names that may be ignored": (
        lambda: make_odd(
            Odd(row=OTHER_NAMES, root=f"xmlns:mc='{COMPATIBLE}' xmlns:y='{AC}' mc:Ignorable='y'")
        ),
        "Bids: its XML has more than 100 names that may be ignored",
    ),
    "formulas of several cells": (
        lambda: workbooks.make_one(f"<sheetData>{SPILLS}</sheetData>"),
        "Bids!A101: it has more than 4,100 formulas of several cells",
    ),
    "levels": (
        lambda: make_odd(Odd(root=f"xmlns:mc='{COMPATIBLE}'", after=NESTED)),
        "Bids: its XML has more than 64 levels",
    ),
    "fonts": (
        lambda: make_odd(Odd(styles=make_styles(font="<font><sz val='11'/></font>" * 1_024))),
        "it has more than 1,024 fonts or fills",
    ),
    "pieces of texts": (
        lambda: workbooks.RawWorkbook(
            ("Bids", ""), texts=f"<si>{'<r><rPr/><t>x</t></r>' * 10_001}</si>"
        ).bytes(),
        "its texts have more than 10,000 fonts of their own",
    ),
    "texts": (
        lambda: workbooks.RawWorkbook(("Bids", ""), texts="<si/>" * 100_001).bytes(),
        "it has more than 100,000 texts",
    ),
    "comments": (
        lambda: make_odd(Odd(**comment("B3", 10_001))),
        "Bids: it has more than 10,000 comments",
    ),
    "sheets": (
        lambda: workbooks.RawWorkbook(*((f"s{number}", "") for number in range(1_001))).bytes(),
        "it has more than 1,000 sheets",
    ),
    "cells": (
        lambda: workbooks.make_one(
            f"<sheetData>{('<row>' + '<c><v>1</v></c>' * 200 + '</row>') * 751}</sheetData>"
        ),
        "Bids: it has more than 150,000 cells with a value",
    ),
}
MUTATED = int(os.environ.get("MUTATED", "200"))


@pytest.mark.parametrize("name", ODD)
def test_what_is_odd_is_refused_or_named_and_what_is_not_is_taken(name: str) -> None:
    odd, said = ODD[name]
    outcome = workbooks.read_outcome(make_odd(odd))
    if said == TAKEN:
        assert outcome == TAKEN
    else:
        assert said in outcome
        assert outcome.startswith(TAKEN[:16]) == said[:1].isdecimal(), outcome


def linked_often(count: int) -> dict[str, Any]:
    """A large part that a sheet is linked to so many times."""
    links = linked("vmlDrawing", "drawing1.vml", "x" * 16_000_000)
    (path,) = (name for name in links["parts"] if name.endswith(".rels"))
    head, link, end = re.split("(<Relationship .*/>)", links["parts"][path])
    many = "".join(link.replace("rId1", f"rId{number}") for number in range(count))
    links["parts"][path] = f"{head}{many}{end}"
    return links


@pytest.mark.parametrize("name", TOO_MUCH)
def test_a_workbook_of_more_than_a_form_has_is_refused(name: str) -> None:
    make, said = TOO_MUCH[name]
    assert workbooks.read_outcome(make()) == said


FILTER = "<autoFilter ref='A1:C9'><filterColumn colId='0'/></autoFilter>"
# what is wrong with a sheet, and with none of its cells
OF_SHEETS = {
    "<mergeCells><mergeCell ref='C3:A2'/></mergeCells>": "its merged cells 'C3:A2' aren't understood",
    FILTER: "a filter may hide its rows; remove the filter",
    condition(RULE * 501): "it has more than 500 conditions",
    "<sheetViews/>": "in 'worksheet' there is 'sheetViews' out of its order",
    "</x>": "its XML is broken: mismatched tag",
}


@pytest.mark.parametrize("after", OF_SHEETS)
def test_a_fault_of_a_sheet_names_the_sheet(office: OfficeFolder, after: str) -> None:
    (office.forms / "Fox.csv").unlink()
    body = workbooks.make_body(workbooks.FORM) + after
    (office.forms / "Fox.xlsx").write_bytes(workbooks.RawWorkbook(("Bids", body)).bytes())
    (line,) = office.list_faults()
    assert line.startswith(f"forms/Fox.xlsx:Bids: {OF_SHEETS[after]}")


def test_a_fault_of_another_sheet_names_that_one(office: OfficeFolder) -> None:
    (office.forms / "Fox.csv").unlink()
    first = "Bids", workbooks.make_body(workbooks.FORM)
    other = "Notes", "<sheetData><row r='2'/><row r='1'/></sheetData>"
    (office.forms / "Fox.xlsx").write_bytes(workbooks.RawWorkbook(first, other).bytes())
    why = "its row comes after row 2, and rows have to be in order"
    assert office.list_faults() == [f"forms/Fox.xlsx:Notes!A1: {why}"]


def test_a_form_of_texts_isnt_read_to_its_end(office: OfficeFolder) -> None:
    """The cells that can't be taken have one line, and it is said that there may be more faults."""
    rows = [workbooks.FORM[0], *[["5000", "2", "1"]] * 3_999]
    (office.forms / "Fox.csv").unlink()
    (office.forms / "Fox.xlsx").write_bytes(workbooks.make_one(workbooks.make_body(rows)))
    text, rest, *_ = office.list_faults()
    first, last = text.split(", ", 1)[0], text[-15:]
    assert (first, last) == (
        "forms/Fox.xlsx:Bids!A2: '5000' is a text; turn it into a number; the same of B2",
        " and 9,981 more",
    )
    why = "its row isn't read, since more than 10,000 cells above can't be taken"
    assert rest == f"forms/Fox.xlsx:Bids!A3336: {why}"
    assert office.gather().err.splitlines()[-1].startswith("gather: at least ")


def test_damaged_workbooks_are_read_or_refused() -> None:
    whole = [
        workbooks.make_workbook(name) for name in ("plain_00", "styles_05", "values_04", "texts_00")
    ]
    refused = 0
    for seed in range(MUTATED):
        draw = random.Random(seed)
        try:
            read_workbook("it", mutate(draw.choice(whole), draw), 4_002, heads=workbooks.BIDDERS)
        except Unreadable:
            refused += 1
    assert refused > MUTATED / 2


@pytest.mark.parametrize("encoding", ["nonsense", "shift_jis", "gb18030", "utf-7", "utf-16"])
def test_an_encoding_that_no_spreadsheet_writes(office: OfficeFolder, encoding: str) -> None:
    book = workbooks.RawWorkbook(("Bids", workbooks.make_body(workbooks.FORM)))
    book.change("xl/worksheets/sheet1.xml", "UTF-8", encoding)
    (office.forms / "Fox.csv").unlink()
    (office.forms / "Fox.xlsx").write_bytes(book.bytes())
    why = "its XML isn't in UTF-8, as spreadsheets write it"
    assert office.list_faults() == [f"forms/Fox.xlsx:Bids: {why}"]


def write_by_xlsxwriter(rows: workbooks.Rows) -> bytes:
    xlsxwriter = pytest.importorskip("xlsxwriter")
    data = io.BytesIO()
    book = xlsxwriter.Workbook(data)
    sheet = book.add_worksheet("Bids")
    number = book.add_format({"num_format": "#,##0", "bold": True})
    for index, row in enumerate(rows):
        sheet.write_row(index, 0, row, number)
    book.close()
    return data.getvalue()


def write_by_pandas(rows: workbooks.Rows) -> bytes:
    pandas = pytest.importorskip("pandas")
    data = io.BytesIO()
    pandas.DataFrame(rows[1:], columns=rows[0]).to_excel(data, sheet_name="Bids", index=False)
    return data.getvalue()


@pytest.mark.parametrize("write", [workbooks.write_rows, write_by_xlsxwriter, write_by_pandas])
def test_what_libraries_write_is_taken(write: Callable[[workbooks.Rows], bytes]) -> None:
    assert workbooks.read_outcome(write(workbooks.FORM)) == TAKEN


# programs that make a workbook of a table
PROGRAMS = {
    "gnumeric": "ssconvert Bids.csv Bids.xlsx",
    "LibreOffice": "soffice --headless -env:UserInstallation=file://$PWD/profile --convert-to xlsx Bids.csv",
}


@pytest.mark.parametrize("program", PROGRAMS)
def test_what_spreadsheets_write_is_taken(tmp_path: Path, program: str) -> None:
    command = PROGRAMS[program]
    if not shutil.which(command.split()[0]):
        pytest.skip(f"{program} isn't here")
    lines = [",".join(map(str, row)) for row in workbooks.FORM]
    (tmp_path / "Bids.csv").write_text("".join(f"{line}\n" for line in lines))
    subprocess.run(["sh", "-c", command], cwd=tmp_path, capture_output=True, check=True)
    assert workbooks.read_outcome((tmp_path / "Bids.xlsx").read_bytes()) == TAKEN


@pytest.mark.parametrize("make", [make_like_excel, make_like_google, make_like_apple])
def test_what_other_spreadsheets_declare_is_taken(make: Callable[[], bytes]) -> None:
    assert workbooks.read_outcome(make()) == TAKEN


def test_sheets_that_have_no_cells_are_counted(office: OfficeFolder) -> None:
    """One of them may show other bids."""
    book = workbooks.RawWorkbook(("Chart", ""), ("Bids", workbooks.make_body(workbooks.FORM)))
    sheet = 'worksheet" Target="worksheets/sheet1'
    book.change("xl/_rels/workbook.xml.rels", sheet, sheet.replace("worksheet", "chartsheet", 1))
    file = read_workbook("it", book.bytes(), 4_002, heads=workbooks.BIDDERS)
    assert file.changes == ["read from sheet Bids, of 2 sheets"]


def write_note_by_openpyxl() -> bytes:
    def add_note(book: Any, sheet: Any) -> None:
        sheet["E9"].comment = openpyxl.comments.Comment("seen", "office")

    return workbooks.write_rows(workbooks.FORM, add_note)


def write_note_by_xlsxwriter() -> bytes:
    xlsxwriter = pytest.importorskip("xlsxwriter")
    data = io.BytesIO()
    book = xlsxwriter.Workbook(data)
    sheet = book.add_worksheet("Bids")
    for index, row in enumerate(workbooks.FORM):
        sheet.write_row(index, 0, row)
    sheet.write_comment("E9", "seen")
    book.close()
    return data.getvalue()


@pytest.mark.parametrize("write", [write_note_by_openpyxl, write_note_by_xlsxwriter])
def test_a_note_beside_the_bids_isnt_named(write: Callable[[], bytes]) -> None:
    """As it is usual, it is seen only while someone points at its cell."""
    assert workbooks.read_outcome(write()) == TAKEN


def test_the_table_of_what_is_known_has_each_name_once() -> None:
    for within, known in KNOWN.items():
        assert known.attributes or known.elements, within
        assert known.repeated <= set(known.elements), within
    assert set(ORDERED) <= set(KNOWN)
