"""Forms that an enemy chose for ./wdp-office gather, nearly all of them workbooks, by the names of their kinds.

form: 4,000 bids over 32 categories, which is all that a form may have, and is taken; faulty: the same with a formula that has no
  value in the last row. The others are refused.
formulas, arrays, unnamed, heights, faults, looks, rules, comments, drawn: such a form whose cells are formulas; formulas each of
  which has values in all cells; cells without names; whose rows have heights of their own; whose numbers are texts; whose cells look
  different; with conditions, in each of which are many colours; with comments; with drawings (drawn).
cells, ignored: as many cells as are read; cells with attributes that may be ignored.
narrow, spaced, digits: such a form whose numbers are wider than their columns; whose cells and values have an attribute that shows
  nothing; whose numbers have many zeros after the point.
floats, blanks, words, gaps: a form of numbers with a fraction of 0; of formulas without a value; of words; of every second cell.
links, tables: a sheet that is linked to one part many times; to many tables.
pieces: texts of many pieces, each with a font of its own, as far as they are read.
long_name, wide: rows with one cell far to the right, in a sheet with a long name; and with an ordinary one.
sheets: so many sheets as an archive may have files.
long_format, long_formats: a long format of many cells; and of many rules of a condition.
lying: a part that says to have 100 bytes and has 1 GB.
empty_rows, empty_cells, empty_lines, commas: rows without a cell, rows with one without a value, lines of CSV without anything,
  lines of CSV with commas alone.
long_lines: rows of CSV of a kilobyte each.
merged, conditions: such a form with merged cells beside it; conditions on all cells, more than are read.
attributes, deep, comment, texts, styles: a part with many attributes, with elements in each other, with a long comment, with many
  texts, and with many styles.
entries: an archive with many empty files.
"""
import io
import itertools
import struct
import sys
import zipfile
import zlib
from pathlib import Path

ROOT = Path(__file__).resolve().parents[2]
sys.path.insert(0, str(ROOT / "python/tests"))

import workbooks  # noqa: E402

BIDS, CATEGORIES = 4_000, 32
HEAD = ["Ant", *(f"C{number}" for number in range(1, CATEGORIES + 1))]
SMALL = [["Ant", "Low", "High"], [5000, 2, 1]]
RULES = b"rules,1,1,,\n" + b"".join(b"category,C%d,9,0,0\n" % number for number in range(1, CATEGORIES + 1)) + b"bidder,Ant,0,1,\n"
SHEET = "xl/worksheets/sheet1.xml"


def make_form():
    rows = [[1_000 + bid, *((bid >> place & 1) + (place % 3 == bid % 3) for place in range(CATEGORIES))] for bid in range(BIDS)]
    return [HEAD, *rows]


def make_faulty():
    body = workbooks.make_body(make_form())
    return workbooks.make_one(body.replace("</row></sheetData>", '<c r="AH4001"><f>1</f></c></row></sheetData>'))


def make_full(change=lambda place, value: None, *, after="", **more):
    """A form with all that it may have, of which each cell is changed, and whose last row has a formula without a value."""
    rows = []
    for number, row in enumerate(make_form(), 1):
        named = [(f"{workbooks.get_column_letter(column)}{number}", value) for column, value in enumerate(row, 1)]
        is_first = number == 1
        cells = [(not is_first and change(place, value)) or workbooks.make_cell(value, place) for place, value in named]
        rows.append(f'<row r="{number}"{more.get("of_rows", "") % {"n": number % 97}}>{"".join(cells)}</row>')
    rows[-1] = rows[-1].replace("</row>", '<c r="AH4001"><f>1</f></c></row>')
    return f"<sheetData>{''.join(rows)}</sheetData>{after}"


def make_looks(count):
    """So many styles, each with a font and a fill of its own, and what gives them to cells by turns."""
    fonts = "".join(f'<font><sz val="11"/><color rgb="FF{number:06X}"/></font>' for number in range(count))
    fills = "".join(f'<fill><patternFill patternType="solid"><fgColor rgb="FFFF{number:04X}"/></patternFill></fill>' for number in range(count))
    styles = "".join(f'<xf fontId="{number}" fillId="{number}"/>' for number in range(count))
    body = f"<fonts>{fonts}</fonts><fills>{fills}</fills><cellXfs>{styles}</cellXfs>"
    return f'{workbooks.HEAD}<styleSheet xmlns="{workbooks.MAIN}">{body}</styleSheet>'


def make_styled(count, after=""):
    turns = itertools.cycle(range(count))
    body = make_full(lambda place, value: f'<c r="{place}" s="{next(turns)}"><v>{value}</v></c>', after=after)
    book = workbooks.RawWorkbook(("Bids", body), formats=["0"])
    book.parts["xl/styles.xml"] = make_looks(count)
    return book.bytes()


def make_rules():
    """Conditions on areas that overlap, each with colours of its own."""
    ends = '<cfvo type="min"/><cfvo type="max"/>'
    scales = (f'<colorScale>{ends}<color rgb="FF{n:02X}FFFF"/><color rgb="FFFF{n:02X}FF"/></colorScale>' for n in itertools.cycle(range(256)))
    rules = (f'<cfRule type="colorScale" priority="1">{scale}</cfRule>' for scale in scales)
    listed = (f'<conditionalFormatting sqref="A{n + 2}:XFD1048576">{next(rules)}</conditionalFormatting>' for n in range(499))
    return make_styled(1_000, "".join(listed))


def make_linked(kind, target, text, count=1, body=""):
    """A form to whose sheet a part is linked, perhaps many times."""
    book = workbooks.RawWorkbook(("Bids", body or make_full()))
    links = [(f"rId{number}", kind, f"../{target}") for number in range(count)]
    book.parts |= {"xl/worksheets/_rels/sheet1.xml.rels": book.links(links), f"xl/{target}": text}
    return book.bytes()


def make_comments():
    places = (f"{workbooks.get_column_letter(column)}{row}" for row in range(1, 304) for column in range(1, 34))
    listed = "".join(f'<comment ref="{place}"/>' for place in places)
    return make_linked("comments", "comments1.xml", f'<comments xmlns="{workbooks.MAIN}"><commentList>{listed}</commentList></comments>')


def make_drawings():
    corner = "<x:{0}><x:col>{1}</x:col><x:row>{2}</x:row></x:{0}>"
    anchors = (corner.format("from", n % 40, n) + corner.format("to", 99, 9_999) for n in range(499))
    anchors = "".join(f"<x:twoCellAnchor>{anchor}</x:twoCellAnchor>" for anchor in anchors)
    root = f'<x:wsDr xmlns:x="http://schemas.openxmlformats.org/drawingml/2006/spreadsheetDrawing">{anchors}</x:wsDr>'
    return make_linked("drawing", "drawing1.xml", root)


def make_ignored():
    """Cells each of which has an attribute of its own that may be ignored."""
    numbers = itertools.count()
    body = make_full(lambda place, value: f'<c r="{place}" y:a{next(numbers)}=""><v>{value}</v></c>')
    book = workbooks.RawWorkbook(("Bids", body))
    root = 'xmlns:y="y" xmlns:mc="http://schemas.openxmlformats.org/markup-compatibility/2006" mc:Ignorable="y"'
    return book.change(SHEET, "<worksheet ", f"<worksheet {root} ").bytes()


def make_tables():
    """Tables over cells of many colours, more than are read."""
    table = f'<table xmlns="{workbooks.MAIN}" ref="A1:XFD1048576"><tableStyleInfo name="TableStyleLight1"/></table>'
    book = workbooks.RawWorkbook(("Bids", make_full()), formats=["0"])
    book.parts["xl/styles.xml"] = make_looks(1_024)
    links = [(f"rId{number}", "table", "../table1.xml") for number in range(4_000)]
    book.parts |= {"xl/worksheets/_rels/sheet1.xml.rels": book.links(links), "xl/table1.xml": table}
    return book.bytes()


def make_pieces():
    fonts = "<r><rPr><b/><i/><u/><strike/><color rgb='FF000000'/><sz val='11'/><rFont val='Calibri'/></rPr><t>x</t></r>"
    return workbooks.RawWorkbook(("Bids", make_full()), texts=f"<si>{fonts * 99}</si>" * 101 + f"<si>{fonts}</si>" * 9).bytes()


def make_rows(count, cells):
    return "<sheetData>" + "".join(f'<row r="{row}">{cells % {"row": row}}</row>' for row in range(1, count + 1)) + "</sheetData>"


def make_lying():
    """An archive whose sheet has 1 GB, of which its entry says 100 bytes."""
    book = workbooks.RawWorkbook(("Bids", workbooks.make_body(SMALL)))
    packer = zlib.compressobj(9, zlib.DEFLATED, -15)
    packed = b"".join(packer.compress(b" " * 2**20) for _ in range(1_024)) + packer.flush()
    parts = {name: text.encode() for name, text in book.parts.items() if name != SHEET}
    data = io.BytesIO()
    with zipfile.ZipFile(data, "w", zipfile.ZIP_STORED) as archive:
        archive.writestr(SHEET, packed)
        for name, text in parts.items():
            archive.writestr(name, text)
    made = bytearray(data.getvalue())
    # (what is stored becomes what is deflated: the method, and the size of what is unpacked)
    for head, method, size in ((b"PK\x03\x04", 8, 22), (b"PK\x01\x02", 10, 24)):
        at = made.find(head)
        struct.pack_into("<H", made, at + method, zipfile.ZIP_DEFLATED)
        struct.pack_into("<I", made, at + size, 100)
    return bytes(made)


def make_styles(formats, body="", more=""):
    book = workbooks.RawWorkbook(("Bids", body or workbooks.make_body(SMALL)), formats=formats)
    return book.change(workbooks.STYLES, "</styleSheet>", f"{more}</styleSheet>") if more else book


def make_long_formats():
    code = "&quot;x&quot;0" * 5_000
    rules = "".join(f'<cfRule type="cellIs" dxfId="0" priority="{rule}" operator="equal"><formula>1</formula></cfRule>' for rule in range(1, 2_001))
    body = workbooks.make_body(SMALL) + f'<conditionalFormatting sqref="A2:A9">{rules}</conditionalFormatting>'
    return make_styles(["0"], body, f'<dxfs><dxf><numFmt numFmtId="200" formatCode="{code}"/></dxf></dxfs>').bytes()


def make_merged():
    areas = '<mergeCell ref="IW1:XFD1048576"/>' * 499
    return workbooks.make_one(make_full(after=f"<mergeCells>{areas}</mergeCells>"))


def make_conditions():
    body = workbooks.make_body([["Ant", *range(200)], *([row, *range(200)] for row in range(1, 500))])
    rule = '<cfRule type="cellIs" dxfId="0" priority="1" operator="equal"><formula>1</formula></cfRule>'
    rules = f'<conditionalFormatting sqref="A1:XFD1048576">{rule}</conditionalFormatting>' * 990
    fill = '<dxfs><dxf><fill><patternFill><bgColor rgb="FF010101"/></patternFill></fill></dxf></dxfs>'
    return make_styles(["0"], body + rules, fill.replace("010101", "FFFF00")).bytes()


def make_entries():
    data = io.BytesIO()
    with zipfile.ZipFile(data, "w", zipfile.ZIP_STORED) as archive:
        for number in range(60_000):
            archive.writestr(f"{number}", b"")
    return data.getvalue()


def make_csv(line, size):
    return ",".join(HEAD).encode() + b"\n" + line * (size // len(line))


def make_narrow():
    """Numbers that are wider than their columns."""
    columns = '<cols><col min="1" max="40" width="1.5" customWidth="1"/></cols>'
    return workbooks.make_one(columns + make_full(lambda place, value: f'<c r="{place}"><v>{value + 11}</v></c>'))


small = workbooks.make_body(SMALL)
KINDS = {
    "form": lambda: workbooks.make_one(workbooks.make_body(make_form())),
    "faulty": make_faulty,
    "formulas": lambda: workbooks.make_one(make_full(lambda place, value: f'<c r="{place}"><f>{value}+0</f><v>{value}</v></c>')),
    "arrays": lambda: workbooks.make_one(
        make_full(lambda place, value: f'<c r="{place}"><f t="array" ref="A1:AG4001">{value}</f><v>{value}</v></c>')
    ),
    "unnamed": lambda: workbooks.make_one(make_full(lambda place, value: f"<c><v>{value}</v></c>")),
    "heights": lambda: workbooks.make_one(make_full(of_rows=' ht="2%(n)d"')),
    "faults": lambda: workbooks.make_one(
        make_full(lambda place, value: f'<c r="{place}" t="inlineStr"><is><t>{value}</t></is></c>')
    ),
    "looks": lambda: make_styled(1_024),
    "rules": make_rules,
    "narrow": make_narrow,
    "spaced": lambda: workbooks.make_one(
        make_full(lambda place, value: f'<c r="{place}" cm="1"><v xml:space="preserve">{value}</v></c>')
    ),
    "digits": lambda: workbooks.make_one(make_full(lambda place, value: f'<c r="{place}"><v>{value}.{"0" * 40}</v></c>')),
    "floats": lambda: workbooks.make_one(make_full(lambda place, value: f'<c r="{place}"><v>{value}.0</v></c>')),
    "blanks": lambda: workbooks.make_one(make_full(lambda place, value: f'<c r="{place}" t="str"><f>A1</f><v></v></c>')),
    "words": lambda: workbooks.make_one(make_full(lambda place, value: f'<c r="{place}" t="str"><v>x</v></c>')),
    "gaps": lambda: workbooks.make_one(make_rows(4_000, "".join(f'<c r="{workbooks.get_column_letter(2 * n + 1)}%(row)d"><v>1</v></c>' for n in range(34)))),
    "comments": make_comments,
    "drawn": make_drawings,
    "cells": lambda: workbooks.make_one(make_rows(4_001, '<c r="A%(row)d"><v>1</v></c>' + "<c><v>1</v></c>" * 59)),
    "ignored": make_ignored,
    "links": lambda: make_linked("vmlDrawing", "drawing1.vml", "x" * 16_000_000, 4_000, small),
    "tables": make_tables,
    "pieces": make_pieces,
    "long_name": lambda: workbooks.RawWorkbook(("n" * 60_000, make_rows(300, '<c r="ALL%(row)d"><v>1</v></c>'))).bytes(),
    "wide": lambda: workbooks.make_one(make_rows(4_001, '<c r="IV%(row)d"><v>1</v></c>')),
    "sheets": lambda: workbooks.RawWorkbook(*((f"s{number}", make_rows(9, "<c><v>1</v></c>")) for number in range(4_000))).bytes(),
    "long_format": lambda: make_styles(["&quot;x&quot;0" * 5_000], workbooks.make_body([SMALL[0], *[[5000, 2, 1]] * 2_700], ' s="1"')).bytes(),
    "long_formats": make_long_formats,
    "lying": make_lying,
    "empty_rows": lambda: workbooks.make_one("<sheetData>" + "<row/>" * 2_500_000 + "</sheetData>"),
    "empty_cells": lambda: workbooks.make_one("<sheetData>" + "<row><c/></row>" * 1_000_000 + "</sheetData>"),
    "empty_lines": lambda: make_csv(b"\n", 4_000_000),
    "commas": lambda: make_csv(b"," * CATEGORIES + b"\n", 4_000_000),
    "long_lines": lambda: make_csv(b"1" * 30 + b"," + b"1,0" * 16 + b"\n", 4_000_000),
    "merged": make_merged,
    "conditions": make_conditions,
    "attributes": lambda: workbooks.make_one(f"<sheetData><row {' '.join(f'a{n}=' + chr(34) * 2 for n in range(5_000))}/></sheetData>" * 250),
    "deep": lambda: workbooks.make_one("<a>" * 1_400_000 + small),
    "comment": lambda: workbooks.make_one("<!--" + "<x" * 7_000_000 + "-->" + small),
    "texts": lambda: workbooks.RawWorkbook(("Bids", make_rows(2, "<c><v>1</v></c>")), texts="<si><t>x</t></si>" * 100_000).bytes(),
    "styles": lambda: make_styles(["0"] * 24_000, make_rows(2, "<c><v>1</v></c>")).bytes(),
    "entries": make_entries,
}
TAKEN = ("form",)


def made(kind, folder):
    """Leaves the files of a run in a folder, and gives the words, and the bytes of the form."""
    form = KINDS[kind]()
    forms = Path(folder, "forms")
    forms.mkdir()
    is_workbook = form.startswith(b"PK")
    (forms / ("Ant.xlsx" if is_workbook else "Ant.csv")).write_bytes(form)
    Path(folder, "rules.csv").write_bytes(RULES)
    Path(folder, "groups.txt").write_bytes(b"-\n")
    return ["gather", f"{folder}/rules.csv", str(forms), f"{folder}/groups.txt"], len(form)
