#!/usr/bin/python3
"""Workbooks of a form of Fox, twenty-five of each kind, made by openpyxl or from raw XML.

usage: python/tests/workbooks.py [FOLDER]

Has LibreOffice read those that aren't refused, and some that it makes itself, and compares: what is
read is what LibreOffice shows of the sheet, or the receipt names the cell. The last line is 'N the
same, M refused, L named, K wrong'. The files stay in FOLDER.
"""
import csv
import io
import random
import re
import subprocess
import sys
import tempfile
import zipfile
from collections.abc import Callable, Iterator, Sequence
from itertools import zip_longest
from pathlib import Path
from typing import Any

sys.dont_write_bytecode = True
sys.path.insert(0, str(Path(__file__).resolve().parents[1] / "src"))

import openpyxl  # noqa: E402
from openpyxl.utils import get_column_letter  # noqa: E402

from wdp.files import Unreadable  # noqa: E402
from wdp.office.sheets import File  # noqa: E402
from wdp.office.workbooks import read_workbook  # noqa: E402

Rows = Sequence[Sequence[Any]]
Bytes = bytes  # (a method has that name)

COUNT = 25  # workbooks of a kind
BIDDERS = ["Ant", "Bee", "Fox"]
MAIN = "http://schemas.openxmlformats.org/spreadsheetml/2006/main"
OFFICE = "http://schemas.openxmlformats.org/officeDocument/2006/relationships"
LINKS = "http://schemas.openxmlformats.org/package/2006/relationships"
TYPES = "http://schemas.openxmlformats.org/package/2006/content-types"
SHEET_TYPE = "application/vnd.openxmlformats-officedocument.spreadsheetml.worksheet+xml"
BOOK_TYPE = "application/vnd.openxmlformats-officedocument.spreadsheetml.sheet.main+xml"
STYLES_TYPE = "application/vnd.openxmlformats-officedocument.spreadsheetml.styles+xml"
TEXTS_TYPE = "application/vnd.openxmlformats-officedocument.spreadsheetml.sharedStrings+xml"
HEAD = '<?xml version="1.0" encoding="UTF-8" standalone="yes"?>\n'
DIGITS = re.compile("[0-9]{0,18}")
FORM: list[list[Any]] = [["Fox", "Low", "High"], [5000, 2, 1], [9900, 4, 0], [3000, 0, 3]]


def make_cell(value: object, name: str | None = None, more: str = "") -> str:
    """A cell in XML; a text is within it."""
    place = f' r="{name}"' if name else ""
    if isinstance(value, str):
        return f'<c{place}{more} t="inlineStr"><is><t>{value}</t></is></c>'
    return f"<c{place}{more}/>" if value is None else f"<c{place}{more}><v>{value}</v></c>"


def make_row(number: int, values: Sequence[object], more: str = "", of_cells: str = "") -> str:
    cells = "".join(
        make_cell(value, f"{get_column_letter(column)}{number}", of_cells if number > 1 else "")
        for column, value in enumerate(values, 1)
    )
    return f'<row r="{number}"{more}>{cells}</row>'


def make_body(rows: Rows, of_cells: str = "") -> str:
    lines = [make_row(number, values, of_cells=of_cells) for number, values in enumerate(rows, 1)]
    return f"<sheetData>{''.join(lines)}</sheetData>"


def make_sheet(inner: str) -> str:
    return f'{HEAD}<worksheet xmlns="{MAIN}">{inner}</worksheet>'


class RawWorkbook:
    """A workbook from XML: its sheets as pairs of a name, perhaps with attributes after it, and
    what is in the sheet.
    """

    def __init__(
        self,
        *sheets: tuple[str, str],
        formats: Sequence[str] = (),
        texts: str | None = None,
        about: str = "",
    ) -> None:
        self.sheets = sheets
        self.formats = formats
        self.texts = texts
        self.about = about
        self.parts = dict(self.make_parts())

    def make_parts(self) -> Iterator[tuple[str, str]]:
        kinds = {"xl/workbook.xml": BOOK_TYPE}
        links = []
        names = []
        for number, (name, inner) in enumerate(self.sheets, 1):
            part = f"xl/worksheets/sheet{number}.xml"
            kinds[part] = SHEET_TYPE
            links.append((f"rId{number}", "worksheet", f"worksheets/sheet{number}.xml"))
            name, _, more = name.partition("|")
            names.append(f'<sheet name="{name}" sheetId="{number}" {more} r:id="rId{number}"/>')
            yield part, make_sheet(inner)
        if self.formats:
            kinds["xl/styles.xml"] = STYLES_TYPE
            links.append(("rIdS", "styles", "styles.xml"))
            yield "xl/styles.xml", self.styles()
        if self.texts is not None:
            kinds["xl/sharedStrings.xml"] = TEXTS_TYPE
            links.append(("rIdT", "sharedStrings", "sharedStrings.xml"))
            yield "xl/sharedStrings.xml", f'{HEAD}<sst xmlns="{MAIN}">{self.texts}</sst>'
        book = f'{self.about}<sheets>{"".join(names)}</sheets>'
        yield "xl/workbook.xml", f'{HEAD}<workbook xmlns="{MAIN}" xmlns:r="{OFFICE}">{book}</workbook>'
        yield "xl/_rels/workbook.xml.rels", self.links(links)
        yield "_rels/.rels", self.links([("rId1", "officeDocument", "xl/workbook.xml")])
        over = "".join(
            f'<Override PartName="/{part}" ContentType="{kind}"/>' for part, kind in kinds.items()
        )
        plain = '<Default Extension="rels" ContentType="application/vnd.openxmlformats-package.relationships+xml"/>'
        plain += '<Default Extension="xml" ContentType="application/xml"/>'
        yield "[Content_Types].xml", f'{HEAD}<Types xmlns="{TYPES}">{plain}{over}</Types>'

    @staticmethod
    def links(links: Sequence[tuple[str, str, str]]) -> str:
        text = "".join(
            f'<Relationship Id="{link}" Type="{OFFICE}/{kind}" Target="{target}"/>'
            for link, kind, target in links
        )
        return f'{HEAD}<Relationships xmlns="{LINKS}">{text}</Relationships>'

    def styles(self) -> str:
        """Style 0 is plain, each other one has the next of the formats."""
        codes = "".join(
            f'<numFmt numFmtId="{200 + n}" formatCode="{code}"/>'
            for n, code in enumerate(self.formats)
        )
        formats = "".join(
            f'<xf numFmtId="{200 + n}" applyNumberFormat="1"/>' for n in range(len(self.formats))
        )
        made = f'<numFmts count="{len(self.formats)}">{codes}</numFmts><fonts count="1"><font/></fonts>'
        made += (
            "<fills><fill/></fills><borders><border/></borders><cellStyleXfs><xf/></cellStyleXfs>"
        )
        return (
            f'{HEAD}<styleSheet xmlns="{MAIN}">{made}<cellXfs><xf/>{formats}</cellXfs></styleSheet>'
        )

    def change(self, part: str, old: str, new: str) -> "RawWorkbook":
        assert old in self.parts[part], (part, old)
        self.parts[part] = self.parts[part].replace(old, new, 1)
        return self

    def bytes(self, again: Sequence[tuple[str, str]] = ()) -> "Bytes":
        """The archive; `again` are parts that are in it once more."""
        data = io.BytesIO()
        with zipfile.ZipFile(data, "w", zipfile.ZIP_DEFLATED) as archive:
            for name, text in [*self.parts.items(), *again]:
                call_with_warning(archive.writestr, name, text)
        return data.getvalue()


def call_with_warning(call: Callable[..., object], *arguments: object) -> None:
    import warnings

    with warnings.catch_warnings():
        warnings.simplefilter("ignore")
        call(*arguments)


def make_one(inner: str, **options: Any) -> bytes:
    return RawWorkbook(("Bids", inner), **options).bytes()


def write_rows(
    rows: Rows, change: Callable[[Any, Any], object] = lambda book, sheet: None
) -> bytes:
    """A workbook by openpyxl, of which something was changed."""
    book = openpyxl.Workbook()
    sheet = book.active
    sheet.title = "Bids"
    for row in rows:
        sheet.append(row)
    change(book, sheet)
    data = io.BytesIO()
    book.save(data)
    return data.getvalue()


def plain(turn: int, rows: list[list[Any]]) -> bytes:
    more = [
        lambda book, sheet: None,
        lambda book, sheet: book.create_sheet("Notes").append(["Anything", 1]),
        lambda book, sheet: setattr(sheet, "freeze_panes", "A2"),
        lambda book, sheet: sheet.append([None, None, None]),
        lambda book, sheet: setattr(sheet.column_dimensions["A"], "width", 30),
    ]
    return write_rows(rows, more[turn % len(more)])


def hide_column(book: Any, sheet: Any) -> None:
    sheet.column_dimensions["B"].hidden = True


def hide_row(book: Any, sheet: Any) -> None:
    sheet.row_dimensions[3].hidden = True


def narrow_column(book: Any, sheet: Any) -> None:
    sheet.column_dimensions["C"].width = 0.2


def lower_row(book: Any, sheet: Any) -> None:
    sheet.row_dimensions[2].height = 0.5


def hidden(turn: int, rows: list[list[Any]]) -> bytes:
    other = [rows[0], [1, 1, 1]]
    made = [
        lambda: RawWorkbook(
            ('Bids|state="hidden"', make_body(other)), ("Final", make_body(rows))
        ).bytes(),
        lambda: write_rows(rows, hide_row),
        lambda: write_rows(rows, hide_column),
        lambda: RawWorkbook(
            ("Bids", make_body(rows)), ('Lists|state="veryHidden"', make_body([["x"]]))
        ).bytes(),
        lambda: write_rows(rows, narrow_column),
        lambda: write_rows(rows, lower_row),
        lambda: make_one(make_body(rows, ' s="1"'), formats=[";;;"]),
        lambda: make_one(
            '<sheetFormatPr defaultRowHeight="15" defaultColWidth="0"/>' + make_body(rows)
        ),
        lambda: write_rows(
            rows, lambda book, sheet: setattr(sheet.column_dimensions["H"], "hidden", True)
        ),
        # (LibreOffice reads what is out of order)
        lambda: make_one(make_body(rows) + '<cols><col min="2" max="2" hidden="1"/></cols>'),
        lambda: make_one(make_body(rows) + '<sheetFormatPr defaultRowHeight="0.1"/>'),
    ]
    return made[turn % len(made)]()


def merged(turn: int, rows: list[list[Any]]) -> bytes:
    covers = ["A2:B2", "A1:A2", "B2:C4", "E1:G9", "A9:C9", "C4:D4", "A1:A1"]
    inner = (
        make_body(rows)
        + f'<mergeCells><mergeCell ref="{covers[turn % len(covers)]}"/></mergeCells>'
    )
    return (
        make_one(inner)
        if turn % 2
        else write_rows(rows, lambda book, sheet: sheet.merge_cells("E2:F3"))
    )


def sparse(turn: int, rows: list[list[Any]]) -> bytes:
    gap = [make_row(at * 100 + 1, row) for at, row in enumerate(rows)]
    unnamed = "".join("<row>" + "".join(map(make_cell, row)) + "</row>" for row in rows)
    made = [
        lambda: make_one(f"<sheetData>{''.join(gap)}</sheetData>"),
        lambda: make_one(f"<sheetData>{unnamed}</sheetData>"),
        lambda: make_one(f'<sheetData><row r="1"/>{make_row(1_000_000, rows[0])}</sheetData>'),
        lambda: make_one(make_body([[*row, None, None] for row in rows])),
        lambda: make_one(make_body([rows[0], [], *rows[1:], [None] * 3])),
        lambda: make_one(make_body([[*row, *[None] * 20, "note"] for row in rows])),
        lambda: make_one("<sheetData/>"),
    ]
    return made[turn % len(made)]()


def repeated(turn: int, rows: list[list[Any]]) -> bytes:
    lines = [make_row(number, row) for number, row in enumerate(rows, 1)]
    twice = "".join([*lines, make_row(len(rows), [7000, 1, 1])])
    cells = f'<row r="9">{make_cell(10, "A9")}{make_cell(20, "A9")}{make_cell(1, "B9")}</row>'
    two = RawWorkbook(("Bids", make_body(rows)), ("bids", make_body(rows)))
    other = ("xl/worksheets/sheet1.xml", make_sheet(make_body([rows[0], [1, 1, 1]])))
    upper = ("xl/Worksheets/Sheet1.xml", other[1])
    other_marks = ("xl\\worksheets\\sheet1.xml", other[1])
    made = [
        lambda: make_one(f"<sheetData>{twice}</sheetData>"),
        lambda: make_one(f"<sheetData>{''.join(lines)}{cells}</sheetData>"),
        lambda: RawWorkbook(("Bids", make_body(rows))).bytes(again=[other]),
        lambda: two.bytes(),
        lambda: make_one(make_body(rows) + make_body([[1, 2, 3]])),
        lambda: make_one(make_body(rows).replace("</v>", "</v><v>1</v>", 1)),
        lambda: RawWorkbook(("Bids", make_body(rows))).bytes(again=[upper]),
        lambda: make_one(
            '<cols><col min="1" max="3"/><col min="2" max="2" hidden="1"/></cols>' + make_body(rows)
        ),
        lambda: RawWorkbook(("Bids", make_body(rows))).bytes(again=[other_marks]),
    ]
    return made[turn % len(made)]()


def order(turn: int, rows: list[list[Any]]) -> bytes:
    lines = [make_row(number, row) for number, row in enumerate(rows, 1)]
    swapped = "".join([lines[0], lines[2], lines[1], *lines[3:]])
    cells = f'<row r="9">{make_cell(1, "B9")}{make_cell(10, "A9")}</row>'
    lost = f'<row r="9">{make_cell(10, "A8")}</row>'
    small = f'<row r="9">{make_cell(10, "a9")}</row>'
    made = [
        lambda: make_one(f"<sheetData>{swapped}</sheetData>"),
        lambda: make_one(f"<sheetData>{''.join(lines)}{cells}</sheetData>"),
        lambda: make_one(f"<sheetData>{''.join(lines)}{lost}</sheetData>"),
        lambda: make_one(f"<sheetData>{''.join(lines)}{small}</sheetData>"),
    ]
    return made[turn % len(made)]()


def huge(turn: int, rows: list[list[Any]]) -> bytes:
    lines = make_body(rows).removesuffix("</sheetData>")
    wide = f'<row r="9">{make_cell(1, "XFD9")}</row></sheetData>'
    long = "9" * 500
    made = [
        lambda: make_one(lines + '<row r="2000000000"/></sheetData>'),
        lambda: make_one(lines + make_row(1_048_577, [1]) + "</sheetData>"),
        lambda: make_one(lines + wide),
        lambda: make_one(lines + f'<row r="9">{make_cell(1, "ALM9")}</row></sheetData>'),
        lambda: make_one(make_body([rows[0], [10**17, 1, 1]])),
        lambda: make_one(make_body([rows[0], [9007199254740993, 1, 1]])),
        lambda: make_one(make_body(rows).replace("<v>", f"<v>{long}", 1)),
        lambda: make_one(lines + '<row r="9"><c r="XFE9"><v>1</v></c></row></sheetData>'),
        lambda: make_one(lines + make_row(1_048_576, [7000, 1, 1]) + "</sheetData>"),
    ]
    return made[turn % len(made)]()


def encrypted(turn: int, rows: list[list[Any]]) -> bytes:
    data = bytearray(plain(turn, rows))
    if turn % 3 == 0:
        return b"\xd0\xcf\x11\xe0\xa1\xb1\x1a\xe1" + bytes(data)
    at = data.rfind(b"PK\x01\x02")
    if turn % 3 == 1:
        while at >= 0:
            data[at + 8] |= 1
            at = data.rfind(b"PK\x01\x02", 0, at)
        return bytes(data)
    while at >= 0:
        data[at + 10] = 99
        at = data.rfind(b"PK\x01\x02", 0, at)
    return bytes(data)


def bombs(turn: int, rows: list[list[Any]]) -> bytes:
    inner = make_body(rows)
    entities = '<!DOCTYPE x [<!ENTITY a "aaaaaaaaaa"><!ENTITY b "&a;&a;&a;&a;&a;&a;&a;&a;">]>'
    book = RawWorkbook(("Bids", inner))
    part = "xl/worksheets/sheet1.xml"
    made = [
        lambda: make_one("<!--" + " " * 15_000_000 + "-->" + inner),
        lambda: make_one("<!--" + " " * 60_000_000 + "-->" + inner),
        lambda: make_one(" " * 2**27 + inner),
        lambda: book.change(part, "<worksheet", entities + "<worksheet").bytes(),
        lambda: make_one("<a>" * 100_000 + "</a>" * 100_000 + inner),
        lambda: make_one(f'<a b="{" " * 10_000_000}"/>' + inner),
        lambda: RawWorkbook(("Bids", inner), texts="<si/>" * 2_000_000).bytes(),
        lambda: book.bytes(again=[(f"x{n}", "") for n in range(5_000)]),
    ]
    return made[turn % len(made)]()


# of numbers; the first ones are those that show another number
FORMATS = ["0", "#,##0", "General", "[$£-809]#,##0", '#,##0" pounds"', "0.00", "0;-0;;@"]
SCALED = ["#,##0,", "0,,", "0%", "0&quot;000&quot;", "#,##0,&quot;k&quot;", "0\\0\\0"]
UNSEEN = [";;;", "&quot;many&quot;", "yyyy-mm-dd", "h:mm", "[h]:mm", "d. mmm"]


def formats(turn: int, rows: list[list[Any]]) -> bytes:
    code = [*SCALED, *FORMATS, *UNSEEN][turn % 19].replace('" pounds"', "&quot; pounds&quot;")
    return make_one(make_body(rows, ' s="1"'), formats=[code])


STYLES = "xl/styles.xml"
CONDITION = """<conditionalFormatting sqref="A2:A9 C2">
<cfRule type="cellIs" dxfId="0" priority="1" operator="greaterThan"><formula>10</formula></cfRule>
</conditionalFormatting>"""


def with_condition(rows: list[list[Any]], code: str) -> bytes:
    """A workbook of which some numbers get another format by a condition."""
    dxfs = f'<dxfs count="1"><dxf><numFmt numFmtId="200" formatCode="{code}"/></dxf></dxfs>'
    book = RawWorkbook(("Bids", make_body(rows, ' s="1"') + CONDITION), formats=["0"])
    return book.change(STYLES, "</styleSheet>", f"{dxfs}</styleSheet>").bytes()


def styles(turn: int, rows: list[list[Any]]) -> bytes:
    """Formats that cells get from elsewhere, and that show a number as another one in odd ways."""
    plain_body = make_body(rows)
    body = make_body(rows, ' s="1"')
    row = plain_body.replace('<row r="3">', '<row r="3" s="1" customFormat="1">')
    column = '<cols><col min="1" max="1" width="9" style="1"/></cols>'
    first = '<cellXfs><xf numFmtId="200"/>'
    twice = '<numFmt numFmtId="200" formatCode="0"/></numFmts>'
    dxfs = '<dxfs><dxf><numFmt numFmtId="200" formatCode="0"/></dxf></dxfs></styleSheet>'
    lists = '<cellXfs><xf numFmtId="0"/></cellXfs></styleSheet>'

    def scaled(inner: str) -> RawWorkbook:
        return RawWorkbook(("Bids", inner), formats=["#,##0,"])

    made = [
        lambda: scaled(plain_body).change(STYLES, "<cellXfs><xf/>", first).bytes(),
        lambda: scaled(column + plain_body).bytes(),
        lambda: scaled(row).bytes(),
        lambda: scaled(body).change(STYLES, "</numFmts>", twice).bytes(),
        lambda: scaled(body).change(STYLES, "</styleSheet>", dxfs).bytes(),
        lambda: with_condition(rows, "#,##0,"),
        lambda: make_one(body, formats=["[$1]0"]),
        lambda: make_one(body, formats=["-0"]),
        lambda: make_one(body, formats=["0;-0;&quot;5&quot;"]),
        lambda: with_condition(rows, ";;;"),
        lambda: scaled(body).change(STYLES, "</styleSheet>", lists).bytes(),
        lambda: make_one(body, formats=["0\\,0"]),
        lambda: with_condition(rows, "#,##0"),
    ]
    return made[turn % len(made)]()


VALUES = [
    '<c r="A2"><v>1_0</v></c>',
    '<c r="A2" t="n"><v> 5000 </v></c>',
    '<c r="A2"><v>5.0E3</v></c>',
    '<c r="A2" t="str"><f>"50"</f><v>50</v></c>',
    '<c r="A2"><f>2500*2</f><v>5000</v></c>',
    '<c r="A2"><f>2500*2</f></c>',
    '<c r="A2" t="b"><v>1</v></c>',
    '<c r="A2" t="e"><v>#REF!</v></c>',
    '<c r="A2" t="d"><v>2026-05-01</v></c>',
    '<c r="A2" t="inlineStr"><is><t>5000</t></is></c>',
    '<c r="A2"><v>0x1388</v></c>',
    '<c r="A2"><v>1300.5</v></c>',
    '<c r="A2"><v>-5000</v></c>',
    '<c r="A2" t="s"><v>0</v></c>',
    '<c r="A2" t="odd"><v>5000</v></c>',
    '<c r="A2"><v>5000</v><x/></c>',
]


def values(turn: int, rows: list[list[Any]]) -> bytes:
    value = VALUES[turn % len(VALUES)]
    first = make_row(1, rows[0])
    second = f'<row r="2">{value}{make_cell(2, "B2")}{make_cell(1, "C2")}</row>'
    return make_one(f"<sheetData>{first}{second}</sheetData>")


def texts(turn: int, rows: list[list[Any]]) -> bytes:
    """The heading by shared texts: of pieces, and with a word on how to say it."""
    rich = "<si><r><t>F</t></r><r><t>ox</t></r><rPh sb='0' eb='1'><t>x</t></rPh></si>"
    made = [rich, "<si><t>Fox</t></si>", "<si><t>fox</t></si>", "<si/>"]
    first = f'<c r="A1" t="s"><v>0</v></c>{make_cell("Low", "B1")}{make_cell("High", "C1")}'
    lines = "".join(make_row(number, row) for number, row in enumerate(rows[1:], 2))
    inner = f'<sheetData><row r="1">{first}</row>{lines}</sheetData>'
    return make_one(inner, texts=made[turn % len(made)])


def sheets(turn: int, rows: list[list[Any]]) -> bytes:
    second = [
        [["Fox", "Low", "High"], [1, 1, 1]],
        [["Notes"]],
        [["fox"]],
        [[]],
        [["Ant", "Low", "High"]],
    ]
    odd = RawWorkbook(("Bids", make_body(rows)), ("Other", make_body(second[turn % len(second)])))
    if turn % 3 == 1:
        odd.change("xl/_rels/workbook.xml.rels", "sheet2.xml", "sheet1.xml")
    elif turn % 7 == 6:
        other = '/worksheet" Target="worksheets/sheet2'
        odd.change("xl/_rels/workbook.xml.rels", other, other.replace("/work", "/chart", 1))
    return odd.bytes()


KINDS = [plain, hidden, merged, sparse, repeated, order, huge, encrypted, bombs, formats, values]
KINDS += [texts, sheets, styles]


def list_names() -> list[str]:
    return [f"{kind.__name__}_{turn:02}" for kind in KINDS for turn in range(COUNT)]


def make_workbook(name: str) -> bytes:
    """The workbook of a name, as hidden_03."""
    kind, _, turn = name.rpartition("_")
    chosen = random.Random(int(turn) // 10 * 7)
    rows = [list(row) for row in FORM]
    if int(turn) >= 10:
        rows = [
            rows[0],
            *([chosen.randint(1, 99) * 100, *chosen.choices(range(9), k=2)] for _ in range(3)),
        ]
    return globals()[kind](int(turn), rows)


def read_outcome(data: bytes, sheet: str | None = None) -> str:
    """What is read of a workbook, and what is said of it: of its rows, or of why they aren't read."""
    try:
        file = read_workbook("it", data, 4_002, sheet=sheet, heads=BIDDERS)
    except Unreadable as error:
        return str(error).removeprefix("it: ").removeprefix("it:")
    if file.faults:
        return "; ".join(str(fault).removeprefix("it:") for fault in file.faults)
    shown = " / ".join(",".join(row.values) for row in file.rows)
    return "; ".join([shown, *file.changes[1:]])


# each sheet as a file, with its cells as they are shown
SHOWN = "csv:Text - txt - csv (StarCalc):44,34,76,1,,0,false,true,true,false,false,-1"
SHOWN_NUMBER = re.compile(
    r"[^-(0-9]*([0-9]{1,3}(?:,[0-9]{3})+|[0-9]+)(\.[0-9]+)?(E[+-][0-9]+)?[^0-9]*"
)


def run_libreoffice(folder: Path, kind: str, *paths: Path) -> None:
    words = [
        "soffice",
        "--headless",
        f"-env:UserInstallation=file://{folder}/profile",
        "--convert-to",
        kind,
    ]
    subprocess.run(
        [*words, "--outdir", folder, *paths], capture_output=True, timeout=900, check=False
    )


def show_in_libreoffice(folder: Path, name: str) -> dict[str, list[list[str]]]:
    """The rows of each sheet as LibreOffice shows them, without empty ones."""
    found = {}
    for path in folder.glob(f"{name}-*.csv"):
        with open(path, encoding="utf-8", newline="") as file:
            found[path.stem.removeprefix(f"{name}-")] = list(filter(any, csv.reader(file)))
    return found


def is_shown(value: str, text: str) -> bool:
    """Whether a text shows a value: with marks between thousands, words beside it, or a line alone
    for 0, as accountants write it.

    >>> texts = ("300,000.00", "£300,000", "3.0E+05", "300", "300k", "-300,000", "30000,0")
    >>> [is_shown("300000", text) for text in texts]
    [True, True, True, False, False, False, False]
    """
    if not value.isdecimal():
        return value == text
    if not int(value) and text.strip() in ("", "-"):
        return True
    found = SHOWN_NUMBER.fullmatch(text)
    if not found:
        return False
    whole, fraction, exponent = found.groups(default="")
    return float(whole.replace(",", "") + fraction + exponent) == int(value)


def read_taken(path: Path) -> tuple[File | None, str]:
    """What is read of a workbook, or why it is refused."""
    try:
        file = read_workbook("it", path.read_bytes(), 4_002, heads=BIDDERS)
    except Unreadable as error:
        return None, str(error)
    odd = [value for row in file.rows[1:] for value in row.values if not DIGITS.fullmatch(value)]
    if file.faults or odd:
        return None, str(file.faults[0]) if file.faults else f"wdp refuses {odd[0][:40]!r}"
    return file, ""


def compare(folder: Path, path: Path, file: File) -> tuple[str, str]:
    """Whether LibreOffice shows what is read of the same sheet, or the receipt names cells that look
    different; and both.
    """
    shown = show_in_libreoffice(folder, path.stem)
    first = next(iter(file.rows)).places[0].rpartition("!")[0] if file.rows else "Bids"
    rows = shown.get(first, [])
    is_same = len(rows) == len(file.rows) and all(
        is_shown(value, text)
        for row, texts in zip(file.rows, rows)
        for value, text in zip_longest(row.values, texts, fillvalue="")
    )
    is_named = bool(file.warnings)
    kind = "same" if is_same else "named" if is_named else "wrong"
    return kind, f"{[row.values for row in file.rows]} {shown} {file.changes}"


def main() -> int:
    folder = Path(sys.argv[1] if sys.argv[1:] else tempfile.mkdtemp(prefix="workbooks."))
    folder.mkdir(exist_ok=True)
    paths = []
    for name in list_names():
        paths.append(folder / f"{name}.xlsx")
        paths[-1].write_bytes(make_workbook(name))
    tables = []
    for turn in range(COUNT):
        lines = [["Fox", "Low", "High"], *([turn * 100 + row, row, 1] for row in range(1, 4))]
        lines[2:2] = [[]] * (turn % 3)
        text = "".join(",".join(map(str, line)) + "\n" for line in lines)
        tables.append(folder / f"libreoffice_{turn:02}.csv")
        tables[-1].write_text(text)
    run_libreoffice(folder, "xlsx", *tables)
    paths += [path.with_suffix(".xlsx") for path in tables]
    found = {path: read_taken(path) for path in paths}
    read = [path for path, (file, _) in found.items() if file]
    for begin in range(0, len(read), 50):
        run_libreoffice(folder, SHOWN, *read[begin : begin + 50])
    counts = {"same": 0, "refused": 0, "named": 0, "wrong": 0}
    for path, (file, why) in found.items():
        kind, both = compare(folder, path, file) if file else ("refused", why)
        counts[kind] += 1
        print(f"{path.stem}: {kind}: {both[:300]}")
    print("{same} the same, {refused} refused, {named} named, {wrong} wrong".format(**counts))
    return int(counts["wrong"] > 0)


if __name__ == "__main__":
    sys.exit(main())
