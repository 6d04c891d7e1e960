"""Workbooks that may show something else than their cells have, and innocent ones beside them.
Nothing else is odd about each of them.
"""
import io
import zipfile
from collections.abc import Mapping, Sequence
from typing import Any, NamedTuple

from workbooks import FORM, HEAD, LINKS, MAIN, OFFICE, RawWorkbook, make_row

COMPATIBLE = "http://schemas.openxmlformats.org/markup-compatibility/2006"
AC = "http://schemas.microsoft.com/office/spreadsheetml/2009/9/ac"
DRAWING = "http://schemas.openxmlformats.org/drawingml/2006/spreadsheetDrawing"
ART = "http://schemas.openxmlformats.org/drawingml/2006/main"
X14 = "http://schemas.microsoft.com/office/spreadsheetml/2009/9/main"
XM = "http://schemas.microsoft.com/office/excel/2006/main"
SHEET = "xl/worksheets/sheet1.xml"
STYLES = "xl/styles.xml"
BOOK = "xl/workbook.xml"
RELS = "xl/_rels/workbook.xml.rels"
OTHER_OFFICE = "http://purl.oclc.org/ooxml/officeDocument/relationships"
PLAIN_FONT = "<font><sz val='11'/><name val='Calibri'/></font>"


def make_styles(
    font: str = "", fill: str = "", code: str = "", xf: str = "", more: str = ""
) -> str:
    """Styles of cells: 0 is plain, and 1 has this font, fill, format, and what is said of it."""
    formats = (
        f"<numFmts count='1'><numFmt numFmtId='200' formatCode='{code}'/></numFmts>" if code else ""
    )
    fonts = f"<fonts count='2'>{PLAIN_FONT}{font or PLAIN_FONT}</fonts>"
    none = "<fill><patternFill patternType='none'/></fill>"
    fills = f"<fills count='2'>{none}{fill or none}</fills>"
    number = " numFmtId='200'" if code else ""
    style = f"<xf fontId='1' fillId='1'{number} {xf if '<' not in xf else ''}>{xf if '<' in xf else ''}</xf>"
    cells = f"<cellXfs count='2'><xf/>{style}</cellXfs>"
    return f'{HEAD}<styleSheet xmlns="{MAIN}">{formats}{fonts}{fills}{cells}{more}</styleSheet>'


def solid(colour: str) -> str:
    return f"<fill><patternFill patternType='solid'><fgColor rgb='{colour}'/></patternFill></fill>"


def coloured(colour: str) -> str:
    return f"<font><sz val='11'/><color {colour}/></font>"


def condition(rule: str, cells: str = "A2:A9") -> str:
    return f"<conditionalFormatting sqref='{cells}'>{rule}</conditionalFormatting>"


def given(look: str) -> dict[str, Any]:
    """A condition that gives a look to the amounts."""
    rule = "<cfRule type='cellIs' dxfId='0' priority='1' operator='greaterThan'><formula>1</formula></cfRule>"
    return {"after": condition(rule), "styles": make_styles(more=f"<dxfs><dxf>{look}</dxf></dxfs>")}


def scale(kind: str) -> dict[str, Any]:
    return {
        "after": condition(
            f"<cfRule type='{kind[1:].partition(' ')[0].partition('>')[0]}' priority='1'>{kind}</cfRule>"
        )
    }


def newer(rule: str) -> dict[str, Any]:
    """A condition as spreadsheets write it that is newer than ECMA-376."""
    inner = f"<x14:conditionalFormatting><x14:cfRule {rule}</x14:cfRule><xm:sqref>A2:A9</xm:sqref></x14:conditionalFormatting>"
    listed = f"<x14:conditionalFormattings>{inner}</x14:conditionalFormattings>"
    return {
        "after": f"<extLst><ext uri='x' xmlns:x14='{X14}' xmlns:xm='{XM}'>{listed}</ext></extLst>"
    }


def linked(kind: str, target: str, text: str, kinds: str = OFFICE) -> dict[str, Any]:
    """A part that the sheet is linked to."""
    link = f'<Relationship Id="rId1" Type="{kinds}/{kind}" Target="../{target}"/>'
    rels = f'{HEAD}<Relationships xmlns="{LINKS}">{link}</Relationships>'
    return {"parts": {"xl/worksheets/_rels/sheet1.xml.rels": rels, f"xl/{target}": text}}


def bars(more: str = "") -> dict[str, Any]:
    """A bar in each amount's cell."""
    ends = "<cfvo type='min'/><cfvo type='max'/>"
    return scale(f"<dataBar{more}>{ends}<color rgb='FF00FF00'/></dataBar>")


def colours(first: str, last: str) -> dict[str, Any]:
    """Colours behind the amounts, from the least to the greatest."""
    ends = "<cfvo type='min'/><cfvo type='max'/>"
    both = f"<color rgb='FF{first}'/><color rgb='FF{last}'/>"
    return scale(f"<colorScale>{ends}{both}</colorScale>")


def gradient(first: str, last: str) -> str:
    stops = ((0, first), (1, last))
    made = (f"<stop position='{at}'><color rgb='FF{colour}'/></stop>" for at, colour in stops)
    return f"<fill><gradientFill>{''.join(made)}</gradientFill></fill>"


def table(style: str, more: str = "") -> dict[str, Any]:
    """A table of all bids in a style."""
    inner = f"<tableStyleInfo name='{style}' showRowStripes='1'/>"
    root = (
        f"<table xmlns='{MAIN}' id='1' name='T' displayName='T' ref='A1:C4' {more}>{inner}</table>"
    )
    return linked("table", "table1.xml", root)


def comment(cell: str, count: int = 1) -> dict[str, Any]:
    comments = f"<comment ref='{cell}'/>" * count
    listed = f"<commentList>{comments}</commentList>"
    return linked("comments", "comments1.xml", f"<comments xmlns='{MAIN}'>{listed}</comments>")


VML = """<xml xmlns:v="urn:schemas-microsoft-com:vml" xmlns:x="urn:schemas-microsoft-com:office:excel">
<v:shape type="#_x0000_t202" style="position:absolute;visibility:{}"><x:ClientData ObjectType="Note">
<x:Anchor>0,0,1,0,3,0,4,0</x:Anchor>{}<x:Row>8</x:Row><x:Column>4</x:Column></x:ClientData></v:shape>{}</xml>"""


def note(visibility: str, more: str = "", shapes: str = "") -> dict[str, Any]:
    """A comment beside the bids, whose note is over them, if it is seen; and other shapes."""
    made = comment("E9")
    rels = made["parts"]["xl/worksheets/_rels/sheet1.xml.rels"]
    link = f'<Relationship Id="rId2" Type="{OFFICE}/vmlDrawing" Target="../vml1.vml"/>'
    made["parts"]["xl/worksheets/_rels/sheet1.xml.rels"] = rels.replace("</Rel", f"{link}</Rel")
    made["parts"]["xl/vml1.vml"] = VML.format(visibility, more, shapes)
    return {**made, "after": '<legacyDrawing r:id="rId2"/>', "root": f'xmlns:r="{OFFICE}"'}


def bordered(ends: str, style: str) -> str:
    """Styles of cells with a border that may go across them."""
    made = (
        f"<borders count='2'><border/><border {ends}><diagonal style='{style}'/></border></borders>"
    )
    return (
        make_styles()
        .replace("<cellXfs", f"{made}<cellXfs")
        .replace("<xf font", "<xf borderId='1' font")
    )


def themed(face: str, text: str = "windowText") -> dict[str, Any]:
    """Amounts in the font of a theme, and in its colour of texts."""
    colours = f"<a:dk1><a:sysClr val='{text}'/></a:dk1><a:lt1><a:sysClr val='window'/></a:lt1>"
    scheme = f"<a:clrScheme name='Office'>{colours}</a:clrScheme>"
    fonts = f"<a:minorFont><a:latin typeface='{face}'/></a:minorFont>"
    scheme += f"<a:fontScheme name='Office'>{fonts}</a:fontScheme>"
    root = f"<a:theme xmlns:a='{ART}'><a:themeElements>{scheme}</a:themeElements></a:theme>"
    link = f'<Relationship Id="rId9" Type="{OFFICE}/theme" Target="theme1.xml"/></Relationships>'
    font = "<font><color theme='1'/><name val='Calibri'/><scheme val='minor'/></font>"
    return {
        "cell": 's="1"',
        "styles": make_styles(font=font),
        "parts": {"xl/theme1.xml": root},
        "changes": [(RELS, "</Relationships>", link)],
    }


def drawn(inner: str, offset: int = 0) -> dict[str, Any]:
    """A drawing whose corners are beside the bids."""
    drawing = anchor((5, 1), (6, 2)).replace("</xdr:twoC", f"{inner}<xdr:clientData/></xdr:twoC")
    drawing = drawing.replace("</xdr:col>", f"</xdr:col><xdr:colOff>{offset}</xdr:colOff>", 1)
    drawing = drawing.replace("<xdr:wsDr", f'<xdr:wsDr xmlns:a="{ART}"')
    made = linked("drawing", "drawing1.xml", drawing)
    return {**made, "after": '<drawing r:id="rId1"/>', "root": f'xmlns:r="{OFFICE}"'}


def picture(more: str = "", shape: str = "rect") -> str:
    """A picture of this shape."""
    frame = f"<a:xfrm{more}><a:off x='0' y='0'/><a:ext cx='9' cy='9'/></a:xfrm>"
    frame += f"<a:prstGeom prst='{shape}'><a:avLst/></a:prstGeom>"
    named = "<xdr:nvPicPr><xdr:cNvPr id='2' name='x'/><xdr:cNvPicPr/></xdr:nvPicPr>"
    return f"<xdr:pic>{named}<xdr:blipFill/><xdr:spPr>{frame}</xdr:spPr></xdr:pic>"


def anchor(begin: tuple[int, int], end: tuple[int, int]) -> str:
    corners = (
        f"<xdr:{name}><xdr:col>{column}</xdr:col><xdr:row>{row}</xdr:row></xdr:{name}>"
        for name, (column, row) in (("from", begin), ("to", end))
    )
    return f'<xdr:wsDr xmlns:xdr="{DRAWING}"><xdr:twoCellAnchor>{"".join(corners)}</xdr:twoCellAnchor></xdr:wsDr>'


class Odd(NamedTuple):
    """What is odd about a workbook: what its cells and rows say, styles, what comes before and after
    the rows, in other parts and at the root of the sheet, and texts that are changed.
    """

    cell: str = ""  # attributes of the amounts
    row: str = ""  # attributes of row 3
    styles: str = ""
    before: str = ""
    after: str = ""
    parts: Mapping[str, str] = {}
    root: str = ""
    changes: Sequence[tuple[str, str, str]] = ()


def make_odd(odd: Odd, rows: Sequence[Sequence[Any]] = FORM) -> bytes:
    lines = [make_row(1, rows[0])]
    for number, row in enumerate(rows[1:], 2):
        line = make_row(number, row, f" {odd.row}" if number == 3 else "")
        lines.append(line.replace(f'<c r="A{number}"', f'<c r="A{number}" {odd.cell}'))
    body = f"{odd.before}<sheetData>{''.join(lines)}</sheetData>{odd.after}"
    book = RawWorkbook(("Bids", body), formats=["0"])
    book.parts[STYLES] = odd.styles or make_styles()
    book.parts |= odd.parts
    if odd.root:
        book.change(SHEET, "<worksheet ", f"<worksheet {odd.root} ")
    for part, old, new in odd.changes:
        book.change(part, old, new)
    data = io.BytesIO()
    with zipfile.ZipFile(data, "w", zipfile.ZIP_DEFLATED) as archive:
        for name, text in book.parts.items():
            archive.writestr(name, text)
    return data.getvalue()


def styled(**styles: str) -> Odd:
    """Amounts of a style."""
    return Odd(cell='s="1"', styles=make_styles(**styles))


def headed(text: str) -> Odd:
    """A name in the first row that is another text than it was."""
    return Odd(changes=[(SHEET, "<is><t>High</t></is>", f"<is>{text}</is>")])


TAKEN = "Fox,Low,High / 5000,2,1 / 9900,4,0 / 3000,0,3"
FORMAT = "A2: its format {} isn't known to show it as it is"
IGNORED = f'xmlns:mc="{COMPATIBLE}" xmlns:x14ac="{AC}" mc:Ignorable="x14ac"'
WHITE = "FFFFFFFF"
BOOK_OLD = '<sheet name="Bids"'
UNAPPLIED = make_styles(font=coloured("rgb='FF0000FF'"), xf="applyFont='0' xfId='0'")
UNAPPLIED = UNAPPLIED.replace("<cellXfs", "<cellStyleXfs><xf fontId='0'/></cellStyleXfs><cellXfs")
YELLOW_ROW = [(SHEET, '<c r="A3" ', '<c r="A3" s="1" ')]
PALE_BARS = {**bars(), "cell": 's="1"', "styles": make_styles(font=coloured("rgb='FF80E080'"))}
OWN_STYLE = "<tableStyles><tableStyle name='TableStyleLight1'/></tableStyles>"
ALL_UNDER = "12 cells under a drawing: A1, A2,"
LARGE = make_styles(font="<font><sz val='60'/></font>")

# the name of each kind, a workbook, and what is said of it: in part, or that it is taken without a word
ODD: dict[str, tuple[Odd, str]] = {
    "fill of digits": (styled(code="0*0"), FORMAT.format("'0*0'")),
    "thousands by a letter": (styled(code="0&quot;k&quot;"), FORMAT.format("'0\"k\"'")),
    "currency by name": (styled(code="#,##0&quot; EUR&quot;"), TAKEN),
    "language of other digits": (styled(code="[$-2000401]0"), FORMAT.format("'[$-2000401]0'")),
    "currency of a language": (styled(code="[$£-809]#,##0.00"), TAKEN),
    "language after a currency": (styled(code="£[$-809]0"), FORMAT.format("'£[$-809]0'")),
    "language after the digits": (styled(code="0[$-809]"), FORMAT.format("'0[$-809]'")),
    "language of the usual digits": (styled(code="[$-809]#,##0"), TAKEN),
    "colour in a format": (styled(code="[White]0"), FORMAT.format("'[White]0'")),
    "colour below zero": (styled(code="0;[Red]-0"), TAKEN),
    "condition in a format": (
        styled(code="[&gt;4000]&quot;1&quot;;0"),
        FORMAT.format("'[>4000]\"1\";0'"),
    ),
    "digits of another alphabet": (styled(code="[DBNum1]0"), FORMAT.format("'[DBNum1]0'")),
    "scientific": (styled(xf="numFmtId='11'"), FORMAT.format("'0.00E+00'")),
    "blank before a number": (
        styled(xf="numFmtId=' 9'"),
        "A2: its format has the number ' 9', which isn't known",
    ),
    "unknown number of a format": (
        styled(xf="numFmtId='99'"),
        "A2: its format has the number '99', which isn't known",
    ),
    "built-in with separators": (styled(xf="numFmtId='3'"), TAKEN),
    "dots for thousands": (styled(code="0\\.0"), FORMAT.format("'0\\.0'")),
    "fractions": (styled(code="# ?/?"), TAKEN),
    "fractions after a currency": (
        styled(code="[$£-809]# ?/?"),
        FORMAT.format("'[$£-809]# ?/?'"),
    ),
    "a large number with a fraction": (
        Odd(
            cell='s="1"',
            styles=make_styles(code="# ?/?"),
            changes=[(SHEET, "<v>9900</v>", "<v>9900000000</v>")],
        ),
        "A3: its format '# ?/?' isn't known to show it as it is",
    ),
    "fractions of eight": (styled(code="# ?/8"), FORMAT.format("'# ?/8'")),
    "accounting": (styled(code="_-* #,##0_-;-* #,##0_-;_-* &quot;-&quot;_-;_-@_-"), TAKEN),
    "a style without a number, below a cell without a style": (
        Odd(changes=[(SHEET, '<c r="A3" ', '<c r="A3" s="" ')]),
        "A3: its style '' isn't there",
    ),
    "a kind of value, below a cell without one": (
        Odd(changes=[(SHEET, '<c r="A3" ', '<c r="A3" t="" ')]),
        "A3: its value '9900' isn't understood",
    ),
    "an unknown attribute, below a cell without one": (
        Odd(changes=[(SHEET, '<c r="A3" ', '<c r="A3" u="1" ')]),
        "A3: its 'c' has the attribute 'u', which isn't understood",
    ),
    "alignment fill": (
        styled(xf="<alignment horizontal='fill'/>"),
        "A2: its alignment 'fill' may repeat it",
    ),
    "alignment right": (styled(xf="<alignment horizontal='right'/>"), TAKEN),
    "turned": (styled(xf="<alignment textRotation='90'/>"), "A2: it is turned"),
    "shrunk": (styled(xf="<alignment shrinkToFit='1'/>"), "A2: it is made smaller to fit its cell"),
    "moved out of its cell": (styled(xf="<alignment indent='200'/>"), "A2: its indent is '200'"),
    "struck through": (
        styled(font="<font><strike/><sz val='11'/></font>"),
        "A2: it is struck through",
    ),
    "not struck through": (styled(font="<font><strike val='0'/><sz val='11'/></font>"), TAKEN),
    "one point": (
        styled(font="<font><sz val='1'/></font>"),
        "A2: its font has '1' points, not 6 to 72",
    ),
    "no points": (
        styled(font="<font><sz val='x'/></font>"),
        "A2: its font has 'x' points, not 6 to 72",
    ),
    "more points than there are": (
        styled(font="<font><sz val='1e9999'/></font>"),
        "A2: its font has '1e9999' points, not 6 to 72",
    ),
    "eight points": (styled(font="<font><sz val='8'/></font>"), TAKEN),
    "superscript": (
        styled(font="<font><vertAlign val='superscript'/></font>"),
        "A2: it is written above or below",
    ),
    "signs for digits": (
        styled(font="<font><name val='Wingdings'/></font>"),
        "A2: its font 'Wingdings' may have other signs",
    ),
    "characters of signs": (
        styled(font="<font><name val='X'/><charset val='2'/></font>"),
        "A2: its font 'X' may have other signs",
    ),
    "white on white": (
        styled(font=coloured("rgb='FFFFFFFF'")),
        "A2: the colour of its font, FFFFFF, can't be told from its fill, FFFFFF",
    ),
    "nearly white": (
        styled(font=coloured("rgb='FFCFCFCF'")),
        "A2: the colour of its font, CFCFCF, can't be told",
    ),
    "grey": (styled(font=coloured("rgb='FFCECFCF'")), TAKEN),
    "white by its number": (
        styled(font=coloured("indexed='9'")),
        "A2: the colour of its font, FFFFFF, can't be told",
    ),
    "white by the system": (
        styled(font=coloured("indexed='65'")),
        "A2: the colour of its font, FFFFFF, can't be told",
    ),
    "a tint of black": (
        styled(font=coloured("indexed='8' tint='0.95'")),
        "A2: the colour of its font, F2F2F2, can't be told",
    ),
    "a theme that isn't there": (
        styled(font=coloured("theme='1'")),
        "A2: the colour of its font isn't known",
    ),
    "automatic": (styled(font=coloured("auto='1'")), TAKEN),
    "white on blue": (styled(font=coloured("rgb='FFFFFFFF'"), fill=solid("FF0000FF")), TAKEN),
    "black on black": (
        styled(fill=solid("FF000000")),
        "A2: the colour of its font, 000000, can't be told",
    ),
    "a pattern of black": (
        styled(fill="<fill><patternFill patternType='darkGray'/></fill>"),
        "A2: the colour of its font, 000000, can't be told",
    ),
    "a gradient through black": (
        styled(fill=gradient("000000", "FFFFFF")),
        "A2: the colour of its font, 000000, can't be told",
    ),
    "one row filled": (
        Odd(styles=make_styles(fill=solid("FFFFFF00")), changes=YELLOW_ROW),
        "1 cell with another look than most of the column: A3 (fill FFFF00)",
    ),
    "a style that says it has no font": (
        Odd(cell='s="1"', styles=UNAPPLIED),
        "A2: its style says by applyFont that it hasn't what it has",
    ),
    "a format by a condition": (
        Odd(**given("<numFmt numFmtId='200' formatCode='0*0'/>")),
        "A2: a condition may change its format",
    ),
    "a colour by a condition": (
        Odd(**given("<font><color rgb='FFFFFFFF'/></font>")),
        "A2: a condition may change its font: colour",
    ),
    "a size by a condition": (
        Odd(**given("<font><sz val='1'/></font>")),
        "A2: a condition may change its font: size",
    ),
    "a strike by a condition": (
        Odd(**given("<font><strike/></font>")),
        "A2: a condition may change its font: struck through",
    ),
    "bold by a condition": (
        Odd(**given("<font><b/></font>")),
        "3 cells under a condition that may change the look: A2, A3, A4",
    ),
    "a fill by a condition": (
        Odd(**given("<fill><patternFill><bgColor rgb='FFFFFF00'/></patternFill></fill>")),
        "3 cells under a condition",
    ),
    "a black fill by a condition": (
        Odd(**given("<fill><patternFill><bgColor rgb='FF101010'/></patternFill></fill>")),
        "A2: a condition may put a fill behind it, 101010",
    ),
    "icons": (
        Odd(**scale("<iconSet showValue='0'><cfvo type='min'/></iconSet>")),
        "A2: a condition puts an icon beside its number",
    ),
    "bars alone": (
        Odd(**bars(" showValue='0'")),
        "A2: a condition shows a bar in place of its number",
    ),
    "bars": (Odd(**bars()), "3 cells under a condition"),
    "a scale to black": (
        Odd(**colours("FFFFFF", "000000")),
        "A2: a condition may put a fill behind it",
    ),
    "a scale of light colours": (Odd(**colours("FFFFFF", "FF8080")), "3 cells under a condition"),
    "newer bars alone": (
        Odd(**newer("type='dataBar'><x14:dataBar showValue='0'/>")),
        "A2: a condition shows a bar in place of its number",
    ),
    "newer icons": (
        Odd(**newer("type='iconSet'><x14:iconSet/>")),
        "A2: a condition puts an icon beside its number",
    ),
    "newer formats": (
        Odd(**newer("type='expression'><x14:dxf><numFmt numFmtId='9' formatCode='0%'/></x14:dxf>")),
        "A2: a condition may change its format",
    ),
    "a condition elsewhere": (
        Odd(after=condition("<cfRule type='iconSet' priority='1'/>", "E5:F9")),
        TAKEN,
    ),
    "an extension that nobody knows": (
        Odd(after="<extLst><ext><x xmlns='y'/></ext></extLst>"),
        "it has the extension 'x'",
    ),
    "merged from below": (
        Odd(after="<mergeCells><mergeCell ref='C3:A2'/></mergeCells>"),
        "its merged cells 'C3:A2' aren't understood",
    ),
    "merged before the rows": (
        Odd(before="<mergeCells><mergeCell ref='A2:C3'/></mergeCells>"),
        "B2: it is covered by the merged cells A2:C3",
    ),
    "merged beside the bids": (
        Odd(after="<mergeCells><mergeCell ref='E1:F9'/></mergeCells>"),
        TAKEN,
    ),
    "a row of a collapsed group": (
        Odd(row='outlineLevel="1"', changes=[(SHEET, '<row r="4"', '<row r="4" collapsed="1"')]),
        "A3: its row is in a group, of which one is collapsed",
    ),
    "a row of an open group": (Odd(row='outlineLevel="1"'), TAKEN),
    "columns of a collapsed group": (
        Odd(
            before="<cols><col min='2' max='2' outlineLevel='1'/><col min='4' max='4' collapsed='1'/></cols>"
        ),
        "B1: its column is in a group, of which one is collapsed",
    ),
    "a row lower than its digits": (Odd(row='ht="3"'), "A3: its row is hidden"),
    "a large font in a low row": (
        Odd(cell='s="1"', styles=LARGE, row='ht="15"'),
        "A3: its row is lower than its font",
    ),
    "a number wider than its column": (
        Odd(before="<cols><col min='1' max='1' width='3'/></cols>"),
        "3 numbers wider than the column: A2, A3, A4",
    ),
    "a filter that is set": (
        Odd(after="<autoFilter ref='A1:C4'><filterColumn colId='0'/></autoFilter>"),
        "a filter may hide its rows",
    ),
    "a filter that isn't set": (Odd(after="<autoFilter ref='A1:C4'/>"), TAKEN),
    "formulas in place of values": (
        Odd(before="<sheetViews><sheetView showFormulas='1' workbookViewId='0'/></sheetViews>"),
        "its window shows formulas",
    ),
    "frozen below the first bids": (
        Odd(
            before="<sheetViews><sheetView topLeftCell='A3' workbookViewId='0'><pane ySplit='1' state='frozen'/></sheetView></sheetViews>"
        ),
        "A1: nobody can reach it: the window is frozen from 'A3' on",
    ),
    "frozen heads": (
        Odd(
            before="<sheetViews><sheetView workbookViewId='0'><pane ySplit='1' topLeftCell='A2' state='frozen'/></sheetView></sheetViews>"
        ),
        TAKEN,
    ),
    "scenarios": (
        Odd(after="<scenarios/>"),
        "in 'worksheet' there is 'scenarios', which isn't understood",
    ),
    "a comment": (
        Odd(**comment("B3")),
        "1 cell with a comment: B3",
    ),
    "a drawing over a bid": (
        Odd(**linked("drawing", "drawing1.xml", anchor((0, 2), (1, 2)))),
        "2 cells under a drawing: A3, B3",
    ),
    "a drawing beside the bids": (
        Odd(**linked("drawing", "drawing1.xml", anchor((5, 2), (9, 9)))),
        TAKEN,
    ),
    "a pivot": (
        Odd(**linked("pivotTable", "pivot1.xml", "<x/>")),
        "its sheet has a 'pivotTable', which isn't understood",
    ),
    "a table of the usual style": (
        Odd(**table("TableStyleMedium9")),
        TAKEN,
    ),
    "a table of a dark style": (
        Odd(**table("TableStyleDark1")),
        "A1: its table has the style 'TableStyleDark1', which may colour it",
    ),
    "an id of no namespace": (
        Odd(changes=[(BOOK, BOOK_OLD, f'{BOOK_OLD} id="rId9"')]),
        "its 'sheet' has the attribute 'id', which isn't understood",
    ),
    "a link by two namespaces": (
        Odd(
            changes=[
                (BOOK, "<workbook ", f'<workbook xmlns:q="{OTHER_OFFICE}" '),
                (BOOK, BOOK_OLD, f'{BOOK_OLD} q:id="rId9"'),
            ]
        ),
        "its 'sheet' has the attribute 'r:id' twice",
    ),
    "a part by another case": (
        Odd(changes=[(RELS, "worksheets/sheet1.xml", "worksheets/Sheet1.xml")]),
        "it has no part 'xl/worksheets/Sheet1.xml'",
    ),
    "a part by a way round": (
        Odd(changes=[(RELS, "worksheets/sheet1.xml", "worksheets/../worksheets/sheet1.xml")]),
        "it has no part 'worksheets/../worksheets/sheet1.xml'",
    ),
    "a part by the number of a character": (
        Odd(
            parts={"xl/worksheets/sheet%31.xml": ""},
            changes=[(RELS, "worksheets/sheet1.xml", "worksheets/sheet%31.xml")],
        ),
        "it has no part 'xl/worksheets/sheet%31.xml'",
    ),
    "a part from the root": (
        Odd(changes=[(RELS, "worksheets/sheet1.xml", "/xl/worksheets/sheet1.xml")]),
        TAKEN,
    ),
    "sheets in an extension": (
        Odd(
            changes=[
                (
                    BOOK,
                    "<sheets>",
                    '<extLst><sheet name="Ghost" sheetId="7" r:id="rId1"/></extLst><sheets>',
                )
            ]
        ),
        "in 'workbook' there is 'sheets' out of its order",
    ),
    "an attribute that isn't known": (
        Odd(row='shown="0"'),
        "A3: its 'row' has the attribute 'shown', which isn't understood",
    ),
    "an attribute that may be ignored": (
        Odd(row='x14ac:dyDescent="0.25" spans="1:3" thickBot="1"', root=IGNORED),
        TAKEN,
    ),
    "an attribute of a namespace": (
        Odd(row='x14ac:dyDescent="0.25"', root=f'xmlns:x14ac="{AC}"'),
        "A3: its 'row' has the attribute",
    ),
    "what must be known": (
        Odd(root=f'xmlns:mc="{COMPATIBLE}" mc:ProcessContent="x"'),
        "its 'worksheet' has the attribute 'mc:ProcessContent'",
    ),
    "rows that may be ignored": (
        Odd(root=f'xmlns:mc="{COMPATIBLE}" xmlns:m="{MAIN}" mc:Ignorable="m"'),
        "its XML ignores 'm', which isn't understood",
    ),
    "a row of no namespace": (
        Odd(row='xmlns=""'),
        "in 'sheetData' there is 'row', which isn't understood",
    ),
    "an attribute of the sheet's own namespace": (
        Odd(row='m:hidden="1"', root=f'xmlns:m="{MAIN}"'),
        "A3: its 'row' has the attribute",
    ),
    "an error with a number": (
        Odd(changes=[(SHEET, '<c r="A3" ', '<c r="A3" t="e" ')]),
        "A3: its value '9900' isn't understood",
    ),
    "a date with a number": (
        Odd(changes=[(SHEET, '<c r="A3" ', '<c r="A3" t="d" ')]),
        "A3: its value '9900' isn't understood",
    ),
    "an array that spills": (
        Odd(changes=[(SHEET, "<v>9900</v>", "<f t='array' ref='A3:C3'>x</f><v>9900</v>")]),
        "1 formula taken by its stored values: A3, B3, C3",
    ),
    "a value of an image": (
        Odd(changes=[(SHEET, '<c r="A3" ', '<c r="A3" vm="1" ')]),
        "A3: its 'c' has the attribute 'vm', which isn't understood",
    ),
    "many digits": (
        Odd(changes=[(SHEET, "<v>9900</v>", "<v>123456789012</v>")]),
        "A3: its format 'General' isn't known to show it as it is",
    ),
    "more digits than are shown": (
        Odd(changes=[(SHEET, "<v>9900</v>", "<v>1234567890123456</v>")]),
        "A3: it has more than the 15 digits that spreadsheets show",
    ),
    "a text shown as another": (
        Odd(
            styles=make_styles(code="0;0;0;&quot;High&quot;"),
            changes=[(SHEET, '<c r="B1"', '<c r="B1" s="1"')],
        ),
        "B1: its format '0;0;0;\"High\"' isn't known to show it as it is",
    ),
    "a note over the bids": (Odd(**note("visible")), ALL_UNDER),
    "a note over the bids, as its data say": (Odd(**note("hidden", "<x:Visible/>")), ALL_UNDER),
    "a note that isn't seen": (Odd(**note("hidden")), TAKEN),
    "a shape beside a note": (
        Odd(**note("hidden", shapes="<V:rect xmlns:V='urn:schemas-microsoft-com:vml'/>")),
        ALL_UNDER,
    ),
    "a picture behind the cells": (
        Odd(
            after='<picture r:id="rId1"/>',
            root=f'xmlns:r="{OFFICE}"',
            **linked("image", "image1.png", ""),
        ),
        ALL_UNDER,
    ),
    "buttons": (Odd(after="<controls/>"), ALL_UNDER),
    "lines across": (
        Odd(cell='s="1"', styles=bordered("diagonalUp='1' diagonalDown='1'", "thick")),
        "A2: a line goes across it; the same of A3, A4",
    ),
    "a line across that isn't drawn": (
        Odd(cell='s="1"', styles=bordered("diagonalUp='0'", "thick")),
        TAKEN,
    ),
    "a line across without a style": (
        Odd(cell='s="1"', styles=bordered("diagonalDown='1'", "none")),
        TAKEN,
    ),
    "a line across by a condition": (
        Odd(**given("<border diagonalUp='1'><diagonal style='thin'/></border>")),
        "A2: a condition may put a line across it",
    ),
    "signs for digits by the theme": (
        Odd(**themed("Wingdings")),
        "A2: its font 'Wingdings' may have other signs",
    ),
    "a colour of the system that isn't known": (
        Odd(**themed("Calibri", "menu")),
        "A2: the colour of its font isn't known",
    ),
    "the font of the theme": (Odd(**themed("Calibri")), TAKEN),
    "signs for digits in a list of fonts": (
        styled(font="<font><name val='Nobody;Wingdings'/></font>"),
        "A2: its font 'Nobody;Wingdings' may have other signs",
    ),
    "signs for digits from above": (
        styled(font="<font><name val='@Webdings'/></font>"),
        "A2: its font '@Webdings' may have other signs",
    ),
    "frozen beyond the window": (
        Odd(
            before="<sheetViews><sheetView workbookViewId='0'><pane ySplit='300' state='frozen'/></sheetView></sheetViews>"
        ),
        "its window is frozen beyond the first 20 rows or columns",
    ),
    "a table of another source": (
        Odd(**table("TableStyleLight1", "tableType='queryTable'")),
        "its table may get other values from elsewhere",
    ),
    "a row as high as its font": (Odd(row='ht="11"'), TAKEN),
    "a row a little lower than its font": (
        Odd(row='ht="10.5"'),
        "A3: its row is lower than its font",
    ),
    "a table of a style of its own": (
        Odd(styles=make_styles(more=OWN_STYLE), **table("TableStyleLight1")),
        "A1: its table has the style 'TableStyleLight1', which may colour it",
    ),
    "light digits in a table": (
        Odd(
            cell='s="1"',
            styles=make_styles(font=coloured("rgb='FFCECFCF'")),
            **table("TableStyleLight1"),
        ),
        "12 cells under a condition that may change the look",
    ),
    "three places for a fraction": (styled(code="0.000"), FORMAT.format("'0.000'")),
    "four places for a fraction": (styled(code="0.0000"), TAKEN),
    "a name that is repeated": (
        Odd(
            styles=make_styles(xf="<alignment horizontal='fill'/>"),
            changes=[(SHEET, '<c r="B1"', '<c r="B1" s="1"')],
        ),
        "B1: its alignment 'fill' may repeat it",
    ),
    "a name of which a part is white": (
        headed("<r><t>Hi</t></r><r><rPr><color rgb='FFFFFFFF'/></rPr><t>gh</t></r>"),
        "C1: the colour of its font, FFFFFF, can't be told from its fill, FFFFFF",
    ),
    "a name of which a part is struck through": (
        headed("<r><t>Hi</t></r><r><rPr><strike/><sz val='11'/></rPr><t>gh</t></r>"),
        "C1: it is struck through",
    ),
    "a name of signs": (
        headed("<r><rPr><rFont val='Wingdings'/></rPr><t>High</t></r>"),
        "C1: its font 'Wingdings' may have other signs",
    ),
    "a name of which a part is red": (
        headed("<r><t>Hi</t></r><r><rPr><b/><color rgb='FFFF0000'/></rPr><t>gh</t></r>"),
        TAKEN,
    ),
    "a name with pieces and a text": (
        headed("<t>Hi</t><r><t>gh</t></r>"),
        "a text of its cells has pieces, and a text beside them",
    ),
    "digits as wide as the column": (
        Odd(before="<cols><col min='1' max='1' width='4.7109375'/></cols>"),
        TAKEN,
    ),
    "digits a little wider than the column": (
        Odd(before="<cols><col min='1' max='1' width='4.5'/></cols>"),
        "3 numbers wider than the column: A2, A3, A4",
    ),
    "large digits in a narrow column": (
        Odd(cell='s="1"', styles=make_styles(font="<font><sz val='30'/></font>")),
        "3 numbers wider than the column: A2, A3, A4",
    ),
    "columns of no width": (
        Odd(before="<sheetFormatPr baseColWidth='0' defaultRowHeight='15'/>"),
        "A1: its column is hidden",
    ),
    "bars that get as light as their digits": (
        Odd(**PALE_BARS),
        "A2: a condition may put a fill behind it",
    ),
    "a picture beside the bids": (Odd(**drawn(picture())), TAKEN),
    "a turned picture beside the bids": (Odd(**drawn(picture(" rot='5400000'"))), ALL_UNDER),
    "a callout beside the bids": (Odd(**drawn(picture(shape="wedgeRectCallout"))), ALL_UNDER),
    "a picture moved over the bids": (Odd(**drawn(picture(), -5_000_000)), ALL_UNDER),
    "a thick line beside the bids": (
        Odd(**drawn("<xdr:cxnSp><xdr:spPr><a:ln w='20000000'/></xdr:spPr></xdr:cxnSp>")),
        ALL_UNDER,
    ),
}
