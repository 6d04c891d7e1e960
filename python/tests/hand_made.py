"""Workbooks of a form of Fox by hand, which declare what three spreadsheets do that aren't tried here."""
from workbooks import FORM, HEAD, MAIN, OFFICE, RawWorkbook, make_row

COMPATIBLE = "http://schemas.openxmlformats.org/markup-compatibility/2006"
MICROSOFT = "http://schemas.microsoft.com/office"
ROOT = f'xmlns:mc="{COMPATIBLE}" xmlns:x14ac="{MICROSOFT}/spreadsheetml/2009/9/ac"'
REVISIONS = (
    f'xmlns:xr="{MICROSOFT}/spreadsheetml/2014/revision"'
    f' xmlns:xr2="{MICROSOFT}/spreadsheetml/2015/revision2"'
    f' xmlns:xr6="{MICROSOFT}/spreadsheetml/2016/revision6" xr:uid="{{0}}"'
)
DRAWING = "http://schemas.openxmlformats.org/drawingml/2006/spreadsheetDrawing"
THEME = "http://schemas.openxmlformats.org/drawingml/2006/main"
SHEET = "xl/worksheets/sheet1.xml"
STYLES = "xl/styles.xml"


def make_rows(of_row: str, of_cells: str) -> str:
    lines = [make_row(number, row, of_row, of_cells) for number, row in enumerate(FORM, 1)]
    return f"<sheetData>{''.join(lines)}</sheetData>"


def make_styles(fonts: str, fills: str, cells: str, more: str = "", root: str = "") -> str:
    made = f"<fonts>{fonts}</fonts><fills>{fills}</fills><borders><border/></borders>"
    made += f'<cellStyleXfs><xf numFmtId="0"/></cellStyleXfs><cellXfs>{cells}</cellXfs>{more}'
    return f'{HEAD}<styleSheet xmlns="{MAIN}" {root}>{made}</styleSheet>'


def make_like_excel() -> bytes:
    view = '<sheetView tabSelected="1" workbookViewId="0"><selection activeCell="A5" sqref="A5"/></sheetView>'
    before = f'<dimension ref="A1:C4"/><sheetViews>{view}</sheetViews>'
    before += '<sheetFormatPr defaultRowHeight="15" x14ac:dyDescent="0.25"/>'
    before += '<cols><col min="1" max="1" width="9.7109375" bestFit="1" customWidth="1"/></cols>'
    rows = make_rows(' spans="1:3" x14ac:dyDescent="0.25"', ' s="1"')
    after = '<phoneticPr fontId="1" type="noConversion"/><pageMargins left="0.7" right="0.7" top="0.75" bottom="0.75" header="0.3" footer="0.3"/>'
    after += '<pageSetup paperSize="9" orientation="portrait"/><ignoredErrors><ignoredError sqref="A1" numberStoredAsText="1"/></ignoredErrors>'
    book = RawWorkbook(("Bids", before + rows + after), formats=["0"])
    book.change(
        SHEET, "<worksheet ", f'<worksheet {ROOT} {REVISIONS} mc:Ignorable="x14ac xr xr2 xr6" '
    )
    font = "<font><sz val='11'/><color theme='1'/><name val='Calibri'/><family val='2'/><scheme val='minor'/></font>"
    none = "<fill><patternFill patternType='none'/></fill><fill><patternFill patternType='gray125'/></fill>"
    cells = "<xf numFmtId='0' fontId='0' fillId='0' borderId='0' xfId='0'/>"
    cells += "<xf numFmtId='3' fontId='0' fillId='0' borderId='0' xfId='0' applyNumberFormat='1'/>"
    more = "<cellStyles count='1'><cellStyle name='Normal' xfId='0' builtinId='0'/></cellStyles><dxfs count='0'/>"
    more += "<tableStyles count='0' defaultTableStyle='TableStyleMedium2'/><extLst><ext uri='{EB79DEF2}'/></extLst>"
    root = f'{ROOT} xmlns:x16r2="{MICROSOFT}/spreadsheetml/2015/02/main" mc:Ignorable="x14ac x16r2"'
    book.parts[STYLES] = make_styles(font, none, cells, more, root)
    colours = "<a:dk1><a:sysClr val='windowText' lastClr='000000'/></a:dk1><a:lt1><a:sysClr val='window' lastClr='FFFFFF'/></a:lt1>"
    scheme = f"<a:themeElements><a:clrScheme name='Office'>{colours}</a:clrScheme></a:themeElements>"
    book.parts["xl/theme/theme1.xml"] = f"{HEAD}<a:theme xmlns:a='{THEME}'>{scheme}</a:theme>"
    link = f'<Relationship Id="rId9" Type="{OFFICE}/theme" Target="theme/theme1.xml"/>'
    book.change("xl/_rels/workbook.xml.rels", "</Relationships>", f"{link}</Relationships>")
    about = '<fileVersion appName="xl" lastEdited="7" lowestEdited="7" rupBuild="22228"/><workbookPr defaultThemeVersion="166925"/>'
    path = f'<x15ac:absPath url="C:\\" xmlns:x15ac="{MICROSOFT}/spreadsheetml/2010/11/ac"/>'
    about += f'<mc:AlternateContent><mc:Choice Requires="x15">{path}</mc:Choice></mc:AlternateContent>'
    about += '<xr:revisionPtr revIDLastSave="0" documentId="8_{1}" xr6:coauthVersionLast="47"/>'
    about += (
        '<bookViews><workbookView xWindow="0" yWindow="0" activeTab="0" xr2:uid="{2}"/></bookViews>'
    )
    book.change("xl/workbook.xml", "<sheets>", f"{about}<sheets>")
    book.change("xl/workbook.xml", "</sheets>", '</sheets><calcPr calcId="191029"/>')
    root = f'{ROOT} xmlns:x15="{MICROSOFT}/spreadsheetml/2010/11/main" {REVISIONS.rpartition(" ")[0]}'
    root += ' mc:Ignorable="x15 xr xr2 xr6" '
    return book.change("xl/workbook.xml", "<workbook ", f"<workbook {root} ").bytes()


def make_like_google() -> bytes:
    before = '<sheetPr><outlinePr summaryBelow="0" summaryRight="0"/></sheetPr><sheetViews><sheetView workbookViewId="0"/></sheetViews>'
    before += (
        '<sheetFormatPr customHeight="1" defaultColWidth="12.63" defaultRowHeight="15.75"/>'
    )
    book = RawWorkbook(
        ("Bids", before + make_rows("", ' s="1"') + '<drawing r:id="rId1"/>'), formats=["0"]
    )
    root = f'{ROOT} xmlns:r="{OFFICE}" xmlns:x14="{MICROSOFT}/spreadsheetml/2009/9/main"'
    root += f' xmlns:xm="{MICROSOFT}/excel/2006/main" xmlns:mx="{MICROSOFT}/mac/excel/2008/main" xmlns:mv="urn:schemas-microsoft-com:mac:vml"'
    book.change(SHEET, "<worksheet ", f"<worksheet {root} ")
    font = "<font><sz val='10.0'/><color rgb='FF000000'/><name val='Arial'/><scheme val='minor'/></font>"
    none = "<fill><patternFill patternType='none'/></fill><fill><patternFill patternType='lightGray'/></fill>"
    shown = "<alignment readingOrder='0' shrinkToFit='0' vertical='bottom' wrapText='0'/>"
    cells = f"<xf borderId='0' fillId='0' fontId='0' numFmtId='0' xfId='0' applyAlignment='1' applyFont='1'>{shown}</xf>"
    right = "<alignment horizontal='right' readingOrder='0'/>"
    cells += f"<xf borderId='0' fillId='0' fontId='0' numFmtId='3' xfId='0' applyAlignment='1' applyFont='1' applyNumberFormat='1'>{right}</xf>"
    more = "<cellStyles count='1'><cellStyle xfId='0' name='Normal' builtinId='0'/></cellStyles><dxfs count='0'/>"
    book.parts[STYLES] = make_styles(font, none, cells, more, ROOT)
    book.parts["xl/worksheets/_rels/sheet1.xml.rels"] = book.links(
        [("rId1", "drawing", "../drawings/drawing1.xml")]
    )
    drawing = f'{HEAD}<xdr:wsDr xmlns:xdr="{DRAWING}" xmlns:a="{THEME}" xmlns:r="{OFFICE}"/>'
    book.parts["xl/drawings/drawing1.xml"] = drawing
    return book.bytes()


def make_like_apple() -> bytes:
    before = '<sheetPr><pageSetUpPr fitToPage="1"/></sheetPr><sheetViews><sheetView workbookViewId="0" showGridLines="0" defaultGridColor="1"/></sheetViews>'
    before += '<sheetFormatPr defaultColWidth="16.3333" defaultRowHeight="19.9" customHeight="1" outlineLevelRow="0" outlineLevelCol="0"/>'
    columns = '<col min="1" max="3" width="16.3516" style="1" customWidth="1"/><col min="4" max="16384" width="16.3516" style="1" customWidth="1"/>'
    before += f"<cols>{columns}</cols>"
    after = '<pageMargins left="0.5" right="0.5" top="0.75" bottom="0.75" header="0.277778" footer="0.277778"/>'
    after += '<pageSetup firstPageNumber="1" fitToHeight="1" fitToWidth="1" scale="100" useFirstPageNumber="0" pageOrder="downThenOver"/>'
    after += "<headerFooter><oddFooter>&amp;C&amp;P</oddFooter></headerFooter>"
    book = RawWorkbook(
        ("Bids", before + make_rows(' ht="20.05" customHeight="1"', ' s="2"') + after),
        formats=["0"],
    )
    font = "<sz val='10'/><color indexed='8'/><name val='Helvetica Neue'/></font>"
    fonts = f"<font>{font}<font><b val='1'/>{font}"
    fills = "<fill><patternFill patternType='none'/></fill><fill><patternFill patternType='gray125'/></fill>"
    fills += (
        "<fill><patternFill patternType='solid'><fgColor indexed='9'/><bgColor auto='1'/></patternFill></fill>"
    )
    top = "<alignment vertical='top' wrapText='1'/>"
    style = f"applyNumberFormat='1' applyFont='1' applyFill='1' applyBorder='1' applyAlignment='1' applyProtection='0'>{top}</xf>"
    cells = f"<xf numFmtId='0' fontId='0' applyFont='1' applyAlignment='1'>{top}</xf>"
    cells += f"<xf numFmtId='0' fontId='0' fillId='0' borderId='0' {style}<xf numFmtId='1' fontId='0' fillId='2' borderId='0' {style}"
    listed = "".join(f"<rgbColor rgb='{code}'/>" for code in ["ff000000", "ffffffff"] * 5)
    more = "<cellStyles count='1'><cellStyle name='Normal' xfId='0' builtinId='0'/></cellStyles><dxfs count='0'/>"
    more += f"<tableStyles count='0'/><colors><indexedColors>{listed}</indexedColors></colors>"
    book.parts[STYLES] = make_styles(fonts, fills, cells, more)
    return book.bytes()
