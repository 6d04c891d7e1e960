"""The elements and attributes of a workbook's XML that are known, and what each does.

A cell is taken for its number only if nothing in the file may show another one. So what isn't in
the table is refused, wherever it is, unless the part says by `mc:Ignorable` that it means nothing to
a reader that doesn't know it.
"""
from collections.abc import Iterator, Mapping
from dataclasses import dataclass, field
from typing import Protocol
from xml.etree.ElementTree import Element

from wdp.office.faults import quote

# WITHIN | NAMES | WHAT THEY DO. An attribute begins with @. An element that may be there more than
# once ends in *. Elements that have lines of their own are looked into; others show nothing of a
# cell's value, whatever is in them. Elements come in this order within those of ORDERED.
_TABLE = """
Relationships | Relationship* | a link to another part
Relationship | @Id @Type @Target @TargetMode | read: its name, its kind, and the part

workbook | @conformance @mc:Ignorable | which edition of ECMA-376 it follows; read: what is newer
workbook | mc:AlternateContent* | which folder it was in
workbook | fileVersion fileSharing | which program wrote it, and whether it is to be read only
workbook | workbookPr | whether dates count from 1904, and what is saved with the workbook
workbook | workbookProtection bookViews | what may be changed; the window and its first sheet
workbook | sheets | read: the sheets in their order
workbook | functionGroups externalReferences | functions and other workbooks that formulas use
workbook | definedNames calcPr | names that formulas use; how formulas are calculated
workbook | oleSize customWorkbookViews pivotCaches | what other programs show, other windows, pivots
workbook | smartTagPr smartTagTypes webPublishing | marks of texts, and how it is published
workbook | fileRecoveryPr* webPublishObjects extLst | how it was saved, and what is newer
mc:AlternateContent | mc:Choice* mc:Fallback | what one program or another one takes
mc:Choice | @Requires | what a program has to know
mc:Choice | controls oleObjects mc:AlternateContent* | buttons and objects, drawn over cells
mc:Choice | {http://schemas.microsoft.com/office/spreadsheetml/2010/11/ac}absPath | its folder
mc:Fallback | controls oleObjects mc:AlternateContent* | buttons and objects, drawn over cells
sheets | sheet* | a sheet
sheet | @name @sheetId @state @r:id | read: its name and part, and whether it is hidden; its number

sst | @count @uniqueCount @mc:Ignorable | how many texts there are; read: what is newer
sst | si* extLst | a text, by its number; what is newer
si | t r* rPh* phoneticPr | read: its pieces; how it is pronounced
is | t r* rPh* phoneticPr | read: its pieces; how it is pronounced
r | rPr t | read: its font; its characters
rPr | rFont charset family scheme b i u outline shadow condense extend | read: its name and marks
rPr | strike color sz vertAlign | read: whether it is struck through, its colour, its size
t | @xml:space | whether blanks at its ends count

styleSheet | @mc:Ignorable | read: what is newer
styleSheet | numFmts fonts fills | read: formats, fonts and colours
styleSheet | borders | read: lines across cells
styleSheet | cellStyleXfs cellXfs | what styles are made from; read: the styles of cells
styleSheet | cellStyles | the styles that have names
styleSheet | dxfs tableStyles colors | read: what conditions and tables give to cells; colours
styleSheet | extLst | what is newer: styles of slicers and timelines
numFmts | @count | how many there are
numFmts | numFmt* | a format
numFmt | @numFmtId @formatCode | read: its number and code
fonts | @count | how many there are
fonts | font* | a font
font | name charset family scheme | read: its name, whether it has other signs in place of digits
font | b i u outline shadow condense extend | read: bold, italic, underlined; contours, width
font | strike color sz vertAlign | read: whether it is struck through, its colour, its size
fills | @count | how many there are
fills | fill* | a fill
fill | patternFill gradientFill | read: its colours
patternFill | @patternType | read: whether there is one
patternFill | fgColor bgColor | read: its colours
gradientFill | @type @degree @left @right @top @bottom | its direction
gradientFill | stop* | read: its colours
stop | @position | where it is
stop | color | read: its colour
color | @auto @indexed @rgb @theme @tint | read: a colour
fgColor | @auto @indexed @rgb @theme @tint | read: a colour
bgColor | @auto @indexed @rgb @theme @tint | read: a colour
borders | @count | how many there are
borders | border* | lines round a cell
border | @diagonalUp @diagonalDown | read: whether a line goes across the cell
border | @outline | whether it is round several cells
border | start end left right top bottom diagonal vertical horizontal | lines round it, and across
cellXfs | @count | how many there are
cellXfs | xf* | a style of cells
xf | @numFmtId @fontId @fillId | read: its format, font and fill
xf | @borderId @xfId | read: its lines, its named style
xf | @quotePrefix @pivotButton | an apostrophe, a button
xf | @applyNumberFormat @applyFont @applyFill @applyBorder | read: whether they are its own
xf | @applyAlignment @applyProtection | read: whether they are its own
xf | alignment protection extLst | read: where the value is in the cell; what may be changed
alignment | @horizontal @textRotation @indent | read: whether it repeats, turns or moves a number
alignment | @shrinkToFit | read: whether it makes a number small
alignment | @vertical @wrapText @relativeIndent @justifyLastLine @readingOrder | where a value is
dxfs | @count | how many there are
dxfs | dxf* | read: what a condition or a table gives to cells
dxf | font numFmt fill | read: its font, format and fill
dxf | border alignment protection | read: a line across; what no condition changes; what may be

worksheet | @mc:Ignorable | read: what is newer
worksheet | mc:AlternateContent* | named: buttons and objects, drawn over cells
worksheet | sheetPr dimension | the colour of its tab, its outline; how large it is
worksheet | sheetViews sheetFormatPr cols | read: its windows; its sizes; its columns
worksheet | sheetData | read: its rows
worksheet | sheetCalcPr sheetProtection protectedRanges | when it calculates; what may be changed
worksheet | autoFilter sortState | read: a filter; how rows were sorted
worksheet | dataConsolidate customSheetViews | how it was consolidated; other windows
worksheet | mergeCells | read: merged cells
worksheet | phoneticPr | how texts are pronounced
worksheet | conditionalFormatting* | read: what conditions give to cells
worksheet | dataValidations hyperlinks | what may be typed; where cells lead to
worksheet | printOptions pageMargins pageSetup headerFooter | how it is printed
worksheet | rowBreaks colBreaks customProperties cellWatches | where pages end; data of programs
worksheet | ignoredErrors smartTags | which warnings aren't shown; marks of texts
worksheet | drawing drawingHF legacyDrawing legacyDrawingHF | read by its links: what is drawn
worksheet | picture oleObjects controls | named: what is drawn below and over cells
worksheet | webPublishItems tableParts extLst | how it is published; read: tables, what is newer
sheetViews | sheetView* extLst | a window
sheetView | @showFormulas @topLeftCell | read: whether formulas are shown; the first cell in sight
sheetView | @windowProtection @showGridLines @showRowColHeaders @showRuler | what is round cells
sheetView | @showZeros | whether a 0 is shown or left empty
sheetView | @rightToLeft @tabSelected @showOutlineSymbols @defaultGridColor | where it begins
sheetView | @showWhiteSpace @view @colorId @workbookViewId | how pages and lines are shown
sheetView | @zoomScale @zoomScaleNormal @zoomScaleSheetLayoutView @zoomScalePageLayoutView | its zoom
sheetView | pane selection* extLst | read: whether rows are frozen; what is selected
pane | @xSplit @ySplit @state | read: how many rows and columns are frozen
pane | @topLeftCell @activePane | the first cell in sight beside them; which part is in use
selection | @pane @activeCell @activeCellId @sqref | what is selected
sheetFormatPr | @defaultColWidth @baseColWidth @defaultRowHeight | read: sizes
sheetFormatPr | @customHeight @thickTop @thickBottom | sizes
sheetFormatPr | @zeroHeight | whether rows are hidden that have no cell
sheetFormatPr | @outlineLevelRow @outlineLevelCol | how deep outlines are
cols | col* | some columns
col | @min @max @hidden @width @style @outlineLevel @collapsed | read: which, whether they are seen
col | @bestFit @customWidth @phonetic | how the width was chosen; how texts are pronounced
sheetData | row* | read one by one
row | @r @s @ht @hidden @outlineLevel @collapsed | read: its number, style, and whether it is seen
row | @spans @customFormat @customHeight @thickTop @thickBot @ph | hints, and room for lines
row | c* | a cell
c | @r @s @t | read: its place, its style, and the kind of its value
c | @cm @ph | that a formula spills, which has its range; how a text is pronounced
c | f v is | read: whether it has a formula; its value
f | @ref | read: the cells that have the formula's values
f | @t @aca @ca @si @bx @dt2D @dtr @del1 @del2 @r1 @r2 @xml:space | how it is calculated
v | @xml:space | whether blanks at its ends count
mergeCells | @count | how many there are
mergeCells | mergeCell* | merged cells
mergeCell | @ref | read: which cells
autoFilter | @ref | where its buttons are
autoFilter | sortState extLst | how rows were sorted
conditionalFormatting | @sqref @pivot | read: its cells
conditionalFormatting | cfRule* extLst | a rule
cfRule | @type @dxfId | read: its kind, and what it gives to cells
cfRule | @priority @stopIfTrue @aboveAverage @percent @bottom @operator @text | when it does that
cfRule | @timePeriod @rank @stdDev @equalAverage | when it does that
cfRule | formula* colorScale dataBar iconSet extLst | when it does that; read: colours, a bar, icons
colorScale | cfvo* color* | where colours begin; read: colours
dataBar | @showValue @minLength @maxLength | read: whether the value is shown; how long it is
dataBar | cfvo* color | where it begins; read: its colour
cfvo | @type @val @gte | a value
tableParts | @count | how many there are
tableParts | tablePart* | read by its link: a table
tablePart | @r:id | its link
table | autoFilter sortState tableColumns tableStyleInfo extLst | read: a filter; its columns, style
table | @mc:Ignorable | read: what is newer
table | @tableType | read: whether its values are of the sheet
table | @id @name @displayName @comment @ref @headerRowCount | its name and place
table | @insertRow @insertRowShift @totalsRowCount @totalsRowShown @published | which rows it has
table | @headerRowDxfId @dataDxfId @totalsRowDxfId | what it gave to cells
table | @headerRowBorderDxfId @tableBorderDxfId @totalsRowBorderDxfId | its lines
table | @headerRowCellStyle @dataCellStyle @totalsRowCellStyle @connectionId | its styles, its source
tableStyleInfo | @name @showFirstColumn @showLastColumn | read: its style
tableStyleInfo | @showRowStripes @showColumnStripes | its stripes
"""
HINT = "; save the sheet as CSV"
_MOST_NESTED = 64  # elements within each other
ORDERED = ("workbook", "worksheet", "styleSheet", "row", "c", "cellXfs", "sheetData", "mergeCells")


@dataclass
class _Known:
    """What is known of an element: its attributes, the elements in it, by their places in their
    order, and which of them may be there more than once.
    """

    attributes: set[str] = field(default_factory=set)
    elements: dict[str, int] = field(default_factory=dict)
    repeated: set[str] = field(default_factory=set)


def _parse_table(table: str) -> Mapping[str, _Known]:
    """What is known of each element that is looked into."""
    known: dict[str, _Known] = {}
    for line in filter(None, table.splitlines()):
        within, names, _ = line.split(" | ")
        of_element = known.setdefault(within, _Known())
        for name in names.split():
            if name.startswith("@"):
                of_element.attributes.add(name[1:])
                continue
            of_element.elements[name.rstrip("*")] = len(of_element.elements)
            if name.endswith("*"):
                of_element.repeated.add(name.rstrip("*"))
    return known


KNOWN = _parse_table(_TABLE)


class Names(Protocol):
    """How names are to be read."""

    def name(self, name: str) -> str:
        """The name of an element or an attribute, without a namespace that is the part's own."""


class PartNames(Names, Protocol):
    """How the names of a part are to be read."""

    def attribute(self, name: str) -> str:
        """The name of an attribute; the part's own have no namespace."""

    def is_ignorable(self, name: str) -> bool:
        """Whether a reader ignores what has this name if it doesn't know it."""


def find_unknown(
    element: Element, part: PartNames, most: int = _MOST_NESTED
) -> Iterator[tuple[Element, str]]:
    """What in an element, and in what it has down to so many levels, isn't in the table: where that
    is, and why it isn't understood.
    """
    known = KNOWN.get(part.name(element.tag))
    if known is None:
        return
    if not most:
        yield element, f"its XML has more than {_MOST_NESTED} levels"
        return
    yield from ((element, why) for why in find_unknown_attributes(element, part))
    yield from ((element, why) for why in _find_unknown_elements(element, known, part))
    for child in element:
        if part.name(child.tag) in known.elements:
            yield from find_unknown(child, part, most - 1)


def find_unknown_attributes(element: Element, part: PartNames) -> Iterator[str]:
    """Which attributes of an element aren't in the table, or are there twice, since two namespaces
    have the same prefix here.
    """
    within = part.name(element.tag)
    seen: set[str] = set()
    for attribute in element.keys():
        name = part.attribute(attribute)
        if name in seen:
            yield f"its {within!r} has the attribute {_show(name)} twice{HINT}"
        seen.add(name)
        if name not in KNOWN[within].attributes and not part.is_ignorable(attribute):
            why = f"its {within!r} has the attribute {_show(name)}, which isn't understood"
            yield why + HINT


def _find_unknown_elements(element: Element, known: _Known, part: PartNames) -> Iterator[str]:
    """Which elements in another one aren't in the table, or not where they have to be."""
    within = part.name(element.tag)
    last = -1
    seen: set[str] = set()
    for child in element:
        name = part.name(child.tag)
        place = known.elements.get(name)
        if place is None:
            if not part.is_ignorable(child.tag):
                yield f"in {within!r} there is {_show(name)}, which isn't understood{HINT}"
            continue
        if name.startswith("mc:"):
            continue
        if name in seen and name not in known.repeated:
            yield f"in {within!r} there is {name!r} twice{HINT}"
        elif within in ORDERED and place < last:
            yield f"in {within!r} there is {name!r} out of its order{HINT}"
        seen.add(name)
        last = max(last, place)


def _show(name: str) -> str:
    """A name as a message shows it."""
    return quote(name.removeprefix("{").replace("}", " ").strip())
