"""What is round the rows of a workbook's sheet, and may change what is seen of its cells: its
windows, merged cells, filters, conditions, tables, comments and drawings.
"""
import re
from collections.abc import Sequence
from dataclasses import dataclass
from functools import cached_property
from xml.etree.ElementTree import Element

from wdp.office.archives import Archive, BadWorkbook, XmlPart
from wdp.office.cells import ALL, LAST_COLUMN, LAST_ROW, Area, Values, parse_cell
from wdp.office.faults import quote
from wdp.office.looks import (
    NUMBER,
    OFF,
    Colour,
    Condition,
    Styles,
    format_colour,
    is_near,
    is_on,
    mix,
)
from wdp.office.remarks import Remarks

_MOST_AREAS = 500  # merged, of conditions or of tables, or under drawings
_MOST_RULES = 500  # of conditions
_MOST_COMMENTS = 10_000
_MOST_COMPARED = 200_000  # colours of conditions with colours of fonts
_MOST_SCANS = 16  # of all cells, for fonts that can't be told from a colour of a condition
_FROZEN = ("frozen", "frozenSplit")
_MOST_FROZEN = 20  # rows, and columns, beyond which the rest may be out of the window
# what a sheet may be linked to beside comments, drawings and tables: nothing of it is seen in cells
_HARMLESS = (
    "hyperlink",
    "printerSettings",
    "image",
    "customProperty",
    "ctrlProp",
    "control",
    "oleObject",
    "package",
)
_THREADED = "http://schemas.microsoft.com/office/2017/10/relationships/threadedComment"
# the styles of tables that every spreadsheet has, and whose rows have dark text on a light ground
_TABLE_STYLE = re.compile("TableStyle(Light|Medium)[0-9]{1,2}")
# newer kinds of what is round the rows, by the ends of their names
_EXTENSIONS = (
    "dataValidations",
    "slicerList",
    "protectedRanges",
    "ignoredErrors",
    "timelineRefs",
    "webExtensions",
)
_COLOURS_OF_RULES = ("color", "fillColor", "negativeFillColor")
_DARKEST = 128  # of 255: a channel of a colour that can be told from those of all usual tables
# what is drawn in an older format, with its attributes; that it isn't seen, and that it is
_SHAPE = re.compile(
    rb"<(?:[^\s<>:/]+:)?(?:shape|rect|roundrect|oval|line|polyline|image|curve|arc|group)\b[^>]*"
)
_UNSEEN = re.compile(rb"""\sstyle\s*=\s*["'][^"']*\bvisibility\s*:\s*hidden\b""")
_SEEN = re.compile(rb"Visible\b|visibility\s*:(?!\s*hidden)")
# what may be drawn within an anchor without going beyond it; how far its corners may be within cells
_WITHIN_ANCHORS = """
from to col row colOff rowOff pos ext clientData pic nvPicPr cNvPr cNvPicPr picLocks blipFill blip
stretch fillRect spPr xfrm off prstGeom avLst noFill graphicFrame nvGraphicFramePr cNvGraphicFramePr
graphicFrameLocks graphic graphicData chart extLst creationId twoCellAnchor oneCellAnchor ln srcRect
""".split()
_LONGEST_OFFSET = 1_000_000  # of the 360,000 to a centimetre
_NOTE = re.compile(rb"""ObjectType\s*=\s*["']Note["']""")


@dataclass
class _Surroundings:
    """What is round the rows of one sheet."""

    part: XmlPart
    archive: Archive
    styles: Styles
    values: Values
    remarks: Remarks
    areas: int = 0
    rules: int = 0
    compared: int = 0

    @cached_property
    def light_fonts(self) -> frozenset[Colour]:
        """The colours of fonts that may be as light as what a table puts behind them."""
        return frozenset(font for font in self.values.fonts if max(font) > _DARKEST)

    def parse_areas(self, text: str, what: str) -> list[Area]:
        """The areas of a text, which are separated by spaces."""
        areas = [Area.parse(each) for each in text.split()]
        known = [area for area in areas if area]
        self.areas += len(areas)
        if len(known) < len(areas) or not known or self.areas > _MOST_AREAS:
            raise BadWorkbook(f"{what} {quote(text)} aren't understood, or are too many")
        return known

    def check_windows(self, windows: Element) -> None:
        """No formula is shown in place of its value, and no row is out of reach."""
        for window in windows:
            if is_on(window.get("showFormulas")):
                raise BadWorkbook("its window shows formulas in place of values")
            first = window.get("topLeftCell", "A1")
            panes = [pane for pane in window if self.part.name(pane.tag) == "pane"]
            frozen = [pane for pane in panes if pane.get("state") in _FROZEN]
            if first != "A1" and frozen:
                why = f"nobody can reach it: the window is frozen from {quote(first)} on"
                raise BadWorkbook(why, self.values.find_first(ALL))
            sizes = [pane.get(name, "0") for pane in frozen for name in ("xSplit", "ySplit")]
            if any(not NUMBER.fullmatch(size) or float(size) > _MOST_FROZEN for size in sizes):
                most = f"{_MOST_FROZEN} rows or columns"
                raise BadWorkbook(f"its window is frozen beyond the first {most}; unfreeze it")

    def check_merged(self, merged: Element) -> None:
        """No value is covered by merged cells."""
        for element in merged:
            ref = element.get("ref", "")
            (area, *others) = self.parse_areas(ref, "its merged cells")
            cell = self.values.find_first(area, after=(area.top, area.left))
            if others or cell:
                raise BadWorkbook(f"it is covered by the merged cells {ref}; unmerge them", cell)

    def check_filter(self, element: Element, part: XmlPart) -> None:
        """No filter hides rows."""
        if any(part.name(each.tag) == "filterColumn" for each in element):
            raise BadWorkbook("a filter may hide its rows; remove the filter", "")

    def check_conditions(self, element: Element) -> None:
        """What a condition may change is none of what shows a value."""
        name = _strip(element.tag)
        texts = [element.get("sqref", "")]
        texts += [each.text or "" for each in element if _strip(each.tag) == "sqref"]
        areas = self.parse_areas(" ".join(filter(None, texts)), f"the cells of its {name!r}")
        rules = [rule for rule in element if _strip(rule.tag) == "cfRule"]
        self.rules += len(rules)
        if self.rules > _MOST_RULES:
            raise BadWorkbook(f"it has more than {_MOST_RULES} conditions")
        conditions = [self._read_rule(rule) for rule in rules]
        hides = next((each.hides for each in conditions if each.hides), "")
        near = self._find_near([colour for each in conditions for colour in each.colours])
        for area in areas if conditions else ():
            cell = self.values.find_first(area)
            hidden, font = self.values.find_font(area, frozenset(near)) or ("", None)
            if cell and hides:
                self.remarks.add_fault(cell, f"{hides}; remove the condition")
            elif font:
                fill = format_colour(near[font])
                why = f"a condition may put a fill behind it, {fill}, as dark or light as its font"
                self.remarks.add_fault(hidden, f"{why}; remove the condition")
            elif cell:
                self.remarks.conditions.append(area)

    def _find_near(self, fills: Sequence[Colour]) -> dict[Colour, Colour]:
        """The colours of fonts that can't be told from one of these, with that one."""
        fonts = self.values.fonts
        self.compared += len(fills) * len(fonts)
        near: dict[Colour, Colour] = {}
        if self.compared <= _MOST_COMPARED:
            for fill in dict.fromkeys(fills):
                for font in fonts:
                    if is_near(font, fill):
                        near.setdefault(font, fill)
        if self.compared > _MOST_COMPARED or self.values.scans > _MOST_SCANS:
            raise BadWorkbook("its conditions and its fonts have too many colours")
        return near

    def _read_rule(self, rule: Element) -> Condition:
        """What a rule gives to cells, by a style of the workbook or its own."""
        if rule.get("type") == "iconSet" or _has(rule, "iconSet"):
            return Condition("a condition puts an icon beside its number, or in its place")
        bars = [each for each in rule if _strip(each.tag) == "dataBar"]
        if any(bar.get("showValue", "1") in OFF for bar in bars):
            return Condition("a condition shows a bar in place of its number")
        scales = [each for each in rule if _strip(each.tag) in ("dataBar", "colorScale")]
        colours: list[Colour] = []
        for scale in scales:
            found = [each for each in scale if _strip(each.tag) in _COLOURS_OF_RULES]
            known = [self.styles.palette.read(each, (0, 0, 0)) for each in found]
            ends = [colour for colour in known if colour]
            if len(ends) < len(known):
                return Condition("a condition may give it a colour that isn't known")
            if _strip(scale.tag) == "dataBar":
                # (a bar gets lighter to its end)
                ends = [each for end in ends for each in (end, (255, 255, 255))]
            colours += [each for pair in zip(ends, ends[1:] or ends) for each in mix(*pair)]
        styles = [each for each in rule if _strip(each.tag) == "dxf"]
        given = [self.styles.read_condition(each, _Stripped()) for each in styles]
        if "dxfId" in rule.keys():
            given.append(self.styles.find_condition(rule.get("dxfId", "")))
        hides = next((each.hides for each in given if each.hides), "")
        colours += (colour for each in given for colour in each.colours)
        return Condition(hides, colours)

    def check_extensions(self, extensions: Element) -> None:
        """What is newer than ECMA-376 shows nothing else."""
        for element in (each for extension in extensions for each in extension):
            name = _strip(element.tag)
            if name == "conditionalFormattings":
                for each in element:
                    self.check_conditions(each)
            elif name == "sparklineGroups":
                texts = [each.text or "" for each in element.iter() if _strip(each.tag) == "sqref"]
                for text in texts:
                    for area in self.parse_areas(text, "the cells of its sparklines"):
                        self.remarks.drawings.append(area)
            elif name not in _EXTENSIONS:
                raise BadWorkbook(f"it has the extension {quote(name)}, which isn't understood")

    def check_links(self, name: str) -> None:
        """What a sheet is linked to shows nothing in its cells, or is named."""
        links = self.archive.links(name, is_needed=False)
        notes = sum(link.kind == "comments" for link in links.values())
        for link in links.values():
            match link.kind:
                case "comments":
                    self._take_comments(self.archive.parse(link.part), "comment")
                case kind if kind == _THREADED:
                    self._take_comments(self.archive.parse(link.part), "threadedComment")
                case "drawing":
                    self._take_drawing(self.archive.parse(link.part))
                case "vmlDrawing":
                    self._take_shapes(self.archive.read(link.part), has_notes=bool(notes))
                case "table":
                    self._check_table(self.archive.parse(link.part))
                case kind if kind not in _HARMLESS:
                    raise BadWorkbook(f"its sheet has a {quote(kind)}, which isn't understood")

    def _take_comments(self, part: XmlPart, tag: str) -> None:
        for element in part.read().iter():
            if part.name(element.tag) == tag:
                cell = element.get("ref", "")
                if parse_cell(cell) is None:
                    raise BadWorkbook("its comments aren't understood")
                self.remarks.comments.append(cell)
        if len(self.remarks.comments) > _MOST_COMMENTS:
            raise BadWorkbook(f"it has more than {_MOST_COMMENTS:,} comments")

    def _take_drawing(self, part: XmlPart) -> None:
        """Takes the cells under each drawing: up to the sheet's end, if its size isn't in cells."""
        for anchor in part.read():
            corners = {part.name(each.tag): _read_corner(each, part) for each in anchor}
            is_within = all(_is_within_anchor(each, part) for each in anchor.iter())
            begin = corners.get("from")
            end = corners.get("to") or (LAST_ROW, LAST_COLUMN)
            self.areas += 1
            if self.areas > _MOST_AREAS:
                raise BadWorkbook("its drawings are too many")
            is_right = begin and begin[0] <= end[0] and begin[1] <= end[1]
            is_known = begin and is_right and is_within
            self.remarks.drawings.append(Area(*begin, *end) if begin and is_known else ALL)

    def _take_shapes(self, data: bytes, *, has_notes: bool) -> None:
        """Takes drawings in an older format, in which notes of comments are, too."""
        shapes = _SHAPE.findall(data)
        are_unseen = all(map(_UNSEEN.search, shapes)) and not _SEEN.search(data)
        if not has_notes or len(shapes) > len(_NOTE.findall(data)) or not are_unseen:
            self.remarks.drawings.append(ALL)

    def _check_table(self, part: XmlPart) -> None:
        """No table hides rows, or colours their text."""
        root = part.read()
        for element in root:
            if part.name(element.tag) == "autoFilter":
                self.check_filter(element, part)
        part.check(root)
        if root.get("tableType", "worksheet") != "worksheet":
            raise BadWorkbook("its table may get other values from elsewhere when it is opened")
        for element in root:
            if part.name(element.tag) != "tableStyleInfo" or "name" not in element.keys():
                continue
            style = _TABLE_STYLE.fullmatch(element.get("name", ""))
            ends = ("showFirstColumn", "showLastColumn")
            is_plain = style and (
                style[1] == "Light" or not any(map(is_on, map(element.get, ends)))
            )
            area = Area.parse(root.get("ref", "")) or ALL
            if not is_plain or element.get("name", "").lower() in self.styles.table_styles:
                why = f"its table has the style {quote(element.get('name', ''))}"
                raise BadWorkbook(f"{why}, which may colour it", self.values.find_first(area))
            self.areas += 1
            if self.areas > _MOST_AREAS:
                raise BadWorkbook("its tables are too many")
            if self.values.find_font(area, self.light_fonts):
                self.remarks.conditions.append(area)


class _Stripped:
    """Names without any namespace, as in what is newer than ECMA-376."""

    def name(self, name: str) -> str:
        """The name of an element."""
        return _strip(name)


def _strip(name: str) -> str:
    """The name of an element without its namespace."""
    return name.rpartition("}")[2]


def _has(element: Element, name: str) -> bool:
    return any(_strip(each.tag) == name for each in element)


def _is_within_anchor(element: Element, part: XmlPart) -> bool:
    """Whether something that is drawn is known not to go beyond the corners that it is said to have."""
    if element.get("rot", "0") != "0" or element.get("prst", "rect") != "rect":
        return False
    if part.name(element.tag) in ("colOff", "rowOff"):
        text = (element.text or "").strip()
        return text.isdecimal() and len(text) < 8 and int(text) <= _LONGEST_OFFSET
    width = element.get("w", "0")
    is_thin = width.isdecimal() and len(width) < 6
    return is_thin and _strip(element.tag) in _WITHIN_ANCHORS


def _read_corner(element: Element, part: XmlPart) -> tuple[int, int] | None:
    """The row and the column of a drawing's corner."""
    texts = {part.name(each.tag): (each.text or "").strip() for each in element}
    numbers = [texts.get(name, "") for name in ("row", "col")]
    if not all(text.isdecimal() and len(text) < 8 for text in numbers):
        return None
    row, column = map(int, numbers)
    return row + 1, column + 1


def check_surroundings(
    part: XmlPart,
    name: str,
    archive: Archive,
    styles: Styles,
    values: Values,
    remarks: Remarks,
) -> None:
    """Adds what is wrong with the part of a sheet of this name beside its rows, and what is to be
    named. Raises BadWorkbook.
    """
    found = _Surroundings(part, archive, styles, values, remarks)
    for element in part.root:
        match part.name(element.tag):
            case "sheetViews":
                found.check_windows(element)
            case "mergeCells":
                found.check_merged(element)
            case "autoFilter":
                found.check_filter(element, part)
            case "conditionalFormatting":
                found.check_conditions(element)
            case "extLst":
                found.check_extensions(element)
            case "mc:AlternateContent" | "picture" | "oleObjects" | "controls":
                remarks.drawings.append(ALL)
    found.check_links(name)
