"""Workbooks, `.xlsx`, read as a spreadsheet shows them.

A cell is taken for a bid's number if nothing in the file may show another one: its format, its font
and its colours, conditions, hidden and merged cells are looked at, and all that isn't known is a
fault with its cell. What differs among the bids and hides nothing is named in the receipt.
"""
import datetime
import gc
import re
from collections import defaultdict
from collections.abc import Collection, Iterator, Mapping, Sequence
from contextlib import contextmanager
from dataclasses import dataclass, field
from functools import lru_cache
from itertools import islice
from xml.etree.ElementTree import Element

from wdp.files import Unreadable
from wdp.office.archives import NO_WORKBOOK, Archive, BadWorkbook, XmlPart, find_part
from wdp.office.cells import (
    LAST_COLUMN,
    LAST_ROW,
    Area,
    Values,
    format_column,
    parse_cell,
)
from wdp.office.faults import quote
from wdp.office.formats import GENERAL, MOST_SHOWN, NumberFormat
from wdp.office.layout import IN_COLLAPSED_GROUP, MOST_CELLS, Layout, RowLook
from wdp.office.looks import INDEX, NUMBER, Font, Look, Palette, Styles, is_on
from wdp.office.remarks import Remarks
from wdp.office.sheet_parts import check_surroundings
from wdp.office.sheets import NOT_STORED, File
from wdp.texts.tables import TableRow

_LONGEST_NAME = 31  # characters of a sheet's name
_MOST_SHEETS = 1_000
_MOST_TEXTS = 100_000  # that cells share
_MOST_PIECES = 10_000  # of texts, with fonts of their own
_MOST_SHEETS_NAMED = 9  # in a message
_MOST_OF_A_TITLE = 20  # rows of another sheet, of which one may be the first row of a form

_ROW = re.compile("[1-9][0-9]{0,6}")
_BLANK = " \t\r\n"
_TRUTHS = {"1": "TRUE", "0": "FALSE", "true": "TRUE", "false": "FALSE"}
_ERROR = re.compile(r"#[A-Z0-9/_]+[!?]?")
_DATE = re.compile("[0-9]{4}-[0-9]{2}-[0-9]{2}(?:T[0-9:.]+Z?)?")
_TEXTS = ("s", "str", "inlineStr")
_TEXT = "text"  # what kind of fault a number is that is written as a text
_LONGEST_USUAL = 15  # digits of a number
_LONGEST_NUMBER = 68  # characters of one with a fraction
_MOST_VALUES = 150_000  # cells, more than a form has
_MOST_ODD = 10_000  # cells that no form may have, after which the rest isn't read
_MOST_SPILLED = 4_100  # formulas with values in other cells, more than a form has rows
_SPILLED = ("array", "dataTable")
_Style = str | int  # which a cell names, or else the column that it is in
_EPOCHS = {False: datetime.datetime(1899, 12, 30), True: datetime.datetime(1904, 1, 1)}


@dataclass(frozen=True)
class _Sheet:
    """A sheet of cells: its name, its part of the archive, and whether it is hidden."""

    name: str
    part: str
    is_hidden: bool


@dataclass(frozen=True)
class _Text:
    """A text of a cell, and the fonts of those of its pieces that have their own."""

    value: str
    fonts: Sequence[Font] = ()


class _Workbook:
    """A workbook: its sheets of cells, its texts, and its styles."""

    def __init__(self, data: bytes) -> None:
        self.archive = Archive(data)
        name = find_part(self.archive.links(""), "officeDocument")
        if name is None:
            raise BadWorkbook(f"{NO_WORKBOOK}: nothing says which part it is")
        self.links = self.archive.links(name)
        self.is_of_1904 = False
        self.sheets: list[_Sheet] = []
        self.count = 0  # of all sheets, those of other kinds, too
        self._taken: set[str] = set()
        part = self.archive.parse(name)
        root = part.read()
        part.check(root)
        for element in root:
            if part.name(element.tag) == "workbookPr":
                self.is_of_1904 = is_on(element.get("date1904"))
            if part.name(element.tag) == "sheets":
                if len(element) > _MOST_SHEETS:
                    raise BadWorkbook(f"it has more than {_MOST_SHEETS:,} sheets")
                for sheet in element:
                    self._add_sheet({part.attribute(key): value for key, value in sheet.items()})
        self.styles = self._read_styles()
        self.pieces = 0
        self.texts = self._read_texts()

    def _add_sheet(self, attributes: Mapping[str, str]) -> None:
        """Adds what the workbook says of a sheet, if that is one of cells."""
        link = self.links.get(attributes.get("r:id", ""))
        name = attributes.get("name", "")
        if len(name) > _LONGEST_NAME:
            raise BadWorkbook(f"a sheet has a name of more than {_LONGEST_NAME} characters")
        if f"name {name.lower()}" in self._taken:
            raise BadWorkbook(f"two of its sheets are called {quote(name)}")
        if link is None:
            raise BadWorkbook(f"{NO_WORKBOOK}: its sheet {quote(name)} isn't there")
        if f"part {link.part.lower()}" in self._taken:
            raise BadWorkbook(f"its sheet {quote(name)} is another one, too")
        self._taken |= {f"name {name.lower()}", f"part {link.part.lower()}"}
        self.count += 1
        if link.kind == "worksheet":
            is_hidden = attributes.get("state", "visible") != "visible"
            self.sheets.append(_Sheet(name, link.part, is_hidden=is_hidden))

    def read_text(self, element: Element, part: XmlPart) -> _Text:
        """The text of a cell, without what only says how it is pronounced."""
        names = {part.name(each.tag) for each in element}
        if {"t", "r"} <= names:
            raise BadWorkbook("a text of its cells has pieces, and a text beside them")
        values = []
        fonts = []
        for each in element:
            match part.name(each.tag):
                case "t":
                    values.append(each.text or "")
                case "r":
                    values += (piece.text or "" for piece in each if part.name(piece.tag) == "t")
                    fonts += [piece for piece in each if part.name(piece.tag) == "rPr"]
        self.pieces += len(fonts)
        if self.pieces > _MOST_PIECES:
            raise BadWorkbook(f"its texts have more than {_MOST_PIECES:,} fonts of their own")
        return _Text("".join(values), [self.styles.read_font(font, part) for font in fonts])

    def _read_texts(self) -> list[_Text]:
        """The texts that cells name by their numbers."""
        name = find_part(self.links, "sharedStrings")
        if name is None:
            return []
        part = self.archive.parse(name)
        texts = []
        for text in part.iterate(None, "si"):
            part.check(text)
            texts.append(self.read_text(text, part))
            if len(texts) > _MOST_TEXTS:
                raise BadWorkbook(f"it has more than {_MOST_TEXTS:,} texts")
        part.check(part.root)
        return texts

    def _read_styles(self) -> Styles:
        """The styles of cells, with the colours of the theme."""
        palette = Palette()
        theme = find_part(self.links, "theme")
        if theme is not None:
            part = self.archive.parse(theme)
            palette.take_theme(part.read(), part)
        name = find_part(self.links, "styles")
        return Styles(self.archive.parse(name) if name is not None else None, palette)


@dataclass(frozen=True, slots=True)
class _Usual:
    """How cells look that are alike, and the numbers that they are known to show as they are."""

    look: Look
    least: int = 0
    beyond: int = 0
    rooms: Sequence[int] = ()


@dataclass(slots=True)
class _Cell:
    """A cell as it is read: where it is, the kind of its value, its style, and what is in it."""

    column: int
    place: str
    kind: str
    style: str | None
    value: str | None = None
    is_formula: bool = False
    fonts: Sequence[Font] = ()  # of the pieces of its text

    def take_value(self, text: str, *, is_inline: bool) -> None:
        """Takes the value."""
        if self.value is not None or is_inline != (self.kind == "inlineStr"):
            raise BadWorkbook("its value isn't understood, or it has two", self.place)
        if text.strip(_BLANK) or self.kind in _TEXTS and text:
            self.value = text
        if self.value is not None and self.column > MOST_CELLS:
            why = f"it is beyond the first {MOST_CELLS:,} cells of its row"
            raise BadWorkbook(why, self.place)


@dataclass(frozen=True)
class _Places(Sequence[str]):
    """The places of the cells of a row, which are made when they are asked for."""

    title: str
    row: int
    width: int

    def __len__(self) -> int:
        return self.width

    def __getitem__(self, index: int) -> str:  # type: ignore[override]
        if not -self.width <= index < self.width:
            raise IndexError
        return f"{self.title}!{format_column(index % self.width + 1)}{self.row}"


@dataclass
class _SheetReader:
    """Reads the cells of one sheet. What is wrong with a cell is a fault of `file`. Of a sheet whose
    `rows_alone` are read nothing is said but what its cells have.
    """

    book: _Workbook
    sheet: _Sheet
    file: File
    rows_alone: bool = False
    layout: Layout = field(default_factory=Layout)
    remarks: Remarks = field(default_factory=Remarks)
    values: Values = field(default_factory=Values)
    # the cells that have values of a formula of another cell
    spilled: list[Area] = field(default_factory=list)
    row: int = 0
    column: int = 0
    # how many cells have a value, and how many of them no form may have
    count: int = 0
    odd: int = 0
    # what is known of cells by how their row is, their column and the style that they name
    usual: defaultdict[RowLook, dict[_Style, _Usual]] = field(
        default_factory=lambda: defaultdict(dict)
    )

    def rows(self) -> Iterator[TableRow]:
        """The rows that have a value."""
        self.part = self.book.archive.parse(self.sheet.part)
        last = 0
        for row in self.part.iterate("sheetData", "row"):
            if not self.row:
                self.layout.take_sheet(self.part)
                tags = map(self.part.tag, ("c", "v", "f"))
                self.cell_tag, self.value_tag, self.formula_tag = tags
            self._begin_row(row)
            values = self._read_row(row)
            if values:
                self.file.empty += self.row - last - 1
                last = self.row
                places = _Places(self.sheet.name, self.row, len(values))
                yield TableRow(values, self.row, places)
            if self.odd > _MOST_ODD:
                self.file.is_cut = True
                return
        if self.part.name(self.part.root.tag) != "worksheet":
            raise BadWorkbook(f"the sheet {quote(self.sheet.name)} is no sheet of cells")
        if not any(self.part.name(each.tag) == "sheetData" for each in self.part.root):
            raise BadWorkbook("it has no rows")
        if not self.rows_alone:
            self._finish()
            self.part.check(self.part.root)

    def add_faults(self) -> None:
        """Adds what is wrong with cells, and that rows aren't read if too much is."""
        self.remarks.add_to(self.file, self.sheet.name, self.values)
        if self.odd > _MOST_ODD:
            why = f"its row isn't read, since more than {_MOST_ODD:,} cells above can't be taken"
            self.file.add_fault(f"{self.sheet.name}!A{self.row + 1}", why, is_least=True)

    def _finish(self) -> None:
        """Looks at what may change how the cells are shown that were read."""
        self.remarks.spilled = self.values.list_within(self.spilled)
        for cell in self.values.list_rows(set(self.layout.rows_in_collapsed_groups())):
            self.remarks.add_fault(cell, IN_COLLAPSED_GROUP)
        check_surroundings(
            self.part,
            self.sheet.part,
            self.book.archive,
            self.book.styles,
            self.values,
            self.remarks,
        )

    def _begin_row(self, row: Element) -> None:
        """Takes the number of a row, and whether it is shown."""
        number = row.get("r", str(self.row + 1))
        if not _ROW.fullmatch(number) or int(number) > LAST_ROW:
            why = f"a row has the number {quote(number)}, and a sheet has {LAST_ROW:,} rows"
            raise BadWorkbook(why, f"A{self.row + 1}")
        if int(number) == self.row:
            raise BadWorkbook("its row is there twice", f"A{number}")
        if int(number) < self.row:
            why = f"its row comes after row {self.row}, and rows have to be in order"
            raise BadWorkbook(why, f"A{number}")
        self.row = int(number)
        self.column = 0
        self.part.check_attributes(row, f"A{number}")
        self.layout.take_row(row, self.row)

    def _read_row(self, row: Element) -> list[str]:
        """The values of a row up to its last one."""
        values: list[str] = []
        usual = self.usual[self.layout.row]
        number = str(self.row)
        for element in row:
            value = self._read_usual(element, usual, number)
            if value is None:
                value = self._read_cell(element)
            if value is None:
                continue
            gap = self.column - 1 - len(values)
            if gap:
                # (a bid has no empty field, though a row may have none after its last one)
                self.odd += gap
                values += [""] * gap
            values.append(value)
        if values:
            self.values.first_row = self.values.first_row or self.row
            self.count += len(values) - values.count("")
            if self.count > _MOST_VALUES:
                raise BadWorkbook(f"it has more than {_MOST_VALUES:,} cells with a value")
        return values

    def _read_usual(self, element: Element, usual: dict[_Style, _Usual], row: str) -> str | None:
        """The number of the next cell of the row, if it has nothing else that is to be looked at."""
        column = self.column + 1
        place = format_column(column) + row
        if not self._is_usual(element, place) or column > MOST_CELLS:
            return None
        style = element.get("s")
        key: _Style = column if style is None else style
        known = usual.get(key)
        if known is None:
            known = usual[key] = self._judge_usual(column, style)
        text = element[-1].text or ""
        number, digits = _parse_whole(text) if len(text) <= _LONGEST_NUMBER else (-1, "")
        if not known.least <= number < known.beyond:
            return None
        room = known.rooms[column]
        if not room:
            return None
        if number >= room:
            self.remarks.narrow.append(place)
        if len(element) == 2:
            self.remarks.formulas.append(place)
        self.column = column
        self.values.columns[column].add(self.row, known.look)
        return digits

    def _is_usual(self, element: Element, place: str) -> bool:
        """Whether a cell has a value, and perhaps a formula that has no values in other cells, and
        nothing of it has to be looked at.
        """
        attributes = element.attrib
        if element.tag != self.cell_tag or attributes.get("r", place) != place:
            return False
        count = len(element)
        if count != 1 and not self._has_plain_formula(element, place):
            return False
        others = len(attributes) - ("r" in attributes) - ("s" in attributes)
        if others and (attributes.get("t", "n") != "n" or not self.part.knows(element)):
            return False
        value = element[-1]
        if value.tag != self.value_tag or len(value):
            return False
        return not value.keys() or self.part.knows(value)

    def _has_plain_formula(self, element: Element, place: str) -> bool:
        """Whether a cell has a formula that has no values in other cells, and one element more."""
        if len(element) != 2:
            return False
        formula = element[0]
        spills = formula.get("t") in _SPILLED and formula.get("ref") != place
        is_plain = formula.tag == self.formula_tag and not len(formula)
        return is_plain and not spills and self.part.knows(formula)

    def _judge_usual(self, column: int, style: str | None) -> _Usual:
        """What is known of the cells of a column that name this style."""
        styles = [style] if style is not None else self.layout.list_styles(column)
        looks = [look for look in map(self.book.styles.find, styles) if look]
        if len(looks) < len(styles) or self.layout.find_reason_of_row(looks[0]):
            return _Usual(Look(NumberFormat(GENERAL)))
        ranges = [look.shown for look in looks]
        least = max(each.start for each in ranges)
        rooms = self.layout.list_rooms(self._find_scale(looks[0]))
        return _Usual(looks[0], least, min(each.stop for each in ranges), rooms)

    def _find_scale(self, look: Look) -> float:
        """How many times as wide as the digits of the usual font those of a look are."""
        return look.size / self.book.styles.usual_size

    def _read_cell(self, element: Element) -> str | None:
        """The value of a cell of the row, or None if it has nothing."""
        cell = self._parse_cell(element)
        if cell is None:
            return None
        value, number = self._parse_value(cell)
        look = self._find_look(cell, number)
        if number is not None and look.number_format.is_date:
            value = _format_date(number, is_of_1904=self.book.is_of_1904) or value
        if not self.rows_alone:
            self._check_cell(cell, value, number if value.isdecimal() else None, look)
        return value

    def _parse_cell(self, element: Element) -> _Cell | None:
        """A cell of the row, or None if it has nothing."""
        following = f"{format_column(self.column + 1)}{self.row}"
        name = element.get("r", following)
        if self.part.name(element.tag) != "c":
            self.part.refuse(element, "row", f"A{self.row}")
            return None
        self.column = self.column + 1 if name == following else self._parse_place(name)
        if not len(element) and self.part.knows(element):
            return None
        cell = _Cell(self.column, name, kind=element.get("t", "n"), style=element.get("s"))
        self.part.check(element, name)
        for each in element:
            match self.part.name(each.tag):
                case "f":
                    cell.is_formula = True
                    self._take_range(each, name)
                case "v":
                    cell.take_value(each.text or "", is_inline=False)
                case "is":
                    text = self.book.read_text(each, self.part)
                    cell.take_value(text.value, is_inline=True)
                    cell.fonts = text.fonts
        return cell if cell.value is not None or cell.is_formula else None

    def _parse_place(self, name: str) -> int:
        """The column of a cell of this row that comes after the others."""
        place = parse_cell(name)
        if place is None or place[0] != self.row or place[1] > LAST_COLUMN:
            why = f"in this row there is {quote(name)}, which is no cell of it"
            raise BadWorkbook(why, f"A{self.row}")
        if place[1] == self.column:
            raise BadWorkbook("it is there twice", name)
        if place[1] < self.column:
            before = f"{format_column(self.column)}{self.row}"
            raise BadWorkbook(f"it comes after {before}, and cells have to be in order", name)
        return place[1]

    def _take_range(self, formula: Element, place: str) -> None:
        """Takes the cells that have values of a formula."""
        if formula.get("t") not in _SPILLED or formula.get("ref") in (None, place):
            return
        area = Area.parse(formula.get("ref", ""))
        if area is None:
            raise BadWorkbook("the cells of its formula aren't understood", place)
        self.spilled.append(area)
        if len(self.spilled) > _MOST_SPILLED:
            raise BadWorkbook(
                f"it has more than {_MOST_SPILLED:,} formulas of several cells", place
            )

    def _check_cell(self, cell: _Cell, value: str, number: float | None, look: Look) -> None:
        """Adds what is wrong with a cell, which has a text or a whole number."""
        if cell.is_formula:
            self.remarks.formulas.append(cell.place)
            if cell.value is None:
                self.odd += 1
                self.remarks.add_fault(cell.place, NOT_STORED)
                self.file.blank.add(f"{self.file.path}:{self.sheet.name}!{cell.place}")
        is_head = self.values.first_row in (0, self.row)
        if not is_head and cell.kind in _TEXTS and value.strip().isdecimal():
            why = f"{quote(value)} is a text; turn it into a number"
            self.remarks.add_fault(cell.place, why, kind=_TEXT)
        reason = self.layout.find_reason(cell.column, look) or look.find_reason(number)
        reason = reason or next(
            filter(None, (font.find_reason(look.fills) for font in cell.fonts)), ""
        )
        if reason:
            self.remarks.add_fault(cell.place, reason)
        is_number = number is not None and cell.kind not in _TEXTS
        self.odd += bool(reason) or not is_head and not is_number and value != ""
        room = self.layout.find_room(cell.column, self._find_scale(look))
        if number is not None and number >= room:
            self.remarks.narrow.append(cell.place)
        self.values.columns[cell.column].add(self.row, look)

    def _parse_value(self, cell: _Cell) -> tuple[str, float | None]:
        """A cell's value as a field, and its number if it has one; what is no whole number stays
        what it is, for the program to refuse.
        """
        value = cell.value or ""
        match cell.kind:
            case "n" if not value or not NUMBER.fullmatch(value):
                if not value.strip(_BLANK).isdecimal():
                    return value, None
            case "n":
                number = float(value)
                is_exact = number.is_integer() and abs(number) < 2**53
                return str(int(number)) if is_exact else str(number), number
            case "s" if INDEX.fullmatch(value) and int(value) < len(self.book.texts):
                text = self.book.texts[int(value)]
                cell.fonts = text.fonts
                return text.value, None
            case "b" if value in _TRUTHS:
                return _TRUTHS[value], None
            case "e" if _ERROR.fullmatch(value):
                return value, None
            case "d" if _DATE.fullmatch(value):
                return value, None
            case "str" | "inlineStr":
                return value, None
        if cell.value is None:
            return "", None
        raise BadWorkbook(f"its value {quote(value)} isn't understood", cell.place)

    def _find_look(self, cell: _Cell, number: float | None) -> Look:
        """The look that a cell has; if it names no style, one that isn't known to show its value,
        if it may have such a one.
        """
        styles = [cell.style] if cell.style is not None else self.layout.list_styles(cell.column)
        looks: list[Look] = []
        for style in styles:
            look = self.book.styles.find(style)
            if look is None:
                raise BadWorkbook(f"its style {quote(style)} isn't there", cell.place)
            looks.append(look)
        if len(looks) == 1:
            return looks[0]
        return next((look for look in looks if look.find_reason(number)), looks[0])


@lru_cache(maxsize=4_096)
def _parse_whole(text: str) -> tuple[int, str]:
    """A whole number, which isn't below 0, as a cell has it, and its digits; -1 if it isn't one."""
    number: float = -1
    if len(text) <= _LONGEST_USUAL and text.isdigit() and text.isascii():
        number = int(text)
    elif NUMBER.fullmatch(text):
        number = float(text)
    is_whole = 0 <= number < MOST_SHOWN and number == int(number)
    return (int(number), str(int(number))) if is_whole else (-1, "")


def _format_date(number: float, *, is_of_1904: bool) -> str:
    """A date as it is written by a text; nothing if there is no such date."""
    try:
        date = _EPOCHS[is_of_1904] + datetime.timedelta(days=number)
    except OverflowError:
        return ""
    return str(date.date() if date.time() == datetime.time() else date)


@contextmanager
def _name_sheet(path: str, sheet: _Sheet) -> Iterator[None]:
    """Within this a fault is one of this sheet, or of a cell of it."""
    try:
        yield
    except BadWorkbook as bad:
        cell = f"!{bad.cell}" if bad.cell else ""
        raise Unreadable(f"{path}:{sheet.name}{cell}", bad.why) from None


def _begins_as_form(book: _Workbook, sheet: _Sheet, path: str, heads: Collection[str]) -> bool:
    """Whether one of the first rows of a sheet begins with one of these words."""
    reader = _SheetReader(book, sheet, File("", b""), rows_alone=True)
    with _name_sheet(path, sheet):
        rows = islice(reader.rows(), _MOST_OF_A_TITLE)
        first_values = (next(filter(None, row.values), "") for row in rows)
        return any(value.strip().lower() in heads for value in first_values)


def _choose_sheet(book: _Workbook, name: str | None, path: str, heads: Collection[str]) -> _Sheet:
    """The sheet of this name, or the first one of the workbook at a path.

    No other may then be hidden, or begin with one of these heads, in any case.
    """
    if name is not None:
        return _find_sheet(book.sheets, name)
    if not book.sheets:
        raise BadWorkbook("it has no sheet of cells")
    hint = "say --sheet NAME for the one that counts"
    for sheet in book.sheets:
        if sheet.is_hidden:
            raise BadWorkbook(f"its sheet {quote(sheet.name)} is hidden; delete it, or {hint}")
    known = {head.lower() for head in heads}
    for sheet in book.sheets[1:]:
        if _begins_as_form(book, sheet, path, known):
            raise BadWorkbook(f"its sheet {quote(sheet.name)} begins as a form does, too; {hint}")
    return book.sheets[0]


def _find_sheet(sheets: Sequence[_Sheet], name: str) -> _Sheet:
    """The sheet of a name."""
    for sheet in sheets:
        if sheet.name == name and sheet.is_hidden:
            raise BadWorkbook(f"its sheet {quote(name)} is hidden; show it if it counts")
        if sheet.name == name:
            return sheet
    names = ", ".join(quote(sheet.name) for sheet in sheets[:_MOST_SHEETS_NAMED])
    raise BadWorkbook(f"it has no sheet {quote(name)}, but {names}")


@contextmanager
def _pause_collector() -> Iterator[None]:
    """Within this nothing looks for cycles of objects. The elements of a sheet are in none, and are
    so many that a third of the time would go into looking at them.
    """
    was_enabled = gc.isenabled()
    gc.disable()
    try:
        yield
    finally:
        if was_enabled:
            gc.enable()


def _fill_from_sheet(file: File, most: int, name: str | None, heads: Collection[str]) -> None:
    """Fills a file with the rows of a sheet, at most so many."""
    book = _Workbook(file.data)
    sheet = _choose_sheet(book, name, file.path, heads)
    reader = _SheetReader(book, sheet, file)
    others = f", of {book.count} sheets" if book.count > 1 else ""
    file.changes.append(f"read from sheet {sheet.name}{others}")
    with _name_sheet(file.path, sheet):
        file.fill(reader.rows(), most)
    reader.add_faults()


def read_workbook(
    path: str,
    data: bytes,
    most: int,
    *,
    sheet: str | None = None,
    heads: Collection[str] = (),
) -> File:
    """The rows of a workbook's sheet, as of a file of CSV: of the one of this name, or of the
    first. Raises Unreadable.

    At most so many rows are read. `heads` are how the first sheet begins, and no other sheet may.
    """
    file = File(path, data)
    try:
        with _pause_collector():
            _fill_from_sheet(file, most, name=sheet, heads=heads)
    except BadWorkbook as bad:
        raise Unreadable(path, bad.why) from None
    return file
