"""What a sheet says of its rows and columns: which of them nobody sees, how large they are, and
their styles.
"""
import re
from collections.abc import Iterator
from dataclasses import dataclass, field
from xml.etree.ElementTree import Element

from wdp.office.archives import BadWorkbook, XmlPart
from wdp.office.cells import format_column
from wdp.office.looks import NUMBER, Look, is_on

MOST_CELLS = 256  # of a row
_LOWEST = 6  # points of a row, below which nothing is seen of it
_NARROWEST = 1  # characters of a column, below which nothing is seen of it
_ROOM_BESIDE = 0.71  # of a width: characters that stay empty
_NEARLY = 1e-6
_USUAL_WIDTH = 8 + _ROOM_BESIDE
_HINT = "show what counts, and delete the rest"
IN_COLLAPSED_GROUP = f"its row is in a group, of which one is collapsed; {_HINT}"
_NUMBER_OF_COLUMN = re.compile("[1-9][0-9]{0,4}")


def _parse_size(text: str | None, usual: float | None) -> float | None:
    """A height or a width, the usual one if there is none; 0 if it isn't understood."""
    if text is None:
        return usual
    return float(text) if NUMBER.fullmatch(text) else 0.0


@dataclass(frozen=True)
class RowLook:
    """What is said of a row: the style of its cells that name none, its height, and whether it is
    hidden.
    """

    style: str | None = None
    height: float | None = None
    is_hidden: bool = False


@dataclass
class Layout:
    """The rows and columns of a sheet, as far as they are read; `row` is the last one of them."""

    hidden: dict[int, str] = field(default_factory=dict)
    widths: dict[int, float] = field(default_factory=dict)
    usual_width: float = _USUAL_WIDTH
    usual_height: float | None = None
    # the styles of columns that have one
    styles: dict[int, str] = field(default_factory=dict)
    row: RowLook = RowLook()
    has_collapsed_row: bool = False
    grouped_rows: list[int] = field(default_factory=list)
    _rooms: dict[float, list[int]] = field(default_factory=dict)

    def take_sheet(self, part: XmlPart) -> None:
        """Takes what comes before the rows: sizes of which nothing else is said, and columns."""
        for element in part.root:
            name = part.name(element.tag)
            if name == "sheetFormatPr":
                base = _parse_size(element.get("baseColWidth"), _USUAL_WIDTH - _ROOM_BESIDE) or 0.0
                usual = base + _ROOM_BESIDE
                self.usual_width = _parse_size(element.get("defaultColWidth"), usual) or 0.0
                self.usual_height = _parse_size(element.get("defaultRowHeight"), None)
            elif name == "cols":
                self._take_columns(list(element))

    def _take_columns(self, columns: list[Element]) -> None:
        """Takes what is said of columns."""
        last = 0
        has_collapsed = any(is_on(column.get("collapsed")) for column in columns)
        for column in columns:
            texts = column.get("min", ""), column.get("max", "")
            if not all(_NUMBER_OF_COLUMN.fullmatch(text) for text in texts):
                raise BadWorkbook("its columns aren't understood")
            begin, end = map(int, texts)
            if not last < begin <= end:
                place = f"{format_column(begin)}1"
                raise BadWorkbook("its column isn't in order, or is there twice", place)
            last = end
            width = _parse_size(column.get("width"), self.usual_width)
            reason = ""
            if is_on(column.get("hidden")) or width is not None and width < _NARROWEST:
                reason = f"its column is hidden; {_HINT}"
            elif has_collapsed and column.get("outlineLevel", "0") != "0":
                reason = f"its column is in a group, of which one is collapsed; {_HINT}"
            for number in range(begin, min(end, MOST_CELLS) + 1):
                self.widths[number] = width or 0.0
                if reason:
                    self.hidden[number] = reason
                if style := column.get("style"):
                    self.styles[number] = style

    def take_row(self, row: Element, number: int) -> None:
        """Takes what is said of the next row."""
        height = _parse_size(row.get("ht"), self.usual_height)
        self.row = RowLook(row.get("s"), height, is_hidden=is_on(row.get("hidden")))
        self.has_collapsed_row |= is_on(row.get("collapsed"))
        if row.get("outlineLevel", "0") != "0":
            self.grouped_rows.append(number)

    def list_styles(self, column: int) -> list[str]:
        """The styles that a cell of this row may have if it names none: spreadsheets differ."""
        styles = ["0", self.row.style, self.styles.get(column)]
        return [style for style in styles if style is not None]

    def find_reason(self, column: int, look: Look) -> str:
        """Why a cell of this row isn't seen; nothing if it is."""
        return self.find_reason_of_row(look) or self._find_reason_of_column(column)

    def find_reason_of_row(self, look: Look) -> str:
        """Why no cell of this row with such a look is seen; nothing if they are."""
        height = self.row.height
        if self.row.is_hidden or height is not None and height < _LOWEST:
            return f"its row is hidden; {_HINT}"
        if height is not None and height < look.size:
            return f"its row is lower than its font; {_HINT}"
        return ""

    def _find_reason_of_column(self, column: int) -> str:
        """Why no cell of a column is seen; nothing if they are."""
        if column not in self.widths and self.usual_width < _NARROWEST:
            return f"its column is hidden; {_HINT}"
        return self.hidden.get(column, "")

    def find_room(self, column: int, scale: float) -> int:
        """The least number that has more digits than a column is wide, if a digit is so many times
        as wide as one of the usual font.
        """
        width = self.widths.get(column, self.usual_width) - _ROOM_BESIDE
        room: int = 10 ** int(min(max(width / scale + _NEARLY, 0), 20))
        return room

    def list_rooms(self, scale: float) -> list[int]:
        """Of each column from 0 to the last one of a form, the least number that it doesn't show in
        digits of this scale: 0 if it isn't seen.
        """
        if scale not in self._rooms:
            rooms = [self.find_room(column, scale) for column in range(MOST_CELLS + 1)]
            is_hidden = map(self._find_reason_of_column, range(MOST_CELLS + 1))
            self._rooms[scale] = [
                0 if reason else room for reason, room in zip(is_hidden, rooms, strict=True)
            ]
        return self._rooms[scale]

    def rows_in_collapsed_groups(self) -> Iterator[int]:
        """The rows that are in a group, if one of the groups is collapsed."""
        if self.has_collapsed_row:
            yield from self.grouped_rows
