"""Cells and areas of a sheet by their names, and the cells of a sheet that have a value."""
import re
from bisect import bisect_left, bisect_right
from collections import Counter, defaultdict
from collections.abc import Collection, Iterable, Iterator, Sequence
from dataclasses import dataclass, field
from functools import cache, cached_property
from operator import attrgetter

from wdp.office.looks import Colour, Look

LAST_ROW = 1_048_576  # of any sheet
LAST_COLUMN = 16_384
MOST_NAMED = 20  # cells in a line of the receipt
_CELL = re.compile("([A-Z]{1,3})([1-9][0-9]{0,6})")
_COLUMNS = re.compile("([A-Z]{1,3}):([A-Z]{1,3})")
_ROWS = re.compile("([1-9][0-9]{0,6}):([1-9][0-9]{0,6})")


@cache
def format_column(column: int) -> str:
    """A column's letters.

    >>> [format_column(column) for column in (1, 26, 27, 16384)]
    ['A', 'Z', 'AA', 'XFD']
    """
    letters = ""
    while column:
        column, digit = divmod(column - 1, 26)
        letters = chr(ord("A") + digit) + letters
    return letters


@cache
def parse_column(letters: str) -> int:
    """A column by its letters, from 1."""
    column = 0
    for letter in letters:
        column = 26 * column + ord(letter) - ord("A") + 1
    return column


def parse_cell(name: str) -> tuple[int, int] | None:
    """The row and the column of a cell; None if it isn't written as one."""
    match = _CELL.fullmatch(name)
    return (int(match[2]), parse_column(match[1])) if match else None


@dataclass(frozen=True)
class Area:
    """A rectangle of cells, from 1."""

    top: int
    left: int
    bottom: int
    right: int

    @classmethod
    def parse(cls, text: str) -> "Area | None":
        """An area as `A1:C4`, `A1`, `A:C` or `1:4`, whose corners are in order; None if it isn't
        one.
        """
        if match := _COLUMNS.fullmatch(text):
            area = cls(1, parse_column(match[1]), LAST_ROW, parse_column(match[2]))
        elif match := _ROWS.fullmatch(text):
            area = cls(int(match[1]), 1, int(match[2]), LAST_COLUMN)
        else:
            first, colon, last = text.partition(":")
            one = parse_cell(first)
            other = parse_cell(last) if colon else one
            if one is None or other is None:
                return None
            area = cls(*one, *other)
        is_right = area.top <= area.bottom <= LAST_ROW and area.left <= area.right <= LAST_COLUMN
        return area if is_right else None


ALL = Area(1, 1, LAST_ROW, LAST_COLUMN)


@dataclass
class Column:
    """The cells of a column that have a value: their rows, and their looks."""

    rows: list[int] = field(default_factory=list)
    looks: list[Look] = field(default_factory=list)

    def add(self, row: int, look: Look) -> None:
        """Adds a cell, which is below all others."""
        self.rows.append(row)
        self.looks.append(look)


@dataclass
class Values:
    """The cells of a sheet that have a value, by their columns; those of the first row are the heads
    of the others.
    """

    columns: defaultdict[int, Column] = field(default_factory=lambda: defaultdict(Column))
    first_row: int = 0
    # the rows of the cells whose fonts have some colours, by their columns
    _of_fonts: dict[frozenset[Colour], dict[int, list[int]]] = field(default_factory=dict)

    def _find(self, area: Area) -> Iterator[tuple[int, Column, range]]:
        """The columns of an area that have a value there, with the places of the values."""
        for column, cells in self.columns.items():
            if area.left <= column <= area.right:
                begin = bisect_left(cells.rows, area.top)
                end = bisect_right(cells.rows, area.bottom)
                if begin < end:
                    yield column, cells, range(begin, end)

    def list_within(self, areas: Sequence[Area]) -> list[str]:
        """The cells of some areas that have a value, column by column."""
        names = []
        for column, cells in self.columns.items():
            of_column = [area for area in areas if area.left <= column <= area.right]
            letters = format_column(column)
            last = 0
            for area in sorted(of_column, key=attrgetter("top")):
                begin = max(last, bisect_left(cells.rows, area.top))
                end = bisect_right(cells.rows, area.bottom)
                names += [f"{letters}{row}" for row in cells.rows[begin:end]]
                last = max(last, end)
        return names

    def list_rows(self, rows: Collection[int]) -> list[str]:
        """The cells of some rows that have a value, column by column."""
        names = []
        for column, cells in self.columns.items() if rows else ():
            letters = format_column(column)
            names += [f"{letters}{row}" for row in cells.rows if row in rows]
        return names

    def find_first(self, area: Area, *, after: tuple[int, int] = (0, 0)) -> str:
        """The first cell of an area that has a value, but one; nothing if there is none."""
        found = []
        for column, cells, places in self._find(area):
            rows = (cells.rows[place] for place in places if (cells.rows[place], column) != after)
            row = next(rows, None)
            if row is not None:
                found.append((row, column))
        return f"{format_column(min(found)[1])}{min(found)[0]}" if found else ""

    def list_present(self, names: Iterable[str]) -> list[str]:
        """Those of these cells that have a value."""
        present = []
        for name in dict.fromkeys(names):
            row, column = parse_cell(name) or (0, 0)
            rows = self.columns[column].rows if column in self.columns else []
            place = bisect_left(rows, row)
            if rows[place : place + 1] == [row]:
                present.append(name)
        return present

    @cached_property
    def fonts(self) -> set[Colour]:
        """The colours of the fonts of all cells, once these are read."""
        return {look.font for cells in self.columns.values() for look in set(cells.looks)}

    def find_font(self, area: Area, fonts: frozenset[Colour]) -> tuple[str, Colour] | None:
        """The first cell of an area whose font has one of these colours, and which of them."""
        for column, rows in self._find_rows(fonts).items():
            place = bisect_left(rows, area.top)
            is_within = area.left <= column <= area.right
            if is_within and place < len(rows) and rows[place] <= area.bottom:
                cells = self.columns[column]
                look = cells.looks[bisect_left(cells.rows, rows[place])]
                return f"{format_column(column)}{rows[place]}", look.font
        return None

    def _find_rows(self, fonts: frozenset[Colour]) -> dict[int, list[int]]:
        """The rows of the cells whose fonts have these colours, by their columns."""
        if fonts not in self._of_fonts:
            found = {}
            for column, cells in self.columns.items() if fonts else ():
                looks = zip(cells.rows, cells.looks, strict=True)
                found[column] = [row for row, look in looks if look.font in fonts]
            self._of_fonts[fonts] = found
        return self._of_fonts[fonts]

    @property
    def scans(self) -> int:
        """How often all cells were looked at for the colours of their fonts."""
        return len(self._of_fonts)

    def list_different(self) -> list[str]:
        """The bids' cells that look in another way than most of their column; those that are named
        with how they do.
        """
        found: list[str] = []
        for column, cells in self.columns.items():
            begin = int(cells.rows[:1] == [self.first_row])
            looks = cells.looks[begin:]
            count: Counter[frozenset[str]] = Counter()
            for look, times in Counter(looks).items():
                count[look.traits] += times
            usual = count.most_common(1)[0][0] if count else frozenset()
            others = {look for look in set(looks) if look.traits != usual}
            if others:
                rows = zip(cells.rows[begin:], looks, strict=True)
                letters = format_column(column)
                places = [(f"{letters}{row}", look) for row, look in rows if look in others]
                named = max(0, MOST_NAMED - len(found))
                for name, look in places[:named]:
                    found.append(f"{name} ({', '.join(sorted(look.traits)) or 'plain'})")
                found += [name for name, _ in places[named:]]
        return found
