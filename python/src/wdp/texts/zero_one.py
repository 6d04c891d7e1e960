"""0-1 programs, read from texts in free MPS that `wdp check` accepts or `wdp` wrote, and their
solutions.

Of a program nothing is judged. A solution has a line NAME VALUE for each column, and comments;
other columns are 0.
"""
import io
import operator
import re
from collections.abc import Iterable, Iterator, Set
from contextlib import suppress
from dataclasses import dataclass, field
from fractions import Fraction
from functools import cached_property

from wdp.texts.refusals import Refused, Unclear, shorten
from wdp.texts.tables import split_lines

AT_MOST = "L"
AT_LEAST = "G"
EQUAL = "E"
_MEETS = {AT_MOST: operator.le, AT_LEAST: operator.ge, EQUAL: operator.eq}
# places of rows without a right side
_OBJECTIVE = -1
_DROPPED = -2
_NEAR = Fraction(1, 100000)
_LONGEST_FIELD = 40  # characters of a field that a message shows
FIELD = re.compile(r"[^ \t]+")  # the longest run of characters that are neither space nor tab
# a number: digits with an optional sign, point, and exponent that isn't far from 0
_NUMBER = re.compile(r"[+-]?(?=\.?[0-9])[0-9]{0,30}\.?[0-9]{0,30}(?:[eE][+-]?0?[0-9]{1,2})?")


@dataclass
class Row:
    """A row: its name, its kind, as AT_MOST, and its right side."""

    name: str
    kind: str
    right_side: int = 0

    def is_met_by(self, total: int) -> bool:
        """Whether the row holds if its left side comes to this."""
        return bool(_MEETS[self.kind](total, self.right_side))


@dataclass(slots=True)
class Column:
    """A column: its name, its cost, the places of its rows, each with its coefficient, and its
    bounds, 0 or 1.
    """

    name: str
    cost: int = 0
    entries: list[tuple[int, int]] = field(default_factory=list)
    lower: int = 0
    upper: int = 1

    @property
    def is_fixed(self) -> bool:
        return self.lower == self.upper


class ZeroOne:
    """A 0-1 program whose objective is minimised: rows and columns in the order of the text."""

    def __init__(self, rows: list[Row], columns: list[Column]) -> None:
        self.rows = rows
        self.columns = columns

    @cached_property
    def column_places(self) -> dict[str, int]:
        return {column.name: place for place, column in enumerate(self.columns)}

    def compute_objective(self, ones: Iterable[int]) -> int:
        """The objective if the columns at these places are 1 and all others are 0."""
        return sum(self.columns[place].cost for place in ones)

    def find_fault(self, ones: Set[int]) -> str | None:
        """The first bound or row that these columns at 1 break, or None."""
        for place, column in enumerate(self.columns):
            if not column.lower <= (place in ones) <= column.upper:
                return f"the bound of column {column.name} is broken"
        totals = [0] * len(self.rows)
        for place in ones:
            for row_place, coefficient in self.columns[place].entries:
                totals[row_place] += coefficient
        for row, total in zip(self.rows, totals, strict=True):
            if not row.is_met_by(total):
                return f"the row {row.name} is broken"
        return None


def read_program(text: bytes) -> ZeroOne:
    """The program of a text, as docs/REFERENCE.md has it under 'Read programs'.

    Unclear if the text is cut off.
    """
    with suppress(KeyError, ValueError):
        return FastReader(text).read()
    reader = _MpsReader()
    section = ""
    with suppress(KeyError, ValueError):
        for line in split_lines(text.decode("latin-1")):
            fields = line.split()
            if not fields or line.startswith("*"):
                continue
            if line[0] in " \t":
                reader.take(section, fields)
                continue
            section = fields[0]
            if section == "ENDATA":
                return ZeroOne(reader.rows, list(reader.columns.values()))
    raise Unclear("the program's text isn't one that wdp accepts")


@dataclass
class _MpsReader:
    """What the lines say so far."""

    rows: list[Row] = field(default_factory=list)
    row_places: dict[str, int] = field(default_factory=dict)
    columns: dict[str, Column] = field(default_factory=dict)

    def take(self, section: str, fields: list[str]) -> None:
        """Takes the fields of a line of a section."""
        match section, fields:
            case "ROWS", ["N", name]:
                is_first = _OBJECTIVE not in self.row_places.values()
                self.row_places[name] = _OBJECTIVE if is_first else _DROPPED
            case "ROWS", [kind, name]:
                self.row_places[name] = len(self.rows)
                self.rows.append(Row(name, kind))
            case "COLUMNS", [_, "'MARKER'", *_]:
                pass
            case "COLUMNS", [name, *entries]:
                column = self.columns.get(name) or self.columns.setdefault(name, Column(name))
                for row, number in self.read_numbers(entries):
                    if row == _OBJECTIVE:
                        column.cost = number
                    elif row >= 0 and number:
                        column.entries.append((row, number))
            case "RHS", _:  # an odd number of fields begins with the name of a set
                for row, number in self.read_numbers(fields[len(fields) % 2 :]):
                    if row >= 0:
                        self.rows[row].right_side = number
            case "BOUNDS", ["BV", name] | ["BV", _, name, *_]:
                self.columns[name].lower = 0
                self.columns[name].upper = 1
            case "BOUNDS", [kind, *_, name, number]:
                if kind != "UP":
                    self.columns[name].lower = _parse_whole(number)
                if kind != "LO":
                    self.columns[name].upper = _parse_whole(number)

    def read_numbers(self, fields: list[str]) -> Iterator[tuple[int, int]]:
        """The places of the rows that fields name, each with the number that follows."""
        for name, number in zip(fields[::2], fields[1::2], strict=True):
            yield self.row_places[name], _parse_whole(number)


# a text as `wdp` writes it: each line of a section has as many fields as the others
_ROWS = re.compile(
    rb"NAME wdp\nROWS\n N OBJ\n((?: [LGE] [!-~]++\n)*+)COLUMNS\n M1 'MARKER' 'INTORG'\n"
)
_COLUMN = re.compile(rb" ([!-~]++) OBJ (-?[0-9]++)\n((?: \1 [!-~]++ [!-~]++\n)*+)")
_RIGHT_SIDES = re.compile(rb" M2 'MARKER' 'INTEND'\nRHS\n((?: RHS [!-~]++ [!-~]++\n)*+)BOUNDS\n")
_BOUND = re.compile(rb" (UP|FX) BND ([!-~]++) ([01])\n")


class FastReader:
    """Reads a text as `wdp` writes it, a column at a time.

    ValueError or KeyError if it is another one.

    Entries that are alike, as ` C3 2` of two columns, are one object.
    """

    def __init__(self, text: bytes) -> None:
        self.text = text
        self.position = 0
        self.rows: list[Row] = []
        self.row_places: dict[bytes, int] = {}
        self.entries: dict[tuple[bytes, bytes], tuple[int, int]] = {}

    def read(self) -> ZeroOne:
        """The program of the text."""
        self._read_rows()
        columns = list(self._read_columns())
        self._read_right_sides()
        self._read_bounds(columns)
        return ZeroOne(self.rows, columns)

    def _match(self, pattern: re.Pattern[bytes]) -> re.Match[bytes] | None:
        """What matches a pattern next, after which the reading goes on; None if that is something
        else.
        """
        match = pattern.match(self.text, self.position)
        if match:
            self.position = match.end()
        return match

    def _read_section(self, pattern: re.Pattern[bytes]) -> list[bytes]:
        """The fields of a section."""
        match = self._match(pattern)
        if match is None:
            raise ValueError("another text")
        return match[1].split()

    def _read_rows(self) -> None:
        fields = self._read_section(_ROWS)
        for kind, name in zip(fields[::2], fields[1::2], strict=True):
            self.row_places[name] = len(self.rows)
            self.rows.append(Row(name.decode("ascii"), kind.decode("ascii")))

    def _read_columns(self) -> Iterator[Column]:
        while match := self._match(_COLUMN):
            name, cost, lines = match.groups()
            fields = lines.split()
            pairs = zip(fields[1::3], fields[2::3], strict=True)
            entries = [self.entries.get(pair) or self._read_entry(pair) for pair in pairs]
            yield Column(name.decode("ascii"), int(cost), entries)

    def _read_entry(self, pair: tuple[bytes, bytes]) -> tuple[int, int]:
        """An entry by the name of its row and its coefficient."""
        name, number = pair
        coefficient = int(number)
        if not coefficient:
            raise ValueError("an entry without a coefficient")
        return self.entries.setdefault(pair, (self.row_places[name], coefficient))

    def _read_right_sides(self) -> None:
        fields = self._read_section(_RIGHT_SIDES)
        for name, number in zip(fields[1::3], fields[2::3], strict=True):
            self.rows[self.row_places[name]].right_side = int(number)

    def _read_bounds(self, columns: list[Column]) -> None:
        """The bound of each column, in their order."""
        for column in columns:
            match = self._match(_BOUND)
            if match is None or match[2].decode("ascii") != column.name:
                raise ValueError("another text")
            column.upper = int(match[3])
            column.lower = column.upper if match[1] == b"FX" else 0
        if self.text[self.position :] != b"ENDATA\n":
            raise ValueError("another text")


def format_program(program: ZeroOne) -> bytes:
    """A program in free MPS, as `wdp` writes it, without the rows that no column has and that are
    met.
    """
    text = io.BytesIO()
    for piece in _list_pieces(program):
        text.write(piece.encode("ascii"))
    return text.getvalue()


def _list_pieces(program: ZeroOne) -> Iterator[str]:
    """The text of a program in pieces, of which none is longer than a column or all rows."""
    used = {place for column in program.columns for place, _ in column.entries}
    rows = [row for place, row in enumerate(program.rows) if place in used or not row.is_met_by(0)]
    yield "NAME wdp\nROWS\n N OBJ\n"
    yield "".join(f" {row.kind} {row.name}\n" for row in rows)
    yield "COLUMNS\n"
    if program.columns:
        yield " M1 'MARKER' 'INTORG'\n"
    names = [row.name for row in program.rows]
    for column in program.columns:
        lines = [f" {column.name} {names[place]} {number}\n" for place, number in column.entries]
        yield "".join([f" {column.name} OBJ {column.cost}\n", *lines])
    if program.columns:
        yield " M2 'MARKER' 'INTEND'\n"
    yield "RHS\n"
    yield "".join(f" RHS {row.name} {row.right_side}\n" for row in rows)
    if program.columns:
        yield "BOUNDS\n"
    for column in program.columns:
        kind = "FX" if column.is_fixed else "UP"
        yield f" {kind} BND {column.name} {column.upper}\n"
    yield "ENDATA\n"


def _parse_whole(number: str) -> int:
    return int(number) if number.isdigit() else int(Fraction(number))


def read_solution(text: bytes, program: ZeroOne, source: str) -> set[int]:
    """The places of the columns at 1.

    Refused, with the line, if the text is no point of the program.
    """
    values: dict[int, bool] = {}
    for number, line in enumerate(split_lines(text.decode("latin-1")), 1):
        fields = FIELD.findall(line)
        if fields and not line.startswith("#"):
            try:
                _take_line(fields, program, values)
            except ValueError as fault:
                raise Refused(f"{source}: line {number}: {fault}") from None
    ones = {place for place, is_one in values.items() if is_one}
    if broken := program.find_fault(ones):
        raise Refused(f"{source}: {broken}")
    return ones


def _take_line(fields: list[str], program: ZeroOne, values: dict[int, bool]) -> None:
    """Takes a line: whether its column is at 1, by the column's place.

    ValueError says what is wrong with it.
    """
    if len(fields) != 2:
        raise ValueError("not a name and a value")
    name = shorten(fields[0], _LONGEST_FIELD)
    number = shorten(fields[1], _LONGEST_FIELD)
    place = program.column_places.get(fields[0])
    if place is None:
        raise ValueError(f"the column {name} isn't known")
    if place in values:
        raise ValueError(f"the column {name} is there twice")
    if not _NUMBER.fullmatch(fields[1]):
        raise ValueError(f"the value {number} of {name} is no number")
    value = Fraction(fields[1])
    values[place] = abs(value - 1) <= _NEAR
    if not values[place] and abs(value) > _NEAR:
        raise ValueError(f"the value {number} of {name} is neither 0 nor 1")


def format_solution(ones: Iterable[int], program: ZeroOne) -> bytes:
    """A solution in which the columns at these places are 1."""
    return "".join(f"{program.columns[place].name} 1\n" for place in sorted(ones)).encode("ascii")
