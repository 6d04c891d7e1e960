"""Records of comma separated values as the program reads them, each field with its place.

A record ends at LF, CR LF or CR; an empty line is no record. A field that begins with a double
quote goes to the next single one, a doubled one means one quote, and what follows the closing quote
joins the field. An open quote ends with the text. A quote inside a field that doesn't begin with
one is data. A byte that is no text comes out as it was.
"""
import hashlib
import math
import re
from collections.abc import Iterator, Sequence
from dataclasses import dataclass

LINE_END = re.compile(r"\r\n|\n|\r")
BYTE_ORDER_MARK = "\ufeff"
# what would be read as something else, as the head of a part, and a mark that is dropped
_NEEDS_QUOTES = re.compile(f'[,"\\r\\n]|^%|^{BYTE_ORDER_MARK}')
_MAY_NEED_QUOTES = re.compile(f'[,"\\r\\n%{BYTE_ORDER_MARK}]')  # of a whole record


@dataclass
class TableRow:
    """A record: its values, and the line in which it begins, or its number where a file has no
    lines.

    `places` are those of the values, if they can't be counted from the values before them.
    """

    values: list[str]
    line: int
    places: Sequence[str] = ()

    def place(self, index: int = 0) -> str:
        """The place of a value: line and column as `3:1`, both from 1, or a cell.

        Of one that isn't there, the last one's.
        """
        index = min(index, len(self.values) - 1)
        if self.places:
            return self.places[index]
        before = index + sum(map(len, self.values[:index]))
        return f"{self.line}:{1 + before}"


class Records:
    """The records of a text as rows.

    Once they are read, `unclosed` is the place of a field whose quote the text doesn't close,
    `blank` how many lines are no record, and `unquoted` and `quoted` how many fields
    `format_record` writes without quotes that have some here, and with quotes that have none. With
    one more of the lines that are no record than `most_blank` they end.
    """

    def __init__(
        self, text: str, delimiter: str = ",", line: int = 1, *, most_blank: float = math.inf
    ) -> None:
        self.text = text
        self.delimiter = delimiter
        self.line = line
        self.most_blank = most_blank
        self.unclosed: str | None = None
        self.blank = 0
        self.unquoted = 0
        self.quoted = 0
        plain = f"[^\\r\\n{re.escape(delimiter)}]*+"
        self._field = re.compile(f'"((?:[^"]++|"")*+)("?)({plain})|({plain})')

    def __iter__(self) -> Iterator[TableRow]:
        begin = 0
        while begin < len(self.text):
            line_end = LINE_END.search(self.text, begin)
            end = line_end.start() if line_end else len(self.text)
            following = line_end.end() if line_end else len(self.text)
            line = self.text[begin:end]
            row = TableRow(line.split(self.delimiter), self.line)
            if '"' in line:
                following = self._fill(row, begin)
            if line:
                self.quoted += self._count_quoted(line, row)
                yield row
            else:
                self.blank += 1
                if self.blank > self.most_blank:
                    return
            begin = following
            self.line += 1

    def _count_quoted(self, line: str, row: TableRow) -> int:
        """How many fields of a line without quotes get some."""
        may_need = "," in line and self.delimiter != "," or "%" in line or BYTE_ORDER_MARK in line
        if '"' in line or not may_need:
            return 0
        return sum(1 for value in row.values if _NEEDS_QUOTES.search(value))

    def _fill(self, row: TableRow, begin: int) -> int:
        """Reads a record with quotes, and returns where the next line begins."""
        values: list[str] = []
        places: list[str] = []
        position = begin
        is_last = False
        while not is_last:
            field = self._field.match(self.text, position)
            assert field  # an empty field matches too
            places.append(f"{self.line}:{position - begin + 1}")
            quoted, close, more, plain = field.groups()
            values.append(plain if quoted is None else quoted.replace('""', '"') + more)
            self._count_change(field[0], format_field(values[-1]))
            if quoted is not None and not close:
                self.unclosed = places[-1]
            for line_end in LINE_END.finditer(quoted or ""):
                self.line += 1
                begin = field.start(1) + line_end.end()
            is_last = self.text[field.end() : field.end() + 1] != self.delimiter
            position = field.end() + (not is_last)
        row.values = values
        row.places = places
        last = LINE_END.match(self.text, position)
        return last.end() if last else position

    def _count_change(self, before: str, after: str) -> None:
        """Counts a field that is written in another way than it was read."""
        if before == after:
            return
        if after.startswith('"'):
            self.quoted += 1
        else:
            self.unquoted += 1


def format_record(values: Sequence[str]) -> str:
    """The line of a record, with quotes if a field needs them. An empty line would be no record.

    >>> format_record(["Alpha", "A, B"])
    'Alpha,"A, B"\\n'
    """
    if _MAY_NEED_QUOTES.search("".join(values)):
        values = [format_field(value) for value in values]
    return (",".join(values) or '""') + "\n"


def format_field(value: str, special: re.Pattern[str] = _NEEDS_QUOTES) -> str:
    """A field as it is written: in quotes if something in it is special."""
    if not special.search(value):
        return value
    return '"' + value.replace('"', '""') + '"'


def split_lines(text: str) -> list[str]:
    """The lines of a text; each is ended by LF, which the last one may lack; one CR before it is
    dropped.
    """
    lines = text.split("\n")
    if not lines[-1]:
        lines.pop()
    return [line.removesuffix("\r") for line in lines]


def compute_digest(data: bytes) -> str:
    """The SHA-256 of bytes, in hexadecimal digits."""
    return hashlib.sha256(data).hexdigest()


def decode(data: bytes) -> str:
    """A text in which bytes that are no UTF-8 are kept, for `encode` to give them back."""
    return data.decode("utf-8", "surrogateescape")


def encode(text: str) -> bytes:
    """The bytes that `decode` made a text of."""
    return text.encode("utf-8", "surrogateescape")
