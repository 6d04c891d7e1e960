"""Files as spreadsheets and editors write them, turned into what the program reads, with a word for
each change.

No value is guessed: only the encoding, the delimiter, line ends, and empty cells are looked at.
"""
from __future__ import annotations

import codecs
import re
from collections.abc import Collection, Iterable
from dataclasses import dataclass, field

from wdp.files import Unreadable, read
from wdp.office.faults import Fault, format_count, quote, suggest_name
from wdp.texts.parts import make_group_rows
from wdp.texts.tables import LINE_END, Records, TableRow, decode, encode, format_record

_MOST_OF_A_TEXT = 4 * 1024 * 1024
# bytes of a file, which may have a text of the greatest size as UTF-16, after a mark
MOST_OF_A_FILE = 2 * _MOST_OF_A_TEXT + 2
MOST_EMPTY = 20_000  # lines or rows without a value
_DELIMITERS = {",": "commas", ";": "semicolons", "\t": "tabs"}
# what some spreadsheets write, and read, as a first line
_SEPARATOR_LINE = re.compile('"?sep=([^"\r\n]*)"?(?:\r\n|\n|\r|$)')
_FIRST_LINE = re.compile("[^\r\n]+")
# what is often taken for a table by its name alone
_OTHERS = (
    (re.compile(rb"PK\x03\x04"), "it is a workbook or an archive; save the table as {}"),
    (re.compile(rb"\xd0\xcf\x11\xe0"), "it is an old workbook; save the table as {}"),
    (re.compile(rb"%PDF-"), "it is a PDF; send the table as {}"),
    (
        re.compile(rb"\s*<(?:!doctype|html|table|\?xml|head|meta)", re.IGNORECASE),
        "it is a page of HTML or XML; save the table as {}",
    ),
    (
        re.compile(rb"[^\0]{,4095}\0"),
        "it holds bytes 0, as no CSV file does; save the table as {} in UTF-8",
    ),
)
_NO_TEXT = re.compile("[\udc80-\udcff]")  # bytes that are no UTF-8, as they are decoded
AS_HEADS = "begins with %, as the heads of parts do"
NOT_STORED = "its formula has no stored value; open the workbook in a spreadsheet, and save it"


@dataclass
class File:
    """A file's records as rows, what was changed to have them, and what is wrong that the program
    can't see. Of a form `bids` is how many it has, None if it has a fault.
    """

    path: str
    data: bytes = field(repr=False)
    rows: list[TableRow] = field(default_factory=list)
    changes: list[str] = field(default_factory=list)
    # what a person sees in another way than it is read
    warnings: list[str] = field(default_factory=list)
    faults: list[Fault] = field(default_factory=list)
    # whether the last row ends as a row does, and not perhaps in the middle of a value
    is_ended: bool = True
    # the number of the row whose quote isn't closed, so that it holds all that follows
    unclosed: int | None = None
    # rows without a value that were dropped
    empty: int = 0
    # whether there may be more rows, which weren't read
    is_cut: bool = False
    bids: int | None = None
    # the places of formulas without a stored value
    blank: set[str] = field(default_factory=set)

    @property
    def bidder(self) -> str:
        """Of a form the bidder in its first field."""
        return self.rows[0].values[0] if self.rows else ""

    @property
    def text(self) -> bytes:
        """The rows as the program reads them."""
        return encode("".join(format_record(row.values) for row in self.rows))

    def add_fault(self, place: str, text: str, *, is_least: bool = False) -> None:
        """Adds a fault at a place in the file."""
        self.faults.append(Fault(f"{self.path}:{place}", text, is_least=is_least))

    def add_warning(self, text: str) -> None:
        """Adds a change that a person has to know of."""
        self.changes.append(text)
        self.warnings.append(text)

    def add_change(self, text: str, count: int) -> None:
        """Adds a change of so many things, unless there are none."""
        if count:
            self.changes.append(f"{text}: {count}")

    def fill(self, rows: Iterable[TableRow], most: int) -> None:
        """Takes at most so many rows with a value.

        A row with a field that would head a part is a fault, and isn't taken. Raises Unreadable if
        too many rows have no value.
        """
        without = 0
        for row in rows:
            heads = [index for index, value in enumerate(row.values) if "\n%" in value]
            for index in heads:
                self.add_fault(row.place(index), f"in this field a line {AS_HEADS}")
            if not any(row.values):
                self.empty += 1
                without += 1
            elif not heads:
                self.rows.append(row)
            if without > MOST_EMPTY:
                raise Unreadable(self.path, f"it has more than {MOST_EMPTY:,} empty rows")
            if len(self.rows) == most:
                self.is_cut = True
                break
        self.add_change("empty rows dropped", self.empty)

    def trim(self, width: int) -> None:
        """Drops the empty fields beyond those that each row has to have."""
        count = 0
        for row in self.rows:
            beyond = row.values[width:]
            if beyond and not any(beyond):
                del row.values[width:]
                count += 1
        self.add_change("empty fields at the end of rows dropped", count)


def decode_file(file: File, kinds: str = "CSV") -> str:
    """The text of a file's bytes, without a byte order mark; what was done to it is a change.

    A table has to be of these kinds.

    Raises Unreadable if the bytes are no text.
    """
    text = _decode_bytes(file, kinds)
    if no_text := _NO_TEXT.search(text):
        *before, last = LINE_END.split(text[: no_text.start()])
        place = f"{file.path}:{len(before) + 1}:{len(last) + 1}"
        raise Unreadable(place, "it isn't UTF-8; save it as CSV UTF-8")
    if len(encode(text)) > _MOST_OF_A_TEXT:
        raise Unreadable(file.path, f"it has more than {_MOST_OF_A_TEXT:,} bytes")
    has_end = text.endswith(("\n", "\r"))
    crlf = text.count("\r\n")
    file.is_ended = has_end or not text.strip()
    if crlf:
        file.changes.append("CR LF turned into LF")
    if text.count("\r") > crlf:
        file.changes.append("CR turned into LF")
    if text and not has_end:
        file.changes.append("last line ended")
    return text


def _decode_bytes(file: File, kinds: str) -> str:
    """The text of a file's bytes by their byte order mark, if they have one; bytes that are no
    UTF-8 are kept.
    """
    if file.data.startswith((codecs.BOM_UTF16_LE, codecs.BOM_UTF16_BE)):
        try:
            text = file.data.decode("utf-16")
        except UnicodeDecodeError:
            raise Unreadable(file.path, "it begins as UTF-16 and isn't") from None
        file.changes.append("UTF-16 turned into UTF-8")
        return text
    if file.data.startswith(codecs.BOM_UTF8):
        file.changes.append("byte order mark dropped")
        return decode(file.data)[1:]
    for pattern, why in _OTHERS:
        if pattern.match(file.data):
            raise Unreadable(file.path, why.format(kinds))
    return decode(file.data)


def _find_delimiter(text: str, file: File) -> tuple[str, int]:
    """The delimiter and where rows begin.

    A line `sep=;` names it, else a comma goes first if the first line has one.
    """
    named = _SEPARATOR_LINE.match(text)
    begin = named.end() if named else 0
    first_line = _FIRST_LINE.search(text, begin)
    present = [each for each in _DELIMITERS if first_line and each in first_line[0]]
    delimiter = named[1] if named else (present or [","])[0]
    line = f"its first line is sep={quote(delimiter)}"
    if delimiter not in _DELIMITERS:
        why = f"{line}; fields are separated by a comma, a semicolon or a tab"
        raise Unreadable(file.path, why)
    if present and delimiter not in present:
        has = f"the row below it has {_DELIMITERS[present[0]]} between its fields"
        raise Unreadable(file.path, f"{line}, and {has}")
    if named:
        file.changes.append("first line dropped, which names the separator")
    if delimiter != ",":
        file.changes.append(f"{_DELIMITERS[delimiter]} turned into commas")
    return delimiter, begin


def parse_table(path: str, data: bytes, most: int, kinds: str = "CSV") -> File:
    """The records of a file's bytes, at most so many.

    A message names the kinds of tables that are read. Raises Unreadable.
    """
    file = File(path, data)
    text = decode_file(file, kinds)
    delimiter, begin = _find_delimiter(text, file)
    records = Records(text[begin:], delimiter, line=2 if begin else 1, most_blank=MOST_EMPTY)
    file.fill(records, most)
    if records.blank > MOST_EMPTY:
        raise Unreadable(path, f"it has more than {MOST_EMPTY:,} empty lines")
    file.add_change("empty lines dropped", records.blank)
    file.add_change("quotes dropped", records.unquoted)
    file.add_change("quotes added", records.quoted)
    if records.unclosed:
        file.add_fault(records.unclosed, "the field's quote isn't closed")
        file.unclosed = len(file.rows)
    # a last value in quotes is complete, and a row of empty fields needs no end
    last = LINE_END.split(text)[-1] if file.rows else ""
    file.is_ended = last.endswith('"') or not last.strip(delimiter + ' "')
    return file


def parse_lines(path: str, data: bytes) -> File:
    """The lines of groups as rows of names, without the empty lines at the end.

    Raises Unreadable.
    """
    file = File(path, data)
    lines = LINE_END.split(decode_file(file))
    if not lines[-1]:
        lines.pop()
    count = len(lines)
    while lines and not lines[-1].strip():
        lines.pop()
    file.add_change("empty lines at the end dropped", count - len(lines))
    file.rows = list(make_group_rows(enumerate(lines, 1)))
    return file


def read_pairs(
    path: str,
    heading: str,
    *,
    wanted: str,
    names: Collection[str],
    who: str,
    regular: bool = False,
) -> tuple[dict[str, TableRow], list[Fault]]:
    """The rows of a file of pairs by their first values, and what is wrong with it.

    The first row may be the heading, as `code,name`. A first value is one of the names; a message
    says by `who` of whom they are, and by `wanted` what each row is to have. With `regular` nothing
    but a regular file is read. Raises Unreadable.
    """
    data = read(path, MOST_OF_A_FILE, regular=regular)
    file = parse_table(path, data, len(names) + 2)
    file.trim(2)
    pairs: dict[str, TableRow] = {}
    rows = file.rows
    if rows and [value.lower() for value in rows[0].values] == heading.split(","):
        rows = rows[1:]
    for row in rows:
        name = row.values[0]
        if len(row.values) != 2:
            fields = format_count(len(row.values), "field")
            file.add_fault(row.place(), f"the row has {fields}; it is to have {wanted}")
        elif name not in names:
            near = suggest_name(name, names)
            file.add_fault(row.place(), f"{quote(name)} is no {who} of the rules{near}")
        elif name in pairs:
            file.add_fault(row.place(), f"an earlier row is of {quote(name)}")
        else:
            pairs[name] = row
    return pairs, file.faults
