"""The parts of one input by their head lines, and their records or lines with their places in the
input.
"""
import re
from collections.abc import Iterable, Iterator
from itertools import chain, pairwise
from typing import NamedTuple

from wdp.texts.tables import BYTE_ORDER_MARK, Records, TableRow, decode, split_lines

HEAD = re.compile(rb"^%([^\n]*?)\r?(?:\n|\Z)", re.MULTILINE)
MOST_OF_INPUT = 128 * 1024 * 1024  # bytes that the program reads in all
LINE_END = re.compile(rb"\r\n|\r|\n")  # as records count lines


class Part(NamedTuple):
    """A part of an input.

    `kind` is what its head line, number `line`, has after `%`; `head` is that line, `text` what is
    below it, and `end` the place of the input at which that ends.
    """

    kind: str
    head: bytes
    text: bytes
    end: int
    line: int

    def rows(self) -> Iterable[TableRow]:
        """The records of rules or a form, or the lines of groups, as the program counts them."""
        text = decode(self.text)
        if self.kind == "groups":
            return make_group_rows(enumerate(split_lines(text), self.line + 1))
        return Records(text.removeprefix(BYTE_ORDER_MARK), line=self.line + 1)


def parse_parts(data: bytes) -> Iterator[Part]:
    """The parts of an input, in their order."""
    line = 1
    counted = 0
    for head, following in pairwise(chain(HEAD.finditer(data), [None])):
        assert head  # None is the last one
        line += len(LINE_END.findall(data, counted, head.start()))
        counted = head.start()
        end = following.start() if following else len(data)
        yield Part(
            kind=decode(head[1]),
            head=head[0],
            text=data[head.end() : end],
            end=end,
            line=line,
        )


def list_names(rules: Iterable[TableRow], kind: str) -> list[str]:
    """The names in the rules' records of a kind, as `category`, in order; nothing else is asked of
    the records.
    """
    return [row.values[1] for row in rules if row.values[0] == kind and len(row.values) > 1]


def make_group_rows(numbered: Iterable[tuple[int, str]]) -> Iterator[TableRow]:
    """Lines of groups, each with its number, as rows of the names that they join."""
    return (TableRow(line.split("+"), number) for number, line in numbered)


def list_groups(data: bytes) -> list[str]:
    """The lines of an input's groups."""
    texts = (decode(part.text) for part in parse_parts(data) if part.kind == "groups")
    return [line for text in texts for line in split_lines(text)]


def find_end_of_groups(data: bytes) -> int:
    """How many bytes of an input go before what is added to its groups."""
    return next((part.end for part in parse_parts(data) if part.kind == "groups"), len(data))


def add_groups(data: bytes, names: Iterable[str]) -> bytes:
    """An input with more groups, after its own."""
    added = "".join(f"{name}\n" for name in names).encode()
    end = find_end_of_groups(data)
    gap = b"" if not added or data.endswith(b"\n", 0, end) else b"\n"
    return data[:end] + gap + added + data[end:]
