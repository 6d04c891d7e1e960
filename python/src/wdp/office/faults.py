"""Faults of an input or a file, each with its place, in words, and the program's own line for it;
and how words are printed.
"""
import re
from collections.abc import Iterable, Sequence
from dataclasses import dataclass
from difflib import get_close_matches
from fractions import Fraction

from wdp.texts.refusals import escape_unprintable, shorten

_NUMBER = (int, Fraction)
CellValue = int | Fraction | str | None  # of a table
# bytes beyond ASCII as the program shows them, and a backslash that it leaves as it is
_BYTES = re.compile(r"\\\\|((?:\\x[89a-f][0-9a-f])+)")


@dataclass(frozen=True)
class Fault:
    """A fault at a place as `forms/Aster.csv:3:1`, the program's line for it without `wdp: `, and
    how many faults it is for: at least so many, if not all of the file was read.
    """

    place: str
    text: str
    refusal: str | None = None
    count: int = 1
    is_least: bool = False

    def __str__(self) -> str:
        return f"{self.place}: {self.text}"


def format_lines(lines: Iterable[object]) -> str:
    """Lines as a text, in which what can't be printed is escaped."""
    return "".join(escape_unprintable(str(line)) + "\n" for line in lines)


def quote(value: str) -> str:
    """A value of a file as a message shows it."""
    return f"'{escape_unprintable(shorten(value, 40))}'"


def decode_escapes(text: str) -> str:
    """A text of the program, with characters in place of their bytes.

    >>> decode_escapes("'\\\\xc2\\\\xa312' isn't 1 to 18 digits")
    "'£12' isn't 1 to 18 digits"
    """

    def decode(match: re.Match[str]) -> str:
        data = bytes.fromhex((match[1] or "").replace("\\x", ""))
        return escape_unprintable(data.decode("utf-8", "backslashreplace")) or match[0]

    return _BYTES.sub(decode, text)


def format_count(number: int, thing: str) -> str:
    """A number of things, as `1 bid` and `2,000 bids`."""
    return f"{number:,} {thing}{'' if number == 1 else 's'}"


def format_total(faults: Iterable[Fault]) -> str:
    """How many faults there are in all, or at least."""
    counted = list(faults)
    count = format_count(sum(fault.count for fault in counted), "fault")
    return f"at least {count}" if any(fault.is_least for fault in counted) else count


def suggest_name(value: str, names: Iterable[str]) -> str:
    """What a message says of the name that is nearest to an unknown one; nothing if none is
    near.
    """
    by_letters = {name.lower(): name for name in names}
    near = get_close_matches(value.strip().lower(), by_letters, n=1, cutoff=0.5)
    return f"; the nearest name is {by_letters[near[0]]}" if near else ""


def format_number(number: int | Fraction) -> str:
    """A number as people read it: `1,000`, `12 1/2`."""
    whole, rest = divmod(Fraction(number), 1)
    return f"{whole:,} {rest}" if rest else f"{whole:,}"


def align_rows(rows: Sequence[Sequence[CellValue]]) -> list[str]:
    """Rows, the first of them headings, as lines; a column that has a number is aligned at its
    right.
    """
    columns = []
    for values in zip(*rows, strict=True):
        has_number = any(isinstance(value, _NUMBER) for value in values)
        texts = [
            format_number(value) if isinstance(value, _NUMBER) else value or "" for value in values
        ]
        width = max(map(len, texts))
        columns.append([text.rjust(width) if has_number else text.ljust(width) for text in texts])
    return ["  ".join(cells).rstrip() for cells in zip(*columns, strict=True)]
