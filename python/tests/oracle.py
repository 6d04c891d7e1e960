"""Whether a text is a certificate that no point of a program has an objective below a bound, or
none but these as low as the first of them.

This is the definition alone, in Python's whole numbers: the judge of tests. docs/REFERENCE.md has
the grammar and the order of faults.
"""
import re
from collections.abc import Iterable, Mapping, Sequence
from collections.abc import Set as AbstractSet
from fractions import Fraction
from typing import NamedTuple

from wdp.texts.tables import split_lines
from wdp.texts.zero_one import AT_LEAST, AT_MOST, FIELD, ZeroOne

WIDEST = 2**126
LARGEST = 10**18
# a number: an optional sign, digits with an optional point, an optional exponent
TOKEN = re.compile(r"[+-]?(?=\.?[0-9])([0-9]*)\.?([0-9]*)(?:[eE][+-]?([0-9]+))?")
MOST_DIGITS = 30
MOST_EXPONENT = 60

# the places of columns or rows, each with a number
Terms = Sequence[tuple[int, int]]


class Fault(NamedTuple):
    """The first fault of a text, by its line from 1."""

    line: int
    kind: str


class Verdict(NamedTuple):
    """The first fault, if there is one; a checker that adds up in 128 bits may stop at one of the
    large lines as `TooLarge`.
    """

    fault: Fault | None
    large_lines: list[int]


class Split(NamedTuple):
    """An open split: columns with numbers, the greatest sum on the first side, and which side is
    read.
    """

    form: Terms
    most: int
    is_high: bool = False


class Part(NamedTuple):
    """What a leaf adds up: so many times these numbers of columns, and a constant."""

    multiplier: int
    numbers: Terms
    constant: int


class Leaf(NamedTuple):
    """By how much a leaf exceeds its scale times `least - 1`, and all that it adds up."""

    value: int
    size: int


class Checker:
    """Reads certificates for a program."""

    def __init__(self, program: ZeroOne) -> None:
        self.program = program
        self.row_places = {row.name: place for place, row in enumerate(program.rows)}
        # for each row its columns' places with their coefficients
        self.entries: list[list[tuple[int, int]]] = [[] for _ in program.rows]
        for place, column in enumerate(program.columns):
            for row, coefficient in column.entries:
                self.entries[row].append((place, coefficient))

    def verdict(self, least: int, text: bytes) -> Verdict:
        """What the text comes to as a certificate that no point has an objective below `least`."""
        return self.read(text, least, [])

    def only_verdict(self, points: Sequence[AbstractSet[int]], text: bytes) -> Verdict:
        """What it comes to as a certificate that no point but these, each the columns at 1, has an
        objective as low as the first of them: below a split for each, on the second side, whose
        first side has no other point.
        """
        least = self.program.compute_objective(points[0]) + 1
        return self.read(text, least, [self.exclude(ones) for ones in points])

    def exclude(self, ones: AbstractSet[int]) -> Split:
        """The split on whose second side all points are but this one."""
        columns = enumerate(self.program.columns)
        free = [place for place, column in columns if column.lower != column.upper]
        form = [(place, -1 if place in ones else 1) for place in free]
        return Split(form, -len(ones & set(free)), is_high=True)

    def read(self, text: bytes, least: int, splits: list[Split]) -> Verdict:
        """Reads a text as a certificate for one bound, below splits that are open."""
        number = 0
        is_whole = False
        large: list[int] = []
        for number, line in enumerate(split_lines(text.decode("latin-1")), 1):
            fields = [] if line[:1] == "#" else FIELD.findall(line)
            if not fields:
                continue
            try:
                if is_whole:
                    raise ValueError("Beyond")
                leaf = self.read_line(fields, least, splits)
                if leaf and leaf.size >= WIDEST:
                    large.append(number)
                if leaf and leaf.value <= 0:
                    raise ValueError("NotShown")
            except ValueError as fault:  # the kind of the line's first fault
                return Verdict(Fault(number, str(fault)), large)
            if leaf:
                is_whole = not close(splits)
        return Verdict(None if is_whole else Fault(number, "NoEnd"), large)

    def read_line(self, fields: list[str], least: int, splits: list[Split]) -> Leaf | None:
        """The leaf of a line, or None for that of a split, which is then open."""
        kind, *rest = fields
        if kind not in ("split", "bound") or not rest:
            raise ValueError("Fields")
        if kind == "bound":
            return self.read_leaf(rest, least, splits)
        most = read_whole(rest[0])
        form = read_terms(rest[1:], self.program.column_places, "UnknownColumn")
        splits.append(Split(form, most))
        return None

    def read_leaf(self, fields: list[str], least: int, splits: list[Split]) -> Leaf:
        """What a leaf comes to: the least that the reduced costs come to, less the right sides of
        cuts and rows. Its size is each number without its sign: only from 2^126 on a checker in 128
        bits may stop.
        """
        # a scale, a multiplier for each open split, and places of rows with multipliers
        scale, *multipliers = [read_whole(field, 0) for field in fields[: 1 + len(splits)]]
        if len(multipliers) < len(splits):
            raise ValueError("Fields")
        rows = read_terms(fields[1 + len(splits) :], self.row_places, "UnknownRow")
        self.check_signs(rows)
        costs = [(place, column.cost) for place, column in enumerate(self.program.columns)]
        parts = [Part(scale, costs, 1 - least)]
        for multiplier, split in zip(multipliers, splits, strict=True):
            sign = -1 if split.is_high else 1
            parts.append(Part(sign * multiplier, split.form, -(split.most + split.is_high)))
        for place, multiplier in rows:
            right_side = self.program.rows[place].right_side
            parts.append(Part(multiplier, self.entries[place], -right_side))
        return self.add_up(parts)

    def check_signs(self, rows: Terms) -> None:
        """Raises ValueError at a row whose multiplier turns it round."""
        for place, multiplier in rows:
            kind = self.program.rows[place].kind
            if kind == AT_MOST and multiplier < 0 or kind == AT_LEAST and multiplier > 0:
                raise ValueError("Sign")

    def add_up(self, parts: Iterable[Part]) -> Leaf:
        """What the parts of a leaf come to."""
        reduced = [0] * len(self.program.columns)
        value = 0
        size = 0
        for part in parts:
            value += part.multiplier * part.constant
            size += abs(part.multiplier * part.constant)
            if not part.multiplier:
                continue
            for place, number in part.numbers:
                reduced[place] += part.multiplier * number
                size += abs(part.multiplier * number)
        for number, column in zip(reduced, self.program.columns, strict=True):
            value += min(number * column.lower, number * column.upper)
        return Leaf(value, size)


def close(splits: list[Split]) -> bool:
    """Goes on to the next side that is to come; whether there is one."""
    while splits and splits[-1].is_high:
        splits.pop()
    if splits:
        splits[-1] = splits[-1]._replace(is_high=True)
    return bool(splits)


def read_exact(field: str) -> Fraction:
    """The number of a field."""
    match = TOKEN.fullmatch(field)
    if not match:
        raise ValueError("NumberText")
    whole, fraction, exponent = match.groups("0")
    is_long = len(whole + fraction) > MOST_DIGITS or len(exponent) > 3
    if is_long or int(exponent) > MOST_EXPONENT:
        raise ValueError("NumberRange")
    return Fraction(field)


def read_whole(field: str, least: int = -LARGEST) -> int:
    """The whole number of a field."""
    value = read_exact(field)
    if value.denominator != 1:
        raise ValueError("NumberText")
    if abs(value) > LARGEST:
        raise ValueError("NumberRange")
    if value < least:
        raise ValueError("Sign")
    return value.numerator


def read_terms(fields: list[str], places: Mapping[str, int], unknown: str) -> Terms:
    """Names, each with a number."""
    terms: list[tuple[int, int]] = []
    for index in range(0, len(fields), 2):
        name = fields[index]
        if index + 1 == len(fields):
            raise ValueError("Fields")
        if name not in places:
            raise ValueError(unknown)
        terms.append((places[name], read_whole(fields[index + 1])))
    return terms
