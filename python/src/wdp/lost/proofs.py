"""The certificate of an award's program in which one bid has another amount: made of two that are
there, so that nothing is searched.

Where the bid loses, the award's own certificate shows its total. Where it wins, that of the lowered
problem shows what the others reach. A split by the bid's column joins the two. In docs/REFERENCE.md
'Certificates' has what each line says.
"""
from collections import Counter
from collections.abc import Iterator, Sequence
from dataclasses import dataclass, replace
from fractions import Fraction

from wdp.lost.lowering import UnfitColumns
from wdp.texts.tables import split_lines
from wdp.texts.zero_one import Column, ZeroOne

_LARGEST = 10**18  # number of a certificate


class TooLargeToJoin(ValueError):
    """A joined certificate would have a number above 10^18."""


@dataclass(frozen=True)
class _Split:
    """A split: the most that its sum is on the first side, and the number of each column. Its
    second side is read if it `is_high`.
    """

    limit: int
    numbers: Counter[str]
    is_high: bool = False

    def format(self) -> str:
        """The line of a certificate."""
        terms = (f" {name} {number}" for name, number in self.numbers.items())
        return f"split {self.limit}{''.join(terms)}"

    def count(self, name: str) -> int:
        """The coefficient that a column has in the inequality of the side that is read."""
        return -self.numbers[name] if self.is_high else self.numbers[name]


@dataclass(frozen=True)
class _Leaf:
    """A leaf: its scale, the multiplier of each split above it, and those of rows by their
    names.
    """

    scale: int
    multipliers: Sequence[int]
    rows: Counter[str]

    def format(self) -> str:
        """The line of a certificate; TooLargeToJoin if a number is too large."""
        numbers = [self.scale, *self.multipliers]
        if max(*numbers, *self.rows.values(), 0) > _LARGEST:
            raise TooLargeToJoin
        terms = (f" {name} {number}" for name, number in self.rows.items() if number)
        return f"bound {' '.join(map(str, numbers))}{''.join(terms)}"


@dataclass(frozen=True)
class _Node:
    """A split, or a leaf with the splits above it."""

    split: _Split | None = None
    leaf: _Leaf | None = None
    path: Sequence[_Split] = ()


def _parse_number(field: str) -> int:
    return int(field) if field.isdigit() else int(Fraction(field))


def _parse_terms(fields: Sequence[str]) -> Counter[str]:
    """Names, each with a number; those of a name that comes again are added."""
    terms: Counter[str] = Counter()
    for name, number in zip(fields[::2], fields[1::2], strict=True):
        terms[name] += _parse_number(number)
    return terms


def _list_nodes(certificate: bytes) -> Iterator[_Node]:
    """The nodes of a certificate that `wdp verify` accepts."""
    path: list[_Split] = []
    for line in split_lines(certificate.decode("latin-1")):
        kind, *fields = line.split() or ["#"]
        if kind == "split":
            split = _Split(_parse_number(fields[0]), _parse_terms(fields[1:]))
            path.append(split)
            yield _Node(split=split)
        elif kind == "bound":
            numbers = [_parse_number(field) for field in fields[: len(path) + 1]]
            rows = _parse_terms(fields[len(path) + 1 :])
            yield _Node(leaf=_Leaf(numbers[0], numbers[1:], rows), path=tuple(path))
            _close(path)


def _close(path: list[_Split]) -> None:
    """Goes on to the next side that is to come."""
    while path and path[-1].is_high:
        path.pop()
    if path:
        path[-1] = replace(path[-1], is_high=True)


@dataclass(frozen=True)
class Joiner:
    """Joins certificates for a program, in which a bid has the column of this name, and its bidder
    the row `bidder_row`.
    """

    program: ZeroOne
    column: str
    bidder_row: str

    def join(self, award: bytes, lowered: bytes, unfit: Sequence[UnfitColumns]) -> bytes:
        """The certificate of the program: that of the award, of a program in which the other
        columns cost as much, and that of the lowered problem, which lacks the `unfit` columns and
        those of the bidder. Raises TooLargeToJoin.
        """
        lines = [f"split 0 {self.column} 1"]
        lines += self._exclude(award)
        lines += [_format_none_of(columns) for columns in unfit]
        lines += self._include(lowered, len(unfit))
        for place in reversed(range(len(unfit))):
            lines.append(_format_unfit_leaf(unfit[place], place))
        return "".join(f"{line}\n" for line in lines).encode("ascii")

    def _get_column(self) -> Column:
        return self.program.columns[self.program.column_places[self.column]]

    def _compute_reduced_cost(self, leaf: _Leaf) -> int:
        """What a leaf's scale and rows make of the bid's cost."""
        column = self._get_column()
        names = self.program.rows
        entries = ((names[place].name, number) for place, number in column.entries)
        return leaf.scale * column.cost + sum(leaf.rows[name] * number for name, number in entries)

    def _exclude(self, award: bytes) -> Iterator[str]:
        """The lines of the award's certificate on the side on which the bid's column is 0, which
        pays for a reduced cost of it that is below 0.
        """
        for node in _list_nodes(award):
            if node.split:
                yield self._keep_known(node.split).format()
            elif node.leaf:
                leaf = node.leaf
                reduced = self._compute_reduced_cost(leaf)
                for split, multiplier in zip(node.path, leaf.multipliers, strict=True):
                    reduced += split.count(self.column) * multiplier
                yield replace(leaf, multipliers=[max(0, -reduced), *leaf.multipliers]).format()

    def _keep_known(self, split: _Split) -> _Split:
        """A split without the columns that the program doesn't have: these are 0."""
        places = self.program.column_places
        known = {name: number for name, number in split.numbers.items() if name in places}
        return replace(split, numbers=Counter(known))

    def _include(self, lowered: bytes, unfit_count: int) -> Iterator[str]:
        """The lines of the lowered problem's certificate on the side on which the bid's column is
        1.

        The row of the bidder pays for its other columns, the splits for those that don't fit, and
        that of the bid takes all of it back.
        """
        dearest = max((-column.cost for column in self.program.columns), default=0)
        for node in _list_nodes(lowered):
            if node.split:
                yield node.split.format()
            elif node.leaf:
                most = max(0, node.leaf.scale * dearest)
                rows = Counter({**node.leaf.rows, self.bidder_row: most})
                leaf = replace(node.leaf, rows=rows)
                of_bid = self._compute_reduced_cost(leaf)
                above = [of_bid, *[most] * unfit_count]
                yield replace(leaf, multipliers=[*above, *leaf.multipliers]).format()


def _format_none_of(unfit: UnfitColumns) -> str:
    """The split on whose first side no column is 1 that doesn't fit."""
    return _Split(0, Counter(dict.fromkeys(unfit.names, 1))).format()


def _format_unfit_leaf(unfit: UnfitColumns, place: int) -> str:
    """The leaf which shows that none of the columns that don't fit is 1, below the split of the bid
    and so many others.
    """
    multipliers = [unfit.taken, *[0] * place, unfit.least]
    return _Leaf(0, multipliers, rows=Counter({unfit.row: 1})).format()
