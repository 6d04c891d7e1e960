"""Inequalities that all points meet, though fractional solutions of the relaxation don't: a
combination of rows, rounded down.

Take whole multipliers of rows that are at most their right sides, and divide by a whole number. If
each coefficient is rounded down, the sum stays below; and as it is then whole, the right side may
be rounded down, too (Chvatal and Gomory). In an auction: of 7 lots at most 3 bids for 2 to 3 lots
can win.

A certificate has such an inequality as a split above the root of the search. Its second side has no
point, which one leaf shows: with the divisor for the split, and the multipliers of the rows.

To find them, multipliers of the shared rows are listed. Those of the blocks' rows follow: for each
remainder of the right side by the divisor, and one block after the other, what is lost least by
rounding.
"""
from collections.abc import Iterator
from dataclasses import dataclass
from functools import cache
from itertools import combinations, islice, product

import numpy as np

from wdp.certify.layout import Array, Layout, SplitRow

MOST_CHOICES = {2: 2000, 3: 1500, 4: 600, 5: 600}  # of multipliers, that are tried of each divisor
_MOST_ROWS = {2: 6, 3: 3, 4: 2, 5: 2}  # shared rows with a multiplier, of each divisor
LARGEST = 2**40  # of a row whose multiples are exact in 64 bits
_MOST_WORST = 15  # inequalities that are taken at once
_MOST_TRIED = 4 * _MOST_WORST  # of each divisor
_LEAST_BROKEN = 0.03
_MOST_PARALLEL = 0.95
_HELD = 1e-7  # values above are taken for more than 0
_SHRINKS = 1.3  # so many times fewer multipliers are worth a copy


@dataclass(frozen=True, eq=False)
class Inequality:
    """A combination of rows, with multipliers of the shared rows and of the blocks', divided by
    `divisor` and rounded down to `row`.
    """

    row: SplitRow
    divisor: int
    of_shared: Array
    of_blocks: Array

    def format_split(self, layout: Layout) -> str:
        """The line of a certificate on whose first side the inequality holds."""
        places = np.flatnonzero(self.row.numbers)
        fields = ["split", str(self.row.limit)]
        for place, number in zip(places.tolist(), self.row.numbers[places].tolist(), strict=True):
            fields += [layout.program.columns[place].name, str(number)]
        return " ".join(fields)

    def format_multipliers(self, layout: Layout) -> str:
        """The divisor, and each row with its multiplier, in the order of the program."""
        numbers = dict.fromkeys(range(len(layout.program.rows)), 0)
        for row, number in zip(layout.shared.rows, self.of_shared.tolist(), strict=True):
            if number:
                numbers[row.place] += row.sign * number
        for place, number in zip(layout.blocks.rows, self.of_blocks.tolist(), strict=True):
            if place is not None:
                numbers[place] = number
        fields = [str(self.divisor)]
        for place, number in numbers.items():
            if number:
                fields += [layout.program.rows[place].name, str(number)]
        return " ".join(fields)

    def format_leaf(self, layout: Layout, above: int) -> str:
        """The line which shows that no point is on the second side, below so many other splits."""
        return " ".join(["bound 0", *["0"] * above, self.format_multipliers(layout)])


@cache
def list_multipliers(count: int, divisor: int) -> Array:
    """Multipliers of so many rows, below the divisor, a line for each choice: those of few rows
    first.
    """
    left = MOST_CHOICES[divisor]
    choices = [np.zeros((0, count), np.int64)]
    for size in range(1, min(_MOST_ROWS[divisor], count) + 1):
        numbers = np.array(list(product(range(1, divisor), repeat=size)), np.int64)
        rows = np.array(list(islice(combinations(range(count), size), left // len(numbers))))
        if not len(rows):
            break
        lines = np.zeros((len(rows), len(numbers), count), np.int64)
        places = rows[:, None, :].repeat(len(numbers), 1)
        np.put_along_axis(lines, places, values=numbers[None], axis=2)
        choices.append(lines.reshape(-1, count))
        left -= len(choices[-1])
    return np.concatenate(choices)


class _Losses:
    """What rounding loses at least, in parts of the divisor's one: a line for each choice of
    multipliers of the shared rows, with a number for each remainder of the right side.

    Blocks are added one after the other.
    """

    def __init__(self, multipliers: Array, *, sides: Array, left: Array, divisor: int) -> None:
        """Of the rows' right sides, and what a solution has left of them."""
        self.divisor = divisor
        self.multipliers = multipliers
        self.least: Array = np.full((len(multipliers), divisor), np.inf)
        remainders = multipliers @ sides % divisor
        self.least[np.arange(len(multipliers)), remainders] = multipliers @ left / divisor
        # for each block and remainder the best multiplier of its row
        self._of_blocks: list[tuple[int, Array]] = []

    def add(self, block: int, losses: list[Array]) -> None:
        """Adds a block: what is lost in it by each multiplier of its row, from 0 on."""
        totals = [
            self.least[:, np.arange(-number, self.divisor - number)] + lost[:, None] / self.divisor
            for number, lost in enumerate(losses)
        ]
        self.least = np.min(totals, 0)
        self._of_blocks.append((block, np.argmin(totals, 0)))

    def keep(self, is_left: Array) -> None:
        """Keeps these lines alone."""
        self.multipliers = self.multipliers[is_left]
        self.least = self.least[is_left]
        self._of_blocks = [(block, best[is_left]) for block, best in self._of_blocks]

    def find_block_multipliers(self, line: int, remainder: int, count: int) -> Array:
        """The multipliers of the blocks' rows by which a line has this remainder."""
        multipliers = np.zeros(count, np.int64)
        for block, best in reversed(self._of_blocks):
            multipliers[block] = best[line, remainder]
            remainder = (remainder - int(best[line, remainder])) % self.divisor
        return multipliers


@dataclass(frozen=True, eq=False)
class _Broken:
    """Multipliers of an inequality that a solution breaks, the more the greater its `rank`."""

    rank: float
    divisor: int
    of_shared: Array
    of_blocks: Array


class Rounding:
    """Finds inequalities of a layout that a fractional solution breaks."""

    def __init__(self, layout: Layout) -> None:
        shared = layout.shared
        self.layout = layout
        fits = [
            max(abs(side), load) < LARGEST
            for side, load in zip(shared.right_sides, shared.largest_loads, strict=True)
        ]
        pairs = zip(shared.right_sides, fits, strict=True)
        self.sides = np.array([side if is_fit else 0 for side, is_fit in pairs], np.int64)
        self.is_usable = np.array(fits, bool)
        self.is_usable[shared.own_count :] = False

    def find_worst(self, values: Array) -> list[Inequality]:
        """The inequalities that values of all columns break worst, of different directions."""
        taken: list[Inequality] = []
        directions: list[Array] = []
        held = values > _HELD
        for inequality in self.find_broken(values):
            direction = inequality.row.numbers[held]
            direction = direction / np.linalg.norm(direction)
            if all(direction @ other < _MOST_PARALLEL for other in directions):
                directions.append(direction)
                taken.append(inequality)
            if len(taken) == _MOST_WORST:
                break
        return taken

    def find_broken(self, values: Array) -> Iterator[Inequality]:
        """Inequalities that values of all columns break, the worst broken first."""
        broken = [each for divisor in MOST_CHOICES for each in self._find_of(divisor, values)]
        broken.sort(key=lambda each: -each.rank)
        for each in broken:
            yield self._combine(each.divisor, each.of_shared, each.of_blocks)

    def _find_of(self, divisor: int, values: Array) -> Iterator[_Broken]:
        """The worst broken ones of a divisor. What is lost must leave something of the greatest
        remainder.
        """
        held = np.flatnonzero(values > _HELD)
        losses = self._measure_losses(divisor, values, held)
        if not len(losses.multipliers):
            return
        gained = np.arange(divisor) / divisor - losses.least
        remainders = gained.argmax(1)
        most = gained.max(1)
        blocks = self.layout.blocks
        for line in np.argsort(-most, kind="stable")[:_MOST_TRIED].tolist():
            if most[line] < _LEAST_BROKEN:
                break
            of_shared = losses.multipliers[line]
            of_blocks = losses.find_block_multipliers(
                line, remainder=int(remainders[line]), count=len(blocks.members)
            )
            of_held = of_blocks[blocks.of_columns[held]]
            numbers = (self.layout.shared.loads[held] @ of_shared + of_held) // divisor
            length = float(np.linalg.norm(numbers))
            yield _Broken(
                rank=most[line] / max(1.0, length),
                divisor=divisor,
                of_shared=of_shared,
                of_blocks=of_blocks,
            )

    def _measure_losses(self, divisor: int, values: Array, held: Array) -> _Losses:
        """What is lost by each choice of multipliers that doesn't lose too much."""
        blocks = self.layout.blocks
        most_lost = (divisor - 1) / divisor - _LEAST_BROKEN
        losses = self._begin_losses(divisor, values, most_lost)
        counts = len(blocks.members)
        of_held = blocks.of_columns[held]
        part = values[held]
        unused = np.maximum(0, 1 - np.bincount(of_held, part, counts))
        # blocks with the most undecided columns lose most, so many multipliers are out of question
        # soon
        undecided = np.bincount(of_held, np.minimum(part, 1 - part), counts)
        for block in sorted(set(of_held.tolist()), key=lambda block: -float(undecided[block])):
            members = held[of_held == block]
            rests = losses.multipliers @ self.layout.shared.loads[members].T
            most = divisor if blocks.rows[block] is not None else 1
            lost = [
                (rests + number) % divisor @ values[members] + unused[block] * number
                for number in range(most)
            ]
            losses.add(block, lost)
            is_left = losses.least.min(1, initial=1) < most_lost
            if _SHRINKS * is_left.sum() < len(is_left):
                losses.keep(is_left)
        return losses

    def _begin_losses(self, divisor: int, values: Array, most_lost: float) -> _Losses:
        """What is lost in the shared rows by each choice that doesn't lose more than that."""
        left = np.maximum(0, self.sides - self.layout.shared.loads.T @ values)
        rows = np.flatnonzero(self.is_usable & (left < most_lost * divisor))
        choices = list_multipliers(len(rows), divisor)
        choices = choices[choices @ left[rows] < most_lost * divisor]
        multipliers = np.zeros((len(choices), len(self.sides)), np.int64)
        multipliers[:, rows] = choices
        return _Losses(multipliers, sides=self.sides, left=left, divisor=divisor)

    def _combine(self, divisor: int, of_shared: Array, of_blocks: Array) -> Inequality:
        """What the rows with these multipliers come to."""
        layout = self.layout
        added = np.append(of_blocks, 0)[layout.blocks.of_columns]
        numbers = (layout.shared.loads @ of_shared + added) // divisor
        numbers[~layout.is_open] = 0
        limit = (int(of_shared @ self.sides) + int(of_blocks.sum())) // divisor
        return Inequality(
            row=SplitRow(numbers, limit),
            divisor=divisor,
            of_shared=of_shared,
            of_blocks=of_blocks,
        )

    def parse(self, line: str) -> Inequality:
        """What multipliers of another program's rows, which has more bidders, come to here.

        They count for the rows that are here, too.
        """
        divisor, *fields = line.split()
        numbers = dict(zip(fields[::2], map(int, fields[1::2]), strict=True))
        rows = self.layout.rows
        of_shared = [
            max(0, row.sign * numbers.get(rows[row.place].name, 0)) if is_usable else 0
            for row, is_usable in zip(self.layout.shared.rows, self.is_usable, strict=True)
        ]
        of_blocks = [
            0 if place is None else max(0, numbers.get(rows[place].name, 0))
            for place in self.layout.blocks.rows
        ]
        return self._combine(
            int(divisor),
            of_shared=np.array(of_shared, np.int64),
            of_blocks=np.array(of_blocks, np.int64),
        )
