"""What is exact in a search: bounds from prices of the shared rows, and the lines that show them.

Given prices, the best multiplier of each block follows: the least of its priced costs. So a bound
needs only prices, however they were found, and is exact in whole numbers.
"""
from collections import Counter
from collections.abc import Iterable
from functools import cached_property

import numpy as np

from wdp.certify.layout import Array, Layout, Part
from wdp.certify.nodes import Node

_EXACT_IN_64_BITS = 2**59
# above every number of 64 bits, and of any size that fits; for the columns that don't count
_NEVER = 2**62
_NEVER_AT_ANY_SIZE = 10**60
_LARGEST_MULTIPLIER = 10**18
_LARGEST_LEAF = 2**126


class Bound:
    """What prices of the shared rows, at a scale, show for the points of a node: no point's scaled
    objective is below `value`.

    `parts` are what each block adds to the value; they are exact. If a part of the columns is given
    that has all that the node allows, no others are looked at.
    """

    def __init__(
        self,
        layout: Layout,
        node: Node,
        *,
        prices: list[int],
        scale: int = 1,
        part: Part | None = None,
    ) -> None:
        self.layout = layout
        self.node = node
        self.scale = scale
        self.prices = prices
        self._part = part
        shared = layout.shared
        size = scale * layout.largest_cost
        size += sum(
            abs(price) * load for price, load in zip(prices, shared.largest_loads, strict=True)
        )
        fits = size < _EXACT_IN_64_BITS
        self._dtype = np.int64 if fits else object
        self._priced_part = self.priced if part is None else self._price(part.costs, part.loads)
        self.parts = self._find_parts(_NEVER if fits else _NEVER_AT_ANY_SIZE)
        right = sum(price * side for price, side in zip(prices, shared.right_sides, strict=True))
        self.value = scale * layout.constant + sum(self.parts) - right

    @cached_property
    def priced(self) -> Array:
        """The scaled costs of all columns with what the prices add, which are exact."""
        return self._price(self.layout.costs, self.layout.shared.loads)

    def _price(self, costs: Array, loads: Array) -> Array:
        """The scaled costs of columns with what the prices add for these loads."""
        priced: Array = self.scale * costs.astype(self._dtype)
        priced += loads.astype(self._dtype, copy=False) @ np.array(self.prices, self._dtype)
        return priced

    def _find_parts(self, never: int) -> list[int]:
        """What each block adds: the least priced cost, and at most 0 if the block needn't win.

        `never` is above every priced cost. Any number is right for a block that has to win and has
        no column left.
        """
        parts = [0] * len(self.layout.blocks.members)
        for block in self.node.forced:
            parts[block] = 1
        for block, least in self._find_least(never):
            if least < never:
                parts[block] = least if block in self.node.forced else min(0, least)
        return parts

    def _find_least(self, never: int) -> Iterable[tuple[int, int]]:
        """Blocks with the least priced cost of an allowed column, or with `never`."""
        if self._part is None:
            counted = np.where(self.node.allowed, self.priced, never)
            return enumerate(self.layout.blocks.find_least(counted))
        counted = np.where(self.node.allowed[self._part.places], self._priced_part, never)
        return self._part.find_least(counted)

    def compute_gap(self, least: int) -> int:
        """How far it is from showing that no objective is below `least`: below 0 if it shows
        that.
        """
        return self.scale * (least - 1) - self.value

    def compute_reduced_costs(self, part: Part | None = None) -> Array:
        """How much more the bound would be with a column at 1; for the allowed columns of a part,
        or of all.
        """
        of_columns = self.layout.blocks.of_columns
        parts: Array = np.array([*self.parts, 0], self._dtype)
        if part is None:
            return np.subtract(self.priced, parts[of_columns])
        is_own = part is self._part
        priced = self._priced_part if is_own else self._price(part.costs, part.loads)
        return np.subtract(priced, parts[of_columns[part.places]])

    def find_costly(self, gap: int) -> tuple[Array, Array]:
        """The places of the allowed columns whose reduced cost is above a gap, and that cost."""
        part = self._part
        reduced = self.compute_reduced_costs(part)
        places = np.arange(self.layout.count) if part is None else part.places
        is_costly = self.node.allowed[places] & (reduced > gap)
        return places[is_costly], reduced[is_costly]


class Leaf:
    """The multipliers by which a bound is shown at a node, by default at its own.

    `last` is an extra multiplier for the last cut of the node, which adds as much to it. `cuts` has
    the multipliers of the node's cuts, and `blocks` those of the blocks' rows.
    """

    def __init__(self, bound: Bound, node: Node | None = None, last: int = 0) -> None:
        blocks = bound.layout.blocks
        self.bound = bound
        self.node = node or bound.node
        self.layout = bound.layout
        self.cuts = [0] * len(self.node.path)
        self.blocks = [
            0 if row is None else -min(0, part)
            for part, row in zip(bound.parts, blocks.rows, strict=True)
        ]
        self._reduced: Array = bound.priced + blocks.spread(self.blocks, bound.priced.dtype)
        for block, place in self.node.forced.items():
            self._force(block, place)
        if last:
            self._raise_cut(len(self.cuts) - 1, last)
        for place, cut in enumerate(self.node.path):
            if not cut.is_high:
                self._raise_cut(place, max(0, -int(self._reduced[cut.places].min())))

    def _force(self, block: int, place: int) -> None:
        """Has the columns within the cut at this place pay for it, and the block's row for those
        outside.
        """
        members = self.layout.blocks.members[block]
        part = self.bound.parts[block]
        is_within = np.zeros(self.layout.count, bool)
        is_within[self.node.path[place].places] = True
        outside = members[~is_within[members]]
        least = int(self.bound.priced[outside].min(initial=0))
        has_row = self.layout.blocks.rows[block] is not None
        multiplier = max(0, -part, -least) if has_row else 0
        self._reduced[members] += multiplier - self.blocks[block]
        self.blocks[block] = multiplier
        self._raise_cut(place, max(0, part + multiplier))

    def _raise_cut(self, place: int, multiplier: int) -> None:
        """Adds to the multiplier of a cut."""
        cut = self.node.path[place]
        self.cuts[place] += multiplier
        self._reduced[cut.places] += -multiplier if cut.is_high else multiplier

    def _collect_rows(self) -> dict[int, int]:
        """The multipliers of the rows that have one, by the places of the rows in their order."""
        multipliers: Counter[int] = Counter()
        for place, number in zip(self.layout.blocks.rows, self.blocks, strict=True):
            if place is not None:
                multipliers[place] = number
        for row, price in zip(self.layout.shared.rows, self.bound.prices, strict=True):
            multipliers[row.place] += row.sign * price
        return {place: number for place, number in sorted(multipliers.items()) if number}

    def fits(self) -> bool:
        """Whether each number is at most 10^18, and the size of the leaf (docs/REFERENCE.md) is
        below 2^126.
        """
        rows = self._collect_rows()
        multipliers = [self.bound.scale, *self.cuts, *(abs(number) for number in rows.values())]
        if max(multipliers) > _LARGEST_MULTIPLIER:
            return False
        return self._measure(rows) < _LARGEST_LEAF

    def _measure(self, rows: dict[int, int]) -> int:
        """The size of the leaf, which has these multipliers of rows."""
        layout = self.layout
        shared = layout.shared
        loads = zip(shared.rows, shared.largest_loads, strict=True)
        widest = {row.place: load for row, load in loads}
        # the bound is as large as all costs, and one more
        column = 2 * self.bound.scale * (layout.largest_cost + 1)
        column += sum(abs(number) * widest.get(place, 1) for place, number in rows.items())
        pairs = zip(self.cuts, self.node.path, strict=True)
        column += sum(number * len(cut.places) for number, cut in pairs)
        right = 2 * sum(self.cuts)
        right += sum(abs(number * layout.rows[place].right_side) for place, number in rows.items())
        # the checker counts each column of a split's form, and one more on its right side
        above = sum(rows.get(place, 0) * max(1, widest[place]) for place in layout.split_places)
        return (column + above * layout.count) * (layout.count + 1) + right + 2 * above

    def format(self) -> str:
        """The line of a certificate. The multipliers of splits above the root come first."""
        rows = self._collect_rows()
        numbers = [self.bound.scale]
        numbers += [rows.pop(place, 0) for place in self.layout.split_places]
        numbers += self.cuts
        fields = ["bound", *map(str, numbers)]
        for place, number in rows.items():
            fields += [self.layout.rows[place].name, str(number)]
        return " ".join(fields)
