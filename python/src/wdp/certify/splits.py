"""Where to split a node of the search.

A node is split at what a bidder wins, not at single columns. A split asks whether a block wins
anything, or at least or at most so much of a shared row. Such sets part many columns at once, and
lead to far smaller trees than single columns do. Splits are tried by some steps of the dual
simplex, one after the other, until several in turn raise the bounds of both sides less than the
best one. The first ones are those of which most is expected: they are even, and the same questions
gained much at earlier nodes.
"""
from collections.abc import Iterator
from dataclasses import dataclass
from math import sqrt
from typing import NamedTuple

from wdp.certify.layout import Array, Layout
from wdp.certify.nodes import Node
from wdp.certify.relaxation import POSITIVE, Visit

MOST_TRIES = 32  # at a node
MOST_IDLE = 6  # tries in turn that gain less than the best one
_STEPS = 40  # of the dual simplex for each side
_UNDECIDED = 1e-5
_LEAST_GAIN = 1e-9
_NEARLY_ALL = 0.9999  # of what is missing


@dataclass(frozen=True, eq=False)
class Split:
    """Columns of one block, of which a fractional solution takes `part` in all."""

    places: Array
    part: float


class Way(NamedTuple):
    """The columns of a block that take at least `load` of a shared row, or with the sign -1 at
    most; without a row, all of them.
    """

    block: int
    row: int | None
    load: int = 0
    sign: int = 1

    def choose(self, members: Array, loads: Array) -> Array:
        """The columns among these, of which `loads` has what each takes of each row."""
        if self.row is None:
            return members
        of_row = loads[:, self.row]
        chosen: Array = members[of_row >= self.load if self.sign > 0 else of_row <= self.load]
        return chosen


@dataclass(frozen=True)
class _Held:
    """The columns of a block that have a value, and what each takes of the program's own shared
    rows.
    """

    block: int
    values: list[float]
    loads: list[list[int]]

    @property
    def is_undecided(self) -> bool:
        """Whether a value is neither 0 nor 1."""
        return len(self.values) > 1 or self.values[0] < 1 - POSITIVE

    def add_up(self, chosen: int) -> float:
        """What those columns have in all whose bits are set."""
        return sum(value for bit, value in enumerate(self.values) if chosen >> bit & 1)


@dataclass(frozen=True)
class Parting:
    """What some of a block's columns with a value have in all, and the ways that choose just
    these.
    """

    part: float
    block: int
    ways: list[Way]

    @property
    def is_undecided(self) -> bool:
        """Whether the part is neither 0 nor 1."""
        return _UNDECIDED < self.part < 1 - _UNDECIDED

    @property
    def evenness(self) -> float:
        """1 if the part is a half, and 0 if it is nothing or all."""
        return 1 - 2 * abs(self.part - 0.5)

    def make_split(self, layout: Layout, node: Node) -> Split:
        """The smallest split of a node by one of the ways."""
        members = layout.blocks.members[self.block]
        members = members[node.allowed[members]]
        loads = layout.shared.loads[members]
        chosen = (way.choose(members, loads) for way in self.ways)
        return Split(min(chosen, key=len), self.part)


class Scores:
    """What the ways to split have gained at the nodes before.

    The score of a try is the geometric mean of what its two sides gained, as parts of what is
    missing at the node: 1 if both sides are shown.
    """

    def __init__(self) -> None:
        self._sums: dict[Way, float] = {}
        self._counts: dict[Way, int] = {}
        self._sum = 0.0
        self._count = 0

    def add(self, ways: list[Way], score: float) -> None:
        """Takes the score of a try."""
        self._sum += score
        self._count += 1
        for way in ways:
            self._sums[way] = self._sums.get(way, 0.0) + score
            self._counts[way] = self._counts.get(way, 0) + 1

    def rank(self, partings: list[Parting]) -> list[Parting]:
        """The partings of which most is expected first."""
        return sorted(partings, key=lambda parting: -parting.evenness * self._expect(parting.ways))

    def _expect(self, ways: list[Way]) -> float:
        """The mean score of some ways so far, or of all if they are new."""
        known = [way for way in ways if way in self._counts]
        if not known:
            return self._sum / self._count if self._count else 1.0
        return sum(map(self._sums.__getitem__, known)) / sum(map(self._counts.__getitem__, known))


def find_partings(layout: Layout, node: Node, places: Array, values: Array) -> list[Parting]:
    """Where the values of these columns are undecided, no two alike for the columns, the most even
    ones first.
    """
    partings = [
        parting
        for held in _group_by_block(layout, places, values)
        for parting in _find_partings(held, is_forced=held.block in node.forced)
    ]
    return sorted(partings, key=lambda parting: -parting.evenness)


def _group_by_block(layout: Layout, places: Array, values: Array) -> list[_Held]:
    """These columns by their blocks, without the blocks that are decided."""
    by_block: dict[int, _Held] = {}
    blocks = layout.blocks.of_columns[places].tolist()
    all_loads = layout.shared.loads[places, : layout.shared.own_count].tolist()
    for block, value, loads in zip(blocks, values.tolist(), all_loads, strict=True):
        held = by_block.setdefault(block, _Held(block, values=[], loads=[]))
        held.values.append(value)
        held.loads.append(loads)
    return [held for held in by_block.values() if held.is_undecided]


def _list_ways(held: _Held, *, is_forced: bool) -> Iterator[tuple[Way, int]]:
    """The ways to choose some of a block's columns, each with the bits of those that it chooses."""
    everything = (1 << len(held.values)) - 1
    if not is_forced:
        yield Way(held.block, None), everything
    for row, loads in enumerate(zip(*held.loads, strict=True)):
        of_load: dict[int, int] = {}
        for bit, load in enumerate(loads):
            of_load[load] = of_load.get(load, 0) | 1 << bit
        below = 0
        for load in sorted(of_load):
            if load != 0:
                yield Way(held.block, row, load), everything ^ below
            below |= of_load[load]
            if not is_forced:
                yield Way(held.block, row, load, -1), below


def _find_partings(held: _Held, *, is_forced: bool) -> list[Parting]:
    """Each set of the columns with a value that some ways choose, if its part in all is
    undecided.
    """
    partings: dict[int, Parting] = {}
    for way, chosen in _list_ways(held, is_forced=is_forced):
        if chosen not in partings:
            partings[chosen] = Parting(held.add_up(chosen), held.block, ways=[])
        partings[chosen].ways.append(way)
    return [parting for parting in partings.values() if parting.is_undecided]


def halve(layout: Layout, node: Node) -> Split | None:
    """A split of the block that is least settled, whatever a solution says; None if each block is
    settled.
    """
    open_members = [members[node.allowed[members]] for members in layout.blocks.members]
    unsettled = [len(places) - (block in node.forced) for block, places in enumerate(open_members)]
    most = max(unsettled, default=0)
    if most <= 0:
        return None
    block = unsettled.index(most)
    places = open_members[block]
    if block in node.forced:
        places = places[: len(places) // 2]
    return Split(places, 0.5)


class Trial:
    """Tries splits of a node whose relaxation has reached an objective, by some steps of the dual
    simplex. A side is shown at the limit.

    `best` is the split whose sides have the greatest product of gains, and `idle` how many tries
    there were since that one.
    """

    def __init__(self, visit: Visit, *, reached: float, limit: float) -> None:
        self.best: Split | None = None
        self.idle = 0
        self.visit = visit
        self.reached = reached
        self.missing = max(_LEAST_GAIN, limit - reached)
        self._greatest = 0.0

    def try_split(self, split: Split) -> float:
        """Measures the gains of both sides; the score (see Scores).

        If the second side can't make up for what the first one lacks, it counts as a half.
        """
        low = self._measure_gain(self.visit.node.exclude(split.places))
        high = self.missing / 2
        is_hopeful = low * self.missing > self._greatest
        if is_hopeful:
            node = self.visit.node.require(self.visit.relaxation.layout, split.places)
            high = self._measure_gain(node)
        self.idle += 1
        if is_hopeful and low * high > self._greatest:
            self.best = split
            self.idle = 0
            self._greatest = low * high
        return sqrt(low * high) / self.missing

    def is_over(self) -> bool:
        """Whether no more splits are worth a try."""
        return self.idle >= MOST_IDLE or self._greatest >= (_NEARLY_ALL * self.missing) ** 2

    def _measure_gain(self, side: Node) -> float:
        """By how much some steps raise the objective of a side, up to the limit."""
        relaxation = self.visit.relaxation
        relaxation.enter(side, self.visit.basis)
        limit = self.reached + self.missing
        raised = relaxation.solve(limit=limit, steps=_STEPS)
        gain = 0.0 if raised is None else min(limit, raised) - self.reached
        return max(_LEAST_GAIN, gain)


def choose_strongest(
    visit: Visit, partings: list[Parting], scores: Scores, *, reached: float, limit: float
) -> Split | None:
    """The split that gains most of those that are tried at a node, whose relaxation has reached an
    objective. A side is shown at the limit.
    """
    trial = Trial(visit, reached=reached, limit=limit)
    for parting in scores.rank(partings)[:MOST_TRIES]:
        split = parting.make_split(visit.relaxation.layout, visit.node)
        scores.add(parting.ways, trial.try_split(split))
        if trial.is_over():
            break
    return trial.best
