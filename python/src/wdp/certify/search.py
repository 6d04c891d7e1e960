"""Branch and bound that leaves a certificate: each leaf is shown in whole numbers, and floating
point only guides.

The tree is searched depth first, in the order of its text: the tasks are a stack, whose last one is
the next. A split has its low side first, on which none of its columns is 1, and the high side after
all that the low one leads to; so the high side is put on the stack before the low one.

Objectives are minimised, and whole. A node is shown once its bound is above `least - 1`, so that no
point below the node is better than the best one that is known. The gap is by how much a bound
misses that: at 0 and above it has to be made up for, and below 0 the node is shown. Prices are
whole, too; at a scale of 16 they are prices of 16 times the objective, and the gap is in sixteenths
then.

If a bound is missed by little, columns whose reduced cost is above the gap are fixed to 0 by a
split of their own, whose second side the same prices show.
"""
import contextlib
import math
from dataclasses import dataclass

import numpy as np

from wdp.certify.bounds import Bound, Leaf
from wdp.certify.layout import LARGEST_TABLE, Array, Layout
from wdp.certify.limits import Clock, LimitReached, TooLarge
from wdp.certify.nodes import Node
from wdp.certify.relaxation import POSITIVE, Relaxation, Visit
from wdp.certify.root import find_nearest, find_root_prices
from wdp.certify.rounding import Inequality, Rounding
from wdp.certify.splits import Scores, choose_strongest, find_partings, halve
from wdp.certify.strengthening import Strengthening
from wdp.certify.tree import Tree, Written
from wdp.certify.unfinished import Unfinished
from wdp.progress import Say, say_nothing
from wdp.texts.refusals import Refused

_SCALES = (1, 2**4, 2**8, 2**12, 2**16, 2**20)
# columns are fixed if this part of them goes; at the root, from its second round on
_NODE_PART = 0.3
_ROOT_PART = 0.1
# the relaxation is made anew if this part is left of so many columns
_SHRINKS_AT = 0.6
_SMALL = 60
# units of cost are a thousandth of the gap; with fewer of them left the search begins again
_FEWEST_UNITS = 100
_ROUNDS = 8  # at the root
# before rows are rounded, unless it is known which are of use: there are dozens of inequalities, each
# of which may name most of the program's columns
_PLAIN_LINES = 100
_COLUMNS_OF_LINE = 4
# so many columns of each block, and lines of a certificate, when a good point is looked for
_PROMISING = 40
_PROMISING_LINES = 400
_OVERSTEPS = 1e-7
# a relaxation may stop at a limit; this much above it rounding doesn't matter
_MARGIN = 1e-4
_LEAST_MARGIN = 1e-6


@dataclass(frozen=True)
class Hints:
    """What is known before a search: prices of the layout's shared rows at the root, multipliers of
    rows that another group's search found, and the tree of a search that ended at a limit.
    """

    prices: list[int] | None = None
    known_rows: str = ""
    earlier: str = ""


class CertificateSearch:
    """The search for the certificate that a point is optimal, or for a better point.

    `ones` has the places of the columns at 1 of the best point that is known, and `least` its
    objective: the search goes on at each better point that it finds. `root_value` is a bound on all
    objectives.

    Searches for other points as good are made of this one: they take points in another way, branch
    also where they have found one, and end at a better one.
    """

    def __init__(
        self,
        layout: Layout,
        ones: set[int],
        *,
        seconds: float | None = None,
        lines: float = math.inf,
        say: Say = say_nothing,
        hints: Hints = Hints(),
    ) -> None:
        """A search that may take so many seconds, and write so many lines."""
        self.layout = layout
        self.program = layout.program
        self.ones = ones
        self.least = layout.program.compute_objective(ones)
        self.clock = Clock(seconds, say)
        self.most_lines = lines
        self.hints = hints
        self.tree = Tree()
        self.scores = Scores()
        self.root_value = -math.inf
        # (whether a tree that begins at the root has a good point looked for first)
        self._begins_with_promising = ones <= layout.fixed_ones
        self._is_strong = False

    def find_certificate(self) -> bytes:
        """The text that shows that no objective is below `least`, once the search is over.

        Raises LimitReached, and TooLarge if the numbers are too large for a certificate.
        """
        prices = self.hints.prices
        if prices is None:
            prices = find_root_prices(self.layout, self.clock.count_left())
        at_root: Relaxation | None = None
        if self.hints.earlier:
            self._go_on(prices, Unfinished.parse(self.hints.earlier))
        else:
            at_root = self._open_root(prices)
        while self.tree.tasks:
            self._check_limits()
            before = self.least
            self._do_task(self.tree.tasks.pop())
            if not self.tree.tasks:
                break  # (a tree that is complete isn't begun again)
            if at_root and self.least < before and self._is_gap_small(at_root):
                self.clock.say("the search begins again")
                at_root = self._open_root(prices)
            if self._is_worth_rows() and self._strengthen(prices):
                prices = find_root_prices(self.layout, self.clock.count_left())
                at_root = self._open_root(prices)
        return self.tree.format_certificate()

    def _do_task(self, task: Visit | Leaf | Written) -> None:
        """Does the next task."""
        if isinstance(task, Visit):
            self._visit(task)
        elif isinstance(task, Written):
            self.tree.write_leaf(task)
        else:
            self._write_surely(task)

    def _is_gap_small(self, at_root: Relaxation) -> bool:
        """Whether the gap has become so small that a relaxation's units are too coarse for it."""
        return at_root.to_units(self.least - 1) < _FEWEST_UNITS

    def _is_worth_rows(self) -> bool:
        """Whether it is time to add inequalities, which is done once."""
        if self._is_strong or not self.tree.lines:
            return False
        few = max(_PLAIN_LINES, self.layout.count // _COLUMNS_OF_LINE)
        return bool(self.hints.known_rows) or len(self.tree.lines) > few

    def _strengthen(self, prices: list[int]) -> bool:
        """Adds inequalities by rounding, once; whether there are any."""
        self._is_strong = True
        layout = self.layout
        bound = Bound(layout, Node(layout.is_open), prices=prices)
        gap = bound.compute_gap(self.least)
        is_open = layout.is_open & (bound.compute_reduced_costs() <= gap)
        strengthening = Strengthening(layout, is_open, self.least)
        inequalities = strengthening.find_inequalities(
            self.clock.count_left(), known=self.hints.known_rows
        )
        self.clock.report_event(f"{len(inequalities)} inequalities by rounding")
        rows = len(layout.shared.rows) + len(inequalities)
        if not inequalities or layout.count * rows > LARGEST_TABLE:
            return False
        self._add_inequalities(inequalities)
        return True

    def _add_inequalities(self, inequalities: list[Inequality]) -> None:
        """Has the search below splits for these inequalities."""
        self.tree.add_inequalities(self.layout, inequalities)
        self.layout = self.layout.add_splits([inequality.row for inequality in inequalities])

    def _go_on(self, prices: list[int], unfinished: Unfinished) -> None:
        """Goes on with the tree of an earlier search, whose best point this one begins with."""
        self._is_strong = bool(unfinished.rows)
        if unfinished.rows:
            rounding = Rounding(self.layout)
            self._add_inequalities([rounding.parse(row) for row in unfinished.rows])
            prices = find_root_prices(self.layout, self.clock.count_left())
        root = Bound(self.layout, Node(self.layout.is_open), prices=prices)
        self.root_value = root.value
        nodes = unfinished.list_subtrees(self.layout)
        allowed = np.zeros(self.layout.count, bool)
        for node in nodes:
            allowed |= node.allowed
        within = Bound(self.layout, Node(allowed), prices=prices)
        relaxation = Relaxation(within, root.compute_gap(self.least))
        left = iter(nodes)
        self.tree.lines = list(unfinished.lines)
        self.tree.tasks = [
            Visit(next(left), relaxation) if line is None else Written(line)
            for line in reversed(unfinished.open)
        ]

    def _check_limits(self) -> None:
        """Ends the search at a limit, and says now and then how far it is."""
        lines = len(self.tree.lines)
        progress = f"{lines} lines, {len(self.tree.tasks)} subtrees open"
        is_late = self.clock.is_late()
        if is_late or lines > self.most_lines:
            seconds = f"time limit of {self.clock.seconds:g} seconds"
            limit = seconds if is_late else "limit of lines"
            raise LimitReached(
                f"the {limit} is reached after {progress}; {self._describe_bound()}",
                is_late=is_late,
                least=self.least,
                bound=self.root_value,
                tree=self.tree.format_unfinished(),
            )
        self.clock.report(progress)

    def _describe_bound(self) -> str:
        """What is known if the search ends early; other searches know something else."""
        return f"the least objective is between {self.root_value} and {self.least}"

    def _write(self, leaf: Leaf) -> bool:
        """Writes a leaf if its numbers fit; whether they do."""
        fits = leaf.fits()
        if fits:
            self.tree.write_leaf(leaf)
        return fits

    def _write_surely(self, leaf: Leaf) -> None:
        """Writes a leaf; TooLarge if its numbers don't fit."""
        if not self._write(leaf):
            raise TooLarge("the numbers of this program are too large for a certificate")

    def _show(self, node: Node, relaxation: Relaxation) -> bool:
        """Writes a leaf with the relaxation's prices at the first scale that shows it; whether
        there is one.
        """
        for scale in _SCALES:
            prices = relaxation.round_prices(scale)
            part = relaxation.part
            bound = Bound(self.layout, node, prices=prices, scale=scale, part=part)
            gap = bound.compute_gap(self.least)
            if gap < 0:
                return self._write(Leaf(bound))
            if gap > self.layout.rounding_loss:
                break
        return False

    def _open_root(self, prices: list[int]) -> Relaxation | None:
        """Shows the root, or begins the tree below it, with the relaxation that is returned.

        Better prices, better points and fixed columns help one another in turns.
        """
        layout = self.layout
        node = Node(layout.is_open.copy())
        self.tree.clear()
        for turn in range(_ROUNDS):
            bound = Bound(layout, node, prices=prices)
            self.root_value = max(bound.value, self.root_value)
            if turn == 0 and self._begins_with_promising and not self._is_strong:
                self._try_promising(bound)
            gap = bound.compute_gap(self.least)
            if gap < 0 and self._write(Leaf(bound)):
                return None
            node = self._fix(bound, _ROOT_PART if turn else 0)
            relaxation = self._relax_root(node, bound)
            basis = None
            if relaxation.solve(seconds=self.clock.count_left()) is None:
                break
            better = relaxation.round_prices(1)
            basis = relaxation.find_basis()
            is_better = Bound(layout, node, prices=better).value > bound.value + gap // 100
            if not self._dive(node, relaxation) and not is_better:
                break
            prices = better if is_better else prices
        self.tree.tasks.append(Visit(node, relaxation, basis))
        return relaxation

    def _relax_root(self, node: Node, bound: Bound) -> Relaxation:
        """The relaxation below the root's node, once a bound's columns are fixed."""
        layout = self.layout
        within = Bound(layout, node, prices=bound.prices)
        relaxation = Relaxation(within, bound.compute_gap(self.least))
        relaxation.enter(node)
        columns = f"{relaxation.count} of {layout.count} columns left"
        self.clock.report_event(f"to show {self.least}, root bound {bound.value}, {columns}")
        return relaxation

    def _try_promising(self, bound: Bound) -> None:
        """Searches the columns that are nearest to the choice of their blocks: a good point makes
        the gap small.
        """
        known = self.ones | self.layout.fixed_ones
        near = np.flatnonzero(find_nearest(bound, _PROMISING)).tolist()
        places = sorted({*near, *known})
        if 2 * len(places) >= self.layout.is_open.sum():
            return
        self.clock.say(f"a search of {len(places)} promising columns first")
        search = CertificateSearch(
            self.layout.restrict(places),
            {index for index, place in enumerate(places) if place in self.ones},
            seconds=self.clock.count_left(),
            lines=_PROMISING_LINES,
        )
        with contextlib.suppress(Refused):
            search.find_certificate()
        self._try_point({places[index] for index in search.ones})

    def _dive(self, node: Node, relaxation: Relaxation) -> bool:
        """Settles one block after the other as the relaxation has it; whether this finds a better
        point.
        """
        for _ in self.layout.blocks.members:
            values = relaxation.read_values()
            if self._try_point(set(relaxation.core[values > 1 - POSITIVE].tolist())):
                return True
            left = np.where((values > POSITIVE) & (values < 1 - POSITIVE), values, 0)
            is_over = relaxation.measure_overstep() > POSITIVE
            if not left.any() or is_over or self.clock.is_late():
                break
            node = node.require(self.layout, relaxation.core[[left.argmax()]])
            relaxation.enter(node)
            limit = relaxation.to_units(self.least - 1)
            reached = relaxation.solve(limit=limit, seconds=self.clock.count_left())
            if reached is None or reached > limit:
                break
        return False

    def _fix(self, bound: Bound, part: float) -> Node:
        """Fixes the columns that can't be 1, if they are at least this part of the allowed ones;
        what is left of the bound's node.
        """
        node = bound.node
        places, reduced = bound.find_costly(bound.compute_gap(self.least))
        if not len(places) or len(places) < part * node.allowed.sum():
            return node
        # the same prices show the second side, on which one of them is 1, whatever their blocks
        second = Leaf(bound, node.require_any(places), last=int(reduced.min()))
        if not second.fits():
            return node
        self.tree.write_split(self.layout, places)
        self.tree.tasks.append(second)
        return node.exclude(places)

    def _visit(self, visit: Visit) -> None:
        """Shows a subtree by its relaxation, or splits it."""
        node = visit.node
        relaxation = visit.relaxation
        if self._has_empty_block(node):
            prices = [0] * len(self.layout.shared.rows)
            self._write_surely(Leaf(Bound(self.layout, node, prices=prices, scale=0)))
            return
        relaxation.enter(node, visit.basis)
        limit = relaxation.to_units(self.least - 1)
        stop = limit + abs(limit) * _MARGIN + _LEAST_MARGIN
        reached = relaxation.solve(limit=stop, seconds=self.clock.count_left())
        is_shown = self._show(node, relaxation)
        if not is_shown and reached is not None and reached > limit:
            reached = relaxation.solve()
            is_shown = self._show(node, relaxation)
        if not is_shown and not self._fix_and_shrink(node, relaxation):
            self._branch(Visit(node, relaxation, relaxation.find_basis()), reached)

    def _has_empty_block(self, node: Node) -> bool:
        """Whether a block that has to win has no column left."""
        members = self.layout.blocks.members
        return any(not node.allowed[members[block]].any() for block in node.forced)

    def _fix_and_shrink(self, node: Node, relaxation: Relaxation) -> bool:
        """Fixes columns, if that is worth while, or goes on with a smaller relaxation; whether the
        node is then visited again.
        """
        fixed = node
        basis = relaxation.find_basis()
        if relaxation.measure_overstep() < _OVERSTEPS:
            prices = relaxation.round_prices(1)
            bound = Bound(self.layout, node, prices=prices, part=relaxation.part)
            fixed = self._fix(bound, _NODE_PART)
        left = fixed.allowed.sum()
        is_smaller = relaxation.count > _SMALL and left < _SHRINKS_AT * relaxation.count
        if is_smaller:
            left_node = Node(fixed.allowed)
            within = Bound(
                self.layout, left_node, prices=relaxation.root_prices, part=relaxation.part
            )
            relaxation = Relaxation(within, relaxation.gap)
            basis = None
        is_again = is_smaller or fixed is not node
        if is_again:
            self.tree.tasks.append(Visit(fixed, relaxation, basis))
        return is_again

    def _branch(self, visit: Visit, reached: float | None) -> None:
        """Splits where the relaxation is undecided, or if it is of no help by halves, down to
        single points.
        """
        node = visit.node
        relaxation = visit.relaxation
        values = relaxation.read_values()
        if reached is not None:
            held = np.flatnonzero(values > POSITIVE)
            partings = find_partings(self.layout, node, relaxation.core[held], values[held])
            limit = relaxation.to_units(self.least - 1)
            strongest = choose_strongest(visit, partings, self.scores, reached=reached, limit=limit)
            if strongest is not None:
                self._split_at(visit, strongest.places)
                return
        self._try_point(set(relaxation.core[values > 0.5].tolist()))
        half = halve(self.layout, node)
        if half is None:
            self._show_point(node)
        else:
            self._split_at(visit, half.places)

    def _split_at(self, visit: Visit, places: Array) -> None:
        """Splits a node into none of these columns and one of them."""
        self.tree.write_split(self.layout, places)
        low = visit.node.exclude(places)
        high = visit.node.require(self.layout, places)
        self.tree.tasks.append(Visit(high, visit.relaxation, visit.basis))
        self.tree.tasks.append(Visit(low, visit.relaxation, visit.basis))

    def _show_point(self, node: Node) -> None:
        """Shows a node with one point, by the rows that it breaks or by its objective."""
        places = np.flatnonzero(node.allowed)
        shared = self.layout.shared
        taken = [sum(map(int, loads)) for loads in shared.loads[places].T]
        pairs = zip(taken, shared.right_sides, strict=True)
        is_broken = [int(load > right_side) for load, right_side in pairs]
        self._try_point(set(places.tolist()))
        scale = int(not any(is_broken))
        self._write_surely(Leaf(Bound(self.layout, node, prices=is_broken, scale=scale)))

    def _try_point(self, places: set[int]) -> bool:
        """Takes a point of the open columns if it is feasible and better than the best one; whether
        it is.
        """
        ones = places | self.layout.fixed_ones
        objective = self.program.compute_objective(ones)
        if objective >= self.least or self.program.find_fault(ones):
            return False
        gain = self.least - objective
        self.ones = ones
        self.least = objective
        self._go_on_from_better(gain)
        return True

    def _go_on_from_better(self, gain: int) -> None:
        """Goes on from a point that was taken, and is better by this; other searches end there."""
        self.clock.report_event(f"a better point: {self.least}, by {gain}")
