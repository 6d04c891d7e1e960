"""The prices of the rule, in exact fractions: of all prices that cover some groups of winners and
meet each winner's floor those of least sum, and of these the nearest to the floors, by the sum of
squares.

These prices are also the nearest to a point that lies so far below the floors, by the same for each
winner, that a lower sum counts for more than anything else. So they are found as one point nearest
to another. Each group that binds pulls its winners up by a weight. Floating point proposes which
groups bind; whole numbers decide, and go on from there if others do.
"""
import math
from collections.abc import Iterable, Mapping, Sequence
from dataclasses import dataclass
from fractions import Fraction

Group = frozenset[int]  # winners, by their places

# pounds from the floors to the point that is far below them: more than the weights of 256 winners'
# groups can come to, whose numerators and denominators are at most determinants of 256 rows of
# zeros and ones, times what a group costs
_FAR = 10**600
_PROPOSED_FAR = 1000  # the same for floating point, in units of the largest gap


@dataclass(frozen=True)
class Rule:
    """What each winner pays above its floor, and what shows it.

    The weights are on groups that pay no more than they have to, a winner's floor being that of the
    group of it alone. On each winner the weights of `least` come to 1, and those of `near` to what
    it pays above its floor and `push`.
    """

    above: list[Fraction]
    least: dict[Group, Fraction]
    near: dict[Group, Fraction]
    push: Fraction

    def scale(self, parts: int) -> "WholeRule":
        """The same for prices in so many parts of a pound, all in whole numbers."""
        scale = math.lcm(*(weight.denominator for weight in self.least.values()))
        pulls = {group: parts * weight for group, weight in self.near.items()}
        push = parts * self.push
        near_scale = math.lcm(push.denominator, *(pull.denominator for pull in pulls.values()))
        return WholeRule(
            scale=scale,
            near_scale=near_scale,
            push=int(near_scale * push),
            least={group: int(scale * weight) for group, weight in self.least.items()},
            near={group: int(near_scale * pull) for group, pull in pulls.items()},
        )


@dataclass(frozen=True)
class WholeRule:
    """What shows prices, in whole numbers: on each winner the weights of `least` come to `scale`,
    and those of `near` to `near_scale` times the parts that it pays above its floor, and `push`.
    """

    scale: int
    near_scale: int
    push: int
    least: dict[Group, int]
    near: dict[Group, int]

    def list_groups(self) -> list[Group]:
        """The groups that have a weight, the smallest first."""
        return sorted({*self.least, *self.near}, key=_make_key)

    def list_numbers(self) -> list[int]:
        """All numbers that show the prices."""
        return [self.scale, self.near_scale, self.push, *self.least.values(), *self.near.values()]


def find_prices_above(gaps: Mapping[Group, int], count: int) -> Rule:
    """The prices of the rule of so many winners, above their floors, if each group has to pay its
    gap above those of its winners.
    """
    if not count:
        return Rule(above=[], least={}, near={}, push=Fraction(0))
    needs = {frozenset([winner]): 0 for winner in range(count)}
    for group in sorted(gaps, key=_make_key):
        if gaps[group] > 0 and len(group) > 1:
            needs[group] = gaps[group]
    search = _ActiveSet(needs, count)
    search.begin(propose_groups(needs, count))
    search.go_on()
    return search.make_rule()


def propose_groups(needs: Mapping[Group, int], count: int) -> list[Group]:
    """The groups that bind, as floating point has it; none if it finds none in its turns."""
    largest = max(needs.values(), default=0)
    if not largest:
        return list(needs)
    import numpy as np
    from scipy.optimize import nnls

    groups = list(needs)
    rows = np.array([[float(winner in group) for winner in range(count)] for group in groups])
    distances = [needs[group] / largest + _PROPOSED_FAR * len(group) for group in groups]
    # the least distance of a point from these rows, as Lawson and Hanson reduce it to weights of at
    # least 0
    columns = np.vstack([rows.T, np.array(distances) / _PROPOSED_FAR])
    goal = np.append(np.zeros(count), 1.0)
    try:
        weights, _ = nnls(columns, goal)
    except RuntimeError:  # too many turns
        return []
    return [group for group, weight in zip(groups, weights, strict=True) if weight > 0]


class _ActiveSet:
    """The dual method of Goldfarb and Idnani: the point that is nearest among those at which some
    groups pay just what they have to, and one more group at a time, until all pay enough. `pulls`
    are the weights of the groups that bind, all at least 0.
    """

    def __init__(self, needs: Mapping[Group, int], count: int) -> None:
        self.needs = needs
        self.count = count
        self.binding: list[Group] = []
        self.pulls: list[Fraction] = []

    def begin(self, groups: Iterable[Group]) -> None:
        """Takes those of the groups of which none follows from the others and none pulls down."""
        self.binding = _drop_dependent(list(groups))
        while self.binding:
            least, near = self._find_weights()
            self.pulls = [n + _FAR * x for x, n in zip(least, near, strict=True)]
            self.binding = [
                group for group, pull in zip(self.binding, self.pulls, strict=True) if pull >= 0
            ]
            if len(self.binding) == len(self.pulls):
                return

    def go_on(self) -> None:
        """Takes in the group that pays too little by most, until none does."""
        while True:
            point = self._find_point()
            missing = {group: need - sum_prices(group, point) for group, need in self.needs.items()}
            group = max(missing, key=lambda each: missing[each])
            if missing[group] <= 0:
                return
            self._take_in(group, missing[group])

    def make_rule(self) -> Rule:
        """The prices at the point that is found, and what shows them."""
        least, near = self._find_weights()
        above = _sum_on_winners(self.binding, near, self.count)
        ones = _sum_on_winners(self.binding, least, self.count)
        push = max([Fraction(0), *(-n / x for x, n in zip(least, near, strict=True) if x)])
        pulls = [n + push * x for x, n in zip(least, near, strict=True)]
        assert min([Fraction(0), *least, *pulls]) >= 0  # the far point is far enough
        assert all(weight == 1 for weight in ones)
        return Rule(
            above=above,
            least={group: x for group, x in zip(self.binding, least, strict=True) if x},
            near={group: pull for group, pull in zip(self.binding, pulls, strict=True) if pull},
            push=push,
        )

    def _take_in(self, group: Group, missing: Fraction) -> None:
        """Makes a group bind, which pays too little by what is missing; others may be let go for
        it.
        """
        pull = Fraction(0)
        while missing > 0:
            shares = self._find_shares(group)
            reach = sum_prices(group, self._find_moves(group, shares))
            step = missing / reach if reach else None
            first = self._find_first_at_zero(shares)
            if first is not None and (step is None or first[0] < step):
                longest, place = first
                self._pull_by(longest, shares)
                pull += longest
                missing -= longest * reach
                del self.binding[place]
                del self.pulls[place]
                continue
            assert step is not None  # winners who pay more cover any group
            self._pull_by(step, shares)
            self.binding.append(group)
            self.pulls.append(pull + step)
            return

    def _find_first_at_zero(self, shares: Sequence[Fraction]) -> tuple[Fraction, int] | None:
        """The step at which the first of the groups that bind pulls no more, and the group's
        place.
        """
        steps = [
            (pull / share, place)
            for place, (pull, share) in enumerate(zip(self.pulls, shares, strict=True))
            if share > 0
        ]
        return min(steps, default=None)

    def _pull_by(self, step: Fraction, shares: Sequence[Fraction]) -> None:
        """Takes from what the groups that bind pull what another one pulls more by a step."""
        self.pulls = [pull - step * share for pull, share in zip(self.pulls, shares, strict=True)]

    def _find_shares(self, group: Group) -> list[Fraction]:
        """How much of a group's pull is done by those that bind."""
        products = _count_common(self.binding)
        system = [
            [*row, len(other & group)] for row, other in zip(products, self.binding, strict=True)
        ]
        solution = _solve_system(system)
        assert solution is not None  # none of those that bind follows from others
        return [share for (share,) in solution]

    def _find_moves(self, group: Group, shares: Sequence[Fraction]) -> list[Fraction]:
        """Where a group's pull moves each winner if those that bind go on paying what they do."""
        moves = [Fraction(winner in group) for winner in range(self.count)]
        for other, share in zip(self.binding, shares, strict=True):
            for winner in other:
                moves[winner] -= share
        return moves

    def _find_point(self) -> list[Fraction]:
        return [pull - _FAR for pull in _sum_on_winners(self.binding, self.pulls, self.count)]

    def _find_weights(self) -> tuple[list[Fraction], list[Fraction]]:
        """The weights by which the groups that bind pay just what they have to: for each pound to
        the point far below, and beside that.
        """
        system = [
            [*row, len(group), self.needs[group]]
            for row, group in zip(_count_common(self.binding), self.binding, strict=True)
        ]
        solution = _solve_system(system)
        assert solution is not None  # none of these follows from others
        return [least for least, _ in solution], [near for _, near in solution]


def _drop_dependent(groups: list[Group]) -> list[Group]:
    """The groups without those that follow from earlier ones."""
    if _solve_system(_count_common(groups)) is not None:
        return groups
    independent: list[Group] = []
    for group in groups:
        if _solve_system(_count_common([*independent, group])) is not None:
            independent.append(group)
    return independent


def _count_common(groups: Sequence[Group]) -> list[list[int]]:
    """How many winners each two groups have in common."""
    return [[len(one & other) for other in groups] for one in groups]


def _make_key(group: Group) -> tuple[int, list[int]]:
    """By which groups are sorted: the smallest first."""
    return len(group), sorted(group)


def sum_prices(group: Group, prices: Sequence[Fraction]) -> Fraction:
    """What a group pays in all."""
    return sum((prices[winner] for winner in group), Fraction(0))


def _sum_on_winners(
    groups: Sequence[Group], weights: Sequence[Fraction], count: int
) -> list[Fraction]:
    """What the weights of the groups that a winner is in come to."""
    sums = [Fraction(0)] * count
    for group, weight in zip(groups, weights, strict=True):
        for winner in group:
            sums[winner] += weight
    return sums


def _solve_system(system: Sequence[Sequence[int]]) -> list[list[Fraction]] | None:
    """The solution of a system whose rows have the products of independent rows, and then any right
    sides; None if they depend.

    Elimination that stays in whole numbers, as Bareiss has it; of such products each pivot is above
    0.

    >>> _solve_system([[2, 1, 3], [1, 2, 3]])
    [[Fraction(1, 1)], [Fraction(1, 1)]]
    """
    rows = [list(row) for row in system]
    size = len(rows)
    before = 1
    for index in range(size):
        pivot_row = rows[index]
        pivot = pivot_row[index]
        if not pivot:
            return None
        for other, row in enumerate(rows):
            if other != index:
                rows[other] = _eliminate(row, pivot_row, index=index, before=before)
        before = pivot
    return [[Fraction(value, before) for value in row[size:]] for row in rows]


def _eliminate(
    row: Sequence[int], pivot_row: Sequence[int], *, index: int, before: int
) -> list[int]:
    """A row without the variable of this index; `before` is the pivot before."""
    pivot = pivot_row[index]
    factor = row[index]
    pairs = zip(row, pivot_row, strict=True)
    return [(pivot * value - factor * taken) // before for value, taken in pairs]
