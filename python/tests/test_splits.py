"""Splits of a node: they part the columns with a value, and of those that are tried the strongest one
is taken.
"""
import random
from collections.abc import Iterator

import numpy as np
import pytest

from test_problem import make_wide_program
from wdp.certify import splits
from wdp.certify.bounds import Bound
from wdp.certify.layout import Array, Layout
from wdp.certify.nodes import Node
from wdp.certify.relaxation import Relaxation, Visit
from wdp.certify.root import find_root_prices
from wdp.certify.search import CertificateSearch
from wdp.certify.splits import Parting, Scores, Split, Trial, Way, choose_strongest, find_partings


def draw_partings(seed: int, *, is_forced: bool = False) -> tuple[Layout, Node, Array, Array]:
    """A program, a node of it, and columns with values."""
    draw = random.Random(seed)
    layout = Layout(make_wide_program(seed, bidders=4, bids=20))
    places = np.array(sorted(draw.sample(range(layout.count), 12)))
    values = np.array([draw.choice([0.25, 0.5]) for _ in places])
    node = Node(layout.is_open)
    if is_forced:
        node = node.require(layout, layout.blocks.members[0])
    return layout, node, places, values


@pytest.mark.parametrize("is_forced", [False, True])
@pytest.mark.parametrize("seed", range(5))
def test_partings_differ_and_the_most_even_come_first(seed: int, is_forced: bool) -> None:
    layout, node, places, values = draw_partings(seed, is_forced=is_forced)
    partings = find_partings(layout, node, places, values)
    assert partings
    sets = []
    for parting in partings:
        split = parting.make_split(layout, node)
        assert {*layout.blocks.of_columns[split.places]} == {parting.block}
        held = np.isin(places, split.places)
        assert abs(values[held].sum() - parting.part) < 1e-9
        sets.append(held.tobytes())
    assert len({*sets}) == len(sets)
    evenness = [parting.evenness for parting in partings]
    assert evenness == sorted(evenness, reverse=True)


@pytest.mark.parametrize("is_forced", [False, True])
@pytest.mark.parametrize("seed", range(5))
def test_all_ways_of_a_parting_choose_the_same_columns_with_a_value(
    seed: int, is_forced: bool
) -> None:
    """The split is made of the way that chooses the fewest columns in all."""
    layout, node, places, values = draw_partings(seed, is_forced=is_forced)
    for parting in find_partings(layout, node, places, values):
        members = layout.blocks.members[parting.block]
        loads = layout.shared.loads[members]
        chosen = [way.choose(members, loads) for way in parting.ways]
        held = {tuple(np.intersect1d(places, each)) for each in chosen}
        assert len(held) == 1
        split = parting.make_split(layout, node)
        assert len(split.places) == min(map(len, chosen))


def make_parting(block: int, part: float) -> Parting:
    """A parting of a block by whether it wins."""
    return Parting(part, block, ways=[Way(block, None)])


def test_without_scores_the_most_even_partings_come_first() -> None:
    partings = [make_parting(1, 0.9), make_parting(2, 0.5), make_parting(3, 0.3)]
    assert [parting.block for parting in Scores().rank(partings)] == [2, 3, 1]


def test_ways_that_gained_much_come_first() -> None:
    """Of a way that is new as much is expected as of all that were tried."""
    scores = Scores()
    scores.add([Way(1, None)], 0.9)
    scores.add([Way(2, None)], 0.1)
    partings = [make_parting(2, 0.5), make_parting(3, 0.5), make_parting(1, 0.5)]
    assert [parting.block for parting in scores.rank(partings)] == [1, 3, 2]


def test_the_mean_score_of_all_ways_of_a_parting_counts() -> None:
    scores = Scores()
    for score in (0.2, 0.4):
        scores.add([Way(1, None)], score)
    scores.add([Way(1, 0, load=2)], 0.6)
    scores.add([Way(2, None)], 0.35)
    both = Parting(0.5, 1, ways=[Way(1, None), Way(1, 0, load=2)])
    assert scores.rank([make_parting(2, 0.5), both])[0] is both
    scores.add([Way(1, None)], 0.0)
    assert scores.rank([make_parting(2, 0.5), both])[0] is not both


def open_visits(seed: int) -> Iterator[tuple[Visit, list[Parting], float, float]]:
    """Visits at which a search is undecided, with the partings there, what the relaxation has reached,
    and the limit.
    """
    program = make_wide_program(seed, bidders=5, bids=20)
    search = CertificateSearch(Layout(program), set())
    search.find_certificate()
    layout = Layout(program)
    prices = find_root_prices(layout, 60)
    bound = Bound(layout, Node(layout.is_open), prices=prices)
    relaxation = Relaxation(bound, max(1, bound.compute_gap(search.least)))
    limit = relaxation.to_units(search.least - 1)
    nodes = [bound.node]
    for members in layout.blocks.members:
        nodes.append(bound.node.require(layout, members))
        nodes.append(bound.node.exclude(members))
    for node in nodes:
        relaxation.enter(node)
        reached = relaxation.solve()
        assert reached is not None
        values = relaxation.read_values()
        held = np.flatnonzero(values > 1e-6)
        partings = find_partings(layout, node, relaxation.core[held], values[held])
        if partings and reached < limit:
            yield Visit(node, relaxation, relaxation.find_basis()), partings, reached, limit


def measure_product(visit: Visit, split: Split, *, reached: float, limit: float) -> float:
    """The product of what both sides gain, each solved to its end or the limit."""
    product = 1.0
    sides = [
        visit.node.exclude(split.places),
        visit.node.require(visit.relaxation.layout, split.places),
    ]
    for side in sides:
        visit.relaxation.enter(side, visit.basis)
        raised = visit.relaxation.solve()
        assert raised is not None
        product *= max(1e-9, min(limit, raised) - reached)
    return product


@pytest.mark.parametrize("seed", range(4))
def test_the_strongest_split_is_taken(monkeypatch: pytest.MonkeyPatch, seed: int) -> None:
    """If all are tried, no other has a greater product of gains, though not each second side is
    solved.
    """
    monkeypatch.setattr(splits, "MOST_IDLE", 10**9)
    monkeypatch.setattr(splits, "MOST_TRIES", 10**9)
    monkeypatch.setattr(splits, "_STEPS", 10**6)
    monkeypatch.setattr(splits, "_NEARLY_ALL", 10**9)
    count = 0
    for visit, partings, reached, limit in open_visits(seed):
        count += 1
        best = choose_strongest(visit, partings, Scores(), reached=reached, limit=limit)
        assert best is not None
        taken = measure_product(visit, best, reached=reached, limit=limit)
        for parting in partings:
            split = parting.make_split(visit.relaxation.layout, visit.node)
            product = measure_product(visit, split, reached=reached, limit=limit)
            assert product <= taken * (1 + 1e-6)
    assert count


@pytest.mark.parametrize("seed", range(4))
def test_tries_end_when_several_in_turn_gain_less(
    monkeypatch: pytest.MonkeyPatch, seed: int
) -> None:
    scored: list[float] = []
    monkeypatch.setattr(Scores, "add", lambda self, ways, score: scored.append(score))
    monkeypatch.setattr(splits, "MOST_IDLE", 1)
    for visit, partings, reached, limit in open_visits(seed):
        scored.clear()
        choose_strongest(visit, partings, Scores(), reached=reached, limit=limit)
        assert scored
        assert all(0 <= score <= 1 + 1e-9 for score in scored)
        assert all(one < other for one, other in zip(scored[:-2], scored[1:-1], strict=True))


@pytest.mark.parametrize("low, high, is_over", [(1, 1, True), (1, 0.9, False), (0.9, 1, False)])
def test_a_trial_is_over_if_both_sides_are_shown(
    monkeypatch: pytest.MonkeyPatch, low: float, high: float, is_over: bool
) -> None:
    visit, partings, reached, limit = next(open_visits(0))
    gains = iter([low, high])
    monkeypatch.setattr(Trial, "_measure_gain", lambda self, side: next(gains) * self.missing)
    trial = Trial(visit, reached=reached, limit=limit)
    split = partings[0].make_split(visit.relaxation.layout, visit.node)
    assert trial.try_split(split) == pytest.approx((low * high) ** 0.5)
    assert trial.is_over() == is_over
    assert trial.best is split


def test_a_side_that_gains_too_little_ends_a_try(monkeypatch: pytest.MonkeyPatch) -> None:
    """If the second side can't make up for the first one, it isn't solved, and its gain counts as a
    half.
    """
    visit, partings, reached, limit = next(open_visits(0))
    gains = iter([0.5, 0.5, 0.25])
    monkeypatch.setattr(Trial, "_measure_gain", lambda self, side: next(gains) * self.missing)
    trial = Trial(visit, reached=reached, limit=limit)
    split = partings[0].make_split(visit.relaxation.layout, visit.node)
    assert trial.try_split(split) == pytest.approx(0.5)
    assert trial.try_split(split) == pytest.approx((0.25 * 0.5) ** 0.5)
    assert trial.idle == 1
    assert list(gains) == []


def test_nothing_is_chosen_where_all_is_decided() -> None:
    visit, _, reached, limit = next(open_visits(0))
    assert choose_strongest(visit, [], Scores(), reached=reached, limit=limit) is None
