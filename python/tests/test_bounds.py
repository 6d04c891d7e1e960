"""Bounds of nodes: a part of the columns gives the same as all of them."""
import random

import numpy as np
import pytest

from wdp.certify.bounds import Bound
from wdp.certify.layout import Layout
from wdp.certify.nodes import Node
from zero_one_programs import draw_small_program

# factors of costs: with the last one the sums are beyond 64 bits
FACTORS = [1, 10**9, 10**17]


def draw_node(draw: random.Random, layout: Layout) -> Node:
    """A node after a few cuts, each of some columns of one block."""
    node = Node(layout.is_open.copy())
    for members in layout.blocks.members:
        left = members[node.allowed[members]]
        if len(left) and draw.random() < 0.5:
            places = np.array(draw.sample(left.tolist(), draw.randrange(1, len(left) + 1)))
            is_high = draw.random() < 0.5
            node = node.require(layout, places) if is_high else node.exclude(places)
    return node


def draw_part(draw: random.Random, layout: Layout, node: Node) -> np.ndarray:
    """The columns that a node allows, and some other open ones."""
    more = np.array([draw.random() < 0.5 for _ in range(layout.count)], bool)
    return np.flatnonzero(node.allowed | (more & layout.is_open))


@pytest.mark.parametrize("factor", FACTORS)
@pytest.mark.parametrize("seed", range(5))
def test_a_part_of_the_columns_gives_the_same_bound(seed: int, factor: int) -> None:
    draw = random.Random(seed)
    for _ in range(100):
        program = draw_small_program(draw)
        for column in program.columns:
            column.cost *= factor
        layout = Layout(program)
        node = draw_node(draw, layout)
        part = layout.take_part(draw_part(draw, layout, node))
        prices = [draw.choice([0, 1, 3]) * factor for _ in layout.shared.rows]
        scale = draw.choice([1, 16])
        whole = Bound(layout, node, prices=prices, scale=scale)
        bound = Bound(layout, node, prices=prices, scale=scale, part=part)
        assert bound.value == whole.value
        assert bound.parts == whole.parts
        allowed = node.allowed[part.places]
        reduced = whole.compute_reduced_costs()[part.places]
        assert (bound.compute_reduced_costs(part) == reduced)[allowed].all()
        assert (whole.compute_reduced_costs(part) == reduced)[allowed].all()
        gap = draw.randrange(20) * factor
        costly = [each.tolist() for each in bound.find_costly(gap)]
        assert costly == [each.tolist() for each in whole.find_costly(gap)]


def test_no_columns_are_a_part() -> None:
    program = draw_small_program(random.Random(1))
    layout = Layout(program)
    node = Node(np.zeros(layout.count, bool))
    part = layout.take_part(np.zeros(0, int))
    prices = [1] * len(layout.shared.rows)
    bound = Bound(layout, node, prices=prices, part=part)
    assert bound.value == Bound(layout, node, prices=prices).value
    assert [len(each) for each in bound.find_costly(0)] == [0, 0]
