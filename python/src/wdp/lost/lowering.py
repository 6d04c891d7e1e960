"""The auction that is left to the others if a bid wins: its lots are taken from the supply, what it
loads the pools with from their caps, and its bidder is out.

It is made of the program that the package holds in memory: other right sides, fewer columns. The
bids of others that don't fit any more are left out, row by row, for the certificate.
"""
from collections.abc import Mapping, Sequence
from dataclasses import dataclass, replace

import numpy as np

from wdp.certify.layout import Array, Layout
from wdp.certify.problem import Problem
from wdp.texts.accepted import AcceptedRules, Bid
from wdp.texts.zero_one import Row, ZeroOne


@dataclass(frozen=True)
class UnfitColumns:
    """Columns of which none fits into what a row has left: the row's name, what the winning bid
    takes of it, their names, and the least that one of them would take.
    """

    row: str
    taken: int
    names: Sequence[str]
    least: int


@dataclass(frozen=True)
class Lowered:
    """The problem that is left to the others, and the columns of others that don't fit."""

    problem: Problem
    unfit: Sequence[UnfitColumns]


def measure_taken(rules: AcceptedRules, bid: Bid) -> dict[str, int]:
    """What a bid takes of each row of categories and pools, by the row's name."""
    taken = {f"C{number}": count for number, count in enumerate(bid.lots, 1)}
    for number, pool in enumerate(rules.pools, 1):
        taken[f"P{number}"] = rules.load(pool, bid.lots)
    return taken


def lower(problem: Problem, bidder: int, taken: Mapping[str, int]) -> Lowered:
    """The problem of all but this bidder, by its number in the rules, in which rows have as much
    less as is taken of them.
    """
    layout = problem.layout
    rows = _lower_rows(problem.program.rows, taken)
    is_left = _find_others(problem, bidder)
    unfit: list[UnfitColumns] = []
    for place, row in enumerate(rows):
        if not taken.get(row.name):
            continue
        columns = _find_too_large(layout, place, row.right_side, is_left)
        if len(columns):
            is_left[columns] = False
            unfit.append(_describe_unfit(layout, place, columns=columns, taken=taken[row.name]))
    places = np.flatnonzero(is_left)
    program = ZeroOne(rows, [problem.program.columns[column] for column in places])
    lowered = Problem(Layout(program, layout.entries[:, places]), problem.known_rows)
    return Lowered(lowered, unfit)


def _lower_rows(rows: Sequence[Row], taken: Mapping[str, int]) -> list[Row]:
    """The rows, with right sides that are as much less as is taken."""
    return [replace(row, right_side=row.right_side - taken.get(row.name, 0)) for row in rows]


def _find_others(problem: Problem, bidder: int) -> Array:
    """Which columns aren't of this bidder."""
    is_other: Array = problem.holders != bidder
    return is_other


def _find_too_large(layout: Layout, place: int, right_side: int, is_left: Array) -> Array:
    """The places of the columns, of those that are left, that take more of a row than it has."""
    begin, end = layout.entries.indptr[place : place + 2]
    columns = layout.entries.indices[begin:end]
    is_too_large = layout.entries.data[begin:end] > right_side
    too_large: Array = np.sort(columns[is_too_large & is_left[columns]])
    return too_large


def _describe_unfit(layout: Layout, place: int, *, columns: Array, taken: int) -> UnfitColumns:
    """The columns at these places, none of which fits into what a row has left."""
    begin, end = layout.entries.indptr[place : place + 2]
    amounts = dict(
        zip(
            layout.entries.indices[begin:end].tolist(),
            layout.entries.data[begin:end].tolist(),
            strict=True,
        )
    )
    return UnfitColumns(
        row=layout.program.rows[place].name,
        taken=taken,
        names=[layout.program.columns[column].name for column in columns],
        least=min(amounts[column] for column in columns.tolist()),
    )
