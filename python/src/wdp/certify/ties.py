"""All optimal points of a program, and the certificate that there are no others."""
import math
from collections.abc import Callable, Sequence
from contextlib import nullcontext
from dataclasses import dataclass
from time import monotonic

from wdp.certify.limits import LimitReached
from wdp.certify.other_points import TieSearch
from wdp.certify.problem import Problem
from wdp.progress import Say, say_nothing
from wdp.steps import AtOnce
from wdp.texts.answers import MOST_TIES
from wdp.texts.zero_one import format_solution

_LEAST_SECONDS = 1e-9


@dataclass(frozen=True)
class Ties:
    """The points that are as good as an optimal one, and the certificate that there are no others.

    Without one there are more, and the search ended at the limit of the format.
    """

    points: tuple[bytes, ...]
    unique: bytes | None


def _forget(points: Sequence[bytes]) -> None:
    """Keeps no points."""


def _list_points(search: TieSearch) -> list[bytes]:
    """The points that a search has found, up to the limit of the format."""
    return [format_solution(ones, search.program) for ones in search.ties[:MOST_TIES]]


def find_ties(
    problem: Problem,
    solution: bytes,
    *,
    seconds: float | None = None,
    say: Say = say_nothing,
    keep: Callable[[Sequence[bytes]], None] = _forget,
    at_once: AtOnce = nullcontext,
) -> Ties:
    """All points that are as good as an optimal solution.

    `keep` gets those that a search found, which is the same each time. It may take so many seconds
    in all; LimitReached is raised at their end. Within `at_once` nothing is begun that would have
    to be put away.
    """
    end = monotonic() + (seconds or math.inf)
    with at_once():
        search = problem.prepare_ties(solution, most=MOST_TIES + 1, seconds=seconds, say=say)
    try:
        with at_once():
            search.find_ties()
    except LimitReached:
        keep(_list_points(search))
        raise
    points = _list_points(search)
    keep(points)
    if len(search.ties) > MOST_TIES:
        return Ties(tuple(points), unique=None)
    with at_once():
        left = max(end - monotonic(), _LEAST_SECONDS)
        uniqueness = problem.check_unique(solution, points, seconds=left, say=say)
    assert uniqueness.certificate is not None, "the search for ties has missed one"
    return Ties(tuple(points), unique=uniqueness.certificate)
