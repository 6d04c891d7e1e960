"""How a program is settled: a solver and the search for a certificate in turns, each of more
columns.

The search decides over all columns, so a solver only has to give a good point. Where the gap
between the root's bound and that point is wide, a point of few columns may be far from the best
one; then the search doesn't end soon, and the solver gets more. If that brings nothing better, the
search goes on where it was. What a turn does depends on no time, so the same program ends in the
same bytes wherever no limit is met.
"""
import math
from collections.abc import Callable
from contextlib import nullcontext
from dataclasses import dataclass
from time import monotonic

from wdp.certify.layout import Array
from wdp.certify.limits import LimitReached
from wdp.certify.outcomes import Optimum
from wdp.certify.problem import Problem
from wdp.steps import AtOnce

# What a solver is asked: the turn and the program for it, or turn 0 and None for the whole one. It
# may have no answer.
Ask = Callable[[int, bytes | None], bytes | None]

_LEAST_SECONDS = 1e-9


@dataclass(frozen=True)
class Turn:
    """How much of the gap a column's reduced cost may take up for the solver to get it, and how
    many lines the search may write after the answer.
    """

    part: float
    lines: float


TURNS = (Turn(0, lines=1000), Turn(0.25, lines=4000), Turn(1, lines=math.inf))


@dataclass(frozen=True)
class _Question:
    """What a solver is asked in a turn. It has no columns that it hadn't before if `is_new` isn't
    true, and the whole program if there is no text.
    """

    is_new: bool
    text: bytes | None = None


class _Settling:
    """A problem, the columns that a solver had, and the best solution that is `known`."""

    def __init__(self, problem: Problem) -> None:
        self.problem = problem
        self.known: bytes | None = None
        self.asked: Array | None = None
        # (what a search came to is kept without the exception, whose frames have all of the search)
        self._found: bytes | None = None
        self._tree = ""

    def make_question(self, turn: Turn) -> _Question:
        """What the solver is asked next."""
        columns = self._choose_columns(turn)
        is_new = self.asked is None or bool((columns & ~self.asked).any())
        self.asked = columns
        if not is_new or self.problem.is_most(columns):
            return _Question(is_new)
        return _Question(is_new, self.problem.format_part(columns))

    def _choose_columns(self, turn: Turn) -> Array:
        """The columns for the solver's next turn."""
        problem = self.problem
        if self.asked is None or self.known is None:
            wanted = problem.find_promising()
        else:
            wanted = self.asked | problem.find_within(self.known, turn.part)
        return problem.layout.is_open if problem.is_most(wanted) else wanted

    def learn(self, answer: bytes | None) -> bytes:
        """Takes an answer, if it is better than what is known; what is known then."""
        problem = self.problem
        if self.known is None:
            self.known = problem.make_empty_solution() if answer is None else answer
        elif answer is not None:
            objective = problem.compute_objective(answer)
            if objective < problem.compute_objective(self.known):
                self.known = answer
        return self.known

    def pause(self, reached: LimitReached) -> None:
        """Takes what a search came to that ended at its limit of lines."""
        self.known = reached.solution
        self._found = reached.solution
        self._tree = reached.tree

    def find_earlier(self) -> str:
        """The tree of the search before, if nothing better is known now than at its end. Else a new
        search is better, in which more columns are fixed at the root.
        """
        return self._tree if self.known == self._found else ""

    def has_all(self) -> bool:
        """Whether a solver had all columns that a better solution may have."""
        if self.asked is None or self.known is None:
            return False
        return not (self.problem.find_within(self.known, 1) & ~self.asked).any()


def settle(
    problem: Problem,
    ask: Ask,
    *,
    seconds: float | None = None,
    at_once: AtOnce = nullcontext,
) -> Optimum:
    """An optimal solution of a problem and its certificate.

    The search may take so many seconds in all, and LimitReached has the best solution at their end.
    Within `at_once` nothing is begun that would have to be put away.
    """
    settling = _Settling(problem)
    left = seconds or math.inf
    for number, turn in enumerate(TURNS, 1):
        with at_once():
            question = settling.make_question(turn)
        answer = None
        if question.is_new:
            answer = ask(0 if question.text is None else number, question.text)
        begin = monotonic()
        with at_once():
            known = settling.learn(answer)
            has_failed = question.is_new and answer is None
            is_last = turn is TURNS[-1] or has_failed or settling.has_all()
            lines = math.inf if is_last else turn.lines
            try:
                return problem.find_optimum(
                    known,
                    seconds=max(left, _LEAST_SECONDS),
                    lines=lines,
                    earlier=settling.find_earlier(),
                )
            except LimitReached as reached:
                if is_last or reached.is_late:
                    raise
                settling.pause(reached)
        left -= monotonic() - begin
    raise AssertionError("the last turn has no limit of lines")
