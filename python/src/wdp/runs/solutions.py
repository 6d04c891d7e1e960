"""The step that settles a group: its solution and its certificate, and of group 1 what ties."""
from __future__ import annotations

import math
from contextlib import suppress
from dataclasses import dataclass
from typing import TYPE_CHECKING

from wdp import certify, groups, solve, steps
from wdp.certify.limits import LimitReached
from wdp.office.faults import format_count
from wdp.runs.contents import (
    FIRST_GROUP,
    ROWS,
    TIES,
    Contents,
    find_shown,
    name_file,
    name_unfinished,
)
from wdp.runs.means import Means
from wdp.texts.refusals import NotSolved, Refused

if TYPE_CHECKING:
    from wdp.certify.problem import Problem

_OTHER_AWARD = "group 1 has another award than before: ties and prices are found anew"
GIVEN_UP = 4  # the status of a step whose search ended at its limit


def format_percent(part: float) -> str:
    """A part of a whole as people read it, rounded up.

    >>> format_percent(0.00299), format_percent(0.0001), format_percent(1.0)
    ('0.3 %', '0.1 %', '100 %')
    """
    return f"{math.ceil(1000 * part) / 10:g} %"


def name_step(group: int) -> str:
    """What messages call the step of a group."""
    return f"group {group}"


@dataclass
class Settler:
    """Settles groups whose programs are there. The solver only has to give good answers: the search
    for a certificate goes on from them to the best one. Without a solver it begins at the answer
    that is there, or from nothing. `first` is the problem of group 1, once it is read.
    """

    contents: Contents
    means: Means
    first: Problem | None = None

    def read_first(self) -> None:
        """Reads group 1's program once for all steps, and the modules. A step says itself what is
        wrong with its own program.
        """
        with steps.hold_signals():
            import wdp.certify.settling  # noqa: F401
        with suppress(Refused):
            self.first = self.first or certify.read_problem(self._read("program", FIRST_GROUP))

    def make_first(self) -> Problem:
        """The problem of group 1, with what its search found."""
        problem = self._make_problem(FIRST_GROUP)
        problem.known_rows = self.contents.read_rows()
        return problem

    def settle(self, group: int) -> None:
        """Leaves a solution of a group's program and its certificate, and of group 1 what ties, as
        far as these are asked for and aren't there.
        """
        store = self.contents.store
        goals = self.contents.goals
        self._read("program", group)  # (a file that was changed is refused, though nobody needs it)
        if not goals.is_certified:
            self._answer_alone(group)
            return
        solution = name_file("solution", group)
        certificate = name_file("certificate", group)
        if not store.has(certificate) or not store.has(solution):
            settled = self._take_over(group) or self._certify(group)
            if group == FIRST_GROUP:
                store.leave(ROWS, settled.rows.encode("ascii"))
                if self.contents.take_award(settled.solution):
                    self.means.reporter.say(_OTHER_AWARD)
            self.contents.leave_group(
                group, solution=settled.solution, certificate=settled.certificate
            )
        if group == FIRST_GROUP and goals.finds_ties and not store.has(TIES):
            self._find_ties()

    def _read(self, kind: str, group: int) -> bytes:
        return self.contents.store.read(name_file(kind, group))

    def _answer(self, name: int | str, program: bytes) -> bytes:
        """The solver's answer to a program, a point of it, which is kept by this name."""
        store = self.contents.store
        kept = name_file("answer", name)
        if not store.has(kept):
            answer = solve.find_point(
                program,
                solve.find_solver(self.means.solver),
                seconds=self.means.seconds,
                log=store.make_log(str(name)),
            )
            store.leave(kept, answer)
        return store.read(kept)

    def _answer_alone(self, group: int) -> None:
        """The solver's answer to a group's program if nothing certifies it; a solution that is
        there counts as one.
        """
        store = self.contents.store
        answer = name_file("answer", group)
        solution = name_file("solution", group)
        if not store.has(answer) and store.has(solution):
            store.leave(answer, store.read(solution))
        self._answer(group, self._read("program", group))

    def _take_over(self, group: int) -> certify.Optimum | None:
        """What shows a group that leaves out fewer, if its solution has no bid of the others: then
        no other is better here, and the same lines show that.
        """
        store = self.contents.store
        if self.means.solver is None and store.has(name_file("answer", group)):
            return None  # (the caller gave this group's solution)
        names = self.contents.read_names()
        return find_shown(self.contents, names[group], groups.find_smaller(names, group))

    def _make_problem(self, group: int) -> Problem:
        """The problem of a group, of which nothing is read if that of group 1 is there, with what
        that one's search found.
        """
        problem = self.first
        if problem is None:
            problem = certify.read_problem(self._read("program", group))
        elif left_out := self.contents.read_names()[group]:
            problem = problem.leave_out(self.contents.number_bidders(left_out))
        problem.known_rows = self.contents.read_rows() if group != FIRST_GROUP else ""
        return problem

    def _certify(self, group: int) -> certify.Optimum:
        """What a solver, if there is one, and the search for a certificate come to; it goes on
        where an earlier run gave up.
        """
        with self.means.at_once():
            problem = self._make_problem(group)
        try:
            if self.means.solver is None:
                settled = self._search_alone(group, problem)
            else:
                settled = self._search(group, problem)
        except LimitReached as reached:
            self._leave_unfinished(group, reached)
            part = format_percent(reached.part_missing)
            near = f"within {part} of the greatest total, not proved"
            limit = f"the search ended at its limit of {self.means.format_limit()}"
            raise NotSolved(f"{near}; {limit}", GIVEN_UP) from None
        if self.means.solver is not None:
            self._tell_better(group, problem, settled)
        return settled

    def _search_alone(self, group: int, problem: Problem) -> certify.Optimum:
        """What the search comes to without a solver; LimitReached at its limit."""
        answer = name_file("answer", group)
        if self.contents.store.has(answer):
            begin = self.contents.store.read(answer)
        else:
            begin = problem.make_empty_solution()
        return problem.find_optimum(begin, seconds=self.means.seconds)

    def _search(self, group: int, problem: Problem) -> certify.Optimum:
        """What the search comes to; LimitReached at its limit."""
        from wdp.certify.settling import settle

        def ask(turn: int, text: bytes | None) -> bytes | None:
            name: int | str = f"{group}.{turn}" if turn else group
            program = self._read("program", group) if text is None else text
            try:
                return self._answer(name, program)
            except NotSolved as failed:
                if failed.status != solve.TIME_OUT:
                    raise
                why = f"{failed}; the search begins from nothing"
                self.means.reporter.say(f"{name_step(group)}: {why}")
                return None

        store = self.contents.store
        best, tree = name_unfinished(group)
        if not store.has(best) or not store.has(tree):
            return settle(problem, ask, seconds=self.means.seconds, at_once=self.means.at_once)
        with self.means.at_once():
            earlier = store.read(tree).decode("ascii")
            return problem.find_optimum(
                store.read(best), seconds=self.means.seconds, earlier=earlier
            )

    def _leave_unfinished(self, group: int, reached: LimitReached) -> None:
        """Leaves what a search found and showed until its limit."""
        # (the tree shows as much of a better solution, but of a worse one it may show too little)
        best, tree = name_unfinished(group)
        self.contents.store.leave(best, reached.solution)
        self.contents.store.leave(tree, reached.tree.encode("ascii"))

    def _tell_better(self, group: int, problem: Problem, settled: certify.Optimum) -> None:
        """Says if a solver that had the whole program gave an answer that isn't the best one."""
        answer = name_file("answer", group)
        if not self.contents.store.has(answer):
            return
        worst = problem.compute_objective(self.contents.store.read(answer))
        gain = worst - problem.compute_objective(settled.solution)
        if gain:
            worse = f"the answer of {self.means.solver_name} wasn't the best one"
            more = f"another brings {gain:,} more"
            self.means.reporter.say(f"{name_step(group)}: {worse}: {more}")

    def _find_ties(self) -> None:
        """Leaves all solutions that tie with that of group 1, and the certificate that there are no
        others.
        """
        from wdp.certify.ties import find_ties

        contents = self.contents
        with self.means.at_once():
            problem = self.make_first()
        try:
            tied = find_ties(
                problem,
                self._read("solution", FIRST_GROUP),
                seconds=self.means.seconds,
                keep=contents.keep_ties,
                at_once=self.means.at_once,
            )
        except LimitReached:
            known = format_count(1 + len(list(contents.list_kept("ties"))), "award")
            limit = f"the search for ties ended at its limit of {self.means.format_limit()}"
            raise NotSolved(f"{known} found; {limit}", GIVEN_UP) from None
        contents.leave_ties(tied.points, tied.unique)
