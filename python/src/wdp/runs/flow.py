"""The way of an auction from its input to its outcome: each step in its order, whoever does it."""
from __future__ import annotations

from collections.abc import Mapping, Sequence
from dataclasses import dataclass
from functools import cached_property, partial
from typing import Protocol

from wdp.runs import messages
from wdp.runs.contents import FIRST_GROUP, PRICES, Contents
from wdp.runs.earlier import Earlier
from wdp.runs.means import Means
from wdp.runs.payments import Pricer
from wdp.runs.programs import Compiler
from wdp.runs.solutions import Settler
from wdp.steps import Step


class Worker(Protocol):
    """Does steps: in this process, where one that fails raises why, or in others, where a message
    says why.
    """

    def do(self, step: Step, name: str) -> int:
        """Does a step, which messages call by this name, if it has one; its status."""

    def settle(self, settler: Settler, lines: Mapping[int, str]) -> bool:
        """Settles these groups, by their numbers, with the lines of the names that they leave out,
        as far as they aren't settled; whether all of them are then.
        """


@dataclass(frozen=True)
class Flow:
    """The steps of an auction, none of which does again what is there. The library's calls and the
    commands go the same way, with what is done in memory or in a folder, and by another worker.

    A refusal of the input is followed by `hint`. Groups are taken over from an `earlier` auction
    where that shows them.
    """

    contents: Contents
    means: Means
    worker: Worker
    hint: str = ""
    earlier: Earlier | None = None

    @cached_property
    def compiler(self) -> Compiler:
        """Who writes programs."""
        return Compiler(self.contents, self.means, hint=self.hint)

    @cached_property
    def settler(self) -> Settler:
        """Who solves groups, certifies them, and finds what ties with the first one."""
        return Settler(self.contents, self.means)

    @cached_property
    def pricer(self) -> Pricer:
        """Who finds prices."""
        return Pricer(self.contents, self.means, self.settler)

    def run(self, report: Step) -> int:
        """Does all steps, with a report as the last one, which is made without prices if there are
        none; the status of the step that ended it early.
        """
        status = self.find_outcome()
        return status or self.make_report(report)

    def find_outcome(self) -> int:
        """Does all steps before the report; the status of the one that ended it early. That prices
        fail ends nothing.
        """
        with self.means.reporter.times.measure("programs"):
            status = self.compile()
        if status:
            return status
        if not self.settle(self.contents.list_groups()):
            return 1
        self.contents.leave_award()
        if self.contents.goals.is_priced:
            self.find_prices()
        return 0

    def compile(self, added: Sequence[str] = ()) -> int:
        """Has the programs written that aren't there, also those of `added` groups, lines of names;
        the status.
        """
        step = partial(self.compiler.compile, added)
        return self.worker.do(step, "prices" if added else "")

    def settle(self, lines: Mapping[int, str]) -> bool:
        """Has these groups solved and certified, by their numbers; whether all are."""
        kind = "groups" if FIRST_GROUP in lines else "groups for prices"
        with self.means.reporter.times.measure(kind):
            if self.earlier is not None and self.contents.find_missing(lines):
                step = partial(
                    self.earlier.take_over, self.contents, lines, reporter=self.means.reporter
                )
                if self.worker.do(step, ""):
                    return False
            return self.worker.settle(self.settler, lines)

    def find_prices(self) -> bool:
        """Has prices found, and all groups settled that show them: each winner alone, and then
        those that bind the prices; whether all of it is there.
        """
        if self.contents.forget_old_prices():
            self.means.reporter.say(messages.OLD_PRICES)
        while True:
            added = self.contents.list_added()
            if self.compile(list(added.values())) or not self.settle(added):
                return False
            if self.contents.store.has(PRICES):
                return True
            with self.means.reporter.times.measure("prices"):
                status = self.worker.do(self.pricer.find_prices, "prices")
            if status:
                self.means.reporter.say(messages.NOT_PRICED)
                return False

    def make_report(self, report: Step) -> int:
        """Has the report made of what is there; the status."""
        times = self.means.reporter.times
        with times.measure("report"):
            status = self.worker.do(report, "report")
        self.means.reporter.note(f"it took {times.format()}")
        return status
