"""Steps in processes of their own, with a message for each that fails."""
from collections.abc import Collection, Mapping
from contextlib import suppress
from dataclasses import dataclass
from functools import partial

from wdp import groups, memory, steps
from wdp.progress import Progress
from wdp.reporter import Reporter, run_reporting
from wdp.runs import messages
from wdp.runs.contents import FIRST_GROUP, Contents, name_file
from wdp.runs.means import Means
from wdp.runs.solutions import GIVEN_UP, Settler, name_step
from wdp.steps import Step, Watch
from wdp.texts.refusals import Refused


@dataclass(frozen=True)
class Processes:
    """Does steps, each in a process of its own, and says why one failed."""

    reporter: Reporter

    def run(
        self,
        work: Mapping[str, Step],
        *,
        jobs: int = 1,
        watch: Watch | None = None,
        after: Mapping[str, Collection[str]] | None = None,
    ) -> dict[str, int]:
        """The statuses of steps by their names; so many are done at a time, each `after` those that
        it waits for.
        """
        say = self.reporter.say
        reporting = {
            name: partial(run_reporting, say, label=name, step=step) for name, step in work.items()
        }
        ended = steps.run(reporting, jobs=jobs, watch=watch, after=after)
        for name, status in ended.items():
            if status < 0:
                say(f"{name or 'the run'}: the step was killed by signal {-status}")
        return ended

    def run_one(self, name: str, step: Step) -> int:
        """The status of a step, 1 at least if it failed; messages call it by this name, if it has
        one.
        """
        status = self.run({name: step})[name]
        return max(status, 1) if status else 0


@dataclass(frozen=True)
class ProcessWorker:
    """Does steps in processes of their own, groups so many at a time, and says how far it is."""

    contents: Contents
    means: Means
    jobs: int = 1

    @property
    def _processes(self) -> Processes:
        return Processes(self.means.reporter)

    def do(self, step: Step, name: str) -> int:
        """Does a step in a process of its own, which says why it fails; its status."""
        return self._processes.run_one(name, step)

    def settle(self, settler: Settler, lines: Mapping[int, str]) -> bool:
        """Solves and certifies the groups that aren't done yet, of those with these numbers and
        lines of names. Returns whether all are done.
        """
        left = [group for group in lines if not self.contents.is_done(group)]
        if self.contents.goals.is_certified and left:
            settler.read_first()
        columns = self._count_columns()
        jobs = memory.limit_jobs(self.jobs, columns, memory.measure_free())
        if left or FIRST_GROUP in lines:
            self._tell_begin(count=len(lines), left=len(left), columns=columns, jobs=jobs)
        reporter = self.means.reporter
        progress = Progress(len(lines), left=len(left), times=reporter.times, say=reporter.say)
        ended = self._processes.run(
            {name_step(group): partial(settler.settle, group) for group in left},
            jobs=jobs,
            watch=None if reporter.is_quiet else progress,
            after=self._order_groups(left),
        )
        missing = self.contents.find_missing(left)
        if missing:
            is_late = any(ended[name_step(group)] == GIVEN_UP for group in missing)
            seconds = self.means.seconds if is_late else None
            reporter.say(messages.format_missing(lines, missing, seconds))
        return not missing

    def _order_groups(self, left: list[int]) -> dict[str, list[str]]:
        """The steps that each group's step waits for: those of smaller groups, from which it may
        take over what shows it.
        """
        if not self.contents.goals.is_certified or not left:
            return {}
        names = self.contents.read_names()
        return {
            name_step(group): [name_step(each) for each in groups.find_smaller(names, group)]
            for group in left
        }

    def _count_columns(self) -> int:
        """How many columns group 1's program has. It is 0 if the program's file was changed, which
        the group's own step reports.
        """
        with suppress(Refused):
            program = self.contents.store.read(name_file("program", FIRST_GROUP))
            return program.count(b" OBJ ")
        return 0

    def _tell_begin(self, *, count: int, left: int, columns: int, jobs: int) -> None:
        begin = messages.format_begin(
            count=count, left=left, columns=columns, jobs=jobs, means=self.means
        )
        self.means.reporter.note(begin)
        if jobs < self.jobs and left > jobs:
            self.means.reporter.note(messages.format_lack_of_memory(jobs, self.jobs))
