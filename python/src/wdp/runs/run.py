"""A run in a folder: what is asked for, in processes of their own, and how it ends."""
import shlex
from dataclasses import dataclass, replace
from functools import cached_property, partial
from pathlib import Path

from wdp.folder import INPUT, Folder
from wdp.runs import messages
from wdp.runs.contents import TIES, Contents, Goals
from wdp.runs.earlier import Earlier
from wdp.runs.flow import Flow
from wdp.runs.means import Means
from wdp.runs.processes import ProcessWorker
from wdp.runs.reports import AUDIT, REPORT, UNCERTIFIED, Page, Publisher
from wdp.runs.solutions import name_step
from wdp.texts.refusals import Refused, WrongArgument


@dataclass(frozen=True)
class Run:
    """A run in a folder, in which each step leaves its files whole or not at all, and none is done
    again that is there. `jobs` groups are done at a time.

    The folder `is_named` if the user named it: then it gets a page, and messages name its files. A
    temporary folder isn't named, and neither is one for another award. What an `earlier` auction
    has is taken over where it shows a group.
    """

    folder: Folder
    goals: Goals
    means: Means
    is_named: bool
    jobs: int = 1
    page: Page = Page()
    earlier: Earlier | None = None

    @cached_property
    def contents(self) -> Contents:
        """What the steps have left."""
        return Contents(self.folder, self.goals)

    @cached_property
    def flow(self) -> Flow:
        """The steps, each in a process of its own."""
        path = shlex.quote(str(self.folder.path(INPUT))) if self.is_named else "-"
        return Flow(
            self.contents,
            self.means,
            worker=ProcessWorker(self.contents, self.means, jobs=self.jobs),
            hint=f"wdp-office explain {path} prints what is wrong",
            earlier=self.earlier,
        )

    def run_all(self) -> int:
        """Does all that isn't done yet; the status of the whole."""
        if not self.goals.is_certified and self.folder.has(REPORT):
            path = self.folder.path(REPORT)
            raise Refused(f"{path} is certified; --no-certify needs another folder")
        missing = self.folder.check()
        if missing:
            self.means.reporter.say(messages.format_made_again(missing))
        if TIES in missing:
            # (else the audit would show less than it did)
            return replace(self, goals=replace(self.goals, finds_ties=True))._run_all()
        return self._run_all()

    def _run_all(self) -> int:
        """Does all that isn't done yet in a folder that was checked."""
        page = self.page.keep(self.folder) if self.is_named else self.page
        publisher = Publisher(
            self.folder,
            contents=self.contents,
            means=self.means,
            page=page,
            writes_results=self.is_named,
        )
        status = self.flow.run(publisher.publish)
        if status:
            return status
        return self._tell_end() or int(self.contents.lacks_prices())

    def run_step(self, name: str) -> int:
        """Does a step that Snakemake runs, by its name; its status. WrongArgument if there is no
        such step.
        """
        if name == "programs":
            self.folder.take_input(None)
            return self.flow.compile()
        if name == "prices":
            return int(self.goals.is_priced and not self.flow.find_prices())
        if name == "report":
            # (if a step was killed before it had written all its files, run_all writes the rest)
            return self.run_all()
        if name.isdigit() and int(name) in self.contents.list_all_groups():
            group = int(name)
            return self.flow.worker.do(partial(self.flow.settler.settle, group), name_step(group))
        raise WrongArgument(f"there is no step {name}")

    def _tell_end(self) -> int:
        """Says what is known of other winners, and last whether the totals are certified; the
        status.
        """
        if not self.goals.is_certified:
            self.means.reporter.say(messages.format_uncertified(self._find_named(UNCERTIFIED)))
            return 0
        lacks_ties = self.goals.finds_ties and not self.folder.has(TIES)
        if lacks_ties:
            self.means.reporter.say(messages.NOT_ALL_TIES)
        audit = self.folder.path(AUDIT)
        self.means.reporter.say(messages.format_certified(self._find_named(REPORT), audit))
        return int(lacks_ties)

    def _find_named(self, name: str) -> Path | None:
        """The path of a file, if messages name it."""
        return self.folder.path(name) if self.is_named else None
