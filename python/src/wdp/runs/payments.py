"""The step that finds what the winners pay."""
from dataclasses import dataclass
from functools import partial

from wdp import prices, solve
from wdp.folder import INPUT
from wdp.office.faults import format_count
from wdp.runs.contents import Contents, name_file
from wdp.runs.means import Means
from wdp.runs.solutions import Settler

_FOLDER = "prices"  # of the allocations that the search found


@dataclass
class Pricer:
    """Finds what the winners pay, once the `settler` has settled each of them alone. `limit` says
    then which limit of the formats exact prices are beyond, if they are.
    """

    contents: Contents
    means: Means
    settler: Settler
    limit: str | None = None

    def find_prices(self) -> None:
        """Leaves what the winners pay, with what shows it, and the groups that are added for it.
        What a run found that was cut is taken over.
        """
        contents = self.contents
        alone = contents.list_added()
        award = self._read_award()
        self._take_over(award)
        search = prices.Search(
            award,
            solver=solve.find_solver(self.means.solver),
            seconds=self.means.seconds,
            at_once=self.means.at_once,
            log=contents.store.make_log("prices"),
            say=self._note,
            keep=partial(contents.keep, _FOLDER),
        )
        priced = search.run()
        contents.leave_prices(priced.parts, [*alone.values(), *priced.added])
        self.limit = priced.limit
        if priced.limit is not None:
            rounded = "rounded up to whole pounds they cover every group, and no more is shown"
            self.means.reporter.say(f"exact prices are beyond a limit: {priced.limit}; {rounded}")

    def _note(self, text: str) -> None:
        self.means.reporter.note(f"prices: {text}")

    def _read_award(self) -> prices.Award:
        """The award of group 1, with what the solutions of all groups show."""
        contents = self.contents
        lines = contents.list_all_groups()
        return prices.Award(
            data=contents.store.read(INPUT),
            problem=self.settler.make_first(),
            solutions=[contents.store.read(name_file("solution", group)) for group in lines],
            listed=list(lines.values()),
        )

    def _take_over(self, award: prices.Award) -> None:
        """Takes what an earlier run found."""
        kept = list(self.contents.list_kept(_FOLDER))
        for name in kept:
            award.learn(self.contents.store.read(name))
        if kept:
            self._note(f"{format_count(len(kept), 'group')} found by an earlier run")
