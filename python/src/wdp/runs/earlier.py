"""What an auction takes over from an earlier one, of which some forms are gone or are others here.
"""
from __future__ import annotations

from collections.abc import Mapping
from dataclasses import dataclass
from functools import cached_property

from wdp import audits, certify
from wdp.groups import Names, find_smaller, parse_names
from wdp.office.faults import format_count
from wdp.reporter import Reporter
from wdp.runs.contents import FIRST_GROUP, ROWS, TIES, Contents, find_shown, name_file
from wdp.texts.tables import compute_digest

_MOST_NAMED = 8  # groups that a message names
_WANTED = 0  # the number of the group that is asked for among those of the earlier auction


@dataclass(frozen=True)
class Earlier:
    """What an earlier auction's steps have left, and what messages call that auction. Bidders who
    are `withdrawn` have no form any more, and those who are `changed` have another one.
    """

    contents: Contents
    name: str
    withdrawn: Names
    changed: Names

    def take_over(self, contents: Contents, lines: Mapping[int, str], reporter: Reporter) -> None:
        """Leaves what shows these groups of the new auction, as far as the earlier one has that,
        and says of which groups it does.
        """
        taken = []
        for group in contents.find_missing(lines):
            shown = self._find_same(contents, group)
            if shown is None:
                shown = self._find_without_changed(parse_names(lines[group]))
            if shown is not None:
                # (the number of an award is one of the earlier auction)
                solution = shown.solution.removeprefix(audits.find_mark(shown.solution))
                if group == FIRST_GROUP:
                    contents.take_award(solution)
                contents.leave_group(group, solution=solution, certificate=shown.certificate)
                taken.append(f"{group} ({lines[group]})")
        if FIRST_GROUP in lines:
            self._take_what_helps(contents)
        if taken or FIRST_GROUP in lines:
            reporter.note(self._format_taken(taken, len(lines)))

    @cached_property
    def _names(self) -> dict[int, Names]:
        """The names that each group of the earlier auction leaves out."""
        return self.contents.read_names()

    @cached_property
    def _numbers(self) -> dict[str, int]:
        """The groups of the earlier auction by the SHA-256 of their programs."""
        numbers: dict[str, int] = {}
        for group in self._names:
            name = name_file("program", group)
            if self.contents.store.has(name):
                numbers.setdefault(compute_digest(self.contents.store.read(name)), group)
        return numbers

    def _find_same(self, contents: Contents, group: int) -> certify.Optimum | None:
        """What shows a group whose program is one of the earlier auction, byte for byte."""
        program = contents.store.read(name_file("program", group))
        number = self._numbers.get(compute_digest(program))
        if number is None:
            return None
        return find_shown(self.contents, self._names[number], [number])

    def _find_without_changed(self, names: Names) -> certify.Optimum | None:
        """What shows the group that leaves out these names: a bidder without a form is left out of
        the earlier auction. Forms that are others count only for groups that don't leave out their
        bidders.
        """
        if not self.changed <= names:
            return None
        wanted = names | self.withdrawn
        same = [number for number, each in self._names.items() if each == wanted]
        smaller = find_smaller({**self._names, _WANTED: wanted}, _WANTED)
        return find_shown(self.contents, wanted, [*same, *smaller])

    def _take_what_helps(self, contents: Contents) -> None:
        """Leaves what ties with the award, if that is asked for and the award is the same, and what
        helps other searches.
        """
        earlier = self.contents.store
        solution = name_file("solution", FIRST_GROUP)
        program = name_file("program", FIRST_GROUP)
        if not contents.store.has(solution):
            return
        if earlier.has(ROWS) and not contents.store.has(ROWS):
            contents.store.leave(ROWS, earlier.read(ROWS))
        is_same = all(
            earlier.has(name) and contents.store.read(name) == earlier.read(name)
            for name in (program, solution)
        )
        if is_same and contents.goals.finds_ties and earlier.has(TIES):
            contents.store.leave(TIES, earlier.read(TIES))

    def _format_taken(self, taken: list[str], count: int) -> str:
        """How many of so many groups are taken over, and which."""
        text = f"{len(taken):,} of {format_count(count, 'group')} taken over from {self.name}"
        named = taken[:_MOST_NAMED]
        if len(taken) > len(named):
            named.append(f"{len(taken) - len(named):,} more")
        return f"{text}: {', '.join(named)}" if named else text
