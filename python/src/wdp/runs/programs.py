"""The step that writes the 0-1 program of each group."""
from collections.abc import Collection, Sequence
from dataclasses import dataclass
from typing import IO

from wdp.folder import INPUT
from wdp.program import Limits, ask
from wdp.results import join_names
from wdp.runs.contents import ADDED, NAMES, Contents, name_file
from wdp.runs.means import Means
from wdp.texts import answers
from wdp.texts.parts import add_groups, list_groups
from wdp.texts.refusals import Refused


@dataclass(frozen=True)
class Compiler:
    """Has the proved program write the program of each group. A refusal of it is followed by
    `hint`.
    """

    contents: Contents
    means: Means
    hint: str = ""

    def compile(self, added: Sequence[str] = ()) -> None:
        """Leaves the program of each group that has none, also of those that these lines add, and
        last the names that the groups of the input leave out.
        """
        if self._is_complete(added):
            return
        known = self._list_known(added)
        text = add_groups(self.contents.store.read(INPUT), added)
        expected = answers.ExpectedAnswer(text)
        with self.contents.store.open_temporary() as printed:
            self._print_programs(text, expected, output=printed)
            if self.contents.goals.is_reported and list_groups(text)[:1] != ["-"]:
                why = "group 1 is not empty: the first line of %groups has to be `-`"
                raise Refused(why)
            printed.seek(0)
            lines = self._leave_programs(printed, expected, known)
        if added:
            self.contents.store.leave(ADDED, "".join(f"{line}\n" for line in added).encode())
        else:
            self.contents.leave_names(lines)
            self.contents.leave_format()

    def _is_complete(self, added: Sequence[str]) -> bool:
        """Whether each program is there, of these groups and of this version's format."""
        store = self.contents.store
        if not self.contents.is_of_format() or not store.has(NAMES):
            return False
        if added and self.contents.read_added() != [*added]:
            return False
        count = len(self.contents.list_groups()) + len(added)
        numbers = range(1, count + 1)
        return count > 0 and all(store.has(name_file("program", number)) for number in numbers)

    def _list_known(self, added: Sequence[str]) -> set[int]:
        """The groups of which it is known that what is there is of them, by their numbers."""
        if not self.contents.is_of_format() or not self.contents.store.has(NAMES):
            return set()
        own = self.contents.list_groups()
        known = self.contents.read_added() or []
        same = [before == line for before, line in zip(known, added, strict=False)]
        return {*own, *(number for number, is_same in enumerate(same, len(own) + 1) if is_same)}

    def _print_programs(
        self, text: bytes, expected: answers.ExpectedAnswer, *, output: IO[bytes]
    ) -> None:
        """Prints all programs of an input into a file; Refused, with the hint, if it is wrong."""
        limits = Limits(expected.most_of_programs, self.means.program_seconds)
        arguments = ["compile", f"--workers={self.means.workers}"]
        try:
            ask(self.means.program, arguments, text, limits=limits, output=output)
        except Refused as refused:
            if not self.hint:
                raise
            raise Refused(f"{refused}; {self.hint}") from None

    def _leave_programs(
        self, printed: IO[bytes], expected: answers.ExpectedAnswer, known: Collection[int]
    ) -> list[str]:
        """Leaves each program that isn't there yet, and forgets what is there of a group that isn't
        known and had another program; the lines of their groups.
        """
        store = self.contents.store
        lines: list[str] = []
        for names, program in answers.split_programs(printed, expected):
            lines.append(join_names(names))
            name = name_file("program", len(lines))
            if store.has(name) and store.read(name) == program:
                continue
            if len(lines) not in known:
                self.contents.forget_group(len(lines))
            store.leave(name, program)
        return lines
