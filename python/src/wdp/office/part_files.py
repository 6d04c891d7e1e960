"""Files that become parts of an input, each refused at its first fault; they are read as `gather`
reads them.
"""
import os
import warnings
from collections.abc import Callable
from dataclasses import dataclass

from wdp import files
from wdp.office.reading import read_form_file, read_groups_file, read_rules_file
from wdp.office.sheets import File
from wdp.program import StrPath
from wdp.texts.accepted import AcceptedRules, Category
from wdp.texts.parts import list_names
from wdp.texts.refusals import NotFound, Refused, WrongArgument, escape

_UNENDED = (
    "the last line has no end, as in a file that was cut off; "
    "say allow_unended=True if it is complete"
)


@dataclass(frozen=True)
class PartReader:
    """Reads rules, forms and groups. `sheet` is the sheet of each workbook, else the first, and
    `allow_unended` says that the last line of a file may lack its end.

    Each call raises WrongArgument if it isn't given a path, NotFound if there is no such file, and
    Refused if it can't be read. What the receipt of `gather` would say of the look of cells is a
    warning.
    """

    sheet: str | None = None
    allow_unended: bool = False

    def read_rules(self, path: StrPath) -> File:
        """The rows of the rules."""
        return self._read(path, lambda text: read_rules_file(text, self.sheet), "rules")

    def read_form(self, path: StrPath, number: int, rules: AcceptedRules) -> File:
        """The rows of a form, which messages call by this number."""
        return self._read(
            path, lambda text: read_form_file(text, rules, self.sheet), "form", number=number
        )

    def read_groups(self, path: StrPath) -> File:
        """The lines of a file of groups."""
        return self._read(path, read_groups_file, "groups")

    def _read(
        self, path: StrPath, read: Callable[[str], File], head: str, *, number: int | None = None
    ) -> File:
        """A file that becomes a part with this head, and this number if there are several."""
        name = head if number is None else f"{head} {number}"
        if not isinstance(path, (str, bytes, os.PathLike)):
            found_type = type(path).__name__
            raise WrongArgument(f"{name}: a path is asked for, and this is of type {found_type}")
        try:
            file = read(os.fsdecode(path))
        except files.Unreadable as error:
            kind = NotFound if isinstance(error.__cause__, FileNotFoundError) else Refused
            # (the option's name is that of the argument)
            text = error.text.replace("--sheet NAME", "sheet=NAME")
            raise kind(f"{name}: {text}", head, number) from None
        if file.faults:
            raise Refused(f"{name}: {file.faults[0]}", head, number)
        if file.rows and not file.is_ended and not self.allow_unended:
            raise Refused(f"{name}: {file.path}: {_UNENDED}", head, number)
        for warning in file.warnings:
            # (where the auction is made)
            warnings.warn(escape(f"{name}: {file.path}: {warning}"), stacklevel=4)
        return file


def find_names(rules: File) -> AcceptedRules:
    """The names in a file of rules, of which nothing else is known."""
    categories = [
        Category(name, supply=0, reserve=0, points=0) for name in list_names(rules.rows, "category")
    ]
    return AcceptedRules(1, categories, list_names(rules.rows, "bidder"))
