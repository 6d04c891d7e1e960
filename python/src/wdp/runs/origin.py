"""A new folder that begins from the folder of an earlier auction, of which some forms are gone or are
others.
"""
from __future__ import annotations

import os
from collections.abc import Collection, Mapping
from contextlib import suppress
from dataclasses import dataclass
from functools import cached_property
from pathlib import Path

from wdp import files
from wdp.comparison import Comparison, compare_reports
from wdp.folder import INPUT, Folder
from wdp.office.faults import suggest_name
from wdp.publish.judging import judge
from wdp.results import Report
from wdp.runs.contents import Contents, Goals
from wdp.runs.earlier import Earlier
from wdp.runs.reports import AUDIT, KEPT, REPORT
from wdp.texts.forms import list_form_bidders, put_form, remove_forms
from wdp.texts.parts import MOST_OF_INPUT, list_names, parse_parts
from wdp.texts.refusals import Refused, WrongArgument

_MOST_OF_KEPT = 16 * 1024 * 1024  # bytes of a file of the office's


@dataclass(frozen=True)
class Origin:
    """The folder of an earlier auction, from which a new one begins: bidders who are `withdrawn`
    have no form in that, and others have the texts of `forms`, by their names.
    """

    folder: Folder
    withdrawn: Collection[str]
    forms: Mapping[str, bytes]

    @classmethod
    def open(cls, where: Path) -> Origin:
        """The folder at a path, without any change; Refused if there is no award in it."""
        folder = Folder(where)
        if not where.is_dir():
            raise Refused(f"{where} is no folder")
        if missing := [name for name in (REPORT, AUDIT) if not folder.has(name)]:
            path = folder.path(missing[0])
            raise Refused(f"{where} has no award: {path} isn't there, which certificates come with")
        return cls(folder, withdrawn=(), forms={})

    @cached_property
    def bidders(self) -> list[str]:
        """The names of the bidders in the rules."""
        parts = parse_parts(self.read_input())
        rules = next(part.rows() for part in parts if part.kind == "rules")
        return list_names(rules, "bidder")

    def read_input(self) -> bytes:
        """The input of the earlier auction."""
        return self.folder.read(INPUT)

    def make_input(self) -> bytes:
        """The input of the new auction; WrongArgument if somebody who withdraws isn't in the rules,
        or has no form.
        """
        data = self.read_input()
        having = list_form_bidders(data)
        for name in self.withdrawn:
            if name not in self.bidders:
                hint = suggest_name(name, self.bidders)
                raise WrongArgument(f"no bidder of {self.folder.where} is called {name}{hint}")
            if name not in having:
                raise WrongArgument(f"{name} has no form in {self.folder.path(INPUT)}")
            if name in self.forms:
                raise WrongArgument(f"{name} is to have no form, and another one; say one of these")
        data = remove_forms(data, self.withdrawn)
        for name, text in self.forms.items():
            data = put_form(data, name, text)
        return data

    def make_earlier(self) -> Earlier:
        """What the new auction takes over."""
        return Earlier(
            Contents(self.folder, Goals()),
            name=str(self.folder.where),
            withdrawn=frozenset(self.withdrawn),
            changed=frozenset(self.forms),
        )

    def check_new(self, new: Path, data: bytes) -> None:
        """Raises WrongArgument if a new folder would be within this one, and Refused if it is there
        with other files than those of a run with this input.
        """
        where = Path(os.path.realpath(self.folder.where))
        real = Path(os.path.realpath(new))
        if where in (real, *real.parents):
            raise WrongArgument(f"{new} is in {self.folder.where}; name a folder elsewhere")
        with files.map_errors(str(new)):
            is_empty = not new.exists() or not any(new.iterdir())
        if is_empty:
            return
        if not _has_input(Folder(new), data):
            raise Refused(f"{new} isn't empty; name a new folder")

    def copy_kept(self, new: Folder) -> None:
        """Copies what the office said of the page, unless the new folder has that. Refused if it
        isn't as it was left.
        """
        for name in KEPT:
            old_path = self.folder.path(name)
            new_path = new.path(name)
            is_left = os.path.lexists(self.folder.sum_path(name))
            if new_path.exists() or not is_left and not old_path.exists():
                continue
            if is_left:
                text = self.folder.read(name)
            else:
                text = files.read(str(old_path), _MOST_OF_KEPT, regular=True)
            files.write_all({str(new_path): text})

    def read_report(self, program: str) -> Report:
        """What `wdp verify` says of the award; Refused if it refuses the audit."""
        return judge(program, "verify", self.folder.read(AUDIT)).report

    def compare(self, before: Report, now: Report) -> Comparison:
        """The report of this folder and that of a new one side by side, with the bidders whose
        forms are others.
        """
        changed = {*self.withdrawn, *self.forms}
        return compare_reports(before, now, self.bidders, named=changed)


def _has_input(folder: Folder, data: bytes) -> bool:
    """Whether this is the input of a folder."""
    path = folder.path(INPUT)
    with suppress(Refused):
        return path.is_file() and files.read(str(path), MOST_OF_INPUT, regular=True) == data
    return False
