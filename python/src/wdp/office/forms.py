"""The folder of an auction's forms: which of its files are forms, whose, and which of several
counts.
"""
import os
import re
from collections import defaultdict
from collections.abc import Callable, Iterable, Iterator, Mapping, Sequence
from contextlib import contextmanager
from dataclasses import dataclass, field
from pathlib import PurePath

from wdp.files import Unreadable, map_errors
from wdp.office.reading_choices import Choices
from wdp.office.faults import Fault, quote
from wdp.office.reading import read_form_file
from wdp.office.sheets import MOST_OF_A_FILE, File
from wdp.office.versions import describe_times, find_last, find_used
from wdp.texts.accepted import AcceptedRules
from wdp.texts.parts import MOST_OF_INPUT
from wdp.texts.refusals import Refused

_FORMS = (".csv", ".tsv", ".txt", ".xlsx")
_OTHER_WORKBOOKS = (".xlsm", ".xlsb", ".xls", ".ods", ".numbers")
_LOCK = "~$"
_LOCKED = " (a spreadsheet's lock: the workbook is open, or was)"
_OTHER_WORKBOOK = "it is a workbook {}, which isn't read; save it as .xlsx or CSV"
_NO_FORM = f"its name doesn't end in {', '.join(_FORMS)}; remove it if it is no form"
_WHICH_COUNTS = "say --use FILE for the one that counts, or --last-wins time"
_MOST_OF_FORMS = 2 * MOST_OF_INPUT  # bytes of all together: what an input may have, as UTF-16


def ignore_progress(count: int, most: int) -> None:
    """Takes progress that nobody wants to know of."""


@dataclass(frozen=True)
class Replaced:
    """A file that a later one of the same bidder replaces, and by what they were compared."""

    file: File
    last: File
    reason: str


@dataclass
class FormFolder:
    """The forms of a folder, as far as they could be read, and what is wrong with them as files."""

    rules: AcceptedRules
    choices: Choices
    # whether a bidder's own form is read alone, in place of a folder
    is_one_form: bool = False
    # the forms that count, in the order of the input: by their bidders' numbers, then those of
    # unknown bidders
    counting: list[File] = field(default_factory=list)
    replaced: list[Replaced] = field(default_factory=list)
    # names in the folder that aren't taken for forms
    passed_over: list[str] = field(default_factory=list)
    # bidders whose files can't be read
    unread: list[str] = field(default_factory=list)
    # files whose names name another bidder than their first rows
    _misnamed: set[str] = field(default_factory=set)
    faults: list[Fault] = field(default_factory=list)
    # takes how many files were read, of how many
    watch: Callable[[int, int], None] = ignore_progress

    @property
    def by_bidder(self) -> dict[str, File]:
        """The form of each bidder of the rules that has one."""
        return {form.bidder: form for form in self.counting if form.bidder in self.rules.bidders}

    def read(self, folder: str) -> None:
        """Reads the forms."""
        forms = defaultdict[str, list[File]](list)
        paths: list[str] = []
        with self._collect(unread=self.rules.bidders):
            paths = self._list_paths(folder)
            for count, path in enumerate(paths):
                self.watch(count, len(paths))
                with self._collect(unread=self._guess_bidders(path)):
                    form = self._read_form(path)
                    forms[form.bidder].append(form)
                    if form.bidder not in self.rules.bidders:
                        # (whose first row is wrong isn't also missing)
                        self.unread += self._guess_bidders(path)
        for name in dict.fromkeys([*self.rules.bidders, *forms]):
            # (a file that names another bidder, which is said of it, isn't also one of several)
            named = [form for form in forms[name] if form.path not in self._misnamed]
            self.counting += self._choose_last(named or forms[name])
        self._check_used(paths, forms)

    def _add_fault(self, place: str, text: str) -> None:
        self.faults.append(Fault(place, text))

    @contextmanager
    def _collect(self, unread: Iterable[str]) -> Iterator[None]:
        """That a file can't be used is a fault of it, and of these bidders it isn't known whether
        they have a form.
        """
        try:
            yield
        except Unreadable as error:
            self._add_fault(error.path, error.why)
            self.unread += unread

    def _list_paths(self, folder: str) -> list[str]:
        """The files that are taken for forms; the receipt names hidden ones, locks, and those that
        end in ~.
        """
        if self.is_one_form:
            return [folder]
        with map_errors(folder):
            names = sorted(os.listdir(folder))
        paths = []
        for name in names:
            path = os.path.join(folder, name)
            if name.startswith((".", _LOCK)) or name.endswith("~"):
                self.passed_over.append(name + (_LOCKED if name.startswith(_LOCK) else ""))
            elif PurePath(name).suffix.lower() in _FORMS:
                paths.append(path)
            else:
                self._refuse_other(path)
        sizes = [os.path.getsize(path) for path in paths if os.path.isfile(path)]
        size = sum(min(each, MOST_OF_A_FILE) for each in sizes)
        if size > _MOST_OF_FORMS:
            why = f"its files have {size:,} bytes together, more than {_MOST_OF_FORMS:,}"
            raise Unreadable(folder, why)
        return paths

    def _refuse_other(self, path: str) -> None:
        """Adds the fault of a file that is no form, or a workbook of another kind."""
        ending = PurePath(path).suffix.lower()
        if ending in _OTHER_WORKBOOKS:
            self._add_fault(path, _OTHER_WORKBOOK.format(ending))
            self.unread += self._guess_bidders(path)
        else:
            self._add_fault(path, _NO_FORM)
            self.unread += _find_bidders(path, self.rules.bidders)

    def _guess_bidders(self, path: str) -> Sequence[str]:
        """The bidders whose form a file may be that isn't read: those whom its name names, or
        all.
        """
        return _find_bidders(path, self.rules.bidders) or self.rules.bidders

    def _read_form(self, path: str) -> File:
        """The form of a file, whose name has to name the bidder of its first row, and no other;
        Unreadable if there is none.
        """
        form = read_form_file(path, self.rules, self.choices.sheet)
        bidder = form.bidder
        named = _find_bidders(form.path, self.rules.bidders)
        others = " and ".join(name for name in named if name != bidder)
        whose = f"{bidder}, whose form its first row says it is"
        why = ""
        if bidder in named and others:
            why = f"the file's name names {others} beside {whose}"
        elif others:
            why = f"the file's name doesn't name {whose}, but {others}"
            self._misnamed.add(form.path)
            # (whether these bid isn't asked while it isn't known whose form it is)
            self.unread += named
        elif not named and not self.choices.any_file_name:
            why = f"the file's name doesn't name {whose}; say --any-file-name if it is right"
        if why and bidder in self.rules.bidders:
            self._add_fault(f"{form.path}:{form.rows[0].place()}", why)
        return form

    def _choose_last(self, forms: list[File]) -> list[File]:
        """The file of a bidder that counts, by the order that was chosen; all, with faults, if that
        can't be known.
        """
        if len(forms) < 2 or forms[0].bidder not in self.rules.bidders:
            return forms
        name = forms[0].bidder
        paths = [form.path for form in forms]
        try:
            last = find_used(paths, self.choices.use)
            if last is None and self.choices.last_wins:
                last = find_last(paths)
        except Refused as why:
            for form in forms[1:]:
                self._add_fault(form.path, f"another form of {name} is in {paths[0]}; {why}")
            return forms
        if last is None:
            for form in forms[1:]:
                times = describe_times(form.path, paths[0])
                text = f"another form of {name} is in {paths[0]}: {times}; {_WHICH_COUNTS}"
                self._add_fault(form.path, text)
            return forms
        for place, reason in last.replaced:
            self.replaced.append(Replaced(forms[place], last=forms[last.place], reason=reason))
        return [forms[last.place]]

    def _check_used(self, paths: Sequence[str], forms: Mapping[str, Sequence[File]]) -> None:
        """Adds a fault for each file that is said to count and isn't in the folder, or is the one
        form of its bidder.
        """
        listed = {os.path.realpath(path) for path in paths}
        alone = {
            os.path.realpath(each[0].path): each[0] for each in forms.values() if len(each) == 1
        }
        for path in self.choices.use:
            form = alone.get(os.path.realpath(path))
            if os.path.realpath(path) not in listed:
                self._add_fault("--use", f"{quote(path)} is no form of the folder")
            elif form and form.bidder not in self.unread:
                self._add_fault(form.path, f"{form.bidder} has no other form; --use names it")


def _find_bidders(path: str, bidders: Sequence[str]) -> list[str]:
    """The bidders whose names are words of a file's name, in any case if no bidder's name is
    written so; in the order of the rules.
    """
    named: set[str] = set()
    for word in re.split(r"[^A-Za-z0-9]+", PurePath(path).stem):
        if word in bidders:
            named.add(word)
        else:
            named.update(name for name in bidders if name.lower() == word.lower())
    return [name for name in bidders if name in named]
