"""An auction's files: the rules, a folder with a form of each bidder, and the groups.

They are joined into one input, in which the program finds the faults; here is what only files have.
"""
import re
from collections.abc import Callable, Iterator, Mapping, Sequence
from contextlib import contextmanager
from dataclasses import dataclass, field

from wdp.files import Unreadable
from wdp.office.reading_choices import Choices
from wdp.office.faults import Fault, format_count, quote, suggest_name
from wdp.office.forms import FormFolder, ignore_progress
from wdp.office.findings import Finding, LeftOutBid
from wdp.office.explaining import explain
from wdp.office.located_faults import explain_value, limit_faults, make_faults, make_input_fault
from wdp.office.reading import MOST_OF_A_FORM, Groups, check_end, read_groups, read_rules_file
from wdp.office.sheets import File, read_pairs
from wdp.texts.accepted import AcceptedRules, parse_rules
from wdp.texts.tables import TableRow, encode

_COUNT = re.compile("[0-9]{1,18}")


@dataclass
class AuctionFiles:
    """What an auction's files say, as far as they could be read, and everything that is wrong with
    them.

    `program` is the path of the program that explains them. `text` is the input that it explained,
    and `left_out` says which bids are in no program.
    """

    program: str
    choices: Choices
    rules_file: File = field(init=False)
    rules: AcceptedRules = field(default_factory=lambda: AcceptedRules(1))
    folder: FormFolder = field(init=False)
    groups: Groups = field(default_factory=Groups)
    faults: list[Fault] = field(default_factory=list)
    left_out: list[LeftOutBid] = field(default_factory=list)
    text: bytes = b""
    # takes how many files of forms were read, of how many
    watch: Callable[[int, int], None] = ignore_progress

    def __post_init__(self) -> None:
        self.folder = FormFolder(self.rules, self.choices)

    @property
    def forms(self) -> dict[str, File]:
        """The form of each bidder of the rules that has one."""
        return self.folder.by_bidder

    def read_rules(self, path: str) -> bool:
        """Reads the rules; whether nothing is wrong with them."""
        with self._collect():
            file = read_rules_file(path, self.choices.sheet, regular=False)
            self.rules_file = file
            self.faults += file.faults
            if not file.faults:
                explained = explain(self.program, b"%rules\n" + file.text)
                faults = make_faults(explained.findings, path, file.rows, bidders=[])
                self.faults += limit_faults(faults, path, explained.more)
                self.faults += check_end(file, "rules", self.choices.allow_unended)
            if not self.faults:
                self.rules = parse_rules(file.rows)
        return not self.faults

    def read_all(
        self, rules: str, folder: str, groups: Sequence[str], *, is_one_form: bool = False
    ) -> None:
        """Reads all files: that of the rules, those of a folder of forms, and one of groups, or
        groups by a rule.
        """
        if not self.read_rules(rules):
            return
        with self._collect():
            if groups:
                allowed = self.choices.allow_unended
                self.groups = read_groups(groups, self.rules.bidders, allowed)
                self.faults += self.groups.faults
        faults_of_groups = self.faults
        self.folder = FormFolder(
            self.rules, self.choices, is_one_form=is_one_form, watch=self.watch
        )
        self.folder.read(folder)
        self.faults = self.folder.faults
        self.text = self._join(has_groups=bool(groups))
        explained = explain(self.program, self.text, with_bids=True)
        self.left_out = explained.bids
        findings = explained.by_part()
        for number, form in enumerate(self.folder.counting, 1):
            self._check_form(form, findings["form", number], is_all=not explained.more)
        self._check_choices()
        if not is_one_form:
            self._check_missing(folder)
        if self.choices.expect:
            self._check_counts(self.choices.expect)
        path = groups[-1] if groups else ""
        rows = self.groups.rows
        faults = make_faults(findings["groups", None], path, rows, bidders=self.rules.bidders)
        self.faults += faults_of_groups + limit_faults(faults, path)
        if explained.findings and explained.findings[0].part == "input":
            fault = make_input_fault(explained.findings[0], self.text, "the joined input")
            self.faults.append(fault)
        if explained.more:
            is_least = any(form.is_cut for form in self.folder.counting)
            least = "at least " if is_least else ""
            text = f"{least}{format_count(explained.more, 'more fault')} in these files"
            self.faults.append(Fault(folder, text, count=explained.more, is_least=is_least))

    def _add_fault(self, place: str, text: str) -> None:
        self.faults.append(Fault(place, text))

    @contextmanager
    def _collect(self) -> Iterator[None]:
        """That a file can't be used is a fault of it."""
        try:
            yield
        except Unreadable as error:
            self._add_fault(error.path, error.why)

    def _join(self, *, has_groups: bool) -> bytes:
        """The input of all files."""
        text = b"%rules\n" + self.rules_file.text
        text += b"".join(b"%form\n" + form.text for form in self.folder.counting)
        if has_groups:
            text += encode(f"%groups\n{self.groups.text}")
        return text

    def _check_form(self, form: File, findings: list[Finding], *, is_all: bool) -> None:
        """Adds what is wrong with a form; without a fault it gets its number of bids, if these are
        all findings.
        """
        # (a quote that isn't closed makes one field of all that follows)
        beyond = form.unclosed or MOST_OF_A_FORM + 1
        within = [finding for finding in findings if (finding.record or 0) < beyond]
        faults = make_faults(within, form.path, form.rows, bidders=self.rules.bidders)
        # (a formula without a value isn't also an empty field)
        faults = [
            fault
            for fault in faults
            if fault.place not in form.blank or not fault.text.startswith("''")
        ]
        self.faults += form.faults + limit_faults(faults, form.path, is_least=form.is_cut)
        if not form.faults:
            self.faults += check_end(form, form.bidder, self.choices.allow_unended)
        if not findings and not form.faults and is_all:
            form.bids = len(form.rows) - 1
            self._check_empty(form, form.bids)

    def _check_empty(self, form: File, bids: int) -> None:
        """The options have to name a form without bids, and no other."""
        name = form.bidder
        is_allowed = name in self.choices.allow_empty
        if not bids and not is_allowed:
            hint = f"say --allow-empty {name} if it is meant to have none"
            self._add_fault(form.path, f"the form has no bid; {hint}")
        elif bids and is_allowed:
            has = f"the form has {format_count(bids, 'bid')}"
            self._add_fault(form.path, f"{has}; --allow-empty names {name}")

    def _check_choices(self) -> None:
        """Adds a fault for each name in the options that is no bidder's, and for each one that
        isn't needed.
        """
        forms = self.forms
        options = {
            "missing": self.choices.allow_missing,
            "empty": self.choices.allow_empty,
            "unended": [
                name for name in self.choices.allow_unended if name not in ("rules", "groups")
            ],
        }
        for option, name in [(option, name) for option, names in options.items() for name in names]:
            if name not in self.rules.bidders:
                near = suggest_name(name, self.rules.bidders)
                text = f"{quote(name)} is no bidder of the rules{near}"
                self._add_fault(f"--allow-{option}", text)
            elif option == "missing" and name in forms:
                text = f"this is a form of {name}; --allow-missing names it"
                self._add_fault(forms[name].path, text)
            elif option != "missing" and name not in {*forms, *self.folder.unread}:
                self._add_fault(f"--allow-{option}", f"there is no form of {name}")

    def _check_missing(self, folder: str) -> None:
        """Adds a fault for each bidder without a form who may not lack it."""
        present = {*self.forms, *self.choices.allow_missing, *self.folder.unread}
        for name in self.rules.bidders:
            if name not in present:
                hint = f"say --allow-missing {name} if it doesn't bid"
                self._add_fault(folder, f"there is no form of {name}; {hint}")

    def _check_counts(self, path: str) -> None:
        """Adds a fault for each form that hasn't the bids that are expected, by a file with a row
        `bidder,bids` for each.
        """
        with self._collect():
            expected, faults = read_pairs(
                path,
                "bidder,bids",
                wanted="a bidder and a number of bids",
                names=self.rules.bidders,
                who="bidder",
            )
            for row in expected.values():
                count = row.values[1]
                if not _COUNT.fullmatch(count):
                    text = f"{quote(count)} isn't a number of bids{explain_value(count)}"
                    faults.append(Fault(f"{path}:{row.place(1)}", text))
            self.faults += faults
            if not faults:
                self._compare_counts(path, expected)

    def _compare_counts(self, path: str, expected: Mapping[str, TableRow]) -> None:
        forms = self.forms
        for name in self.rules.bidders:
            form = forms.get(name)
            row = expected.get(name)
            if row is None:
                if form:
                    self._add_fault(path, f"there is no row for {name}, which has a form")
                continue
            count = int(row.values[1])
            place = f"{path}:{row.place(1)}"
            wanted = f"{format_count(count, 'bid')} of {name} expected"
            if not form and count and name not in self.folder.unread:
                self._add_fault(place, f"{wanted}; there is no form")
            elif form and form.bids not in (None, count):
                self._add_fault(place, f"{wanted}; {form.path} has {form.bids}")
