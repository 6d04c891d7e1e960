"""The step that has the program judge what was found, and makes the report, the audit and the page.
"""
import json
import os
from contextlib import suppress
from dataclasses import dataclass

from wdp import files
from wdp.folder import INPUT, PAGE, RESULTS, Folder
from wdp.publish.figures import Figures
from wdp.publish.judging import AuditSource, Source, Sources, find_contradiction, judge
from wdp.publish.making import Judged, judge_sources
from wdp.publish.names import LONGEST, TITLE, PageOptions, is_line
from wdp.publish.sentences import describe_awards_of_run, describe_proof_of_prices
from wdp.publish.tables import DisplayTable, make_prices_table, make_ties_table
from wdp.runs.contents import PRICES, TIES, Contents, name_file
from wdp.runs.means import Means
from wdp.texts.answers import MOST_TIES
from wdp.texts.refusals import NotSolved, Refused

REPORT = "report.txt"
AUDIT = "audit.txt"
UNCERTIFIED = "report.uncertified.txt"
_NAMES = "names.csv"
KEPT = (PAGE, _NAMES)  # the files in which a folder keeps what the office says of its page
_MOST_OF_PAGE = 100_000  # bytes of page.json
_WRONG = 3  # the status if an answer can't be the best one


@dataclass(frozen=True)
class Page:
    """What the page says at its head: a title, and the unit of all amounts; None is what it was, or
    the usual one.
    """

    title: str | None = None
    currency: str | None = None

    def keep(self, folder: Folder) -> "Page":
        """Keeps title and currency in a folder, and takes from it what nothing is said of; the page
        with both. Refused if nothing is said, and what was kept isn't there any more.
        """
        kept = _read_page(folder)
        page = Page(
            title=self.title or kept.title,
            currency=self.currency or kept.currency,
        )
        text = (json.dumps(vars(page)) + "\n").encode()
        if page == Page() and not folder.replaces and not folder.knows(PAGE, text):
            path = folder.path(PAGE)
            if not os.path.lexists(path):
                again = f"auction {folder.where} --title TITLE --currency UNIT"
                why = "which has the title and the currency"
                raise Refused(f"{path} isn't there any more, {why}: wdp-office {again} makes it")
        if page != kept or not folder.has(PAGE):
            folder.forget(PAGE)
            folder.leave(PAGE, text)
        return page


def _read_page(folder: Folder) -> Page:
    """What a folder keeps of the page, if it does; Refused if that is no page."""
    path = folder.path(PAGE)
    if not os.path.lexists(path):
        return Page()
    if folder.has(PAGE):
        text = folder.read(PAGE)
    else:
        text = files.read(str(path), _MOST_OF_PAGE, regular=True)
    with suppress(ValueError, RecursionError, TypeError):
        page = Page(**json.loads(text))
        if all(_is_line_or_none(name, value) for name, value in vars(page).items()):
            return page
    if folder.replaces:
        return Page()
    raise Refused(f"{path} is no title and currency as auction keeps them: delete it")


def _is_line_or_none(name: str, text: object) -> bool:
    """Whether this is a line for the page, or nothing."""
    return text is None or is_line(text, LONGEST[name])


def _name_part(refused: Refused) -> str | None:
    """The file of a folder that the program refuses, if its refusal is about one."""
    if refused.part in ("solution", "certificate") and refused.number:
        return name_file(refused.part, refused.number)
    files_of_parts = {
        "tie": TIES,
        "unique": TIES,
        "prices": PRICES,
        "cover": PRICES,
        "rule": PRICES,
    }
    return files_of_parts.get(refused.part or "")


def print_report(program: str, *, data: bytes, solutions: bytes, is_certified: bool) -> bytes:
    """What the program reports of an input and the parts with its solutions.

    NotSolved if these aren't certified, and the report shows by itself that one isn't the best.
    """
    judgement = judge(program, "report", solutions + data)
    if not is_certified and (fault := find_contradiction(judgement.report)):
        raise NotSolved(fault, _WRONG)
    return judgement.printed


def make_sources(data: bytes, report: bytes, audit: bytes | None) -> Sources:
    """What results are made of: an input, its report, and if that is certified the audit."""
    return Sources(
        input=Source(data, name="the input"),
        report=Source(report, name="the report"),
        audit=None if audit is None else AuditSource(audit, name="the audit"),
    )


@dataclass(frozen=True)
class Publisher:
    """Makes the report of what a folder has, and with certificates the audit of which `wdp verify`
    prints it. If it `writes_results`, the tables and the page are files of the folder, else the
    tables are only shown.
    """

    folder: Folder
    contents: Contents
    means: Means
    page: Page
    writes_results: bool

    def publish(self) -> None:
        """Leaves the report and the audit, and the page with its tables; NotSolved if the report
        shows by itself that an answer isn't the best one, and Refused if the program refuses what
        is there, with the file's name.
        """
        try:
            self._publish()
        except Refused as refused:
            name = _name_part(refused)
            if name is None or isinstance(refused, NotSolved) or not self.folder.has(name):
                raise
            path = self.folder.path(name)
            raise Refused(f"{path}: {refused.text}; delete it to have it made again") from None

    def _publish(self) -> None:
        """Leaves all, or raises what the program says."""
        is_certified = self.contents.goals.is_certified
        data = self.folder.read(INPUT)
        report = print_report(
            self.means.program,
            data=data,
            solutions=self.contents.format_solutions(),
            is_certified=is_certified,
        )
        audit = self.contents.format_audit() if is_certified else None
        judged = judge_sources(self.means.program, make_sources(data, report, audit))
        if self.writes_results:
            self._keep_earlier_results()
        if audit is None:
            self._leave({UNCERTIFIED: report})
        else:
            self._leave({AUDIT: audit, REPORT: report})
        self._write_results(judged)

    def _leave(self, texts: dict[str, bytes]) -> None:
        """Leaves these files in the place of all of an earlier run, if they aren't the same."""
        folder = self.folder
        if all(folder.has(name) and folder.read(name) == text for name, text in texts.items()):
            return
        for name in (REPORT, UNCERTIFIED, AUDIT):
            if folder.has(name):
                folder.forget(name)
        for name, text in texts.items():
            folder.leave(name, text)

    def _write_results(self, judged: Judged) -> None:
        """Makes the tables and the page."""
        names = self.folder.path(_NAMES)
        options = PageOptions(
            title=self.page.title or TITLE,
            currency=self.page.currency,
            names_path=str(names) if names.exists() else None,
            regular_names=True,
        )
        results = judged.make_results(options)
        if self.writes_results:
            self.folder.leave_folder(RESULTS, results.make_files())
        self._tell_prices(results.figures)
        self._tell_awards(results.figures)

    def _keep_earlier_results(self) -> None:
        """Keeps results by another name that an earlier version left, which left no sums of them."""
        path = self.folder.path(RESULTS)
        kept = self.folder.path(f"{RESULTS}.earlier")
        has_run = any(map(self.folder.has, (REPORT, UNCERTIFIED)))
        if not has_run or self.folder.list_left(RESULTS) or not path.is_dir():
            return
        if not os.path.lexists(kept):
            path.rename(kept)
            self.means.reporter.say(f"{path} is of an earlier version, and is kept as {kept}")

    def _show(self, table: DisplayTable) -> None:
        """Shows the lines of a table."""
        for line in table.format_text().splitlines():
            self.means.reporter.show(line)

    def _tell_prices(self, figures: Figures) -> None:
        """Says what the winners pay, if that is known, and what is proved of it."""
        if figures.prices is not None:
            self._show(make_prices_table(figures))
            self.means.reporter.say(describe_proof_of_prices(figures, figures.prices))

    def _tell_awards(self, figures: Figures) -> None:
        """Says who else can win with the total of group 1, as far as that is known."""
        known = figures.known_awards
        if not known.are_all and not known.is_tie:
            return
        reporter = self.means.reporter
        table = make_ties_table(figures)
        if self.contents.goals.finds_ties and table.rows:
            self._show(table)
        reporter.say(describe_awards_of_run(known))
        if not known.are_all and known.count > MOST_TIES:
            reporter.say(f"an audit lists no more awards: {MOST_TIES} beside the first")
