"""The letters of an auction's folder: to each bidder about the award, or before it a receipt of the
form that counts.
"""
import os
from collections.abc import Mapping, Sequence
from concurrent.futures import ThreadPoolExecutor
from dataclasses import dataclass
from functools import partial

from wdp.folder import INPUT, LETTERS, RECEIPTS, Folder
from wdp.letters.content import Check, CountedForm, Letter, Naming, make_letter, make_receipt
from wdp.letters.rendering import format_page, format_text
from wdp.lost.bids import BidKey, LostBid
from wdp.lost.judging import LostBidJudge
from wdp.lost.records import format_mark
from wdp.office.faults import format_count
from wdp.office.explaining import explain
from wdp.program import Limits, ask
from wdp.publish.figures import Figures
from wdp.publish.judging import AuditSource, Source, Sources, judge
from wdp.publish.making import make_results
from wdp.publish.names import PageOptions
from wdp.reporter import Reporter
from wdp.results import Report
from wdp.runs.lost import KeptBids, is_of_award, read_names_of_folder
from wdp.runs.places import AWARDS
from wdp.runs.reports import AUDIT, REPORT, Page
from wdp.texts import accepted
from wdp.texts.accepted import Accepted
from wdp.texts.forms import list_forms
from wdp.texts.refusals import Refused
from wdp.texts.tables import compute_digest

_TITLES = {LETTERS: "Award of the auction", RECEIPTS: "Forms of the auction"}
_MOST_OF_FORMS = 1_000_000  # bytes of what `wdp forms` prints, a line for each bidder


@dataclass(frozen=True)
class _PlacedAward:
    """The award that letters are about: its folder, and the audit."""

    folder: Folder
    audit: bytes

    def read_lost(self, program: str, data: bytes, report: Report) -> list[LostBid]:
        """The lost bids of an input of which it is known what they lacked in this award."""
        if not is_of_award(self.folder, format_mark(data, self.audit)):
            return []
        kept = KeptBids(self.folder, LostBidJudge.read(program, data, report))
        keys = [
            BidKey(bidder, number)
            for bidder, bids in kept.judge.auction.bids.items()
            for number in range(1, len(bids) + 1)
        ]
        with ThreadPoolExecutor(len(os.sched_getaffinity(0))) as pool:
            return list(pool.map(kept.read, filter(kept.has, keys)))

    def list_checks(self, form: CountedForm, figures: Figures, lines: Sequence[str]) -> list[Check]:
        """The commands that print a bidder's part of the audit, of which `wdp verify` prints these
        lines.
        """
        checks = [
            Check(f"sha256sum {AUDIT}", f"{compute_digest(self.audit)}  {AUDIT}"),
            Check(f"wdp forms {AUDIT} | grep '^%form {form.bidder} '", form.line),
        ]
        names = [winner.name for winner in figures.winners]
        if form.bidder in names:
            places = [1 + names.index(form.bidder)]
            if figures.prices is not None:
                places.append(lines.index("prices") + places[0])
            for place in places:
                command = f"wdp verify {AUDIT} | sed -n {place + 1}p"
                checks.append(Check(command, lines[place]))
        return checks


@dataclass(frozen=True)
class LetterRun:
    """Writes letters into an auction's folder, in the place of older ones. `page` has their title
    and the unit of amounts.
    """

    folder: Folder
    program: str
    reporter: Reporter
    page: Page

    def write_receipts(self, data: bytes | None = None) -> None:
        """Writes a receipt for each bidder, of an input, or of the one that is there."""
        if data is not None:
            self._check_input(data)
            self.folder.where.mkdir(parents=True, exist_ok=True)
        self._check_folder()
        with self.folder.lock(alone=True):
            self.folder.take_input(data)
            text = self.folder.read(INPUT)
            self._check_input(text)
            auction = accepted.read(text, str(self.folder.path(INPUT)))
            naming = self._read_naming(auction, _TITLES[RECEIPTS])
            forms = self._list_forms(text, auction)
            letters = {form.bidder: make_receipt(form, auction.rules, naming) for form in forms}
            self._write(RECEIPTS, letters, forms)

    def write_letters(
        self, drawn: int | None = None, *, is_complete: bool = False, with_audit: bool = False
    ) -> None:
        """Writes a letter about the award to each bidder; about another award than the first if
        that was drawn. The office may know that the list of awards `is_complete`. `with_audit` they
        have the commands for those who have the audit.
        """
        self._check_folder()
        with self.folder.lock(alone=True):
            award = self._open_award(drawn)
            data = self.folder.read(INPUT)
            auction = accepted.read(data, str(self.folder.path(INPUT)))
            naming = self._read_naming(auction, _TITLES[LETTERS])
            audit = AuditSource(award.audit, "the audit", drawn=drawn, is_complete=is_complete)
            figures = self._make_figures(data, audit, naming)
            judgement = judge(self.program, "verify", award.audit)
            lines = judgement.printed.decode("ascii").splitlines()
            all_lost = award.read_lost(self.program, data, judgement.report)
            make = partial(make_letter, rules=auction.rules, naming=naming, figures=figures)
            letters = {}
            forms = self._list_forms(data, auction)
            for form in forms:
                lost = [bid for bid in all_lost if bid.bidder == form.bidder]
                checks = award.list_checks(form, figures, lines) if with_audit else []
                letters[form.bidder] = make(form, lost=lost, checks=checks)
            self._write(LETTERS, letters, forms)
            if not all_lost:
                hint = f"wdp-office lost {award.folder.where} finds that"
                self.reporter.say(f"what lost bids lacked isn't in them; {hint}")

    def _check_folder(self) -> None:
        if not self.folder.where.is_dir():
            raise Refused(f"{self.folder.where} is no folder of an auction")

    def _check_input(self, data: bytes) -> None:
        """Raises Refused if an input has a fault."""
        if findings := explain(self.program, data).findings:
            hint = "wdp-office explain says where"
            raise Refused(f"the input: {findings[0].refused.text}; {hint}")

    def _read_naming(self, auction: Accepted, title: str) -> Naming:
        """What the office calls the auction, its bidders and categories."""
        page = self.page.keep(self.folder)
        return Naming(
            title=page.title or title,
            names=read_names_of_folder(self.folder, auction.rules),
            currency=page.currency,
        )

    def _list_forms(self, data: bytes, auction: Accepted) -> list[CountedForm]:
        """The form of each bidder that counts, in the order of the rules."""
        limits = Limits(_MOST_OF_FORMS)
        printed = ask(self.program, ["forms"], data, limits=limits).decode("ascii")
        lines = {line.split()[1]: line for line in printed.splitlines()[1:]}
        texts = list_forms(data)
        return [
            CountedForm(
                bidder=name,
                bids=auction.bids.get(name, ()),
                line=lines[name],
                text=texts.get(name),
            )
            for name in auction.rules.bidders
        ]

    def _open_award(self, drawn: int | None) -> _PlacedAward:
        """The award that letters are about; Refused if it isn't there."""
        path = "" if drawn in (None, 1) else f"{AWARDS}/{drawn}/"
        folder = Folder(self.folder.path(path))
        if not folder.has(AUDIT):
            option = f" --award {drawn}" if path else ""
            hint = f"wdp-office auction {self.folder.where}{option} makes it"
            raise Refused(f"{folder.path(AUDIT)} isn't there; {hint}")
        return _PlacedAward(folder, folder.read(AUDIT))

    def _make_figures(self, data: bytes, audit: AuditSource, naming: Naming) -> Figures:
        """The figures of the award, once the program judged its audit."""
        names = self.folder.path("names.csv")
        sources = Sources(
            input=Source(data, name="the input"),
            report=Source(self.folder.read(REPORT), name="the report"),
            audit=audit,
        )
        options = PageOptions(
            title=naming.title,
            currency=naming.currency,
            names_path=str(names) if names.exists() else None,
            regular_names=True,
        )
        return make_results(self.program, sources, options).figures

    def _write(
        self, kind: str, letters: Mapping[str, Letter], forms: Sequence[CountedForm]
    ) -> None:
        """Writes letters by the names of their bidders, as pages and as texts, and the forms that
        come with them.
        """
        texts = {}
        for name, letter in letters.items():
            texts[f"{name}.html"] = format_page(letter)
            texts[f"{name}.txt"] = format_text(letter)
        for form in forms:
            if form.text is not None:
                texts[form.file_name] = form.text
        self.folder.leave_folder(kind, texts)
        thing = kind.removesuffix("s")
        count = format_count(len(letters), thing)
        self.reporter.say(f"{count} in {self.folder.path(kind)}")
