"""The steps that find what the bids lacked that an award doesn't have, in the award's folder."""
from __future__ import annotations

import os
from collections.abc import Collection, Sequence
from dataclasses import dataclass
from functools import partial
from pathlib import Path
from typing import TYPE_CHECKING

from wdp import audits, memory, steps
from wdp.awards import KnownAwards
from wdp.folder import INPUT, LOST, Folder
from wdp.lost.bids import BidKey, LostBid
from wdp.lost.judging import LostBidJudge, NotShown
from wdp.lost.records import format_bids, format_mark, format_record
from wdp.office.faults import format_count
from wdp.progress import Progress
from wdp.publish.judging import judge
from wdp.publish.names import read_names
from wdp.reporter import run_reporting
from wdp.results import Report
from wdp.runs import messages
from wdp.runs.contents import Contents, Goals
from wdp.runs.means import Means
from wdp.runs.places import AWARDS
from wdp.runs.processes import Processes
from wdp.runs.reports import AUDIT, Page
from wdp.texts.accepted import AcceptedRules
from wdp.texts.parts import parse_parts
from wdp.texts.refusals import NotFound, Refused, Unclear, WrongArgument

if TYPE_CHECKING:
    from wdp.lost.award import ProvedAward

MOST_SOLVES = 100  # that are made if nothing says of which bids
_AWARD = f"{LOST}/of_award.txt"  # which award that is of (no bidder has such a name)


def name_record(key: BidKey) -> str:
    """The file of what is kept of a lost bid."""
    return f"{LOST}/{key.bidder}/{key.number}.json"


def name_audit(key: BidKey, *, is_below: bool = False) -> str:
    """The file of the audit that shows what a lost bid lacked, or of the one a step below.

    >>> name_audit(BidKey("Alpha", 3)), name_audit(BidKey("Alpha", 3), is_below=True)
    ('lost/Alpha/3.txt', 'lost/Alpha/3.below.txt')
    """
    return f"{LOST}/{key.bidder}/{key.number}{'.below' if is_below else ''}.txt"


def _list_audits(key: BidKey) -> list[str]:
    """The files of the audits of a lost bid."""
    return [name_audit(key), name_audit(key, is_below=True)]


def _name_step(key: BidKey) -> str:
    return f"bid {key.number} of {key.bidder}"


@dataclass(frozen=True)
class KeptBids:
    """The lost bids of an award of which a folder keeps what they lacked. None is believed: what is
    read is what `wdp verify` says of the audit that lies there.
    """

    folder: Folder
    judge: LostBidJudge

    def has(self, key: BidKey) -> bool:
        """Whether something is kept of a bid that may be shown: if lots are enough for it, it has
        an audit.
        """
        if not self.folder.has(name_record(key)):
            return False
        lots = self.judge.auction.bids[key.bidder][key.number - 1].lots
        audit = self.folder.sum_path(name_audit(key))
        return os.path.lexists(audit) or not self.judge.auction.rules.fits(lots)

    def list_missing(self, key: BidKey) -> list[str]:
        """The audits of a bid that were left, and aren't there any more."""
        names = [name for name in _list_audits(key) if not self.folder.has(name)]
        return [name for name in names if os.path.lexists(self.folder.sum_path(name))]

    def read(self, key: BidKey) -> LostBid:
        """What a bid lacked; Refused, with the file's name, if a file isn't as it was left, or if
        the audit shows something else.
        """
        record = self.folder.read(name_record(key))
        audit, below = map(self._read_audit, _list_audits(key))
        try:
            bid = self.judge.judge(key, audit, below)
            if format_record(bid) != record:
                raise NotShown("its audit shows something else")
        except NotShown as why:
            again = "wdp-office lost with --replace finds it anew"
            raise NotShown(f"{self.folder.path(name_record(key))}: {why}; {again}") from None
        return bid

    def forget(self, key: BidKey) -> None:
        """Forgets what is kept of a bid; Refused if a file of it isn't as it was left."""
        names = [name_record(key), *_list_audits(key)]
        self.folder.find_changed(names)
        for name in names:
            self.folder.forget(name)

    def _read_audit(self, name: str) -> bytes | None:
        """An audit, if it is there."""
        return self.folder.read(name) if self.folder.has(name) else None


@dataclass(frozen=True)
class LostRun:
    """Finds what lost bids lacked, so many at a time, and keeps what was found."""

    folder: Folder
    means: Means
    jobs: int = 1

    def run(self, bidder: str | None = None, number: int | None = None) -> int:
        """Finds what isn't found yet, of all lost bids, of this bidder's, or of those of this
        number. Gives the status.
        """
        folder = self.folder
        if not folder.where.is_dir():
            raise Refused(f"{folder.where} is no folder of an auction")
        if not folder.has(AUDIT):
            raise Refused(f"{folder.path(AUDIT)} isn't there; wdp-office auction makes it")
        with folder.lock(alone=True), folder.scratch():
            with steps.hold_signals():
                import wdp.lost.search  # noqa: F401
            report = self._judge_audit()
            award = self._read_award()
            keys = award.list_lost(bidder, number)
            self._take_folder()
            kept = KeptBids(folder, LostBidJudge.read(self.means.program, award.data, report))
            left = self._list_left(kept, keys)
            is_chosen = bidder is not None or number is not None
            self._tell_begin(award, keys, left=left, is_chosen=is_chosen)
            self._find_all(award, left)
            known = KnownAwards(len(report.awards), are_all=report.has_all_awards)
            status = 0
            for name in dict.fromkeys(key.bidder for key in keys):
                write = partial(self._write_for, name, award, kept=kept, known=known)
                status = max(status, run_reporting(self.means.reporter.say, "", write))
            return max(status, self._tell_end(keys))

    def _judge_audit(self) -> Report:
        """What `wdp verify` says of the award; Refused if the audit isn't one of the input."""
        audit = self.folder.read(AUDIT)
        path = self.folder.path(AUDIT)
        if audits.find_input(audit, str(path)) != self.folder.read(INPUT):
            raise Refused(f"{path} isn't of the input that is there")
        try:
            return judge(self.means.program, "verify", audit, workers=self.means.workers).report
        except (NotFound, Unclear):
            raise
        except Refused as refused:
            raise Refused(f"{path}: wdp verify refuses it: {refused.text}") from None

    def _read_award(self) -> ProvedAward:
        """The award of the folder."""
        from wdp.lost.award import ProvedAward

        parts = list(parse_parts(self.folder.read(AUDIT)))
        return ProvedAward.read(
            self.folder.read(INPUT),
            solution=next(part.text for part in parts if part.kind == "solution"),
            certificate=next(part.text for part in parts if part.kind == "certificate"),
            means=self.means,
            known_rows=Contents(self.folder, Goals()).read_rows(),
        )

    def _take_folder(self) -> None:
        """Takes away what was found of another award."""
        mark = format_mark(self.folder.read(INPUT), self.folder.read(AUDIT))
        for name in self.folder.find_changed([_AWARD]):
            self.folder.forget(name)
        if not is_of_award(self.folder, mark):
            self.folder.clear(LOST)
            self.folder.leave(_AWARD, mark)

    def _list_left(self, kept: KeptBids, keys: Sequence[BidKey]) -> list[BidKey]:
        """The bids of which isn't known what they lacked. Refused if a file isn't as it was left,
        or shows something else, unless that is replaced.
        """
        left = []
        for key in keys:
            if missing := kept.list_missing(key):
                self.means.reporter.say(messages.format_made_again(missing))
            if missing or not kept.has(key) or not self._holds(kept, key):
                kept.forget(key)
                left.append(key)
        return left

    def _holds(self, kept: KeptBids, key: BidKey) -> bool:
        """Whether what is kept of a bid is shown. If it isn't, that is Refused unless this run
        replaces it.
        """
        try:
            if self.folder.find_changed([name_record(key), *_list_audits(key)]):
                return False
            kept.read(key)
        except NotShown:
            if not self.folder.replaces:
                raise
            return False
        return True

    def _tell_begin(
        self,
        award: ProvedAward,
        keys: Sequence[BidKey],
        *,
        left: Collection[BidKey],
        is_chosen: bool,
    ) -> None:
        """Says how many solves there are; WrongArgument if they are many, and nobody chose them."""
        solves = sum(award.fits(key) for key in left)
        unfit = sum(not award.fits(key) for key in keys)
        count = f"{format_count(solves, 'solve')} for {format_count(len(keys), 'lost bid')}"
        if unfit:
            count += f", of which {unfit} can't fit"
        if solves > MOST_SOLVES and not is_chosen:
            hint = f"for more than {MOST_SOLVES} say --bidder NAME or --bid J"
            raise WrongArgument(f"{count}; {hint}")
        self.means.reporter.say(count)

    def _find_all(self, award: ProvedAward, left: Sequence[BidKey]) -> None:
        """Finds what these bids lacked, each in a process of its own."""
        columns = len(award.problem.program.columns)
        reporter = self.means.reporter
        progress = Progress(
            len(left), left=len(left), times=reporter.times, say=reporter.say, thing="bid"
        )
        Processes(reporter).run(
            {_name_step(key): partial(self._find, award, key) for key in left},
            jobs=memory.limit_jobs(self.jobs, columns, memory.measure_free()),
            watch=None if reporter.is_quiet else progress,
        )

    def _find(self, award: ProvedAward, key: BidKey) -> None:
        """Leaves what a bid lacked, and the audits that show it; the record is there once all is."""
        from wdp.lost.search import LostBidSearch

        found = LostBidSearch(award, self.means).find(key)
        if found.audit is not None:
            self.folder.leave(name_audit(key), found.audit)
        if found.audit_below is not None:
            self.folder.leave(name_audit(key, is_below=True), found.audit_below)
        self.folder.leave(name_record(key), format_record(found))

    def _write_for(
        self, name: str, award: ProvedAward, *, kept: KeptBids, known: KnownAwards
    ) -> None:
        """Leaves what the bids of a bidder lacked of which that is known, and shows it."""
        keys = [key for key in award.list_lost(name) if kept.has(key)]
        if not keys:
            return
        bids = [kept.read(key) for key in keys]
        named = _find_named(self.folder)
        page = Page().keep(named)
        text = format_bids(
            bids,
            step=award.auction.rules.step,
            names=read_names_of_folder(named, award.auction.rules),
            currency=page.currency,
            known=known,
        )
        self.folder.leave(f"{LOST}/{name}.txt", text.encode())
        for line in text.splitlines():
            self.means.reporter.show(line)

    def _tell_end(self, keys: Sequence[BidKey]) -> int:
        """Says which bids are missing; the status."""
        missing = [key for key in keys if not self.folder.has(name_record(key))]
        where = self.folder.path(LOST)
        if not missing:
            self.means.reporter.say(f"what they lacked is in {where}, with an audit for each")
            return 0
        listed = ", ".join(map(_name_step, missing))
        are = "is" if len(missing) == 1 else "are"
        count = f"{len(missing)} of {format_count(len(keys), 'bid')} {are} missing"
        self.means.reporter.say(f"{count}: {listed}")
        return 1


def _find_named(folder: Folder) -> Folder:
    """The folder that has the office's names: of an award that was made the first that of its
    auction.
    """
    parent = folder.where.absolute().parent
    return Folder(parent.parent) if parent.name == AWARDS else folder


def is_of_award(folder: Folder, mark: bytes) -> bool:
    """Whether what a folder keeps of lost bids is of the award with this mark."""
    return folder.has(_AWARD) and folder.read(_AWARD) == mark


def read_names_of_folder(folder: Folder, rules: AcceptedRules) -> dict[str, str]:
    """What the office calls bidders and categories, by `names.csv` of a folder, if it is there."""
    path: Path = folder.path("names.csv")
    return read_names(str(path), rules, regular=True) if path.exists() else {}
