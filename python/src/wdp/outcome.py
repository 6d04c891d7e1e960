"""A certified outcome of an auction, and the pages that are made of it."""
from __future__ import annotations

import os
from dataclasses import dataclass, field

from wdp.certify import check_libraries
from wdp.checks import check_seconds, check_solver
from wdp.comparison import Comparison, compare_reports
from wdp.lost.bids import LostBids
from wdp.program import StrPath
from wdp.publish.making import make_results
from wdp.publish.names import LONGEST, TITLE, PageOptions, is_line
from wdp.publish.signing import Signer
from wdp.results import Report, Solutions
from wdp.runs.contents import format_parts
from wdp.runs.means import Means
from wdp.runs.reports import make_sources, print_report
from wdp.texts.parts import list_groups, list_names, parse_parts
from wdp.texts.refusals import WrongArgument


@dataclass(frozen=True)
class Outcome:
    """A certified outcome: the report, the solutions that are optimal, and the certificate of each.

    If asked, `ties` are the solutions of group 1 that tie with the first, and `unique` is the
    certificate that there are no others, if they aren't too many for an audit. `audit` is an input
    of which `wdp verify` prints the report. If prices aren't shown to be those of the rule, `limit`
    says which limit of the formats exact ones are beyond.

    `input` is the auction's input, without the groups that prices add, and `program` the path of
    the program that judged it.
    """

    report: Report
    solutions: Solutions
    certificates: tuple[str, ...]
    unique: str | None
    ties: tuple[str, ...]
    audit: bytes = field(repr=False)
    input: bytes = field(repr=False)
    program: str = field(repr=False, compare=False)
    limit: str | None = None

    def lost(
        self,
        bidder: str | None = None,
        bid: int | None = None,
        *,
        solver: str | None = None,
        time_limit: float | None = None,
    ) -> LostBids:
        """What each bid lacked that isn't in the award: the lowest amount at which it would have
        tied or won, all other bids as they are, with an audit that shows it. It takes a solve for
        each of them. With `bidder`, of this bidder's bids alone, and with `bid`, of those of this
        number.

        `solver` and `time_limit` are as in `Auction.prices`. Raises WrongArgument if there is no
        such bid, NotSolved if a solver fails, Refused if a limit is reached, and Missing without
        numpy, scipy and swiglpk.
        """
        check_libraries()
        from wdp.lost.award import ProvedAward
        from wdp.lost.search import LostBidSearch

        means = Means(
            program=self.program,
            solver=check_solver(solver),
            seconds=check_seconds(time_limit),
        )
        award = ProvedAward.read(
            self.input,
            solution=self.solutions.texts[0].encode(),
            certificate=self.certificates[0].encode(),
            means=means,
        )
        search = LostBidSearch(award, means)
        return LostBids(tuple(search.find(key) for key in award.list_lost(bidder, bid)))

    def write_page(
        self,
        folder: StrPath,
        *,
        title: str | None = None,
        currency: str | None = None,
        names: StrPath | None = None,
        key: StrPath | None = None,
        replace: bool = False,
    ) -> None:
        """Writes what can be published into a folder, as `wdp-office results` does: an HTML page
        that loads nothing, tables as CSV and JSON, and the audit, with which anyone can repeat it.

        `title` is the page's heading, `currency` the unit of all amounts, and `names` a file with a
        row `code,name` for each bidder or category that has another name. With `key`, a file with
        a private key of OpenSSH, `ssh-keygen` signs the files. The folder must be new, or have only
        the same files; with `replace` they take the place of others by their names, of signed ones
        if they are signed.

        Raises Refused if a file isn't written or can't be read, or isn't signed, WrongArgument for
        a title or currency that isn't a line, Missing without jinja2, and NotFound without
        ssh-keygen.
        """
        for name, text in (("title", title), ("currency", currency)):
            _check_line(name, text)
        count = len(list_groups(self.input))
        solutions = [text.encode() for text in self.solutions.texts[:count]]
        report = print_report(
            self.program,
            data=self.input,
            solutions=format_parts("solution", solutions),
            is_certified=True,
        )
        options = PageOptions(
            title=title or TITLE,
            currency=currency,
            names_path=None if names is None else os.fsdecode(names),
        )
        sources = make_sources(self.input, report, self.audit)
        signer = None if key is None else Signer(os.fsdecode(key))
        results = make_results(self.program, sources, options)
        results.write_files(os.fsdecode(folder), signer, replaces=replace)

    def compare(self, now: Outcome) -> Comparison:
        """This outcome, as that of before, beside another one of an auction with the same bidders:
        who wins, what each winner costs alone, and what it pays.
        """
        parts = parse_parts(self.input)
        rules = next(part.rows() for part in parts if part.kind == "rules")
        return compare_reports(self.report, now.report, list_names(rules, "bidder"))


def _check_line(name: str, text: str | None) -> None:
    """Raises WrongArgument if a text is no line for the page."""
    longest = LONGEST[name]
    if text is not None and not is_line(text, longest):
        raise WrongArgument(f"{name}: a text of 1 to {longest} printable characters is asked for")
