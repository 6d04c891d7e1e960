"""Makes an auction's results from its input, its report and perhaps an audit, once the program
judged them.
"""
from collections.abc import Mapping, Sequence
from dataclasses import dataclass

from wdp.office.findings import LeftOutBid
from wdp.office.explaining import explain
from wdp.program import read_version
from wdp.publish import figures
from wdp.publish.judging import (
    PublishedAward,
    Source,
    Sources,
    cut_forms,
    judge_audit,
    judge_report,
)
from wdp.publish.names import PageOptions, read_names
from wdp.publish.results import Results
from wdp.texts import accepted
from wdp.texts.accepted import Accepted
from wdp.texts.answers import cut_report
from wdp.texts.parts import find_end_of_groups
from wdp.texts.refusals import Refused, WrongArgument
from wdp.texts.tables import compute_digest


@dataclass(frozen=True)
class Judged:
    """What results are made of, once the program, wdp, at this path judged it: the input with its
    bids in no program, and the award.
    """

    program: str
    sources: Sources
    auction: Accepted
    left_out: Sequence[LeftOutBid]
    award: PublishedAward

    def make_results(self, options: PageOptions) -> Results:
        """The results; Refused if a name can't be published."""
        names: dict[str, str] = {}
        if options.names_path:
            names = read_names(
                options.names_path, self.auction.rules, regular=options.regular_names
            )
        made = _make_figures(
            self.auction,
            self.award,
            sources=self.sources,
            options=options,
            names=names,
            left_out=self.left_out,
            version=read_version(self.program),
        )
        return Results(made, self.award.audit)


def make_results(program: str, sources: Sources, options: PageOptions) -> Results:
    """The results of an auction, judged by the program; raises what `judge_sources` does, and
    Refused if a name can't be published.
    """
    return judge_sources(program, sources).make_results(options)


def judge_sources(program: str, sources: Sources) -> Judged:
    """Has the proved program, wdp, at this path judge what results are made of.

    Raises Refused if the program refuses the input or the audit, or if the report isn't what it
    prints of them, and WrongArgument if an award can't have been drawn.
    """
    left_out = _explain_input(program, sources.input)
    sources = cut_forms(program, sources)
    auction = accepted.read(sources.input.text, sources.input.name)
    if not auction.groups or auction.groups[0]:
        raise Refused(f"{sources.input.name}: its first group isn't the empty one, -")
    if sources.audit is not None:
        award = judge_audit(program, sources, sources.audit, left_out=left_out)
    elif sources.report is not None:
        award = judge_report(program, sources, sources.report, auction=auction)
    else:
        raise WrongArgument(f"{sources.input.name}: results need a report or an audit")
    return Judged(program, sources, auction=auction, left_out=left_out, award=award)


def _explain_input(program: str, source: Source) -> Sequence[LeftOutBid]:
    """The bids of an input that are in no program; Refused if the input has a fault."""
    explained = explain(program, source.text, with_bids=True)
    if explained.findings:
        hint = f"wdp-office explain {source.name} says where"
        raise Refused(f"{source.name}: {explained.findings[0].refused.text}; {hint}")
    return explained.bids


def _make_figures(
    auction: Accepted,
    award: PublishedAward,
    *,
    sources: Sources,
    options: PageOptions,
    names: Mapping[str, str],
    left_out: Sequence[LeftOutBid],
    version: str,
) -> figures.Figures:
    """The figures of an award that is published."""
    report = award.judgement.report
    bidders = figures.make_bidders(report, auction)
    sold = figures.count_sold(bidders, auction)
    categories = figures.make_categories(sold, auction)
    report_of_input = cut_report(award.judgement.printed, len(auction.groups))
    return figures.Figures(
        certified=report.is_certified,
        title=options.title,
        currency=options.currency,
        total=report.groups[0].total,
        amounts=sum(bidder.amount for bidder in bidders),
        value_left=sum(category.value_left for category in categories),
        bidders=bidders,
        categories=categories,
        pools=figures.make_pools(sold, auction),
        groups=figures.make_groups(report, auction),
        prices=figures.make_prices(report, bidders),
        proof=_find_proof(award),
        award=award.number,
        drawn=sources.audit.drawn if sources.audit else None,
        awards=figures.make_awards(award.awards, report, auction, left_out=left_out),
        left_out=[figures.LeftOutFigures(bidder=bid.bidder, why=bid.why) for bid in left_out],
        names=names,
        input_sha256=compute_digest(sources.input.text),
        report_sha256=compute_digest(report_of_input),
        audit=_make_audit(award, sources.input.text),
        wdp=version,
    )


def _find_proof(award: PublishedAward) -> figures.Proof:
    """What is proved of all awards of the total."""
    if award.judgement.report.has_all_awards:
        return "all"
    return "some" if len(award.awards) > 1 else "none"


def _make_audit(award: PublishedAward, data: bytes) -> figures.AuditFigures | None:
    """The figures of the audit that shows an award of an input; None if there is none."""
    if award.audit is None:
        return None
    return figures.AuditFigures(
        sha256=compute_digest(award.audit),
        input_sha256=compute_digest(data),
        report_sha256=compute_digest(award.judgement.printed),
        input_bytes=len(data),
        bytes_before=find_end_of_groups(data),
        added_bytes=award.added_bytes,
    )
