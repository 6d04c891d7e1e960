"""Judges what is to be published: the program has to print the same report of an input's winners,
or of the audit, and no figure may show that an answer isn't optimal.
"""
from collections.abc import Sequence
from dataclasses import dataclass, replace

from wdp import audits
from wdp.awards import KnownAwards
from wdp.office.findings import LeftOutBid
from wdp.office.settled import format_digests
from wdp.program import Limits, ask
from wdp.results import Allocation, Report
from wdp.texts import accepted
from wdp.texts.accepted import Accepted
from wdp.texts.answers import ExpectedAnswer, cut_report, read_report
from wdp.texts.parts import add_groups, list_groups, parse_parts
from wdp.texts.refusals import NotFound, Refused, Unclear


@dataclass(frozen=True)
class Source:
    """A text, and what messages call it."""

    text: bytes
    name: str


@dataclass(frozen=True)
class AuditSource(Source):
    """An audit, and if a draw decided between the awards that it lists, the number of the one that
    was drawn. The office may know that the list `is_complete` where nothing proves it.
    """

    drawn: int | None = None
    is_complete: bool = False


@dataclass(frozen=True)
class Sources:
    """What results are made of: an auction's input, and its report or an audit or both."""

    input: Source
    report: Source | None = None
    audit: AuditSource | None = None


def take_audit_alone(audit: AuditSource) -> Sources:
    """What results are made of if there is an audit alone; Refused if it has no input at its end."""
    data = audits.find_input(audit.text, audit.name)
    return Sources(input=Source(data, name=audit.name), audit=audit)


@dataclass(frozen=True)
class Judgement:
    """What the program prints of a text, as it is and as a report."""

    printed: bytes
    report: Report


@dataclass(frozen=True)
class PublishedAward:
    """The award that is published: what the program prints of it, its number from 1, and all awards
    that are known to tie, by their numbers; if there is an audit, the one in which it comes first,
    and how many bytes that one adds to the groups of the input.
    """

    judgement: Judgement
    awards: Sequence[Allocation]
    number: int = 1
    audit: bytes | None = None
    added_bytes: int = 0


def judge(
    program: str,
    command: str,
    text: bytes,
    *,
    workers: int = 1,
    seconds: float | None = None,
) -> Judgement:
    """Has the program judge a text by `report` or `verify`, by so many threads and within so many
    seconds.

    Raises Refused if it refuses the text, and Unclear if its answer isn't one.
    """
    expected = ExpectedAnswer(text)
    limits = Limits(expected.most_of_report, seconds)
    printed = ask(program, [command, f"--workers={workers}"], text, limits=limits)
    report = read_report(printed, expected, is_certified=command == "verify")
    return Judgement(printed, report)


def find_contradiction(report: Report) -> str | None:
    """How figures show by themselves that not every total is the greatest one, if they do."""
    for group in report.groups:
        if group.cost < 0:
            cost = f"the cost of group {group.number} is {group.cost:,}, below 0"
            return f"an answer isn't optimal: {cost}"
        if group.total > report.groups[0].total:
            total = f"the total of group {group.number} is above its own"
            return f"the answer to group 1 isn't optimal: {total}"
    return None


def _format_solutions(report: Report, auction: Accepted) -> bytes:
    """The solution of each group in which its winners of the report win."""
    numbers = {name: number for number, name in enumerate(auction.rules.bidders, 1)}
    has_value = any(each.supply * each.value for each in auction.rules.categories)
    lines: list[str] = []
    for group in report.groups:
        lines.append("%solution\n")
        lines += [f"X{numbers.get(each.bidder)}_{each.bid} 1\n" for each in group.winners]
        if has_value:
            lines.append("K 1\n")
    return "".join(lines).encode()


def cut_forms(program: str, sources: Sources) -> Sources:
    """The sources, with a report of `wdp verify --forms` from after its lines of forms on.

    Raises Refused if these lines aren't those of the input.
    """
    report = sources.report
    if report is None or not report.text.startswith(b"%"):
        return sources
    lines = report.text.splitlines(keepends=True)
    wanted = format_digests(program, sources.input.text).splitlines(keepends=True)
    for number, line in enumerate(wanted, 1):
        if lines[number - 1 : number] != [line]:
            printed = line.decode().rstrip()
            why = f"line {number}: of the input wdp forms prints '{printed}' here"
            raise Refused(f"{report.name}: {why}")
    rest = b"".join(lines[len(wanted) :])
    return replace(sources, report=replace(report, text=rest))


def judge_report(
    program: str, sources: Sources, source: Source, *, auction: Accepted
) -> PublishedAward:
    """The award of a report without an audit, of this source.

    Raises Refused if the program doesn't print the report of its winners, or if it contradicts
    itself.
    """
    text = source.text
    name = source.name
    try:
        report = read_report(text, ExpectedAnswer(sources.input.text), is_certified=False)
        solutions = _format_solutions(report, auction)
        again = judge(program, "report", solutions + sources.input.text)
    except Unclear as error:
        raise Refused(f"{name}: it isn't a report of this input: {error.text}") from None
    except Refused as error:
        raise Refused(f"{name}: its winners aren't of this input: {error.text}") from None
    if difference := _find_difference(text, again.printed):
        raise Refused(f"{name}: {difference}")
    if fault := find_contradiction(report):
        raise Refused(f"{name}: {fault}; nothing is published")
    return PublishedAward(Judgement(text, report), awards=report.awards)


def _find_difference(text: bytes, printed: bytes) -> str | None:
    """The first line of a report that the program prints in another way; None if there is none."""
    lines = zip(text.split(b"\n"), printed.split(b"\n"), strict=False)
    for number, (line, wanted) in enumerate(lines, 1):
        if line != wanted:
            return f"line {number}: of its winners wdp prints '{wanted.decode()}' here"
    return None


def judge_audit(
    program: str,
    sources: Sources,
    audit: AuditSource,
    *,
    left_out: Sequence[LeftOutBid],
) -> PublishedAward:
    """The award of an audit that is published: the one that comes first in it, or the one that was
    drawn.

    The report, if there is one, is that of the award that comes first or, if an award was drawn,
    perhaps that of award 1. `left_out` are the input's bids in no program. Raises Refused if the
    audit isn't one of the input, if the program refuses it, or if it prints another report of it,
    and WrongArgument if there is nothing to draw, or no such award.
    """
    added_bytes = _count_added_bytes(sources.input.text, audit)
    try:
        judgement = judge(program, "verify", audit.text)
        first = audits.list_numbers(audit.text)[0]
        listed = judgement
        if first != 1:
            listed = judge(program, "verify", audits.put_first(audit.text, 1))
    except (NotFound, Unclear):
        raise
    except Refused as error:
        why = f"{audit.name}: wdp verify refuses it: {error.text}"
        raise Refused(why, part=error.part, number=error.number) from None
    _check_audit(sources, audit, judgement=judgement, listed=listed)
    awards = listed.report.awards
    text = audit.text
    number = first if audit.drawn is None else audit.drawn
    if number != first:
        audits.check_first(number, awards, left_out, are_all=listed.report.has_all_awards)
        text = audits.put_first(text, number)
        judgement = judge(program, "verify", text)
    return PublishedAward(
        judgement=judgement,
        awards=awards,
        number=number,
        audit=text,
        added_bytes=added_bytes,
    )


def _check_audit(
    sources: Sources, audit: AuditSource, *, judgement: Judgement, listed: Judgement
) -> None:
    """Raises Refused if the report isn't the audit's, or if awards may be missing of which one was
    drawn, and WrongArgument if nothing can have been.

    `judgement` is that of the audit, and `listed` that of the same with award 1 first.
    """
    judgements = [judgement] if audit.drawn is None else [judgement, listed]
    count = len(list_groups(sources.input.text))
    reports = [cut_report(each.printed, count) for each in judgements]
    if sources.report is not None and sources.report.text not in reports:
        raise Refused(f"{audit.name}: what wdp verify prints of it isn't the report")
    if audit.drawn is not None:
        known = KnownAwards(len(listed.report.awards), are_all=listed.report.has_all_awards)
        known.check_draw(audit.name, is_complete=audit.is_complete)


def _count_added_bytes(data: bytes, audit: Source) -> int:
    """How many bytes the audit adds to the groups of the input; Refused if it isn't an audit of
    this input.
    """
    groups = list_groups(audit.text)[len(list_groups(data)) :]
    grown = add_groups(data, groups)
    before = {part.kind for part in parse_parts(audit.text.removesuffix(b"\n" + grown))}
    if not audit.text.endswith(b"\n" + grown) or before.intersection(accepted.KINDS):
        why = "it doesn't end with the input, after solutions and certificates"
        raise Refused(f"{audit.name}: {why}")
    return len(grown) - len(data)
