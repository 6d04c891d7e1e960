"""The receipt of an auction's files: what went into the input, and what is to be read to the
bidders.
"""
from collections.abc import Iterator, Sequence
from dataclasses import astuple
from itertools import groupby
from operator import attrgetter

from wdp.office.auction_files import AuctionFiles
from wdp.office.faults import CellValue, align_rows, format_count, format_lines
from wdp.office.sheets import File
from wdp.texts.accepted import AcceptedRules, Bid, parse_form
from wdp.texts.tables import compute_digest, encode

_MOST_SHOWN = 20  # bids of one bidder that are in no program and have a line


def _format_file(name: str, file: File, *, count: str, part: bytes) -> str:
    """A line of the receipt: what a file is, its path and how much it has, its part of the input,
    and each change between them.
    """
    pieces = [
        f"{name}: file {file.path}, {count}, SHA-256 {compute_digest(file.data)}",
        f"its part in the input SHA-256 {compute_digest(part)}",
    ]
    if file.changes:
        pieces.append(", ".join(file.changes))
    return "; ".join(pieces)


def _format_files(auction: AuctionFiles) -> Iterator[str]:
    """The lines of the receipt about files."""
    rules = auction.rules
    file = auction.rules_file
    bidders = format_count(len(rules.bidders), "bidder")
    count = f"{bidders}, {len(rules.categories)} categories"
    yield _format_file("rules", file, count=count, part=file.text)
    forms = auction.forms
    for name in rules.bidders:
        if name in forms:
            form = forms[name]
            count = format_count(form.bids or 0, "bid")
            yield _format_file(name, form, count=count, part=form.text)
        else:
            yield f"{name}: no form"
    for replaced in auction.folder.replaced:
        digest = compute_digest(replaced.file.data)
        why = f"{replaced.last.path} counts, {replaced.reason}"
        yield f"left out: {replaced.file.path}, SHA-256 {digest}; {why}"
    if auction.folder.passed_over:
        yield "not read: " + ", ".join(auction.folder.passed_over)
    groups = auction.groups
    count = format_count(len(groups.rows), "group")
    if groups.file:
        yield _format_file("groups", groups.file, count=count, part=encode(groups.text))
    else:
        yield f"groups: {count}, each bidder alone"
    size = format_count(len(auction.text), "byte")
    yield f"input: {size}, SHA-256 {compute_digest(auction.text)}"


def _format_rules(rules: AcceptedRules) -> Iterator[str]:
    """The lines of the receipt about the rules."""
    yield f"The rules: amounts are multiples of {rules.step:,}"
    headings = (
        "Category",
        "Supply",
        "Reserve of a lot",
        "Points of a lot",
        "Value of an unsold lot",
    )
    yield from align_rows([headings, *map(astuple, rules.categories)])
    if rules.pools:
        yield ""
        yield from _tabulate_pools(rules)
    yield ""
    yield from _tabulate_bidders(rules)


def _tabulate_pools(rules: AcceptedRules) -> list[str]:
    """The table of the pools, with a row for each member."""
    rows: list[Sequence[CellValue]] = [("Pool", "Cap", "Category", "Load of a lot")]
    for pool in rules.pools:
        members = pool.weights.items() or [("no category", None)]
        rows += [(pool.name, pool.cap, category, weight) for category, weight in members]
    return align_rows(rows)


def _tabulate_bidders(rules: AcceptedRules) -> list[str]:
    """The table of what the rules say of each bidder."""
    rows: list[Sequence[CellValue]] = [("Bidder", "Eligibility", "Sessions")]
    for name in rules.bidders:
        rows.append((name, rules.eligibilities[name], rules.sessions[name]))
    return align_rows(rows)


def _format_left_out(auction: AuctionFiles) -> Iterator[str]:
    """The lines of the receipt about bids that are in no program."""
    yield f"Bids in no program, since they can't change the result: {len(auction.left_out):,}"
    for name, bids in groupby(auction.left_out, attrgetter("bidder")):
        reasons = [bid.why for bid in bids]
        count = format_count(auction.forms[name].bids or 0, "bid")
        yield f"{name}: {len(reasons):,} of {count}"
        yield from ("  " + reason for reason in reasons[:_MOST_SHOWN])
        if len(reasons) > _MOST_SHOWN:
            rest = len(reasons) - _MOST_SHOWN
            yield f"  and {rest:,} more, which wdp-office explain --bids prints"


def _format_bid(rules: AcceptedRules, bid: Bid) -> str:
    """A bid as it is read aloud: `5,000 for 2 Low, 1 High`."""
    pairs = zip(bid.lots, rules.categories, strict=True)
    lots = [f"{count:,} {category.name}" for count, category in pairs if count]
    return f"{bid.amount:,} for {', '.join(lots)}"


def _tabulate_bids(auction: AuctionFiles) -> list[str]:
    """The table of which each bidder's row is read to the bidder."""
    rows: list[Sequence[CellValue]] = [
        ("Bidder", "Bids", "Highest", "Sum", "First bid", "Last bid")
    ]
    for name in auction.rules.bidders:
        form = auction.forms.get(name)
        if form is None:
            rows.append([name, "no form", "-", "-", "-", "-"])
            continue
        _, bids = parse_form(form.rows)
        if not bids:
            rows.append([name, 0, "-", "-", "-", "-"])
            continue
        amounts = [bid.amount for bid in bids]
        first = _format_bid(auction.rules, bids[0])
        last = _format_bid(auction.rules, bids[-1])
        rows.append([name, len(bids), max(amounts), sum(amounts), first, last])
    return align_rows(rows)


def format_receipt(auction: AuctionFiles) -> str:
    """The receipt of an auction's files without a fault."""
    lines = [
        *_format_files(auction),
        "",
        *_format_rules(auction.rules),
        "",
        *_format_left_out(auction),
        "",
        "To be read aloud to each bidder:",
        *_tabulate_bids(auction),
    ]
    return format_lines(lines)
