"""What is kept of a lost bid beside its audits, as JSON, and what its bidder gets to read."""
import json
import re
from collections.abc import Mapping, Sequence

from wdp.awards import KnownAwards
from wdp.lost.bids import MOST_OF_AMOUNT, Fate, LostBid
from wdp.lost.inputs import keep_first_group
from wdp.office.faults import CellValue, align_rows, format_lines
from wdp.texts.parts import parse_parts
from wdp.texts.tables import compute_digest

# why a bid is in no program, up to the name of a category
_ASKED_FOR = re.compile(r"^(asks for [0-9]+ of )(\w+)")
_FIELDS = ("bidder", "bid", "amount", "lots", "needed", "reason", "shown")


def format_record(bid: LostBid) -> bytes:
    """What is kept of a lost bid, for other programs: this package reads it from the audits."""
    fields = {name: getattr(bid, name) for name in _FIELDS}
    return (json.dumps({**fields, "fate": bid.fate.name}) + "\n").encode()


def format_mark(data: bytes, audit: bytes) -> bytes:
    """What says of which award something was found: the SHA-256 of its input with the empty group
    alone, and of its solution and certificate.
    """
    parts = list(parse_parts(audit))
    texts = [keep_first_group(data)]
    for kind in ("solution", "certificate"):
        texts.append(next(part.text for part in parts if part.kind == kind))
    return "".join(f"{compute_digest(text)}\n" for text in texts).encode()


def describe_fate(bid: LostBid, names: Mapping[str, str], known: KnownAwards) -> str:
    """What would have become of a bid, in words, and why it is in no program if it isn't, by what
    the office calls categories and what is known of the awards.
    """
    fate: str = known.describe_own_tie() if bid.fate is Fate.TIED else bid.fate.value
    if bid.fate is Fate.BEYOND:
        fate += f" of {MOST_OF_AMOUNT:,}"
    if bid.reason is None:
        return fate
    with_amount = "" if bid.fate is Fate.UNFIT else "with its amount "
    reason = _ASKED_FOR.sub(lambda match: match[1] + names.get(match[2], match[2]), bid.reason)
    return f"{fate}; {with_amount}it {reason}"


def format_lots(lots: Mapping[str, int], names: Mapping[str, str]) -> str:
    """Lots in words, by what the office calls their categories."""
    return ", ".join(f"{count:,} of {names.get(code, code)}" for code, count in lots.items())


def format_bids(
    bids: Sequence[LostBid],
    *,
    step: int,
    names: Mapping[str, str],
    currency: str | None,
    known: KnownAwards,
) -> str:
    """What the lost bids of one bidder lacked, as a text for this bidder."""
    code = bids[0].bidder
    name = f"{names[code]} ({code})" if code in names else code
    unit = f", {currency}" if currency else ""
    rows: list[Sequence[CellValue]] = [
        ["Bid", f"Amount{unit}", f"Needed{unit}", f"Lacked{unit}", "Outcome", "Lots"]
    ]
    for bid in bids:
        lots = format_lots(bid.lots, names)
        fate = describe_fate(bid, names, known)
        rows.append([bid.bid, bid.amount, bid.needed, bid.lacked, fate, lots])
    steps = f"{step:,} {currency or ''}".rstrip()
    meaning = (
        f"Needed is the lowest amount, in steps of {steps}, at which the bid would have tied or "
        "won, all other bids as they are."
    )
    return format_lines([f"Lost bids of {name}", "", *align_rows(rows), "", meaning])
