"""An input with the empty group alone, and with another amount in the place of a bid's."""
import re

from wdp.audits import join_parts
from wdp.lost.bids import BidKey
from wdp.texts.parts import Part, parse_parts
from wdp.texts.refusals import Refused
from wdp.texts.tables import LINE_END, decode, encode

# the first field of a record, between quotes or without
_FIRST_FIELD = re.compile(r'"(?:[^"]|"")*"?[^\r\n,]*|[^\r\n,]*')

_AMOUNT = re.compile("[0-9]{1,18}")


def keep_first_group(data: bytes) -> bytes:
    """An input whose groups are the empty one alone; the rest has its bytes."""
    parts = list(parse_parts(data))
    return join_parts(
        part._replace(text=b"-\n") if part.kind == "groups" else part for part in parts
    )


def change_amount(data: bytes, key: BidKey, amount: int) -> bytes:
    """An input with this amount in the place of a bid's, which is in the bidder's last form; the
    rest has its bytes. Refused if there is no such bid.
    """
    parts = list(parse_parts(data))
    forms = [place for place, part in enumerate(parts) if _is_form_of(part, key.bidder)]
    if not forms:
        raise Refused(f"there is no form of {key.bidder}")
    changed = parts[forms[-1]]
    parts[forms[-1]] = changed._replace(text=_change_record(changed, key, amount))
    return join_parts(parts)


def read_amount(data: bytes, key: BidKey) -> int | None:
    """The amount of a bid of an input or audit, if it is there."""
    forms = [part for part in parse_parts(data) if _is_form_of(part, key.bidder)]
    records = list(forms[-1].rows()) if forms else []
    if 1 <= key.number < len(records) and _AMOUNT.fullmatch(records[key.number].values[0]):
        return int(records[key.number].values[0])
    return None


def _is_form_of(part: Part, bidder: str) -> bool:
    """Whether a part is a form of this bidder."""
    if part.kind != "form":
        return False
    return next((row.values[0] == bidder for row in part.rows()), False)


def _change_record(form: Part, key: BidKey, amount: int) -> bytes:
    """The text of a form with another amount; record j + 1 is bid j."""
    records = list(form.rows())
    if not 1 <= key.number < len(records):
        raise Refused(f"there is no bid {key.number} of {key.bidder}")
    text = decode(form.text)
    # (the form's head is one line before its first)
    lines_before = records[key.number].line - form.line - 1
    ends = [match.end() for match in LINE_END.finditer(text)]
    begin = ends[lines_before - 1]
    field = _FIRST_FIELD.match(text, begin)
    assert field  # an empty field matches too
    return encode(f"{text[:begin]}{amount}{text[field.end():]}")
