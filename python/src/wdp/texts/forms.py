"""Other forms in an input that the program accepted: taken away, or in the place of earlier ones."""
from collections.abc import Collection, Iterable

from wdp.texts.parts import Part, list_names, parse_parts
from wdp.texts.records import make_part


def read_bidder(form: Part) -> str | None:
    """The bidder of a form, in its first field; None if it has no record."""
    row = next(iter(form.rows()), None)
    return row.values[0] if row else None


def list_form_bidders(data: bytes) -> set[str]:
    """The bidders that have a form in an input."""
    forms = (part for part in parse_parts(data) if part.kind == "form")
    return {bidder for form in forms if (bidder := read_bidder(form)) is not None}


def list_forms(data: bytes) -> dict[str, bytes]:
    """The last form of each bidder that has one in an input, as its bytes are there."""
    forms = [part for part in parse_parts(data) if part.kind == "form"]
    return {bidder: form.text for form in forms if (bidder := read_bidder(form)) is not None}


def remove_forms(data: bytes, bidders: Collection[str]) -> bytes:
    """An input without the forms of these bidders, whose records in its rules stay."""
    return _join(part for part in parse_parts(data) if not _is_form_of(part, bidders))


def put_form(data: bytes, bidder: str, form: bytes) -> bytes:
    """An input with this text as the one form of a bidder: before the forms of those who follow in
    the rules, and after the others.
    """
    parts = [part for part in parse_parts(data) if not _is_form_of(part, [bidder])]
    rules = (row for part in parts if part.kind == "rules" for row in part.rows())
    names = list_names(rules, "bidder")
    following = names[names.index(bidder) + 1 :] if bidder in names else []
    count = next(
        index
        for index, part in enumerate(parts)
        if part.kind == "groups" or _is_form_of(part, following)
    )
    return _join(parts[:count]) + make_part("form", form) + _join(parts[count:])


def _is_form_of(part: Part, bidders: Collection[str]) -> bool:
    return part.kind == "form" and read_bidder(part) in bidders


def _join(parts: Iterable[Part]) -> bytes:
    return b"".join(part.head + part.text for part in parts)
