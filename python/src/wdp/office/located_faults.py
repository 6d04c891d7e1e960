"""The faults that the program finds, each with its place in a file and in words.

The words are the program's: what is there, and what was wanted. What spreadsheets do to files is
added, and rows that a template left alike have one line.
"""
import re
from collections.abc import Iterable, Sequence
from dataclasses import dataclass, replace
from itertools import islice

from wdp.office.faults import Fault, format_count, quote, suggest_name
from wdp.office.findings import BYTES_BEFORE, NOT_KNOWN, Explained, Finding, PartKey
from wdp.texts.parts import Part, list_names, parse_parts
from wdp.texts.tables import TableRow

_MONTH = "(?:jan|feb|mar|apr|may|jun|jul|aug|sep|oct|nov|dec)[a-z]*"
_IN_DIGITS = r"[0-9]{1,4}([-/.])[0-9]{1,2}\1[0-9]{1,4}(?:[ T].*)?"
_DATE = rf"{_IN_DIGITS}|[0-9]{{1,2}}[- ]{_MONTH}(?:[- ][0-9]+)?|{_MONTH}[- ][0-9]+"
# what a field that is no number has
_CHARACTERS = {
    ",": "a comma",
    " \u00a0\u202f\u2009": "a space",
    ".": "a point",
    "'\u2019": "an apostrophe",
    "£$€": "a currency sign",
    r"\-\u2212": "a minus sign",
    "+": "a plus sign",
}
# why a field is no number, as spreadsheets write it
_HINTS = [
    (re.compile(""), "the field is empty"),
    (
        re.compile(r"[+-]?[0-9]+([.,][0-9]*)?[eE][+-]?[0-9]+"),
        "it is in scientific notation, as spreadsheets show wide numbers",
    ),
    (re.compile(_DATE, re.IGNORECASE), "it is a date, as spreadsheets make of what looks like one"),
    (re.compile(r"#[A-Z/0]+[!?]?"), "it is a spreadsheet's word for an error"),
]
_HINTS += [
    (re.compile(rf".*[{characters}].*", re.DOTALL), f"it has {name}")
    for characters, name in _CHARACTERS.items()
]
_MOST_SHOWN = 100  # faults of one file that are printed one by one
# of the faults that the program finds without a cause
CAUSES = {
    "TooLarge": "it has more than 4,194,304 bytes",
    "NoCategory": "there is no category",
    "NoBidder": "there is no bidder",
    "EmptyLine": "the line is empty; the group of nobody is written -",
    "CallLimit": "a bidder has at most 1,000 forms",
}
# the parts of which an input has more than it may have, by the fault
_REPEATED = {"wrong number of rules": "rules", "wrong number of groups": "groups"}
_NumberedRows = dict[int | None, TableRow]  # by the record of a finding
_SEPARATORS = {";": "semicolons", "\t": "tabs", "|": "bars", ",": "commas"}


@dataclass(frozen=True)
class _Alike:
    """A fault that many rows of a form may have, in words for one row and for many."""

    of_one: str
    of_many: str

    def describe(self, lines: set[int]) -> str:
        """The fault of the rows that begin in these lines."""
        if len(lines) == 1:
            return f"the row {self.of_one}"
        rows = f"{format_count(len(lines), 'row')} from line {min(lines)} to line {max(lines)}"
        return f"{rows} {self.of_many}"


_OF_ZEROS = _Alike(
    of_one="holds nothing but zeros; delete it if it is no bid",
    of_many="hold nothing but zeros; delete those that are no bids",
)


def explain_value(value: str) -> str:
    """Why a value is no number, after a colon; nothing if that isn't known."""
    reason = next((reason for pattern, reason in _HINTS if pattern.fullmatch(value)), "")
    if not reason:
        return ""
    return f": {reason}; write digits alone" if value else f": {reason}"


def _describe(finding: Finding, row: TableRow | None, bidders: Sequence[str]) -> str:
    """A finding in words; its row adds what is there."""
    if finding.earlier_bid:
        return f"bid {finding.earlier_bid} has the same package"
    text = finding.cause or CAUSES.get(finding.fault) or finding.refusal
    if not row or not finding.field or finding.field > len(row.values):
        return text
    value = row.values[finding.field - 1]
    if finding.fault in ("NumberText", "AmountText", "QuantityText"):
        return text + explain_value(value)
    if finding.fault == "UnknownBidder":
        return text + suggest_name(value, bidders)
    return text


def _describe_alike(finding: Finding, row: TableRow | None, width: int) -> _Alike | None:
    """A fault that many rows of a form may have; None for other faults.

    `width` is how many fields the form's first row has.
    """
    is_of_bid = finding.part == "form" and finding.record != 1
    if row is None or not is_of_bid or finding.fault == "TooManyBids":
        return None
    if finding.fault != "FieldCount":
        is_bid = any(value.strip("0") for value in row.values)
        return None if is_bid else _OF_ZEROS
    for separator, name in _SEPARATORS.items():
        if sum(value.count(separator) for value in row.values) >= width - 1:
            end = "fields, and the first row hasn't"
            return _Alike(
                of_one=f"has {name} between its {end}",
                of_many=f"have {name} between their {end}",
            )
    return None


def make_faults(
    findings: Sequence[Finding],
    path: str,
    rows: Iterable[TableRow],
    *,
    bidders: Sequence[str],
    head: str = "",
) -> list[Fault]:
    """The faults of one part in the program's order; rows with the same fault, as a template leaves
    them, have one. The part has these rows of the file, in which it begins at `head`.
    """
    by_number = _pick_rows(findings, rows)
    faults = []
    for alike, group in _group_alike(findings, by_number):
        first = group[0]
        row = by_number.get(first.record)
        place = path + head
        if row and first.fault not in ("NoCategory", "NoBidder"):
            place = f"{path}:{row.place((first.field or 1) - 1)}"
        if alike is None:
            text = _describe(first, row, bidders)
        else:
            text = alike.describe({by_number[finding.record].line for finding in group})
        faults.append(Fault(place, text, refusal=first.refusal))
    return faults


def _group_alike(
    findings: Sequence[Finding], rows: _NumberedRows
) -> list[tuple[_Alike | None, list[Finding]]]:
    """The findings in their order, each in a group of its own but for those that are alike, and
    what is said of these.
    """
    width = len(rows[1].values) if rows else 0
    groups: dict[_Alike | int, list[Finding]] = {}
    for number, finding in enumerate(findings):
        alike = _describe_alike(finding, rows.get(finding.record), width)
        groups.setdefault(alike or number, []).append(finding)
    return [(key if isinstance(key, _Alike) else None, group) for key, group in groups.items()]


def _pick_rows(findings: Sequence[Finding], rows: Iterable[TableRow]) -> _NumberedRows:
    """The first row and those that findings are about, by their numbers from 1."""
    numbers = {1} | {each.record for each in findings if each.record is not None}
    numbered = enumerate(islice(rows, max(numbers)), 1)
    return {number: row for number, row in numbered if number in numbers}


def limit_faults(
    faults: list[Fault], path: str, more: int = 0, *, is_least: bool = False
) -> list[Fault]:
    """The first faults of a file, and one that counts the others, and how many more there are: at
    least so many, if not all of the file was read.
    """
    more += max(0, len(faults) - _MOST_SHOWN)
    if not more:
        return [*faults[:-1], *(replace(fault, is_least=is_least) for fault in faults[-1:])]
    least = "at least " if is_least else ""
    text = f"{least}{format_count(more, 'more fault')} in this file"
    rest = Fault(path, text, count=more, is_least=is_least)
    return [*faults[:_MOST_SHOWN], rest]


def make_input_fault(finding: Finding, data: bytes, source: str) -> Fault:
    """A fault of an input as a whole, or of its parts."""
    parts = parse_parts(data)
    text = finding.cause or finding.fault
    line = None
    if finding.fault == BYTES_BEFORE:
        line = 1
    elif finding.fault == NOT_KNOWN and finding.number:
        part = next(islice(parts, finding.number - 1, None))
        text = f"{quote('%' + part.kind)} is no head of a part: %rules, %form or %groups"
        line = part.line
    elif kind := _REPEATED.get(finding.fault):
        lines = (part.line for part in parts if part.kind == kind)
        line = next(islice(lines, 1, None), None)
    place = source if line is None else f"{source}:{line}"
    return Fault(place, text, refusal=finding.refusal)


def make_faults_of_input(explained: Explained, data: bytes, source: str) -> list[Fault]:
    """The faults of an input that is one file."""
    findings = explained.findings
    if not findings:
        return []
    if findings[0].part == "input":
        return [make_input_fault(findings[0], data, source)]
    parts: dict[PartKey, Part] = {}
    forms = 0
    for part in parse_parts(data):
        forms += part.kind == "form"
        parts[part.kind, forms if part.kind == "form" else None] = part
    bidders = list_names(parts["rules", None].rows(), "bidder")
    faults: list[Fault] = []
    for key, of_part in explained.by_part().items():
        part = parts[key]
        faults += make_faults(of_part, source, part.rows(), bidders=bidders, head=f":{part.line}")
    return limit_faults(faults, source, explained.more)
