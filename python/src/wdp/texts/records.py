"""The parts of an input: texts unchanged, and the texts that plain records and data frames make.

Nothing is judged here that the program judges: records are written, and it says what is wrong with
them.
"""
import operator
import os
import re
from collections import defaultdict
from collections.abc import Iterable, Mapping, Sequence, Set
from contextlib import suppress
from dataclasses import dataclass, replace
from typing import TYPE_CHECKING, Any, TypeAlias

from wdp.texts.parts import HEAD, list_names
from wdp.texts.refusals import Refused, WrongArgument, escape, shorten
from wdp.texts.tables import BYTE_ORDER_MARK, Records, format_record

if TYPE_CHECKING:
    import pandas

Text: TypeAlias = str | bytes
# a record, by its fields in order or by their names
Record: TypeAlias = Sequence[object] | Mapping[str, object]
Rows: TypeAlias = "Iterable[Record] | pandas.DataFrame"
Rules: TypeAlias = "Text | Rows"
# a form is its text, or a bidder's name with its bids; or one table has all bids
Forms: TypeAlias = "Iterable[Text | tuple[str, Rows] | Mapping[str, object]] | pandas.DataFrame"
Groups: TypeAlias = "Text | Iterable[str | Iterable[str]] | pandas.DataFrame | None"
Solution: TypeAlias = Text | Mapping[str, object]

# the fields of each kind of record of the rules, by their names in records with names
_FIELDS: dict[str, tuple[str, ...]] = {
    "rules": ("version", "step"),
    "category": ("name", "supply", "reserve", "points", "value"),
    "bidder": ("name", "eligibility", "sessions"),
    "pool": ("name", "cap"),
    "member": ("pool", "category", "weight"),
}
_NAMES = re.compile("[-+A-Za-z0-9]*")  # of bidders, in a line of groups
_BEGINNING = 65_536  # bytes of a form, in which its first record is
_MOST_EXACT = 2**53  # floating point has each whole number up to this one


@dataclass(frozen=True)
class _Location:
    """The place of a value in an argument, for a message and for the exception; rows are counted
    from 0, as in Python.
    """

    text: str
    number: int | None = None
    bidder: str | None = None
    row: int | None = None
    column: str | None = None

    def refuse(self, why: str, column: str | None = None) -> WrongArgument:
        """The exception that says what is wrong here; `column` is added to it where that isn't part
        of the place.
        """
        place = f"{self.text}, {self.column}" if self.column else self.text
        part = "form" if self.number else None
        refused = WrongArgument(f"{place}: {why}", part=part, number=self.number)
        refused.bidder = self.bidder
        refused.row = self.row
        refused.column = self.column or column
        return refused


@dataclass(frozen=True)
class Form:
    """The text of a form; if it was made of records also its bidder, the places of the bids among
    them, and columns.
    """

    text: Text
    bidder: str | None = None
    rows: Sequence[int] = ()
    columns: Sequence[str] = ()


def make_part(head: str, text: Text, number: int | None = None) -> bytes:
    """A part of an input: its head line and its text, whose last line gets its end.

    Refused if a line of the text begins with `%`: it would head a part of its own.

    >>> make_part("form", "Alpha,A\\n30,1")
    b'%form\\nAlpha,A\\n30,1\\n'
    """
    name = head if number is None else f"{head} {number}"
    data = encode_text(text, name)
    if inner_head := HEAD.search(data):
        line = data.count(b"\n", 0, inner_head.start()) + 1
        why = f"line {line} begins with %, as the head of a part does"
        raise Refused(f"{name}: {why}", part=head, number=number)
    return b"%" + head.encode() + b"\n" + end_last_line(data)


def end_last_line(data: bytes) -> bytes:
    """A text whose last line, if there is one, has its end."""
    if not data or data.endswith(b"\n"):
        return data
    return data + b"\n"


def encode_text(text: Text, name: str) -> bytes:
    """The bytes of a text, in UTF-8; WrongArgument if it isn't a text."""
    if isinstance(text, bytes):
        return text
    if _is_name_of_file(text) and not (name == "groups" and _NAMES.fullmatch(text)):
        why = "this is the name of a file, and a text is asked for"
        raise WrongArgument(f"{name}: {why}; Auction.from_files reads files")
    try:
        return text.encode()
    except AttributeError:
        raise WrongArgument(
            f"{name}: a text is asked for, and this is {_describe_type(text)}"
        ) from None
    except UnicodeEncodeError:
        raise WrongArgument(f"{name}: the text has a character that UTF-8 doesn't have") from None


def _is_name_of_file(text: object) -> bool:
    """Whether a text is one line, and a file has this name."""
    if not isinstance(text, str) or "\n" in text:
        return False
    with suppress(OSError, ValueError):
        return os.path.isfile(text)
    return False


def _describe_type(value: object) -> str:
    return f"of type {type(value).__name__}"


def is_list(value: object) -> bool:
    """Whether this is an iterable of things in an order, and no text."""
    return isinstance(value, Iterable) and not isinstance(value, (str, bytes, Mapping, Set))


def _format_value(value: object, location: _Location) -> str:
    """A value as a field has it: a text unchanged, a whole number in digits, nothing for a blank
    value. WrongArgument for everything else: nothing is rounded.

    >>> [_format_value(value, _Location("")) for value in (30, 30.0, None)]
    ['30', '30', '']
    """
    if isinstance(value, str):
        if "\n%" in value:
            raise location.refuse("a line begins with %, as the head of a part does")
        return value
    kind = type(value).__name__
    why = "is no whole number"
    with suppress(TypeError, ValueError, ArithmeticError):
        if value is None or kind == "NAType" or value != value:
            return ""  # (a blank cell, as pandas has them too)
        if not kind.startswith("bool"):  # (numpy's too)
            if hasattr(type(value), "__index__"):
                why = "has more than 18 digits"
            return _format_number(value)
    raise location.refuse(f"{show_value(value)} {why}")


def _format_number(number: Any) -> str:
    """The digits of a whole number of any type; TypeError, ValueError or ArithmeticError if it is
    none, or has too many.
    """
    if hasattr(type(number), "__index__"):
        return str(operator.index(number))
    if abs(number) >= _MOST_EXACT or int(number) != number:
        raise ValueError("no whole number")
    return str(int(number))


def show_value(value: object) -> str:
    """A value as a message shows it, in one line of at most 60 characters."""
    text = f"a value {_describe_type(value)}"
    with suppress(Exception):  # whatever a value's own repr raises
        text = repr(value)
    return escape(shorten(text, 60))


def format_whole(number: int, name: str) -> str:
    """A whole number in digits, whatever its type; WrongArgument, with the argument's name, if it
    is none.
    """
    try:
        return str(operator.index(number))
    except (TypeError, ValueError):
        why = f"{show_value(number)} is no whole number of some digits"
        raise WrongArgument(f"{name}: {why}") from None


def _list_records(table: Any, location: _Location, columns: Sequence[str] = ()) -> list[object]:
    """A list of records, or the rows of a data frame by the names of its columns, which these have
    to be among.
    """
    if hasattr(table, "iloc") and hasattr(table, "columns"):  # (pandas isn't imported for that)
        names = [str(name) for name in table.columns]
        if len(set(names)) < len(names):
            raise location.refuse("two columns of the data frame have the same name")
        for name in columns:
            if name not in names:
                place = replace(location, column=name)
                raise place.refuse("the data frame has no such column")
        return list(table.rename(columns=str).to_dict("records"))
    if not is_list(table):
        why = f"a list of records is asked for, and this is {_describe_type(table)}"
        raise location.refuse(why)
    return list(table)


def _format_values(record: Any, location: _Location, columns: Sequence[str] = ()) -> list[str]:
    """The fields of a record that has no names for them; messages name the first ones by these."""
    if not is_list(record):
        why = f"a tuple, a list or a dict is asked for, and this is {_describe_type(record)}"
        raise location.refuse(why)
    fields = []
    for index, value in enumerate(record):
        is_named = index < len(columns)
        place = replace(location, column=columns[index]) if is_named else location
        fields.append(_format_value(value, place))
    if not fields:
        raise location.refuse("it is empty")
    return fields


def format_rules(rules: Rules) -> Text:
    """The text of the rules: a text unchanged, or one made of records: tuples such as `("category",
    "A", 2, 10, 1)`, which may lack fields at their ends that nothing reads, or dicts as `{"record":
    "bidder", "name": "Alpha"}`.
    """
    if isinstance(rules, (str, bytes)):
        return rules
    records = [
        _format_rules_record(record, _Location(f"rules, record {number}"))
        for number, record in enumerate(_list_records(rules, _Location("rules")), 1)
    ]
    width = 5 if records and records[0][1:2] == ["1"] else 6
    return "".join(format_record(fields + [""] * (width - len(fields))) for fields in records)


def _format_rules_record(record: object, location: _Location) -> list[str]:
    if not isinstance(record, Mapping):
        first = record[0] if isinstance(record, Sequence) and record else None
        names = _FIELDS.get(first, ()) if isinstance(first, str) else ()
        return _format_values(record, location, columns=("record", *names))
    kind = record.get("record")
    if not isinstance(kind, str) or kind not in _FIELDS:
        why = f"'record' is to be {', '.join(_FIELDS)}, and is {show_value(kind)}"
        raise location.refuse(why)
    for name, value in record.items():
        if name not in ("record", *_FIELDS[kind]) and _format_value(value, location):
            raise location.refuse(f"a record {kind} has no field {show_value(name)}")
    fields = [
        _format_value(record.get(name), replace(location, column=name)) for name in _FIELDS[kind]
    ]
    if kind == "category" and not fields[-1]:
        fields.pop()
    return [kind, *fields]


def make_forms(forms: Forms, rules: Text, missing_as_zero: bool = False) -> list[Form]:
    """The forms: texts unchanged, pairs of a bidder's name and its bids, or the rows of one table
    of all bids. A bid is a tuple as `(30, 1, 0)`, the amount in whole pounds and a quantity for
    each category, or a dict as `{"amount": 30, "A": 1}`, in a table with `bidder`. With
    `missing_as_zero` a category that a dict lacks counts as 0.
    """
    if isinstance(forms, (str, bytes)):
        raise WrongArgument("forms: a list of forms is asked for, and this is one text")
    # (a form repeats the categories' names, so that the program refuses it if they were read
    # wrongly)
    text = encode_text(rules, "rules").decode("utf-8", "replace").removeprefix(BYTE_ORDER_MARK)
    names = list_names(Records(text), "category")
    records = _list_records(forms, _Location("forms"), columns=("amount", *names))
    bids = [record for record in records if isinstance(record, Mapping) and "bids" not in record]
    if bids and len(bids) == len(records):
        records = list(_group_by_bidder(bids).items())
    return [
        _make_form(
            form, _Location(f"form {number}", number), names, missing_as_zero=missing_as_zero
        )
        for number, form in enumerate(records, 1)
    ]


def check_bidders(forms: Sequence[Form]) -> None:
    """Raises WrongArgument at a second form of a bidder."""
    numbers: dict[str, int] = {}
    for number, form in enumerate(forms, 1):
        bidder = form.bidder if form.bidder is not None else _read_first_field(form.text)
        if bidder in numbers:
            why = f"form {numbers[bidder]} is of {bidder}, too"
            hint = "say last_wins=True if the last one counts"
            raise WrongArgument(f"form {number}: {why}; {hint}", part="form", number=number)
        if bidder is not None:
            numbers[bidder] = number


def _read_first_field(text: Text) -> str | None:
    """The first field of a form's text, which has the bidder's name; None if there is no record."""
    begin = encode_text(text, "form")[:_BEGINNING].decode("utf-8", "surrogateescape")
    rows = iter(Records(begin.removeprefix(BYTE_ORDER_MARK)))
    return next((row.values[0] for row in rows), None)


def _group_by_bidder(rows: Sequence[Mapping[str, object]]) -> dict[str, dict[int, object]]:
    """The bids of each bidder by their places in a table, in the order of the bidders' first
    bids.
    """
    forms: defaultdict[str, dict[int, object]] = defaultdict(dict)
    for place, row in enumerate(rows):
        location = _Location(f"forms, row {place}", row=place)
        if "bidder" not in row:
            raise location.refuse("there is no 'bidder'")
        bid = {name: value for name, value in row.items() if name != "bidder"}
        forms[_format_value(row["bidder"], location)][place] = bid
    return forms


def _make_form(
    form: object, location: _Location, names: Sequence[str], *, missing_as_zero: bool
) -> Form:
    """A form, of which `names` are those of the categories."""
    if isinstance(form, (str, bytes)):
        return Form(form)
    pair = (form.get("bidder"), form.get("bids")) if isinstance(form, Mapping) else form
    if not isinstance(pair, (tuple, list)) or len(pair) != 2 or not isinstance(pair[0], str):
        raise location.refuse("a text, or a pair of a bidder's name and its bids, is asked for")
    bidder, bids = pair
    columns = ["amount", *names]
    location = replace(location, bidder=bidder)
    is_of_table = isinstance(bids, Mapping)  # (which has them by their places)
    if not is_of_table:
        bids = dict(enumerate(_list_records(bids, location, columns)))
    records = [[bidder, *names]]
    for number, (place, bid) in enumerate(bids.items(), 1):
        name = f"row {place}" if is_of_table else f"bid {number}"
        of_bid = replace(location, text=f"{location.text}, {name}", row=place)
        records.append(_format_bid(bid, names, of_bid, missing_as_zero=missing_as_zero))
    text = "".join(map(format_record, records))
    return Form(text, bidder=bidder, rows=list(bids), columns=columns)


def _format_bid(
    bid: object, names: Sequence[str], location: _Location, *, missing_as_zero: bool
) -> list[str]:
    """The fields of a bid's record."""
    if not isinstance(bid, Mapping):
        return _format_values(bid, location, columns=("amount", *names))
    if {"amount", "bidder"}.intersection(names):
        why = "a category is called amount or bidder, so that bids have to be tuples"
        raise location.refuse(why)
    columns = ("amount", *names)
    for name in bid:
        if name not in columns:
            raise location.refuse(f"{show_value(name)} is no category of the rules")
    for name in columns:
        if name not in bid and (name == "amount" or not missing_as_zero):
            hint = "" if name == "amount" else "; missing_as_zero=True has it count as 0"
            raise location.refuse(f"there is no {show_value(name)}{hint}", column=name)
    return [_format_value(bid.get(name, 0), replace(location, column=name)) for name in columns]


def format_groups(groups: Groups) -> Text:
    """The text of the groups: a text unchanged, nobody alone if nothing is given, or one made of a
    list of groups: lines such as `"Beta+Gamma"` or `"-"`, or tuples, lists or sets of bidders'
    names, of which an empty one leaves nobody out.

    >>> format_groups([(), "Beta", ("Beta", "Gamma")])
    '-\\nBeta\\nBeta+Gamma\\n'
    """
    if groups is None:
        return "-\n"
    if isinstance(groups, (str, bytes)):
        return groups
    records = enumerate(_list_records(groups, _Location("groups")), 1)
    return "".join(_format_group(group, f"groups, line {number}") for number, group in records)


def _format_group(group: object, place: str) -> str:
    """The line of a group, of which a message says the place."""
    group = group.get("group") if isinstance(group, Mapping) else group
    if isinstance(group, str):
        line = group
    elif not isinstance(group, Iterable):
        raise WrongArgument(f"{place}: a line or names of bidders are asked for")
    else:
        names = list(group)
        if not all(isinstance(name, str) and name.strip("-") and "+" not in name for name in names):
            raise WrongArgument(f"{place}: names of bidders are asked for")
        line = "+".join(sorted(names) if isinstance(group, Set) else names) or "-"
    if "\r" in line or "\n" in line:
        raise WrongArgument(f"{place}: a name has a line break")
    return line + "\n"


def format_solution(solution: Solution, name: str = "solution") -> Text:
    """The text of a solution: a text unchanged, or one made of a dict of columns' names and values.

    A message calls it `name`.

    >>> format_solution({"X1_1": 1})
    'X1_1 1\\n'
    """
    if isinstance(solution, (str, bytes)):
        return solution
    if not isinstance(solution, Mapping):
        raise WrongArgument(f"{name}: a text, or a dict of columns and values, is asked for")
    lines = []
    for column, value in solution.items():
        try:
            line = f"{column} {value}"
        except ValueError:
            raise WrongArgument(f"{name}: the value of {show_value(column)} is too large") from None
        if not isinstance(column, str) or line.split()[:-1] != [column] or line.startswith("#"):
            wanted = "a column's name and a number are asked for"
            raise WrongArgument(f"{name}: {wanted}, and this is {show_value(line)}")
        lines.append(line + "\n")
    return "".join(lines)
