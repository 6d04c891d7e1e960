"""The tables of an auction's results as CSV, for spreadsheets and programs."""
import re
from collections.abc import Mapping, Sequence
from fractions import Fraction

from wdp.office.faults import CellValue, format_number
from wdp.publish.figures import Figures
from wdp.texts.tables import format_field

# what parts fields or heads a part
_SPECIAL = re.compile(r'[,"\r\n]|^[-%]')
# the first characters by which spreadsheets know a formula
_FORMULA = re.compile(r"[=+\-@\t\r\n＝＋－＠]")
_NOBODY = "-"


def make_csv_files(figures: Figures) -> dict[str, bytes]:
    """The texts of the tables by the names of their files.

    Each has a byte order mark, by which spreadsheets know UTF-8, and its first field says so if the
    totals aren't certified. What isn't known is empty.
    """
    tables = {
        "bidders.csv": _add_names(_list_bidders(figures), figures),
        "categories.csv": _add_names(_list_categories(figures), figures),
        "pools.csv": _list_pools(figures),
        "groups.csv": _list_groups(figures),
    }
    mark = "" if figures.certified else " (results not certified)"
    return {name: _format_table(columns, mark) for name, columns in tables.items()}


def _format_table(columns: Mapping[str, Sequence[CellValue]], mark: str) -> bytes:
    """A table of columns by their headings, with a mark at its first heading."""
    first, *headings = columns
    rows = [[first + mark, *headings], *zip(*columns.values(), strict=True)]
    lines = [",".join(map(format_cell, row)) + "\n" for row in rows]
    return "".join(lines).encode("utf-8-sig")


def format_cell(value: CellValue) -> str:
    """A value as a field of CSV, in quotes wherever a reader might take it for more than its text;
    empty if it isn't known.

    >>> [format_cell(value) for value in ("Alpha", "=1+1", "-", -5, Fraction(25, 2), None)]
    ['Alpha', "'=1+1", '"-"', '-5', '12 1/2', '']
    """
    if value is None:
        return ""
    if isinstance(value, Fraction):
        return format_number(value).replace(",", "")
    if isinstance(value, int):
        return str(value)
    if _FORMULA.match(value) and value != _NOBODY:
        value = f"'{value}"
    return format_field(value, _SPECIAL)


def _format_truth(value: bool) -> str:
    return "yes" if value else "no"


def _join_names(names: Sequence[str]) -> str:
    return "+".join(names) or _NOBODY


def _add_names(
    columns: Mapping[str, Sequence[CellValue]], figures: Figures
) -> dict[str, Sequence[CellValue]]:
    """The columns, of which the first has names of the rules, with what the office calls these
    beside it, if it does that at all.
    """
    if not figures.names:
        return dict(columns)
    (heading, codes), *others = columns.items()
    names = [figures.names.get(str(code), "") for code in codes]
    return {heading: codes, "name": names, **dict(others)}


def _list_bidders(figures: Figures) -> dict[str, Sequence[CellValue]]:
    """The columns of the bidders by their headings."""
    bidders = figures.bidders
    columns: dict[str, Sequence[CellValue]] = {
        "bidder": [bidder.name for bidder in bidders],
        "amount": [bidder.amount for bidder in bidders],
        "price": [bidder.price for bidder in bidders],
        "exact price": [bidder.exact_price for bidder in bidders],
        "opportunity cost": [bidder.cost for bidder in bidders],
        "group": [bidder.cost_group for bidder in bidders],
        "reserve": [bidder.reserve for bidder in bidders],
        "bid": [bidder.bid for bidder in bidders],
    }
    for index, category in enumerate(figures.categories):
        columns[f"lots of {category.name}"] = [bidder.lots[index] for bidder in bidders]
    return columns


def _list_categories(figures: Figures) -> dict[str, Sequence[CellValue]]:
    """The columns of the categories by their headings."""
    categories = figures.categories
    return {
        "category": [category.name for category in categories],
        "supply": [category.supply for category in categories],
        "sold": [category.sold for category in categories],
        "unsold": [category.unsold for category in categories],
        "reserve of a lot": [category.reserve for category in categories],
        "value of an unsold lot": [category.value for category in categories],
        "value left": [category.value_left for category in categories],
    }


def _list_pools(figures: Figures) -> dict[str, Sequence[CellValue]]:
    """The columns of the pools by their headings."""
    pools = figures.pools
    return {
        "pool": [pool.name for pool in pools],
        "load": [pool.load for pool in pools],
        "cap": [pool.cap for pool in pools],
        "left": [pool.left for pool in pools],
    }


def _list_groups(figures: Figures) -> dict[str, Sequence[CellValue]]:
    """The columns of the groups by their headings."""
    groups = figures.groups
    winners = [_join_names([winner.name for winner in group.winners]) for group in groups]
    return {
        "group": [group.number for group in groups],
        "left out": [_join_names(group.left_out) for group in groups],
        "winners": winners,
        "total": [group.total for group in groups],
        "opportunity cost": [group.cost for group in groups],
        "paid": [group.paid for group in groups],
        "added": [_format_truth(group.is_added) for group in groups],
        "certified": [_format_truth(figures.certified)] * len(groups),
    }
