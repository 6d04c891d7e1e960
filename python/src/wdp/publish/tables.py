"""The tables of an auction's results, as people read them on the page and in a text."""
import re
from collections.abc import Sequence
from dataclasses import dataclass, replace

from wdp.office.faults import CellValue, align_rows, format_count, format_lines, format_number
from wdp.publish.figures import (
    AwardFigures,
    BidderFigures,
    Figures,
    GroupFigures,
    PricesFigures,
    WinnerFigures,
)

_NOT_ASKED_FOR = "not asked for"
_NONE_WON = "none won"
_NO_BIDS = "no bids"
BLANKS = (_NOT_ASKED_FOR, _NONE_WON, _NO_BIDS)  # in the place of a number that there isn't
_MOST_BOUND = 4  # groups that are named as binding a price
_MOST_LOSERS = 5  # bidders that win nothing and have a row each
# how many characters a row of a table may have by its size; the page's style has how wide a screen
# must be for these
_SIZES = {"small": 68, "medium": 92, "large": 124}
# what a name and another text have at least of these characters, of which both may be broken
_WIDTH_OF_NAME = 18
_WIDTH_OF_TEXT = 12
_BETWEEN_COLUMNS = 2
# why a bid is in no program, as the program says it, up to the category's name
_ASKED_FOR = re.compile(r"^(bid [0-9]+ asks for [0-9]+ of )(\w+)")


@dataclass(frozen=True)
class DisplayTable:
    """A table for people, by the name that the page has for it; below its rows are `sums`, if it
    has any, and then a `note`.
    """

    name: str
    headings: Sequence[str]
    rows: Sequence[Sequence[CellValue]]
    sums: Sequence[CellValue] = ()
    note: str = ""

    def format_text(self) -> str:
        """The table as lines with aligned columns."""
        lines = align_rows(self._list_all_rows())
        if self.note:
            lines.append(self.note)
        return format_lines(lines)

    @property
    def size(self) -> str:
        """How wide a screen has to be for the table, whose figures aren't broken: `small`, `medium`,
        `large`, or `huge` if its rows are lists of cells on any screen and on paper.
        """
        _, *columns = zip(*self._list_all_rows(), strict=True)
        width = _WIDTH_OF_NAME + sum(map(_measure_column, columns))
        return next((name for name, most in _SIZES.items() if width <= most), "huge")

    def _list_all_rows(self) -> list[Sequence[CellValue]]:
        """The headings, the rows, and the sums if there are any."""
        return [self.headings, *self.rows, *([self.sums] if self.sums else [])]


def _measure_column(cells: Sequence[CellValue]) -> int:
    """How many characters wide a column has to be: a text can be broken, a word of its heading or a
    number can't, but before its fraction.
    """
    heading, *values = cells
    pieces = str(heading).split()
    for value in values:
        if value is not None and not isinstance(value, str):
            pieces += format_number(value).split()
        elif value:
            pieces.append(value[:_WIDTH_OF_TEXT])
    return max(map(len, pieces)) + _BETWEEN_COLUMNS


@dataclass(frozen=True)
class _Column:
    """A column: its heading, its cells, None where nothing is known, and their sum if they are
    added up.
    """

    heading: str
    cells: Sequence[CellValue]
    total: CellValue = None


def _make_summed(heading: str, cells: Sequence[CellValue]) -> _Column:
    """A column of numbers with their sum."""
    numbers = [cell for cell in cells if cell is not None and not isinstance(cell, str)]
    return _Column(heading, cells, sum(numbers))


def _make_table(name: str, columns: Sequence[_Column]) -> DisplayTable:
    """A table of these columns, without those of which nothing is known."""
    known = [column for column in columns if any(cell is not None for cell in column.cells)]
    sums: list[CellValue] = []
    if any(column.total is not None for column in known):
        sums = ["" if column.total is None else column.total for column in known]
        sums[0] = "All"
    return DisplayTable(
        name=name,
        headings=[column.heading for column in known],
        rows=list(zip(*(column.cells for column in known), strict=True)),
        sums=sums,
    )


def make_tables(figures: Figures) -> list[DisplayTable]:
    """All tables that have a row or a note, in the order of the page."""
    tables = [
        make_ties_table(figures),
        _make_bidders_table(figures),
        make_prices_table(figures),
        _make_categories_table(figures),
        _make_pools_table(figures),
        _make_groups_table(figures),
        _make_left_out_table(figures),
    ]
    return [table for table in tables if table.rows or table.note]


def _format_unit(figures: Figures) -> str:
    """What is added to the heading of a column of amounts."""
    return f", {figures.currency}" if figures.currency else ""


def _format_cost(bidder: BidderFigures) -> CellValue:
    """What the bidder alone costs, or that no group is of it alone."""
    return _NOT_ASKED_FOR if bidder.cost is None else bidder.cost


def _format_bid(bidder: BidderFigures) -> CellValue:
    """The number of the bid that wins, or that there is none."""
    if bidder.bid is not None:
        return bidder.bid
    return _NONE_WON if bidder.bids else _NO_BIDS


def _make_bidders_table(figures: Figures) -> DisplayTable:
    """What each bidder wins, pays and costs."""
    unit = _format_unit(figures)
    losers = [bidder for bidder in figures.bidders if not bidder.is_winner]
    is_long = len(losers) > _MOST_LOSERS
    bidders = figures.winners if is_long else figures.bidders
    sold = [category.sold for category in figures.categories]
    table = _make_table(
        "bidders",
        [
            _Column("Bidder", [figures.format_name(each.name) for each in bidders]),
            _make_summed(f"Amount{unit}", [each.amount for each in bidders]),
            _make_summed(f"Price{unit}", [each.price for each in bidders]),
            _Column(f"Opportunity cost{unit}", [_format_cost(each) for each in bidders]),
            _make_summed(f"Reserve{unit}", [each.reserve for each in bidders]),
            _Column("Bid", [_format_bid(each) for each in bidders]),
            _Column(
                heading="Lots",
                cells=[figures.format_lots(each.lots) for each in bidders],
                total=figures.format_lots(sold),
            ),
        ],
    )
    return replace(table, note=_format_losers(losers, figures)) if is_long else table


def _format_losers(losers: Sequence[BidderFigures], figures: Figures) -> str:
    """Which bidders win nothing, and which of them had no bid."""
    pays = " and pay nothing" if figures.prices else ""
    names = figures.join_names([bidder.name for bidder in losers])
    note = f"{format_count(len(losers), 'bidder')} win nothing{pays}: {names}."
    silent = [bidder.name for bidder in losers if not bidder.bids]
    return f"{note} Without bids: {figures.join_names(silent)}." if silent else note


def make_prices_table(figures: Figures) -> DisplayTable:
    """What each winner pays; without rows if there are no prices."""
    prices = figures.prices
    if prices is None:
        return DisplayTable("prices", headings=[], rows=[])
    unit = _format_unit(figures)
    winners = figures.winners
    return _make_table(
        "prices",
        [
            _Column("Winner", [figures.format_name(each.name) for each in winners]),
            _make_summed(f"Price alone{unit}", [each.price_alone for each in winners]),
            _make_summed(f"Exact price{unit}", [each.exact_price for each in winners]),
            _make_summed(f"Price{unit}", [each.price for each in winners]),
            _make_summed(f"Amount{unit}", [each.amount for each in winners]),
            _Column("Bound by", [list_bounds(each.name, figures, prices) for each in winners]),
        ],
    )


def list_bounds(name: str, figures: Figures, prices: PricesFigures) -> str:
    """What binds a winner's exact price: the groups that pay just their cost, and the reserve."""
    groups = [figures.groups[number - 1].left_out for number in prices.groups]
    bounds = [_join_group(names, figures) for names in groups if name in names]
    if name in prices.reserves:
        bounds.append("reserve")
    shown = bounds[:_MOST_BOUND]
    if len(bounds) > _MOST_BOUND:
        shown.append(f"{len(bounds) - _MOST_BOUND} more")
    return ", ".join(shown)


def _join_group(names: Sequence[str], figures: Figures) -> str:
    """The bidders of a group: `Beta + Gamma`."""
    return " + ".join(figures.find_name(name) for name in names)


def _make_categories_table(figures: Figures) -> DisplayTable:
    """What is sold of each category."""
    unit = _format_unit(figures)
    categories = figures.categories
    return _make_table(
        "categories",
        [
            _Column("Category", [figures.format_name(each.name) for each in categories]),
            _make_summed("Supply", [each.supply for each in categories]),
            _make_summed("Sold", [each.sold for each in categories]),
            _make_summed("Unsold", [each.unsold for each in categories]),
            _Column(f"Reserve of a lot{unit}", [each.reserve for each in categories]),
            _Column(f"Value of an unsold lot{unit}", [each.value for each in categories]),
            _make_summed(f"Value left{unit}", [each.value_left for each in categories]),
        ],
    )


def _make_pools_table(figures: Figures) -> DisplayTable:
    """What loads each pool."""
    return DisplayTable(
        name="pools",
        headings=["Pool", "Load", "Cap", "Left"],
        rows=[[pool.name, pool.load, pool.cap, pool.left] for pool in figures.pools],
    )


def _format_number(group: GroupFigures) -> str:
    """The number of a group, marked if the group was added to those of the input."""
    return f"{group.number:,} (added)" if group.is_added else f"{group.number:,}"


def _make_groups_table(figures: Figures) -> DisplayTable:
    """Who wins if the bidders of each group are left out."""
    unit = _format_unit(figures)
    groups = figures.groups
    winners = [figures.join_names([winner.name for winner in group.winners]) for group in groups]
    return _make_table(
        "groups",
        [
            _Column("Group", [_format_number(group) for group in groups]),
            _Column("Left out", [figures.join_names(group.left_out) for group in groups]),
            _Column(f"Total{unit}", [group.total for group in groups]),
            _Column(f"Opportunity cost{unit}", [group.cost for group in groups]),
            _Column(f"Paid{unit}", [group.paid for group in groups]),
            _Column("Winners", winners),
        ],
    )


def _make_left_out_table(figures: Figures) -> DisplayTable:
    """The bids that are in no program."""
    return DisplayTable(
        name="left_out",
        headings=["Bidder", "Bid"],
        rows=[
            [figures.format_name(bid.bidder), _name_category(bid.why, figures)]
            for bid in figures.left_out
        ],
    )


def _name_category(why: str, figures: Figures) -> str:
    """Why a bid is in no program, with what the office calls the category of which there are too
    few lots.
    """
    return _ASKED_FOR.sub(lambda match: f"{match[1]}{figures.find_name(match[2])}", why)


def make_ties_table(figures: Figures) -> DisplayTable:
    """The awards that tie, a row for each, with what isn't the same by all of them: what bidders
    win, and what groups cost; without rows if there is one award.
    """
    rows: list[list[CellValue]] = []
    if len(figures.awards) > 1:
        names = _find_changing_bidders(figures)
        groups = _find_changing_groups(figures)
        for award in figures.awards:
            wins = _format_wins(award, names, figures)
            costs = _format_costs(award, groups, figures)
            rows.append([_format_award(award, figures), wins, costs])
    return DisplayTable(
        name="ties",
        headings=["Award", "Bidders who don't win the same", "Opportunity costs"],
        rows=rows,
    )


def _find_changing_bidders(figures: Figures) -> list[str]:
    """The bidders that don't win the same bid by all awards."""
    bids = [{winner.name: winner.bid for winner in award.winners} for award in figures.awards]
    return [
        bidder.name
        for bidder in figures.bidders
        if len({by_name.get(bidder.name) for by_name in bids}) > 1
    ]


def _find_changing_groups(figures: Figures) -> list[int]:
    """The indices of the groups that don't cost the same by all awards."""
    return [
        index
        for index in range(len(figures.groups))
        if len({award.costs[index] for award in figures.awards}) > 1
    ]


def _format_award(award: AwardFigures, figures: Figures) -> str:
    """An award's number, and what is to be said of it."""
    notes = []
    if award.number == figures.award:
        notes.append("this page")
    if not award.can_be_first:
        notes.append("has a bid in no program")
    return f"{award.number} ({', '.join(notes)})" if notes else str(award.number)


def _format_wins(award: AwardFigures, names: Sequence[str], figures: Figures) -> str:
    """What these bidders win by an award."""
    wins = {winner.name: _format_win(winner, figures) for winner in award.winners}
    return "; ".join(f"{figures.find_name(name)}: {wins.get(name, 'nothing')}" for name in names)


def _format_win(winner: WinnerFigures, figures: Figures) -> str:
    return f"{winner.amount:,} for {figures.format_lots(winner.lots)} (bid {winner.bid:,})"


def _format_costs(award: AwardFigures, groups: Sequence[int], figures: Figures) -> str:
    """What the groups at these indices cost by an award."""
    costs = [
        f"{_join_group(figures.groups[index].left_out, figures)}: {award.costs[index]:,}"
        for index in groups
    ]
    return "; ".join(costs) or "the same"
