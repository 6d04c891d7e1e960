"""The picture of an award: for each category a bar that is cut by winner, and for each winner a bar
with its price between reserve and amount. Places and widths are percents of a bar's length.
"""
from collections.abc import Sequence
from dataclasses import dataclass
from itertools import islice, product

from wdp.office.faults import format_count
from wdp.publish.figures import BidderFigures, CategoryFigures, Figures


@dataclass(frozen=True)
class Fill:
    """What tells a winner's lots from those of others: the ground, one of the page's colours, and
    `lines`, a `cross` of lines or `dots` on it, turned by an angle, so many pixels apart. A plain
    fill has no marks.
    """

    ground: str
    marks: str | None = None
    angle: int = 0
    gap: int = 0


# the easiest to tell apart come first
_FIRST_FILLS = [
    Fill("blue"),
    Fill("sand"),
    Fill("paper", "lines", angle=45, gap=6),
    Fill("green"),
    Fill("paper", "dots", gap=6),
    Fill("paper", "lines", angle=135, gap=4),
]
_GAPS = (9, 5, 13, 7)
# (a cross and dots look the same once they are turned by a right angle)
_MARKS = [
    *product(["lines"], [45, 135, 0, 90]),
    *product(["cross", "dots"], [0, 45]),
    *product(["lines"], [22, 67, 112, 157]),
    *product(["cross", "dots"], [22, 67]),
]
_GROUNDS = ("blue", "sand", "green", "paper")


def make_fills(count: int) -> list[Fill]:
    """So many fills, no two of which are the same: at most one for each of 256 bidders."""
    others = (
        Fill(ground, marks, angle=angle, gap=gap)
        for gap, (marks, angle), ground in product(_GAPS, _MARKS, _GROUNDS)
    )
    return [*_FIRST_FILLS[:count], *islice(others, max(count - len(_FIRST_FILLS), 0))]


@dataclass(frozen=True)
class Segment:
    """A winner's part of a category's bar, or that of the lots that stay unsold, which has no
    `fill`: how many lots it is and whose in words, where it begins and how wide it is. A fill is
    its place among those of the picture.
    """

    label: str
    start: str
    width: str
    fill: int | None


@dataclass(frozen=True)
class CategoryBar:
    """The bar of a category, all of whose lots are its length."""

    name: str
    lots: str
    segments: Sequence[Segment]

    @property
    def description(self) -> str:
        """The bar in words: `2 to Aster; 1 unsold`."""
        return "; ".join(segment.label for segment in self.segments) or "no lots"


@dataclass(frozen=True)
class WinnerBar:
    """The bar of a winner, whose `fill` is that of its lots.

    It is as long as the `amount`; the `price` ends, and `reserve` and `cost`, which is the
    opportunity cost, are marked at these places. None is what isn't known. `label` and
    `description` are the same in words.
    """

    name: str
    fill: int
    amount: str
    price: str | None
    reserve: str
    cost: str | None
    label: str
    description: str


@dataclass(frozen=True)
class Picture:
    """The bars of all categories and of all winners, in the order of the rules, and the fill of
    each winner.
    """

    categories: Sequence[CategoryBar]
    winners: Sequence[WinnerBar]
    fills: Sequence[Fill]


def make_picture(figures: Figures) -> Picture:
    """The picture of an award."""
    fills = {winner.name: index for index, winner in enumerate(figures.winners)}
    known = [winner.cost for winner in figures.winners if winner.cost is not None]
    highest = max([winner.amount for winner in figures.winners] + known, default=0)
    return Picture(
        categories=[
            _make_category_bar(category, index, figures=figures, fills=fills)
            for index, category in enumerate(figures.categories)
        ],
        winners=[
            _make_winner_bar(winner, figures=figures, fill=fills[winner.name], highest=highest)
            for winner in figures.winners
        ],
        fills=make_fills(len(fills)),
    )


def _format_percent(part: int, whole: int) -> str:
    """What a part is of a whole, in percent, from 0 to 100."""
    return f"{min(max(part / whole, 0), 1) * 100:.4g}" if whole else "0"


def _make_category_bar(
    category: CategoryFigures, index: int, *, figures: Figures, fills: dict[str, int]
) -> CategoryBar:
    """The bar of the category of this index."""
    parts: list[tuple[int, str, int | None]] = [
        (winner.lots[index], f"to {figures.find_name(winner.name)}", fills[winner.name])
        for winner in figures.winners
    ]
    parts.append((category.unsold, "unsold", None))
    segments: list[Segment] = []
    before = 0
    for lots, whose, fill in parts:
        if lots:
            segment = Segment(
                label=f"{lots:,} {whose}",
                start=_format_percent(before, category.supply),
                width=_format_percent(lots, category.supply),
                fill=fill,
            )
            segments.append(segment)
            before += lots
    return CategoryBar(
        name=figures.find_name(category.name),
        lots=format_count(category.supply, "lot"),
        segments=segments,
    )


def _make_winner_bar(
    winner: BidderFigures, *, figures: Figures, fill: int, highest: int
) -> WinnerBar:
    """The bar of a winner beside the highest amount or cost."""
    amount = figures.format_amount(winner.amount)
    label = f"bids {amount}"
    if winner.price is not None:
        label = f"pays {winner.price:,} of {amount}"
    known = {
        "price": winner.price,
        "amount": winner.amount,
        "reserve": winner.reserve,
        "opportunity cost": winner.cost,
    }
    pieces = [f"{what} {number:,}" for what, number in known.items() if number is not None]
    return WinnerBar(
        name=figures.find_name(winner.name),
        fill=fill,
        amount=_format_percent(winner.amount, highest),
        price=None if winner.price is None else _format_percent(winner.price, highest),
        reserve=_format_percent(winner.reserve, highest),
        cost=None if winner.cost is None else _format_percent(winner.cost, highest),
        label=label,
        description=", ".join(pieces),
    )
