"""The picture of an award, beside places that a person computes from the same numbers."""
import pytest
from made_figures import Bidder, make_figures

from wdp.publish.picture import CategoryBar, Fill, Picture, WinnerBar, make_picture

# Alpha bids most, so its amount is the length of all bars
ALPHA = Bidder("Alpha", [2, 0], amount=200, price=150, reserve=100, cost=120)
BETA = Bidder("Beta", [1, 1], amount=50, price=0, reserve=0, cost=0)
LOSER = Bidder("Gamma", [0, 0], price=0)
SUPPLIES = {"A": 8, "B": 1}
NAMES = {"A": "800 MHz", "Alpha": "Alpha Mobile plc"}


@pytest.fixture
def picture() -> Picture:
    return make_picture(make_figures(SUPPLIES, [ALPHA, LOSER, BETA], currency="GBP", names=NAMES))


def list_places(bar: CategoryBar) -> list[tuple[str, str, str]]:
    """Of each part of a bar the label, and where it begins and how wide it is."""
    return [(each.label, each.start, each.width) for each in bar.segments]


def list_marks(bar: WinnerBar) -> tuple[str | None, ...]:
    """The places of amount, price, reserve and cost."""
    return bar.amount, bar.price, bar.reserve, bar.cost


def test_a_bar_is_cut_by_winner(picture: Picture) -> None:
    assert [list_places(bar) for bar in picture.categories] == [
        [
            ("2 to Alpha Mobile plc", "0", "25"),
            ("1 to Beta", "25", "12.5"),
            ("5 unsold", "37.5", "62.5"),
        ],
        [("1 to Beta", "0", "100")],
    ]


def test_unsold_lots_alone_have_no_fill(picture: Picture) -> None:
    fills = [segment.fill for segment in picture.categories[0].segments]
    assert fills == [0, 1, None]


def test_a_bar_of_lots_in_words(picture: Picture) -> None:
    bar = picture.categories[0]
    assert (bar.name, bar.lots) == ("800 MHz", "8 lots")
    assert bar.description == "2 to Alpha Mobile plc; 1 to Beta; 5 unsold"


def test_prices_are_between_reserves_and_amounts(picture: Picture) -> None:
    marks = [list_marks(bar) for bar in picture.winners]
    assert marks == [("100", "75", "50", "60"), ("25", "0", "0", "0")]


def test_a_bar_of_a_winner_in_words(picture: Picture) -> None:
    alpha, beta = picture.winners
    assert alpha.label == "pays 150 of 200 GBP"
    assert alpha.description == "price 150, amount 200, reserve 100, opportunity cost 120"
    assert (beta.name, beta.label) == ("Beta", "pays 0 of 50 GBP")


def test_what_is_not_known_is_not_drawn() -> None:
    figures = make_figures(SUPPLIES, [ALPHA._replace(price=None, cost=None)])
    (bar,) = make_picture(figures).winners
    assert list_marks(bar) == ("100", None, "50", None)
    assert bar.label == "bids 200"
    assert bar.description == "amount 200, reserve 100"


@pytest.mark.parametrize("cost, place, amount", [(-50, "0", "100"), (400, "100", "50")])
def test_a_cost_that_no_certificate_limits_has_a_place(cost: int, place: str, amount: str) -> None:
    """One below 0 is drawn at 0, and for one above all amounts the bars are shorter."""
    (bar,) = make_picture(make_figures(SUPPLIES, [ALPHA._replace(cost=cost)])).winners
    assert (bar.cost, bar.amount) == (place, amount)


def test_nobody_wins() -> None:
    picture = make_picture(make_figures({"A": 4, "B": 0}, [LOSER]))
    assert [list_places(bar) for bar in picture.categories] == [[("4 unsold", "0", "100")], []]
    assert picture.categories[1].description == "no lots"
    assert picture.winners == []


def test_each_winner_has_another_fill() -> None:
    bidders = [Bidder(f"B{number}", [1], amount=1) for number in range(256)]
    picture = make_picture(make_figures({"A": 256}, bidders))
    assert [bar.fill for bar in picture.winners] == list(range(256))
    assert len(set(picture.fills)) == 256


def test_few_winners_have_the_first_fills() -> None:
    figures = make_figures(SUPPLIES, [ALPHA, LOSER, BETA])
    assert make_picture(figures).fills == [Fill("blue"), Fill("sand")]
