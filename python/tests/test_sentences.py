"""What is said of results in sentences, beside what a person would say of the same numbers."""
import pytest
from made_figures import Bidder, make_figures

from wdp.awards import KnownAwards
from wdp.publish.figures import Figures
from wdp.publish.sentences import describe_proof_of_prices, make_sentences
from wdp.texts.refusals import Refused, WrongArgument

SUPPLIES = {"A": 2, "B": 1}
ALPHA = Bidder("Alpha", [1, 0], amount=1_200, price=1_000)
BETA = Bidder("Beta", [1, 1], amount=2_000, price=0)
GAMMA = Bidder("Gamma", [0, 0], price=0)
UNPRICED = ALPHA._replace(price=None)

# what the award is of, and how it is told
RESULTS = [
    (
        make_figures(SUPPLIES, [ALPHA, BETA, GAMMA], currency="GBP"),
        "2 of 3 bidders win and pay 1,000 GBP together. The winning bids add up to 3,200 GBP. "
        "All 3 lots are sold.",
    ),
    (
        make_figures(SUPPLIES, [ALPHA, GAMMA], names={"A": "800 MHz"}),
        "1 of 2 bidders wins and pays 1,000. The winning bid is 1,200. "
        "2 of 3 lots stay unsold: 1 of 800 MHz, 1 of B.",
    ),
    (
        make_figures({"A": 1}, [UNPRICED._replace(lots=[1])]),
        "1 of 1 bidder wins. The winning bid is 1,200. The only lot is sold.",
    ),
    (
        make_figures({"A": 3, "B": 0}, [UNPRICED._replace(lots=[2, 0])], value=7, currency="GBP"),
        "1 of 1 bidder wins. The winning bid is 1,200 GBP. 1 of 3 lots stays unsold: 1 of A. "
        "The unsold lots are worth 7 GBP, so that the total is 1,207 GBP.",
    ),
    (make_figures(SUPPLIES, [GAMMA]), "No bidder wins. All 3 lots stay unsold."),
    (
        make_figures({"A": 1}, [GAMMA._replace(lots=[0])]),
        "No bidder wins. The only lot stays unsold.",
    ),
    (make_figures({"A": 0}, [GAMMA._replace(lots=[0])]), "No bidder wins. There are no lots."),
    (
        make_figures({f"C{n}": 2 for n in range(6)}, [UNPRICED._replace(lots=[1] * 6)]),
        "1 of 1 bidder wins. The winning bid is 1,200. "
        "6 of 12 lots stay unsold, in 6 of 6 categories.",
    ),
]


@pytest.mark.parametrize("figures, text", RESULTS)
def test_the_result(figures: Figures, text: str) -> None:
    assert " ".join(make_sentences(figures).result) == text


COVERED = (
    "no group of bidders, listed or not, pays less than its opportunity cost, and nobody less than "
    "the reserve"
)
LEAST = "for these winners no sum of exact prices below 1,000 does this"
NEAREST = (
    "of all exact prices of that sum that do this, these are the nearest to what each winner would "
    "pay alone"
)
OWN = (
    "These prices belong to the winners of this page; another award has prices of its own, which "
    "may have another sum."
)
NO_MORE = "the prices come to 1,000, and no more is shown of them"


def test_each_proof_of_prices_is_a_sentence() -> None:
    figures = make_figures(SUPPLIES, [ALPHA, BETA])
    proofs = [f"Proved: {proof}." for proof in (COVERED, LEAST, NEAREST)]
    assert make_sentences(figures).proofs["prices"] == proofs


def test_prices_that_are_not_by_the_rule() -> None:
    figures = make_figures(SUPPLIES, [ALPHA, BETA], is_by_rule=False)
    proofs = [f"Proved: {COVERED}.", f"T{NO_MORE[1:]}."]
    assert make_sentences(figures).proofs["prices"] == proofs


def test_prices_belong_to_one_award() -> None:
    figures = make_figures(SUPPLIES, [ALPHA, BETA], awards=2)
    assert make_sentences(figures).proofs["prices"][-1] == OWN


@pytest.mark.parametrize(
    "is_by_rule, pieces", [(True, [COVERED, LEAST, NEAREST]), (False, [COVERED, NO_MORE])]
)
def test_a_run_says_the_proofs_of_prices_in_one_line(is_by_rule: bool, pieces: list[str]) -> None:
    figures = make_figures(SUPPLIES, [ALPHA, BETA], is_by_rule=is_by_rule)
    assert figures.prices
    line = f"proved: {'; '.join(pieces)}"
    assert describe_proof_of_prices(figures, figures.prices) == line


def test_one_total_is_certified() -> None:
    figures = make_figures(SUPPLIES, [ALPHA, BETA])
    certified = "Certified: the total is shown to be the greatest one."
    assert make_sentences(figures).proofs["groups"] == [certified]


def test_a_tie_is_the_first_that_is_said() -> None:
    (warning,) = make_sentences(make_figures(SUPPLIES, [ALPHA, BETA], awards=2)).warnings
    assert warning == (
        "2 awards reach the same total. This page shows award 1. "
        "Which award holds is for the auction's rules to say, perhaps by a draw."
    )


# how many awards are listed, whether these are all, the number that is asked for, and what is said
NUMBERS = [
    (2, True, 3, "there is no award 3: there are 2 awards"),
    (1, True, 2, "there is no award 2: there is 1 award"),
    (65, False, 66, "award 66 isn't known: 65 are listed, and there may be more"),
    (1, False, 2, "award 2 isn't known: 1 is listed, and there may be more"),
]


@pytest.mark.parametrize("count, are_all, number, said", NUMBERS)
def test_an_award_that_is_not_listed(count: int, are_all: bool, number: int, said: str) -> None:
    known = KnownAwards(count, are_all)
    known.check_number(count)
    with pytest.raises(WrongArgument) as caught:
        known.check_number(number)
    assert caught.value.text == said


def test_a_draw_is_of_all_awards() -> None:
    KnownAwards(2, are_all=True).check_draw("audit.txt", is_complete=False)
    KnownAwards(2, are_all=False).check_draw("audit.txt", is_complete=True)
    with pytest.raises(WrongArgument, match="audit.txt shows no tie"):
        KnownAwards(1, are_all=True).check_draw("audit.txt", is_complete=True)
    with pytest.raises(Refused, match="lists 2 awards, and there may be more: .* --list-is-complete"):
        KnownAwards(2, are_all=False).check_draw("audit.txt", is_complete=False)


def test_a_bid_that_tied_lost_by_a_draw_only_if_there_was_one() -> None:
    assert KnownAwards(2, are_all=True).describe_own_tie() == "it tied"
    drawn = KnownAwards(2, are_all=True, is_drawn=True)
    assert drawn.describe_own_tie() == "it tied; the draw decided"
