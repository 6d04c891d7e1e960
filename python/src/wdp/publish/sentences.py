"""What is said of an auction's results in sentences."""
from collections.abc import Mapping, Sequence
from dataclasses import dataclass

from wdp.awards import KnownAwards
from wdp.office.faults import format_count
from wdp.publish.figures import Figures, PricesFigures

_UNCERTIFIED = (
    "Not certified: that these totals are the greatest ones is a solver's word, and no certificate "
    "shows it."
)
_MOST_UNSOLD = 5  # categories whose unsold lots are named in the first lines


@dataclass(frozen=True)
class Sentences:
    """The sentences by their places: `warnings` come before everything else, then `result`, and
    what is proved comes after the table that it is about, by the table's name.
    """

    warnings: Sequence[str]
    result: Sequence[str]
    proofs: Mapping[str, Sequence[str]]


def make_sentences(figures: Figures) -> Sentences:
    """What is said of these figures, in whole sentences."""
    known = figures.known_awards
    proofs = {
        "ties" if known.is_tie else "bidders": [_describe_awards(known)],
        "prices": _describe_prices(figures),
        "groups": [describe_certificates(figures)] if figures.certified else [],
    }
    return Sentences(
        warnings=_list_warnings(figures),
        result=_describe_result(figures),
        proofs=proofs,
    )


def _list_warnings(figures: Figures) -> list[str]:
    """What has to be read before the results: that nothing is certified, and that others tie."""
    warnings = [] if figures.certified else [describe_certificates(figures)]
    if figures.known_awards.is_tie:
        warnings.append(_describe_choice(figures.known_awards))
    return warnings


def describe_certificates(figures: Figures) -> str:
    """A sentence about whether the totals are shown to be the greatest ones."""
    if not figures.certified:
        return _UNCERTIFIED
    count = len(figures.groups)
    totals = "the total is" if count == 1 else f"each of the {count:,} totals is"
    return f"Certified: {totals} shown to be the greatest one."


def _describe_result(figures: Figures) -> list[str]:
    """How many bidders win, what they pay together, what they bid, and what stays unsold."""
    sentences = [*_describe_winners(figures), _describe_unsold(figures)]
    if figures.value_left:
        left = figures.format_amount(figures.value_left)
        total = figures.format_amount(figures.total)
        sentences.append(f"The unsold lots are worth {left}, so that the total is {total}.")
    return sentences


def _describe_winners(figures: Figures) -> list[str]:
    """How many bidders win, what they pay together, and what they bid."""
    count = len(figures.winners)
    bidders = f"{count:,} of {format_count(len(figures.bidders), 'bidder')}"
    if not count:
        return ["No bidder wins."]
    amounts = figures.format_amount(figures.amounts)
    paid = figures.format_amount(figures.prices.total) if figures.prices else ""
    if count == 1:
        pays = f" and pays {paid}" if paid else ""
        return [f"{bidders} wins{pays}.", f"The winning bid is {amounts}."]
    pay = f" and pay {paid} together" if paid else ""
    return [f"{bidders} win{pay}.", f"The winning bids add up to {amounts}."]


def _describe_unsold(figures: Figures) -> str:
    """Which lots stay unsold."""
    if not figures.lots:
        return "There are no lots."
    whole = "The only lot" if figures.lots == 1 else f"All {figures.lots:,} lots"
    if not figures.unsold:
        return f"{whole} {'is' if figures.lots == 1 else 'are'} sold."
    stay = "stays" if figures.unsold == 1 else "stay"
    if figures.unsold == figures.lots:
        return f"{whole} {stay} unsold."
    unsold = [category.unsold for category in figures.categories]
    count = sum(lots > 0 for lots in unsold)
    if count > _MOST_UNSOLD:
        where = f", in {count} of {len(unsold)} categories"
    else:
        where = f": {figures.format_lots(unsold)}"
    return f"{figures.unsold:,} of {figures.lots:,} lots {stay} unsold{where}."


def _list_proofs_of_prices(figures: Figures, prices: PricesFigures) -> list[str]:
    """What is proved of the prices, each as the rest of a sentence that begins with `proved`."""
    proofs = [
        "no group of bidders, listed or not, pays less than its opportunity cost, and nobody less "
        "than the reserve"
    ]
    if prices.is_by_rule:
        exact = figures.format_amount(prices.exact_total)
        proofs += [
            f"for these winners no sum of exact prices below {exact} does this",
            "of all exact prices of that sum that do this, these are the nearest to what each "
            "winner would pay alone",
        ]
    return proofs


def _describe_sum_of_prices(figures: Figures, prices: PricesFigures) -> str | None:
    """What the prices come to, to be said after their proofs; None if the proofs say it."""
    paid = figures.format_amount(prices.total)
    if not prices.is_by_rule:
        return f"the prices come to {paid}, and no more is shown of them"
    if prices.total == prices.exact_total:
        return None
    return f"rounded up to whole pounds they come to {paid}"


def describe_proof_of_prices(figures: Figures, prices: PricesFigures) -> str:
    """What is proved of the prices, and what they come to, as a message of the run that found them."""
    pieces = _list_proofs_of_prices(figures, prices)
    if more := _describe_sum_of_prices(figures, prices):
        pieces.append(more)
    return f"proved: {'; '.join(pieces)}"


def _describe_prices(figures: Figures) -> list[str]:
    """What is proved of the prices, and whose they are; nothing if there are none."""
    prices = figures.prices
    if prices is None:
        return []
    sentences = [f"Proved: {proof}." for proof in _list_proofs_of_prices(figures, prices)]
    if more := _describe_sum_of_prices(figures, prices):
        sentences.append(f"{more[0].upper()}{more[1:]}.")
    if figures.known_awards.is_tie:
        sentences.append(
            "These prices belong to the winners of this page; another award has prices of its own, "
            "which may have another sum."
        )
    return sentences


def _describe_awards(known: KnownAwards) -> str:
    """A sentence about all awards of this total."""
    if known.is_tie and not known.are_all:
        warning = "" if known.is_drawn else ": don't draw from these alone"
        return (
            f"Proved: at least these {known.count} awards reach the same total, and none reaches "
            f"more. That there are no others isn't shown{warning}."
        )
    if not known.are_all:
        return "Whether others reach the same total isn't shown."
    if not known.is_tie:
        return (
            "Proved: these are the only winners. "
            "No other combination of bids reaches the same total. The audit shows it."
        )
    return (
        f"Proved: these {known.count} awards, and no other, reach the greatest total. "
        "The audit shows it."
    )


def _describe_choice(known: KnownAwards) -> str:
    """Of several awards sentences about the one of this page."""
    if known.is_drawn:
        return (
            f"{known.describe_tie()} A draw decided between the awards, and this page shows award "
            f"{known.number}, which was drawn."
        )
    return (
        f"{known.describe_tie()} This page shows award {known.number}. "
        "Which award holds is for the auction's rules to say, perhaps by a draw."
    )


def describe_awards_of_run(known: KnownAwards) -> str:
    """What is proved of the awards, as a message of the run that found them."""
    if not known.are_all:
        warning = "don't draw from these alone"
        return f"at least these {known.count} awards reach the total of group 1: {warning}"
    if not known.is_tie:
        return "proved: nobody else can win with the total of group 1"
    rules = "which one holds is for the auction's rules to say"
    return f"proved: these {known.count} awards, and no other, reach the total of group 1; {rules}"
