"""What a letter says, in sections of sentences, facts and tables; of other bidders it has no bid."""
from collections.abc import Mapping, Sequence
from dataclasses import dataclass, field

from wdp.awards import KnownAwards
from wdp.lost.bids import LostBid
from wdp.lost.records import describe_fate
from wdp.office.faults import CellValue, format_count, format_number
from wdp.publish.figures import BidderFigures, Figures
from wdp.publish.tables import list_bounds
from wdp.texts.accepted import AcceptedRules, Bid

_UNPRICED = "not found yet"
_ABOUT_PRICES = (
    "You pay the exact price, rounded up to whole pounds. Your opportunity cost is how much more "
    "the others, and the values of unsold lots, would bring without you. Bound by names the groups of "
    "winners that by exact prices pay just what they cost together, and says reserve if your exact "
    "price is the reserve."
)
_ABOUT_AUDIT = (
    "The office has an audit, of which the program wdp prints your part of what is proved. It has "
    "every bid: ask the office whether you may see it."
)
_ABOUT_COMMANDS = (
    "The commands that follow print your part of what is proved. They need the program wdp, and "
    "the audit, audit.txt, which the office gives you."
)
_ABOUT_LOST_AUDITS = "The office has an audit for each needed amount. These audits have every bid."


@dataclass(frozen=True)
class Check:
    """A command by which a reader checks a part of a letter, and what it prints."""

    command: str
    output: str


@dataclass(frozen=True)
class Section:
    """A part of a letter: a heading, sentences, facts with their names, notes on these, a table
    whose first row has its headings, and checks.
    """

    heading: str
    sentences: Sequence[str] = ()
    facts: Mapping[str, str] = field(default_factory=dict)
    notes: Sequence[str] = ()
    rows: Sequence[Sequence[CellValue]] = ()
    checks: Sequence[Check] = ()


@dataclass(frozen=True)
class Letter:
    """A letter: what the auction and the bidder are called, and its sections."""

    title: str
    name: str
    sections: Sequence[Section]


@dataclass(frozen=True)
class Naming:
    """What an office calls an auction, its bidders and categories, and the unit of amounts."""

    title: str
    names: Mapping[str, str]
    currency: str | None = None

    def format_bidder(self, code: str) -> str:
        """A bidder by its name, followed by its code: `Alpha plc (Alpha)`."""
        return f"{self.names[code]} ({code})" if code in self.names else code

    def add_unit(self, heading: str) -> str:
        """The heading of a column of amounts."""
        return f"{heading}, {self.currency}" if self.currency else heading

    def format_amount(self, amount: int) -> str:
        """An amount with its unit: `1,000 GBP`."""
        return f"{format_number(amount)} {self.currency or ''}".rstrip()

    def format_lots(self, lots: Sequence[int], rules: AcceptedRules) -> str:
        """Lots in words: `2 of 800 MHz, 1 of B`."""
        pairs = zip(lots, rules.categories, strict=True)
        return ", ".join(
            f"{count:,} of {self.names.get(category.name, category.name)}"
            for count, category in pairs
            if count
        )


@dataclass(frozen=True)
class CountedForm:
    """The form of a bidder that counts: its bids, the line that `wdp forms` prints of it, whose
    last field is its SHA-256, or `-` if there is no form, and its bytes in the input.
    """

    bidder: str
    bids: Sequence[Bid]
    line: str
    text: bytes | None = None

    @property
    def file_name(self) -> str:
        """The file with the form's bytes that comes with a letter."""
        return f"{self.bidder}.csv"

    @property
    def digest(self) -> str | None:
        """The SHA-256 of the form; None if there is no form."""
        last = self.line.split()[-1]
        return None if last == "-" else last


def make_receipt(form: CountedForm, rules: AcceptedRules, naming: Naming) -> Letter:
    """The receipt of a form, which its bidder confirms before the award."""
    confirm = "Please confirm that this is your form, and that no bid is missing or wrong."
    if form.digest is None:
        confirm = "Please confirm that you have sent no form."
    sections = [
        Section("Receipt of your form", sentences=[confirm]),
        _make_form_section("The form that counts", form, rules, naming=naming),
    ]
    if form.digest is not None:
        about = _describe_digest(form)
        sections.append(Section("How to check it", sentences=about, checks=_list_checks(form)))
    return Letter(naming.title, naming.format_bidder(form.bidder), sections)


def make_letter(
    form: CountedForm,
    rules: AcceptedRules,
    naming: Naming,
    *,
    figures: Figures,
    lost: Sequence[LostBid],
    checks: Sequence[Check],
) -> Letter:
    """The letter to a bidder after the award. `lost` are its lost bids of which it is known what
    they lacked, and `checks` commands of the audit, if the bidder gets that.
    """
    bidder = next(each for each in figures.bidders if each.name == form.bidder)
    sections = [
        _make_won_section(bidder, figures),
        _make_form_section("The form that counted", form, rules, naming=naming, winning=bidder.bid),
    ]
    if lost:
        count = len(form.bids) - bidder.is_winner
        known = figures.known_awards
        sections.append(_make_lost_section(lost, rules, naming, count=count, known=known))
    about = [*_describe_digest(form), _ABOUT_COMMANDS if checks else _ABOUT_AUDIT]
    all_checks = [*_list_checks(form), *checks]
    sections.append(Section("How to check it", sentences=about, checks=all_checks))
    return Letter(naming.title, naming.format_bidder(form.bidder), sections)


def _describe_digest(form: CountedForm) -> list[str]:
    """How a bidder checks the form without anybody's files."""
    if form.digest is None:
        return []
    return [
        f"The SHA-256 is that of the form as it counts, which comes with this letter as "
        f"{form.file_name}. sha256sum prints the same of your own file, unless something in it had "
        "to be written in another way."
    ]


def _list_checks(form: CountedForm) -> list[Check]:
    """The commands that a bidder can run with what comes with the letter."""
    if form.digest is None:
        return []
    return [Check(f"sha256sum {form.file_name}", f"{form.digest}  {form.file_name}")]


def _make_form_section(
    heading: str,
    form: CountedForm,
    rules: AcceptedRules,
    *,
    naming: Naming,
    winning: int | None = None,
) -> Section:
    """The form that counts, and if an award is known which bid won."""
    if form.digest is None:
        return Section(heading, sentences=["There is no form of yours, and so no bid."])
    facts = {"Bids": f"{len(form.bids):,}", "SHA-256 of the form": form.digest}
    rows: list[Sequence[CellValue]] = [["Bid", naming.add_unit("Amount"), "Lots"]]
    for number, bid in enumerate(form.bids, 1):
        lots = naming.format_lots(bid.lots, rules)
        rows.append([number, bid.amount, f"{lots} (won)" if number == winning else lots])
    return Section(heading, facts=facts, rows=rows if form.bids else ())


def _make_won_section(bidder: BidderFigures, figures: Figures) -> Section:
    """What a bidder won and pays."""
    heading = "What you won"
    sentences = [] if figures.certified else ["Not certified: this is a solver's word."]
    if figures.known_awards.is_tie:
        sentences.append(_describe_choice(figures.known_awards))
    if bidder.bid is None:
        sentences.append("None of your bids won. You pay nothing.")
        return Section(heading, sentences=sentences)
    amount = figures.format_amount(bidder.amount)
    facts = {
        "Lots": figures.format_lots(bidder.lots),
        "Winning bid": f"{bidder.bid:,}, of {amount}",
    }
    return Section(
        heading,
        sentences=sentences,
        facts={**facts, **_list_payment(bidder, figures)},
        notes=[_ABOUT_PRICES] if figures.prices else (),
    )


def _list_payment(bidder: BidderFigures, figures: Figures) -> dict[str, str]:
    """What a winner pays, and why."""
    if figures.prices is None or bidder.price is None or bidder.exact_price is None:
        return {"You pay": _UNPRICED}
    facts = {
        "You pay": figures.format_amount(bidder.price),
        "Exact price": figures.format_amount(bidder.exact_price),
    }
    if bidder.cost is not None:
        facts["Opportunity cost"] = figures.format_amount(bidder.cost)
    facts["Reserve of these lots"] = figures.format_amount(bidder.reserve)
    facts["Bound by"] = list_bounds(bidder.name, figures, figures.prices) or "nothing listed"
    return facts


def _describe_choice(known: KnownAwards) -> str:
    """Which of several awards a letter is about."""
    tie = known.describe_tie()
    if known.is_drawn:
        return f"{tie} A draw decided between them, and award {known.number} was drawn."
    rules = "which one holds is for the auction's rules to say"
    return f"{tie} This letter is about award {known.number}; {rules}."


def _make_lost_section(
    lost: Sequence[LostBid],
    rules: AcceptedRules,
    naming: Naming,
    *,
    count: int,
    known: KnownAwards,
) -> Section:
    """What the lost bids of a bidder lacked, of so many in all."""
    steps = naming.format_amount(rules.step)
    sentences = [
        f"Needed is the lowest amount, in steps of {steps}, at which the bid would have tied or "
        "won, all other bids as they are."
    ]
    if len(lost) < count:
        sentences.append(f"It was asked for {len(lost):,} of {format_count(count, 'lost bid')}.")
    if any(bid.shown is not None for bid in lost):
        sentences.append(_ABOUT_LOST_AUDITS)
    headings = [naming.add_unit(heading) for heading in ("Amount", "Needed", "Lacked")]
    rows: list[Sequence[CellValue]] = [["Bid", *headings, "Outcome"]]
    for bid in lost:
        fate = describe_fate(bid, naming.names, known)
        rows.append([bid.bid, bid.amount, bid.needed, bid.lacked, fate])
    return Section("What your lost bids lacked", sentences=sentences, rows=rows)
