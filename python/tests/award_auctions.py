"""Small random auctions as texts, with all that the objects of an award are about: pools, values of
unsold lots, reserves, steps, bids that tie, forms that are replaced or missing, and groups that are
listed twice.
"""
import random
from collections.abc import Iterable, Sequence
from dataclasses import dataclass

import priced_auctions
import tied_auctions as tied
from tied_auctions import Auction, Bid, Group, Pool

# names of each kind: some are those of another kind, words of the output, or as long as they may be
BIDDERS = (
    "Alpha Beta sum Gamma total A cost Delta price Epsilon x9 Sixteen16Letters Zeta group tie Eta"
    " prices"
).split()
CATEGORIES = "A B Alpha lots C11 SixteenLetters16 reserve".split()
POOLS = "A Pool1 load sum".split()
STEPS = (1, 1, 1, 5, 100)
MOST = 10**12  # pounds


@dataclass(frozen=True)
class AuctionTexts:
    """An auction, its names, the groups as they are listed, and the texts of its rules and forms:
    each form with the number of its bidder, whose last form counts.
    """

    auction: Auction
    step: int
    bidders: Sequence[str]
    categories: Sequence[str]
    pools: Sequence[str]
    groups: Sequence[Group]
    rules: bytes
    forms: Sequence[tuple[int, bytes]]

    def format_group(self, group: Group) -> str:
        return "+".join(self.bidders[bidder - 1] for bidder in group) or "-"

    def text(self) -> bytes:
        """The input."""
        forms = b"".join(b"%form\n" + text for _, text in self.forms)
        groups = "".join(f"{self.format_group(group)}\n" for group in self.groups)
        return b"%rules\n" + self.rules + forms + b"%groups\n" + groups.encode()


def draw_auction(number: int) -> AuctionTexts:
    """The random auction of this number."""
    draw = random.Random(f"objects {number}")
    auction = _add_wide_pool(_add_bidders(_draw_auction(draw), draw), draw)
    amounts = [bid.amount for form in auction.forms for bid in form]
    step = draw.choice([step for step in STEPS if step * max(amounts, default=0) <= MOST])
    auction = _multiply(auction, step)
    bidders = draw.sample(BIDDERS, len(auction.forms))
    categories = draw.sample(CATEGORIES, len(auction.supply))
    pools = draw.sample(POOLS, len(auction.pools))
    return AuctionTexts(
        auction=auction,
        step=step,
        bidders=bidders,
        categories=categories,
        pools=pools,
        groups=_draw_groups(draw, len(bidders)),
        rules=_format_rules(draw, auction, step, names=(categories, pools, bidders)),
        forms=_draw_forms(draw, auction, bidders=bidders, categories=categories),
    )


def _draw_auction(draw: random.Random) -> Auction:
    kind = draw.random()
    if kind < 0.04:
        return _draw_alike(draw)
    if kind < 0.65:
        return tied.with_reserves(tied.random_auction(draw), draw)
    return priced_auctions.random_auction(draw)


def _draw_alike(draw: random.Random) -> Auction:
    """Three winners, each with bids as good as its first one: more than 64 awards tie."""
    lots = range(3)
    forms = []
    for own in lots:
        amount = draw.randint(5, 9)
        wider = [tuple(int(lot == own) for lot in lots)]
        while len(wider) < 5:
            lot = draw.choice(lots)
            wider.append(tuple(count + int(place == lot) for place, count in enumerate(wider[-1])))
        forms.append([Bid(amount, package) for package in wider])
    pools = [Pool(40, (1, 0, 2)), Pool(90, (0, 3, 0))] if draw.random() < 0.5 else []
    return Auction(
        version=3,
        supply=(20, 20, 20),
        values=(0, 0, 0),
        pools=pools,
        forms=forms,
        reserves=(1, 0, 0),
    )


def _add_bidders(auction: Auction, draw: random.Random) -> Auction:
    """The auction, often with one more bidder that bids as another one does, or that has no bid."""
    forms = list(auction.forms)
    if draw.random() < 0.3:
        forms.insert(draw.randint(0, len(forms)), draw.choice(forms))
    if draw.random() < 0.3:
        forms.insert(draw.randint(0, len(forms)), [])
    return auction._replace(forms=forms, reserves=auction.reserves[: len(auction.supply)])


def _add_wide_pool(auction: Auction, draw: random.Random) -> Auction:
    """The auction, often with one more pool, whose cap all lots together can't exceed."""
    if auction.version < 3 or draw.random() < 0.6:
        return auction
    weights = tuple(draw.randint(0, 3) for _ in auction.supply)
    cap = tied.weighed(weights, auction.supply) + draw.randint(0, 9)
    pools = list(auction.pools)
    pools.insert(draw.randint(0, len(pools)), Pool(cap, weights))
    return auction._replace(pools=pools)


def _multiply(auction: Auction, by: int) -> Auction:
    """The auction with this many times as many pounds."""
    return auction._replace(
        values=tuple(by * value for value in auction.values),
        reserves=tuple(by * reserve for reserve in auction.reserves),
        forms=[[Bid(by * bid.amount, bid.package) for bid in form] for form in auction.forms],
    )


def _draw_groups(draw: random.Random, bidders: int) -> list[Group]:
    """The empty group, and others with names in any order, some of them twice."""
    numbers = range(1, bidders + 1)
    groups: list[Group] = [
        draw.sample(numbers, draw.randint(1, min(3, bidders)))
        for _ in range(draw.choice([0, 1, 2, 4]))
    ]
    if groups and draw.random() < 0.5:
        again = list(draw.choice(groups))
        draw.shuffle(again)
        groups.insert(draw.randint(0, len(groups)), again)
    if draw.random() < 0.1:
        groups.insert(draw.randint(0, len(groups)), ())
    return [(), *groups]


def _format_rules(
    draw: random.Random, auction: Auction, step: int, *, names: Sequence[Sequence[str]]
) -> bytes:
    """The text of the rules, with the kinds of records in one of several orders."""
    categories, pools, bidders = names
    has_values = auction.version > 1
    end = ["", ""] if has_values else [""]
    lots = []
    for name, supply, reserve, value in zip(
        categories, auction.supply, auction.reserves, auction.values
    ):
        lots.append(["category", name, supply, reserve, 1, *([value] if has_values else [])])
    for name, pool in zip(pools, auction.pools):
        lots.append(["pool", name, pool.cap, "", "", ""])
        lots += [
            ["member", name, category, weight, "", ""]
            for category, weight in zip(categories, pool.weights)
            if weight
        ]
    owners = [["bidder", name, 100, draw.randint(1, 8), *end] for name in bidders]
    blocks = [lots, owners]
    draw.shuffle(blocks)
    return format_records(
        draw, [["rules", auction.version, step, "", *end], *blocks[0], *blocks[1]]
    )


def _draw_forms(
    draw: random.Random, auction: Auction, *, bidders: Sequence[str], categories: Sequence[str]
) -> list[tuple[int, bytes]]:
    """The texts of the forms in any order: a bidder without bids may have none, and others may have
    two.
    """
    order = [number for number, form in enumerate(auction.forms, 1) if form or draw.random() < 0.3]
    draw.shuffle(order)
    bids = {number: auction.forms[number - 1] for number in order}
    forms = []
    for number in order:
        forms.append((number, bids[number]))
        if draw.random() < 0.2:
            earlier = draw.choice(list(bids.values()))
            forms.insert(draw.randrange(len(forms)), (number, earlier))
    return [
        (number, _format_form(draw, bidders[number - 1], categories, form))
        for number, form in forms
    ]


def _format_form(
    draw: random.Random, bidder: str, categories: Sequence[str], form: Sequence[Bid]
) -> bytes:
    rows: list[Sequence[object]] = [[bidder, *categories]]
    rows += [[bid.amount, *bid.package] for bid in form]
    return format_records(draw, rows)


def format_records(draw: random.Random, rows: Iterable[Sequence[object]]) -> bytes:
    """Records of CSV, some with quotes, zeros that lead, empty lines or another line end."""
    end = draw.choice(["\n", "\n", "\n", "\r\n", "\n\n"])
    is_odd = draw.random() < 0.3
    lines = []
    for fields in rows:
        texts = list(map(str, fields))
        for place in range(len(texts) if is_odd else 0):
            if draw.random() < 0.1:
                texts[place] = f'"{texts[place]}"'
            elif isinstance(fields[place], int) and place > 1 and draw.random() < 0.1:
                texts[place] = f"00{texts[place]}"
        lines.append(",".join(texts) + end)
    return "".join(lines).encode()
