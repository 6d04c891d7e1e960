"""0-1 programs for tests: auctions that are drawn, and small programs of all kinds."""
import itertools
import random
from collections.abc import Sequence

from wdp.texts.zero_one import AT_LEAST, AT_MOST, EQUAL, Column, Row, ZeroOne

# an amount, and how many lots of each category
Offer = tuple[int, Sequence[int]]


def make_auction(supply: Sequence[int], bids: Sequence[Sequence[Offer]]) -> ZeroOne:
    """The program of an auction with these lots of each category, and each bidder's offers."""
    rows = [Row(f"B{number}", AT_MOST, 1) for number in range(1, len(bids) + 1)]
    rows += [Row(f"C{number}", AT_MOST, lots) for number, lots in enumerate(supply, 1)]
    columns = []
    for bidder, offers in enumerate(bids):
        for number, (amount, quantities) in enumerate(offers, 1):
            entries = [(bidder, 1)]
            entries += [(len(bids) + place, lots) for place, lots in enumerate(quantities) if lots]
            columns.append(Column(f"X{bidder + 1}_{number}", -amount, entries))
    return ZeroOne(rows, columns)


def draw_near_tied_bids(
    draw: random.Random, supply: Sequence[int], lot_value: int
) -> list[list[Offer]]:
    """Amounts that are values of lots alone, but for up to 200 pounds: many combinations come
    within pounds.
    """
    values = [lot_value + draw.randrange(-lot_value // 10, lot_value // 10) for _ in supply]
    quantities = itertools.product(*(range(lots + 1) for lots in supply))
    packages = [package for package in quantities if any(package)]
    bids: list[list[Offer]] = []
    for _ in range(7):
        offers: list[Offer] = []
        for package in draw.sample(packages, 20):
            worth = sum(value * lots for value, lots in zip(values, package, strict=True))
            offers.append((worth, package))
        bids.append([(worth + draw.randrange(200), package) for worth, package in offers])
    return bids


def draw_small_program(draw: random.Random) -> ZeroOne:
    """Rows of all kinds, coefficients of both signs, fixed columns, blocks and columns without
    one.
    """
    count = draw.randrange(1, 9)
    kinds = [AT_MOST, AT_MOST, AT_LEAST, EQUAL]
    sides = [(draw.choice(kinds), draw.randrange(-2, 5)) for _ in range(draw.randrange(0, 5))]
    rows = [Row(f"R{place}", kind, side) for place, (kind, side) in enumerate(sides)]
    rows += [Row(f"B{place}", AT_MOST, 1) for place in range(draw.randrange(0, 4))]
    columns = []
    for number in range(count):
        places = [place for place in range(len(sides)) if draw.random() < 0.6]
        entries = [(place, draw.choice([-2, -1, 1, 1, 2, 3])) for place in places]
        if len(rows) > len(sides) and draw.random() < 0.8:
            entries.append((draw.randrange(len(sides), len(rows)), 1))
        lower, upper = draw.choice([(0, 1)] * 6 + [(0, 0), (1, 1)])
        columns.append(Column(f"X{number}", draw.randrange(-20, 10), entries, lower, upper))
    return ZeroOne(rows, columns)


def make_alike(count: int, lots: int) -> ZeroOne:
    """So many bidders who offer the same for one of so many lots."""
    return make_auction([lots], [[(30, (1,))]] * count)
