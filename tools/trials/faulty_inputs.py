"""Inputs with faults, from none to more than are told, and inputs at the limits, with the lines of `wdp explain` that tell them."""

import random

from trials.planted import MOST_LINES, Planted
from trials.worked import ALPHA, auction, rules_and

MIB = 1 << 20
HUGE = 3_000_000


def planted(count, bids, has_other_headers, number):
    draw = random.Random(f"planted {count} {has_other_headers} {number}")
    return Planted(draw, bids, has_other_headers).plant(count)


# how many faults in how many bids, whether with other headers, and how many auctions
SIZES = [(0, 60, False, 1), (2, 60, False, 20), (10, 60, False, 10), (10, 60, True, 10)]
SIZES += [(1_000, 200, False, 3), (1_000, 200, True, 3)]
PLANTED = [(*size, number) for *size, times in SIZES for number in range(times)]
PLANTED += [(MOST_LINES + more, 3_000, bool(more), 0) for more in (0, 1, 2_345)]

# what a long field of the worked auction begins with, behind a text that stands once, what it is filled up with, and what is told
LONG = r"""bidder,|Beta|B|rules: 5 NameText at record 5, field 2: |isn't a letter and then letters or digits, at most 16
\n|30|9|form 1: 5 AmountText at record 2, field 1: |isn't 1 to 18 digits
30,1,"||\x0a|form 1: 8 QuantityText at record 2, field 3: |isn't 1 to 18 digits
-\n|Beta|B|groups: 3 UnknownBidder at line 2, name 1: |is no bidder's name"""


def limits():
    yield "large rules", "%rules\n" + "\n" * (4 * MIB + 1), ["rules: 1 TooLarge"]
    worked = auction("-\nBeta\n").replace("30,1,0", '30,1,"0"')
    for line in LONG.splitlines():
        before, start, filling, told, wrong = line.split("|")
        old, more = (it.encode().decode("unicode_escape") for it in (before + start, filling))
        shown = start + filling * (40 - len(start))
        yield told, worked.replace(old, old + more * HUGE, 1), [f"{told}'{shown}'... {wrong}"]
    nobody = "groups: 3 UnknownBidder at line %d, name 1: 'Nobody' is no bidder's name"
    short = "form %d: 2 Header at record 1: 1 fields in place of 3"
    many = "%form\nAlpha,A,B\n" * 1_001
    groups = "%groups\nNobody\n"
    calls = [nobody % 1, "form 1001: CallLimit"]
    yield "1,001 forms", rules_and() + many + groups, calls
    yield "1,002 forms, a faulty one", rules_and("x\n") + many + groups, [short % 1, nobody % 1]
    large = rules_and(ALPHA + "\n" * 4 * MIB, "x\n") + "%groups\n" + "-\n" * 2 * MIB + "-"
    yield "large texts", large, ["form 1: 1 TooLarge", short % 2, "groups: 1 TooLarge"]
    told = [nobody % 1025, "groups: 5 TooManyGroups at line 1025: more than 1024 groups"]
    told += ["groups: 2 EmptyLine at line 1026", told[1].replace("1025", "1026")]
    yield "1,026 groups", auction("-\n" * 1_024 + "Nobody\n\n"), told
    # a bid with a fault is none of the 4,000
    amount = ("5 AmountText", 1)
    room = ("14 TooManyBids", None)
    for faults in ({4_002: [room]}, {10: [amount]}, {4_002: [amount, room]}):
        planted = Planted(random.Random("limits"), 4_002)
        planted.told = {(1, record): it for record, it in [*faults.items(), (4_003, [room])]}
        for record in (record for record, it in faults.items() if amount in it):
            planted.forms[1][record - 1][0] = ""
        planted.forms = {1: planted.forms[1]}
        yield f"4,002 bids, faulty in {faults}", planted.text(), planted.lines()
