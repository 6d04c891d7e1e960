"""Inputs of `wdp verify` and `wdp report` with many groups: those that end at a first fault, and solutions that name many bids.

The auction has 15 forms of 2,000 bids over 20 categories, none of which dominates another: the first group's program has
30,000 columns.
certificates: the certificate of the first group is faulty, and so is each other one.
solutions: the solution of the first group is refused, and so is each other one.
named: each solution names 1,001 bids, all at 0, and is taken.
fewer_named: 1,000 bids.
"""
FORMS, BIDS, CATEGORIES = 15, 2000, 20


def groups(count):
    """The empty group, and others by the bits of their numbers."""
    named = ["+".join("Bidder%d" % (bit + 1) for bit in range(FORMS) if number >> bit & 1) or "-" for number in range(count)]
    return "%groups\n" + "".join(line + "\n" for line in named)


def at_0(number, count):
    """Lines of a solution that name so many bids of bidders who aren't left out."""
    left = [bit + 1 for bit in range(FORMS) if not number >> bit & 1]
    return "".join("X%d_%d 0\n" % (left[place % len(left)], place // len(left) + 1) for place in range(count))


def auction():
    """Forms of which no bid dominates another."""
    lines = ["%rules", "rules,1,1,,"] + ["category,Band%d,10000,0,0" % (place + 1) for place in range(CATEGORIES)]
    lines += ["bidder,Bidder%d,0,1," % (form + 1) for form in range(FORMS)]
    header = ",".join("Band%d" % (place + 1) for place in range(CATEGORIES))
    bids = ["1000," + "1," * (CATEGORIES - 2) + "%d,%d" % (2 * (BIDS - bid), bid + 1) for bid in range(BIDS)]
    for form in range(FORMS):
        lines += ["%form", "Bidder%d,%s" % (form + 1, header)] + bids
    return "\n".join(lines) + "\n"


def with_solutions(count, solution):
    """The auction with so many groups, and what the solution of each says by its number."""
    return auction() + groups(count) + "".join("%solution\n" + solution(number) for number in range(count))


def certificates(count):
    return with_solutions(count, lambda number: "") + "%certificate\nnothing\n" * count


def solutions(count):
    return with_solutions(count, lambda number: "nobody 1\n")


def named(count):
    return with_solutions(count, lambda number: at_0(number, 1001))


def fewer_named(count):
    return with_solutions(count, lambda number: at_0(number, 1000))
