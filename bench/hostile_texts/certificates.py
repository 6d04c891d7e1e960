"""Inputs of `wdp verify` whose certificate is chosen to take long. It is true, but for the last line of `unique` and `ties`.

again: a leaf that names the row of a category once for each column, of which that row has all; so many forms of 4,000 bids.
split: a split that names two columns so often, above a tree with a leaf for each 100 of them.
small: so many forms of 4,000 bids, and a tree with 100 leaves for each form that give a number to a few columns each.
dense: 32 forms of 4,000 bids, and a tree with so many leaves that each name the row of the category, of which all columns have an
entry.
wide: the same forms, and leaves that each name that row and one of a bidder, where the last column's number alone leaves 64 bits.
unique: 32 forms of 4,000 bids, and a `%unique` with so many leaves, that each name the row of the category and give a number to the
inequality that excludes the solution, which has an entry for each column. Its last line shows nothing, since others win as much.
ties: the same beside 63 `%tie`, whose inequalities get a number from each leaf, too.
groupsolutions: 40 forms of 4,000 bids, and so many groups of the first ten bidders, each with a certificate of one leaf.
plain: so many forms of 4,000 bids, and a certificate of one leaf.

Each bid asks for some lots of one category and pays a pound for each, and 1,000 pounds more. So the greatest total is 1,000
pounds for each bidder and one for each lot, and that is what the row of each bidder and that of the category show.
"""
BIDS = 4000
LOTS = 10000


def winners(forms):
    """How many lots each bidder wins: all lots together, and at least one each."""
    left = LOTS - forms
    counts = []
    for _ in range(forms):
        more = min(left, BIDS - 1)
        counts.append(1 + more)
        left -= more
    return counts


def auction(forms):
    """Rules, forms and the empty group, and the solution."""
    lines = ["%rules", "rules,1,1,,", "category,A,%d,0,0" % LOTS]
    lines += ["bidder,Bidder%d,0,1," % form for form in range(1, forms + 1)]
    bids = ["%d,%d" % (1000 + bid, bid) for bid in range(1, BIDS + 1)]
    for form in range(1, forms + 1):
        lines += ["%form", "Bidder%d,A" % form, *bids]
    return lines + ["%groups", "-", "%solution"] + ["X%d_%d 1" % (form, won) for form, won in enumerate(winners(forms), 1)]


def leaf(forms, multipliers=()):
    """What shows the greatest total; the multipliers of splits may change nothing of that."""
    return " ".join(["bound 1", *map(str, multipliers), *("B%d 1000" % form for form in range(1, forms + 1)), "C1 1"])


def tree(depth, split, last, multipliers=()):
    """All splits down to this depth, with the leaves that have these multipliers."""
    if depth == 0:
        return [last(multipliers)]
    lines = [split(depth)]
    for multiplier in (0, 1):
        lines += tree(depth - 1, split, last, (*multipliers, multiplier))
    return lines


def depth_for(leaves):
    return max(1, (leaves - 1).bit_length())


def text_of(lines):
    return "\n".join(lines + [""])


def again(forms):
    return text_of(auction(forms) + ["%certificate", leaf(forms) + " C1 0" * (forms * BIDS)])


def split(terms):
    """No point is on the first side, where columns at least at 0 are to come to less, as the split's multiplier alone shows."""
    below = tree(depth_for(terms // 100), lambda depth: "split 0", lambda ys: " ".join(["bound 0 1", *("0" for _ in ys)]))
    return text_of(auction(3) + ["%certificate", "split -1" + " X1_1 1 X2_1 1" * (terms // 2), *below, leaf(3, (0,))])


def small(forms):
    """No point is on the second side of a split without columns, as its multiplier alone shows."""
    below = tree(depth_for(100 * forms), lambda depth: "split 0 X1_%d 1" % depth, lambda ys: " ".join(["bound 0 1", *map(str, ys)]))
    return text_of(auction(forms) + ["%certificate", "split 0", leaf(forms, (0,)), *below])


def dense_leaves(leaves):
    return 2 ** depth_for(leaves)


def dense_entries(leaves):
    """How many entries the rows have that the leaves of `dense` name."""
    return 32 * BIDS * (dense_leaves(leaves) + 2)


def dense(leaves):
    """No point is on the second side of a split without columns, which outweighs the row of the category."""
    below = tree(depth_for(leaves), lambda depth: "split 0", lambda ys: " ".join(["bound 0 %d" % (2 * LOTS), *map(str, ys), "C1 1"]))
    return text_of(auction(32) + ["%certificate", "split 0", leaf(32, (0,)), *below])


def wide_entries(leaves):
    return dense_entries(leaves) + BIDS * dense_leaves(leaves)


def wide(leaves):
    """No point is on the second side of a split without columns, where 24 times its 10^18 outweighs the rows. What they give the last
    column comes to 2^63, and what they give another one to less."""
    of_lots = 2 ** 63 // BIDS - 1
    of_bidder = 2 ** 63 - of_lots * BIDS
    rows = "C1 %d B32 %d" % (of_lots, of_bidder)
    below = tree(depth_for(leaves), lambda depth: "split 0", lambda ys: " ".join(["bound 0 24", *map(str, ys), rows]))
    return text_of(auction(32) + ["%certificate", "split %d" % (10 ** 18 - 1), leaf(32, (0,)), *below])


TIES = 63


def awards(count):
    """So many allocations of greatest total: in each the third bidder leaves one lot more to the fourth."""
    first = winners(32)
    return [[*first[:2], first[2] - more, first[3] + more, *first[4:]] for more in range(count)]


def excluded(leaves, ties):
    """No point is on the first side of a split without columns, which outweighs the row of the category and all inequalities."""
    lines = auction(32) + ["%certificate", leaf(32)]
    for award in awards(1 + ties)[1:]:
        lines += ["%tie"] + ["X%d_%d 1" % (bidder, won) for bidder, won in enumerate(award, 1)]
    numbers = [1] * (1 + ties) + [200 * LOTS]
    below = tree(depth_for(leaves), lambda depth: "split 0", lambda ys: " ".join(["bound 0", *map(str, numbers + list(ys)), "C1 100"]))
    return text_of(lines + ["%unique", "split -1", *below, leaf(32, [0] * len(numbers))])


def excluded_entries(leaves, ties):
    """How many entries have the row of the category and the inequalities, each time that a leaf names them."""
    return 32 * BIDS * dense_leaves(leaves) * (2 + ties)


def unique(leaves):
    return excluded(leaves, 0)


def unique_entries(leaves):
    return excluded_entries(leaves, 0)


def ties(leaves):
    return excluded(leaves, TIES)


def ties_entries(leaves):
    return excluded_entries(leaves, TIES)


FEW, MANY = 10, 40  # of so many bidders groups are made, and so many are there


def left_of(number):
    """The bidders outside the group of a number, whose bits are its bidders."""
    return [bidder for bidder in range(1, MANY + 1) if bidder > FEW or not number >> (bidder - 1) & 1]


def groupsolutions_entries(groups):
    """How many entries the programs of the groups have."""
    return sum(2 * BIDS * len(left_of(number)) for number in range(groups))


def groupsolutions(groups):
    left = [left_of(number) for number in range(groups)]
    lines = auction(MANY)
    lines = lines[:lines.index("%groups")] + ["%groups", "-"]
    lines += ["+".join("Bidder%d" % bidder for bidder in range(1, FEW + 1) if bidder not in names) for names in left[1:]]
    for names in left:
        lines += ["%solution"] + ["X%d_%d 1" % (bidder, won) for bidder, won in zip(names, winners(len(names)))]
    for names in left:
        lines += ["%certificate", " ".join(["bound 1", *("B%d 1000" % bidder for bidder in names), "C1 1"])]
    return text_of(lines)


def plain(forms):
    return text_of(auction(forms) + ["%certificate", leaf(forms)])
