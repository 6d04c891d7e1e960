"""Forms that are chosen to take long: rules, forms, and groups where the command takes them.

faulty: forms without a byte, of which the first one is refused.
short: forms of one bid and a few bytes, with which the call limit is met.
short_quoted: the same with a quotation mark, which only a reader of all of csv's records can split.
submitted: the same as short, of 256 bidders in turn, none of whom has more than it may submit.
undominated: bids of one amount and most of one category, none of which dominates another, though each next one is smaller
  and so is compared with all before it.
equal: bids whose packages all had one fingerprint, by which repeated packages are looked for, while its multiplier was the
  same for every form.
names: forms of which those bids fit whose columns' names stand close to each other in a table that hashes with the
  toolchain's fixed seed; groups, and a solution for each that names every column, the last one first.
other_names: the same with as many bids, whose names stand anywhere.

Forms have 4,000 bids. Those of undominated and equal forms are over 32 categories. Packages of one fingerprint are sums of
short vectors that the fingerprint takes to 0 modulo 2 to the 64th; those are found by reducing a lattice.
"""
import itertools
from fractions import Fraction

BIDS, CATEGORIES = 4000, 32
MULTIPLIER = 0x9E3779B97F4A7C15
MULTIPLIER_OF_NAMES = MULTIPLIER
REDUCED = 12  # how many categories the short vectors are over


def inner(a, b):
    return sum(x * y for x, y in zip(a, b))


def reduced(basis):
    """The basis, reduced as Lenstra, Lenstra and Lovasz do it, in exact numbers."""
    size = len(basis)
    basis = [list(row) for row in basis]

    def orthogonal():
        stars, factors = [], [[Fraction(0)] * size for _ in range(size)]
        for i in range(size):
            star = [Fraction(x) for x in basis[i]]
            for j in range(i):
                factors[i][j] = inner(basis[i], stars[j]) / inner(stars[j], stars[j])
                star = [x - factors[i][j] * y for x, y in zip(star, stars[j])]
            stars.append(star)
        return stars, factors

    stars, factors = orthogonal()
    place = 1
    while place < size:
        for j in range(place - 1, -1, -1):
            whole = round(factors[place][j])
            if whole:
                basis[place] = [x - whole * y for x, y in zip(basis[place], basis[j])]
                for k in range(j):
                    factors[place][k] -= whole * factors[j][k]
                factors[place][j] -= whole
        if inner(stars[place], stars[place]) >= (Fraction(3, 4) - factors[place][place - 1] ** 2) * inner(stars[place - 1], stars[place - 1]):
            place += 1
        else:
            basis[place], basis[place - 1] = basis[place - 1], basis[place]
            stars, factors = orthogonal()
            place = max(place - 1, 1)
    return basis


def short_vectors():
    """Short vectors over the last categories that the fingerprint takes to 0."""
    modulus, weight = 1 << 64, 1 << 40
    weights = [pow(MULTIPLIER, REDUCED - 1 - place, modulus) for place in range(REDUCED)]
    basis = [[int(place == other) for other in range(REDUCED)] + [weights[place] * weight] for place in range(REDUCED)]
    basis.append([0] * REDUCED + [modulus * weight])
    return [row[:REDUCED] for row in reduced(basis) if row[REDUCED] == 0 and any(row)]


def equal_packages(bids):
    """Packages of one fingerprint."""
    vectors = short_vectors()
    packages = []
    for factors in itertools.product((0, 1, -1), repeat=len(vectors)):
        if len(packages) == bids:
            break
        tail = [3000 + sum(factor * vector[place] for factor, vector in zip(factors, vectors)) for place in range(REDUCED)]
        packages.append([1] * (CATEGORIES - REDUCED) + tail)
    return packages


def undominated_packages(bids):
    return [[10000] + [0] * (CATEGORIES - 3) + [2 * (bids - bid), bid + 1] for bid in range(bids)]


def rules(categories, bidders):
    lines = ["%rules", "rules,1,1,,"]
    lines += ["category,Band%d,10000,0,0" % (place + 1) for place in range(categories)]
    return lines + ["bidder,Bidder%d,0,1," % (bidder + 1) for bidder in range(bidders)]


def with_packages(packages, forms):
    """An input with these packages as each bidder's form, all of one amount."""
    header = ",".join("Band%d" % (place + 1) for place in range(CATEGORIES))
    bids = "\n".join("1000," + ",".join(map(str, package)) for package in packages)
    lines = rules(CATEGORIES, forms)
    for form in range(forms):
        lines += ["%form", "Bidder%d,%s" % (form + 1, header), bids]
    return "\n".join(lines + [""])


def place_in_table(name, mask):
    """The group of a table in which the toolchain's own hasher looks for a name first (bench/colliding_names.c has the same)."""
    def folded(a, b):
        product = a * b
        return (product ^ product >> 64) & (1 << 64) - 1

    state = folded(0x243F6A8885A308D3 ^ len(name), MULTIPLIER_OF_NAMES ^ 16)
    for sign in name:
        state = folded(state ^ sign * 0x010101, MULTIPLIER_OF_NAMES ^ 2)
    return (state ^ state >> 32) & mask


def with_names(forms, groups, are_close):
    """An input whose bids were chosen by the names of their columns: about a third of all."""
    every = [(form, bid) for form in range(1, forms + 1) for bid in range(1, 4001)]
    wanted = len(every) * 29 // 100
    slots = 1
    while 9 * slots < wanted:
        slots *= 2
    if are_close:
        every.sort(key=lambda pair: place_in_table(b"X%d_%d" % pair, slots - 1))
    else:
        every.sort(key=lambda pair: pair[0] * 7919 * pair[1] % 104729)
    chosen = set(every[:wanted])
    lines = ["%rules", "rules,1,1,,", "category,A,10000,0,0", "category,B,1,0,0"]
    lines += ["bidder,Bidder%d,0,1," % form for form in range(1, forms + 1)]
    for form in range(1, forms + 1):
        lines += ["%form", "Bidder%d,A,B" % form]
        lines += ["%d,%d,0" % (1000 + bid, bid) if (form, bid) in chosen else "%d,0,%d" % (1000 + bid, bid + 1) for bid in range(1, 4001)]
    lines += ["%groups", "-"] + ["Bidder%d" % group for group in range(1, groups)]
    names = sorted(chosen, reverse=True)
    for group in range(groups):
        lines += ["%solution"] + ["X%d_%d 0" % pair for pair in names if pair[0] != group]
    return "\n".join(lines + [""])


def faulty(forms):
    return "\n".join(rules(1, 1)) + "\n" + "%form\n" * forms


def short(forms):
    return "\n".join(rules(1, 1)) + "\n" + "%form\nBidder1,Band1\n1,1\n" * forms


def short_quoted(forms):
    return "\n".join(rules(1, 1)) + "\n" + '%form\n"Bidder1",Band1\n1,1\n' * forms


def submitted(forms):
    lines = rules(1, 256)
    for form in range(forms):
        lines += ["%form", "Bidder%d,Band1" % (form % 256 + 1), "1,1"]
    return "\n".join(lines + [""])


def undominated(forms):
    return with_packages(undominated_packages(BIDS), forms)


def equal(forms):
    return with_packages(equal_packages(BIDS), forms)


def names(forms, groups):
    return with_names(forms, groups, True)


def other_names(forms, groups):
    return with_names(forms, groups, False)
