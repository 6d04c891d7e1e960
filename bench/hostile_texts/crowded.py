"""Forms that are chosen so that presolve's bitsets tell little: all bids of a form have one amount, hardly any dominates another.

sampled: quantities near one another, but that at 31 places, a 31st of the form apart by size, two categories have 10,000
  lots: a scale of equal steps, taken from a sample at those places, had one rank for nearly all.
low: each bid has less than most others have of one category alone, which is another for each 129 bids, so that fewer than
  a 31st of a category's quantities tell them apart.
nets: the packages rise with the bids, and so do the amounts, so that their nets alone tell bids apart, but for one that
  pays far more: steps between the least and the greatest net have all others in one.
nested: each package is smaller than those before it, so that all bids behind a bid dominate it.
"""
BIDS, CATEGORIES, BASE = 4000, 32, 700
SAMPLE = 31


def near():
    """Bids of rising size, each within 512 of the base: all but the last two categories rise."""
    packages = []
    for bid in range(BIDS):
        high, low = divmod(bid, 64)
        packages.append([BASE + 7 * high] * 10 + [BASE] * 19 + [BASE + 2 * low, BASE + 63 - low, BASE + 63 - high])
    return packages


def sampled_packages():
    """Those, with 10,000 lots of two categories at the places of the sample, at the same sizes."""
    packages = near()
    apart = BIDS // SAMPLE + 1
    for taken, bid in enumerate(range(0, BIDS, apart)):
        size = sum(packages[bid])
        package = [(size - 20000) // (CATEGORIES - 2)] * CATEGORIES
        first, second = 2 * taken % CATEGORIES, (2 * taken + 1) % CATEGORIES
        package[first] = package[second] = 10000
        package[(first + 2) % CATEGORIES] += size - sum(package)
        packages[bid] = package
    return packages


def low_packages():
    """Bids of which each has less than 200 lots of one category, and the more of the last one."""
    packages = []
    for bid in range(BIDS):
        category, less = divmod(bid, 130)
        package = [200] * (CATEGORIES - 1) + [1000 - 2 * less]
        package[category] = less
        packages.append(package)
    return packages


def auction(packages, forms, amounts=None):
    """An input with these packages as each bidder's form."""
    names = ["Band%d" % (place + 1) for place in range(CATEGORIES)]
    lines = ["%rules", "rules,1,1,,"] + ["category,%s,10000,0,0" % name for name in names]
    lines += ["bidder,Bidder%d,0,1," % (form + 1) for form in range(forms)]
    bids = "\n".join(",".join(map(str, [amount, *package])) for amount, package in zip(amounts or [1000] * BIDS, packages))
    for form in range(forms):
        lines += ["%form", ",".join(["Bidder%d" % (form + 1)] + names), bids]
    return "\n".join(lines) + "\n"


def sampled(forms):
    return auction(sampled_packages(), forms)


def low(forms):
    return auction(low_packages(), forms)


def nets(forms):
    amounts = [1_000_000 + bid for bid in range(BIDS)]
    return auction([[bid + 1] * CATEGORIES for bid in range(BIDS)], forms, amounts[:-1] + [10 ** 12])


def nested(forms):
    return auction([[BIDS - bid] * CATEGORIES for bid in range(BIDS)], forms)
