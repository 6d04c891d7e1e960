"""Which bids of an auction are in no program: by comparing all bids, apart from the program. (python/tests/tied_auctions.py has auctions.)"""

from tied_auctions import BIDDERS, CATEGORIES, weighed


def net(auction, bid):
    return bid.amount - weighed(auction.values, bid.package)


def does_dominate(auction, other, bid):
    pairs = list(zip(other.package, bid.package))
    is_smaller = other.package != bid.package and all(its <= mine for its, mine in pairs)
    return is_smaller and net(auction, other) >= net(auction, bid)


def why(auction, form, bid):
    """Why a bid of a form is in no program; nothing where it is in one."""
    for name, quantity, supply in zip(CATEGORIES, bid.package, auction.supply):
        if quantity > supply:
            return f"asks for {quantity} of {name}, of which there are {supply}"
    for number, pool in enumerate(auction.pools, 1):
        load = weighed(pool.weights, bid.package)
        if load > pool.cap:
            return f"loads pool Pool{number} with {load}, above its cap of {pool.cap}"
    if net(auction, bid) < 0:
        return f"brings {-net(auction, bid)} less than its lots are worth unsold"
    numbers = (n for n, other in enumerate(form, 1) if does_dominate(auction, other, bid))
    return next((f"is dominated by bid {number}" for number in numbers), "")


def lines(auction):
    """By the bidders' numbers a line for each bid that is in no program."""
    for name, form in zip(BIDDERS, auction.forms):
        reasons = ((number, why(auction, form, bid)) for number, bid in enumerate(form, 1))
        yield from (f"{name}: bid {number} {reason}\n" for number, reason in reasons if reason)
