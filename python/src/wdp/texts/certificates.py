"""What shows a group's solution, taken over by a group that leaves out more bidders."""
import re
from collections.abc import Collection


def has_bid(solution: bytes, bidders: Collection[int]) -> bool:
    """Whether one of these bidders wins in a solution, by their numbers in the rules."""
    return any(int(number) in bidders for number in re.findall(rb"(?m)^X([0-9]+)_", solution))


def remove_bidders(certificate: bytes, bidders: Collection[int]) -> bytes:
    """A certificate without the columns and rows of these bidders, by their numbers in the rules.

    It shows as much of the program that lacks them: a leaf's value loses terms that are at most 0.
    """
    if not bidders:
        return certificate
    numbers = "|".join(map(str, sorted(bidders)))
    terms = rf" (?:X(?:{numbers})_[0-9]+|B(?:{numbers})) -?[0-9]+"
    return re.sub(terms.encode("ascii"), b"", certificate)
