"""The proved winner determination compiler `wdp` for bidders' advisers: auctions from files,
records or data frames.

The package starts the program, and reads its answers as docs/REFERENCE.md has them. It proves
nothing itself. Amounts, totals and costs are whole pounds. docs/PYTHON.md leads through an
adviser's day, and `wdp.example` has an auction. The command wdp-office has an auction's office
round it.
"""
from wdp.api import Auction
from wdp.comparison import Change, Comparison, Standing
from wdp.lost.bids import Fate, LostBid, LostBids
from wdp.office.findings import Explained, Finding
from wdp.outcome import Outcome
from wdp.results import (
    Allocation,
    Counts,
    Group,
    Matrix,
    Prices,
    Program,
    Report,
    Solutions,
    Winner,
)
from wdp.texts.records import Forms, Groups, Rules, Solution, Text
from wdp.texts.refusals import Missing, NotFound, NotSolved, Refused, Unclear, WrongArgument
from wdp.version import VERSION

__version__ = VERSION
__all__ = [
    "Allocation",
    "Auction",
    "Change",
    "Comparison",
    "Counts",
    "Explained",
    "Fate",
    "Finding",
    "Forms",
    "Group",
    "Groups",
    "LostBid",
    "LostBids",
    "Matrix",
    "Missing",
    "NotFound",
    "NotSolved",
    "Outcome",
    "Prices",
    "Program",
    "Refused",
    "Report",
    "Rules",
    "Solution",
    "Solutions",
    "Standing",
    "Text",
    "Unclear",
    "Winner",
    "WrongArgument",
]
# (a traceback names them as they are imported)
for _refusal in (Missing, NotFound, NotSolved, Refused, Unclear, WrongArgument):
    _refusal.__module__ = __name__
