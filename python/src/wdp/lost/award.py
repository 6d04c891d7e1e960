"""An award that is proved, and the bids that it doesn't have."""
from __future__ import annotations

import re
from dataclasses import dataclass
from functools import cached_property

from wdp import certify
from wdp.certify.problem import Problem
from wdp.folder import INPUT
from wdp.lost.bids import BidKey, list_reasons
from wdp.lost.inputs import keep_first_group
from wdp.office.faults import suggest_name
from wdp.office.explaining import explain
from wdp.runs.contents import FIRST_GROUP, Contents, Goals, name_file
from wdp.runs.means import Means
from wdp.runs.programs import Compiler
from wdp.runs.stores import MemoryStore
from wdp.texts import accepted
from wdp.texts.accepted import Accepted, Bid
from wdp.texts.refusals import WrongArgument

_COLUMN = re.compile(r"X([0-9]+)_([0-9]+)")


@dataclass(frozen=True, eq=False)
class ProvedAward:
    """An award that is proved: the input with the empty group alone, its auction, its program, the
    columns at 1, the certificate, and why bids are in no program.
    """

    data: bytes
    auction: Accepted
    problem: Problem
    ones: frozenset[int]
    certificate: bytes
    reasons: dict[BidKey, str]

    @classmethod
    def read(
        cls,
        data: bytes,
        *,
        solution: bytes,
        certificate: bytes,
        means: Means,
        known_rows: str = "",
    ) -> ProvedAward:
        """The award of an input, by the solution and the certificate of the empty group.
        `known_rows` are multipliers of rows that its search found to be of use.
        """
        alone = keep_first_group(data)
        problem = certify.read_problem(compile_first(alone, means))
        problem.known_rows = known_rows
        return cls(
            data=alone,
            auction=accepted.read(alone, "the input"),
            problem=problem,
            ones=frozenset(problem.read_ones(solution)),
            certificate=certificate,
            reasons=list_reasons(explain(means.program, alone, with_bids=True).bids),
        )

    @cached_property
    def columns(self) -> list[str]:
        """The names of the columns at 1, in their order."""
        return [self.problem.program.columns[place].name for place in sorted(self.ones)]

    @cached_property
    def winners(self) -> set[BidKey]:
        """The bids of the award."""
        matches = map(_COLUMN.fullmatch, self.columns)
        return {
            BidKey(self.auction.rules.bidders[int(match[1]) - 1], int(match[2]))
            for match in matches
            if match
        }

    @cached_property
    def total(self) -> int:
        """The award's total in pounds."""
        return -self.problem.program.compute_objective(self.ones)

    def list_lost(self, bidder: str | None = None, number: int | None = None) -> list[BidKey]:
        """The bids that aren't in the award, in the order of the rules and forms; or of them those
        of this bidder, and those of this number. Raises WrongArgument if there is none, and says
        why.
        """
        if bidder is not None and bidder not in self.auction.rules.bidders:
            near = suggest_name(bidder, self.auction.rules.bidders)
            raise WrongArgument(f"there is no bidder {bidder}{near}")
        wanted = [
            BidKey(name, place)
            for name, bids in self.auction.bids.items()
            for place in range(1, len(bids) + 1)
            if bidder in (None, name) and number in (None, place)
        ]
        lost = [key for key in wanted if key not in self.winners]
        if not lost and (bidder is not None or number is not None):
            raise WrongArgument(_describe_none(wanted, bidder, number))
        return lost

    def get_bid(self, key: BidKey) -> Bid:
        """A bid of the input."""
        return self.auction.bids[key.bidder][key.number - 1]

    def get_bidder_number(self, key: BidKey) -> int:
        """The number in the rules of the bidder of a bid."""
        return self.auction.rules.bidders.index(key.bidder) + 1

    def fits(self, key: BidKey) -> bool:
        """Whether there are as many lots as a bid asks for, and room for them in each pool."""
        return self.auction.rules.fits(self.get_bid(key).lots)

    def compute_value(self, bid: Bid) -> int:
        """What the lots of a bid are worth unsold."""
        pairs = zip(bid.lots, self.auction.rules.categories, strict=True)
        return sum(count * category.value for count, category in pairs)


def _describe_none(wanted: list[BidKey], bidder: str | None, number: int | None) -> str:
    """Why no bid is a lost one of those that are asked for."""
    if not wanted:
        which = "a bid" if number is None else f"bid {number}"
        return f"there is no form with {which} of {bidder}" if bidder else f"there is no {which}"
    if number is None:
        return f"{bidder} has no other bid than the one that won"
    return f"bid {number} of {bidder} won" if bidder else f"each bid {number} won"


def compile_first(data: bytes, means: Means) -> bytes:
    """The program of an input's first group."""
    contents = Contents(MemoryStore({INPUT: data}), Goals())
    Compiler(contents, means).compile()
    return contents.store.read(name_file("program", FIRST_GROUP))
