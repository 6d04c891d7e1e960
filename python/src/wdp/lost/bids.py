"""The bids that an award doesn't have, and what each of them lacked."""
from collections.abc import Iterable, Mapping, Sequence
from dataclasses import dataclass, field
from enum import Enum
from typing import NamedTuple

from wdp.frames import Columns, Tabular, make_columns
from wdp.office.findings import LeftOutBid

MOST_OF_AMOUNT = 10**12  # pounds, the greatest amount that an input takes


class BidKey(NamedTuple):
    """A bid: the bidder's name, and the bid's number in the bidder's form from 1."""

    bidder: str
    number: int


def list_reasons(left_out: Iterable[LeftOutBid]) -> dict[BidKey, str]:
    """Why bids are in no program, of those of the forms that count."""
    return {BidKey(each.bidder, each.bid): each.words for each in left_out if each.bid is not None}


class Fate(Enum):
    """What would have become of a lost bid at another amount, all other bids as they are."""

    TIES = "would have tied"
    WINS = "would have won"
    TIED = "it tied"
    UNFIT = "doesn't fit: no amount would do"
    BEYOND = "none within the limit"


@dataclass(frozen=True)
class LostBid:
    """A bid that isn't in an award: the bidder's name, the bid's number in the bidder's form from
    1, its amount in whole pounds, and the lots of each category that it is for.

    `needed` is the lowest amount, in the steps of the rules, at which the bid would have tied or
    won, all other bids as they are; None if there is none up to the limit of amounts, 10^12 pounds.
    `fate` says which, and `reason` why the bid as it is in no program, as `wdp explain --bids` has
    it; None if it is in one.

    `audit` is an input that `wdp verify` accepts: that of the award with one other amount, `shown`,
    in place of the bid's, and with the empty group alone. There the bid ties, or it wins; then
    `audit_below` is the same with an amount that is one step lower, and the award's total. If no
    amount up to the limit is enough, `shown` is the greatest one, and the total the award's. Both
    are None if the bid doesn't fit, or if it would be in no program with the amount that it needs,
    and one step more is above the limit.
    """

    bidder: str
    bid: int
    amount: int
    lots: Mapping[str, int] = field(compare=False)
    needed: int | None
    fate: Fate
    reason: str | None = None
    shown: int | None = None
    audit: bytes | None = field(default=None, repr=False, compare=False)
    audit_below: bytes | None = field(default=None, repr=False, compare=False)

    @property
    def lacked(self) -> int | None:
        """How much more was needed, in pounds."""
        return None if self.needed is None else self.needed - self.amount


@dataclass(frozen=True)
class LostBids(Tabular, Sequence[LostBid]):
    """Bids that aren't in an award, in the order of the rules and forms: by their place, or one
    after the other.
    """

    bids: tuple[LostBid, ...]

    def __len__(self) -> int:
        return len(self.bids)

    def __getitem__(self, place: int) -> LostBid:  # type: ignore[override]
        return self.bids[place]

    def _columns(self) -> Columns:
        rows = [
            (each.bidder, each.bid, each.amount, each.needed, each.lacked, each.fate.value)
            for each in self.bids
        ]
        headings = ["bidder", "bid", "amount", "needed", "lacked", "fate"]
        return {
            **make_columns(headings, rows),
            "reason": [each.reason for each in self.bids],
        }
