"""What is believed of a lost bid that was kept: what the input says of it, and what `wdp verify`
says of the audit that lies there.
"""
from __future__ import annotations

from collections.abc import Mapping
from dataclasses import dataclass, field

from wdp.lost.bids import MOST_OF_AMOUNT, BidKey, Fate, LostBid, list_reasons
from wdp.lost.inputs import change_amount, keep_first_group, read_amount
from wdp.office.explaining import explain
from wdp.publish.judging import judge
from wdp.results import Report
from wdp.texts import accepted
from wdp.texts.accepted import Accepted
from wdp.texts.parts import parse_parts
from wdp.texts.refusals import NotFound, Refused, Unclear
from wdp.texts.tables import compute_digest

_KINDS_OF_PROOFS = {"solution", "certificate", "tie"}


class NotShown(Refused):
    """Why nothing is known of what a lost bid lacked."""


@dataclass(frozen=True)
class LostBidJudge:
    """Reads what bids lacked from audits, for an award of an input, which has the empty group
    alone: the program, the award's total and its bids, and why bids are in no program. What is said
    of an audit is kept by its SHA-256.
    """

    program: str
    data: bytes
    auction: Accepted
    total: int
    winners: frozenset[BidKey]
    reasons: Mapping[BidKey, str]
    _reports: dict[str, Report] = field(default_factory=dict)

    @classmethod
    def read(cls, program: str, data: bytes, report: Report) -> LostBidJudge:
        """The judge for the award of an input, as a report that is certified has it."""
        alone = keep_first_group(data)
        winners = report.groups[0].winners
        return cls(
            program,
            data=alone,
            auction=accepted.read(alone, "the input"),
            total=report.groups[0].total,
            winners=frozenset(BidKey(winner.bidder, winner.bid) for winner in winners),
            reasons=list_reasons(explain(program, alone, with_bids=True).bids),
        )

    def judge(self, key: BidKey, audit: bytes | None, below: bytes | None) -> LostBid:
        """What a bid lacked, by the audit that shows it, and the one a step below, if it wins in
        the first one; NotShown if they don't show that.
        """
        bids = self.auction.bids.get(key.bidder, ())
        if not 1 <= key.number <= len(bids) or key in self.winners:
            raise NotShown("there is no such lost bid")
        bid = bids[key.number - 1]
        rules = self.auction.rules
        if not rules.fits(bid.lots):
            return self._make(key, Fate.UNFIT)
        if audit is None:
            raise NotShown("its audit isn't there")
        shown = read_amount(audit, key)
        if shown is None:
            raise NotShown("its audit has no such bid")
        lacking = self._find_lacking(key, audit, shown)
        if lacking is None:
            if shown != MOST_OF_AMOUNT // rules.step * rules.step:
                raise NotShown("its audit shows no amount that is enough")
            return self._make(key, Fate.BEYOND, shown=shown)
        needed = -(-lacking // rules.step) * rules.step
        if shown > lacking:
            self._check_below(key, below, shown - rules.step)
        if needed > lacking:
            return self._make(key, Fate.WINS, needed=needed, shown=shown)
        fate = Fate.TIED if needed == bid.amount else Fate.TIES
        return self._make(key, fate, needed=needed, shown=shown)

    def _make(
        self, key: BidKey, fate: Fate, *, needed: int | None = None, shown: int | None = None
    ) -> LostBid:
        """A lost bid, as the input has it."""
        bid = self.auction.bids[key.bidder][key.number - 1]
        pairs = zip(self.auction.rules.categories, bid.lots, strict=True)
        return LostBid(
            bidder=key.bidder,
            bid=key.number,
            amount=bid.amount,
            lots={category.name: count for category, count in pairs if count},
            needed=needed,
            fate=fate,
            reason=self.reasons.get(key),
            shown=shown,
        )

    def _find_lacking(self, key: BidKey, audit: bytes, shown: int) -> int | None:
        """The amount at which a bid ties, by an audit in which it has the amount `shown`: so much
        less as the total there is above the award's. None if it neither ties nor wins there.
        """
        report = self._verify(key, audit, shown)
        won = [(each.bidder, each.bid) for award in report.awards for each in award.winners]
        gain = report.groups[0].total - self.total
        if key in won and gain >= 0:
            return shown - gain
        if gain:
            raise NotShown("its audit has another total than the award")
        return None

    def _check_below(self, key: BidKey, below: bytes | None, shown: int) -> None:
        """Raises NotShown if the audit a step below doesn't have the total of the award."""
        if below is None:
            raise NotShown("its audit of one step less isn't there")
        if self._verify(key, below, shown).groups[0].total != self.total:
            raise NotShown("its audit of one step less has another total than the award")

    def _verify(self, key: BidKey, audit: bytes, shown: int) -> Report:
        """What `wdp verify` says of an audit, whose input has to be the award's with this amount in
        place of a bid's.
        """
        data = change_amount(self.data, key, shown)
        kinds = {part.kind for part in parse_parts(audit.removesuffix(data))}
        if not audit.endswith(b"\n" + data) or kinds - _KINDS_OF_PROOFS:
            raise NotShown("its audit isn't of the award's input with another amount")
        digest = compute_digest(audit)
        if digest not in self._reports:
            try:
                self._reports[digest] = judge(self.program, "verify", audit).report
            except (NotFound, Unclear):
                raise
            except Refused as refused:
                raise NotShown(f"wdp verify refuses its audit: {refused.text}") from None
        return self._reports[digest]
