"""What a lost bid lacked, by one solve: of the problem that is left to the others if the bid wins.

If the bid wins with an amount, the greatest total is that amount and what the others reach then. It
ties or wins if that is at least the award's total, whatever else its bidder bids. `wdp verify` is
the judge of what comes of it.
"""
from dataclasses import dataclass

from wdp import solve
from wdp.certify.outcomes import Optimum
from wdp.certify.problem import Problem
from wdp.certify.settling import settle
from wdp.lost.award import ProvedAward
from wdp.lost.bids import MOST_OF_AMOUNT, BidKey, Fate, LostBid
from wdp.lost.lowering import lower, measure_taken
from wdp.lost.showing import Others, Shower
from wdp.runs.means import Means
from wdp.texts.refusals import NotSolved

_FEW_COLUMNS = 40  # of a problem of which no solver is asked


@dataclass(frozen=True)
class _Shown:
    """What was found, and the audits that show it."""

    fate: Fate
    needed: int | None = None
    shown: int | None = None
    audit: bytes | None = None
    audit_below: bytes | None = None


@dataclass(frozen=True)
class LostBidSearch:
    """Finds what lost bids of an award lacked."""

    award: ProvedAward
    means: Means

    def find(self, key: BidKey) -> LostBid:
        """What a bid lacked, and an audit that shows it.

        Raises NotSolved if a solver fails, LimitReached if the certificate's search ends at its
        limit, and Refused if `wdp verify` refuses what was found.
        """
        bid = self.award.get_bid(key)
        shown = self._show(key) if self.award.fits(key) else _Shown(Fate.UNFIT)
        categories = self.award.auction.rules.categories
        pairs = zip(categories, bid.lots, strict=True)
        return LostBid(
            bidder=key.bidder,
            bid=key.number,
            amount=bid.amount,
            lots={category.name: count for category, count in pairs if count},
            needed=shown.needed,
            fate=shown.fate,
            reason=self.award.reasons.get(key),
            shown=shown.shown,
            audit=shown.audit,
            audit_below=shown.audit_below,
        )

    def _show(self, key: BidKey) -> _Shown:
        """What a bid lacked that fits."""
        others = self._find_others(key)
        shower = Shower(self.award, self.means, key=key, others=others)
        step = self.award.auction.rules.step
        lacking = self.award.total - others.total
        needed = -(-lacking // step) * step
        if needed > MOST_OF_AMOUNT:
            most = shower.try_amount(MOST_OF_AMOUNT // step * step)
            return _Shown(Fate.BEYOND, shown=most.amount, audit=shower.show_loss(most))
        if needed > lacking:
            return _show_win(shower, Fate.WINS, needed=needed, shown=needed, step=step)
        fate = Fate.TIED if needed == self.award.get_bid(key).amount else Fate.TIES
        trial = shower.try_amount(needed)
        if trial.has_column:
            audit = shower.show_tie(trial)
            return _Shown(fate, needed=needed, shown=needed, audit=audit)
        # (a smaller bid of the form brings as much; one step above that the bid wins)
        if needed + step <= MOST_OF_AMOUNT:
            return _show_win(shower, fate, needed=needed, shown=needed + step, step=step)
        return _Shown(fate, needed=needed)

    def _find_others(self, key: BidKey) -> Others:
        """What the others reach if the bid wins."""
        award = self.award
        bid = award.get_bid(key)
        with self.means.at_once():
            taken = measure_taken(award.auction.rules, bid)
            lowered = lower(award.problem, award.get_bidder_number(key), taken)
        optimum = self._settle(lowered.problem)
        # (the program's constant counts the value of all lots, also of those that the bid wins)
        objective = lowered.problem.compute_objective(optimum.solution)
        return Others(lowered, optimum, total=-objective - award.compute_value(bid))

    def _settle(self, problem: Problem) -> Optimum:
        """An optimal solution of a problem, and its certificate."""
        if problem.layout.is_open.sum() <= _FEW_COLUMNS:
            with self.means.at_once():
                solution = problem.make_empty_solution()
                return problem.find_optimum(solution, seconds=self.means.seconds)

        def ask(turn: int, text: bytes | None) -> bytes | None:
            program = problem.format() if text is None else text
            if self.means.solver is None:
                return None
            try:
                return solve.find_point(program, self.means.solver, seconds=self.means.seconds)
            except NotSolved as failed:
                if failed.status != solve.TIME_OUT:
                    raise
                return None

        return settle(problem, ask, seconds=self.means.seconds, at_once=self.means.at_once)


def _show_win(shower: Shower, fate: Fate, *, needed: int, shown: int, step: int) -> _Shown:
    """A bid that wins with the amount `shown`, and not with one step less."""
    return _Shown(
        fate,
        needed=needed,
        shown=shown,
        audit=shower.show_win(shower.try_amount(shown)),
        audit_below=shower.show_loss(shower.try_amount(shown - step)),
    )
