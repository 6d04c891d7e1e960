"""Audits that show what a lost bid lacked: the award's input with another amount in place of the
bid's, and all that `wdp verify` needs.
"""
from dataclasses import dataclass

from wdp import certify
from wdp.certify.outcomes import Optimum
from wdp.lost.award import ProvedAward, compile_first
from wdp.lost.bids import BidKey
from wdp.lost.inputs import change_amount
from wdp.lost.lowering import Lowered
from wdp.lost.proofs import Joiner, TooLargeToJoin
from wdp.publish.judging import judge
from wdp.results import Allocation
from wdp.runs.contents import format_parts
from wdp.runs.means import Means
from wdp.texts.refusals import Refused
from wdp.texts.zero_one import ZeroOne, format_program, read_program


@dataclass(frozen=True)
class Others:
    """What the others reach if the bid wins: the lowered problem, its best solution, and the total
    in pounds, with the values of unsold lots.
    """

    lowered: Lowered
    optimum: Optimum
    total: int


@dataclass(frozen=True)
class Trial:
    """The award's input with another amount in place of the bid's, its program, and whether the bid
    has a column there.
    """

    amount: int
    data: bytes
    program: ZeroOne
    has_column: bool


@dataclass(frozen=True)
class Shower:
    """Makes audits of an award with another amount in place of a lost bid's, each of which `wdp
    verify` has to accept.
    """

    award: ProvedAward
    means: Means
    key: BidKey
    others: Others

    @property
    def _column(self) -> str:
        return f"X{self.award.get_bidder_number(self.key)}_{self.key.number}"

    def try_amount(self, amount: int) -> Trial:
        """The award's input with this amount in place of the bid's."""
        data = change_amount(self.award.data, self.key, amount)
        program = read_program(compile_first(data, self.means))
        return Trial(
            amount=amount,
            data=data,
            program=program,
            has_column=self._column in program.column_places,
        )

    def show_tie(self, trial: Trial) -> bytes:
        """The audit in which the bid ties. If the award itself has a bid that is in no program
        there, the solution in which the lost bid wins comes first.
        """
        solutions = [self._format_award(), self._format_bid()]
        if any(name not in trial.program.column_places for name in self.award.columns):
            solutions.pop(0)
        audit = self._make(trial, solutions)
        if not self._wins_in(audit, trial.amount, self.award.total):
            raise self._refuse(trial.amount)
        return audit

    def show_win(self, trial: Trial) -> bytes:
        """The audit in which the bid wins."""
        audit = self._make(trial, [self._format_bid()])
        if not self._wins_in(audit, trial.amount, self.others.total + trial.amount):
            raise self._refuse(trial.amount)
        return audit

    def show_loss(self, trial: Trial) -> bytes:
        """The audit in which the greatest total is that of the award."""
        audit = self._make(trial, [self._format_award()])
        report = judge(self.means.program, "verify", audit).report
        if report[0].total != self.award.total:
            raise self._refuse(trial.amount)
        return audit

    def _make(self, trial: Trial, solutions: list[bytes]) -> bytes:
        """The audit with these solutions of one total, the first of them the empty group's."""
        certificate = self._certify(trial, solutions[0])
        parts = format_parts("solution", solutions[:1])
        parts += format_parts("certificate", [certificate])
        parts += format_parts("tie", solutions[1:])
        return parts + trial.data

    def _certify(self, trial: Trial, solution: bytes) -> bytes:
        """The certificate of the program of a trial, whose optimal solution is this one."""
        if not trial.has_column:
            return self.award.certificate  # (the program is that of the award)
        row = f"B{self.award.get_bidder_number(self.key)}"
        joiner = Joiner(trial.program, column=self._column, bidder_row=row)
        lowered = self.others.lowered
        try:
            return joiner.join(
                self.award.certificate, self.others.optimum.certificate, lowered.unfit
            )
        except TooLargeToJoin:
            problem = certify.read_problem(format_program(trial.program))
            return problem.find_optimum(solution, seconds=self.means.seconds).certificate

    def _format_award(self) -> bytes:
        """The award's solution."""
        return _format_ones(self.award.columns)

    def _format_bid(self) -> bytes:
        """The solution in which the bid wins, and of the others who is best then."""
        lowered = self.others.lowered.problem
        ones = lowered.read_ones(self.others.optimum.solution)
        names = [lowered.program.columns[place].name for place in sorted(ones)]
        return _format_ones([self._column, *names])

    def _wins_in(self, audit: bytes, amount: int, total: int) -> bool:
        """Whether `wdp verify` says that the bid wins or ties with this amount and total."""
        report = judge(self.means.program, "verify", audit).report
        awards = [award for award in report.awards if self._has_bid(award, amount)]
        return bool(awards) and report[0].total == total

    def _has_bid(self, award: Allocation, amount: int) -> bool:
        wanted = (self.key.bidder, self.key.number, amount)
        return wanted in [(each.bidder, each.bid, each.amount) for each in award.winners]

    def _refuse(self, amount: int) -> Refused:
        which = f"bid {self.key.number} of {self.key.bidder}"
        return Refused(f"{which}: with {amount:,} wdp verify says something else than was found")


def _format_ones(names: list[str]) -> bytes:
    """A solution in which the columns of these names are 1."""
    return "".join(f"{name} 1\n" for name in names).encode("ascii")
