"""Checks of arguments that several calls of the package take."""
from numbers import Real

from wdp import solve
from wdp.texts import records
from wdp.texts.refusals import WrongArgument


def check_solver(solver: str | None) -> str:
    """A solver's name or command, by default the usual one's; WrongArgument if it is neither."""
    if solver is not None and not (isinstance(solver, str) and solver and solver.isprintable()):
        raise WrongArgument("a solver is cbc, highs, or a command with {mps} in it, on one line")
    return solve.find_solver(solver)


def check_seconds(time_limit: float | None) -> float | None:
    """A time limit in seconds, or None; WrongArgument if it is no number above 0."""
    if time_limit is None:
        return None
    if isinstance(time_limit, bool) or not isinstance(time_limit, Real) or not 0 < time_limit < 1e8:
        shown = records.show_value(time_limit)
        raise WrongArgument(f"time_limit: {shown} is no number of seconds above 0")
    return float(time_limit)
