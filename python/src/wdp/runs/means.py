"""What steps work with."""
from contextlib import nullcontext
from dataclasses import dataclass, field

from wdp.reporter import Reporter
from wdp.steps import AtOnce


@dataclass(frozen=True)
class Means:
    """What steps work with: the path of the proved program, by how many threads it works, and the
    seconds that each call of it may take; a solver, by its name or command, and the seconds that it
    and each search may take; and who takes messages. Within `at_once` nothing is begun that would
    have to be put away.

    Without a solver each search begins at the answer that is there, or from nothing.
    """

    program: str
    solver: str | None = None
    seconds: float | None = None
    workers: int = 1
    program_seconds: float | None = None
    reporter: Reporter = field(default_factory=Reporter)
    at_once: AtOnce = nullcontext

    @property
    def solver_name(self) -> str:
        """What messages call the solver."""
        return self.solver.split()[0] if self.solver else "no solver"

    def format_limit(self) -> str:
        """The seconds that a search may take."""
        seconds = self.seconds or 0
        return f"{int(seconds) if seconds == int(seconds) else seconds} s"
