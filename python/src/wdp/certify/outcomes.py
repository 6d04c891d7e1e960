"""What a search for a certificate comes to."""
from dataclasses import dataclass


@dataclass(frozen=True)
class Optimum:
    """An optimal solution, and the certificate that it is optimal.

    `gain` is by how much its objective is below that of the solution with which the search began.
    `rows` are multipliers of rows that were of use, for searches of programs with fewer bidders.
    """

    solution: bytes
    certificate: bytes
    gain: int
    rows: str = ""


@dataclass(frozen=True)
class Uniqueness:
    """Whether a solution is the only optimal one: the certificate of that, or `other`, a solution
    that is as good, or better if its objective is below by a `gain` above 0.
    """

    certificate: bytes | None
    other: bytes = b""
    gain: int = 0
