"""Certificates that a solution of a 0-1 program is optimal, or the only optimal one.

The modules below need numpy, scipy and swiglpk; they are read once a certificate is asked for.
"""
from collections.abc import Mapping, Sequence
from typing import TYPE_CHECKING

from wdp.certify.outcomes import Optimum, Uniqueness
from wdp.progress import Say, say_nothing
from wdp.texts.refusals import need_all

__all__ = [
    "NEEDS",
    "Optimum",
    "Uniqueness",
    "check_libraries",
    "check_unique",
    "find_optimum",
    "read_problem",
]

# the modules that a certificate needs
NEEDS: Mapping[str, Sequence[str]] = {"a certificate": ("numpy", "scipy", "swiglpk")}

if TYPE_CHECKING:
    from wdp.certify.problem import Problem


def check_libraries() -> None:
    """Raises Missing without numpy, scipy and swiglpk."""
    need_all(NEEDS)


def read_problem(text: bytes) -> "Problem":
    """A 0-1 program in MPS, read once, to be solved and certified, also with other costs or without
    some bidders.

    Raises Unclear if the text is cut off, and Missing without numpy, scipy and swiglpk.
    """
    check_libraries()
    from wdp.certify.problem import Problem

    return Problem.read(text)


def find_optimum(
    program: bytes,
    solution: bytes,
    *,
    seconds: float | None = None,
    say: Say = say_nothing,
) -> Optimum:
    """An optimal solution of a program in MPS, and the certificate that shows it.

    The search begins at `solution`, and goes on at each better point that it finds. It may take so
    many seconds, and `say` gets a line now and then. Raises Refused if a text isn't what it should
    be, LimitReached if the seconds are over, and Missing without numpy, scipy and swiglpk.
    """
    return read_problem(program).find_optimum(solution, seconds=seconds, say=say)


def check_unique(
    program: bytes,
    solution: bytes,
    *,
    seconds: float | None = None,
    say: Say = say_nothing,
) -> Uniqueness:
    """Whether an optimal solution of a program in MPS is the only one.

    Raises what `find_optimum` does.
    """
    return read_problem(program).check_unique(solution, seconds=seconds, say=say)
