"""HiGHS, as scipy has it, in a process of its own: its threads don't outlive a fork, and nothing
else ends them.

usage: python3 highs.py PROGRAM.mps SOLUTION [SECONDS]

Writes the best point that is found. The status is that of `wdp-office solve`, and the last line on
standard error says why there is no point.
"""
import os
import sys

if not __package__:
    sys.path[0] = os.path.dirname(os.path.dirname(os.path.realpath(__file__)))

from wdp import files  # noqa: E402
from wdp.results import Matrix  # noqa: E402
from wdp.solve import MOST_OF_PROGRAM, NO_POINT, TIME_OUT  # noqa: E402
from wdp.texts.refusals import NotSolved  # noqa: E402
from wdp.texts.zero_one import AT_LEAST, AT_MOST, ZeroOne  # noqa: E402
from wdp.texts.zero_one import read_program, format_solution  # noqa: E402


def solve(program: ZeroOne, seconds: float) -> set[int]:
    """The places of the columns at 1 of the best point that is found in so many seconds.

    NotSolved if there is none.
    """
    import numpy as np
    from scipy.optimize import Bounds, LinearConstraint, milp

    matrix = Matrix.of(program)
    senses = np.array(matrix.senses)
    right_sides = np.array(matrix.right_sides, float)
    rows = []
    if len(right_sides):
        low = np.where(senses == AT_MOST, -np.inf, right_sides)
        high = np.where(senses == AT_LEAST, np.inf, right_sides)
        rows.append(LinearConstraint(matrix.entries.astype(float), lb=low, ub=high))
    result = milp(
        [0.0 if column.is_fixed else float(column.cost) for column in program.columns],
        integrality=np.ones(len(matrix.columns)),
        bounds=Bounds(matrix.lower, matrix.upper),
        constraints=rows,
        options={"mip_rel_gap": 0.0, "time_limit": seconds},
    )
    if result.x is None:
        status = TIME_OUT if result.status == 1 else NO_POINT
        raise NotSolved(f"HiGHS has no solution: {result.message}", status)
    return {place for place, value in enumerate(result.x) if value > 0.5}


def main(arguments: list[str]) -> int:
    """Solves the program of a file, and writes its solution into another one; the status."""
    program_path, solution_path, *limit = arguments
    program = read_program(files.read(program_path, MOST_OF_PROGRAM))
    try:
        ones = solve(program, float(limit[0] if limit else "inf"))
    except NotSolved as failed:
        files.tell(f"{failed.text}\n")
        return failed.status
    files.write_all({solution_path: format_solution(ones, program)})
    return 0


if __name__ == "__main__":
    sys.exit(main(sys.argv[1:]))
