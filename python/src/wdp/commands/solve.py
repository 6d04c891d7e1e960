"""Solves a 0-1 program by a solver, and prints the solution: a line `NAME 1` for each column at 1.

The program is a text in free MPS. The solver is cbc, HiGHS, or any other one by its command. Its
solution is compared with the program, exactly; that no other one is better is the solver's word,
and certify proves it.
Exit status: 0 the solution is printed; 1 a text is refused, or the solver fails; 2 the options are
wrong; 3 there is no solution; 4 the time is over; 5 the solver was killed.
"""
import argparse
from pathlib import Path

from wdp import files
from wdp.commands.arguments import add_replace, add_solver_options, read_mps
from wdp.solve import find_point, find_solver


def add_arguments(parser: argparse.ArgumentParser) -> None:
    """Adds the arguments of the command."""
    add_solver_options(parser)
    parser.add_argument(
        "--log",
        type=Path,
        metavar="FILE",
        help="what the solver prints goes there while it runs",
    )
    add_replace(parser)
    parser.add_argument(
        "file",
        nargs="?",
        default="-",
        metavar="FILE",
        help="the MPS text; by default standard input",
    )


def run(options: argparse.Namespace) -> None:
    """Finds a solution, and prints it."""
    log = options.log and options.log.absolute()
    files.check_free(log and str(log), replaces=options.replaces)
    text = read_mps(options.file, options.program)
    solver = find_solver(options.solver)
    files.put(find_point(text, solver, seconds=options.time_limit, log=log))
