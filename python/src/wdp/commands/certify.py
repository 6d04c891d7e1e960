"""Certifies that a solution of a 0-1 program is optimal, or with --unique the only optimal one.

The program is a text in free MPS. Whole numbers decide. If the solution isn't optimal the search
goes on to an optimal one, which goes to --solution-output, and certifies that. Without SOLUTION and
--solution-output, the output has both, as the parts %solution and %certificate of an audit.
Exit status: 0 the certificate is written; 1 a text is refused, or a package is missing; 2 the
options are wrong; 3 the solution isn't optimal, and --solution-output isn't given; 4 the time is
over; 5 with --unique: a tie, another point is as good.
"""
import argparse
from functools import partial

from wdp import certify, files
from wdp.commands.arguments import add_replace, parse_seconds, read_mps
from wdp.progress import Say
from wdp.solve import MOST_OF_ANSWER, find_empty_solution

_NOT_OPTIMAL = 3
_TIED = 5


def add_arguments(parser: argparse.ArgumentParser) -> None:
    """Adds the arguments of the command."""
    parser.add_argument("mps", metavar="PROGRAM.mps", help="the program; `-` is standard input")
    parser.add_argument(
        "solution",
        metavar="SOLUTION",
        nargs="?",
        help="a solution of it; by default the search begins from nothing",
    )
    parser.add_argument(
        "--unique",
        action="store_true",
        help="certify that each other point has a higher objective",
    )
    parser.add_argument(
        "--time-limit",
        type=parse_seconds,
        metavar="SECONDS",
        help="for the search; by default none",
    )
    parser.add_argument(
        "--output", metavar="FILE", help="the certificate; by default standard output"
    )
    better = "with --unique another one that is as good or better"
    parser.add_argument(
        "--solution-output",
        metavar="FILE",
        help=f"the optimal solution that is certified; {better}",
    )
    add_replace(parser)


def run(options: argparse.Namespace) -> int:
    """Certifies a solution as optimal, or with --unique as the only optimal one; the status."""
    say = partial(files.say, "certify")
    for path in (options.output, options.solution_output):
        files.check_free(path, replaces=options.replaces)
    program = read_mps(options.mps, options.program)
    if options.solution:
        solution = files.read(options.solution, MOST_OF_ANSWER)
    else:
        solution = find_empty_solution(program)
    if options.unique:
        return _certify_unique(options, program, solution, say=say)
    return _certify_optimal(options, program, solution, say=say)


def _certify_optimal(
    options: argparse.Namespace, program: bytes, solution: bytes, *, say: Say
) -> int:
    """Writes the certificate that a solution is optimal, or a better one with its certificate."""
    optimum = certify.find_optimum(program, solution, seconds=options.time_limit, say=say)
    if not options.solution and not options.solution_output:
        parts = {"solution": optimum.solution, "certificate": optimum.certificate}
        text = b"".join(b"%%%b\n%b" % (kind.encode(), text) for kind, text in parts.items())
        files.put(text, options.output)
        return 0
    if optimum.gain:
        say(f"the solution isn't optimal: its objective is {optimum.gain} above the least")
        if not options.solution_output:
            say("--solution-output takes the better one, and the certificate is then for that")
            return _NOT_OPTIMAL
    if options.solution_output:
        files.put(optimum.solution, options.solution_output)
    files.put(optimum.certificate, options.output)
    return 0


def _certify_unique(
    options: argparse.Namespace, program: bytes, solution: bytes, *, say: Say
) -> int:
    """Writes the certificate that there is no other point as good, or the other point."""
    unique = certify.check_unique(program, solution, seconds=options.time_limit, say=say)
    if unique.certificate is not None:
        files.put(unique.certificate, options.output)
        return 0
    if not unique.gain or options.solution_output:
        files.put(unique.other, options.solution_output)
    if not unique.gain:
        say("a tie: another point is as good")
        return _TIED
    below = f"another point's objective is {unique.gain} below its own"
    say(f"the solution isn't optimal: {below}")
    return _NOT_OPTIMAL
