"""Finds what the winners pay, by the rule of clock auctions: of all prices that cover every group
of bidders and meet the reserves those of least sum, and of these the nearest, by the sum of
squares, to what each winner would pay alone, the greater of its opportunity cost and its reserve.
Each price is then rounded up to whole pounds.

A group is covered if its winners pay at least its opportunity cost. Every allocation shows what the
winners whom it leaves out cost at least. Some allocations give prices; then the program that is
raised by the winners' surplus has a better point, which is a further allocation, or a certificate
shows that it has none, and the prices cover every group. `wdp verify` is the judge of what comes of
it.
"""
import argparse
from functools import partial
from pathlib import Path

from wdp import audits, files
from wdp.commands.auction import add_shared_arguments, make_run
from wdp.reporter import TableReporter
from wdp.runs.contents import Goals
from wdp.runs.places import run_in_folder, run_without_folder, take_audit
from wdp.runs.reports import AUDIT
from wdp.texts.refusals import Refused, WrongArgument


def add_arguments(parser: argparse.ArgumentParser) -> None:
    """Adds the arguments of the command."""
    parser.add_argument(
        "award",
        metavar="AWARD",
        type=Path,
        help="the folder of an auction, or an audit, as `auction` and `results` leave it",
    )
    parser.add_argument(
        "--output", metavar="FILE", help="of an audit: the audit with prices goes there"
    )
    add_shared_arguments(parser)


def run(options: argparse.Namespace) -> int:
    """Finds the prices of an award that is there; the status."""
    is_folder = options.award.is_dir()
    whole = make_run(
        options,
        Goals(),
        folder=options.award if is_folder else None,
        reporter=TableReporter(command="prices", is_quiet=options.quiet),
    )
    if is_folder:
        if options.output:
            raise WrongArgument("--output goes with an audit; a folder keeps its own")
        return run_in_folder(whole)
    files.check_free(options.output, replaces=options.replaces)
    audit = files.read(str(options.award), audits.MOST_OF_AUDIT)
    if not audits.is_audit(audit):
        raise Refused(f"{options.award}: it has no certificates, so it is no audit")
    name = AUDIT if options.output else None
    take = partial(take_audit, whole, audit)
    return run_without_folder(whole, take, name=name, path=options.output)
