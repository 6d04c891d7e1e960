"""Finds what each bid lacked that lost in an award: the lowest amount, in the rules' steps, at which
it would have tied or won, all other bids as they are.

DIR is the folder of an auction, with its certified award. For each bid DIR/lost gets an audit,
NAME/BID.txt: the award's input with this one amount in place of the bid's, which `wdp verify`
accepts and in which the bid ties or wins. NAME.txt is for the bidder, and has its own bids alone;
the audits have every bid, and aren't for publication.
Exit status: 0 everything is there; 1 something is refused or missing, and the next run goes on from
there; 2 the options are wrong.
"""
import argparse
from pathlib import Path

from wdp.commands.arguments import make_type, take_folder
from wdp.commands.auction import add_shared_arguments, make_run
from wdp.reporter import TableReporter
from wdp.runs.contents import Goals
from wdp.runs.lost import MOST_SOLVES, LostRun


def add_arguments(parser: argparse.ArgumentParser) -> None:
    """Adds the arguments of the command."""
    parser.add_argument(
        "folder",
        metavar="DIR",
        type=Path,
        help="the folder of an auction, as `auction` leaves it",
    )
    more = f"needed for more than {MOST_SOLVES} solves"
    parser.add_argument(
        "--bidder",
        metavar="NAME",
        help=f"the bids of this bidder alone; this or --bid is {more}",
    )
    parser.add_argument(
        "--bid",
        metavar="J",
        type=make_type("number of a bid", int, lambda number: number >= 1),
        help="the bids of this number in their forms alone",
    )
    add_shared_arguments(parser)


def run(options: argparse.Namespace) -> int:
    """Finds what lost bids lacked; the status."""
    whole = make_run(
        options,
        Goals(),
        folder=take_folder(options.folder, "lost"),
        makes_page=False,
        reporter=TableReporter(command="lost", is_quiet=options.quiet),
    )
    finder = LostRun(whole.folder, whole.means, jobs=whole.jobs)
    return finder.run(options.bidder, options.bid)
