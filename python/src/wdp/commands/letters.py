"""Writes a letter to each bidder of an auction: the form that counted with its SHA-256 and its bids,
what it won and pays, what its lost bids lacked if `lost` found that, and how to check all of it.

DIR is the folder of an auction with its certified award. DIR/letters gets NAME.html and NAME.txt for
each bidder. A letter has no bid of another bidder.

With --receipts the letters have the forms alone, and go to DIR/receipts. No award is needed for
them: --input begins the folder, as `auction` does.
Exit status: 0 the letters are written; 1 something is refused or missing; 2 the options are wrong.
"""
import argparse
from pathlib import Path

from wdp import files
from wdp.commands.arguments import (
    add_list_is_complete,
    add_replace,
    make_line_type,
    parse_award_number,
    take_folder,
)
from wdp.folder import Folder
from wdp.program import find_program
from wdp.reporter import ConsoleReporter
from wdp.runs.letters import LetterRun
from wdp.runs.reports import Page
from wdp.texts.parts import MOST_OF_INPUT
from wdp.texts.refusals import WrongArgument


def add_arguments(parser: argparse.ArgumentParser) -> None:
    """Adds the arguments of the command."""
    parser.add_argument(
        "folder",
        metavar="DIR",
        type=Path,
        help="the folder of an auction, as `auction` leaves it",
    )
    parser.add_argument(
        "--receipts",
        action="store_true",
        help="write of each form that it counts, without the award",
    )
    parser.add_argument(
        "--input",
        metavar="FILE",
        help="with --receipts: the input, which is copied to DIR/input.txt; `-` is standard input",
    )
    parser.add_argument(
        "--drawn",
        type=parse_award_number,
        metavar="N",
        help="write about this award of those that tie, since it was drawn",
    )
    add_list_is_complete(parser)
    parser.add_argument(
        "--with-audit",
        action="store_true",
        help="the bidders get the audit, which has every bid, too: the letters have the commands "
        "that check it",
    )
    add_replace(parser)
    parser.add_argument("--title", type=make_line_type("title"), help="the letters' heading")
    parser.add_argument(
        "--currency",
        type=make_line_type("currency"),
        metavar="UNIT",
        help="the unit of all amounts, such as GBP",
    )


def run(options: argparse.Namespace) -> None:
    """Writes the letters or receipts."""
    if options.input and not options.receipts:
        raise WrongArgument("--input goes with --receipts")
    if options.drawn and options.receipts:
        raise WrongArgument("--drawn goes with letters about an award, and not with --receipts")
    if options.with_audit and options.receipts:
        raise WrongArgument("--with-audit goes with letters about an award")
    if options.is_complete and not options.drawn:
        raise WrongArgument("--list-is-complete goes with --drawn N")
    writer = LetterRun(
        folder=Folder(take_folder(options.folder, "letters"), replaces=options.replaces),
        program=find_program(options.program),
        reporter=ConsoleReporter(command="letters", is_quiet=False),
        page=Page(options.title, options.currency),
    )
    if options.receipts:
        data = files.read(options.input, MOST_OF_INPUT) if options.input else None
        writer.write_receipts(data)
    else:
        writer.write_letters(
            options.drawn, is_complete=options.is_complete, with_audit=options.with_audit
        )
