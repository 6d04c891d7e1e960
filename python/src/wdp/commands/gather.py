"""Joins an auction's files into one input of wdp, and prints a receipt of what went into it.

The folder has a .csv, .tsv, .txt or .xlsx file for each bidder. A word of its name is the bidder's
name, as in Heron.csv or form-heron-2.xlsx. UTF-16, line ends, semicolons and tabs are converted;
byte order marks, empty rows, and empty fields at the ends of rows are dropped. No value is changed:
a number with a comma or a space in it is a fault. One run prints all faults of all files, and then
writes nothing.

The receipt, on standard error and in the file of --receipt, has each bidder's file with its bids
and SHA-256, and that of its part of the input, which `wdp forms` prints; the rules as they are
understood, the bids that are in no program, and a table of which each bidder's row is to be read to
the bidder.
Exit status: 0 the input is written; 1 something is wrong; 2 the options are wrong.
"""
import argparse
import os
from collections.abc import Callable, Sequence

from wdp.commands.arguments import (
    add_choices,
    add_replace,
    add_rule_of_groups,
    check_rule,
    parse_path,
    read_choices,
)
from wdp.files import check_free, put, tell, write_all, write_folder
from wdp.office.auction_files import AuctionFiles
from wdp.office.faults import format_lines, format_total
from wdp.office.receipt import format_receipt
from wdp.program import find_program
from wdp.progress import Progress, Times, is_at_terminal, say_nothing
from wdp.texts.refusals import Refused, WrongArgument

_RULES_PART = "%rules.csv"


def add_arguments(parser: argparse.ArgumentParser) -> None:
    """Adds the arguments of the command."""
    parser.add_argument("rules", metavar="RULES", help="the file of the rules")
    parser.add_argument("forms", metavar="FORMS_DIR", help="the folder with the bidders' forms")
    parser.add_argument("groups_file", metavar="GROUPS", nargs="?", help="the file of the groups")
    add_rule_of_groups(parser)
    parser.add_argument(
        "--output", metavar="FILE", type=parse_path, help="write the input to this file"
    )
    parser.add_argument(
        "--receipt",
        metavar="FILE",
        type=parse_path,
        help="write the receipt to this file too",
    )
    parser.add_argument(
        "--parts",
        metavar="DIR",
        type=parse_path,
        help="write the rules and each form, as they are in the input, into this folder",
    )
    add_replace(parser)
    add_choices(parser)


def _check_arguments(options: argparse.Namespace) -> None:
    """Raises WrongArgument if the options don't go together, or a file would be written over what
    is read.
    """
    rule = options.groups
    check_rule(rule)
    if options.receipt == "-":
        raise WrongArgument("--receipt -: standard error has the receipt anyway; name a file")
    if bool(rule) == bool(options.groups_file):
        raise WrongArgument("give GROUPS or --groups, one of them")
    paths = (options.rules, options.groups_file, options.expect, *rule[1:])
    read = [os.path.realpath(path) for path in paths if path]
    outputs = (options.output, options.receipt)
    written = {path: os.path.realpath(path) for path in outputs if path}
    for path, real in written.items():
        if real in read or os.path.dirname(real) == os.path.realpath(options.forms):
            why = "is read, or would be a form in the next run; write somewhere else"
            raise WrongArgument(f"{path} {why}")
    if options.output and options.receipt and len(set(written.values())) < 2:
        raise WrongArgument("the input and the receipt need two files")
    if options.parts:
        _check_parts(options.parts, options.forms, [*read, *written.values()])


def _check_parts(parts: str, forms: str, files: Sequence[str]) -> None:
    """Raises WrongArgument if the folder of the parts is one of files that are read or written."""
    folder = os.path.realpath(parts)
    forms_folder = os.path.realpath(forms)
    taken = {forms_folder, *(os.path.dirname(path) for path in files)}
    if parts == "-" or folder in taken or os.path.dirname(folder) == forms_folder:
        why = "has other files, or is read in the next run; name a new folder"
        raise WrongArgument(f"{parts} {why}")


def _make_parts(auction: AuctionFiles) -> dict[str, bytes]:
    """The files of --parts, the rules by a name that no bidder has."""
    forms = {f"{name}.csv": form.text for name, form in auction.forms.items()}
    return {_RULES_PART: auction.rules_file.text, **forms}


def _make_watch() -> Callable[[int, int], None]:
    """Prints at a terminal how many files were read; elsewhere the receipt is all that is printed."""
    progress = Progress(0, left=0, times=Times(), say=say_nothing, thing="file")

    def watch(count: int, most: int) -> None:
        progress.count = progress.left = most
        progress(count, [])

    return watch


def run(options: argparse.Namespace) -> int:
    """Joins the files, and writes what is asked for; the status."""
    if options.output == "-":
        options.output = None
    _check_arguments(options)
    program = find_program(options.program)
    auction = AuctionFiles(program, read_choices(options), watch=_make_watch())
    auction.read_all(options.rules, options.forms, options.groups or [options.groups_file])
    if is_at_terminal():
        tell("\r\x1b[K")
    if auction.faults:
        tell(format_lines(auction.faults))
        why = f"{format_total(auction.faults)}; nothing is written"
        if options.output and os.path.exists(options.output):
            why += f"; {options.output} is what it was before"
        raise Refused(why)
    receipt = format_receipt(auction)
    named = {options.output: auction.text, options.receipt: receipt.encode()}
    texts = {path: text for path, text in named.items() if path}
    for path, text in texts.items():
        check_free(path, text, replaces=options.replaces)
    if options.parts:
        ours = [_RULES_PART, *(f"{name}.csv" for name in auction.rules.bidders)]
        parts = _make_parts(auction)
        write_folder(options.parts, parts, ours=ours, replaces=options.replaces)
    write_all(texts)
    tell(receipt)
    if not options.output:
        put(auction.text)
    return 0
