"""Writes a blank form for each bidder of the rules: the first row, with the bidder's name and the
categories.

Each bid is a row below it: the amount in whole pounds, and how many lots of each category.
Exit status: 0 the forms are written; 1 something is wrong; 2 the options are wrong.
"""
import argparse
import io
import os

from wdp.commands.arguments import parse_path
from wdp.files import tell, write_folder
from wdp.office.auction_files import AuctionFiles
from wdp.office.reading_choices import Choices
from wdp.office.faults import format_count, format_lines
from wdp.program import find_program
from wdp.texts.refusals import Refused, need
from wdp.texts.tables import encode, format_record


def add_arguments(parser: argparse.ArgumentParser) -> None:
    """Adds the arguments of the command."""
    parser.add_argument("rules", metavar="RULES", help="the file of the rules")
    parser.add_argument(
        "--output",
        metavar="DIR",
        type=parse_path,
        required=True,
        help="the folder for the forms, which must be empty or new",
    )
    parser.add_argument("--workbooks", action="store_true", help="write .xlsx in place of CSV")


def _make_workbook(values: list[str]) -> bytes:
    """A workbook with one row."""
    need("--workbooks", "openpyxl")
    import openpyxl

    workbook = openpyxl.Workbook()
    file = io.BytesIO()
    workbook.active.title = "Bids"
    workbook.active.append(values)
    workbook.active.freeze_panes = "A2"
    workbook.save(file)
    return file.getvalue()


def run(options: argparse.Namespace) -> int:
    """Writes the forms; the status."""
    program = find_program(options.program)
    auction = AuctionFiles(program, Choices())
    if not auction.read_rules(options.rules):
        raise Refused(format_lines(auction.faults).rstrip("\n"))
    if os.path.isdir(options.output) and os.listdir(options.output):
        raise Refused(f"{options.output}: it has files; name a new folder")
    categories = [category.name for category in auction.rules.categories]
    rows = {name: [name, *categories] for name in auction.rules.bidders}
    if options.workbooks:
        forms = {f"{name}.xlsx": _make_workbook(row) for name, row in rows.items()}
    else:
        forms = {f"{name}.csv": encode(format_record(row)) for name, row in rows.items()}
    write_folder(options.output, forms)
    tell(format_lines([f"{format_count(len(forms), 'blank form')} in {options.output}"]))
    return 0
