"""Prints everything that is wrong with an auction's input, in words, with file, line and column.

INPUT is one input as wdp reads it, or `-` for standard input; each fault then ends with the line by
which wdp refuses it.
RULES FORMS_DIR [GROUPS] are the files that gather joins, with the same options; what gather would
write isn't written. RULES FORM is one form alone, as a bidder checks it. If nothing is wrong, --bids
prints which bids of each form can't be in any program, and why.

Exit status: 0 nothing is wrong; 1 something is; 2 the options are wrong.
"""
import argparse
import os
from collections.abc import Sequence
from dataclasses import dataclass

from wdp.commands.arguments import add_choices, add_rule_of_groups, check_rule, read_choices
from wdp.files import Unreadable, put, read
from wdp.office.auction_files import AuctionFiles
from wdp.office.faults import Fault, format_count, format_lines, format_total
from wdp.office.findings import LeftOutBid
from wdp.office.explaining import explain
from wdp.office.located_faults import make_faults_of_input
from wdp.program import find_program
from wdp.texts import accepted
from wdp.texts.parts import MOST_OF_INPUT
from wdp.texts.refusals import WrongArgument

_FILES = "RULES FORMS_DIR|FORM [GROUPS]"
_THEN = "the forms and groups are read once the parts and the rules are right"


def add_arguments(parser: argparse.ArgumentParser) -> None:
    """Adds the arguments of the command."""
    parser.add_argument("paths", metavar=f"INPUT | {_FILES}", nargs="+")
    parser.add_argument("--bids", action="store_true", help="print which bids are in no program")
    add_rule_of_groups(parser)
    for option, metavar in (("--output", "FILE"), ("--receipt", "FILE"), ("--parts", "DIR")):
        about = "taken as gather takes it; nothing is written"
        parser.add_argument(option, metavar=metavar, dest="unwritten", help=about)
    add_choices(parser)


@dataclass(frozen=True)
class _Explanation:
    """The faults, whether the rules are right, and a line for each form and bid if nothing is
    wrong.
    """

    faults: list[Fault]
    has_rules: bool
    lines: list[str]


def _format_left_out(counts: dict[str, int], left_out: Sequence[LeftOutBid]) -> list[str]:
    """A line for each form, with its number of bids, and for each form that is replaced and bid
    that is in no program.
    """
    lines: list[str] = []
    for name, count in counts.items():
        of_bidder = [bid for bid in left_out if bid.bidder == name]
        kept = count - sum(bid.form is None for bid in of_bidder)
        lines.append(f"{name}: {format_count(count, 'bid')}, {kept} kept")
        lines += [f"{name}: {bid.why}" for bid in of_bidder]
    return lines


def _explain_input(options: argparse.Namespace, program: str) -> _Explanation:
    """What is wrong with one input."""
    path = options.paths[0]
    source = "input" if path == "-" else path
    try:
        data = read(path, MOST_OF_INPUT)
    except Unreadable as error:
        if "more than" not in error.why:
            raise
        fault = Fault(source, error.why, refusal="input: too large")
        return _Explanation([fault], has_rules=False, lines=[])
    explained = explain(program, data, with_bids=options.bids)
    faults = make_faults_of_input(explained, data, source)
    if faults:
        has_rules = explained.findings[0].part in ("form", "groups")
        return _Explanation(faults, has_rules=has_rules, lines=[])
    lines: list[str] = []
    if options.bids:
        auction = accepted.read(data, source)
        counts = {name: len(bids) for name, bids in auction.bids.items()}
        lines = _format_left_out(counts, explained.bids)
    return _Explanation([], has_rules=True, lines=lines)


def _explain_files(options: argparse.Namespace, program: str) -> _Explanation:
    """What is wrong with an auction's files."""
    rules, folder, *groups = options.paths
    files = AuctionFiles(program, read_choices(options))
    is_one_form = os.path.isfile(folder)
    files.read_all(rules, folder, options.groups or groups, is_one_form=is_one_form)
    counts = {name: form.bids or 0 for name, form in files.forms.items()}
    return _Explanation(
        faults=files.faults,
        has_rules=bool(files.rules.bidders),
        lines=_format_left_out(counts, files.left_out),
    )


def _format_fault(fault: Fault, *, with_refusal: bool) -> str:
    """The line of a fault, which ends with the program's own line if that is wanted."""
    if with_refusal and fault.refusal:
        return f"{fault} (wdp: {fault.refusal})"
    return str(fault)


def run(options: argparse.Namespace) -> int:
    """Prints what is wrong; the status."""
    is_one_input = len(options.paths) == 1
    if len(options.paths) > 3:
        raise WrongArgument(f"give INPUT, or {_FILES}")
    check_rule(options.groups)
    if options.groups and len(options.paths) == 3:
        raise WrongArgument("give GROUPS or --groups, one of them")
    if is_one_input and (options.groups or read_choices(options).has_any()):
        raise WrongArgument("one input has no files to choose from")
    explain_paths = _explain_input if is_one_input else _explain_files
    explanation = explain_paths(options, find_program(options.program))
    faults = explanation.faults
    if faults:
        lines = [_format_fault(fault, with_refusal=is_one_input) for fault in faults]
        if not explanation.has_rules:
            lines.append(_THEN)
        lines.append(format_total(faults))
    else:
        lines = explanation.lines if options.bids else ["nothing is wrong"]
    put(format_lines(lines).encode())
    return 1 if faults else 0
