"""Takes an auction from its input to winners, opportunity costs, prices and a page; a folder keeps
what is done.

The certificates decide: if a solver's answer isn't the best one, the search for its certificate
finds a better one.
"""
import argparse
import os
from collections.abc import Sequence
from dataclasses import replace
from functools import partial
from pathlib import Path

from wdp import audits, certify, files, solve, steps
from wdp.commands.arguments import (
    add_replace,
    add_solver_options,
    make_line_type,
    make_type,
    parse_award_number,
    parse_path,
)
from wdp.folder import INPUT, Folder
from wdp.office.settled import read_settled
from wdp.office.new_forms import check_new_forms, read_new_forms
from wdp.program import find_program
from wdp.publish.changes import make_changes_table
from wdp.publish.judging import judge
from wdp.publish.results import NEEDS as NEEDS_OF_PAGE
from wdp.reporter import ConsoleReporter
from wdp.runs.contents import Goals
from wdp.runs.means import Means
from wdp.runs.origin import Origin
from wdp.runs.places import (
    AWARDS,
    name_temporary_folder,
    run_from_origin,
    run_in_folder,
    run_step_in_folder,
    run_without_folder,
)
from wdp.runs.reports import AUDIT, REPORT, UNCERTIFIED, Page
from wdp.runs.run import Run
from wdp.texts import accepted
from wdp.texts.parts import MOST_OF_INPUT
from wdp.texts.refusals import WrongArgument, need_all

_EPILOG = """Exit status: 0 everything is there; 1 something is refused or missing, and the next run
goes on from there; 2 the options are wrong; 3 without certificates, figures that contradict each
other."""
_MOST_JOBS = 1000
_MOST_WORKERS = 64  # threads of the program


def add_shared_arguments(parser: argparse.ArgumentParser) -> None:
    """Adds the arguments that `auction` and `prices` have in common."""
    add_solver_options(parser)
    parser.add_argument(
        "--jobs",
        type=make_type("number of jobs, 1 to 1000", int, lambda jobs: 1 <= jobs <= _MOST_JOBS),
        default=len(os.sched_getaffinity(0)),
        metavar="N",
        help="how many groups are done at a time; by default one per processor",
    )
    add_replace(parser)
    parser.add_argument(
        "--quiet",
        action="store_true",
        help="print what fails and how the run ends, but no progress",
    )


def add_arguments(parser: argparse.ArgumentParser) -> None:
    """Adds the arguments of the command."""
    parser.epilog = _EPILOG
    streams = "the input comes from standard input, and the report goes to standard output"
    parser.add_argument(
        "folder",
        metavar="DIR",
        nargs="?",
        type=Path,
        help=f"the folder that keeps what is done; without it {streams}",
    )
    parser.add_argument(
        "--input",
        metavar="FILE",
        help="the input, which is copied to DIR/input.txt; `-` is standard input",
    )
    _add_desk(parser)
    _add_origin(parser)
    add_shared_arguments(parser)
    _add_goals(parser)
    parser.add_argument("--title", type=make_line_type("title"), help="the page's heading")
    parser.add_argument(
        "--currency",
        type=make_line_type("currency"),
        metavar="UNIT",
        help="the unit of all amounts, such as GBP",
    )
    parser.add_argument(
        "--step",
        metavar="STEP",
        help="one step alone, as Snakemake runs them: programs, a group's number, prices or report",
    )


def _add_desk(parser: argparse.ArgumentParser) -> None:
    """Adds the arguments by which the forms are those that a desk has taken in."""
    parser.add_argument(
        "--desk",
        type=Path,
        metavar="OUT",
        help="in place of --input: the folder that `desk open` wrote",
    )
    parser.add_argument(
        "--groups",
        type=parse_path,
        metavar="FILE",
        help="the file of the groups for --desk; by default nobody, then each bidder alone",
    )


def _add_origin(parser: argparse.ArgumentParser) -> None:
    """Adds the arguments by which a new folder begins from an earlier one."""
    parser.add_argument(
        "--from",
        dest="origin",
        type=Path,
        metavar="OLD",
        help="begin DIR, a new folder, from the folder of an auction with an award, and print what "
        "changes",
    )
    parser.add_argument(
        "--without",
        dest="withdrawn",
        action="append",
        default=[],
        metavar="NAME",
        help="this bidder has no form in DIR, as if it had withdrawn",
    )
    parser.add_argument(
        "--form",
        dest="form_paths",
        action="append",
        default=[],
        type=parse_path,
        metavar="FILE",
        help="a bidder's form in DIR is this one, a file as `gather` takes it",
    )
    parser.add_argument(
        "--sheet",
        type=parse_path,
        metavar="NAME",
        help="the sheet of each workbook of --form, else the first",
    )


def _add_goals(parser: argparse.ArgumentParser) -> None:
    """Adds the arguments that say what is found."""
    parser.add_argument(
        "--ties",
        dest="finds_ties",
        action="store_true",
        help="find all who can win with the total of group 1, and prove that nobody else can",
    )
    award = f"make award N of those the first, with prices of its own, in DIR/{AWARDS}/N"
    parser.add_argument(
        "--award",
        dest="award_number",
        type=parse_award_number,
        metavar="N",
        help=f"--ties, and {award}",
    )
    parser.add_argument(
        "--no-prices",
        dest="is_priced",
        action="store_false",
        help="leave out what the winners pay",
    )
    says = "report what the solver says, without certificates and prices"
    parser.add_argument(
        "--no-certify",
        dest="is_certified",
        action="store_false",
        help=f"{says}: DIR/{UNCERTIFIED}",
    )


def make_run(
    options: argparse.Namespace,
    goals: Goals,
    *,
    folder: Path | None,
    reporter: ConsoleReporter,
    page: Page = Page(),
    makes_page: bool = True,
) -> Run:
    """What the options ask for, in a folder or a temporary one; Refused before the work begins if
    something is missing, for the page, too, if that is made.
    """
    program = find_program(options.program)
    solver = solve.find_solver(options.solver)
    needs: dict[str, Sequence[str]] = {}
    if goals.is_certified:
        needs |= certify.NEEDS
    if solver == "highs":
        needs |= solve.NEEDS
    if folder is not None and makes_page:
        needs |= NEEDS_OF_PAGE
    need_all(needs)
    means = Means(
        program=program,
        solver=solver,
        seconds=options.time_limit,
        workers=min(options.jobs, _MOST_WORKERS),
        reporter=reporter,
        at_once=steps.end_at_once,
    )
    return Run(
        folder=Folder(folder or name_temporary_folder(), replaces=options.replaces),
        goals=goals,
        means=means,
        is_named=folder is not None,
        jobs=options.jobs,
        page=page,
    )


def _check_arguments(options: argparse.Namespace) -> None:
    """Raises WrongArgument if the options don't go together."""
    if (options.finds_ties or options.award_number) and not options.is_certified:
        raise WrongArgument("--ties needs certificates, and --no-certify makes none")
    if options.award_number and (options.step or not options.folder):
        raise WrongArgument("--award goes with DIR, and not with --step")
    if options.groups and not options.desk:
        raise WrongArgument("--groups goes with --desk OUT")
    if options.desk and (options.input or options.origin or options.step or not options.folder):
        raise WrongArgument("--desk OUT goes with DIR, and without --input, --from and --step")
    if options.origin is None:
        if options.withdrawn or options.form_paths or options.sheet:
            raise WrongArgument("--without, --form and --sheet go with --from OLD")
    else:
        _check_origin(options)


def _check_origin(options: argparse.Namespace) -> None:
    """Raises WrongArgument if the options don't go with --from."""
    if not options.folder:
        raise WrongArgument("--from OLD goes with DIR, the new folder")
    if not options.withdrawn and not options.form_paths:
        raise WrongArgument("--from OLD needs --without NAME or --form FILE")
    if options.input or options.step or options.award_number or not options.is_certified:
        raise WrongArgument("--from OLD goes without --input, --step, --award and --no-certify")


def _needs_folder(options: argparse.Namespace) -> bool:
    """Whether the options ask for what only a folder that stays can have."""
    has_file = options.input not in (None, "-")
    return bool(options.step or has_file or options.title or options.currency)


def run(options: argparse.Namespace) -> int:
    """Does what isn't done yet of an auction; the status."""
    _check_arguments(options)
    goals = Goals(
        is_certified=options.is_certified,
        finds_ties=options.finds_ties or options.award_number is not None,
        is_priced=options.is_certified and options.is_priced,
    )
    whole = make_run(
        options,
        goals,
        folder=options.folder,
        reporter=ConsoleReporter(command="auction", is_quiet=options.quiet),
        page=Page(options.title, options.currency),
        makes_page=options.step in (None, "report"),
    )
    if not options.folder:
        if _needs_folder(options):
            raise WrongArgument("--input FILE, --title, --currency and --step go with DIR")
        name = REPORT if goals.is_certified else UNCERTIFIED
        return run_without_folder(whole, partial(_take_standard_input, whole), name=name)
    if options.origin:
        return _run_from_origin(options, whole)
    data = _read_input(options.input) if options.input else None
    if options.desk:
        data = read_settled(whole.means.program, options.desk, options.groups)
    if data is not None:
        options.folder.mkdir(parents=True, exist_ok=True)
    if options.step:
        return run_step_in_folder(whole, options.step)
    return run_in_folder(whole, data, award=options.award_number or 1)


def _read_input(path: str) -> bytes:
    """The input in a file; Refused if it is an audit."""
    data = files.read(path, MOST_OF_INPUT)
    audits.refuse_audit(data, path)
    return data


def _take_standard_input(run_of_input: Run) -> None:
    run_of_input.folder.take_input(_read_input("-"))


def _run_from_origin(options: argparse.Namespace, whole: Run) -> int:
    """Does all in a new folder that begins from an earlier one, and prints what changed; the
    status.
    """
    origin = Origin.open(options.origin)
    rules = accepted.read(origin.read_input(), str(origin.folder.path(INPUT))).rules
    forms = read_new_forms(options.form_paths, rules, options.sheet)
    origin = replace(
        origin,
        withdrawn=options.withdrawn,
        forms={bidder: file.text for bidder, file in forms.items()},
    )
    data = origin.make_input()
    program = whole.means.program
    origin.check_new(options.folder, data)
    check_new_forms(program, data, forms)
    for file in forms.values():
        for warning in file.warnings:
            whole.means.reporter.say(f"{file.path}: {warning}")
    before = origin.read_report(program)
    status = run_from_origin(whole, origin, data)
    if whole.folder.has(AUDIT):
        now = judge(program, "verify", whole.folder.read(AUDIT)).report
        table = make_changes_table(origin.compare(before, now))
        files.put(table.format_text().encode())
    return status
