"""Arguments that several commands take, and the types of their values."""
import argparse
import contextlib
from collections.abc import Callable, Sequence
from dataclasses import fields
from functools import partial
from pathlib import Path
from typing import TypeVar

from wdp import files
from wdp.office.reading_choices import Choices
from wdp.program import Limits, ask, find_program
from wdp.publish.names import LONGEST, is_line
from wdp.solve import MOST_OF_ANSWER, MOST_OF_PROGRAM
from wdp.texts.refusals import Refused, WrongArgument, shorten

_Value = TypeVar("_Value")


def make_type(
    name: str, read: Callable[[str], _Value], is_right: Callable[[_Value], bool]
) -> Callable[[str], _Value]:
    """A type of an argument, whose value is read from a text and has to be right; a message calls
    it by this name.
    """

    def parse(text: str) -> _Value:
        with contextlib.suppress(ValueError):
            value = read(text)
            if is_right(value):
                return value
        raise argparse.ArgumentTypeError(f"it takes a {name}, not '{shorten(text, 40)}'")

    return parse


def make_line_type(name: str) -> Callable[[str], str]:
    """The type of the page's `title` or `currency`: a line, without spaces at its ends."""
    longest = LONGEST[name]
    return make_type(
        f"text of 1 to {longest} printable characters in UTF-8",
        lambda text: text.strip(" "),
        lambda text: is_line(text, longest),
    )


parse_award_number = make_type("number of an award", int, lambda number: number >= 1)
parse_seconds = make_type("number of seconds, 1 or more", int, lambda number: 1 <= number < 10**8)
_SOLVERS = ("cbc", "highs")


def _parse_solver(text: str) -> str:
    """The name of a solver that is known."""
    if text not in _SOLVERS:
        known = " or ".join(_SOLVERS)
        other = "any other solver goes by --solver-command (docs/OFFICE.md, Other solvers)"
        raise argparse.ArgumentTypeError(f"it takes {known}, not '{shorten(text, 40)}'; {other}")
    return text


def parse_names(text: str) -> list[str]:
    """The names in a text like Wren,Teal."""
    names = [name.strip() for name in text.split(",")]
    if not all(names):
        raise argparse.ArgumentTypeError("names of bidders are separated by commas: Wren,Teal")
    return names


def take_folder(path: Path, command: str) -> Path:
    """The folder of an auction; WrongArgument, which says what to give the command, if this is a
    file, as the audit in the folder.
    """
    if path.is_file():
        line = f"wdp-office {command} {path.parent}"
        raise WrongArgument(f"{path} is a file: {command} takes the folder of an auction: {line}")
    return path


def parse_path(text: str) -> str:
    """A path; an empty one, as of a variable that isn't set, isn't the same as none."""
    if not text:
        raise argparse.ArgumentTypeError("the name of the file is missing")
    return text


def add_rule_of_groups(parser: argparse.ArgumentParser) -> None:
    """Adds the option that makes groups by a rule."""
    winners = "each winner of FILE's first group, a report or what `wdp map` prints"
    parser.add_argument(
        "--groups",
        nargs="+",
        metavar="RULE",
        default=[],
        help=f"in place of GROUPS: nobody, then each (bidder alone), or winners FILE ({winners})",
    )


def check_rule(rule: Sequence[str]) -> None:
    """Raises WrongArgument if groups can't be made by a rule."""
    if rule and (rule[0], len(rule)) not in (("each", 1), ("winners", 2)):
        raise WrongArgument("--groups takes each, or winners FILE")


def add_choices(parser: argparse.ArgumentParser) -> None:
    """Adds the options by which an office says something of its files, beside their paths."""
    parser.add_argument(
        "--use",
        metavar="FILE",
        type=parse_path,
        action="append",
        default=[],
        help="of a bidder's files this one counts",
    )
    parser.add_argument(
        "--last-wins",
        choices=("time",),
        help="of a bidder's files the one that was changed last counts",
    )
    parser.add_argument(
        "--any-file-name", action="store_true", help="a file's name needn't name a bidder"
    )
    add_names = partial(
        parser.add_argument, metavar="NAMES", type=parse_names, action="extend", default=[]
    )
    add_names("--allow-missing", help="these bidders have no form; separate names by commas")
    add_names("--allow-empty", help="these bidders' forms have no bid; separate names by commas")
    add_names(
        "--allow-unended",
        help="the forms of these bidders, `rules` or `groups` are complete without a last line end",
    )
    parser.add_argument(
        "--expect",
        metavar="COUNTS",
        type=parse_path,
        help="a file of rows `bidder,bids`: how many bids each form must have",
    )
    parser.add_argument(
        "--sheet",
        metavar="NAME",
        type=parse_path,
        help="the sheet of each workbook, else the first",
    )


def add_replace(parser: argparse.ArgumentParser) -> None:
    """Adds the option by which an office says that files of its folder may be replaced."""
    parser.add_argument(
        "--replace",
        dest="replaces",
        action="store_true",
        help="replace files that aren't as they were left; without it they are kept, and the "
        "status is 1",
    )


def add_list_is_complete(parser: argparse.ArgumentParser) -> None:
    """Adds the option by which an office says what isn't proved of the awards that an audit lists."""
    parser.add_argument(
        "--list-is-complete",
        dest="is_complete",
        action="store_true",
        help="with --drawn: the office knows that no award is missing from the audit, though that "
        "isn't proved",
    )


def read_choices(options: argparse.Namespace) -> Choices:
    """What these options say."""
    return Choices(**{each.name: getattr(options, each.name) for each in fields(Choices)})


def add_solver_options(parser: argparse.ArgumentParser) -> None:
    """Adds the options that say which solver is called, and for how long."""
    solvers = parser.add_mutually_exclusive_group()
    solvers.add_argument(
        "--solver",
        choices=_SOLVERS,
        type=_parse_solver,
        help="cbc, which is the usual one if it is installed, or HiGHS, as scipy has it",
    )
    places = "{out} for that of its answer, lines `NAME VALUE`, and {seconds} for the time limit"
    call = f"its call, with {{mps}} for the program's file and, if it takes them, {places}"
    solvers.add_argument(
        "--solver-command",
        dest="solver",
        metavar="COMMAND",
        help=f"any other solver: {call}; no shell reads it",
    )
    parser.add_argument(
        "--time-limit",
        type=parse_seconds,
        metavar="SECONDS",
        help="for each program's solver, and for each certificate",
    )


def read_mps(path: str, program: str | None) -> bytes:
    """The text of a file in MPS, `-` for standard input, once `wdp check` has found no fault in it;
    Refused, with the path, if it has.
    """
    text = files.read(path, MOST_OF_PROGRAM)
    found = find_program(program)
    try:
        ask(found, ["check"], data=text, limits=Limits(MOST_OF_ANSWER))
    except Refused as refused:
        hint = "; this is an input of wdp: wdp text or wdp compile makes its program"
        is_input = text.startswith(b"%rules")
        raise Refused(f"{path}: {refused.text}{hint if is_input else ''}") from None
    return text
