"""The tools of an auction's office as one command: from sealed bids to a certified result that can
be published.
"""
import argparse
import difflib
import importlib
import signal
import sys
from functools import partial
from typing import Any, NoReturn

from wdp import files
from wdp.reporter import run_reporting
from wdp.steps import INTERRUPTED, heed_children
from wdp.texts.refusals import escape, shorten
from wdp.version import VERSION

_NAME = "wdp-office"
_HEAD = """usage: wdp-office COMMAND ...

Takes a clock auction's sealed bids from spreadsheets to a proved award.
"""
_END = """
Example:
    wdp-office auction worked --input examples/worked.txt --ties

wdp-office COMMAND --help says what a command takes; docs/OFFICE.md leads through an auction.
"""
_EXPLAIN_HELP = "prints all that is wrong with an input, by file, line and column"
# each command with its module in this package, and what it is for, in the order of an auction
COMMANDS = {
    "form": ("commands.form", "writes a blank form for each bidder"),
    "desk": ("commands.desk", "takes in bidders' forms over HTTPS, each with a receipt"),
    "explain": ("commands.explain", _EXPLAIN_HELP),
    "gather": ("commands.gather", "joins an auction's files into one input of wdp"),
    "auction": ("commands.auction", "goes from the input to winners, opportunity costs and a page"),
    "lost": ("commands.lost", "finds what each bid lacked that lost in an award"),
    "letters": ("commands.letters", "writes a letter to each bidder, or a receipt of its form"),
    "results": ("commands.results", "makes tables and a page of an audit or a report"),
    "prices": ("commands.prices", "finds what the winners of an older award pay"),
    "solve": ("commands.solve", "solves a program by a solver"),
    "certify": ("commands.certify", "certifies a solution as optimal, or as the only optimal one"),
}
# when they are of use
_STAGES = {
    "before the round": ["form"],
    "the round": ["desk"],
    "when the forms are in": ["explain", "gather"],
    "the award": ["auction"],
    "after the award": ["lost", "letters", "results", "prices"],
    "by steps": ["solve", "certify"],
    "other": ["help"],
}
_HELP_HELP = "prints what a command takes"
_LONGEST_COMMAND = 40  # characters of an unknown command that are looked at
_NEAR = 0.6  # how much of two names has to be alike
_WRONG_ARGUMENTS = 2


class _Parser(argparse.ArgumentParser):
    """A parser whose help has its text unchanged, and whose errors are one line."""

    def __init__(self, **options: Any) -> None:
        super().__init__(
            formatter_class=argparse.RawDescriptionHelpFormatter,
            allow_abbrev=False,
            **options,
        )

    def error(self, message: str) -> NoReturn:
        self.exit(_WRONG_ARGUMENTS, escape(f"{self.prog}: error: {message}") + "\n")

    def _print_message(self, message: str | None, file: object = None) -> None:
        """Help that can't be printed isn't printed with status 0."""
        if file is sys.stdout:
            files.put((message or "").encode())
        else:
            files.tell(message or "")


class _RootParser(_Parser):
    """The parser of all commands, whose help has them by the stages of an auction."""

    def format_help(self) -> str:
        purposes = {name: purpose for name, (_, purpose) in COMMANDS.items()}
        purposes["help"] = _HELP_HELP
        text = _HEAD
        for stage, names in _STAGES.items():
            text += f"\n{stage}:\n"
            text += "".join(f"    {name:<9} {purposes[name]}\n" for name in names)
        return text + _END


def build_parser(only: str | None = None) -> _Parser:
    """The parser of all commands, with the arguments of each, or of one alone, whose module is then
    the only one read.
    """
    parser = _RootParser(prog=_NAME, description=__doc__)
    parser.add_argument("--version", action="version", version=f"{_NAME} {VERSION}")
    commands = parser.add_subparsers(
        dest="command", metavar="COMMAND", title="commands", parser_class=_Parser
    )
    for name, (module_name, purpose) in COMMANDS.items():
        command = commands.add_parser(name, help=purpose)
        if only in (None, name):
            module = importlib.import_module(f"wdp.{module_name}")
            command.description = module.__doc__
            module.add_arguments(command)
            command.add_argument("--wdp", dest="program", metavar="PATH", help=argparse.SUPPRESS)
            command.set_defaults(run=module.run)
    help_command = commands.add_parser("help", help=_HELP_HELP)
    help_command.add_argument("about", metavar="COMMAND", nargs="?")
    return parser


def _parse_arguments(arguments: list[str]) -> argparse.Namespace:
    """What the arguments ask for; a SystemExit if they are wrong, or ask for help."""
    if arguments[:1] == ["help"]:
        arguments = [*(name for name in arguments[1:2] if name != "help"), "--help"]
    first = arguments[0] if arguments else ""
    if arguments and not first.startswith("-") and first not in COMMANDS:
        begin = first[:_LONGEST_COMMAND].lower()
        near = difflib.get_close_matches(begin, COMMANDS, n=1, cutoff=_NEAR)
        name = shorten(first, _LONGEST_COMMAND)
        hint = f"the nearest one is {near[0]}" if near else f"{_NAME} --help lists all"
        files.say(_NAME, f"there is no command '{name}'; {hint}")
        raise SystemExit(_WRONG_ARGUMENTS)
    parser = build_parser(first if first in COMMANDS else "")
    if not arguments:
        parser.exit(_WRONG_ARGUMENTS, parser.format_help())
    parser.prog = f"{_NAME} {first}" if first in COMMANDS else _NAME
    return parser.parse_args(arguments)


def main(arguments: list[str] | None = None) -> int:
    """Does what the arguments ask for, and gives the status; whatever goes wrong is one line on
    standard error.
    """
    if arguments is None:
        arguments = sys.argv[1:]
    files.open_standard_streams()
    heed_children()
    command = arguments[0] if arguments and arguments[0] in COMMANDS else _NAME
    say = partial(files.say, command)
    try:
        return run_reporting(say, "", partial(_run_command, arguments))
    except KeyboardInterrupt:
        say("interrupted")
        return INTERRUPTED


def _run_command(arguments: list[str]) -> int:
    """Does what the arguments ask for; the status."""
    options = _parse_arguments(arguments)
    if signal.getsignal(signal.SIGINT) is signal.SIG_DFL:
        signal.signal(signal.SIGINT, signal.default_int_handler)
    return int(options.run(options) or 0)
