"""Takes in bidders' forms over HTTPS, each with a receipt, until the round is closed.

`new` makes the folder of a desk, with a key for each session of the rules, and `serve` serves it.
The round closes at its time, or by `close`. Then the holder of the other key opens the forms by
`open`, and `wdp-office auction` goes on. `check` says whether receipts are in the journal. A bidder
hands in a form by the desk's page, or by PUT /form.
Exit status: 0 it is done; 1 something is refused or missing; 2 the options are wrong; 3 wdp-desk
has ended: start again; 4 the clock was set, and the desk asks what time it is.
"""
from __future__ import annotations

import argparse
import asyncio
from functools import partial
from pathlib import Path

from wdp import files
from wdp.commands.arguments import make_type, parse_path
from wdp.office.faults import format_count
from wdp.program import find_program
from wdp.texts.refusals import Refused, WrongArgument, need

_LOOPBACK = "127.0.0.1"
_MOST_READERS = 64
_say = partial(files.say, "desk")


def add_arguments(parser: argparse.ArgumentParser) -> None:
    """Adds the arguments of the command."""
    actions = parser.add_subparsers(dest="action", metavar="ACTION", required=True, title="actions")
    _add_new(actions.add_parser("new", help="makes the folder of a desk, and the keys"))
    _add_serve(actions.add_parser("serve", help="serves a desk until it is told to end"))
    close = actions.add_parser("close", help="closes the round now")
    _add_folder(close)
    _add_open(actions.add_parser("open", help="opens the forms of a closed round"))
    _add_check(actions.add_parser("check", help="says whether receipts are in the journal"))


def _add_folder(parser: argparse.ArgumentParser) -> None:
    parser.add_argument("folder", metavar="DIR", type=Path, help="the folder of the desk")


def _add_new(parser: argparse.ArgumentParser) -> None:
    _add_folder(parser)
    parser.add_argument("rules", metavar="RULES", help="the file of the rules")
    parser.add_argument(
        "--closes",
        metavar="TIME",
        required=True,
        help="when the round closes, with its zone: 2026-12-01T12:00:00Z",
    )
    parser.add_argument(
        "--holder",
        metavar="FILE",
        type=parse_path,
        required=True,
        help="the public key of who opens the forms after the close, as openssl writes it",
    )


def _add_serve(parser: argparse.ArgumentParser) -> None:
    _add_folder(parser)
    parser.add_argument(
        "--port",
        type=make_type("port, 1 to 65535,", int, lambda port: 1 <= port <= 65_535),
        default=8080,
        metavar="N",
        help="the port; by default 8080",
    )
    parser.add_argument(
        "--address",
        default=_LOOPBACK,
        help=f"the address, if it isn't {_LOOPBACK}; only with --tls or --front",
    )
    parser.add_argument(
        "--tls",
        nargs=2,
        metavar=("CERT", "KEY"),
        help="a certificate and its key, for HTTPS without a front",
    )
    parser.add_argument(
        "--front",
        action="store_true",
        help="a server before this one, such as nginx, does HTTPS and slow clients",
    )
    parser.add_argument(
        "--readers",
        type=make_type(
            f"number of readers, 1 to {_MOST_READERS},", int, lambda n: 1 <= n <= _MOST_READERS
        ),
        metavar="N",
        help="how many forms are read at a time; by default one per processor",
    )
    parser.add_argument(
        "--clock-is-right",
        action="store_true",
        help="the clock is right again, after the desk has stopped because it was set",
    )


def _add_open(parser: argparse.ArgumentParser) -> None:
    _add_folder(parser)
    parser.add_argument("key", metavar="KEY", help="the holder's private key")
    parser.add_argument(
        "output", metavar="OUT", help="the new folder for input.txt, forms.txt and openings.txt"
    )


def _add_check(parser: argparse.ArgumentParser) -> None:
    _add_folder(parser)
    parser.add_argument("receipts", metavar="RECEIPT", nargs="+", help="receipts, or heads")
    parser.add_argument(
        "--forms",
        metavar="FILE",
        type=parse_path,
        help="what `wdp forms` prints: the last form of each bidder has to be there, too",
    )


def run(options: argparse.Namespace) -> int:
    """Does what the action says; the status."""
    need("the desk", "aiohttp", "cryptography", "jinja2")
    actions = {
        "new": _make,
        "serve": _serve,
        "close": _close,
        "open": _open,
        "check": _check,
    }
    return actions[options.action](options)


def _make(options: argparse.Namespace) -> int:
    from wdp.desk.clock import parse_time
    from wdp.desk.making import make_desk

    count = make_desk(
        find_program(options.program),
        options.folder,
        options.rules,
        closes=parse_time(options.closes),
        holder=options.holder,
    )
    files.tell(
        f"{format_count(count, 'key')} in {options.folder}/keys.csv: give each bidder its own, "
        "keep the office's, whose bidder is -, and delete the file\n"
    )
    return 0


def _serve(options: argparse.Namespace) -> int:
    from wdp.desk.serving import Address, count_readers, serve

    if options.tls and options.front:
        raise WrongArgument("--tls and --front: one of them does HTTPS")
    if options.address != _LOOPBACK and not (options.tls or options.front):
        raise WrongArgument("--address goes with --tls CERT KEY, or with --front")
    tls = (options.tls[0], options.tls[1]) if options.tls else None
    address = Address(options.address, options.port, tls)
    return asyncio.run(
        serve(
            options.folder,
            address,
            readers=options.readers or count_readers(),
            is_right=options.clock_is_right,
            say=_say,
        )
    )


def _close(options: argparse.Namespace) -> int:
    from wdp.desk.closing import close

    _say(asyncio.run(close(options.folder, _say)))
    return 0


def _open(options: argparse.Namespace) -> int:
    from wdp.desk.opening import open_forms
    from wdp.desk.sealing import read_private_key

    private = read_private_key(options.key)
    program = find_program(options.program)
    count = open_forms(program, options.folder, private, options.output)
    files.tell(f"{format_count(count, 'form')} in {options.output}\n")
    return 0


def _check(options: argparse.Namespace) -> int:
    from wdp.desk.checking import Journal, check, describe, read_forms, read_said

    said = read_said(options.receipts)
    forms = read_forms(options.forms) if options.forms else None
    journal = Journal.read(options.folder / "journal")
    wrong = check(said, journal, forms)
    if wrong:
        for line in wrong:
            _say(line)
        raise Refused(f"{format_count(len(wrong), 'thing')} that the desk said and didn't keep")
    files.put("".join(f"{line}\n" for line in describe(said, journal)).encode())
    return 0
