"""Makes what can be published of an auction: tables as CSV and JSON, and an HTML page that loads
nothing.

In place of INPUT and REPORT an audit may come alone, which `wdp verify` reads: it has both. The
folder of an auction is taken for the audit in it.

INPUT is the auction's input, without solutions, and REPORT is what `wdp report` printed; wdp has to
print it again from the winners in it. DIR gets bidders.csv, categories.csv, pools.csv, groups.csv,
results.json and results.html, all or none of them. --text prints the same tables for people, with
or without these files.

--audit takes what `wdp verify` reads. It must end with INPUT, and wdp must print REPORT from it.
Then each total is certified, what wdp prints after REPORT of prices and of other winners is proved,
and DIR also gets audit.txt, with which anyone can repeat the audit. Nothing else certifies a
result.

--sign KEY adds SHA256SUMS, which has the SHA-256 of each file, and SHA256SUMS.sig, its signature by
OpenSSH. The page says how to check both.

--drawn N publishes award N of those that tie, if it was drawn, with an audit in which it comes
first.
Exit status: 0 the files are written; 1 a text is refused or a package is missing; 2 the options are
wrong.
"""
import argparse
import os

from wdp.audits import MOST_OF_AUDIT, is_audit
from wdp.commands.arguments import (
    add_list_is_complete,
    add_replace,
    make_line_type,
    parse_award_number,
    parse_path,
)
from wdp.files import put, read, say
from wdp.program import find_program
from wdp.publish.judging import AuditSource, Source, Sources, take_audit_alone
from wdp.publish.making import make_results
from wdp.publish.names import TITLE, PageOptions
from wdp.publish.sentences import describe_certificates
from wdp.publish.signing import Signer
from wdp.runs.reports import AUDIT
from wdp.texts.parts import MOST_OF_INPUT
from wdp.texts.refusals import WrongArgument


def add_arguments(parser: argparse.ArgumentParser) -> None:
    """Adds the arguments of the command."""
    parser.add_argument(
        "input",
        metavar="INPUT",
        help="the input of the auction; or its audit or its folder, without REPORT",
    )
    parser.add_argument("report", metavar="REPORT", nargs="?", help="what `wdp report` printed")
    parser.add_argument(
        "--output",
        metavar="DIR",
        type=parse_path,
        help="a folder for these files and no others",
    )
    parser.add_argument(
        "--text", action="store_true", help="print the tables, with aligned columns"
    )
    parser.add_argument(
        "--title", type=make_line_type("title"), default=TITLE, help="the page's heading"
    )
    parser.add_argument(
        "--currency",
        type=make_line_type("currency"),
        metavar="UNIT",
        help="the unit of all amounts, such as GBP",
    )
    parser.add_argument(
        "--names",
        metavar="FILE",
        type=parse_path,
        help="a file with a row `code,name` for each bidder or category that has another name",
    )
    parser.add_argument(
        "--audit", metavar="FILE", help="what `wdp verify` reads, with INPUT at its end"
    )
    parser.add_argument(
        "--drawn",
        type=parse_award_number,
        metavar="N",
        help="publish this award of those that tie, since it was drawn",
    )
    add_list_is_complete(parser)
    add_replace(parser)
    parser.add_argument(
        "--sign",
        metavar="KEY",
        type=parse_path,
        help="sign the files by ssh-keygen with this private key: SHA256SUMS and SHA256SUMS.sig",
    )


def _check_arguments(options: argparse.Namespace) -> None:
    """Raises WrongArgument if the options don't go together."""
    if options.output is None and not options.text:
        raise WrongArgument("one of these options is needed: --output DIR, --text")
    if options.sign and options.output is None:
        raise WrongArgument("--sign KEY goes with --output DIR")
    if options.report is None and options.audit:
        raise WrongArgument("--audit FILE goes with INPUT and REPORT; an audit alone comes first")
    if options.is_complete and options.drawn is None:
        raise WrongArgument("--list-is-complete goes with --drawn N")
    if options.report and options.drawn is not None and not options.audit:
        raise WrongArgument("--drawn needs --audit, which has the award that was drawn")


def _make_audit_source(options: argparse.Namespace, text: bytes, name: str) -> AuditSource:
    """An audit, with what the office says of a draw."""
    return AuditSource(text, name=name, drawn=options.drawn, is_complete=options.is_complete)


def _read_sources(options: argparse.Namespace) -> Sources:
    """Reads the files that results are made of."""
    if options.report is None and os.path.isdir(options.input):
        options.input = os.path.join(options.input, AUDIT)
    if options.report is None:
        text = read(options.input, MOST_OF_AUDIT)
        if not is_audit(text):
            why = "it has no certificates, so it is no audit; REPORT is missing"
            raise WrongArgument(f"{options.input}: {why}")
        return take_audit_alone(_make_audit_source(options, text, name=options.input))
    data = read(options.input, MOST_OF_INPUT)
    report = read(options.report, MOST_OF_INPUT)
    audit = None
    if options.audit:
        text = read(options.audit, MOST_OF_AUDIT)
        audit = _make_audit_source(options, text, name=options.audit)
    return Sources(
        input=Source(data, name=options.input),
        report=Source(report, name=options.report),
        audit=audit,
    )


def run(options: argparse.Namespace) -> int:
    """Makes the results, and writes and prints what is asked for; the status."""
    _check_arguments(options)
    signer = Signer(options.sign) if options.sign else None
    if signer is not None:
        signer.check()
    sources = _read_sources(options)
    page = PageOptions(title=options.title, currency=options.currency, names_path=options.names)
    results = make_results(find_program(options.program), sources, page)
    if options.output is not None:
        count = results.write_files(options.output, signer, replaces=options.replaces)
        say("results", f"{count} files in {options.output}")
    if options.text:
        put(results.format_text().encode())
    elif not results.figures.certified:
        say("results", describe_certificates(results.figures))
    return 0
