"""Forms for an auction whose input is there, each in a file as a bidder sends it."""
from collections.abc import Iterable, Mapping

from wdp.office.faults import quote, suggest_name
from wdp.office.explaining import explain
from wdp.office.located_faults import make_faults
from wdp.office.reading import read_form_file
from wdp.office.sheets import File
from wdp.texts.accepted import AcceptedRules
from wdp.texts.forms import read_bidder
from wdp.texts.parts import list_names, parse_parts
from wdp.texts.refusals import Refused, WrongArgument


def read_new_forms(
    paths: Iterable[str], rules: AcceptedRules, sheet: str | None = None
) -> dict[str, File]:
    """The forms of files by their bidders, read as `gather` reads them; of workbooks the sheet of
    this name, else the first.

    Raises Refused if a file can't be read, at the first fault that the program doesn't see, and
    WrongArgument if a bidder isn't in the rules, or has two files.
    """
    forms: dict[str, File] = {}
    for path in paths:
        file = read_form_file(path, rules, sheet)
        bidder = file.bidder
        if file.faults:
            raise Refused(str(file.faults[0]))
        if bidder not in rules.bidders:
            near = suggest_name(bidder, rules.bidders)
            raise WrongArgument(f"{path}: {quote(bidder)} is no bidder of the rules{near}")
        if not file.is_ended:
            place = f"{path}:{file.rows[-1].line}"
            raise Refused(f"{place}: the last row has no line end, as in a file that was cut off")
        if bidder in forms:
            raise WrongArgument(f"{path}: another form of {bidder} is in {forms[bidder].path}")
        forms[bidder] = file
    return forms


def check_new_forms(program: str, data: bytes, forms: Mapping[str, File]) -> None:
    """Raises Refused at the first fault of an input that has these forms, with its place in the
    form's file.
    """
    explained = explain(program, data)
    if not explained.findings:
        return
    parts = list(parse_parts(data))
    rules = (row for part in parts if part.kind == "rules" for row in part.rows())
    bidders = list_names(rules, "bidder")
    for number, part in enumerate([part for part in parts if part.kind == "form"], 1):
        file = forms.get(read_bidder(part) or "")
        findings = explained.by_part()["form", number]
        if file is not None and findings:
            faults = make_faults(findings, file.path, file.rows, bidders=bidders)
            raise Refused(str(faults[0]))
    raise explained.findings[0].refused
