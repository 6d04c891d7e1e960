"""What `wdp explain` finds in an input: whether there is a fault, which, and where."""
from collections.abc import Callable
from typing import TypeVar

from wdp.office.faults import quote
from wdp.office.findings import BYTES_BEFORE, NOT_KNOWN, Explained, Finding, LeftOutBid
from wdp.program import Limits, run_process
from wdp.texts.members import Members, read_object
from wdp.texts.refusals import Refused

_T = TypeVar("_T")
# bytes of what the program prints: ten thousand faults, or a line for each of a million bids
_MOST_OF_ANSWER = 256 * 1024 * 1024


def _read_finding(members: Members) -> Finding:
    """The fault of these members, which are taken in the order that they have in a line."""
    if members.take("file") is not None:
        raise ValueError("an input that is one text has no files")
    part = members.take_text("part")
    if part == "input":
        return _read_fault_of_input(members)
    if part in ("rules", "form", "groups"):
        return _read_fault_of_part(members, part)
    raise ValueError(f"{part} is no part")


def _read_fault_of_input(members: Members) -> Finding:
    """A fault of an input as a whole, or of its parts."""
    number = members.find_number("number", least=1)
    fault = members.take_text("fault")
    if (number is not None) != (fault == NOT_KNOWN):
        raise ValueError("a part has no number, or a number no part")
    has_found = fault == BYTES_BEFORE
    return Finding(
        part="input",
        number=number,
        fault=fault,
        found=members.take_text("found") if has_found else None,
        is_cut=has_found and members.find_mark("cut"),
        wrong=members.take_text("cause") if has_found else members.find_text("cause"),
    )


def _read_fault_of_part(members: Members, part: str) -> Finding:
    """A fault of rules, a form or groups."""
    is_of_groups = part == "groups"
    number = members.take_number("number", least=1) if part == "form" else None
    fault = members.take_text("fault")
    code = None if fault == "CallLimit" else members.take_number("code")
    record = members.find_number("line" if is_of_groups else "record")
    is_repeated = fault == "RepeatedPackage"
    earlier_bid = members.take_number("earlier_bid", least=1) if is_repeated else None
    field = None
    if record is not None:
        field = members.find_number("name" if is_of_groups else "field", least=1)
    has_found = field is not None
    return Finding(
        part=part,
        number=number,
        fault=fault,
        code=code,
        record=record,
        earlier_bid=earlier_bid,
        field=field,
        found=members.take_text("found") if has_found else None,
        is_cut=has_found and members.find_mark("cut"),
        wrong=members.take_text("cause") if has_found else members.find_text("cause"),
    )


def _read_left_out(members: Members) -> LeftOutBid:
    """The bid that is in no program, or the form that is replaced, of these members."""
    bidder = members.take_text("bidder")
    if members.has("form"):
        form = members.take_number("form", least=1)
        return LeftOutBid(bidder, form=form, words=_read_replaced(members))
    bid = members.take_number("bid", least=1)
    return LeftOutBid(bidder, bid=bid, words=_read_reason(members))


def _read_replaced(members: Members) -> str:
    """Why a form doesn't count, in words."""
    if members.take_text("reason") != "Replaced":
        raise ValueError("this is no reason of a form")
    return f"is replaced by form {members.take_number('by', least=1)}"


def _read_reason(members: Members) -> str:
    """Why a bid is in no program, in words."""
    reason = members.take_text("reason")
    if reason == "OverSupply":
        category = members.take_text("category")
        asked = members.take_number("asked")
        supply = members.take_number("supply")
        return f"asks for {asked} of {category}, of which there are {supply}"
    if reason == "OverCap":
        pool = members.take_text("pool")
        load = members.take_number("load")
        cap = members.take_number("cap")
        return f"loads pool {pool} with {load}, above its cap of {cap}"
    if reason == "BelowWorth":
        return f"brings {members.take_number('less')} less than its lots are worth unsold"
    if reason == "Dominated":
        return f"is dominated by bid {members.take_number('by', least=1)}"
    raise ValueError(f"{reason} is no reason of a bid")


def _read_more(members: Members) -> int:
    """How many more faults there are."""
    return members.take_number("more")


def _refuse_line(line: str) -> Refused:
    return Refused(f"wdp explain printed a line that isn't understood: {quote(line)}")


def _parse_line(line: str, read: Callable[[Members], _T]) -> _T:
    """What a line of `wdp explain` says; Refused if it is no such line."""
    try:
        return read_object(line, read)
    except ValueError:
        raise _refuse_line(line) from None


def _parse_faults(lines: list[str]) -> Explained:
    """The faults of these lines, and the count of others if it is the last line of several."""
    *before, last = lines
    more = 0
    if before and last.startswith('{"more"'):
        more = _parse_line(last, _read_more)
        lines = before
    return Explained([_parse_line(line, _read_finding) for line in lines], more)


def _split_lines(output: bytes) -> list[str]:
    """The lines of an answer; Refused if the last one isn't ended."""
    *lines, rest = output.decode("utf-8", "surrogateescape").split("\n")
    if rest:
        raise _refuse_line(rest)
    return lines


def parse_faults(output: bytes) -> Explained:
    """The faults of lines that the program printed, at least one."""
    return _parse_faults(_split_lines(output))


def explain(program: str, text: bytes, with_bids: bool = False) -> Explained:
    """What `wdp explain` finds in an input; with bids, which of them are in no program."""
    command = [program, "explain", "--json"]
    if with_bids:
        command.append("--bids")
    ended = run_process(command, text, Limits(_MOST_OF_ANSWER))
    has_lines = bool(ended.output)
    is_accepted = ended.status == 0 and (with_bids or not has_lines)
    has_faults = ended.status == 1 and has_lines
    if ended.messages or not (is_accepted or has_faults):
        why = (ended.messages.splitlines() or [f"it ended with status {ended.status}"])[0]
        raise Refused(f"wdp explain: {why}")
    if has_faults:
        return parse_faults(ended.output)
    lines = _split_lines(ended.output)
    return Explained(bids=[_parse_line(line, _read_left_out) for line in lines])
