"""An audit: the awards that it lists, and the input at its end.

The awards are group 1's solution, and the solutions that tie with it, numbered as they were found.
If another than award 1 is first, a comment at the head of each of these solutions, as `# award 3`,
says its number: it is by these numbers that one is drawn.

The groups that were added to those of the input, to show the prices, come last, and a comment at
the head of the solution of each says so.
"""
import re
from collections.abc import Iterable, Sequence
from dataclasses import dataclass

from wdp.awards import KnownAwards
from wdp.office.findings import LeftOutBid
from wdp.results import Allocation, Winner
from wdp.texts.accepted import KINDS
from wdp.texts.parts import Part, find_end_of_groups, list_groups, parse_parts
from wdp.texts.refusals import Refused

# bytes of an audit: the input, and solutions and certificates of each group
MOST_OF_AUDIT = 2**31
# kinds of parts; `weights` is of an earlier version
_KINDS_OF_PRICES = ("prices", "cover", "rule", "weights")
_MARK = re.compile(rb"# award ([1-9][0-9]?)\n")
# of the solution of a group that was added; by the second, the line before its own was ended
_ADDED = b"# added\n"
_ADDED_TO_UNENDED = b"# added after an unended line\n"


@dataclass(frozen=True)
class _Award:
    """A solution of an audit that is an award of group 1: the index of its part, the award's
    number, and the solution without the comment that says the number.
    """

    index: int
    number: int
    solution: bytes


def join_parts(parts: Iterable[Part]) -> bytes:
    """The text of parts, with their head lines."""
    return b"".join(part.head + part.text for part in parts)


def remove_prices(audit: bytes) -> bytes:
    """The audit without its prices and what shows them, as this version has them or an earlier
    one.
    """
    return join_parts(part for part in parse_parts(audit) if part.kind not in _KINDS_OF_PRICES)


def is_audit(text: bytes) -> bool:
    """Whether a text has certificates, as audits and no inputs have."""
    return any(part.kind == "certificate" for part in parse_parts(text))


def refuse_audit(text: bytes, name: str) -> None:
    """Raises Refused if the text of this file is an audit, and no input."""
    if is_audit(text):
        shown = f"wdp-office results {name} --output DIR makes its tables and page"
        raise Refused(f"{name} is an audit, which has its winners, and no input; {shown}")


def mark_added(solutions: Iterable[bytes], data: bytes) -> list[bytes]:
    """The solutions of the groups that were added to an input, with the comments that say so."""
    is_ended = data.endswith(b"\n", 0, find_end_of_groups(data))
    first = _ADDED if is_ended else _ADDED_TO_UNENDED
    return [(_ADDED if index else first) + solution for index, solution in enumerate(solutions)]


def find_input(audit: bytes, name: str) -> bytes:
    """The input at the end of an audit, without the groups that comments say were added to it.
    Comments that can't be right count for nothing. `name` is the audit's file.

    Raises Refused if the audit doesn't end with an input.
    """
    parts = list(parse_parts(audit))
    first = next((index for index, part in enumerate(parts) if part.kind in KINDS), 0)
    if not first or any(part.kind not in KINDS for part in parts[first:]):
        raise Refused(f"{name}: it doesn't end with the input, after solutions and certificates")
    data = audit[parts[first - 1].end :]
    solutions = [part.text for part in parts if part.kind == "solution"]
    added = [text for text in solutions if text.startswith((_ADDED, _ADDED_TO_UNENDED))]
    has_own = len(added) < len(list_groups(data)) == len(solutions)
    if not added or not has_own or added != solutions[-len(added) :]:
        return data
    end = find_end_of_groups(data)
    kept = b"".join(data[:end].splitlines(keepends=True)[: -len(added)])
    if added[0].startswith(_ADDED_TO_UNENDED):
        kept = kept.removesuffix(b"\n")
    return kept + data[end:]


def find_mark(solution: bytes) -> bytes:
    """The line that says which award a solution is, or that its group was added; nothing if it has
    none.
    """
    if match := _MARK.match(solution):
        return match[0]
    return next((mark for mark in (_ADDED, _ADDED_TO_UNENDED) if solution.startswith(mark)), b"")


def _list_awards(parts: Sequence[Part]) -> list[_Award]:
    """The awards in the order of an audit's parts.

    Their numbers are those of the comments if these number all awards, and else count them.
    """
    solutions = [index for index, part in enumerate(parts) if part.kind == "solution"]
    ties = [index for index, part in enumerate(parts) if part.kind == "tie"]
    indices = [*solutions[:1], *ties]
    marks = [_MARK.match(parts[index].text) for index in indices]
    numbers = [int(mark[1]) for mark in marks if mark]
    counted = list(range(1, len(indices) + 1))
    if sorted(numbers) != counted:
        numbers = counted
    awards = []
    for index, number in zip(indices, numbers, strict=True):
        text = parts[index].text
        solution = text.removeprefix(find_mark(text))
        awards.append(_Award(index=index, number=number, solution=solution))
    return awards


def list_numbers(audit: bytes) -> list[int]:
    """The numbers of the awards that an audit lists, in its order."""
    return [award.number for award in _list_awards(list(parse_parts(audit)))]


def put_first(audit: bytes, number: int) -> bytes:
    """The audit with the award of this number first and the others after it by their numbers.

    It has no prices: those of another award aren't its own.
    """
    parts = list(parse_parts(remove_prices(audit)))
    awards = _list_awards(parts)
    ordered = sorted(awards, key=lambda award: (award.number != number, award.number))
    texts = [part.text for part in parts]
    for award, before in zip(ordered, awards, strict=True):
        mark = b"# award %d\n" % award.number if number != 1 else b""
        texts[before.index] = mark + award.solution
    order = [awards.index(award) for award in ordered]
    for index, part in enumerate(parts):
        if part.kind == "unique":
            texts[index] = _reorder_points(part.text, order)
    return b"".join(part.head + text for part, text in zip(parts, texts, strict=True))


def _reorder_points(unique: bytes, order: Sequence[int]) -> bytes:
    """The certificate that there are no other points, if these come in another order: the first
    multipliers of a leaf are those of the points.
    """
    return b"\n".join(_reorder_multipliers(line, order) for line in unique.split(b"\n"))


def _reorder_multipliers(line: bytes, order: Sequence[int]) -> bytes:
    """A line of a certificate, of which the first multipliers are these of the old ones, if it is a
    leaf's.
    """
    fields = line.split()
    if fields[:1] != [b"bound"]:
        return line
    multipliers = fields[2 : 2 + len(order)]
    rest = fields[2 + len(order) :]
    return b" ".join([*fields[:2], *(multipliers[index] for index in order), *rest])


def find_left_out_bid(award: Allocation, left_out: Iterable[LeftOutBid]) -> Winner | None:
    """The first winning bid of an award that is in no program; None if there is none."""
    bids = {(bid.bidder, bid.bid) for bid in left_out}
    return next((winner for winner in award.winners if (winner.bidder, winner.bid) in bids), None)


def check_first(
    number: int,
    awards: Sequence[Allocation],
    left_out: Iterable[LeftOutBid],
    *,
    are_all: bool,
) -> None:
    """Raises WrongArgument if there is no award of this number among these, which may be all, and
    Refused if no audit can have it first.
    """
    KnownAwards(len(awards), are_all).check_number(number)
    if winner := find_left_out_bid(awards[number - 1], left_out):
        why = f"bid {winner.bid} of {winner.bidder} is in no program"
        raise Refused(f"award {number} can't be the first of an audit: {why}")
