"""What the program prints, read by docs/REFERENCE.md: an answer with anything more or less is
refused.
"""
import io
import math
import re
from collections.abc import Iterable, Iterator, Sequence
from contextlib import suppress
from fractions import Fraction
from functools import cached_property
from itertools import groupby, islice

from wdp.results import Allocation, Counts, Group, Prices, Report, Winner
from wdp.texts.accepted import Bid, parse_form
from wdp.texts.parts import list_groups, list_names, parse_parts
from wdp.texts.refusals import Unclear, escape

_NAME = "[A-Za-z][A-Za-z0-9]{0,15}"
_HEAD = rf"([1-9][0-9]{{0,3}}) (-|{_NAME}(?:\+{_NAME})*)\n"
_TOTAL = "(0|[1-9][0-9]{0,29})\n"
_WINNERS = rf"(?:{_NAME} [1-9][0-9]{{0,3}} [1-9][0-9]{{0,12}}\n)*"
WON = rf"({_WINNERS})total {_TOTAL}"  # the winners and the total of a group or an allocation
_SIZE = "(0|[1-9][0-9]{0,17})"
_BEGIN_OF_PROGRAM = b"* program "
_PROGRAM = re.compile(rf"\* program {_HEAD}")
_ALLOCATION = re.compile(WON)
_GROUP = re.compile(rf"group {_HEAD}{WON}cost (0|-?[1-9][0-9]{{0,29}})\n")
_WHOLE = "(?:0|[1-9][0-9]{0,29})"
_FRACTION = "[1-9][0-9]{0,29}/[1-9][0-9]{0,6}"
# (the last of the lines of names and numbers is the sum's, whatever the winners are called)
_PAID = rf"{_NAME} {_WHOLE}(?: {_FRACTION})?\n"
_PRICES = re.compile(
    rf"prices\n((?:{_PAID})*)sum ({_WHOLE})(?: ({_FRACTION}|{_WHOLE}))?\n(by the rule\n)?"
)
_TIE = re.compile(rf"tie\n{WON}")
_TIES = re.compile(rf"((?:tie\n{_WINNERS}total {_WHOLE}\n)*)(?:(unique|no other|and more)\n)?")
_COUNTS = re.compile(rf"rows {_SIZE} columns {_SIZE} entries {_SIZE}\n")
_END = re.compile(r"\Z")

MOST_TIES = 64  # that an input lists beside group 1's solution, and that the program prints
# bytes that a group has at most in a report: 256 winners of 36 bytes, as many names, and two lines
MOST_OF_GROUP = 16_384
# bytes that a byte of a form has at most in a program: a bid of 4 bytes loads 16 pools, in as many
# lines of 27 bytes, and has four lines more
_MOST_OF_BYTE = 140


class ExpectedAnswer:
    """What an answer to an input has to agree with: the input's groups, whether it gives prices,
    how many solutions of group 1 it says tie, whether it claims that these are all, and how many
    bytes an answer has at most. The lots of winners come from the input's bids.
    """

    def __init__(self, data: bytes) -> None:
        parts = list(parse_parts(data))
        kinds = [part.kind for part in parts]
        self.is_priced = "prices" in kinds
        self.has_unique = "unique" in kinds
        self.ties = kinds.count("tie")
        self.groups = [set(line.split("+")) - {"-"} for line in list_groups(data)]
        count = len(self.groups) + 2
        ties = MOST_TIES if self.has_unique else self.ties
        self.most_of_report = (count + ties) * MOST_OF_GROUP
        self.most_of_programs = count * (MOST_OF_GROUP + _MOST_OF_BYTE * len(data))
        rules = (row for part in parts if part.kind == "rules" for row in part.rows())
        self._categories = list_names(rules, "category")
        self._forms = [part for part in parts if part.kind == "form"]

    @cached_property
    def _bids(self) -> dict[str, list[Bid]]:
        """The bids of each bidder's last form; none if no proved program takes these forms."""
        with suppress(ValueError):
            return dict(parse_form(form.rows()) for form in self._forms)
        return {}

    def _find_lots(self, bidder: str, number: int) -> dict[str, int]:
        """The lots of a bid by category; none if the input has no such bid."""
        bids = self._bids.get(bidder, [])
        if number > len(bids):
            return {}
        lots = zip(self._categories, bids[number - 1].lots, strict=False)
        return {category: count for category, count in lots if count}

    def parse_winners(self, lines: str) -> tuple[Winner, ...]:
        """The winners in lines of an answer, each with the lots of its bid."""
        winners = []
        for line in lines.splitlines():
            bidder, number, amount = line.split()
            winner = Winner(
                bidder=bidder,
                bid=int(number),
                amount=int(amount),
                lots=self._find_lots(bidder, int(number)),
            )
            winners.append(winner)
        return tuple(winners)


def _make_unclear(why: str) -> Unclear:
    return Unclear("the program's answer isn't as docs/REFERENCE.md says: " + escape(why))


def _match_pieces(output: bytes, patterns: Sequence[re.Pattern[str]]) -> list[re.Match[str]]:
    """The pieces of an answer, which have to match these patterns one after the other, and nothing
    more; Unclear if they don't.
    """
    text = output.decode("ascii", "replace")
    pieces: list[re.Match[str]] = []
    position = 0
    for pattern in [*patterns, _END]:
        piece = pattern.match(text, position)
        if piece is None:
            number = text.count("\n", 0, position) + 1
            line = text[position:].split("\n")[0]
            raise _make_unclear(f"from line {number} on, '{line}'")
        pieces.append(piece)
        position = piece.end()
    return pieces


def _parse_head(
    number: str, names: str, *, group: int, expected: ExpectedAnswer
) -> tuple[str, ...]:
    """The names in the heading of a group; Unclear if the heading isn't that of this group of the
    input.
    """
    left_out = () if names == "-" else tuple(names.split("+"))
    if int(number) != group or set(left_out) != expected.groups[group - 1]:
        raise _make_unclear(f"in place of group {group} there is: {number} {names}")
    return left_out


def split_programs(
    lines: Iterable[bytes], expected: ExpectedAnswer
) -> Iterator[tuple[tuple[str, ...], bytes]]:
    """The names that each group leaves out and its program, in the lines that `wdp compile` prints.

    Raises Unclear at the first one that isn't there, or isn't complete.
    """
    count = 0
    left_out: tuple[str, ...] | None = None
    for is_head, piece in groupby(lines, lambda line: line.startswith(_BEGIN_OF_PROGRAM)):
        if is_head:
            left_out = _parse_program_head(list(piece), group=count + 1, expected=expected)
        elif left_out is None:
            raise _make_unclear("it doesn't begin with a program")
        else:
            count += 1
            text = io.BytesIO()
            text.writelines(piece)  # (as a list they would take four times the memory)
            yield left_out, _check_program(text.getvalue(), group=count)
    if count != len(expected.groups):
        raise _make_unclear(f"it has {count} programs, for {len(expected.groups)} groups")


def _parse_program_head(
    lines: Sequence[bytes], *, group: int, expected: ExpectedAnswer
) -> tuple[str, ...]:
    """The names in the line before a group's program, of which there has to be one."""
    if group > len(expected.groups):
        raise _make_unclear(f"it has more programs than groups, {len(expected.groups)}")
    head = _PROGRAM.fullmatch(lines[0].decode("ascii", "replace"))
    if head is None or len(lines) > 1:
        raise _make_unclear(f"program {group} isn't complete")
    return _parse_head(head[1], head[2], group=group, expected=expected)


def _check_program(text: bytes, *, group: int) -> bytes:
    """The text of a group's program; Unclear if it isn't complete."""
    is_complete = text.startswith(b"NAME wdp\nROWS\n") and text.endswith(b"\nENDATA\n")
    if not is_complete or not text.isascii():
        raise _make_unclear(f"program {group} isn't complete")
    return text


def read_map(output: bytes, expected: ExpectedAnswer) -> Allocation:
    """The allocation that `wdp map` prints; Unclear if it is none."""
    lines, total = _match_pieces(output, [_ALLOCATION])[0].groups()
    return Allocation(expected.parse_winners(lines), int(total))


def read_report(output: bytes, expected: ExpectedAnswer, is_certified: bool) -> Report:
    """The report that `wdp report` prints, or if it is certified `wdp verify`; Unclear if it isn't
    one of this input.
    """
    patterns = [_GROUP] * len(expected.groups)
    if expected.is_priced:
        patterns.append(_PRICES)
    patterns.append(_TIES)
    pieces = iter(_match_pieces(output, patterns))
    groups = [
        _parse_group(next(pieces), number, expected)
        for number in range(1, len(expected.groups) + 1)
    ]
    prices = _parse_prices(next(pieces), groups[0].winners) if expected.is_priced else None
    text, ending = next(pieces).groups()
    ties = [
        Allocation(expected.parse_winners(lines), int(total)) for lines, total in _TIE.findall(text)
    ]
    _check_ending(len(ties), ending, expected)
    if any(tie.total != groups[0].total for tie in ties):
        raise _make_unclear("a tie hasn't the total of group 1")
    return Report(
        groups=tuple(groups),
        is_certified=is_certified,
        ties=tuple(ties),
        has_all_awards=ending in ("unique", "no other"),
        prices=prices,
    )


def _parse_group(piece: re.Match[str], group: int, expected: ExpectedAnswer) -> Group:
    """The outcome of a group, by its number from 1."""
    number, names, lines, total, cost = piece.groups()
    return Group(
        winners=expected.parse_winners(lines),
        total=int(total),
        number=group,
        names=_parse_head(number, names, group=group, expected=expected),
        cost=int(cost),
    )


def _check_ending(count: int, ending: str | None, expected: ExpectedAnswer) -> None:
    """Raises Unclear if so many ties with this line after them can't follow from what the input
    claims.
    """
    least, most = {
        None: (expected.ties, expected.ties),
        "unique": (expected.ties, 0),
        "no other": (max(expected.ties, 1), MOST_TIES),
        "and more": (MOST_TIES, MOST_TIES),
    }[ending]
    if (ending is not None) != expected.has_unique or not least <= count <= most:
        lines = f"{count} ties and {ending!r}" if ending else f"{count} ties"
        raise _make_unclear(f"it ends with {lines}, and the input has {expected.ties}")


def _parse_prices(piece: re.Match[str], winners: Sequence[Winner]) -> Prices:
    """What follows a report if the input gives prices: one for each winner of group 1."""
    lines, total, exact_total, by_rule = piece.groups()
    paid: dict[str, int] = {}
    exact: dict[str, Fraction] = {}
    for name, price, *fraction in (line.split() for line in lines.splitlines()):
        paid[name] = int(price)
        exact[name] = Fraction(fraction[0] if fraction else price)
    if list(paid) != [winner.bidder for winner in winners]:
        raise _make_unclear("the prices aren't those of the winners of group 1, in their order")
    prices = Prices(paid=paid, exact=exact, is_by_rule=bool(by_rule))
    is_sum = prices.total == int(total) and prices.exact_total == Fraction(exact_total or total)
    if not is_sum or any(paid[name] != math.ceil(price) for name, price in exact.items()):
        raise _make_unclear(
            "what is paid isn't the exact prices rounded up, or the sum isn't theirs"
        )
    return prices


def cut_report(output: bytes, count: int) -> bytes:
    """What a report says of its first groups, which are `count`; what follows is cut off: of other
    groups, of prices and of ties.
    """
    end = 0
    for group in islice(_GROUP.finditer(output.decode("ascii", "replace")), count):
        end = group.end()
    return output[:end]


def read_counts(output: bytes) -> Counts:
    """The size of a program, as `wdp check` prints it; Unclear if it is none."""
    rows, columns, entries = map(int, _match_pieces(output, [_COUNTS])[0].groups())
    return Counts(rows=rows, columns=columns, entries=entries)
