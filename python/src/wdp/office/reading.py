"""The files of an auction, each for itself: rules, forms, and groups, read as spreadsheets write
them.
"""
import re
from collections.abc import Collection, Iterable, Sequence
from dataclasses import dataclass, field

from wdp.files import Unreadable, read
from wdp.office.faults import Fault
from wdp.office.sheets import AS_HEADS, MOST_OF_A_FILE, File, parse_lines, parse_table
from wdp.office.workbooks import read_workbook
from wdp.texts.accepted import AcceptedRules
from wdp.texts.answers import WON
from wdp.texts.parts import MOST_OF_INPUT, make_group_rows
from wdp.texts.tables import TableRow, decode

# records of rules and of a form, and lines of groups, with one that is too many: what follows is a
# fault whatever it says
_MOST_OF_RULES = 1 + 32 + 256 + 16 + 16 * 32 + 1
MOST_OF_A_FORM = 1 + 4_000 + 1
_MOST_OF_GROUPS = 1_024 + 1
_MOST_OF_A_TITLE = 20  # rows, of which one may be the first row of the table
# the first group of a report, or an allocation as `wdp map` prints it
_FIRST_GROUP = re.compile(rf"(?:group 1 .*\n)?{WON}")
_NO_WINNERS = "it doesn't begin with winners and a total, as reports do; perhaps it was cut off"
_NOBODY_FIRST = "the first line has to be -, the group of nobody: costs are measured against it"
_WHOLE_INPUT = "it is a whole input of wdp, and not its rules alone"
_UNENDED = "has no line end, as in a file that was cut off"


def _is_workbook(path: str) -> bool:
    return path.lower().endswith(".xlsx")


def _parse_bytes(
    path: str, data: bytes, most: int, *, heads: Collection[str], sheet: str | None
) -> File:
    """The rows of a table, at most so many: of a workbook, whose rows begin with one of these
    heads, if the name ends in .xlsx.
    """
    if _is_workbook(path):
        return read_workbook(path, data, most, sheet=sheet, heads=heads)
    return parse_table(path, data, most, kinds=".xlsx or CSV")


def _check_first_row(file: File, heads: Collection[str], wanted: str) -> None:
    """Raises Unreadable if a row below the first one begins as that one has to: what is above it is
    perhaps a title.
    """
    if not file.rows or file.rows[0].values[0] in heads:
        return
    for row in file.rows[1:_MOST_OF_A_TITLE]:
        if row.values[0] in heads:
            why = f"{wanted}, and row {row.line} does: delete what is above it"
            raise Unreadable(f"{file.path}:{file.rows[0].place()}", why)


def read_rules_file(path: str, sheet: str | None = None, *, regular: bool = True) -> File:
    """The rows of the rules, each with the fields that the version wants. Raises Unreadable."""
    data = read(path, MOST_OF_A_FILE, regular=regular)
    file = _parse_bytes(path, data, _MOST_OF_RULES, heads=["rules"], sheet=sheet)
    if file.rows and file.rows[0].values[0].strip() == "%rules":
        raise Unreadable(path, f"{_WHOLE_INPUT}; wdp-office explain {path} takes it")
    _check_first_row(file, ["rules"], "rules begin with rules")
    first = file.rows[0].values if file.rows else []
    width = 5 if first[1:2] == ["1"] else 6
    for row in file.rows if _is_workbook(path) else ():
        # (the rows of a sheet have no number of fields)
        lacking = width - len(row.values)
        row.places = [*row.places, *[row.place(width)] * lacking]
        row.values += [""] * lacking
    file.trim(width)
    return file


def read_form_file(path: str, rules: AcceptedRules, sheet: str | None = None) -> File:
    """The rows of a form under these rules. Raises Unreadable."""
    return parse_form_file(path, read(path, MOST_OF_A_FILE, regular=True), rules, sheet)


def parse_form_file(path: str, data: bytes, rules: AcceptedRules, sheet: str | None = None) -> File:
    """The rows of a form's bytes under these rules, as of a file at this path. Raises Unreadable."""
    file = _parse_bytes(path, data, MOST_OF_A_FORM, heads=rules.bidders, sheet=sheet)
    _check_first_row(file, rules.bidders, "a form begins with the bidder's name")
    file.trim(len(rules.categories) + 1)
    return file


def check_end(file: File, name: str, allowed: Collection[str], what: str = "row") -> list[Fault]:
    """What is wrong with a file's last line, which may have been cut off: the names in `allowed`
    have to name a file of which that may be so, and no other.
    """
    if not file.rows:
        return []
    if not file.is_ended and name not in allowed:
        hint = f"say --allow-unended {name[:40]} if it is complete"
        return [Fault(f"{file.path}:{file.rows[-1].line}", f"the last {what} {_UNENDED}; {hint}")]
    if file.is_ended and name in allowed:
        text = f"the last {what} has its line end; --allow-unended names {name}"
        return [Fault(file.path, text)]
    return []


@dataclass
class Groups:
    """Groups: their lines as rows of names, the file that they come from, and what is wrong with
    them before the program reads them.
    """

    rows: list[TableRow] = field(default_factory=list)
    file: File | None = None
    faults: list[Fault] = field(default_factory=list)

    @property
    def text(self) -> str:
        """The lines as the program reads them."""
        return format_groups(self.rows)


def read_groups_file(path: str, *, regular: bool = True) -> File:
    """The lines of a file of groups. Raises Unreadable."""
    return parse_lines(path, read(path, MOST_OF_A_FILE, regular=regular))


def read_groups(rule: Sequence[str], bidders: Sequence[str], allowed: Collection[str]) -> Groups:
    """The groups of a file, or those of a rule: `each`, or `winners FILE`.

    `allowed` is that of `check_end`. Raises Unreadable.
    """
    path = rule[-1]
    if rule[0] == "each":
        return Groups(_make_alone(bidders))
    if rule[0] == "winners":
        data = read(path, MOST_OF_INPUT)
        report = _FIRST_GROUP.match(decode(data))
        if not report:
            raise Unreadable(path, _NO_WINNERS)
        winners = [line.split()[0] for line in report[1].splitlines()]
        return Groups(_make_alone(winners), file=File(path, data, changes=["each winner alone"]))
    file = read_groups_file(path, regular=False)
    groups = Groups(file=file, faults=check_end(file, "groups", allowed, what="line"))
    if not file.rows or file.rows[0].values != ["-"]:
        groups.faults.append(Fault(f"{path}:1", _NOBODY_FIRST))
    for row in file.rows[:_MOST_OF_GROUPS]:
        if row.values[0].startswith("%"):
            groups.faults.append(Fault(f"{path}:{row.line}", f"the line {AS_HEADS}"))
        else:
            groups.rows.append(row)
    return groups


def _make_alone(names: Sequence[str]) -> list[TableRow]:
    """The group of nobody, and one of each of these bidders alone."""
    return list(make_group_rows(enumerate(["-", *names], 1)))


def format_groups(rows: Iterable[TableRow]) -> str:
    """The lines of groups."""
    return "".join("+".join(row.values) + "\n" for row in rows)
