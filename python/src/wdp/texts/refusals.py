"""Why something isn't done: refusals of the program, read from their documented lines, and those of
this package.
"""
import importlib
import re
from collections.abc import Mapping, Sequence

_LONGEST_TEXT = 500  # characters of a text that a message shows

# a refusal with a kind: a part, its number if there are several, the kind, and the place
_WITH_KIND = re.compile(
    r"wdp: (?P<part>rules|groups|program|unique|tie|prices|cover|rule"
    r"|(?:form|solution|certificate|tie) (?P<number>[0-9]{1,9})): "
    r"(?:(?P<kind_number>[0-9]{1,2}) )?(?P<kind>[A-Z][A-Za-z]+)"
    r"(?: (?!at )(?P<winner>[A-Za-z][A-Za-z0-9]{0,15}))?"
    r"(?: at (?:record (?P<record>[0-9]{1,18})|line (?P<line>[0-9]{1,18})"
    r"|(?:row|column) (?P<name>[A-Za-z0-9_]+)))?"
    r"(?:, (?:earlier bid|column) (?P<field>[0-9]{1,18}))?"
)

# a refusal in words: of a part, perhaps with a number, or else of what is written
_IN_WORDS = re.compile(
    r"wdp: (?:(?P<part>input|groups|tie(?: [0-9]{1,9})?|desk): )?"
    r"(?:read failed|too large|bytes before the first part|wrong answer"
    r"|write failed after [0-9]{1,18} bytes"
    r"|(?:no group|group|part) (?P<number>[0-9]{1,9})(?: is not empty| not known)?"
    r"(?:: %weights is of version 1, .*)?"
    r"|wrong number of (?:rules|groups|solutions|certificates|uniques|ties|prices|covers"
    r"|price rules)"
    r"|total below that of group 1|same winners as (?:group 1|tie [0-9]{1,9}))"
)


def escape(text: str) -> str:
    """The text as one line of at most 500 characters, in which what can't be printed is escaped."""
    return escape_unprintable(shorten(text, _LONGEST_TEXT))


def shorten(text: str, most: int) -> str:
    """The text, or its beginning and dots, with so many characters at most."""
    if len(text) <= most:
        return text
    return text[: most - 3] + "..."


def escape_unprintable(text: str) -> str:
    """The text with each character that isn't printable as its escape: it stays one line, and
    steers no terminal.
    """
    return "".join(
        character if character.isprintable() else character.encode("unicode_escape").decode()
        for character in text
    )


class Refused(ValueError):
    """What was asked for isn't done, and no part of it is given.

    The base of all that this package raises; one line, `text`.

    Each piece of the program's refusal is an attribute, as in docs/REFERENCE.md, or None if the
    line doesn't say it:

    - `part`: input, rules, form, groups, program, solution, certificate, unique, tie, prices,
      cover, rule, output or desk
    - `number`: that of the form, solution, certificate, tie, part of the input or group, from 1
    - `kind_number` and `kind`: 13 and RepeatedPackage
    - `record` of rules or a form, or `line` of another text, from 1, 0 if the text has none; `at`:
      one of these, or the name of the row or column that is broken
    - `field`: the earlier bid from 1, or the column of the program from 0
    - `bidder`: the winner that has no price; and of bids that were given as records, a table or a
      data frame the name in the form, with `row`, the place of the bid in what was given, from 0,
      or None if it is about the form's header, and `column`, `amount` or a category's name, if it
      is about one cell

    >>> refused = Refused("wdp: form 1: 13 RepeatedPackage at record 4, earlier bid 2")
    >>> refused.part, refused.number, refused.record, refused.field
    ('form', 1, 4, 2)
    >>> refused.kind_number, refused.kind
    (13, 'RepeatedPackage')
    >>> Refused("wdp: solution 1: 8 RowBroken at row B1").at
    'B1'
    """

    status: int = 1  # of the command that ends by it

    def __init__(self, text: str, part: str | None = None, number: int | None = None) -> None:
        self.text: str = escape(text)
        super().__init__(self.text)
        match = _WITH_KIND.fullmatch(self.text) or _IN_WORDS.fullmatch(self.text)
        pieces = match.groupdict() if match else {}
        numbers = {
            name: int(value) for name, value in pieces.items() if value and value.isdecimal()
        }
        self.part = part
        self.number = number
        if match:
            name, _, part_number = (pieces["part"] or "output").partition(" ")
            self.part = name
            self.number = int(part_number) if part_number else numbers.get("number")
        self.kind: str | None = pieces.get("kind")
        self.kind_number: int | None = numbers.get("kind_number")
        self.record: int | None = numbers.get("record")
        self.line: int | None = numbers.get("line")
        self.at: int | str | None = numbers.get("record", numbers.get("line", pieces.get("name")))
        self.field: int | None = numbers.get("field")
        self.bidder: str | None = pieces.get("winner")
        self.row: int | None = None
        self.column: str | None = None


class WrongArgument(Refused):
    """What is asked for can't be asked for so: the program's status 2, or records that this package
    can't write.
    """

    status = 2


class NotFound(Refused, FileNotFoundError):
    """The program, a solver or a file isn't there or can't be started."""


class Unclear(Refused):
    """A program was ended, or its answer isn't what docs/REFERENCE.md says."""


class NotSolved(Refused):
    """A solver gave no solution of a program.

    `status` is that of `wdp-office solve`, `group` the group from 1.
    """

    def __init__(self, text: str, status: int = 1, group: int | None = None) -> None:
        super().__init__(text)
        self.status = status
        self.group = group


class Missing(Refused, ImportError):
    """A library of Python that the call needs isn't there."""


def need(purpose: str, *modules: str) -> None:
    """Raises Missing, which says how to install them, if some of the modules that a purpose needs
    aren't there.
    """
    need_all({purpose: modules})


def need_all(purposes: Mapping[str, Sequence[str]]) -> None:
    """Raises Missing, which says in one line how to install them, if some of the modules aren't
    there that these purposes need.
    """
    wants = []
    missing: list[str] = []
    for purpose, modules in purposes.items():
        lacking = [f"python3-{module}" for module in modules if not _is_there(module)]
        if lacking:
            wants.append(f"{purpose} needs Debian's packages {' '.join(lacking)}")
            missing += lacking
    if missing:
        install = " ".join(["apt-get install -y", *dict.fromkeys(missing)])
        raise Missing(f"{', '.join(wants)}: {install}")


def _is_there(module: str) -> bool:
    """Whether a module can be imported."""
    try:
        importlib.import_module(module)
    except ImportError:
        return False
    return True
