"""What the office calls an auction, its bidders and its categories on the page."""
from collections.abc import Collection
from dataclasses import dataclass

from wdp.office.faults import quote
from wdp.office.sheets import read_pairs
from wdp.texts.accepted import AcceptedRules
from wdp.texts.refusals import Refused

TITLE = "Results of the auction"
LONGEST = {"title": 200, "currency": 20}  # characters of what heads the page
_LONGEST_NAME = 100


@dataclass(frozen=True)
class PageOptions:
    """What the office says of a page.

    `title` is the page's heading, and `currency` the unit of all amounts, such as GBP. The file at
    `names_path` has what the office calls bidders and categories; with `regular_names` nothing but
    a regular file is read.
    """

    title: str = TITLE
    currency: str | None = None
    names_path: str | None = None
    regular_names: bool = False


def is_line(text: object, longest: int) -> bool:
    """Whether this is a text for the page: of at least one and at most that many characters, all
    printable.
    """
    return isinstance(text, str) and 0 < len(text) <= longest and text.isprintable()


def read_names(path: str, rules: AcceptedRules, *, regular: bool) -> dict[str, str]:
    """What an office calls bidders and categories, by their names in the rules.

    Raises Refused at the first row that isn't `code,name`.
    """
    codes = {*rules.bidders, *(category.name for category in rules.categories)}
    pairs, faults = read_pairs(
        path,
        "code,name",
        wanted="a code and a name",
        names=codes,
        who="bidder and no category",
        regular=regular,
    )
    if faults:
        raise Refused(str(faults[0]))
    names: dict[str, str] = {}
    for code, row in pairs.items():
        name = row.values[1].strip()
        if why := _find_fault(name, codes=codes - {code}, earlier=names.values()):
            raise Refused(f"{path}:{row.place()}: {why}")
        names[code] = name
    return names


def _find_fault(name: str, *, codes: Collection[str], earlier: Collection[str]) -> str | None:
    """What is wrong with a name beside the codes of others and the names of earlier rows; None if
    it is right.
    """
    if not is_line(name, _LONGEST_NAME):
        return f"{quote(name)} isn't 1 to {_LONGEST_NAME} printable characters"
    if name in codes:
        return f"{quote(name)} is the code of another"
    if name in earlier:
        return f"an earlier row has the name {quote(name)}, too"
    return None
