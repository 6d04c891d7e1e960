"""The input of a round whose forms a desk has taken in, with groups."""
from pathlib import Path

from wdp import files
from wdp.office.reading import read_groups
from wdp.program import Limits, ask
from wdp.texts.parts import MOST_OF_INPUT, list_names, parse_parts
from wdp.texts.refusals import Refused
from wdp.texts.tables import encode

INPUT = "input.txt"
FORMS = "forms.txt"
OPENINGS = "openings.txt"
_MOST_OF_FORMS = 1024 * 1024


def format_digests(program: str, data: bytes) -> bytes:
    """The digests of an input's rules and forms, as `wdp forms` prints them."""
    return ask(program, ["forms"], data, limits=Limits(_MOST_OF_FORMS))


def read_settled(program: str, where: Path, groups: str | None = None) -> bytes:
    """The input in the folder that `desk open` wrote, with the groups of a file, or each bidder
    alone. Refused if its forms aren't those that were opened.
    """
    path = str(where / INPUT)
    data = files.read(path, MOST_OF_INPUT, regular=True)
    opened = files.read(str(where / FORMS), _MOST_OF_FORMS, regular=True)
    if format_digests(program, data) != opened:
        raise Refused(f"{path}: its forms aren't those of {where / FORMS}")
    rows = (row for part in parse_parts(data) if part.kind == "rules" for row in part.rows())
    made = read_groups([groups or "each"], list_names(rows, "bidder"), allowed=())
    if made.faults:
        raise Refused(str(made.faults[0]))
    return data + encode(f"%groups\n{made.text}")
