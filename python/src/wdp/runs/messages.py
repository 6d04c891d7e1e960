"""What a run says of its groups and of how it ends."""
import shlex
from collections.abc import Mapping, Sequence
from pathlib import Path

from wdp.office.faults import format_count
from wdp.runs.contents import FIRST_GROUP
from wdp.runs.means import Means

_MOST_NAMED = 4  # files that a message names
NOT_PRICED = "no prices; the next run looks for them again, and --no-prices leaves them out"
OLD_PRICES = "the prices in the folder are of version 1: they are found anew, by the rule"
NOT_ALL_TIES = (
    "not proved: whether others can win with the total of group 1, since the search didn't end"
)


def format_begin(*, count: int, left: int, columns: int, jobs: int, means: Means) -> str:
    """How many groups there are, and how those that are left are done: so many at a time, and how
    many columns a program has.
    """
    are_done = f"{format_count(count, 'group')}, {count - left} done"
    manner = f"{jobs} at a time, by {means.solver_name}"
    size = "1 column" if columns == 1 else f"{columns:,} columns"
    more = f"; {size} with nobody left out" if left else ""
    return f"{are_done}, {manner}{more}"


def format_made_again(missing: Sequence[str]) -> str:
    """That files are made again of which it was left that they were there."""
    named = ", ".join(missing[:_MOST_NAMED])
    if len(missing) > _MOST_NAMED:
        named += f" and {len(missing) - _MOST_NAMED} more"
    are = "isn't" if len(missing) == 1 else "aren't"
    return f"{named} {are} there any more: what is needed is made again"


def format_lack_of_memory(jobs: int, wanted: int) -> str:
    """That not as many jobs are done at a time as were wanted."""
    return f"{jobs} at a time and not {wanted}, for which there isn't memory enough"


def format_missing(
    groups: Mapping[int, str], missing: Sequence[int], late_seconds: float | None
) -> str:
    """Names the groups that aren't done, and if their time was over after so many seconds the
    option that would help.
    """
    listed = ", ".join(f"{group} ({groups[group]})" for group in missing)
    which = f"{len(missing)} of {len(groups)} groups are missing: {listed}"
    hint = ""
    if late_seconds:
        hint = f"; run again, with --time-limit {2 * late_seconds} for twice the time"
    return f"no {'report' if FIRST_GROUP in groups else 'prices'}: {which}{hint}"


def format_certified(report: Path | None, audit: Path) -> str:
    """That the totals are certified, and if the report is kept where it is and what prints it
    again.
    """
    if report is None:
        return "each total is certified"
    again = f"wdp verify < {shlex.quote(str(audit))} prints it again"
    return f"each total is certified: the report is {report}, and {again}"


def format_uncertified(report: Path | None) -> str:
    """That the totals aren't certified, and where the report is if it is kept."""
    which = "" if report is None else f"; the report is {report}"
    return f"not certified: nothing shows that these totals are the greatest ones{which}"
