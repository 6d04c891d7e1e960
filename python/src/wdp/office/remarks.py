"""What is to be said of the cells of a workbook's sheet: faults, and what the receipt names."""
from collections.abc import Sequence
from dataclasses import dataclass, field

from wdp.office.cells import MOST_NAMED, Area, Values
from wdp.office.faults import format_count
from wdp.office.sheets import File

_MOST_REASONS = 100  # that are kept one by one
_OTHER_REASON = "its look isn't known to show it as it is"


def _list_cells(cells: Sequence[str]) -> str:
    """Cells as a line names them."""
    rest = len(cells) - MOST_NAMED
    more = f" and {rest:,} more" if rest > 0 else ""
    return ", ".join(cells[:MOST_NAMED]) + more


@dataclass
class _Fault:
    """Why cells aren't known to be seen as they are."""

    why: str
    cells: list[str] = field(default_factory=list)


@dataclass
class Remarks:
    """Why cells aren't known to be seen as they are, each reason with its cells; and cells that
    have a value of a formula, or of one of another cell, look different from others, are wider than
    their column, have a comment, or are under a condition or a drawing.
    """

    faults: dict[str, _Fault] = field(default_factory=dict)
    formulas: list[str] = field(default_factory=list)
    spilled: list[str] = field(default_factory=list)
    narrow: list[str] = field(default_factory=list)
    conditions: list[Area] = field(default_factory=list)
    comments: list[str] = field(default_factory=list)
    drawings: list[Area] = field(default_factory=list)

    def add_fault(self, cell: str, why: str, kind: str = "") -> None:
        """Adds why a cell isn't known to be seen as it is. The cells of a kind have the words of the
        first of them.
        """
        key = kind or why
        if key not in self.faults and len(self.faults) >= _MOST_REASONS:
            key = why = _OTHER_REASON
        self.faults.setdefault(key, _Fault(why)).cells.append(cell)

    def add_to(self, file: File, title: str, values: Values) -> None:
        """Adds the faults to those of a file, each at its first cell, and the rest to its changes."""
        for fault in self.faults.values():
            first, *rest = fault.cells
            more = f"; the same of {_list_cells(rest)}" if rest else ""
            file.add_fault(f"{title}!{first}", fault.why + more)
        taken = dict.fromkeys([*self.formulas, *self.spilled])
        if taken:
            count = format_count(len(self.formulas), "formula")
            whose = "their" if len(self.formulas) > 1 else "its"
            values_of_it = "value" if len(taken) == 1 else "values"
            whose = f"{whose} stored {values_of_it}"
            file.changes.append(f"{count} taken by {whose}: {_list_cells([*taken])}")
        named = {
            "cell|with another look than most of the column": values.list_different(),
            "number|wider than the column": self.narrow,
            "cell|under a condition that may change the look": values.list_within(self.conditions),
            "cell|with a comment": values.list_present(self.comments),
            "cell|under a drawing": values.list_within(self.drawings),
        }
        for text, cells in named.items():
            thing, _, what = text.partition("|")
            if cells:
                count = format_count(len(cells), thing)
                file.add_warning(f"{count} {what}: {_list_cells(cells)}")
