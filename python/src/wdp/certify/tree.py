"""The tree of a search: what is written of the certificate, and what is to come."""
from dataclasses import dataclass, field

from wdp.certify.bounds import Leaf
from wdp.certify.layout import Array, Layout
from wdp.certify.relaxation import Visit
from wdp.certify.rounding import Inequality
from wdp.certify.unfinished import Unfinished


@dataclass(frozen=True)
class Written:
    """A leaf that an earlier search has shown."""

    line: str

    def format(self) -> str:
        """The line of a certificate."""
        return self.line


@dataclass
class Tree:
    """The lines of a certificate so far, and the tasks that are open, the next one last.

    `rows` has the multipliers of rows that were added, a line each, `head` the splits above the
    root for them, and `tail` the leaves on the second sides of these.
    """

    lines: list[str] = field(default_factory=list)
    tasks: list[Visit | Leaf | Written] = field(default_factory=list)
    rows: list[str] = field(default_factory=list)
    head: list[str] = field(default_factory=list)
    tail: list[str] = field(default_factory=list)

    def clear(self) -> None:
        """Begins below the root again."""
        self.lines = []
        self.tasks = []

    def add_inequalities(self, layout: Layout, inequalities: list[Inequality]) -> None:
        """Begins with splits for these inequalities above the root of a layout."""
        above = len(layout.splits)
        self.rows = [inequality.format_multipliers(layout) for inequality in inequalities]
        self.head = [inequality.format_split(layout) for inequality in inequalities]
        leaves = [
            inequality.format_leaf(layout, above + number)
            for number, inequality in enumerate(inequalities)
        ]
        self.tail = leaves[::-1]

    def write_split(self, layout: Layout, places: Array) -> None:
        """Writes the line of a split into none of these columns and one of them."""
        self.lines.append("split 0 " + " ".join(layout.split_names[places]))

    def write_leaf(self, leaf: Leaf | Written) -> None:
        """Writes the line of a leaf."""
        self.lines.append(leaf.format())

    def format_certificate(self) -> bytes:
        """The text of the certificate, once no task is open."""
        lines = [*self.head, *self.lines, *self.tail]
        return "".join(line + "\n" for line in lines).encode("ascii")

    def format_rows(self) -> str:
        """The multipliers of the rows that were added, a line each."""
        return "".join(f"{row}\n" for row in self.rows)

    def format_unfinished(self) -> str:
        """What the search has come to, for another one to go on from there."""
        left = [None if isinstance(task, Visit) else task.format() for task in self.tasks]
        return Unfinished(rows=self.rows, lines=self.lines, open=left[::-1]).format()
