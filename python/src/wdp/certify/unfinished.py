"""A tree that a search didn't finish, as a text, from which another search goes on."""
from collections.abc import Iterable
from dataclasses import dataclass

import numpy as np

from wdp.certify.layout import Layout
from wdp.certify.nodes import Cut, Node

_Path = tuple[Cut, ...]


@dataclass(frozen=True)
class Unfinished:
    """Multipliers of rows that the search added, the lines of its certificate so far, and what is
    open, the next first: the line of a leaf, or None for a subtree.
    """

    rows: list[str]
    lines: list[str]
    open: list[str | None]

    def format(self) -> str:
        """The text from which `parse` makes the same."""
        lines = [f"row {row}" for row in self.rows]
        lines += self.lines
        lines += ["visit" if line is None else f"leaf {line}" for line in self.open]
        return "".join(f"{line}\n" for line in lines)

    @classmethod
    def parse(cls, text: str) -> "Unfinished":
        """What `format` wrote."""
        unfinished = cls(rows=[], lines=[], open=[])
        for line in text.splitlines():
            kind, _, rest = line.partition(" ")
            if kind == "row":
                unfinished.rows.append(rest)
            elif kind == "visit":
                unfinished.open.append(None)
            elif kind == "leaf":
                unfinished.open.append(rest)
            else:
                unfinished.lines.append(line)
        return unfinished

    def list_subtrees(self, layout: Layout) -> list[Node]:
        """The nodes of the open subtrees, the next one last."""
        paths = _find_open_paths(layout, self.lines)
        pairs = zip(paths, reversed(self.open), strict=True)
        return [_follow(layout, path) for path, line in pairs if line is None]


def _find_open_paths(layout: Layout, lines: Iterable[str]) -> list[_Path]:
    """The ways to what these lines leave open, of which the last is the next to be written."""
    paths: list[_Path] = [()]
    for line in lines:
        path = paths.pop()
        kind, _, *fields = line.split()
        if kind == "split":
            places = np.array([layout.program.column_places[name] for name in fields[::2]], int)
            paths.append((*path, Cut(places, is_high=True)))
            paths.append((*path, Cut(places, is_high=False)))
    return paths


def _follow(layout: Layout, path: _Path) -> Node:
    """The node at the end of a way."""
    node = Node(layout.is_open.copy())
    for cut in path:
        node = node.follow(layout, cut)
    return node
