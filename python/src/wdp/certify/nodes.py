"""The nodes of a search tree, each with the cuts on the way to it."""
from dataclasses import dataclass, field, replace

from wdp.certify.layout import Array, Layout


@dataclass(frozen=True, eq=False)
class Cut:
    """None of these columns is 1, or on the other side, which is high, one of them at least."""

    places: Array
    is_high: bool


@dataclass(frozen=True, eq=False)
class Node:
    """The cuts on the way to a node, and what they leave.

    `allowed` says which columns may still be 1. `forced` has the blocks that have to win, each with
    the place on the way of the cut that says so.
    """

    allowed: Array
    path: tuple[Cut, ...] = ()
    forced: dict[int, int] = field(default_factory=dict)

    def exclude(self, places: Array) -> "Node":
        """The side on which none of these columns is 1."""
        allowed = self.allowed.copy()
        allowed[places] = False
        path = (*self.path, Cut(places, is_high=False))
        return Node(allowed, path=path, forced=self.forced)

    def require(self, layout: Layout, places: Array) -> "Node":
        """The side on which one of these columns is 1; they are of one block."""
        block = int(layout.blocks.of_columns[places[0]])
        allowed = self.allowed.copy()
        allowed[layout.blocks.members[block]] = False
        allowed[places] = self.allowed[places]
        path = (*self.path, Cut(places, is_high=True))
        forced = {**self.forced, block: len(self.path)}
        return Node(allowed, path=path, forced=forced)

    def require_any(self, places: Array) -> "Node":
        """The side on which one of these columns is 1, whatever their blocks; what is allowed stays
        as it is.
        """
        return replace(self, path=(*self.path, Cut(places, is_high=True)))

    def follow(self, layout: Layout, cut: Cut) -> "Node":
        """The side of a cut; if that is high, its columns are of one block."""
        return self.require(layout, cut.places) if cut.is_high else self.exclude(cut.places)
