"""What is known of the awards that reach the greatest total, in a form that every sentence takes:
how many are listed, whether these are all, and which of them holds.
"""
from dataclasses import dataclass

from wdp.office.faults import format_count
from wdp.texts.refusals import Refused, WrongArgument


@dataclass(frozen=True)
class KnownAwards:
    """How many awards are listed, the first one among them, and whether it is proved that these are
    all; else they are at least so many. Award `number` is the one that is spoken of: the first of
    an audit, or the one that was drawn.
    """

    count: int
    are_all: bool
    number: int = 1
    is_drawn: bool = False

    @property
    def is_tie(self) -> bool:
        """Whether another award than one is known."""
        return self.count > 1

    def format_count(self) -> str:
        """How many awards there are: `2 awards`, `at least 2 awards`."""
        count = format_count(self.count, "award")
        return count if self.are_all else f"at least {count}"

    def describe_tie(self) -> str:
        """A sentence about how many awards reach the same total."""
        count = self.format_count()
        return f"{count[0].upper()}{count[1:]} reach the same total."

    def describe_own_tie(self) -> str:
        """What became of a bid that another award of the same total has."""
        return "it tied; the draw decided" if self.is_drawn else "it tied"

    def check_number(self, number: int) -> None:
        """Raises WrongArgument if no award of this number is listed."""
        if number <= self.count:
            return
        if self.are_all:
            are = "is" if self.count == 1 else "are"
            raise WrongArgument(f"there is no award {number}: there {are} {self.format_count()}")
        listed = "1 is listed" if self.count == 1 else f"{self.count} are listed"
        raise WrongArgument(f"award {number} isn't known: {listed}, and there may be more")

    def check_draw(self, name: str, *, is_complete: bool) -> None:
        """Raises WrongArgument if nothing can have been drawn by the list of this name, and Refused
        if awards may be missing from it, unless the office says that it `is_complete`.
        """
        if not self.is_tie:
            raise WrongArgument(f"{name} shows no tie, so that nothing was drawn")
        if not self.are_all and not is_complete:
            known = f"{name} lists {format_count(self.count, 'award')}, and there may be more"
            draw = "a draw has to be of all"
            raise Refused(f"{known}: {draw}; say --list-is-complete if you know that these are all")
