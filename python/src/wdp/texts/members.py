"""JSON's objects that the program prints, one a line, read member by member in their order."""
import json
from collections.abc import Callable
from typing import TypeVar

_T = TypeVar("_T")
_LONGEST_LINE = 1_000  # characters; a line of the program has less than half of that
_GREATEST_NUMBER = 10**18 - 1


class Members:
    """The members of an object that weren't taken yet.

    Each is taken by its name, and has to be the next one: what a line lacks, repeats or adds is a
    ValueError, and so is a value of another type.
    """

    def __init__(self, pairs: list[tuple[str, object]]) -> None:
        self._pairs = pairs
        self._taken = 0

    def has(self, name: str) -> bool:
        """Whether the next member has this name."""
        return self._taken < len(self._pairs) and self._pairs[self._taken][0] == name

    def take(self, name: str) -> object:
        """The value of the next member."""
        if not self.has(name):
            raise ValueError(f"{name} isn't the next member")
        value = self._pairs[self._taken][1]
        self._taken += 1
        return value

    def take_text(self, name: str) -> str:
        """A text, which is of printable ASCII as all that the program prints."""
        value = self.take(name)
        if isinstance(value, str) and value.isascii() and value.isprintable():
            return value
        raise ValueError(f"{name} is no text")

    def take_number(self, name: str, least: int = 0) -> int:
        """A whole number from the least one on, of 18 digits at most."""
        value = self.take(name)
        if type(value) is int and least <= value <= _GREATEST_NUMBER:  # (a bool is none)
            return value
        raise ValueError(f"{name} is no whole number")

    def find_text(self, name: str) -> str | None:
        """A text, or None if the next member has another name."""
        return self.take_text(name) if self.has(name) else None

    def find_number(self, name: str, least: int = 0) -> int | None:
        """A whole number, or None if the next member has another name."""
        return self.take_number(name, least) if self.has(name) else None

    def find_mark(self, name: str) -> bool:
        """Whether the next member has this name; it is true then, and nothing else."""
        if not self.has(name):
            return False
        if self.take(name) is not True:
            raise ValueError(f"{name} isn't true")
        return True

    def check_end(self) -> None:
        """Raises ValueError if there is another member."""
        if self._taken < len(self._pairs):
            raise ValueError(f"{self._pairs[self._taken][0]} is unknown")


_DECODER = json.JSONDecoder(object_pairs_hook=Members)


def read_object(line: str, read: Callable[[Members], _T]) -> _T:
    """What `read` makes of the members of an object; ValueError if the line isn't one, or has a
    member that isn't taken.
    """
    if len(line) > _LONGEST_LINE:
        raise ValueError("the line is too long")
    try:
        members = _DECODER.decode(line)
    except RecursionError:
        raise ValueError("the line has objects in objects") from None
    if not isinstance(members, Members):
        raise ValueError("the line is no object")
    made = read(members)
    members.check_end()
    return made
