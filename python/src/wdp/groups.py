"""Groups by the bidders that they leave out, and from which one another may take over what shows
it.
"""
from collections.abc import Mapping

Names = frozenset[str]


def parse_names(line: str) -> Names:
    """The names that a line of groups joins; `-` joins none.

    >>> sorted(parse_names("Beta+Alpha")), sorted(parse_names("-"))
    (['Alpha', 'Beta'], [])
    """
    return frozenset() if line == "-" else frozenset(line.split("+"))


def find_smaller(groups: Mapping[int, Names], group: int) -> list[int]:
    """The groups that leave out fewer of the same bidders, the smallest first, and of the same size
    in their order.

    >>> lines = {1: "-", 2: "A+B", 3: "B", 4: "C"}
    >>> find_smaller({group: parse_names(line) for group, line in lines.items()}, 2)
    [1, 3]
    """
    numbers = [number for number, names in groups.items() if names < groups[group]]
    return sorted(numbers, key=lambda number: (len(groups[number]), number))
