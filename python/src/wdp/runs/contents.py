"""What steps have left of an auction: the groups, their solutions and certificates, prices, and the
audit that they make.
"""
from collections.abc import Collection, Iterable, Iterator, Sequence
from dataclasses import dataclass
from itertools import count

from wdp import audits, certify, prices
from wdp.folder import INPUT
from wdp.groups import Names, parse_names
from wdp.runs.stores import Store
from wdp.texts import certificates
from wdp.texts.parts import add_groups, list_groups, list_names, parse_parts
from wdp.texts.refusals import Refused
from wdp.texts.tables import compute_digest

FIRST_GROUP = 1  # the number of the group that leaves nobody out
# the names that each group leaves out; there once all programs are
NAMES = "programs/names.txt"
# multipliers of rows that group 1's search found to be of use
ROWS = "inequalities.txt"
TIES = "ties.txt"
PRICES = "prices.txt"
# the names that each group leaves out that was added for prices
ADDED = "programs/added.txt"
AWARD = "award.txt"  # the SHA-256 of group 1's solution, of which ties and prices are
FORMAT = "format.txt"  # of the folder: without it, it is that of an earlier version
_FORMAT = b"2\n"
_KINDS = ("program", "answer", "solution", "certificate")
_HEAD_OF_GROUPS = b"%groups\n"


def name_file(kind: str, group: int | str) -> str:
    """The file that a step leaves of a group: its program, answer, solution or certificate.

    >>> name_file("program", 1), name_file("answer", "3.1")
    ('programs/1.mps', 'answers/3.1.txt')
    """
    ending = "mps" if kind == "program" else "txt"
    return f"{kind}s/{group}.{ending}"


def name_unfinished(group: int) -> tuple[str, str]:
    """The files with the best solution of a search that ended at its limit, and with what that has
    shown.
    """
    return f"unfinished/{group}.best.txt", f"unfinished/{group}.txt"


def format_parts(head: str, texts: Iterable[bytes]) -> bytes:
    """The parts of an audit with this head, one for each text."""
    return b"".join(b"%" + head.encode() + b"\n" + text for text in texts)


def find_shown(
    contents: "Contents", names: Names, numbers: Iterable[int]
) -> certify.Optimum | None:
    """What shows the group that leaves out these names, by the first of these groups that helps:
    each leaves out no others, and if nobody of the rest wins there, no other solution is better
    here, and the same lines show that.
    """
    store = contents.store
    of_groups = contents.read_names()
    for number in numbers:
        solution = name_file("solution", number)
        certificate = name_file("certificate", number)
        if not store.has(solution) or not store.has(certificate):
            continue
        others = contents.number_bidders(names - of_groups[number])
        point = store.read(solution)
        if not certificates.has_bid(point, others):
            text = certificates.remove_bidders(store.read(certificate), others)
            return certify.Optimum(point, text, 0)
    return None


def _format_award(solution: bytes) -> bytes:
    """What says which award something is of: the SHA-256 of group 1's solution."""
    return f"{compute_digest(solution.removeprefix(audits.find_mark(solution)))}\n".encode()


@dataclass(frozen=True)
class Goals:
    """What is asked for besides an answer for each group: certificates, all awards that tie with
    the first one, prices, and a report.
    """

    is_certified: bool = True
    finds_ties: bool = False
    is_priced: bool = True
    is_reported: bool = True


@dataclass(frozen=True)
class Contents:
    """What steps have left of an auction in a store. Groups are numbered from 1; a line of a group
    joins the names that it leaves out by `+`, or is `-`.
    """

    store: Store
    goals: Goals

    def list_groups(self) -> dict[int, str]:
        """The lines of the input's groups, by their numbers."""
        try:
            lines = self.store.read(NAMES).decode("ascii").splitlines()
        except UnicodeDecodeError:
            why = "isn't what was left there: delete it to have it made again"
            raise Refused(f"{self.store.path(NAMES)} {why}") from None
        return dict(enumerate(lines, 1))

    def take_input(self, data: bytes) -> None:
        """Takes an input with more groups than the one that is there; what was left of those that
        are in both stays.
        """
        self.store.leave(INPUT, data)
        self.leave_names(list_groups(data))

    def leave_names(self, lines: Iterable[str]) -> None:
        """Leaves the lines of the input's groups."""
        self.store.leave(NAMES, "".join(f"{line}\n" for line in lines).encode())

    def is_of_format(self) -> bool:
        """Whether this version left the programs; Refused if a later one did."""
        if not self.store.has(FORMAT):
            return False
        if self.store.read(FORMAT) != _FORMAT:
            raise Refused(f"{self.store.path(FORMAT)} is of another version of wdp-office")
        return True

    def leave_format(self) -> None:
        """Leaves that this version left the programs."""
        self.store.leave(FORMAT, _FORMAT)

    def read_added(self) -> list[str] | None:
        """The lines of the added groups whose programs are there, if that is known."""
        if not self.store.has(ADDED):
            return None
        return self.store.read(ADDED).decode("ascii", "replace").splitlines()

    def forget_group(self, group: int) -> None:
        """Forgets a group whose program isn't that of its line."""
        names = [name_file(kind, group) for kind in _KINDS]
        for name in (*names, *name_unfinished(group)):
            self.store.forget(name)

    def leave_award(self) -> None:
        """Leaves which award ties and prices are of, if that isn't there."""
        if self.goals.is_certified and not self.store.has(AWARD):
            solution = self.store.read(name_file("solution", FIRST_GROUP))
            self.store.leave(AWARD, _format_award(solution))

    def take_award(self, solution: bytes) -> bool:
        """Takes an award of group 1; whether what is there is of another one, and is forgotten:
        ties, prices, and the groups that were added for these.
        """
        mark = _format_award(solution)
        if self.store.has(AWARD) and self.store.read(AWARD) == mark:
            return False
        of_another = [TIES, PRICES, ADDED, *self.list_kept("ties")]
        has_others = any(self.store.has(name) for name in of_another)
        for name in of_another:
            self.store.forget(name)
        self.store.leave(AWARD, mark)
        return has_others

    def forget_old_prices(self) -> bool:
        """Whether prices are there that an earlier version found by another rule; they are
        forgotten.
        """
        if not self.store.has(PRICES):
            return False
        kinds = {part.kind for part in parse_parts(self.store.read(PRICES))}
        if "weights" not in kinds:
            return False
        self.store.forget(PRICES)
        return True

    def leave_group(self, group: int, *, solution: bytes, certificate: bytes) -> None:
        """Leaves the optimal solution of a group, and its certificate."""
        self.store.leave(name_file("solution", group), solution)
        self.store.leave(name_file("certificate", group), certificate)

    def read_all(self, kind: str) -> list[bytes]:
        """What was left of this kind, such as solutions, of all groups of the input."""
        return [self.store.read(name_file(kind, group)) for group in self.list_groups()]

    def list_added(self) -> dict[int, str]:
        """The lines of the groups that prices need besides those of the input, by their numbers:
        each winner alone, and those that bind the prices.
        """
        groups = self.list_groups()
        first = name_file("solution", FIRST_GROUP)
        if not self.goals.is_priced or not self.store.has(first):
            return {}
        if self.store.has(PRICES):
            added = list_groups(self.store.read(PRICES))
        else:
            data = self.store.read(INPUT)
            added = prices.list_alone(data, self.store.read(first), [*groups.values()])
        return dict(enumerate(added, len(groups) + 1))

    def list_all_groups(self) -> dict[int, str]:
        """The lines of the input's groups, and of those that prices need."""
        return {**self.list_groups(), **self.list_added()}

    def read_names(self) -> dict[int, Names]:
        """The names that each group leaves out, also of those that prices need."""
        lines = self.list_all_groups()
        return {group: parse_names(line) for group, line in lines.items()}

    def number_bidders(self, names: Collection[str]) -> set[int]:
        """The numbers that bidders of these names have in the rules, from 1."""
        parts = parse_parts(self.store.read(INPUT))
        rules = next(part.rows() for part in parts if part.kind == "rules")
        bidders = enumerate(list_names(rules, "bidder"), 1)
        return {number for number, name in bidders if name in names}

    def read_rows(self) -> str:
        """The multipliers of rows that group 1's search found to be of use, as far as there are."""
        return self.store.read(ROWS).decode("ascii") if self.store.has(ROWS) else ""

    def is_done(self, group: int) -> bool:
        """Whether all that is asked for of a group is there; Refused if a file isn't what its step
        left.
        """
        kinds = ("solution", "certificate") if self.goals.is_certified else ("answer",)
        wanted = [name_file(kind, group) for kind in kinds]
        if self.goals.finds_ties and group == FIRST_GROUP:
            wanted.append(TIES)
        return all(self.store.has(name) and self.store.read(name) is not None for name in wanted)

    def find_missing(self, groups: Iterable[int]) -> list[int]:
        """The groups whose step left nothing."""
        kind = "certificate" if self.goals.is_certified else "answer"
        return [group for group in groups if not self.store.has(name_file(kind, group))]

    def list_kept(self, folder: str) -> Iterator[str]:
        """The files of what a search found, in its order, in the folder for it."""
        for number in count(1):
            name = f"{folder}/{number}.txt"
            if not self.store.has(name):
                return
            yield name

    def keep(self, folder: str, solution: bytes) -> None:
        """Keeps what a search found in the folder for it."""
        number = len(list(self.list_kept(folder))) + 1
        self.store.leave(f"{folder}/{number}.txt", solution)

    def keep_ties(self, points: Sequence[bytes]) -> None:
        """Keeps what ties; a search that goes further begins with the same."""
        for number, point in enumerate(points, 1):
            self.store.leave(f"ties/{number}.txt", point)

    def leave_ties(self, points: Iterable[bytes], unique: bytes | None) -> None:
        """Leaves the solutions that tie with group 1's, and the certificate that there are no
        others, if there is one.
        """
        texts = [] if unique is None else [unique]
        self.store.leave(TIES, format_parts("tie", points) + format_parts("unique", texts))

    def leave_prices(self, parts: bytes, added: Iterable[str]) -> None:
        """Leaves the parts of an audit that show prices, and the lines of the groups that are added
        for them.
        """
        lines = "".join(f"{line}\n" for line in added)
        self.store.leave(PRICES, parts + _HEAD_OF_GROUPS + lines.encode())

    def format_ties(self) -> bytes:
        """The parts of an audit that list what ties with the first award, as far as it is known."""
        if self.store.has(TIES):
            return self.store.read(TIES)
        return format_parts("tie", map(self.store.read, self.list_kept("ties")))

    def format_solutions(self) -> bytes:
        """The parts with a solution of each of the input's groups, or with its answer if it has
        none.
        """
        names = []
        for group in self.list_groups():
            solution = name_file("solution", group)
            names.append(solution if self.store.has(solution) else name_file("answer", group))
        return format_parts("solution", map(self.store.read, names))

    def has_prices(self) -> bool:
        """Whether prices are there, with the groups that show them."""
        if not self.goals.is_priced or not self.store.has(PRICES):
            return False
        return not self.find_missing(self.list_added())

    def lacks_prices(self) -> bool:
        """Whether prices are asked for, and aren't there."""
        return self.goals.is_priced and not self.has_prices()

    def format_audit(self, *, with_prices: bool = True) -> bytes:
        """The input with all that shows its report, and the prices if they are there with their
        groups. The input comes last.
        """
        groups = list(self.list_groups())
        added: dict[int, str] = {}
        shown = b""
        if with_prices and self.has_prices():
            added = self.list_added()
            shown = self.store.read(PRICES).rpartition(_HEAD_OF_GROUPS)[0]
        data = self.store.read(INPUT)
        solutions = [
            *self._read_all("solution", groups),
            *audits.mark_added(self._read_all("solution", added), data),
        ]
        certificates = self._read_all("certificate", [*groups, *added])
        audit = format_parts("solution", solutions) + format_parts("certificate", certificates)
        return audit + shown + self.format_ties() + add_groups(data, added.values())

    def _read_all(self, kind: str, groups: Iterable[int]) -> list[bytes]:
        """The files of this kind of these groups."""
        return [self.store.read(name_file(kind, group)) for group in groups]
