"""The cases: each file of cases/ has the words and the input of a run, and the output, standard error and status that it has to give.

A part is a head with the number of its bytes, such as `=== stdin 130 ===`, then these bytes, then LF. Each case has all five parts,
in this order. So nothing in a part is taken for a head.
"""

from __future__ import annotations

import re
from pathlib import Path
from typing import NamedTuple

from trials.program import ROOT
from trials.program_runs import Seen

CASES = Path(ROOT, "cases")
# the parts, each with what follows its bytes
PARTS = {
    "args": rb"\n=== stdin ",
    "stdin": rb"\n=== stdout ",
    "stdout": rb"\n=== stderr ",
    "stderr": rb"\n=== status ",
    "status": rb"\n\Z",
}


class Case(NamedTuple):
    args: bytes
    stdin: bytes
    stdout: bytes
    stderr: bytes
    status: bytes

    def words(self) -> list[bytes]:
        """The words after the program's name, a line each."""
        return self.args.removesuffix(b"\n").split(b"\n") if self.args else []

    def wanted(self) -> Seen:
        """Status, output and standard error."""
        return int(self.status), self.stdout, self.stderr


def list_cases() -> list[str]:
    return sorted(path.name for path in CASES.iterdir())


def parse_case(data: bytes) -> Case:
    parts = []
    at = 0
    for name, following in PARTS.items():
        head = re.compile(rb"=== %s ([0-9]{1,9}) ===\n" % name.encode()).match(data, at)
        if not head:
            raise ValueError(f"there is no '=== {name} LENGTH ===' where {name} begins")
        size = int(head[1])
        end = head.end() + size
        if not re.compile(following).match(data, end):
            found = re.compile(following).search(data, head.end())
            seen = found.start() - head.end() if found else "no end"
            raise ValueError(f"{name} has {size} bytes by its head, and {seen} in the file")
        parts.append(data[head.end() : end])
        at = end + 1
    case = Case(*parts)
    if not re.fullmatch(rb"[0-9]\n", case.status):
        raise ValueError("the status isn't a digit in a line of its own")
    return case


def read_case(name: str) -> Case:
    try:
        return parse_case((CASES / name).read_bytes())
    except ValueError as error:
        raise ValueError(f"cases/{name}: {error}") from None
