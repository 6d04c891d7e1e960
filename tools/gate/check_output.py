"""What a check says of functions: which are proved, and which of their goals are open."""

from __future__ import annotations

import re
from dataclasses import dataclass, field

SAID = re.compile(r"^fn (\S+): (.*)$", re.M)
GOALS = re.compile(r"`search` did not prove ((?:`[^`]+`(?:, | and )?)+)")
# (an answer that no longer holds: its place below proofs/, its line, and the goal)
ANSWER = re.compile(
    r"^(?:\./)?proofs/(\S+)/(?:(Answers)|Invariants|Proof)\.antt:(\d+):\d+: error: (?:`([^`]+)`)?(.*)$",
    re.M,
)
# of such a one: it names what the edit took away, which says nothing of the goal
LOST = re.compile(r"has no field|is not in scope|has no `|was not admitted")
GONE = re.compile(r"module `[^`]+` has no `([^`]+)`$")
# the last line of a check that came to its end
VERDICT = re.compile(r"^(?:logic=(?:proved|not-proved)|only=\d+)\b", re.M)
# what is proved, where holes are allowed in what it stands on
PROVED = ("proved", "no holes", "depends on a hole")
# what a goal is of, by its name: `returns-in-Some-clause-answer`, `loop-row-preserved`, `push-requires`, `invariant_of-result`
PROMISES = re.compile(r"^(returns|loop-|invariant_of|decreases)|-requires(-|$)")


@dataclass
class Findings:
    """What a check says of a function: whether it is proved, which of its goals are open, and of those whose answers name what is
    gone the goals, the lines of the answers, and what imports name so."""

    is_proved: bool
    goals: list[str] = field(default_factory=list)
    lost: list[str] = field(default_factory=list)
    lines: list[int] = field(default_factory=list)
    names: list[str] = field(default_factory=list)


def findings_in(said: str) -> dict[str, Findings]:
    """What a check says of each function, by its name after the crate's; nothing, where it was ended before its verdict."""
    found: dict[str, Findings] = {}
    if not VERDICT.search(said):
        return found
    for name, status in SAID.findall(said):
        goals = [goal for it in GOALS.findall(status) for goal in re.findall(r"`([^`]+)`", it)]
        # (a loop that nothing shows to end has no goal yet)
        goals += ["decreases"] if "expected a measure" in status else []
        found[name.partition("::")[2]] = Findings(status.startswith(PROVED), goals)
    for place, is_answer, line, goal, why in ANSWER.findall(said):
        if (it := found.get(place.replace("/", "::"))) is None:
            continue
        is_lost = LOST.search(re.sub(r"`[^`]*`", "``", why))
        if goal:
            (it.lost if is_lost else it.goals).append(goal)
        if is_answer and is_lost:
            it.lines.append(int(line))
            it.names += GONE.findall(f"`{goal}`{why}" if goal else why)
    return found


def is_within(name: str, function: str) -> bool:
    """Whether a name is the function's, or that of a closure in it: `module::fn::name::any` in `module::name`."""
    before, _, behind = (
        name.partition("fn::") if name.startswith("fn::") else name.partition("::fn::")
    )
    return (
        name == function
        or bool(behind)
        and "::".join([*([before] if before else []), behind.split("::")[0]]) == function
    )


def goals_within(function: str, found: dict[str, Findings]) -> list[str]:
    """The open goals of a function, and of the closures in it."""
    return [goal for name, it in found.items() if is_within(name, function) for goal in it.goals]


def meaning_of(goal: str) -> str:
    """What an open goal is of, in words, and its name."""
    if "-clause-" in goal:
        what = "clause " + goal.rpartition("-clause-")[2]
    elif goal.startswith("loop-"):
        what = "the invariant of a loop"
    elif goal.startswith("decreases"):
        what = "that it returns"
    elif goal.startswith("invariant_of"):
        what = "the invariant of a type"
    else:
        what = "what a callee requires" if "requires" in goal else "what it ensures"
    return f"{what} (goal `{goal}`)"
