"""Edits that must fail, tried many at a time.

A proof goes by the contracts of what a function calls, so a wrong body opens goals of its own function alone. An edit is refused if its
own function has an open goal of a promise: what it ensures, an invariant, or what a callee requires. If only something else fails,
such as that a product doesn't overflow, the edit isn't refused.

Most edits are tried as copies of their functions, many in one check; those that have no copy in their place, at most one of each function
in one check. What such a check doesn't tell, or doesn't refuse, is tried alone, and so is an edit of a constant, on which other
functions may rest. The crate is proved: of the other functions a check has the statement, by a hole in the place of the proof
and a loop in that of the body. A wrong body changes no contract, so none of them can break by it.
"""

from __future__ import annotations

import os
import re
import shutil
import subprocess
import tempfile
import time
from collections import Counter
from collections.abc import Callable, Iterable
from pathlib import Path
from typing import Any

from gate.edits import Edit, Place, Sources, edit_of
from gate.check_output import (
    PROMISES,
    VERDICT,
    Findings,
    goals_within,
    is_within,
    meaning_of,
    findings_in,
)
from gate.variants import Variant, answers_of, copy_of, holes_for, texts_of, without_what_is_gone

NO_HOLE = re.compile(r"^(?:\./)?(proofs/\S+/Proof\.antt):(?:\d+:\d+:)? error", re.M)
# How often answers that name what is gone are made shorter.
MOST_TIMES = 4
# So many copies are in one check: a check without any takes some 25 seconds of processor time.
MOST_COPIES = 96

# What a check says with these texts in place of the crate's own (None for a file that isn't there), of these functions and what
# they call.
Check = Callable[[dict[str, str | None], list[str]], str]
Answer = tuple[bool, str]


def is_of(function: Any, module: list[str] | None, name: str) -> bool:
    """Whether the check's name of a function is this function's: `lines::LineReader::next`, and with its trait and what that is
    given `rules_text::RulesFaultFromAllocError::from`. Where a type's functions stand apart from it, the name has the module of
    the type, and `module` is None."""
    parts = name.split("::")
    if function.owner:
        # (of `Reply<Arc<F, Global>>` the name has `Reply+Arc+F+Global`)
        parts[-2:-1] = [part.partition("+")[0] for part in parts[-2:-1]]
    own = [*([function.owner] if function.owner else []), function.name]
    if parts[-len(own) :] != own or "fn" in parts:
        return False
    return parts[: -len(own)] == module if module is not None else bool(function.owner)


def names_of(sources: Sources, proved: list[str]) -> dict[Place, str]:
    """The check's name of each function that has just one."""
    named: dict[Place, str] = {}
    by_end: dict[str, list[str]] = {}
    for name in proved:
        by_end.setdefault(name.rpartition("::")[2], []).append(name)
    for file, functions in sources.functions.items():
        parts = file.removeprefix("src/").removesuffix(".rt").split("/")
        module = [] if parts in (["lib"], ["main"]) else parts
        # (two blocks may have one name, if what their traits are given has)
        alike = Counter((it.name, it.owner) for it in functions)
        for n, it in enumerate(functions):
            ends = by_end.get(it.name, [])
            found = [name for name in ends if is_of(it, module, name)] or [
                name for name in ends if is_of(it, None, name)
            ]
            if len(found) == 1 and alike[it.name, it.owner] == 1:
                named[file, n] = found[0]
    return named


class Trial:
    """The trial of the edits of a crate whose functions are proved, by the check's names of them."""

    def __init__(
        self,
        crate: str,
        sources: Sources,
        edits: Iterable[Edit],
        check: Check,
        proved: list[str],
    ) -> None:
        self.crate = crate
        self.sources = sources
        self.check = check
        self.edits = list(edits)
        self.names = names_of(sources, proved)
        # closures are proved with their function, and what is let go has no file
        self.holed = {name for name in proved if "fn" not in name.split("::") and "++" not in name}
        self.has_stubs = True
        self.answers: dict[str, Answer] = {}
        self.checks = 0
        self.said = ""

    def answer(self, edit: Edit, is_refused: bool, why: str) -> None:
        self.answers[edit.path] = (
            is_refused,
            f"must-fail {self.crate}/{os.path.basename(edit.path)}: {why}",
        )

    def findings_of(self, variants: list[Variant], shorter: dict[str, str]) -> dict[str, Findings]:
        """What a check says of these variants, with these answers in place of theirs."""
        self.checks += 1
        # (that a check takes no loops for bodies shows where one variant is tried)
        both = self.has_stubs and len(variants) == 1
        for has_stubs in [True, False] if both else [self.has_stubs]:
            texts = texts_of(variants, self.sources, set(self.names) if has_stubs else set())
            while True:
                in_place = {it.of for it in variants if not it.text}
                holes = holes_for(self.crate, self.holed - in_place)
                self.said = self.check({**holes, **texts, **shorter}, [it.name for it in variants])
                untaken = {
                    name
                    for name in self.holed
                    if f"proofs/{name.replace('::', '/')}/Proof.antt" in NO_HOLE.findall(self.said)
                }
                if not untaken:
                    break
                self.holed -= untaken
            if VERDICT.search(self.said):
                self.has_stubs = has_stubs
                break
        found = findings_in(self.said)
        for it in variants:
            promised = [goal for goal in goals_within(it.name, found) if PROMISES.search(goal)]
            if promised:
                more = f", and {len(promised) - 1} more" if len(promised) > 1 else ""
                self.answer(
                    it.edit,
                    True,
                    f"refused, as it must be, in {it.of}: {meaning_of(promised[0])}{more}",
                )
        return found

    def try_all(self, variants: list[Variant]) -> dict[str, Findings]:
        """Judges variants by one check, and those whose answers name what their edit took away once more, without these answers.
        Where the check doesn't tell of each, halves are tried."""
        found = every = self.findings_of(variants, {})
        if any(it.name not in found for it in variants):
            half = len(variants) // 2
            # (what one of them stops isn't the fault of the others)
            return (
                {**self.try_all(variants[:half]), **self.try_all(variants[half:])}
                if half
                else found
            )
        shorter: dict[str, str] = {}
        for _ in range(MOST_TIMES):
            variants = [
                it
                for it in variants
                if it.edit.path not in self.answers and it.name in found and found[it.name].lines
            ]
            if not variants:
                break
            own = texts_of(variants, self.sources, set())
            for it in variants:
                path = answers_of(it.name)
                kept = self.sources.folder / path
                text = (
                    shorter.get(path)
                    or own.get(path)
                    or (kept.read_text(encoding="utf-8") if kept.exists() else "")
                )
                shorter[path] = without_what_is_gone(
                    text, found[it.name].lines, found[it.name].names
                )
            found = self.findings_of(
                variants, {answers_of(it.name): shorter[answers_of(it.name)] for it in variants}
            )
            every = {**every, **found}
        return every

    def try_alone(self, variant: Variant) -> None:
        """Judges an edit by a check of its own."""
        found = self.try_all([variant])
        name = variant.name
        edit = variant.edit
        if edit.path in self.answers:
            return None
        goals = goals_within(name, found)
        lost = [goal for other, it in found.items() if is_within(other, name) for goal in it.lost]
        if name not in found:
            said = self.said.strip()
            return self.answer(
                edit, False, f"BAD EDIT: the check says nothing of its function: {said:.300}"
            )
        if goals:
            why = f"only {', '.join(goals)} isn't shown"
        elif lost:
            why = f"only the answer for {', '.join(lost)} names what the edit took away"
        else:
            why = (
                f"{name} is still proved"
                if found[name].is_proved
                else f"the check says nothing of {name}"
            )
        self.answer(edit, False, f"NOT REFUSED: {why}")

    def run(self) -> list[Answer]:
        """Whether each edit is refused, and what to say of it."""
        copies = []
        in_place = []
        numbers = Counter[str]()
        for edit in self.edits:
            of = self.names.get(edit.place, "")
            if edit.fault or not of:
                self.answer(
                    edit,
                    False,
                    f"BAD EDIT: {edit.fault or 'the check has no name for its function, or two functions of one name'}",
                )
                continue
            numbers[of] += 1
            in_place.append(Variant(edit, of, of))
            copies += [it for it in [copy_of(edit, of, numbers[of], self.sources)] if it]
        for first in range(0, len(copies), MOST_COPIES):
            self.try_all(copies[first : first + MOST_COPIES])
        left = [
            it for it in in_place if it.edit.path not in self.answers and not it.edit.is_of_constant
        ]
        together = list({it.edit.place: it for it in left}.values())
        if len(together) > 1:
            self.try_all(together)
        for it in in_place:
            if it.edit.path not in self.answers:
                self.try_alone(it)
        return [self.answers[edit.path] for edit in self.edits]


def run_check(
    rt: Any, crate: Any, texts: dict[str, str | None], flags: list[str], kept: str
) -> tuple[str, float]:
    """What a check of a copy of the crate says, with these texts in place of its own, and the processor time that it took."""
    with tempfile.TemporaryDirectory(prefix="rt-edit-") as room:
        for part in rt.rtlib.PARTS:
            if os.path.isdir(os.path.join(crate.folder, part)):
                shutil.copytree(os.path.join(crate.folder, part), os.path.join(room, part))
        for name, text in texts.items():
            path = Path(room, name)
            if text is None:
                path.unlink(missing_ok=True)
            else:
                path.parent.mkdir(parents=True, exist_ok=True)
                path.write_text(text, encoding="utf-8")
        words = [
            *rt.rtlib.guarded(),
            rt.rtlib.RATTLE,
            "check",
            *crate.words(flags, keeps=False),
            "--incremental",
            kept,
        ]
        how: dict[str, Any] = {
            "stdin": subprocess.DEVNULL,
            "stdout": subprocess.PIPE,
            "stderr": subprocess.STDOUT,
        }
        with subprocess.Popen(words, cwd=room, errors="replace", **how) as run:
            assert run.stdout
            said = run.stdout.read()
            _, status, used = os.wait4(run.pid, 0)
            run.returncode = os.waitstatus_to_exitcode(status)
        return said, used.ru_utime + used.ru_stime


def trial_of(
    rt: Any, proved_in: Callable[[Any], list[str]], share: Callable[[], int]
) -> Callable[..., list[Answer]]:
    """What takes the place of rt's own trial of a crate's edits, each in turn: `proved_in(crate)` are the names of its functions, or
    nothing where they aren't known, and each check is on as many processors as it may use then (`share()`).
    """

    def must_fail_all(crate: Any, paths: list[str], _: list[str]) -> list[Answer]:
        spent = []
        with tempfile.TemporaryDirectory(prefix="rt-edits-") as kept:

            def check(texts: dict[str, str | None], functions: list[str]) -> str:
                only = [word for name in functions for word in ("--only", name)]
                holes = (
                    ["--allow-holes"] if any(path.endswith("/Proof.antt") for path in texts) else []
                )
                said, seconds = run_check(
                    rt, crate, texts, ["--jobs", str(share()), *only, *holes], kept
                )
                spent.append(seconds)
                return said

            started = time.time()
            sources = Sources(Path(crate.folder))
            proved = proved_in(crate) or [
                name for name, it in findings_in(check({}, [])).items() if it.is_proved
            ]
            edits = [edit_of(path, sources, rt.read_edit(path, crate.folder)[1]) for path in paths]
            trial = Trial(crate.name, sources, edits, check, proved)
            answers = trial.run()
        refused = sum(is_refused for is_refused, _ in answers)
        times = f"{time.time() - started:.0f} s, and of processor time {' + '.join(f'{it:.0f}' for it in spent)}"
        rt.say(
            f"{crate.name}: {refused} of {len(paths)} edits refused in {trial.checks} checks, {times}"
        )
        return answers

    return must_fail_all
