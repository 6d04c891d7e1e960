"""The toolchain's command `rt` as a module: its gate, of which the order of the tasks and the trial of edits are replaced.

rt has had two ways to try a crate's edits: by `must_fail_all`, all in one call, or by tasks that `add_edits` makes, one for each
edit. Either is replaced."""

from __future__ import annotations

import contextlib
import importlib.machinery
import importlib.util
import os
import shutil
import sys
import tempfile
from collections.abc import Callable
from functools import reduce
from pathlib import Path
from typing import Any

from gate.check_output import SAID

# What is used of rt, and of one that makes tasks of edits. A toolchain whose rt lacks one of them runs its gate as it is.
USED = """main in_lanes processors free must_fail read_edit edits_of say KIT Crate.ci Crate.prove Crate.link rtlib.help_of rtlib.PARTS
    rtlib.RATTLE rtlib.guarded""".split()
USED_FOR_TASKS = """add_edits need REFUSED MISSED Kept.key Kept.of_edit Kept.tried Kept.keep_tried Kept.is_untouched""".split()


def load() -> Any:
    """The module, or None where this toolchain's rt isn't what is expected."""
    path = shutil.which("rt")
    if not path:
        return None
    sys.dont_write_bytecode = True
    loader = importlib.machinery.SourceFileLoader("rt", os.path.realpath(path))
    spec = importlib.util.spec_from_loader("rt", loader)
    assert spec
    rt = importlib.util.module_from_spec(spec)
    try:
        loader.exec_module(rt)
    except (Exception, SystemExit):
        return None
    is_known = all(has(rt, it) for it in USED) and (
        has(rt, "must_fail_all") or all(has(rt, it) for it in USED_FOR_TASKS)
    )
    return rt if is_known else None


def has(rt: Any, name: str) -> bool:
    return reduce(lambda made, part: getattr(made, part, None), name.split("."), rt) is not None


def replace_trial(rt: Any, must_fail_all: Callable[..., list[tuple[bool, str]]]) -> None:
    """Has rt's gate try the edits of a crate by this call, which answers for each whether it is refused, and what to say."""
    if has(rt, "must_fail_all"):
        rt.must_fail_all = must_fail_all
        return

    def add_edits(
        tasks: Any,
        crate: Any,
        edits: list[str],
        first: Any,
        waits: Any,
        is_well: Any,
        kept: Any,
        *_: Any,
        **__: Any,
    ) -> Any:
        """One task for all edits of a crate, once it is proved with its tests. What an earlier run on this machine refused, in the
        same crate over the same libraries, isn't tried again, as with the toolchain's own trial."""

        def name_of(edit: str) -> Any:
            # (all that the proof of the crate reads; nothing where a file can't be read)
            with contextlib.suppress(OSError):
                return kept.of_edit(edit, f"tried with others, {kept.key(crate)}")

        def try_all(given: Any, jobs: int) -> list[tuple[bool, str]]:
            if not edits or not is_well(given, len(edits)):
                return []
            names = {edit: name_of(edit) for edit in edits}
            known = {edit: kept.tried(name) for edit, name in names.items() if name}
            left = [edit for edit in edits if not known.get(edit)]
            tried = dict(
                zip(left, must_fail_all(crate, left, ["--jobs", str(jobs)]) if left else [])
            )
            for edit, (is_refused, text) in tried.items() if kept.is_untouched(crate) else ():
                if is_refused and names[edit]:
                    kept.keep_tried(names[edit], rt.REFUSED, text)
            return [tried[edit] if edit in tried else (True, known[edit][1]) for edit in edits]

        def results(given: Any) -> list[tuple[Any, str]]:
            return [
                (rt.REFUSED if refused else rt.MISSED, text)
                for refused, text in given[crate.name, "edits"]
            ]

        tasks[crate.name, "edits"] = (
            [*first, *waits],
            crate.count(rb"\n") if edits else 0,
            rt.need(crate),
            try_all,
        )
        return results, dict

    rt.add_edits = add_edits


class Proved:
    """The names of the functions of crates that the gate proved, after their crate's. Where the toolchain takes a proof from an earlier
    run on this machine it names none, so they are kept beside such proofs. Nothing rests on them: what a check is given is
    proved, and isn't, it doesn't take."""

    def __init__(self, rt: Any) -> None:
        self.rt = rt
        self.names = dict[str, list[str]]()
        prove = rt.Crate.ci

        def ci(crate: Any, flags: Any, tests: bool) -> Any:
            status = prove(crate, flags, tests)
            if not tests and not status:
                crate.out.seek(0)
                self.note(
                    crate,
                    [
                        name.partition("::")[2]
                        for name, how in SAID.findall(crate.out.read())
                        if how.startswith("proved")
                    ],
                )
            return status

        rt.Crate.ci = ci

    def place(self, crate: Any) -> Path | None:
        """The file of a crate's names, or nothing if this toolchain takes no proofs from earlier runs."""
        is_kept = has(self.rt, "STORE") and has(self.rt, "own_sum")
        return (
            Path(self.rt.STORE, "functions", f"{crate.name}-{self.rt.own_sum(crate)}")
            if is_kept
            else None
        )

    def note(self, crate: Any, names: list[str]) -> None:
        self.names[crate.name] = names
        if place := self.place(crate):
            with contextlib.suppress(OSError):
                place.parent.mkdir(0o700, parents=True, exist_ok=True)
                with tempfile.NamedTemporaryFile(
                    "w", dir=place.parent, delete=False, encoding="utf-8"
                ) as file:
                    file.write("\n".join(names))
                os.replace(file.name, place)

    def of(self, crate: Any) -> list[str]:
        place = self.place(crate)
        with contextlib.suppress(OSError, UnicodeDecodeError):
            if crate.name not in self.names and place:
                self.names[crate.name] = place.read_text(encoding="utf-8").split("\n")
        return self.names.get(crate.name, [])
