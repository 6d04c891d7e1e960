"""The texts of a check that tries many edits at once.

Beside a function stands its copy with the edit, under a name of its own and with the same promises and answers: so edits of one
function, and of one that it calls, are tried in one check, since a copy calls what is unchanged, and nothing calls a copy. A function
of a trait has no copy, since its trait has no room for one: it is edited in its place, and so is a constant.
"""

from __future__ import annotations

import re
from dataclasses import dataclass
from pathlib import Path

from gate.edits import Edit, Function, Sources

ABOVE = re.compile(r" *(#\[|//)")
# what is in the place of a proof
HOLE = """use Rattle.%s.proofs.%s.Statement as stated
pub %s_spec : {M : Type 1} → stated.statement M
%s_spec = ?
"""


@dataclass(frozen=True)
class Variant:
    """An edit as it is tried: the check's name of its function, that of what is tried, and the text of the copy; none of an edit
    that is tried in its place."""

    edit: Edit
    of: str
    name: str
    text: str = ""


def answers_of(name: str) -> str:
    return f"proofs/{name.replace('::', '/')}/Answers.antt"


def copy_of(edit: Edit, of: str, number: int, sources: Sources) -> Variant | None:
    """The copy for an edit of a function that the check calls `of`; None where there can't be one."""
    file = edit.place[0]
    function = sources.functions[edit.place[0]][edit.place[1]]
    lines = sources.texts[file].split("\n")
    first = function.head
    while first > 1 and ABOVE.match(lines[first - 2]):
        first -= 1
    text = "\n".join(lines[first - 1 : function.end])
    for other, old, new in edit.pairs:
        if function.is_of_trait or edit.is_of_constant or other != file or text.count(old) != 1:
            return None
        text = text.replace(old, new)
    own = f"{function.name}_edited_{number}"
    head = rf"(?m)^( *(?:pub(?:\([^)]*\))? )?(?:const )?(?:unsafe )?fn ){function.name}\b"
    text, heads = re.subn(head, rf"\g<1>{own}", text, count=1)
    return Variant(edit, of, "::".join([*of.split("::")[:-1], own]), text) if heads else None


def proofs_of(variant: Variant, folder: Path) -> dict[str, str]:
    """What is written of the proof of a copy, which is what is written of the function's."""
    own, new = (f"proofs/{name.replace('::', '/')}" for name in (variant.of, variant.name))
    texts = {}
    for path in (folder / own).rglob("*"):
        if path.is_file():
            text = path.read_text(encoding="utf-8")
            place = f"{new}/{path.relative_to(folder / own)}"
            texts[place] = text.replace(own.replace("/", ".") + ".", new.replace("/", ".") + ".")
    return texts


def without_body(lines: list[str], function: Function) -> None:
    """Puts a loop in the place of a body; each line stays at its number."""
    long = function.end - function.start - 1
    if long > 0 and "const fn " not in lines[function.head - 1]:
        indent = lines[function.end - 1][:-1]
        lines[function.start : function.end - 1] = [indent + "    loop {}", *[""] * (long - 1)]


def texts_of(
    variants: list[Variant], sources: Sources, stated: set[tuple[str, int]]
) -> dict[str, str]:
    """The sources with the variants, and the proofs of copies. Of the functions that are `stated` the statement is enough."""
    in_place = [it.edit for it in variants if not it.text]
    edited = {edit.place for edit in in_place}
    texts = {}
    for file, functions in sources.functions.items():
        text = sources.texts[file]
        for other, old, new in (pair for edit in in_place for pair in edit.pairs):
            text = text.replace(old, new) if other == file else text
        lines = text.split("\n")
        for n, function in enumerate(functions):
            if (file, n) in stated - edited:
                without_body(lines, function)
        copies = [
            (functions[it.edit.place[1]].end, it.text)
            for it in variants
            if it.text and it.edit.place[0] == file
        ]
        for end, copy in sorted(copies, key=lambda it: -it[0]):
            lines[end:end] = ["", *copy.split("\n")]
        if (made := "\n".join(lines)) != sources.texts[file]:
            texts[file] = made
    for variant in variants:
        texts.update(proofs_of(variant, sources.folder) if variant.text else {})
    return texts


def holes_for(crate: str, names: set[str]) -> dict[str, str | None]:
    """Files that put a hole in the place of each of these functions' proofs."""
    texts: dict[str, str | None] = {}
    for name in names:
        *_, last = name.split("::")
        place = f"proofs/{name.replace('::', '/')}"
        texts[f"{place}/Proof.antt"] = HOLE % (crate, name.replace("::", "."), last, last)
        texts[f"{place}/Answers.antt"] = texts[f"{place}/Invariants.antt"] = None
    return texts


def without_what_is_gone(text: str, lines: list[int], names: list[str]) -> str:
    """Answers without those that have one of these lines or names, and imports without these names, and without names of goals that
    no answer has any more: a check tells one name of an import at a time."""
    kept = []
    at = 1
    for piece in re.split(r"(?m)^(?=pub |use )", text):
        end = at + max(piece.count("\n"), 1)
        is_gone = any(at <= line < end for line in lines) or any(name in piece for name in names)
        if piece.startswith("use ") or not is_gone:
            kept.append(piece)
        at += piece.count("\n")
    answers = "".join(piece for piece in kept if not piece.startswith("use "))
    return "".join(
        without_names(it, names, answers) if it.startswith("use ") else it for it in kept
    )


def without_names(line: str, names: list[str], answers: str) -> str:
    """A line of imports without these names, and of a function's goals without those that no answer has."""
    listed = re.match(r"(?s)(use ([^{]*)\{)([^}]*)(\}.*)", line)
    if listed is None:
        return line
    is_of_goals = listed[2].endswith(".Goals.")
    left = [
        it
        for it in re.split(r",\s*", listed[3])
        if it not in names and (it in answers or not is_of_goals)
    ]
    return listed[1] + ", ".join(left) + listed[4] if left else ""
