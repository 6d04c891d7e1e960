"""Must-fail edits, and the functions of source files by the layout that rt fmt writes."""

from __future__ import annotations

import re
from dataclasses import dataclass, field
from pathlib import Path

HEAD = re.compile(r"( *)(?:pub(?:\([^)]*\))? )?(?:const )?(?:unsafe )?fn (\w+)")
OWNER = re.compile(r"(?:pub(?:\([^)]*\))? )?(?:unsafe )?(impl|trait)\b(.*)")
CONSTANT = re.compile(r"^ *(?:pub(?:\([^)]*\))? )?const (\w+):", re.M)

# A file of src/, and a function's place among those of the file.
Place = tuple[str, int]


@dataclass(frozen=True)
class Function:
    """A function with the block that it is in; lines are counted from 1, and a body starts and ends with its braces."""

    name: str
    owner: str
    is_of_trait: bool
    head: int
    start: int
    end: int


def owner_of(head: str) -> str:
    """The type that a block of functions belongs to, followed by its trait and what that is given first, as the toolchain calls
    them together: `FormFault`, `FormFaultDisplay`, `FormFaultFromAllocError`."""
    given = re.search(r"(\w+)<(?:\w+::)*(\w+)[^{]* for ", head)
    words = re.sub(r"<[^<>]*(?:<[^<>]*(?:<[^<>]*>[^<>]*)*>[^<>]*)*>", "", head).split(" where ")[0]
    of_trait, _, of_type = words.rpartition(" for ")
    of_trait = of_trait.strip().split("::")[-1]
    # (a trait may have traits above it)
    of_type = re.split(r"(?<!:):(?!:)", of_type)[0]
    return (
        of_type.strip().split("::")[-1]
        + of_trait
        + (given[2] if given and given[1] == of_trait else "")
    )


def body_of(lines: list[str], head: int, indent: str) -> tuple[int, int] | None:
    """The lines in which a function's body starts and ends: its contract has braces too, but further in."""
    for start in range(head, len(lines)):
        line = lines[start].rstrip()
        if (
            line.startswith(indent)
            and line[len(indent) :][:1] != " "
            and re.search(r"(^| )\{\}?$", line)
        ):
            if line.endswith("}"):
                return start, start
            end = next((n for n in range(start + 1, len(lines)) if lines[n] == indent + "}"), None)
            return (start, end) if end is not None else None
    return None


def functions_of(text: str) -> list[Function]:
    """The functions of a file, in their order."""
    lines = text.split("\n")
    found = []
    owner = ""
    is_of_trait = False
    for n, line in enumerate(lines):
        if block := OWNER.match(line):
            head = block[2].split("{")[0]
            owner = owner_of(head)
            is_of_trait = block[1] == "trait" or " for " in re.sub(r"\bfor<", "", head)
        elif line == "}":
            owner = ""
            is_of_trait = False
        head_of_function = HEAD.match(line)
        if head_of_function and (body := body_of(lines, n, head_of_function[1])):
            indent, name = head_of_function.groups()
            of = (owner, is_of_trait) if indent else ("", False)
            found.append(Function(name, *of, n + 1, body[0] + 1, body[1] + 1))
    return found


@dataclass
class Sources:
    """The sources of a crate, and the functions of each."""

    folder: Path
    texts: dict[str, str] = field(default_factory=dict)
    functions: dict[str, list[Function]] = field(default_factory=dict)

    def __post_init__(self) -> None:
        for path in sorted((self.folder / "src").rglob("*.rt")):
            file = str(path.relative_to(self.folder))
            self.texts[file] = path.read_text(encoding="utf-8", errors="replace")
            self.functions[file] = functions_of(self.texts[file])

    def line_of(self, file: str, old: str) -> tuple[int, int]:
        """The lines in which a text begins, spaces aside, and ends; 0 where it isn't there."""
        at = self.texts.get(file, "").find(old)
        ends = (at + len(old) - len(old.lstrip()), at + len(old))
        first, last = (
            (self.texts[file].count("\n", 0, it) + 1 for it in ends) if at >= 0 else (0, 0)
        )
        return first, last

    def place_of(self, file: str, old: str) -> Place | None:
        """The function in whose body a text is."""
        first, last = self.line_of(file, old)
        functions = enumerate(self.functions.get(file, ()))
        inside = [n for n, it in functions if it.start <= first and last <= it.end]
        return (file, inside[-1]) if inside else None

    def law_of(self, file: str, old: str) -> Place | None:
        """The law that states the number of the constant at whose line a text is: a function with an empty body."""
        first, _ = self.line_of(file, old)
        named = CONSTANT.match(self.texts[file].split("\n")[first - 1]) if first else None
        if named is None:
            return None
        stated = re.compile(r"\bensures\b[^{]*\{[^}]*\b%s ≡" % named[1])
        for path, text in self.texts.items():
            lines = text.split("\n")
            for n, it in enumerate(self.functions[path]):
                if it.start == it.end and stated.search("\n".join(lines[it.head - 1 : it.end])):
                    return path, n
        return None


@dataclass
class Edit:
    """Replacements of old texts by new ones, each in a file, and the function whose promises they break; a fault where they
    can't show anything."""

    path: str
    pairs: list[tuple[str, str, str]]
    fault: str | None = None
    place: Place = ("", 0)
    is_of_constant: bool = False


def pairs_of(text: str) -> list[tuple[str, str, str]]:
    pairs = []
    file = ""
    old = ""
    for line in text.split("\n"):
        if line.startswith("file: "):
            file = line.removeprefix("file: ").strip()
        elif line.startswith("old: "):
            old = line.removeprefix("old: ")
        elif line.startswith("new:"):
            pairs.append((file, old, line.removeprefix("new:").removeprefix(" ")))
    return pairs


def edit_of(path: str, sources: Sources, fault: str | None) -> Edit:
    """The edit of a file; `fault` says why it can't be applied, if it can't."""
    edit = Edit(path, pairs_of(Path(path).read_text(encoding="utf-8", errors="replace")), fault)
    if fault:
        return edit
    if others := [file for file, _, _ in edit.pairs if not file.endswith(".rt")]:
        edit.fault = f"it changes {others[0]}, which is no body"
        return edit
    # (a pair that changes spaces alone only makes the old text of another one stand once)
    telling = [it for it in edit.pairs if "".join(it[1].split()) != "".join(it[2].split())]
    (file, old, _), *more = telling or edit.pairs
    place = sources.place_of(file, old)
    if place is None and len(telling) == 1:
        place = sources.law_of(file, old)
        edit.is_of_constant = place is not None
    # (a later pair's old text may be in what an earlier one made)
    later = [sources.place_of(file, old) for file, old, _ in more if old in sources.texts[file]]
    if place is None:
        edit.fault = "its first old text is in no function's body"
    elif any(it != place for it in later):
        edit.fault = "it changes more than the body of one function"
    else:
        edit.place = place
    return edit
