"""What the program refuses: the rows of fixtures/faults.txt, and what the sources say of each fault."""

from __future__ import annotations

import re
from collections.abc import Iterator
from pathlib import Path
from typing import NamedTuple

from trials.program import ROOT

# a fault's number and name, in a string of a source and in the line that refuses a text
NUMBERED = re.compile(r'(?:"|: )([0-9]+ ([A-Z][A-Za-z]+))')
# the same where a source has them apart
CODE = re.compile(r'Code::new\(([0-9]+), "([A-Z][A-Za-z]+)"\)')
VARIANT = re.compile(r"((?: +/// .*\n)+) +([A-Z]\w+)")
MESSAGE = re.compile(r"FileFault::(?!OutOfMemory)(\w+)\S* => \[(.*?)\]", re.DOTALL)
# the sections whose faults `explain` prints
EXPLAINED = ("rules", "forms", "groups")
AFTER_A_FAULT = "\n### What is checked after a fault\n"
# a row of the file: a star, if its fault is a common one; words; a change; and the line that refuses the changed text
ROW = re.compile(
    r"(?P<star>\* )?(?:(?P<words>[^→]+?): )??(?:`(?P<old>[^`]+)` → `(?P<new>[^`]*)`: )?`(?P<line>wdp: [^`]+)`"
)


def docs_of(source: str) -> dict[str, str]:
    """The doc comment of each variant that has one."""
    return {
        name: " ".join(doc.replace("///", " ").split()) for doc, name in VARIANT.findall(source)
    }


class Row(NamedTuple):
    """A refused text: whether its fault is one of the commonest, what is wrong in words, what was changed into what, and the line
    that refuses it. Words, or the change, may be missing: they are empty then."""

    is_common: bool
    words: str
    old: str
    new: str
    line: str

    def fault(self) -> str:
        """The fault's number and name, if the line has them."""
        found = NUMBERED.search(self.line)
        return found[1] if found else ""


def row_of(text: str) -> Row:
    found = ROW.fullmatch(text)
    if not found:
        raise ValueError(f"fixtures/faults.txt has a line that is no row: {text}")
    words, old, new = (found[name] or "" for name in ("words", "old", "new"))
    return Row(bool(found["star"]), words, old, new, found["line"])


def table_of(heads: list[str], rows: list[list[str]]) -> str:
    """A table, with a blank line before it; nothing if it has no row."""
    if not rows:
        return ""
    lines = [heads, ["---"] * len(heads), *rows]
    return "\n" + "".join(f"| {' | '.join(cells)} |\n" for cells in lines)


class Section(NamedTuple):
    """Changes to a text that a command accepts (a file, and perhaps lines after it), each with the line that refuses the outcome.
    The faults of the sources up to the number `known` are those of version 2.0.0."""

    name: str
    sources: str
    known: int
    command: str
    texts: list[str]
    rows: list[Row]

    def text(self) -> str:
        return Path(ROOT, self.texts[0]).read_text() + "".join(self.texts[1:]).replace("⏎", "\n")

    def meanings(self) -> dict[str, str]:
        """The doc comment of each fault of the sources, by number and name; empty if it has none."""
        source = "".join(path.read_text() for path in Path(ROOT, "crates").glob(self.sources))
        docs = docs_of(source)
        named = NUMBERED.findall(source)
        named += [(f"{number} {name}", name) for number, name in CODE.findall(source)]
        named.sort(key=lambda fault: int(fault[0].split()[0]))
        return {fault: docs.get(name, "") for fault, name in named}

    def without_meaning(self) -> list[Row]:
        """The rows whose fault is none that the sources number."""
        meanings = self.meanings()
        return [row for row in self.rows if row.fault() not in meanings]

    def format_section(self) -> str:
        """The section as docs/REFERENCE.md has it: what the commonest faults look like in a text, what is refused without being
        numbered by the sources, and what each numbered fault means."""
        prints = f"`wdp {self.command}` prints"
        text = f"`{self.texts[0]}`" + (" and a solution" if self.texts[1:] else "")
        common = [
            [f"`{it.new}`", f"`{it.old}`", f"`{it.line}`"] for it in self.rows if it.is_common
        ]
        others = [[it.words, f"`{it.line}`"] for it in self.without_meaning()]
        meanings = [[f"`{fault}`", meaning] for fault, meaning in self.meanings().items()]
        tables = [
            table_of([f"In {text}", "in place of", prints], common),
            table_of(["What is wrong", prints], others),
            table_of(["Fault", "Meaning"], meanings),
        ]
        return "".join(tables) + "\n"


def sections() -> list[Section]:
    found = []
    for text in Path(ROOT, "fixtures", "faults.txt").read_text().split("\n= ")[1:]:
        head, *rows = text.splitlines()
        name, numbered, command, *texts = head.split(" | ")
        sources, _, known = numbered.partition(" ")
        parsed = [row_of(row) for row in rows]
        found.append(Section(name, sources, int(known or 0), command, texts, parsed))
    return found


def texts_below(*patterns: str) -> str:
    """The texts of all files of the tree that have such paths."""
    paths = [path for pattern in patterns for path in Path(ROOT).glob(pattern)]
    return "".join(path.read_text() for path in paths)


def is_left_out(section: Section, fault: str) -> Iterator[tuple[bool, str]]:
    """Whether a fault that is newer than version 2.0.0 lacks a step of a new refusal in docs/CONTRIBUTING.md, for each step that
    no compiler or prover asks for, and what is missing then."""
    name = fault.split()[1]
    named = f"{section.name}: {fault}"
    values = re.search(rf"Fault::{name}\b", texts_below("crates/*_tests/src/**/*.rt"))
    yield values is None, f"no row of crates/*_tests is refused as {named}"
    edit = re.sub(r"(?<!^)(?=[A-Z])", "_", name).lower() + "_accepted"
    edits = [*Path(ROOT, "crates").glob(f"*/must-fail/*.{edit}.edit")]
    yield not edits, f"no crate has an edit must-fail/*.{edit}.edit for {named}"
    yield f"`{fault}`" not in texts_below("CHANGELOG.md"), f"CHANGELOG.md doesn't name {named}"
    if section.name in EXPLAINED:
        planted = texts_below("tools/trials/planted.py", "tools/trials/faulty_inputs.py")
        yield fault not in planted, f"tools/trials/planted.py plants no {named}"
        _, _, after = texts_below("docs/REFERENCE.md").partition(AFTER_A_FAULT)
        is_missing = f"`{name}`" not in after.partition("\n### ")[0]
        yield is_missing, f"docs/REFERENCE.md doesn't say what is checked after {named}"


def steps_left_out() -> Iterator[str]:
    """What is missing of faults: each has a row of fixtures/faults.txt."""
    every = sections()
    for section in every:
        alike = [it for it in every if it.name.split()[0] == section.name.split()[0]]
        rows = {row.fault() for it in alike for row in it.rows}
        for fault in section.meanings():
            if fault not in rows:
                yield f"fixtures/faults.txt has no row of {section.name}: {fault}"
            if int(fault.split()[0]) > section.known:
                yield from (
                    missing for is_missing, missing in is_left_out(section, fault) if is_missing
                )


def of_files() -> str:
    """What is said of a file that isn't read or written, and why, as docs/REFERENCE.md shows it."""
    source = Path(ROOT, "crates", "auction_input", "src", "files.rt").read_text()
    docs = docs_of(source)
    rows = []
    for name, words in MESSAGE.findall(source.replace("kind.words()", '"KIND"')):
        message = "".join(re.findall(r'"(.*?)"', words)).strip()
        rows.append([f"`{message}`", docs[name]])
    return table_of(["Message", "Meaning"], rows) + "\n"
