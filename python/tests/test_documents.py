"""The commands of the pages, each page's in its order in a fresh clone: they run as they are there,
and print what the page shows.
"""
import contextlib
import os
import re
import signal
import subprocess
import sys
from collections.abc import Iterator
from pathlib import Path
from typing import NamedTuple

import pytest
from commands import ROOT, read_text

BLOCK = re.compile(r"^```([a-z]*)(?: ([^\n]*))?\n(.*?)^```$", re.MULTILINE | re.DOTALL)
COMMAND = re.compile(r"(\./|\(echo |sed |mkdir |PATH=|apt-get |pip |ssh-keygen )")
# what needs a network or another machine, names no file of the tree (`DIR`, `rules.csv`), or proves
# or tests everything: test_command.py installs by pip, test_auction.py has Slurm's profile
NOT_RUN = re.compile(r"apt-get |pip |\./build |\./test |\./wdp-office explain rules\.csv |.* DIR ")
# the reports that the commands of OFFICE leave, of examples
LEFT = {"report.txt": "spectrum", "worked/report.txt": "worked", "cluster/report.txt": "worked"}


class Clone:
    """What git has of the tree, with the program that is tried."""

    def __init__(self, folder: Path, wdp: str) -> None:
        self.folder = folder
        self.wdp = wdp
        copy = f"git ls-files -z ':!crates' | tar -c --null -T - | tar -x -C '{folder}'"
        subprocess.run(["sh", "-c", copy], cwd=ROOT, check=True)
        (folder / "wdp").unlink()
        (folder / "wdp").symlink_to(wdp)

    def run(self, command: str) -> tuple[int, str]:
        """How a command ends, and what it prints."""
        done = subprocess.run(
            ["sh", "-c", command],
            cwd=self.folder,
            stdin=subprocess.DEVNULL,
            stdout=subprocess.PIPE,
            stderr=subprocess.STDOUT,
            env={**os.environ, "LC_ALL": "C.UTF-8", "WDP": self.wdp},
        )
        return done.returncode, done.stdout.decode()


@pytest.fixture
def clone(tmp_path: Path, wdp: str) -> Iterator[Clone]:
    yield Clone(tmp_path, wdp)
    served = tmp_path / "served.pid"
    if served.exists():
        # (the page ends the desk, unless a command before that failed)
        with contextlib.suppress(ProcessLookupError):
            os.kill(int(served.read_text()), signal.SIGTERM)


class Step(NamedTuple):
    """A command of a page, and what the page shows of its output, if it does."""

    command: str
    output: str | None


def list_blocks(path: str) -> list[tuple[str, str, str]]:
    """The blocks of a page: of what kind each is, the file's name if it has one, and the text."""
    return BLOCK.findall(read_text(*path.split("/")))


def list_steps(path: str) -> list[Step]:
    """The commands of a page."""
    steps: list[Step] = []
    for kind, _, text in list_blocks(path):
        if text.startswith("$ "):
            for shown in re.split(r"^\$ ", text, flags=re.MULTILINE)[1:]:
                command, _, output = shown.partition("\n")
                steps.append(Step(command, output))
        elif kind in ("", "sh") and COMMAND.match(text):
            lines = [line for line in text.splitlines() if not NOT_RUN.match(line)]
            steps += [Step(line, None) for line in lines]
    return steps


def list_files(path: str) -> list[str]:
    """The files that a page shows."""
    texts = [text for kind, _, text in list_blocks(path) if kind == ""]
    return [text for text in texts if not text.startswith("$ ") and not COMMAND.match(text)]


def join_columns(piece: str) -> str:
    """The text whose parts are side by side in a piece, more than one space apart."""
    lines = piece.splitlines()
    starts = [match.start() for match in re.finditer(r"\S+( \S+)*", lines[0])]
    ends = [*starts[1:], None]
    columns = [slice(start, end) for start, end in zip(starts, ends, strict=True)]
    cells = [line[column].rstrip() for column in columns for line in lines]
    return "".join(f"{cell}\n" for cell in cells if cell)


def check_steps(clone: Clone, steps: list[Step]) -> None:
    """Each command prints what the page shows, or ends with status 0."""
    for step in steps:
        status, output = clone.run(step.command)
        assert "Traceback" not in output, output
        if step.output is None:
            assert status == 0, (step.command, output)
        else:
            assert output == step.output, step.command


def test_the_commands_of_the_first_page(clone: Clone) -> None:
    steps = list_steps("README.md")
    check_steps(clone, steps)
    assert len(steps) >= 3


def test_the_files_of_the_first_page() -> None:
    """An input and its report, both with their parts side by side."""
    examples = [read_text("examples", f"worked{end}.txt") for end in ("", ".report")]
    assert [join_columns(file) for file in list_files("README.md")] == examples


def test_the_commands_of_the_office(clone: Clone) -> None:
    steps = list_steps("docs/OFFICE.md")
    check_steps(clone, steps)
    assert len(steps) >= 30
    for name, example in LEFT.items():
        report = read_text("examples", f"{example}.report.txt")
        assert (clone.folder / name).read_text() == report
    assert "Optimal - objective value -50" in (clone.folder / "solution.txt").read_text()


def test_the_office_shows_commands_alone() -> None:
    assert list_files("docs/OFFICE.md") == []


def test_python_has_blocks_of_these_kinds() -> None:
    assert {kind for kind, _, _ in list_blocks("docs/PYTHON.md")} == {"csv", "python", "sh"}


def test_the_page_of_python_does_what_it_shows(clone: Clone) -> None:
    """Each block of Python, one after the other, with the files that the page shows."""
    for name in ("numpy", "pandas", "scipy", "swiglpk"):
        pytest.importorskip(name, reason=f"{name} isn't there")
    texts: list[str] = []
    for kind, name, text in list_blocks("docs/PYTHON.md"):
        if kind == "python":
            texts.append(text)
        elif kind == "csv":
            (clone.folder / name).write_text(text)
    for text in texts:
        assert text.startswith(">>> ")
    assert "".join(texts).count(">>> ") > 20
    (clone.folder / "page.txt").write_text("\n".join(texts))
    tried = clone.run(f"PYTHONPATH=python/src {sys.executable} -m doctest page.txt")
    assert tried == (0, "")
