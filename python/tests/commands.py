"""The tree, the commands of wdp-office in this process or in one of their own, and folders as
offices and auctions have them.
"""
import contextlib
import io
import json
import os
import re
import resource
import shutil
import signal
import subprocess
import sys
import time
from collections.abc import Callable, Iterable
from pathlib import Path
from typing import Any, NamedTuple

import jsonschema

from wdp import cli

ROOT = Path(__file__).resolve().parents[2]
EXAMPLES = ROOT / "examples"
# the examples that have their reports beside them
REPORTED = sorted(path.name.split(".")[0] for path in EXAMPLES.glob("*.report.txt"))
WORKED = (EXAMPLES / "worked.txt").read_bytes()
# a line break that begins a forged line, a terminal's escape, and marks that turn the direction
EVIL = "x\ntotal 1\x1b[2K\r\u202e"


class CommandResult(NamedTuple):
    """What a command comes to: its status, and what it printed."""

    status: int
    out: str
    err: str


def parse_rows(table: str) -> list[tuple[str, ...]]:
    """The rows of a table that is a text, a line each with cells between `|`; ⏎ is LF there, ␍ CR,
    and a line `# ..` a comment.
    """
    ends = str.maketrans("⏎␍", "\n\r")
    lines = [line for line in table.strip("\n").split("\n") if not line.startswith("# ")]
    return [tuple(cell.strip().translate(ends) for cell in line.split(" |")) for line in lines]


def matches(pattern: str, text: str) -> re.Match[str] | None:
    """Whether a line of a table is in a text; * is anything."""
    return re.search(re.escape(pattern).replace(r"\*", ".*"), text)


def read_text(*names: str) -> str:
    return ROOT.joinpath(*names).read_bytes().decode()


SCHEMA = jsonschema.Draft202012Validator(json.loads(read_text("docs", "results.schema.json")))


def list_files(folder: Path) -> set[str]:
    """The paths below a folder of all that is no folder, but of Python's compiled modules."""
    paths = (path for path in folder.rglob("*") if path.is_symlink() or not path.is_dir())
    return {str(path.relative_to(folder)) for path in paths if path.parent.name != "__pycache__"}


def make_environment(**more: str) -> dict[str, str]:
    usual = {"PYTHONPATH": f"{ROOT}/python/src", "PYTHONDONTWRITEBYTECODE": "1"}
    return {**os.environ, **usual, **more}


def hide_library(library: str, folder: Path) -> dict[str, Any]:
    (folder / f"{library}.py").write_text("raise ImportError\n")
    return {"env": make_environment(PYTHONPATH=f"{folder}:{ROOT}/python/src")}


def limit_files(size: int) -> dict[str, Any]:
    """How a command is started that can't write more bytes to a file."""
    return {"preexec_fn": lambda: resource.setrlimit(resource.RLIMIT_FSIZE, (size, size))}


def start(words: Iterable[object], **how: Any) -> subprocess.Popen[bytes]:
    """(A job that a shell runs beside others begins with the signal of an interrupt ignored.)"""
    usual: dict[str, Any] = {
        "stdin": subprocess.DEVNULL,
        "stdout": subprocess.PIPE,
        "stderr": subprocess.PIPE,
        "env": make_environment(),
        "preexec_fn": lambda: signal.signal(signal.SIGINT, signal.SIG_DFL),
    }
    return subprocess.Popen(list(map(str, words)), **{**usual, **how})


def finish(
    started: subprocess.Popen[bytes], data: bytes | None = None, own: str = "Traceback"
) -> CommandResult:
    """What a process comes to.

    Whatever it is given, it ends in no traceback; `own` is what one of ours would print.
    """
    out, err = (text or b"" for text in started.communicate(data, timeout=900))
    seen = CommandResult(started.returncode, out.decode(), err.decode())
    assert own not in seen.out + seen.err, seen.out + seen.err
    return seen


def run(*words: object, data: bytes | None = None, **how: Any) -> CommandResult:
    """A command of wdp-office; in a process of its own if something is said of that."""
    if data is not None:
        how["stdin"] = subprocess.PIPE
    if how:
        return finish(start([sys.executable, "-m", "wdp", *words], **how), data)
    printed = io.BytesIO()
    errors = io.BytesIO()
    output = io.TextIOWrapper(printed, write_through=True)
    messages = io.TextIOWrapper(errors, write_through=True)
    with contextlib.redirect_stdout(output), contextlib.redirect_stderr(messages):
        try:
            status = cli.main(list(map(str, words)))
        except SystemExit as stopped:
            status = int(stopped.code or 0)
    return CommandResult(status, printed.getvalue().decode(), errors.getvalue().decode())


def check_stopped(seen: CommandResult, *parts: str, status: int = 1) -> None:
    """A command that ended early, with these words, and no output."""
    assert seen.status == status, seen
    assert seen.out == "", seen
    assert "Traceback" not in seen.err, seen.err
    assert all(part in seen.err for part in parts), seen.err


def run_program(wdp: str, command: str, data: bytes) -> bytes:
    return subprocess.run([wdp, command], input=data, capture_output=True, check=True).stdout


def write_script(path: Path, text: str) -> Path:
    path.write_text("#!/bin/sh\n" + text + "\n")
    path.chmod(0o755)
    return path


def wait_for(holds: Callable[[], object], seconds: float = 300) -> None:
    last = time.monotonic() + seconds
    while not holds():
        assert time.monotonic() < last
        time.sleep(0.01)


def find_processes(mark: str) -> list[str]:
    """The processes that have this in their surroundings."""
    processes = []
    for path in Path("/proc").glob("[0-9]*/environ"):
        with contextlib.suppress(OSError):
            if mark.encode() in path.read_bytes() and path.parent.name != str(os.getpid()):
                processes.append(path.parent.name)
    return processes


# Alpha and Beta bid the same for the one lot: either may win.
TIED = (ROOT / "fixtures/office/tied.txt").read_bytes()
# the file that is installed as wdp-office: an interrupt while it begins ends it without a word
COMMAND = ROOT / "python/src/wdp/__main__.py"
REST = """rest() { cbc "$1" -solve -solu cbc.txt > /dev/null \\
  && sed "1d; s/^ *[0-9]* *\\([^ ]*\\) *\\([^ ]*\\) .*/\\1 \\2/" cbc.txt > "$2"; }
"""


def write_solver(folder: Path, text: str) -> list[str]:
    """A solver that is a script: $1 is the program, which has Beta's bid X2_1 in groups 1 and 2
    alone, $2 the answer.
    """
    path = write_script(folder / "solver", REST + text)
    return ["--solver-command", f"{path} {{free}} {{out}}"]


class AuctionFolder:
    """A folder with an auction, and its runs, of which no process is left."""

    def __init__(self, where: Path, wdp: str, data: bytes = WORKED) -> None:
        self.where = where
        self.wdp = wdp
        self.mark = f"an auction of {os.getpid()} at {time.monotonic()}"
        where.mkdir()
        self.put("input.txt", data)

    def put(self, name: str, data: bytes) -> None:
        (self.where / name).write_bytes(data)

    def has(self, name: str) -> bool:
        return (self.where / name).exists()

    def read(self, name: str) -> bytes:
        return (self.where / name).read_bytes()

    def make_environment(self, **more: str) -> dict[str, str]:
        return make_environment(WDP=self.wdp, STARTED_BY=self.mark, **more)

    def start(
        self,
        *words: object,
        folder: bool = True,
        stdin: Any = subprocess.DEVNULL,
        stderr: Any = subprocess.PIPE,
        **more: Any,
    ) -> subprocess.Popen[bytes]:
        place = [self.where] if folder else []
        command = [sys.executable, COMMAND, "auction", *place, "--jobs", 2, *words]
        return start(command, stdin=stdin, stderr=stderr, env=self.make_environment(**more))

    def run(self, *words: object, data: bytes | None = None, **how: Any) -> CommandResult:
        seen = finish(self.start(*words, stdin=subprocess.PIPE, **how), data)
        assert find_processes(self.mark) == []
        return seen

    def read_messages(self, *words: object, status: int = 0, **how: Any) -> str:
        """The messages of a run that ends with this status."""
        seen = self.run(*words, **how)
        assert seen.status == status, seen
        return seen.err

    def read_outcome(self) -> tuple[bytes, bytes]:
        return self.read("report.txt"), self.read("audit.txt")


BIDDERS = ["Ant", "Bee", "Cat", "Dove", "Eel", "Fox", "Gnat", "Heron", "Ibis"]
OFFICE = ROOT / "fixtures/office/folder"
BY_HAND = (OFFICE / "joined.txt").read_text()


class OfficeFolder:
    """A folder with the rules, the groups and nine forms, each as another spreadsheet or editor
    exports it: nothing is wrong.
    """

    def __init__(self, folder: Path) -> None:
        shutil.copytree(OFFICE, folder, dirs_exist_ok=True)
        self.folder = folder
        self.rules = folder / "rules.csv"
        self.forms = folder / "forms"
        self.groups = folder / "groups.txt"
        self.files = [self.rules, self.forms, self.groups]

    def snapshot(self) -> dict[Path, tuple[int, int]]:
        """What is in the folder, how large it is, and when it was changed."""
        paths = {path: path.lstat() for path in self.folder.rglob("*")}
        return {path: (status.st_size, status.st_mtime_ns) for path, status in paths.items()}

    def write(self, name: str, data: str | bytes) -> Path:
        path = self.folder / name
        path.write_bytes(data if isinstance(data, bytes) else data.encode())
        return path

    def gather(self, *words: object, **how: Any) -> CommandResult:
        return run("gather", *self.files[: 2 if "--groups" in words else 3], *words, **how)

    def explain(self, *words: object) -> list[str]:
        return run("explain", *self.files, *words).out.splitlines()

    def list_faults(self, *words: object) -> list[str]:
        """The lines of the faults, without the folder's path; the same of gather and of explain."""
        seen = self.gather(*words)
        check_stopped(seen)
        *lines, _ = seen.err.splitlines()
        assert self.explain(*words)[: len(lines)] == lines
        return [line.replace(f"{self.folder}/", "") for line in lines]
