"""A folder that keeps what steps leave: each file complete or not at all, with its SHA-256 in
`sums/`.
"""
import contextlib
import fcntl
import os
import re
import tempfile
import time
from collections.abc import Iterator, Mapping, Sequence
from dataclasses import dataclass
from itertools import count
from pathlib import Path
from typing import IO

from wdp import audits, files
from wdp.texts.refusals import Refused
from wdp.texts.tables import compute_digest

INPUT = "input.txt"
PAGE = "page.json"  # what the office said of the page
LOST = "lost"
LETTERS = "letters"
RECEIPTS = "receipts"
RESULTS = "results"
# the folders that other commands than `auction` write into, and judge
_MAKERS = {LOST: "lost", LETTERS: "letters", RECEIPTS: "letters --receipts"}
_MOST_NAMED = 4  # files that a message names
_MOST_OF_FILE = 2 * 1024 * 1024 * 1024  # bytes of a file that a step left
_MOST_OF_SUM = 10_000  # bytes of a line with a file's SHA-256
_PATIENCE = 3  # seconds for a run that is just ending
_FOLDERS = ("programs", "answers", "solutions", "certificates", "unfinished", "ties", "prices")
# what steps write, of each group and of what searches keep, and once
_OURS = re.compile(
    r"(?:programs|answers|solutions|certificates|unfinished|ties|prices)"
    r"/[0-9]+(?:\.[0-9]+|\.best)?\.(?:mps|txt)"
    r"|programs/(?:names|added)\.txt"
    r"|(?:inequalities|ties|prices|award|format|report|report\.uncertified|audit|unpriced)\.txt"
)
_REPORTS = ("report.txt", "report.uncertified.txt")
_SUM = re.compile(rb"[0-9a-f]{64}  (.+)\n")


@dataclass
class Folder:
    """The folder of an auction. Its `input.txt` is the input, and one alone; one that `is_derived`
    has that of another folder, by which it is made again.

    A file that isn't as it was left, or that nobody left, is kept: it is replaced only if this
    folder `replaces` such files.
    """

    where: Path
    replaces: bool = False
    is_derived: bool = False

    def path(self, name: str) -> Path:
        """The path of a file that a step leaves."""
        return self.where / name

    def sum_path(self, name: str) -> Path:
        """The path of a file's SHA-256."""
        return self.path(f"sums/{name}.sha256")

    def has(self, name: str) -> bool:
        """Whether a step left this file."""
        return os.path.lexists(self.path(name)) and os.path.lexists(self.sum_path(name))

    def read_sum(self, name: str) -> bytes:
        """The line with a file's SHA-256, as it was left."""
        return files.read(str(self.sum_path(name)), _MOST_OF_SUM, regular=True)

    def knows(self, name: str, data: bytes) -> bool:
        """Whether these bytes are those of a file that was left, whether it is there or not; also
        if none was.
        """
        has_sum = os.path.lexists(self.sum_path(name))
        return not has_sum or self.read_sum(name) == _format_sum(name, data)

    def read(self, name: str) -> bytes:
        """The bytes that a step left; Refused if they are others, or it isn't a file."""
        data = self._read_any(name)
        if self.read_sum(name) != _format_sum(name, data):
            raise self._refuse([name])
        return data

    def leave(self, name: str, data: bytes) -> None:
        """Writes what a step leaves; Refused if another file is there that isn't as it was left.

        Its sum comes first: a step that is ended between them is done again.
        """
        path = self.path(name)
        if os.path.lexists(path) and self._read_any(name) != data:
            if not self.replaces and not self._is_as_left(name):
                raise self._refuse([name])
            with files.map_errors(str(path)):
                path.unlink()
        self._leave_sum(name, data)
        if not path.exists():
            self._write(path, data)

    def leave_folder(self, folder: str, texts: Mapping[str, bytes]) -> None:
        """Writes a folder of files by their names in the place of an older one; Refused if that has
        others, or one that isn't as it was left.

        Their sums come last: a run that is ended before that finds the same files when it is done
        again.
        """
        left = [name.removeprefix(f"{folder}/") for name in self.list_left(folder)]
        files.write_folder(
            str(self.path(folder)),
            texts,
            ours=[*texts, *left],
            is_left=lambda name: self._is_as_left(f"{folder}/{name}"),
            replaces=self.replaces,
        )
        for name, text in texts.items():
            self._leave_sum(f"{folder}/{name}", text)
        for name in set(left) - texts.keys():
            self.forget(f"{folder}/{name}")

    def forget(self, name: str) -> None:
        """Takes away what a step left, if it did."""
        for path in (self.path(name), self.sum_path(name)):
            with files.map_errors(str(path)):
                path.unlink(missing_ok=True)

    def clear(self, folder: str | None = None) -> None:
        """Takes away all that was left, or what was in one folder; Refused if a file of it isn't as
        it was left.
        """
        names = self.list_left(folder)
        self.find_changed(names)
        for name in names:
            self.forget(name)

    def find_changed(self, names: Sequence[str]) -> list[str]:
        """Those of these files that are there and aren't as they were left, if this folder replaces
        such files; else Refused, which names them.
        """
        there = [name for name in names if os.path.lexists(self.path(name))]
        changed = [name for name in there if not self._is_as_left(name)]
        if changed and (self._has_input(changed) or not self.replaces):
            raise self._refuse(changed)
        return changed

    def list_left(self, folder: str | None = None) -> list[str]:
        """The names of all that was left, whether it is there or not, or of what is in a folder."""
        sums = self.path("sums")
        paths = [path.relative_to(sums) for path in sums.rglob("*.sha256")]
        names = sorted(str(path).removesuffix(".sha256") for path in paths)
        return [name for name in names if folder is None or name.startswith(f"{folder}/")]

    def check(self) -> list[str]:
        """The names of what steps left and isn't there any more, apart from what other commands
        judge. Refused if some of the rest isn't as it was left; that is forgotten if this folder
        replaces it.
        """
        names = {name for name in self.list_left() if name.split("/")[0] not in _MAKERS}
        missing = {name for name in names if not os.path.lexists(self.path(name))}
        for name in self.find_changed(sorted(names - missing | {*self._list_in_the_way()})):
            self.forget(name)
        return sorted(missing)

    def _list_in_the_way(self) -> Iterator[str]:
        """The names of files that steps would write, whether they were left or not."""
        for folder in ("", *_FOLDERS):
            where = self.path(folder)
            names = os.listdir(where) if where.is_dir() else []
            paths = (f"{folder}/{name}".lstrip("/") for name in names)
            yield from filter(_OURS.fullmatch, paths)
        # (an earlier version left results without their sums, and with a report)
        where = self.path(RESULTS)
        if where.is_dir() and not any(map(self.has, _REPORTS)):
            yield from (f"{RESULTS}/{name}" for name in os.listdir(where))

    def make_log(self, name: str) -> Path:
        """A new file for what a solver prints, in a folder that is made for it."""
        self.path("logs").mkdir(exist_ok=True)
        names = (f"{name}-{number}" if number > 1 else name for number in count(1))
        paths = (self.path(f"logs/{each}.txt").absolute() for each in names)
        return next(path for path in paths if not os.path.lexists(path))

    def _read_any(self, name: str) -> bytes:
        """The bytes of a file, whoever left it."""
        return files.read(str(self.path(name)), _MOST_OF_FILE, regular=True)

    def _is_as_left(self, name: str) -> bool:
        """Whether a file that is there is as it was left."""
        if not os.path.lexists(self.sum_path(name)):
            return False
        return self.read_sum(name) == _format_sum(name, self._read_any(name))

    def _refuse(self, names: Sequence[str]) -> Refused:
        """Why these files are kept, and what makes them again."""
        named = [str(self.path(name)) for name in names[:_MOST_NAMED]]
        if len(names) > len(named):
            named.append(f"{len(names) - len(named)} more")
        maker = _MAKERS.get(names[0].split("/")[0], "auction")
        again = f"wdp-office {maker} with --replace makes it again"
        if self._has_input(names):
            again = "take another folder"
        are = "isn't" if len(names) == 1 else "aren't"
        return Refused(f"{', '.join(named)} {are} what was left there: put that back, or {again}")

    def _has_input(self, names: Sequence[str]) -> bool:
        """Whether one of these files is an input that nothing makes again."""
        return INPUT in names and not self.is_derived

    def _leave_sum(self, name: str, data: bytes) -> None:
        """Writes the sum of what is left; Refused if something else is in its place."""
        path = self.sum_path(name)
        text = _format_sum(name, data)
        if os.path.lexists(path):
            current = self.read_sum(name)
            if current == text:
                return
            match = _SUM.fullmatch(current)
            if not self.replaces and (match is None or match[1] != os.fsencode(name)):
                raise Refused(f"{path} isn't the sum of {name}: delete it")
        self._write(path, text)

    def _write(self, path: Path, data: bytes) -> None:
        with files.map_errors(str(path.parent)):
            path.parent.mkdir(parents=True, exist_ok=True)
        files.write_all({str(path): data})

    def open_temporary(self) -> IO[bytes]:
        """A new file that is gone once it is closed, on the folder's disk."""
        return tempfile.TemporaryFile(dir=self.where)

    def take_input(self, data: bytes | None) -> None:
        """Takes an input, or the `input.txt` that is there.

        A folder that belongs to another one is refused: one in which a step left more than that, or
        nothing yet.
        """
        path = self.path(INPUT)
        left = [name for name in self.list_left() if not name.startswith(f"{RECEIPTS}/")]
        has_others = bool(set(left) - {INPUT, PAGE})
        another = Refused(f"{path} is another input; take another folder")
        if data is None or path.exists():
            current = files.read(str(path), _MOST_OF_FILE, regular=True)
            if data not in (None, current) and (has_others or not self.has(INPUT)):
                raise another
            if data is None:
                audits.refuse_audit(current, str(path))
                data = current
        if not has_others:
            self.leave(INPUT, data)
        elif self.has(INPUT):
            self.read(INPUT)
        elif not self.sum_path(INPUT).exists():
            why = f"it says which input {self.where} belongs to"
            raise Refused(f"{self.sum_path(INPUT)} isn't there; {why}")
        elif self.read_sum(INPUT) != _format_sum(INPUT, data):
            raise another
        else:
            self.leave(INPUT, data)

    @contextlib.contextmanager
    def lock(self, *, alone: bool) -> Iterator[None]:
        """One run at a time has the folder, or any number of steps of Snakemake, until the last of
        its processes ends.
        """
        kind = fcntl.LOCK_EX if alone else fcntl.LOCK_SH
        path = str(self.path(".lock"))
        end = time.monotonic() + _PATIENCE
        with files.map_errors(path):
            number = os.open(path, os.O_RDWR | os.O_CREAT | os.O_NONBLOCK, 0o666)
        with open(number, "rb") as file:
            files.check_kind(path, os.fstat(number))
            while True:
                with contextlib.suppress(BlockingIOError):
                    fcntl.flock(file, kind | fcntl.LOCK_NB)
                    break
                if time.monotonic() > end:
                    raise Refused(f"another run works in {self.where}")
                time.sleep(0.05)
            yield

    @contextlib.contextmanager
    def scratch(self) -> Iterator[None]:
        """Takes away what a run that was killed didn't finish.

        What is temporary then goes into the folder.
        """
        scratch = self.path(".running").absolute()
        files.remove(scratch)
        # (a file is written in the folder, in one or two below it, or in one of `sums`)
        for depth in ("", "*/", "*/*/", "*/*/*/"):
            for path in self.where.glob(f"{depth}{files.WRITING}*"):
                files.remove(path)
        scratch.mkdir(exist_ok=True)
        before = os.environ.get("TMPDIR")
        os.environ["TMPDIR"] = str(scratch)
        try:
            yield
        finally:
            os.environ.pop("TMPDIR", None)
            if before is not None:
                os.environ["TMPDIR"] = before
            files.remove(scratch)


def _format_sum(name: str, data: bytes) -> bytes:
    return f"{compute_digest(data)}  {name}\n".encode()
