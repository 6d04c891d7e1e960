"""The folder of a desk, what is in it, and which of its files nobody else may read.

    round.csv      what the round is: rows `name,value`
    rules.csv      the rules, as they are in the input
    keys.csv       the keys of the sessions, to be handed out and then deleted
    digests.csv    the SHA-256 of each key
    renewals.csv   when which key was renewed
    signing.key    the key that signs receipts
    journal        what `wdp-desk` keeps
    room           space on the disk for withdrawals and the close
    stopped        why the desk has stopped and asks, if it has
    socket         where the office's commands reach the process that serves
"""
import os
import stat
from collections.abc import Iterator
from contextlib import contextmanager
from dataclasses import dataclass
from pathlib import Path

from wdp import files
from wdp.texts.refusals import Refused

SOCKET = "socket"
_MOST_OF_A_FILE = 16 * 1024 * 1024
_OTHERS = stat.S_IRWXG | stat.S_IRWXO


@dataclass(frozen=True)
class DeskFolder:
    """The paths of a desk's files."""

    where: Path

    def path(self, name: str) -> Path:
        """The path of a file of the desk."""
        return self.where / name

    def read(self, name: str) -> bytes:
        """The bytes of a file of the desk; Refused if there is no such desk."""
        if not self.path("round.csv").is_file():
            raise Refused(f"{self.where} is no folder of a desk; wdp-office desk new makes one")
        return files.read(str(self.path(name)), _MOST_OF_A_FILE, regular=True)

    def read_secret(self, name: str) -> bytes:
        """The bytes of a file that nobody else may read."""
        return read_secret(self.path(name), _MOST_OF_A_FILE)

    def write_secret(self, name: str, data: bytes) -> None:
        """Writes a file that nobody else may read, in the place of the one that is there; it is on
        the disk then.
        """
        path = self.path(name)
        temporary = self.path(f"{files.WRITING}{name}")
        with files.map_errors(str(path)):
            write_new(temporary, data)
            os.replace(temporary, path)
            sync_folder(self.where)


def read_secret(path: Path, most: int) -> bytes:
    """The bytes of a file; Refused if others than its owner may read or change it."""
    with files.map_errors(str(path)):
        if os.stat(path).st_mode & _OTHERS:
            raise Refused(f"{path}: others than its owner may read it; chmod 600 {path}")
    return files.read(str(path), most, regular=True)


def write_new(path: Path, data: bytes) -> None:
    """Writes a file that nobody else may read, and has it on the disk."""
    path.unlink(missing_ok=True)
    number = os.open(path, os.O_WRONLY | os.O_CREAT | os.O_EXCL, 0o600)
    with open(number, "wb") as file:
        file.write(data)
        file.flush()
        os.fsync(file.fileno())


def sync_folder(path: Path) -> None:
    """Has the names in a folder on the disk."""
    number = os.open(path, os.O_RDONLY | os.O_DIRECTORY)
    try:
        os.fsync(number)
    finally:
        os.close(number)


@contextmanager
def short_path(path: Path) -> Iterator[str]:
    """A name of a socket that is short enough, whatever its folder is called, within this."""
    number = os.open(path.parent, os.O_RDONLY | os.O_DIRECTORY)
    try:
        yield f"/proc/self/fd/{number}/{path.name}"
    finally:
        os.close(number)
