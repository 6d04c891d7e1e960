"""Stores of what steps leave, by the names of files: in memory, or as a folder has them."""
import tempfile
from dataclasses import dataclass, field
from pathlib import Path
from typing import IO, Protocol


class Store(Protocol):
    """What steps leave, each text by its name; one that is there stays as it is."""

    def has(self, name: str) -> bool:
        """Whether a step left this."""

    def read(self, name: str) -> bytes:
        """What a step left; Refused if it isn't that any more."""

    def leave(self, name: str, data: bytes) -> None:
        """Keeps what a step leaves."""

    def forget(self, name: str) -> None:
        """Takes away what a step left, if it did."""

    def path(self, name: str) -> Path:
        """What messages call this."""

    def make_log(self, name: str) -> Path | None:
        """The file for what a solver prints, if that is kept."""

    def open_temporary(self) -> IO[bytes]:
        """A new file that is gone once it is closed, on the same disk."""


@dataclass
class MemoryStore:
    """What steps leave, in memory."""

    texts: dict[str, bytes] = field(default_factory=dict)

    def has(self, name: str) -> bool:
        """Whether a step left this."""
        return name in self.texts

    def read(self, name: str) -> bytes:
        """What a step left."""
        return self.texts[name]

    def leave(self, name: str, data: bytes) -> None:
        """Keeps what a step leaves."""
        self.texts[name] = data

    def forget(self, name: str) -> None:
        """Takes away what a step left, if it did."""
        self.texts.pop(name, None)

    def path(self, name: str) -> Path:
        """What messages call this."""
        return Path(name)

    def make_log(self, name: str) -> None:
        """What a solver prints isn't kept."""

    def open_temporary(self) -> IO[bytes]:
        """A new file that is gone once it is closed."""
        return tempfile.TemporaryFile()
