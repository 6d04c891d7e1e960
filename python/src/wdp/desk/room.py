"""Room on the disk that is kept for withdrawals and for the close."""
import contextlib
import os
from pathlib import Path

SIZE = 1024 * 1024  # bytes


class Room:
    """A file that takes the room until it is needed. While it is let go, no form is taken: what is
    free is for those for whom it was kept.
    """

    def __init__(self, path: Path) -> None:
        self._path = path

    @property
    def is_kept(self) -> bool:
        """Whether the room is kept, or can be kept again now."""
        if self._path.exists():
            return True
        temporary = self._path.with_name(".room")
        try:
            number = os.open(temporary, os.O_WRONLY | os.O_CREAT | os.O_TRUNC, 0o600)
            try:
                # (as much again is for what comes, else the room would be let go at once)
                os.posix_fallocate(number, 0, 2 * SIZE)
                os.ftruncate(number, SIZE)
                os.fsync(number)
            finally:
                os.close(number)
            os.replace(temporary, self._path)
        except OSError:
            with contextlib.suppress(OSError):
                temporary.unlink()
            return False
        return True

    def let_go(self) -> bool:
        """Lets the room go; whether it was there."""
        try:
            self._path.unlink()
        except FileNotFoundError:
            return False
        return True
