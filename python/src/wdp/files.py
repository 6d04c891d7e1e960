"""Files: read up to a limit, and written completely or not at all."""
import contextlib
import os
import secrets
import stat
import subprocess
import sys
import tempfile
from collections.abc import Callable, Iterable, Iterator, Mapping
from pathlib import Path
from typing import BinaryIO

from wdp.texts.refusals import Refused, escape

_KINDS = {
    stat.S_IFDIR: "a folder",
    stat.S_IFIFO: "a pipe",
    stat.S_IFSOCK: "a socket",
    stat.S_IFCHR: "a device",
    stat.S_IFBLK: "a device",
}
_PIECE = 65_536  # bytes
_KEPT = "is kept; --replace puts the new one there"
WRITING = ".writing-"  # what is being written, until it is complete


class Unreadable(Refused):
    """Why a file isn't read, or isn't written; `why` is that without the path."""

    def __init__(self, path: str, why: str) -> None:
        super().__init__(f"{path}: {why}")
        self.path = path
        self.why = why


@contextlib.contextmanager
def map_errors(path: str) -> Iterator[None]:
    """Within this, an error of the system is raised as Unreadable, with the path."""
    try:
        yield
    except Refused:
        raise
    except (OSError, ValueError) as error:
        raise Unreadable(path, getattr(error, "strerror", None) or str(error)) from error


def read(path: str, most: int, regular: bool = False) -> bytes:
    """The bytes of a file, at most that many; `-` is standard input.

    With `regular` nothing but a regular file is read, else pipes are too. Raises Unreadable."""
    with map_errors(path):
        if path == "-" and not regular:
            if sys.stdin is None:
                raise Unreadable(path, "standard input is closed")
            return read_rest(sys.stdin.buffer, path, most)
        flags = os.O_RDONLY
        status = os.stat(path)
        if regular or stat.S_ISREG(status.st_mode):
            # (nothing is waited for: not the writer of a pipe, and not the kernel, which has files
            # like /proc/kmsg)
            flags |= os.O_NONBLOCK | os.O_NOCTTY
        if regular:
            check_kind(path, status)
        with open(os.open(path, flags), "rb") as file:
            if regular:
                check_kind(path, os.fstat(file.fileno()))
            return read_rest(file, path, most)


def check_kind(path: str, status: os.stat_result) -> None:
    """Raises Unreadable if a file's status is that of something else, as a folder."""
    if kind := _KINDS.get(stat.S_IFMT(status.st_mode)):
        raise Unreadable(path, f"it is {kind}")


def read_rest(file: BinaryIO, path: str, most: int) -> bytes:
    """The rest of a file, at most so many bytes.

    One that has too much by its size isn't read; Unreadable has the path.
    """
    before = os.fstat(file.fileno())
    too_long = Unreadable(path, f"it has more than {most:,} bytes")
    if before.st_size > most:
        raise too_long
    pieces: list[bytes] = []
    length = 0
    # (room is asked for by the file's size; a pipe has none, and a file may grow)
    wanted = max(before.st_size + 1, _PIECE)
    while piece := file.read(min(wanted, most + 1 - length)):
        pieces.append(piece)
        length += len(piece)
        if length > most:
            raise too_long
        wanted = _PIECE
    if piece is None:
        raise Unreadable(path, "it is no file that can be read to its end")
    data = b"".join(pieces)
    after = os.fstat(file.fileno())
    if stat.S_ISREG(after.st_mode) and before.st_mtime_ns != after.st_mtime_ns:
        raise Unreadable(path, "it changed while it was read")
    return data


def check_free(path: str | None, data: bytes | None = None, *, replaces: bool) -> None:
    """Raises Unreadable if a file is there that has something else than these bytes, unless it
    may be replaced.
    """
    with map_errors(path or ""):
        if path and not replaces and os.path.isfile(path) and os.path.getsize(path):
            if not _has_bytes(path, data):
                raise Unreadable(path, f"it is there, and {_KEPT}")


def write_all(texts: Mapping[str, bytes]) -> None:
    """Writes files by their paths, all of them or none.

    None replaces what isn't a file, as a device. Raises Unreadable.
    """
    written: dict[str, str] = {}
    try:
        for path, text in texts.items():
            with map_errors(path):
                if os.path.exists(path) and not os.path.isfile(path):
                    raise Unreadable(path, "it isn't a file")
                written[path] = _make_hidden_path(path)
                Path(written[path]).write_bytes(text)
        for path, temporary in written.items():
            with map_errors(path):
                os.replace(temporary, os.path.realpath(path))
    finally:
        for temporary in written.values():
            with contextlib.suppress(OSError):
                os.unlink(temporary)


def remove(path: str | Path) -> None:
    """Takes away what has this name, and all that is in it, however deep; what can't be taken away
    stays.
    """
    with contextlib.suppress(OSError):
        subprocess.run(
            ["rm", "-rf", "--", os.path.abspath(path)],
            stdin=subprocess.DEVNULL,
            stdout=subprocess.DEVNULL,
            stderr=subprocess.DEVNULL,
            check=False,
        )


@contextlib.contextmanager
def temporary_folder(prefix: str) -> Iterator[Path]:
    """A folder that is taken away in the end."""
    folder = Path(tempfile.mkdtemp(prefix=prefix)).absolute()
    try:
        yield folder
    finally:
        remove(folder)


def _make_hidden_path(path: str) -> str:
    """A path that nobody has yet, in the folder of what a path leads to."""
    return os.path.join(os.path.dirname(os.path.realpath(path)), WRITING + secrets.token_hex(8))


def write_folder(
    folder: str,
    texts: Mapping[str, bytes],
    ours: Iterable[str] = (),
    *,
    is_left: Callable[[str], bool] | None = None,
    replaces: bool = False,
) -> None:
    """Writes a folder with files by their names, all or none, in the place of one that has no
    others than `ours`.

    By default `ours` are the names of these files. A file that is there with other bytes is kept,
    and nothing is written, unless `is_left` knows that it is as a command left it, or this
    `replaces` it. Raises Unreadable.
    """
    with map_errors(folder):
        names = sorted(os.listdir(folder)) if os.path.lexists(folder) else []
        others = [name for name in names if name not in {*(ours or texts)}]
        if others:
            raise Unreadable(folder, f"it has other files, as {others[0]}; name a new folder")
        for name in names if not replaces else ():
            path = os.path.join(folder, name)
            if not _has_bytes(path, texts.get(name)) and not (is_left and is_left(name)):
                why = "it isn't what was left there or is to be written"
                raise Unreadable(path, f"{why}, and {_KEPT}")
        place = os.path.realpath(folder)
        made = _make_hidden_path(folder)
        os.makedirs(os.path.dirname(place), exist_ok=True)
        os.mkdir(made)
        try:
            for name, text in texts.items():
                Path(made, name).write_bytes(text)
            _replace_folder(place, made)
        finally:
            remove(made)


def _has_bytes(path: str, data: bytes | None) -> bool:
    """Whether a file has these bytes."""
    if data is None or os.path.getsize(path) != len(data):
        return False
    return read(path, len(data), regular=True) == data


def _replace_folder(place: str, made: str) -> None:
    """Puts a folder in the place of another one, which comes back if that fails."""
    old = _make_hidden_path(place)
    try:
        if os.path.lexists(place):
            os.rename(place, old)
        os.rename(made, place)
    finally:
        if os.path.lexists(old) and not os.path.lexists(place):
            os.rename(old, place)
        if os.path.lexists(place):
            remove(old)


def put(data: bytes, path: str | None = None) -> None:
    """Writes a file, or if none is named to standard output.

    Raises Unreadable if that is closed, or full.
    """
    if path:
        write_all({path: data})
        return
    if sys.stdout is None:
        raise Unreadable("standard output", "it is closed")
    with map_errors("standard output"):
        try:
            # with PYTHONUNBUFFERED a write may take a part, and say so by its answer alone
            rest = memoryview(data)
            while rest:
                rest = rest[sys.stdout.buffer.write(rest) or 0 :]
            sys.stdout.buffer.flush()
        except OSError:
            os.dup2(os.open(os.devnull, os.O_WRONLY), 1)
            raise


def tell(text: str) -> None:
    """Prints a text on standard error.

    If nobody reads it, the work goes on, and what comes later is told to nobody.
    """
    # Python prints to standard output if standard error is closed
    if sys.stderr is None:
        return
    try:
        print(text, end="", file=sys.stderr, flush=True)
    except OSError:
        # (else what is kept back makes each later flush fail, too, and the last one the status)
        with contextlib.suppress(OSError):
            os.dup2(os.open(os.devnull, os.O_WRONLY), sys.stderr.fileno())


def open_standard_streams() -> None:
    """Opens what is closed of the standard streams for nothing, so that no file gets the number by
    which they are known.

    They stay closed to Python.
    """
    number = 0
    while number <= 2:
        number = os.open(os.devnull, os.O_RDWR)
        if number <= 2:
            os.set_inheritable(number, True)
    os.close(number)


def say(tool: str, text: str) -> None:
    """Prints a line of a tool on standard error."""
    tell(escape(f"{tool}: {text}") + "\n")
