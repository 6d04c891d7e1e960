"""Finding the program, and the one way in which this package runs a process to its end."""
import contextlib
import math
import os
import shutil
import signal
import subprocess
import tempfile
import time
from collections.abc import Sequence
from dataclasses import dataclass
from typing import IO

from wdp.texts.refusals import NotFound, Refused, Unclear, WrongArgument

StrPath = str | os.PathLike[str]

_PACKAGE = os.path.dirname(os.path.realpath(__file__))
_INSTALL = "make install in the tree of wdp installs it, or name it by program= or $WDP"
_INSTALL_FILTER = "make install in the tree of wdp installs it, or name it by $WDP_DESK"
_END_OF_MESSAGES = 65_536  # bytes at the end of standard error that are read: a refusal is one line
_MOST_OF_MESSAGES = 256 * 1024 * 1024  # bytes of standard error, after which a program is ended
_LOOK_EVERY = 0.25  # seconds, at how much a program has printed
_PATIENCE = 15  # seconds for a program that is to end
_MOST_OF_VERSION = 1_000  # bytes of what the program says of its version
_REFUSALS = {1: Refused, 2: WrongArgument, 3: NotFound}  # by the program's status


def _find_tree() -> str | None:
    """The tree that this package is in, or None if it is installed elsewhere."""
    root = os.path.dirname(os.path.dirname(os.path.dirname(_PACKAGE)))
    is_tree = all(os.path.isfile(os.path.join(root, name)) for name in ("crates.txt", "wdp"))
    return root if is_tree else None


def _find_beside(name: str = "wdp") -> str:
    """The path that a program has in the tree of this package, or where it was installed with it:
    below the folder that has the package's `lib`, or else beside the package.
    """
    if tree := _find_tree():
        return os.path.join(tree, name)
    prefix = _PACKAGE.rpartition(f"{os.sep}lib{os.sep}")[0] or os.path.dirname(_PACKAGE)
    return os.path.join(prefix, "bin", name)


def find_program(program: StrPath | None = None) -> str:
    """The path of the program: the one that is named, else $WDP, else ./wdp of the package's tree,
    else the one that was installed with the package, else `wdp` on the PATH. Raises NotFound if the
    one that is named isn't there; no other one is then taken, and WrongArgument if it is no path.
    """
    beside = _find_beside()
    usual = os.environ.get("WDP") or (beside if os.path.isfile(beside) else "wdp")
    try:
        path = usual if program is None else os.fsdecode(program)
    except TypeError:
        why = f"a path is asked for, not a {type(program).__name__}"
        raise WrongArgument(f"program: {why}") from None
    found = shutil.which(path)
    if found is None:
        raise NotFound(f"the program isn't found: {path}; {_INSTALL}")
    return os.path.abspath(found)


def find_filter() -> str:
    """The path of `wdp-desk`: $WDP_DESK, else that of the package's tree or of where it was
    installed with the package, else that on the PATH. Raises NotFound.
    """
    beside = _find_beside("wdp-desk")
    path = os.environ.get("WDP_DESK") or (beside if os.path.isfile(beside) else "wdp-desk")
    found = shutil.which(path)
    if found is None:
        raise NotFound(f"the program isn't found: {path}; {_INSTALL_FILTER}")
    return os.path.abspath(found)


@dataclass(frozen=True)
class ProcessResult:
    """How a program ended: its status, below 0 for a signal, None if its time was over; its output;
    the end of its messages.
    """

    status: int | None
    output: bytes
    messages: str

    @property
    def last_line(self) -> str:
        """The last line of the messages that isn't blank, or nothing."""
        lines = self.messages.rstrip().splitlines()
        return lines[-1].strip() if lines else ""


@dataclass(frozen=True)
class Limits:
    """How many bytes an answer may have, how many seconds it may take, and the signal that ends a
    program beyond them.
    """

    most: int
    seconds: float | None = None
    ending: int = signal.SIGKILL


@dataclass(frozen=True)
class _Streams:
    """The files that a process has for its standard streams."""

    source: IO[bytes]
    output: IO[bytes]
    messages: IO[bytes]

    def check_sizes(self, name: str, most: int) -> None:
        """Raises Unclear if the program of this name prints more than so many bytes, or too many
        messages.
        """
        if _measure_file(self.output) > most:
            raise Unclear(f"{name} prints more than an answer to this can have, {most} bytes")
        if _measure_file(self.messages) > _MOST_OF_MESSAGES:
            what = f"{_MOST_OF_MESSAGES} bytes on standard error"
            raise Unclear(f"{name} prints more than {what}")


def run_process(
    command: Sequence[str],
    data: bytes,
    limits: Limits,
    *,
    output: IO[bytes] | None = None,
    messages: IO[bytes] | None = None,
    folder: StrPath | None = None,
) -> ProcessResult:
    """Runs a program to its end on these data, in a folder.

    What it prints goes to the files that are named. Its three streams are files: none can fill, as
    a pipe can, and nothing that the program left running is waited for. Raises NotFound if it can't
    be started, and Unclear if it prints too much or a file can't be written.
    """
    temporary = tempfile.TemporaryFile
    try:
        with temporary() as source, temporary() as printed, temporary() as errors:
            source.write(data)
            source.seek(0)
            streams = _Streams(source, output=output or printed, messages=messages or errors)
            status = _run_to_end(command, limits, streams=streams, folder=folder)
            text = _read_end(streams.messages, _END_OF_MESSAGES)
            return ProcessResult(
                status=status,
                output=_read_end(printed, limits.most),
                messages=text.decode("utf-8", "backslashreplace"),
            )
    except Refused:
        raise
    except OSError as error:
        why = f"can't be given its input, or its answer can't be read: {error.strerror or error}"
        raise Unclear(f"{command[0]} {why}") from None


def _run_to_end(
    command: Sequence[str], limits: Limits, *, streams: _Streams, folder: StrPath | None
) -> int | None:
    """Starts a program and waits for its end.

    Gives its status, None if its time is over; Unclear if it prints too much.
    """
    if signal.getsignal(signal.SIGCHLD) == signal.SIG_IGN:
        raise Unclear("this process ignores SIGCHLD, so that nobody knows how a program ends")
    process = _start(command, streams, folder)
    try:
        last = math.inf if limits.seconds is None else time.monotonic() + limits.seconds
        while True:
            with contextlib.suppress(subprocess.TimeoutExpired):
                process.wait(max(min(_LOOK_EVERY, last - time.monotonic()), 0))
            streams.check_sizes(command[0], limits.most)
            if process.returncode is not None or time.monotonic() >= last:
                return process.returncode
    finally:
        # (once its end was seen, its number may be another one's)
        for number in (limits.ending, signal.SIGKILL):
            if process.returncode is None:
                os.killpg(process.pid, number)
                with contextlib.suppress(subprocess.TimeoutExpired):
                    process.wait(_PATIENCE)


def _start(
    command: Sequence[str], streams: _Streams, folder: StrPath | None
) -> subprocess.Popen[bytes]:
    """Starts a program in a group of its own, so that all of it can be ended; NotFound if it can't
    be.
    """
    try:
        return subprocess.Popen(
            command,
            stdin=streams.source,
            stdout=streams.output,
            stderr=streams.messages,
            cwd=folder,
            start_new_session=True,
        )
    except (OSError, ValueError) as error:
        why = getattr(error, "strerror", None) or error
        raise NotFound(f"{command[0]} can't be started: {why}") from None


def _measure_file(file: IO[bytes]) -> int:
    return os.fstat(file.fileno()).st_size


def _read_end(file: IO[bytes], most: int) -> bytes:
    """The end of a file, at most so many bytes."""
    file.seek(max(file.seek(0, os.SEEK_END) - most, 0))
    return file.read(most)


def ask(
    program: str,
    arguments: list[str],
    data: bytes,
    limits: Limits,
    *,
    output: IO[bytes] | None = None,
) -> bytes:
    """What the program prints, if it ends with status 0; else a Refused that says why."""
    ended = run_process([program, *arguments], data, limits, output=output)
    if ended.status is None:
        raise Unclear(f"{program} gave no answer in {limits.seconds:g} s, and was ended")
    if ended.status < 0:
        raise Unclear(f"{program} was ended by signal {format_signal(-ended.status)}")
    line = ended.last_line
    if ended.status == 2:  # (a blank line ends what is wrong with the arguments)
        line = " ".join(ended.messages.strip().split("\n\n")[0].split())
    if line and ended.status in _REFUSALS:
        raise _REFUSALS[ended.status](line)
    if ended.status:
        why = f": {line}" if line else " and said nothing"
        raise Unclear(f"{program} ended with status {ended.status}{why}")
    return ended.output


def read_version(program: str) -> str:
    """What the program says of its version."""
    return ask(program, ["--version"], b"", limits=Limits(_MOST_OF_VERSION)).decode().strip()


def format_signal(number: int) -> str:
    """A signal by its number and, if it has one, its name."""
    names = {each.value: f" ({each.name})" for each in signal.Signals}
    return f"{number}{names.get(number, '')}"
