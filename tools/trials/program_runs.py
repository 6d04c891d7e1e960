"""Runs of a built wdp, and what they have to give."""

from __future__ import annotations

import contextlib
import os
import subprocess
from collections.abc import Callable, Iterator
from pathlib import Path
from typing import IO, Any

TIME_LIMIT = 60
# the kinds of faults of a certificate, by their numbers
KINDS = "TooLarge Beyond Fields NumberText NumberRange UnknownColumn UnknownRow Sign NotShown NoEnd".split()

Seen = tuple[int | str, bytes, bytes]


def encoded(text: str | bytes) -> bytes:
    return text.encode() if isinstance(text, str) else text


def seen(program: str, words: list[str], text: str | bytes | IO[bytes] | int, **more: Any) -> Seen:
    """Status, output and standard error of a run on a text or an open file."""
    more = {"stdout": subprocess.PIPE, "stderr": subprocess.PIPE, "timeout": TIME_LIMIT, **more}
    more |= {"input": encoded(text)} if isinstance(text, (str, bytes)) else {"stdin": text}
    try:
        done = subprocess.run([program, *words], **more)
    except subprocess.TimeoutExpired:
        return f"no end in {TIME_LIMIT} s", b"", b""
    return done.returncode, done.stdout or b"", done.stderr or b""


def done(output: str | bytes) -> Seen:
    return 0, encoded(output), b""


def refused(line: str) -> Seen:
    """Status 1, this line alone, and no output."""
    return 1, b"", b"wdp: %s\n" % line.encode()


def written_of(line: bytes) -> int:
    """The number of bytes in the line of a failed write; -1 where it is another line."""
    number = line.removeprefix(b"wdp: write failed after ").removesuffix(b" bytes\n")
    return (
        int(number)
        if number.isdigit() and line == b"wdp: write failed after %s bytes\n" % number
        else -1
    )


def refusals(
    failing: str, folder: Path
) -> Iterator[tuple[int, Callable[[], bool], dict[str, str]]]:
    """The environments of runs of which run n has its request n refused, whether the run met it, and n. Threads may make one
    request more or less: the end is where some runs met none."""
    mark = folder / "refused"
    number = 0
    missed = 0
    while missed < 3:
        number += 1
        mark.unlink(missing_ok=True)
        yield number, mark.exists, {
            **os.environ,
            "LD_PRELOAD": failing,
            "REFUSE": str(number),
            "REFUSED": str(mark),
        }
        missed = 0 if mark.exists() else missed + 1


@contextlib.contextmanager
def row(name: str) -> Iterator[None]:
    """Names what is tried, where a test tries many rows."""
    try:
        yield
    except AssertionError as error:
        raise AssertionError(f"{name}: {error}") from error
