"""Which of several files of a bidder counts: the one that the office says, or the one that was
changed last; Refused if neither says which.
"""
import os
import time
from collections.abc import Sequence
from dataclasses import dataclass

from wdp.texts.refusals import Refused


def format_time(nanoseconds: int) -> str:
    """A time of change, in nanoseconds since 1970, in words."""
    seconds, rest = divmod(nanoseconds, 10**9)
    try:
        text = time.strftime("%Y-%m-%d %H:%M:%S", time.gmtime(seconds))
    except (OverflowError, OSError, ValueError):
        text = f"{seconds} s after 1970-01-01"
    return f"{text}.{rest:09}"


@dataclass(frozen=True)
class LastFile:
    """The place of the file that counts, and those of the others, each with the reason."""

    place: int
    replaced: list[tuple[int, str]]


def find_used(paths: Sequence[str], used: Sequence[str]) -> LastFile | None:
    """The file that the office says to count, by its path; None if it says nothing of these.

    Refused if it says that of two of them.
    """
    real = [os.path.realpath(path) for path in used]
    places = [place for place, path in enumerate(paths) if os.path.realpath(path) in real]
    if len(places) > 1:
        raise Refused(f"--use names {paths[places[0]]}, too; one of them counts")
    if not places:
        return None
    others = (place for place in range(len(paths)) if place != places[0])
    return LastFile(places[0], [(place, "as --use says") for place in others])


def find_last(paths: Sequence[str]) -> LastFile:
    """The file that was changed last. Refused if the last two were changed at the same time."""
    times = [os.stat(path).st_mtime_ns for path in paths]
    *earlier, last = sorted(range(len(paths)), key=lambda place: (times[place], place))
    if times[earlier[-1]] == times[last]:
        why = "they were changed at the same time"
        raise Refused(f"--last-wins time can't tell which is later: {why}")
    now = format_time(times[last])
    replaced = [
        (place, f"judged by their times of change, {format_time(times[place])} and {now} UTC")
        for place in earlier
    ]
    return LastFile(last, replaced)


def describe_times(one: str, other: str) -> str:
    """When a file was changed, and when another one was."""
    times = [os.stat(path).st_mtime_ns // 10**9 * 10**9 for path in (one, other)]
    first, second = (format_time(each).partition(".")[0] for each in times)
    return f"that was changed at {second} UTC, this at {first} UTC"
