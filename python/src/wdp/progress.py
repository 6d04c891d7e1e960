"""What a run says of its time: how far it is, and which step took how long."""
import shutil
import sys
import time
from collections.abc import Callable, Iterator
from contextlib import contextmanager
from dataclasses import dataclass, field

from wdp import files
from wdp.office.faults import format_count

_PRINT_EVERY = {True: 0.5, False: 30.0}  # seconds, at a terminal and elsewhere

Say = Callable[[str], None]


def say_nothing(text: str) -> None:
    """Takes messages that nobody wants."""


def is_at_terminal() -> bool:
    """Whether standard error is a terminal."""
    return bool(sys.stderr and sys.stderr.isatty())


def format_seconds(seconds: float) -> str:
    """A time as people read it.

    >>> format_seconds(0.04), format_seconds(7.26), format_seconds(83), format_seconds(7290)
    ('0 s', '7.3 s', '83 s', '122 min')
    """
    if seconds >= 600:
        return f"{seconds / 60:.0f} min"
    if seconds >= 10 or seconds < 0.05:
        return f"{seconds:.0f} s"
    return f"{seconds:.1f} s"


@dataclass
class Times:
    """The elapsed time of each kind of step, in seconds, and the step that took longest."""

    seconds: dict[str, float] = field(default_factory=dict)
    longest: str = ""
    longest_seconds: float = 0.0

    @contextmanager
    def measure(self, kind: str) -> Iterator[None]:
        """Counts what is done within this for a kind of step."""
        begin = time.monotonic()
        try:
            yield
        finally:
            self.seconds[kind] = self.seconds.get(kind, 0.0) + time.monotonic() - begin

    def take(self, name: str, seconds: float) -> None:
        """Takes the time of one step."""
        if seconds > self.longest_seconds:
            self.longest = name
            self.longest_seconds = seconds

    def format(self) -> str:
        """All times as one line."""
        total = format_seconds(sum(self.seconds.values()))
        kinds = [f"{kind} {format_seconds(seconds)}" for kind, seconds in self.seconds.items()]
        text = f"{total}: {', '.join(kinds)}"
        if not self.longest:
            return text
        return f"{text}; the longest, {self.longest}: {format_seconds(self.longest_seconds)}"


class Progress:
    """Prints how far a run is, one line that is renewed at a terminal, few lines elsewhere; and
    counts the time of each step.

    Of `count` groups, or other things of this name, `left` are to be done. `say` prints a line
    elsewhere.
    """

    def __init__(
        self, count: int, *, left: int, times: Times, say: Say, thing: str = "group"
    ) -> None:
        self.thing = thing
        self.count = count
        self.left = left
        self.times = times
        self.say = say
        self.last_print = time.monotonic()
        self.begins: dict[str, float] = {}

    def __call__(self, ended: int, at_work: list[str]) -> None:
        """Takes how many of those that were left have ended, and the names of those that are at
        work.
        """
        now = time.monotonic()
        for name in self.begins.keys() - at_work:
            self.times.take(name, now - self.begins.pop(name))
        for name in at_work:
            self.begins.setdefault(name, now)
        is_terminal = is_at_terminal()
        if now - self.last_print < _PRINT_EVERY[is_terminal]:
            return
        self.last_print = now
        text = f"{self.count - self.left + ended} of {format_count(self.count, self.thing)} done"
        if at_work:
            text += f"; at work: {', '.join(at_work[:8])}"
        if is_terminal:
            files.tell("\r\x1b[K" + text[: shutil.get_terminal_size().columns - 1])
        else:
            self.say(text)
