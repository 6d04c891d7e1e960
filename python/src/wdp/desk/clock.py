"""The clock of a desk: stamps that never fall, and a clock that jumps is noticed."""
import time
from collections.abc import Callable
from dataclasses import dataclass, field
from datetime import datetime, timezone

from wdp.texts.refusals import WrongArgument

MOST_OF_A_JUMP = 1_000_000  # microseconds by which the clock may be set while a desk is open
Microseconds = Callable[[], int]


def read_clock() -> int:
    """The time of the machine, in microseconds since 1970."""
    return time.time_ns() // 1000


def read_steady_clock() -> int:
    """Microseconds that nobody sets; they also pass while the machine sleeps."""
    return time.clock_gettime_ns(time.CLOCK_BOOTTIME) // 1000


def format_time(microseconds: int) -> str:
    """A time as people and programs read it.

    >>> format_time(1_796_133_601_123_456)
    '2026-12-01T14:00:01.123456Z'
    """
    when = datetime.fromtimestamp(microseconds // 1_000_000, timezone.utc)
    return f"{when:%Y-%m-%dT%H:%M:%S}.{microseconds % 1_000_000:06}Z"


def parse_time(text: str) -> int:
    """The microseconds of a time with its zone, as 2026-12-01T12:00:00Z; WrongArgument if it is
    none.
    """
    try:
        when = datetime.fromisoformat(text)
    except ValueError:
        raise WrongArgument(f"{text} is no time; write it as 2026-12-01T12:00:00Z") from None
    if when.tzinfo is None:
        raise WrongArgument(f"{text} has no time zone; write it as 2026-12-01T12:00:00Z")
    since = when - datetime(1970, 1, 1, tzinfo=timezone.utc)
    return (since.days * 86_400 + since.seconds) * 1_000_000 + since.microseconds


class Jumped(Exception):
    """The clock was set while the desk was open."""


@dataclass
class Clock:
    """Stamps for calls. Raises Jumped once the clock was set by more than a second, and from then
    on: what time it is has to be asked. (A clock that is slowed or hurried, as NTP does it, doesn't
    jump.)
    """

    last: int = 0  # no stamp is earlier
    now: Microseconds = read_clock
    steady: Microseconds = read_steady_clock
    jump: str = ""
    _distance: int = field(init=False)

    def __post_init__(self) -> None:
        self._distance = self.now() - self.steady()

    def stamp(self) -> int:
        """The time now, at least that of the stamp before."""
        steady = self.steady()
        now = self.now()
        by = now - steady - self._distance
        if not self.jump and abs(by) > MOST_OF_A_JUMP:
            before = format_time(now - by)
            self.jump = f"the clock was set from {before} to {format_time(now)}"
        if self.jump:
            raise Jumped(self.jump)
        self._distance += by
        self.last = max(self.last, now)
        return self.last
