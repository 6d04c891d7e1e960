"""Why a search ends without a certificate, and the time that it takes."""
import math
import time

from wdp.progress import Say
from wdp.texts.refusals import Refused

_SECONDS_BETWEEN_MESSAGES = 10
_FEWEST_SECONDS = 0.1


class TooLarge(Refused):
    """A program whose numbers no certificate can have."""


class LimitReached(Refused):
    """A search that ended at a limit, of time if it `is_late`.

    `solution` is the best one that is known, `least` its objective, `bound` that below which there
    is none, and `tree` what the search has so far, from which another one goes on.
    """

    status = 4

    def __init__(self, text: str, *, is_late: bool, least: int, bound: float, tree: str) -> None:
        super().__init__(text)
        self.is_late = is_late
        self.least = least
        self.bound = bound
        self.tree = tree
        self.solution = b""

    @property
    def part_missing(self) -> float:
        """At most how much greater the greatest total is, as a part of it."""
        return max(0.0, (self.least - self.bound) / max(1.0, -self.bound))


class Clock:
    """The time of a search that may take so many seconds, and its messages now and then."""

    def __init__(self, seconds: float | None, say: Say) -> None:
        self.seconds = seconds or math.inf
        self.say = say
        self._begin = time.monotonic()
        self._last_message = self._begin

    def measure(self) -> float:
        """The seconds since the search began."""
        return time.monotonic() - self._begin

    def is_late(self) -> bool:
        """Whether the time is over."""
        return self.measure() >= self.seconds

    def count_left(self) -> float:
        """The seconds that are left, and some in any case."""
        return max(_FEWEST_SECONDS, self.seconds - self.measure())

    def report(self, text: str) -> None:
        """Says how far the search is, if it has said nothing for some time."""
        if time.monotonic() - self._last_message >= _SECONDS_BETWEEN_MESSAGES:
            self._last_message = time.monotonic()
            self.say(f"{text}, {self.measure():.0f} s")

    def report_event(self, text: str) -> None:
        """Says what the search came to, and when."""
        self.say(f"{text}, {self.measure():.1f} s")
