"""What a call comes to, with its status of HTTP."""
from dataclasses import dataclass, field
from http import HTTPStatus

from wdp.desk.sealing import Commitment

# the answers of the filter and of the service, with their statuses and in words
ANSWERS = {
    "accepted": (HTTPStatus.OK, "this form stands now"),
    "again": (HTTPStatus.OK, "this form stood already"),
    "withdrawn": (HTTPStatus.OK, "no form stands any more"),
    "stands": (HTTPStatus.OK, "this stands"),
    "closed": (HTTPStatus.OK, "the round is closed"),
    "closed before": (HTTPStatus.OK, "the round was closed before"),
    "nothing is wrong": (HTTPStatus.OK, "nothing is wrong with it; it isn't handed in"),
    "key": (HTTPStatus.OK, "this is the new key; the old one is nobody's"),
    "other bidder": (HTTPStatus.FORBIDDEN, "the form is another bidder's"),
    "no form": (HTTPStatus.NOT_FOUND, "no form stands"),
    "round over": (HTTPStatus.GONE, "the round is over"),
    "stale": (HTTPStatus.PRECONDITION_FAILED, "something else stands by now"),
    "refused": (HTTPStatus.UNPROCESSABLE_ENTITY, "the form has faults"),
    "call limit": (HTTPStatus.TOO_MANY_REQUESTS, "no call of this bidder is left"),
    "too many": (
        HTTPStatus.TOO_MANY_REQUESTS,
        "this call would change nothing, and too many did; look what stands, and call over that",
    ),
    "too much": (HTTPStatus.TOO_MANY_REQUESTS, "this bidder has too much in hand; try again"),
    "busy": (HTTPStatus.SERVICE_UNAVAILABLE, "too many call at once; try again"),
    "unknown": (
        HTTPStatus.SERVICE_UNAVAILABLE,
        "it isn't known whether this was taken; send the same once more",
    ),
    "stopped": (HTTPStatus.SERVICE_UNAVAILABLE, "the desk has stopped, and asks its office"),
    "bad-commit": (HTTPStatus.INTERNAL_SERVER_ERROR, "the desk is at fault; nothing was taken"),
    "no line end": (HTTPStatus.INTERNAL_SERVER_ERROR, "the desk is at fault; nothing was taken"),
    "disk full": (HTTPStatus.INSUFFICIENT_STORAGE, "the disk is full, and nothing was taken"),
}


@dataclass(frozen=True)
class Outcome:
    """What a call comes to: the answer, the number of the change that it is about, and if the
    journal has it the entry and its receipt. Of a form its faults, each with its place, or its
    commitment, its bids and what was changed in reading it.
    """

    answer: str
    number: int | None = None
    entry: int | None = None
    receipt: str = ""
    faults: list[tuple[str, str]] = field(default_factory=list)
    form: Commitment | None = None
    bids: int | None = None
    changes: list[str] = field(default_factory=list)
    key: str = ""

    @property
    def status(self) -> int:
        """The status of HTTP."""
        return int(ANSWERS[self.answer][0])

    @property
    def words(self) -> str:
        """The answer in words."""
        return ANSWERS[self.answer][1]
