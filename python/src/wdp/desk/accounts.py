"""What the desk knows of each bidder's calls without asking: what stands, how many calls are left,
and how many of a session changed nothing.
"""
from dataclasses import dataclass, field, replace

from wdp.desk.calls import Reply
from wdp.desk.journal import Entry
from wdp.desk.keys import Session
from wdp.desk.reading import Standing
from wdp.desk.sealing import Commitment

MOST_CALLS = 1_000  # of a bidder, which the journal has
MOST_IDLE = 50  # of these of a session, which changed nothing
FOR_CHANGES = 100  # the last ones of a bidder, which are for changes alone
_CHANGES = ("accepted", "withdrawn")


@dataclass(frozen=True)
class StandingForm:
    """The form of a bidder that stands: its entry, and what is known of it."""

    entry: Entry
    known: Standing


@dataclass
class Account:
    """The calls of a bidder that are in the journal, and what they left. `changed` is when the
    last change was made.
    """

    calls: int = 0
    changes: int = 0
    changed: int | None = None
    standing: StandingForm | None = None
    idle: dict[int, int] = field(default_factory=dict)

    @property
    def number(self) -> int | None:
        """The number of the form that stands."""
        return self.standing.entry.number if self.standing else None

    @property
    def left(self) -> int:
        """How many calls are left."""
        return MOST_CALLS - self.calls

    def has_budget(self, session: int, *, changes: bool) -> bool:
        """Whether a call may be made that changes something, as far as that is known, or doesn't.

        Those that don't are few for each session, and none of the last ones of a bidder, so that no
        session takes the calls of an honest change away.
        """
        if changes:
            return True
        return self.idle.get(session, 0) < MOST_IDLE and self.left > FOR_CHANGES

    def record(self, entry: Entry, known: Standing) -> None:
        """Records an entry, with what is known of its form."""
        self.calls += 1
        if entry.answer not in _CHANGES:
            self.idle[entry.session] = self.idle.get(entry.session, 0) + 1
            return
        self.changes += 1
        self.changed = entry.time
        self.standing = StandingForm(entry, known) if entry.answer == "accepted" else None

    def remember(self, form: Commitment) -> None:
        """Remembers the form that stands, which came again."""
        if self.standing:
            known = replace(self.standing.known, form=form)
            self.standing = replace(self.standing, known=known)


@dataclass
class Accounts:
    """The accounts of all bidders, and how far the journal is."""

    bidders: dict[str, Account]
    entries: int = 0
    chain: str = ""
    last: int = 0  # the latest time of an entry
    is_open: bool = True

    def record(self, entry: Entry, known: Standing = Standing()) -> None:
        """Records an entry of the journal."""
        self.entries = entry.entry
        self.chain = entry.chain
        self.last = max(self.last, entry.time)
        if entry.bidder:
            self.bidders[entry.bidder].record(entry, known)
        else:
            self.is_open = False


def make_entry(
    session: Session, time: int, reply: Reply, *, commitment: str = "-", bids: int = 0
) -> Entry:
    """The entry that the filter made of a call."""
    assert reply.entry is not None
    return Entry(
        entry=reply.entry,
        time=time,
        bidder=session.bidder,
        session=session.number,
        commitment=commitment,
        bids=bids,
        answer=reply.answer,
        number=reply.number,
        chain=reply.chain,
    )
