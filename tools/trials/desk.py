"""A second writing of what `wdp-desk` answers and keeps, for tests: it shares no code with the program. It judges no form: whoever
makes a call says whether its text is a form, and of whom."""

from __future__ import annotations

import hashlib
import re
from collections.abc import Iterator
from dataclasses import dataclass, field

CALL_LIMIT = 1_000
NO_NUMBER = b"-"


def digest_of(data: bytes) -> bytes:
    return hashlib.sha256(data).hexdigest().encode()


def commit_of(salt: bytes, text: bytes) -> bytes:
    return digest_of(salt + digest_of(text))


def front_of(
    rules: bytes,
    *,
    name: bytes = b"round",
    holders: bytes = b"-",
    closes: bytes = b"0",
    key: bytes = b"-",
) -> bytes:
    """The first call, which is the front of the journal, too."""
    words = [b"%desk", b"2", name, digest_of(rules), holders, closes, key]
    return b" ".join(words) + b"\n" + b"%%rules %d\n" % len(rules) + rules


@dataclass(frozen=True)
class Submit:
    bidder: bytes
    session: int
    time: int
    over: int | None
    text: bytes
    sealed: bytes
    salt: bytes = b"0" * 64
    commit: bytes | None = None  # that of the salt and the text, where it isn't given
    # what a judge says of the text: its bidder and its bids, or the lines that tell its faults
    owner: bytes = b""
    bids: int = 0
    faults: bytes = b""

    @property
    def right_commit(self) -> bytes:
        return commit_of(self.salt, self.text)

    @property
    def said_commit(self) -> bytes:
        return self.right_commit if self.commit is None else self.commit

    def encode(self) -> bytes:
        over = NO_NUMBER if self.over is None else b"%d" % self.over
        words = [b"%submit", self.bidder, b"%d" % self.session, b"%d" % self.time, over]
        words += [self.salt, self.said_commit, b"%d" % len(self.text), b"%d" % len(self.sealed)]
        return b" ".join(words) + b"\n" + self.text + self.sealed


@dataclass(frozen=True)
class Withdraw:
    bidder: bytes
    session: int
    time: int
    over: int

    def encode(self) -> bytes:
        return b"%%withdraw %s %d %d %d\n" % (self.bidder, self.session, self.time, self.over)


@dataclass(frozen=True)
class Show:
    bidder: bytes
    session: int
    time: int

    def encode(self) -> bytes:
        return b"%%show %s %d %d\n" % (self.bidder, self.session, self.time)


@dataclass(frozen=True)
class Close:
    time: int

    def encode(self) -> bytes:
        return b"%%close %d\n" % self.time


Call = Submit | Withdraw | Show | Close


@dataclass
class Standing:
    number: int
    entry: int
    commit: bytes
    bids: int


@dataclass
class Account:
    calls: int = 0
    changes: int = 0
    standing: Standing | None = None


@dataclass
class Desk:
    """A desk that keeps its journal in memory."""

    front: bytes
    bidders: list[bytes]
    journal: bytes = b""
    entries: int = 0
    chain: bytes = b""
    is_open: bool = True
    accounts: dict[bytes, Account] = field(default_factory=dict)

    def __post_init__(self) -> None:
        self.journal = self.front
        self.chain = digest_of(self.front)
        self.accounts = {name: Account() for name in self.bidders}

    def opened(self, cut: int = 0) -> bytes:
        return b"%d opened %d %s\n" % (self.entries, cut, self.chain)

    def answer(self, call: Call, durable: int) -> bytes:
        """The reply to a call, which it records if it is one to be kept. So many bytes of the journal are on the disk then."""
        if isinstance(call, Close):
            return self.close(call, durable)
        if not self.is_open:
            return b"- round over\n"
        if isinstance(call, Submit):
            return self.submit(call, durable)
        account = self.accounts[call.bidder]
        if account.calls >= CALL_LIMIT:
            return b"- call limit\n"
        stands = account.standing.number if account.standing else None
        if isinstance(call, Show):
            return self.keep(call, b"stands", stands, durable)
        if call.over != stands:
            return self.keep(call, b"stale", stands, durable)
        account.changes += 1
        account.standing = None
        return self.keep(call, b"withdrawn", account.changes, durable)

    def close(self, call: Close, durable: int) -> bytes:
        if not self.is_open:
            return b"- closed before\n"
        self.is_open = False
        return self.keep(call, b"closed", None, durable)

    def submit(self, call: Submit, durable: int) -> bytes:
        if call.said_commit != call.right_commit:
            return b"- bad-commit\n"
        if call.faults:
            return b"- refused %d\n%s" % (call.faults.count(b"\n"), call.faults)
        if not call.text.endswith(b"\n"):
            return b"- no line end\n"
        if call.owner != call.bidder:
            return b"- other-bidder %s\n" % call.owner
        account = self.accounts[call.bidder]
        stands = account.standing
        if stands and stands.commit == call.said_commit:
            return b"- again %d %d\n" % (stands.number, stands.entry)
        if account.calls >= CALL_LIMIT:
            return b"- call limit\n"
        number = stands.number if stands else None
        if call.over != number:
            return self.keep(call, b"stale", number, durable)
        account.changes += 1
        account.standing = Standing(account.changes, self.entries + 1, call.said_commit, call.bids)
        return self.keep(call, b"accepted", account.changes, durable)

    def keep(self, call: Call, answer: bytes, number: int | None, durable: int) -> bytes:
        self.entries += 1
        if not isinstance(call, Close):
            self.accounts[call.bidder].calls += 1
        over, commit, bids, sealed = NO_NUMBER, b"-", 0, b""
        if isinstance(call, Submit):
            over = NO_NUMBER if call.over is None else b"%d" % call.over
            commit, bids, sealed = call.said_commit, call.bids, call.sealed
        elif isinstance(call, Withdraw):
            over = b"%d" % call.over
        bidder, session = (b"-", 0) if isinstance(call, Close) else (call.bidder, call.session)
        kind = type(call).__name__.lower().encode()
        head = b"%%call %d %d %s %d %s " % (self.entries, call.time, bidder, session, kind)
        head += b"%s %s %d %d %d\n" % (over, commit, bids, len(sealed), durable)
        told = NO_NUMBER if number is None else b"%d" % number
        entry = head + sealed + b"\n%%reply %s %s " % (answer, told)
        self.chain = digest_of(self.chain + entry)
        self.journal += entry + self.chain + b"\n"
        words = [b"%d" % self.entries, answer]
        if answer in (b"stands", b"stale"):
            words.append(b"none" if number is None else b"%d" % number)
        elif answer != b"closed":
            words.append(b"%d" % (number or 0))
        if answer == b"accepted" and isinstance(call, Submit):
            words += [b"%d" % call.bids, digest_of(call.text)]
        return b" ".join([*words, self.chain]) + b"\n"


HEAD = re.compile(
    rb"%call (\d+) (\d+) (\S+) (\d+) (submit|withdraw|show|close) (\d+|-) ([0-9a-f]{64}|-) (\d+) (\d+) (\d+)\n"
)
TAIL = re.compile(rb"\n%reply ([a-z]+) (\d+|-) ([0-9a-f]{64})\n")


@dataclass(frozen=True)
class Entry:
    words: tuple[bytes, ...]
    sealed: bytes
    answer: bytes
    number: bytes
    chain: bytes
    end: int


def entries_of(front: bytes, journal: bytes) -> Iterator[Entry]:
    """The whole entries of a journal, up to the first that isn't."""
    at, chain, number = len(front), digest_of(front), 0
    while head := HEAD.match(journal, at):
        body_end = head.end() + int(head[9])
        tail = TAIL.match(journal, body_end)
        number += 1
        if not tail or int(head[1]) != number:
            return
        if digest_of(chain + journal[at : tail.start(3)]) != tail[3]:
            return
        chain = tail[3]
        words = tuple(head.groups())
        yield Entry(words, journal[head.end() : body_end], tail[1], tail[2], chain, tail.end())
        at = tail.end()
