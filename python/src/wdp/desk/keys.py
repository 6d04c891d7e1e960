"""The keys of a round's sessions: 24 random bytes each, of which the desk keeps the SHA-256 alone."""
import csv
import hashlib
import io
import secrets
from collections.abc import Iterable, Sequence
from dataclasses import dataclass

from wdp.desk.folder import DeskFolder
from wdp.texts.accepted import AcceptedRules
from wdp.texts.refusals import Refused

_KEY_SIZE = 24
DIGESTS = "digests.csv"
KEYS = "keys.csv"
RENEWALS = "renewals.csv"


@dataclass(frozen=True)
class Session:
    """A session of a bidder, or the office's, which has no bidder."""

    bidder: str
    number: int

    @property
    def is_office(self) -> bool:
        """Whether this is the office's."""
        return self.bidder == ""

    @property
    def row(self) -> tuple[str, str]:
        """The session as files name it; the office is -."""
        return self.bidder or "-", str(self.number)


OFFICE = Session("", 0)


def list_sessions(rules: AcceptedRules) -> list[Session]:
    """The office's session, and those that the rules give each bidder."""
    numbered = [(name, rules.sessions[name]) for name in rules.bidders]
    return [OFFICE, *(Session(name, n + 1) for name, count in numbered for n in range(count))]


def format_rows(rows: Iterable[Sequence[str]]) -> bytes:
    """Rows as a file of CSV."""
    text = io.StringIO()
    csv.writer(text, lineterminator="\n").writerows(rows)
    return text.getvalue().encode()


def parse_rows(data: bytes, width: int, source: str) -> list[list[str]]:
    """The rows of a file of ours; Refused if a row has another number of fields."""
    rows = list(csv.reader(io.StringIO(data.decode("utf-8", "backslashreplace"))))
    for number, row in enumerate(rows, 1):
        if len(row) != width:
            raise Refused(f"{source}:{number}: the row isn't one that `desk new` writes")
    return rows


def _digest(key: str) -> str:
    return hashlib.sha256(key.encode("utf-8", "surrogateescape")).hexdigest()


class Keys:
    """Who has which key."""

    def __init__(self, folder: DeskFolder, digests: dict[Session, str]) -> None:
        self._folder = folder
        self._digests = digests
        self._sessions = {digest: session for session, digest in digests.items()}

    @classmethod
    def make(cls, folder: DeskFolder, sessions: Iterable[Session]) -> "Keys":
        """New keys, which are in the folder's `keys.csv` until that is deleted."""
        keys = {session: secrets.token_urlsafe(_KEY_SIZE) for session in sessions}
        rows = [(*session.row, key) for session, key in keys.items()]
        folder.write_secret(KEYS, format_rows(rows))
        made = cls(folder, {session: _digest(key) for session, key in keys.items()})
        made._write()
        return made

    @classmethod
    def read(cls, folder: DeskFolder, sessions: Iterable[Session]) -> "Keys":
        """The keys of a folder; Refused if they aren't those of these sessions, or others can read
        them.
        """
        rows = parse_rows(folder.read_secret(DIGESTS), 3, DIGESTS)
        digests = {(bidder, number): digest for bidder, number, digest in rows}
        wanted = {session.row: session for session in sessions}
        if digests.keys() != wanted.keys() or len(set(digests.values())) != len(rows):
            raise Refused(f"{folder.path(DIGESTS)}: these aren't the keys of the rules' sessions")
        if folder.path(KEYS).exists():
            folder.read_secret(KEYS)
        return cls(folder, {wanted[row]: digest for row, digest in digests.items()})

    def find(self, key: str) -> Session | None:
        """Whose key this is."""
        return self._sessions.get(_digest(key))

    def renew(self, session: Session, time: str) -> str:
        """A new key in the place of a session's, which is nobody's from now on; the folder has the
        time of it.
        """
        key = secrets.token_urlsafe(_KEY_SIZE)
        renewed = Keys(self._folder, {**self._digests, session: _digest(key)})
        path = self._folder.path(RENEWALS)
        before = self._folder.read_secret(RENEWALS) if path.exists() else b""
        self._folder.write_secret(RENEWALS, before + format_rows([(time, *session.row)]))
        renewed._write()
        self._digests = renewed._digests
        self._sessions = renewed._sessions
        return key

    def has(self, session: Session) -> bool:
        """Whether the rules have this session."""
        return session in self._digests

    def _write(self) -> None:
        rows = [(*session.row, digest) for session, digest in self._digests.items()]
        self._folder.write_secret(DIGESTS, format_rows(rows))
