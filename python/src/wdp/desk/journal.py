"""A journal that `wdp-desk` has read: its front, and where each entry has what was sealed. Nothing
is judged here.
"""
import re
from collections.abc import Iterator
from dataclasses import dataclass
from pathlib import Path
from typing import BinaryIO

from wdp.desk.receipts import Round
from wdp.files import map_errors
from wdp.program import Limits, ask
from wdp.texts.refusals import Unclear

_MOST_OF_A_REPLAY = 2 * 1024 * 1024 * 1024
_LONGEST_LINE = 1_024
_STATE = re.compile(
    rb"^%state (?P<word>open|closed) (?P<entries>[0-9]+) (?P<end>[0-9]+) (?P<chain>[0-9a-f]{64})\n"
    rb"(?P<torn>torn at byte [0-9]+\n)?\Z",
    re.MULTILINE,
)


@dataclass(frozen=True)
class Front:
    """What a journal begins with: the round, the holder's public key, the time of the close, and
    the rules.
    """

    round: Round
    holder: str
    closes: int
    rules: bytes

    def __bytes__(self) -> bytes:
        words = (
            f"{self.round.name} {self.round.rules} {self.holder} {self.closes} {self.round.desk}"
        )
        return f"%desk 2 {words}\n%rules {len(self.rules)}\n".encode() + self.rules


@dataclass(frozen=True)
class Entry:
    """An entry: a call with its answer, and the chain behind it. `place` and `size` are those of
    what was sealed; the office has no bidder.
    """

    entry: int
    time: int
    bidder: str
    session: int
    commitment: str
    bids: int
    answer: str
    number: int | None
    chain: str
    place: int = 0
    size: int = 0


@dataclass(frozen=True)
class State:
    """What `wdp-desk --replay` says of a journal: whether the round is open, how many entries there
    are and in how many bytes, and whether the end is torn.
    """

    is_open: bool
    entries: int
    end: int
    is_torn: bool


def replay(program: str, path: Path) -> State:
    """The state of a journal; Refused if `wdp-desk` finds it damaged."""
    with map_errors(str(path)):
        path.stat()
    output = ask(program, ["--replay", str(path)], b"", limits=Limits(_MOST_OF_A_REPLAY))
    match = _STATE.search(output)
    if not match:
        raise Unclear(f"{program} --replay printed no state of {path}")
    return State(
        is_open=match["word"] == b"open",
        entries=int(match["entries"]),
        end=int(match["end"]),
        is_torn=match["torn"] is not None,
    )


class JournalReader:
    """A journal that is open for reading, up to the end of its last whole entry."""

    def __init__(self, file: BinaryIO, end: int | None = None) -> None:
        self._file = file
        words = self._read_words()
        size = int(self._read_words()[1])
        rules = file.read(size)
        self.front = Front(
            round=Round(name=words[2], rules=words[3], desk=words[6]),
            holder=words[4],
            closes=int(words[5]),
            rules=rules,
        )
        self._begin = file.tell()
        self._end = file.seek(0, 2) if end is None else end

    def _read_words(self) -> list[str]:
        return self._file.readline(_LONGEST_LINE).decode().split()

    def __iter__(self) -> Iterator[Entry]:
        place = self._begin
        while place < self._end:
            self._file.seek(place)
            head = self._read_words()
            size = int(head[9])
            begin = self._file.seek(self._file.tell())
            self._file.seek(begin + size + 1)
            answer = self._read_words()
            place = self._file.tell()
            yield Entry(
                entry=int(head[1]),
                time=int(head[2]),
                bidder=head[3].removeprefix("-"),
                session=int(head[4]),
                commitment=head[7],
                bids=int(head[8]),
                answer=answer[1],
                number=None if answer[2] == "-" else int(answer[2]),
                chain=answer[3],
                place=begin,
                size=size,
            )

    def read_sealed(self, entry: Entry) -> bytes:
        """What an entry has sealed."""
        self._file.seek(entry.place)
        return self._file.read(entry.size)
