"""The calls that `wdp-desk` takes, and its replies."""
import re
from dataclasses import dataclass

from wdp.desk.sealing import Commitment
from wdp.texts.refusals import Unclear

_HEX = "[0-9a-f]{64}"
_NUMBER = "[0-9]{1,18}"
# what is said of an entry of the journal
_ENTRY = re.compile(
    rf"(?P<entry>{_NUMBER}) (?:"
    rf"(?P<opened>opened) (?P<cut>{_NUMBER})"
    rf"|(?P<accepted>accepted) (?P<change>{_NUMBER}) (?P<bids>{_NUMBER}) (?P<digest>{_HEX})"
    rf"|(?P<other>withdrawn|stands|stale) (?P<number>{_NUMBER}|none)"
    rf"|(?P<closed>closed)"
    rf") (?P<chain>{_HEX})"
)
# and of what has none
_OTHER = re.compile(
    rf"- (?:(?P<again>again) (?P<number>{_NUMBER}) (?P<entry>{_NUMBER})"
    rf"|(?P<refused>refused) (?P<count>{_NUMBER})"
    r"|(?P<owner>other-bidder) (?P<name>\S+)"
    r"|(?P<plain>round over|closed before|call limit|no line end|bad-commit|disk full))"
)


@dataclass(frozen=True)
class Reply:
    """What `wdp-desk` says of a call: the answer, the number of the change that it is about, and of
    an entry its number and the chain there. A refused form has lines, as `wdp explain --json`
    prints them.
    """

    answer: str
    number: int | None = None
    entry: int | None = None
    chain: str = ""
    bids: int = 0
    cut: int = 0
    count: int = 0
    owner: str = ""
    lines: bytes = b""


def _find_number(text: str | None) -> int | None:
    return None if text in (None, "none") else int(text or 0)


def parse_reply(line: str) -> Reply:
    """The reply of a line; Unclear if it is none."""
    if match := _ENTRY.fullmatch(line):
        answer = next(
            match[name] for name in ("opened", "accepted", "other", "closed") if match[name]
        )
        return Reply(
            answer,
            number=_find_number(match["change"] or match["number"]),
            entry=int(match["entry"]),
            chain=match["chain"],
            bids=int(match["bids"] or 0),
            cut=int(match["cut"] or 0),
        )
    if match := _OTHER.fullmatch(line):
        answer = next(match[name] for name in ("again", "refused", "owner", "plain") if match[name])
        return Reply(
            answer,
            number=_find_number(match["number"]),
            entry=_find_number(match["entry"]),
            count=int(match["count"] or 0),
            owner=match["name"] or "",
        )
    raise Unclear(f"wdp-desk printed a reply that isn't understood: {line[:100]}")


def format_over(over: int | None) -> str:
    """The change over which a call is made."""
    return "-" if over is None else str(over)


@dataclass(frozen=True)
class Caller:
    """Who makes a call, and when its last byte had come."""

    bidder: str
    session: int
    time: int

    def __str__(self) -> str:
        return f"{self.bidder} {self.session} {self.time}"


def format_submit(
    caller: Caller, over: int | None, form: Commitment, *, text: bytes, sealed: bytes
) -> bytes:
    """The call that hands in a form."""
    words = f"{format_over(over)} {form.salt} {form.value} {len(text)} {len(sealed)}"
    return f"%submit {caller} {words}\n".encode() + text + sealed


def format_withdraw(caller: Caller, over: int) -> bytes:
    """The call that withdraws what stands."""
    return f"%withdraw {caller} {over}\n".encode()


def format_show(caller: Caller) -> bytes:
    """The call that asks for a statement of what stands."""
    return f"%show {caller}\n".encode()


def format_close(time: int) -> bytes:
    """The call that closes the round."""
    return f"%close {time}\n".encode()
