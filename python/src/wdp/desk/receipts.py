"""Receipts: what the desk says of a call, signed; and heads, what it says of the journal."""
import re
from dataclasses import dataclass

from cryptography.exceptions import InvalidSignature
from cryptography.hazmat.primitives import serialization
from cryptography.hazmat.primitives.asymmetric.ed25519 import Ed25519PrivateKey, Ed25519PublicKey

from wdp.desk.clock import format_time, parse_time
from wdp.desk.sealing import Commitment
from wdp.texts.refusals import Refused

_RAW = serialization.Encoding.Raw
_HEX = "[0-9a-f]{64}"
_SIGNED = re.compile(r"(?P<text>.*\n)signature (?P<signature>[0-9a-f]{128})\n", re.DOTALL)
_ROUND = rf"round (?P<round>\S{{1,64}}), rules (?P<rules>{_HEX})\ndesk (?P<desk>{_HEX})\n"
_RECEIPT = re.compile(
    rf"wdp desk receipt 1\n{_ROUND}"
    r"entry (?P<entry>[0-9]{1,18}), (?P<time>\S{1,64})\n"
    r"(?:bidder (?P<bidder>\S{1,64}), session (?P<session>[0-9]{1,18})|the office)\n"
    r"answer (?P<answer>[a-z]+)(?: (?P<number>[0-9]{1,18}|none))?\n"
    rf"(?:form (?P<digest>{_HEX}), salt (?P<salt>{_HEX}), (?P<bids>[0-9]{{1,18}}) bids?\n)?"
    rf"chain (?P<chain>{_HEX})\n"
)
_HEAD = re.compile(
    rf"wdp desk head 1\n{_ROUND}entries (?P<entry>[0-9]{{1,18}})\nchain (?P<chain>{_HEX})\n"
)


@dataclass(frozen=True)
class Round:
    """What a receipt says of its round: a name of the round, the SHA-256 of the rules, and the
    desk's public key.
    """

    name: str
    rules: str
    desk: str

    def __str__(self) -> str:
        return f"round {self.name}, rules {self.rules}\ndesk {self.desk}\n"


@dataclass(frozen=True)
class Receipt:
    """What the desk said of an entry; of a form that was accepted its commitment and its bids, too.
    The office has no bidder.
    """

    round: Round
    entry: int
    time: int
    bidder: str
    session: int
    answer: str
    number: int | None
    chain: str
    form: Commitment | None = None
    bids: int = 0

    def __str__(self) -> str:
        who = f"bidder {self.bidder}, session {self.session}" if self.bidder else "the office"
        answer = self.answer
        if self.bidder:
            answer += f" {'none' if self.number is None else self.number}"
        lines = [f"entry {self.entry}, {format_time(self.time)}", who, f"answer {answer}"]
        if self.form:
            bids = "bid" if self.bids == 1 else "bids"
            lines.append(f"form {self.form.digest}, salt {self.form.salt}, {self.bids} {bids}")
        rest = "\n".join(lines)
        return f"wdp desk receipt 1\n{self.round}{rest}\nchain {self.chain}\n"


@dataclass(frozen=True)
class Head:
    """What the desk said of the journal: how many entries it has, and the chain at the last one."""

    round: Round
    entry: int
    chain: str

    def __str__(self) -> str:
        return f"wdp desk head 1\n{self.round}entries {self.entry}\nchain {self.chain}\n"


class Signer:
    """The key by which a desk signs."""

    def __init__(self, data: bytes | None = None) -> None:
        if data is None:
            self._private = Ed25519PrivateKey.generate()
        else:
            self._private = Ed25519PrivateKey.from_private_bytes(data)
        public = self._private.public_key()
        self.public = public.public_bytes(_RAW, serialization.PublicFormat.Raw).hex()

    @property
    def private(self) -> bytes:
        """The bytes that are to be kept."""
        return self._private.private_bytes(
            _RAW, serialization.PrivateFormat.Raw, serialization.NoEncryption()
        )

    def sign(self, said: Receipt | Head) -> str:
        """What is said, with its signature as the last line."""
        text = str(said)
        return f"{text}signature {self._private.sign(text.encode()).hex()}\n"


def parse_signed(text: str, source: str) -> Receipt | Head:
    """A receipt or a head; Refused if it is none, or its signature isn't that of the desk that it
    names.
    """
    signed = _SIGNED.fullmatch(text)
    said = signed and (_RECEIPT.fullmatch(signed["text"]) or _HEAD.fullmatch(signed["text"]))
    if not signed or not said:
        raise Refused(f"{source}: it is no receipt of a desk, or a part of it is missing")
    try:
        key = Ed25519PublicKey.from_public_bytes(bytes.fromhex(said["desk"]))
        key.verify(bytes.fromhex(signed["signature"]), signed["text"].encode())
    except (InvalidSignature, ValueError):
        raise Refused(f"{source}: its signature isn't that of the desk {said['desk']}") from None
    return _make_said(said)


def _make_said(said: re.Match[str]) -> Receipt | Head:
    of = Round(name=said["round"], rules=said["rules"], desk=said["desk"])
    if said.re is _HEAD:
        return Head(of, entry=int(said["entry"]), chain=said["chain"])
    number = said["number"]
    return Receipt(
        of,
        entry=int(said["entry"]),
        time=parse_time(said["time"]),
        bidder=said["bidder"] or "",
        session=int(said["session"] or 0),
        answer=said["answer"],
        number=None if number in (None, "none") else int(number),
        chain=said["chain"],
        form=Commitment(said["digest"], said["salt"]) if said["digest"] else None,
        bids=int(said["bids"] or 0),
    )
