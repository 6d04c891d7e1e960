"""A judge of desks that shares no code with the package: each receipt's signature, entry, chain and commitment, that each entry's
answer is the one that the calls before it leave, and that `wdp forms` prints the form of each bidder's last change, as it was sent."""

from __future__ import annotations

import hashlib
import re
from collections import defaultdict
from collections.abc import Iterator
from dataclasses import dataclass, field
from datetime import datetime, timedelta, timezone
from typing import Any, NamedTuple

from cryptography.exceptions import InvalidSignature
from cryptography.hazmat.primitives.asymmetric.ed25519 import Ed25519PublicKey

CALL = re.compile(
    rb"%call (\d+) (\d+) (\S+) (\d+) (\w+) (\d+|-) ([0-9a-f]{64}|-) (\d+) (\d+) (\d+)\n"
)
REPLY = re.compile(rb"\n%reply ([a-z]+) (\d+|-) ([0-9a-f]{64})\n")
RECEIPT = re.compile(
    r"entry (?P<entry>\d+), (?P<time>\S+)\n(?:bidder (?P<bidder>\S+), session (?P<session>\d+)\n|the office\n)?"
    r"answer (?P<answer>\w+)(?: (?P<number>\d+|none))?\n(?:form (?P<form>\w+), salt (?P<salt>\w+), (?P<bids>\d+) bids?\n)?"
    r"chain (?P<chain>\w+)\n"
)


HEAD = re.compile(r"\nentries (\d+)\nchain (\w+)\n")


def is_signed(said: str, key: Ed25519PublicKey) -> bool:
    text, _, signature = said.rpartition("signature ")
    try:
        key.verify(bytes.fromhex(signature.strip()), text.encode())
    except InvalidSignature:
        return False
    return True


class Entry(NamedTuple):
    """An entry of a journal, and where it ends."""

    number: int
    time: int
    bidder: bytes
    session: int
    kind: bytes
    over: bytes
    commitment: bytes
    bids: int
    answer: bytes
    change: bytes
    chain: bytes
    end: int


def read_entries(journal: bytes) -> Iterator[Entry]:
    """The whole entries, up to the first one that isn't."""
    front = re.match(rb"%desk 2 .*\n%rules (\d+)\n", journal)
    assert front
    place = front.end() + int(front[1])
    chain = hashlib.sha256(journal[:place]).hexdigest().encode()
    number = 0
    while call := CALL.match(journal, place):
        reply = REPLY.match(journal, call.end() + int(call[9]))
        number += 1
        if not reply or int(call[1]) != number:
            return
        if hashlib.sha256(chain + journal[place : reply.start(3)]).hexdigest().encode() != reply[3]:
            return
        chain, place = reply[3], reply.end()
        words = (int(call[2]), call[3], int(call[4]), *call.group(5, 6, 7), int(call[8]))
        yield Entry(number, *words, *reply.group(1, 2), chain, place)


def find_wrong_answers(entries: list[Entry]) -> Iterator[str]:
    """The entries whose answer isn't the one that those before leave."""
    changes, stands = defaultdict[bytes, int](int), defaultdict[bytes, bytes](lambda: b"-")
    for entry in entries:
        name = entry.bidder
        due = (b"closed", b"-")
        if entry.kind == b"show":
            due = (b"stands", stands[name])
        elif entry.kind in (b"submit", b"withdraw"):
            due = (b"stale", stands[name])
            if entry.over == stands[name]:
                changes[name] += 1
                number = b"%d" % changes[name]
                due = (b"accepted" if entry.kind == b"submit" else b"withdrawn", number)
                stands[name] = number if entry.kind == b"submit" else b"-"
        if due != (entry.answer, entry.change):
            yield f"entry {entry.number} has the answer {entry.answer!r} {entry.change!r}, and {due} is due"


@dataclass
class Judge:
    """Receipts and heads as callers got them, and the digests of what each bidder has sent."""

    receipts: list[str] = field(default_factory=list)
    heads: list[str] = field(default_factory=list)
    sent: dict[str, set[str]] = field(default_factory=lambda: defaultdict(set))
    wrong: list[str] = field(default_factory=list)

    def send(self, bidder: str, form: bytes) -> None:
        self.sent[bidder].add(hashlib.sha256(form).hexdigest())

    def take(self, members: dict[str, Any]) -> None:
        if "receipt" in members:
            self.receipts.append(members["receipt"])

    def judge(self, journal: bytes, forms: str | None = None) -> list[str]:
        """What is wrong or lost."""
        entries = {entry.number: entry for entry in read_entries(journal)}
        self.wrong = []
        key = Ed25519PublicKey.from_public_bytes(
            bytes.fromhex(journal.split(b"\n")[0].split()[6].decode())
        )
        self.wrong += find_wrong_answers(list(entries.values()))
        for receipt in self.receipts:
            self.wrong += self.judge_receipt(receipt, entries, key)
        for head in self.heads:
            self.wrong += self.judge_head(head, entries, key)
        if forms is not None:
            self.wrong += self.judge_forms(forms, entries)
        return self.wrong

    def judge_head(
        self, head: str, entries: dict[int, Entry], key: Ed25519PublicKey
    ) -> Iterator[str]:
        if not is_signed(head, key):
            yield f"not signed: {head}"
            return
        said = HEAD.search(head)
        entry = entries.get(int(said[1])) if said else None
        if not said or not entry or entry.chain != said[2].encode():
            yield f"another chain: {head}"

    def judge_receipt(
        self, receipt: str, entries: dict[int, Entry], key: Ed25519PublicKey
    ) -> Iterator[str]:
        if not is_signed(receipt, key):
            yield f"not signed: {receipt}"
            return
        said = RECEIPT.search(receipt)
        entry = entries.get(int(said["entry"])) if said else None
        if not said or not entry:
            yield f"no entry: {receipt}"
            return
        change = entry.change.decode().replace("-", "none")
        time = datetime.fromisoformat(said["time"]) - datetime.fromtimestamp(0, timezone.utc)
        if time // timedelta(microseconds=1) != entry.time:
            yield f"another time: {receipt} {entry}"
        kept = (
            entry.bidder.decode(),
            str(entry.session),
            entry.answer.decode(),
            change,
            entry.chain.decode(),
        )
        whose = (said["bidder"] or "-", said["session"] or "0", said["answer"])
        if kept != (*whose, said["number"] or "none", said["chain"]):
            yield f"another entry: {receipt} {entry}"
        if said["form"]:
            commitment = hashlib.sha256(f"{said['salt']}{said['form']}".encode()).hexdigest()
            if (commitment.encode(), str(entry.bids)) != (entry.commitment, said["bids"]):
                yield f"another form: {receipt} {entry}"
            if said["form"] not in self.sent[said["bidder"]]:
                yield f"a form that wasn't sent: {receipt}"

    def judge_forms(self, forms: str, entries: dict[int, Entry]) -> Iterator[str]:
        """What is wrong with the settled forms, as `wdp forms` prints them."""
        printed = dict(re.findall(r"(?m)^%form (\S+) \d+ ([0-9a-f]{64})$", forms))
        last: dict[str, Entry] = {}
        for entry in entries.values():
            if entry.answer in (b"accepted", b"withdrawn"):
                last[entry.bidder.decode()] = entry
        stand = {name: entry for name, entry in last.items() if entry.answer == b"accepted"}
        yield from (f"forms: {name}" for name in stand.keys() ^ printed.keys())
        yield from (
            f"a form that wasn't sent: {name}"
            for name, form in printed.items()
            if form not in self.sent[name]
        )
        for receipt in self.receipts:
            said = RECEIPT.search(receipt)
            change = last.get(said["bidder"]) if said and said["form"] else None
            if said and change and change.number == int(said["entry"]):
                if printed.get(said["bidder"]) != said["form"]:
                    yield f"the settled form is another one: {receipt}"
