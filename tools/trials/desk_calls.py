"""Calls to a desk, for tests and for bench/: forms that are right and forms that aren't, and random calls."""

from __future__ import annotations

import random
import subprocess

from trials.desk import Call, Close, Show, Submit, Withdraw, commit_of, digest_of, front_of

RULES = b"rules,1,1,,\ncategory,A,2,10,1\ncategory,B,1,5,1\nbidder,Alpha,9,8,\nbidder,Beta,9,1,\n"
BIDDERS = [b"Alpha", b"Beta"]
SESSIONS = {b"Alpha": 8, b"Beta": 1}
FRONT = front_of(RULES)


def salt_of(number: int) -> bytes:
    return digest_of(b"salt %d" % number)


def form_of(bidder: bytes, amount: int, bids: int = 1) -> bytes:
    rows = [b"%d,1,0\n" % (20 + amount), b"%d,2,0\n" % (40 + amount)]
    return bidder + b",A,B\n" + b"".join(rows[:bids])


def submission(
    bidder: bytes,
    amount: int,
    over: int | None,
    *,
    session: int = 1,
    at: int = 1,
    salt: int = 0,
    bids: int = 1,
) -> Submit:
    text = form_of(bidder, amount, bids)
    sealed = b"\x00sealed\n%call " + text
    return Submit(
        bidder, session, at, over, text, sealed, salt=salt_of(salt), owner=bidder, bids=bids
    )


FAULTY = [
    b"",
    b"\n",
    b"Nobody,A,B\n1,1,0\n",
    b"Alpha,B,A\n1,1,0\n",
    b"Alpha,A,B\n0,1,0\nx,1,0\n20,1\n",
    b"Alpha,A,B\n" + b"1,9,9\n" * 12,
]


def faults_of(wdp: str, text: bytes) -> bytes:
    given = b"%rules\n" + RULES + b"%form\n" + text
    return subprocess.run([wdp, "explain", "--json"], input=given, capture_output=True).stdout


def random_call(
    chance: random.Random, wdp_faults: dict[bytes, bytes], number: int, closes: float = 0.01
) -> Call:
    bidder = chance.choice(BIDDERS)
    session = chance.randint(1, SESSIONS[bidder])
    over = chance.choice([None, *range(1, 6)]) if chance.random() < 0.5 else None
    kind = chance.random()
    if kind < 0.15:
        return Show(bidder, session, number)
    if kind < 0.35:
        return Withdraw(bidder, session, number, chance.randint(0, 6))
    if kind < 0.35 + closes:
        return Close(number)
    call = submission(
        bidder,
        chance.randint(0, 3),
        over,
        session=session,
        at=number,
        salt=chance.randint(0, 2),
        bids=chance.randint(0, 2),
    )
    what = chance.random()
    if what < 0.1:
        return Submit(**{**vars(call), "commit": commit_of(salt_of(9), call.text)})
    if what < 0.2:
        text = chance.choice(list(wdp_faults))
        return Submit(**{**vars(call), "text": text, "faults": wdp_faults[text]})
    if what < 0.25:
        other = form_of(BIDDERS[1 - BIDDERS.index(bidder)], 1)
        return Submit(**{**vars(call), "text": other, "owner": BIDDERS[1 - BIDDERS.index(bidder)]})
    if what < 0.28:
        return Submit(**{**vars(call), "text": call.text.rstrip(b"\n")})
    return call


def without_chains(told: bytes) -> list[list[bytes]]:
    """The words of replies, but for the chains: how many calls come in one batch is the system's."""
    lines = [line.split() for line in told.splitlines()]
    return [words[:-1] if words and words[0].isdigit() else words for words in lines]
