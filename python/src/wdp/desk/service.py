"""The desk itself: calls of bidders and of the office, one of a bidder at a time, with their
receipts.
"""
from __future__ import annotations

import asyncio
from collections import defaultdict
from collections.abc import Coroutine
from dataclasses import dataclass
from typing import Any, TypeVar

from wdp.desk.accounts import Account, Accounts, make_entry
from wdp.desk.calls import (
    Caller,
    Reply,
    format_close,
    format_show,
    format_submit,
    format_withdraw,
)
from wdp.desk.clock import Clock, Jumped, format_time
from wdp.desk.filter import Filter, FilterEnded
from wdp.desk.journal import Entry, Front
from wdp.desk.keys import OFFICE, Keys, Session
from wdp.desk.outcomes import Outcome
from wdp.desk.readers import Readers
from wdp.desk.reading import Reading, Standing
from wdp.desk.receipts import Head, Receipt, Signer
from wdp.desk.room import Room
from wdp.desk.sealing import Commitment

_AGAIN = 1  # seconds until a close that couldn't be written is tried again
_TICK = 0.2  # seconds between two looks at the clock
_EMPTY = "the form has no bid; say ?empty if it is meant to have none"
_T = TypeVar("_T")


@dataclass(frozen=True)
class Over:
    """Over which change a call is made: one that is named, None for none, or over whatever
    stands.
    """

    number: int | None = None
    is_any: bool = False

    def find_number(self, account: Account) -> int | None:
        """The number over which the call is made."""
        return account.number if self.is_any else self.number


@dataclass(frozen=True)
class FormCall:
    """A form that has come: whose it is by the key, when its last byte came, over which change it
    is, and whether it is only to be judged, or may be without bids.
    """

    session: Session
    key: str
    data: bytes
    arrived: int
    over: Over
    is_check: bool = False
    may_be_empty: bool = False


class Desk:
    """A desk at work."""

    def __init__(
        self,
        *,
        front: Front,
        categories: list[str],
        accounts: Accounts,
        keys: Keys,
        signer: Signer,
        filter_: Filter,
        readers: Readers,
        room: Room,
        clock: Clock,
    ) -> None:
        self.front = front
        self.accounts = accounts
        self.keys = keys
        self.clock = clock
        self.stopped = ""
        self.categories = categories
        self._signer = signer
        self._filter = filter_
        self._readers = readers
        self._room = room
        self._turns: dict[str, asyncio.Lock] = defaultdict(asyncio.Lock)
        self._in_hand: set[asyncio.Task[Any]] = set()
        self._is_closing = False

    async def wait_for_filter(self) -> str:
        """Why the filter ended, once it has."""
        await self._filter.ended.wait()
        return await self._filter.describe_end()

    async def wait_until_idle(self) -> None:
        """Waits until nothing is in hand."""
        while self._in_hand:
            await asyncio.wait(set(self._in_hand))

    # time

    def stamp(self) -> int:
        """The time, for a call whose last byte has come. Raises Jumped, and stops the desk, if the
        clock was set.
        """
        try:
            return self.clock.stamp()
        except Jumped as jumped:
            self.stopped = str(jumped)
            raise

    @property
    def is_open(self) -> bool:
        """Whether calls are taken, as far as nothing but the office's close matters."""
        return self.accounts.is_open and not self._is_closing and not self.stopped

    def _is_over(self, arrived: int) -> bool:
        return arrived >= self.front.closes or not self.accounts.is_open or self._is_closing

    async def watch(self) -> None:
        """Closes the round when its time has come; ends earlier if the clock was set."""
        while self.accounts.is_open:
            try:
                if (now := self.stamp()) >= self.front.closes:
                    await self.close(now)
            except (Jumped, FilterEnded):
                return
            left = (self.front.closes - self.clock.last) / 1_000_000
            await asyncio.sleep(min(max(left, 0.001), _TICK))

    # calls

    async def _keep_in_hand(self, work: Coroutine[Any, Any, _T]) -> _T:
        """The result of what is done to its end, whether its caller waits or not."""
        task = asyncio.ensure_future(work)
        self._in_hand.add(task)
        task.add_done_callback(self._in_hand.discard)
        return await asyncio.shield(task)

    async def hand_in(self, call: FormCall) -> Outcome:
        """Judges a form and, unless it is only to be checked, hands it in."""
        if self._is_over(call.arrived):
            return Outcome("round over")
        return await self._keep_in_hand(self._hand_in(call))

    async def _hand_in(self, call: FormCall) -> Outcome:
        async with self._turns[call.session.bidder]:
            if call.is_check:
                return await self._check(call)
            account = self.accounts.bidders[call.session.bidder]
            known = account.standing.known if account.standing else Standing()
            reading = await self._readers.read(call.data, call.key, known)
            if reading.faults:
                return Outcome("refused", faults=reading.faults)
            if not reading.bids and not call.may_be_empty:
                checked = await self._check(call)
                return checked if checked.faults else Outcome("refused", faults=[("", _EMPTY)])
            return await self._submit(call, reading, account)

    async def _submit(self, call: FormCall, reading: Reading, account: Account) -> Outcome:
        session = call.session
        assert reading.form
        over = call.over.find_number(account)
        stands = account.standing
        is_again = stands is not None and stands.known.commitment == reading.form.value
        if not is_again and not account.has_budget(session.number, changes=over == account.number):
            return Outcome("too many", number=account.number)
        if not is_again and not self._room.is_kept:
            return Outcome("disk full")
        caller = Caller(session.bidder, session.number, call.arrived)
        data = format_submit(caller, over, reading.form, text=reading.text, sealed=reading.sealed)
        reply = await self._filter.call(data)
        if reply.answer == "refused":
            located = await self._readers.locate(call.data, reply.lines)
            return Outcome("refused", faults=located.faults)
        if reply.answer == "other-bidder":
            whose = f"the form is of {reply.owner}, and the key of {session.bidder}"
            return Outcome("other bidder", faults=[("1:1", whose)])
        if reply.answer == "again":
            account.remember(reading.form)
        known = Standing(reading.form.value, reading.form, b"")
        entry = self._record(session, call.arrived, reply, known=known, bids=reply.bids)
        if reply.answer == "again" and account.standing:
            entry = account.standing.entry
        return self._make_outcome(
            reply, entry, form=reading.form, bids=reading.bids, changes=reading.changes
        )

    async def _check(self, call: FormCall) -> Outcome:
        reading = await self._readers.check(call.data)
        if reading.faults:
            return Outcome("refused", faults=reading.faults)
        if reading.bidder != call.session.bidder:
            whose = f"the form is of {reading.bidder}, and the key of {call.session.bidder}"
            return Outcome("other bidder", faults=[("1:1", whose)])
        return Outcome("nothing is wrong", bids=reading.bids, changes=reading.changes)

    async def withdraw(self, session: Session, over: Over, arrived: int) -> Outcome:
        """Withdraws what stands."""
        if self._is_over(arrived):
            return Outcome("round over")
        return await self._keep_in_hand(self._withdraw(session, over, arrived))

    async def _withdraw(self, session: Session, over: Over, arrived: int) -> Outcome:
        async with self._turns[session.bidder]:
            account = self.accounts.bidders[session.bidder]
            if account.standing is None:
                return Outcome("no form")
            number = over.find_number(account)
            if number is None or not account.has_budget(
                session.number, changes=number == account.number
            ):
                return Outcome("too many", number=account.number)
            caller = Caller(session.bidder, session.number, arrived)
            reply = await self._call_in_room(format_withdraw(caller, number))
            return self._make_outcome(reply, self._record(session, arrived, reply))

    async def show(self, session: Session, arrived: int) -> Outcome:
        """A signed statement of what stands, which the journal has, too."""
        if self._is_over(arrived):
            return Outcome("round over")
        return await self._keep_in_hand(self._show(session, arrived))

    async def _show(self, session: Session, arrived: int) -> Outcome:
        async with self._turns[session.bidder]:
            account = self.accounts.bidders[session.bidder]
            if not account.has_budget(session.number, changes=False):
                return Outcome("too many", number=account.number)
            caller = Caller(session.bidder, session.number, arrived)
            reply = await self._filter.call(format_show(caller))
            return self._make_outcome(reply, self._record(session, arrived, reply))

    async def close(self, arrived: int) -> Outcome:
        """Closes the round, once what had come before is answered. If that can't be written, it is
        tried again until it is.
        """
        self._is_closing = True
        await self.wait_until_idle()
        while True:
            reply = await self._call_in_room(format_close(arrived))
            if reply.answer != "disk full":
                return self._make_outcome(reply, self._record(OFFICE, arrived, reply))
            await asyncio.sleep(_AGAIN)

    async def close_early(self) -> Outcome:
        """Closes the round now, as the office asks."""
        if not self.accounts.is_open or self._is_closing:
            return Outcome("closed before")
        return await asyncio.shield(asyncio.ensure_future(self.close(self.stamp())))

    async def _call_in_room(self, data: bytes) -> Reply:
        """The reply to a call for which room is kept."""
        reply = await self._filter.call(data)
        if reply.answer == "disk full" and self._room.let_go():
            reply = await self._filter.call(data)
        return reply

    # what is said

    def _record(
        self,
        session: Session,
        time: int,
        reply: Reply,
        *,
        known: Standing = Standing(),
        bids: int = 0,
    ) -> Entry | None:
        """Records what the filter kept of a call."""
        if reply.entry is None or reply.answer == "again":
            return None
        commitment = known.commitment or "-"
        entry = make_entry(session, time, reply, commitment=commitment, bids=bids)
        self.accounts.record(entry, known)
        return entry

    def _make_outcome(
        self,
        reply: Reply,
        entry: Entry | None,
        *,
        form: Commitment | None = None,
        bids: int | None = None,
        changes: list[str] | None = None,
    ) -> Outcome:
        is_form = reply.answer in ("accepted", "again")
        return Outcome(
            reply.answer,
            number=reply.number,
            entry=entry.entry if entry else None,
            receipt=self._sign_entry(entry, form if is_form else None) if entry else "",
            form=form if is_form else None,
            bids=bids if is_form else None,
            changes=changes or [],
        )

    def _sign_entry(self, entry: Entry, form: Commitment | None) -> str:
        """The receipt of an entry."""
        return self._signer.sign(
            Receipt(
                self.front.round,
                entry=entry.entry,
                time=entry.time,
                bidder=entry.bidder,
                session=entry.session,
                answer=entry.answer,
                number=entry.number,
                chain=entry.chain,
                form=form,
                bids=entry.bids if form else 0,
            )
        )

    def sign_head(self) -> str:
        """What the desk says of its journal."""
        return self._signer.sign(
            Head(self.front.round, entry=self.accounts.entries, chain=self.accounts.chain)
        )

    def renew(self, session: Session) -> Outcome:
        """A new key for a session."""
        return Outcome("key", key=self.keys.renew(session, format_time(self.clock.now())))
