"""A desk that serves: one process has its folder, until it is told to end, the filter ends or the
clock jumps.
"""
from __future__ import annotations

import asyncio
import contextlib
import os
import signal
import ssl
from collections.abc import AsyncIterator, Awaitable, Callable
from contextlib import asynccontextmanager
from dataclasses import dataclass
from pathlib import Path

from aiohttp import web
from aiohttp.web_protocol import RequestHandler

from wdp.desk.accounts import Account, Accounts
from wdp.desk.clock import MOST_OF_A_JUMP, Clock, format_time
from wdp.desk.filter import Filter
from wdp.desk.folder import SOCKET, DeskFolder, short_path
from wdp.desk.journal import Front, JournalReader
from wdp.desk.keys import Keys, list_sessions, parse_rows
from wdp.desk.readers import Readers
from wdp.desk.reading import Standing
from wdp.desk.receipts import Round, Signer
from wdp.desk.room import Room
from wdp.desk.sealing import find_sealed_salt
from wdp.desk.service import Desk
from wdp.desk.web import Site
from wdp.files import map_errors
from wdp.folder import Folder
from wdp.program import find_filter, find_program
from wdp.texts.accepted import AcceptedRules, parse_rules
from wdp.texts.refusals import Refused
from wdp.texts.tables import Records, compute_digest, decode

HEADER_SECONDS = 20  # until the first request of a connection has come
_KEEP_ALIVE_SECONDS = 30
_END_SECONDS = 10  # for calls that are in hand when the desk ends
_LAST_SECONDS = 2  # for replies that are being sent then
_BACKLOG = 4_096
ENDED = 3  # the status if the filter ended
JUMPED = 4  # and if the clock was set
Say = Callable[[str], None]


@dataclass(frozen=True)
class Address:
    """Where a desk listens, with a certificate and its key if it does TLS itself."""

    host: str = "127.0.0.1"
    port: int = 8080
    tls: tuple[str, str] | None = None

    def make_context(self) -> ssl.SSLContext | None:
        """What TLS needs; Refused if the certificate or its key is none."""
        if self.tls is None:
            return None
        context = ssl.create_default_context(ssl.Purpose.CLIENT_AUTH)
        try:
            context.load_cert_chain(*self.tls)
        except (OSError, ssl.SSLError) as error:
            names = " and ".join(self.tls)
            raise Refused(f"{names}: no certificate with its key: {error.strerror}") from None
        return context


def read_front(folder: DeskFolder) -> Front:
    """What the journal of a folder begins with."""
    rows = {name: value for name, value in parse_rows(folder.read("round.csv"), 2, "round.csv")}
    rules = folder.read("rules.csv")
    try:
        return Front(
            round=Round(name=rows["round"], rules=compute_digest(rules), desk=rows["desk"]),
            holder=rows["holder"],
            closes=int(rows["closes"]),
            rules=rules,
        )
    except (KeyError, ValueError):
        raise Refused(f"{folder.path('round.csv')}: it isn't one that `desk new` writes") from None


def _read_accounts(journal: Path, rules: AcceptedRules) -> Accounts:
    """The accounts of a journal, with what is known of the forms that stand."""
    accounts = Accounts({name: Account() for name in rules.bidders})
    with open(journal, "rb") as file:
        reader = JournalReader(file)
        for entry in reader:
            accounts.record(entry, Standing(entry.commitment))
        for account in accounts.bidders.values():
            if standing := account.standing:
                salt = find_sealed_salt(reader.read_sealed(standing.entry))
                known = Standing(standing.entry.commitment, None, salt)
                account.standing = type(standing)(standing.entry, known)
    return accounts


def _check_clock(folder: DeskFolder, clock: Clock, accounts: Accounts, *, is_right: bool) -> None:
    """Raises Refused if the clock has to be asked about: it jumped while the desk served, or is
    before what the journal has.
    """
    stopped = folder.path("stopped")
    why = ""
    if stopped.exists():
        why = stopped.read_text().strip()
    elif clock.now() + MOST_OF_A_JUMP < accounts.last:
        why = f"the journal has an entry of {format_time(accounts.last)}"
    if why and not is_right:
        now = f"it is {format_time(clock.now())} by the clock now"
        raise Refused(f"{why}; {now}: set it right, and say --clock-is-right")
    stopped.unlink(missing_ok=True)
    clock.last = clock.now() if why else accounts.last


@asynccontextmanager
async def open_desk(
    where: Path,
    say: Say,
    *,
    readers: int = 0,
    is_right: bool = False,
    clock: Clock | None = None,
) -> AsyncIterator[Desk]:
    """The desk of a folder, at work within this. One process has it at a time."""
    folder = DeskFolder(where)
    front = read_front(folder)
    with Folder(where).lock(alone=True):
        rules = parse_rules(Records(decode(front.rules)))
        keys = Keys.read(folder, list_sessions(rules))
        signer = Signer(folder.read_secret("signing.key"))
        if signer.public != front.round.desk:
            raise Refused(f"{folder.path('signing.key')}: it isn't the key of this desk")
        room = Room(folder.path("room"))
        is_room = room.is_kept
        filter_ = await Filter.start(find_filter(), folder.path("journal"), front)
        children = Readers(
            find_program(), folder.path("rules.csv"), holder=front.holder, count=readers
        )
        try:
            if cut := filter_.opened.cut:
                say(f"the journal had a torn end, of which nobody was told: {cut:,} bytes cut off")
            accounts = _read_accounts(folder.path("journal"), rules)
            if accounts.entries == 0:
                accounts.chain = filter_.opened.chain
            clock = clock or Clock()
            _check_clock(folder, clock, accounts, is_right=is_right)
            if accounts.is_open and not is_room:
                raise Refused(f"{where}: the disk has no room for withdrawals and the close")
            await children.start()
            yield Desk(
                front=front,
                categories=[category.name for category in rules.categories],
                accounts=accounts,
                keys=keys,
                signer=signer,
                filter_=filter_,
                readers=children,
                room=room,
                clock=clock,
            )
        finally:
            await children.stop()
            await filter_.stop()


class _Connections:
    """Connections, of which those are ended that send no complete request for some time."""

    def __init__(self, runner: web.AppRunner) -> None:
        self._runner = runner
        self._waiting: set[RequestHandler] = set()

    @web.middleware
    async def note(
        self, request: web.Request, handler: Callable[[web.Request], Awaitable[web.StreamResponse]]
    ) -> web.StreamResponse:
        """Notes that a connection has sent a request."""
        self._waiting.discard(request.protocol)
        return await handler(request)

    def make(self) -> RequestHandler:
        """A new connection."""
        assert self._runner.server
        connection = self._runner.server()
        self._waiting.add(connection)
        asyncio.get_running_loop().call_later(HEADER_SECONDS, self._end, connection)
        return connection

    def _end(self, connection: RequestHandler) -> None:
        if connection in self._waiting:
            self._waiting.discard(connection)
            connection.force_close()


@asynccontextmanager
async def _listen(
    application: web.Application, address: Address, where: Path
) -> AsyncIterator[None]:
    """Listens at an address, and for the office's commands at a socket in the folder."""
    runner = web.AppRunner(application, access_log=None, keepalive_timeout=_KEEP_ALIVE_SECONDS)
    connections = _Connections(runner)
    application.middlewares.append(connections.note)
    await runner.setup()
    try:
        with map_errors(f"{address.host} port {address.port}"):
            server = await asyncio.get_running_loop().create_server(
                connections.make,
                address.host,
                address.port,
                ssl=address.make_context(),
                backlog=_BACKLOG,
            )
        with short_path(where / SOCKET) as path:
            await web.UnixSite(runner, path, shutdown_timeout=_LAST_SECONDS).start()
        yield
        server.close()
    finally:
        await runner.cleanup()


async def serve(where: Path, address: Address, *, readers: int, is_right: bool, say: Say) -> int:
    """Serves a desk until it is to end; the status."""
    address.make_context()
    async with open_desk(where, say, readers=readers, is_right=is_right) as desk:
        site = Site(desk, where / "journal")
        async with _listen(site.make_application(), address, where):
            state = "open" if desk.is_open else "closed"
            scheme = "https" if address.tls else "http"
            say(f"the round is {state}; entries in the journal: {desk.accounts.entries:,}")
            say(f"{scheme}://{address.host}:{address.port}/")
            return await _wait_for_end(desk, where, say)


async def _wait_for_end(desk: Desk, where: Path, say: Say) -> int:
    """Waits until the desk is to end, and why; the status."""
    loop = asyncio.get_running_loop()
    told = asyncio.Event()
    for number in (signal.SIGTERM, signal.SIGINT):
        loop.add_signal_handler(number, told.set)
    was_open = desk.accounts.is_open
    watching = asyncio.create_task(desk.watch())
    ended = asyncio.create_task(desk.wait_for_filter())
    asked = asyncio.create_task(told.wait())
    waiting: set[asyncio.Task[object]] = {watching, ended, asked}
    while True:
        done, _ = await asyncio.wait(waiting, return_when=asyncio.FIRST_COMPLETED)
        waiting -= done
        if ended in done:
            say(str(ended.result()))
            return ENDED
        if desk.stopped:
            DeskFolder(where).write_secret("stopped", f"{desk.stopped}\n".encode())
            say(f"{desk.stopped}: the desk has stopped; set the clock right, and start it again")
        if desk.stopped or asked in done:
            with contextlib.suppress(asyncio.TimeoutError):
                await asyncio.wait_for(desk.wait_until_idle(), _END_SECONDS)
            return JUMPED if desk.stopped else 0
        if was_open and not desk.accounts.is_open:
            was_open = False
            say(f"the round is closed, with {desk.accounts.entries} entries")


def count_readers() -> int:
    """How many children read forms: one for each processor."""
    return len(os.sched_getaffinity(0))
