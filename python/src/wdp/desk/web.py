"""The desk over HTTP: who calls, how much may come, and what is answered."""
from __future__ import annotations

import asyncio
import re
import socket
from collections import Counter
from collections.abc import AsyncIterator, Awaitable, Callable
from contextlib import asynccontextmanager
from http import HTTPStatus
from pathlib import Path
from typing import Any

from aiohttp import hdrs, web

from wdp.desk import pages
from wdp.desk.clock import Jumped, format_time
from wdp.desk.filter import FilterEnded
from wdp.desk.keys import OFFICE, Session
from wdp.desk.outcomes import Outcome
from wdp.desk.readers import ReadersStopped
from wdp.desk.service import Desk, FormCall, Over
from wdp.office.sheets import MOST_OF_A_FILE

BODY_SECONDS = 60  # for a whole body
_MOST_IN_HAND = 512 * 1024 * 1024  # bytes of all bodies that are here at once
_MOST_OF_A_BIDDER = 32 * 1024 * 1024  # bytes of these of one bidder
_MOST_CALLS_OF_A_BIDDER = 64  # at once
_MOST_OF_NOBODY = 256 * 1024 * 1024  # the same of calls by a page, whose key comes with the body
_MOST_CALLS_OF_NOBODY = 2_048
_MOST_OF_FIELDS = 64 * 1024  # bytes of a page's form, beside the file
_ETAG = re.compile('"([0-9]{1,9})"')
_CLOSED_HEADERS = {
    "Cache-Control": "no-store",
    "Content-Security-Policy": "default-src 'none'; style-src 'self'; script-src 'self'; "
    "connect-src 'self'; form-action 'self'; base-uri 'none'; frame-ancestors 'none'",
    "Referrer-Policy": "no-referrer",
    "X-Content-Type-Options": "nosniff",
}
_Handler = Callable[[web.Request], Awaitable[web.StreamResponse]]


class Problem(Exception):
    """A call that isn't made, with its status and why."""

    def __init__(self, status: HTTPStatus, words: str) -> None:
        super().__init__(words)
        self.status = int(status)
        self.words = words


def _make_refusal(bidder: str, words: str) -> Problem:
    """Why a body isn't taken: of a bidder, or of all whose key isn't known yet."""
    if bidder:
        return Problem(HTTPStatus.TOO_MANY_REQUESTS, words)
    return Problem(HTTPStatus.SERVICE_UNAVAILABLE, "too much is here at once; try again")


class _Hands:
    """How much of bodies is here, of all and of each bidder; a call that isn't known to be a
    bidder's counts as one of nobody.
    """

    def __init__(self) -> None:
        self.bytes = Counter[str]()
        self.calls = Counter[str]()

    @asynccontextmanager
    async def hold(self, bidder: str) -> AsyncIterator[Callable[[int], None]]:
        """Within this a body of a bidder is here; what it gives is told how much came. Raises
        Problem if it is too much.
        """
        size = 0

        def add(count: int) -> None:
            nonlocal size
            size += count
            self.bytes[bidder] += count
            if size > MOST_OF_A_FILE:
                raise Problem(HTTPStatus.REQUEST_ENTITY_TOO_LARGE, "the file is too large")
            if self.bytes[bidder] > (_MOST_OF_A_BIDDER if bidder else _MOST_OF_NOBODY):
                raise _make_refusal(bidder, "this bidder has too much in hand; try again")
            if self.bytes.total() > _MOST_IN_HAND:
                words = "too much is here at once; try again"
                raise Problem(HTTPStatus.SERVICE_UNAVAILABLE, words)

        if self.calls[bidder] >= (_MOST_CALLS_OF_A_BIDDER if bidder else _MOST_CALLS_OF_NOBODY):
            raise _make_refusal(bidder, "this bidder has too many calls in hand; try again")
        self.calls[bidder] += 1
        try:
            yield add
        finally:
            self.calls[bidder] -= 1
            self.bytes[bidder] -= size


def _read_over(request: web.Request) -> Over:
    """Over which change a call is made. Raises Problem if it doesn't say."""
    if_match = request.headers.get(hdrs.IF_MATCH)
    if_none = request.headers.get(hdrs.IF_NONE_MATCH)
    if if_match is not None and if_none is None:
        match = _ETAG.fullmatch(if_match.strip())
        if not match:
            raise Problem(HTTPStatus.BAD_REQUEST, 'If-Match is the number that stands, as "3"')
        return Over(int(match[1]))
    if if_none is not None and if_match is None:
        if if_none.strip() != "*":
            raise Problem(HTTPStatus.BAD_REQUEST, "If-None-Match is *, if no form stands")
        return Over(None)
    if if_match is None and request.query.get("over") == "any":
        return Over(is_any=True)
    words = 'say If-Match: "N", the number that stands, or If-None-Match: *, or ?over=any'
    raise Problem(HTTPStatus.PRECONDITION_REQUIRED, words)


class Site:
    """The calls of HTTP."""

    def __init__(self, desk: Desk, journal: Path) -> None:
        self._desk = desk
        self._journal = journal
        self._hands = _Hands()

    def make_application(self) -> web.Application:
        """The application of a network's address."""
        application = web.Application(
            client_max_size=MOST_OF_A_FILE + _MOST_OF_FIELDS, middlewares=[self._answer_problems]
        )
        application.add_routes(
            [
                web.get("/", self._get_page),
                web.post("/", self._post_page),
                web.get("/desk.js", self._get_asset),
                web.get("/desk.css", self._get_asset),
                web.put("/form", self._put_form),
                web.delete("/form", self._delete_form),
                web.get("/form", self._get_form),
                web.post("/show", self._post_show),
                web.get("/head", self._get_head),
                web.get("/office", self._get_office),
                web.post("/close", self._post_close),
                web.post("/keys/{bidder}/{session}", self._post_key),
                web.get("/journal", self._get_journal),
            ]
        )
        return application

    @web.middleware
    async def _answer_problems(self, request: web.Request, handler: _Handler) -> web.StreamResponse:
        """Answers what isn't done, in one form."""
        try:
            response = await handler(request)
        except Problem as problem:
            response = self._say(request, problem.status, problem.words)
        except FilterEnded:
            response = self._respond(request, Outcome("unknown"))
        except ReadersStopped:
            words = "the desk ends, and nothing was taken; send the same once more"
            response = self._say(request, HTTPStatus.SERVICE_UNAVAILABLE, words)
        except Jumped:
            response = self._respond(request, Outcome("stopped"))
        except web.HTTPException as error:
            response = self._say(request, error.status, error.reason.lower())
        if not response.prepared:
            response.headers.update(_CLOSED_HEADERS)
        return response

    @staticmethod
    def _wants_text(request: web.Request) -> bool:
        return "text/plain" in request.headers.get(hdrs.ACCEPT, "")

    def _say(self, request: web.Request, status: int, words: str) -> web.Response:
        headers: dict[str, str] = {}
        if status == HTTPStatus.UNAUTHORIZED:
            headers[hdrs.WWW_AUTHENTICATE] = "Bearer"
        if status in (HTTPStatus.SERVICE_UNAVAILABLE, HTTPStatus.TOO_MANY_REQUESTS):
            headers[hdrs.RETRY_AFTER] = "2"
        if self._wants_text(request):
            return web.Response(text=f"{words}\n", status=status, headers=headers)
        return web.json_response({"words": words}, status=status, headers=headers)

    def _respond(self, request: web.Request, outcome: Outcome) -> web.Response:
        """What a call came to, as JSON or as text."""
        if self._wants_text(request):
            lines = [f"{place}: {text}" if place else text for place, text in outcome.faults]
            text = outcome.receipt or "\n".join([*lines, outcome.words]) + "\n"
            response = web.Response(text=outcome.key and f"{outcome.key}\n" or text)
        else:
            response = web.json_response(make_members(outcome))
        response.set_status(outcome.status)
        if outcome.number is not None:
            response.headers[hdrs.ETAG] = f'"{outcome.number}"'
        if outcome.status in (HTTPStatus.SERVICE_UNAVAILABLE, HTTPStatus.TOO_MANY_REQUESTS):
            response.headers[hdrs.RETRY_AFTER] = "2"
        return response

    # who calls

    def _find_session(self, request: web.Request) -> tuple[Session, str]:
        """Who calls, and by which key. Raises Problem."""
        if _is_local(request):
            return OFFICE, ""
        scheme, _, key = request.headers.get(hdrs.AUTHORIZATION, "").partition(" ")
        session = self._desk.keys.find(key.strip()) if scheme == "Bearer" else None
        if session is None:
            raise Problem(HTTPStatus.UNAUTHORIZED, "this key isn't known")
        return session, key.strip()

    def _find_bidder(self, request: web.Request) -> tuple[Session, str]:
        session, key = self._find_session(request)
        if session.is_office:
            raise Problem(HTTPStatus.FORBIDDEN, "the office hands in no form")
        return session, key

    def _check_office(self, request: web.Request) -> None:
        session, _ = self._find_session(request)
        if not session.is_office:
            raise Problem(HTTPStatus.FORBIDDEN, "this is the office's")

    # forms

    async def _put_form(self, request: web.Request) -> web.StreamResponse:
        session, key = self._find_bidder(request)
        is_check = "check" in request.query
        over = Over() if is_check else _read_over(request)
        if (request.content_length or 0) > MOST_OF_A_FILE:
            raise Problem(HTTPStatus.REQUEST_ENTITY_TOO_LARGE, "the file is too large")
        async with self._hands.hold(session.bidder) as add:
            data = await _read_body(request, add)
            call = FormCall(
                session,
                key,
                data=data,
                arrived=self._desk.stamp(),
                over=over,
                is_check=is_check,
                may_be_empty="empty" in request.query,
            )
            return self._respond(request, await self._desk.hand_in(call))

    async def _delete_form(self, request: web.Request) -> web.StreamResponse:
        session, _ = self._find_bidder(request)
        over = _read_over(request)
        arrived = self._desk.stamp()
        return self._respond(request, await self._desk.withdraw(session, over, arrived))

    async def _get_form(self, request: web.Request) -> web.StreamResponse:
        """What stands now. It isn't recorded, so that a page may ask as often as it likes."""
        session, _ = self._find_bidder(request)
        response = web.json_response(self._describe(session))
        number = self._desk.accounts.bidders[session.bidder].number
        if number is not None:
            response.headers[hdrs.ETAG] = f'"{number}"'
        return response

    def _describe(self, session: Session) -> dict[str, Any]:
        """What a bidder's page shows."""
        desk = self._desk
        account = desk.accounts.bidders[session.bidder]
        standing = None
        if account.standing:
            entry = account.standing.entry
            standing = {
                "number": entry.number,
                "entry": entry.entry,
                "session": entry.session,
                "bids": entry.bids,
                "commitment": entry.commitment,
                "received": format_time(entry.time),
            }
        return {
            "bidder": session.bidder,
            "session": session.number,
            "open": desk.is_open,
            "now": format_time(desk.clock.now()),
            "closes": format_time(desk.front.closes),
            "calls_left": account.left,
            "stands": standing,
            "categories": desk.categories,
            "round": desk.front.round.name,
            "desk": desk.front.round.desk,
        }

    async def _post_show(self, request: web.Request) -> web.StreamResponse:
        session, _ = self._find_bidder(request)
        return self._respond(request, await self._desk.show(session, self._desk.stamp()))

    # the office

    async def _get_office(self, request: web.Request) -> web.StreamResponse:
        self._check_office(request)
        return web.json_response(self._describe_round())

    def _describe_round(self) -> dict[str, Any]:
        """Who has handed in, without any amount."""
        desk = self._desk
        rows = [
            {
                "bidder": name,
                "handed_in": account.standing is not None,
                "changes": account.changes,
                "changed": None if account.changed is None else format_time(account.changed),
            }
            for name, account in desk.accounts.bidders.items()
        ]
        return {
            "open": desk.is_open,
            "now": format_time(desk.clock.now()),
            "closes": format_time(desk.front.closes),
            "entries": desk.accounts.entries,
            "chain": desk.accounts.chain,
            "bidders": rows,
        }

    async def _post_close(self, request: web.Request) -> web.StreamResponse:
        self._check_office(request)
        return self._respond(request, await self._desk.close_early())

    async def _post_key(self, request: web.Request) -> web.StreamResponse:
        """A new key for a session, which is told this once."""
        self._check_office(request)
        bidder = request.match_info["bidder"].removeprefix("-")
        number = request.match_info["session"]
        session = Session(bidder, int(number) if number.isdecimal() and len(number) < 9 else -1)
        if not self._desk.keys.has(session):
            raise Problem(HTTPStatus.NOT_FOUND, "the rules have no such session")
        return self._respond(request, self._desk.renew(session))

    # what everybody may see

    async def _get_head(self, request: web.Request) -> web.StreamResponse:
        return web.Response(text=self._desk.sign_head())

    async def _get_journal(self, request: web.Request) -> web.StreamResponse:
        self._find_session(request)
        if self._desk.accounts.is_open:
            raise Problem(HTTPStatus.FORBIDDEN, "the journal is shown after the close")
        return web.FileResponse(self._journal)

    # pages

    async def _get_asset(self, request: web.Request) -> web.StreamResponse:
        return pages.read_asset(request.path)

    async def _get_page(self, request: web.Request) -> web.StreamResponse:
        return pages.format_page(self._desk, None)

    async def _post_page(self, request: web.Request) -> web.StreamResponse:
        """A page of a browser without scripts: the key, the number that stands and the file are
        fields of its form.
        """
        async with self._hands.hold("") as add:
            add(min(request.content_length or MOST_OF_A_FILE, MOST_OF_A_FILE))
            try:
                fields = await asyncio.wait_for(request.post(), BODY_SECONDS)
            except asyncio.TimeoutError:
                raise Problem(HTTPStatus.REQUEST_TIMEOUT, _LATE) from None
            page = pages.read_fields(fields)
        session = self._desk.keys.find(page.key)
        if session is None:
            return pages.format_page(self._desk, page, words="This key isn't known.")
        page.session = session
        if session.is_office:
            return pages.format_office(self._desk, page, self._describe_round())
        # (nobody who sends a page waits for the forms of others)
        async with self._hands.hold(session.bidder) as add:
            add(len(page.data))
            outcome = await self._do(page)
        return pages.format_page(self._desk, page, outcome=outcome, state=self._describe(session))

    async def _do(self, page: pages.PageFields) -> Outcome | None:
        """Does what the page's button says."""
        assert page.session
        if page.do == "withdraw" and page.over:
            return await self._desk.withdraw(page.session, page.over, self._desk.stamp())
        if page.do in ("check", "send") and page.over:
            call = FormCall(
                page.session,
                page.key,
                data=page.data,
                arrived=self._desk.stamp(),
                over=page.over,
                is_check=page.do == "check",
                may_be_empty=page.may_be_empty,
            )
            return await self._desk.hand_in(call)
        return None


def _is_local(request: web.Request) -> bool:
    """Whether a call came by the folder's socket, which nobody but the office can reach."""
    connection = request.transport and request.transport.get_extra_info("socket")
    return getattr(connection, "family", None) == socket.AF_UNIX


_LATE = "the form didn't come completely in time"


async def _read_body(request: web.Request, add: Callable[[int], None]) -> bytes:
    """The whole body of a request. Raises Problem if it is too large, or late."""
    body = bytearray()

    async def read() -> None:
        async for piece in request.content.iter_any():
            add(len(piece))
            body.extend(piece)

    try:
        await asyncio.wait_for(read(), BODY_SECONDS)
    except asyncio.TimeoutError:
        raise Problem(HTTPStatus.REQUEST_TIMEOUT, _LATE) from None
    return bytes(body)


def make_members(outcome: Outcome) -> dict[str, Any]:
    """An outcome as members of an object of JSON; those that say nothing are left out."""
    members: dict[str, Any] = {"answer": outcome.answer, "words": outcome.words}
    if outcome.number is not None:
        members["number"] = outcome.number
    if outcome.entry is not None:
        members |= {"entry": outcome.entry, "receipt": outcome.receipt}
    if outcome.faults:
        members["faults"] = [{"place": place, "fault": text} for place, text in outcome.faults]
    if outcome.form:
        members |= {"form": outcome.form.digest, "salt": outcome.form.salt}
    if outcome.bids is not None:
        members["bids"] = outcome.bids
    if outcome.changes:
        members["changes"] = outcome.changes
    if outcome.key:
        members["key"] = outcome.key
    return members
