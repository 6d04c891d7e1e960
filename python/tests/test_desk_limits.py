"""What one caller, a full disk or a clock can do to a desk: nothing to the others' forms.

(Each of these went wrong in the first sketch of the desk.)
"""
import asyncio
import contextlib
import hashlib
import random
import socket
from collections.abc import AsyncIterator
from contextlib import asynccontextmanager
from pathlib import Path
from typing import Any

import pytest
from commands import check_stopped
from desks import FORM, HEAD, RULES, DeskFolder, make_form

for _name in ("aiohttp", "cryptography"):
    pytest.importorskip(_name, reason=f"{_name} isn't there")

from wdp.desk import reading, serving, web  # noqa: E402
from wdp.desk.accounts import Account  # noqa: E402
from wdp.desk.calls import Reply  # noqa: E402
from wdp.desk.clock import Clock, Jumped, format_time, parse_time  # noqa: E402
from wdp.desk.filter import FilterEnded  # noqa: E402
from wdp.desk.keys import Session  # noqa: E402
from wdp.desk.outcomes import Outcome  # noqa: E402
from wdp.desk.readers import TOO_LONG, Readers, ReadersStopped  # noqa: E402
from wdp.desk.reading import Reading, Standing  # noqa: E402
from wdp.desk.room import SIZE, Room  # noqa: E402
from wdp.desk.sealing import Commitment, make_salt  # noqa: E402
from wdp.desk.service import Desk, FormCall, Over  # noqa: E402

ALPHA = Session("Alpha", 1)
BETA = Session("Beta", 1)


pytestmark = pytest.mark.usefixtures("wdp", "wdp_desk")


@pytest.fixture
def folder(tmp_path: Path) -> DeskFolder:
    return DeskFolder(tmp_path)


@asynccontextmanager
async def work(folder: DeskFolder, **how: Any) -> AsyncIterator[Desk]:
    """The desk of a folder, at work in this process."""
    async with serving.open_desk(folder.where, print, readers=1, **how) as desk:
        yield desk


def make_call(
    desk: Desk, session: Session, data: bytes, over: int | None = None, **how: Any
) -> FormCall:
    return FormCall(session, "key", data=data, arrived=desk.stamp(), over=Over(over), **how)


# calls that change nothing


def test_stale_calls_of_one_session_leave_the_others_calls(folder: DeskFolder) -> None:
    with folder.serve() as served:
        statuses = [served.put(body=make_form("Alpha", 10 + k), number=7).status for k in range(60)]
        assert statuses == [412] * 50 + [429] * 10
        assert served.call("POST", "/show", key=folder.keys["Alpha", 1]).status == 429
        assert served.look()["calls_left"] == 950
        # (a change is made, also by the session that used up its budget)
        assert served.put(session=2).status == 200
        assert served.put(body=make_form("Alpha", 11), number=1).status == 200
    with folder.serve() as served:
        assert served.put(body=make_form("Alpha", 12), number=1).status == 429
        assert served.put(body=make_form("Alpha", 12), number=2).status == 200


def test_the_last_calls_of_a_bidder_are_for_changes() -> None:
    account = Account(calls=899)
    assert account.has_budget(1, changes=False)
    account.calls = 900
    assert not account.has_budget(1, changes=False)
    assert account.has_budget(1, changes=True)


# forms that are hard to read


class HeldReaders:
    """Readers that read when they are let."""

    def __init__(self) -> None:
        self.waiting: list[tuple[bytes, asyncio.Event]] = []

    async def read(self, data: bytes, session_key: str, standing: Standing) -> Reading:
        event = asyncio.Event()
        self.waiting.append((data, event))
        await event.wait()
        self.waiting.remove((data, event))
        return Reading(faults=[("", "bad")])

    async def start(self) -> None:
        ...

    async def stop(self) -> None:
        ...


def test_one_form_of_a_bidder_is_read_at_a_time(folder: DeskFolder) -> None:
    async def check() -> None:
        async with work(folder) as desk:
            readers = HeldReaders()
            desk._readers = readers  # type: ignore[assignment]
            calls = [make_call(desk, ALPHA, b"bomb %d" % k) for k in range(8)]
            bombs = [asyncio.create_task(desk.hand_in(call)) for call in calls]
            other = asyncio.create_task(desk.hand_in(make_call(desk, BETA, b"form")))
            for _ in range(20):
                await asyncio.sleep(0)
            assert sorted(data for data, _ in readers.waiting) == [b"bomb 0", b"form"]
            readers.waiting[1][1].set()
            await other
            for _ in bombs:
                assert len(readers.waiting) == 1
                readers.waiting[0][1].set()
                for _ in range(20):
                    await asyncio.sleep(0)
            await asyncio.gather(*bombs)

    asyncio.run(check())


ENDLESS = """
import sys
from wdp.desk import reading
usual = reading.parse_form_file
def parse(path, data, *more):
    while data == b"endless":
        pass
    if data == b"large":
        bytearray(2 * reading.MEMORY)
    return usual(path, data, *more)
reading.parse_form_file = parse
reading.SECONDS = 0
sys.exit(reading.main(sys.argv[1:]))
"""


def test_what_takes_too_long_or_too_much_memory_is_ended(folder: DeskFolder, wdp: str) -> None:
    """By limits of the child, which another one replaces."""

    async def check() -> None:
        readers = Readers(wdp, folder.where / "rules.csv", holder="09" + "00" * 31, count=1)
        script = folder.write("endless.py", ENDLESS)
        readers._command[1:3] = [str(script)]
        await readers.start()
        try:
            for data in (b"endless", b"large", b"endless"):
                ended = await readers.read(data, "key", Standing())
                assert ended.faults == [("", TOO_LONG)]
                assert (await readers.read(FORM, "key", Standing())).bids == 2
        finally:
            await readers.stop()

    asyncio.run(check())
    assert reading.SECONDS == 5 and reading.MEMORY == 2**30


def test_readers_that_are_stopped_start_no_child(folder: DeskFolder, wdp: str) -> None:
    """Whoever waits for one is told at once: the process of a desk that ends doesn't stay."""

    async def check() -> None:
        readers = Readers(wdp, folder.where / "rules.csv", holder="09" + "00" * 31, count=1)
        script = folder.write("endless.py", ENDLESS.replace("SECONDS = 0", "SECONDS = 10_000"))
        readers._command[1:3] = [str(script)]
        await readers.start()
        asked = [asyncio.create_task(readers.read(b"endless", "key", Standing())) for _ in "123"]
        await asyncio.sleep(0.5)
        await asyncio.wait_for(readers.stop(), 60)
        told = asyncio.gather(*asked, return_exceptions=True)
        answers = await asyncio.wait_for(told, 60)
        assert [type(answer) for answer in answers] == [ReadersStopped] * 3
        assert not readers._children

    asyncio.run(check())


def test_a_bidder_has_so_much_in_hand(folder: DeskFolder) -> None:
    """(A large body that isn't ended keeps nobody else's out.)"""

    async def check() -> None:
        hands = web._Hands()
        async with contextlib.AsyncExitStack() as stack:
            for _ in range(4):
                add = await stack.enter_async_context(hands.hold("Alpha"))
                add(8 * 1024 * 1024)
            add = await stack.enter_async_context(hands.hold("Alpha"))
            with pytest.raises(web.Problem) as caught:
                add(1)
            assert caught.value.status == 429
            (await stack.enter_async_context(hands.hold("Beta")))(8 * 1024 * 1024)
            for _ in range(59):
                await stack.enter_async_context(hands.hold("Alpha"))
            with pytest.raises(web.Problem) as caught:
                await stack.enter_async_context(hands.hold("Alpha"))
            assert caught.value.status == 429
        assert hands.bytes.total() == hands.calls.total() == 0

    asyncio.run(check())


# a full disk


class FullFilter:
    """A filter on a disk that is full until the room that was kept is let go."""

    def __init__(self, usual: Any, room: Path) -> None:
        self.usual = usual
        self.room = room
        self.calls = 0

    async def call(self, data: bytes) -> Reply:
        self.calls += 1
        if self.room.exists():
            return Reply("disk full")
        reply: Reply = await self.usual.call(data)
        return reply

    async def stop(self) -> None:
        await self.usual.stop()


def test_room_is_kept_for_withdrawals_and_the_close(
    folder: DeskFolder, monkeypatch: pytest.MonkeyPatch
) -> None:
    """A form is told that the disk is full, and doesn't get that room."""

    async def check() -> None:
        async with work(folder) as desk:
            path = folder.where / "room"
            assert path.stat().st_size == SIZE
            assert (await desk.hand_in(make_call(desk, ALPHA, FORM))).answer == "accepted"
            filter_ = FullFilter(desk._filter, path)
            desk._filter = filter_  # type: ignore[assignment]
            other = make_form("Alpha", 77)
            assert (await desk.hand_in(make_call(desk, ALPHA, other, 1))).status == 507
            monkeypatch.setattr("os.posix_fallocate", refuse_room)
            assert (await desk.withdraw(ALPHA, Over(1), desk.stamp())).answer == "withdrawn"
            assert not path.exists()
            calls = filter_.calls
            assert (await desk.hand_in(make_call(desk, ALPHA, other))).status == 507
            assert filter_.calls == calls
            monkeypatch.undo()
            assert (await desk.hand_in(make_call(desk, BETA, b"Beta,A,B\n20,1,0\n"))).status == 507
            assert path.exists()
            assert (await desk.close(desk.stamp())).answer == "closed"

    asyncio.run(check())


def refuse_room(*_: int) -> None:
    raise OSError(28, "No space left on device")


def test_a_close_that_cant_be_written_is_tried_again(folder: DeskFolder) -> None:
    """Until it can be: whatever was in the room."""

    async def check() -> None:
        async with work(folder) as desk:
            usual = desk._filter
            answers = ["disk full"] * 3

            class Slow:
                async def call(self, data: bytes) -> Reply:
                    return Reply(answers.pop()) if answers else await usual.call(data)

                async def stop(self) -> None:
                    await usual.stop()

            desk._filter = Slow()  # type: ignore[assignment]
            assert (await desk.close(desk.stamp())).answer == "closed"
            assert not answers

    asyncio.run(check())


def test_room(tmp_path: Path) -> None:
    room = Room(tmp_path / "room")
    assert room.is_kept
    assert (tmp_path / "room").stat().st_blocks * 512 >= SIZE
    assert room.let_go() and not room.let_go()
    assert room.is_kept


# half requests


def test_a_connection_without_a_request_is_ended(
    folder: DeskFolder, monkeypatch: pytest.MonkeyPatch
) -> None:
    """And a body that doesn't come to its end gets 408."""
    monkeypatch.setattr(serving, "HEADER_SECONDS", 0.5)
    monkeypatch.setattr(web, "BODY_SECONDS", 0.5)
    head = f"PUT /form?over=any HTTP/1.1\r\nHost: x\r\nAuthorization: Bearer {folder.keys['Alpha', 1]}\r\n"
    body = f"{head}Content-Length: 24\r\n\r\nAlpha,A"
    form = "Beta,A,B\n20,1,0\n"
    whole = head.replace(folder.keys["Alpha", 1], folder.keys["Beta", 1])
    whole += f"Connection: close\r\nContent-Length: {len(form)}\r\n\r\n{form}"

    async def send(port: int, text: str, most: int = -1) -> bytes:
        source, output = await asyncio.open_connection("127.0.0.1", port)
        output.write(text.encode())
        answer = b""
        # (what a process that waits hasn't read yet resets the connection)
        with contextlib.suppress(ConnectionResetError):
            answer = await asyncio.wait_for(source.read(most), 120)
        output.close()
        return answer

    async def check() -> None:
        async with work(folder) as desk:
            site = web.Site(desk, folder.where / "journal")
            with socket.create_server(("127.0.0.1", 0)) as server:
                port = server.getsockname()[1]
            address = serving.Address(port=port)
            async with serving._listen(site.make_application(), address, folder.where):
                answers = await asyncio.gather(*(send(port, head) for _ in range(100)))
                assert answers == [b""] * 100
                monkeypatch.setattr(serving, "HEADER_SECONDS", 120)
                assert (await send(port, body)).startswith(b"HTTP/1.1 408 ")
                # (so many of a bidder are here at once, and nobody else waits for them)
                bodies = asyncio.gather(*(send(port, body, 12) for _ in range(200)))
                other = await send(port, whole)
                assert other.startswith(b"HTTP/1.1 200 ") and b"accepted" in other
                statuses = {answer[9:] for answer in await bodies}
                assert statuses == {b"408", b"429"}

    asyncio.run(check())


# what the journal tells


def test_a_small_form_cant_be_guessed_from_the_journal(folder: DeskFolder) -> None:
    """It has commitments alone, each with 32 random bytes of its own; and what is sealed is another
    text each time.
    """
    with folder.serve() as served:
        receipts = [served.put()]
        receipts.append(served.put(body=make_form("Alpha", 99), number=1))
        receipts.append(served.put(number=2))
    journal = folder.journal
    digest = hashlib.sha256(FORM).hexdigest()
    assert digest.encode() not in journal
    assert FORM[10:] not in journal
    salts = [answer.members["salt"] for answer in receipts]
    assert len(set(salts)) == 3 and all(len(bytes.fromhex(salt)) == 32 for salt in salts)
    commitments = [match[7].decode() for match in HEAD.finditer(journal)]
    wanted = hashlib.sha256(f"{salts[2]}{digest}".encode()).hexdigest()
    assert commitments[2] == wanted and len(set(commitments)) == 3
    assert not any(salt.encode() in journal for salt in salts)


# a form without bids


def test_a_form_without_bids_has_to_be_meant(folder: DeskFolder) -> None:
    empty = b"Alpha,A,B\n"
    with folder.serve() as served:
        assert served.put().word == "accepted"
        for query in ("", "?check"):
            answer = served.put(body=empty, number=1, query=query)
            assert answer.status == 422 or query
        assert "say ?empty" in served.put(body=empty, number=1).members["faults"][0]["fault"]
        # (a fault comes first)
        faults = served.put(body=b"Alpha,A,X\n", number=1).members["faults"]
        assert [fault["place"] for fault in faults] == ["1:9"]
        assert served.look()["stands"]["bids"] == 2
        assert served.put(body=empty, number=1, query="?empty").members["bids"] == 0


# the clock


class SetClock:
    """A clock that is set, beside one that isn't."""

    def __init__(self) -> None:
        self.at = parse_time("2026-11-30T12:00:00Z")
        self.steady = 10**9

    def make(self) -> Clock:
        return Clock(now=lambda: self.at, steady=lambda: self.steady)

    def pass_time(self, microseconds: int, by: int = 0) -> None:
        self.steady += microseconds
        self.at += microseconds + by


def test_stamps_never_fall_and_a_jump_is_noticed() -> None:
    times = SetClock()
    clock = times.make()
    first = clock.stamp()
    times.pass_time(10, by=-500_000)
    assert clock.stamp() == first
    times.pass_time(1_000_000)
    assert clock.stamp() == first + 500_010
    for _ in range(10):  # (slowly, as NTP does it)
        times.pass_time(1_000_000, by=400_000)
        clock.stamp()
    times.pass_time(5, by=1_000_001)
    with pytest.raises(Jumped, match="the clock was set from .* to "):
        clock.stamp()
    with pytest.raises(Jumped):
        clock.stamp()
    back = times.make()
    times.pass_time(5, by=-1_000_001)
    with pytest.raises(Jumped):
        back.stamp()


def test_a_clock_that_jumps_stops_the_desk_which_asks(
    tmp_path: Path, monkeypatch: pytest.MonkeyPatch
) -> None:
    """It isn't taken for the close, and no call is taken since; the office has to say that the
    clock is right.
    """
    folder = DeskFolder(tmp_path, closes="2096-12-01T12:00:00Z")
    times = SetClock()
    monkeypatch.setattr(serving, "Clock", times.make)
    said: list[str] = []

    async def serve() -> int:
        async def jump() -> None:
            while len(said) < 2:
                await asyncio.sleep(0.01)
            times.pass_time(1_000, by=parse_time("2097-01-01T00:00:00Z") - times.at)

        address = serving.Address(port=find_port())
        jumping = asyncio.create_task(jump())
        status = await serving.serve(
            folder.where, address, readers=1, is_right=False, say=said.append
        )
        await jumping
        return status

    assert asyncio.run(serve()) == serving.JUMPED
    assert "the clock was set from 2026-11-30T12:00:00" in said[-1]
    assert folder.journal.count(b"%call") == 0
    check_stopped(folder.desk("serve"), "the clock was set", "say --clock-is-right")
    with folder.serve("--clock-is-right") as served:
        assert served.put().status == 200
    with folder.serve() as served:
        assert served.look()["stands"]["number"] == 1


def find_port() -> int:
    with socket.create_server(("127.0.0.1", 0)) as server:
        return int(server.getsockname()[1])


def test_a_call_after_the_jump_is_told_that_the_desk_asks(folder: DeskFolder) -> None:
    times = SetClock()

    async def check() -> None:
        async with work(folder, clock=times.make()) as desk:
            times.pass_time(0, by=3_600_000_000)
            with pytest.raises(Jumped):
                desk.stamp()
            assert not desk.is_open and "the clock was set" in desk.stopped
            await desk.watch()
            assert desk.accounts.is_open

    asyncio.run(check())


def test_a_journal_of_later_times_asks(folder: DeskFolder) -> None:
    with folder.serve() as served:
        assert served.put().word == "accepted"
    times = SetClock()
    times.at -= 10**12

    async def check() -> None:
        async with work(folder, clock=times.make()):
            pass

    with pytest.raises(ValueError, match="the journal has an entry of .* say --clock-is-right"):
        asyncio.run(check())


def test_times_are_read_as_they_are_written() -> None:
    for text in ("2026-12-01T12:00:00.000001Z", "1999-12-31T23:59:59.999999Z"):
        assert format_time(parse_time(text)) == text
    assert parse_time("2026-12-01T13:00:00+01:00") == parse_time("2026-12-01T12:00:00Z")


def test_the_round_closes_at_its_time(tmp_path: Path) -> None:
    """What came before the time is judged and taken, however long that takes; what came at or after
    it isn't; and the close comes last.
    """
    folder = DeskFolder(tmp_path, closes=CLOSES)
    times = SetClock()
    times.at = parse_time(CLOSES) - 60_000_000

    async def check() -> None:
        async with work(folder, clock=times.make()) as desk:
            usual = desk._readers
            slow = SlowReaders(usual)
            desk._readers = slow  # type: ignore[assignment]
            watching = asyncio.create_task(desk.watch())
            times.pass_time(59_999_999)
            in_time = asyncio.create_task(desk.hand_in(make_call(desk, ALPHA, FORM)))
            await slow.begun.wait()
            times.pass_time(1)
            late = make_call(desk, BETA, b"Beta,A,B\n20,1,0\n")
            assert late.arrived == parse_time(CLOSES)
            assert (await desk.hand_in(late)).status == 410
            await asyncio.sleep(0.5)
            assert desk.accounts.is_open and not watching.done()
            slow.let.set()
            assert (await in_time).answer == "accepted"
            await watching
            assert not desk.accounts.is_open
            assert (await desk.withdraw(ALPHA, Over(1), desk.stamp())).status == 410

    asyncio.run(check())
    entries = [(match[5], int(match[2])) for match in HEAD.finditer(folder.journal)]
    assert [kind for kind, _ in entries] == [b"submit", b"close"]
    assert entries[0][1] == parse_time(CLOSES) - 1 and entries[1][1] >= parse_time(CLOSES)


def test_a_thousand_callers_at_the_deadline(tmp_path: Path) -> None:
    """Those whose last byte came before the second are answered, the others are told that the round
    is over, and the close is behind all of them.
    """
    names = [f"B{number}" for number in range(200)]
    rules = RULES + "".join(f"bidder,{name},9,5,\n" for name in names)
    folder = DeskFolder(tmp_path, rules, closes=CLOSES)
    times = SetClock()
    end = parse_time(CLOSES)
    times.at = end - 60_000_000
    draw = random.Random(1)
    order = [Session(name, session) for name in names for session in range(1, 6)]
    draw.shuffle(order)

    async def check() -> list[tuple[int, Outcome]]:
        async with work(folder, clock=times.make()) as desk:
            slow = SlowReaders(MadeReaders())
            desk._readers = slow  # type: ignore[assignment]
            watching = asyncio.create_task(desk.watch())
            times.pass_time(59_499_000)
            calls = []
            for number, session in enumerate(order):
                times.pass_time(1_000)
                form = make_form(session.bidder, 10 + number)
                call = make_call(desk, session, form)
                calls.append((call.arrived, asyncio.create_task(desk.hand_in(call))))
                await asyncio.sleep(0)
            # (it is over by the clock, and nothing has been read yet)
            await asyncio.sleep(0.3)
            assert desk.accounts.is_open and not watching.done()
            slow.let.set()
            told = [(arrived, await answer) for arrived, answer in calls]
            await watching
            assert not desk.accounts.is_open
            return told

    told = asyncio.run(check())
    late = [outcome.answer for arrived, outcome in told if arrived >= end]
    in_time = [outcome.answer for arrived, outcome in told if arrived < end]
    assert late == ["round over"] * 500
    assert len(in_time) == 500 and set(in_time) == {"accepted", "stale"}
    kinds = [(match[5], int(match[2])) for match in HEAD.finditer(folder.journal)]
    assert len(kinds) == 501 and kinds[-1][0] == b"close"
    assert all(kind == b"submit" and at < end for kind, at in kinds[:-1])


class MadeReaders:
    """Readers that need no child: the forms are as they have to be."""

    async def read(self, data: bytes, session_key: str, standing: Standing) -> Reading:
        form = Commitment(hashlib.sha256(data).hexdigest(), make_salt())
        return Reading(bids=1, text=data, form=form, sealed=b"sealed")

    async def start(self) -> None:
        ...

    async def stop(self) -> None:
        ...


CLOSES = "2096-12-01T12:00:00Z"


class SlowReaders:
    """Readers that wait until they are let."""

    def __init__(self, usual: Readers | MadeReaders) -> None:
        self.usual = usual
        self.begun = asyncio.Event()
        self.let = asyncio.Event()

    async def read(self, data: bytes, session_key: str, standing: Standing) -> Reading:
        self.begun.set()
        await self.let.wait()
        return await self.usual.read(data, session_key, standing)


# the filter


def test_a_call_whose_filter_ends_is_told_that_nobody_knows(folder: DeskFolder) -> None:
    async def check() -> None:
        async with work(folder) as desk:
            desk._filter._process.kill()
            with pytest.raises(FilterEnded):
                await desk.hand_in(make_call(desk, ALPHA, FORM))
            assert "status" in await desk.wait_for_filter()

    asyncio.run(check())
