"""Trials with many callers: at once and compared with a floor, around the close, and with half requests."""
import argparse
import asyncio
import datetime
import random
import resource
import subprocess
import sys
import time
from collections import Counter
from pathlib import Path

import aiohttp

from desk_trials.callers import Callers, Row, hand_in_all, open_client
from desk_trials.desks import DeskFolder, Service, make_form, make_rules
from desk_trials.settling import settle
from trials.desk_judge import Judge, read_entries

FLOOR = """
import asyncio, os, sys
from aiohttp import web
file = os.open(sys.argv[2], os.O_WRONLY | os.O_CREAT, 0o600)
async def put(request):
    os.write(file, await request.read())
    os.fdatasync(file)
    return web.json_response({"answer": "accepted"})
async def main():
    application = web.Application(client_max_size=2**23)
    application.add_routes([web.put("/form", put)])
    runner = web.AppRunner(application, access_log=None)
    await runner.setup()
    await web.TCPSite(runner, "127.0.0.1", int(sys.argv[1]), backlog=4096).start()
    print("http", file=sys.stderr, flush=True)
    await asyncio.Event().wait()
asyncio.run(main())
"""


class Floor(Service):
    """One write and one sync a request."""

    def __init__(self, folder: Path, port: int) -> None:
        self.port = port
        self.said = []
        command = [sys.executable, "-c", FLOOR, str(port), str(folder / "floor")]
        self.process = subprocess.Popen(command, stderr=subprocess.PIPE)
        assert self.process.stderr
        self.process.stderr.readline()


def measure(service: Service, work: list[tuple[str, bytes]], first: list[tuple[str, bytes]]) -> tuple[float, Callers]:
    """Milliseconds of processor time a form, and what the callers saw. (The start of the children that read forms isn't measured.)"""
    url = f"http://127.0.0.1:{service.port}"
    asyncio.run(hand_in_all(url, first))
    begin, before = time.perf_counter(), service.count_seconds()
    callers = asyncio.run(hand_in_all(url, work))
    passed, used = time.perf_counter() - begin, service.count_seconds() - before
    each = used / len(work) * 1000
    print(f"  {type(service).__name__.lower():8} {each:7.2f} ms of processor a form, {passed:6.1f} s, ", end="")
    print(f"{len(work) / passed:5.0f} a second, {callers}, {service.measure_memory()} MB", flush=True)
    return each, callers


def run_load(options: argparse.Namespace, folder: Path) -> bool:
    draw = random.Random(options.seed)
    low, high = options.bids
    desk = DeskFolder(folder, make_rules(max(1, -(-options.sessions // 8)), 8))
    keys = desk.keys[: options.sessions]

    def make_work(rows: list[Row]) -> list[tuple[str, bytes]]:
        return [(key, make_form(draw, name, draw.randint(low, high))) for name, _, key in rows]

    work, first = make_work(keys), make_work(keys[:16])
    size = sum(len(data) for _, data in work) // len(work)
    print(f"{len(work)} sessions at once, {low} to {high} bids, {size:,} bytes a form on average")
    floor = Floor(folder, options.port + 1)
    each_floor, of_floor = measure(floor, work, first)
    floor.end()
    service = Service(desk, options.port)
    each, of_desk = measure(service, work, first)
    service.end()
    middle, slowest = (of_desk.find_time(part) / of_floor.find_time(part) for part in (0.5, 0.99))
    print(f"  {each / max(each_floor, 0.001):.1f} times the floor's processor time, {middle:.1f} times its p50, {slowest:.1f} times its p99")
    return of_desk.answers == {"accepted": len(work)}


def run_deadline(options: argparse.Namespace, folder: Path) -> bool:
    closes = datetime.datetime.now(datetime.timezone.utc) + datetime.timedelta(seconds=options.seconds)
    desk = DeskFolder(folder, make_rules(max(1, -(-options.sessions // 8)), 8), closes.isoformat())
    judge, callers = Judge(), Callers()
    service = Service(desk, options.port)
    draw = random.Random(options.seed)
    work = [(row, make_form(draw, row[0], 20)) for row in desk.keys[: options.sessions]]
    told: list[tuple[float, str]] = []

    async def call(client: aiohttp.ClientSession, row: Row, form: bytes) -> None:
        # (most in the last second, some after it)
        await asyncio.sleep(max(0, closes.timestamp() - time.time() - draw.expovariate(1) + 0.3))
        judge.send(row[0], form)
        members = await callers.put(client, f"http://127.0.0.1:{options.port}", row[2], form)
        judge.take(members)
        told.append((time.time() - closes.timestamp(), str(members.get("answer"))))

    async def call_all() -> None:
        async with open_client() as client:
            await asyncio.gather(*(call(client, row, form) for row, form in work))

    asyncio.run(call_all())
    while time.time() < closes.timestamp() + 1:
        time.sleep(0.1)
    service.end()
    print(callers)
    end = int(closes.timestamp() * 1_000_000)
    entries = list(read_entries(desk.journal.read_bytes()))
    times = [entry.time for entry in entries if entry.answer != b"closed"]
    late = sum(1 for at in times if at >= end)
    last = max(at for at, word in told if word in ("accepted", "stale"))
    print(f"the last call {(end - max(times, default=0)) / 1000:.1f} ms before the close, {late} at or after it; the last receipt {last:.1f} s after it")
    closed = [entry.answer for entry in entries].index(b"closed")
    return settle(desk, judge) and not late and closed == len(entries) - 1


async def hold(port: int, key: str, count: int, text: str) -> list[asyncio.StreamReader]:
    """So many requests that don't come to their end."""
    held = []
    for _ in range(count):
        source, output = await asyncio.open_connection("127.0.0.1", port)
        output.write(text.encode())
        source.kept = output  # type: ignore[attr-defined]
        held.append(source)
    return held


def run_half(options: argparse.Namespace, folder: Path) -> bool:
    desk = DeskFolder(folder, make_rules(2, 1))
    service = Service(desk, options.port)
    (_, _, one), (name, _, other) = desk.keys
    head = f"PUT /form?over=any HTTP/1.1\r\nHost: x\r\nAuthorization: Bearer {one}\r\n"
    body = f"{head}Content-Length: 5000\r\n\r\nB0000"

    async def call_all() -> bool:
        heads = await hold(options.port, one, options.sessions, head)
        bodies = await hold(options.port, one, options.sessions, body)
        work = [(other, make_form(random.Random(1), name, 3))]
        callers = await hand_in_all(f"http://127.0.0.1:{options.port}", work)
        print(f"{len(heads)} half heads and {len(bodies)} half bodies held; another caller: {callers}", flush=True)
        begin = time.monotonic()
        statuses: list[Counter[str]] = []
        for what, held in (("heads", heads), ("bodies", bodies)):
            answers = await asyncio.gather(*(asyncio.wait_for(source.read(), 90) for source in held), return_exceptions=True)
            texts = [each[9:12].decode() or "closed" if isinstance(each, bytes) else type(each).__name__ for each in answers]
            statuses.append(Counter(texts))
            print(f"half {what}: {dict(statuses[-1])} after {time.monotonic() - begin:.0f} s")
        return set(statuses[0]) == {"closed"} and set(statuses[1]) <= {"408", "429"} and callers.answers == {"accepted": 1}

    is_right = asyncio.run(call_all())
    service.end()
    return is_right


def allow_many_files() -> None:
    most = resource.getrlimit(resource.RLIMIT_NOFILE)[1]
    resource.setrlimit(resource.RLIMIT_NOFILE, (most, most))
