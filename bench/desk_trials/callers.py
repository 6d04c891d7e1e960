"""Callers of a desk: their calls, the answers and the times."""
import asyncio
import json
import random
import time
from collections import Counter
from dataclasses import dataclass, field
from typing import Any

import aiohttp

from desk_trials.desks import make_form
from trials.desk_judge import Judge

MOST_SECONDS = 900
Row = tuple[str, int, str]


@dataclass
class Callers:
    """How long each call took, and how many answers of each kind there were."""

    seconds: list[float] = field(default_factory=list)
    answers: Counter[str] = field(default_factory=Counter)

    async def call(self, client: aiohttp.ClientSession, method: str, url: str, key: str, data: bytes | None = None) -> dict[str, Any]:
        begin = time.perf_counter()
        members: dict[str, Any] = {}
        headers = {"Authorization": f"Bearer {key}"}
        try:
            async with client.request(method, url, data=data, headers=headers) as reply:
                members = json.loads(await reply.read() or b"{}")
                word = str(members.get("answer", f"status {reply.status}"))
        except (aiohttp.ClientError, asyncio.TimeoutError, OSError, ValueError) as error:
            word = type(error).__name__
        self.seconds.append(time.perf_counter() - begin)
        self.answers[word] += 1
        return members

    async def put(self, client: aiohttp.ClientSession, url: str, key: str, data: bytes) -> dict[str, Any]:
        return await self.call(client, "PUT", f"{url}/form?over=any", key, data)

    async def withdraw(self, client: aiohttp.ClientSession, url: str, key: str) -> dict[str, Any]:
        return await self.call(client, "DELETE", f"{url}/form?over=any", key)

    def find_time(self, part: float) -> float:
        """The seconds within which this part of the calls was answered."""
        times = sorted(self.seconds)
        return times[min(len(times) - 1, int(part * len(times)))]

    def __str__(self) -> str:
        at = [f"{self.find_time(part) * 1000:.0f}" for part in (0.5, 0.99)]
        return f"p50 {at[0]} ms, p99 {at[1]} ms, {dict(self.answers)}"


def open_client() -> aiohttp.ClientSession:
    return aiohttp.ClientSession(
        connector=aiohttp.TCPConnector(limit=0), timeout=aiohttp.ClientTimeout(total=MOST_SECONDS)
    )


async def hand_in_all(url: str, work: list[tuple[str, bytes]]) -> Callers:
    callers = Callers()
    async with open_client() as client:
        await asyncio.gather(*(callers.put(client, url, key, data) for key, data in work))
    return callers


class Load:
    """Callers that hand in and withdraw forms while the desk is up."""

    def __init__(self, url: str, rows: list[Row], judge: Judge, *, bids: tuple[int, int], seed: int) -> None:
        self.url = url
        self.judge = judge
        self.bids = bids
        self.callers = Callers()
        self.is_up = asyncio.Event()
        self.tasks = [asyncio.create_task(self.work(row, seed * 10_007 + k)) for k, row in enumerate(rows)]

    async def work(self, row: Row, seed: int) -> None:
        name, _, key = row
        draw = random.Random(seed)
        async with open_client() as client:
            while True:
                await self.is_up.wait()
                if draw.random() < 0.15:
                    members = await self.callers.withdraw(client, self.url, key)
                else:
                    form = make_form(draw, name, draw.randint(*self.bids))
                    self.judge.send(name, form)
                    members = await self.callers.put(client, self.url, key, form)
                self.judge.take(members)
                if "entry" not in members:
                    await asyncio.sleep(0.05)

    async def wait_for_receipts(self, seconds: float = 30) -> None:
        """Waits until some of them have a new receipt."""
        before = len(self.judge.receipts)
        last = time.monotonic() + seconds
        while len(self.judge.receipts) == before and time.monotonic() < last:
            await asyncio.sleep(0.005)

    async def stop(self) -> None:
        for task in self.tasks:
            task.cancel()
        await asyncio.gather(*self.tasks, return_exceptions=True)
