"""The filter: `wdp-desk` as a child on two pipes, which keeps each call before it answers."""
from __future__ import annotations

import asyncio
import contextlib
import fcntl
import time
from collections import deque
from pathlib import Path

from wdp.desk.calls import Reply, parse_reply
from wdp.desk.journal import Front
from wdp.texts.refusals import Refused, Unclear

_PATIENCE = 10  # seconds for the filter of a process that was killed to end
_LONGEST_LINE = 1024 * 1024


class FilterEnded(Exception):
    """The filter has ended, and it isn't known whether it had kept the call."""


def _wait_until_free(path: Path) -> None:
    """Waits for the filter of another process, which is just ending, to let the journal go."""
    if not path.exists():
        return
    last = time.monotonic() + _PATIENCE
    with open(path, "rb") as file:
        while time.monotonic() < last:
            with contextlib.suppress(BlockingIOError):
                fcntl.flock(file, fcntl.LOCK_EX | fcntl.LOCK_NB)
                return
            time.sleep(0.02)


class Filter:
    """A filter at work. Calls are answered in their order."""

    def __init__(self, process: asyncio.subprocess.Process) -> None:
        assert process.stdin and process.stdout and process.stderr
        self._process = process
        self._input = process.stdin
        self._output = process.stdout
        self._messages = process.stderr
        self._waiting: deque[asyncio.Future[Reply]] = deque()
        self._reading = asyncio.create_task(self._read_replies())
        self.ended = asyncio.Event()
        self._why = ""
        self.opened = Reply("opened")

    @classmethod
    async def start(cls, program: str, journal: Path, front: Front) -> Filter:
        """Starts a filter, which makes the journal or goes on with it; Refused if it can't."""
        _wait_until_free(journal)
        process = await asyncio.create_subprocess_exec(
            program,
            str(journal),
            stdin=asyncio.subprocess.PIPE,
            stdout=asyncio.subprocess.PIPE,
            stderr=asyncio.subprocess.PIPE,
            limit=_LONGEST_LINE,
            start_new_session=True,
        )
        started = cls(process)
        try:
            started.opened = await started.call(bytes(front))
        except FilterEnded:
            raise Refused(await started.describe_end()) from None
        if started.opened.answer != "opened":
            raise Unclear(f"wdp-desk answered {started.opened.answer} to the front of its journal")
        return started

    async def call(self, data: bytes) -> Reply:
        """The reply to a call. Raises FilterEnded if none comes."""
        if self.ended.is_set():
            raise FilterEnded
        reply: asyncio.Future[Reply] = asyncio.get_running_loop().create_future()
        # (nothing is awaited between the two: replies come in the order of the calls)
        self._waiting.append(reply)
        self._input.write(data)
        with contextlib.suppress(ConnectionError):
            await self._input.drain()
        return await reply

    async def _read_replies(self) -> None:
        try:
            while line := await self._output.readline():
                reply = parse_reply(line.decode("ascii", "backslashreplace").removesuffix("\n"))
                if reply.count:
                    lines = [await self._output.readline() for _ in range(reply.count)]
                    reply = Reply(reply.answer, lines=b"".join(lines))
                if not self._waiting:
                    raise Unclear("wdp-desk printed a reply to no call")
                waiting = self._waiting.popleft()
                if not waiting.done():
                    waiting.set_result(reply)
        except (Unclear, ValueError) as error:
            # (what it says can't be relied on any more)
            self._why = str(error)
            self._process.kill()
        finally:
            self.ended.set()
            while self._waiting:
                waiting = self._waiting.popleft()
                if not waiting.done():
                    waiting.set_exception(FilterEnded())

    async def describe_end(self) -> str:
        """Why the filter ended."""
        said = (await self._messages.read()).decode("utf-8", "backslashreplace").splitlines()
        status = await self._process.wait()
        if self._why:
            return self._why
        return said[-1] if said else f"wdp-desk ended with status {status}"

    async def stop(self) -> None:
        """Lets the filter answer what it has, and end."""
        with contextlib.suppress(ConnectionError):
            self._input.close()
        await self._reading
        await self._process.wait()
