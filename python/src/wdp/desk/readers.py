"""The children that read forms, each one form at a time; one that takes too long is ended, and
another one takes its place.
"""
from __future__ import annotations

import asyncio
import contextlib
import json
import os
import sys
from pathlib import Path
from typing import Any

from wdp.desk.reading import READY, Reading, Standing, parse_head
from wdp.texts.refusals import Unclear

_LONGEST_LINE = 256 * 1024 * 1024  # bytes of an answer's first line, which has the faults
_TICK = 0.01  # seconds between two looks at who still asks
_PATIENCE = 600  # seconds for a child that waits and doesn't work, so that no limit ends it
TOO_LONG = "it takes too long to read; save it as CSV"


class ReadersStopped(Exception):
    """The desk ends, and the form wasn't read."""


class _Child:
    """A process that reads forms."""

    def __init__(self, process: asyncio.subprocess.Process) -> None:
        assert process.stdin and process.stdout
        self._process = process
        self._input = process.stdin
        self._output = process.stdout

    async def ask(self, request: dict[str, Any], data: bytes) -> Reading | None:
        """The answer to a request; None if the process has ended."""
        head = json.dumps({**request, "size": len(data)}).encode()
        with contextlib.suppress(ConnectionError):
            self._input.write(head + b"\n" + data)
            await self._input.drain()
        try:
            line = await self._output.readline()
            if not line:
                return None
            reading, text, sealed = parse_head(line)
            reading.text = await self._output.readexactly(text)
            reading.sealed = await self._output.readexactly(sealed)
        except (asyncio.IncompleteReadError, ConnectionError):
            return None
        return reading

    async def wait_until_ready(self) -> None:
        """Waits until the process can read; Unclear if it ends before."""
        if await self._output.readline() != READY:
            raise Unclear("a child that reads forms doesn't start")

    async def end(self) -> None:
        """Ends the process."""
        with contextlib.suppress(ProcessLookupError):
            self._process.kill()
        await self._process.wait()


class Readers:
    """So many children, which requests wait for."""

    def __init__(self, program: str, rules: Path, holder: str, count: int) -> None:
        module = [sys.executable, "-m", "wdp.desk.reading"]
        self._command = [*module, program, str(rules), holder]
        self._count = count
        # places for children: one that waits for a form, or none, which has to be started
        self._places: asyncio.Queue[_Child | None] = asyncio.Queue()
        self._children: set[_Child] = set()
        self._asking = 0
        self._is_stopped = False

    async def start(self) -> None:
        """Starts the children, and waits until they can read."""
        for child in await asyncio.gather(*(self._start_child() for _ in range(self._count))):
            self._places.put_nowait(child)

    async def _start_child(self) -> _Child:
        source = str(Path(__file__).resolve().parents[2])
        paths = [source, *filter(None, [os.environ.get("PYTHONPATH")])]
        process = await asyncio.create_subprocess_exec(
            *self._command,
            stdin=asyncio.subprocess.PIPE,
            stdout=asyncio.subprocess.PIPE,
            limit=_LONGEST_LINE,
            start_new_session=True,
            env={**os.environ, "PYTHONPATH": os.pathsep.join(paths)},
        )
        child = _Child(process)
        self._children.add(child)
        await child.wait_until_ready()
        return child

    async def _ask(self, request: dict[str, Any], data: bytes) -> Reading:
        self._asking += 1
        try:
            reading = await self._ask_in_turn(request, data)
        finally:
            self._asking -= 1
        if reading is None and self._is_stopped:
            raise ReadersStopped
        return reading or Reading(faults=[("", TOO_LONG)])

    async def _ask_in_turn(self, request: dict[str, Any], data: bytes) -> Reading | None:
        child = await self._places.get()
        reading = None
        try:
            # (none is started while the desk ends: its start would be cut off)
            if not self._is_stopped:
                child = child or await self._start_child()
                reading = await asyncio.wait_for(child.ask(request, data), _PATIENCE)
        except asyncio.TimeoutError:
            pass
        except Unclear:
            if not self._is_stopped:
                raise
        finally:
            # (a child whose answer wasn't read to its end has the rest of it in its pipe)
            if reading is None and child is not None:
                self._children.discard(child)
                await child.end()
                child = None
            self._places.put_nowait(child)
        return reading

    async def read(self, data: bytes, session_key: str, standing: Standing) -> Reading:
        """A form that is to be handed in."""
        request = {"do": "read", "session_key": session_key, "standing": standing.to_members()}
        return await self._ask(request, data)

    async def check(self, data: bytes) -> Reading:
        """A form with its faults."""
        return await self._ask({"do": "check"}, data)

    async def locate(self, data: bytes, lines: bytes) -> Reading:
        """A form with the faults that are in these lines."""
        return await self._ask({"do": "locate", "lines": lines.decode("ascii")}, data)

    async def stop(self) -> None:
        """Ends the children, and waits until nobody asks them any more."""
        self._is_stopped = True
        while self._children or self._asking:
            children, self._children = self._children, set()
            await asyncio.gather(*(child.end() for child in children))
            await asyncio.sleep(_TICK)
