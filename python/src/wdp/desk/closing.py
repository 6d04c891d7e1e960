"""The office closes the round before its time."""
from pathlib import Path

import aiohttp

from wdp.desk.folder import SOCKET, short_path
from wdp.desk.service import Desk
from wdp.desk.serving import Say, open_desk
from wdp.texts.refusals import Refused


async def close(where: Path, say: Say) -> str:
    """Closes the round of a folder, by the process that serves it if there is one; what came of
    it.
    """
    path = where / SOCKET
    if path.is_socket():
        try:
            with short_path(path) as name:
                return await _ask(name)
        except aiohttp.ClientConnectorError:
            pass  # (a process that was killed has left its socket)
    async with open_desk(where, say) as desk:
        return await _close(desk)


async def _ask(path: str) -> str:
    connector = aiohttp.UnixConnector(path)
    async with aiohttp.ClientSession(connector=connector) as client:
        async with client.post("http://desk/close") as reply:
            words = (await reply.json())["words"]
    if reply.status != 200:
        raise Refused(f"the round isn't closed: {words}")
    return str(words)


async def _close(desk: Desk) -> str:
    outcome = await desk.close_early()
    return outcome.words
