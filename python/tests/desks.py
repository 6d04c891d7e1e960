"""Desks for tests: a folder with rules, keys and a holder, a process that serves it, and calls over
HTTP.
"""
from __future__ import annotations

import contextlib
import csv
import http.client
import json
import re
import socket
import subprocess
import sys
import threading
from collections.abc import Callable, Iterator
from concurrent.futures import ThreadPoolExecutor
from dataclasses import dataclass
from pathlib import Path
from typing import Any, NamedTuple

from commands import CommandResult, make_environment, run, start, wait_for

RULES = """rules,1,1,,
category,A,2,10,1
category,B,1,5,1
bidder,Alpha,9,3,
bidder,Beta,9,1,
bidder,Gamma,9,1,
"""
MANY_BIDDERS = [f"Bidder{number}" for number in range(20)]
MANY_RULES = RULES + "".join(f"bidder,{name},9,3,\n" for name in MANY_BIDDERS)
FORM = b"Alpha,A,B\n30,1,0\n50,2,1\n"
FORM_OF = {
    "Alpha": FORM,
    "Beta": b"Beta,A,B\n20,1,0\n45,3,0\n",
    "Gamma": b"Gamma,A,B\n12,0,1\n",
}
FAR = "2096-12-01T12:00:00Z"


class Answer(NamedTuple):
    """What came of a call over HTTP."""

    status: int
    headers: dict[str, str]
    body: bytes

    @property
    def members(self) -> dict[str, Any]:
        members: dict[str, Any] = json.loads(self.body)
        return members

    @property
    def word(self) -> str:
        return str(self.members["answer"])

    @property
    def receipt(self) -> str:
        return str(self.members["receipt"])


def over(number: int | None) -> dict[str, str]:
    """The header by which a call says over which change it is made."""
    return {"If_None_Match": "*"} if number is None else {"If_Match": f'"{number}"'}


class DeskFolder:
    """A new desk, and what its office and its bidders do."""

    def __init__(self, folder: Path, rules: str = RULES, closes: str = FAR) -> None:
        self.folder = folder
        self.where = folder / "desk"
        self.holder = folder / "holder.key"
        self.output = folder / "out"
        (folder / "rules.csv").write_text(rules)
        make = ["openssl", "genpkey", "-algorithm", "X25519", "-out", self.holder]
        subprocess.run(make, check=True)
        public = folder / "holder.pub"
        subprocess.run(
            ["openssl", "pkey", "-in", self.holder, "-pubout", "-out", public], check=True
        )
        made = self.desk("new", folder / "rules.csv", "--closes", closes, "--holder", public)
        assert made.status == 0, made
        with open(self.where / "keys.csv") as file:
            self.keys = {(name, int(number)): key for name, number, key in csv.reader(file)}
        self.office = self.keys["-", 0]

    def desk(self, action: str, *words: object) -> CommandResult:
        return run("desk", action, self.where, *words)

    @property
    def journal(self) -> bytes:
        return (self.where / "journal").read_bytes()

    def write(self, name: str, text: str) -> Path:
        path = self.folder / name
        path.write_text(text)
        return path

    @contextlib.contextmanager
    def serve(self, *words: object, **more: str) -> Iterator[Served]:
        """The desk at work."""
        served = Served(self, *words, **more)
        try:
            served.wait_until_up()
            yield served
        finally:
            served.stop()


class Served:
    """A process that serves a desk."""

    def __init__(self, desk: DeskFolder, *words: object, **more: str) -> None:
        self.desk = desk
        self.port = find_port()
        self.lines: list[str] = []
        command = [sys.executable, "-m", "wdp", "desk", "serve", desk.where]
        command += ["--port", self.port, "--readers", 1, *words]
        env = make_environment(**more)
        self.process = start(command, env=env, stderr=subprocess.PIPE)
        self._reading = threading.Thread(target=self._read, daemon=True)
        self._reading.start()

    def _read(self) -> None:
        assert self.process.stderr
        for line in self.process.stderr:
            self.lines.append(line.decode())

    def wait_until_up(self) -> None:
        wait_for(lambda: self.is_up or self.process.poll() is not None)
        assert self.is_up, self.lines

    @property
    def is_up(self) -> bool:
        return any("http" in line for line in self.lines)

    def find_filter(self) -> int:
        """The process of the filter."""
        pid = self.process.pid
        children = Path(f"/proc/{pid}/task/{pid}/children").read_text().split()
        names = {int(child): Path(f"/proc/{child}/cmdline").read_bytes() for child in children}
        return next(child for child, name in names.items() if name.endswith(b"/journal\0"))

    def stop(self) -> int:
        """Ends the process; its status."""
        self.process.terminate()
        return self.wait()

    def wait(self) -> int:
        status = self.process.wait(300)
        self._reading.join(10)
        assert not any("Traceback" in line for line in self.lines), "".join(self.lines)
        return status

    def kill(self) -> None:
        self.process.kill()
        self.process.wait()

    def call(
        self,
        method: str,
        path: str,
        body: bytes | None = None,
        *,
        key: str | None = None,
        **headers: str,
    ) -> Answer:
        connection = http.client.HTTPConnection("127.0.0.1", self.port, timeout=120)
        sent = {name.replace("_", "-"): value for name, value in headers.items()}
        if key is not None:
            sent["Authorization"] = f"Bearer {key}"
        try:
            connection.request(method, path, body, sent)
            reply = connection.getresponse()
            return Answer(reply.status, dict(reply.getheaders()), reply.read())
        finally:
            connection.close()

    def put(
        self,
        bidder: str = "Alpha",
        body: bytes | None = None,
        number: int | None = None,
        *,
        session: int = 1,
        query: str = "",
    ) -> Answer:
        """Hands in a form over a change, by default none."""
        form = FORM_OF[bidder] if body is None else body
        key = self.desk.keys[bidder, session]
        return self.call("PUT", f"/form{query}", form, key=key, **over(number))

    def withdraw(self, bidder: str = "Alpha", number: int | None = None) -> Answer:
        return self.call("DELETE", "/form", key=self.desk.keys[bidder, 1], **over(number))

    def look(self, bidder: str = "Alpha") -> dict[str, Any]:
        return self.call("GET", "/form", key=self.desk.keys[bidder, 1]).members

    def call_all(self, calls: list[Callable[[], Answer]]) -> list[Answer]:
        """What comes of calls that are made at once."""
        with ThreadPoolExecutor(len(calls)) as threads:
            return [each.result() for each in [threads.submit(call) for call in calls]]


@dataclass(frozen=True)
class Bidder:
    """A bidder of a desk that several tests share; nobody else has called in its name."""

    served: Served
    name: str

    @property
    def form(self) -> bytes:
        return f"{self.name},A,B\n30,1,0\n50,2,1\n".encode()

    @property
    def key(self) -> str:
        return self.served.desk.keys[self.name, 1]

    def make_form(self, amount: int) -> bytes:
        return make_form(self.name, amount)

    def call(self, method: str, path: str, body: bytes | None = None, **headers: str) -> Answer:
        return self.served.call(method, path, body, key=self.key, **headers)

    def put(self, body: bytes | None = None, number: int | None = None, **how: Any) -> Answer:
        return self.served.put(self.name, self.form if body is None else body, number, **how)

    def withdraw(self, number: int | None = None) -> Answer:
        return self.served.withdraw(self.name, number)

    def look(self) -> dict[str, Any]:
        return self.served.look(self.name)


def find_port() -> int:
    with socket.create_server(("127.0.0.1", 0)) as server:
        return int(server.getsockname()[1])


def make_form(bidder: str, amount: int) -> bytes:
    """A form of one bid."""
    return f"{bidder},A,B\n{amount},1,0\n".encode()


HEAD = re.compile(
    rb"%call (\d+) (\d+) (\S+) (\d+) (\w+) (\d+|-) ([0-9a-f]{64}|-) (\d+) (\d+) (\d+)\n"
)
