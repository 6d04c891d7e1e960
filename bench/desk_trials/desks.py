"""Desks to try: their folders, forms, and the processes that serve them."""
import contextlib
import csv
import os
import random
import re
import signal
import subprocess
import sys
import time
from pathlib import Path

ROOT = Path(__file__).resolve().parent.parent.parent
CATEGORIES = [f"C{k}" for k in range(1, 7)]
ENVIRONMENT = {**os.environ, "PYTHONPATH": str(ROOT / "python/src"), "PYTHONDONTWRITEBYTECODE": "1"}
FAR = "2096-01-01T00:00:00Z"


def make_rules(bidders: int, sessions: int) -> str:
    rows = ["rules,1,1,,", *(f"category,{name},30,1,1" for name in CATEGORIES)]
    rows += [f"bidder,B{k:04},9999,{sessions}," for k in range(bidders)]
    return "".join(f"{row}\n" for row in rows)


def make_form(draw: random.Random, bidder: str, count: int) -> bytes:
    packages: set[tuple[int, ...]] = set()
    while len(packages) < count:
        lots = tuple(draw.randint(0, 30) for _ in CATEGORIES)
        if any(lots):
            packages.add(lots)
    rows = [",".join(map(str, (draw.randint(10_000, 999_999), *lots))) for lots in sorted(packages)]
    return "\n".join([",".join([bidder, *CATEGORIES]), *rows, ""]).encode()


def find_wdp() -> str:
    return os.environ.get("WDP") or str(ROOT / "wdp")


def find_filter() -> str:
    return os.environ.get("WDP_DESK") or str(ROOT / "wdp-desk")


def run(*words: object) -> str:
    done = subprocess.run(list(map(str, words)), env=ENVIRONMENT, capture_output=True, text=True)
    if done.returncode:
        raise SystemExit(f"{words[:4]}: {done.stderr}")
    return done.stdout


class DeskFolder:
    """A new desk. Its holder's keys are in another folder, if one is given."""

    def __init__(self, folder: Path, rules: str, closes: str = FAR, *, beside: Path | None = None) -> None:
        self.folder = folder
        self.beside = beside or folder
        self.where = folder / "desk"
        self.holder = self.beside / "holder.key"
        (self.beside / "rules.csv").write_text(rules)
        run("openssl", "genpkey", "-algorithm", "X25519", "-out", self.holder)
        run("openssl", "pkey", "-in", self.holder, "-pubout", "-out", self.beside / "holder.pub")
        self.desk("new", self.beside / "rules.csv", "--closes", closes, "--holder", self.beside / "holder.pub")
        with open(self.where / "keys.csv") as file:
            rows = [row for row in csv.reader(file) if row[0] != "-"]
        self.keys = [(name, int(number), key) for name, number, key in rows]

    @property
    def journal(self) -> Path:
        return self.where / "journal"

    def desk(self, action: str, *words: object) -> str:
        return run(sys.executable, "-m", "wdp", "desk", action, self.where, *words)


class Service:
    """A process that serves a desk, and what its processes have used."""

    def __init__(self, desk: DeskFolder, port: int, *words: str, **environment: str) -> None:
        self.port = port
        command = [sys.executable, "-m", "wdp", "desk", "serve", str(desk.where), "--port", str(port), *words]
        env = {**ENVIRONMENT, **environment}
        self.process = subprocess.Popen(command, env=env, stderr=subprocess.PIPE, stdout=subprocess.DEVNULL)
        assert self.process.stderr
        self.said = []
        while b"http" not in (line := self.process.stderr.readline()):
            if not line:
                raise SystemExit(f"the desk doesn't start: {self.said}")
            self.said.append(line.decode())

    def list_processes(self) -> list[int]:
        found, new = [], [self.process.pid]
        while new:
            pid = new.pop()
            found.append(pid)
            with contextlib.suppress(OSError):
                new += map(int, Path(f"/proc/{pid}/task/{pid}/children").read_text().split())
        return found

    def count_seconds(self) -> float:
        """Processor time, with that of children that have ended."""
        ticks = 0
        for pid in self.list_processes():
            with contextlib.suppress(OSError):
                fields = Path(f"/proc/{pid}/stat").read_text().rpartition(")")[2].split()
                ticks += sum(map(int, fields[11:15]))
        return ticks / os.sysconf("SC_CLK_TCK")

    def measure_memory(self) -> int:
        """The most that its processes had, in MB."""
        total = 0
        for pid in self.list_processes():
            with contextlib.suppress(OSError, AttributeError):
                status = Path(f"/proc/{pid}/status").read_text()
                total += int(re.search(r"VmHWM:\s+(\d+)", status)[1])  # type: ignore[index]
        return total // 1024

    def end(self, number: int = signal.SIGTERM) -> int:
        self.process.send_signal(number)
        return self.wait()

    def wait(self) -> int:
        assert self.process.stderr
        status = self.process.wait(60)
        self.said += [line.decode() for line in self.process.stderr]
        return status


# A process that has read all modules, and forks a desk for each line that it gets: hundreds of starts take no time.
STARTER = """
import os, signal, sys
from wdp import cli
import wdp.desk.serving
signal.signal(signal.SIGCHLD, signal.SIG_IGN)
for line in sys.stdin:
    where, port, log = line.split()
    pid = os.fork()
    if not pid:
        signal.signal(signal.SIGCHLD, signal.SIG_DFL)
        os.setsid()
        os.dup2(os.open(os.devnull, os.O_RDONLY), 0)
        os.dup2(os.open(log, os.O_WRONLY | os.O_CREAT | os.O_TRUNC, 0o600), 2)
        os._exit(cli.main(["desk", "serve", where, "--port", port, "--readers", "1"]))
    print(pid, flush=True)
"""


class Forked:
    """A desk of the process that forks them."""

    def __init__(self, pid: int, log: Path) -> None:
        self.pid = pid
        while not log.exists() or "http" not in log.read_text():
            if not self.is_there:
                raise SystemExit(f"the desk doesn't start: {log.read_text()}")
            time.sleep(0.01)
        self.said = log.read_text().splitlines()

    @property
    def is_there(self) -> bool:
        return Path(f"/proc/{self.pid}").exists()

    def find_filter(self) -> int:
        children = Path(f"/proc/{self.pid}/task/{self.pid}/children").read_text().split()
        names = {int(pid): Path(f"/proc/{pid}/cmdline").read_bytes() for pid in children}
        return next(pid for pid, name in names.items() if name.endswith(b"/journal\0"))

    def wait(self) -> None:
        while self.is_there:
            time.sleep(0.005)


class Starter:
    """Starts desks that are to be killed."""

    def __init__(self, **environment: str) -> None:
        self.process = subprocess.Popen(
            [sys.executable, "-c", STARTER],
            env={**ENVIRONMENT, **environment},
            text=True,
            stdin=subprocess.PIPE,
            stdout=subprocess.PIPE,
        )

    def start(self, desk: DeskFolder, port: int) -> Forked:
        assert self.process.stdin and self.process.stdout
        log = desk.beside / "log"
        log.unlink(missing_ok=True)
        self.process.stdin.write(f"{desk.where} {port} {log}\n")
        self.process.stdin.flush()
        return Forked(int(self.process.stdout.readline()), log)

    def end(self) -> None:
        self.process.communicate()
