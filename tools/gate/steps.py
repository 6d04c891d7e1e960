"""Steps side by side: each is a command that says last how many passed and failed, and is timed."""

from __future__ import annotations

import contextlib
import os
import re
import signal
import subprocess
import sys
import threading
import time
from concurrent.futures import ThreadPoolExecutor

Step = tuple[str, list[str]]
OWN_COUNTS = re.compile(rb"(\d+) passed, (\d+) failed")
PYTEST_COUNTS = re.compile(rb"(?:=+ )?((?:\d+ \w+(?:, )?)+) in [\d.]+s(?: \([\d:]+\))?(?: =+)?")


def counts_in(said: bytes) -> tuple[int, int] | None:
    """How many passed and failed, as the last line of a tool of this tree or of pytest says."""
    last = said.rstrip().rpartition(b"\n")[2]
    if own := OWN_COUNTS.fullmatch(last):
        return int(own[1]), int(own[2])
    if found := PYTEST_COUNTS.fullmatch(last):
        many = {kind: int(number) for number, kind in re.findall(rb"(\d+) (\w+)", found[1])}
        return many.get(b"passed", 0), sum(
            many.get(it, 0) for it in (b"failed", b"error", b"errors")
        )
    return None


class Steps:
    """Runs steps in a folder, and adds up what they count. A step without counts has failed, and so has one that ends with
    another status than 0 and counts no failure."""

    def __init__(self, folder: str) -> None:
        self.folder = folder
        self.printing = threading.Lock()
        self.started = time.time()
        self.came: dict[str, tuple[float, int, int]] = {}
        self.running: set[subprocess.Popen[bytes]] = set()
        self.is_stopped = False

    def run(
        self, name: str, words: list[str], niceness: int = 0, shows_at_once: bool = False
    ) -> bool:
        """Whether nothing failed. What a step prints is shown as it comes, or in one piece at its end. A step that is run again
        counts once."""
        started = time.time()
        said = []
        with self.printing:
            if self.is_stopped:
                return False
            # (a group of its own, so that all of it can be ended)
            run = subprocess.Popen(
                ["nice", "-n", str(niceness), *words],
                cwd=self.folder,
                stdin=subprocess.DEVNULL,
                stdout=subprocess.PIPE,
                stderr=subprocess.STDOUT,
                process_group=0,
            )
            self.running.add(run)
            if self.is_stopped:
                end(run)
        with run:
            assert run.stdout
            for line in run.stdout:
                said.append(line)
                if shows_at_once:
                    self.show(line)
        with self.printing:
            self.running.discard(run)
        counts = counts_in(b"".join(said))
        passed, failed = counts or (0, 0)
        if counts is None or run.returncode and not failed:
            failed += 1
            said.append(
                b"\nfailed: the step ended with status %d and counted no failure\n" % run.returncode
            )
        seconds = time.time() - started
        text = b"" if shows_at_once else b"".join(said)
        self.show(
            b"== %s:\n%s== %d s, %d passed, %d failed\n"
            % (name.encode(), text, seconds, passed, failed)
        )
        self.came[name] = seconds, passed, failed
        return not failed

    def refuse(self, name: str, why: str) -> None:
        """Counts what can't be run as a failure."""
        self.show(f"failed: {name}: {why}\n".encode())
        self.came[name] = 0, 0, 1

    def show(self, text: bytes) -> None:
        with self.printing:
            sys.stdout.buffer.write(text)
            sys.stdout.buffer.flush()

    def stop_on_signals(self) -> None:
        """Has a signal that ends this process end the steps with all that they started."""

        def stop(number: int, _: object) -> None:
            self.is_stopped = True
            for run in list(self.running):
                end(run)
            sys.exit(128 + number)

        for ends in (signal.SIGTERM, signal.SIGINT, signal.SIGHUP):
            signal.signal(ends, stop)

    def run_from(self, left: list[Step], side_by_side: int = 1, niceness: int = 0) -> list[Step]:
        """Runs steps from a list, from which others may take some too, until none is left, and returns those that failed."""

        def take(_: int) -> list[Step]:
            failed = []
            with contextlib.suppress(IndexError):
                while True:
                    step = left.pop(0)
                    if not self.run(*step, niceness):
                        failed.append(step)
            return failed

        with ThreadPoolExecutor(side_by_side) as pool:
            return sum(pool.map(take, range(side_by_side)), [])

    def sums(self) -> tuple[int, int]:
        """How many passed and failed in all."""
        return sum(it[1] for it in self.came.values()), sum(it[2] for it in self.came.values())

    def report(self) -> int:
        """Prints the time of each step and the sums, and returns the exit status."""
        for name, (seconds, *counts) in sorted(self.came.items(), key=lambda it: -it[1][0]):
            print(f"{seconds:5.0f} s  {counts[0]:6} passed {counts[1]:4} failed  {name}")
        print(
            f"{time.time() - self.started:5.0f} s  in all, on {len(os.sched_getaffinity(0))} processors"
        )
        passed, failed = self.sums()
        print(f"{passed} passed, {failed} failed", flush=True)
        return int(failed > 0)


def end(run: subprocess.Popen[bytes]) -> None:
    with contextlib.suppress(ProcessLookupError):
        os.killpg(run.pid, signal.SIGKILL)
