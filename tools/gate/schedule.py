"""The order in which the gate's tasks are run, and on how many processors each."""

from __future__ import annotations

import contextlib
import os
import threading
import time
from collections.abc import Callable
from concurrent.futures import FIRST_COMPLETED, Future, ThreadPoolExecutor, wait
from pathlib import Path
from typing import Any, NamedTuple

# A crate, and what is done with it: proof, tests or edits.
Key = tuple[str, str]
# What a task waits for, its work in lines, its memory, and a call that gets what was given and how many jobs it may use.
Task = tuple[list[Key], int, float, Callable[[dict[Key, Any], int], Any]]

# A check splits its work well among so many processes.
MOST_JOBS = 4
# What each further process of a check takes of the memory of the first.
MEMORY_OF_A_JOB = 0.6
# How many seconds a task takes for each of its lines, where none are measured.
SECONDS_OF_A_LINE = 0.06
# The priorities: of the proof with the longest chain, of other proofs, and of tests and edits.
NICE = {"longest": 0, "proofs": 4, "fillers": 10}


def rows() -> list[list[str]]:
    """What is noted of each task: its crate, what is done, and numbers."""
    lines = Path(__file__).with_name("seconds").read_text(encoding="utf-8").splitlines()
    return [line.split() for line in lines if line.strip() and not line.startswith("#")]


def read_seconds() -> dict[Key, float]:
    """The processor time that each task takes with one process, in seconds, as it was measured."""
    return {(crate, kind): float(seconds) for crate, kind, seconds, *_ in rows()}


def read_processes() -> dict[Key, int]:
    """With how many processes each proof is begun where there are only proofs, on four processors."""
    return {(crate, kind): int(many[0]) for crate, kind, _, *many in rows() if many}


def is_filler(key: Key) -> bool:
    """Whether no proof of a crate waits for a task."""
    return key[1] in ("edits", "tests")


def step_back(niceness: int) -> None:
    """Has what this thread starts wait for what others start: a priority is a thread's, and its children's. (A run that was
    started at a lower one mayn't raise it.)"""
    thread = threading.get_native_id()
    os.setpriority(os.PRIO_PROCESS, thread, max(niceness, os.getpriority(os.PRIO_PROCESS, thread)))


class AtWork(NamedTuple):
    key: Key
    jobs: int
    memory: float


class Lanes:
    """Runs tasks side by side. Proofs of crates come first, those with the longest chain behind them before others; tests and
    edits, which none waits for, run beside them at a low priority, on what they leave idle.

    Each further process of a check reads the crate anew (`bid_book` takes 55 s of processor time with one, 103 with four). So a task
    has one, and more where processors would be idle. And more tasks than processors take each other's caches: eight checks on four
    processors take a fifth more of processor time than four. So one is begun where a processor is idle; but the proof with the
    longest chain behind it, which all waits for in the end, at once. Where there are only proofs, each has as many
    processes as were chosen, on four processors or more. `took` are the seconds of the tasks that were measured.
    """

    def __init__(
        self,
        tasks: dict[Key, Task],
        processors: int,
        memory: float,
        took: dict[Key, float] | None = None,
        chosen: dict[Key, int] | None = None,
    ) -> None:
        self.tasks = tasks
        self.processors = processors
        self.memory = memory
        # how much work is behind each task: its own, and that of the longest chain of tasks that wait for it
        self.behind = dict.fromkeys(tasks, 0.0)
        for key in reversed([*tasks]):
            waits, lines, *_ = tasks[key]
            self.behind[key] += lines and (took or {}).get(key, lines * SECONDS_OF_A_LINE)
            for it in waits:
                self.behind[it] = max(self.behind[it], self.behind[key])
        # (tests take longer alone than edits, which are tried in several checks)
        self.left = sorted(tasks, key=lambda key: (key[1] == "edits", -self.behind[key]))
        # whether tests or edits fill the processors
        self.is_filled = any(is_filler(key) and task[1] for key, task in tasks.items())
        # (the processes are chosen for four processors; on fewer each further one takes from others)
        self.chosen = {} if self.is_filled or processors < MOST_JOBS else chosen or {}
        self.running: dict[Future[Any], AtWork] = {}
        self.given: dict[Key, Any] = {}

    def at_work(self) -> list[AtWork]:
        # (other threads ask, too; what has no work takes no processor)
        return [it for it in [*self.running.values()] if it.jobs]

    def share(self) -> int:
        """How many processors a task at work may use from now on: an equal part."""
        return max(min(MOST_JOBS, self.processors // max(len(self.at_work()), 1)), 1)

    def rank(self, key: Key) -> int:
        """How many proofs at work have as long a chain behind them."""
        running = (it.key for it in self.running.values())
        return sum(self.behind[it] >= self.behind[key] for it in running if not is_filler(it))

    def needed(self, key: Key, jobs: int) -> float:
        return self.tasks[key][2] * (1 + MEMORY_OF_A_JOB * (jobs - 1))

    def jobs_of(self, key: Key, most: int) -> int:
        """With how many jobs a task is begun: so many that fit into the memory that is left, or none."""
        # (each check of edits asks anew how many processors it may use)
        most = (
            1 if key[1] == "edits" else min(MOST_JOBS, self.processors, self.chosen.get(key, most))
        )
        left = self.memory - sum(it.memory for it in self.running.values())
        fitting = (jobs for jobs in range(most, 0, -1) if self.needed(key, jobs) <= left)
        return next(fitting, 0 if self.running else 1)

    def start(self, pool: ThreadPoolExecutor, key: Key, jobs: int) -> None:
        _, work, _, call = self.tasks[key]

        def run() -> Any:
            started = time.time()
            result = call(self.given, jobs)
            if work:
                took = f"took {time.time() - started:.0f} s, begun with {jobs} jobs"
                print(f"{key[0]}: {key[1]} {took}", flush=True)
            return result

        self.left.remove(key)
        at_work = AtWork(key, jobs, self.needed(key, jobs)) if work else AtWork(key, 0, 0)
        self.running[pool.submit(run)] = at_work

    def start_all(self, pool_of: Callable[[Key], ThreadPoolExecutor], fills: bool) -> None:
        """Starts what is ready, as many tasks as there are processors. (`pool_of(key)`: which threads run a task.)"""
        ready = [
            it
            for it in self.left
            if is_filler(it) == fills and self.given.keys() >= {*self.tasks[it][0]}
        ]
        for key in [key for key in ready if not self.tasks[key][1]]:
            ready.remove(key)
            self.start(pool_of(key), key, 1)
        while ready:
            at_work = self.at_work()
            key = ready.pop(0)
            places = self.processors - sum(is_filler(it.key) == fills for it in at_work)
            idle = max(self.processors - sum(it.jobs for it in at_work), 0)
            if places <= 0 or not idle and self.is_filled and (fills or self.rank(key)):
                return
            if jobs := self.jobs_of(key, max(-(-idle // min(len(ready) + 1, places)), 1)):
                self.start(pool_of(key), key, jobs)

    def run(self) -> dict[Key, Any]:
        with contextlib.ExitStack() as ended:

            def pool(niceness: int) -> ThreadPoolExecutor:
                threads = ThreadPoolExecutor(
                    len(self.tasks), initializer=step_back, initargs=(niceness,)
                )
                return ended.enter_context(threads)

            pools = {kind: pool(niceness) for kind, niceness in NICE.items()}
            while self.left or self.running:
                self.start_all(lambda key: pools["proofs" if self.rank(key) else "longest"], False)
                self.start_all(lambda _: pools["fillers"], True)
                if not self.running:
                    raise ValueError(f"tasks that wait for one another: {self.left}")
                for it in wait(self.running, return_when=FIRST_COMPLETED).done:
                    self.given[self.running.pop(it).key] = it.result()
        return self.given
