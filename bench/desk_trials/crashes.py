"""Trials in which a desk is killed, its disk fails or is full, its power is cut, or its clock is set."""
import argparse
import asyncio
import contextlib
import os
import random
import signal
import subprocess
import time
from collections import Counter
from collections.abc import Awaitable, Callable
from pathlib import Path

from desk_trials.callers import Callers, Load, open_client
from desk_trials.desks import DeskFolder, Forked, Service, Starter, make_form, make_rules
from desk_trials.machines import FilterMachine, PoweredDisk, make_library, mount_small
from desk_trials.settling import settle
from trials.desk_judge import Judge, read_entries

CALLERS_OF_A_BIDDER = 2
# ends a desk in the way of a trial; what is counted
End = Callable[[Forked], Awaitable[list[str]]]


def kill(pid: int) -> None:
    with contextlib.suppress(ProcessLookupError):
        os.kill(pid, signal.SIGKILL)


async def wait_until_dead(pid: int) -> None:
    """(The system removes a process without a parent only after a while.)"""
    with contextlib.suppress(FileNotFoundError):
        while Path(f"/proc/{pid}/stat").read_text().rpartition(")")[2].split()[0] not in "ZX":
            await asyncio.sleep(0.002)


async def wait_in_thread(service: Forked) -> None:
    await asyncio.get_running_loop().run_in_executor(None, service.wait)


class Rounds:
    """A desk that is started under load again and again, and ended each time."""

    def __init__(self, options: argparse.Namespace, desk: DeskFolder, starter: Starter) -> None:
        self.options = options
        self.desk = desk
        self.starter = starter
        self.draw = random.Random(options.seed)
        self.judge = Judge()
        self.counted = Counter[str]()
        self.load: Load | None = None
        self.last = time.monotonic() + options.seconds

    def begin_load(self) -> Load:
        rows = self.draw.sample(self.desk.keys, min(self.options.sessions, len(self.desk.keys)))
        url = f"http://127.0.0.1:{self.options.port}"
        return Load(url, rows, self.judge, bids=self.options.bids, seed=self.options.seed)

    async def make_round(self, end: End) -> None:
        """One start, some work, and its end."""
        self.load = self.load or self.begin_load()
        loop = asyncio.get_running_loop()
        service = await loop.run_in_executor(None, self.starter.start, self.desk, self.options.port)
        self.counted["starts"] += 1
        self.counted["starts that cut a torn end off"] += any("torn end" in line for line in service.said)
        self.load.is_up.set()
        await self.load.wait_for_receipts()
        await asyncio.sleep(self.draw.random() ** 2 * 0.4)
        self.counted.update(await end(service))
        self.pause()

    def pause(self) -> None:
        """No caller makes a new call until the next start."""
        assert self.load
        self.load.is_up.clear()

    async def run(self, end: End) -> None:
        try:
            for _ in range(self.options.rounds):
                if time.monotonic() > self.last:
                    break
                await self.make_round(end)
        finally:
            await self.stop()

    async def stop(self) -> None:
        if self.load:
            await self.load.stop()
            print(f"{dict(self.counted)}; {dict(self.load.callers.answers)}")
        self.starter.end()


def run_kills(options: argparse.Namespace, folder: Path) -> bool:
    machine = FilterMachine(folder, delay=options.delay)
    desk = DeskFolder(folder, make_rules(max(1, options.sessions // CALLERS_OF_A_BIDDER), CALLERS_OF_A_BIDDER))
    rounds = Rounds(options, desk, Starter(WDP_DESK=str(machine.program)))

    async def end(service: Forked) -> list[str]:
        filter_ = service.find_filter()
        kind = rounds.draw.randrange(3)
        if kind != 0:
            kill(service.pid)
        if kind != 1:
            kill(filter_)
        await asyncio.sleep(0.05)
        rounds.pause()
        await wait_in_thread(service)
        await wait_until_dead(filter_)
        counted = [("kills of the filter", "kills of the service", "kills of both")[kind]]
        if rounds.draw.random() < 0.8 and machine.tear(rounds.draw, desk.journal):
            counted.append("torn ends")
        return counted

    asyncio.run(rounds.run(end))
    return settle(desk, rounds.judge)


def run_sync(options: argparse.Namespace, folder: Path) -> bool:
    machine = FilterMachine(folder, delay=options.delay)
    desk = DeskFolder(folder, make_rules(max(1, options.sessions // CALLERS_OF_A_BIDDER), CALLERS_OF_A_BIDDER))
    rounds = Rounds(options, desk, Starter(WDP_DESK=str(machine.program)))

    async def end(service: Forked) -> list[str]:
        machine.fails.touch()
        await asyncio.sleep(0.05)
        rounds.pause()
        await wait_in_thread(service)
        machine.fails.unlink()
        # (pages that couldn't be written are lost, though they could be read until now)
        return ["failed syncs", *["torn ends"] * machine.tear(rounds.draw, desk.journal)]

    asyncio.run(rounds.run(end))
    return settle(desk, rounds.judge)


def run_power(options: argparse.Namespace, folder: Path) -> bool:
    disk = PoweredDisk(folder, megabytes=64)
    with disk.power(0) as where:
        desk = DeskFolder(
            where, make_rules(max(1, options.sessions // CALLERS_OF_A_BIDDER), CALLERS_OF_A_BIDDER), beside=folder
        )
    starter = Starter()
    rounds = Rounds(options, desk, starter)

    async def end(service: Forked) -> list[str]:
        filter_ = service.find_filter()
        sectors, lost = await asyncio.get_running_loop().run_in_executor(None, disk.cut)
        rounds.counted["sectors that weren't flushed"] += sectors
        rounds.counted["of these lost"] += lost
        kill(filter_)
        kill(service.pid)
        await wait_in_thread(service)
        await wait_until_dead(filter_)
        return ["power cuts"]

    async def cut_often() -> None:
        try:
            for number in range(options.rounds):
                if time.monotonic() > rounds.last:
                    break
                with disk.power(options.seed * 1_000 + number):
                    await rounds.make_round(end)
        finally:
            await rounds.stop()

    asyncio.run(cut_often())
    with disk.power(1):
        return settle(desk, rounds.judge)


def run_disk(options: argparse.Namespace, folder: Path) -> bool:
    with mount_small(folder, "4m") as disk:
        desk = DeskFolder(disk, make_rules(40, 1), beside=folder)
        judge = Judge()
        service = Service(desk, options.port)
        url = f"http://127.0.0.1:{options.port}"
        draw = random.Random(options.seed)

        async def call_all(count: int, bids: int) -> Counter[str]:
            callers = Callers()
            async with open_client() as client:
                for _ in range(count):
                    forms = [(name, key, make_form(draw, name, bids)) for name, _, key in draw.sample(desk.keys, 10)]
                    for name, _, form in forms:
                        judge.send(name, form)
                    calls = (callers.put(client, url, key, form) for _, key, form in forms)
                    for members in await asyncio.gather(*calls):
                        judge.take(members)
            return callers.answers

        async def withdraw_all() -> Counter[str]:
            callers = Callers()
            async with open_client() as client:
                for _, _, key in desk.keys[:20]:
                    judge.take(await callers.withdraw(client, url, key))
            return callers.answers

        is_right = True
        print("until it is full:", dict(asyncio.run(call_all(30, 800))))
        withdrawn = asyncio.run(withdraw_all())
        is_right = is_right and withdrawn["withdrawn"] > 10
        print("withdrawals on a full disk:", dict(withdrawn))
        then = asyncio.run(call_all(2, 800))
        is_right = is_right and then == {"disk full": 20}
        print("forms then:", dict(then))
        service.end(signal.SIGKILL)
        subprocess.run(["mount", "-o", "remount,size=16m", disk], check=True)
        service = Service(desk, options.port)
        again = asyncio.run(call_all(4, 800))
        is_right = is_right and again == {"accepted": 40}
        print("with room again, after a kill:", dict(again))
        filler = disk / "filler"
        with contextlib.suppress(OSError), open(filler, "wb") as file:
            while True:
                file.write(bytes(65_536))
        full = asyncio.run(call_all(1, 800))
        print("forms when it is full again:", dict(full))
        desk.desk("close")
        print("the close on a full disk: done")
        filler.unlink()
        service.end()
        return settle(desk, judge) and is_right and full["disk full"] > 0


def run_clock(options: argparse.Namespace, folder: Path) -> bool:
    """The clock is set by so many seconds under load; the desk closes at 2096, and in the last trial in a minute."""
    library = make_library(folder)
    clock = folder / "clock"
    is_right = True
    for by in (0.4, -0.4, 3.0, -3.0, 86_400.0, -86_400.0, 3_000_000_000.0):
        clock.write_text("0")
        home = folder / f"by{by}"
        home.mkdir()
        desk = DeskFolder(home, make_rules(4, 2))
        judge = Judge()

        async def step() -> tuple[Counter[str], int, int | None]:
            service = Service(desk, options.port, LD_PRELOAD=str(library), CLOCK=str(clock))
            url = f"http://127.0.0.1:{options.port}"
            load = Load(url, desk.keys, judge, bids=(1, 3), seed=options.seed)
            load.is_up.set()
            await load.wait_for_receipts()
            await asyncio.sleep(0.5)
            # (the library reads the file whenever the clock is read, so it has to be complete at all times)
            clock.with_suffix(".new").write_text(str(by))
            os.replace(clock.with_suffix(".new"), clock)
            set_at = time.time()
            last = time.monotonic() + (60 if abs(by) > 1 else 2)
            while (status := service.process.poll()) is None and time.monotonic() < last:
                await asyncio.sleep(0.1)
            await load.stop()
            if status is None:
                service.end()
            return load.callers.answers, int(set_at * 1_000_000), status

        answers, set_at, status = asyncio.run(step())
        entries = list(read_entries(desk.journal.read_bytes()))
        stops = abs(by) > 1
        right = status == (4 if stops else None) and not any(entry.answer == b"closed" for entry in entries)
        for name in {entry.bidder for entry in entries}:
            times = [entry.time for entry in entries if entry.bidder == name]
            right = right and times == sorted(times)
        if stops:
            last = max(entry.time for entry in entries)
            right = right and last < set_at + 1_000_000 and "stopped" in os.listdir(desk.where)
        clock.write_text("0")
        again = Service(desk, options.port, *["--clock-is-right"] * stops)
        again.end()
        is_right = settle(desk, judge) and right and is_right
        print(f"the clock was set by {by:,} s: status {status}, {dict(answers)}: {'right' if right else 'WRONG'}")
    return is_right
