"""What the benchmarks share: the program, runs of commands, and the machine's load."""

from __future__ import annotations

import os
import subprocess
import time
from pathlib import Path

HERE = os.path.dirname(os.path.realpath(__file__))
ROOT = os.path.dirname(HERE)
WDP = os.path.join(ROOT, "wdp")


def program(given: str | None) -> str:
    """The program to be measured, by default the one that ./wdp runs, without the script round it."""
    if given:
        return os.path.abspath(given)
    subprocess.run([WDP, "--version"], stdout=subprocess.DEVNULL, check=True)
    record = Path(ROOT, "prebuilt", "record").read_text()
    folder = Path(ROOT, "prebuilt", "out", record.partition("program wdp ")[2].partition("\n")[0])
    return str(next((path for path in (folder / "built", folder / "wdp") if path.exists()), WDP))


def make_input(*words: object) -> bytes:
    command = [os.path.join(HERE, "make_input"), *map(str, words)]
    return subprocess.run(command, stdout=subprocess.PIPE, check=True).stdout


def run(
    words: list[str], source: str, target: str, folder: str | None = None
) -> tuple[float, float, int]:
    """Seconds that passed, seconds of all processors together, and the exit status of one run."""
    with open(source, "rb") as text, open(target, "wb") as out:
        start = time.perf_counter()
        child = subprocess.Popen(
            words, stdin=text, stdout=out, stderr=subprocess.DEVNULL, cwd=folder
        )
        _, status, used = os.wait4(child.pid, 0)
        seconds = time.perf_counter() - start
    child.returncode = os.waitstatus_to_exitcode(status)
    return seconds, used.ru_utime + used.ru_stime, child.returncode


def best(rounds: int, words: list[str], source: str, target: str) -> tuple[float, float]:
    """The least seconds of some runs that end with status 0, and the least seconds of all processors."""
    runs = [run(words, source, target) for _ in range(rounds)]
    if any(status for *_, status in runs):
        raise SystemExit(f"{' '.join(words)}: it didn't end with status 0")
    return min(seconds for seconds, *_ in runs), min(used for _, used, _ in runs)


def peak_memory(words: list[str], folder: str, text: str, out: str) -> int:
    """Peak memory in bytes, by GNU time: a child counts the memory of the process that starts it, and Python's is larger than a
    small command's."""
    note = os.path.join(folder, "memory")
    run(["/usr/bin/time", "-q", "-f", "%M", "-o", note, *words], text, out, folder)
    return int(Path(note).read_text()) * 1024


def load() -> str:
    return f"{os.cpu_count()} processors, load {os.getloadavg()[0]:.1f}"
