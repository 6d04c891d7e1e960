"""How many steps the memory of this machine has room for at once."""
from pathlib import Path

_MEGABYTE = 1_000_000
# of a step that certifies: Python with its libraries, and each column of the program; a solver
# takes less
_BYTES_OF_STEP = 110 * _MEGABYTE
_BYTES_OF_COLUMN = 2_500
_MEMINFO = Path("/proc/meminfo")
_CONTROL_GROUP = Path("/sys/fs/cgroup")


def estimate_step(columns: int) -> int:
    """The bytes that a step for a program with so many columns takes at most."""
    return _BYTES_OF_STEP + _BYTES_OF_COLUMN * columns


def measure_free(meminfo: Path = _MEMINFO, control_group: Path = _CONTROL_GROUP) -> int | None:
    """The bytes that this machine has left, and the control group of this process; None where
    neither is known.
    """
    counts = [_measure_machine(meminfo), _measure_control_group(control_group)]
    return min((count for count in counts if count is not None), default=None)


def _measure_machine(meminfo: Path) -> int | None:
    """The bytes that this machine has left, by the file in which the kernel says so."""
    try:
        lines = meminfo.read_text().splitlines()
        line = next(line for line in lines if line.startswith("MemAvailable:"))
        return 1024 * int(line.split()[1])
    except (OSError, ValueError, IndexError, StopIteration):
        return None


def _measure_control_group(control_group: Path) -> int | None:
    """The bytes that a limit of a control group leaves, apart from files that it has in memory."""
    try:
        limit = int((control_group / "memory.max").read_text())
        used = int((control_group / "memory.current").read_text())
        lines = (control_group / "memory.stat").read_text().splitlines()
        fields = dict(line.split() for line in lines)
        return max(0, limit - used + int(fields["inactive_file"]))
    except (OSError, ValueError, KeyError):
        return None


def limit_jobs(jobs: int, columns: int, free: int | None) -> int:
    """How many of these jobs, each for a program with so many columns, there are free bytes for,
    and one in any case.

    >>> [limit_jobs(4, 100_000, free) for free in (1_000_000_000, 0, None)]
    [2, 1, 4]
    """
    if free is None:
        return jobs
    return max(1, min(jobs, free // estimate_step(columns)))
