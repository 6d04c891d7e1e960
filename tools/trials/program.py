"""The programs of these sources: those that were built here, or those that come with the tree.

A crate with src/main.rt is a program, unless it holds tests alone. The program of the crate `wdp_solve` is `wdp-solve`.
"""

from __future__ import annotations

import gzip
import hashlib
import os
import subprocess
from pathlib import Path

ROOT = os.path.dirname(os.path.dirname(os.path.dirname(os.path.realpath(__file__))))


def list_programs() -> list[str]:
    """Return the name of each program, in the order of their bytes."""
    mains = Path(ROOT, "crates").glob("*/src/main.rt")
    crates = sorted(path.parent.parent.name for path in mains)
    return [crate.replace("_", "-") for crate in crates if not crate.endswith("_tests")]


def built(name: str = "wdp") -> str:
    """Return the path of the program that the toolchain builds here, whether it is there or not."""
    crate = name.replace("-", "_")
    return os.path.join(ROOT, "crates", crate, "out", crate)


def read_record(what: str) -> str | None:
    """Return what the record of the programs that come with the tree says of: `sources`, `program NAME`, `toolchain`."""
    record = Path(ROOT, "prebuilt", "record")
    lines = record.read_text().splitlines() if record.exists() else []
    return next((line[len(what) + 1 :] for line in lines if line.startswith(what + " ")), None)


def sum_of(path: str) -> str:
    """Return the SHA-256 of a file, or the empty text if there is no such file."""
    return hashlib.sha256(Path(path).read_bytes()).hexdigest() if os.path.isfile(path) else ""


def sources() -> str:
    command = os.path.join(ROOT, "tools", "program_sources")
    return subprocess.run([command], capture_output=True, text=True, check=True).stdout.strip()


def is_built(name: str = "wdp") -> bool:
    """Return whether the program that was built here is of these sources.

    Its stamp names both sums, since `rt run` puts another program there.
    """
    program = built(name)
    stamp = Path(program + ".sources")
    return (
        stamp.exists()
        and os.path.exists(program)
        and stamp.read_text().split() == [sources(), sum_of(program)]
    )


def are_built() -> bool:
    return all(is_built(name) for name in list_programs())


def unpack(folder: str, name: str = "wdp") -> str:
    """Unpack the program that comes with the tree into a folder."""
    program = Path(folder, name)
    program.write_bytes(gzip.decompress(Path(ROOT, "prebuilt", f"{name}.gz").read_bytes()))
    program.chmod(0o755)
    return str(program)


def of_these_sources(folder: str, name: str = "wdp") -> str:
    """Return the program of these sources, unpacked into a folder if none was built here, or nothing if there is none."""
    if is_built(name):
        return built(name)
    if not Path(ROOT, "prebuilt", f"{name}.gz").exists():
        return ""
    program = unpack(folder, name)
    is_recorded = [read_record("sources"), read_record(f"program {name}")] == [
        sources(),
        sum_of(program),
    ]
    return program if is_recorded else ""
