"""Machines whose disk fails: syncs are recorded, delayed or fail, the disk is full, or it loses what wasn't flushed."""
import contextlib
import os
import random
import subprocess
import sys
import time
from collections.abc import Iterator
from pathlib import Path

from desk_trials.desks import ROOT, find_filter

HERE = Path(__file__).resolve().parent


def make_library(folder: Path) -> Path:
    """The library of machine.c."""
    library = folder / "machine.so"
    subprocess.run(["cc", "-shared", "-fPIC", "-O1", "-o", library, ROOT / "tools/trials/machine.c", "-ldl"], check=True)
    return library


class FilterMachine:
    """A machine for wdp-desk that records how many bytes of the journal are synced, delays each sync, and can make syncs fail."""

    def __init__(self, folder: Path, delay: int) -> None:
        self.synced = folder / "synced"
        self.fails = folder / "fails"
        self.program = folder / "wdp-desk"
        words = {
            "LD_PRELOAD": make_library(folder),
            "SYNCED": self.synced,
            "SYNC_FAILS": self.fails,
            "SYNC_DELAY": delay,
        }
        lines = ["#!/bin/sh", *(f"export {name}='{value}'" for name, value in words.items())]
        self.program.write_text("\n".join([*lines, f"exec '{find_filter()}' \"$@\"", ""]))
        self.program.chmod(0o700)

    def count_synced(self) -> int:
        """How many bytes of the journal are on the disk. They are counted before wdp-desk learns that its sync has ended."""
        return int(self.synced.read_text() or 0)

    def tear(self, draw: random.Random, journal: Path) -> bool:
        """Does to a journal what a power cut does: each sector after the synced bytes is kept or emptied, and the end may be cut off.
        Whether there were such bytes."""
        data = bytearray(journal.read_bytes())
        synced = self.count_synced()
        if len(data) <= synced:
            return False
        keep = draw.randint(synced, len(data))
        place = synced
        while place < keep:
            size = min(512 - place % 512, keep - place)
            if draw.random() < 0.5:
                data[place : place + size] = bytes(size)
            place += size
        journal.write_bytes(data[:keep])
        return True


@contextlib.contextmanager
def mount_small(folder: Path, size: str) -> Iterator[Path]:
    """A small disk."""
    disk = folder / "disk"
    disk.mkdir()
    subprocess.run(["mount", "-t", "tmpfs", "-o", f"size={size}", "none", disk], check=True)
    try:
        yield disk
    finally:
        subprocess.run(["umount", disk], check=True)


class PoweredDisk:
    """An ext4 on a loop device over a disk that loses what wasn't flushed (device.py)."""

    def __init__(self, folder: Path, megabytes: int) -> None:
        self.image = folder / "image"
        self.device = folder / "device"
        self.where = folder / "mounted"
        self.device.mkdir()
        self.where.mkdir()
        with open(self.image, "wb") as file:
            file.truncate(megabytes * 2**20)
        subprocess.run(["mkfs.ext4", "-q", "-b", "4096", "-F", self.image], check=True)

    @contextlib.contextmanager
    def power(self, seed: int) -> Iterator[Path]:
        """The disk at work."""
        command = [sys.executable, HERE / "device.py", self.device, self.image, str(seed)]
        self.process = subprocess.Popen(command, stdout=subprocess.PIPE, text=True)
        assert self.process.stdout
        self.process.stdout.readline()
        loop = ""
        try:
            losetup = ["losetup", "-f", "--show", self.device / "disk"]
            loop = subprocess.run(losetup, check=True, capture_output=True, text=True).stdout.strip()
            subprocess.run(["mount", loop, self.where], check=True)
            try:
                yield self.where
            finally:
                unmount(self.where)
        finally:
            if loop:
                subprocess.run(["losetup", "-d", loop], check=True)
            unmount(self.device)
            self.process.communicate(timeout=60)

    def cut(self) -> tuple[int, int]:
        """Cuts the power, at one of the next requests; how many sectors weren't flushed, and how many of them were lost."""
        with open(self.device / "cut", "wb", buffering=0) as file:
            file.write(b"now")
        assert self.process.stdout
        words = self.process.stdout.readline().split()
        return int(words[0]), int(words[0]) - int(words[4])


def unmount(folder: Path) -> None:
    """(A process that was just killed may still hold a file.)"""
    for _ in range(200):
        if not subprocess.run(["umount", folder], capture_output=True).returncode:
            return
        time.sleep(0.05)
    raise SystemExit(f"{folder}: it can't be unmounted; {os.listdir(folder)}")
