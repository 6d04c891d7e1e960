#!/usr/bin/python3
"""A disk that loses what wasn't flushed when its power is cut: the file `disk` of a folder that it mounts, for a loop device.

usage: device.py FOLDER IMAGE SEED

IMAGE is what is on the disk for good. What is written since the last flush is in the disk's own memory. Once something is written to
the file `cut` of the folder, the power goes before one of the next requests: of the sectors of 4,096 bytes in that memory some get to
the disk, whatever their order, and the others don't. From then on the disk does nothing any more.
"""
import errno
import os
import random
import stat
import sys
from collections.abc import Iterator
from pathlib import Path

import llfuse

SECTOR = 4_096  # bytes that get to the disk as a whole
MOST_REQUESTS = 24
DISK, CUT = llfuse.ROOT_INODE + 1, llfuse.ROOT_INODE + 2
NAMES = {b"disk": DISK, b"cut": CUT}


class Disk(llfuse.Operations):
    def __init__(self, image: Path, seed: int) -> None:
        super().__init__()
        self.image = os.open(image, os.O_RDWR)
        self.size = os.fstat(self.image).st_size
        self.sectors: dict[int, bytes] = {}
        self.is_on = True
        self.requests_left: int | None = None  # until the power goes
        self.draw = random.Random(seed)

    def check_power(self) -> None:
        if self.requests_left is not None:
            self.requests_left -= 1
            if self.is_on and self.requests_left < 0:
                self.cut()
        if not self.is_on:
            raise llfuse.FUSEError(errno.EIO)

    def read_sector(self, number: int) -> bytes:
        return self.sectors.get(number) or os.pread(self.image, SECTOR, number * SECTOR)

    def flush_sectors(self) -> None:
        for number, data in self.sectors.items():
            os.pwrite(self.image, data, number * SECTOR)
        self.sectors.clear()

    def cut(self) -> None:
        kept = {number: data for number, data in self.sectors.items() if self.draw.random() < 0.5}
        print(f"{len(self.sectors)} sectors weren't flushed, {len(kept)} of them are kept", flush=True)
        self.sectors = kept
        self.flush_sectors()
        self.is_on = False

    # what the kernel asks

    def getattr(self, inode: int, ctx: object = None) -> llfuse.EntryAttributes:
        entry = llfuse.EntryAttributes()
        entry.st_ino = inode
        entry.st_mode = stat.S_IFDIR | 0o700 if inode == llfuse.ROOT_INODE else stat.S_IFREG | 0o600
        entry.st_size = self.size if inode == DISK else 0
        entry.st_nlink = 1
        return entry

    def setattr(self, inode: int, *_: object) -> llfuse.EntryAttributes:
        return self.getattr(inode)

    def lookup(self, parent: int, name: bytes, ctx: object = None) -> llfuse.EntryAttributes:
        if name not in NAMES:
            raise llfuse.FUSEError(errno.ENOENT)
        return self.getattr(NAMES[name])

    def opendir(self, inode: int, ctx: object = None) -> int:
        return inode

    def readdir(self, file: int, offset: int) -> Iterator[tuple[bytes, llfuse.EntryAttributes, int]]:
        for place, (name, inode) in enumerate(list(NAMES.items())[offset:], offset + 1):
            yield name, self.getattr(inode), place

    def releasedir(self, file: int) -> None:
        ...

    def open(self, inode: int, flags: int, ctx: object = None) -> int:
        return inode

    def read(self, file: int, offset: int, size: int) -> bytes:
        self.check_power()
        first, last = offset // SECTOR, -(-(offset + size) // SECTOR)
        data = b"".join(self.read_sector(number) for number in range(first, last))
        return data[offset - first * SECTOR :][:size]

    def write(self, file: int, offset: int, data: bytes) -> int:
        if file == CUT:
            self.requests_left = self.draw.randrange(MOST_REQUESTS)
            return len(data)
        self.check_power()
        at = 0
        while at < len(data):
            number, begin = divmod(offset + at, SECTOR)
            size = min(SECTOR - begin, len(data) - at)
            sector = bytearray(self.read_sector(number))
            sector[begin : begin + size] = data[at : at + size]
            self.sectors[number] = bytes(sector)
            at += size
        return len(data)

    def fsync(self, file: int, datasync: bool) -> None:
        self.check_power()
        self.flush_sectors()

    def flush(self, file: int) -> None:
        ...

    def release(self, file: int) -> None:
        ...


def main() -> int:
    folder, image, seed = sys.argv[1:]
    llfuse.init(Disk(Path(image), int(seed)), folder, {"fsname=disk", "default_permissions"})
    print("mounted", flush=True)
    try:
        llfuse.main(workers=1)
    finally:
        llfuse.close(unmount=True)
    return 0


if __name__ == "__main__":
    sys.exit(main())
