"""./wdp and tools/prebuild on copies of what they read, whose program as it was built was changed. No toolchain is used: the
programs are scripts that stand in for the built one."""

from __future__ import annotations

import gzip
import os
import shutil
import subprocess
from dataclasses import dataclass
from hashlib import sha256
from pathlib import Path

import pytest
from trials.program import ROOT

NOT_RECORDED = b"wdp: prebuilt/wdp.gz isn't the program that prebuilt/record names: it isn't run; ./build makes one\n"
NOT_HELD = b"wdp: the program in prebuilt/ doesn't run on this machine, or no folder can hold it; ./build makes one\n"
PACKED, RENEWED, BUILT = (b'#!/bin/sh\necho %s "$@"\n' % it for it in (b"packed", b"new", b"built"))
PATH = {"PATH": "/usr/bin:/bin"}


@dataclass
class Tree:
    """A folder with ./wdp and prebuilt/, in a folder whose name has a space and a line break, and a home."""

    root: Path
    home: Path

    def put(self, program: bytes, recorded: bytes | None = None, sources: str = "none") -> None:
        (self.root / "prebuilt" / "wdp.gz").write_bytes(gzip.compress(program))
        name = sha256(recorded or program).hexdigest()
        told = f"sources {sources}\nprogram wdp {name}\ntoolchain none\n"
        (self.root / "prebuilt" / "record").write_text(told)

    def run(self, *words: str | Path, **more: str) -> tuple[int, bytes, bytes]:
        how = {"cwd": self.root, "env": {**PATH, "HOME": str(self.home), **more}, "timeout": 60}
        run = subprocess.run(words or ["./wdp", "x"], capture_output=True, **how)
        return run.returncode, run.stdout, run.stderr

    def held(self) -> list[Path]:
        return [*self.root.glob("prebuilt/out/*/*"), *self.home.glob(".cache/wdp/*/*")]


@pytest.fixture
def tree(tmp_path: Path) -> Tree:
    tree = Tree(tmp_path / "a tree\n", tmp_path / "home")
    (tree.root / "prebuilt").mkdir(parents=True)
    shutil.copy(Path(ROOT, "wdp"), tree.root)
    shutil.copy(Path(ROOT, "prebuilt", "run"), tree.root / "prebuilt")
    tree.home.mkdir()
    tree.put(PACKED)
    return tree


OF_PACKED, OF_NEW, OF_BUILT = ((0, it + b" x\n", b"") for it in (b"packed", b"new", b"built"))


def test_it_is_unpacked_once(tree: Tree) -> None:
    assert tree.run() == OF_PACKED
    # it isn't asked for again what prebuilt/ holds
    (tree.root / "prebuilt" / "wdp.gz").unlink()
    assert tree.run() == OF_PACKED and [it.name for it in tree.held()] == ["wdp"]
    link = tree.home / "link"
    link.symlink_to(tree.root / "wdp")
    assert tree.run(link, "x") == tree.run("sh", "wdp", "x") == OF_PACKED
    tree.put(RENEWED)
    assert tree.run() == OF_NEW


def test_what_was_built_here(tree: Tree) -> None:
    elsewhere = tree.root / "crates/wdp/out/wdp"
    built = tree.root / "prebuilt/out" / sha256(PACKED).hexdigest() / "built"
    for path in (built, elsewhere):
        path.parent.mkdir(parents=True)
        path.write_bytes(BUILT)
        path.chmod(0o755)
    assert tree.run() == OF_BUILT
    # one that was built before the tree got another program isn't run, and neither is what the toolchain put elsewhere
    tree.put(RENEWED)
    assert tree.run() == OF_NEW


def test_a_program_that_is_not_the_recorded_one(tree: Tree) -> None:
    tree.put(RENEWED, recorded=PACKED)
    assert tree.run() == (3, b"", NOT_RECORDED)
    (tree.root / "prebuilt" / "wdp.gz").write_bytes(gzip.compress(PACKED)[:15])
    assert tree.run() == (3, b"", NOT_RECORDED)
    (tree.root / "prebuilt" / "record").unlink()
    assert tree.run() == (3, b"", NOT_RECORDED) and not tree.held()
    tree.put(b"#!/none\n")
    assert tree.run() == (3, b"", NOT_HELD)


def test_a_tree_that_cannot_be_written(tree: Tree) -> None:
    """The user's folder holds it, readable by all whatever the mask."""
    (tree.root / "prebuilt/out").write_text("no folder")
    assert tree.run("sh", "-c", "umask 077; ./wdp x; umask")[1] == b"packed x\n0077\n"
    (held,) = tree.held()
    assert [path.stat().st_mode & 0o777 for path in (held, held.parent)] == [0o755] * 2
    assert tree.run() == tree.run(XDG_CACHE_HOME=str(tree.root / "kept")) == OF_PACKED
    assert tree.run(HOME="/dev/null") == (3, b"", NOT_HELD)


def test_several_at_once(tree: Tree) -> None:
    how = {"cwd": tree.root, "env": PATH, "stdout": subprocess.PIPE}
    started = [subprocess.Popen(["./wdp", "x"], **how) for _ in range(8)]
    assert [run.communicate(timeout=60)[0] for run in started] == [b"packed x\n"] * 8
    assert [path.name for path in tree.held()] == ["wdp"]


def test_what_the_record_says_of(tmp_path: Path) -> None:
    """What tools/prebuild says of a tree: an edit that must fail is no source, a folder that has the name of the toolchain's is one."""
    tree = Tree(tmp_path / "a tree", tmp_path)
    crates = tmp_path / "a tree" / "crates"
    left_out = "out .git cases must-fail *_tests __pycache__ python".split()
    shutil.copytree(ROOT, tree.root, ignore=shutil.ignore_patterns(*left_out))
    program = gzip.decompress((tree.root / "prebuilt/wdp.gz").read_bytes())
    lines = [f"sources {tree.run('tools/program_sources')[1].decode().strip()}"]
    for path in sorted((tree.root / "prebuilt").glob("*.gz")):
        lines.append(
            f"program {path.stem} {sha256(gzip.decompress(path.read_bytes())).hexdigest()}"
        )
    (tree.root / "prebuilt/record").write_text("\n".join([*lines, "toolchain none\n"]))

    def checks() -> bool:
        return tree.run("tools/prebuild", "--check")[0] == 0

    assert checks()
    for name, is_source in (("must-fail/new.edit", False), ("src/out/new.rt", True)):
        path = crates / "auction_terms" / name
        path.parent.mkdir()
        path.write_text("// new\n")
        assert checks() != is_source
        shutil.rmtree(path.parent)
    source = crates / "auction_terms/src/limits.rt"
    text = source.read_bytes()
    source.write_bytes(text + b"// new\n")
    os.utime(source, (0, 0))
    assert not checks()
    source.write_bytes(text)
    assert checks()
    (tree.root / "prebuilt/wdp.gz").write_bytes(gzip.compress(program[:-1]))
    assert not checks()
