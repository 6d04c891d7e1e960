"""Files as words of the built program: what is read, refused and written, at any moment at which a run is ended."""

from __future__ import annotations

import os
import pty
import random
import resource
import shutil
import signal
import socket
import stat
import subprocess
import time
from collections.abc import Iterator
from dataclasses import dataclass
from pathlib import Path
from typing import IO

import pytest
from trials import program_runs
from trials.program_runs import TIME_LIMIT, Seen, done, refused
from trials.program import ROOT
from trials.worked import ALPHA, BETA, GAMMA, ONE_COLUMN, rules_and

NOBODY = 65534
RANDOM_LISTS = 2000
BLOCKS = 20
FILES = Path(ROOT, "fixtures", "files")
AUCTION = ["rules.txt", "alpha.txt", "beta.txt", "gamma.txt", "groups.txt"]
LONG = rules_and(ALPHA, BETA, GAMMA) + "%groups\n" + "-\n" * 1024
HINT = b"wdp: reads standard input; a line with Ctrl-D alone ends it, and wdp COMMAND FILE reads a file\n"


@dataclass
class Office:
    """The program, and a folder to work in that other users may read."""

    program: str
    folder: Path

    def path(self, name: str) -> Path:
        return self.folder / name

    def start(self, *words: str, **how: object) -> subprocess.Popen:
        how = {"stdout": subprocess.PIPE, "stderr": subprocess.PIPE, **how}
        return subprocess.Popen([self.program, *words], cwd=self.folder, **how)

    def seen(self, *words: str, given: str | bytes | IO[bytes] = b"", **how: object) -> Seen:
        return program_runs.seen(self.program, list(words), given, cwd=self.folder, **how)

    def snapshot(self) -> dict[str, bytes | bool]:
        """What is in the folder, and in its files."""
        paths = self.folder.iterdir()
        return {path.name: path.is_file() and path.read_bytes() for path in paths}

    def change(self, name: str, old: str, new: str) -> None:
        text = self.path(name).read_text()
        assert old in text
        self.path(name).write_text(text.replace(old, new, 1))


@pytest.fixture
def office(wdp: str, tmp_path: Path) -> Iterator[Office]:
    """An office with a folder, a pipe, a socket and links beside its files."""
    office = Office(wdp, shutil.copytree(FILES / "office", tmp_path / "a folder"))
    shutil.copy(office.path("later.txt"), office.path("a\nb"))
    shutil.copy(office.path("bad.txt"), office.path("a\x1b\nb"))
    office.path("folder").mkdir()
    os.mkfifo(office.path("pipe"))
    office.path("twice").symlink_to("one.txt")
    os.link(office.path("one.txt"), office.path("linked"))
    office.path("nowhere").symlink_to("none")
    with socket.socket(socket.AF_UNIX) as bound:
        bound.bind(str(office.path("socket")))
        yield office


RUNS = [it for it in (FILES / "runs.txt").read_text().splitlines() if not it.startswith("#")]


@pytest.mark.parametrize("run", RUNS)
def test_run(office: Office, run: str) -> None:
    """What is refused leaves all as it was, the file for the output, too."""
    head, wanted = run.replace("@", " ".join(AUCTION)).split(" => ")
    change, _, command = head.rpartition(" | ")
    command, _, given = command.partition(" < ")
    words = [word.encode().decode("unicode_escape") for word in command.split()]
    if change:
        name, old, *new = change.split()
        office.change(name, old.replace("\\n", "\n"), "".join(new))
    before = office.snapshot()
    is_refused = wanted not in before
    for more in ([], ["-o", "out"])[: 1 + (is_refused and "-o" not in words)]:
        with office.path(given or "empty.txt").open("rb") as file:
            seen = office.seen(*words, *more, given=file)
        has_faults = "explain" in words and wanted != "empty.txt"
        assert seen == (refused(wanted) if is_refused else (has_faults, before[wanted], b""))
        assert office.snapshot() == before


# a name, and how it is printed: no control character and no mark of the writing direction reaches a terminal
SHOWN = {
    "": "''",
    "\x1b[2J": r"\x1b[2J",
    "\x7f": r"\x7f",
    "\u0085": r"\xc2\x85",
    "\u200f": r"\xe2\x80\x8f",
    "\u2028": r"\xe2\x80\xa8",
    "\u202etxt.b": r"\xe2\x80\xaetxt.b",
    "\u2066b": r"\xe2\x81\xa6b",
    "M\u00fcller.txt": r"M\xc3\xbcller.txt",
    "it's": r"it\'s",
    r"\x0a": r"\\x0a",
    "a b~.txt": "a b~.txt",
}


@pytest.mark.parametrize("name", SHOWN, ids=ascii)
def test_name_as_it_is_printed(office: Office, name: str) -> None:
    assert office.seen("text", name) == refused(f"{SHOWN[name]}: no such file or directory")


@pytest.mark.parametrize("words", ["text form.csv", "text"])
def test_output_without_a_name_is_refused_before_the_input(office: Office, words: str) -> None:
    before = office.snapshot()
    assert office.seen(*words.split(), "-o", "") == refused("'': no such file or directory")
    assert office.snapshot() == before


WORDS = """check program.mps one.txt; one.txt; -; -o out; text -o; text -o a -o b; text --outptu a; compile --workers 99 none
check --last-wins program.mps; --last-wins rules.txt"""


@pytest.mark.parametrize("words", WORDS.replace("\n", "; ").split("; "))
def test_words_that_are_refused(office: Office, words: str) -> None:
    before = office.snapshot()
    status, output, faults = office.seen(*words.split())
    assert (status, output, faults[:7], office.snapshot()) == (2, b"", b"error: ", before)


def test_pipes_of_the_shell(office: Office) -> None:
    def in_shell(script: str) -> Seen:
        return program_runs.seen("bash", ["-c", script, office.program], b"", cwd=office.folder)

    two = '"$0" text <(cat rules.txt) <(cat gamma.txt); "$0" text <(cat one.txt)'
    assert in_shell(two) == done(ONE_COLUMN * 2)
    endless = '"$0" text gamma.txt <(echo %rules; cat /dev/zero)'
    assert in_shell(endless) == refused("input: too large")


def test_more_files_than_may_be_open(office: Office) -> None:
    texts = [("%form\n" + GAMMA).replace("Gamma", f"B{number}") for number in range(100)]
    bidders = "".join(f"bidder,B{number},9,1,\n" for number in range(100))
    texts.append("%rules\nrules,1,1,,\ncategory,A,2,10,1\ncategory,B,1,5,1\n" + bidders)
    names = [f"{number}.txt" for number in range(101)]
    for name, text in zip(names, texts):
        office.path(name).write_text(text)
    few = {"preexec_fn": lambda: resource.setrlimit(resource.RLIMIT_NOFILE, (20, 20))}
    seen = office.seen("text", *names, **few)
    assert seen[0] == 0 and seen == office.seen("text", given="".join(texts))


@pytest.mark.skipif(os.getuid() != 0, reason="root may read and write anything, and become nobody")
def test_without_rights(office: Office) -> None:
    for folder in (office.folder, *office.folder.parents):
        if not folder.stat().st_mode & stat.S_IXOTH:
            folder.chmod(0o755)
    office.path("one.txt").chmod(0)
    office.path("gamma.txt").chmod(0o444)

    def by_nobody(*words: str) -> Seen:
        return office.seen("text", *words, user=NOBODY, group=NOBODY, extra_groups=[])

    assert by_nobody("one.txt") == refused("one.txt: permission denied")
    may_not = refused("gamma.txt: it may not be written")
    assert by_nobody("program.mps", "-o", "gamma.txt") == may_not
    assert by_nobody("program.mps", "-o", "new") == refused("new: permission denied")


def test_outputs_and_their_rights(office: Office) -> None:
    before = office.snapshot()
    assert office.seen("text", "one.txt", "-o", "new", umask=0o027) == done("")
    office.path("out").chmod(0o604)
    office.path("link").symlink_to("out")
    assert office.seen("text", "one.txt", "-olink") == done("")
    # faults are an output, too, whose file is kept
    words = ["explain", "rules.txt", "gamma.txt", "lots.txt"]
    assert office.seen(*words, "-o", "faults") == (1, b"", b"")
    written = dict.fromkeys(("new", "out", "link"), ONE_COLUMN.encode())
    assert office.snapshot() == {**before, **written, "faults": before["unknown"]}
    rights = [stat.S_IMODE(office.path(name).stat().st_mode) for name in ("new", "out")]
    assert rights == [0o640, 0o604] and office.path("link").is_symlink()


@pytest.mark.parametrize("name", ["x" * 255, "\u00fc" * 127, "-o", "it's"], ids=ascii)
def test_output_of_an_odd_name(office: Office, name: str) -> None:
    assert office.seen("text", "one.txt", f"--output={name}") == done("")
    assert office.path(name).read_text() == ONE_COLUMN


@pytest.mark.parametrize("is_ignored", [True, False])
def test_a_limit_on_the_size_of_files(office: Office, is_ignored: bool) -> None:
    """What ./wdp ignores, the program by itself is ended by; the old file stays either way."""

    def limit() -> None:
        signal.signal(signal.SIGXFSZ, signal.SIG_IGN if is_ignored else signal.SIG_DFL)
        resource.setrlimit(resource.RLIMIT_FSIZE, (4096, 4096))
        resource.setrlimit(resource.RLIMIT_CORE, (0, 0))

    before = office.snapshot()
    how = {"given": LONG, "preexec_fn": limit, "restore_signals": False}
    seen = office.seen("compile", "-o", "out", **how)
    ended = (-signal.SIGXFSZ, b"", b"")
    assert seen == (refused("write failed after 4096 bytes") if is_ignored else ended)
    left = {name: text for name, text in office.snapshot().items() if not name.startswith(".out.")}
    assert left == before and (not is_ignored or office.snapshot() == before)


@pytest.mark.parametrize("number", [signal.SIGTERM, signal.SIGINT, signal.SIGKILL])
def test_a_run_that_is_ended_at_any_moment(office: Office, number: signal.Signals) -> None:
    whole = office.seen("compile", given=LONG)[1]
    office.path("long.txt").write_text(LONG)
    before = office.snapshot()
    draw = random.Random(int(number))
    for turn in range(60):
        office.path("out").write_text("before")
        child = office.start("compile", "long.txt", "-o", "out", stdin=subprocess.DEVNULL)
        time.sleep(draw.uniform(0, 0.05))
        child.send_signal(number)
        child.communicate(timeout=TIME_LIMIT)
        found = office.path("out").read_bytes()
        assert found == whole or found == b"before" and child.returncode != 0, turn
        for path in office.folder.glob(".out.*"):
            path.unlink()
    assert office.snapshot().keys() == before.keys()


@pytest.mark.parametrize("words", ["", "text", "text -", "text one.txt"])
def test_at_a_terminal(office: Office, words: str) -> None:
    """Something is typed, and Ctrl-D."""
    own, theirs = pty.openpty()
    child = office.start(*words.split(), stdin=theirs)
    os.close(theirs)
    os.write(own, office.path("one.txt").read_bytes() + b"\x04")
    seen = child.communicate(timeout=TIME_LIMIT)
    os.close(own)
    hint = b"" if words.endswith("txt") else HINT
    assert (child.returncode, *seen) == (0, ONE_COLUMN.encode(), hint)


@pytest.mark.parametrize("streams", ["0", "1", "2", "01", "02", "12", "012"])
def test_closed_streams(office: Office, streams: str) -> None:
    words = ["text", "one.txt", "-o", "out"]
    how = {"preexec_fn": lambda: [os.close(int(stream)) for stream in streams]}
    assert office.seen(*words, **how) == done("")
    assert office.path("out").read_text() == ONE_COLUMN
    # nothing that is said on a closed stream comes to stand in a file
    before = office.snapshot()
    assert office.seen("text", "form.csv", "-o", "out", **how)[0] == 1
    assert office.seen("text", "one.txt", **how)[0] == ("1" in streams)
    assert office.snapshot() == before


def write_at_random(office: Office, draw: random.Random, place: int, text: str) -> str:
    """A file of an odd name with this text, or one that is spoiled; gives its name."""
    odd = ["f", "-f", "f f", "f\n", "f'\"", "\u00e9", "%form", "$(f)", "*"]
    name = draw.choice(odd) + str(place)
    spoiled = [text.removesuffix("\n"), "", "\ufeff" + text, "\n" + text]
    spoiled = draw.choice([text] * 12 + spoiled + [text.replace("\n", "\r\n")])
    path = office.path(name)
    kind = draw.choice(["file"] * 30 + ["folder", "pipe", "none"])
    if kind == "folder":
        path.mkdir()
    elif kind == "pipe":
        os.mkfifo(path)
    elif kind == "file":
        path.write_text(spoiled, newline="")
    return name


@pytest.mark.parametrize("block", range(BLOCKS))
def test_random_lists_beside_the_joined_input(office: Office, block: int) -> None:
    """Files that may be joined are answered as the joined text is, or refused in one line of one file's; others are refused."""
    draw = random.Random(block)
    rules, *forms, groups = (office.path(name).read_text() for name in AUCTION)
    for turn in range(RANDOM_LISTS // BLOCKS):
        shutil.rmtree(office.folder)
        office.folder.mkdir()
        chosen = [rules, *draw.sample(forms, draw.randint(0, 3)), *draw.choice([[], [groups]])]
        names = [write_at_random(office, draw, *it) for it in enumerate(chosen)]
        target = draw.choice(["out", "gone/out", "-"])
        seen = office.seen("compile", "-o", target, "--", *names)
        texts = [office.snapshot().get(name) or b"" for name in names]
        are_parts = all(text.startswith(b"%") for text in texts)
        if are_parts and all(text.endswith(b"\n") for text in texts[:-1]) and target != "gone/out":
            joined = b"".join(texts)
            status, output, faults = office.seen("compile", given=joined)
            written = office.snapshot().get("out", b"")
            assert (seen[0], seen[1] + written) == (status, output), (turn, names)
            assert bool(seen[2]) == bool(faults), (turn, names)
        else:
            assert seen[:2] == (1, b"") and "out" not in office.snapshot(), (turn, names)
        assert seen[2].count(b"\n") == (seen[0] != 0), (turn, names)
