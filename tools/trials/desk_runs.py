"""Runs of `wdp-desk` that are killed, and torn or damaged journals, for tests and for bench/."""

from __future__ import annotations

import os
import random
import subprocess
import threading
import time
from pathlib import Path

from trials.desk import HEAD, Call, Desk, Show, Withdraw, digest_of, entries_of
from trials.desk_calls import BIDDERS, FRONT, submission

SECTOR = 512


def run(program: str, journal: Path, calls: bytes) -> subprocess.CompletedProcess[bytes]:
    return subprocess.run([program, str(journal)], input=calls, capture_output=True, timeout=120)


def replayed(program: str, journal: Path) -> subprocess.CompletedProcess[bytes]:
    return subprocess.run([program, "--replay", str(journal)], capture_output=True, timeout=120)


class Conversation:
    """A desk that is called and answers one call after the other."""

    def __init__(
        self, program: str, journal: Path, front: bytes = FRONT, **environment: str
    ) -> None:
        self.process = subprocess.Popen(
            [program, str(journal)],
            env={**os.environ, **environment},
            stdin=subprocess.PIPE,
            stdout=subprocess.PIPE,
            stderr=subprocess.PIPE,
        )
        self.opened = self.ask(front)

    def send(self, data: bytes) -> None:
        assert self.process.stdin
        self.process.stdin.write(data)
        self.process.stdin.flush()

    def read(self) -> bytes:
        assert self.process.stdout
        line = self.process.stdout.readline()
        if line.startswith(b"- refused "):
            line += b"".join(self.process.stdout.readline() for _ in range(int(line.split()[2])))
        return line

    def ask(self, data: bytes) -> bytes:
        self.send(data)
        return self.read()

    def kill(self) -> bytes:
        """Kills the desk; what it had told and wasn't read yet."""
        self.process.kill()
        return self.process.communicate()[0]

    def end(self) -> tuple[bytes, bytes, int]:
        out, error = self.process.communicate()
        return out, error, self.process.returncode


def told_entries(told: list[bytes]) -> list[tuple[bytes, bytes]]:
    """Number and chain of each entry that was told."""
    return [
        (line.split()[0], line.split()[-1])
        for line in told
        if line[:1].isdigit() and b" opened " not in line
    ]


def torn(data: bytes, end: int, chance: random.Random) -> bytes:
    """A journal after a power cut: the first `end` bytes were on the disk, and of the sectors after them some weren't."""
    rest = bytearray(data[end:])
    for sector in range(0, len(rest) + SECTOR, SECTOR):
        at = sector - end % SECTOR
        if chance.random() < 0.5:
            low, high = max(at, 0), max(at + SECTOR, 0)
            rest[low:high] = bytes(len(rest[low:high]))
    kept = chance.randint(0, len(rest))
    return data[:end] + bytes(rest[:kept])


def random_change(chance: random.Random, number: int) -> Call:
    """A call that is kept; some have more sealed bytes than a sector."""
    kind = chance.random()
    if kind < 0.1:
        return Show(b"Alpha", 1, number)
    over = chance.choice([None, *range(1, 8)])
    if kind < 0.2 and over:
        return Withdraw(b"Alpha", 1, number, over)
    call = submission(b"Alpha", number, over, at=number, salt=number)
    size = chance.choice([0, 100, 600, 3_000])
    return type(call)(**{**vars(call), "sealed": chance.randbytes(size)})


def kill_under_calls(
    program: str, journal: Path, chance: random.Random, first: int, **environment: str
) -> list[bytes]:
    """The replies of a desk that is killed at a random moment while calls come."""
    calls = [random_change(chance, first + number).encode() for number in range(200)]
    desk = Conversation(program, journal, **environment)

    def send() -> None:
        try:
            for call in calls:
                desk.send(call)
                time.sleep(chance.random() * 0.002)
        except (OSError, ValueError):
            pass

    sending = threading.Thread(target=send)
    sending.start()
    told = [desk.opened]
    last = time.monotonic() + chance.random() * 0.1
    assert desk.process.stdout
    os.set_blocking(desk.process.stdout.fileno(), False)
    rest = b""
    while time.monotonic() < last:
        rest += desk.process.stdout.read() or b""
        time.sleep(0.001)
    desk.process.kill()
    sending.join()
    os.set_blocking(desk.process.stdout.fileno(), True)
    rest += desk.process.stdout.read()
    close_input(desk.process)
    desk.process.communicate()
    return told + [line for line in rest.splitlines(keepends=True) if line.endswith(b"\n")]


def close_input(process: subprocess.Popen[bytes]) -> None:
    """Closes the input of a process that may have ended; calls that can't be sent any more are dropped."""
    assert process.stdin
    try:
        process.stdin.close()
    except OSError:
        pass
    process.stdin = None


# damage


def make_journal() -> tuple[Desk, bytes]:
    """A desk with entries of each kind, and its journal."""
    model = Desk(FRONT, BIDDERS)
    calls: list[Call] = [submission(b"Alpha", 0, None, salt=1), Show(b"Beta", 1, 2)]
    calls += [submission(b"Beta", 1, None, salt=2, bids=2), submission(b"Alpha", 3, 7, salt=3)]
    calls += [submission(b"Alpha", 4, 1, salt=4, session=8), Withdraw(b"Beta", 1, 6, 1)]
    calls += [submission(b"Beta", 5, None, salt=5), Show(b"Alpha", 2, 8)]
    calls += [submission(b"Alpha", 6, 2, salt=6), submission(b"Beta", 7, 3, salt=7)]
    for call in calls:
        model.answer(call, len(model.journal))
    return model, model.journal


def judge_journal(data: bytes) -> tuple[str, int]:
    """The verdict of the second implementation: whole, torn or damaged, and from which byte on; not made to its end; or of another
    round."""
    if not data.startswith(FRONT):
        if len(data) <= len(FRONT) and all(one in (0, two) for one, two in zip(data, FRONT)):
            return "unmade", 0
        return "other", 0
    end = len(FRONT)
    accounts: dict[bytes, tuple[int, bytes]] = {}
    for entry in entries_of(FRONT, data):
        if not is_due(entry.words, (entry.answer, entry.number), accounts):
            return "damaged", end
        end = entry.end
    if any(int(head[10]) > end for head in HEAD.finditer(data, end)):
        return "damaged", end
    return ("torn" if len(data) > end else "whole"), end


def is_due(
    words: tuple[bytes, ...],
    answer: tuple[bytes, bytes],
    accounts: dict[bytes, tuple[int, bytes]],
) -> bool:
    """Whether an entry has the answer that the entries before it lead to. Of each bidder, `accounts` has the number of changes and the
    number that stands, and is brought up to date."""
    bidder, kind, over = words[2], words[4], words[5]
    changes, stands = accounts.get(bidder, (0, b"-"))
    if kind == b"close":
        return answer == (b"closed", b"-")
    if kind == b"show":
        return answer == (b"stands", stands)
    if over != stands:
        return answer == (b"stale", stands)
    number = b"%d" % (changes + 1)
    accounts[bidder] = (changes + 1, number if kind == b"submit" else b"-")
    return answer == (b"accepted" if kind == b"submit" else b"withdrawn", number)


def damage(data: bytes, chance: random.Random) -> bytes:
    """A journal with some damage."""
    changed = bytearray(data)
    at = chance.randrange(len(data))
    size = chance.randint(1, 60)
    kind = chance.choice(["bit", "cut", "insert", "zeros", "copy", "end", "answer", "answer"])
    if kind == "bit":
        changed[at] ^= 1 << chance.randrange(8)
    elif kind == "cut":
        del changed[at : at + size]
    elif kind == "insert":
        changed[at:at] = chance.randbytes(size)
    elif kind == "zeros":
        changed[at : at + size] = bytes(len(changed[at : at + size]))
    elif kind == "copy":
        ends = [len(FRONT), *(entry.end for entry in entries_of(FRONT, data))]
        begin, end = sorted(chance.sample(ends, 2))
        changed[end:end] = data[begin:end]
    elif kind == "end":
        del changed[at:]
    else:
        return tell_another_answer(data, chance)
    return bytes(changed)


def tell_another_answer(data: bytes, chance: random.Random) -> bytes:
    """A journal in which an entry has another answer, with chains that fit."""
    entries = list(entries_of(FRONT, data))
    place = chance.randrange(len(entries))
    answers = [
        (b"accepted", b"1"),
        (b"accepted", b"9"),
        (b"withdrawn", b"2"),
        (b"stale", b"-"),
        (b"stale", b"3"),
        (b"stands", b"-"),
        (b"stands", b"5"),
        (b"closed", b"-"),
    ]
    journal = FRONT
    chain = digest_of(FRONT)
    for number, entry in enumerate(entries):
        answer = (entry.answer, entry.number)
        if number == place:
            answer = chance.choice([each for each in answers if each != answer])
        words = b" ".join([*entry.words[:9], b"%d" % len(journal)])
        text = b"%call " + words + b"\n" + entry.sealed + b"\n%reply " + b" ".join(answer) + b" "
        chain = digest_of(chain + text)
        journal += text + chain + b"\n"
    return journal


def find_wrong_verdict(program: str, journal: Path, data: bytes) -> str:
    """Where the program and the second implementation differ about a journal; "" if they agree."""
    verdict, place = judge_journal(data)
    journal.write_bytes(data)
    name = os.fsencode(journal)
    replay = replayed(program, journal)
    ran = run(program, journal, FRONT)
    after = journal.read_bytes()
    refusal = b"wdp-desk: %s: damaged at byte %d\n" % (name, place)
    if verdict == "damaged":
        told = (replay.stdout, replay.stderr, replay.returncode, ran.stdout, ran.stderr)
        is_right = told == (b"", refusal, 1, b"", refusal) and ran.returncode == 1 and after == data
    elif verdict == "other":
        refusal = b"wdp-desk: %s: it is of another round: its front differs\n" % name
        is_right = (ran.stdout, ran.stderr, ran.returncode) == (b"", refusal, 1) and after == data
    elif verdict == "unmade":
        is_right = ran.stdout.startswith(b"0 opened ") and after == FRONT
    else:
        is_right = b" opened %d " % (len(data) - place) in ran.stdout and after == data[:place]
        is_right = is_right and replay.returncode == 0
        told_torn = replay.stdout.endswith(b"torn at byte %d\n" % place)
        is_right = is_right and told_torn == (verdict == "torn")
    return "" if is_right else f"{verdict} at {place}: {replay} {ran}"
