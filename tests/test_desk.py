"""The desk `wdp-desk`: what it answers and keeps beside a second writing of that, kills, torn and damaged journals, and settlement."""

from __future__ import annotations

import os
import random
import subprocess
from dataclasses import replace
from pathlib import Path

import pytest
from trials.desk import Call, Close, Desk, Show, Submit, Withdraw, digest_of, entries_of, front_of
from trials.desk_calls import (
    BIDDERS,
    FAULTY,
    FRONT,
    RULES,
    faults_of,
    form_of,
    random_call,
    submission,
    without_chains,
)
from trials.desk_runs import (
    Conversation,
    damage,
    find_wrong_verdict,
    kill_under_calls,
    make_journal,
    replayed,
    run,
    told_entries,
    torn,
)
from trials.program import ROOT


@pytest.fixture(scope="module")
def faulty(wdp: str) -> dict[bytes, bytes]:
    return {text: faults_of(wdp, text) for text in FAULTY}


def test_the_faulty_forms_have_faults(faulty: dict[bytes, bytes]) -> None:
    assert all(lines.startswith(b"{") and lines.endswith(b"}\n") for lines in faulty.values())


@pytest.mark.parametrize("seed", range(8))
def test_random_calls_one_at_a_time(
    wdp_desk: str, faulty: dict[bytes, bytes], tmp_path: Path, seed: int
) -> None:
    chance = random.Random(seed)
    journal = tmp_path / "journal"
    model = Desk(FRONT, BIDDERS)
    desk = Conversation(wdp_desk, journal)
    assert desk.opened == model.opened()
    for number in range(400):
        call = random_call(chance, faulty, number)
        wanted = model.answer(call, len(model.journal))
        assert desk.ask(call.encode()) == wanted, (number, call)
    assert desk.end() == (b"", b"", 0)
    assert journal.read_bytes() == model.journal
    check_replay(wdp_desk, journal, model)


@pytest.mark.parametrize("piece", [1, 7, 1_000, 1 << 20])
def test_calls_in_pieces(
    wdp_desk: str, faulty: dict[bytes, bytes], tmp_path: Path, piece: int
) -> None:
    chance = random.Random(piece)
    calls = [random_call(chance, faulty, number) for number in range(60 if piece == 1 else 600)]
    model = Desk(FRONT, BIDDERS)
    wanted = [model.opened()] + [model.answer(call, 0) for call in calls]
    given = FRONT + b"".join(call.encode() for call in calls)
    process = subprocess.Popen(
        [wdp_desk, str(tmp_path / "j")], stdin=subprocess.PIPE, stdout=subprocess.PIPE
    )
    assert process.stdin and process.stdout
    os.set_blocking(process.stdout.fileno(), False)
    told = b""
    for at in range(0, len(given), piece):
        process.stdin.write(given[at : at + piece])
        process.stdin.flush()
        told += process.stdout.read() or b""
    process.stdin.close()
    os.set_blocking(process.stdout.fileno(), True)
    told += process.stdout.read()
    assert process.wait() == 0
    assert without_chains(told) == without_chains(b"".join(wanted))
    assert [entry.words[:9] for entry in entries_of(FRONT, (tmp_path / "j").read_bytes())] == [
        entry.words[:9] for entry in entries_of(FRONT, model.journal)
    ]


def check_replay(program: str, journal: Path, model: Desk) -> None:
    told = replayed(program, journal)
    assert (told.stderr, told.returncode) == (b"", 0)
    lines = told.stdout.splitlines()
    entries = list(entries_of(FRONT, model.journal))
    assert lines[0] == FRONT.split(b"\n")[0]
    for line, entry in zip(lines[1:], entries):
        number, at, bidder, session, kind, over, commit, bids, *_ = entry.words
        assert line.split() == [
            number,
            at,
            bidder,
            session,
            kind,
            over,
            entry.answer,
            entry.number,
            bids,
            commit,
            entry.chain,
        ]
    wanted = []
    for name in BIDDERS:
        account = model.accounts[name]
        stands = account.standing
        shown = (
            b"%d %d %d %s" % (stands.number, stands.entry, stands.bids, stands.commit)
            if stands
            else b"- - 0 -"
        )
        wanted.append(b"%%bidder %s %d %d %s" % (name, account.calls, account.changes, shown))
    state = b"open" if model.is_open else b"closed"
    wanted.append(b"%%state %s %d %d %s" % (state, model.entries, len(model.journal), model.chain))
    assert lines[1 + len(entries) :] == wanted


def test_the_call_limit(wdp_desk: str, tmp_path: Path) -> None:
    model = Desk(FRONT, BIDDERS)
    calls: list[Call] = [Withdraw(b"Alpha", 1 + number % 8, number, 7) for number in range(999)]
    calls += [submission(b"Alpha", 1, None), submission(b"Alpha", 2, 1), Show(b"Alpha", 1, 1)]
    calls += [submission(b"Alpha", 1, None), submission(b"Beta", 1, None), Close(5), Close(6)]
    wanted = [model.opened()] + [model.answer(call, 0) for call in calls]
    ran = run(wdp_desk, tmp_path / "j", FRONT + b"".join(call.encode() for call in calls))
    assert without_chains(ran.stdout) == without_chains(b"".join(wanted))
    assert without_chains(ran.stdout)[-7:] == [
        [b"1000", b"accepted", b"1", b"1", digest_of(form_of(b"Alpha", 1))],
        [b"-", b"call", b"limit"],
        [b"-", b"call", b"limit"],
        [b"-", b"again", b"1", b"1000"],
        [b"1001", b"accepted", b"1", b"1", digest_of(form_of(b"Beta", 1))],
        [b"1002", b"closed"],
        [b"-", b"closed", b"before"],
    ]


def test_a_race_of_sessions(wdp_desk: str, tmp_path: Path) -> None:
    """Of eight changes over one number, one is accepted."""
    calls = [submission(b"Alpha", number, None, session=1 + number) for number in range(8)]
    ran = run(wdp_desk, tmp_path / "j", FRONT + b"".join(call.encode() for call in calls))
    assert [line.split()[1] for line in ran.stdout.splitlines()[1:]] == [b"accepted"] + [
        b"stale"
    ] * 7


NO_CALLS = {
    "no head": b"hello\n",
    "another kind": b"%take Alpha 1 1 1\n",
    "a bidder of no rules": b"%show Gamma 1 1\n",
    "a session too many": b"%show Beta 2 1\n",
    "session 0": b"%show Beta 0 1\n",
    "a field too many": b"%close 1 1\n",
    "a field too few": b"%show Beta 1\n",
    "two blanks": b"%close  1\n",
    "no number": b"%close now\n",
    "19 digits": b"%close 1000000000000000000\n",
    "a withdrawal over none": b"%withdraw Beta 1 1 -\n",
    "a text too long": b"%submit Beta 1 1 - " + b"0" * 64 + b" " + b"0" * 64 + b" 4194305 0\n",
    "a sealed form too long": b"%submit Beta 1 1 - "
    + b"0" * 64
    + b" "
    + b"0" * 64
    + b" 0 8388609\n",
    "upper case": b"%submit Beta 1 1 - " + b"A" * 64 + b" " + b"0" * 64 + b" 0 0\n",
    "a long head": b"%close " + b"1" * 2_000,
    "the first call again": FRONT,
}


@pytest.mark.parametrize("name", NO_CALLS)
def test_what_is_no_call(wdp_desk: str, tmp_path: Path, name: str) -> None:
    journal = tmp_path / "j"
    before = Show(b"Beta", 1, 1).encode()
    given = FRONT + before + NO_CALLS[name] + before
    ran = run(wdp_desk, journal, given)
    assert ran.stderr == b"wdp-desk: byte %d: no call\n" % len(FRONT + before)
    assert ran.returncode == 1
    assert len(ran.stdout.splitlines()) == 2
    assert len(list(entries_of(FRONT, journal.read_bytes()))) == 1


def test_an_input_that_ends_within_a_call(wdp_desk: str, tmp_path: Path) -> None:
    call = submission(b"Alpha", 1, None).encode()
    for end in (1, 30, len(call) - 1):
        ran = run(wdp_desk, tmp_path / str(end), FRONT + call + call[:end])
        assert ran.stderr == b"wdp-desk: byte %d: the input ends within a call\n" % len(
            FRONT + call
        )
        assert (ran.returncode, len(ran.stdout.splitlines())) == (1, 2)


FRONTS = {
    "no front": b"%show Alpha 1 1\n",
    "version 1": FRONT.replace(b"%desk 2", b"%desk 1"),
    "another digest": FRONT.replace(digest_of(RULES), digest_of(b"")),
    "other rules": FRONT.replace(b"Alpha,9", b"Alpha,8"),
    "cut": FRONT[:-1],
    "rules with a fault": front_of(b"rules,0,1,,\n"),
    "rules without a line end": front_of(RULES[:-1]),
    "no word": front_of(RULES, name=b""),
    "nothing": b"",
}


@pytest.mark.parametrize("name", FRONTS)
def test_what_is_no_first_call(wdp_desk: str, tmp_path: Path, name: str) -> None:
    ran = run(wdp_desk, tmp_path / "j", FRONTS[name])
    assert (ran.stdout, ran.returncode) == (b"", 1)
    assert ran.stderr.startswith(b"wdp-desk: ") and ran.stderr.count(b"\n") == 1
    assert not (tmp_path / "j").exists()


def test_a_journal_of_another_round(wdp_desk: str, tmp_path: Path) -> None:
    journal = tmp_path / "j"
    run(wdp_desk, journal, FRONT + Close(1).encode())
    before = journal.read_bytes()
    for other in (front_of(RULES, name=b"other"), front_of(RULES + b"bidder,Gamma,9,1,\n")):
        ran = run(wdp_desk, journal, other)
        assert (ran.stdout, ran.returncode) == (b"", 1)
        assert (
            ran.stderr
            == b"wdp-desk: %s: it is of another round: its front differs\n" % os.fsencode(journal)
        )
    assert journal.read_bytes() == before


def test_a_journal_that_another_process_holds(wdp_desk: str, tmp_path: Path) -> None:
    journal = tmp_path / "j"
    desk = Conversation(wdp_desk, journal)
    ran = run(wdp_desk, journal, FRONT)
    assert (ran.stdout, ran.returncode) == (b"", 1)
    assert ran.stderr == b"wdp-desk: %s: another process has it\n" % os.fsencode(journal)
    assert desk.ask(Show(b"Beta", 1, 1).encode()).startswith(b"1 stands none ")
    assert desk.end()[2] == 0


def test_replies_come_while_the_input_is_open(wdp_desk: str, tmp_path: Path) -> None:
    desk = Conversation(wdp_desk, tmp_path / "j")
    assert desk.ask(Close(1).encode()).startswith(b"1 closed ")
    assert desk.process.poll() is None
    desk.end()


@pytest.mark.parametrize("seed", range(8))
def test_kills_and_torn_ends(wdp_desk: str, machine: str, tmp_path: Path, seed: int) -> None:
    """No reply that was told is without its entry, whatever becomes of the bytes behind those that were synced."""
    chance = random.Random(seed)
    journal = tmp_path / "j"
    synced = tmp_path / "synced"
    on_machine = {"LD_PRELOAD": machine, "SYNCED": str(synced), "SYNC_DELAY": "2000"}
    told: list[bytes] = []
    for turn in range(5):
        told += kill_under_calls(wdp_desk, journal, chance, turn * 1_000, **on_machine)
        journal.write_bytes(torn(journal.read_bytes(), int(synced.read_text()), chance))
        desk = Conversation(wdp_desk, journal, **on_machine)
        desk.end()
        kept = {(entry.words[0], entry.chain) for entry in entries_of(FRONT, journal.read_bytes())}
        assert int(desk.opened.split()[0]) == len(kept)
        assert kept.issuperset(told_entries(told))


def test_a_sync_that_fails_ends_the_desk(wdp_desk: str, machine: str, tmp_path: Path) -> None:
    """Nobody is told of what wasn't synced, and another sync isn't tried: it might succeed without having written anything."""
    journal, fails = tmp_path / "j", tmp_path / "fails"
    synced = tmp_path / "synced"
    desk = Conversation(
        wdp_desk, journal, LD_PRELOAD=machine, SYNC_FAILS=str(fails), SYNCED=str(synced)
    )
    first = desk.ask(submission(b"Alpha", 1, None, salt=1).encode())
    fails.touch()
    desk.send(submission(b"Alpha", 2, 1, salt=2).encode() + Show(b"Beta", 1, 1).encode())
    out, error, status = desk.end()
    assert (out, status) == (b"", 3)
    assert error.startswith(b"wdp-desk: ") and error.count(b"\n") == 1
    # (pages that couldn't be written are lost)
    journal.write_bytes(journal.read_bytes()[: int(synced.read_text())])
    again = Conversation(wdp_desk, journal)
    assert again.opened.split() == [b"1", b"opened", b"0", first.split()[-1]]
    again.end()


def test_a_disk_that_is_full(wdp_desk: str, tmp_path: Path) -> None:
    """A call that can't be written is told so, and leaves nothing behind; a smaller one is taken."""
    journal = tmp_path / "j"
    most = len(FRONT) + 2_000
    begin = ["sh", "-c", f'trap "" XFSZ; ulimit -f {-(-most // 512)}; exec "$@"', "sh"]
    calls = [submission(b"Alpha", 1, None, salt=1)]
    calls.append(replace(submission(b"Alpha", 2, 1, salt=2), sealed=bytes(3_000)))
    calls += [submission(b"Alpha", 3, 1, salt=3), submission(b"Beta", 4, None, salt=4)]
    desk = subprocess.Popen(
        [*begin, wdp_desk, journal], stdin=subprocess.PIPE, stdout=subprocess.PIPE
    )
    assert desk.stdin and desk.stdout
    told = []
    for part in [FRONT, *(call.encode() for call in calls)]:
        desk.stdin.write(part)
        desk.stdin.flush()
        told.append(desk.stdout.readline().split()[1])
    assert told == [b"opened", b"accepted", b"disk", b"accepted", b"accepted"]
    desk.communicate()
    model = Desk(FRONT, BIDDERS)
    for call in [calls[0], *calls[2:]]:
        model.answer(call, len(model.journal))
    assert journal.read_bytes() == model.journal


@pytest.fixture(scope="module")
def long_journal(wdp_desk: str, tmp_path_factory: pytest.TempPathFactory) -> bytes:
    journal = tmp_path_factory.mktemp("desk") / "j"
    desk = Conversation(wdp_desk, journal)
    for number in range(12):
        desk.ask(submission(b"Alpha", number, number or None, salt=number, at=number).encode())
    desk.end()
    return journal.read_bytes()


@pytest.mark.parametrize("seed", range(60))
def test_damaged_journals(wdp_desk: str, long_journal: bytes, tmp_path: Path, seed: int) -> None:
    """A change before the last entry is refused, with its byte, or the front isn't that of the round; nothing is written."""
    chance = random.Random(seed)
    ends = [len(FRONT)] + [entry.end for entry in entries_of(FRONT, long_journal)]
    data = bytearray(long_journal)
    at = chance.randrange(ends[-2])
    kind = chance.choice(["bit", "cut", "insert", "zeros"])
    if kind == "bit":
        data[at] ^= 1 << chance.randrange(8)
    elif kind == "cut":
        del data[at : at + chance.randint(1, 40)]
    elif kind == "insert":
        data[at:at] = chance.randbytes(chance.randint(1, 40))
    else:
        data[at : at + 40] = bytes(40)
    if bytes(data) == long_journal:
        pytest.fail("nothing was changed", pytrace=False)
    journal = tmp_path / "j"
    journal.write_bytes(data)
    ran = run(wdp_desk, journal, FRONT)
    assert (ran.stdout, ran.returncode) == (b"", 1)
    name = os.fsencode(journal)
    if at < len(FRONT):
        assert ran.stderr == b"wdp-desk: %s: it is of another round: its front differs\n" % name
    else:
        begin = max(end for end in ends if end <= at)
        assert ran.stderr == b"wdp-desk: %s: damaged at byte %d\n" % (name, begin)
        again = replayed(wdp_desk, journal)
        assert (again.stdout, again.stderr, again.returncode) == (b"", ran.stderr, 1)
    assert journal.read_bytes() == bytes(data)


@pytest.mark.parametrize("seed", range(40))
def test_journals_beside_the_second_writing(wdp_desk: str, tmp_path: Path, seed: int) -> None:
    """Damage of any kind anywhere, and answers that aren't due with chains that fit."""
    _, right = make_journal()
    chance = random.Random(seed)
    assert find_wrong_verdict(wdp_desk, tmp_path / "j", right) == ""
    data = right
    while data == right:
        data = damage(right, chance)
    assert find_wrong_verdict(wdp_desk, tmp_path / "j", data) == ""


def test_a_torn_end_is_told_and_cut(wdp_desk: str, long_journal: bytes, tmp_path: Path) -> None:
    ends = [entry.end for entry in entries_of(FRONT, long_journal)]
    journal = tmp_path / "j"
    for cut in range(ends[-2] + 1, ends[-1]):
        if cut % 17 and cut != ends[-1] - 1:
            continue
        journal.write_bytes(long_journal[:cut])
        told = replayed(wdp_desk, journal)
        assert told.stdout.endswith(b"torn at byte %d\n" % ends[-2]) and told.returncode == 0
        ran = run(wdp_desk, journal, FRONT)
        assert ran.stdout.startswith(b"11 opened %d " % (cut - ends[-2]))
        assert journal.read_bytes() == long_journal[: ends[-2]]


def opening(call: Submit) -> bytes:
    return b"%%opening %s %d\n" % (call.salt, len(call.text)) + call.text


def settled(program: str, journal: Path, openings: bytes) -> subprocess.CompletedProcess[bytes]:
    file = journal.with_name("openings")
    file.write_bytes(openings)
    return subprocess.run(
        [program, "--settle", str(journal), str(file)], capture_output=True, timeout=60
    )


def test_settlement(wdp: str, wdp_desk: str, tmp_path: Path) -> None:
    journal = tmp_path / "j"
    first = submission(b"Alpha", 1, None, salt=1)
    second = submission(b"Alpha", 2, 1, salt=2, bids=2)
    beta = submission(b"Beta", 1, None, salt=3)
    calls: list[Call] = [beta, first, second]
    ran = run(wdp_desk, journal, FRONT + b"".join(call.encode() for call in calls))
    told = {line.split()[2]: line.split()[4] for line in ran.stdout.splitlines()[2:]}
    early = settled(wdp_desk, journal, opening(beta) + opening(second))
    assert (early.returncode, early.stdout) == (1, b"")
    assert early.stderr.endswith(b": the round isn't closed\n")
    run(wdp_desk, journal, FRONT + Close(9).encode())
    right = settled(wdp_desk, journal, opening(beta) + opening(second))
    assert (right.stderr, right.returncode) == (b"", 0)
    assert right.stdout == b"%rules\n" + RULES + b"%form\n" + second.text + b"%form\n" + beta.text
    forms = subprocess.run([wdp, "forms"], input=right.stdout, capture_output=True).stdout
    assert b"%%form Alpha 2 %s\n" % told[b"2"] in forms
    wrong = {
        "the last but one": opening(beta) + opening(first),
        "one that lacks": opening(beta),
        "one twice": opening(beta) + opening(second) + opening(beta),
        "another salt": opening(beta) + opening(submission(b"Alpha", 2, 1, salt=4, bids=2)),
        "no opening": opening(beta) + opening(second) + b"x",
        "a cut one": opening(beta) + opening(second)[:-1],
    }
    for name, openings in wrong.items():
        ran = settled(wdp_desk, journal, openings)
        assert (ran.stdout, ran.returncode) == (b"", 1), name
        assert ran.stderr.startswith(b"wdp-desk: openings: ") and ran.stderr.count(b"\n") == 1, name


def test_a_withdrawn_form_isnt_settled(wdp_desk: str, tmp_path: Path) -> None:
    journal = tmp_path / "j"
    alpha = submission(b"Alpha", 1, None, salt=1)
    calls: list[Call] = [alpha, Withdraw(b"Alpha", 1, 1, 1), Close(1)]
    run(wdp_desk, journal, FRONT + b"".join(call.encode() for call in calls))
    assert settled(wdp_desk, journal, b"").stdout == b"%rules\n" + RULES
    assert settled(wdp_desk, journal, opening(alpha)).returncode == 1


def test_the_journal_of_the_example(wdp_desk: str, tmp_path: Path) -> None:
    folder = Path(ROOT, "examples/desk")
    told = replayed(wdp_desk, folder / "journal")
    assert (told.stdout, told.stderr) == ((folder / "replay.txt").read_bytes(), b"")
    ran = subprocess.run(
        [wdp_desk, "--settle", folder / "journal", folder / "openings.txt"], capture_output=True
    )
    assert (ran.stdout, ran.stderr) == ((folder / "input.txt").read_bytes(), b"")


@pytest.mark.parametrize("words", [[], ["--replay"], ["--settle", "a"], ["--other"], ["a", "b"]])
def test_wrong_words(wdp_desk: str, words: list[str]) -> None:
    ran = subprocess.run([wdp_desk, *words], input=b"", capture_output=True)
    assert (ran.stdout, ran.returncode) == (b"", 2)
    assert ran.stderr.startswith(b"usage: wdp-desk ")
