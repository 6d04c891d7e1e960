"""Answers as they have to be, and programs that answer something else, or nothing, or are ended:
one clear exception, no hang.
"""
import contextlib
import os
import random
import re
import signal
import sys
import time
from collections.abc import Callable, Iterable
from concurrent.futures import ThreadPoolExecutor
from functools import partial
from pathlib import Path
from typing import IO, Any

import pytest

import wdp
from commands import (
    EVIL,
    find_processes,
    make_environment,
    parse_rows,
    read_text,
    run_program,
    start,
    wait_for,
    write_script,
)
from wdp import example
from wdp.program import ProcessResult
from wdp.texts.answers import ExpectedAnswer, read_report

WORKED = read_text("examples", "worked.report.txt")
REPORT = "group 1 -\nAlpha 1 30\ntotal 30\ncost 0\n"
PRINTING = "printf '%s'" % REPORT.replace("\n", "\\n")
ONE = example.INPUT.split("%groups")[0] + "%groups\n-\n"
PROGRAM = "* program 1 -\nNAME wdp\nROWS\n N OBJ\nCOLUMNS\nRHS\nENDATA\n"
AS_DESCRIBED = "isn't as docs/REFERENCE.md says"


@pytest.fixture
def program(tmp_path: Path) -> Callable[..., wdp.Auction]:
    """A program that is a shell script, and an auction that asks it."""

    def made(lines: str, **how: Any) -> wdp.Auction:
        path = write_script(tmp_path / "program", lines)
        return wdp.Auction.from_text(how.pop("text", ONE), program=path, **how)

    return made


def check_fails(call: Callable[[], object], kind: type[Exception], pattern: str) -> None:
    with pytest.raises(kind, match=pattern) as caught:
        call()
    text = str(caught.value)
    assert type(caught.value) is kind
    assert text.isprintable()
    assert len(text) < 2_000


@pytest.mark.parametrize(
    "text, pattern", parse_rows(read_text("fixtures", "package", "answers.txt"))
)
def test_what_is_no_answer(program: Callable[..., wdp.Auction], text: str, pattern: str) -> None:
    asked = program(text)
    calls: list[Callable[[], object]] = [
        asked.compile,
        partial(asked.report, [""]),
        partial(asked.verify, [""], [""]),
        partial(asked.map, ""),
        partial(asked.check, "NAME"),
        asked.solve,
    ]
    for call in calls:
        check_fails(call, wdp.Unclear, pattern)


FLOOD = "head -c 50000000 /dev/zero | tr '\\0' %s >&2\n"
REFUSAL = "wdp: form 1: 2 Header at record 1"
LATE = "echo 'wdp: write failed after 3 bytes' >&2; exit 1"


def test_what_is_on_standard_error(program: Callable[..., wdp.Auction]) -> None:
    check_fails(program(FLOOD % "x" + "exit 1").compile, wdp.Refused, "^x{400,}")
    last = f"echo '{REFUSAL}' >&2; exit 1"
    check_fails(program(FLOOD % "'\\n'" + last).compile, wdp.Refused, f"^{REFUSAL}$")
    check_fails(program(FLOOD % "x").compile, wdp.Unclear, AS_DESCRIBED)
    # beside an answer it counts for nothing, unless the program is refused
    assert program(FLOOD % "x" + PRINTING).report([""])[0].total == 30
    late = partial(program(PRINTING + "; " + LATE).report, [""])
    check_fails(late, wdp.Refused, "^wdp: write failed after 3 bytes$")


def test_no_program_outlives_its_answer(
    program: Callable[..., wdp.Auction], monkeypatch: pytest.MonkeyPatch, mark: str, tmp_path: Path
) -> None:
    late = program("exec sleep 7000", time_limit=0.2)
    check_fails(late.compile, wdp.Unclear, "gave no answer in 0.2 s, and was ended$")
    monkeypatch.setattr("wdp.program._MOST_OF_MESSAGES", 1_000_000)
    large = "prints more than an answer to this can have, [0-9]+ bytes$"
    check_fails(partial(program("yes").report, [""]), wdp.Unclear, large)
    large = "prints more than 1000000 bytes on standard error$"
    check_fails(partial(program("yes >&2").report, [""]), wdp.Unclear, large)
    wait_for(lambda: not find_processes(mark), 30)
    # what a program leaves running isn't waited for
    assert program("sleep 7000 &\n" + PRINTING).report([""])[0].total == 30
    (left,) = find_processes(mark)
    os.kill(int(left), signal.SIGKILL)
    wait_for(lambda: not find_processes(mark), 30)
    # an interrupt
    asleep = write_script(tmp_path / "asleep", "sleep 7000 & wait")
    ask = f"import wdp; wdp.Auction.from_text({ONE!r}, program={str(asleep)!r}).compile()"
    asking = start([sys.executable, "-c", ask], env=make_environment())
    wait_for(lambda: len(find_processes(mark)) == 3)
    time.sleep(0.5)  # (the program runs before its caller knows of it)
    asking.send_signal(signal.SIGINT)
    assert asking.communicate(timeout=60)[1].endswith(b"\nKeyboardInterrupt\n")
    wait_for(lambda: not find_processes(mark), 30)


def test_what_is_too_large_or_has_no_room_is_refused(
    program: Callable[..., wdp.Auction], monkeypatch: pytest.MonkeyPatch, tmp_path: Path
) -> None:
    deaf = "echo 'wdp: input: too large' >&2; exit 1"
    large = program(deaf, text=ONE + "%form\n" + "x" * 50_000_000)
    check_fails(large.compile, wdp.Refused, "^wdp: input: too large$")
    rules = example.INPUT.split("%rules\n")[1].split("%form")[0]
    large = wdp.Auction(rules=rules, forms=[("Alpha", [("9" * 50_000_000, 1, 0)])])
    check_fails(large.compile, wdp.Refused, "^wdp: form 1: 1 TooLarge$")
    (tmp_path / "rules.csv").write_text(rules)
    (tmp_path / "form.csv").write_bytes(b"Alpha,A,B\n" + b"30,1,0\n" * 7_000_000)
    form = tmp_path / "form.csv"
    from_files = partial(wdp.Auction.from_files, tmp_path / "rules.csv", [form])
    check_fails(from_files, wdp.Refused, "^form 1: .*form.csv: it has more than 8,388,610 bytes$")
    os.truncate(form, 2**40)
    from_sparse = partial(wdp.Auction.from_files, form, [])
    check_fails(from_sparse, wdp.Refused, "more than 8,388,610 bytes$")
    open_full = partial(open, "/dev/full", "r+b", buffering=0)
    monkeypatch.setattr("wdp.program.tempfile.TemporaryFile", open_full)
    why = "can't be given its input, or its answer can't be read: No space left on device$"
    check_fails(wdp.Auction.from_text(ONE).compile, wdp.Unclear, why)


def test_threads_get_the_same_report() -> None:
    auction = wdp.Auction.from_text(example.INPUT)
    with ThreadPoolExecutor(4) as pool:
        seen = list(pool.map(auction.report, [example.SOLUTIONS] * 4))
    assert seen == [auction.report(example.SOLUTIONS)] * 4


def end_with(
    answer: bytes, *_: object, output: IO[bytes] | None = None, **__: object
) -> ProcessResult:
    """A process that has printed an answer, into a file if one is named."""
    if output is None:
        return ProcessResult(0, answer, "")
    output.write(answer)
    return ProcessResult(0, b"", "")


@pytest.fixture
def answered(monkeypatch: pytest.MonkeyPatch) -> Callable[..., Any]:
    """Which of some texts are taken for answers to a call, without a program that gives them."""

    def list_taken(
        call: Callable[[wdp.Auction], object], answers: Iterable[str], text: str = ONE
    ) -> list[str]:
        auction = wdp.Auction.from_text(text)
        taken = []
        for answer in answers:
            run_process = partial(end_with, answer.encode())
            monkeypatch.setattr("wdp.program.run_process", run_process)
            try:
                call(auction)
                taken.append(answer)
            except wdp.Unclear as unclear:
                assert AS_DESCRIBED in str(unclear)
                assert str(unclear).isprintable()
        return taken

    return list_taken


NEAR = """
group 2 Alpha | group 2 Beta
group 2 | group 3
Alpha 1 30 | Alpha 1
total 62 | total 62⏎total 62
cost 8 | cost 8␍
"""


def test_answers_that_are_nearly_right(answered: Callable[..., Any]) -> None:
    given = example.SOLUTIONS, example.CERTIFICATES
    report = lambda auction: auction.report(given[0])  # noqa: E731
    verify = lambda auction: auction.verify(*given, unique="bound 1")  # noqa: E731
    answers = [WORKED[:cut] for cut in range(len(WORKED) + 1)]
    answers += [WORKED.replace(old, new, 1) for old, new in parse_rows(NEAR)]
    beyond = ["unique\n", "tie\ntotal 62\n", "\n", "group 5 -\ntotal 0\ncost 0\n", EVIL]
    answers += [WORKED + more for more in beyond]
    assert answered(report, answers, example.INPUT) == [WORKED]
    beyond = ["unique\n", "", "unique", "unique\nunique\n", "Unique\n", "tie\n", "tie\nBeta 1 20\n"]
    beyond += ["tie\ntotal 62\ntotal 62\n", "tie\ntotal 62\nunique\n"]
    tie = "tie\nBeta 1 20\ntotal 62\n"
    beyond += [f"{tie}unique\n", f"{tie}and more\n", tie, "no other\n", "and more\n"]
    beyond += ["tie\nBeta 1 20\ntotal 61\nno other\n", f"{tie}no other\nno other\n"]
    beyond += [f"{tie * 65}no other\n", f"{tie * 63}and more\n"]
    beyond += [f"{tie}no other\n", f"{tie * 64}and more\n"]
    right = ["unique\n", f"{tie}no other\n", f"{tie * 64}and more\n"]
    answers = [WORKED + more for more in beyond]
    assert answered(verify, answers, example.INPUT) == [WORKED + more for more in right]
    tied = lambda auction: auction.verify(*given, ties=[""])  # noqa: E731
    beyond = ["", tie, tie * 2, f"{tie}no other\n", f"{tie}unique\n"]
    assert answered(tied, [WORKED + more for more in beyond], example.INPUT) == [WORKED + tie]
    all_tied = lambda auction: auction.verify(*given, "bound 1", [""] * 2)  # noqa: E731
    beyond = ["unique\n", f"{tie}no other\n", f"{tie * 3}no other\n"]
    answers = [WORKED + more for more in beyond]
    assert answered(all_tied, answers, example.INPUT) == answers[2:]
    changes = [("-", "Beta"), ("1", "2"), ("ENDATA\n", ""), ("NAME wdp\n", "")]
    answers = [PROGRAM, PROGRAM[:-1], "x" + PROGRAM, PROGRAM * 2, PROGRAM + "\n", PROGRAM[14:]]
    answers += [PROGRAM.replace(old, new, 1) for old, new in changes]
    assert answered(wdp.Auction.compile, answers) == [PROGRAM]
    assert answered(wdp.Auction.compile, [PROGRAM], example.INPUT) == []
    answers = ["total 5", "total 5\ntotal 5\n", "Alpha 1 30\n", "total five\n", "total 5\n\n"]
    assert answered(lambda auction: auction.map(""), answers) == []
    counts = "rows 1 columns 2 entries 3"
    answers = [counts, "rows 1 columns 2\n", f"{counts}\n{counts}\n"]
    assert answered(lambda auction: auction.check(""), answers) == []


def test_no_answer_is_taken_for_another(pytestconfig: pytest.Config) -> None:
    """An answer that was changed is refused, or means something else: nothing of it is passed over."""
    draw = random.Random(7)
    taken = 0
    audit = read_text("examples", "prices.txt")
    verified = run_program(pytestconfig.option.wdp, "verify", audit.encode())
    text, prices, cover, rule = re.split("%(?:prices|cover|rule)\n", audit)
    auction = wdp.Auction.from_text(text)
    report = auction.verify([], [], prices=prices, cover=cover, rule=rule)
    assert report == read_report(verified, ExpectedAnswer(audit.encode()), is_certified=True)
    assert report.is_certified
    expected = ExpectedAnswer(f"{audit}%tie\n".encode())
    right = verified + b"tie\nAlpha 2 50\nGamma 1 12\ntotal 62\n"
    report = read_report(right, expected, is_certified=True)
    for _ in range(5_000):
        answer = bytearray(right)
        for _ in range(draw.randint(1, 3)):
            at = draw.randrange(len(answer))
            new = draw.choice(b"|0|1|-| |\n|a|+|\r|\xff|total 1".split(b"|"))
            answer[at : at + draw.randint(0, 2)] = new
        with contextlib.suppress(wdp.Unclear):
            changed = read_report(bytes(answer), expected, is_certified=True)
            assert changed != report or answer == right, answer
            taken += answer != right
    assert taken


def test_which_program_is_found(tmp_path: Path, monkeypatch: pytest.MonkeyPatch) -> None:
    def find_total(program: Path | str | None = None) -> int:
        return wdp.Auction.from_text(ONE, program=program).report([""])[0].total

    programs = [
        write_script(tmp_path / name, PRINTING.replace("30", str(total)))
        for total, name in enumerate((EVIL, "other", "wdp"), 1)
    ]
    monkeypatch.setenv("WDP", str(programs[1]))
    assert find_total(programs[0]) == 1
    assert find_total() == 2
    monkeypatch.setenv("WDP", "")
    assert wdp.Auction.from_text(ONE).report(["X1_1 1\nX2_1 1\nX3_1 1\n"])[0].total == 62
    monkeypatch.setenv("PATH", f"{tmp_path}:{os.environ['PATH']}")
    monkeypatch.setattr("wdp.program._find_tree", lambda: None)
    assert find_total() == 3
    monkeypatch.setenv("PATH", str(tmp_path / "none"))
    check_fails(find_total, wdp.NotFound, "^the program isn't found: wdp; make install")
    # such as aren't there or can't be started
    (tmp_path / "plain").write_text("no program")
    for path in (tmp_path / f"{EVIL}none", "", "a\0b", tmp_path, tmp_path / "plain"):
        check_fails(partial(find_total, path), wdp.NotFound, "^the program isn't found: ")
    monkeypatch.setenv("WDP", str(tmp_path / "none"))
    check_fails(find_total, wdp.NotFound, "^the program isn't found: ")
    (tmp_path / "garbage").write_bytes(b"\x7fELF" + b"\0" * 100)
    (tmp_path / EVIL).write_text("#!/nothing/x\n")
    for name in ("garbage", EVIL):
        (tmp_path / name).chmod(0o755)
        auction = wdp.Auction.from_text(ONE, program=tmp_path / name)
        check_fails(auction.compile, wdp.NotFound, "can't be started: ")
    (tmp_path / EVIL).unlink()
    check_fails(auction.compile, wdp.NotFound, "can't be started: ")
