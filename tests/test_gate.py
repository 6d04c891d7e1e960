"""What the gate is made of (tools/gate, tools/pages, conftest.py), on made-up checks, tasks, tests and steps: what isn't refused is never
said to be, each task runs once after those that it waits for, and what breaks off, doesn't begin, isn't run or can't be compared has
failed."""

import importlib.machinery
import importlib.util
import itertools
import os
import re
import shutil
import signal
import subprocess
import sys
import time
from types import SimpleNamespace

import pytest
from commands import ROOT, read_text, find_processes, start, wait_for
from gate import schedule, toolchain
from gate.edits import Sources, edit_of
from gate.check_output import is_within, findings_in
from gate.steps import Steps, counts_in
from gate.trial import Trial
from trials.program import list_programs
from trials.program_runs import seen

LIB = read_text("fixtures", "edits", "names.rt.txt")
TAILS = "first second Name::new NameReader::new FaultFromHigh::from FaultFromLow::from".split()
NAMES = [f"names::{name}" for name in TAILS]
OPEN = "no proof: expected answers in ./proofs/x/Answers.antt; `search` did not prove `%s`"
MEASURE = "no proof: expected a measure in ./proofs/names/first/Invariants.antt"
CALLS = "no proof: it calls `c::names::second`, which is not proved"
GONE = "./proofs/names/first_edited_1/Answers.antt:4:1: error: `gone`: `c.seven` is not in scope\n"
# old and new texts of edits
SEVEN = ("    7", "    1")
EIGHT = ("    8", "    1")
NAME = ("made(1)", "made(9)")
READER = ("made(2)", "made(9)")
BROKEN = ("made(1)", "made(")
LOW = ("low.told()", "low.other()")
HIGH = ("high.told()", "high.other()")


def said(statuses, before="", verdict="only=2 holes=1\n"):
    """What a check prints of these functions; the others are proved."""
    every = {**dict.fromkeys(NAMES, "depends on a hole in x"), **statuses}
    return before + "".join(f"fn c::{name}: {status}\n" for name, status in every.items()) + verdict


def copies_are(status, of="first"):
    """A check that says this of the copies of a function, and of it where it is edited in its place."""
    return lambda texts, functions: said({name: status for name in functions if f"::{of}" in name})


def opened(texts, functions, verdict="only=2 holes=1\n"):
    """A check by which each function with an edit has an open promise, and nothing is told of a text that doesn't parse."""
    if any("made(\n" in (text or "") for text in texts.values()):
        return "src/names.rt:1:1: error[unexpected-token]\n"
    return said({name: OPEN % "returns" for name in functions}, verdict=verdict)


@pytest.fixture
def tried(tmp_path):
    def call(pairs, check):
        """Whether each edit is refused and what is said of it, and the texts of the checks."""
        (tmp_path / "src").mkdir()
        (tmp_path / "src" / "names.rt").write_text(LIB)
        sources = Sources(tmp_path)
        edits = []
        checks = []
        for n, pair in enumerate(pairs):
            path = tmp_path / f"e{n}.edit"
            path.write_text("file: src/names.rt\nold: %s\nnew: %s\n" % pair)
            edits.append(edit_of(str(path), sources, None))

        def noted(texts, functions):
            checks.append(texts)
            text = check(texts, functions)
            asked = (it for it in functions if f"fn c::{it}:" not in text)
            rest = "".join(f"fn c::{name}: no holes\n" for name in asked)
            return rest + text if "only=" in text else text

        trial = Trial("c", sources, edits, noted, NAMES)
        return trial.run(), checks

    return call


IN = "refused, as it must be, in names::"
NOT = "NOT REFUSED"
BAD = "BAD EDIT: "
OVERFLOW = NOT + ": only overflow_add isn't shown"
# edits, a check, and the heads of what is said of each (test_edits.py has more, by the toolchain)
ANSWERS = [
    ([SEVEN, ("    7", "    2"), EIGHT, NAME], opened, [IN] * 4),
    ([SEVEN, EIGHT], copies_are(OPEN % "returns", "second"), [NOT, IN]),
    ([SEVEN], lambda *_: said({"names::second": OPEN % "returns"}), [NOT]),
    ([SEVEN], copies_are(OPEN % "overflow_add"), [OVERFLOW]),
    ([SEVEN], copies_are(MEASURE), [IN + "first: that it returns"]),
    ([SEVEN], copies_are(CALLS), [NOT + ": the check says nothing"]),
    ([SEVEN], lambda *it: opened(*it, ""), [BAD + "the check says nothing"]),
    ([BROKEN, SEVEN, EIGHT, READER], opened, [BAD, IN, IN, IN]),
    ([NAME, READER], copies_are(OPEN % "returns", "NameReader"), [NOT, IN]),
    ([LOW, HIGH], copies_are(OPEN % "returns", "FaultFromLow"), [IN, NOT]),
]


@pytest.mark.parametrize("pairs, check, wanted", ANSWERS)
def test_answers(tried, pairs, check, wanted):
    answers, _ = tried(pairs, check)
    for (is_refused, why), head in zip(answers, wanted, strict=True):
        assert is_refused == head.startswith(IN) and why.partition(": ")[2].startswith(head)


@pytest.mark.parametrize("then, is_refused", [(OPEN % "returns", True), ("no holes", False)])
def test_answers_that_name_what_is_gone_are_left_out(tried, tmp_path, then, is_refused):
    path = "proofs/names/%s/Answers.antt"
    (tmp_path / (path % "first")).parent.mkdir(parents=True)
    head = "use a\n\n"
    more = "pub more : goal.more\nmore c = c.eight\n"
    text = head + "pub gone : goal.gone\ngone c = c.seven\n\n" + more
    (tmp_path / (path % "first")).write_text(text)

    def check(texts, functions):
        is_gone = "gone" in texts.get(path % "first_edited_1", "")
        return said({functions[0]: "not proved" if is_gone else then}, GONE if is_gone else "")

    answers, checks = tried([SEVEN], check)
    assert answers[0][0] == is_refused and checks[1][path % "first_edited_1"] == head + more


GOALS = {"expected type `1 ≡ 7`": 1, "`c` has no field `seven`": 0, "`c` is not in scope": 0}


@pytest.mark.parametrize("goal, is_open", GOALS.items())
def test_an_answer_that_does_not_hold(goal, is_open):
    line = f"./proofs/names/first/Answers.antt:5:9: error: `returns`: {goal}\n"
    told = findings_in(said({"names::first": "not proved"}, line))["names::first"]
    assert (told.goals, told.lost) == ((["returns"], []) if is_open else ([], ["returns"]))


def test_closures():
    mine = ["names::first", "names::fn::first::any", "names::fn::first::fn::any::map"]
    others = ["names::first::other", "names::first::fn::other::any", "names::fn::first_of::any"]
    assert [is_within(name, "names::first") for name in mine + others] == [True] * 3 + [False] * 3
    assert is_within("fn::first::any+FnMut::call_mut", "first")


def test_what_an_earlier_run_refused_is_not_tried_again():
    """An edit's name has the edit and what its crate's proof read; what isn't refused, or is of files that were touched, isn't kept."""
    tried = []
    store = {}
    words = {"REFUSED": "refused", "MISSED": "missed"}
    rt = SimpleNamespace(add_edits=None, need=lambda crate: 7, **words)
    crate = SimpleNamespace(name="c", count=lambda pattern: 50)

    def try_all(crate, edits, flags):
        tried.append(edits)
        return [(edit != "b", f"{edit} tried") for edit in edits]

    def run(sources, is_untouched, is_well=True):
        kept = SimpleNamespace(
            key=lambda crate: sources,
            of_edit=lambda edit, key: (edit, key),
            tried=store.get,
            keep_tried=lambda name, kind, text: store.update({name: (kind, text)}),
            is_untouched=lambda crate: is_untouched,
        )
        tasks = {}
        results, _ = rt.add_edits(tasks, crate, list("abc"), [], [], lambda *_: is_well, kept)
        tried.clear()
        return results({("c", "edits"): tasks["c", "edits"][3]({}, 1)}), sum(tried, [])

    toolchain.replace_trial(rt, try_all)
    all_told = [("missed" if it == "b" else "refused", f"{it} tried") for it in "abc"]
    assert run("one", False) == run("one", True) == (all_told, ["a", "b", "c"])
    assert run("one", True) == (all_told, ["b"])
    assert run("two", True) == (all_told, ["a", "b", "c"])
    assert run("one", False, is_well=False) == ([], [])


MEMORY = (-1, 0, 3 * 10**9, 10**15)


@pytest.mark.parametrize("processors, memory", itertools.product((1, 2, 4, 64), MEMORY))
def test_each_task_once_and_none_before_those_it_waits_for(capsys, processors, memory):
    ended = []
    tasks = {}

    def call_of(key):
        def call(given, jobs):
            time.sleep(0.002)
            ended.append(key)
            assert set(tasks[key][0]) <= set(given) and 1 <= jobs <= processors
            return key

        return call

    for n in range(12):
        proof, tests, edits = ((f"c{n}", kind) for kind in ("proof", "tests", "edits"))
        below = [(f"c{it}", "proof") for it in range(n) if n % (it + 2) == 0]
        tasks[proof] = below, 100 * n + 1, 10**9 * (n % 5), call_of(proof)
        tasks[tests] = below, 50 * (n % 3), 10**9, call_of(tests)
        tasks[edits] = [proof, tests], 70 * (n % 4), 10**9 * n, call_of(edits)
    assert schedule.Lanes(tasks, processors, memory).run() == {key: key for key in tasks}
    assert sorted(ended) == sorted(tasks)


def test_tasks_that_cannot_end(capsys):
    def call(given, jobs):
        raise OSError("no room")

    first = ("a", "proof")
    second = ("b", "proof")
    with pytest.raises(ValueError):
        schedule.Lanes({first: ([second], 1, 1, call), second: ([first], 1, 1, call)}, 2, 10).run()
    with pytest.raises(OSError):
        schedule.Lanes({first: ([], 1, 1, call), second: ([first], 1, 1, call)}, 2, 10).run()


def test_without_rt(tmp_path):
    here = {"cwd": tmp_path, "env": {"PATH": str(tmp_path)}}
    came = seen("/usr/bin/python3", [f"{ROOT}/tools/prove"], b"", **here)
    assert (came[0], came[1].splitlines()[-1], came[2]) == (2, b"0 passed, 1 failed", b"")


def test_each_step_takes_the_programs(tmp_path):
    loader = importlib.machinery.SourceFileLoader("whole_gate", str(ROOT / "test"))
    gate = importlib.util.module_from_spec(importlib.util.spec_from_loader("whole_gate", loader))
    loader.exec_module(gate)
    found = {name: shutil.copy("/bin/true", tmp_path / name) for name in list_programs()}
    _, command = gate.on_programs({name: str(path) for name, path in found.items()})[-1]
    came = subprocess.run([*command, "--collect-only", "-q"], cwd=ROOT, capture_output=True)
    assert (came.returncode, came.stderr) == (0, b"")


HEAD = "import pytest, os\n\ndef test_one():\n    pass\n\n"
TWO = "def test_two():\n    assert 1 == 2\n"
SKIPPED = HEAD + "@pytest.mark.skip('numpy isn\\'t there')\n" + TWO
FIXTURE = HEAD + "@pytest.fixture\ndef made():\n    %sraise OSError('no')\n\n"
FIXTURE += "def test_two(made): pass\n"
ENDING = HEAD + "def test_two():\n    os._exit(0)\n"
NO_ROW = HEAD + "@pytest.mark.parametrize('row', [])\ndef test_two(row): pass\n"
# what a file of tests has, further words, and how many pass and fail; None where it isn't counted at all
FILES = {
    "all pass": (HEAD, "", (1, 0)),
    "one fails": (HEAD + TWO, "", (1, 1)),
    "one fails beside others": (HEAD + TWO, "-n 2", (1, 1)),
    "none is chosen": (HEAD, "-k three", (0, 0)),
    "a fixture fails": (FIXTURE % "", "", (1, 1)),
    "what follows a test fails": (FIXTURE % "yield\n    ", "", (2, 1)),
    "nothing can be read": ("def test_one(:\n", "", (0, 1)),
    "no test": ("", "", None),
    "a test ends the process": (ENDING, "", None),
    "a test ends its process": (ENDING, "-n 2", (1, 1)),
    "a test isn't run": (SKIPPED, "", (1, 1)),
    "a test isn't run beside others": (SKIPPED, "-n 2", (1, 1)),
    "no test is run": ("import pytest\npytest.skip('no', allow_module_level=True)\n", "", (0, 1)),
    "no row": (NO_ROW, "", (0, 1)),
    "one is known to fail": (HEAD + "@pytest.mark.xfail\n" + TWO, "", (1, 1)),
    "no such file": (None, "", None),
    "no such program": (HEAD, "--wdp /etc/passwd", None),
}


def run_tests(folder, text, words, **env):
    (folder / "conftest.py").symlink_to(ROOT / "conftest.py")
    if text is not None:
        (folder / "test_it.py").write_text(text)
    paths = ":".join(f"{ROOT}/{name}" for name in ("tools", "python/src", "python/tests"))
    how = {"env": {**os.environ, "PYTHONPATH": paths, **env}, "cwd": folder, "timeout": 120}
    words = ["-c", f"{ROOT}/pytest.ini", "--rootdir", folder, *words.split(), "test_it.py"]
    return seen("/usr/bin/python3", ["-m", "pytest", *words], b"", **how)


@pytest.mark.parametrize("text, words, counts", FILES.values(), ids=FILES)
def test_tests_are_counted(tmp_path, text, words, counts):
    status, output, _ = run_tests(tmp_path, text, words)
    assert counts_in(output) == counts, output
    # (a test that ends the process may have any status: it isn't counted)
    assert counts is None or (status == 0) == (counts[0] > 0 == counts[1])


@pytest.mark.parametrize("text, status", [(SKIPPED, 0), (HEAD, 1)], ids=["missed", "not missed"])
def test_a_library_that_is_hidden_has_to_be_missed(tmp_path, text, status):
    came, output, _ = run_tests(tmp_path, text, "", WITHOUT_LIBRARIES="numpy")
    assert (came, counts_in(output)) == (status, (1, 0))


# what a step does, and how many pass and fail
STEPS = {
    "echo said; echo 3 passed, 0 failed": (3, 0),
    "echo 3 passed, 0 failed; exit 1": (3, 1),
    "echo 3 passed, 0 failed; kill -9 $$": (3, 1),
    "echo '== 2 failed, 3 passed, 1 error in 61.02s (0:01:01) =='; exit 1": (3, 3),
    "echo 3 passed, 1 skipped, 2 warnings in 0.10s": (3, 0),
    "echo done": (0, 1),
    "": (0, 1),
    "exec /no/such/command": (0, 1),
    "echo 3 passed, 0 failed; echo and then it broke off": (0, 1),
    "printf '\\377 three'; echo; echo 1 passed, 0 failed >&2": (1, 0),
}


@pytest.mark.parametrize("text, counts", STEPS.items(), ids=STEPS)
def test_steps_are_counted(capfdbinary, text, counts):
    steps = Steps("/")
    for at_once in (False, True):
        is_well = steps.run("a step", ["sh", "-c", text], shows_at_once=at_once)
        assert (is_well, steps.sums()) == (counts[1] == 0, counts)
        assert "3 passed" not in text or b"3 passed" in capfdbinary.readouterr().out


def test_a_step_that_is_run_again_counts_once_and_one_that_is_refused_counts(tmp_path, capfd):
    steps = Steps(str(tmp_path))
    again = "mkdir was || { echo 2 passed, 0 failed; exit; }; "
    step = "second", ["sh", "-c", again + "echo 1 passed, 1 failed; exit 1"]
    assert steps.run_from([("first", ["echo", "3 passed, 0 failed"]), step], 2) == [step]
    assert (steps.sums(), steps.run(*step), steps.sums()) == ((4, 1), True, (5, 0))
    steps.refuse("third", "it can't be run")
    assert (steps.report(), capfd.readouterr().out.splitlines()[-1]) == (1, "5 passed, 1 failed")


@pytest.mark.parametrize("number", [signal.SIGTERM, signal.SIGINT, signal.SIGHUP])
def test_a_run_that_is_ended_leaves_nothing(number):
    text = f"""import sys; sys.path.insert(0, {str(ROOT / 'tools')!r}); sys.dont_write_bytecode = True
from gate.steps import Steps; steps = Steps('/'); steps.stop_on_signals()
steps.run_from([(str(n), ['sh', '-c', 'sleep 61.37 & wait']) for n in range(3)], 2)"""
    mark = f"{number} of {os.getpid()}"
    how = {"stderr": subprocess.STDOUT, "env": {**os.environ, "STARTED_BY": mark}}
    ending = start([sys.executable, "-c", text], **how)
    # (itself, and of each of two steps the shell and what it waits for)
    wait_for(lambda: len(find_processes(mark)) == 5)
    ending.send_signal(number)
    told = ending.communicate(timeout=20)[0]
    assert (ending.returncode, len(re.findall(rb"ended with status -9", told))) == (128 + number, 2)
    assert find_processes(mark) == []


@pytest.fixture
def pages(tmp_path):
    """A tree whose tools, pages and refused texts may be changed, and a call of its tools/pages, by a toolchain without libraries."""
    copied = ("tools", "docs", "fixtures")
    for name in copied:
        shutil.copytree(ROOT / name, tmp_path / name)
    for path in ROOT.iterdir():
        if path.name not in (*copied, ".git"):
            (tmp_path / path.name).symlink_to(path)
    kit = tmp_path / "kit"
    for folder in (kit / "bin", kit / "rattle"):
        folder.mkdir(parents=True)
    (kit / "bin" / "rt").touch(mode=0o755)

    def call(path, old, new):
        text = (tmp_path / path).read_text()
        assert old in text
        (tmp_path / path).write_text(text.replace(old, new, 1))
        how = {"cwd": tmp_path, "env": {"PATH": f"{kit}/bin"}, "timeout": 300}
        return seen("/usr/bin/python3", [f"{tmp_path}/tools/pages"], b"", **how)

    return call


COMPILE = "answers/src/commands/compile.rt | write_programs.faithful"
FITS = "auction_terms.Packages.fits"
MISSING = "can't be read: No such file or directory"
# a file, what is changed in it, and what is said of the change
ABSENT = {
    "clause": (
        "tools/pages",
        COMPILE,
        COMPILE.replace("faithful", "faithless"),
        "a promise names write_programs.faithless, and write_programs of compile.rt hasn't a clause faithless",
    ),
    "function": (
        "tools/pages",
        COMPILE,
        COMPILE.replace("write_programs", "run_away"),
        "a promise names run_away, which isn't a public function of compile.rt",
    ),
    "source": (
        "tools/pages",
        COMPILE,
        COMPILE.replace("compile.rt", "none.rt"),
        f"crates/answers/src/commands/none.rt {MISSING}",
    ),
    "definition": (
        "docs/PROOFS.md",
        FITS,
        FITS.replace("fits", "misfits"),
        "PROOFS.md shows auction_terms.Packages.misfits, and its file has no such definition",
    ),
    "file of definitions": (
        "docs/PROOFS.md",
        FITS,
        FITS.replace("Packages", "Parcels"),
        f"crates/auction_terms/specs/Parcels.antt {MISSING}",
    ),
    "quoted text": (
        "docs/REFERENCE.md",
        "text examples/worked.txt",
        "text examples/none.txt",
        f"examples/none.txt {MISSING}",
    ),
    "rt": (
        "tools/pages",
        'which("rt")',
        'which("no rt")',
        "there is no rt on the path, or no libraries beside it",
    ),
}


@pytest.mark.parametrize("path, old, new, line", ABSENT.values(), ids=ABSENT)
def test_what_pages_name_and_is_not_there(pages, path, old, new, line):
    status, output, errors = pages(path, old, new)
    last = output.decode().splitlines()[-2:]
    assert (status, last, errors) == (1, [f"tools/pages: {line}", "0 passed, 1 failed"], b"")


# the last fault of groups, and those of rules from number 9 on, as if they were newer than version 2.0.0
FIVE_NEW = ("fixtures/faults.txt", "groups_text.rt 5", "groups_text.rt 4")
NINE_NEW = ("fixtures/faults.txt", "rules_text.rt 13", "rules_text.rt 8")
# a file, what is changed in it, and what is said of the change
WITHOUT_WORDS = {
    "row": (
        "fixtures/faults.txt",
        "no line for `K`: ",
        "",
        "fixtures/faults.txt: no words say what is wrong at wdp: solution 1: 7 BoundBroken at column K",
    ),
    "script": (
        "tools/try_edits",
        '"""Tries the',
        'import re\n"""Tries the',
        "tools/try_edits doesn't begin with a sentence on what it is for",
    ),
    "row of a fault": (
        "fixtures/faults.txt",
        "`Beta+Gamma` → `Beta+Beta`: `wdp: groups: 4 RepeatedBidder at line 4`\n",
        "",
        "fixtures/faults.txt has no row of groups: 4 RepeatedBidder",
    ),
    "value of a new fault": (
        *FIVE_NEW,
        "no row of crates/*_tests is refused as groups: 5 TooManyGroups",
    ),
    "edit of a new fault": (
        *FIVE_NEW,
        "no crate has an edit must-fail/*.too_many_groups_accepted.edit for groups: 5 TooManyGroups",
    ),
    "new fault in CHANGELOG": (
        *FIVE_NEW,
        "CHANGELOG.md doesn't name groups: 5 TooManyGroups",
    ),
    "planted new fault": (
        *NINE_NEW,
        "tools/trials/planted.py plants no rules: 9 TooMany",
    ),
    "what is checked after a new fault": (
        *NINE_NEW,
        "docs/REFERENCE.md doesn't say what is checked after rules: 9 TooMany",
    ),
    "list": (
        "docs/CONTRIBUTING.md",
        "- `prices`: ",
        "- `prices` ",
        "CONTRIBUTING.md: 'map' is stale: tools/pages --write writes it anew",
    ),
}


@pytest.mark.parametrize("path, old, new, line", WITHOUT_WORDS.values(), ids=WITHOUT_WORDS)
def test_what_does_not_say_what_it_is(pages, path, old, new, line):
    status, output, _ = pages(path, old, new)
    assert status == 1 and f"failed: {line}" in output.decode().splitlines()
