"""Calls of the crates again and again, each growth and each start of a thread refused in turn: the tests of the modules `refused`,
as `rt ci` and `rt test` leave them in crates/NAME/out. A run passes, or ends for want of memory where a request of it was refused: a
test makes a call that comes back once more, or compares what the call gives with what it gives with ample memory."""

import re
import subprocess
from pathlib import Path

import pytest
from trials.program_runs import refusals, row, seen
from trials.program import ROOT

CRATES = Path(ROOT, "crates")
NAMES = sorted({path.relative_to(CRATES).parts[0] for path in CRATES.glob("*/src/**/refused.rt")})
# what the test's own function ends with where it hands out of memory on
WANT_OF_MEMORY = re.compile(
    rb"error: (.*\b)?(OutOfMemory|AllocError|AllocFailed|out of memory)\b[^\n]*\n"
    rb"the test failed: its result gives status 1\n"
)


def calls():
    """Each program of tests with the names of those that make refused calls; no name where it isn't built."""
    for name in NAMES:
        program = CRATES / name / "out" / f"{name}_tests"
        listed = ""
        if program.exists():
            run = subprocess.run([program, "--list"], capture_output=True, text=True)
            listed = run.stdout
        for test in re.findall(r"^(\S*\brefused::\S+): test$", listed, re.M) or [""]:
            yield pytest.param(program, test, id=f"{name}-{test}")


@pytest.mark.parametrize("program, test", calls())
def test_each_request_is_refused(failing, tmp_path, program, test):
    assert test, f"{program} isn't built: run rt test in its crate"
    number = 0
    for number, is_refused, env in refusals(failing, tmp_path):
        status, output, said = seen(program, [test], b"", env=env, cwd=tmp_path)
        with row(f"request {number}: status {status}, {said[:300]!r}"):
            is_passed = status == 0 and b"test result: ok" in output
            assert is_passed or is_refused() and WANT_OF_MEMORY.fullmatch(said)
    assert number > 3, "there was no request to refuse"
