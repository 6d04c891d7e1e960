"""Runs of wdp-office on the files of fixtures/office/folder, as fixtures/office/runs.txt has them."""
import shlex
import shutil
import subprocess
import sys
from pathlib import Path

import pytest

from commands import (
    EXAMPLES,
    ROOT,
    OfficeFolder,
    find_processes,
    make_environment,
    matches,
    parse_rows,
    read_text,
    run,
    wait_for,
)

RUNS = parse_rows(read_text("fixtures", "office", "runs.txt"))


@pytest.mark.parametrize("change, words, status, said", RUNS)
def test_a_run_ends_as_its_row_says(
    office: OfficeFolder,
    monkeypatch: pytest.MonkeyPatch,
    mark: str,
    change: str,
    words: str,
    status: str,
    said: str,
) -> None:
    """What is refused has no output, and nothing is changed or left at work; what gather says of
    faults, explain says, too.
    """
    monkeypatch.chdir(office.folder)
    for path in (*EXAMPLES.glob("worked*"), ROOT / "fixtures/solvers/three.mps"):
        shutil.copy(path, office.folder)
    environment = make_environment(OFFICE=f"{sys.executable} -m wdp")
    subprocess.run(["sh", "-ec", change], check=True, cwd=office.forms, env=environment)
    if Path("wdp").exists():
        monkeypatch.setenv("WDP", str(office.folder / "wdp"))
    arguments = shlex.split(words.replace("@", "rules.csv forms groups.txt"))
    before = office.snapshot()
    seen = run(*arguments)
    assert seen.status == int(status), seen
    assert matches(said, "^" + (seen.err or seen.out)), seen
    assert office.snapshot() == before
    assert all(map(str.isprintable, seen.err.splitlines()))
    wait_for(lambda: not find_processes(mark), 30)
    if seen.status:
        # (what explain is asked for are faults)
        is_listed = words.startswith("explain") and seen.err == ""
        assert is_listed or seen.out == "", seen
        has_more = is_listed or words.startswith(("gather", "certify"))
        assert has_more or seen.err.count("\n") == 1, seen
    elif words.startswith("gather"):
        assert seen.out.startswith("%rules\n"), seen
    if words.startswith("gather @") and status == "1" and "--output" not in words:
        *faults, _ = seen.err.splitlines()
        assert run("explain", *arguments[1:]).out.splitlines()[: len(faults)] == faults
