"""The trial of edits on the crate of fixtures/edits/lib.rt.txt, with edits that aren't what they have to be, and what has to be
said of each (edits.txt). It needs the toolchain's `rt`, whose gate refuses sources outside of crates.

Each check takes some 25 s of a processor. So there is one edit of a kind, and an edit that doesn't parse, which has each half of a
crate's edits tried, is alone in a second crate. (tests/test_gate.py has more kinds, on made-up checks.)
"""

import re
import subprocess

import pytest
from commands import ROOT

FIXTURE = ROOT / "fixtures/edits"
# the pairs of old and new text of each, and what is said, as a regular expression
EDITS = {}
for text in (FIXTURE / "edits.txt").read_text().split("\n\n"):
    head, _, pairs = text.partition("\n")
    name, _, answer = head.partition(": ")
    EDITS[name if "/" in name else f"sample/{name}"] = pairs, answer


@pytest.fixture(scope="module")
def tried(tmp_path_factory):
    folder = tmp_path_factory.mktemp("edits")
    crates = sorted({name.split("/")[0] for name in EDITS})
    (folder / "crates.txt").write_text("".join(f"{crate}:\n" for crate in crates))
    (folder / "HANDLES").write_text("Handles allowed: none.\n")
    for crate in crates:
        for part in ("src", "must-fail"):
            (folder / "crates" / crate / part).mkdir(parents=True)
        source = (FIXTURE / "lib.rt.txt").read_bytes()
        (folder / "crates" / crate / "src/lib.rt").write_bytes(source)
    for name, (pairs, _) in EDITS.items():
        crate, _, edit = name.partition("/")
        text = f"file: src/lib.rt\n{pairs.strip()}\n"
        (folder / "crates" / crate / "must-fail" / f"{edit}.edit").write_text(text)
    subprocess.run(["git", "init", "-q", folder], check=True)
    words = [ROOT / "tools/try_edits"]
    how = {"stdin": subprocess.DEVNULL, "capture_output": True, "text": True}
    run = subprocess.run(words, cwd=folder, **how)
    print(run.stderr, run.stdout)
    return run.returncode, run.stdout


@pytest.mark.parametrize("name", EDITS)
def test_edit(tried, name):
    (line,) = (line for line in tried[1].split("\n") if f"{name}.edit: " in line)
    assert re.search(r"\.edit: " + EDITS[name][1], line)


def test_counts(tried):
    refused = sum(answer.startswith("refused") for _, answer in EDITS.values())
    end = f"{refused} passed, {len(EDITS) - refused} failed\n"
    assert tried[1].endswith(end) and tried[0] == 1
