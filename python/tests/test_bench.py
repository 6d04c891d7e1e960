"""Each script of bench/ runs, at its smallest size, and its generators print inputs that `wdp` accepts."""
import os
import re
import subprocess
from collections.abc import Sequence

import pytest
from commands import EXAMPLES, ROOT, read_text, make_environment, run_program, parse_rows

BENCH = ROOT / "bench"
# what isn't run: modules that scripts import, and what `hostile` compiles
PARTS = {
    "README.md",
    "measuring.py",
    "hostile_texts",
    "desk_trials",
    "colliding_names.c",
    "__pycache__",
}
# what needs LibreOffice
PARTS |= {"shown_workbooks"}

# generators: their words, and how many columns group 1's program has and groups there are
GENERATORS = """
make_input 1 1 1 1 | 1 1
make_input 3 5 2 4 --values --pools 1 | 15 4
near_tied 1500 | 140 1
near_tied 1000000000 --variant 3 | 140 1
near_target 1 1 1 1 | 1 1
near_target 3 6 4 7 | 18 7
near_target 4 6 4 5 --close --pool | 24 5
near_target 4 6 4 5 --winners 4 --variant 2 | 24 5
supplementary_bids 1 1 1 1 | 1 1
supplementary_bids 3 6 4 7 | 18 7
supplementary_bids 2 24 3 2 --variant 2 | 48 2
small_auctions 1 | 400 21
small_auctions 7 | 320 9
small_auctions 8 | 320 9
"""


def run_script(wdp: str, words: Sequence[object], *, statuses: Sequence[int] = (0,)) -> str:
    """What a script prints, if it ends with one of these statuses."""
    ran = subprocess.run(
        [BENCH / words[0], *map(str, words[1:])],
        env=make_environment(WDP=wdp),
        capture_output=True,
        text=True,
        timeout=600,
    )
    assert ran.returncode in statuses, ran
    return ran.stdout


@pytest.mark.parametrize("words, size", parse_rows(GENERATORS))
def test_a_generator_makes_an_auction_of_its_size(wdp: str, words: str, size: str) -> None:
    text = run_script(wdp, words.split())
    assert text == run_script(wdp, words.split())
    most, groups = map(int, size.split())
    programs = run_program(wdp, "compile", text.encode()).split(b"* program ")[1:]
    assert len(programs) == groups
    # (a bid that another one beats has no column)
    assert 1 <= programs[0].count(b" OBJ ") <= most + 1


def test_what_a_generator_refuses(wdp: str) -> None:
    assert run_script(wdp, ["near_tied", "1499"], statuses=[2]) == ""
    assert run_script(wdp, ["near_target", "0", "1", "1", "1"], statuses=[2]) == ""
    assert run_script(wdp, ["supplementary_bids", "1", "4001", "1", "1"], statuses=[2]) == ""
    assert run_script(wdp, ["small_auctions", "13"], statuses=[2]) == ""


MEASURING = {
    "certificates": ["--rounds", "1", "--wdp", "@", "--input", EXAMPLES / "worked.txt"],
    "outcomes": ["near_target 3 6 4 3", EXAMPLES / "worked.txt", "--before", ROOT, "--cbc", "1"],
    "peers": ["--rounds", "1", "--wdp", "@", "explain"],
    "hostile": ["--rounds", "1", "--wdp", "@", "submitted"],
    "desk": ["load", "--sessions", "2", "--bids", "1-2", "--port", "18480"],
    "filter": ["random", "100"],
    "hostile_workbooks": ["lying"],
    "workers": ["--rounds", "1", "--wdp", "@", "--before", "@", "--solver", "@solve"],
    "solve": ["--solver", "@solve", "--wdp", "@", "--ties", "--cbc", EXAMPLES / "worked.txt"],
    "many_workbooks": ["2", "--bids", "3", "--before", ROOT],
    "mutated_workbooks": ["20"],
    "damaged_folders": ["--replace", "report.txt cut"],
    "bare_machine": ["--list"],
}
SHOWN = {
    "certificates": "(?s).*that nobody wins more: made in .*prices: made in .*that nobody else wins as much: made in",
    "outcomes": r"(?s).*before: [\d.]+ s, \d+ MB, status 0, verified\n  now: [\d.]+ s, \d+ MB, status 0, verified\n"
    r"  of 4 groups 4 have the same total, 4 the same cost, 4 the same winners; the prices come to 30 before and to 30 now\n"
    r"  cbc alone, 1 groups",
    "peers": r"(?s).*\| explain",
    "desk": r"(?s)2 sessions at once.*\n  floor .*'accepted': 2.*\n  service .*'accepted': 2.* the floor's processor time, .*\nright\n$",
    "filter": r"\{.*\}\n100 calls, 0 replies or entries differ\n$",
    "hostile": r"(?s).*\| submitted .*\n\n[01] within bounds, [01] beyond\n$",
    "hostile_workbooks": r"(?s).*\| lying .*\n\n[01] within bounds, [01] beyond\n$",
    "workers": r"(?s).*\n\| `compile` \| 1 \|( [\d.]+ \|){4}\n.*\n\| `verify` \| 64 \|( [\d.]+ \|){4}\n$",
    "solve": r"\| worked\.txt \| \d+ \| 4 \| [\d.]+ \| \d+ \| 0 \| [\d.]+ \|\n$",
    "many_workbooks": r"(?s).*\n\| 2 (\| [\d.]+ \| [\d.]+ \| \d+ ){2}\|\n$",
    "mutated_workbooks": r"\d+ read, \d+ refused, 0 in tracebacks\n$",
    "damaged_folders": r"awards/2/report\.txt cut: refused\nreport\.txt cut: refused\n0 made again, 2 refused, 0 not needed, 0 wrong\n$",
    "bare_machine": r"(?s)README.md:\n  \./wdp text examples/one_form\.txt\n.*docs/OFFICE.md:\n  apt-get .*docs/PYTHON.md:\n  apt-get .*"
    r"installs:\n  make install && wdp --version\n",
}
# (on a machine that does other work a time may be beyond its bound)
STATUSES = {"hostile": (0, 1), "hostile_workbooks": (0, 1)}


@pytest.mark.parametrize("name", MEASURING)
def test_scripts_that_measure(wdp: str, wdp_solve: str, name: str) -> None:
    programs = {"@": wdp, "@solve": wdp_solve}
    words = [programs.get(str(word), word) for word in MEASURING[name]]
    printed = run_script(wdp, [name, *words], statuses=STATUSES.get(name, (0,)))
    assert re.match(SHOWN[name], printed)


# (those that need root, or a minute, aren't run here)
TRIALS = r"""
desk kills --rounds 2 --sessions 2 --port 18481 | \{'starts': 2, .*\}\n\d+ receipts, 0 lost or wrong; \d+ entries\nright\n$
desk sync --rounds 1 --sessions 2 --port 18482 | \{'starts': 1, .*\}\n\d+ receipts, 0 lost or wrong; \d+ entries\nright\n$
filter kills 2 | 2 kills, \{.*\}\n0 replies without their entries\n$
filter damage 4 | \{.*\}\n4 damaged journals, 0 wrong verdicts\n$
filter speed 20 | desk: \d+ a second\nalone: \d+ a second\n[\d.]+ times .* alone\nat once: 256000 replies, \d+ a second, \d+ MB\n$
"""


@pytest.mark.parametrize("words, shown", parse_rows(TRIALS))
def test_trials_of_a_desk(wdp: str, wdp_desk: str, words: str, shown: str) -> None:
    assert re.match(shown, run_script(wdp, words.split()))


def test_outcomes_measures_the_step_of_each_group(wdp: str) -> None:
    printed = run_script(wdp, ["outcomes", "--groups", EXAMPLES / "worked.txt"])
    rows = "".join(
        rf"  {row}: [\d.]+ s, cbc [\d.]+ s(, beyond)?\n"
        for row in ["1 -", "2 Alpha", "3 Beta", "4 Beta\\+Gamma"]
    )
    assert re.search(rows + r"  \d groups are within three times cbc's time or 3 s\n$", printed)


def test_outcomes_stops_a_run(wdp: str) -> None:
    printed = run_script(wdp, ["outcomes", "--stop", "0.01", EXAMPLES / "worked.txt"])
    assert re.search(
        r"\n  now: [\d.]+ s, \d+ MB, status -?\d+, no audit, 0 certificates\n$", printed
    )


def test_each_script_is_run() -> None:
    run = {words.split()[0] for words, _ in parse_rows(GENERATORS)} | {*MEASURING}
    assert run == {*os.listdir(BENCH)} - PARTS
    for name in run:
        assert os.access(BENCH / name, os.X_OK)


def test_each_kind_of_hostile_text_is_printed(wdp: str) -> None:
    kinds = subprocess.run(
        [BENCH / "hostile", "--print", "no kind", "1"], capture_output=True, text=True
    ).stderr.partition("they are ")[2]
    names = kinds.strip().split(", ")
    assert len(names) > 20
    for kind in names:
        assert run_script(wdp, ["hostile", "--print", kind, "3"])


def test_the_page_names_scripts_that_are_there() -> None:
    named = re.findall(r"`bench/(\w+)", read_text("bench", "README.md"))
    assert {*named} <= {*os.listdir(BENCH)}
