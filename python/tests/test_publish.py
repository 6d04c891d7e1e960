"""What is published of an auction: the page's own figures beside the report's, what certifies, and
what is refused. (test_page.py has how the page looks.)
"""
import json
import os
import re
from pathlib import Path
from typing import Any, NamedTuple

import pytest
from commands import (
    REPORTED,
    SCHEMA,
    check_stopped,
    hide_library,
    limit_files,
    read_text,
    run,
    run_program,
)
from results_folder import (
    CERTIFICATES,
    FILES,
    SOLUTIONS,
    TIE,
    TIE_AUDIT,
    TIE_REPORT,
    TIED_AUDIT,
    Page,
    ResultsFolder,
    compute_digest,
    read_audit,
    read_example,
)

from wdp import files
from wdp.publish.csv_files import format_cell

POOL, POOL_REPORT = read_example("worked_pool")
POOL_TEXT = read_text("fixtures", "office", "results.txt")
UNIT = "All amounts, prices, reserves, values and costs are in GBP."
POOL_OPTIONS = ["--text", "--currency", "GBP", "--title", "Award of low bands"]


@pytest.fixture
def folder(tmp_path: Path) -> ResultsFolder:
    return ResultsFolder(tmp_path)


class Published(NamedTuple):
    """An example's input and report, and the folder and the page of its results."""

    data: str
    report: str
    folder: ResultsFolder
    page: Page


@pytest.fixture(scope="module", params=REPORTED)
def published(
    request: pytest.FixtureRequest, tmp_path_factory: pytest.TempPathFactory
) -> Published:
    data, report = read_example(request.param)
    folder = ResultsFolder(tmp_path_factory.mktemp(request.param))
    return Published(data, report, folder, folder.publish(data, report))


def read_first_winners(report: str) -> dict[str, int]:
    """The amounts of the winners of a report's first group, by their names."""
    lines = re.findall(r"(?m)^(\w+) \d+ (\d+)$", report.split("group 2 ")[0])
    return {name: int(amount) for name, amount in lines}


def format_report(page: Page) -> str:
    """The report of a page's groups, with the winners' names alone in one line."""
    text = ""
    for number, left_out, total, cost, winners in page.list_rows("groups")[1:]:
        names = left_out.replace(", ", "+").replace("nobody", "-")
        won = winners.replace("nobody", "")
        text += f"group {number} {names}\n{won}\ntotal {total}\ncost {cost}\n"
    return re.sub(",(?! )", "", text)


def join_winners(report: str) -> str:
    """A report, with the winners' names of each group alone in one line."""
    text = re.sub(r"(?m)^(\w+) \d+ (\d+)\n", r"\1, ", report)
    return re.sub(r"(?m)^((?:\w+, )*)total", lambda match: match[1][:-2] + "\ntotal", text)


def test_the_folder_has_the_files(published: Published) -> None:
    assert sorted(os.listdir(published.folder.out)) == FILES


def test_the_input_is_known_by_its_digest(published: Published) -> None:
    assert published.folder.read_figures()["input_sha256"] == compute_digest(published.data)


def test_the_groups_of_the_page_are_those_of_the_report(published: Published) -> None:
    assert format_report(published.page) == join_winners(published.report)


def test_the_bidders_of_the_page_are_those_of_the_report(published: Published) -> None:
    first = read_first_winners(published.report)
    costs = dict(re.findall(r"(?m)^group \d+ (\w+)\n(?:.*\n)*?cost (\d+)", published.report))
    _, *bidders, _ = published.page.list_rows("bidders")
    for bidder, amount, cost, *_ in bidders:
        assert amount == f"{first.get(bidder, 0):,}"
        assert cost == (f"{int(costs[bidder]):,}" if bidder in costs else "not asked for")


def test_the_amounts_of_the_page_add_up(published: Published) -> None:
    amounts = read_first_winners(published.report).values()
    assert published.page.list_rows("bidders")[-1][1] == f"{sum(amounts):,}"


# of each table keys of the JSON, and the columns of the page that have the same figures
COLUMNS: dict[str, tuple[list[str], list[int]]] = {
    "bidders": (["amount", "reserve"], [1, 3]),
    "groups": (["total", "cost"], [2, 3]),
    "categories": (
        ["name", "supply", "sold", "unsold", "reserve", "value", "value_left"],
        [0, 1, 2, 3, 4, 5, 6],
    ),
    "pools": (["name", "load", "cap", "left"], [0, 1, 2, 3]),
}


def read_columns(published: Published, table: str) -> list[list[str]]:
    """The figures of a table as the JSON has them."""
    keys, _ = COLUMNS[table]
    return [[str(row[key]) for key in keys] for row in published.folder.read_figures()[table]]


@pytest.mark.parametrize("table", COLUMNS)
def test_the_json_has_the_figures_of_the_page(published: Published, table: str) -> None:
    _, columns = COLUMNS[table]
    rows = read_columns(published, table)
    shown = published.page.list_rows(table)[1 : 1 + len(rows)]
    assert [[row[index].replace(",", "") for index in columns] for row in shown] == rows


@pytest.mark.parametrize("table", COLUMNS)
def test_the_csv_has_the_figures_of_the_json(published: Published, table: str) -> None:
    lines = published.folder.read_csv(table)
    for figures, line in zip(read_columns(published, table), lines, strict=True):
        assert set(figures) <= set(line.values())


def test_the_text_of_an_award_with_unsold_lots_and_a_pool(folder: ResultsFolder) -> None:
    """One lot of A is sold to Alpha, that of B to Gamma; the other lot of A is worth 18 unsold; the
    pool is full.
    """
    assert folder.run(POOL, POOL_REPORT, *POOL_OPTIONS) == (0, POOL_TEXT, "")


def test_the_page_has_the_tables_of_the_text(folder: ResultsFolder) -> None:
    page = folder.publish(POOL, POOL_REPORT)
    names = ["bidders", "categories", "pools", "groups", "left_out"]
    texts = [block.splitlines() for block in POOL_TEXT.split("\n\n")[1:]]
    for name, lines in zip(names, texts, strict=True):
        shown = [" ".join(" ".join(row).split()) for row in page.list_rows(name)]
        shown += page.list_proofs(name)
        assert shown == [" ".join(line.replace(", GBP", "").split()) for line in lines]


def test_the_page_begins_with_the_lines_of_the_text(folder: ResultsFolder) -> None:
    page = folder.publish(POOL, POOL_REPORT, *POOL_OPTIONS[1:])
    title, warning, result = POOL_TEXT.split("\n\n")[0].splitlines()
    assert page.list_first_lines() == [title, warning, f"{result} {UNIT}"]


# what is drawn in a bar, in its order, and where, in percent: fills, reserves and costs
DRAWN = re.compile(
    r'class="(unsold|fill-\d|amount|price|reserve|cost)" (?:x|x1|cx)="(\S+)%"(?: y="\S+" width="(\S+)%")?'
)


def list_drawn(page: Page, bars: str) -> list[tuple[str, ...]]:
    """What is drawn in the bars of categories or winners."""
    html = re.split(f'id="bars-{bars}"', page.html)[1].split("</figure>")[0]
    svgs = re.findall('<svg class="bar".*?</svg>', html)
    return [DRAWN.findall(svg) for svg in svgs]


def test_the_bars_of_categories(folder: ResultsFolder) -> None:
    """One of two lots of A is unsold."""
    assert list_drawn(folder.publish(POOL, POOL_REPORT), "categories") == [
        [("fill-0", "0", "50"), ("unsold", "50", "50")],
        [("fill-1", "0", "100")],
    ]


def test_the_bars_of_winners(folder: ResultsFolder) -> None:
    """Of 30, which Alpha bids: its reserve is 10 and its cost 20; Gamma's are 5 and 8 of 12."""
    assert list_drawn(folder.publish(POOL, POOL_REPORT), "winners") == [
        [("amount", "0", "100"), ("reserve", "33.33", ""), ("cost", "66.67", "")],
        [("amount", "0", "40"), ("reserve", "16.67", ""), ("cost", "26.67", "")],
    ]


def test_the_picture_has_the_names(named: ResultsFolder) -> None:
    texts = named.read_page().texts
    assert texts["category-1-title"] == "800 MHz, 2 lots"
    assert texts["category-1-words"].startswith("1 to Alpha <b>Mobile</b>, Ltd; 1 unsold")
    assert texts["winner-1-title"] == "Alpha <b>Mobile</b>, Ltd bids 30 GBP"
    assert texts["winner-1-words"].startswith("amount 30, reserve 10, opportunity cost 20")


def test_the_text_needs_no_library(folder: ResultsFolder) -> None:
    bare = hide_library("jinja2", folder.folder)
    assert folder.run(POOL, POOL_REPORT, *POOL_OPTIONS, **bare).out == POOL_TEXT


def test_the_page_needs_a_library(folder: ResultsFolder) -> None:
    bare = hide_library("jinja2", folder.folder)
    check_stopped(folder.run(POOL, POOL_REPORT, **bare), "python3-jinja2")


NO_TITLES = [b"\xff", b"a\nb", b"\x1b[2J", b"x" * 201, "\u202eevil".encode(), b""]


@pytest.mark.parametrize("title", NO_TITLES)
@pytest.mark.parametrize("option", ["--title", "--currency"])
def test_what_is_no_title_and_no_currency(folder: ResultsFolder, option: str, title: bytes) -> None:
    result = folder.run(POOL, POOL_REPORT, f"{option}={os.fsdecode(title)}")
    check_stopped(result, status=2)
    assert "\x1b" not in result.err
    assert not folder.out.exists()


@pytest.fixture
def named(folder: ResultsFolder) -> ResultsFolder:
    """Results with a title, a currency and names, of which some look like HTML."""
    rows = "code;name\r\nAlpha;Alpha <b>Mobile</b>, Ltd\r\nA;800 MHz\r\n"
    names = folder.write("names.csv", rows)
    options = ["--title", "3 < 4 & <b>more</b>", "--currency", "GBP", "--names", names]
    folder.publish(POOL, POOL_REPORT, *options)
    return folder


def test_a_title_is_a_text(named: ResultsFolder) -> None:
    assert "<h1>3 &lt; 4 &amp; &lt;b&gt;more&lt;/b&gt;</h1>" in named.read_page().html


@pytest.mark.parametrize(
    "part", ["42 GBP", "18 GBP", "60 GBP", ">Amount, GBP</th>", "costs are in GBP."]
)
def test_the_page_has_the_currency(named: ResultsFolder, part: str) -> None:
    assert part in named.read_page().html


def test_the_page_has_the_names(named: ResultsFolder) -> None:
    page = named.read_page()
    assert page.list_rows("bidders")[1][0] == "Alpha <b>Mobile</b>, Ltd (Alpha)"
    assert page.list_rows("categories")[1][0] == "800 MHz (A)"


def test_lots_are_of_the_category_by_its_name(named: ResultsFolder) -> None:
    page = named.read_page()
    assert page.list_rows("bidders")[1][-1] == "1 of 800 MHz"
    asked = "bid 2 asks for 3 of 800 MHz, of which there are 2"
    assert page.list_rows("left_out")[3] == ["Beta", asked]


def test_names_with_commas_are_parted_by_semicolons(named: ResultsFolder) -> None:
    rows = named.read_page().list_rows("groups")
    assert rows[1][-1] == "Alpha <b>Mobile</b>, Ltd; Gamma"
    assert rows[2][-1] == "Beta, Gamma"
    assert rows[5][1] == "Alpha <b>Mobile</b>, Ltd; Gamma"


def test_the_csv_has_the_names(named: ResultsFolder) -> None:
    assert named.read_csv("bidders")[0]["name"] == "Alpha <b>Mobile</b>, Ltd"
    assert [row["name"] for row in named.read_csv("categories")] == ["800 MHz", ""]


def test_the_json_has_currency_and_names(named: ResultsFolder) -> None:
    figures = named.read_figures()
    assert figures["currency"] == "GBP"
    assert figures["names"]["A"] == "800 MHz"


@pytest.mark.parametrize("cell", ["-", "%form", "a,b", 'a"b', "a\nb"])
def test_what_a_reader_may_take_for_more_than_a_text_is_quoted(cell: str) -> None:
    assert format_cell(cell) == '"' + cell.replace('"', '""') + '"'


@pytest.mark.parametrize(
    "cell, text", [("Alpha", "Alpha"), ("a=b", "a=b"), (-5, "-5"), (None, ""), ("", "")]
)
def test_other_cells_are_written_as_they_are(cell: str | int | None, text: str) -> None:
    assert format_cell(cell) == text


FORMULAS = ["=1+1", "+44 20", "-5", "@SUM(A1)", "\t=1", "\r=1", "＝1+1", "＋1", "－1", "＠x"]


@pytest.mark.parametrize("name", FORMULAS)
def test_a_cell_that_begins_as_a_formula_gets_an_apostrophe(name: str) -> None:
    """Spreadsheets take it for the beginning of a text."""
    assert format_cell(name) == (f'"\'{name}"' if "\r" in name else f"'{name}")


@pytest.mark.parametrize("name", ["Astér", "A-1", "1+1", "a=b"])
def test_a_cell_that_begins_as_no_formula_gets_none(name: str) -> None:
    assert format_cell(name) == name


@pytest.fixture
def formulas(folder: ResultsFolder) -> ResultsFolder:
    """Results with names of which one is a formula."""
    names = folder.write("names.csv", "Alpha,=1+1\nBeta,Astér\nGamma,'tis\n")
    folder.publish(POOL, POOL_REPORT, "--names", names)
    return folder


def test_each_table_has_a_byte_order_mark(formulas: ResultsFolder) -> None:
    """Spreadsheets know UTF-8 by it."""
    paths = list(formulas.out.glob("*.csv"))
    assert len(paths) == 4
    for path in paths:
        assert path.read_bytes().startswith("\ufeff".encode()), path


def test_a_name_that_is_a_formula_is_a_text_in_a_table(formulas: ResultsFolder) -> None:
    assert [row["name"] for row in formulas.read_csv("bidders")] == ["'=1+1", "Astér", "'tis"]


def test_a_name_that_is_a_formula_stays_elsewhere(formulas: ResultsFolder) -> None:
    assert "=1+1 (Alpha)" in formulas.read_page().html
    assert formulas.read_figures()["names"]["Alpha"] == "=1+1"


def test_nothing_is_certified_without_an_audit(folder: ResultsFolder) -> None:
    page = folder.publish(TIE, TIE_REPORT)
    figures = folder.read_figures()
    assert page.list_first_lines()[1].startswith("Not certified: ")
    assert page.list_proofs("groups") == []
    assert figures["certified"] is False
    assert figures["audit"] is None
    assert figures["proof"] == "none"


def test_tables_say_that_they_are_not_certified(folder: ResultsFolder) -> None:
    folder.publish(TIE, TIE_REPORT)
    for line in folder.read_first_lines():
        assert " (results not certified)," in line


def test_an_audit_certifies(folder: ResultsFolder) -> None:
    page = folder.publish_tie(TIE_AUDIT)
    totals = "Certified: each of the 2 totals is shown to be the greatest one."
    assert page.list_proofs("groups") == [totals]
    assert "Not certified" not in page.html
    assert "not certified" not in str(folder.read_first_lines())


def test_the_page_says_how_the_audit_is_repeated(folder: ResultsFolder) -> None:
    text = folder.publish_tie(TIE_AUDIT).texts["audit"]
    assert f"tail -c {len(TIE)} audit.txt | sha256sum" in text
    assert compute_digest(TIE_AUDIT) in text
    assert compute_digest(TIE) in text
    assert compute_digest(TIE_REPORT) in text


def test_the_page_names_the_program(folder: ResultsFolder, wdp: str) -> None:
    version = run_program(wdp, "--version", b"").decode().strip()
    page = folder.publish_tie(TIE_AUDIT)
    assert version in page.texts["audit"]
    assert folder.read_figures()["wdp"] == version


def test_the_audit_is_published(folder: ResultsFolder) -> None:
    folder.publish_tie(TIE_AUDIT)
    assert (folder.out / "audit.txt").read_text() == TIE_AUDIT


@pytest.mark.parametrize("audit", [TIE_AUDIT, TIED_AUDIT])
def test_an_audit_alone_makes_the_same(folder: ResultsFolder, audit: str) -> None:
    folder.publish_tie(audit, "--title", "One lot", "--currency", "GBP")
    alone = folder.folder / "alone"
    words = ["--output", alone, "--title", "One lot", "--currency", "GBP"]
    result = run("results", folder.write("audit.txt", audit), *words)
    assert result == (0, "", f"results: 7 files in {alone}\n")
    assert sorted(os.listdir(alone)) == sorted([*FILES, "audit.txt"])
    for name in os.listdir(alone):
        assert (alone / name).read_bytes() == (folder.out / name).read_bytes(), name


def test_an_audit_alone_has_the_award_that_was_drawn(folder: ResultsFolder) -> None:
    folder.publish_tie(TIED_AUDIT, "--drawn", "2", "--list-is-complete")
    alone = folder.folder / "alone"
    audit = folder.write("audit.txt", TIED_AUDIT)
    assert (
        run("results", audit, "--drawn", "2", "--list-is-complete", "--output", alone).status == 0
    )
    assert (alone / "results.json").read_bytes() == (folder.out / "results.json").read_bytes()


@pytest.mark.parametrize("audit", [None, TIE_AUDIT])
def test_a_report_may_have_lines_of_forms_first(
    folder: ResultsFolder, wdp: str, audit: str | None
) -> None:
    folder.publish(TIE, TIE_REPORT, audit=audit)
    files = {path.name: path.read_bytes() for path in folder.out.iterdir()}
    lines = run_program(wdp, "forms", TIE.encode()).decode()
    folder.publish(TIE, lines + TIE_REPORT, "--replace", audit=audit)
    assert {path.name: path.read_bytes() for path in folder.out.iterdir()} == files


@pytest.mark.parametrize("number", [1, 2, 3])
@pytest.mark.parametrize("changed", [[], ["%form Gamma -\n"]], ids=["left out", "another"])
def test_a_report_with_another_line_of_forms(
    folder: ResultsFolder, wdp: str, number: int, changed: list[str]
) -> None:
    lines = run_program(wdp, "forms", TIE.encode()).decode().splitlines(keepends=True)
    lines[number - 1 : number] = changed
    result = folder.run(TIE, "".join(lines) + TIE_REPORT)
    assert result.status == 1
    assert f"report.txt: line {number}: of the input wdp forms prints " in result.err
    assert not folder.out.exists()


# Alpha offers 11 and Beta 10: if Beta's part is no smaller than Alpha's, halves of both are the
# most, 21 halves
ONLY = TIE.replace("Alpha,A\n10,1", "Alpha,A\n11,1")
ONLY_REPORT = TIE_REPORT.replace("Alpha 1 10\ntotal 10", "Alpha 1 11\ntotal 11")
ONLY_CERTIFICATES = CERTIFICATES.replace("10", "11", 1) + "%unique\nbound 2 1 C1 21\n"
ONLY_AUDIT = SOLUTIONS + ONLY_CERTIFICATES + ONLY


def test_that_nobody_else_wins_is_shown(folder: ResultsFolder) -> None:
    page = folder.publish(ONLY, ONLY_REPORT, audit=ONLY_AUDIT)
    figures = folder.read_figures()
    (proof,) = page.list_proofs("bidders")
    assert proof.startswith("Proved: these are the only winners.")
    assert figures["proof"] == "all"
    assert len(figures["awards"]) == 1


def test_no_award_is_drawn_if_nobody_else_wins(folder: ResultsFolder) -> None:
    result = folder.run(ONLY, ONLY_REPORT, "--drawn", 2, audit=ONLY_AUDIT)
    check_stopped(result, "shows no tie, so that nothing was drawn", status=2)


HEADINGS = ["Award", "Bidders who don't win the same", "Opportunity costs"]
WON = "10 for 1 of A (bid 1)"
ALPHA_WINS = [f"Alpha: {WON}; Beta: nothing", "Alpha: 10"]
BETA_WINS = [f"Alpha: nothing; Beta: {WON}", "Alpha: 0"]
AT_LEAST = "Proved: at least these 2 awards reach the same total, and none reaches more."
ALL = "Proved: these 2 awards, and no other, reach the greatest total. The audit shows it."
# If Alpha wins nothing, Beta's point is excluded, so that nobody wins; if it wins, its point is,
# and Beta wins, too, as it can't.
UNIQUE = "%unique\nsplit 0 X1_1 1\nbound 1 0 10 20\nbound 0 1 0 2 C1 1\n"
WITHOUT_OTHERS = TIED_AUDIT.replace("%rules", f"{UNIQUE}%rules")
TIE_OF_BETA = "tie\nBeta 1 10\ntotal 10\n"


def list_first_winners(figures: Any) -> list[str]:
    """The first winner of each award."""
    return [award["winners"][0]["name"] for award in figures["awards"]]


def test_the_page_lists_the_awards_of_a_tie(folder: ResultsFolder) -> None:
    page = folder.publish_tie(TIED_AUDIT)
    rows = [HEADINGS, ["1 (this page)", *ALPHA_WINS], ["2", *BETA_WINS]]
    assert page.list_rows("ties") == rows


def test_the_json_lists_the_awards_of_a_tie(folder: ResultsFolder) -> None:
    folder.publish_tie(TIED_AUDIT)
    figures = folder.read_figures()
    assert figures["award"] == 1
    assert figures["drawn"] is None
    assert [award["costs"] for award in figures["awards"]] == [[0, 10], [0, 0]]
    assert list_first_winners(figures) == ["Alpha", "Beta"]


def test_a_tie_may_be_wider(folder: ResultsFolder) -> None:
    page = folder.publish_tie(TIED_AUDIT)
    (proof,) = page.list_proofs("ties")
    assert proof.startswith(AT_LEAST)
    assert "don't draw from these alone" in proof
    assert folder.read_figures()["proof"] == "some"
    assert compute_digest(TIE_REPORT + TIE_OF_BETA) in page.texts["audit"]


def test_a_tie_of_no_others(folder: ResultsFolder) -> None:
    page = folder.publish_tie(WITHOUT_OTHERS)
    assert page.list_proofs("ties") == [ALL]
    assert folder.read_figures()["proof"] == "all"
    assert compute_digest(TIE_REPORT + TIE_OF_BETA + "no other\n") in page.texts["audit"]


DRAWN_REPORT = TIE_REPORT.replace("Alpha 1 10", "Beta 1 10").replace("cost 10", "cost 0")
DRAWN_SOLUTIONS = "%solution\n# award 2\nX2_1 1\n%solution\nX2_1 1\n"
DRAWN_AUDIT = f"{DRAWN_SOLUTIONS}{CERTIFICATES}%tie\n# award 1\nX1_1 1\n{TIE}"


@pytest.fixture
def drawn(folder: ResultsFolder) -> ResultsFolder:
    """Results of award 2 of the tie, which was drawn."""
    folder.publish_tie(TIED_AUDIT, "--drawn", "2", "--list-is-complete", "--currency", "GBP")
    return folder


def test_the_page_says_which_award_was_drawn(drawn: ResultsFolder) -> None:
    page = drawn.read_page()
    assert page.list_rows("ties")[1:] == [["1", *ALPHA_WINS], ["2 (this page)", *BETA_WINS]]
    assert "this page shows award 2, which was drawn" in page.list_first_lines()[1]


def test_the_page_has_the_figures_of_the_award_that_was_drawn(drawn: ResultsFolder) -> None:
    page = drawn.read_page()
    alpha, beta = page.list_rows("bidders")[1:3]
    assert alpha[1:3] == ["0", "0"]
    assert beta[1:3] == ["10", "not asked for"]
    assert page.list_rows("groups")[1:] == [
        ["1", "nobody", "10", "0", "Beta"],
        ["2", "Alpha", "10", "0", "Beta"],
    ]


def test_the_json_has_the_award_that_was_drawn(drawn: ResultsFolder) -> None:
    figures = drawn.read_figures()
    assert figures["certified"] is True
    assert figures["award"] == 2
    assert figures["drawn"] == 2
    assert figures["report_sha256"] == compute_digest(DRAWN_REPORT)
    printed = f"{DRAWN_REPORT}tie\nAlpha 1 10\ntotal 10\n"
    assert figures["audit"]["report_sha256"] == compute_digest(printed)


def test_the_award_that_was_drawn_is_the_first_of_the_audit(drawn: ResultsFolder) -> None:
    assert (drawn.out / "audit.txt").read_text() == DRAWN_AUDIT


# the report that is given, the audit, which award was drawn, and the one that is published
NUMBERED = [
    (TIE_REPORT, TIED_AUDIT, 1, 1),
    (TIE_REPORT, DRAWN_AUDIT, 1, 1),
    (TIE_REPORT, DRAWN_AUDIT, 2, 2),
    (DRAWN_REPORT, DRAWN_AUDIT, 2, 2),
    (DRAWN_REPORT, DRAWN_AUDIT, None, 2),
]


@pytest.mark.parametrize("report, audit, drawn_number, number", NUMBERED)
def test_an_award_keeps_its_number(
    folder: ResultsFolder, report: str, audit: str, drawn_number: int | None, number: int
) -> None:
    """Whichever award is the first of the audit."""
    options = [] if drawn_number is None else ["--drawn", drawn_number, "--list-is-complete"]
    folder.publish(TIE, report, *options, audit=audit)
    figures = folder.read_figures()
    assert figures["award"] == number
    assert figures["drawn"] == drawn_number
    assert list_first_winners(figures) == ["Alpha", "Beta"]
    wanted = TIED_AUDIT if number == 1 else DRAWN_AUDIT
    assert (folder.out / "audit.txt").read_text() == wanted


# Alpha offers as much for one lot as for two, and Beta nothing
WIDER = (
    TIE.replace("category,A,1,", "category,A,2,")
    .replace("Alpha,A\n10,1", "Alpha,A\n10,1\n10,2")
    .replace("Beta,A\n10,1\n", "Beta,A\n")
    .replace("-\nAlpha\n", "-\n")
)
WIDER_AUDIT = "%solution\nX1_1 1\n%certificate\nbound 1 B1 10\n%unique\nbound 1 10\n" + WIDER
WIDER_REPORT = "group 1 -\nAlpha 1 10\ntotal 10\ncost 0\n"


def test_an_award_with_a_bid_in_no_program(folder: ResultsFolder) -> None:
    page = folder.publish(WIDER, WIDER_REPORT, audit=WIDER_AUDIT)
    figures = folder.read_figures()
    assert page.list_rows("ties")[1:] == [
        ["1 (this page)", "Alpha: 10 for 1 of A (bid 1)", "the same"],
        ["2 (has a bid in no program)", "Alpha: 10 for 2 of A (bid 2)", "the same"],
    ]
    assert [award["can_be_first"] for award in figures["awards"]] == [True, False]
    assert figures["proof"] == "all"


# which award was drawn, and why it isn't published
REFUSED = [
    ("2", "award 2 can't be the first of an audit: bid 2 of Alpha is in no program", 1),
    ("3", "there is no award 3: there are 2 awards", 2),
    ("0", "argument --drawn: it takes a number of an award, not '0'", 2),
    ("two", "argument --drawn: it takes a number of an award, not 'two'", 2),
]


@pytest.mark.parametrize("number, why, status", REFUSED)
def test_an_award_that_cannot_be_drawn(
    folder: ResultsFolder, number: str, why: str, status: int
) -> None:
    result = folder.run(WIDER, WIDER_REPORT, "--drawn", number, audit=WIDER_AUDIT)
    check_stopped(result, why, status=status)


def test_an_award_is_drawn_with_an_audit(folder: ResultsFolder) -> None:
    result = folder.run(TIE, TIE_REPORT, "--drawn", 2)
    check_stopped(result, "--drawn needs --audit, which has the award that was drawn", status=2)


def test_winners_who_do_not_change_are_left_out(folder: ResultsFolder) -> None:
    """Gamma wins the lot of B in each award, and its cost stays."""
    data, report, audit = read_audit("three.txt")
    page = folder.publish(data, report, audit=audit)
    rows = [["1 (this page)", *ALPHA_WINS], ["2", *BETA_WINS]]
    assert page.list_rows("ties")[1:] == rows


def test_a_full_disk_leaves_no_folder(folder: ResultsFolder) -> None:
    check_stopped(folder.run(TIE, TIE_REPORT, **limit_files(1_000)), "File too large")
    assert sorted(os.listdir(folder.folder)) == ["input.txt", "report.txt"]


def test_a_full_disk_leaves_an_older_folder(folder: ResultsFolder) -> None:
    folder.publish_tie(TIE_AUDIT)
    folder.publish(TIE, TIE_REPORT, "--replace")
    before = {name: (folder.out / name).read_bytes() for name in FILES}
    result = folder.run(TIE, TIE_REPORT, "--title", "Other", "--replace", **limit_files(1_000))
    check_stopped(result, "File too large")
    names = os.listdir(folder.out)
    assert {name: (folder.out / name).read_bytes() for name in names} == before


def list_objects(text: str) -> list[dict[str, Any]]:
    """The objects in a text of JSON, with those within others."""
    objects: list[dict[str, Any]] = []

    def keep(each: dict[str, Any]) -> dict[str, Any]:
        objects.append(each)
        return each

    json.loads(text, object_hook=keep)
    return objects


def test_the_schema_is_one() -> None:
    SCHEMA.check_schema(SCHEMA.schema)


def test_the_schema_takes_each_field_of_its_kind_and_no_others() -> None:
    text = read_text("docs", "results.schema.json")
    records = [each for each in list_objects(text) if "properties" in each]
    assert len(records) == 10
    for record in records:
        fields = record["properties"]
        assert record["required"] == list(fields)
        assert record["additionalProperties"] is False
        for value in fields.values():
            assert {"$ref", "anyOf", "enum", "type"} & set(value), record


def test_numbers_of_the_schema_are_whole() -> None:
    assert '"type": "number"' not in read_text("docs", "results.schema.json")


def test_a_folder_that_cannot_be_replaced_stays(
    tmp_path: Path, monkeypatch: pytest.MonkeyPatch
) -> None:
    path = tmp_path / "results"
    files.write_folder(str(path), {"a": b"older"})
    rename = os.rename
    errors = [None, OSError(28, "No space left on device"), None]

    def fail_once(before: str, after: str) -> None:
        if error := errors.pop(0):
            raise error
        rename(before, after)

    monkeypatch.setattr("os.rename", fail_once)
    with pytest.raises(files.Unreadable, match="No space left on device"):
        files.write_folder(str(path), {"a": b"newer"}, replaces=True)
    left = [each.read_bytes() for each in tmp_path.rglob("*") if each.is_file()]
    assert left == [b"older"]
    assert os.listdir(tmp_path) == ["results"]
