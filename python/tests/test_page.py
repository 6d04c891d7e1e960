"""How the page of results looks: it is alone and can be read without eyes, and in a browser, on a
phone and on paper, no cell lies outside it and no figure is broken: Chromium without a window
measures.
"""
import json
import re
import subprocess
from collections.abc import Sequence
from dataclasses import replace
from fractions import Fraction
from html import escape, unescape
from pathlib import Path
from typing import NamedTuple

import pytest
from commands import REPORTED, read_text
from made_figures import Bidder, make_figures
from results_folder import (
    TIE,
    TIE_REPORT,
    TIED_AUDIT,
    Page,
    ResultsFolder,
    make_key,
    read_audit,
    read_example,
)

from wdp.publish.figures import Figures
from wdp.publish.results import Results


@pytest.fixture(scope="module", params=REPORTED)
def page(request: pytest.FixtureRequest, tmp_path_factory: pytest.TempPathFactory) -> Page:
    """The page of an example."""
    data, report = read_example(request.param)
    return ResultsFolder(tmp_path_factory.mktemp(request.param)).publish(data, report)


def test_each_table_has_a_caption(page: Page) -> None:
    assert page.html.count("<caption>") == len(page.tables)


def test_each_cell_has_its_headings(page: Page) -> None:
    for headings, *rows in page.tables.values():
        assert {(cell.tag, cell.scope) for cell in headings} == {("th", "col")}
        wanted = [("th", "row")] + [("td", "")] * (len(headings) - 1)
        for row in rows:
            assert [(cell.tag, cell.scope) for cell in row] == wanted


def test_nothing_is_loaded(page: Page) -> None:
    loaded = r"https?:|url\((?!#)|@import|<script|<link| (?:src|href|action|data)="
    assert not re.search(loaded, page.html)


def test_each_picture_is_in_words(page: Page) -> None:
    """Each bar has a title and a description; a key beside words is nothing to be read."""
    svgs = re.findall("<svg([^>]*)>(.*?)</svg>", page.html, re.S)
    bars = [(head, inner) for head, inner in svgs if 'aria-hidden="true"' not in head]
    assert len(bars) >= 2
    for head, inner in bars:
        match = re.fullmatch(' class="bar" role="img" aria-labelledby="(\\S+) (\\S+)"', head)
        assert match, head
        title, words = match.groups()
        assert re.match(f'<title id="{title}">.+?</title><desc id="{words}">.+?</desc>', inner)


def test_sums_are_at_the_end_of_a_printed_table_alone(page: Page) -> None:
    """(Browsers repeat what they take for a table's foot on each sheet of paper.)"""
    printed = page.html.partition("@media print {")[2].partition("</style>")[0]
    assert "tfoot { display: table-row-group; }" in printed


# widths in CSS pixels; of paper what a page shows of 1/96 inch: A4 upright is 210 mm, less margins
# of 12 mm
PAPER = round((210 - 24) / 25.4 * 96)
WIDTHS = {"phone": 320, "tablet": 768, "screen": 1280, "paper": PAPER}
WIDTHS_OF_FIGURES = {"small": 360, "tablet": 768, "laptop": 1024, "desktop": 1440, "paper": PAPER}
# `long` is the widest that the format has: 32 categories, names of 16 letters, amounts of 13 digits;
# and each bidder pays the value of its lots, so that every group binds; `many` has 40 winners with
# long names, who share a category, and in `nobody` nothing is sold
PAGES = ["twelve_bands", "spectrum_cap", "unsold_values", "tie", "long", "many", "nobody"]
LOSER = Bidder("Alpha", [0, 0], price=0)
LONG_NAME = f"Bidder{0:010},{'Incorporated' * 8}\n"
SPOILT = "spoilt screen"
SPOILT_FIGURES = "spoilt small"
# how many digits the amounts have: none in pounds has more than 13
DIGITS = range(1, 14)
SCRIPT = f"<script>{read_text('fixtures', 'office', 'measure.js')}</script></body>"
OPTIONS = [
    "--headless",
    "--no-sandbox",
    "--disable-gpu",
    "--disable-dev-shm-usage",
]


class Measured(NamedTuple):
    """What the browser finds of a page: its width, how many cells it has, what lies outside, and
    which figures are broken.
    """

    width: int
    cells: int
    outside: list[str]
    broken: list[str]


def make_frames(pages: dict[str, str]) -> str:
    """A page with these in frames of their widths, each with a script that measures it."""
    text = "<!DOCTYPE html><meta charset=utf-8>"
    for name, html in pages.items():
        width = (WIDTHS | WIDTHS_OF_FIGURES)[name.split()[1]]
        framed = re.sub("<meta http-equiv=.*?>", "", html).replace("</body>", SCRIPT)
        text += f'<pre id="{name}"></pre>'
        text += f'<iframe name="{name}" width="{width}" srcdoc="{escape(framed)}"></iframe>'
    return text


def run_browser(path: Path, profile: Path, *options: str) -> subprocess.CompletedProcess[str]:
    """Has the browser do with a page what the options say."""
    command = ["chromium", *OPTIONS, *options, f"--user-data-dir={profile}", f"file://{path}"]
    return subprocess.run(command, capture_output=True, text=True)


def measure_pages(pages: dict[str, str], folder: Path) -> dict[str, Measured]:
    """What a browser finds of each page, by the pages' names, whose second words are those of their
    widths.
    """
    path = folder / "measured.html"
    path.write_text(make_frames(pages))
    # (a browser that doesn't begin on a busy machine is begun anew; what is left of it holds its profile)
    for attempt in range(5):
        done = run_browser(path, folder / f"profile{attempt}", "--hide-scrollbars", "--dump-dom")
        found = dict(re.findall('<pre id="(.*?)">(.+?)</pre>', done.stdout, re.DOTALL))
        if set(found) == set(pages):
            return {name: Measured(*json.loads(unescape(text))) for name, text in found.items()}
    raise AssertionError(done.stdout[-300:] + done.stderr[-300:])


def make_many() -> Figures:
    """40 winners of 100 letters each: each wins a lot of the first category, and one of another."""
    codes = [f"Bidder{number}" for number in range(40)]
    supplies = {"C0": 41, **{f"C{number}": 3 for number in range(1, 32)}}
    bidders = []
    for index, code in enumerate(codes):
        lots = [1] + [int(number == index % 31) for number in range(31)]
        amount = 10**12 - index
        bidders.append(Bidder(code, lots, amount=amount, price=index, reserve=index, cost=index))
    names = {code: f"{code} {'Incorporated' * 8}"[:100] for code in codes}
    return make_figures(supplies, bidders, currency="GBP", names={**names, "C1": "M" * 100})


def make_winners(digits: int) -> Figures:
    """40 winners by names of 1 to 40 letters, the widest, whose amounts have so many digits, and
    whose exact prices have fractions of as many.
    """
    most = 10**digits - 1
    bidders = []
    for index in range(40):
        lots = [int(number == index % 3) for number in range(3)]
        price = most - Fraction(1, 2**index) if index < 30 else 10**index % most
        bidders.append(Bidder(f"B{index}", lots, amount=most, price=price, reserve=most, cost=most))
    names = {bidder.name: "W" * number for number, bidder in enumerate(bidders, 1)}
    supplies = {"A": 14, "B": 14, "C": 14}
    return make_figures(supplies, bidders, currency="GBP", names=names, value=most)


def put_on_paper(html: str) -> str:
    """A page by its rules for paper in the place of those for screens."""
    printed = html.replace("@media print {", "@media all {")
    return printed.replace("@media screen and", "@media (width: 0) and")


def format_page(figures: Figures) -> str:
    return Results(figures, None).make_files()["results.html"].decode()


def publish_page(name: str, folder: ResultsFolder) -> str:
    """The page of an example, of the tie, which is signed, of the longest names and amounts, or of figures that are
    made.
    """
    made = {"many": make_many, "nobody": lambda: make_figures({"A": 4, "B": 0}, [LOSER])}
    if name in made:
        return format_page(made[name]())
    options: list[object] = ["--currency", "GBP"]
    audit: str | None = None
    if name == "tie":
        data, report, audit = TIE, TIE_REPORT, TIED_AUDIT
        options += ["--sign", make_key(folder.folder, "key")]
    elif name == "long":
        data, report, audit = read_audit("long.txt")
        options += ["--names", folder.write("names.csv", LONG_NAME)]
    else:
        data, report = read_example(name)
    return folder.publish(data, report, *options, audit=audit).html


@pytest.fixture(scope="module")
def measured(tmp_path_factory: pytest.TempPathFactory) -> dict[str, Measured]:
    """What the browser finds of each page in each width; on paper by the rules for paper in the
    place of those for screens. A page that is spoilt shows that it finds something.
    """
    pages: dict[str, str] = {}
    for name in PAGES:
        html = publish_page(name, ResultsFolder(tmp_path_factory.mktemp(name)))
        for width in WIDTHS:
            pages[f"{name} {width}"] = html
        pages[f"{name} paper"] = put_on_paper(html)
    pages[SPOILT] = pages["tie screen"].replace("</style>", "td { min-width: 90em; }</style>")
    return measure_pages(pages, tmp_path_factory.mktemp("measured"))


@pytest.mark.parametrize("width", WIDTHS)
@pytest.mark.parametrize("name", PAGES)
def test_nothing_lies_outside(measured: dict[str, Measured], name: str, width: str) -> None:
    found = measured[f"{name} {width}"]
    assert found.width == WIDTHS[width]
    assert found.cells > 10
    assert found.outside == []
    assert found.broken == []


def test_what_lies_outside_is_found(measured: dict[str, Measured]) -> None:
    assert measured[SPOILT].outside != []


@pytest.fixture(scope="module")
def measured_figures(tmp_path_factory: pytest.TempPathFactory) -> dict[str, Measured]:
    """What the browser finds of pages with amounts of so many digits, in each width."""
    pages: dict[str, str] = {}
    for digits in DIGITS:
        html = format_page(make_winners(digits))
        for width in WIDTHS_OF_FIGURES:
            pages[f"{digits} {width}"] = put_on_paper(html) if width == "paper" else html
    style = ".figure { white-space: normal; display: inline-block; width: 3em; }</style>"
    pages[SPOILT_FIGURES] = pages["13 small"].replace("</style>", style)
    return measure_pages(pages, tmp_path_factory.mktemp("figures"))


@pytest.mark.parametrize("width", WIDTHS_OF_FIGURES)
@pytest.mark.parametrize("digits", DIGITS)
def test_no_figure_is_broken(
    measured_figures: dict[str, Measured], digits: int, width: str
) -> None:
    """A figure breaks before its fraction, and nowhere else."""
    found = measured_figures[f"{digits} {width}"]
    assert found.width == WIDTHS_OF_FIGURES[width]
    assert found.cells > 400
    assert found.broken == []
    assert found.outside == []


def test_a_broken_figure_is_found(measured_figures: dict[str, Measured]) -> None:
    assert measured_figures[SPOILT_FIGURES].broken != []


TOGETHER = "caption, thead { break-after: avoid; break-inside: avoid; }"
HEIGHT = 297 - 30  # millimetres of a sheet, less its margins
FIRST, HEADING = "Firstborn", "Bidders"


def list_sheets(html: str, folder: Path) -> list[str]:
    """The texts of the sheets on which a browser prints a page."""
    path = folder / "printed.html"
    path.write_text(html)
    printed = folder / "printed.pdf"
    for attempt in range(5):
        profile = folder / f"profile{attempt}"
        run_browser(path, profile, "--no-pdf-header-footer", f"--print-to-pdf={printed}")
        if printed.exists():
            break
    command = ["pdftotext", "-layout", str(printed), "-"]
    return subprocess.run(command, capture_output=True, text=True, check=True).stdout.split("\f")


def list_lonely(sheets: Sequence[str]) -> list[str]:
    """The sheets on which the heading of the table comes without its first row after it."""
    headings = re.compile(rf"^{HEADING}$(.*)", re.MULTILINE | re.DOTALL)
    found = [match[1] for sheet in sheets if (match := headings.search(sheet))]
    assert len(found) == len(range(0, HEIGHT, 4))
    return [rest for rest in found if FIRST not in rest]


def test_a_heading_is_on_the_sheet_of_the_first_row(tmp_path: Path) -> None:
    """A table is printed from each height of a sheet on."""
    names = [FIRST, *(f"Other{number}" for number in range(9))]
    bidders = [Bidder(name, [1], amount=5, price=4) for name in names]
    html = format_page(make_figures({"A": 10}, bidders))
    assert TOGETHER in html
    head, _, rest = html.partition("<body>")
    table = "<h2>" + rest.split("<h2>")[1]
    assert table.startswith(f"<h2>{HEADING}</h2>")
    heights = range(0, HEIGHT, 4)
    style = "break-before: page; height: {}mm; margin: 0"
    blocks = [f'<div style="{style.format(height)}">-</div>{table}' for height in heights]
    for name, page in (("right", head), ("spoilt", head.replace(TOGETHER, ""))):
        (tmp_path / name).mkdir()
        lonely = list_lonely(list_sheets(page + "<body>" + "".join(blocks), tmp_path / name))
        assert bool(lonely) == (name == "spoilt")


def test_each_winner_has_a_fill(tmp_path: Path) -> None:
    """No two winners of the page have the same fill, by its colour or its pattern."""
    html = format_page(make_many())
    style = dict(re.findall(r"\.fill-(\d+) \{ fill: (.*?); \}", html))
    patterns = dict(re.findall(r'<pattern id="([\w-]+)" (.*?)</pattern>', html))
    fills = [patterns.get(value[5:-1], value) for value in style.values()]
    assert len(fills) == len(set(fills)) == 40
    bars = html.partition('id="bars-winners"')[2]
    assert re.findall(r'class="name">.*?<rect class="fill-(\d+)"', bars) == list(style)


def test_losers_of_a_large_auction_are_one_line() -> None:
    losers = [Bidder(f"Loser{number}", [0], price=0) for number in range(6)]
    page = Page(format_page(make_figures({"A": 4}, [Bidder("Alpha", [1], price=0), *losers])))
    assert [row[0] for row in page.list_rows("bidders")] == ["Bidder", "Alpha", "All"]
    names = ", ".join(loser.name for loser in losers)
    assert f'<p class="note">6 bidders win nothing and pay nothing: {names}.</p>' in page.html


def test_losers_of_a_small_auction_have_a_row_each() -> None:
    losers = [Bidder(f"Loser{number}", [0], price=0) for number in range(5)]
    page = Page(format_page(make_figures({"A": 4}, [Bidder("Alpha", [1], price=0), *losers])))
    assert len(page.list_rows("bidders")) == 1 + 6 + 1
    assert 'class="note"' not in page.html


def test_a_large_auction_in_which_nobody_wins() -> None:
    """A bidder without a form is named as one."""
    losers = [Bidder(f"Loser{number}", [0], price=0) for number in range(6)]
    figures = make_figures({"A": 4}, losers)
    silent = replace(figures.bidders[5], bids=0)
    figures = replace(figures, bidders=[*figures.bidders[:5], silent])
    html = format_page(figures)
    assert 'id="table-bidders"' not in html
    assert "Loser4, Loser5. Without bids: Loser5.</p>" in html
