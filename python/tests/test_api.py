"""The calls of the package on the worked example, from texts, files, records and data frames,
beside what docs/PYTHON.md shows.
"""
import csv
import doctest
import importlib
import io
import os
import pickle
import pkgutil
import re
import sys
from collections.abc import Callable
from decimal import Decimal
from pathlib import Path
from typing import Any

import pytest

import wdp
import workbooks
from odd_workbooks import ODD, make_odd
from commands import matches, parse_rows, read_text
from trials.cases import read_case
from wdp import example

RULES = [
    ("rules", 1, 1),
    ("category", "A", 2, 10, 1),
    ("category", "B", 1, 5, 1),
    ("bidder", "Alpha", 9, 2),
    ("bidder", "Beta", 9, 1),
    ("bidder", "Gamma", 9, 1),
]
FIELDS = {
    "rules": ["version", "step"],
    "category": ["name", "supply", "reserve", "points", "value"],
    "pool": ["name", "cap"],
    "member": ["pool", "category", "weight"],
    "bidder": ["name", "eligibility", "sessions"],
}


def name_fields(kind: str, values: list[object]) -> dict[str, object]:
    """A record of the rules by the names of its fields; the last ones may be missing."""
    return {"record": kind, **dict(zip(FIELDS[kind], values, strict=False))}


NAMED_RULES = [name_fields(str(kind), list(values)) for kind, *values in RULES]
ALPHAS = [(30, 1, 0), (50, 2, 1), (28, 1, 1)]
FORMS = [("Alpha", ALPHAS), ("Beta", [(20, 1, 0), (45, 3, 0)]), ("Gamma", [(12, 0, 1)])]
TABLE = """\
bidder,amount,A,B
Alpha,30,1,0
Beta,20,1,0
Alpha,50,2,1
Gamma,12,0,1
Alpha,28,1,1
Beta,45,3,0
"""
ROWS = list(csv.DictReader(io.StringIO(TABLE)))
DROPPED = [{name: value for name, value in row.items() if name != "B"} for row in ROWS]
MORE = [*ROWS, {"bidder": "Gamma", "amount": "11", "A": "many", "B": "1"}]
# bids with names, of which some lack what counts as 0
ALPHA_BIDS = [
    {"amount": 30, "A": 1},
    {"B": 1, "A": 2, "amount": 50},
    {"amount": 28.0, "A": 1, "B": 1},
]
BETA_BIDS = [{"amount": "20", "A": "1"}, {"amount": 45, "A": 3}]
LACKING = [
    {"bidder": "Alpha", "bids": ALPHA_BIDS},
    ("Beta", BETA_BIDS),
    "Gamma,A,B\n12,0,1",
]
GROUPS = ["-", "Alpha", ("Beta",), {"Gamma", "Beta"}]
NAMES = ["-", "Alpha", "Beta", "Beta+Gamma"]
ALPHA = ("Alpha", 1, 30)
BETA = ("Beta", 1, 20)
GAMMA = ("Gamma", 1, 12)
ALL = ("Alpha", 2, 50)
# of each group the names, the winners, the total and the cost
EXPECTED = [
    ((), [ALPHA, BETA, GAMMA], 62, 0),
    (("Alpha",), [BETA, GAMMA], 32, 0),
    (("Beta",), [ALL], 50, 8),
    (("Beta", "Gamma"), [ALL], 50, 20),
]
_SMALLEST = re.search("```\n(NAME wdp\n.*?)```", read_text("docs", "REFERENCE.md"), re.DOTALL)
assert _SMALLEST
# docs/REFERENCE.md: cost -12 of bidder 3's bid, which is in the rows of its bidder and of the
# second category
SMALLEST = _SMALLEST[1]
SOLUTIONS = example.SOLUTIONS
CERTIFICATES = example.CERTIFICATES
FORGED = "Alpha,A,B\n30,1,0\n%form\nBeta,A,B\n99,1,0\n"
auction = wdp.Auction.from_text(example.INPUT)
from_files = wdp.Auction.from_files

Won = tuple[str, int, int]


def make_auction(**arguments: Any) -> wdp.Auction:
    """An auction of the worked example's rules, or of others."""
    return wdp.Auction(**(dict[str, Any](rules=RULES) | arguments))


def format_amount(value: object) -> bytes:
    """The line of a bid of this amount."""
    return make_auction(forms=[("Alpha", [(value, 1, 0)])]).input().split(b"\n")[-4]


def compile_bid(**bid: object) -> list[wdp.Program]:
    """The programs of an auction in which Alpha has this bid."""
    return make_auction(forms=[("Alpha", [bid])]).compile()


def list_winners(result: wdp.Allocation) -> list[Won]:
    return [(winner.bidder, winner.bid, winner.amount) for winner in result.winners]


def list_won(result: wdp.Allocation) -> tuple[list[Won], int]:
    """The winners, and the total."""
    return list_winners(result), result.total


def list_values(report: wdp.Report) -> list[tuple[tuple[str, ...], list[Won], int, int]]:
    """Of each group the names, the winners, the total and the cost."""
    return [(group.names, list_winners(group), group.total, group.cost) for group in report]


def check_worked(worked: wdp.Auction) -> None:
    assert worked.input().decode() == read_text("examples", "worked.txt")
    assert list_values(worked.report(SOLUTIONS)) == EXPECTED


def read_refusal(call: Callable[[], object], names: str = "kind bidder row column") -> list[object]:
    """These pieces of a refusal, a line that can be printed."""
    with pytest.raises(wdp.Refused) as caught:
        call()
    text = str(caught.value)
    assert text
    assert text.isprintable()
    assert len(text) < 2_000
    return [getattr(caught.value, name) for name in names.split()]


def write_files(folder: Path) -> None:
    """The files that fixtures/package/calls.txt speaks of."""
    parts = [part.partition("\n")[2] for part in example.INPUT.split("%")[1:3]]
    semicolons = "\ufeff" + parts[1].replace(",", ";").replace("\n", "\r\n")
    texts = {
        "rules": parts[0],
        "form": parts[1],
        "forged": FORGED,
        "cut": "Alpha,A,B",
        "Alpha.csv": semicolons,
        "groups.txt": "-\r\nAlpha\r\n",
        "open.csv": 'Alpha,A,B\n"1,1,0\n',
    }
    for name, text in texts.items():
        (folder / name).write_bytes(text.encode())
    lines = [[int(x) if x.isdecimal() else x for x in line.split(",")] for line in parts[1].split()]
    (folder / "Alpha.xlsx").write_bytes(workbooks.write_rows(lines))
    (folder / "hidden.xlsx").write_bytes(workbooks.write_rows(lines, workbooks.hide_row))
    (folder / "sheets.xlsx").write_bytes(workbooks.make_workbook("hidden_00"))
    os.mkfifo(folder / "pipe")
    (folder / "loop").symlink_to("loop")


CALLS = parse_rows(read_text("fixtures", "package", "calls.txt"))


@pytest.mark.parametrize("calls, wanted", CALLS)
def test_a_call_gives_what_its_row_says(
    tmp_path: Path, monkeypatch: pytest.MonkeyPatch, calls: str, wanted: str
) -> None:
    monkeypatch.chdir(tmp_path)
    write_files(tmp_path)
    for call in calls.split("; "):
        try:
            answer = repr(eval(call, {**globals(), "Decimal": Decimal}))
        except wdp.Refused as error:
            assert str(error).isprintable()
            answer = f"{type(error).__name__}: {error}"
        assert matches(f"^{wanted}$", f"^{answer}$"), (call, answer)


MADE = {
    "a text": lambda: wdp.Auction.from_text(example.INPUT[:-1].encode()),
    "tuples": lambda: make_auction(forms=FORMS, groups=GROUPS),
    "lists": lambda: make_auction(
        rules=[list(record) for record in RULES], forms=ROWS, groups=GROUPS
    ),
    "dicts": lambda: make_auction(rules=NAMED_RULES, forms=ROWS, groups=GROUPS),
    "bids that lack what is 0": lambda: make_auction(
        forms=LACKING, missing_as_zero=True, groups="\n".join(NAMES)
    ),
}


@pytest.mark.parametrize("make", MADE.values(), ids=MADE)
def test_auctions_of_texts_and_records(make: Callable[[], wdp.Auction]) -> None:
    check_worked(make())


def test_an_auction_of_files(tmp_path: Path) -> None:
    parts = [part.partition("\n")[2] for part in example.INPUT.split("%")[1:]]
    paths = [tmp_path / f"part\n{number}.csv" for number in range(5)]
    for path, text in zip(paths, parts, strict=True):
        path.write_text(text)
    check_worked(wdp.Auction.from_files(paths[0], paths[1:4], paths[4]))


def test_a_cell_of_a_workbook_that_looks_different_is_a_warning(tmp_path: Path) -> None:
    """Nobody reads a receipt here."""
    rules = "rules,1,1,,\ncategory,Low,9,0,0\ncategory,High,9,0,0\nbidder,Fox,9,1,\n"
    (tmp_path / "rules.csv").write_text(rules)
    form = tmp_path / "Fox\n.xlsx"
    form.write_bytes(make_odd(ODD["a drawing over a bid"][0]))
    shown = r"form 1: .*Fox\\n\.xlsx: 2 cells under a drawing: A3, B3"
    with pytest.warns(UserWarning, match=shown) as caught:
        wdp.Auction.from_files(tmp_path / "rules.csv", form)
    assert [warning.filename for warning in caught] == [__file__]


def test_records_of_rules_with_pools() -> None:
    wanted = read_text("examples", "worked_pool.txt").split("%form")[0]
    rules: list[dict[str, object]] = [{"record": "rules", "version": 3, "step": 1}]
    for kind, *values in (line.split(",") for line in wanted.splitlines()[2:]):
        rules.append({"value": None, **name_fields(kind, list(values))})
    assert wdp.Auction(rules=rules).input().decode() == wanted + "%groups\n-\n"


STRANGE_NAMES = ["Al,pha", 'Al"pha', "Al\npha", "Al\rpha", "", "\ufeffAlpha", "%form"]


@pytest.mark.parametrize("name", STRANGE_NAMES)
def test_a_strange_name_stays_in_its_field_of_the_rules(name: str) -> None:
    strange = make_auction(rules=[*RULES, ("bidder", name, 9, 2)])
    assert read_refusal(strange.compile, "kind record") == ["NameText", 7]


@pytest.mark.parametrize("name", STRANGE_NAMES)
def test_a_strange_name_stays_in_its_field_of_a_form(name: str) -> None:
    strange = make_auction(forms=[(name, [])])
    assert read_refusal(strange.compile, "kind record") == ["UnknownBidder", 1]


def test_docstrings_are_right() -> None:
    count = 0
    for found in pkgutil.walk_packages(wdp.__path__, "wdp."):
        # (what needs libraries that may not be there, or begins when it is read)
        if not found.name.startswith(("wdp.__main__", "wdp.certify.", "wdp.lost.")):
            tried = doctest.testmod(importlib.import_module(found.name))
            assert tried.failed == 0
            count += tried.attempted
    assert count > 10


def test_the_example_is_of_the_tree() -> None:
    assert example.INPUT == read_text("examples", "worked.txt")
    first, *parts = read_text("examples", "verified.txt").split("%certificate\n")
    assert tuple(part[part.index("bound") :] for part in parts) == CERTIFICATES
    assert tuple(first.split("%solution\n")[1:]) == SOLUTIONS
    unique = read_case("verify_worked_is_unique").stdin.decode().split("%unique\n")[1]
    assert unique == example.UNIQUE


@pytest.fixture
def report() -> wdp.Report:
    return auction.report(SOLUTIONS)


def test_a_report_is_a_sequence(report: wdp.Report) -> None:
    assert len(report) == 4
    assert report[2] == report.groups[2]
    assert list(report) == list(report.groups)


def test_winners_have_lots(report: wdp.Report) -> None:
    assert [dict(winner.lots) for winner in report[0].winners] == [{"A": 1}, {"A": 1}, {"B": 1}]


def test_a_notebook_shows_a_report_as_a_table(report: wdp.Report) -> None:
    shown = report._repr_html_()
    assert "<td>Beta+Gamma</td><td>50</td><td>20</td>" in shown
    assert "not certified" in shown


def test_a_notebook_shows_an_allocation_as_a_table(report: wdp.Report) -> None:
    assert "<td>Alpha</td><td>1</td><td>30</td>" in report[0]._repr_html_()


def test_a_report_can_be_pickled(report: wdp.Report) -> None:
    assert pickle.loads(pickle.dumps(report)) == report


def test_results_stay_as_they_are(report: wdp.Report) -> None:
    results = [(report, "groups"), (report[0], "total"), (report[0].winners[0], "bid")]
    for result, name in results:
        with pytest.raises(AttributeError):
            setattr(result, name, None)


BEGUN = [None, ["X1_1 1\nX2_1 1\n", *SOLUTIONS[1:]]]


@pytest.mark.parametrize("solutions", BEGUN, ids=["from nothing", "from less than the best"])
def test_all_groups_are_certified(solutions: list[str] | None) -> None:
    pytest.importorskip("swiglpk", reason="swiglpk isn't there")
    outcome = auction.certify(solutions, ties=True, time_limit=60)
    assert list_values(outcome.report) == EXPECTED
    assert outcome.report.has_all_awards
    assert outcome.report.awards == (outcome.report[0],)
    again = auction.verify(outcome.solutions, outcome.certificates, outcome.unique)
    assert again == outcome.report


def test_without_ties_not_all_awards_are_known() -> None:
    pytest.importorskip("swiglpk", reason="swiglpk isn't there")
    assert not auction.certify(SOLUTIONS).report.has_all_awards


def test_certify_refuses_what_report_refuses() -> None:
    pytest.importorskip("swiglpk", reason="swiglpk isn't there")
    read_refusal(lambda: auction.certify(SOLUTIONS[:2]))
    read_refusal(lambda: auction.certify(["X9_9 1\n"] * 4))


@pytest.fixture
def tied() -> wdp.Auction:
    """Alpha and Beta bid the same for all there is."""
    pytest.importorskip("swiglpk", reason="swiglpk isn't there")
    forms = [("Alpha", [(20, 1)]), ("Beta", [(20, 2)])]
    return make_auction(rules=RULES[:2] + RULES[3:5], forms=forms)


def test_awards_that_tie(tied: wdp.Auction) -> None:
    report = tied.certify(ties=True).report
    winners = {award.winners for award in report.awards}
    assert winners == {(wdp.Winner("Alpha", 1, 20),), (wdp.Winner("Beta", 1, 20),)}
    assert len(report.awards) == 2
    assert report.has_all_awards


def test_awards_that_tie_are_verified(tied: wdp.Auction) -> None:
    outcome = tied.certify(ties=True)
    again = tied.verify(outcome.solutions, outcome.certificates, outcome.unique, outcome.ties)
    assert again == outcome.report


def test_ties_without_the_certificate_that_there_are_no_others(tied: wdp.Auction) -> None:
    outcome = tied.certify(ties=True)
    report = tied.verify(outcome.solutions, outcome.certificates, ties=outcome.ties)
    assert report.awards == outcome.report.awards
    assert not report.has_all_awards


def test_the_matrix_of_a_program() -> None:
    """(docs/PYTHON.md shows what scipy makes of it.)"""
    pytest.importorskip("scipy", reason="scipy isn't there")
    matrix = auction.compile()[1].matrix()
    assert matrix.columns == ("X2_1", "X3_1")
    assert matrix.rows == ("B2", "B3", "C1", "C2")
    assert matrix.entries.toarray().tolist() == [[1, 0], [0, 1], [1, 0], [0, 1]]


def test_the_matrix_of_a_program_without_columns() -> None:
    pytest.importorskip("scipy", reason="scipy isn't there")
    rules = [("rules", 1, 1), ("category", "A", 0, 1, 1), ("bidder", "Alpha", 1, 1)]
    assert wdp.Auction(rules=rules).compile()[0].matrix().entries.shape == (1, 0)


def test_the_matrix_of_the_smallest_program() -> None:
    pytest.importorskip("scipy", reason="scipy isn't there")
    assert wdp.Program(1, (), SMALLEST).matrix().senses == ("L",) * 3


def test_a_program_that_is_cut_has_no_matrix() -> None:
    pytest.importorskip("scipy", reason="scipy isn't there")
    for end in range(len(SMALLEST) - 1):
        with pytest.raises(wdp.Unclear):
            wdp.Program(1, (), SMALLEST[:end]).matrix()


def test_all_but_frames_and_matrices_goes_without_libraries(
    monkeypatch: pytest.MonkeyPatch,
) -> None:
    for name in ("pandas", "scipy", "numpy", "swiglpk", "scipy.sparse"):
        monkeypatch.setitem(sys.modules, name, None)  # type: ignore[misc]
    report = make_auction(forms=FORMS, groups=GROUPS).report(SOLUTIONS)
    assert list_values(report) == EXPECTED
    calls: list[Callable[[], object]] = [
        report.to_frame,
        report[0].to_frame,
        auction.map({}).to_frame,
        auction.compile()[0].matrix,
        auction.certify,
    ]
    for call in calls:
        with pytest.raises(wdp.Missing):
            call()


@pytest.fixture
def table() -> Any:
    """A data frame of all bids."""
    pandas = pytest.importorskip("pandas", reason="pandas isn't there")
    return pandas.read_csv(io.StringIO(TABLE))


def test_data_frames_of_rules_bids_and_groups(table: Any) -> None:
    pandas = pytest.importorskip("pandas", reason="pandas isn't there")
    rules = pandas.DataFrame(NAMED_RULES)
    groups = pandas.DataFrame({"group": NAMES})
    apart = [(name, rows.drop(columns="bidder")) for name, rows in table.groupby("bidder")]
    check_worked(wdp.Auction(rules=rules, forms=table, groups=groups))
    check_worked(wdp.Auction(rules=rules, forms=apart, groups=groups))


def test_a_report_as_a_data_frame(table: Any, report: wdp.Report) -> None:
    assert report.to_frame().to_dict("list") == {
        "group": [1, 2, 3, 4],
        "left_out": NAMES,
        "total": [62, 32, 50, 50],
        "cost": [0, 0, 8, 20],
    }


def test_an_allocation_as_a_data_frame(table: Any, report: wdp.Report) -> None:
    wanted = {
        "bidder": ["Alpha", "Beta", "Gamma"],
        "bid": [1, 1, 1],
        "amount": [30, 20, 12],
        "A": [1, 1, 0],
        "B": [0, 0, 1],
    }
    assert report[0].to_frame().to_dict("list") == wanted
    assert wdp.Allocation(report[0].winners, 62).to_frame().to_dict("list") == wanted


def test_an_allocation_without_winners_as_a_data_frame(table: Any) -> None:
    assert list(wdp.Allocation((), 0).to_frame().columns) == ["bidder", "bid", "amount"]


@pytest.mark.parametrize("zero", [False, True], ids=["", "missing_as_zero"])
def test_a_data_frame_needs_a_column_for_each_category(table: Any, zero: bool) -> None:
    whole = table.drop(columns="B")
    apart = [("Alpha", table.drop(columns=["B", "bidder"]))]
    for forms in (whole, apart):
        column, text = read_refusal(
            lambda: make_auction(forms=forms, missing_as_zero=zero), "column text"
        )
        assert column == "B"
        assert str(text).endswith(", B: the data frame has no such column")


def test_a_blank_cell_is_refused(table: Any) -> None:
    pandas = pytest.importorskip("pandas", reason="pandas isn't there")
    table["A"] = table["A"].astype("Int64")
    table.loc[2, "A"] = pandas.NA
    refused = read_refusal(make_auction(forms=table).compile)
    assert refused == ["QuantityText", "Alpha", 2, "A"]


def test_two_columns_of_one_name_are_refused(table: Any) -> None:
    (text,) = read_refusal(lambda: make_auction(forms=table.rename(columns={"B": "A"})), "text")
    assert "two columns of the data frame have the same name" in str(text)


PIECES = ["part", "number", "kind", "kind_number", "at", "record", "line", "field"]
LONG = ("form 1: 2 Header at record " + "9" * 5000, " ".join(["None"] * len(PIECES)))
REFUSALS = [*parse_rows(read_text("fixtures", "package", "refusals.txt")), LONG]


@pytest.mark.parametrize("line, values", REFUSALS)
def test_the_pieces_of_a_refusal(line: str, values: str) -> None:
    """(tests/test_cases.py has those of each line that docs/REFERENCE.md promises.)"""
    refused = wdp.Refused("wdp: " + line)
    assert " ".join(str(getattr(refused, name)) for name in PIECES) == values


def test_a_refusal_is_one_printable_line() -> None:
    assert str(wdp.Refused("a\nb\x1b\u2028")) == "a\\nb\\x1b\\u2028"


def test_a_refusal_is_short() -> None:
    assert len(str(wdp.Refused("x" * 50_000_000))) < 600


SENT = [
    wdp.Refused("wdp: form 1: 13 RepeatedPackage at record 4, earlier bid 2"),
    wdp.NotSolved("group 2: no", 4, 2),
    wdp.Missing("pandas"),
]


@pytest.mark.parametrize("refused", SENT)
def test_refusals_can_be_sent_to_another_process(refused: wdp.Refused) -> None:
    again = pickle.loads(pickle.dumps(refused))
    assert type(again) is type(refused)
    assert str(again) == str(refused)
    assert vars(again) == vars(refused)


KINDS = [wdp.WrongArgument, wdp.NotFound, wdp.Unclear, wdp.NotSolved, wdp.Missing]


@pytest.mark.parametrize("kind", KINDS)
def test_each_exception_is_a_refusal(kind: type[Exception]) -> None:
    assert issubclass(kind, wdp.Refused)
    assert issubclass(kind, ValueError)
