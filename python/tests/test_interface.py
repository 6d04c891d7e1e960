"""What users write without reading: groups by a rule, audits and pages in one call, data frames,
and what an auction and its errors say of themselves.
"""
import io
from collections.abc import Callable
from fractions import Fraction
from pathlib import Path

import pytest

import wdp
from commands import read_text, run_program
from wdp import example

RULES = [
    ("rules", 1, 1),
    ("category", "A", 2, 10, 1),
    ("bidder", "Alpha", 9, 2),
    ("bidder", "Beta", 9, 1),
    ("bidder", "Gamma", 9, 1),
]
# Alpha and Beta win the two lots, and Gamma would win one without either
FORMS = [("Alpha", [(30, 1)]), ("Beta", [(20, 1)]), ("Gamma", [(12, 1)])]
# the rules of the worked example as a table
TABLE_OF_RULES = """\
record,version,step,name,supply,reserve,points,eligibility,sessions
rules,1,1,,,,,,
category,,,A,2,10,1,,
category,,,B,1,5,1,,
bidder,,,Alpha,,,,9,2
bidder,,,Beta,,,,9,1
bidder,,,Gamma,,,,9,1
"""
PAGE_FILES = {
    "audit.txt",
    "bidders.csv",
    "categories.csv",
    "groups.csv",
    "pools.csv",
    "results.html",
    "results.json",
}


def make_auction(groups: wdp.Groups = None) -> wdp.Auction:
    return wdp.Auction(rules=RULES, forms=FORMS, groups=groups)


def make_worked() -> wdp.Auction:
    return wdp.Auction.from_text(example.INPUT)


def list_lines(auction: wdp.Auction) -> list[str]:
    """The lines of an auction's groups."""
    return auction.input().decode().partition("%groups\n")[2].splitlines()


def read_refusal(call: Callable[[], object]) -> str:
    with pytest.raises(wdp.Refused) as caught:
        call()
    return str(caught.value)


@pytest.fixture(scope="module")
def outcome() -> wdp.Outcome:
    """That of the worked example, certified from the solutions that it comes with."""
    for library in ("numpy", "scipy", "swiglpk"):
        pytest.importorskip(library, reason=f"{library} isn't there")
    return make_worked().certify(example.SOLUTIONS)


@pytest.fixture(scope="module")
def priced(outcome: wdp.Outcome) -> wdp.Outcome:
    return make_worked().prices(outcome, solver="highs")


def test_each_bidder_alone() -> None:
    assert list_lines(make_auction("each")) == ["-", "Alpha", "Beta", "Gamma"]


def test_a_list_with_the_word_each_is_a_line() -> None:
    assert list_lines(make_auction(["each"])) == ["each"]


def test_each_bidder_of_files_alone(tmp_path: Path) -> None:
    rules = "".join(",".join(map(str, record)) + "\n" for record in RULES)
    (tmp_path / "rules.csv").write_text(rules)
    auction = wdp.Auction.from_files(tmp_path / "rules.csv", [], "each")
    assert list_lines(auction) == ["-", "Alpha", "Beta", "Gamma"]


def test_winners_are_no_groups_before_a_solution() -> None:
    assert list_lines(make_auction("winners")) == ["-"]


def test_solve_adds_each_winner_alone() -> None:
    pytest.importorskip("scipy", reason="scipy isn't there")
    auction = make_auction("winners")
    auction.solve("highs")
    assert list_lines(auction) == ["-", "Alpha", "Beta"]


def test_solve_solves_each_winner_alone() -> None:
    pytest.importorskip("scipy", reason="scipy isn't there")
    auction = make_auction("winners")
    report = auction.report(auction.solve("highs"))
    assert [(group.names, group.total) for group in report] == [
        ((), 50),
        (("Alpha",), 32),
        (("Beta",), 42),
    ]


def test_certify_adds_each_winner_alone() -> None:
    pytest.importorskip("swiglpk", reason="swiglpk isn't there")
    report = make_auction("winners").certify().report
    assert [group.names for group in report] == [(), ("Alpha",), ("Beta",)]


def test_a_report_adds_each_winner_alone() -> None:
    auction = make_auction("winners")
    auction.report(["X1_1 1\nX3_1 1\n"])
    assert list_lines(auction) == ["-", "Alpha", "Gamma"]


def test_winners_are_added_once() -> None:
    auction = make_auction("winners")
    auction.report(["X1_1 1\n"])
    auction.report(["X2_1 1\n", "X2_1 1\n"])
    assert list_lines(auction) == ["-", "Alpha"]


def test_the_names_of_bidders_and_categories() -> None:
    auction = make_worked()
    assert auction.bidders == ("Alpha", "Beta", "Gamma")
    assert auction.categories == ("A", "B")


def test_an_auction_without_rules_has_no_names() -> None:
    auction = wdp.Auction.from_text("")
    assert auction.bidders == ()
    assert auction.categories == ()


def test_an_auction_says_what_it_has() -> None:
    wanted = "bidders Alpha, Beta and Gamma, categories A and B, 3 forms and 4 groups"
    assert repr(make_worked()) == f"<wdp.Auction with {wanted}>"


def test_many_bidders_are_counted() -> None:
    bidders = [("bidder", f"B{number}", 9, 1) for number in range(5)]
    auction = wdp.Auction(rules=[*RULES[:2], *bidders])
    assert repr(auction) == "<wdp.Auction with 5 bidders, category A, 0 forms and 1 group>"


def test_an_audit_ends_with_the_input(outcome: wdp.Outcome) -> None:
    assert outcome.audit.endswith(b"\n" + example.INPUT.encode())


def test_an_audit_gives_its_outcome(tmp_path: Path, outcome: wdp.Outcome) -> None:
    (tmp_path / "audit.txt").write_bytes(outcome.audit)
    read = wdp.Auction.from_audit(tmp_path / "audit.txt").outcome
    assert read is not None
    assert read.report == outcome.report
    assert read.audit == outcome.audit


def test_an_audit_gives_its_auction(tmp_path: Path) -> None:
    (tmp_path / "audit.txt").write_text(read_text("examples", "verified.txt"))
    assert wdp.Auction.from_audit(tmp_path / "audit.txt").input().decode() == example.INPUT


def test_an_audit_that_is_not_there(tmp_path: Path) -> None:
    with pytest.raises(wdp.NotFound, match="audit: .*No such file"):
        wdp.Auction.from_audit(tmp_path / "none.txt")


def test_a_damaged_audit_is_refused(tmp_path: Path, outcome: wdp.Outcome) -> None:
    (tmp_path / "audit.txt").write_bytes(outcome.audit.replace(b"bound 1", b"bound 2"))
    with pytest.raises(wdp.Refused, match="wdp: certificate 1"):
        wdp.Auction.from_audit(tmp_path / "audit.txt")


def test_other_auctions_have_no_outcome() -> None:
    assert make_worked().outcome is None


def test_an_audit_gets_prices(tmp_path: Path, outcome: wdp.Outcome) -> None:
    (tmp_path / "audit.txt").write_bytes(outcome.audit)
    prices = wdp.Auction.from_audit(tmp_path / "audit.txt").prices(solver="highs").report.prices
    assert prices is not None
    assert dict(prices.paid) == {"Alpha": 10, "Beta": 13, "Gamma": 8}


def test_what_has_prices_gets_the_same_again(priced: wdp.Outcome) -> None:
    assert make_worked().prices(priced, solver="highs") == priced


MISSING = {
    "certificates are missing; certify(solutions) finds them": lambda: make_worked().prices(
        example.SOLUTIONS  # type: ignore[arg-type]
    ),
    "a report has no solutions and no certificates": lambda: make_worked().prices(
        make_worked().report(example.SOLUTIONS)  # type: ignore[arg-type]
    ),
    "nothing is certified yet; certify() or certify(solve()) does it": lambda: (
        make_worked().prices()
    ),
}


@pytest.mark.parametrize("missing, call", MISSING.items())
def test_prices_say_what_is_missing(missing: str, call: Callable[[], object]) -> None:
    assert missing in read_refusal(call)


def test_prices_of_another_auction_are_refused(outcome: wdp.Outcome) -> None:
    assert "of another auction" in read_refusal(lambda: make_auction().prices(outcome))


def test_a_page_comes_with_its_files(tmp_path: Path, priced: wdp.Outcome) -> None:
    pytest.importorskip("jinja2", reason="jinja2 isn't there")
    priced.write_page(tmp_path / "page")
    assert {path.name for path in (tmp_path / "page").iterdir()} == PAGE_FILES


def test_a_page_has_its_title(tmp_path: Path, outcome: wdp.Outcome) -> None:
    pytest.importorskip("jinja2", reason="jinja2 isn't there")
    outcome.write_page(tmp_path / "page", title="Lots of spectrum", currency="GBP")
    assert "Lots of spectrum" in (tmp_path / "page/results.html").read_text()


def test_a_page_has_the_audit(tmp_path: Path, priced: wdp.Outcome) -> None:
    pytest.importorskip("jinja2", reason="jinja2 isn't there")
    priced.write_page(tmp_path / "page")
    audit = (tmp_path / "page/audit.txt").read_bytes()
    printed = run_program(priced.program, "verify", audit)
    assert printed == run_program(priced.program, "verify", priced.audit)


def test_a_title_of_two_lines_is_refused(tmp_path: Path, outcome: wdp.Outcome) -> None:
    said = read_refusal(lambda: outcome.write_page(tmp_path / "page", title="a\nb"))
    assert said == "title: a text of 1 to 200 printable characters is asked for"


def test_a_page_replaces_no_other_files(tmp_path: Path, outcome: wdp.Outcome) -> None:
    pytest.importorskip("jinja2", reason="jinja2 isn't there")
    (tmp_path / "mine.txt").touch()
    assert "it has other files, as mine.txt" in read_refusal(lambda: outcome.write_page(tmp_path))
    page = tmp_path / "page"
    outcome.write_page(page)
    said = read_refusal(lambda: outcome.write_page(page, title="Lots of spectrum"))
    assert said.startswith(f"{page}/results.html: ")
    outcome.write_page(page, title="Lots of spectrum", replace=True)
    assert "Lots of spectrum" in (page / "results.html").read_text()


def test_rules_as_a_data_frame() -> None:
    pandas = pytest.importorskip("pandas", reason="pandas isn't there")
    table = pandas.read_csv(io.StringIO(TABLE_OF_RULES))
    rules = example.INPUT.partition("%form")[0]
    assert wdp.Auction(rules=table).input().decode() == f"{rules}%groups\n-\n"


def test_prices_as_a_data_frame(priced: wdp.Outcome) -> None:
    pytest.importorskip("pandas", reason="pandas isn't there")
    prices = priced.report.prices
    assert prices is not None
    assert prices.to_frame().to_dict("list") == {
        "bidder": ["Alpha", "Beta", "Gamma"],
        "exact": [Fraction(10), Fraction(25, 2), Fraction(15, 2)],
        "paid": [10, 13, 8],
    }


def test_solutions_as_a_data_frame() -> None:
    pytest.importorskip("pandas", reason="pandas isn't there")
    solutions = wdp.Solutions(("X1_1 1\nX2_1 1\n", "# nobody\n", "X1_2 1\n"), "cbc")
    assert solutions.to_frame().to_dict("list") == {
        "group": [1, 1, 3],
        "column": ["X1_1", "X2_1", "X1_2"],
        "value": ["1", "1", "1"],
    }


def test_findings_as_a_data_frame() -> None:
    pytest.importorskip("pandas", reason="pandas isn't there")
    auction = wdp.Auction(rules=RULES, forms=[("Alpha", [(30, 1), (15, 2)])])
    (row,) = auction.explain().to_frame().to_dict("records")
    assert row == {
        "part": "form",
        "number": 1,
        "kind": "BelowReserve",
        "record": 3,
        "field": 1,
        "cause": "'15' is below the reserve of 20",
    }


def test_bids_in_no_program_as_a_data_frame() -> None:
    pytest.importorskip("pandas", reason="pandas isn't there")
    frame = make_worked().explain(bids=True).to_frame()
    assert list(frame["bidder"]) == ["Alpha", "Beta"]


def test_a_matrix_as_a_data_frame() -> None:
    pytest.importorskip("pandas", reason="pandas isn't there")
    frame = make_worked().compile()[1].matrix().to_frame()
    assert frame.loc["B2"].to_dict() == {"X2_1": 1, "X3_1": 0}


def test_a_refused_bid_of_a_table_is_named_by_row_and_column() -> None:
    bids = [{"bidder": "Beta", "amount": 20, "A": 1}, {"bidder": "Alpha", "amount": 5, "A": 1}]
    said = read_refusal(wdp.Auction(rules=RULES, forms=bids).compile)
    assert said == "wdp: form 2: 12 BelowReserve at record 2 (Alpha, row 1, column amount)"


def test_a_refused_header_is_in_no_column_of_the_bids() -> None:
    with pytest.raises(wdp.Refused) as caught:
        wdp.Auction(rules=RULES, forms=[("Omega", [])]).compile()
    assert caught.value.column is None
