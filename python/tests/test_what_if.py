"""A folder that begins from an earlier one without a bidder's form, or with another one: its outcome,
what it takes over, and what it says has changed.
"""
import re
from pathlib import Path

import pytest

import wdp as package
import workbooks
from commands import (
    CommandResult,
    list_files,
    make_environment,
    parse_rows,
    run,
    run_program,
)

RULES = """\
%rules
rules,1,1,,
category,A,2,10,1
bidder,Alpha,9,1,
bidder,Beta,9,1,
bidder,Gamma,9,1,
"""
ALPHA = "%form\nAlpha,A\n30,1\n"
BETA = "%form\nBeta,A\n20,1\n"
GAMMA = "%form\nGamma,A\n12,1\n"
GROUPS = "%groups\n-\nAlpha\nBeta\n"
# Alpha and Beta win a lot each, and Gamma would win one without either
INPUT = RULES + ALPHA + BETA + GAMMA + GROUPS
LEFT = {
    "Alpha": RULES + BETA + GAMMA + GROUPS,
    "Beta": RULES + ALPHA + GAMMA + GROUPS,
    "Gamma": RULES + ALPHA + BETA + GROUPS,
}


class Office:
    """A folder for auctions, with the program that judges them."""

    def __init__(self, folder: Path, wdp: str) -> None:
        self.folder = folder
        self.wdp = wdp

    def run(self, new: str, *words: object) -> CommandResult:
        """A run of an auction in a folder of this name, in a process of its own."""
        arguments = ["--jobs", 1, "--wdp", self.wdp, *words]
        return run("auction", self.folder / new, *arguments, env=make_environment())

    def begin(self, new: str, text: str, *words: object) -> CommandResult:
        """A run of an auction with this input."""
        path = self.folder / f"{new}.input"
        path.write_text(text)
        seen = self.run(new, "--input", path, *words)
        assert seen.status == 0, seen
        return seen

    def begin_from(self, old: str, new: str, *words: object) -> CommandResult:
        """A run of a new folder that begins from an old one."""
        seen = self.run(new, "--from", self.folder / old, *words)
        assert seen.status == 0, seen
        return seen

    def read(self, *names: str) -> bytes:
        return self.folder.joinpath(*names).read_bytes()

    def verify(self, name: str) -> bytes:
        """What `wdp verify` prints of a folder's audit."""
        return run_program(self.wdp, "verify", self.read(name, "audit.txt"))


@pytest.fixture(scope="module")
def office(tmp_path_factory: pytest.TempPathFactory, wdp: str) -> Office:
    """With the auction `old`, and for each bidder the folder that begins from that without its
    form, of the bidder's name. (No test changes them.)
    """
    for library in ("jinja2", "swiglpk"):
        pytest.importorskip(library, reason=f"{library} isn't there")
    made = Office(tmp_path_factory.mktemp("office"), wdp)
    made.begin("old", INPUT)
    return made


@pytest.fixture(scope="module")
def withdrawals(office: Office) -> dict[str, CommandResult]:
    """What the runs print in which a bidder has withdrawn, whose folders are called after it."""
    return {name: office.begin_from("old", name, "--without", name) for name in LEFT}


@pytest.fixture(scope="module")
def fresh(office: Office) -> Office:
    """With a folder `fresh NAME` for each bidder, of an input without its form."""
    for name, text in LEFT.items():
        office.begin(f"fresh {name}", text)
    return office


@pytest.mark.parametrize("name", LEFT)
def test_the_input_lacks_the_form_alone(
    office: Office, withdrawals: dict[str, CommandResult], name: str
) -> None:
    assert office.read(name, "input.txt").decode() == LEFT[name]


@pytest.mark.parametrize("name", LEFT)
def test_the_report_is_that_of_an_input_without_the_form(
    fresh: Office, withdrawals: dict[str, CommandResult], name: str
) -> None:
    assert fresh.read(name, "report.txt") == fresh.read(f"fresh {name}", "report.txt")


@pytest.mark.parametrize("name", LEFT)
def test_what_is_proved_is_that_of_an_input_without_the_form(
    fresh: Office, withdrawals: dict[str, CommandResult], name: str
) -> None:
    assert fresh.verify(name) == fresh.verify(f"fresh {name}")


@pytest.mark.parametrize("table", ["bidders", "categories", "groups"])
def test_the_tables_are_those_of_an_input_without_the_form(
    fresh: Office, withdrawals: dict[str, CommandResult], table: str
) -> None:
    path = f"results/{table}.csv"
    assert fresh.read("Beta", path) == fresh.read("fresh Beta", path)


HEADINGS = [
    "Bidder",
    "Wins before",
    "Wins now",
    "Opportunity cost before",
    "Opportunity cost now",
    "Price before",
    "Price now",
]
ONE = "for 1 of A (bid 1)"
# by hand: each of the two winners costs Gamma its 12, and pays the reserve of 10 where nobody is
# left; without Beta, Gamma wins
CHANGES = {
    "Alpha": f"""
        Alpha | 30 {ONE} | nothing  | 12 | 0 | 12 |
        Beta  | 20 {ONE} | 20 {ONE} | 12 | 0 | 12 | 10
        Gamma | nothing  | 12 {ONE} |    | 0 |    | 10
        All   | 50 in all | 32 in all |  |   | 24 | 20
    """,
    "Beta": f"""
        Alpha | 30 {ONE} | 30 {ONE} | 12 | 0 | 12 | 10
        Beta  | 20 {ONE} | nothing  | 12 | 0 | 12 |
        Gamma | nothing  | 12 {ONE} |    | 0 |    | 10
        All   | 50 in all | 42 in all |  |   | 24 | 20
    """,
    "Gamma": f"""
        Alpha | 30 {ONE} | 30 {ONE} | 12 | 0 | 12 | 10
        Beta  | 20 {ONE} | 20 {ONE} | 12 | 0 | 12 | 10
        Gamma | nothing  | nothing  |    |   |    |
        All   | 50 in all | 50 in all |  |   | 24 | 20
    """,
}


def read_table(text: str) -> list[list[str]]:
    """The cells of a table, each row cut where its headings begin or end."""
    head, *lines = text.splitlines()
    spans = [match.span() for match in re.finditer(r"\S+(?: \S+)*", head)]
    rows = []
    for line in [head, *lines]:
        cells = ["" for _ in spans]
        for match in re.finditer(r"\S+(?: \S+)*", line):
            place = next(
                place
                for place, (begin, end) in enumerate(spans)
                if match.start() == begin or match.end() == end
            )
            cells[place] = match[0]
        rows.append(cells)
    return rows


@pytest.mark.parametrize("name", CHANGES)
def test_the_end_says_what_changed(withdrawals: dict[str, CommandResult], name: str) -> None:
    wanted = [[cell.strip() for cell in row] for row in parse_rows(CHANGES[name].strip())]
    wanted = [[*row, *[""] * (len(HEADINGS) - len(row))] for row in wanted]
    assert read_table(withdrawals[name].out) == [HEADINGS, *wanted]


# by hand: without Beta nobody is left out whom group Beta left out, and of Alpha and Beta that
# isn't known; without Gamma the winners are the same
TAKEN = """
Alpha | 2 of 3 groups taken over from *old: 1 (-), 2 (Alpha)⏎
Beta  | 2 of 3 groups taken over from *old: 1 (-), 3 (Beta)⏎
Gamma | 1 of 3 groups taken over from *old: 1 (-)⏎
"""


@pytest.mark.parametrize("name, taken", parse_rows(TAKEN))
def test_what_is_taken_over_is_told(
    withdrawals: dict[str, CommandResult], name: str, taken: str
) -> None:
    pattern = re.escape(taken).replace(r"\*", ".*")
    assert re.search(pattern, withdrawals[name].err), withdrawals[name].err


def test_a_group_with_the_same_program_has_the_same_certificate(
    office: Office, withdrawals: dict[str, CommandResult]
) -> None:
    assert office.read("Beta", "programs/1.mps") == office.read("old", "programs/3.mps")
    assert office.read("Beta", "certificates/1.txt") == office.read("old", "certificates/3.txt")


def test_no_solver_is_asked_for_what_is_taken_over(
    office: Office, withdrawals: dict[str, CommandResult]
) -> None:
    logs = {path for path in list_files(office.folder / "Beta") if path.startswith("logs/")}
    assert not any(path.startswith(("logs/1", "logs/3")) for path in logs), logs
    assert any(path.startswith("logs/2") for path in logs), logs


def test_the_only_bidder_withdraws(office: Office) -> None:
    office.begin("only", RULES + ALPHA + "%groups\n-\n")
    seen = office.begin_from("only", "nobody", "--without", "Alpha")
    assert read_table(seen.out)[1:] == [
        ["Alpha", f"30 {ONE}", "nothing", "0", "", "10", ""],
        ["All", "30 in all", "0 in all", "", "", "10", "0"],
    ]


def test_several_bidders_withdraw(office: Office) -> None:
    office.begin_from("old", "two", "--without", "Alpha", "--without", "Beta")
    assert office.read("two", "input.txt").decode() == RULES + GAMMA + GROUPS
    assert office.verify("two").startswith(b"group 1 -\nGamma 1 12\ntotal 12\n")


def test_another_form_counts(office: Office) -> None:
    (office.folder / "gamma.csv").write_text("Gamma;A\r\n25;1\r\n")
    seen = office.begin_from("old", "more", "--form", office.folder / "gamma.csv")
    form = "%form\nGamma,A\n25,1\n"
    assert office.read("more", "input.txt").decode() == RULES + ALPHA + BETA + form + GROUPS
    assert "0 of 3 groups taken over" in seen.err
    assert read_table(seen.out)[2:4] == [
        ["Beta", f"20 {ONE}", "nothing", "12", "0", "12", ""],
        ["Gamma", "nothing", f"25 {ONE}", "", "20", "", "20"],
    ]


def test_a_number_of_a_form_that_is_wider_than_its_column_is_named(office: Office) -> None:
    body = workbooks.make_body([["Gamma", "A"], [25, 1]])
    path = office.folder / "gamma.xlsx"
    path.write_bytes(workbooks.make_one('<cols><col min="1" max="1" width="1"/></cols>' + body))
    seen = office.begin_from("old", "shown", "--form", path, "--quiet")
    shown = "1 number wider than the column: A2"
    assert seen.err.splitlines()[0] == f"auction: {path}: {shown}"


def test_the_same_form_changes_nothing(office: Office) -> None:
    (office.folder / "same.csv").write_text("Alpha,A\n30,1\n")
    seen = office.begin_from("old", "same", "--form", office.folder / "same.csv", "--quiet")
    assert office.read("same", "input.txt").decode() == INPUT
    assert office.read("same", "audit.txt") == office.read("old", "audit.txt")
    assert len(read_table(seen.out)) == 4


def test_a_form_of_a_bidder_without_one_comes_in_the_order_of_the_rules(office: Office) -> None:
    (office.folder / "beta.csv").write_text("Beta,A\n20,1\n")
    office.begin("lacking", LEFT["Beta"])
    office.begin_from("lacking", "whole", "--form", office.folder / "beta.csv")
    assert office.read("whole", "input.txt").decode() == INPUT


def test_awards_that_tie_are_taken_over_if_the_programs_are_the_same(office: Office) -> None:
    """Gamma's bid for three lots is in no program; Beta's ties with Alpha's."""
    rules = RULES.replace("A,2,", "A,1,")
    text = f"{rules}{ALPHA}{BETA}{GAMMA}{GROUPS}".replace("20,1", "30,1").replace("12,1", "90,3")
    office.begin("tied", text.replace("Gamma,9,1,", "Gamma,9,3,"), "--ties")
    seen = office.begin_from("tied", "tied too", "--without", "Gamma", "--ties")
    assert "3 of 3 groups taken over" in seen.err
    assert office.read("tied too", "ties.txt") == office.read("tied", "ties.txt")
    assert b"\ntie\n" in office.verify("tied too")


def test_names_and_currency_are_taken_over(office: Office) -> None:
    office.begin("named", RULES + ALPHA + BETA + GROUPS, "--currency", "GBP")
    (office.folder / "named/names.csv").write_text("code,name\nAlpha,Alpha plc\n")
    office.begin_from("named", "named too", "--without", "Beta")
    page = office.read("named too", "results/results.html").decode()
    assert "Alpha plc" in page
    assert "GBP" in page


def test_the_same_command_goes_on(office: Office, withdrawals: dict[str, CommandResult]) -> None:
    before = office.read("Beta", "audit.txt")
    again = office.begin_from("old", "Beta", "--without", "Beta")
    assert again.out == withdrawals["Beta"].out
    assert "taken over" not in again.err
    assert office.read("Beta", "audit.txt") == before


# words, the status, and the one line that is printed
REFUSED = """
new --from old --without Zulu                         | 2 | no bidder of old is called Zulu
new --from old --without gamma                        | 2 | no bidder of old is called gamma; the nearest name is Gamma
new --from old --without Gamma --form gamma25.csv     | 2 | Gamma is to have no form, and another one; say one of these
new --from Gamma --without Gamma                      | 2 | Gamma has no form in Gamma/input.txt
full --from old --without Gamma                       | 1 | full isn't empty; name a new folder
Alpha --from old --without Gamma                      | 1 | Alpha isn't empty; name a new folder
file --from old --without Gamma                       | 1 | file: Not a directory
old --from old --without Gamma                        | 2 | old is in old; name a folder elsewhere
old/new --from old --without Gamma                    | 2 | old/new is in old; name a folder elsewhere
link/new --from old --without Gamma                   | 2 | link/new is in old; name a folder elsewhere
new --from nowhere --without Gamma                    | 1 | nowhere is no folder
new --from full --without Gamma                       | 1 | full has no award: full/report.txt isn't there, which certificates come with
new --from old                                        | 2 | --from OLD needs --without NAME or --form FILE
new --without Gamma                                   | 2 | --without, --form and --sheet go with --from OLD
new --from old --without Gamma --no-certify           | 2 | --from OLD goes without --input, --step, --award and --no-certify
new --from old --without Gamma --input old/input.txt  | 2 | --from OLD goes without --input, --step, --award and --no-certify
--from old --without Gamma                            | 2 | --from OLD goes with DIR, the new folder
new --from old --form none.csv                        | 1 | none.csv: No such file or directory
new --from old --form zulu.csv                        | 2 | zulu.csv: 'Zulu' is no bidder of the rules
new --from old --form gamma25.csv --form gamma25.csv  | 2 | gamma25.csv: another form of Gamma is in gamma25.csv
new --from old --form low.csv                         | 1 | low.csv:3:1: '5' is below the reserve of 10
new --from old --form cut.csv                         | 1 | cut.csv:2: the last row has no line end, as in a file that was cut off
"""


@pytest.fixture
def refused(
    office: Office, withdrawals: dict[str, CommandResult], monkeypatch: pytest.MonkeyPatch
) -> Office:
    """The folder in which the commands of REFUSED are run."""
    monkeypatch.chdir(office.folder)
    texts = {
        "gamma25.csv": "Gamma,A\n25,1\n",
        "zulu.csv": "Zulu,A\n25,1\n",
        "low.csv": "Gamma,A\n12,1\n5,1\n",
        "cut.csv": "Gamma,A\n12,1",
        "file": "",
    }
    for name, text in texts.items():
        (office.folder / name).write_text(text)
    (office.folder / "full").mkdir(exist_ok=True)
    (office.folder / "full/other.txt").touch()
    if not (office.folder / "link").exists():
        (office.folder / "link").symlink_to("old")
    return office


@pytest.mark.parametrize("words, status, line", parse_rows(REFUSED))
def test_what_is_refused_writes_nothing(
    refused: Office, words: str, status: str, line: str
) -> None:
    before = list_files(refused.folder)
    seen = run("auction", *words.split(), "--wdp", refused.wdp)
    assert seen == (int(status), "", f"auction: {line}\n")
    assert list_files(refused.folder) == before


def test_a_changed_file_of_the_old_folder_is_refused(office: Office) -> None:
    office.begin("damaged", INPUT)
    path = office.folder / "damaged/certificates/1.txt"
    path.write_bytes(path.read_bytes() + b"\n")
    seen = office.run("from damaged", "--from", office.folder / "damaged", "--without", "Gamma")
    assert seen.status == 1
    assert f"{path} isn't what was left there" in seen.err
    assert not (office.folder / "from damaged/report.txt").exists()


def test_a_changed_page_of_the_old_folder_is_refused(office: Office) -> None:
    office.begin("renamed", INPUT)
    path = office.folder / "renamed/page.json"
    path.write_bytes(b'{"title": "Mine", "currency": null}\n')
    seen = office.run("from renamed", "--from", office.folder / "renamed", "--without", "Gamma")
    assert seen.status == 1
    assert f"{path} isn't what was left there" in seen.err
    path.unlink()
    seen = office.run("from renamed", "--from", office.folder / "renamed", "--without", "Gamma")
    assert (seen.status, str(path) in seen.err) == (1, True)


def test_a_missing_file_of_the_old_folder_is_named(office: Office) -> None:
    office.begin("cut", INPUT)
    path = office.folder / "cut/audit.txt"
    path.unlink()
    seen = office.run("from cut", "--from", office.folder / "cut", "--without", "Gamma")
    assert (seen.status, f"{path} isn't there" in seen.err) == (1, True)


@pytest.fixture(scope="module")
def before() -> package.Auction:
    return package.Auction.from_text(INPUT)


def test_an_auction_without_a_form(before: package.Auction) -> None:
    assert before.without("Beta").input().decode() == LEFT["Beta"]


def test_an_auction_with_another_form(before: package.Auction) -> None:
    changed = before.with_form(("Beta", [(25, 1)]))
    assert changed.input().decode() == INPUT.replace("20,1", "25,1")


def test_a_form_comes_back_to_its_place(before: package.Auction) -> None:
    changed = before.without("Beta").with_form("Beta,A\n20,1\n")
    assert changed.input().decode() == INPUT


def test_who_is_no_bidder_has_no_form(before: package.Auction) -> None:
    with pytest.raises(package.WrongArgument, match="no bidder is called 'Delta'"):
        before.without("Delta")
    with pytest.raises(package.WrongArgument, match="no bidder is called 'Delta'"):
        before.with_form(("Delta", [(25, 1)]))


def test_who_has_no_form_has_none_to_take_away(before: package.Auction) -> None:
    with pytest.raises(package.WrongArgument, match="Beta has no form"):
        before.without("Beta").without("Beta")


def test_two_outcomes_side_by_side(before: package.Auction) -> None:
    """(The numbers are those of CHANGES.)"""
    pytest.importorskip("swiglpk", reason="swiglpk isn't there")
    now = before.without("Beta")
    comparison = before.prices(before.certify(), "highs").compare(
        now.prices(now.certify(), "highs")
    )
    assert [change.bidder for change in comparison.changes] == ["Alpha", "Beta", "Gamma"]
    beta = comparison.changes[1]
    assert beta.before == package.Standing(package.Winner("Beta", 1, 20), cost=12, price=12)
    assert beta.now == package.Standing(None, cost=0, price=None)


def test_a_comparison_as_a_data_frame(before: package.Auction) -> None:
    pytest.importorskip("pandas", reason="pandas isn't there")
    pytest.importorskip("swiglpk", reason="swiglpk isn't there")
    outcome = before.certify()
    frame = outcome.compare(outcome).to_frame()
    assert frame["bidder"].tolist() == ["Alpha", "Beta"]
    assert frame["amount_before"].tolist() == [30, 20]
    assert frame["amount_now"].tolist() == [30, 20]
    assert frame["cost_now"].tolist() == [12, 12]
