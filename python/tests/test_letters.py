"""Letters to bidders: what they say by hand, that their commands print what they show, and that none
has a bid of another bidder.
"""
import hashlib
import html.parser
import re
import shutil
import subprocess
from collections.abc import Mapping
from pathlib import Path

import pytest
from commands import (
    TIED,
    AuctionFolder,
    CommandResult,
    check_stopped,
    hide_library,
    list_files,
    make_environment,
    parse_rows,
    run,
)

COMMAND = re.compile(r"^\$ (.*)\n((?:[^$\n].*\n)*)", re.MULTILINE)


def write_letters(folder: AuctionFolder, *words: object) -> CommandResult:
    return run("letters", folder.where, "--wdp", folder.wdp, *words)


def read_letter(folder: AuctionFolder, name: str) -> str:
    return folder.read(name).decode()


@pytest.fixture
def award(whole: AuctionFolder, tmp_path: Path) -> AuctionFolder:
    """A copy of the folder of the worked example's award."""
    shutil.copytree(whole.where, tmp_path / "award")
    copied = object.__new__(AuctionFolder)
    vars(copied).update(vars(whole), where=tmp_path / "award")
    return copied


class PlainText(html.parser.HTMLParser):
    """The texts of a page's elements, and the names of elements that are open."""

    def __init__(self) -> None:
        super().__init__()
        self.texts: list[str] = []
        self.open: list[str] = []

    def handle_starttag(self, tag: str, attrs: object) -> None:
        if tag != "meta":
            self.open.append(tag)

    def handle_endtag(self, tag: str) -> None:
        assert self.open.pop() == tag

    def handle_data(self, data: str) -> None:
        if data.strip() and "style" not in self.open:
            self.texts.append(data.strip())


def read_page(folder: AuctionFolder, name: str) -> list[str]:
    """The texts of a page, each of whose elements is closed."""
    page = PlainText()
    page.feed(read_letter(folder, name))
    page.close()
    assert page.open == []
    return page.texts


NOTE = (
    "You pay the exact price, rounded up to whole pounds. Your opportunity cost is how much more "
    "the others, and the values of unsold lots, would bring without you. Bound by names the groups of "
    "winners that by exact prices pay just what they cost together, and says reserve if your exact "
    "price is the reserve."
)
# of Beta in the worked example: its costs and prices are those of docs/OFFICE.md
BETA = """\
Award of two bands
To Beta plc (Beta)

What you won
------------

Lots: 1 of 800 MHz
Winning bid: 1, of 20 GBP
You pay: 13 GBP
Exact price: 12 1/2 GBP
Opportunity cost: 8 GBP
Reserve of these lots: 10 GBP
Bound by: Beta plc + Gamma

NOTE

The form that counted
---------------------

Bids: 2
SHA-256 of the form: 46a0dc258876210251dc244ed2b32006b8f1e5e6d0de39bbf32058c574162de8

Bid  Amount, GBP  Lots
  1           20  1 of 800 MHz (won)
  2           45  3 of 800 MHz

What your lost bids lacked
--------------------------

Needed is the lowest amount, in steps of 1 GBP, at which the bid would have tied or won, all other bids as they are.

Bid  Amount, GBP  Needed, GBP  Lacked, GBP  Outcome
  2           45                            doesn't fit: no amount would do; it asks for 3 of 800 MHz, of which there are 2

How to check it
---------------
"""


def name_all(folder: AuctionFolder) -> None:
    folder.put("names.csv", b"Beta,Beta plc\nA,800 MHz\n")
    folder.put("page.json", b'{"title": "Award of two bands", "currency": "GBP"}\n')
    (folder.where / "sums/page.json.sha256").unlink()


def find_lost(folder: AuctionFolder, *words: object) -> None:
    seen = run("lost", folder.where, "--quiet", *words, env=folder.make_environment())
    assert seen.status == 0, seen


def test_a_letter_by_hand(award: AuctionFolder) -> None:
    name_all(award)
    find_lost(award)
    path = award.where / "letters"
    assert write_letters(award) == (0, "", f"letters: 3 letters in {path}\n")
    assert read_letter(award, "letters/Beta.txt").startswith(BETA.replace("NOTE", NOTE))
    ends = ("csv", "html", "txt")
    names = {f"{name}.{end}" for name in ("Alpha", "Beta", "Gamma") for end in ends}
    assert list_files(path) == names


def test_the_page_says_what_the_text_does(award: AuctionFolder) -> None:
    name_all(award)
    find_lost(award)
    write_letters(award)
    text = read_letter(award, "letters/Beta.txt")
    squeezed = re.sub(r"\s+", "", text)
    for piece in read_page(award, "letters/Beta.html")[1:]:
        assert re.sub(r"\s+", "", piece) in squeezed, piece


def test_the_commands_print_what_is_shown(award: AuctionFolder, wdp: str) -> None:
    """A bidder runs them where its letter and the audit are."""
    find_lost(award)
    write_letters(award)
    for name in ("Alpha", "Beta", "Gamma"):
        ((command, _),) = COMMAND.findall(read_letter(award, f"letters/{name}.txt"))
        assert command == f"sha256sum {name}.csv"
    write_letters(award, "--with-audit")
    folder = award.where / "letters"
    shutil.copy(award.where / "audit.txt", folder)
    tools = award.where.parent / "tools"
    tools.mkdir()
    (tools / "wdp").symlink_to(wdp)
    counts = {}
    for name in ("Alpha", "Beta", "Gamma"):
        commands = COMMAND.findall(read_letter(award, f"letters/{name}.txt"))
        counts[name] = len(commands)
        for command, output in commands:
            done = subprocess.run(
                ["sh", "-c", command],
                cwd=folder,
                env=make_environment(PATH=f"{tools}:/usr/bin:/bin"),
                capture_output=True,
            )
            assert done.stdout.decode() == output, command
            assert name in output or command == "sha256sum audit.txt"
    # (of each the form, twice, the audit, the bid and the price)
    assert counts == {"Alpha": 5, "Beta": 5, "Gamma": 5}


# the worked example with different primes above a million in place of amounts
PRIMES = {
    b"30,1,0": b"3000017,1,0",
    b"50,2,1": b"5000011,2,1",
    b"28,1,1": b"2800001,1,1",
    b"20,1,0": b"2000003,1,0",
    b"45,3,0": b"4500007,3,0",
    b"12,0,1": b"1200007,0,1",
}
AMOUNTS = {
    "Alpha": (3000017, 5000011, 2800001),
    "Beta": (2000003, 4500007),
    "Gamma": (1200007,),
}


def make_primes(data: bytes) -> bytes:
    for before, after in PRIMES.items():
        assert data.count(before) == 1
        data = data.replace(before, after)
    return data


def list_numbers(text: str) -> set[int]:
    """The whole numbers in a text, in whatever way they are written."""
    return {int(match.replace(",", "")) for match in re.findall(r"[0-9][0-9,]*", text)}


def check_amounts(letters: Mapping[str, str]) -> None:
    """Each letter has all amounts of its bidder, and none of another's."""
    for name, text in letters.items():
        numbers = list_numbers(text)
        for other, amounts in AMOUNTS.items():
            expected = set(amounts) if other == name else set()
            assert numbers & set(amounts) == expected, (name, other)


def read_letters(folder: AuctionFolder, kind: str, end: str) -> dict[str, str]:
    return {name: read_letter(folder, f"{kind}/{name}.{end}") for name in AMOUNTS}


@pytest.fixture(scope="module")
def primes(whole: AuctionFolder, tmp_path_factory: pytest.TempPathFactory) -> AuctionFolder:
    where = tmp_path_factory.mktemp("primes") / "auction"
    folder = AuctionFolder(where, whole.wdp, make_primes(whole.read("input.txt")))
    folder.read_messages("--ties", "--quiet")
    find_lost(folder)
    assert write_letters(folder).status == 0
    assert write_letters(folder, "--receipts").status == 0
    return folder


@pytest.mark.parametrize("kind", ["letters", "receipts"])
@pytest.mark.parametrize("end", ["html", "txt"])
def test_no_letter_has_a_bid_of_another(kind: str, end: str, primes: AuctionFolder) -> None:
    check_amounts(read_letters(primes, kind, end))


def test_what_lost_bids_lacked_is_no_bid_of_another(primes: AuctionFolder) -> None:
    """(Alpha's bid 3 needs the total of 6,200,027 less what Beta's bid 1 brings.)"""
    assert 6200027 - 2000003 in list_numbers(read_letter(primes, "lost/Alpha.txt"))
    for name in ("Alpha", "Beta"):
        others = {amount for other, each in AMOUNTS.items() if other != name for amount in each}
        assert not others & list_numbers(read_letter(primes, f"lost/{name}.txt"))


def test_a_letter_with_a_bid_of_another_is_found(primes: AuctionFolder) -> None:
    letters = read_letters(primes, "letters", "txt")
    for number in ("5000011", "5,000,011"):
        with pytest.raises(AssertionError):
            check_amounts({**letters, "Beta": f"{letters['Beta']}{number}\n"})


def test_receipts_before_the_award(tmp_path: Path, wdp: str, whole: AuctionFolder) -> None:
    folder = AuctionFolder(tmp_path / "auction", wdp)
    shutil.move(folder.where / "input.txt", tmp_path / "input.txt")
    words = ["--receipts", "--input", tmp_path / "input.txt", "--currency", "GBP"]
    path = folder.where / "receipts"
    assert write_letters(folder, *words) == (0, "", f"letters: 3 receipts in {path}\n")
    text = read_letter(folder, "receipts/Beta.txt")
    assert text.startswith("Forms of the auction\nTo Beta\n\nReceipt of your form\n")
    assert "\n  2           45  3 of A\n" in text
    assert "\n$ sha256sum Beta.csv\n46a0dc25887621" in text
    digest = hashlib.sha256(folder.read("receipts/Beta.csv")).hexdigest()
    assert f"\n{digest}  Beta.csv\n" in text
    for word in ("won", "pay", "lost", "(won)"):
        assert word not in text
    folder.read_messages("--ties", "--quiet")
    assert folder.read_outcome() == whole.read_outcome()


def test_a_faulty_input_begins_no_folder(tmp_path: Path, wdp: str) -> None:
    folder = AuctionFolder(tmp_path / "auction", wdp)
    faulty = tmp_path / "faulty.txt"
    faulty.write_bytes(folder.read("input.txt").replace(b"20,1,0", b"1,1,0"))
    shutil.rmtree(folder.where)
    seen = write_letters(folder, "--receipts", "--input", faulty)
    check_stopped(seen, "letters: the input: wdp: form 2: 12 BelowReserve at record 2; wdp-office ")
    assert not folder.where.exists()


# Gamma bids for more than there is, and Delta has no form
LOSERS = b"""\
%rules
rules,1,1,,
category,A,1,1,1
bidder,Alpha,9,1,
bidder,Gamma,9,1,
bidder,Delta,9,1,
%form
Alpha,A
7,1
%form
Gamma,A
5,1
%groups
-
"""


def test_letters_to_those_who_win_nothing(tmp_path: Path, wdp: str) -> None:
    folder = AuctionFolder(tmp_path / "auction", wdp, LOSERS)
    folder.read_messages("--quiet")
    assert write_letters(folder).status == 0
    gamma = read_letter(folder, "letters/Gamma.txt")
    assert "\nNone of your bids won. You pay nothing.\n" in gamma
    assert "\n  1       5  1 of A\n" in gamma
    delta = read_letter(folder, "letters/Delta.txt")
    assert "\nThere is no form of yours, and so no bid.\n" in delta
    assert write_letters(folder, "--receipts").status == 0
    receipt = read_letter(folder, "receipts/Delta.txt")
    assert "\nPlease confirm that you have sent no form.\n" in receipt
    assert "$" not in receipt
    assert not folder.has("receipts/Delta.csv")
    assert "\n$ " not in delta
    assert write_letters(folder, "--with-audit").status == 0
    delta = read_letter(folder, "letters/Delta.txt")
    assert "\n$ wdp forms audit.txt | grep '^%form Delta '\n%form Delta -\n" in delta


def test_a_letter_without_prices(tmp_path: Path, wdp: str) -> None:
    folder = AuctionFolder(tmp_path / "auction", wdp, LOSERS)
    folder.read_messages("--quiet", "--no-prices")
    write_letters(folder)
    assert "\nYou pay: not found yet\n" in read_letter(folder, "letters/Alpha.txt")


def test_names_are_text(award: AuctionFolder) -> None:
    award.put("names.csv", b'Beta,"<script>x</script> & ""Sons"""\n')
    write_letters(award)
    page = read_letter(award, "letters/Beta.html")
    assert "<script>" not in page
    assert "&lt;script&gt;x&lt;/script&gt; &amp; &#34;Sons&#34; (Beta)" in page


def test_letters_without_what_lost_bids_lacked(award: AuctionFolder) -> None:
    hint = f"what lost bids lacked isn't in them; wdp-office lost {award.where} finds that"
    assert write_letters(award).err.endswith(f"letters: {hint}\n")
    assert "What your lost bids lacked" not in read_letter(award, "letters/Alpha.txt")


def test_what_was_found_of_another_award_is_left_out(award: AuctionFolder) -> None:
    find_lost(award)
    award.put("lost/of_award.txt", b"another\n")
    check_stopped(write_letters(award), "/lost/of_award.txt isn't what was left there")
    (award.where / "lost/of_award.txt").unlink()
    assert "isn't in them" in write_letters(award).err


def test_a_part_of_the_lost_bids(award: AuctionFolder) -> None:
    find_lost(award, "--bidder", "Alpha", "--bid", 3)
    write_letters(award)
    text = read_letter(award, "letters/Alpha.txt")
    assert "\nIt was asked for 1 of 2 lost bids.\n" in text
    assert "What your lost bids lacked" not in read_letter(award, "letters/Beta.txt")


def test_the_award_that_was_drawn(tmp_path: Path, wdp: str) -> None:
    """(Alpha and Beta bid the same for the one lot.)"""
    folder = AuctionFolder(tmp_path / "tied", wdp, TIED)
    folder.read_messages("--quiet", "--award", 2)
    write_letters(folder)
    won = [
        name
        for name in ("Alpha", "Beta")
        if "You pay: " in read_letter(folder, f"letters/{name}.txt")
    ]
    assert len(won) == 1
    text = read_letter(folder, f"letters/{won[0]}.txt")
    assert "\n2 awards reach the same total. This letter is about award 1; which " in text
    write_letters(folder, "--drawn", 2)
    text = read_letter(folder, f"letters/{won[0]}.txt")
    drawn = "\n2 awards reach the same total. A draw decided between them, and award 2 was drawn.\n"
    assert drawn in text
    assert "You pay nothing." in text
    write_letters(folder, "--drawn", 2, "--with-audit")
    digest = hashlib.sha256(folder.read("awards/2/audit.txt")).hexdigest()
    assert f"{digest}  audit.txt\n" in read_letter(folder, f"letters/{won[0]}.txt")


def test_what_lost_bids_lacked_in_the_award_that_was_drawn(tmp_path: Path, wdp: str) -> None:
    folder = AuctionFolder(tmp_path / "tied", wdp, TIED)
    folder.read_messages("--quiet", "--award", 2)
    folder.put("names.csv", b"Alpha,Alpha plc\nBeta,Beta plc\n")
    seen = run("lost", folder.where / "awards/2", env=folder.make_environment())
    assert re.match("Lost bids of (Alpha|Beta) plc ", seen.out), seen
    name = seen.out.split("(")[1].split(")")[0]
    assert "what lost bids lacked isn't in them" not in write_letters(folder, "--drawn", 2).err
    text = read_letter(folder, f"letters/{name}.txt")
    assert "  it tied; the draw decided\n" in text
    assert "The office has an audit for each needed amount." in text


# options, and why nothing is written
REFUSED = """
--drawn 3                    |1 |/awards/3/audit.txt isn't there; wdp-office auction * --award 3 makes it
--input x                    |2 |letters: --input goes with --receipts
--receipts --drawn 2         |2 |letters: --drawn goes with letters about an award, and not with --receipts
--receipts --input /dev/null |1 |letters: the input: wdp: input: wrong number of rules; wdp-office
--title \x1b                 |2 |argument --title: it takes a text of 1 to 200 printable characters
"""


@pytest.mark.parametrize(("words", "status", "message"), parse_rows(REFUSED))
def test_what_is_refused(words: str, status: str, message: str, award: AuctionFolder) -> None:
    seen = write_letters(award, *words.split(" "))
    check_stopped(seen, status=int(status))
    assert re.search(re.escape(message).replace(r"\*", ".*"), seen.err), seen.err
    assert not award.has("letters")
    assert not award.has("receipts")


def test_a_folder_without_an_award(tmp_path: Path, wdp: str) -> None:
    folder = AuctionFolder(tmp_path / "auction", wdp)
    check_stopped(write_letters(folder), "/auction/audit.txt isn't there; wdp-office auction ")
    shutil.rmtree(folder.where)
    check_stopped(write_letters(folder), "/auction is no folder of an auction")
    check_stopped(write_letters(folder, "--receipts"), "/auction is no folder of an auction")


def test_other_files_stay(award: AuctionFolder) -> None:
    (award.where / "letters").mkdir()
    award.put("letters/mine.txt", b"mine\n")
    check_stopped(write_letters(award), "/letters: it has other files, as mine.txt")
    assert award.read("letters/mine.txt") == b"mine\n"


def test_without_a_library(award: AuctionFolder, tmp_path: Path) -> None:
    hidden = tmp_path / "hidden"
    hidden.mkdir()
    how = hide_library("jinja2", hidden)
    how["env"]["WDP"] = award.wdp
    seen = run("letters", award.where, **how)
    check_stopped(
        seen, "letters: a letter needs Debian's packages python3-jinja2: apt-get install "
    )
    assert not award.has("letters")
