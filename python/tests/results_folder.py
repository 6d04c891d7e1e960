"""A folder in which `wdp-office results` is run, its page as a reader sees it, and small auctions
whose results are known.
"""
import csv
import hashlib
import json
import os
import re
import subprocess
from html import unescape
from pathlib import Path
from typing import Any, NamedTuple

from commands import OFFICE, SCHEMA, CommandResult, read_text, run, run_program

# what the folder of results has without an audit
FILES = ["bidders.csv", "categories.csv", "groups.csv", "pools.csv", "results.html", "results.json"]
# One lot, and two bids of 10 for it: by which is first, Alpha's cost is 10 or 0.
TIE = (OFFICE / "tie.txt").read_text()
TIE_REPORT = (OFFICE / "tie.report.txt").read_text()
TIE_AUDIT = (OFFICE / "tie.audit.txt").read_text()
TIED_AUDIT = (OFFICE / "tie.tied.txt").read_text()
SOLUTIONS = "%solution\nX1_1 1\n%solution\nX2_1 1\n"
CERTIFICATES = "%certificate\nbound 1 C1 10\n" * 2
_CELL = re.compile(r'<(t[hd])(?: scope="(\w+)")?[^>]*>(.*?)</t[hd]>', re.S)


class Cell(NamedTuple):
    """A cell of a table: its tag, what a heading is the heading of, and its text."""

    tag: str
    scope: str
    text: str


def strip_tags(html: str) -> str:
    """What a browser shows of a piece of a page."""
    return unescape(re.sub("<[^>]*>", "", html))


def compute_digest(text: str) -> str:
    return hashlib.sha256(text.encode()).hexdigest()


class Page:
    """The tables of a page by their names, each a list of rows, and the texts of what has an id."""

    def __init__(self, html: str) -> None:
        self.html = html
        pieces = re.split(r'<[^>]* id="([^"]+)"[^>]*>', html)[1:]
        names = pieces[::2]
        assert len(names) == len(set(names))
        texts = map(strip_tags, pieces[1::2])
        self.texts = dict(zip(names, texts, strict=True))
        self.tables: dict[str, list[list[Cell]]] = {}
        for name, table in re.findall(r'<table id="table-(\w+)"[^>]*>(.*?)</table>', html, re.S):
            rows = [_CELL.findall(row) for row in table.split("<tr")[1:]]
            self.tables[name] = [
                [Cell(tag, scope, strip_tags(cell)) for tag, scope, cell in row] for row in rows
            ]

    def list_rows(self, table: str) -> list[list[str]]:
        """The texts of a table's rows, the headings first; nothing if there is no such table."""
        return [[cell.text for cell in row] for row in self.tables.get(table, ())]

    def list_first_lines(self) -> list[str]:
        """The title, and what one reads below it before the first picture or table."""
        head = re.split("<(?:h2|figure)", self.html.partition("<main>")[2])[0]
        return strip_tags(head).strip().splitlines()

    def list_proofs(self, table: str) -> list[str]:
        """What the page says after a table, a sentence each; nothing if it says nothing there."""
        match = re.search(f'<div class="proofs" id="proofs-{table}">(.*?)</div>', self.html, re.S)
        return strip_tags(match[1]).strip().splitlines() if match else []


class ResultsFolder:
    """A folder in which results are made of texts, in its folder `out`."""

    def __init__(self, folder: Path) -> None:
        self.folder = folder
        self.out = folder / "out"

    def write(self, name: str, text: str) -> Path:
        path = self.folder / name
        path.write_text(text)
        return path

    def run(
        self, data: str, report: str, *options: object, audit: str | None = None, **how: Any
    ) -> CommandResult:
        """Runs the command, which writes its files unless it is to print a text."""
        arguments: list[object] = [self.write("input.txt", data), self.write("report.txt", report)]
        if "--text" not in options:
            arguments += ["--output", self.out]
        if audit is not None:
            arguments += ["--audit", self.write("given.txt", audit)]
        return run("results", *arguments, *options, **how)

    def publish(self, data: str, report: str, *options: object, audit: str | None = None) -> Page:
        """Makes results, which are as the schema says, and reads the page."""
        result = self.run(data, report, *options, audit=audit)
        assert result.status == 0, result.err
        SCHEMA.validate(self.read_figures())
        return self.read_page()

    def publish_tie(self, audit: str, *options: object) -> Page:
        """Makes results of the tie and an audit of it."""
        return self.publish(TIE, TIE_REPORT, *options, audit=audit)

    def read_page(self) -> Page:
        return Page((self.out / "results.html").read_text())

    def read_figures(self) -> Any:
        return json.loads((self.out / "results.json").read_bytes())

    def read_csv(self, table: str) -> list[dict[str, str]]:
        text = (self.out / f"{table}.csv").read_text("utf-8-sig")
        return list(csv.DictReader(text.splitlines()))

    def read_first_lines(self) -> list[str]:
        """The first line of each table as CSV."""
        tables = [self.out / name for name in FILES if name.endswith(".csv")]
        return [table.read_text("utf-8-sig").splitlines()[0] for table in tables]


def make_key(folder: Path, name: str, passphrase: str = "") -> Path:
    """A private key, with the public one beside it."""
    path = folder / name
    make = ["ssh-keygen", "-q", "-t", "ed25519", "-N", passphrase, "-C", "", "-f", str(path)]
    subprocess.run(make, check=True, stdin=subprocess.DEVNULL)
    return path


def read_example(name: str) -> tuple[str, str]:
    """The input of an example, and its report."""
    return read_text("examples", f"{name}.txt"), read_text("examples", f"{name}.report.txt")


def read_audit(name: str) -> tuple[str, str, str]:
    """The input at the end of an audit, the report, and the audit."""
    audit = read_text("fixtures", "office", name)
    verified = run_program(os.environ["WDP"], "verify", audit.encode()).decode()
    report = re.split("(?m)^(?:tie|prices)$", verified)[0]
    return audit[audit.index("%rules") :], report, audit
