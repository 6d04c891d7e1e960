"""Whether receipts and heads are in a journal, and what stands in what `wdp forms` prints: whatever
the desk said and didn't keep is found.
"""
import re
from collections.abc import Iterator, Sequence
from dataclasses import dataclass
from pathlib import Path

from wdp import files
from wdp.desk.journal import Entry, Front, JournalReader, replay
from wdp.desk.receipts import Head, Receipt, parse_signed
from wdp.program import find_filter

_MOST_OF_A_RECEIPT = 10_000
_FORM = re.compile(r"^%form (\S+) ([0-9]+) ([0-9a-f]{64})$", re.MULTILINE)
_MOST_OF_FORMS = 1024 * 1024


@dataclass(frozen=True)
class Said:
    """What the desk said, and the file that has it."""

    path: str
    said: Receipt | Head


def read_said(paths: Sequence[str]) -> list[Said]:
    """The receipts and heads of files. Refused if one is none."""
    said = []
    for path in paths:
        text = files.read(path, _MOST_OF_A_RECEIPT).decode("utf-8", "backslashreplace")
        said.append(Said(path, parse_signed(text, path)))
    return said


@dataclass
class Journal:
    """A journal by its entries, of which number 0 is its front."""

    front: Front
    entries: dict[int, Entry]
    standing: dict[str, int]  # the entry of each bidder's last change
    is_open: bool

    @classmethod
    def read(cls, path: Path) -> "Journal":
        """A journal that `wdp-desk` accepts; Refused if it doesn't."""
        state = replay(find_filter(), path)
        with open(path, "rb") as file:
            reader = JournalReader(file, state.end)
            entries = {entry.entry: entry for entry in reader}
            changes = {
                entry.bidder: entry.entry
                for entry in entries.values()
                if entry.answer in ("accepted", "withdrawn")
            }
            return cls(reader.front, entries, standing=changes, is_open=state.is_open)


def read_forms(path: str) -> dict[str, tuple[int, str]]:
    """The bids and the digest of each bidder's form, as `wdp forms` prints them."""
    text = files.read(path, _MOST_OF_FORMS).decode("ascii", "backslashreplace")
    return {name: (int(bids), digest) for name, bids, digest in _FORM.findall(text)}


def check_pairs(said: Sequence[Said]) -> Iterator[str]:
    """What two files contradict each other in: one entry with two chains."""
    first: dict[tuple[str, int], Said] = {}
    for each in said:
        key = (each.said.round.desk, each.said.entry)
        other = first.setdefault(key, each)
        if other.said.chain != each.said.chain:
            yield f"{each.path}: the chain at entry {each.said.entry} isn't that of {other.path}"


def _check_receipt(receipt: Receipt, entry: Entry) -> Iterator[str]:
    """What a receipt and its entry differ in."""
    same = {
        "time": (receipt.time, entry.time),
        "bidder": (receipt.bidder, entry.bidder),
        "session": (receipt.session, entry.session),
        "answer": (receipt.answer, entry.answer),
        "number": (receipt.number, entry.number),
    }
    if receipt.form:
        same["form"] = (receipt.form.value, entry.commitment)
        same["number of bids"] = (receipt.bids, entry.bids)
    for name, (said, kept) in same.items():
        if said != kept:
            yield f"the {name} of entry {entry.entry} is another one"


def check(
    said: Sequence[Said], journal: Journal, forms: dict[str, tuple[int, str]] | None = None
) -> list[str]:
    """What the desk said and the journal, or the digests of the forms, don't have."""
    wrong = list(check_pairs(said))
    for each in said:
        wrong += [f"{each.path}: {why}" for why in _check_one(each.said, journal, forms)]
    return wrong


def _check_one(
    said: Receipt | Head, journal: Journal, forms: dict[str, tuple[int, str]] | None
) -> Iterator[str]:
    if said.round != journal.front.round:
        yield "the journal is of another round, or of another desk"
        return
    entry = journal.entries.get(said.entry)
    if entry is None:
        if said.entry or isinstance(said, Receipt):
            yield f"the journal has no entry {said.entry}"
        return
    if said.chain != entry.chain:
        yield f"the chain at entry {said.entry} is another one: what is before it was changed"
    if isinstance(said, Receipt):
        yield from _check_receipt(said, entry)
        yield from _check_forms(said, journal, forms)


def _check_forms(
    receipt: Receipt, journal: Journal, forms: dict[str, tuple[int, str]] | None
) -> Iterator[str]:
    """What the digests of the forms don't have, if the receipt is of the bidder's last change."""
    if forms is None or journal.standing.get(receipt.bidder) != receipt.entry:
        return
    wanted = (receipt.bids, receipt.form.digest) if receipt.form else None
    if receipt.bidder and forms.get(receipt.bidder) != wanted:
        yield f"the form of {receipt.bidder} that was opened is another one"


def describe(said: Sequence[Said], journal: Journal) -> Iterator[str]:
    """A line for each receipt: what it is of, and whether it stands."""
    for each in said:
        if isinstance(each.said, Head):
            yield f"{each.path}: {each.said.entry} entries, as in the journal"
            continue
        last = journal.standing.get(each.said.bidder) == each.said.entry
        word = f"{each.said.answer} {each.said.number or ''}".strip()
        if each.said.bidder and each.said.answer in ("accepted", "withdrawn"):
            word += ", the last change" if last else ", which a later change replaced"
        yield f"{each.path}: entry {each.said.entry} is in the journal: {word}"
