"""A desk that lies is found by the receipts of those whom it lied to: by `desk check`, by two
receipts beside each other, and by a judge that shares no code with the package.
"""
import hashlib
import re
from collections.abc import Callable
from pathlib import Path
from typing import NamedTuple

import pytest
from commands import check_stopped, run_program
from desks import FORM_OF, HEAD, DeskFolder, make_form

for _name in ("aiohttp", "cryptography"):
    pytest.importorskip(_name, reason=f"{_name} isn't there")

from trials.desk_judge import Judge  # noqa: E402

from wdp.desk import checking, receipts  # noqa: E402

REPLY = re.compile(rb"\n%reply ([a-z]+) (\d+|-) ([0-9a-f]{64})\n")


pytestmark = pytest.mark.usefixtures("wdp_desk")


class Entry(NamedTuple):
    """An entry of a journal as its bytes: head, what is sealed, answer and number."""

    head: tuple[bytes, ...]
    sealed: bytes
    answer: tuple[bytes, bytes]


class Liar:
    """A desk that rewrites its journal, with chains and numbers that fit."""

    def __init__(self, folder: DeskFolder) -> None:
        self.folder = folder
        journal = folder.journal
        begin = journal.find(b"%call ")
        self.front = journal[:begin]
        self.entries = []
        for match in HEAD.finditer(journal):
            end = match.end() + int(match[9])
            reply = REPLY.match(journal, end)
            assert reply
            self.entries.append(
                Entry(match.groups(), journal[match.end() : end], reply.groups()[:2])
            )

    def write(self, entries: list[Entry]) -> None:
        """Writes these entries in the place of those that were told."""
        chain = hashlib.sha256(self.front).hexdigest().encode()
        journal = self.front
        for number, entry in enumerate(entries, 1):
            words = [b"%d" % number, *entry.head[1:9], b"%d" % len(journal)]
            text = b"%call " + b" ".join(words) + b"\n" + entry.sealed
            text += b"\n%reply " + b" ".join(entry.answer) + b" "
            chain = hashlib.sha256(chain + text).hexdigest().encode()
            journal += text + chain + b"\n"
        (self.folder.where / "journal").write_bytes(journal)


@pytest.fixture(scope="module")
def told(
    tmp_path_factory: pytest.TempPathFactory, wdp: str
) -> tuple[DeskFolder, list[Path], bytes]:
    """A closed round, the receipts of its four changes, and its journal."""
    folder = DeskFolder(tmp_path_factory.mktemp("told"))
    with folder.serve(WDP=wdp) as served:
        answers = [served.put(name) for name in FORM_OF]
        answers.append(served.put("Beta", make_form("Beta", 11), 1))
        head = served.call("GET", "/head").body.decode()
        served.call("POST", "/close", key=folder.office)
    assert folder.desk("open", folder.holder, folder.output).status == 0
    paths = [folder.write(f"{k}.txt", answer.receipt) for k, answer in enumerate(answers)]
    return folder, [*paths, folder.write("head.txt", head)], folder.journal


@pytest.fixture
def desk(told: tuple[DeskFolder, list[Path], bytes]) -> DeskFolder:
    folder, _, journal = told
    (folder.where / "journal").write_bytes(journal)
    return folder


@pytest.fixture
def paths(told: tuple[DeskFolder, list[Path], bytes]) -> list[Path]:
    return told[1]


@pytest.fixture
def judge(paths: list[Path]) -> Judge:
    judge = Judge()
    for name, form in [*FORM_OF.items(), ("Beta", make_form("Beta", 11))]:
        judge.send(name, form)
    judge.receipts = [path.read_text() for path in paths[:-1]]
    judge.heads = [paths[-1].read_text()]
    return judge


Lie = Callable[[list[Entry]], list[Entry]]


def drop(entries: list[Entry]) -> list[Entry]:
    return entries[1:]


def reorder(entries: list[Entry]) -> list[Entry]:
    return [entries[1], entries[0], *entries[2:]]


def change_form(entries: list[Entry]) -> list[Entry]:
    head = entries[2].head
    commitment = hashlib.sha256(b"another").hexdigest().encode()
    changed = entries[2]._replace(head=(*head[:6], commitment, *head[7:]))
    return [*entries[:2], changed, *entries[3:]]


def change_time(entries: list[Entry]) -> list[Entry]:
    head = entries[2].head
    changed = entries[2]._replace(head=(head[0], b"%d" % (int(head[1]) + 1), *head[2:]))
    return [*entries[:2], changed, *entries[3:]]


def forget_the_last(entries: list[Entry]) -> list[Entry]:
    return [*entries[:3], entries[4]]


@pytest.mark.parametrize("lie", [drop, reorder, change_form, change_time, forget_the_last])
def test_a_judge_of_its_own_finds_each_lie(
    desk: DeskFolder, judge: Judge, wdp: str, lie: Lie
) -> None:
    forms = run_program(wdp, "forms", (desk.output / "input.txt").read_bytes()).decode()
    assert judge.judge(desk.journal, forms) == []
    liar = Liar(desk)
    liar.write(lie(liar.entries))
    assert judge.judge(desk.journal, forms)
    check_stopped(desk.desk("check", *desk.folder.glob("[0-9].txt")), "that the desk said")


def test_a_judge_of_its_own_finds_another_head(desk: DeskFolder, judge: Judge) -> None:
    signer = receipts.Signer((desk.where / "signing.key").read_bytes())
    said = receipts.parse_signed(judge.heads[0], "head")
    judge.heads.append(signer.sign(receipts.Head(said.round, 4, "0" * 64)))
    [wrong] = judge.judge(desk.journal)
    assert wrong.startswith("another chain: ")


def test_an_honest_desk(desk: DeskFolder, paths: list[Path]) -> None:
    liar = Liar(desk)
    journal = desk.journal
    liar.write(liar.entries)
    # (what was durable may differ: it is what the chain is about)
    assert desk.journal.count(b"%call") == journal.count(b"%call")
    (desk.where / "journal").write_bytes(journal)
    checked = desk.desk("check", *paths, "--forms", desk.output / "forms.txt")
    assert checked.status == 0, checked
    assert [line.partition(": ")[2] for line in checked.out.splitlines()] == [
        "entry 1 is in the journal: accepted 1, the last change",
        "entry 2 is in the journal: accepted 1, which a later change replaced",
        "entry 3 is in the journal: accepted 1, the last change",
        "entry 4 is in the journal: accepted 2, the last change",
        "4 entries, as in the journal",
    ]


def test_a_dropped_call_is_found(desk: DeskFolder, paths: list[Path]) -> None:
    liar = Liar(desk)
    liar.write([liar.entries[0], *liar.entries[2:3], *liar.entries[4:]])
    check_stopped(desk.desk("check", paths[1]), "the bidder of entry 2 is another one")
    check_stopped(desk.desk("check", paths[3]), "the journal has no entry 4")


def test_two_calls_in_another_order_are_found(desk: DeskFolder, paths: list[Path]) -> None:
    liar = Liar(desk)
    one, two, *rest = liar.entries
    liar.write([two, one, *rest])
    check_stopped(desk.desk("check", paths[0]), "the chain at entry 1 is another one")
    # (nobody is needed but a bidder whose own entries are where they were)
    check_stopped(desk.desk("check", paths[2]), "the chain at entry 3 is another one")


def test_another_form_is_found(desk: DeskFolder, paths: list[Path]) -> None:
    liar = Liar(desk)
    entry = liar.entries[2]
    commitment = hashlib.sha256(b"another").hexdigest().encode()
    changed = entry._replace(head=(*entry.head[:6], commitment, *entry.head[7:]))
    liar.write([*liar.entries[:2], changed, *liar.entries[3:]])
    check_stopped(desk.desk("check", paths[2]), "the form of entry 3 is another one")


def test_other_forms_in_the_audit_are_found(desk: DeskFolder, paths: list[Path]) -> None:
    forms = (desk.output / "forms.txt").read_text()
    for name, path in (("Alpha", paths[0]), ("Beta", paths[3])):
        other = desk.write("other.txt", re.sub(f"(?m)^%form {name} .*$", f"%form {name} -", forms))
        words = f"the form of {name} that was opened is another one"
        check_stopped(desk.desk("check", path, "--forms", other), words)
    assert desk.desk("check", paths[1], "--forms", other).status == 0


def test_two_heads_are_found_without_a_journal(desk: DeskFolder, paths: list[Path]) -> None:
    """Two bidders compare what they were shown."""
    signer = receipts.Signer((desk.where / "signing.key").read_bytes())
    [head] = checking.read_said([str(paths[4])])
    other = desk.write("other.txt", signer.sign(receipts.Head(head.said.round, 4, "0" * 64)))
    said = checking.read_said([str(paths[4]), str(other)])
    wrong = list(checking.check_pairs(said))
    assert wrong == [f"{other}: the chain at entry 4 isn't that of {paths[4]}"]
    check_stopped(desk.desk("check", paths[4], other), "isn't that of", "the chain at entry 4")


def test_a_forged_receipt_is_no_receipt(desk: DeskFolder, paths: list[Path]) -> None:
    text = paths[0].read_text()
    for old, new in (("accepted 1", "accepted 2"), ("Alpha", "Omega"), ("salt ", "salt  ")):
        check_stopped(desk.desk("check", desk.write("forged.txt", text.replace(old, new, 1))))
    other = receipts.Signer()
    [said] = checking.read_said([str(paths[0])])
    assert isinstance(said.said, receipts.Receipt)
    round_ = receipts.Round(said.said.round.name, said.said.round.rules, other.public)
    forged = desk.write("forged.txt", other.sign(receipts.Head(round_, 1, said.said.chain)))
    check_stopped(desk.desk("check", forged), "of another round, or of another desk")
