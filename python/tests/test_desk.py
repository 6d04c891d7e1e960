"""The desk over HTTP: calls and their statuses, sessions that race, receipts that the settled input
keeps, and what an office does wrong.
"""
import contextlib
import hashlib
import http.client
import os
import random
import signal
import socket
import subprocess
import threading
from collections.abc import Iterator
from concurrent.futures import ThreadPoolExecutor
from functools import partial
from pathlib import Path

import pytest
from commands import check_stopped, hide_library, run, run_program, wait_for
from desks import (
    FORM_OF,
    MANY_BIDDERS,
    MANY_RULES,
    Bidder,
    DeskFolder,
    Served,
    make_form,
)

for _name in ("aiohttp", "cryptography"):
    pytest.importorskip(_name, reason=f"{_name} isn't there")

from trials.desk_judge import Judge  # noqa: E402

pytestmark = pytest.mark.usefixtures("wdp_desk")


@pytest.fixture
def desk(tmp_path: Path) -> DeskFolder:
    return DeskFolder(tmp_path)


@pytest.fixture(scope="module")
def shared(tmp_path_factory: pytest.TempPathFactory, wdp: str) -> Iterator[Served]:
    with DeskFolder(tmp_path_factory.mktemp("shared"), MANY_RULES).serve(WDP=wdp) as served:
        yield served


_UNUSED = list(MANY_BIDDERS)


@pytest.fixture
def bidder(shared: Served) -> Bidder:
    return Bidder(shared, _UNUSED.pop())


@pytest.fixture
def other(shared: Served) -> Bidder:
    return Bidder(shared, _UNUSED.pop())


def digest(data: bytes) -> str:
    return hashlib.sha256(data).hexdigest()


def test_a_form_is_handed_in_replaced_and_withdrawn(bidder: Bidder) -> None:
    assert bidder.look()["stands"] is None
    first = bidder.put()
    assert (first.status, first.word, first.headers["Etag"]) == (200, "accepted", '"1"')
    assert first.members["form"] == digest(bidder.form)
    assert bidder.look()["stands"]["number"] == 1
    second = bidder.put(bidder.make_form(31), 1)
    assert (second.status, second.word, second.members["number"]) == (200, "accepted", 2)
    gone = bidder.withdraw(2)
    assert (gone.status, gone.word, gone.members["number"]) == (200, "withdrawn", 3)
    assert bidder.look()["stands"] is None
    assert bidder.withdraw(3).status == 404
    assert bidder.look()["calls_left"] == 997


def test_a_call_says_over_what_it_is_made(bidder: Bidder) -> None:
    assert bidder.call("PUT", "/form", bidder.form).status == 428
    assert bidder.call("PUT", "/form", bidder.form, If_Match="3").status == 400
    assert bidder.call("PUT", "/form", bidder.form, If_None_Match="x").status == 400
    both = {"If_Match": '"1"', "If_None_Match": "*"}
    assert bidder.call("PUT", "/form", bidder.form, **both).status == 428
    assert bidder.call("DELETE", "/form").status == 428
    assert bidder.put(number=7).status == 412
    assert bidder.call("PUT", "/form?over=any", bidder.form).word == "accepted"
    assert bidder.call("PUT", "/form?over=any", bidder.make_form(90)).status == 200
    assert bidder.look()["stands"]["number"] == 2


def test_a_retry_of_an_older_form_is_stale(bidder: Bidder) -> None:
    """A, then B, and the network sends A again: B stands."""
    one, two = bidder.make_form(41), bidder.make_form(42)
    assert bidder.put(one).word == "accepted"
    assert bidder.put(two, 1).word == "accepted"
    again = bidder.put(one)
    assert (again.status, again.word, again.members["number"]) == (412, "stale", 2)
    assert bidder.look()["stands"]["number"] == 2


def test_a_lost_reply_is_sent_again(desk: DeskFolder) -> None:
    """The same form while it stands gets the first receipt, also from a process that was started
    anew, and no entry.
    """
    with desk.serve() as served:
        first = served.put()
        again = served.put()
        assert (again.status, again.word) == (200, "again")
        assert again.receipt == first.receipt
        served.kill()
    with desk.serve() as served:
        later = served.put()
        assert (later.status, later.word) == (200, "again")
        assert later.receipt == first.receipt
        assert served.look()["calls_left"] == 999


def test_faults_have_their_cells_and_cost_no_call(bidder: Bidder) -> None:
    bad = f"{bidder.name},A,B\n30,1,0\n9,2,0\nx,1,1\n".encode()
    answer = bidder.put(bad)
    assert (answer.status, answer.word) == (422, "refused")
    faults = [(fault["place"], fault["fault"]) for fault in answer.members["faults"]]
    assert faults[-1] == ("4:1", "'x' isn't 1 to 18 digits")
    assert [place for place, _ in faults] == ["3:1", "4:1"]
    assert bidder.put(bad, query="?check").members["faults"] == answer.members["faults"]
    assert bidder.put(query="?check").word == "nothing is wrong"
    unended = bidder.put(bidder.form[:-1])
    assert unended.status == 422
    assert "has no line end" in unended.members["faults"][0]["fault"]
    assert bidder.put(b"").members["faults"][0]["fault"] == "it has no row"
    assert bidder.look()["calls_left"] == 1000


def test_other_spellings_are_read_as_gather_reads_them(bidder: Bidder) -> None:
    text = bidder.form.decode().replace(",", "\t").replace("\n", "\r\n")
    answer = bidder.put(text.encode("utf-16"))
    assert answer.members["form"] == digest(bidder.form)
    changes = ["UTF-16 turned into UTF-8", "CR LF turned into LF", "tabs turned into commas"]
    assert answer.members["changes"] == changes


def test_keys(bidder: Bidder, other: Bidder) -> None:
    call = bidder.served.call
    for key in (None, "", "x", bidder.key + "x"):
        assert call("GET", "/form", key=key).status == 401
    assert call("PUT", "/form", bidder.form, key="x", If_None_Match="*").status == 401
    others = other.put(bidder.form)
    assert (others.status, others.word) == (403, "other bidder")
    checked = other.put(bidder.form, query="?check")
    assert (checked.status, checked.word) == (403, "other bidder")
    office = bidder.served.desk.office
    assert call("PUT", "/form", bidder.form, key=office, If_None_Match="*").status == 403
    for method, path in (("GET", "/office"), ("POST", "/close"), ("POST", f"/keys/{other.name}/1")):
        assert bidder.call(method, path).status == 403
        assert call(method, path).status == 401
    assert other.look()["stands"] is None
    assert other.look()["calls_left"] == 1000


def test_the_office_renews_a_key(desk: DeskFolder) -> None:
    old = desk.keys["Beta", 1]
    with desk.serve() as served:
        renewed = served.call("POST", "/keys/Beta/1", key=desk.office)
        new = renewed.members["key"]
        assert renewed.status == 200 and len(new) == 32
        assert served.call("GET", "/form", key=old).status == 401
        assert served.call("GET", "/form", key=new).members["bidder"] == "Beta"
        for path in ("/keys/Beta/2", "/keys/Omega/1", "/keys/Beta/x"):
            assert served.call("POST", path, key=desk.office).status == 404
    with desk.serve() as served:
        assert served.call("GET", "/form", key=old).status == 401
        assert served.call("GET", "/form", key=new).status == 200
    digests = (desk.where / "digests.csv").read_text()
    assert new not in digests and digest(new.encode()) in digests


def test_the_office_sees_who_has_handed_in_and_no_amount(bidder: Bidder, other: Bidder) -> None:
    bidder.put(bidder.make_form(7_654_321))
    desk = bidder.served.desk
    page = bidder.served.call("GET", "/office", key=desk.office)
    rows = {row["bidder"]: row for row in page.members["bidders"]}
    assert rows[bidder.name]["handed_in"] and rows[bidder.name]["changes"] == 1
    assert not rows[other.name]["handed_in"]
    assert b"7654321" not in page.body + desk.journal


def test_sizes(bidder: Bidder) -> None:
    """4 MiB are judged, one byte more is a fault, and what no form can have isn't read."""
    most = 4 * 1024 * 1024
    begin = f"{bidder.name},A,B\n30,1,0".encode()
    full = begin + b"," * (most - len(begin) - 1) + b"\n"
    assert len(full) == most
    assert bidder.put(full).word == "accepted"
    faults = bidder.put(b"\n" + full, 1).members["faults"]
    assert faults == [{"place": "", "fault": "it has more than 4,194,304 bytes"}]
    assert bidder.put(bytes(2 * most + 3), 1).status == 413
    with contextlib.suppress(BrokenPipeError, ConnectionResetError):
        assert send_chunked(bidder, 2 * most + 3) == 413
    assert bidder.look()["stands"]["number"] == 1


def send_chunked(bidder: Bidder, size: int) -> int:
    """The status of a form whose size isn't said before."""
    with socket.create_connection(("127.0.0.1", bidder.served.port), timeout=60) as connection:
        head = f"PUT /form?over=any HTTP/1.1\r\nHost: x\r\nAuthorization: Bearer {bidder.key}\r\n"
        connection.sendall(f"{head}Transfer-Encoding: chunked\r\n\r\n".encode())
        piece = bytes(65_536)
        for _ in range(0, size, len(piece)):
            connection.sendall(f"{len(piece):x}\r\n".encode() + piece + b"\r\n")
        return int(connection.recv(100).split()[1])


def test_one_of_the_sessions_that_race_is_accepted(bidder: Bidder) -> None:
    for amount, number in ((100, None), (200, 1), (300, 2)):
        calls = [
            partial(bidder.put, bidder.make_form(amount + session), number, session=session)
            for session in (1, 2, 3)
        ]
        answers = bidder.served.call_all(calls)
        assert sorted(answer.status for answer in answers) == [200, 412, 412]


def test_a_statement_of_what_stands(bidder: Bidder) -> None:
    assert "\nanswer stands none\n" in bidder.call("POST", "/show").receipt
    bidder.put()
    shown = bidder.call("POST", "/show")
    assert (shown.status, shown.word) == (200, "stands")
    assert "\nanswer stands 1\n" in shown.receipt
    assert bidder.look()["calls_left"] == 997


def test_text_in_place_of_json(bidder: Bidder) -> None:
    headers = {"If_None_Match": "*", "Accept": "text/plain"}
    receipt = bidder.call("PUT", "/form", bidder.form, **headers).body.decode()
    assert receipt.startswith("wdp desk receipt 1\n")
    bad = bidder.call("PUT", "/form", f"{bidder.name},A\n".encode(), **headers)
    assert bad.status == 422 and bad.body.splitlines()[-1] == b"the form has faults"
    unknown = bidder.served.call("GET", "/form", Accept="text/plain")
    assert unknown.body == b"this key isn't known\n"


def test_the_close(desk: DeskFolder) -> None:
    with desk.serve() as served:
        served.put()
        journal = served.call("GET", "/journal", key=desk.keys["Beta", 1])
        assert journal.status == 403
        assert served.call("POST", "/close", key=desk.office).word == "closed"
        assert served.call("POST", "/close", key=desk.office).word == "closed before"
        assert served.put("Beta").status == 410
        assert served.withdraw(number=1).status == 410
        assert served.call("POST", "/show", key=desk.keys["Beta", 1]).status == 410
        assert served.look()["open"] is False
        assert served.call("GET", "/journal", key=desk.keys["Beta", 1]).body == desk.journal
        assert served.call("GET", "/journal").status == 401
    with desk.serve() as served:
        assert served.put("Beta").status == 410


def test_the_office_closes_by_the_command(desk: DeskFolder) -> None:
    with desk.serve() as served:
        served.put()
        assert desk.desk("close") == (0, "", "desk: the round is closed\n")
        assert served.put("Beta").status == 410
    assert desk.desk("close") == (0, "", "desk: the round was closed before\n")
    again = DeskFolder(make_folder(desk.folder / "again"))
    with again.serve() as served:
        served.kill()
    assert again.desk("close") == (0, "", "desk: the round is closed\n")


def make_folder(path: Path) -> Path:
    path.mkdir()
    return path


def test_a_round_from_the_forms_to_the_winners(desk: DeskFolder, wdp: str) -> None:
    """Each receipt's form is what `wdp forms` prints of the input."""
    receipts = {}
    with desk.serve() as served:
        served.put("Beta", make_form("Beta", 100))
        served.put("Beta", make_form("Beta", 11), 1)
        for number, (bidder, form) in enumerate(FORM_OF.items()):
            over = 2 if bidder == "Beta" else None
            receipts[bidder] = served.put(bidder, form, over).receipt
        served.call("POST", "/close", key=desk.office)
    opened = desk.desk("open", desk.holder, desk.output)
    assert opened == (0, "", f"3 forms in {desk.output}\n")
    text = (desk.output / "input.txt").read_bytes()
    rules = (desk.folder / "rules.csv").read_bytes()
    forms = b"".join(b"%form\n" + form for form in FORM_OF.values())
    assert text == b"%rules\n" + rules + forms
    paths = [desk.write(f"{name}.txt", receipt) for name, receipt in receipts.items()]
    checked = desk.desk("check", *paths, "--forms", desk.output / "forms.txt")
    assert checked.status == 0, checked
    assert checked.out.count(", the last change\n") == 3
    printed = run_program(wdp, "forms", text).decode()
    for name, receipt in receipts.items():
        assert f"form {digest(FORM_OF[name])}, salt " in receipt
        assert f"%form {name} {FORM_OF[name].count(10) - 1} {digest(FORM_OF[name])}\n" in printed
    done = run("auction", desk.folder / "award", "--desk", desk.output, "--quiet")
    assert done.status == 0, done
    report = (desk.folder / "award/report.txt").read_text()
    assert "\ngroup 4 Gamma\n" in report
    check_stopped(desk.desk("open", desk.holder, desk.folder), "it has other files")


def test_all_that_was_told_in_a_run_is_kept(desk: DeskFolder, wdp: str) -> None:
    """Forms, withdrawals and statements of all sessions at once, over whatever stood and over what
    may stand, in two starts; a judge of its own checks each receipt.
    """
    judge = Judge()

    def work(served: Served, session: tuple[str, int], seed: int) -> None:
        draw = random.Random(seed)
        for _ in range(12):
            form = make_form(session[0], draw.randint(10, 99))
            judge.send(session[0], form)
            over_any = draw.random() < 0.5
            calls = [("PUT", "/form", form), ("PUT", "/form", form), ("DELETE", "/form", None)]
            method, path, body = draw.choice([*calls, ("POST", "/show", None)])
            headers = {} if over_any else {"If_Match": f'"{draw.randint(1, 9)}"'}
            path += "?over=any" if over_any else ""
            answer = served.call(method, path, body, key=desk.keys[session], **headers)
            assert answer.status in (200, 404, 412), answer
            judge.take(answer.members)

    sessions = [session for session in desk.keys if session[0] != "-"]
    for seed in (10, 20):
        with desk.serve() as served, ThreadPoolExecutor(len(sessions)) as threads:
            works = [
                threads.submit(work, served, session, seed + number)
                for number, session in enumerate(sessions)
            ]
            for each in works:
                each.result()
            judge.heads.append(served.call("GET", "/head").body.decode())
            if seed == 20:
                judge.take(served.call("POST", "/close", key=desk.office).members)
    assert desk.desk("open", desk.holder, desk.output).status == 0
    forms = run_program(wdp, "forms", (desk.output / "input.txt").read_bytes()).decode()
    assert len(judge.receipts) > 60
    assert judge.judge(desk.journal, forms) == []


def test_a_second_process_is_refused(desk: DeskFolder) -> None:
    with desk.serve() as served:
        served.put()
        before = read_folder(desk.where)
        check_stopped(desk.desk("serve", "--port", 1), f"another run works in {desk.where}")
        assert read_folder(desk.where) == before
        assert served.look()["stands"]["number"] == 1


def read_folder(folder: Path) -> dict[str, bytes]:
    return {path.name: path.read_bytes() for path in folder.iterdir() if path.is_file()}


def test_what_an_office_does_wrong(desk: DeskFolder) -> None:
    """One line each, and nothing is changed."""
    folder = desk.folder
    rules, public = folder / "rules.csv", folder / "holder.pub"
    new = ["desk", "new", folder / "other"]
    closes = ["--closes", "2096-01-01T00:00:00Z"]
    (folder / "bad.csv").write_text("rules,1,1,,\n")
    zero = folder / "zero.pub"
    zero.write_text(
        public.read_text().splitlines()[0]
        + "\n"
        + "MCowBQYDK2VuAyEA"
        + "A" * 43
        + "=\n"
        + public.read_text().splitlines()[2]
        + "\n"
    )
    before = sorted(os.listdir(folder))
    check_stopped(run(*new, folder / "bad.csv", *closes, "--holder", public), "bad.csv")
    check_stopped(run(*new, rules, *closes, "--holder", rules), "no public key of X25519")
    check_stopped(run(*new, rules, *closes, "--holder", zero), "no public key of X25519")
    old = ["--closes", "2001-01-01T00:00:00Z"]
    check_stopped(run(*new, rules, *old, "--holder", public), "a time that is over", status=2)
    none = ["--closes", "tomorrow"]
    check_stopped(run(*new, rules, *none, "--holder", public), "tomorrow is no time", status=2)
    again = ["desk", "new", desk.where, rules, *closes, "--holder", public]
    check_stopped(run(*again), "it is there already")
    check_stopped(desk.desk("open", desk.holder, desk.output), "No such file")
    check_stopped(desk.desk("serve", "--address", "::"), "goes with --tls", status=2)
    check_stopped(desk.desk("serve", "--tls", rules, rules), "no certificate with its key")
    check_stopped(run("desk", "serve", folder), "is no folder of a desk")
    for name in ("signing.key", "digests.csv", "keys.csv"):
        path = desk.where / name
        path.chmod(0o640)
        check_stopped(desk.desk("serve"), f"{name}: others than its owner may read it")
        path.chmod(0o600)
    assert sorted(os.listdir(folder)) == before
    assert not (desk.where / "journal").exists()
    desk.holder.chmod(0o644)
    with desk.serve() as served:
        served.put()
        check_stopped(desk.desk("open", desk.holder, desk.output), "others than its owner")
        desk.holder.chmod(0o600)
        check_stopped(desk.desk("open", desk.holder, desk.output), "the round isn't closed")
        served.call("POST", "/close", key=desk.office)
    check_stopped(desk.desk("open", folder / "holder.pub", desk.output), "others than its owner")
    signing = folder / "signing.pem"
    subprocess.run(["openssl", "genpkey", "-algorithm", "ED25519", "-out", signing], check=True)
    (folder / "holder.pub").chmod(0o600)
    for path in (folder / "holder.pub", signing):
        words = f"{path}: it has no private key of X25519"
        check_stopped(desk.desk("open", path, desk.output), words)
    other = DeskFolder(make_folder(folder / "third"))
    check_stopped(
        desk.desk("open", other.holder, desk.output), "entry 1, of Alpha: it isn't sealed"
    )
    assert not desk.output.exists()


def test_a_journal_of_other_rules_is_refused(desk: DeskFolder) -> None:
    with desk.serve() as served:
        served.put()
    rules = desk.where / "rules.csv"
    rules.write_text(rules.read_text().replace("category,A,2", "category,A,3"))
    seen = desk.desk("serve")
    check_stopped(seen, "wdp-desk: ")
    assert seen.err.count("\n") == 1


def test_the_filter_ends_under_load_and_so_does_the_desk(desk: DeskFolder) -> None:
    """Whoever calls goes on calling: the desk ends nevertheless."""
    with desk.serve() as served:
        is_over = threading.Event()

        def call(session: int) -> None:
            amount = 100 * session
            while not is_over.is_set():
                amount += 1
                form = make_form("Alpha", amount)
                with contextlib.suppress(OSError, http.client.HTTPException):
                    served.call("PUT", "/form?over=any", form, key=desk.keys["Alpha", session])

        with ThreadPoolExecutor(12) as threads:
            for number in range(12):
                threads.submit(call, number % 3 + 1)
            try:
                wait_for(lambda: desk.journal.count(b"%call") > 10)
                os.kill(served.find_filter(), signal.SIGKILL)
                assert served.wait() == 3
            finally:
                is_over.set()


def test_the_filter_ends_and_so_does_the_desk(desk: DeskFolder) -> None:
    with desk.serve() as served:
        served.put()
        os.kill(served.find_filter(), signal.SIGKILL)
        assert served.wait() == 3
    with desk.serve() as served:
        assert served.look()["stands"]["number"] == 1


NO_FILTER = """#!/usr/bin/python3
import hashlib, sys
front = sys.stdin.buffer.readline() + sys.stdin.buffer.readline()
front += sys.stdin.buffer.read(int(front.split()[-1]))
with open(sys.argv[1], "wb") as file:
    file.write(front)
print("0 opened 0", hashlib.sha256(front).hexdigest(), flush=True)
sys.stdin.buffer.readline()
print("REPLY", flush=True)
sys.stdin.read()
"""


@pytest.mark.parametrize("reply", ["nonsense", "- round over\\n- round over"])
def test_a_filter_that_cant_be_understood(desk: DeskFolder, reply: str) -> None:
    """The desk ends, with one line, and its caller learns that nobody knows what was taken."""
    program = desk.write("filter", NO_FILTER.replace("REPLY", reply))
    program.chmod(0o755)
    with desk.serve(WDP_DESK=str(program)) as served:
        answer = served.call("POST", "/show", key=desk.keys["Alpha", 1])
        assert answer.status == (503 if reply == "nonsense" else 410)
        assert served.wait() == 3
        assert "wdp-desk printed a reply" in served.lines[-1]


def test_libraries_that_are_missing_are_one_line(desk: DeskFolder, tmp_path: Path) -> None:
    folder = make_folder(tmp_path / "hidden")
    seen = run("desk", "close", desk.where, **hide_library("aiohttp", folder))
    check_stopped(seen, "apt-get install -y python3-aiohttp")
