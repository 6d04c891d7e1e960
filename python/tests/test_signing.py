"""Signed results: OpenSSH and sha256sum find them good by the commands of the page, and no longer
once a byte is changed; keys that can't sign leave nothing.
"""
import html
import os
import re
import subprocess
from pathlib import Path
from typing import Any

import pytest
from commands import (
    CommandResult,
    check_stopped,
    make_environment,
    parse_rows,
    run,
    write_script,
)
from results_folder import FILES, TIE, TIE_AUDIT, TIE_REPORT, ResultsFolder, make_key

SIGNED = sorted([*FILES, "audit.txt", "SHA256SUMS", "SHA256SUMS.sig"])


@pytest.fixture
def folder(tmp_path: Path) -> ResultsFolder:
    return ResultsFolder(tmp_path)


@pytest.fixture
def key(tmp_path: Path) -> Path:
    return make_key(tmp_path, "key")


@pytest.fixture
def signed(folder: ResultsFolder, key: Path) -> ResultsFolder:
    """Results of the tie that are signed, with the file of signers that a reader makes."""
    folder.publish_tie(TIE_AUDIT, "--sign", key)
    public = key.with_suffix(".pub").read_text()
    (folder.out / "signers").write_text(f"office {public}")
    return folder


def list_commands(folder: ResultsFolder) -> list[str]:
    """The commands of the page that check the signature and the files."""
    part = folder.read_page().html.partition('id="signature">')[2].partition("</dl>")[0]
    return [html.unescape(command) for command in re.findall("<dt><code>(.*?)</code>", part)]


def check_files(folder: ResultsFolder) -> list[int]:
    """The statuses of these commands."""
    return [
        subprocess.run(["sh", "-c", command], cwd=folder.out, capture_output=True).returncode
        for command in list_commands(folder)
    ]


def test_the_page_has_two_commands(signed: ResultsFolder) -> None:
    verify, check = list_commands(signed)
    assert verify.startswith("ssh-keygen -Y verify -f signers -I office -n wdp-award ")
    assert check == "sha256sum -c SHA256SUMS"
    assert "That key must come from elsewhere" in signed.read_page().html


def test_the_commands_of_the_page_find_it_good(signed: ResultsFolder) -> None:
    assert check_files(signed) == [0, 0]


def test_the_sums_are_of_all_other_files(signed: ResultsFolder) -> None:
    lines = (signed.out / "SHA256SUMS").read_text().splitlines()
    names = [line.split("  ")[1] for line in lines]
    assert sorted([*names, "SHA256SUMS", "SHA256SUMS.sig"]) == SIGNED
    assert sorted(os.listdir(signed.out)) == sorted([*SIGNED, "signers"])


@pytest.mark.parametrize("name", [*FILES, "audit.txt"])
def test_a_changed_byte_is_found(signed: ResultsFolder, name: str) -> None:
    path = signed.out / name
    before = list_commands(signed)
    text = bytearray(path.read_bytes())
    text[len(text) // 2] ^= 1
    path.write_bytes(text)
    check = subprocess.run(before[1].split(), cwd=signed.out, capture_output=True)
    assert check.returncode == 1
    assert f"{name}: FAILED".encode() in check.stdout


@pytest.mark.parametrize("name", ["SHA256SUMS", "SHA256SUMS.sig"])
def test_a_changed_byte_of_the_sums_or_the_signature_is_found(
    signed: ResultsFolder, name: str
) -> None:
    path = signed.out / name
    text = path.read_text()
    middle = len(text) // 2
    other = "0" if text[middle] != "0" else "1"
    path.write_text(text[:middle] + other + text[middle + 1 :])
    assert check_files(signed)[0] != 0


def test_another_key_is_found(signed: ResultsFolder) -> None:
    public = make_key(signed.folder, "other").with_suffix(".pub").read_text()
    (signed.out / "signers").write_text(f"office {public}")
    assert check_files(signed) == [255, 0]


def test_results_without_a_signature_have_no_commands(folder: ResultsFolder) -> None:
    folder.publish_tie(TIE_AUDIT)
    assert list_commands(folder) == []


def sign(folder: ResultsFolder, key: Path | str, **how: Any) -> CommandResult:
    """Makes signed results in a process without a terminal."""
    how.setdefault("env", make_environment())
    how["start_new_session"] = True
    return folder.run(TIE, TIE_REPORT, "--sign", key, audit=TIE_AUDIT, **how)


def check_refused(folder: ResultsFolder, seen: CommandResult, why: str) -> None:
    """One line says why, and nothing is written."""
    check_stopped(seen, why)
    assert seen.err.count("\n") == 1, seen.err
    assert not folder.out.exists()


def test_a_passphrase_needs_a_terminal(folder: ResultsFolder) -> None:
    key = make_key(folder.folder, "locked", "secret")
    why = f"{key}: it has a passphrase, and there is no terminal that could be asked for it\n"
    check_refused(folder, sign(folder, key), why)


def test_a_terminal_is_asked_for_the_passphrase(folder: ResultsFolder) -> None:
    key = make_key(folder.folder, "locked", "secret")
    folder.write("audit.txt", TIE_AUDIT)
    command = f"results {folder.folder}/audit.txt --output {folder.out} --sign {key}"
    answer = f"""
import os, pty, sys
pid, terminal = pty.fork()
if pid == 0:
    os.execv(sys.executable, [sys.executable, "-m", "wdp", *{command.split()!r}])
seen = b""
try:
    while more := os.read(terminal, 1000):
        seen += more
        if seen.endswith(b"Enter passphrase: "):
            os.write(terminal, b"secret\\n")
except OSError:
    pass
print(seen)
sys.exit(os.waitstatus_to_exitcode(os.waitpid(pid, 0)[1]))
"""
    words = ["/usr/bin/python3", "-c", answer]
    done = subprocess.run(words, env=make_environment(), capture_output=True, check=False)
    assert done.returncode == 0, done
    assert sorted(os.listdir(folder.out)) == SIGNED


def test_a_public_key_does_not_sign(folder: ResultsFolder, key: Path) -> None:
    """Even if the private one is beside it."""
    public = key.with_suffix(".pub")
    why = f"{public}: it is a public key; the private one signs\n"
    check_refused(folder, sign(folder, public), why)


@pytest.mark.parametrize(
    "name, why",
    [
        ("missing", "missing: No such file or directory\n"),
        (".", ": it is a folder\n"),
        ("input.txt", "input.txt: it is no private key as ssh-keygen makes them\n"),
    ],
)
def test_what_is_no_key(folder: ResultsFolder, name: str, why: str) -> None:
    check_refused(folder, sign(folder, f"{folder.folder}/{name}"), why)


def test_a_key_that_others_can_read(folder: ResultsFolder, key: Path) -> None:
    key.chmod(0o644)
    why = f"{key}: ssh-keygen doesn't sign with it: Permissions 0644 for '{key}' are too open\n"
    check_refused(folder, sign(folder, key), why)


def test_a_key_that_was_cut_off(folder: ResultsFolder, key: Path) -> None:
    key.write_bytes(key.read_bytes()[:-100])
    check_refused(folder, sign(folder, key), f"{key}: ssh-keygen doesn't sign with it: ")


def test_without_ssh_keygen(folder: ResultsFolder, key: Path, wdp: str) -> None:
    (folder.folder / "bin").mkdir()
    environment = make_environment(PATH=str(folder.folder / "bin"))
    seen = sign(folder, key, env=environment)
    check_refused(folder, seen, "ssh-keygen: apt-get install -y openssh-client\n")


def test_a_signature_goes_with_files(folder: ResultsFolder, key: Path) -> None:
    seen = folder.run(TIE, TIE_REPORT, "--text", "--sign", key)
    check_stopped(seen, "--sign KEY goes with --output DIR", status=2)


def test_signed_results_are_not_replaced_by_others(folder: ResultsFolder, key: Path) -> None:
    folder.publish_tie(TIE_AUDIT, "--sign", key)
    before = {path.name: path.read_bytes() for path in folder.out.iterdir()}
    seen = folder.run(TIE, TIE_REPORT, audit=TIE_AUDIT)
    check_stopped(seen, f"{folder.out}: it is signed, and these files aren't; name a new folder\n")
    assert {path.name: path.read_bytes() for path in folder.out.iterdir()} == before


def test_signed_results_are_signed_anew(folder: ResultsFolder, key: Path) -> None:
    folder.publish_tie(TIE_AUDIT, "--sign", key)
    folder.publish_tie(TIE_AUDIT, "--sign", key, "--title", "Another title", "--replace")
    assert "<h1>Another title</h1>" in folder.read_page().html
    assert sorted(os.listdir(folder.out)) == SIGNED


# what stands in for ssh-keygen and signs the file that is its last argument, and what is said of it
STAND_INS = """
sleep 60                      | didn't end in 1 s, and was ended
echo forged > "$last.sig"     | doesn't find its signature good
mkfifo "$last.sig"            | SHA256SUMS.sig: it is a pipe
head -c 2M /dev/zero > "$last.sig" | SHA256SUMS.sig: it has more than 100,000 bytes
"""


@pytest.mark.parametrize("signs, said", parse_rows(STAND_INS))
def test_the_tool_is_not_believed(
    folder: ResultsFolder, key: Path, monkeypatch: pytest.MonkeyPatch, signs: str, said: str
) -> None:
    good = "echo 'Good \"wdp-award\" signature'"
    lines = f'for last; do :; done\n[ "$2" = sign ] || {{ {good}; exit; }}\n{signs}'
    write_script(folder.folder / "ssh-keygen", lines)
    monkeypatch.setenv("PATH", f"{folder.folder}:{os.environ['PATH']}")
    monkeypatch.setattr("wdp.publish.signing._SECONDS", 1)
    options = ["--sign", key, "--output", folder.out]
    check_stopped(run("results", folder.write("tie.txt", TIE_AUDIT), *options), said)
    assert not folder.out.exists()
