"""`make install`, `make uninstall` and Debian's package on copies of the tree, and what was installed, run from elsewhere. No network
is needed."""

from __future__ import annotations

import gzip
import os
import re
import shutil
import subprocess
from hashlib import sha256
from pathlib import Path

import pytest
from commands import ROOT, list_files
from trials.cases import read_case
from wdp import cli

SYSTEM = "/usr/sbin:/usr/bin:/sbin:/bin"
OFFICE = list(cli.COMMANDS)
COMMANDS = {
    "wdp": "text compile check map report verify explain forms".split(),
    "wdp-office": OFFICE,
}
# what the tests of the office's sample type themselves
INPUT_SHA256 = "167bec43956090a360273a3de95029333b24a0769715c1e611987133781f09f9"
GATHER = "--allow-unended Wren --allow-missing Teal --output input.txt".split()
OTHERS = {"bin/other", "share/man/man1/other.1", "share/man/man1/wdpx.1", "lib/other"}
OTHERS |= {"share/zsh/site-functions/_other"}
STALE = {"lib/wdp/stale.py", "share/man/man1/wdp-office-stale.1", "share/doc/wdp/stale"}
KEPT_OUT = "out .git cases *_tests must-fail fixtures __pycache__ .gitattributes".split()


def run(*words, **how):
    return subprocess.run(words, stdin=subprocess.DEVNULL, capture_output=True, text=True, **how)


def copied(root: Path, programs: dict[str, str]) -> Path:
    """A copy of the tree, whose programs are the ones that are tried."""
    shutil.copytree(ROOT, root, symlinks=True, ignore=shutil.ignore_patterns(*KEPT_OUT))
    prebuilt = root / "prebuilt"
    for name, program in programs.items():
        (prebuilt / f"{name}.gz").write_bytes(gzip.compress(Path(program).read_bytes()))
    lines = [f"sources {run('tools/program_sources', cwd=root, check=True).stdout.strip()}"]
    for path in sorted(prebuilt.glob("*.gz")):
        lines.append(
            f"program {path.stem} {sha256(gzip.decompress(path.read_bytes())).hexdigest()}"
        )
    (prebuilt / "record").write_text("\n".join([*lines, "toolchain none\n"]))
    return root


@pytest.fixture(scope="module")
def folder(tmp_path_factory):
    return tmp_path_factory.mktemp("package")


@pytest.fixture(scope="module")
def programs(wdp, wdp_desk):
    programs = {"wdp": wdp, "wdp-desk": wdp_desk}
    for name, program in programs.items():
        assert Path(program).read_bytes()[:4] == b"\x7fELF", f"{name} is no linked program"
    return programs


@pytest.fixture(scope="module")
def tree(programs, folder):
    return copied(folder / "a 'tree'", programs)


@pytest.fixture(scope="module")
def bare(folder):
    """A folder with the commands that `make` and Debian's smallest system bring, without Python: a fresh machine's path."""
    commands = "sh make gzip mktemp chmod mkdir rm install tar find sed ln readlink dirname sha256sum sort xargs cut cat env basename tr".split()
    path = folder / "bare"
    path.mkdir()
    for name in commands:
        (path / name).symlink_to(shutil.which(name, path=SYSTEM))
    return path


def test_a_fresh_machine_installs_it(tree, bare, tmp_path):
    """No tool that makes manuals is needed, and no library."""
    done = run("make", "install", f"DESTDIR={tmp_path}", cwd=tree, env={"PATH": str(bare)})
    assert (done.returncode, done.stdout + done.stderr) == (0, "")
    for name in ("wdp", "wdp-desk"):
        program = tmp_path / "usr/local/bin" / name
        assert run(program, "--version").stdout.startswith(f"{name} ")


def make(tree, *words):
    done = run("make", *words, "PREFIX=", cwd=tree, env={"PATH": SYSTEM})
    return done.returncode, done.stdout + done.stderr


@pytest.fixture(scope="module")
def there(tree, folder):
    """Where all is installed, beside what others installed, and over an older one."""
    root = folder / "a root"
    for path in STALE | OTHERS:
        (root / path).parent.mkdir(parents=True, exist_ok=True)
        (root / path).write_text("")
    assert make(tree, "install", f"DESTDIR={root}") == (0, "")
    return root


INSTALLED = {"python/src/wdp": "lib/wdp/python/wdp", "docs": "share/doc/wdp/docs"}
INSTALLED |= {"examples": "share/doc/wdp/examples"}
COMPLETION = "share/bash-completion/completions/%s", "share/zsh/site-functions/_%s"


def test_it_installs_what_it_has_to_and_takes_away_what_an_older_one_left(tree, there):
    wanted = {f"{to}/{it}" for of, to in INSTALLED.items() for it in list_files(tree / of)}
    pages = ["wdp", "wdp-desk", "wdp-office", *(f"wdp-office-{it}" for it in OFFICE)]
    wanted |= {
        "bin/wdp",
        "bin/wdp-desk",
        "bin/wdp-office",
        *(f"share/man/man1/{it}.1" for it in pages),
    }
    wanted |= {path % name for path in COMPLETION for name in COMMANDS}
    assert wanted | OTHERS <= list_files(there) and not list_files(there) & STALE
    assert os.access(there / "bin/wdp", os.X_OK)
    assert not (there / "share/doc/wdp/README.md").stat().st_mode & 0o111


def test_uninstall(tree, there, tmp_path):
    subprocess.run(["cp", "-a", there, tmp_path / "it"], check=True)
    assert make(tree, "uninstall", f"DESTDIR={tmp_path / 'it'}") == (0, "")
    assert list_files(tmp_path / "it") == OTHERS


def test_a_program_of_other_sources_is_not_installed(tree, tmp_path):
    record = tree / "prebuilt" / "record"
    old = record.read_text()
    record.write_text(old.replace("sources ", "sources 0"))
    status, said = make(tree, "install", f"DESTDIR={tmp_path}")
    record.write_text(old)
    refusal = "make: prebuilt/ is of other sources, and nothing is installed"
    assert status == 2 and said.startswith(refusal) and not os.listdir(tmp_path)


def test_documents_name_what_is_installed(there):
    """Each link between them leads somewhere, and the manual page is found by its name."""
    documents = [*(there / "share" / "doc" / "wdp").rglob("*.md")]
    link = re.compile(r"\]\(([^)#:]+)(?:#[^)]*)?\)")
    links = [it.parent / to for it in documents for to in link.findall(it.read_text())]
    assert links and not [path for path in links if not path.exists()]
    assert not [it for it in documents if "docs/wdp.1" in it.read_text()]
    assert "`man wdp`" in (there / "share/doc/wdp/README.md").read_text()


def test_documents_show_the_installed_commands_and_speak_of_the_clone(there):
    """In their blocks commands are those that were installed; what is said of a clone stays."""
    documents = there / "share/doc/wdp"
    texts = [path.read_text() for path in documents.rglob("*.md")]
    blocks = [block for text in texts for block in re.findall(r"(?ms)^```.*?^```", text)]
    assert not [block for block in blocks if "./wdp" in block]
    assert "\nwdp-office auction worked" in (documents / "README.md").read_text()
    office = (documents / "docs/OFFICE.md").read_text()
    assert "In a clone, the command is `./wdp-office`." in office
    assert re.search(r"apt-get install \.\./wdp_[\d.]+_amd64\.deb", office)


def test_what_was_installed_runs_from_another_folder(there, folder, tmp_path):
    """An office's files are joined, and faults of another's told; an auction, its page and the module of Python find the program."""
    moved = shutil.copytree(there, folder / "moved", symlinks=True)
    shown = moved / "share/doc/wdp/examples"
    path = f"{moved / 'bin'}:{SYSTEM}"
    env = {"PATH": path, "HOME": str(tmp_path), "PYTHONDONTWRITEBYTECODE": "1"}

    def here(*words, **more):
        done = run(*words, cwd=tmp_path, env={**env, **more})
        return done.returncode, done.stdout

    text = read_case("one_form").stdout.decode()
    assert here("wdp", "text", shown / "one_form.txt") == (0, text)
    rules, forms, faulty, groups = (
        shown / "office" / name for name in ("rules.csv", "forms", "faulty", "groups.txt")
    )
    assert (
        here(
            "wdp-office",
            "gather",
            rules,
            forms,
            groups,
            "--use",
            forms / "form-heron-2.csv",
            *GATHER,
        )[0]
        == 0
    )
    assert sha256((tmp_path / "input.txt").read_bytes()).hexdigest() == INPUT_SHA256
    status, told = here("wdp-office", "explain", rules, faulty, groups, "--allow-missing", "Teal")
    assert (status, told.splitlines()[-1].split()[-1]) == (1, "faults")
    assert here("wdp-office", "gahter")[0] == 2
    words = ["auction", "award", "--input", shown / "worked.txt", "--quiet"]
    assert here("wdp-office", *words)[0] == 0
    report = (tmp_path / "award/report.txt").read_text()
    assert report == (shown / "worked.report.txt").read_text()
    assert "Certified" in (tmp_path / "award/results/results.html").read_text()
    script = "import wdp; from wdp import example; print(len(wdp.Auction.from_text(example.INPUT).compile()))"
    env |= {"PATH": SYSTEM, "PYTHONPATH": str(moved / "lib/wdp/python")}
    assert here("/usr/bin/python3", "-c", script) == (0, "4\n")


DRIVER = """\
source "$1"
COMP_WORDS=("${@:2}")
COMP_CWORD=$(($# - 2))
COMP_LINE="${COMP_WORDS[*]}"
completion=$(complete -p "$2"); completion=${completion#*-F }; "${completion%% *}" "$2" "${COMP_WORDS[COMP_CWORD]}" ""
printf '%s\\n' "${COMPREPLY[@]}"
"""


@pytest.mark.parametrize("program", COMMANDS)
def test_completion_and_pages_have_each_option_of_each_command(there, program):
    bash, zsh = (there / (path % program) for path in COMPLETION)

    def completed(*words):
        words = ["bash", "-c", DRIVER, "bash", bash, program, *words]
        return set(run(*words, env={"PATH": SYSTEM}).stdout.split())

    assert completed("") >= set(COMMANDS[program])
    assert run("zsh", "-n", zsh).stderr == ""
    for name in COMMANDS[program]:
        env = {"PATH": f"{there / 'bin'}:{SYSTEM}", "COLUMNS": "1000"}
        text = run(program, name, "--help", env=env, check=True).stdout
        options = set(re.findall(r"^ {2,6}(?:-\w, )?(--[a-z-]+)", text, re.MULTILINE))
        options -= {"--help", "--version"}
        page = there / f"share/man/man1/{program}{'' if program == 'wdp' else f'-{name}'}.1"
        texts = zsh.read_text(), page.read_text().replace("\\-", "-")
        # (the options of `desk` are those of its own commands)
        assert options or name == "desk"
        assert completed(name, "--") >= options and f'"{name}:' in texts[0]
        assert all(option in text for option in options for text in texts)


def test_the_manuals_of_the_tree_are_what_is_made(wdp, tmp_path):
    """(`tools/make_manuals` renews them.)"""
    run("tools/make_manuals", wdp, tmp_path, cwd=ROOT, check=True)
    made, kept = (list_files(folder) for folder in (tmp_path, ROOT / "manuals"))
    assert made == kept
    assert not [
        it for it in kept if (tmp_path / it).read_text() != (ROOT / "manuals" / it).read_text()
    ]


def test_the_pages_have_each_part_of_an_input():
    source = (ROOT / "crates/auction_input/src/part_kind.rt").read_text()
    heads = set(re.findall(r'=> b"(%[a-z]+)"', source))
    manual, reference = ((ROOT / "docs" / name).read_text() for name in ("wdp.1", "REFERENCE.md"))
    assert set(re.findall(r"^\.TP\n\.B (%[a-z]+)$", manual, re.MULTILINE)) == heads
    assert set(re.findall(r"^\| `(%[a-z]+)` \|", reference, re.MULTILINE)) == heads


def test_the_package_for_debian(programs, folder, tmp_path):
    """It has the programs as they were built, and lintian finds no error but that of the licence, which is for a person to say."""
    tree = copied(folder / "built" / "tree", programs)
    examples = list_files(tree / "examples")
    env = {"PATH": SYSTEM, "LC_ALL": "C.UTF-8"}
    done = run("dpkg-buildpackage", "--no-sign", "-b", cwd=tree, env=env)
    assert done.returncode == 0, done.stdout[-2000:] + done.stderr[-2000:]
    package = next((folder / "built").glob("wdp_*.deb"))
    run("dpkg-deb", "-x", package, tmp_path, check=True)
    documents = tmp_path / "usr/share/doc/wdp"
    assert examples == list_files(tree / "examples") == list_files(documents / "examples")
    assert (documents / "CHANGELOG.md").is_file()
    for name, program in programs.items():
        assert (tmp_path / "usr/bin" / name).read_bytes() == Path(program).read_bytes()
    main = tmp_path / "usr/lib/python3/dist-packages/wdp/__main__.py"
    assert (tmp_path / "usr/bin/wdp-office").resolve() == main
    fields = run("dpkg-deb", "-f", package, "Depends", check=True).stdout
    assert "libc6" in fields and "python3 (>= 3.11)" in fields
    told = run("lintian", "--allow-root", "--fail-on", "none", package).stdout.splitlines()
    assert [line for line in told if line.startswith("E:")] == ["E: wdp: no-copyright-file"]
