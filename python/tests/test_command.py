"""The office's commands as one tree, wdp-office, and what holds for the source: sizes, docstrings,
and that it installs.
"""
import argparse
import ast
import gzip
import hashlib
import importlib
import os
import shutil
import signal
import subprocess
import sys
from pathlib import Path

import wdp
from commands import (
    ROOT,
    WORKED,
    CommandResult,
    OfficeFolder,
    finish,
    list_files,
    read_text,
    run,
    start,
)
from wdp import cli

TOOL = ROOT / "wdp-office"
SOURCE = ROOT / "python/src/wdp"
# the modules of which a user of the package reads the help
PUBLIC = ["__init__", "api", "frames", "outcome", "results", "texts/refusals"]
STRANGE = ["", "-", "--", "--versions", "a\nb", "\x1b[1mgather", "x" * 100_000]


def test_words_that_are_no_command_are_one_short_line() -> None:
    for word in STRANGE:
        status, output, messages = run(word)
        assert status == 2
        assert output == ""
        assert messages.count("\n") == 1
        assert messages[:-1].isprintable()
        assert len(messages) < 600


def test_version_and_help() -> None:
    assert run("--version") == (0, f"wdp-office {wdp.__version__}\n", "")
    status, whole, messages = run("--help")
    assert status == 0
    assert messages == ""
    assert run("help") == (0, whole, "")
    assert run("-h") == (0, whole, "")
    assert run("help", "help") == (0, whole, "")
    assert run() == (2, "", whole)
    assert cli.COMMANDS
    for name in cli.COMMANDS:
        assert f"\n    {name} " in whole
        assert name in cli.build_parser().format_help()
        status, text, messages = run("help", name)
        assert status == 0
        assert messages == ""
        assert text.startswith(f"usage: wdp-office {name} ")
        assert run(name, "--help") == (0, text, "")
        status, output, messages = run(name, "--no-such-word")
        assert status == 2
        assert output == ""
        assert messages.count("\n") == 1
        assert messages.startswith(f"wdp-office {name}: error: ")


def test_the_value_of_each_option_is_used() -> None:
    """Some module of the package has an attribute of each option's name, as in options.output."""
    trees = [ast.parse(path.read_text()) for path in SOURCE.rglob("*.py")]
    nodes = [node for tree in trees for node in ast.walk(tree)]
    used = {node.attr for node in nodes if isinstance(node, ast.Attribute)}
    for name in cli.COMMANDS:
        command = argparse.ArgumentParser()
        importlib.import_module(f"wdp.{cli.COMMANDS[name][0]}").add_arguments(command)
        # (`unwritten` is of options that `explain` takes as `gather` does, and writes nothing for)
        names = {action.dest for action in command._actions} - {"help", "unwritten"}
        assert names <= used, (name, names - used)


def test_it_is_found_through_a_link_and_in_a_tree_at_a_strange_path(tmp_path: Path) -> None:
    link = tmp_path / "a link"
    place = tmp_path / "a $(touch x) 'tree' {0}\n"
    link.symlink_to(TOOL)
    how = {"cwd": tmp_path, "env": {"PATH": "/usr/bin:/bin"}}
    assert finish(start([link, "--version"], **how)) == (0, f"wdp-office {wdp.__version__}\n", "")
    link.unlink()
    place.symlink_to(ROOT)
    how = {"cwd": tmp_path, "stdin": subprocess.PIPE, "env": dict(os.environ)}
    seen = finish(start([place / "wdp-office", "auction", "--solver", "highs"], **how), WORKED)
    assert seen.out == read_text("examples", "worked.report.txt"), seen.err
    assert os.listdir(tmp_path) == [place.name]


def test_standard_output_that_fails_and_an_interrupt_are_one_line(office: OfficeFolder) -> None:
    none = "standard output: No space left on device\n"
    with open("/dev/full", "wb") as full:
        for words in (["--help"], ["--version"], ["help", "gather"]):
            assert run(*words, stdout=full) == (1, "", f"wdp-office: {none}")
        for command in ("gather", "explain"):
            seen = run(command, *office.files, stdout=full)
            assert seen.status == 1
            assert seen.err.splitlines(True)[-1] == f"{command}: {none}"
    os.mkfifo(office.folder / "never")
    commands: list[list[object]] = [["explain"], ["gather", office.rules, office.forms]]
    for words in commands:
        tool = start([TOOL, *words, office.folder / "never"])
        with open(office.folder / "never", "wb"):  # the command reads now
            tool.send_signal(signal.SIGINT)
            assert finish(tool) == (130, "", f"{words[0]}: interrupted\n")


def list_functions(path: Path) -> list[ast.FunctionDef]:
    nodes = ast.walk(ast.parse(path.read_text()))
    return [each for each in nodes if isinstance(each, ast.FunctionDef)]


def test_public_functions_have_docstrings() -> None:
    for node in [each for name in PUBLIC for each in list_functions(SOURCE / f"{name}.py")]:
        assert node.name.startswith("_") or ast.get_docstring(node), node.name


def copy_sources(folder: Path) -> Path:
    """Copies what the wheel is made of: the package, and the program that is tried as the one that
    comes with the tree.
    """
    ignore = shutil.ignore_patterns("__pycache__", "build")
    shutil.copytree(ROOT / "python", folder / "python", ignore=ignore)
    data = Path(os.environ["WDP"]).read_bytes()
    (folder / "prebuilt").mkdir()
    (folder / "prebuilt" / "wdp.gz").write_bytes(gzip.compress(data))
    (folder / "prebuilt" / "record").write_text(f"program wdp {hashlib.sha256(data).hexdigest()}\n")
    return folder


# the package finds the program that was installed with it, and nothing else is on its path
SCRIPT = """
import wdp, wdp.program
print(wdp.__version__, wdp.program._find_tree(), wdp.program.find_program())
wdp.Auction.from_text('').check('ENDATA')
"""


def install(sources: Path, python: Path | str, *options: object) -> CommandResult:
    """Has pip install the package, with nothing of the network's or of another package's."""
    words = [python, *"-m pip install -q --no-index --no-compile".split(), *options]
    home = str(sources)
    how = {"PATH": "/usr/bin:/bin", "PIP_DISABLE_PIP_VERSION_CHECK": "1", "HOME": home}
    return finish(start([*words, sources / "python"], env=how))


def check_program(python: Path | str, folder: Path, program: Path, **env: str) -> None:
    """The package runs this program."""
    done = subprocess.run(
        [python, "-B", "-c", SCRIPT],
        capture_output=True,
        text=True,
        cwd=folder,
        env={"PATH": "/usr/bin:/bin", **env},
    )
    assert done.stdout == f"{wdp.__version__} None {program}\n", done.stderr
    assert done.stderr.endswith("wdp.Refused: wdp: program: 8 NoObjective at line 1\n"), done.stderr


def test_pip_installs_it_in_a_plain_environment(tmp_path: Path) -> None:
    """One of Debian's, which has neither wheel nor a new setuptools, and reaches no network."""
    plain = tmp_path / "plain"
    subprocess.run([sys.executable, "-m", "venv", plain], check=True)
    result = install(copy_sources(tmp_path), plain / "bin/python")
    assert result.status == 0, result.err
    check_program(plain / "bin/python", tmp_path, plain / "bin/wdp")
    assert finish(start([plain / "bin/wdp-office", "--version"])).status == 0


def test_pip_installs_it_into_a_folder(tmp_path: Path) -> None:
    to = tmp_path / "to"
    assert install(copy_sources(tmp_path), sys.executable, "--target", to).status == 0
    assert list_files(to / "wdp") == list_files(SOURCE)
    check_program(sys.executable, tmp_path, to / "bin/wdp", PYTHONPATH=str(to))


def test_pip_installs_no_program_that_was_not_recorded(tmp_path: Path) -> None:
    sources = copy_sources(tmp_path)
    (sources / "prebuilt" / "wdp.gz").write_bytes(gzip.compress(b"#!/bin/sh\n"))
    result = install(sources, sys.executable, "--target", tmp_path / "to")
    assert result.status == 1
    assert "isn't the program that prebuilt/record names" in result.err
    assert not (tmp_path / "to").exists()
