"""What all tests have: the programs that are tried, a library that makes its streams or its system fail, and the rule that a test
that isn't run has failed, unless it lacks one of the libraries of Python that WITHOUT_LIBRARIES hides."""

from __future__ import annotations

import os
import subprocess
import tempfile
from collections.abc import Generator
from pathlib import Path
from typing import Any

import pytest
from trials.program import ROOT, list_programs, of_these_sources

NO_PROGRAM = "there is no program of these sources: ./build makes one"
MAY_LACK = [f"{name} isn't there" for name in os.environ.get("WITHOUT_LIBRARIES", "").split()]


def pytest_addoption(parser: pytest.Parser) -> None:
    about = "a program that is tried; by default the one built here, or else the one in prebuilt/"
    for name in list_programs():
        parser.addoption(f"--{name}", metavar="PROGRAM", help=about)


def pytest_configure(config: pytest.Config) -> None:
    # (processes side by side get what the first one found)
    folder = tempfile.TemporaryDirectory(prefix="wdp-tried-")
    config.add_cleanup(folder.cleanup)
    os.chmod(folder.name, 0o755)
    for name in list_programs():
        option = name.replace("-", "_")
        given = getattr(config.option, option)
        if given is None:
            given = of_these_sources(folder.name, name)
        elif given and (not os.access(given, os.X_OK) or os.path.isdir(given)):
            raise pytest.UsageError(f"{given}: no program")
        setattr(config.option, option, os.path.abspath(given) if given else "")
        os.environ[option.upper()] = getattr(config.option, option) or NO_PROGRAM


@pytest.hookimpl(hookwrapper=True)  # type: ignore[misc]
def pytest_runtest_makereport() -> Generator[None, Any, None]:
    report = (yield).get_result()
    why = report.longrepr[2] if isinstance(report.longrepr, tuple) else "it may fail"
    if report.skipped and why.removeprefix("Skipped: ") not in MAY_LACK:
        report.outcome = "failed"
        report.longrepr = f"it isn't run: {why}"
        vars(report).pop("wasxfail", None)


@pytest.hookimpl(hookwrapper=True)  # type: ignore[misc]
def pytest_make_collect_report() -> Generator[None, Any, None]:
    report = (yield).get_result()
    if report.skipped:
        report.outcome = "failed"
        report.longrepr = f"no test of it is run: {report.longrepr}"


def pytest_sessionfinish(session: pytest.Session) -> None:
    """Where libraries are hidden, some test has to miss them."""
    reporter = session.config.pluginmanager.get_plugin("terminalreporter")
    if MAY_LACK and reporter and "skipped" not in reporter.stats:
        session.exitstatus = pytest.ExitCode.TESTS_FAILED


@pytest.fixture(scope="session")
def wdp(pytestconfig: pytest.Config) -> str:
    return find_program(pytestconfig, "wdp")


def find_program(config: pytest.Config, option: str) -> str:
    if not getattr(config.option, option):
        pytest.fail(NO_PROGRAM, pytrace=False)
    return str(getattr(config.option, option))


@pytest.fixture(scope="session")
def wdp_desk(pytestconfig: pytest.Config) -> str:
    return find_program(pytestconfig, "wdp_desk")


@pytest.fixture(scope="session")
def wdp_solve(pytestconfig: pytest.Config) -> str:
    return find_program(pytestconfig, "wdp_solve")


@pytest.fixture(scope="session")
def failing(tmp_path_factory: pytest.TempPathFactory) -> str:
    """The library of tools/trials/failing.c, to preload."""
    return make_library(tmp_path_factory, "failing")


@pytest.fixture(scope="session")
def machine(tmp_path_factory: pytest.TempPathFactory) -> str:
    """The library of tools/trials/machine.c, to preload."""
    return make_library(tmp_path_factory, "machine")


def make_library(folders: pytest.TempPathFactory, name: str) -> str:
    made = folders.mktemp(name) / f"{name}.so"
    source = Path(ROOT, f"tools/trials/{name}.c")
    subprocess.run(["cc", "-shared", "-fPIC", "-O1", "-o", made, source, "-ldl"], check=True)
    return str(made)
