"""Hides the libraries that WITHOUT_LIBRARIES names, as if they weren't there, and makes folders for
tests.
"""
import os
import sys
import time
from pathlib import Path

sys.modules.update(dict.fromkeys(os.environ.get("WITHOUT_LIBRARIES", "").split()))  # type: ignore[arg-type]

import pytest  # noqa: E402

from commands import AuctionFolder, OfficeFolder  # noqa: E402


@pytest.fixture
def office(tmp_path: Path) -> OfficeFolder:
    return OfficeFolder(tmp_path)


@pytest.fixture
def auction(tmp_path: Path, wdp: str) -> AuctionFolder:
    return AuctionFolder(tmp_path / "an auction's $(folder)", wdp)


@pytest.fixture(scope="session")
def whole(tmp_path_factory: pytest.TempPathFactory, wdp: str) -> AuctionFolder:
    auction = AuctionFolder(tmp_path_factory.mktemp("whole") / "auction", wdp)
    auction.read_messages("--ties")
    return auction


@pytest.fixture
def mark(monkeypatch: pytest.MonkeyPatch) -> str:
    """What the processes that a test starts have in their surroundings."""
    monkeypatch.setenv("STARTED_BY", f"a test of {os.getpid()} at {time.monotonic()}")
    return os.environ["STARTED_BY"]
