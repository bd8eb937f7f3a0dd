"""What the tests share: the program that they run, the examples, and the command as a person starts it."""

from __future__ import annotations

import os
import subprocess
from collections.abc import Sequence
from dataclasses import dataclass
from pathlib import Path

import pytest
from comfort_plans import RESERVE, UNMENDED
from hypothesis import settings

# (the gate tries the same examples each time, however busy the machine is)
settings.register_profile("gate", derandomize=True, deadline=None)
settings.load_profile("gate")

WORKBENCH = Path(__file__).resolve().parent.parent
TOP = WORKBENCH.parent
EXAMPLES = TOP / "examples"
LAUNCHER = WORKBENCH / "murdjohe"
# How many random files of each kind are made.
CASES = int(os.environ.get("MURDJOHE_CASES", "100"))


def pytest_collection_modifyitems(items: list[pytest.Item]) -> None:
    """Begins those first that take long, so that no processor waits for them at the end."""
    items.sort(key=lambda item: item.get_closest_marker("long") is None)


@dataclass(frozen=True)
class Ran:
    """What came of a command."""

    status: int
    out: bytes
    err: str


def started(words: Sequence[str], folder: Path | None = None, stdin: bytes = b"", **settings: str) -> Ran:
    """Runs a command as a process of its own, with more of the environment where it is given."""
    environment = {**os.environ, **settings}
    run = subprocess.run(
        words, cwd=folder, input=stdin, capture_output=True, env=environment, check=False, timeout=1200
    )
    return Ran(run.returncode, run.stdout, run.stderr.decode("utf-8", "replace"))


def murdjohe(*words: str, folder: Path | None = None, stdin: bytes = b"", **settings: str) -> Ran:
    """Runs the command of this checkout."""
    return started([str(LAUNCHER), *words], folder, stdin, **settings)


@pytest.fixture(autouse=True, scope="session")
def core() -> str:
    """The program, which MURDJOHE_CORE names or the checkout has built."""
    path = os.environ.get("MURDJOHE_CORE") or str(TOP / "crates" / "sync_main" / "out" / "sync_main")
    if not os.access(path, os.X_OK):
        pytest.exit(f"{path} is no program: name it by MURDJOHE_CORE", 2)
    os.environ["MURDJOHE_CORE"] = os.path.abspath(path)
    return os.environ["MURDJOHE_CORE"]


@pytest.fixture
def folder(tmp_path: Path, monkeypatch: pytest.MonkeyPatch) -> Path:
    """An empty folder, in which the test runs."""
    monkeypatch.chdir(tmp_path)
    return tmp_path


@pytest.fixture
def reserve(folder: Path) -> Path:
    """The folder with a plan, that of `RESERVE`."""
    (folder / "plan.toml").write_text(RESERVE)
    return folder


@pytest.fixture
def unmended(reserve: Path) -> Path:
    """The same, with works after which an element has nothing."""
    (reserve / "works.csv").write_text(UNMENDED)
    return reserve
