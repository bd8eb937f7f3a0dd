"""What the tests of `survey` share: a folder with a double of the program, and what a survey has to print and write there."""

from __future__ import annotations

import gzip
import json
import os
import signal
import subprocess
import time
from collections.abc import Sequence
from dataclasses import dataclass
from pathlib import Path

import core_double
import pytest
from conftest import EXAMPLES, LAUNCHER, Ran

from murdjohe import main
from murdjohe.core.documents import Document
from murdjohe.core.streams import Output
from murdjohe.plan.plan_lines import PlanLines
from murdjohe.runs import failures

RING = EXAMPLES / "ring" / "plan.toml"
INTERRUPT, KILL = signal.SIGINT, signal.SIGKILL
EACH = ["--links", "--sources", "--elements", "--pairs"]  # (of the ring: 21 cases)
UNTIL = "601000"  # the bound of the double after what fails in the tenth minute, and up to a whole second
PATIENCE_S = 600.0  # (a busy machine may take its time)


@dataclass(frozen=True)
class Double:
    """A folder with a double of the program."""

    folder: Path

    @property
    def program(self) -> str:
        return str(self.folder / "core")

    def made(self, **settings: object) -> Double:
        """The double with these settings."""
        self.folder.mkdir(exist_ok=True)
        program = self.folder / "core"
        program.write_bytes(Path(core_double.__file__).read_bytes())
        program.chmod(0o755)
        (self.folder / "settings.json").write_text(json.dumps(settings))
        return self

    def calls(self) -> list[str]:
        """The first and last case of each study, how many it had, and its end, in the order in which they were begun."""
        path = self.folder / "calls"
        return path.read_text().splitlines() if path.exists() else []

    def wait_for(self, calls: int) -> None:
        """Waits until so many studies were begun."""
        end = time.monotonic() + PATIENCE_S
        while len(self.calls()) < calls:
            assert time.monotonic() < end, f"{len(self.calls())} studies were begun"
            time.sleep(0.02)

    def started(self, *words: str) -> subprocess.Popen[bytes]:
        """The command `survey` as a process of its own, which Ctrl-C may end although that is ignored here, as in the background."""
        command = ["env", "--default-signal=INT", str(LAUNCHER), "survey", *words]
        environment = {**os.environ, "MURDJOHE_CORE": self.program}
        return subprocess.Popen(command, env=environment, stdout=subprocess.PIPE, stderr=subprocess.PIPE)


def ended(process: subprocess.Popen[bytes], by: int | None = None) -> Ran:
    """What came of a process, which is sent a signal first."""
    if by is not None:
        process.send_signal(by)
    out, err = process.communicate(timeout=PATIENCE_S)
    return Ran(process.returncode, out, err.decode())


def surveyed(capfd: pytest.CaptureFixture[str], *words: str) -> Ran:
    """What comes of the command `survey` in this process."""
    capfd.readouterr()
    status = main.guarded(["survey", *words], Output(False))
    found = capfd.readouterr()
    return Ran(status, found.out.encode(), found.err)


def table_of(*kinds: str, common: Sequence[str] = (), at: int = 600_000, plan: Path = RING) -> str:
    """The table of cases that `failures` writes of a plan, with rows that are common to all."""
    network = PlanLines(Document("plan.toml", plan.read_bytes())).network
    found = failures.failures_of(network, kinds or (failures.LINKS, failures.SOURCES, failures.ELEMENTS))
    cases = failures.cases_of(found, True, failures.in_order(network))
    head, _, rows = failures.table_of([], cases, at).decode().partition("\n")
    return "\n".join([head, *common, rows])


def rows_in(path: str | Path) -> list[str]:
    """The rows of a file of results behind its header, unpacked where it is packed."""
    data = Path(path).read_bytes()
    lines = (gzip.decompress(data) if str(path).endswith(".gz") else data).decode().splitlines()
    assert lines[0] == core_double.HEADER
    return lines[1:]


@pytest.fixture
def double(folder: Path, monkeypatch: pytest.MonkeyPatch) -> Double:
    """A double of the program in the folder in which the test runs, which takes its place there."""
    found = Double(folder).made()
    monkeypatch.setenv("MURDJOHE_CORE", found.program)
    return found
