"""`survey` on a cluster of Dask on the loopback: the same rows, also where a worker is lost; and what can't work is told."""

from __future__ import annotations

import json
import os
import subprocess
import time
from collections.abc import Iterator
from contextlib import contextmanager, suppress
from pathlib import Path

import core_double
import pytest
from conftest import WORKBENCH
from surveys_made import EACH, KILL, PATIENCE_S, RING, UNTIL, Double, double, ended, rows_in, table_of

import murdjohe
from murdjohe.core import program
from murdjohe.core.faults import Wrong
from murdjohe.survey import cluster

PLAN = str(RING)
WORKING = {"PYTHONPATH": str(WORKBENCH / "src"), "DASK_DISTRIBUTED__WORKER__MEMORY__TERMINATE": "False"}


class Dask:
    """A scheduler on the loopback, and its workers."""

    def __init__(self, folder: Path) -> None:
        self.folder = folder
        self.file = str(folder / "scheduler.json")
        self.started: list[subprocess.Popen[bytes]] = []

    def start(self, *words: str, **settings: str) -> subprocess.Popen[bytes]:
        """Starts a program of Dask; what it says goes to a file."""
        with open(self.folder / "said", "ab") as said:
            command = ["/usr/bin/python3", "-m", *words, "--scheduler-file", self.file]
            environment = {**os.environ, **settings}
            self.started.append(subprocess.Popen(command, env=environment, stdout=said, stderr=said, cwd=self.folder))
        return self.started[-1]

    def worker(self, name: str, executable: str, **settings: str) -> subprocess.Popen[bytes]:
        """Starts a worker with this program."""
        options = ["--nthreads", "1", "--no-nanny", "--no-dashboard", "--name", name, "--host", "127.0.0.1"]
        its = {**WORKING, "MURDJOHE_CORE": executable, **settings}
        return self.start("distributed.cli.dask_worker", *options, "--local-directory", str(self.folder), **its)

    @property
    def address(self) -> str:
        """The address of the scheduler, once it has one and its file is written whole."""
        end = time.monotonic() + PATIENCE_S
        while True:
            with suppress(FileNotFoundError, json.JSONDecodeError):
                return str(json.loads(Path(self.file).read_text())["address"])
            assert time.monotonic() < end, (self.folder / "said").read_text()
            time.sleep(0.05)

    def wait_for(self, workers: int) -> None:
        """Waits until the scheduler has so many workers."""
        from distributed import Client

        with Client(self.address, timeout=PATIENCE_S, set_as_default=False) as client:
            client.wait_for_workers(workers, timeout=PATIENCE_S)


@contextmanager
def dask(folder: Path) -> Iterator[Dask]:
    """A cluster without workers, which is ended behind."""
    found = Dask(folder)
    found.start("distributed.cli.dask_scheduler", "--host", "127.0.0.1", "--port", "0", "--no-dashboard")
    try:
        yield found
    finally:
        for process in found.started:
            process.kill()
            process.wait()


def test_a_worker_that_is_lost_changes_no_row(double: Double, tmp_path: Path) -> None:
    double.made(slow=0.2)
    with dask(tmp_path) as cluster_here:
        workers = [cluster_here.worker(str(number), double.program) for number in range(3)]
        cluster_here.wait_for(3)
        process = double.started(PLAN, *EACH, "--size", "1", "--scheduler", cluster_here.address, "-o", "rows.csv")
        double.wait_for(6)
        workers[1].send_signal(KILL)
        ran = ended(process)
        assert ran.status == 0, ran.err
        assert rows_in("rows.csv") == core_double.rows_of(table_of(), UNTIL)
        assert f"21 cases worked up to {UNTIL}, 0 were worked before" in ran.err and ran.err.count("\n") == 2
        # (all but what the lost worker had is worked once)
        assert len(set(double.calls())) == 21
        before = len(double.calls())
        ran = ended(double.started(PLAN, *EACH, "--size", "1", "--scheduler", cluster_here.address))
        assert (ran.status, len(double.calls())) == (0, before) and "21 were worked before" in ran.err


def test_workers_that_can_not_work_are_told(double: Double, tmp_path: Path) -> None:
    other = Double(tmp_path / "other").made()
    with open(other.program, "a", encoding="utf-8") as file:
        file.write("# another\n")
    bare = str(tmp_path / "nothing")
    with dask(tmp_path) as cluster_here:
        cluster_here.worker("good", double.program)
        cluster_here.worker("no-program", bare)
        cluster_here.worker("another-program", other.program)
        cluster_here.worker("no-package", double.program, PYTHONPATH="")
        cluster_here.wait_for(4)
        ran = ended(double.started(PLAN, *EACH, "--scheduler", cluster_here.address))
    assert (ran.status, ran.out, double.calls()) == (69, b"", [])
    lines = sorted(line.partition(": worker tcp://127.0.0.1:")[2].partition(": ")[2] for line in ran.err.splitlines())
    assert lines[0] == f"MURDJOHE_CORE is {bare}, which is no program that can be run"
    assert lines[1].startswith("it has another proved program, sha256 ")
    assert lines[2:] == [f"it has no package murdjohe; {cluster.HOW}"]


def test_a_scheduler_without_workers_is_told(double: Double, tmp_path: Path, monkeypatch: pytest.MonkeyPatch) -> None:
    monkeypatch.setattr(cluster, "JOINING_S", 1)
    with dask(tmp_path) as cluster_here, pytest.raises(Wrong, match="it has no worker; start some by `dask-w"):
        cluster.Cluster(cluster_here.address, b"", 0)


@pytest.mark.parametrize("address", ["tcp://127.0.0.1:9", "127.0.0.1:port", "nonsense://x"])
def test_where_no_scheduler_is_that_is_told(double: Double, monkeypatch: pytest.MonkeyPatch, address: str) -> None:
    monkeypatch.setattr(cluster, "PATIENCE_S", 1)
    with pytest.raises(Wrong, match=f"--scheduler {address}: no scheduler answers there"):
        cluster.Cluster(address, b"", 0)


@pytest.mark.parametrize(
    ("answer", "said"),
    [
        (("1.0.0", "abc", ""), None),
        (("1.0.0", "abd", ""), "worker w: it has another proved program, sha256 abd, and this command abc"),
        (("0.9.0", "abc", ""), "worker w: it has the package 0.9.0, and this command 1.0.0"),
        (("1.0.0", "", "there is none"), "worker w: there is none"),
        (
            Exception("ModuleNotFoundError(\"No module named 'murdjohe'\")"),
            f"worker w: it has no package murdjohe; {cluster.HOW}",
        ),
        (OSError("it is gone"), "worker w: it is gone"),
    ],
)
def test_what_a_worker_says_of_itself(answer: object, said: str | None, monkeypatch: pytest.MonkeyPatch) -> None:
    monkeypatch.setattr(murdjohe, "__version__", "1.0.0")
    assert cluster.unfit("w", answer, "abc") == said


def test_a_worker_that_lost_its_program_says_so(double: Double, monkeypatch: pytest.MonkeyPatch) -> None:
    monkeypatch.setattr(cluster, "here", lambda: "worker w on h")
    monkeypatch.setenv("MURDJOHE_CORE", "/nonexistent")
    with pytest.raises(program.Absent, match="^worker w on h: MURDJOHE_CORE is /nonexistent, which is no program"):
        cluster.worked(b"", b"", 0, "abc")
    monkeypatch.setenv("MURDJOHE_CORE", double.program)
    with pytest.raises(program.Absent, match="^worker w on h: it has another proved program than this command"):
        cluster.worked(b"", b"", 0, "abc")
