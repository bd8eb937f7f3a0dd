"""A cluster of Dask as the crew of a survey: whether its workers have what they need, and what they do.

Which worker has what, what is done again, and what becomes of the work of a lost worker is Dask's.
"""

from __future__ import annotations

import asyncio
import logging
import socket
from concurrent.futures import CancelledError, Future
from typing import Any

import murdjohe
from murdjohe.core import program
from murdjohe.core.faults import Wrong
from murdjohe.survey import study_runs
from murdjohe.survey.study_runs import Worked
from murdjohe.survey.workers import AHEAD

AGAIN = 3  # times that a part is worked again where its worker was lost, or its program was ended
PATIENCE_S = 30  # seconds until a scheduler has to answer
JOINING_S = 30  # seconds until a worker has to be there
HOW = "start it where the package is, with the proved program on its PATH, or take it out of the cluster"


def fitness() -> tuple[str, str, str]:
    """On a worker: the package's version, the checksum of the program, and why there is none."""
    try:
        return murdjohe.__version__, study_runs.core_sum(), ""
    except program.Absent as absent:
        return murdjohe.__version__, "", str(absent)


def here() -> str:
    """On a worker: how it is called."""
    from distributed import get_worker

    return f"worker {get_worker().address} on {socket.gethostname()}"


def worked(plan: bytes, cases: bytes, until: int, digest: str) -> Worked:
    """On a worker: what the program with this checksum answers. Raises core.Absent and core.Ended."""
    try:
        if study_runs.core_sum() != digest:
            raise program.Absent(f"it has another proved program than this command; {HOW}")
        return study_runs.studied(plan, cases, until, set())
    except (program.Absent, program.Ended, program.NoAnswer) as fault:
        raise type(fault)(f"{here()}: {fault}") from None


def unfit(worker: str, answer: Any, digest: str) -> str | None:
    """Why a worker can't work, by what it said of its fitness."""
    if isinstance(answer, Exception):
        # (Dask wraps what goes wrong before a function is there)
        is_bare = "No module named" in str(answer)
        return f"worker {worker}: " + (f"it has no package murdjohe; {HOW}" if is_bare else str(answer))
    version, its, why = answer
    if why:
        return f"worker {worker}: {why}"
    if version != murdjohe.__version__:
        return f"worker {worker}: it has the package {version}, and this command {murdjohe.__version__}"
    if its != digest:
        other = f"it has another proved program, sha256 {its[:16]}, and this command {digest[:16]}"
        return f"worker {worker}: {other}"
    return None


async def reached(address: str) -> None:
    """Connects to a scheduler, and lets it go: a client that isn't answered is long in giving up. Raises OSError, ValueError."""
    from distributed import Security
    from distributed.comm import connect

    comm = await connect(address, timeout=PATIENCE_S, **Security().get_connection_args("client"))
    await comm.close()


def client_of(address: str) -> Any:
    """A client of the scheduler there. Raises Wrong."""
    try:
        from distributed import Client
    except ImportError:
        raise Wrong("--scheduler: Debian's python3-distributed isn't installed here") from None
    logging.disable(logging.CRITICAL)  # (what matters is told in a line)
    try:
        asyncio.run(reached(address))
        return Client(address, timeout=PATIENCE_S, set_as_default=False)
    except (OSError, TimeoutError, ValueError, TypeError) as fault:
        why = f"no scheduler answers there ({str(fault).splitlines()[0] if str(fault) else type(fault).__name__})"
        raise Wrong(f"--scheduler {address}: {why}; start one by `dask-scheduler`") from None


class Cluster:
    """The workers of a scheduler, all of which have the package and the program that this command has."""

    def __init__(self, address: str, plan: bytes, until: int) -> None:
        self.address = address
        self.plan = plan
        self.until = until
        self.program = study_runs.core_sum()
        self.client = client_of(address)
        try:
            self.look()
        except BaseException:
            self.client.close()
            raise
        self.executor = self.client.get_executor(retries=AGAIN)

    def look(self) -> None:
        """Raises Wrong where there is no worker, or one can't work: a line for each."""
        try:
            self.client.wait_for_workers(1, timeout=JOINING_S)
        except TimeoutError:
            more = f"start some by `dask-worker {self.address}`"
            raise Wrong(f"--scheduler {self.address}: it has no worker; {more}") from None
        answers = self.client.run(fitness, on_error="return")
        found = [why for worker, answer in answers.items() if (why := unfit(worker, answer, self.program))]
        if found:
            raise Wrong(*found, status=program.UNAVAILABLE)

    @property
    def ahead(self) -> int:
        workers = self.client.scheduler_info()["workers"].values()
        return AHEAD * max(1, sum(int(worker["nthreads"]) for worker in workers))

    def begin(self, cases: bytes) -> Future[Worked]:
        try:
            future: Future[Worked] = self.executor.submit(worked, self.plan, cases, self.until, self.program)
        except Exception as fault:  # (by a client whose scheduler is gone)
            raise self.gone() from fault
        return future

    def gone(self) -> program.Absent:
        """That the scheduler is there no longer."""
        return program.Absent(f"--scheduler {self.address}: it is gone, or gave the work up")

    def told(self, fault: Exception) -> Exception:
        if isinstance(fault, (program.Absent, program.Ended, program.NoAnswer)):
            return fault
        if isinstance(fault, CancelledError):
            return self.gone()
        first = (str(fault).splitlines() or [""])[0]
        return program.Absent(f"--scheduler {self.address}: a worker couldn't work: {type(fault).__name__}: {first}")

    def stop(self) -> None:
        try:
            self.executor.shutdown(wait=False)
            self.client.close(timeout=PATIENCE_S)
        except Exception:  # (a scheduler that is gone can't be told so)
            pass
