"""A survey that goes: its parts are begun in order, some ahead of the one whose rows come next, and each is kept once it is
worked. Who works them is a crew: threads here that wait for the program, or a cluster."""

from __future__ import annotations

import os
import signal
import sys
import time
from collections import deque
from collections.abc import Callable, Generator, Iterable, Iterator
from concurrent.futures import FIRST_COMPLETED, Future, ThreadPoolExecutor, wait
from contextlib import suppress
from functools import partial
from typing import Any, Protocol, TypeVar

from murdjohe.core import program
from murdjohe.core.faults import Wrong
from murdjohe.core.program import Answer
from murdjohe.survey import study_runs
from murdjohe.survey.part_store import Finished
from murdjohe.survey.portions import Part
from murdjohe.survey.study_runs import Rows, Worked

ResultT = TypeVar("ResultT")
AHEAD = 3  # parts for each processor that are begun at once
AGAIN_S = 0.2  # seconds after which it is looked again what another survey does
TURN_S = 0.0005  # seconds after which a thread that waits has its turn: meanwhile a processor may have no work


def processors() -> int:
    """How many processors this process may use."""
    return len(os.sched_getaffinity(0))


class Crew(Protocol):
    """Who works parts."""

    @property
    def ahead(self) -> int:
        """How many parts may be begun at once."""

    def begin(self, cases: bytes) -> Future[Worked]:
        """Has a table of cases worked."""

    def told(self, fault: Exception) -> Exception:
        """What went wrong while a part was worked, as it is told."""

    def stop(self) -> None:
        """Ends what is still worked."""


class Threads:
    """Threads of this process, each of which waits for the program, whose processes are among those that are `running`."""

    def __init__(self, jobs: int) -> None:
        self.pool = ThreadPoolExecutor(jobs)
        self.running: set[int] = set()
        self.begun: set[Future[Any]] = set()
        sys.setswitchinterval(TURN_S)

    def begin(self, work: Callable[[set[int]], ResultT]) -> Future[ResultT]:
        """Has something worked, which is given the set of what is running."""
        future = self.pool.submit(work, self.running)
        self.begun.add(future)
        future.add_done_callback(self.begun.discard)
        return future

    def stop(self) -> None:
        """Ends what is still worked."""
        self.pool.shutdown(wait=False, cancel_futures=True)
        while left := set(self.begun):
            for child in list(self.running):
                with suppress(ProcessLookupError):
                    os.kill(child, signal.SIGTERM)
            wait(left, AGAIN_S)


class Here:
    """The threads of this process as a crew."""

    def __init__(self, plan: bytes, until: int, jobs: int) -> None:
        self.plan = plan
        self.until = until
        self.threads = Threads(jobs)
        self.ahead = AHEAD * jobs

    def begin(self, cases: bytes) -> Future[Worked]:
        return self.threads.begin(partial(study_runs.studied, self.plan, cases, self.until))

    def told(self, fault: Exception) -> Exception:
        return fault

    def stop(self) -> None:
        self.threads.stop()


class Slot:
    """A part that was begun, with its rows once they are there; without a future another survey works it."""

    def __init__(self, part: Part) -> None:
        self.part = part
        self.future: Future[Worked] | None = None
        self.rows: Rows | None = None


class Survey:
    """The parts that are begun, in order, how many cases were worked, and how many were finished before.

    `refused` says what is wrong with a part that the program didn't take; `tell` is told of each number of cases that is done.
    """

    def __init__(
        self, crew: Crew, finished: Finished, refused: Callable[[Part, Answer], Wrong], tell: Callable[[int], None]
    ) -> None:
        self.crew = crew
        self.finished = finished
        self.refused = refused
        self.tell = tell
        self.slots: deque[Slot] = deque()
        self.worked = self.found = 0
        self.part: Part | None = None  # that of the rows that were given last

    def look(self, slot: Slot) -> None:
        """Takes the rows of a part where it is finished; else has it worked, unless another survey does."""
        slot.rows = self.finished.rows(slot.part)
        if slot.rows is None and self.finished.claim(slot.part):
            # (it may have been finished a moment ago, before the claim was given back)
            slot.rows = self.finished.rows(slot.part)
            if slot.rows is None:
                slot.future = self.crew.begin(slot.part.data)
            else:
                self.finished.leave(slot.part)
        if slot.rows is not None:
            self.found += len(slot.part.names)
            self.tell(len(slot.part.names))

    def keep(self, slot: Slot, worked: Worked) -> None:
        """Keeps what the program answered to a part. Raises Wrong where that is no row for each case."""
        answer = worked.answer
        if answer.status != program.DONE:
            raise self.refused(slot.part, answer)
        try:
            slot.rows = study_runs.rows_of(answer.text, slot.part.names)._replace(packed=worked.packed)
        except ValueError as fault:
            said = f"the program's answer to a part can't be read: {fault}"
            raise Wrong(said, status=program.MISTAKE) from None
        self.finished.keep(slot.part, slot.rows)
        self.finished.leave(slot.part)
        self.worked += len(slot.part.names)
        self.tell(len(slot.part.names))

    def wait(self) -> None:
        """Waits until one more part is done, and keeps all that are."""
        begun = [slot for slot in self.slots if slot.rows is None]
        ours = [slot.future for slot in begun if slot.future is not None]
        if ours:
            wait(ours, None if len(ours) == len(begun) else AGAIN_S, FIRST_COMPLETED)
        else:
            time.sleep(AGAIN_S)
        for slot in begun:
            if slot.future is None:
                self.look(slot)
            elif slot.future.done():
                try:
                    worked = slot.future.result()
                except Exception as fault:
                    raise self.crew.told(fault) from None
                self.keep(slot, worked)

    def ready(self) -> Iterator[Rows]:
        """The rows of the parts that come next and are done."""
        while self.slots and (rows := self.slots[0].rows) is not None:
            self.part = self.slots.popleft().part
            yield rows

    def rows(self, parts: Iterable[Part]) -> Generator[Rows, None, None]:
        """The rows of all parts, in order. Whatever ends it, what is worked by then is kept."""
        try:
            for part in parts:
                self.slots.append(Slot(part))
                self.look(self.slots[-1])
                yield from self.ready()
                while len(self.slots) >= self.crew.ahead:
                    self.wait()
                    yield from self.ready()
            while self.slots:
                self.wait()
                yield from self.ready()
        finally:
            self.end()

    def end(self) -> None:
        """Ends what is still worked, and keeps what was worked meanwhile."""
        self.crew.stop()
        for slot in self.slots:
            future = slot.future if slot.rows is None else None
            if future and future.done() and not future.cancelled() and future.exception() is None:
                with suppress(Wrong):  # (what ends the survey is told, and not what comes of that)
                    self.keep(slot, future.result())
        self.finished.close()
