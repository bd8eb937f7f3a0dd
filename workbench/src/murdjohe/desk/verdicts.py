"""Verdicts on the states of a desk, by a pool of programs: the newest state first, and what comes late of an older one is dropped.

Each answer has the number of its state. When a state comes, the programs that still work on older ones are ended.
"""

from __future__ import annotations

import threading
from collections.abc import Callable
from concurrent.futures import ThreadPoolExecutor
from dataclasses import dataclass, field
from typing import Any

from murdjohe.answers import api, reports
from murdjohe.core import forms, program
from murdjohe.core.faults import Wrong
from murdjohe.core.program import Answer
from murdjohe.desk import cut_off
from murdjohe.network import oscillation, plan_file
from murdjohe.plan.model import Plan
from murdjohe.plan.plan_lines import PlanLines
from murdjohe.core.documents import Document
from murdjohe.runs import ends, simulation
from murdjohe.runs.moments import Event

LOOP, AGREE, PROTECTED, CHAINS, RUN, CUT = "loop", "agree", "protected", "chains", "run", "cut"
STRIP = frozenset((LOOP, AGREE, PROTECTED, CHAINS))  # the verdicts for which a planner waits
ALL = (LOOP, AGREE, PROTECTED, CHAINS, RUN, CUT)
WORKERS = 4
PAUSE = 0.1  # seconds after the strip before the elements are looked for that failures cut off
PATIENCE = 600  # seconds that `agree` waits for `rank` at most
SHOWN = 200  # gaps that are told one by one
SKIPPED = {"skipped": "a loop is possible"}
WITHOUT_BOUND = 60_000  # milliseconds after the last event that a run has whose priorities may go round or oscillate


@dataclass(frozen=True)
class Asked:
    """A state that is judged: its number, the plan's bytes and model, and its events as bytes and rows."""

    number: int
    data: bytes
    plan: Plan
    event_text: bytes
    events: tuple[Event, ...]


@dataclass(frozen=True)
class Verdict:
    """A verdict on a state: its number, which one it is, and what it says."""

    number: int
    name: str
    said: dict[str, Any]


@dataclass
class Job:
    """The work on a state: the programs that run for it."""

    asked: Asked
    running: set[int] = field(default_factory=set)
    ranked: threading.Event = field(default_factory=threading.Event)
    over: threading.Event = field(default_factory=threading.Event)  # (there is a newer state)
    has_ring: bool = False
    bound: int | None = None
    gaps: tuple[reports.Gap, ...] | None = None
    left: set[str] = field(default_factory=lambda: set(STRIP))  # the verdicts of the strip that aren't told yet


Tell = Callable[[Verdict], None]
# What a report of a run becomes for the page.
Reader = Callable[[Asked, reports.Report, int], dict[str, Any]]


def no_run(asked: Asked, report: reports.Report, until: int) -> dict[str, Any]:
    """A run without its changes."""
    return {"until": until, "settled": report.is_settled, "stopped": report.stopped_at}


class Pool:
    """The programs that judge states; `tell` is called in a thread of the pool with each verdict on the newest state."""

    def __init__(self, tell: Tell, read: Reader = no_run, workers: int = WORKERS) -> None:
        self.tell = tell
        self.reader = read
        self.threads = ThreadPoolExecutor(workers, "verdicts")
        self.guard = threading.Lock()
        self.job: Job | None = None

    def ask(self, asked: Asked) -> None:
        """Has a state judged; work on any other one ends."""
        job = Job(asked)
        with self.guard:
            before, self.job = self.job, job
        self.stop(before)
        for work in (self.ranked, self.agreed, self.chained, self.protected):
            self.submit(job, work)

    @staticmethod
    def stop(job: Job | None) -> None:
        """Ends the work on a state."""
        if job:
            job.over.set()
        for child in list(job.running) if job else ():
            program.stop(child)

    def end(self) -> None:
        """Ends all work."""
        with self.guard:
            job, self.job = self.job, None
        self.stop(job)
        self.threads.shutdown(wait=True, cancel_futures=True)

    def submit(self, job: Job, work: Callable[[Job], None]) -> None:
        """Has a part of the work on a state done, where it is the newest one still."""
        if self.job is job:
            try:
                self.threads.submit(self.done, job, work)
            except RuntimeError:  # (the pool has ended meanwhile)
                pass

    def done(self, job: Job, work: Callable[[Job], None]) -> None:
        """Does a part of the work on a state."""
        if self.job is not job:
            return
        try:
            work(job)
        except program.Ended as ended:
            self.say(job, LOOP, {"fault": str(ended)})  # (dropped where it was ended for a newer state)
        except (Wrong, program.Absent, program.NoAnswer) as fault:
            self.say(job, LOOP, {"fault": str(fault)})
        finally:
            if work == self.ranked:
                job.ranked.set()
            self.ended(job, work)

    def ended(self, job: Job, work: Callable[[Job], None]) -> None:
        """Begins the run of a state once the verdicts are told that don't take long, and the search for all elements that failures
        cut off after the whole strip, so that it makes no verdict late."""
        names: dict[Callable[[Job], None], str] = {
            self.ranked: LOOP,
            self.agreed: AGREE,
            self.chained: CHAINS,
            self.protected: PROTECTED,
        }
        name = names.get(work)
        if name is None:
            return
        with self.guard:
            job.left.discard(name)
            runs = name != PROTECTED and not job.left - {PROTECTED}
            is_last = not job.left
        if runs:
            self.submit(job, self.ran)
        if is_last and job.gaps is not None:
            self.submit(job, self.cut)

    def say(self, job: Job, name: str, said: dict[str, Any]) -> None:
        """Tells a verdict on a state, where it is the newest one still."""
        with self.guard:
            if self.job is job:
                self.tell(Verdict(job.asked.number, name, said))

    def run(self, job: Job, form: str, *sources: bytes | int) -> Answer:
        """What the program answers to a form."""
        with api.named([source for source in sources if isinstance(source, bytes)]) as paths:
            words = [*paths, *(str(source) for source in sources if isinstance(source, int))]
            return program.run_kept([form, *words], job.running)

    def answered(self, job: Job, form: str) -> Answer | None:
        """What a form answers to the plan; None where the plan is refused, of which `rank` tells."""
        answer = self.run(job, form, job.asked.data)
        return answer if answer.status in reports.GOOD else None

    def ranked(self, job: Job) -> None:
        """Whether a loop is possible; `check` tests the ranks, where there are some."""
        answer = self.answered(job, "rank")
        if answer is None:
            plan_file.taken("the plan", job.asked.data)  # (raises Wrong with the sentence)
            return
        if answer.status == program.REFUTED:
            job.has_ring = True
            self.say(job, LOOP, {"ring": reports.ranking(answer).ring})
        else:
            self.checked(job, answer.text)

    def checked(self, job: Job, certificate: bytes) -> None:
        """Whether `check` takes the ranks that `rank` gave."""
        verdict = reports.verdict(self.run(job, "check", job.asked.data, certificate))
        self.say(job, LOOP, {"accepted": verdict.is_accepted, "falls": verdict.falls})

    def agreed(self, job: Job) -> None:
        """By when the network is at rest, or who may oscillate; and the run of the events, whose end is by that."""
        answer = self.answered(job, "agree")
        if answer is None:
            return
        found = reports.agreement(answer)
        if found.clash is None:
            self.say(job, AGREE, {"bound": found.bound, "failures": found.failures})
        else:
            job.ranked.wait(PATIENCE)
            self.say(job, AGREE, SKIPPED if job.has_ring else self.clash_of(job, found.clash))
        job.bound = found.bound

    @staticmethod
    def clash_of(job: Job, clash: reports.Loop) -> dict[str, Any]:
        """The lines that clash, and what ends that."""
        plan = PlanLines(Document("the plan", job.asked.data))
        return {"clash": clash, "remedy": oscillation.told(plan, clash)}

    def chained(self, job: Job) -> None:
        """The longest chain of timing, and where it ends."""
        answer = self.answered(job, "chains")
        if answer is None:
            return
        if answer.status == program.REFUTED:
            self.say(job, CHAINS, SKIPPED)
            return
        rows = [line.split(",") for line in answer.said.splitlines()[1:]]
        longest = max(rows, key=lambda row: int(row[1]), default=["", "0"])
        since = max((int(row[2]) for row in rows), default=0)
        self.say(job, CHAINS, {"links": int(longest[1]), "since": since, "element": longest[0] or None})

    def protected(self, job: Job) -> None:
        """The failures that cut somebody off although a path remains."""
        answer = self.answered(job, "protected")
        if answer is None:
            return
        rows = job.gaps = reports.gaps(answer).rows
        gaps = [[row.kind, row.failure, row.elements, row.first] for row in rows[:SHOWN]]
        self.say(job, PROTECTED, {"count": len(rows), "gaps": gaps})

    def cut(self, job: Job) -> None:
        """All elements that failures cut off although a path remains, of which `protected` names the first of each failure."""
        if job.over.wait(PAUSE):
            return
        found = cut_off.cut_off(job.asked.plan, job.gaps or (), job.over.is_set)
        self.say(job, CUT, {"elements": found.elements, "failures": found.failures})

    def ran(self, job: Job) -> None:
        """The run of the events, up to the bound after the last of them."""
        last = max((event.at for event in job.asked.events), default=0)
        until = min(ends.whole(last + (WITHOUT_BOUND if job.bound is None else job.bound)), forms.DAY_MS)
        answer = self.run(job, "sim", job.asked.data, job.asked.event_text, until)
        if answer.status not in reports.GOOD:
            self.say(job, RUN, {"fault": f"`sim` refused the events: {answer.said.strip()}"})
            return
        self.say(job, RUN, self.reader(job.asked, reports.report(answer), until))


def events_of(data: bytes) -> tuple[Event, ...]:
    """The rows of an event list that the program took."""
    return simulation.EventFile("the events", data).events
