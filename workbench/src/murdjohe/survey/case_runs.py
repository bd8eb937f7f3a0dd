"""Some cases of a survey run one by one: their events, found again by the names of the cases, and what `sim` reports of each."""

from __future__ import annotations

import csv
import io
from collections.abc import Sequence
from functools import partial

from murdjohe.answers.reports import Report
from murdjohe.core.faults import Wrong
from murdjohe.network.plan_file import PlanFile
from murdjohe.runs import failures, simulation
from murdjohe.runs.simulation import EventFile
from murdjohe.survey.case_lists import CaseList
from murdjohe.survey.workers import Threads


def own_rows(cases: CaseList, names: Sequence[str]) -> list[bytes]:
    """The rows of each of these cases, as a table has them. Raises Wrong where a case isn't there any more."""
    left, found = set(names), dict[str, bytes]()
    for bunch in cases.each() if left else ():
        for place, name in enumerate(bunch.names if not left.isdisjoint(bunch.names) else ()):
            if name in left:
                found[name] = bunch.table(place, place + 1)[0]
                left.discard(name)
        if not left:
            break
    if left:
        raise Wrong(f"{cases.name}: the case {min(left)!r} isn't there any more; the file was changed meanwhile")
    return [found[name] for name in names]


def event_list(common: bytes, own: bytes) -> bytes:
    """The events of the run of a case, by their times: those that are common to all, and its own behind them in each."""
    rows = csv.reader(io.StringIO((common + own).decode(), newline=""))
    events = sorted((fields for _, *fields in rows), key=lambda fields: int(fields[0]))
    return simulation.NO_EVENTS + failures.lines_of(events).encode()


def event_files(cases: CaseList, names: Sequence[str]) -> list[EventFile]:
    """The events of the run of each of these cases, by the name of the case. Raises Wrong."""
    own = own_rows(cases, names)
    return [EventFile(f"the case {name!r}", event_list(cases.common.data, rows)) for name, rows in zip(names, own)]


def reports_of(plan: PlanFile, lists: Sequence[EventFile], until: int, jobs: int) -> list[Report]:
    """The report of each run, so many of them worked at once. Raises Wrong, core.Absent and core.Ended."""
    threads = Threads(jobs)
    try:
        begun = [threads.begin(partial(simulation.report_of, plan, events, until)) for events in lists]
        return [future.result() for future in begun]
    finally:
        threads.stop()
