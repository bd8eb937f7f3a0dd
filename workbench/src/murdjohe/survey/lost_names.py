"""Who has no source at the end of a case, all of them by name and by why; each such case is run once more by `sim`, since a row of a
survey names the first alone."""

from __future__ import annotations

import csv
from collections.abc import Sequence
from dataclasses import dataclass

from murdjohe.answers.reports import Report
from murdjohe.answers.studies import Case
from murdjohe.network import reachability
from murdjohe.network.plan_file import PlanFile
from murdjohe.network.reachability import Reach
from murdjohe.network.wiring import Wiring
from murdjohe.runs import moments
from murdjohe.runs.simulation import EventFile
from murdjohe.survey import case_runs
from murdjohe.survey.case_lists import CaseList

WHY = ("a link could still serve", "no link could still serve", "taken away")


@dataclass(frozen=True)
class Names:
    """Who has no source at the end of a case: those whom a link could still serve, those whom none could, and those that are taken
    away themselves; nobody is known where `sim` stopped the run before."""

    case: str
    needless: tuple[str, ...]
    beyond: tuple[str, ...]
    themselves: tuple[str, ...]
    is_known: bool = True

    @property
    def each(self) -> list[tuple[str, tuple[str, ...]]]:
        """The names by why, those that could be helped first."""
        return [pair for pair in zip(WHY, (self.needless, self.beyond, self.themselves)) if pair[1]]


def names_of(wired: Wiring, reach: Reach, case: str, report: Report, down: frozenset[str]) -> Names:
    """Who has no source at the end of the run of a case in which these lines and sources are down then."""
    if report.stopped_at is not None:
        return Names(case, (), (), (), False)
    alone, left = reach.apart(down)
    lost = [trace.element for trace in report.traces if trace.kind != moments.SOURCE]
    return Names(
        case,
        tuple(name for name in lost if name not in left),
        tuple(name for name in lost if name in left and name not in alone),
        tuple(name for name in lost if name in alone),
    )


def rows_of(events: EventFile) -> list[list[str]]:
    """The events of a run as time, word and target."""
    rows = csv.reader(events.data.decode().splitlines()[1:])
    return [row[:3] for row in rows]


def of_cases(
    plan: PlanFile, wired: Wiring, cases: CaseList, worst: Sequence[Case], until: int, jobs: int
) -> list[Names]:
    """Who has no source at the end of each of these cases. Raises Wrong, core.Absent and core.Ended."""
    lists, reach = case_runs.event_files(cases, [case.case for case in worst]), Reach(wired)
    found = case_runs.reports_of(plan, lists, until, jobs)
    downs = [reachability.down_at_end(wired, rows_of(events), until) for events in lists]
    return [names_of(wired, reach, case.case, report, down) for case, report, down in zip(worst, found, downs)]
