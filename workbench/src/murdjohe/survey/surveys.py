"""A survey as a whole, for the command and for scripts: its cases are worked, counted, and told as one answer."""

from __future__ import annotations

import tempfile
import time
from contextlib import closing
from dataclasses import dataclass
from functools import partial
from typing import Protocol

from murdjohe.answers.studies import Case
from murdjohe.core.faults import Wrong
from murdjohe.core.program import Late
from murdjohe.network import groups, wiring
from murdjohe.network.plan_file import PlanFile
from murdjohe.runs import ends, failure_times, failures, moments, simulation
from murdjohe.runs.ends import Ending
from murdjohe.runs.failures import KINDS, LINKS
from murdjohe.runs.moments import Event
from murdjohe.runs.simulation import EventFile
from murdjohe.survey import case_files, case_lists, case_refusals, portions, study_runs, workers
from murdjohe.survey.case_lists import CaseList
from murdjohe.survey.needless_losses import Loss, Losses
from murdjohe.survey.part_store import Finished
from murdjohe.survey.survey_report import Alone, Ends
from murdjohe.survey.tallies import Tally
from murdjohe.survey.workers import Here, Survey


class Sink(Protocol):
    """What rows are written to, also as they are packed already."""

    def write(self, data: bytes, packed: bytes | None = None) -> None:
        ...


@dataclass(frozen=True)
class Wish:
    """Which cases of a plan are worked, with which common events, when what fails goes down and when runs end, how many of the worst
    are told, by how many programs at once, and in which folder parts are kept: one for the moment without a name."""

    table: str | None = None
    kinds: tuple[str, ...] = (LINKS,)
    pairs: bool = False
    groups: str | None = None
    during: str | None = None
    at: int | None = None
    until: int | None = None
    start: int | None = None
    worst: int = 10
    jobs: int | None = None
    parts: str | None = None


@dataclass(frozen=True)
class Surveyed:
    """What a network has come to in each of many cases: how many there are, how many leave elements without a source, which of these
    needn't be, are unsettled, have loops or make levels worse on the way or still at the end; the worst by each measure; and in how
    many cases an element is the first without a source. `at` is when what fails goes down, of failures that were asked for;
    `common_later` is how many of the events common to all cases come after the end, and aren't run.
    """

    at: int | None
    until: int
    end_by: str | None
    cases: int
    losing: int
    needless: int
    unsettled: int
    looping: int
    hurting: int
    still: int
    common_alone: tuple[str, ...] | None
    common_later: int
    lost: tuple[Case, ...]
    worst_needless: tuple[Loss, ...]
    restless: tuple[Case, ...]
    dark: tuple[Case, ...]
    chains: tuple[Case, ...]
    first: dict[str, int]


def gone_through(
    cases: CaseList, survey: Survey, size: int, most: int, file: Sink | None, losses: Losses, end: float | None = None
) -> Tally:
    """Has all cases worked: their rows are counted, and written where there is a file for them. Raises Wrong, and Late where an end
    by the clock of this machine has come."""
    tally = Tally(most)
    if file:
        file.write(study_runs.BEGIN)
    with closing(survey.rows(portions.parts_of(cases, size))) as found:
        for rows in found:
            if end is not None and time.monotonic() >= end:
                raise Late(
                    f"the survey took longer than it was given: {tally.cases:,} of {cases.total:,} cases are worked"
                )
            if file:
                file.write(rows.data, rows.packed)
            if survey.part is not None:
                losses.add(survey.part, rows, tally.cases)
            tally.add_all(rows.names, rows.tails)
    return tally


def works_alone(taken: PlanFile, common: tuple[Event, ...], until: int) -> Alone | None:
    """What the events common to all cases do alone; None where there are none."""
    if not common:
        return None
    later = tuple(event for event in common if event.at > until)
    rows = failures.lines_of((event.at, event.what, event.target, event.value) for event in common)
    report = simulation.report_of(taken, EventFile("the common events", simulation.NO_EVENTS + rows.encode()), until)
    if report.stopped_at is not None:
        return Alone(None, False, later)
    return Alone(
        [trace.element for trace in report.traces if trace.kind != moments.SOURCE], report.is_settled is True, later
    )


def lost_alone(alone: Alone | None) -> int | None:
    """How many elements the common events alone leave without a source, where that is known."""
    return None if alone is None or alone.lost is None else len(alone.lost)


@dataclass(frozen=True)
class Asked:
    """Cases, the events common to them, when what fails goes down, and when their runs end."""

    cases: CaseList
    common: tuple[Event, ...]
    at: int | None
    end: Ending


def of_table(taken: PlanFile, wish: Wish, table: str) -> Asked:
    """The cases of a table. Raises Wrong."""
    if wish.pairs or wish.groups or wish.during or wish.at is not None or wish.kinds != (LINKS,):
        raise Wrong(f"{table} has the cases: leave out which failures are worked, and when")
    cases = case_files.CaseFile(table, wish.start).listed((1, None))
    if wish.until is not None:
        return Asked(cases, (), None, Ending(wish.until, None))
    return Asked(cases, (), None, ends.ending(taken, cases.told, ends.bounds_of(taken)))


def of_failures(taken: PlanFile, wish: Wish) -> Asked:
    """The failures that are asked for. Raises Wrong."""
    if unknown := [kind for kind in wish.kinds if kind not in KINDS]:
        raise Wrong(f"{unknown[0]!r} is no kind of failures: these are {', '.join(KINDS)}")
    table = groups.read(wish.groups, taken).groups if wish.groups else ()
    found = failures.failures_of(taken.network, list(wish.kinds)) + failures.of_groups(table, taken.network)
    file = simulation.read_events(wish.during, wish.start) if wish.during else None
    if file is not None:
        simulation.report_of(taken, file, 0)  # (so that events that can't be read are told)
    common = file.events if file else ()
    bounds = ends.bounds_of(taken)
    at = failure_times.moment(taken, common, bounds).at if wish.at is None else wish.at
    if wish.until is not None and wish.until < at:
        raise Wrong(f"until: {wish.until:,} ms is before what fails goes down, at {at:,} ms")
    end = failure_times.of_failures(taken, common, at, bounds) if wish.until is None else Ending(wish.until, None)
    return Asked(case_lists.of_failures(taken.network, found, wish.pairs, at, common, (1, None)), common, at, end)


def surveyed(taken: PlanFile, wish: Wish, timeout: float | None = None) -> Surveyed:
    """Has the cases worked here, and counts what comes of them. Raises Wrong, and Late after so many seconds: parts that are
    finished by then stay in their folder, where that has a name."""
    asked = of_table(taken, wish, wish.table) if wish.table is not None else of_failures(taken, wish)
    until, wired = asked.end.until, wiring.wiring_of(taken.network)
    alone = works_alone(taken, asked.common, until)
    losses = Losses(wired, until, wish.worst, lost_alone(alone))
    stop = None if timeout is None else time.monotonic() + timeout
    with tempfile.TemporaryDirectory(prefix="murdjohe-parts-") as folder:
        finished = Finished(wish.parts or folder, taken.data, until, study_runs.core_sum())
        crew = Here(taken.data, until, wish.jobs or workers.processors())
        survey = Survey(crew, finished, partial(case_refusals.refused, asked.cases, taken.plan), lambda count: None)
        size = portions.usual(asked.cases.total, len(wired.elements))
        tally = gone_through(asked.cases, survey, size, wish.worst, None, losses, stop)
    return of_tally(asked.at, tally, Ends(until, wish.start, alone, losses, asked.end.why))


def of_tally(at: int | None, tally: Tally, its: Ends) -> Surveyed:
    """What was counted, as one answer."""
    return Surveyed(
        at=at,
        until=its.until,
        end_by=its.why,
        cases=tally.cases,
        losing=tally.losing,
        needless=its.losses.cases,
        unsettled=tally.unsettled,
        looping=tally.looping,
        hurting=tally.hurting,
        still=tally.still,
        common_alone=None if its.alone is None or its.alone.lost is None else tuple(its.alone.lost),
        common_later=len(its.alone.later) if its.alone else 0,
        lost=tuple(tally.lost.outcomes()),
        worst_needless=tuple(its.losses.outcomes()),
        restless=tuple(tally.restless.outcomes()),
        dark=tuple(tally.dark.outcomes()),
        chains=tuple(tally.chains.outcomes()),
        first=dict(tally.first.most_common()),
    )
