"""All single failures of a plan as a map of cases: each runs alone, and its end is shown, an element a column."""

from __future__ import annotations

import os
from concurrent.futures import ThreadPoolExecutor
from typing import Any

from murdjohe.core.faults import Wrong
from murdjohe.network import wiring
from murdjohe.network.plan_file import PlanFile
from murdjohe.network.wiring import Wiring
from murdjohe.picture import page_data
from murdjohe.runs import ends, failure_times, failures, moments, simulation
from murdjohe.runs.failures import Failure
from murdjohe.runs.simulation import EventFile

MOST_CELLS = page_data.MOST_CELLS


def rows_of(failure: Failure) -> list[list[str]]:
    """The events by which something fails."""
    return [["down", part, ""] for part in failure.down]


def case_of(plan: PlanFile, wired: Wiring, failure: Failure, at: int, until: int) -> dict[str, Any]:
    """A case: what fails, how its network ends, and who has no source then."""
    numbers = page_data.numbers_of(wired, plan.network.option)
    text = simulation.NO_EVENTS.decode() + "".join(f"{at},down,{part},\n" for part in failure.down)
    report = simulation.report_of(plan, EventFile(failure.name, text.encode()), until)
    shown = moments.shown_at(wired, report.changes, until)
    traces = moments.traces_of(wired, moments.taken_of(shown))
    levels = [numbers.levels[shown[name].level or ""] for name in wired.elements]
    fed = [int(traces[name].kind == moments.SOURCE) for name in wired.elements]
    return {
        "kind": failure.kind,
        "name": failure.name,
        "at": at,
        "rows": rows_of(failure),
        "lost": len(fed) - sum(fed),
        "settled": report.is_settled,
        "ended": {"level": levels, "fed": fed},
    }


def cases_of(plan: PlanFile, workers: int | None = None) -> list[dict[str, Any]]:
    """Each single failure, without the events of the desk. Raises Wrong where these are too many for a map."""
    wired = wiring.wiring_of(plan.network)
    found = failures.failures_of(plan.network, failures.KINDS)
    if len(found) * len(wired.elements) > MOST_CELLS:
        raise Wrong(
            f"{len(found):,} failures of {len(wired.elements):,} elements are too many for a map here: save the plan, and let "
            "`murdjohe failures` and `survey` work them"
        )
    bounds = ends.bounds_of(plan)
    at = failure_times.moment(plan, (), bounds).at
    until = failure_times.of_failures(plan, (), at, bounds).until
    with ThreadPoolExecutor(workers or os.cpu_count() or 1) as threads:
        return list(threads.map(lambda one: case_of(plan, wired, one, at, until), found))
