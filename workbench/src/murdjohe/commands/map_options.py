"""What `survey --map` asks for: where the map goes, and what is on it."""

from __future__ import annotations

import os
from typing import Any

from murdjohe.commands import failure_options
from murdjohe.core.faults import Wrong
from murdjohe.network import wiring
from murdjohe.network.plan_file import PlanFile
from murdjohe.picture import bands, case_maps, figures, tiles
from murdjohe.picture.case_maps import CaseMap
from murdjohe.survey import case_runs, workers
from murdjohe.survey.case_lists import CaseList
from murdjohe.survey.tallies import Tally


def can_be_drawn(path: str | None, output: str | None, worst: int) -> None:
    """Raises Wrong where a map is asked for that can't be drawn, or would go where the rows do."""
    if path is None:
        return
    figures.ending_of(path)
    if output is not None and os.path.realpath(path) == os.path.realpath(output):
        raise Wrong(f"-o and --map are one file, {path}: name two")
    if not worst:
        raise Wrong("--worst: 0 cases leave nothing for --map to draw; take 1 or more")


def title_of(taken: PlanFile, cases: CaseList, asked: dict[str, Any], until: int) -> str:
    """The title of the map: the plan, the cases, and when each run ends."""
    what = failure_options.words_of(asked) if cases.rows is None else os.path.basename(cases.name)
    return f"{os.path.basename(taken.name)}, {what}, up to {bands.minutes(until)}"


def mapped(taken: PlanFile, cases: CaseList, tally: Tally, until: int, asked: dict[str, Any]) -> CaseMap:
    """The map of the worst cases, each of which is run once more. Raises Wrong and Disagreement."""
    wired, option, outcomes = wiring.wiring_of(taken.network), taken.plan.option, case_maps.chosen(tally)
    lists = case_runs.event_files(cases, [one.case for one in outcomes])
    found = case_runs.reports_of(taken, lists, until, asked["jobs"] or workers.processors())
    rows = [case_maps.row_of(wired, option, outcome, report) for outcome, report in zip(outcomes, found)]
    return case_maps.map_of(title_of(taken, cases, asked, until), wired, tally, rows)


def drawn(taken: PlanFile, cases: CaseList, tally: Tally, until: int, asked: dict[str, Any]) -> bytes:
    """The picture. Raises Wrong and Disagreement."""
    return tiles.picture(mapped(taken, cases, tally, until, asked), figures.ending_of(asked["map"]))
