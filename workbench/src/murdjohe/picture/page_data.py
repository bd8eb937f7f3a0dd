"""What the page of a run knows, as JSON within it: the network with its places, changes in columns, events, losses, and cases."""

from __future__ import annotations

import os
from collections.abc import Iterable
from concurrent.futures import ThreadPoolExecutor
from dataclasses import dataclass
from typing import Any

from murdjohe.answers import api, reports
from murdjohe.answers.reports import Change, Cut
from murdjohe.core import row_tables
from murdjohe.core.faults import Wrong
from murdjohe.core.levels import LEVELS
from murdjohe.network import wiring
from murdjohe.network.plan_file import PlanFile
from murdjohe.network.reachability import Reach
from murdjohe.network.wiring import Wiring
from murdjohe.picture import colours, places, worst
from murdjohe.picture.places import ELEMENT, SOURCE, Layout
from murdjohe.plan.model import Source
from murdjohe.runs import ends, failure_times, failures, moments, simulation
from murdjohe.runs.moments import Event
from murdjohe.runs.rehearsals import Rehearsal, event_text, reasons
from murdjohe.runs.simulation import EventFile
from murdjohe.runs.spans import Loss
from murdjohe.survey import survey_report
from murdjohe.survey.tallies import Tally

MODES = {word: place for place, word in enumerate(row_tables.CHANGES.column("mode").words)}
STATES = {word: place for place, word in enumerate(row_tables.CHANGES.column("state").words)}
SIGNS = {"loop": colours.LOOP, "pair": colours.PAIR, "dark": colours.DARK, "grey": colours.GREY, "pale": colours.PALE}
MOST_CELLS = 200_000  # elements of all cases together
HEADS = ("link", "settled", "locked", "holdover", "free-running", "loops", "worst", "no source", "another way left")


@dataclass(frozen=True)
class CutTimes:
    """When a link goes down in a case, when the network is looked at, and why then."""

    at: int
    until: int
    why: str


@dataclass(frozen=True)
class Cases:
    """Each link down alone, when, and what that costs on the way to the end."""

    times: CutTimes
    rows: list[dict[str, Any]]
    way: str


@dataclass(frozen=True)
class Numbers:
    """The numbers under which the page knows elements, inputs (lines, then sources) and levels."""

    elements: dict[str, int]
    inputs: dict[str, int]
    levels: dict[str, int]


def numbers_of(wired: Wiring, option: str) -> Numbers:
    """The numbers of a plan's things."""

    def numbered(names: Any) -> dict[str, int]:
        return {name: place for place, name in enumerate(names)}

    return Numbers(numbered(wired.elements), numbered([*wired.lines, *wired.sources]), numbered(LEVELS[option]))


def columns_of(numbers: Numbers, changes: tuple[Change, ...]) -> dict[str, list[int]]:
    """Changes as columns of numbers."""
    return {
        "at": [change.at for change in changes],
        "element": [numbers.elements[change.element] for change in changes],
        "mode": [MODES[change.mode] for change in changes],
        "input": [-1 if change.input is None else numbers.inputs[change.input] for change in changes],
        "level": [numbers.levels[change.level or ""] for change in changes],
        "state": [STATES[change.state] for change in changes],
    }


def spot(layout: Layout, kind: str, name: str) -> dict[str, float]:
    """Where a thing stands, to a hundredth of an inch."""
    x, y = layout.spots[kind, name]
    return {"x": round(x, 2), "y": round(y, 2)}


def way_of(layout: Layout, sender: str, receiver: str) -> list[list[float]]:
    """The points of a line that goes beside a box, to a hundredth of an inch; none where it is straight."""
    found = layout.way((ELEMENT, sender), (ELEMENT, receiver))
    return [[round(x, 2), round(y, 2)] for x, y in found or ()]


def levels_of(option: str, used: set[str]) -> list[dict[str, Any]]:
    """The levels of an option, best first, with their colours."""
    found = []
    for name in LEVELS[option]:
        colour = colours.of_level(name)
        found.append({"name": name, "colour": colour, "ink": colours.ink(colour), "isUsed": name in used})
    return found


def lines_of(wired: Wiring, numbers: Numbers) -> list[dict[str, Any]]:
    """The lines."""
    bundles = {bundle: place for place, bundle in enumerate(dict.fromkeys(one.bundle for one in wired.lines.values()))}
    found: list[dict[str, Any]] = []
    for line in wired.lines.values():
        ends = {"sender": numbers.elements[line.sender], "receiver": numbers.elements[line.receiver]}
        bundle = {"bundle": bundles[line.bundle], "bundleName": line.bundle[1]}
        found.append({"name": line.name, "link": line.link, **ends, "priority": line.priority, **bundle})
    return found


def source_of(row: Source, numbers: Numbers) -> dict[str, Any]:
    """A source."""
    return row._asdict() | {"at": numbers.elements[row.at], "level": numbers.levels[row.level]}


def network_of(plan: PlanFile, wired: Wiring, layout: Layout, used: set[str]) -> dict[str, Any]:
    """The network: elements, lines and sources with their places."""
    numbers = numbers_of(wired, plan.plan.option)
    elements = [
        {"name": name, "own": numbers.levels[wired.own[name]], **spot(layout, ELEMENT, name)} for name in wired.elements
    ]
    lines = lines_of(wired, numbers)
    sources = [source_of(row, numbers) | spot(layout, SOURCE, row.name) for row in plan.network.sources]
    ways = [way_of(layout, line.sender, line.receiver) for line in wired.lines.values()]
    for row, way in zip(lines, ways):
        row |= {"way": way} if way else {}
    size = {"width": round(layout.width, 2), "height": round(layout.height, 2), "box": places.BOX}
    scale = round(places.room_of(list(layout.spots.values())), 4)
    rows = {"elements": elements, "lines": lines, "sources": sources}
    return {**rows, **size, "scale": scale, "levels": levels_of(plan.plan.option, used), "signs": SIGNS}


def events_of(wired: Wiring, numbers: Numbers, events: tuple[Event, ...], why: dict[Any, str]) -> list[dict[str, Any]]:
    """Events with what they are in words, and the inputs that they are of."""
    found = []
    for event in events:
        names = wired.lines_of(event.target) or (event.target,)
        inputs = [] if event.what == "clear" else [numbers.inputs[name] for name in names]
        text, reason = event_text(event, why), why.get((event.at, event.what, event.target))
        found.append({"at": event.at, "what": event.what, "inputs": inputs, "text": text, "why": reason})
    return found


def cut_times(plan: PlanFile) -> CutTimes:
    """When links go down, and when that is seen, by the bounds of `agree`, as `sweep` has them by itself."""
    bounds = ends.bounds_of(plan)
    at = failure_times.moment(plan, (), bounds).at
    end = failure_times.of_failures(plan, (), at, bounds)
    return CutTimes(at, end.until, end.why or "given")


def ended(wired: Wiring, numbers: Numbers, changes: tuple[Change, ...], until: int) -> dict[str, list[int]]:
    """The level of each element at the end of a run, and whether it follows a source."""
    shown = moments.shown_at(wired, changes, until)
    traces = moments.traces_of(wired, moments.taken_of(shown))
    levels = [numbers.levels[shown[name].level or ""] for name in wired.elements]
    return {"level": levels, "fed": [int(traces[name].kind == moments.SOURCE) for name in wired.elements]}


def lost_of(wired: Wiring, reach: Reach, cut: Cut, fed: list[int]) -> tuple[int, int]:
    """How many elements have no source at the end of a cut, and how many of these a link could still serve."""
    lost = {name for name, is_fed in zip(wired.elements, fed) if not is_fed}
    left = reach.apart(frozenset(wired.lines_of(cut.link)))[1] if lost else frozenset()
    return len(lost), len(lost - left)


def case_of(plan: PlanFile, wired: Wiring, reach: Reach, times: CutTimes, cut: Cut) -> dict[str, Any]:
    """The run in which one link goes down alone, with its row of `sweep`, who has no source, and who needn't be without."""
    numbers = numbers_of(wired, plan.plan.option)
    events = (Event(times.at, "down", cut.link, ""),)
    file = EventFile(cut.link, simulation.NO_EVENTS + f"{times.at},down,{cut.link},\n".encode())
    report = simulation.report_of(plan, file, times.until)
    its_end = ended(wired, numbers, report.changes, times.until)
    row = ["yes" if cut.is_settled else "no", cut.locked, cut.holdover, cut.freerun, cut.loops, cut.worst]
    row += lost_of(wired, reach, cut, its_end["fed"])
    return {
        "name": cut.link,
        "row": [str(field) for field in row],
        "until": times.until,
        "events": events_of(wired, numbers, events, {}),
        "changes": columns_of(numbers, report.changes),
        "ended": its_end,
    }


def way_of_cuts(plan: PlanFile, times: CutTimes, links: Iterable[str]) -> str:
    """In how many cuts levels are worse on the way to the end, and for how long at most."""
    table = failures.lines_of([failures.COLUMNS, *((link, times.at, "down", link, "") for link in links)])
    tally = Tally(1)
    for row in api.study(plan.data, table.encode(), times.until).result.rows:
        tally.add(row)
    return survey_report.way_text(tally)


def cases_of(plan: PlanFile) -> Cases:
    """Each link down alone, worked at once on all processors. Raises Wrong where these are too many for a page."""
    wired, links = wiring.wiring_of(plan.network), len(plan.network.links)
    if links * len(wired.elements) > MOST_CELLS:
        raise Wrong(
            f"--cuts: {links:,} links and {len(wired.elements):,} elements are too many for a page; see `sweep`"
        )
    times = cut_times(plan)
    sweep: reports.Sweep = api.sweep(plan.data, times.at, times.until).result
    reach = Reach(wired)
    with ThreadPoolExecutor(os.cpu_count() or 1) as workers:
        rows = workers.map(lambda cut: case_of(plan, wired, reach, times, cut), sweep.rows)
        return Cases(times, list(rows), way_of_cuts(plan, times, [cut.link for cut in sweep.rows]))


def losing_cases(cases: list[dict[str, Any]]) -> tuple[int, int]:
    """How many cases leave somebody without a source whom a link could still serve, and how many only others."""
    lost = [(int(case["row"][-2]), int(case["row"][-1])) for case in cases]
    return sum(needless > 0 for _, needless in lost), sum(all_lost > 0 and not needless for all_lost, needless in lost)


def losses_of(losses: list[Loss]) -> list[dict[str, Any]]:
    """What each element went without, and when first."""
    keys = ("best", "below", "worst", "unfed", "since")
    return [{key: getattr(loss, key) for key in keys} for loss in losses]


def data_of(
    plan: PlanFile, found: Rehearsal, layout: Layout, start: int, title: str, cases: Cases | None = None
) -> dict[str, Any]:
    """All that the page knows."""
    wired = wiring.wiring_of(plan.network)
    numbers = numbers_of(wired, plan.plan.option)
    used = {change.level or "" for change in found.report.changes} | set(wired.own.values())
    used |= {row.level for row in plan.network.sources}
    times = sorted({0, found.until, *(change.at for change in found.report.changes), *(one.at for one in found.events)})
    return {
        "title": title,
        "start": start,
        "until": found.until,
        "first": times.index(found.events[0].at) if found.events else len(times) - 1,
        "network": network_of(plan, wired, layout, used),
        "changes": columns_of(numbers, found.report.changes),
        "events": events_of(wired, numbers, found.events, reasons(found)),
        "summary": worst.summary_of(found, start),
        "losses": losses_of(found.losses),
        "cases": cases.rows if cases else [],
    }
