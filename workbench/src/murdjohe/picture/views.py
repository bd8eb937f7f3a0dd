"""What a picture shows of a plan, with or without a report: levels, what is taken, what is cut, who follows a source, what is closed."""

from __future__ import annotations

from dataclasses import dataclass, field

from murdjohe.answers.reports import Change, Loop, Report
from murdjohe.core import times
from murdjohe.core.faults import unusable
from murdjohe.network import clock_reach, wiring
from murdjohe.network.wiring import Wiring
from murdjohe.picture.group_bands import Painted
from murdjohe.plan.model import Plan, Source
from murdjohe.runs import moments, rehearsals
from murdjohe.runs.moments import Event

DOWN = ("failed", "holdoff")
RING, LOOP, PAIR = "RING", "LOOP", "PAIR"  # the words beside closed walks


@dataclass(frozen=True)
class View:
    """What is drawn.

    `shown` is empty without a report. `unfed` are elements that follow no source, or have no way to one without a report;
    `red` has the word of each line of a closed walk, and of the ring in an answer; `groups` are parts that fail together; `ports` has the
    port into which a line leads.
    """

    network: Plan
    wired: Wiring
    title: str
    shown: dict[str, Change] = field(default_factory=dict)
    unfed: frozenset[str] = frozenset()
    down: frozenset[str] = frozenset()
    waiting: frozenset[str] = frozenset()
    red: dict[str, str] = field(default_factory=dict)
    ranks: dict[str, str] = field(default_factory=dict)
    groups: tuple[Painted, ...] = ()
    ports: dict[str, str] = field(default_factory=dict)

    @property
    def has_report(self) -> bool:
        return bool(self.shown)

    @property
    def has_words(self) -> bool:
        """Whether there is room for more than names."""
        return len(self.wired.elements) <= 80

    def taken(self, element: str) -> str | None:
        """What an element takes, by the report."""
        return self.shown[element].input if element in self.shown else None

    def level_of_source(self, source: Source) -> str:
        """The level that a source gives, where its element takes it, and else that of the plan."""
        at = self.shown.get(source.at)
        return at.level or "" if at and at.input == source.name else source.level


def of_this_plan(path: str, report: Report, wired: Wiring) -> Report:
    """The report, where it is one of the plan. Raises Wrong where it has other elements or inputs."""
    own = set(wired.elements)
    named = {change.element for change in report.changes} | {trace.element for trace in report.traces}
    inputs = {change.input for change in report.changes if change.input} | {row.input for row in report.inputs}
    missing = sorted(name for name in inputs if wired.element_of(name) is None)
    if named - own or missing:
        name = min(named - own, default="") or missing[0]
        raise unusable(f"{path}: it is a report of another plan, since {name} is not in this one")
    if report.traces and tuple(trace.element for trace in report.traces) != wired.elements:
        raise unusable(f"{path}: it is a report of another plan, which has other elements, or in another order")
    if any(wired.element_of(change.input) != change.element for change in report.changes if change.input):
        raise unusable(f"{path}: it is a report of another plan, in which inputs lead to other elements")
    return report


def words_of(wired: Wiring, walks: tuple[Loop, ...]) -> dict[str, str]:
    """The word beside each line of some closed walks."""
    return {line: PAIR if moments.is_pair(wired, walk) else LOOP for walk in walks for line in walk}


def plain_view(title: str, network: Plan) -> View:
    """The plan by itself."""
    unfed = frozenset(clock_reach.without_way(network))
    return View(network, wiring.wiring_of(network), title, unfed=unfed)


def view_of(
    title: str, network: Plan, report: Report, events: tuple[Event, ...], at: int | None, start: int = 0
) -> View:
    """The plan at a millisecond of a report, or at its end. What is cut is told by events, and by the report at its end."""
    wired = wiring.wiring_of(network)
    last = report.changes[-1].at if report.changes else 0
    shown = moments.shown_at(wired, report.changes, last if at is None else at)
    taken = moments.taken_of(shown)
    traces = moments.traces_of(wired, taken)
    unfed = frozenset(name for name, trace in traces.items() if trace.kind != moments.SOURCE)
    cut = moments.cut_at(wired, events, times.DAY if at is None else at)
    ended = report.inputs if at is None else ()
    down = cut.down | {row.input for row in ended if row.condition in DOWN}
    waiting = frozenset(row.input for row in ended if row.condition == "restoring")
    when = (
        f"at {rehearsals.clock(at, start)}"
        if at is not None
        else f"at the end of the run, last change at {rehearsals.clock(last, start)}"
    )
    red = words_of(wired, moments.loops_of(wired, taken))
    return View(network, wired, f"{title}, {when}", shown, unfed, frozenset(down), waiting, red)
