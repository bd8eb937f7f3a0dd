"""Why an element takes what it takes in a millisecond: by the program's inspection and report, what each input is, the way up to a
clock, and what led to both.
"""

from __future__ import annotations

import difflib
from collections.abc import Iterator
from dataclasses import dataclass, replace

from murdjohe.answers.inspections import Inspected, Inspection, Reason
from murdjohe.answers.reports import Change, Loop, Report
from murdjohe.core.faults import Wrong
from murdjohe.network import orders, wiring
from murdjohe.network.plan_file import PlanFile
from murdjohe.network.wiring import Line
from murdjohe.runs import idle_commands, moments, simulation, switches
from murdjohe.runs.idle_commands import Idle
from murdjohe.runs.moments import OWN, SOURCE, Event
from murdjohe.runs.simulation import EventFile
from murdjohe.runs.switches import Command
from murdjohe.why import causes
from murdjohe.why.causes import Cause
from murdjohe.why.history import History, Network

NEAREST = 3  # names that are told where there is none of the name that was given
USUAL = 40  # causes that are shown where not all are wanted
AUTO, SWITCHED = "auto", ("forced", "manual")  # modes


@dataclass(frozen=True)
class Since:
    """From when on an element has shown its input, its level and its mode; None where it has from the beginning."""

    input: int | None
    level: int | None
    mode: int | None


@dataclass(frozen=True)
class Way:
    """The lines from an element up to where its timing begins: at a source, at an own clock, or where they go round."""

    lines: tuple[Line, ...]
    kind: str
    name: str
    walk: Loop | None


@dataclass(frozen=True)
class Why:
    """What is to be told of an element in a millisecond. `stopped_at` says where the report ends, if it ends earlier: then
    nothing is told of what was before."""

    at: int
    chosen: Inspected
    inputs: tuple[Reason, ...]
    network: Network
    inspection: Inspection
    history: History
    since: Since
    way: Way
    causes: tuple[Cause, ...]
    is_whole: bool
    stopped_at: int | None

    @property
    def element(self) -> str:
        return self.chosen.element

    def shown(self, element: str) -> Inspected:
        """What the program says of another element in the millisecond."""
        return next(row for row in self.inspection.elements if row.element == element)

    def priority(self, name: str) -> int:
        """The priority of an input of the element."""
        return next(one.priority for one in self.network.orders[self.element].inputs if one.name == name)


def network_of(plan: PlanFile) -> Network:
    """What is asked of a plan that the program took."""
    option = plan.plan.option
    its = {order.element: order for order in orders.orders_of(plan.network)}
    levels = {source.name: source.level for source in plan.network.sources}
    return Network(option, wiring.wiring_of(plan.network), its, levels)


def commands_of(
    network: Network, events: tuple[Event, ...], inspection: Inspection, idle: Idle | None = None
) -> tuple[Command, ...]:
    """Each command with whether it was taken, as the program says, and if not why, by the table of commands; and why it has no
    effect, where it is taken and has none."""
    nominated = frozenset(one.name for order in network.orders.values() for one in order.inputs)
    told = switches.commands_of(network.wired, nominated, events)
    pairs = zip(told, inspection.commands, strict=True)
    return tuple(
        replace(
            one,
            why=None if row.is_taken else one.why or "by the program",
            idle=(idle or {}).get((one.at, one.word, one.input or one.element)),
        )
        for one, row in pairs
    )


def known(network: Network, name: str, plan: str) -> None:
    """Raises Wrong where a name is that of no element."""
    wired = network.wired
    if name in network.orders:
        return
    links = {line.link: line for line in wired.lines.values()}
    what = f"{name!r} is no element of {plan}"
    if name in links:
        raise Wrong(f"{what}, but a link: it joins {links[name].sender} and {links[name].receiver}")
    if name in wired.lines:
        raise Wrong(f"{what}, but a line: it leads into {wired.lines[name].receiver}")
    if name in wired.sources:
        raise Wrong(f"{what}, but a source: it is at {wired.sources[name]}")
    small = {one.lower(): one for one in wired.elements}
    near = difflib.get_close_matches(name.lower(), small, NEAREST, 0.4)
    raise Wrong(what + (f" (nearest: {', '.join(small[one] for one in near)})" if near else ""))


def last_with(history: History, chosen: Inspected, at: int, key: str) -> Change | None:
    """The change by which an element began to show something that it shows in a millisecond; None where it always did."""
    found = None
    for row in reversed(history.rows(chosen.element, 0, at)):
        if getattr(row, key) != getattr(chosen, key):
            return found
        found = row
    first = history.shown(chosen.element, -1)
    return None if getattr(first, key) == getattr(chosen, key) else found


def since_of(history: History, chosen: Inspected, at: int) -> Since:
    """From when on an element has shown what it shows."""
    rows = (last_with(history, chosen, at, key) for key in ("input", "level", "mode"))
    return Since(*(row.at if row else None for row in rows))


def roots_of_element(history: History, row: Inspected, at: int) -> Iterator[Cause]:
    """The changes by which an element took what it takes, by which its level or mode became another since, and by which it was
    switched."""
    taken, level, mode = (last_with(history, row, at, key) for key in ("input", "level", "mode"))
    start = taken.at if taken else -1
    yield from (one for one in (taken, level) if one and one.at >= start)
    if mode and (mode.at >= start or row.mode != AUTO):
        yield mode


def way_of(network: Network, inspection: Inspection, element: str) -> Way:
    """The way from an element up to where its timing begins, by what each element takes."""
    wired = network.wired
    taken = {row.element: row.input for row in inspection.elements if row.input is not None}
    found: list[Line] = []
    met: set[str] = set()
    while element not in met and taken.get(element) in wired.lines:
        met.add(element)
        found.append(wired.lines[taken[element]])
        element = found[-1].sender
    if element in met:
        return Way(tuple(found), moments.LOOP, element, moments.walk_through(wired, taken, element))
    kind, name = (SOURCE, taken[element]) if element in taken else (OWN, element)
    return Way(tuple(found), kind, name, None)


def switch_of(history: History, chosen: Inspected, since: Since) -> Command | None:
    """The command by which an element is switched to an input; None where it selects automatically."""
    found = None
    for one in reversed(history.commands):
        if one.element != chosen.element or not one.is_taken or one.word not in (*SWITCHED, "clear"):
            continue
        if (one.word, one.input) != (chosen.mode, chosen.switched) or (found and one.at < (since.mode or 0)):
            return found
        found = one
    return found


def left_at(history: History, element: str, name: str, at: int) -> Iterator[Cause]:
    """The change in a millisecond by which an element left an input, if it did."""
    yield from (row for row in history.rows(element, at, at) if history.shown(element, at - 1).input == name)


def roots_of_condition(history: History, reason: Reason, at: int) -> Iterator[Cause]:
    """The event since which the signal of an input is as it is, and since when the input has failed."""
    its = history.signals(reason.input)
    flip, turn = its.ups[-1][0] if its.ups else 0, its.last_turn(at)
    yield from its.told(flip, flip, "down", "up")
    if turn and turn.has_failed:
        yield turn
        yield from left_at(history, reason.element, reason.input, turn.at)


def roots_of_verdict(history: History, reason: Reason, at: int) -> Iterator[Cause]:
    """What made an input one that can't be taken, but for its condition; nothing of one that could be."""
    name, its = reason.input, history.signals(reason.input)
    if reason.verdict == "locked-out" and (lockout := causes.lockout_of(history, name)):
        yield lockout
        yield from left_at(history, reason.element, name, lockout.at)
    elif reason.verdict == "silent":
        if silence := causes.silence_of(history, name, at):
            yield silence
        else:
            yield from its.told(0, at, "esmc-off")[-1:]
    elif reason.verdict in ("do-not-use", "below-floor"):
        if name in history.wired.sources:
            yield from its.told(0, at, "level")[-1:]
        elif message := history.heard(name, at):
            yield history.news(message)


def roots_of(history: History, inspection: Inspection, element: str, way: Way, at: int) -> Iterator[Cause]:
    """What is asked after: the changes that made an element and those on its way to a clock what they are, its inputs, and the
    commands to it that were rejected or had no effect."""
    on_way = {element, *(line.sender for line in way.lines)}
    for row in inspection.elements:
        if row.element in on_way:
            yield from roots_of_element(history, row, at)
    for reason in inspection.inputs:
        is_other = reason.element == element and reason.verdict != "taken"
        if reason.condition != "good" and (is_other or (reason.element in on_way and reason.verdict == "taken")):
            yield from roots_of_condition(history, reason, at)
        if is_other:
            yield from roots_of_verdict(history, reason, at)
    yield from (one for one in history.commands if one.element == element and (one.idle or not one.is_taken))


@dataclass(frozen=True)
class Asked:
    """An element, a millisecond, and how many causes are told at most; None where all are."""

    element: str
    at: int
    most: int | None


def why_of(
    network: Network,
    events: tuple[Event, ...],
    inspection: Inspection,
    report: Report,
    asked: Asked,
    idle: Idle | None = None,
) -> Why:
    """What is to be told, by what the program answered. The events are those up to the millisecond."""
    element, at = asked.element, asked.at
    history = History(network, events, commands_of(network, events, inspection, idle), report.changes)
    chosen = next(row for row in inspection.elements if row.element == element)
    way = way_of(network, inspection, element)
    found: list[Cause] = []
    is_whole, since = True, Since(None, None, None)
    if report.stopped_at is None:
        since = since_of(history, chosen, at)
        found, is_whole = causes.walked(history, roots_of(history, inspection, element, way, at), asked.most)
    inputs = tuple(reason for reason in inspection.inputs if reason.element == element)
    told = (history, since, way, tuple(found), is_whole, report.stopped_at)
    return Why(at, chosen, inputs, network, inspection, *told)


def answered(plan: PlanFile, file: EventFile, asked: Asked) -> Why:
    """Runs the program, and finds what is to be told. Raises Wrong where it refuses the events, or there is no such element."""
    network = network_of(plan)
    known(network, asked.element, plan.name)
    report = simulation.report_of(plan, file, asked.at)
    inspection = simulation.inspection_of(plan, file, asked.at)
    events = tuple(event for event in file.events if event.at <= asked.at)
    nominated = frozenset(one.name for order in network.orders.values() for one in order.inputs)
    own = [one for one in switches.commands_of(network.wired, nominated, events) if one.element == asked.element]
    return why_of(network, events, inspection, report, asked, idle_commands.idle_of(plan, file, own))
