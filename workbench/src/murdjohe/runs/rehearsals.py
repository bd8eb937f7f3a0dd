"""Works as they will go: events and changes in one list with clock times, commands that are rejected, pairs and loops, and what
each element goes without."""

from __future__ import annotations

from collections import Counter
from dataclasses import asdict, dataclass, field, replace
from functools import cached_property
from typing import Any

from murdjohe.answers.reports import Change, Loop, Report
from murdjohe.core.times import clock as clock
from murdjohe.core.wording import listed, plural
from murdjohe.network import plan_file, wiring
from murdjohe.network.plan_file import PlanFile
from murdjohe.network.wiring import Wiring
from murdjohe.runs import ends, idle_commands, leftovers, moments, simulation, spans, switches
from murdjohe.runs.ends import seconds
from murdjohe.runs.moments import Event
from murdjohe.runs.simulation import EventFile
from murdjohe.runs.spans import Loss, Walk
from murdjohe.runs.switches import Command

EVENT, CHANGE = "event", "change"
MOST_CHANGES = 10  # of an element between two events that the list has as a person reads it
COLUMNS = ("at", "time", "kind", "name", "what", "input", "level", "state", "mode")


@dataclass(frozen=True)
class Rehearsal:
    """A run that was rehearsed up to `until`; `settled_at` is None where the network isn't settled then.

    `oscillation` says what ends it where the plan's priorities may oscillate, and `idle` why commands that were taken have no
    effect, by their millisecond, word and input; `why` by what the end was chosen, where nobody gave it.
    """

    until: int
    wired: Wiring
    events: tuple[Event, ...]
    late: int
    report: Report
    commands: list[Command]
    walks: list[Walk]
    losses: list[Loss]
    settled_at: int | None
    oscillation: str | None = None
    idle: dict[tuple[int, str, str], str] = field(default_factory=dict)
    why: str | None = None

    @cached_property
    def beyond(self) -> frozenset[str]:
        """The elements that no link could serve at the end."""
        from murdjohe.network import reachability

        rows = [(str(event.at), event.what, event.target) for event in self.events]
        return reachability.beyond(self.wired, rows, self.until)

    @cached_property
    def left(self) -> list[str]:
        """What the works leave behind at the end: what is still down, silent, locked out or under a switch."""
        return leftovers.left(self.wired, self.events, self.commands, self.until)

    @property
    def dark(self) -> dict[str, int | None]:
        """Who follows no source at the end, by the program's traces, and since when; None for whoever never followed one."""
        since = {loss.element: loss.dark_since for loss in self.losses}
        return {one.element: since.get(one.element) for one in self.report.traces if one.kind != moments.SOURCE}

    def hurt(self, limit: int | None) -> list[Loss]:
        """Who is worse at the end than before, and where there is a limit, also who was for longer than that in one piece."""
        return [one for one in self.losses if one.is_open or (limit is not None and one.longest > limit)]

    @property
    def is_stopped(self) -> bool:
        """Whether the program stopped before the end."""
        return self.report.stopped_at is not None

    @property
    def rejected(self) -> list[Command]:
        return [command for command in self.commands if not command.is_taken]

    @property
    def loops(self) -> list[Walk]:
        return [walk for walk in self.walks if not walk.is_pair]

    @property
    def is_smooth(self) -> bool:
        """Whether nothing asks to be looked at again: no command rejected, no timing loop, no event too late, and settled."""
        return not (self.rejected or self.loops or self.late) and self.settled_at is not None


def rehearsed(plan: PlanFile, file: EventFile, until: int) -> Rehearsal:
    """Runs the events by the program, and finds what there is to see. Raises Wrong where the program refuses them."""
    report = simulation.report_of(plan, file, until)
    wired = wiring.wiring_of(plan.network)
    events = tuple(event for event in file.events if event.at <= until)
    end = until if report.stopped_at is None else report.stopped_at
    commands = switches.commands_of(wired, wiring.nominated_of(plan.network), events)
    return Rehearsal(
        end,
        wired,
        events,
        len(file.events) - len(events),
        report,
        commands,
        spans.walks_of(wired, report.changes),
        spans.losses_of(wired, plan.plan.option, report.changes, end),
        simulation.settled_from(plan, file, report, until),
        plan_file.judged(plan).remedy,
        idle_commands.idle_of(plan, file, commands),
    )


def to_rest(plan: PlanFile, file: EventFile) -> Rehearsal:
    """The same up to the first end by which the network is at rest, of those that the bounds of `agree` give. Raises Wrong."""
    endings = ends.of_run(plan, file.events)
    chosen = next((one for one in endings[:-1] if simulation.is_settled(plan, file, one.until)), endings[-1])
    return replace(rehearsed(plan, file, chosen.until), why=chosen.why)


def differs(before: Change, after: Change) -> str:
    """What a change changes, in words."""
    said = []
    if after.input != before.input and after.input is None:
        said.append(f"has lost {before.input}")
    elif after.input != before.input:
        said.append(f"takes {after.input}" + (f" in place of {before.input}" if before.input else ""))
    if after.level != before.level:
        said.append(f"{after.level}, which was {before.level}")
    if after.state != before.state:
        said.append(after.state)
    if after.mode != before.mode:
        said.append(f"mode {after.mode}")
    return ", ".join(said)


def event_text(
    event: Event, rejected: dict[tuple[int, str, str], str], idle: dict[tuple[int, str, str], str] | None = None
) -> str:
    """An event in words, with why it is rejected, or why it has no effect."""
    key = event.at, event.what, event.target
    words = " ".join(word for word in (event.what, event.target, event.value) if word)
    if why := rejected.get(key):
        return f"{words} (rejected: {why})"
    none = (idle or {}).get(key)
    return words + (f" (no effect: {none})" if none else "")


def reasons(found: Rehearsal) -> dict[tuple[int, str, str], str]:
    """Why commands are rejected, by their millisecond, word and input."""
    return {(one.at, one.word, one.input): one.why for one in found.rejected if one.why}


def rows_of(found: Rehearsal) -> list[tuple[int, str, str, str, Change | None]]:
    """Events and changes in one list: time, kind, name, what it is in words, and the change. An event comes before what it does."""
    rows: list[tuple[int, str, str, str, Change | None]] = []
    why = reasons(found)
    for event in found.events:
        rows.append((event.at, EVENT, event.target, event_text(event, why, found.idle), None))
    shown = moments.shown_first(found.wired)
    for change in found.report.changes:
        rows.append((change.at, CHANGE, change.element, differs(shown[change.element], change), change))
        shown[change.element] = change
    return sorted(rows, key=lambda row: (row[0], row[1] == CHANGE))


def table_of(found: Rehearsal, start: int) -> list[tuple[str, ...]]:
    """That list as rows of a table."""
    table: list[tuple[str, ...]] = []
    for at, kind, name, what, change in rows_of(found):
        rest = ("", "", "", "")
        if change is not None:
            rest = (change.input or "none", change.level or "", change.state, change.mode)
        table.append((str(at), clock(at, start), kind, name, what, *rest))
    return table


def more_text(more: Counter[str], last: int, start: int) -> list[str]:
    """How many changes of elements that go on changing aren't listed."""
    if not more:
        return []
    names = listed([f"{name} ({number:,})" for name, number in more.items()])
    return [f"{clock(last, start)}  .. {plural(more.total(), 'change')} more up to here, which --all lists: {names}"]


def list_text(found: Rehearsal, start: int, has_all: bool) -> list[str]:
    """That list as a person reads it. Where not all is wanted, what comes before the first event is counted, and so is what an
    element does after MOST_CHANGES changes in a row without an event."""
    rows = rows_of(found)
    first = found.events[0].at if found.events and not has_all else 0
    early = [row for row in rows if row[0] < first]
    said = []
    if early:
        said.append(f"{clock(early[-1][0], start)}  {plural(len(early), 'change')} up to here, before the first event")
    shown: Counter[str] = Counter()
    more: Counter[str] = Counter()
    last = 0
    for at, kind, name, what, _ in rows[len(early) :]:
        if kind == EVENT:
            beyond = ", not run" if found.is_stopped and at > found.until else ""
            said += [*more_text(more, last, start), f"{clock(at, start)}  * {what}{beyond}"]
            shown.clear()
            more.clear()
        elif shown[name] < MOST_CHANGES or has_all:
            shown[name] += 1
            said.append(f"{clock(at, start)}  {name}: {what}")
        else:
            more[name] += 1
            last = at
    return said + more_text(more, last, start)


def walk_name(found: Rehearsal, walk: Walk) -> str:
    """A pair or a loop by its elements and lines."""
    lines = " ".join(walk.lines)
    if walk.is_pair:
        ends = sorted(found.wired.lines[line].receiver for line in walk.lines)
        return f"pair: {' and '.join(ends)} take timing from each other: {lines}"
    return f"TIMING LOOP: {lines}"


def walk_text(found: Rehearsal, walks: list[Walk], start: int) -> str:
    """One pair or loop, with from when to when it stands; where it comes again and again, how often and how long in all."""
    first, last = walks[0], walks[-1]
    until = "to the end" if last.stop is None else f"to {clock(last.stop, start)}"
    total = sum((found.until if walk.stop is None else walk.stop) - walk.start for walk in walks)
    again = f", {len(walks):,} times, {seconds(total)} in all" if len(walks) > 1 else ""
    return f"{clock(first.start, start)} {until}{again}  {walk_name(found, first)}"


def walks_text(found: Rehearsal, start: int) -> list[str]:
    """All pairs and loops, by when they first stand."""
    its: dict[Loop, list[Walk]] = {}
    for walk in found.walks:
        its.setdefault(walk.lines, []).append(walk)
    said = ["pairs and loops:" if its else "no pair and no loop stands at any time"]
    return said + [f"  {walk_text(found, walks, start)}" for walks in its.values()]


def loss_text(loss: Loss, start: int) -> str:
    """What an element goes without."""
    said = [f"{seconds(loss.below)} below {loss.best}, worst {loss.worst}"] if loss.below else []
    said += [f"{seconds(loss.unfed)} without a source"] if loss.unfed else []
    if loss.dark_since is not None:
        said.append(f"still without one, since {clock(loss.dark_since, start)}")
    elif loss.open_since is not None:
        said.append(f"still below, since {clock(loss.open_since, start)}")
    first = clock(loss.since, start) if loss.since is not None else ""
    return f"  {first}  {loss.element}: {'; '.join(said)}"


def losses_text(found: Rehearsal, start: int) -> list[str]:
    """What elements go without: first what goes on at the end, then what ended."""
    still = [loss for loss in found.losses if loss.is_open]
    over = [loss for loss in found.losses if not loss.is_open and (loss.below or loss.unfed)]
    said = []
    if still:
        stop = ", where the program stopped" if found.is_stopped else ""
        said.append(f"losses that go on at {clock(found.until, start)}{stop}, from when on and how long up to then:")
        said += [loss_text(loss, start) for loss in still]
    if over:
        said.append("losses that ended, from when on and how long in all:")
        said += [loss_text(loss, start) for loss in over]
    return said or ["no element that has a source loses it, or falls below the best level"]


def last_changing(found: Rehearsal) -> list[str]:
    """The elements that changed last in a run that the program stopped, in order of time."""
    last = found.report.changes[-MOST_CHANGES * MOST_CHANGES :]
    return list(dict.fromkeys(change.element for change in last))


def dark_text(found: Rehearsal, start: int) -> str:
    """The first line: who is without a source at the end, since when, and whether a link could still serve them."""
    end = clock(found.until, start)
    if found.is_stopped:
        late = sum(event.at > found.until for event in found.events)
        rest = f"; {plural(late, 'event')} after that {'was' if late == 1 else 'were'} not run" if late else ""
        return (
            f"who is without a source at the end isn't known: the program stopped at {end}, after 200,000 changes, "
            f"the last of them of {listed(last_changing(found))}{rest}"
        )
    if not found.dark:
        return f"no element is without a source at the end, {end}{way_text(found)}"
    names = [f"{name} ({dark_since(found, name, since, start)})" for name, since in found.dark.items()]
    return (
        f"still without a source at the end, {end}: {plural(len(names), 'element')}: {listed(names)}{way_text(found)}"
    )


def way_text(found: Rehearsal) -> str:
    """Who else was without a source on the way, longest first, and for how long at most."""
    was = [loss for loss in found.losses if loss.unfed and loss.element not in found.dark]
    if not was:
        return ""
    was.sort(key=lambda loss: -loss.unfed)
    verb = "was" if len(was) == 1 else "were"
    names = listed([loss.element for loss in was])
    return f"; on the way {plural(len(was), 'element')} {verb}, for {seconds(was[0].unfed)} at most: {names}"


def dark_since(found: Rehearsal, name: str, since: int | None, start: int) -> str:
    """Since when an element is without a source, and whether a link could still serve it."""
    first = "never had one" if since is None else f"since {clock(since, start)}"
    return f"{first}, and no link could serve it" if name in found.beyond else first


def ending_text(found: Rehearsal, start: int) -> list[str]:
    """What is said of the whole: by the program whether it is settled and what stands at its end."""
    said = []
    if found.is_stopped:
        said.append(f"the program stopped at {clock(found.until, start)}: more than 200,000 changes")
    elif found.settled_at is None:
        remedy = "a later end may not help" if found.oscillation else "run longer, by --until"
        said.append(f"not settled at {clock(found.until, start)}: {remedy}")
    else:
        stays = ": who has no source then has none until an event or a command comes" if found.dark else ""
        said.append(f"settled from {clock(found.settled_at, start)} on{stays}")
    if found.why and not found.is_stopped:
        said.append(f"the run ends at {clock(found.until, start)}: {found.why}")
    if found.left:
        where = "where it stopped" if found.is_stopped else "at the end"
        said.append(f"left behind {where}, so that the next failure may hurt more: {listed(found.left)}")
    if found.oscillation:
        said.append(found.oscillation)
    if found.late:
        verb = "has" if found.late == 1 else "have"
        said.append(f"{plural(found.late, 'event')} after {clock(found.until, start)} {verb} no effect")
    return said


def commands_text(found: Rehearsal, start: int) -> list[str]:
    """Which commands are rejected, and which are taken and have no effect."""
    said = ["commands rejected:" if found.rejected else "no command is rejected"]
    said += [f"  {clock(one.at, start)}  {one.word} {one.input}: {one.why}" for one in found.rejected]
    if found.idle:
        said.append("commands that are taken and have no effect:")
    for (at, word, target), why in found.idle.items():
        said.append(f"  {clock(at, start)}  {word} {target}: {why}")
    return said


def text_of(found: Rehearsal, start: int, has_all: bool) -> list[str]:
    """The rehearsal as a person reads it."""
    said = [dark_text(found, start), "", *list_text(found, start, has_all), "", *commands_text(found, start)]
    return said + walks_text(found, start) + losses_text(found, start) + ending_text(found, start)


def as_data(found: Rehearsal, start: int) -> dict[str, Any]:
    """The rehearsal as JSON has it."""
    return {
        "until": found.until,
        "end_by": found.why,
        "settled_from": found.settled_at,
        "stopped_at": found.report.stopped_at,
        "without_source_at_end": [
            {"element": name, "since": since, "no_link_left": name in found.beyond}
            for name, since in found.dark.items()
        ],
        "left_behind": found.left,
        "oscillation": found.oscillation,
        "late_events": found.late,
        "list": [dict(zip(COLUMNS, row)) | {"at": int(row[0])} for row in table_of(found, start)],
        "commands": [
            asdict(one)
            | {"taken": one.is_taken, "no_effect": found.idle.get((one.at, one.word, one.input or one.element))}
            for one in found.commands
        ],
        "walks": [asdict(walk) for walk in found.walks],
        "losses": [asdict(loss) for loss in found.losses],
    }
