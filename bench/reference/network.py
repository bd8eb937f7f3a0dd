"""The network over time for the reference: it goes through every millisecond, keeps them all, and looks back."""

import bisect
from collections.abc import Iterable, Sequence
from typing import Self, TypeVar

from bench.levels import LEVELS
from bench.reference.element import Command, Element
from bench.reference.plan import Event, Plan

T = TypeVar("T")
HEARD_FOR = 5000  # for how many milliseconds a message counts
REPEAT = 1000  # a line that speaks repeats its level at the milliseconds that this divides


def last_said(said: Sequence[tuple[int, T]], first: T, start: int, end: int) -> list[T]:
    """For each millisecond from start to before end the last value said at or before it, in list order; else first.

    `said` is a list of (at, value) in order of time.
    """
    before = [value for at, value in said if at < start]
    values = [before[-1] if before else first] * (end - start)
    for at, value in said:
        if start <= at < end:
            values[at - start :] = [value] * (end - at)
    return values


class Network:
    """A plan under a list of events. All that is kept is a list by millisecond, for each nominated input or element.

    By input number: `up`, `failed`, `input_level` (what a line has heard, or a source has); by line: `speaks`, `out`
    (the level that it is given by its sender) and `is_sent`; by element: `taken`, `level`, `mode` and `state`. Beside
    these it counts along, for each line, when messages were sent and when the last one arrived.
    """

    def __init__(self, plan: Plan, events: list[Event]) -> None:
        self.plan, self.events, self.length = plan, events, 0
        self.events_at: dict[int, list[Event]] = {}
        for event in events:
            self.events_at.setdefault(event.at, []).append(event)
        self.worst = LEVELS[plan.option][-1]
        lines, elements = plan.nominated_lines, range(len(plan.elements))
        self.up: dict[int, list[bool]] = {i: [] for i in plan.nominated}
        self.failed: dict[int, list[bool]] = {i: [] for i in plan.nominated}
        self.input_level: dict[int, list[str | None]] = {i: [] for i in plan.nominated}
        self.speaks: dict[int, list[bool]] = {line: [] for line in lines}
        self.out: dict[int, list[str]] = {line: [] for line in lines}
        self.is_sent: dict[int, list[bool]] = {line: [] for line in lines}
        self.sent_times: dict[int, list[int]] = {line: [] for line in lines}
        self.last_arrival: dict[int, int | None] = {line: None for line in lines}
        self.taken: list[list[int | None]] = [[] for _ in elements]
        self.level: list[list[str]] = [[] for _ in elements]
        self.mode: list[list[str]] = [[] for _ in elements]
        self.state: list[list[str]] = [[] for _ in elements]
        self.elements = [self.new_element(e) for e in elements]

    def new_element(self, e: int) -> Element:
        """The element before 0: every input is up, and no line has heard anything."""
        row, plan = self.plan.elements[e], self.plan
        inputs = [(plan.priority_of[i], None, plan.bundle_of[i] if plan.is_line(i) else i) for i in plan.inputs_of[e]]
        return Element(plan.option, row.own, row.floor, row.holdoff, row.wtr, inputs)

    def go_to(self, until: int) -> Self:
        """Go through the milliseconds up to this one."""
        start, self.length = self.length, max(self.length, until + 1)
        for i in self.plan.nominated:
            self.up[i] += last_said(self.said_of(i, "up", "down"), True, start, self.length)
            if self.plan.is_line(i):
                esmc = last_said(self.said_of(i, "esmc-on", "esmc-off"), True, start, self.length)
                self.speaks[i] += [up and on for up, on in zip(self.up[i][start:], esmc)]
            else:
                self.take_source_levels(i, start)
        for t in range(start, self.length):
            self.pass_millisecond(t)
        return self

    def said_of(self, i: int, yes: str, no: str) -> list[tuple[int, bool]]:
        """When one of two words is said of an input, by an event on it or on its link, and whether it is `yes`."""
        named = [event for event in self.events if i in self.plan.named(event.target)]
        return [(event.at, event.what == yes) for event in named if event.what in (yes, no)]

    def take_source_levels(self, i: int, start: int) -> None:
        """A source that is down keeps the level that it last had while up, or had by the plan."""
        first = self.plan.source(i).level
        said = [(e.at, e.level) for e in self.events if e.what == "level" and i in self.plan.named(e.target)]
        kept = self.input_level[i][-1] if start > 0 else first
        for up, level in zip(self.up[i][start:], last_said(said, first, start, self.length)):
            kept = level if up else kept
            self.input_level[i].append(kept)

    def pass_millisecond(self, t: int) -> None:
        """Messages arrive, then each element chooses, then lines send."""
        for line in self.plan.nominated_lines:
            self.input_level[line].append(self.heard(line, t))
        for e in range(len(self.elements)):
            self.evaluate(e, t)
        for line in self.plan.nominated_lines:
            self.send(line, t)

    def arrives(self, line: int, t: int) -> bool:
        """A message that was sent a delay ago arrives where the line was up all the way."""
        sent = t - self.plan.delay_of[line]
        return sent >= 0 and self.is_sent[line][sent] and all(self.up[line][sent : t + 1])

    def heard(self, line: int, t: int) -> str | None:
        """The level of the message that arrived last, while it counts."""
        if self.arrives(line, t):
            self.last_arrival[line] = t
        last = self.last_arrival[line]
        return None if last is None or last <= t - HEARD_FOR else self.out[line][last - self.plan.delay_of[line]]

    def evaluate(self, e: int, t: int) -> None:
        """What an element takes, and what follows from it."""
        element, inputs = self.elements[e], self.plan.inputs_of[e]
        ups = [self.up[i][t] for i in inputs]
        cleared, commands = self.commands_at(e, t)
        for place, i in enumerate(inputs):
            element.inputs[place].level = self.input_level[i][t]
        element.evaluate(ups, cleared, commands)
        for place, i in enumerate(inputs):
            self.failed[i].append(element.inputs[place].failed)
        self.taken[e].append(None if element.taken is None else inputs[element.taken])
        self.level[e].append(element.level())
        self.mode[e].append(element.mode())
        self.state[e].append(element.state())

    def commands_at(self, e: int, t: int) -> tuple[list[int], list[Command]]:
        """Which inputs' wait-to-restore is cleared, and the commands in order; those on other inputs are nothing."""
        inputs, cleared = self.plan.inputs_of[e], list[int]()
        commands: list[Command] = []
        for event in self.events_at.get(t, []):
            places = [inputs.index(i) for i in self.plan.named(event.target) if i in inputs]
            if event.what == "clear-wtr":
                cleared += places
            elif event.what in ("lockout", "unlock", "forced", "manual"):
                commands += [(event.what, place) for place in places]
            elif event.what == "clear" and event.target[1] == e:
                commands.append(("clear", None))
        return cleared, commands

    def send(self, line: int, t: int) -> None:
        """A line is given its sender's level, or do-not-use; while it speaks it sends news, and repeats."""
        sender = self.plan.sender_of[line]
        self.out[line].append(self.worst if self.is_way_back(line, self.taken[sender][t]) else self.level[sender][t])
        sent = self.speaks[line][t] and (t % REPEAT == 0 or self.is_news(line, t))
        self.is_sent[line].append(sent)
        if sent:
            self.sent_times[line].append(t)

    def is_way_back(self, line: int, taken: int | None) -> bool:
        """The sender takes a line of this line's bundle."""
        return taken is not None and self.plan.is_line(taken) and self.plan.goes_back(taken, line)

    def is_news(self, line: int, t: int) -> bool:
        """What a line says is news at first, after a silence, and where it says another level than before."""
        return t == 0 or not self.speaks[line][t - 1] or self.out[line][t] != self.out[line][t - 1]

    # ---- what holds at a millisecond that was gone through

    def on_way(self, line: int, t: int) -> list[int]:
        """When the messages were sent that are on their way: not yet arrived, and the line up ever since."""
        times = self.sent_times[line]
        first = bisect.bisect_right(times, t - self.plan.delay_of[line])
        sent = times[first : bisect.bisect_right(times, t)]
        return [s for s in sent if all(self.up[line][s : t + 1])]

    def settled_parts(self, t: int, news_alone: bool = False) -> dict[str, bool]:
        """The parts of being settled, by name, and whether each holds; of messages all count, or news alone."""
        inputs, lines = self.plan.nominated, [line for line in self.plan.nominated_lines if self.up[line][t]]
        silent = [line for line in lines if not self.speaks[line][t]]
        heard = {line: self.input_level[line][t] for line in lines}
        on_way = {line: [s for s in self.on_way(line, t) if not news_alone or self.is_news(line, s)] for line in lines}
        return {
            "each input is good or failed": all(self.up[i][t] != self.failed[i][t] for i in inputs),
            "messages on their way are heard already": all(
                self.out[line][s] == heard[line] for line in lines for s in on_way[line]
            ),
            "lines that speak are heard": all(heard[line] is not None for line in lines if line not in silent),
            "silent lines aren't heard": all(heard[line] is None for line in silent),
            "nothing is on its way on silent lines": not any(on_way[line] for line in silent),
        }

    def is_settled(self, t: int) -> bool:
        """All parts of being settled hold."""
        return all(self.settled_parts(t).values())

    def taken_at(self, t: int) -> tuple[int | None, ...]:
        """What each element takes."""
        return tuple(taken[t] for taken in self.taken)

    def conditions(self, e: int) -> list[str]:
        """The conditions of an element's inputs in the last millisecond, with what is left of running times."""
        element = self.elements[e]
        return [each.condition(element.holdoff, element.wtr) for each in element.inputs]

    def gives(self, e: int, t: int) -> tuple[int | None, str, str, str]:
        """What an element gives at a millisecond."""
        return self.taken[e][t], self.level[e][t], self.mode[e][t], self.state[e][t]

    def is_active(self, e: int, t: int) -> bool:
        """At 0, where an event touches the element, and where a nominated input fails, is restored or hears anew."""
        if t == 0 or any(self.plan.touches(event, e) for event in self.events_at.get(t, ())):
            return True
        lines = [i for i in self.plan.inputs_of[e] if self.plan.is_line(i)]
        return any(self.failed[i][t] != self.failed[i][t - 1] for i in self.plan.inputs_of[e]) or any(
            self.input_level[line][t] != self.input_level[line][t - 1] for line in lines
        )

    def is_busy(self, t: int) -> bool:
        """Where an event stands, an element is active, or a message arrives that was news when it was sent."""
        if t in self.events_at or any(self.is_active(e, t) for e in range(len(self.elements))):
            return True
        delays = {line: self.plan.delay_of[line] for line in self.plan.nominated_lines}
        return any(self.arrives(line, t) and self.is_news(line, t - delays[line]) for line in delays)


def closed_walks(plan: Plan, taken: Iterable[int | None]) -> list[list[int]]:
    """Each closed walk once, from its lowest line, in order of these.

    Its lines are apart and taken, each begins where the one before ends, and the first where the last ends.
    """
    lines = sorted(i for i in taken if i is not None and plan.is_line(i))
    walks, begun = list[list[int]](), [[line] for line in lines]
    while begun:
        walk = begun.pop(0)
        following = [line for line in lines if plan.sender_of[line] == plan.receiver_of[walk[-1]]]
        walks += [walk for line in following if line == walk[0]]
        begun += [walk + [line] for line in following if line > walk[0] and line not in walk]
    return sorted(walks)


def is_facing_pair(plan: Plan, walk: Sequence[int]) -> bool:
    """A closed walk of two lines of one bundle."""
    return len(walk) == 2 and plan.bundle_of[walk[0]] == plan.bundle_of[walk[1]]


def trace_of(plan: Plan, taken: Sequence[int | None], e: int) -> tuple[list[int], tuple[str, int]]:
    """The lines from an element back to its timing, and the end: a source, an own clock, or what repeats."""
    lines, passed = list[int](), list[int]()
    while e not in passed:
        passed.append(e)
        at = taken[e]
        if at is None:
            return lines, ("own", e)
        if not plan.is_line(at):
            return lines, ("source", at)
        lines.append(at)
        e = plan.sender_of[at]
    return lines, ("loop", e)
