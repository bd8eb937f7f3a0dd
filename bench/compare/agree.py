"""Compares `agree` on random plans with networkx, and runs plans that agree until after their bound.

usage: python3 -m bench.compare.agree PROGRAM [--plans N] [--runs N] [--seed N] [--keep FOLDER]

The graph has a node for each nominated line and an edge to each that it bears on; where it has no circle, the bound is
worked out from the longest path, else the first circle is found as in `bench.compare.ranks`. The plans are those of
`bench.compare.protected`, three of four with own clocks that are worse than what most sources give. The first N that
agree, 100 without a number, run with random events, at the end of which each element's switches are cleared; from the
bound after the last event on, no element that a level reaches which is better than every own clock may change, and
where one reaches every element the network has to be settled. It needs Python 3.11 and networkx.
"""

import collections
import random
import sys
from collections import Counter
from collections.abc import Iterator

import networkx

from bench.compare.ranks import first_cycle
from bench.compare.runs import compare, run_words
from bench.levels import LEVELS
from bench.program import answer, put_files
from bench.reference.plan import Event, Plan, events_text
from bench.reference.random_plans import random_events, random_plan

EVENTS_UNTIL = 30_000  # milliseconds in which random events fall
LONGER = 60_000  # and so long a run goes on after its bound
HEARING = 5_000


def with_worse_clocks(chance: random.Random, plan: Plan) -> Plan:
    """The plan, in three of four cases with own clocks that are worse than what most sources give, and no floor."""
    if chance.random() < 0.75:
        for element in plan.elements:
            element.own, element.floor = LEVELS[plan.option][-2], None
    return plan


def is_last_resort(plan: Plan, line: int) -> bool:
    """Each input of the line's element that is no line of its bundle has a smaller number."""
    others = [
        i
        for i in plan.inputs_of[plan.receiver_of[line]]
        if not (plan.is_line(i) and plan.bundle_of[i] == plan.bundle_of[line])
    ]
    return all(plan.priority_of[i] < plan.priority_of[line] for i in others)


def bearing(plan: Plan) -> "networkx.DiGraph[int]":
    """The nominated lines, and which bears on which."""
    graph: networkx.DiGraph[int] = networkx.DiGraph()
    graph.add_nodes_from(plan.nominated_lines)
    for line in plan.nominated_lines:
        last = is_last_resort(plan, line)
        for after in plan.nominated_lines:
            back = plan.bundle_of[line] == plan.bundle_of[after]
            if plan.receiver_of[line] == plan.sender_of[after] and not (back and last):
                graph.add_edge(line, after)
    return graph


def high_levels(plan: Plan) -> int:
    """How many levels of the option are better than the own clock of every element."""
    table = LEVELS[plan.option]
    return min((table.index(element.own) for element in plan.elements), default=len(table))


def bound_of(plan: Plan, top: int) -> int:
    """For how many milliseconds after the last event a network may change, by the greatest rank."""
    delay = max((plan.delay_of[line] for line in plan.nominated_lines), default=0)
    waits = [time for element in plan.elements for time in (element.holdoff, element.wtr)]
    return max([HEARING + delay, *waits]) + (high_levels(plan) + 1) * (top + 1) * delay + delay


def times_of(plan: Plan, graph: "networkx.DiGraph[int]") -> dict[int, int]:
    """The time of each nominated line: by the delays into its sender, and by the lines that bear on it."""
    into: dict[int, int] = {}
    for line in plan.nominated_lines:
        into[plan.receiver_of[line]] = max(into.get(plan.receiver_of[line], 0), plan.delay_of[line])
    times: dict[int, int] = {}
    for line in networkx.topological_sort(graph):
        over = [times[before] + plan.delay_of[before] for before in graph.predecessors(line)]
        times[line] = max([into.get(plan.sender_of[line], 0), *over])
    return times


def levels_of_sources(plan: Plan) -> int:
    """How many levels, better than every own clock, the plan's nominated sources have."""
    table = LEVELS[plan.option]
    places = {table.index(plan.source(i).level) for i in plan.nominated if not plan.is_line(i)}
    return sum(place < high_levels(plan) for place in places)


def failures_of(plan: Plan, graph: "networkx.DiGraph[int]") -> int:
    """For how many milliseconds after the last failure a settled network may change."""
    holdoff = max((element.holdoff for element in plan.elements), default=0)
    longest = max(times_of(plan, graph).values(), default=0)
    delay = max((plan.delay_of[line] for line in plan.nominated_lines), default=0)
    return holdoff + levels_of_sources(plan) * longest + 2 * delay


def expected(plan: Plan) -> tuple[int, str]:
    """The status and the text of `agree`."""
    graph = bearing(plan)
    if networkx.is_directed_acyclic_graph(graph):
        top = networkx.dag_longest_path_length(graph) if graph else 0
        return 0, f"agreed\nbound {bound_of(plan, top)}\nfailures {failures_of(plan, graph)}\n"
    return 1, " ".join(["clash", *(plan.input_name(line) for line in first_cycle(graph))]) + "\n"


class Standing:
    """What stands after a list of events: what is down, silent and locked out, and the levels of sources."""

    def __init__(self, plan: Plan, events: list[Event]) -> None:
        self.plan = plan
        self.down, self.silent, self.locked = set[int](), set[int](), set[int]()
        self.said = {plan.lines + j: source.level for j, source in enumerate(plan.sources)}
        for event in events:
            self.apply(event)

    def inputs(self, event: Event) -> list[int]:
        """The inputs that an event is on."""
        kind, number = event.target
        if kind == "link":
            return [2 * number, 2 * number + 1]
        return [self.plan.lines + number] if kind == "source" else [number]

    def apply(self, event: Event) -> None:
        sets = {"down": self.down, "esmc-off": self.silent, "lockout": self.locked}
        opposite = {"up": "down", "esmc-on": "esmc-off", "unlock": "lockout"}
        if event.what in sets:
            sets[event.what].update(self.inputs(event))
        elif event.what in opposite:
            sets[opposite[event.what]].difference_update(self.inputs(event))
        elif event.what == "level" and event.level is not None:
            self.said[self.inputs(event)[0]] = event.level

    def may_come_in(self, i: int, level: int) -> bool:
        """Nothing keeps the input's element from taking a level from it."""
        floor = self.plan.elements[self.plan.receiver_of[i]].floor
        below = floor is not None and LEVELS[self.plan.option].index(floor) < level
        return i in self.plan.nominated and not (i in self.down or i in self.silent or i in self.locked or below)

    def reached(self) -> set[int]:
        """The elements that a level reaches which is better than every own clock."""
        found, table = set[int](), LEVELS[self.plan.option]
        for i in range(self.plan.lines, self.plan.lines + len(self.plan.sources)):
            level = table.index(self.said[i])
            if level < high_levels(self.plan) and self.may_come_in(i, level):
                found |= self.led_to(self.plan.receiver_of[i], level)
        return found

    def led_to(self, start: int, level: int) -> set[int]:
        """The elements to which a level comes from one."""
        met, waiting = {start}, [start]
        while waiting:
            element = waiting.pop()
            for line in self.plan.nominated_lines:
                to = self.plan.receiver_of[line]
                if self.plan.sender_of[line] == element and to not in met and self.may_come_in(line, level):
                    met.add(to)
                    waiting.append(to)
        return met


def run_events(chance: random.Random, plan: Plan) -> list[Event]:
    """Random events, and then the end of every switch."""
    events = random_events(chance, plan, EVENTS_UNTIL)
    return events + [Event(EVENTS_UNTIL, "clear", ("element", e)) for e in range(len(plan.elements))]


def differences_of_run(program: str, folder: str, plan: Plan, events: list[Event], bound: int) -> Iterator[str]:
    """What is wrong in a run with these events, in words."""
    put_files(folder, {"events": events_text(plan, events)})
    rest = EVENTS_UNTIL + bound
    status, text = answer(program, "sim", "plan", "events", rest + LONGER, folder=folder)
    reached = Standing(plan, events).reached()
    names = {plan.elements[e].name for e in reached}
    for row in text.partition("changes\n")[2].partition("inputs\n")[0].splitlines():
        at, name = row.split(",")[:2]
        if name in names and int(at) > rest:
            yield f"{name} changes at {at}, after {rest}"
    if status == 0 and len(reached) == len(plan.elements) and not text.endswith("settled yes\n"):
        yield "isn't settled"


def differences(
    program: str, folder: str, plan: Plan, events: list[Event] | None, counted: Counter[str]
) -> Iterator[str]:
    """What is wrong with the answer on a plan, and in a run of it, in words."""
    wanted = expected(plan)
    if answer(program, "agree", "plan", folder=folder) != wanted:
        yield "another answer"
    if wanted[0] == 0:
        counted["agree"] += 1
        if events is not None:
            counted["runs"] += 1
            reached = Standing(plan, events).reached()
            counted["reached"] += len(reached)
            counted["whole"] += len(reached) == len(plan.elements)
            yield from differences_of_run(program, folder, plan, events, int(wanted[1].split()[2]))


def main() -> int:
    given = run_words(__doc__, 1000, 100).parse_args()
    chance, counted = random.Random(given.seed), collections.Counter[str]()

    def differences_of(folder: str, plan: Plan) -> Iterator[str]:
        events = run_events(chance, plan) if counted["runs"] < given.runs else None
        return differences(given.program, folder, plan, events, counted)

    differ = compare(given, lambda: with_worse_clocks(chance, random_plan(chance, [0, 60_000])), differences_of)
    print(
        f"{given.plans} plans, {counted['agree']} agree; {counted['runs']} runs until after the bound, {counted['reached']}"
        f" elements reached, all of {counted['whole']} networks; {differ} differ"
    )
    return 1 if differ else 0


if __name__ == "__main__":
    sys.exit(main())
