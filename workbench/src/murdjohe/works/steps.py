"""In which order a plan becomes another one: element after element, so that each plan on the way is accepted and agrees.

The search is free: it looks at circles of lines that bear on one another, which is what `agree` asks, and at who is served. What it
finds is put to the program step by step by whoever calls it.
"""

from __future__ import annotations

from collections.abc import Callable, Iterator, Sequence
from dataclasses import dataclass
from murdjohe.plan.model import Line, Plan

ALL, ADDS, TAKES = "all", "adds", "takes back"  # what a visit does
MOST_TRIES = 20_000  # of steps that a search may look at

Priorities = dict[str, int]  # of each input by its name; 0 where it isn't nominated


@dataclass(frozen=True)
class Visit:
    """Work at one element: all of it, only what is nominated newly or raised, or the rest."""

    element: str
    part: str


@dataclass(frozen=True)
class Way:
    """The visits in order; whether the search looked at everything, and who is without a way to a clock in between."""

    visits: tuple[Visit, ...] | None
    is_whole: bool


class Net:
    """The lines and sources of a network, of which plans differ in priorities alone."""

    def __init__(self, network: Plan) -> None:
        self.lines: dict[str, Line] = {line.name: line for line in network.lines()}
        self.sources = {source.name: source.at for source in network.sources}
        self.elements = network.names()
        self.into: dict[str, list[Line]] = {name: [] for name in self.elements}
        self.out: dict[str, list[Line]] = {name: [] for name in self.elements}
        for line in self.lines.values():
            self.into[line.receiver].append(line)
            self.out[line.sender].append(line)
        self.at: dict[str, list[str]] = {name: [] for name in self.elements}
        for source, element in self.sources.items():
            self.at[element].append(source)

    def inputs(self, element: str) -> list[str]:
        """The inputs of an element, nominated or not."""
        return [line.name for line in self.into[element]] + self.at[element]

    def is_last_resort(self, line: Line, priorities: Priorities) -> bool:
        """Whether every other input of the line's element, but those of its bundle, has a smaller number."""
        own = priorities[line.name]
        others = [other.name for other in self.into[line.receiver] if other.bundle != line.bundle] + self.at[
            line.receiver
        ]
        return all(0 < priorities[other] < own or priorities[other] == 0 for other in others)

    def borne_on(self, line: Line, priorities: Priorities) -> Iterator[Line]:
        """The nominated lines on which a nominated line bears."""
        is_last = None
        for other in self.out[line.receiver]:
            if not priorities[other.name]:
                continue
            if other.bundle == line.bundle:
                is_last = self.is_last_resort(line, priorities) if is_last is None else is_last
                if is_last:
                    continue
            yield other

    def is_circle_through(self, element: str, priorities: Priorities) -> bool:
        """Whether lines bear on one another in a circle through a nominated line into the element, or out of it."""
        starts = [line for line in self.into[element] if priorities[line.name]]
        for start in starts:
            seen, todo = {start.name}, [start]
            while todo:
                for other in self.borne_on(todo.pop(), priorities):
                    if other.name == start.name:
                        return True
                    if other.name not in seen:
                        seen.add(other.name)
                        todo.append(other)
        return False

    def served(self, priorities: Priorities) -> set[str]:
        """The elements to which nominated lines lead from a nominated source."""
        todo = [element for source, element in self.sources.items() if priorities[source]]
        found = set(todo)
        while todo:
            for line in self.out[todo.pop()]:
                if priorities[line.name] and line.receiver not in found:
                    found.add(line.receiver)
                    todo.append(line.receiver)
        return found


def after(net: Net, priorities: Priorities, new: Priorities, visit: Visit) -> Priorities:
    """The priorities after a visit: of what is added, inputs that were nominated keep their numbers."""
    found = dict(priorities)
    for name in net.inputs(visit.element):
        if visit.part != ADDS or not priorities[name]:
            found[name] = new[name]
    return found


def circling(net: Net, priorities: Priorities) -> frozenset[tuple[str, str]]:
    """Which lines bear on which within circles."""
    import networkx

    graph = networkx.DiGraph()
    for line in net.lines.values():
        if priorities[line.name]:
            graph.add_edges_from((line.name, other.name) for other in net.borne_on(line, priorities))
    part = {name: number for number, its in enumerate(networkx.strongly_connected_components(graph)) for name in its}
    return frozenset((one, other) for one, other in graph.edges if part[one] == part[other])


class Search:
    """A search for an order of visits, depth first, with a limit of what it looks at."""

    def __init__(self, net: Net, old: Priorities, new: Priorities) -> None:
        self.net, self.old, self.new = net, old, new
        self.kept = net.served(old) & net.served(new)
        self.has_circles = bool(circling(net, old))
        self.tries = 0
        self.dead: set[frozenset[Visit]] = set()

    def adds_circle(self, before: Priorities, now: Priorities, visit: Visit) -> bool:
        """Whether a visit brings about a circle that wasn't there."""
        if self.has_circles:
            return not circling(self.net, now) <= circling(self.net, before)
        return self.net.is_circle_through(visit.element, now)

    def may(self, before: Priorities, now: Priorities, visit: Visit) -> bool:
        """Whether the network may stand so after a visit: it brings about no circle, and nobody is without a way to a clock who has
        one before and at the end."""
        self.tries += 1
        return not self.adds_circle(before, now, visit) and self.kept <= self.net.served(now)

    def found(self, visits: Sequence[Visit]) -> Way:
        """An order of these visits; of two to one element the first stands first."""
        done: list[Visit] = []
        states = [self.old]
        choices: list[Iterator[Visit]] = [iter(self.open(visits, done))]
        while len(done) < len(visits):
            if self.tries > MOST_TRIES * max(1, len(visits) // 100):
                return Way(None, False)
            for visit in choices[-1]:
                state = after(self.net, states[-1], self.new, visit)
                if frozenset([*done, visit]) not in self.dead and self.may(states[-1], state, visit):
                    done.append(visit)
                    states.append(state)
                    choices.append(iter(self.open(visits, done)))
                    break
            else:
                self.dead.add(frozenset(done))
                if not done:
                    return Way(None, True)
                done.pop()
                states.pop()
                choices.pop()
        return Way(tuple(done), True)

    @staticmethod
    def open(visits: Sequence[Visit], done: Sequence[Visit]) -> list[Visit]:
        """The visits that may come next: those of one element in their order."""
        behind = set(done)
        found: dict[str, Visit] = {}
        for visit in visits:
            if visit not in behind:
                found.setdefault(visit.element, visit)
        return list(found.values())


def changed(net: Net, old: Priorities, new: Priorities) -> list[str]:
    """The elements whose inputs have another priority: those on a circle first, then by how near they are to the clocks of the new
    plan."""
    distance = {element: 0 for source, element in net.sources.items() if new[source]}
    todo = list(distance)
    for element in todo:
        for line in net.out[element]:
            if new[line.name] and line.receiver not in distance:
                distance[line.receiver] = distance[element] + 1
                todo.append(line.receiver)
    differs: Callable[[str], bool] = lambda element: any(old[name] != new[name] for name in net.inputs(element))
    on_circles, far = {net.lines[line].receiver for line, _ in circling(net, old)}, len(net.elements)
    return sorted(filter(differs, net.elements), key=lambda one: (one not in on_circles, distance.get(one, far)))


def is_two_fold(net: Net, old: Priorities, new: Priorities, element: str) -> bool:
    """Whether work at an element can be parted: something is added there, and something else changes."""
    inputs = net.inputs(element)
    adds = any(new[name] and not old[name] for name in inputs)
    return adds and any(old[name] and old[name] != new[name] for name in inputs)


def planned(network: Plan, old: Priorities, new: Priorities) -> Way:
    """An order in which each plan on the way has no circle and serves whom both plans serve: each element visited once, or, where
    there is no such order, some of them twice, what is added first."""
    net = Net(network)
    elements = changed(net, old, new)
    once = [Visit(element, ALL) for element in elements]
    way = Search(net, old, new).found(once)
    if way.visits is not None:
        return way
    twice: list[Visit] = []
    for element in elements:
        parts = (ADDS, TAKES) if is_two_fold(net, old, new, element) else (ALL,)
        twice += [Visit(element, part) for part in parts]
    second = Search(net, old, new).found(twice)
    return Way(second.visits, second.is_whole and (way.is_whole or second.visits is not None))
