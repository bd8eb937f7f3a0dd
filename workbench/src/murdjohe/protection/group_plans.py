"""Plans of a network in which no group of parts that fail together cuts anybody off, made of what `protect` gives."""

from __future__ import annotations

from dataclasses import dataclass

from murdjohe.network import ways as network_ways
from murdjohe.network.groups import Group
from murdjohe.plan.model import LOWEST, Line, Plan
from murdjohe.network.ways import Way, Ways
from murdjohe.plan import edits
from murdjohe.plan.edits import Wanted
from murdjohe.plan.plan_lines import PlanLines
from murdjohe.protection.covering import Cover, State, circle_through, without_needless
from murdjohe.protection.exact_covering import Exact, Late

SECONDS = 25.0  # of processor time for a whole search
STEPS = 1000  # that are tried where whole numbers take too long
PASSES = 5  # over all elements, in which last resorts are settled
MOST_INPUTS = 64  # of an element, lines and sources together


@dataclass(frozen=True)
class Found:
    """Priorities that were found: what they change in the plan of `protect`, how many of how many groups cut nobody off by the
    search's own count, and whether it is known that none cover more."""

    wanted: Wanted
    covered: int
    groups: int
    is_known: bool


class Network:
    """A plan of `protect` as the search has it: ways, failures, and how much room each element has."""

    def __init__(self, plan: PlanLines, groups: tuple[Group, ...]) -> None:
        self.plan = plan
        self.network: Plan = plan.network
        falls = network_ways.singles_of(self.network) + network_ways.falls_of(groups)
        self.ways = Ways(self.network, falls)
        self.groups = len(groups)
        self.lines = self.network.nominated_lines()
        self.number = {line: way.number for way in self.ways.ways for line in way.lines}
        self.base = [0] * len(self.ways.names)
        sources = [0] * len(self.ways.names)
        for row in self.network.sources:
            if priority := row.priority:
                place = self.ways.at[row.at]
                self.base[place] = max(self.base[place], priority)
                sources[place] += 1
        self.hops = hops_of(self.ways)
        self.before = {line.name: line.priority for line in self.lines}
        self.room = [min(LOWEST - base, MOST_INPUTS - count) for base, count in zip(self.base, sources)]

    def first(self) -> State:
        """The ways that the plan nominates, and the last resort of each element."""
        last: dict[int, Line] = {}
        for line in self.lines:
            place = self.ways.at[line.receiver]
            if place not in last or line.priority > last[place].priority:
                last[place] = line
        kept = {self.number[line.name] for line in self.lines}
        return State(kept, {place: line.bundle for place, line in last.items()})

    def place_of(self, way: Way) -> tuple[int, int, int]:
        """By what the ways into an element are put in order: how far from a clock they begin, and where `protect` has them."""
        return self.hops[way.sender], self.before.get(way.lines[0], LOWEST), way.number

    def covered(self, state: State) -> int:
        """How many groups cut nobody off who needn't be."""
        return self.groups - rated(self, state)[1]


def rated(network: Network, state: State) -> tuple[int, int]:
    """How many single failures cut somebody off who needn't be, and how many groups do."""
    failures = 0
    for missing in network.ways.missing(state.kept):
        failures |= missing
    fallen = [fall.kind for number, fall in enumerate(network.ways.falls) if failures >> number & 1]
    return len(fallen) - fallen.count("group"), fallen.count("group")


class Search:
    """The exact search and that by steps, one after the other, and the best that was met."""

    def __init__(self, network: Network, seconds: float) -> None:
        self.network = network
        self.seconds = seconds
        self.best = network.first()
        self.is_known = rated(network, self.best) == (0, 0)
        self.exact = Exact(network.ways, network.room, self.best.kept)

    def climb(self, share: float) -> None:
        """Seeks what covers more groups in this part of the time, all at once first and then one more at a time."""
        self.exact.allow(share * self.seconds / 2)
        try:
            found = self.exact.better(self.network.groups - 1)
            self.best, self.is_known = found or self.best, found is not None
        except Late:
            self.is_known = False
        self.exact.allow(share * self.seconds / 2)
        try:
            while not self.is_known:
                found = self.exact.better(self.network.covered(self.best))
                self.best, self.is_known = found or self.best, found is None
        except Late:
            pass

    def step(self, share: float) -> None:
        """Seeks it by steps from the best on."""
        cover = Cover(self.network.ways, self.network.room, self.best)
        cover.search(share * self.seconds, STEPS)
        self.best = cover.best
        self.is_known = cover.best_cost[:2] == (0, 0)

    def polish(self, share: float) -> None:
        """Seeks what covers as many groups with fewest changes."""
        self.exact.allow(share * self.seconds)
        try:
            self.best = self.exact.cheapest(self.network.covered(self.best)) or self.best
        except Late:
            pass

    def run(self) -> None:
        """All of it, as far as it is wanted."""
        if self.is_known:
            return
        self.climb(0.4)
        if not self.is_known:
            self.step(0.2)
        if not self.is_known:
            self.climb(0.3)
        self.polish(0.1 if not self.is_known else 0.3)


def settled(network: Network, state: State) -> State:
    """The state with the way over most links as each element's last resort, where no ways bear on one another in a circle then."""
    made = State(
        state.kept, {place: bundle for place, bundle in state.last.items() if is_met(network, state, place, bundle)}
    )
    for _ in range(PASSES):
        before = dict(made.last)
        for place in range(len(network.ways.into)):
            settle(network, made, place)
        if made.last == before:
            break
    return made


def is_met(network: Network, state: State, place: int, bundle: tuple[str, str]) -> bool:
    """Whether a way over a bundle into an element is nominated."""
    return any(way.bundle == bundle and way.number in state.kept for way in network.ways.into[place])


def settle(network: Network, state: State, place: int) -> None:
    """Makes the way over most links the last resort of one element, where that closes no circle."""
    kept = [way for way in network.ways.into[place] if way.number in state.kept]
    if not kept:
        return
    before, its = state.last.get(place), max(kept, key=network.place_of).bundle
    state.last[place] = its
    if (
        before
        and before != its
        and any(way.bundle == before and circle_through(network.ways, state, way) for way in kept)
    ):
        state.last[place] = before


def hops_of(ways: Ways) -> list[int]:
    """How many links each element is from a clock; as many as there are elements where none is in reach."""
    far = len(ways.names)
    found = [0 if mask & 1 else far for mask in ways.clocks]
    row = [place for place, hops in enumerate(found) if not hops]
    while row:
        following = []
        for place in row:
            for way in ways.out[place]:
                if found[way.receiver] == far:
                    found[way.receiver] = found[place] + 1
                    following.append(way.receiver)
        row = following
    return found


def priorities(network: Network, state: State) -> dict[str, int]:
    """The priority of each line: behind the sources of its element, in the order of `protect`, the last resort last."""
    found: dict[str, int] = {}
    for place, into in enumerate(network.ways.into):
        kept = sorted((way for way in into if way.number in state.kept), key=network.place_of)
        kept.sort(key=lambda way: state.last.get(way.receiver) == way.bundle)
        lines = [line for way in kept for line in way.lines]
        found.update((line, network.base[place] + number) for number, line in enumerate(lines, start=1))
    return found


def changes(network: Network, given: dict[str, int]) -> Wanted:
    """The priorities that differ from those of the plan."""
    found: Wanted = {}
    for number, link in enumerate(network.network.links, start=1):
        for end in "ab":
            value = given.get(link.line(end), 0)
            if link.priority(end) != value:
                found["link", number, f"priority_{end}"] = value
    return found


def sought(plan: PlanLines, groups: tuple[Group, ...], seconds: float = SECONDS) -> Found:
    """Priorities by which as many groups as could be found cut nobody off, and no single failure does, from a plan of `protect` on."""
    network = Network(plan, groups)
    first = network.first()
    search = Search(network, seconds)
    search.run()
    if search.best.kept == first.kept:
        return Found({}, network.covered(first), len(groups), search.is_known)
    state = settled(network, without_needless(network.ways, search.best, first.kept))
    return Found(changes(network, priorities(network, state)), network.covered(state), len(groups), search.is_known)


def written(plan: PlanLines, found: Found) -> bytes:
    """The plan with the priorities that were found. Raises Wrong."""
    return edits.changed(plan, found.wanted) if found.wanted else plan.document.data
