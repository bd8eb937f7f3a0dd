"""Ways to nominate so that no group of parts that fail together cuts anybody off: a search from those of `protect` on.

A state has the ways that are nominated, and for each element the bundle that is its last resort. No ways of a state bear on one
another in a circle, so that no loop is possible in it and no elements oscillate. A step nominates a way for somebody who is cut off,
and breaks the circles that it closes: by another last resort, or by the way whose loss cuts off least.
"""

from __future__ import annotations

import random
import time
from collections.abc import Iterator
from dataclasses import dataclass, field

from murdjohe.network.ways import Way, Ways

Bundle = tuple[str, str]
SINGLE = 20  # what an element that a single failure cuts off costs, of one that a group does
CANDIDATES = 12  # ways that a step weighs
TURNS = 12  # circles that a step breaks before it is given up
BARRED = 8  # steps in which a way that was taken away stays away
HEAT, COOLING = 1.5, 0.995  # how much worse a step may be at first, and how that goes down


@dataclass
class State:
    """The ways that are nominated, and the last resort of each element that has one."""

    kept: set[int]
    last: dict[int, Bundle] = field(default_factory=dict)

    def copy(self) -> State:
        return State(set(self.kept), dict(self.last))


def bearing_on(ways: Ways, state: State, way: Way) -> Iterator[Way]:
    """The nominated ways on which a way bears: those that begin where it ends, but for that straight back over a last resort."""
    is_last = state.last.get(way.receiver) == way.bundle
    for after in ways.out[way.receiver]:
        if after.number in state.kept and not (after.number == way.back and is_last):
            yield after


def circle_through(ways: Ways, state: State, start: Way) -> list[Way] | None:
    """A shortest circle of ways that bear on one another, through this one; None where there is none."""
    before: dict[int, Way] = {}
    row = [start]
    while row:
        following = []
        for way in row:
            for after in bearing_on(ways, state, way):
                if after.number == start.number:
                    return walked(before, start, way)
                if after.number not in before:
                    before[after.number] = way
                    following.append(after)
        row = following
    return None


def walked(before: dict[int, Way], start: Way, end: Way) -> list[Way]:
    """The ways from the start to the end."""
    found = [end]
    while found[-1].number != start.number:
        found.append(before[found[-1].number])
    return found[::-1]


def circles(ways: Ways, state: State) -> list[list[Way]]:
    """A shortest circle through each way that is on one, none twice."""
    found: dict[frozenset[int], list[Way]] = {}
    for number in sorted(on_circles(ways, state)):
        circle = circle_through(ways, state, ways.ways[number])
        if circle:
            found.setdefault(frozenset(way.number for way in circle), circle)
    return list(found.values())


def on_circles(ways: Ways, state: State) -> set[int]:
    """The nominated ways without those from which, or to which, no circle leads."""
    after = {number: [one.number for one in bearing_on(ways, state, ways.ways[number])] for number in state.kept}
    before: dict[int, list[int]] = {number: [] for number in state.kept}
    for number, others in after.items():
        for other in others:
            before[other].append(number)
    left = set(state.kept)
    for first, second in ((after, before), (before, after)):
        counts = {number: sum(other in left for other in first[number]) for number in left}
        todo = [number for number, count in counts.items() if not count]
        while todo:
            gone = todo.pop()
            left.discard(gone)
            for other in second[gone]:
                if other in counts and other in left:
                    counts[other] -= 1
                    if not counts[other]:
                        todo.append(other)
    return left


class Cover:
    """The search: what a state costs, and the best that was met."""

    def __init__(self, ways: Ways, room: list[int], first: State, seed: int = 1) -> None:
        self.ways = ways
        self.room = room  # inputs that each element may have beside its sources
        self.groups = sum(1 << number for number, fall in enumerate(ways.falls) if fall.kind == "group")
        self.chance = random.Random(seed)
        self.state = first
        self.cost = self.cost_of(first)
        self.best, self.best_cost = first.copy(), self.rated(first)
        self.barred: dict[int, int] = {}
        self.steps = 0

    def cost_of(self, state: State) -> int:
        """How many elements single failures and groups cut off, the former weighed more."""
        total = 0
        for missing in self.ways.missing(state.kept):
            if missing:
                grouped = missing & self.groups
                total += grouped.bit_count() + SINGLE * (missing ^ grouped).bit_count()
        return total

    def rated(self, state: State) -> tuple[int, int, int]:
        """How many single failures cut somebody off, how many groups do, and how many elements all groups cut off."""
        missing = self.ways.missing(state.kept)
        failures = 0
        for one in missing:
            failures |= one
        cut = sum((one & self.groups).bit_count() for one in missing)
        return (failures & ~self.groups).bit_count(), (failures & self.groups).bit_count(), cut

    def is_room(self, state: State, way: Way) -> bool:
        """Whether an element may have the lines of one more way."""
        its = sum(len(one.lines) for one in self.ways.into[way.receiver] if one.number in state.kept)
        return its + len(way.lines) <= self.room[way.receiver]

    def wanted(self) -> list[Way]:
        """Ways that lead to somebody who is cut off, for one failure, from others who aren't."""
        missing = self.ways.missing(self.state.kept)
        failures = 0
        for one in missing:
            failures |= one
        bits = [bit for bit in range(failures.bit_length()) if failures >> bit & 1]
        bit = self.chance.choice(bits)
        served = self.ways.served(self.state.kept)
        found = [
            way
            for way in self.ways.ways
            if way.number not in self.state.kept
            and missing[way.receiver] >> bit & 1
            and served[way.sender] >> bit & 1
            and not way.gone >> bit & 1
            and self.is_room(self.state, way)
        ]
        free = [way for way in found if self.barred.get(way.number, -1) < self.steps]
        return free or found

    def unturned(self, state: State, circle: list[Way]) -> bool:
        """Breaks a circle that turns round somewhere, by making the bundle there the last resort; whether that could be done."""
        for way, after in zip(circle, [*circle[1:], circle[0]]):
            if after.number == way.back:
                its = state.last.get(way.receiver)
                if its is None or not self.is_turned(state, way.receiver, its):
                    state.last[way.receiver] = way.bundle
                    return True
        return False

    def is_turned(self, state: State, place: int, bundle: Bundle) -> bool:
        """Whether a bundle is nominated at an element and at its other end too."""
        return any(
            way.bundle == bundle and way.number in state.kept and way.back in state.kept
            for way in self.ways.into[place]
        )

    def broken(self, state: State, circle: list[Way], added: Way) -> Way | None:
        """The way of a circle, but for the one that was added, whose loss costs least."""
        found: list[tuple[int, float, Way]] = []
        for way in circle:
            if way.number != added.number:
                state.kept.discard(way.number)
                found.append((self.cost_of(state), self.chance.random(), way))
                state.kept.add(way.number)
        return min(found, key=lambda one: one[:2])[2] if found else None

    def with_way(self, added: Way) -> tuple[State, list[Way]] | None:
        """The state with one more way and without the circles that it closes, and the ways that went; None where that isn't found."""
        state, gone = self.state.copy(), list[Way]()
        state.kept.add(added.number)
        for _ in range(TURNS):
            circle = circle_through(self.ways, state, added)
            if circle is None:
                return state, gone
            if self.unturned(state, circle):
                continue
            way = self.broken(state, circle, added)
            if way is None:
                return None
            state.kept.discard(way.number)
            gone.append(way)
        return None

    def step(self, heat: float) -> None:
        """One step: the best of some ways that are wanted, where it is no worse than the heat allows."""
        self.steps += 1
        wanted = self.wanted()
        tried: list[tuple[float, State, list[Way]]] = []
        for way in self.chance.sample(wanted, min(len(wanted), CANDIDATES)):
            made = self.with_way(way)
            if made:
                tried.append((self.cost_of(made[0]) + self.chance.random() * heat, *made))
        if not tried:
            return
        _, state, gone = min(tried, key=lambda one: one[0])
        cost = self.cost_of(state)
        if cost <= self.cost + heat * self.chance.expovariate(1.0):
            self.state, self.cost = state, cost
            self.barred.update((way.number, self.steps + BARRED) for way in gone)
            rated = self.rated(state)
            if rated < self.best_cost:
                self.best, self.best_cost = state.copy(), rated

    def search(self, seconds: float, steps: int) -> None:
        """Steps until nobody is cut off, the time is over, or so many are made."""
        end, heat = time.process_time() + seconds, HEAT
        while self.best_cost != (0, 0, 0) and self.steps < steps and time.process_time() < end:
            if self.cost == 0:
                return
            self.step(heat)
            heat *= COOLING


def without_needless(ways: Ways, state: State, first: set[int]) -> State:
    """The state without the ways that were added and whose loss cuts nobody off more."""
    wanted = ways.missing(state.kept)
    left = state.copy()
    for number in sorted(state.kept - first, reverse=True):
        left.kept.discard(number)
        if ways.missing(left.kept) != wanted:
            left.kept.add(number)
    return left
