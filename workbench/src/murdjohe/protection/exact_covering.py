"""The most groups that any nomination covers, by HiGHS: whether a search that stopped could have found more.

A way is nominated or not, a bundle is an element's last resort or not, a group is covered or not. Known from the beginning is that
whoever a failure leaves in reach wants a way in that is left, as single failures do. What a solution breaks is added: circles of
ways that bear on one another, and whom a failure cuts off, with all before them that are cut off too. Once a solution breaks
nothing it is one that counts; and where none is left that covers more groups, the best one that was met is known to be. That is
HiGHS's word, in floating point, of nominations behind the sources of their elements that take the lines of a bundle together.
"""

from __future__ import annotations

import time
from collections.abc import Iterable
from typing import Any

import numpy
from scipy.optimize import Bounds, LinearConstraint, milp
from scipy.sparse import csr_matrix

from murdjohe.network.ways import Way, Ways, bits_of
from murdjohe.protection.covering import State, circles

Terms = dict[int, float]  # coefficients by the number of their variable
Row = tuple[Terms, float]  # a sum that has to be at least a number
NONE = 2  # the status where nothing keeps the rows
CUTS = 400  # rows that are added for one solution
OWN, OTHER = -1.0, 1.0  # what a way of `protect` costs, and any other one: few are changed
ANY = 10.0  # how much dearer than the cheapest a nomination may be, of its cost, where any will do
SPARE = 0.5  # and in ways that are changed, where the cheapest is wanted
PATIENCE = 4  # how many times as long as its processor time a search may take by the clock


class Late(Exception):
    """The time is over."""


class Exact:
    """The variables: a way each, then a way each that is the last resort where it ends, then a group each."""

    def __init__(self, ways: Ways, room: list[int], first: set[int]) -> None:
        self.ways = ways
        self.allow(0.0)
        self.count = len(ways.ways)
        self.bits = [number for number, fall in enumerate(ways.falls) if fall.kind == "group"]
        self.group = {bit: 2 * self.count + place for place, bit in enumerate(self.bits)}
        self.size = 2 * self.count + len(self.bits)
        self.least_gap = SPARE / max(1.0, -OWN * len(first))
        self.gap = ANY
        self.costs = numpy.zeros(self.size)
        self.costs[: self.count] = [OWN if way.number in first else OTHER for way in ways.ways]
        self.rows: list[Row] = []
        self.known: set[tuple[frozenset[int], frozenset[int], float]] = set()
        self.rounds = 0
        self.limit(room)
        self.want_one()

    def allow(self, seconds: float) -> None:
        """From now on a search may take so much processor time."""
        self.end = time.process_time() + seconds
        self.latest = time.monotonic() + PATIENCE * seconds

    def add(self, terms: Terms, least: float) -> bool:
        """One more row; whether it wasn't known."""
        plus = frozenset(number for number, value in terms.items() if value > 0)
        key = plus, frozenset(terms) - plus, least
        if key in self.known:
            return False
        self.known.add(key)
        self.rows.append((terms, least))
        return True

    def limit(self, room: list[int]) -> None:
        """As many inputs as there is room for, one last resort for each element, and one that is nominated."""
        for place, into in enumerate(self.ways.into):
            if sum(len(way.lines) for way in into) > room[place]:
                self.add({way.number: -float(len(way.lines)) for way in into}, -float(room[place]))
            if len(into) > 1:
                self.add({self.count + way.number: -1.0 for way in into}, -1.0)
        for way in self.ways.ways[::2]:
            # (over a bundle that is nominated at both ends two ways bear on each other, but where one end is a last resort)
            both = {way.number: -1.0, way.back: -1.0}
            self.add({**both, self.count + way.number: 1.0, self.count + way.back: 1.0}, -1.0)

    def want_one(self) -> None:
        """That each element has a way in that is left, in each failure in which it is in reach and no source of its own is left."""
        for place, into in enumerate(self.ways.into):
            wanted = self.ways.reach[place] & ~self.ways.clocks[place]
            taking = 0
            for way in into:
                taking |= way.gone
            # (in all failures that take none of these ways away the same is wanted)
            others = wanted & ~taking
            for bit in (*bits_of(wanted & taking), *bits_of(others & -others)):
                self.enter(into, bit)

    def enter(self, into: Iterable[Way], bit: int) -> bool:
        """That one of these ways is nominated, of those that a failure leaves; whether that wasn't known."""
        terms = {way.number: 1.0 for way in into if not way.gone >> bit & 1}
        if bit in self.group:
            return self.add({**terms, self.group[bit]: -1.0}, 0.0)
        return self.add(terms, 1.0)

    def part(self, circle: list[Way]) -> bool:
        """That not all ways of a circle are nominated, but where it turns round over a last resort; whether that wasn't known."""
        terms = {way.number: -1.0 for way in circle}
        for way, after in zip(circle, [*circle[1:], circle[0]]):
            if after.number == way.back:
                terms[self.count + way.number] = 1.0
        return self.add(terms, 1.0 - len(circle))

    def state_of(self, values: Any) -> State:
        """What a solution says."""
        kept = {way.number for way in self.ways.ways if values[way.number] > 0.5}
        last = {way.receiver: way.bundle for way in self.ways.ways if values[self.count + way.number] > 0.5}
        return State(kept, last)

    def covered(self, values: Any) -> int:
        """The failures that have to cut nobody off: single ones, and the groups that a solution covers."""
        found = self.ways.all
        for bit, number in self.group.items():
            if values[number] < 0.5:
                found &= ~(1 << bit)
        return found

    def behind(self, state: State, missing: list[int], place: int, bit: int) -> set[int]:
        """An element that a failure cuts off, with those before it over nominated ways that it leaves."""
        found, todo = {place}, [place]
        while todo:
            for way in self.ways.into[todo.pop()]:
                if way.number in state.kept and not way.gone >> bit & 1 and way.sender not in found:
                    found.add(way.sender)
                    todo.append(way.sender)
        return found

    def learn(self, state: State, values: Any) -> int:
        """Adds what a solution breaks; how many rows that are."""
        added = sum(self.part(circle) for circle in circles(self.ways, state))
        covered, missing = self.covered(values), self.ways.missing(state.kept)
        for place, one in enumerate(missing):
            for bit in bits_of(one & covered):
                its = self.behind(state, missing, place, bit)
                entering = [way for at in sorted(its) for way in self.ways.into[at] if way.sender not in its]
                added += self.enter(entering, bit)
                if added > CUTS:
                    return added
        return added

    def solution(self, least: int) -> Any:
        """A nomination that covers so many groups at least by what is known; None where there is none. Raises Late."""
        rows = [*self.rows, ({number: 1.0 for number in self.group.values()}, float(least))]
        data = [value for terms, _ in rows for value in terms.values()]
        places = [place for terms, _ in rows for place in terms]
        starts = numpy.cumsum([0, *(len(terms) for terms, _ in rows)])
        matrix = csr_matrix((data, places, starts), shape=(len(rows), self.size))
        kept = LinearConstraint(matrix, [low for _, low in rows], numpy.inf)
        return self.answer(kept)

    def answer(self, kept: LinearConstraint) -> Any:
        """What HiGHS answers in the processor time that is left. Raises Late."""
        bounds = Bounds(numpy.zeros(self.size), numpy.ones(self.size))
        while (left := self.end - time.process_time()) > 0 and time.monotonic() < self.latest:
            options = {"time_limit": left, "mip_rel_gap": self.gap}
            found = milp(
                self.costs, integrality=numpy.ones(self.size), bounds=bounds, constraints=kept, options=options
            )
            if found.status == NONE:
                return None
            if found.x is not None:
                return found.x
        raise Late

    def cheapest(self, covered: int) -> State | None:
        """The nomination with fewest changes that covers so many groups; None where there is none. Raises Late."""
        self.gap = self.least_gap
        try:
            return self.better(covered - 1)
        finally:
            self.gap = ANY

    def better(self, covered: int) -> State | None:
        """A nomination that covers more groups than so many; None where there is none. Raises Late where the time is over."""
        while True:
            self.rounds += 1
            values = self.solution(covered + 1)
            if values is None:
                return None
            state = self.state_of(values)
            if not self.learn(state, values):
                return state
