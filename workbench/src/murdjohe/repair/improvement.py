"""A set of lines that breaks all rings, bettered part by part: the lines around an element are sought anew while all others stay.

So few lines are free at once that HiGHS finds their least cost in a moment. Rings and failures that it didn't know are learnt,
and stay known for the search of the least set.
"""

from __future__ import annotations

import random
import time
from typing import Any

from murdjohe.repair.first_sets import put_back
from murdjohe.repair.least_sets import Search, Terms

SIZE = 75  # how many lines are free at once, at first
LEAST, MOST = 20, 120  # how few and how many that becomes
LESS, MORE = 0.75, 1.1  # by what it changes after a part that is late, and after one that changes nothing
MOMENT, PART = 1.0, 1.5  # seconds of processor time for what HiGHS is asked once, and after which a part is late
IDLE = 12  # parts that change nothing, after which it ends
OFTEN = 0.75  # how often a part is one around a first choice that goes, where there is any


class Bettering:
    """The cheapest set so far, and the parts that are sought anew."""

    def __init__(self, search: Search, first: frozenset[str], seconds: float) -> None:
        self.search = search
        self.inputs = search.inputs
        self.best = first
        self.cost = search.inputs.cost(first)
        self.size = float(SIZE)
        self.chance = random.Random(1)
        self.end = time.process_time() + seconds
        self.beside: dict[str, list[str]] = {}  # the lines at each element
        for name in search.lines:
            line = self.inputs.lines[name]
            for element in (line.sender, line.receiver):
                self.beside.setdefault(element, []).append(name)

    def start(self) -> str:
        """An element that loses an input: mostly one that loses a first choice, else any."""
        removed = sorted(self.best)
        first = [name for name in removed if self.inputs.is_first(name)]
        lines = first if first and self.chance.random() < OFTEN else removed
        return self.inputs.lines[self.chance.choice(lines)].receiver

    def around(self, element: str) -> set[str]:
        """The lines nearest to an element, some more than are free at once."""
        near, found = [element], set[str]()
        for one in near:
            if len(found) >= self.size:
                break
            found.update(self.beside[one])
            ends = {end for name in self.beside[one] for end in self.ends(name)}
            near += sorted(ends.difference(near))
        return found

    def ends(self, name: str) -> tuple[str, str]:
        line = self.inputs.lines[name]
        return line.sender, line.receiver

    def terms(self, free: set[str]) -> Terms:
        """The cost of these lines as one sum: each part of it weighs more than all that come after."""
        search = self.search
        height = {search.at[name]: float(self.inputs.height(name)) for name in sorted(free)}
        first = [number for number in height if self.inputs.is_first(search.lines[number])]
        one_first = 1.0 + sum(height.values())
        one_gap = one_first * (1 + len(first))
        found = height | {number: height[number] + one_first for number in first}
        found |= dict.fromkeys(search.failures.values(), one_gap)
        count = len(search.lines)
        return found | dict.fromkeys(range(count, count + len(search.elements)), one_gap * 10)

    def part(self, free: set[str]) -> Any:
        """The variables of least cost where all other lines stay; None where none are found in a moment."""
        search = self.search
        least, most = search.bounds([])
        lost, gaps = len(search.lines), len(search.lines) + len(search.elements)
        if not self.cost[0]:
            most[lost:gaps] = 0.0
        if not self.cost[1]:
            most[gaps:] = 0.0
        for number, name in enumerate(search.lines):
            if name not in free:
                least[number] = most[number] = float(name in self.best)
        return search.within(MOMENT, search.rows, self.terms(free), (least, most))

    def renewed(self, free: set[str]) -> frozenset[str] | None:
        """The cheapest set that differs in these lines alone; None where it isn't found in time."""
        search, end = self.search, min(self.end, time.process_time() + PART)
        while time.process_time() < end:
            values = self.part(free)
            if values is None:
                return None
            removed = search.removed_of(values)
            if removed == self.best:
                return removed
            rings = search.left(removed)
            search.add(rings)
            if not search.learn(removed, values) and not rings:
                return put_back(search.knot, self.inputs, set(search.lines) - removed)
        return None

    def better(self) -> None:
        """Betters the set while there is time and any part helps."""
        idle = 0
        while idle < IDLE and time.process_time() < self.end:
            removed = self.renewed(self.around(self.start()))
            idle += 1
            if removed is None:
                self.size = max(LEAST, self.size * LESS)
            elif (cost := self.inputs.cost(removed)) < self.cost:
                self.best, self.cost, idle = removed, cost, 0
            else:
                self.size = min(MOST, self.size * MORE)


def bettered(search: Search, first: frozenset[str], seconds: float) -> frozenset[str]:
    """A set that costs no more than the first one, and breaks all rings too, found in so much processor time at most."""
    bettering = Bettering(search, first, seconds)
    bettering.better()
    return bettering.best
