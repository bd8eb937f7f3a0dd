"""The sets of lines that break all rings of a knot at the least cost, by HiGHS.

Each ring that is known has to lose a line. The set that costs least for these is sought; rings that it leaves are added, until
none is left: then it is least for all rings. In the same way failures are added that cut off more than the solution says. The
parts of the cost are made least one after the other, but where all but the last may be nothing at once that is taken first.
Before whole numbers are sought, rings are added that the solution in parts of lines breaks by less than one. Where a set is known
already, only what is cheaper is sought, and if there is nothing that set is the least.
"""

from __future__ import annotations

import time
from collections.abc import Callable, Collection
from typing import Any

import networkx as nx
import numpy
from scipy.optimize import Bounds, LinearConstraint, milp
from scipy.sparse import csr_matrix

from murdjohe.repair.gaps import Failure
from murdjohe.repair.knots import Cost, Inputs
from murdjohe.repair.ring_weights import Weighed
from murdjohe.repair.rings import rings_left

Terms = dict[int, float]  # coefficients by the number of their variable
Row = tuple[Terms, float, float]  # a sum that has to stand between two numbers
Fixed = list[tuple[Callable[[], Terms], int]]  # sums that are known, and how much they may be at most
OPTIMAL, LATE, NONE = (
    0,
    1,
    2,
)  # statuses: a solution that is proved to be least, no time is left, nothing keeps the rows
PATIENCE = 4  # how many times as long as its processor time a search may take by the clock
SLOWEST = 10.0  # how many at most where a part of the lines is sought
BROKEN = 1 - 1e-6  # by how much a solution in parts of lines has to break each ring
REMOVED = 1e6  # what a removed line weighs, so that rings of other lines are found
ROUNDS = 50  # in which rings are added before whole numbers are sought
MISSED, LEARNT = 200, 20  # failures that are looked at in one solution, and sets of lines that are learnt of them


class Unsolved(Exception):
    """No least set was found in the time that there was."""


class Search:
    """The variables, a line each, then an element each, then a failure each, and what is known of them so far."""

    def __init__(self, knot: nx.DiGraph, inputs: Inputs, seconds: float) -> None:
        self.knot = knot
        self.inputs = inputs
        self.end = time.process_time() + seconds
        self.latest = time.monotonic() + PATIENCE * seconds
        self.begun = time.monotonic(), time.process_time()
        self.lines = sorted(knot)
        self.at = {name: number for number, name in enumerate(self.lines)}
        receivers = sorted({inputs.lines[name].receiver for name in self.lines})
        # (elements all of whose inputs are in the knot)
        self.elements = [element for element in receivers if all(name in self.at for name in inputs.of[element])]
        self.rows: list[Row] = []
        self.failures: dict[Failure, int] = {}
        self.met: dict[frozenset[str], Cost] = {}  # sets that leave no ring, and what they cost
        self.found: list[frozenset[str]] = []  # the least ones, none of which a later one may hold
        for number, element in enumerate(self.elements, start=len(self.lines)):
            own = {self.at[name]: -1.0 for name in inputs.of[element]}
            self.rows.append(({**own, number: 1.0}, 1.0 - len(own), numpy.inf))
        self.known: set[frozenset[str]] = set()
        self.weighed = Weighed(knot, self.lines)
        self.add(self.weighed.rings(numpy.ones(len(self.lines)), numpy.inf))
        for element in receivers:
            self.leave_one(element)

    def add(self, rings: list[list[str]]) -> int:
        """That each of these rings loses a line; how many of them weren't known."""
        new = [ring for ring in dict.fromkeys(frozenset(ring) for ring in rings) if ring not in self.known]
        self.rows += [({self.at[name]: 1.0 for name in sorted(ring)}, 1.0, numpy.inf) for ring in new]
        self.known.update(new)
        return len(new)

    def left(self, removed: Collection[str]) -> list[list[str]]:
        """Rings without these lines, none exactly where none is left: a shortest one over each hop that is on one."""
        weights = numpy.array([REMOVED if name in removed else 1.0 for name in self.lines])
        return self.weighed.rings(weights, REMOVED)

    def failure(self, failure: Failure) -> int:
        """The variable of a failure, 1 where it has to cut off more than before."""
        return self.failures.setdefault(failure, len(self.lines) + len(self.elements) + len(self.failures))

    def cuts_off(self, lines: Collection[str], failures: Collection[Failure]) -> None:
        """That without all these lines these failures cut off more than before."""
        size = float(len(failures))
        row = {self.failure(failure): 1.0 for failure in failures} | {self.at[name]: -size for name in lines}
        self.rows.append((row, size * (1 - len(lines)), numpy.inf))

    def leave_one(self, element: str) -> None:
        """That an element with one way in is cut off by what takes that away."""
        ways = self.inputs.ways.ways_in(element)
        for kept, failures in ways.items():
            others = [name for name in ways if name != kept]
            if others and all(name in self.at for name in others):
                for failure in sorted(failures):
                    self.cuts_off(others, [failure])

    def learn(self, removed: Collection[str], values: Any) -> bool:
        """Learns why failures cut off more without these lines than the values say; whether there was any."""
        told = {failure for failure, number in self.failures.items() if number < len(values) and values[number] > 0.5}
        arising = self.inputs.ways.arising(removed)
        missed = [failure for failure in sorted(arising) if failure not in told]
        sets = {self.inputs.ways.smallest(removed, failure, arising[failure]) for failure in missed[:MISSED]}
        for lines in sorted(sets, key=lambda lines: (len(lines), sorted(lines)))[:LEARNT]:
            self.cuts_off(lines, sorted(self.inputs.ways.arising(lines)))
        return bool(sets)

    def stages(self) -> list[Callable[[], Terms]]:
        """What is made least, one after the other; what is known of failures grows meanwhile."""
        count = len(self.lines)
        lost = {number: 1.0 for number in range(count, count + len(self.elements))}
        first = {number: 1.0 for number, name in enumerate(self.lines) if self.inputs.is_first(name)}
        height = {number: float(self.inputs.height(name)) for number, name in enumerate(self.lines)}
        return [lambda: lost, lambda: dict.fromkeys(self.failures.values(), 1.0), lambda: first, lambda: height]

    def answer(self, costs: Any, **wanted: Any) -> Any:
        """What HiGHS answers in the processor time that is left. Raises Unsolved where there is none.

        HiGHS counts time by the clock: where that runs out on a busy machine, it is asked again, up to PATIENCE times as long.
        """
        while (left := self.end - time.process_time()) > 0 and time.monotonic() < self.latest:
            found = milp(costs, options={"mip_rel_gap": 0.0, "time_limit": left}, **wanted)
            if found.status != LATE:
                return found
        raise Unsolved

    def within(self, seconds: float, rows: list[Row], terms: Terms, bounds: tuple[Any, Any]) -> Any:
        """The variables with the least sum of the terms; None where none are found in about so much processor time."""
        costs, wanted = self.wanted(rows, terms, bounds)
        slowness = (time.monotonic() - self.begun[0]) / max(time.process_time() - self.begun[1], 0.1)
        limit = seconds * min(max(slowness, 1.0), SLOWEST)
        return milp(costs, options={"mip_rel_gap": 0.0, "time_limit": limit}, **wanted).x

    def bounds(self, fixed: Fixed) -> tuple[Any, Any]:
        """How small and how great each variable may be."""
        most = numpy.ones(len(self.lines) + len(self.elements) + len(self.failures))
        most[[number for made, sum_of in fixed if not sum_of for number in made()]] = 0.0
        return numpy.zeros(len(most)), most

    def wanted(
        self, rows: list[Row], terms: Terms, bounds: tuple[Any, Any], is_whole: bool = True
    ) -> tuple[Any, dict[str, Any]]:
        """What HiGHS is asked for: the costs of variables, and what these have to keep."""
        count = len(bounds[0])
        costs = numpy.zeros(count)
        costs[list(terms)] = list(terms.values())
        data = [value for row, _, _ in rows for value in row.values()]
        places = [place for row, _, _ in rows for place in row]
        starts = numpy.cumsum([0, *(len(row) for row, _, _ in rows)])
        matrix = csr_matrix((data, places, starts), shape=(len(rows), count))
        kept = LinearConstraint(matrix, [low for _, low, _ in rows], [high for _, _, high in rows])
        # (those of failures are whole where those of lines are)
        whole = len(self.lines) + len(self.elements)
        kinds = (numpy.arange(count) < whole).astype(int) if is_whole else numpy.zeros(count)
        return costs, {"integrality": kinds, "bounds": Bounds(*bounds), "constraints": kept}

    def solution(self, fixed: Fixed, terms: Terms, is_whole: bool = True) -> Any:
        """The variables with the least sum of the terms; None where none keep the rows. Raises Unsolved."""
        sums: list[Row] = [(made(), -numpy.inf, float(sum_of)) for made, sum_of in fixed if sum_of]
        rows = self.rows + [self.without(removed) for removed in self.found] + sums
        costs, wanted = self.wanted(rows, terms, self.bounds(fixed), is_whole)
        found = self.answer(costs, **wanted)
        if found.x is None and found.status == NONE:
            return None
        if found.x is None or found.status != OPTIMAL:
            raise Unsolved
        return found.x

    def removed_of(self, values: Any) -> frozenset[str]:
        """The lines that a solution takes away."""
        return frozenset(name for name, value in zip(self.lines, values) if value > 0.5)

    def tighten(self, fixed: Fixed, terms: Terms) -> None:
        """Adds rings that the least solution in parts of lines doesn't break as a whole. Raises Unsolved."""
        for _ in range(ROUNDS):
            values = self.solution(fixed, terms, is_whole=False)
            if values is None or not self.add(self.weighed.rings(values[: len(self.lines)], BROKEN)):
                return

    def meet(self, removed: frozenset[str]) -> None:
        """Takes note of a set that leaves no ring."""
        if removed not in self.met:
            self.met[removed] = self.inputs.cost(removed)

    def best(self, fixed: Fixed) -> tuple[frozenset[str], int] | None:
        """The cheapest set that was met of those that are allowed and cost what is known, and the next part of its cost."""
        stage, known = len(fixed), tuple(sum_of for _, sum_of in fixed)
        kept = [
            (cost[stage:], sorted(lines), lines)
            for lines, cost in self.met.items()
            if cost[:stage] == known and not any(one <= lines for one in self.found)
        ]
        return (min(kept)[2], min(kept)[0][0]) if kept else None

    def least_of(self, fixed: Fixed, terms: Callable[[], Terms]) -> tuple[frozenset[str], int] | None:
        """The lines with the least sum of the terms, and it; None where there are none. Raises Unsolved.

        Where a set was met, only what is cheaper is sought.
        """
        is_tight = False
        while True:
            best = self.best(fixed)
            if best and not best[1]:
                return best
            below: Fixed = [*fixed, (terms, best[1] - 1)] if best else fixed
            if not is_tight:
                self.tighten(below, terms())
                is_tight = True
            values = self.solution(below, terms())
            if values is None:
                return best
            removed = self.removed_of(values)
            left = self.left(removed)
            self.add(left)
            if not left:
                self.meet(removed)
            has_learnt = bool(fixed) and self.learn(removed, values)
            if not left and not has_learnt:
                return removed, self.met[removed][len(fixed)]

    def least(self) -> frozenset[str] | None:
        """The lines that cost least of those that are allowed; None where there are none. Raises Unsolved."""
        stages = self.stages()
        free = self.least_of([(terms, 0) for terms in stages[:-1]], stages[-1])
        if free:
            return free[0]
        fixed: Fixed = []
        removed: frozenset[str] = frozenset()
        for terms in stages:
            found = self.least_of(fixed, terms)
            if not found:
                return None
            removed = found[0]
            fixed.append((terms, found[1]))
        return removed

    def without(self, removed: Collection[str]) -> Row:
        """That not all these lines are taken away together."""
        return {self.at[name]: 1.0 for name in removed}, -numpy.inf, float(len(removed) - 1)


def without_needless(search: Search, removed: frozenset[str]) -> frozenset[str]:
    """The set without the lines that close no ring, the first choices and the highest priorities being kept first."""
    inputs = search.inputs
    for name in sorted(removed, key=lambda name: (inputs.is_first(name), inputs.height(name), name), reverse=True):
        if not rings_left(search.knot, removed - {name}):
            removed -= {name}
    return removed


def least_sets(search: Search, count: int, first: frozenset[str]) -> tuple[list[frozenset[str]], bool]:
    """Up to `count` sets that break all rings of a knot, the least first, and whether it is known to be; none holds an earlier one.

    One is known first. Where the least isn't found in the time of the search, the best that was met is given.
    """
    search.meet(first)
    search.latest = time.monotonic() + PATIENCE * max(search.end - time.process_time(), 0.0)
    while len(search.found) < count:
        try:
            removed = search.least()
        except Unsolved:
            if search.found:
                break
            best = min(search.met, key=lambda lines: (search.met[lines], sorted(lines)))
            return [without_needless(search, best)], False
        if removed is None:
            break
        search.found.append(removed)
    return search.found, True
