"""Which filtering clocks keep chains of timing short: on each chain of lines there is one at least every so many (G.803 has 20).

The chains are those of `chains`: lists of nominated lines each of which hops to the next, whatever faults bring about. A set of filters
is sought by HiGHS; chains that it has to cut are added as they are found too long.
"""

from __future__ import annotations

from dataclasses import dataclass
from typing import Any

import numpy
from scipy.optimize import Bounds, LinearConstraint, milp

from murdjohe.core import levels
from murdjohe.network import plan_file, wiring
from murdjohe.network.wiring import Line
from murdjohe.place.sites import Site
from murdjohe.repair import knots

CLEANING = {"I": "QL-SSU-B", "II": "QL-ST3E"}  # an own clock of this level or a better one filters
ROUNDS = 10_000  # chains that are learnt at most


@dataclass(frozen=True)
class Uncut:
    """A chain that is too long and begins nowhere at a candidate: its lines."""

    lines: tuple[str, ...]


def is_filter(level: str, option: str) -> bool:
    """Whether an own clock of this level cleans what it passes on."""
    known = levels.LEVELS[option]
    return known.index(level) <= known.index(CLEANING[option])


class Chains:
    """The nominated lines of a plan in an order in which each comes behind those that hop to it."""

    def __init__(self, plan: plan_file.PlanFile) -> None:
        network = plan.network
        self.option = network.option
        self.wired = wiring.wiring_of(network)
        ranks = plan.ranking.ranks or {}
        self.lines: list[Line] = sorted((self.wired.lines[name] for name in ranks), key=lambda line: ranks[line.name])
        graph = knots.graph_of(network.nominated_lines())
        self.before: dict[str, list[str]] = {line.name: list(graph.predecessors(line.name)) for line in self.lines}
        self.filters = {name for name, level in self.wired.own.items() if is_filter(level, self.option)}

    def too_long(self, filters: frozenset[str], most: int) -> list[str] | None:
        """The last lines of the longest chain since a filter, one more than there may be; None where there is none."""
        since: dict[str, tuple[int, str | None]] = {}
        worst: str | None = None
        for line in self.lines:
            before = max(self.before[line.name], key=lambda name: since[name][0], default=None)
            if before is None or line.sender in self.filters or line.sender in filters:
                since[line.name] = 1, None
            else:
                since[line.name] = since[before][0] + 1, before
            if since[line.name][0] > most and (worst is None or since[line.name][0] > since[worst][0]):
                worst = line.name
        if worst is None:
            return None
        found: list[str] = []
        at = worst
        while len(found) <= most:
            found.append(at)
            at = since[at][1] or ""
        return found[::-1]


def cheapest(candidates: tuple[Site, ...], chains: list[frozenset[int]]) -> tuple[int, ...]:
    """The cheapest candidates of which each chain has one."""
    matrix = numpy.zeros((len(chains), len(candidates)))
    for row, its in enumerate(chains):
        matrix[row, list(its)] = 1.0
    costs = numpy.array([float(site.cost) + 1e-6 for site in candidates])
    kept = LinearConstraint(matrix, numpy.ones(len(chains)), numpy.inf)
    found: Any = milp(costs, integrality=numpy.ones(len(candidates)), bounds=Bounds(0, 1), constraints=kept)
    return tuple(numpy.flatnonzero(found.x > 0.5).tolist())


def filters_for(data: bytes, candidates: tuple[Site, ...], most: int) -> tuple[tuple[Site, ...], Uncut | None]:
    """The cheapest filters by which no chain of the plan has more lines since the last one, or a chain that none can cut."""
    chains = Chains(plan_file.taken("the plan", data))
    number_of = {site.element: number for number, site in enumerate(candidates)}
    learnt: list[frozenset[int]] = []
    chosen: tuple[int, ...] = ()
    for _ in range(ROUNDS):
        its = frozenset(candidates[number].element for number in chosen)
        lines = chains.too_long(its, most)
        if lines is None:
            break
        # (a chain begins anew with a line that begins at a filter, so the first line of those may begin anywhere)
        begins = {chains.wired.lines[name].sender for name in lines[1:]}
        cuts = frozenset(number_of[name] for name in begins if name in number_of)
        if not cuts:
            return tuple(candidates[number] for number in chosen), Uncut(tuple(lines))
        learnt.append(cuts)
        chosen = cheapest(candidates, learnt)
    return tuple(candidates[number] for number in chosen), None
