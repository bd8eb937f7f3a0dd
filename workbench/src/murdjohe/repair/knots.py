"""Knots of a plan: nominated lines that hop round in rings, and what it costs to take the priority of some away.

The hops are those of the program's `rank`: line l hops to line m where both are nominated, l ends in the element in which m
begins, and their links are not of one bundle. This only searches: what the program says of an edited plan decides.
"""

from __future__ import annotations

from collections.abc import Collection, Iterable
from dataclasses import dataclass
from itertools import islice

import networkx as nx

from murdjohe.plan.model import LOWEST, Line, Plan
from murdjohe.repair.gaps import Ways

LARGE = 400  # lines of a knot up to which least sets are sought
RINGS = {True: 1_000, False: 100}  # rings that are counted in a knot that isn't larger than that, and in a larger one


# What a set of lines costs: elements that lose their last input, failures that cut off more than before, first choices, and how
# high the priorities are, summed up: 255 for priority 1, 1 for priority 255. The less the better, in this order.
Cost = tuple[int, int, int, int]


def graph_of(lines: Iterable[Line]) -> nx.DiGraph:
    """The hops from line to line, by the names of lines."""
    graph = nx.DiGraph()
    by_sender: dict[str, list[Line]] = {}
    for line in lines:
        graph.add_node(line.name)
        by_sender.setdefault(line.sender, []).append(line)
    for line in lines:
        for after in by_sender.get(line.receiver, []):
            if after.bundle != line.bundle:
                graph.add_edge(line.name, after.name)
    return graph


def knots_of(graph: nx.DiGraph) -> list[nx.DiGraph]:
    """The strongly connected parts of more than one line, the greatest first, each with its hops."""
    parts = [part for part in nx.strongly_connected_components(graph) if len(part) > 1]
    return [graph.subgraph(part).copy() for part in sorted(parts, key=lambda part: (-len(part), min(part)))]


def rings_in(knot: nx.DiGraph) -> tuple[int, bool]:
    """How many rings a knot has, up to a limit, and whether these are all."""
    limit = RINGS[len(knot) <= LARGE]
    number = sum(1 for _ in islice(nx.simple_cycles(knot), limit + 1))
    return min(number, limit), number <= limit


@dataclass
class Inputs:
    """The nominated inputs of each element with their priorities, sources too; the lines by their names; the ways over them."""

    lines: dict[str, Line]
    of: dict[str, dict[str, int]]
    ways: Ways

    def is_first(self, name: str) -> bool:
        """Whether no input of the line's element has a higher priority."""
        line = self.lines[name]
        return line.priority == min(self.of[line.receiver].values())

    def height(self, name: str) -> int:
        """How high the priority of a line is: 255 for priority 1, 1 for priority 255."""
        return LOWEST + 1 - self.lines[name].priority

    def cost(self, removed: Collection[str]) -> Cost:
        """What it costs to take the priorities of these lines away."""
        gone = set(removed)
        receivers = {self.lines[name].receiver for name in gone}
        lost = sum(1 for element in receivers if gone.issuperset(self.of[element]))
        return lost, len(self.ways.arising(gone)), sum(map(self.is_first, gone)), sum(map(self.height, gone))


def inputs_of(network: Plan, lines: list[Line]) -> Inputs:
    """The inputs of all elements."""
    of: dict[str, dict[str, int]] = {}
    for line in lines:
        of.setdefault(line.receiver, {})[line.name] = line.priority
    for source in network.sources:
        if priority := source.priority:
            of.setdefault(source.at, {})[source.name] = priority
    return Inputs({line.name: line for line in lines}, of, Ways(network))
