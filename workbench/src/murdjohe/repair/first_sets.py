"""A set of lines that breaks all rings, to begin with: of lines that are kept, over which no ring goes, and those that can be put back.

Lines are kept that lead from an earlier element to a later one in some order: then no loop is possible, whatever the order. Or those
of another plan are kept over which no ring goes, as `protect` gives one.
"""

from __future__ import annotations

from collections.abc import Collection, Iterable

import networkx as nx

from murdjohe.plan.model import Line, Plan
from murdjohe.repair.greedy_sets import Choice
from murdjohe.repair.knots import Cost, Inputs

ROOT = ""  # from which all nominated sources are one step away; no element has such a name


def by_hops(network: Plan) -> list[str]:
    """The elements by how many links they are from a nominated source, those without a way last; ties as they stand in the plan."""
    graph = nx.Graph([(link.a, link.b) for link in network.links])
    graph.add_edges_from((ROOT, source.at) for source in network.nominated_sources())
    hops = nx.single_source_shortest_path_length(graph, ROOT) if ROOT in graph else {}
    far = len(network.elements) + 1
    return sorted(network.names(), key=lambda name: int(hops.get(name, far)))


def forward(lines: Iterable[Line], order: list[str]) -> frozenset[str]:
    """The lines that lead from an earlier element of an order to a later one."""
    place = {name: number for number, name in enumerate(order)}
    return frozenset(line.name for line in lines if place[line.sender] < place[line.receiver])


def put_back(knot: nx.DiGraph, inputs: Inputs, kept: Collection[str]) -> frozenset[str]:
    """The lines of a knot that go where these are kept, over which no ring goes, and then each that closes none, the worthiest first."""
    choice = Choice(knot, inputs, kept)
    choice.keep()
    return frozenset(choice.removed)


def first_set(knot: nx.DiGraph, inputs: Inputs, seeds: Iterable[Collection[str]]) -> tuple[frozenset[str], Cost]:
    """The cheapest set that comes of lines which may be kept, and its cost; seeds over which rings go are passed over."""
    sets = [put_back(knot, inputs, ())]
    for seed in seeds:
        kept = [name for name in seed if name in knot]
        if kept and nx.is_directed_acyclic_graph(knot.subgraph(kept)):
            sets.append(put_back(knot, inputs, kept))
    costs = {removed: inputs.cost(removed) for removed in dict.fromkeys(sets)}
    best = min(costs, key=lambda removed: (costs[removed], sorted(removed)))
    return best, costs[best]
