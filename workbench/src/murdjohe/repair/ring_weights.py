"""Rings of a knot that weigh least, by weights of its lines: where weights are those of a solution, the rings that it breaks least."""

from __future__ import annotations

from typing import Any

import networkx as nx
import numpy
from scipy.sparse import csr_matrix
from scipy.sparse.csgraph import dijkstra

LEAST = 1e-6  # what a hop weighs beside its line, so that of equal rings the shorter one is found


class Weighed:
    """The hops of a knot by the numbers of its lines."""

    def __init__(self, knot: nx.DiGraph, lines: list[str]) -> None:
        self.lines = lines
        at = {name: number for number, name in enumerate(lines)}
        hops = sorted((at[line], at[after]) for line, after in knot.edges)
        self.starts, self.ends = numpy.array(hops, dtype=int).reshape(-1, 2).T

    def rings(self, weights: Any, most: float) -> list[list[str]]:
        """A ring of least weight over each hop, where it weighs less than this; each ring once, the lightest first."""
        count = len(self.lines)
        costs = numpy.maximum(weights, 0.0)[self.ends] + LEAST
        graph = csr_matrix((costs, (self.starts, self.ends)), shape=(count, count))
        far, before = dijkstra(graph, return_predecessors=True)
        sums = far[self.ends, self.starts] + costs
        found: dict[frozenset[int], list[int]] = {}
        for hop in numpy.argsort(sums, kind="stable"):
            if sums[hop] >= most:
                break
            ring, first = [int(self.starts[hop])], int(self.ends[hop])
            while ring[-1] != first:
                ring.append(int(before[first, ring[-1]]))
            found.setdefault(frozenset(ring), ring[::-1])
        return [[self.lines[number] for number in ring] for ring in found.values()]
