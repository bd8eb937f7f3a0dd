"""Rings that are left in a knot when lines are taken out: short ones, apart from one another."""

from __future__ import annotations

from collections import deque
from collections.abc import Collection

import networkx as nx


def ring_through(graph: nx.DiGraph, kept: Collection[str], start: str) -> list[str]:
    """A shortest ring through a line over lines that are kept, in the order of its hops; an empty list where there is none."""
    before = {start: start}
    todo = deque([start])
    while todo:
        line = todo.popleft()
        for after in graph.successors(line):
            if after == start:
                ring = [line]
                while ring[-1] != start:
                    ring.append(before[ring[-1]])
                return ring[::-1]
            if after in kept and after not in before:
                before[after] = line
                todo.append(after)
    return []


def rings_left(knot: nx.DiGraph, removed: Collection[str]) -> list[list[str]]:
    """Rings of the knot without these lines, no two of which share a line; none exactly where no loop is possible."""
    graph = knot.copy()
    graph.remove_nodes_from(list(removed))
    found = []
    todo = [graph.subgraph(part).copy() for part in nx.strongly_connected_components(graph) if len(part) > 1]
    while todo:
        part = todo.pop()
        ring = ring_through(part, part, min(part))
        found.append(ring)
        part.remove_nodes_from(ring)
        todo += [part.subgraph(one).copy() for one in nx.strongly_connected_components(part) if len(one) > 1]
    return found


def is_closed(kept: Collection[str], graph: nx.DiGraph, line: str) -> bool:
    """Whether a ring goes through a line over lines that are kept; both its ways are searched, the shorter one to its end."""
    forth, back = {line}, {line}
    ends = [[line], [line]]
    while ends[0] and ends[1]:
        side = 0 if len(ends[0]) <= len(ends[1]) else 1
        seen, other = (forth, back) if side == 0 else (back, forth)
        step = graph.successors if side == 0 else graph.predecessors
        nearer = []
        for place in ends[side]:
            for after in step(place):
                if after == line or (after in other and after in kept):
                    return True
                if after in kept and after not in seen:
                    seen.add(after)
                    nearer.append(after)
        ends[side] = nearer
    return False
