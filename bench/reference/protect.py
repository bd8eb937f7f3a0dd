"""Priorities by which no single failure cuts anybody off who needn't be, and nothing can loop: how they are found.

usage: python3 -m bench.reference.protect [--plans N] [--large N] [--seed N]

A bundle is one edge, and a source an edge from a root above all clocks. The tree of fewest hops from the root is taken;
each other edge, with the edges of the tree between its ends that no earlier one covers, is an ear, and each element
inside an ear takes its timing from both its neighbours on it, the one in the tree first. Edges come by the depth of the
lowest common ancestor of their ends, and among those of one ancestor one that meets a covered branch below it comes
before any other. Ears after Whitney; the order after Maon, Schieber and Vishkin, and Ramachandran.

Tries N random topologies of up to 14 elements and a few of up to 200, with bundles, parallel links, islands, several
sources and sources that leave no room: what is found keeps the rules of `broken_rules`, and elements have two ways just
where networkx finds no bridge. It calls no code of the program. It needs Python 3.11 and networkx.
"""

import collections
import dataclasses
import random
import sys
from collections.abc import Iterator

import networkx

from bench.compare.agree import bearing
from bench.compare.protected import cut_off, failures_of
from bench.program import parser
from bench.reference.plan import Link, Plan, PlanElement, Source

MOST_INPUTS, GREATEST_PRIORITY = 64, 255


class Ways:
    """For each element the bundle of its tree and the second one, where it has them."""

    def __init__(self, plan: Plan) -> None:
        self.plan = plan
        count = len(plan.elements)
        self.order = list[int]()
        self.depth: list[int | None] = [None] * count
        self.parent: list[int | None] = [None] * count
        self.up: list[int | None] = [None] * count
        self.second: list[int | None] = [None] * count
        self.covered = [False] * count
        self.grow()
        for branches in self.branches():
            self.lay_all(branches)

    def grow(self) -> None:
        """The tree of fewest hops: clocks are one below the root."""
        lines_out: list[list[int]] = [[] for _ in self.plan.elements]
        for line in range(self.plan.lines):
            lines_out[self.plan.sender_of[line]].append(line)
        for e in range(len(self.plan.elements)):
            if sources_at(self.plan, e):
                self.depth[e] = 1
                self.order.append(e)
        for e in self.order:
            for line in lines_out[e]:
                to, depth = self.plan.receiver_of[line], self.depth[e]
                if self.depth[to] is None and depth is not None:
                    self.depth[to], self.parent[to], self.up[to] = depth + 1, e, self.plan.bundle_of[line]
                    self.order.append(to)

    def other_edges(self) -> Iterator[tuple[int | None, int, int]]:
        """The edges that are not of the tree, each with its bundle and ends: a source is a loop at its clock."""
        for e in self.order:
            for _ in sources_at(self.plan, e)[1:]:
                yield None, e, e
        for k, link in enumerate(self.plan.links):
            if self.plan.bundle_of[2 * k] == k and self.depth[link.a] is not None:
                if k not in (self.up[link.a], self.up[link.b]):
                    yield k, link.a, link.b

    def below(self, e: int, ancestor: int | None) -> int | None:
        """The child of the ancestor on the way up from the element; none for the ancestor itself."""
        if e == ancestor:
            return None
        at, above = e, self.parent[e]
        while above is not None and above != ancestor:
            at, above = above, self.parent[above]
        return at

    def meeting(self, one: int, other: int) -> int | None:
        """The lowest common ancestor; none for the root."""
        above = set[int | None]()
        at: int | None = one
        while at is not None:
            above.add(at)
            at = self.parent[at]
        at = other
        while at is not None and at not in above:
            at = self.parent[at]
        return at

    def branches(self) -> list[dict[int, list["Edge"]]]:
        """For each ancestor, in order of depth, the edges that meet in it, by the branches that they join."""
        met: dict[int | None, dict[int, list[Edge]]] = {a: {} for a in [None, *self.order]}
        for bundle, one, other in self.other_edges():
            ancestor = None if bundle is None else self.meeting(one, other)
            edge = Edge(bundle, one, other, ancestor, self.below(one, ancestor), self.below(other, ancestor))
            for branch in (edge.branch, edge.other_branch):
                if branch is not None:
                    met[ancestor].setdefault(branch, []).append(edge)
        return list(met.values())

    def lay_all(self, branches: dict[int, list["Edge"]]) -> None:
        """Lays the ears of one ancestor, from covered branches first."""
        for branch in branches:
            if self.covered[branch]:
                self.lay_from(branch, branches)
        for branch in branches:
            self.lay_from(branch, branches)

    def lay_from(self, start: int, branches: dict[int, list["Edge"]]) -> None:
        """Lays all ears that are joined with a branch."""
        waiting = [start]
        while waiting:
            for edge in branches[waiting.pop()]:
                if not edge.laid:
                    edge.laid = True
                    self.lay(edge.one, edge)
                    self.lay(edge.other, edge)
                    waiting += [b for b in (edge.branch, edge.other_branch) if b is not None]

    def lay(self, end: int, edge: "Edge") -> None:
        """Lays the part of an ear that goes up from an end of its edge."""
        at: int | None = end
        bundle = edge.bundle
        while at is not None and at != edge.ancestor and not self.covered[at]:
            self.second[at], self.covered[at] = bundle, True
            bundle = self.up[at]
            at = self.parent[at]

    def priorities(self) -> list[int]:
        """The priority of each line."""
        given = [0] * self.plan.lines
        for e in self.order:
            own = sources_at(self.plan, e)
            base = max((self.plan.sources[j].priority for j in own), default=0)
            room = min(GREATEST_PRIORITY - base, MOST_INPUTS - len(own))
            first, second = (lines_of(self.plan, bundle, e) for bundle in (self.up[e], self.second[e]))
            first = first[: max(0, room - min(1, len(second)))]
            for number, line in enumerate((first + second)[:room], 1):
                given[line] = base + number
        return given


@dataclasses.dataclass
class Edge:
    """An edge that isn't of the tree, with the ancestor in which its ends meet and the branches that it joins."""

    bundle: int | None
    one: int
    other: int
    ancestor: int | None
    branch: int | None
    other_branch: int | None
    laid: bool = False


def sources_at(plan: Plan, e: int) -> list[int]:
    """The nominated sources at an element."""
    return [j for j, source in enumerate(plan.sources) if source.at == e and source.priority > 0]


def lines_of(plan: Plan, bundle: int | None, e: int) -> list[int]:
    """The lines of a bundle into an element."""
    return [line for line in range(plan.lines) if plan.bundle_of[line] == bundle and plan.receiver_of[line] == e]


def with_priorities(plan: Plan, given: list[int]) -> Plan:
    """The plan with other priorities of its lines."""
    links = [
        dataclasses.replace(link, priority_a=given[2 * k + 1], priority_b=given[2 * k])
        for k, link in enumerate(plan.links)
    ]
    return Plan(plan.option, plan.elements, links, plan.sources)


def protect(plan: Plan) -> Plan:
    """The plan that is found."""
    return with_priorities(plan, Ways(plan).priorities())


def hops_of(plan: Plan) -> dict[int, int]:
    """How many links each element is from the nearest clock, by networkx."""
    graph = networkx.Graph((link.a, link.b) for link in plan.links)
    graph.add_nodes_from(range(len(plan.elements)))
    clocks = {e for e in range(len(plan.elements)) if sources_at(plan, e)}
    return dict(networkx.multi_source_dijkstra_path_length(graph, clocks, weight=None)) if clocks else {}


def breaks_inputs(plan: Plan, e: int) -> Iterator[str]:
    """The rules on one element's inputs that are broken, in words."""
    lines = [i for i in plan.inputs_of[e] if plan.is_line(i)]
    if len({plan.bundle_of[line] for line in lines}) > 2:
        yield "more than two bundles"
    numbers = [plan.priority_of[line] for line in lines]
    if len(set(numbers)) != len(numbers):
        yield "a number twice"
    if max([plan.sources[j].priority for j in sources_at(plan, e)], default=0) >= min(numbers, default=256):
        yield "a line before a source"
    if len(plan.inputs_of[e]) > MOST_INPUTS or max(numbers, default=0) > GREATEST_PRIORITY:
        yield "a limit"


def broken_rules(plan: Plan) -> Iterator[str]:
    """The rules that a plan breaks, but for protection: no cycle, two bundles, numbers, fewest hops first, agreement."""
    hops = hops_of(plan)
    hop: "networkx.DiGraph[int]" = networkx.DiGraph()
    hop.add_edges_from((a, b) for a in plan.nominated_lines for b in plan.nominated_lines if plan.hops(a, b))
    if not networkx.is_directed_acyclic_graph(hop):
        yield "a cycle"
    if not networkx.is_directed_acyclic_graph(bearing(plan)):
        yield "a clash"
    for e, inputs in enumerate(plan.inputs_of):
        yield from breaks_inputs(plan, e)
        if inputs and not sources_at(plan, e):
            first = min(inputs, key=lambda i: plan.priority_of[i])
            if hops[plan.sender_of[first]] + 1 != hops[e]:
                yield "first from afar"


def has_room(plan: Plan) -> bool:
    """Each clock's sources leave room for one more input."""
    return all(
        max(plan.sources[j].priority for j in own) < GREATEST_PRIORITY and len(own) < MOST_INPUTS
        for own in (sources_at(plan, e) for e in range(len(plan.elements)))
        if own
    )


def with_two_ways(plan: Plan) -> set[int]:
    """The elements in reach whose way to the nearest clock is no bridge, by networkx: each edge has a node of its own."""
    graph = networkx.Graph()
    for k, link in enumerate(plan.links):
        if plan.bundle_of[2 * k] == k:
            graph.add_edge(link.a, ("link", k))
            graph.add_edge(("link", k), link.b)
    for j, source in enumerate(plan.sources):
        if source.priority:
            graph.add_edge("root", ("source", j))
            graph.add_edge(("source", j), source.at)
    if "root" not in graph:
        return set()
    graph.remove_nodes_from([node for node in graph if node not in networkx.node_connected_component(graph, "root")])
    graph.remove_edges_from(list(networkx.bridges(graph)))
    tree = Ways(plan)
    found = set[int]()
    for e in tree.order:
        if tree.up[e] is not None and graph.degree(("link", tree.up[e])):
            found.add(e)
        if tree.up[e] is None and any(graph.degree(("source", j)) for j in sources_at(plan, e)):
            found.add(e)
    return found


def random_topology(chance: random.Random, count: int) -> Plan:
    """Elements with links at random, some in bundles, some parallel; sources at a few, some of which leave no room."""
    elements = [PlanElement(f"E{e}", "QL-SEC", None, 300, 0) for e in range(count)]
    links = list[Link]()
    share = chance.choice([0.8, 1.2, 1.6, 2.5])
    for _ in range(round(share * count) if count > 1 else 0):
        a, b = chance.sample(range(count), 2)
        if chance.random() < 0.5:
            b = (a + 1) % count
        bundle = chance.choice([None, None, f"T{min(a, b)}-{max(a, b)}"])
        copies = chance.choice([1, 1, 1, 2]) if chance.random() < 0.99 else 66
        for _ in range(copies):
            links.append(Link(f"L{len(links)}", a, b, chance.randint(0, 3), chance.randint(0, 3), 10, 10, bundle))
    sources = list[Source]()
    highest = chance.choice([3, 3, 3, 3, 255])
    for _ in range(chance.choice([0, 1, 1, 1, 2, 2, 3, 5])):
        at, priority = chance.randrange(count), chance.choice([0, 1, 1, 2, highest])
        for _ in range(1 if chance.random() < 0.99 else chance.choice([62, 63, 64])):
            if sum(source.at == at and source.priority > 0 for source in sources) < MOST_INPUTS:
                sources.append(Source(f"S{len(sources)}", at, "QL-PRC", priority))
    return Plan("I", elements, links, sources)


def differences(plan: Plan, counted: collections.Counter[str]) -> Iterator[str]:
    """What is wrong with the plan that is found, in words."""
    ways = Ways(plan)
    found = with_priorities(plan, ways.priorities())
    yield from broken_rules(found)
    if {e for e, covered in enumerate(ways.covered) if covered} != with_two_ways(plan):
        yield "two ways"
    gaps = [failure for failure in failures_of(found) if cut_off(found, failure)[1]]
    counted["protected"] += not gaps
    counted["without room"] += bool(gaps)
    counted["ears"] += any(ways.covered)
    if gaps and has_room(plan):
        yield f"cut off by {gaps[0].kind} {gaps[0].name}"


def main() -> int:
    given = parser(__doc__, plans=1000, large=5, seed=1).parse_args()
    chance, counted = random.Random(given.seed), collections.Counter[str]()
    for number in range(given.plans + given.large):
        plan = random_topology(chance, chance.randint(1, 14) if number < given.plans else chance.randint(50, 200))
        for difference in differences(plan, counted):
            counted["differ"] += 1
            print(f"plan {number}: {difference}")
    print(
        f"{given.plans + given.large} plans, {counted['protected']} protected, {counted['ears']} with ears,"
        f" {counted['without room']} whose sources leave no room; {counted['differ']} differ"
    )
    return 1 if counted["differ"] else 0


if __name__ == "__main__":
    sys.exit(main())
