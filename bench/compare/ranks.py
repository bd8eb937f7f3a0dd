"""Compares `rank` and `check` with networkx on random plans of up to nine elements.

usage: python3 -m bench.compare.ranks PROGRAM [--without-bundles] [--plans N] [--seed N]
       python3 -m bench.compare.ranks --write FOLDER [--without-bundles] [--plans N] [--seed N]

Four plans of five are of version 2: links get parallel ones, with their ends swapped at random, and each link
names one of two bundles between its elements or none; so there are bundles of one link, and links beside bundles.
The others have no bundle and say version 1, 2 or none. With --without-bundles no plan has parallel links
but by chance, and none a version.

The graph has a node for each nominated line and an edge for each hop: the first line ends where the second
begins, and their links are not of one bundle. Where it has no cycle, the rank of a line has to be the length of
the longest path that ends there, and `check` has to accept these ranks; else the answer has to be the first cycle:
networkx gives the lines that can be reached from a ring, and the ring is found by going back from the lowest of
them. That it is a cycle of hops is tested apart from how it was found. On random ranks `check` has to name the
first hop over which they don't rise. With --write the plans are written to a folder, each with the text that is
expected of `rank`, for `rt try --cases FOLDER`. It needs networkx.
"""

import random
import sys
import tempfile
from typing import Any

import networkx

from bench.compare import cases
from bench.program import answer, put_files

Link = tuple[int, int, int, int, str | None]  # both ends, the priorities there, and the bundle
Ends = dict[int, tuple[int, int]]  # of each nominated line its sender and receiver
RandomPlan = tuple[int | None, int, list[Link], list[int]]


def random_plan(chance: random.Random) -> RandomPlan:
    """The version, the number of elements, the links (end a, end b, priorities there, bundle), and the elements
    with a source."""
    count = chance.randint(1, 9)
    density = chance.choice([0.2, 0.4, 0.6, 0.9])
    links: list[Link] = []
    for _ in range(chance.randint(0, 3 * count) if count > 1 else 0):
        a, b = chance.sample(range(count), 2)
        # Most plans have a direction, so that not all of them have a cycle.
        if chance.random() < 0.7 and a > b:
            a, b = b, a
        forth = chance.randint(1, 3) if chance.random() < density else 0
        back = chance.randint(1, 3) if chance.random() < density / 5 else 0
        links.append((a, b, back, forth, None))
    return None, count, links, [e for e in range(count) if chance.random() < 0.3]


def with_bundles(chance: random.Random, plan: RandomPlan) -> RandomPlan:
    """The plan with parallel links at random places, and with bundles; one of five gets a version alone."""
    _, count, links, sources = plan
    if chance.random() < 0.2:
        return chance.choice([None, 1, 2]), count, links, sources
    links, density = list(links), chance.choice([0.5, 0.9, 1.0])
    for a, b, back, forth, _ in list(links):
        while chance.random() < 0.4:
            if chance.random() < 0.3:
                back, forth = forth, back
            other = (b, a, forth, back, None) if chance.random() < 0.5 else (a, b, back, forth, None)
            links.insert(chance.randint(0, len(links)), other)
    # Bundles may have the names of links and elements: they are a space of their own.
    names = [f"{letter}{number}" for letter in "BEL" for number in range(40)]
    chance.shuffle(names)
    pairs = sorted({(min(a, b), max(a, b)) for a, b, *_ in links})
    of_pair = {pair: (names.pop(), names.pop()) for pair in pairs}
    for k, (a, b, back, forth, _) in enumerate(links):
        first, second = of_pair[min(a, b), max(a, b)]
        named = chance.choice([first] * 9 + [second]) if chance.random() < density else None
        links[k] = (a, b, back, forth, named)
    return 2, count, links, sources


def plan_text(plan: RandomPlan) -> str:
    """The plan file of a random plan."""
    version, count, links, sources = plan
    rows = [f"version = {version}\n"] if version else []
    rows += [f'[[element]]\nname = "E{e}"\n' for e in range(count)]
    rows += [
        f'[[link]]\nname = "L{k}"\na = "E{a}"\nb = "E{b}"\npriority_a = {back}\npriority_b = {forth}\n'
        + (f'bundle = "{named}"\n' if named else "")
        for k, (a, b, back, forth, named) in enumerate(links)
    ]
    rows += [f'[[source]]\nname = "P{e}"\nat = "E{e}"\nlevel = "QL-PRC"\n' for e in sources]
    return "".join(rows)


def hops_of(links: list[Link]) -> tuple[Ends, Any]:
    """The nominated lines by number, with sender and receiver, and the graph of their hops."""
    ends: Ends = {}
    for k, (a, b, back, forth, _) in enumerate(links):
        if forth:
            ends[2 * k] = (a, b)
        if back:
            ends[2 * k + 1] = (b, a)

    def are_bundled(k: int, m: int) -> bool:
        return k == m or (links[k][4] is not None and links[k][4] == links[m][4])

    graph = networkx.DiGraph()
    graph.add_nodes_from(ends)
    graph.add_edges_from(
        (line, after)
        for line in ends
        for after in ends
        if ends[line][1] == ends[after][0] and not are_bundled(line // 2, after // 2)
    )
    return ends, graph


def first_cycle(graph: Any) -> list[int]:
    """The ring that is found by going back from the lowest line that a ring leads to."""
    on_ring = {line for part in networkx.strongly_connected_components(graph) if len(part) > 1 for line in part}
    residue = set(on_ring)
    for line in on_ring:
        residue |= networkx.descendants(graph, line)
    at, seen = min(residue), list[int]()
    while at not in seen:
        seen.append(at)
        at = min(residue.intersection(graph.predecessors(at)))
    ring = seen[seen.index(at) :][::-1]
    start = ring.index(min(ring))
    ring = ring[start:] + ring[:start]
    assert all(graph.has_edge(line, after) for line, after in zip(ring, ring[1:] + ring[:1]))
    return ring


def name_of(line: int, ends: Ends) -> str:
    """The name of a line."""
    return f"L{line // 2}>E{ends[line][1]}"


def certificate(ranks: dict[int, int], ends: Ends) -> str:
    """A certificate of ranks by line."""
    return "line,rank\n" + "".join(f"{name_of(line, ends)},{ranks[line]}\n" for line in sorted(ranks))


def expected(plan: RandomPlan) -> tuple[int, str]:
    """The status and the text of the answer of `rank`."""
    ends, graph = hops_of(plan[2])
    if not networkx.is_directed_acyclic_graph(graph):
        return 1, "cycle " + " ".join(name_of(line, ends) for line in first_cycle(graph)) + "\n"
    ranks: dict[int, int] = {}
    for line in networkx.topological_sort(graph):
        ranks[line] = max((ranks[before] + 1 for before in graph.predecessors(line)), default=0)
    if ends:
        assert max(ranks.values()) == networkx.dag_longest_path_length(graph)
    return 0, certificate(ranks, ends)


def random_certificate(chance: random.Random, plan: RandomPlan) -> tuple[str, tuple[int, str]]:
    """Ranks that rise over some hops, and what `check` has to answer to them."""
    ends, graph = hops_of(plan[2])
    span = chance.choice([2, 10, 2**64])
    ranks = {line: chance.randrange(span) for line in ends}
    if chance.random() < 0.5 and networkx.is_directed_acyclic_graph(graph):
        ranks = {line: 2 * place for place, line in enumerate(networkx.topological_sort(graph))}
        for line in ends:
            if chance.random() < 0.1:
                ranks[line] = max(ranks[line] - chance.randint(1, 4), 0)
    falls = [hop for hop in graph.edges if ranks[hop[0]] >= ranks[hop[1]]]
    want = (1, "falls " + " ".join(name_of(line, ends) for line in min(falls)) + "\n") if falls else (0, "accepted\n")
    return certificate(ranks, ends), want


def compare(program: str, plans: list[RandomPlan], chance: random.Random) -> int:
    """How many answers of the program are others than those of networkx."""
    wrong = fallen = 0
    with tempfile.TemporaryDirectory() as folder:
        for number, plan in enumerate(plans):
            want, (ranks, wanted) = expected(plan), random_certificate(chance, plan)
            put_files(folder, {"plan": plan_text(plan), "least": want[1], "certificate": ranks})
            asked = [(["rank", "plan"], want), (["check", "plan", "certificate"], wanted)]
            if want[0] == 0:
                asked.append((["check", "plan", "least"], (0, "accepted\n")))
            for words, right in asked:
                answered = answer(program, *words, folder=folder)
                if answered != right:
                    wrong += 1
                    print(f"plan {number}, {words}: {right} is expected, and {answered} was answered")
            fallen += wanted[0]
    print(f"{fallen} random certificates fall")
    return wrong


def main() -> int:
    given = cases.read(cases.case_words(__doc__, plans=500, seed=1, without_bundles=False))
    chance = random.Random(given.seed)
    plans = [random_plan(chance) for _ in range(given.plans)]
    if not given.without_bundles:
        plans = [with_bundles(chance, plan) for plan in plans]
    wanted = [(plan, *expected(plan)) for plan in plans]
    bundled = sum(any(link[4] for link in plan[2]) for plan in plans)
    print(f"{len(plans)} plans, {bundled} with a bundle, {sum(status for _, status, _ in wanted)} with a cycle")
    if given.write:
        texts = [(plan_text(plan).encode("ascii"), status, text.encode("ascii")) for plan, status, text in wanted]
        cases.write(given.write, [cases.Case(("rank", "{}"), *text) for text in texts])
        return 0
    wrong = compare(given.program, plans, chance)
    print(f"{wrong} wrong")
    return 1 if wrong else 0


if __name__ == "__main__":
    sys.exit(main())
