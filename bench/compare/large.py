"""Compares `rank`, `chains`, `agree` and `hops` on plans of some thousand elements with models that are linear in lines.

usage: python3 -m bench.compare.large PROGRAM [--plans N] [--elements N] [--seed N]

The models of `compare.ranks`, `compare.chains` and `compare.agree` try all chains or all pairs of lines, which small plans
allow alone. Here the hops are listed by the elements in which they meet, and ranks, chains and times are found over an
order of the lines. Of N plans, 50 of 3,000 elements without numbers, every second one has its priorities from `protect`
and the others from `nominate`; they are networks as operators have them and random ones in turn. It needs Python 3.11 and
networkx.
"""

import sys
import tempfile
from collections import defaultdict
from collections.abc import Callable

import networkx

from bench import networks
from bench.compare import agree, chains
from bench.program import answer, octets, program_words, put_files
from bench.reference.plan import Plan, certificate_text, plan_text, read_plan


def graph_of(plan: Plan, is_barred: Callable[[int, int], bool]) -> "networkx.DiGraph[int]":
    """The nominated lines, and each that begins where another ends, but for the pairs that are barred."""
    out = defaultdict(list)
    for line in plan.nominated_lines:
        out[plan.sender_of[line]].append(line)
    graph: networkx.DiGraph[int] = networkx.DiGraph()
    graph.add_nodes_from(plan.nominated_lines)
    for line in plan.nominated_lines:
        graph.add_edges_from((line, after) for after in out[plan.receiver_of[line]] if not is_barred(line, after))
    return graph


def hops_of(plan: Plan) -> "networkx.DiGraph[int]":
    """Which line hops to which: back over its own bundle none does."""
    return graph_of(plan, lambda line, after: plan.bundle_of[line] == plan.bundle_of[after])


def ranks_of(graph: "networkx.DiGraph[int]") -> dict[int, int]:
    """For each line the most hops of a walk that ends in it."""
    ranks: dict[int, int] = {}
    for line in networkx.topological_sort(graph):
        ranks[line] = max((ranks[before] + 1 for before in graph.predecessors(line)), default=0)
    return ranks


def rows_of(plan: Plan, graph: "networkx.DiGraph[int]") -> list[chains.Row]:
    """For each element the greatest lines, lines since the last filter, and filters of a chain into it."""
    filters = [chains.is_filter(plan, e) for e in range(len(plan.elements))]
    of_line: dict[int, chains.Row] = {}
    rows: list[chains.Row] = [(0, 0, 0)] * len(plan.elements)
    for line in networkx.topological_sort(graph):
        before = [(0, 0, 0), *(of_line[other] for other in graph.predecessors(line))]
        links, since, clocks = (max(row[part] for row in before) for part in range(3))
        begins = filters[plan.sender_of[line]]
        of_line[line] = links + 1, 1 if begins else since + 1, clocks + begins
        e = plan.receiver_of[line]
        rows[e] = tuple(max(pair) for pair in zip(rows[e], of_line[line]))
    return rows


def agreed(plan: Plan) -> str:
    """What `agree` has to print of a plan that agrees; nothing where it doesn't."""
    last = {line: agree.is_last_resort(plan, line) for line in plan.nominated_lines}
    graph = graph_of(plan, lambda line, after: plan.bundle_of[line] == plan.bundle_of[after] and last[line])
    if not networkx.is_directed_acyclic_graph(graph):
        return ""
    top = networkx.dag_longest_path_length(graph) if graph else 0
    return f"agreed\nbound {agree.bound_of(plan, top)}\nfailures {agree.failures_of(plan, graph)}\n"


def hop_counts(plan: Plan) -> dict[str, str]:
    """How many links each element is from a nominated source."""
    graph: networkx.Graph[int] = networkx.Graph()
    graph.add_nodes_from(range(len(plan.elements)))
    graph.add_edges_from((link.a, link.b) for link in plan.links)
    roots = {source.at for source in plan.sources if source.priority}
    counts = networkx.multi_source_dijkstra_path_length(graph, roots, weight=None) if roots else {}
    return {element.name: str(counts.get(e, "none")) for e, element in enumerate(plan.elements)}


def differences(program: str, folder: str, plan: Plan) -> list[str]:
    """The forms whose answer is another than that of the model."""
    graph = hops_of(plan)
    certificate = answer(program, "large", "rank", "plan", folder=folder)
    found = ["rank"] if certificate != (0, certificate_text(plan, ranks_of(graph))) else []
    rows = answer(program, "large", "chains", "plan", folder=folder)
    found += ["chains"] if rows != (0, chains.chains_text(plan, rows_of(plan, graph))) else []
    bounds, expected = answer(program, "large", "agree", "plan", folder=folder), agreed(plan)
    found += ["agree"] if bounds != (0, expected) and (expected or bounds[0] != 1) else []
    _, text = answer(program, "large", "hops", "plan", folder=folder)
    told = dict(row.split(",")[:2] for row in text.splitlines()[1:])
    return found + (["hops"] if told != hop_counts(plan) else [])


def main() -> int:
    given = program_words(__doc__, plans=50, elements=3000, seed=1).parse_args()
    differ = lines = 0
    with tempfile.TemporaryDirectory() as folder:
        for number in range(given.plans):
            kind = ("operator", "random")[number // 2 % 2]
            topology = networks.network(kind, given.elements, given.seed + number)
            put_files(folder, {"topology": plan_text(topology)})
            form = ("nominate", "protect")[number % 2]
            status, text = octets(given.program, ["large", form, "topology"], folder)
            if status:
                print(f"plan {number}: {form} finds none")
                continue
            put_files(folder, {"plan": text})
            plan = read_plan(text.decode("ascii"))
            lines += len(plan.nominated_lines)
            for wrong in differences(given.program, folder, plan):
                differ += 1
                print(f"plan {number}: {wrong} differs")
    print(f"{given.plans} plans of {given.elements} elements, {lines} nominated lines: {differ} differ")
    return int(differ > 0)


if __name__ == "__main__":
    sys.exit(main())
