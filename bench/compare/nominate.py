"""Compares `hops` and `nominate` on random plans with the graph library networkx and with the rules.

usage: python3 -m bench.compare.nominate PROGRAM [--plans N] [--seed N] [--keep FOLDER]

Of each plan: the counts of `hops` are the distances from the nearest element with a nominated source that networkx
finds, and each `from` is the lowest-numbered source or line that may stand there; what `nominate` writes has the
priorities that the rules give, and all else as before; `check` accepts it with the certificate by the order of
elements; `rank` gives it ranks; and `agree` says that it agrees, with the bound of `bench.compare.agree`. The plans
have up to 14 elements, several parts, parallel links, bundles, sources that aren't nominated, and priorities up to 255;
some have elements with 60 sources and more. It needs Python 3.11 and networkx.
"""

import random
import sys
import tempfile
import tomllib
from collections.abc import Iterator
from typing import Any

import networkx

from bench.compare import agree
from bench.program import answer, program_words, put_files
from bench.reference import plan as reference

Row = dict[str, Any]
# Elements by name, links and sources.
Tables = tuple[list[str], list[Row], list[Row]]


def random_plan(numbers: random.Random) -> Tables:
    """Up to 14 elements, with several parts, and now and then very many sources."""
    count = numbers.randrange(1, 15)
    elements = [f"E{i}" for i in range(count)]
    links: list[Row] = []
    if count > 1:
        for k in range(numbers.randrange(0, 3 * count)):
            a, b = numbers.sample(elements, 2)
            bundle = None
            if numbers.randrange(4) == 0:
                bundle = "B" + "-".join(sorted((a, b)))
            links.append({"name": f"L{k}", "a": a, "b": b, "bundle": bundle})
    sources: list[Row] = []
    for at in elements:
        few = numbers.choice((0, 0, 0, 1, 1, 2))
        if numbers.randrange(40) == 0:
            few = numbers.randrange(58, 65)
        for _ in range(few):
            priority = numbers.choice((0, 1, 1, 2, 7, 251, 253, 254, 255))
            sources.append({"name": f"S{len(sources)}", "at": at, "priority": priority})
    return elements, links, sources


def plan_text(elements: list[str], links: list[Row], sources: list[Row]) -> str:
    """The plan file of the tables."""
    bundled = any(link["bundle"] for link in links)
    parts = ["version = 2\n" if bundled else "", 'option = "I"\n']
    for name in elements:
        parts.append(f'\n[[element]]\nname = "{name}"\n')
    for link in links:
        parts.append(f'\n[[link]]\nname = "{link["name"]}"\na = "{link["a"]}"\nb = "{link["b"]}"\n')
        if link["bundle"]:
            parts.append(f'bundle = "{link["bundle"]}"\n')
    for source in sources:
        parts.append(
            f'\n[[source]]\nname = "{source["name"]}"\nat = "{source["at"]}"\nlevel = "QL-PRC"\n'
            f'priority = {source["priority"]}\n'
        )
    return "".join(parts)


def counts_of(elements: list[str], links: list[Row], sources: list[Row]) -> dict[str, int]:
    """How far each element is from one with a nominated source."""
    graph = networkx.Graph()
    graph.add_nodes_from(elements)
    graph.add_edges_from((link["a"], link["b"]) for link in links)
    roots = {source["at"] for source in sources if source["priority"]}
    if not roots:
        return {}
    return dict(networkx.multi_source_dijkstra_path_length(graph, roots, weight=None))


def lines_of(links: list[Row]) -> Iterator[tuple[str, str, str]]:
    """The lines in order of number: name, sender, receiver."""
    for link in links:
        yield f'{link["name"]}>{link["b"]}', link["a"], link["b"]
        yield f'{link["name"]}>{link["a"]}', link["b"], link["a"]


def hops_text(elements: list[str], links: list[Row], sources: list[Row], counts: dict[str, int]) -> str:
    """What `hops` has to print."""
    rows = ["element,hops,from\n"]
    for element in elements:
        count = counts.get(element)
        found = []
        if count == 0:
            found = [s["name"] for s in sources if s["at"] == element and s["priority"]]
        elif count is not None:
            found = [name for name, a, b in lines_of(links) if b == element and counts.get(a) == count - 1]
        rows.append(f'{element},{"none" if count is None else count},{found[0] if found else "none"}\n')
    return "".join(rows)


def priorities_of(elements: list[str], links: list[Row], sources: list[Row], counts: dict[str, int]) -> list[int]:
    """The priorities that `nominate` has to give, by line."""
    numbers = {element: i for i, element in enumerate(elements)}
    lines = list(lines_of(links))
    given = [0] * len(lines)
    for element in elements:
        own = [s["priority"] for s in sources if s["at"] == element and s["priority"]]
        into = [
            (counts[a], line)
            for line, (_, a, b) in enumerate(lines)
            if b == element and a in counts and b in counts and (counts[a], numbers[a]) < (counts[b], numbers[b])
        ]
        for q, (_, line) in enumerate(sorted(into), 1):
            priority = max(own, default=0) + q
            if priority <= 255 and q + len(own) <= 64:
                given[line] = priority
    return given


def differences(program: str, folder: str, plan: Tables) -> Iterator[str]:
    """What is wrong with the answers on a plan, in a word each."""
    elements, links, sources = plan
    counts = counts_of(*plan)
    put_files(folder, {"plan": plan_text(*plan)})
    if answer(program, "hops", "plan", folder=folder) != (0, hops_text(*plan, counts)):
        yield "hops"
    status, text = answer(program, "nominate", "plan", folder=folder)
    if status:
        yield f"nominate ends with {status}"
        return
    read = tomllib.loads(text)
    given = priorities_of(*plan, counts)
    wrote = [p for link in read.get("link", []) for p in (link.get("priority_b", 0), link.get("priority_a", 0))]
    if wrote != given:
        yield "priorities"
    if [link.get("bundle") for link in read.get("link", [])] != [link["bundle"] for link in links]:
        yield "bundles"
    if [s.get("priority", 1) for s in read.get("source", [])] != [s["priority"] for s in sources]:
        yield "sources"
    order = sorted((e for e in elements if e in counts), key=lambda e: (counts[e], elements.index(e)))
    rows = [f"{name},{order.index(a)}\n" for (name, a, _), p in zip(lines_of(links), given) if p]
    put_files(folder, {"nominated": text, "certificate": "line,rank\n" + "".join(rows)})
    if answer(program, "check", "nominated", "certificate", folder=folder) != (0, "accepted\n"):
        yield "check"
    if answer(program, "rank", "nominated", folder=folder)[0]:
        yield "rank"
    agreed = answer(program, "agree", "nominated", folder=folder)
    if agreed[0] or agreed != agree.expected(reference.read_plan(text)):
        yield "agree"


def main() -> int:
    parser = program_words(__doc__, plans=500, seed=1)
    parser.add_argument("--keep")
    options = parser.parse_args()
    program = options.program
    numbers = random.Random(options.seed)
    with tempfile.TemporaryDirectory() as passing:
        folder = options.keep or passing
        lines = nominated = unreached = wrong = 0
        for number in range(options.plans):
            plan = random_plan(numbers)
            counts = counts_of(*plan)
            lines += 2 * len(plan[1])
            nominated += sum(1 for p in priorities_of(*plan, counts) if p)
            unreached += sum(1 for e in plan[0] if e not in counts)
            for difference in differences(program, folder, plan):
                wrong += 1
                print(f"plan {number}: {difference}")
                if options.keep:
                    sys.exit(1)
        print(
            f"{options.plans} plans, {lines} lines of which {nominated} are nominated, {unreached} elements without"
            f" a count: {wrong} differences"
        )
        sys.exit(1 if wrong else 0)


if __name__ == "__main__":
    main()
