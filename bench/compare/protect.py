"""Compares what `protect` finds for random topologies with the rules of such plans, and runs each failure of some.

usage: python3 -m bench.compare.protect PROGRAM [--plans N] [--large N] [--runs N] [--seed N] [--keep FOLDER]

The topologies are those of `bench.reference.protect`: N of up to 14 elements, 1,000 without a number, and a few of up
to 200, with bundles, parallel links, islands, several sources and sources that leave no room. Of what is printed: it
is the plan but for the priorities of lines; no hops go round; each failure, by `bench.compare.protected`, leaves
everybody in reach served; each element has lines of two bundles at most, each with a number of its own behind its
sources, and first one over the fewest hops of networkx; no lines bear on one another in a circle; and of one plan in
fifty `rank`, `protected` and `agree` say so too. Just the elements that no bridge of networkx cuts off have two
inputs of different sides, and where networkx finds two ways that share no edge, or no node, over any links, it finds
such over nominated lines: ways from all clocks, or from the element of the clocks where there is one alone. Where no
plan is printed some clock's sources have to leave no room, and the rows have to be of the plan's failures. Of the
first N plans that are found, 10 without a number, that have 60 failures at most and of which the clause on survival
speaks, each failure runs as `bench.compare.survival` says. It needs Python 3.11 and networkx.
"""

import collections
import dataclasses
import random
import sys
from collections import Counter
from collections.abc import Iterable, Iterator

import networkx
from networkx.algorithms.connectivity import local_edge_connectivity, local_node_connectivity

from bench.compare import agree, protected, survival
from bench.compare.runs import compare, run_words
from bench.levels import LEVELS
from bench.program import answer, put_files
from bench.reference.plan import Plan, read_plan
from bench.reference.protect import MOST_INPUTS, broken_rules, has_room, protect, random_topology, with_two_ways

HEADER = "kind,failure,elements,first"
ASKED = 50  # of one in so many plans the other forms are asked
FEW = 60  # failures that a plan may have of which each is run


def within_limits(plan: Plan) -> Plan:
    """The topology, without priorities of lines where these give an element more inputs than it may have."""
    if max(len(inputs) for inputs in plan.inputs_of) <= MOST_INPUTS:
        return plan
    links = [dataclasses.replace(link, priority_a=0, priority_b=0) for link in plan.links]
    return Plan(plan.option, plan.elements, links, plan.sources)


def with_levels(chance: random.Random, plan: Plan) -> Plan:
    """The topology, in half of the cases with sources of several levels, floors, delays and times to wait."""
    if chance.random() < 0.5:
        return plan
    levels = chance.sample(LEVELS[plan.option][:6], 3)
    for source in plan.sources:
        source.level = chance.choice(levels)
    for element in plan.elements:
        element.wtr = chance.choice([0, 60_000])
        element.floor = chance.choice([None, "QL-SSU-B"])
    for link in plan.links:
        link.delay_a, link.delay_b = chance.randint(1, 30), chance.randint(1, 30)
    return Plan(plan.option, plan.elements, plan.links, plan.sources)


def without_priorities(plan: Plan) -> tuple[object, ...]:
    """All of a plan but for the priorities of its lines."""
    links = [dataclasses.replace(link, priority_a=0, priority_b=0) for link in plan.links]
    return plan.option, plan.elements, links, plan.sources


def sides(plan: Plan, e: int) -> set[tuple[str, int]]:
    """The sources and bundles from which an element may take its timing."""
    inputs = plan.inputs_of[e]
    return {("bundle", plan.bundle_of[i]) if plan.is_line(i) else ("source", i - plan.lines) for i in inputs}


def ways(plan: Plan, lines: Iterable[int]) -> "networkx.DiGraph[object]":
    """From a root over nominated sources, elements and bundles, each a node, as these lines lead."""
    graph: networkx.DiGraph[object] = networkx.DiGraph()
    graph.add_node("root")
    for j, source in enumerate(plan.sources):
        if source.priority:
            networkx.add_path(graph, ["root", ("source", j), source.at])
    for line in lines:
        networkx.add_path(graph, [plan.sender_of[line], ("bundle", plan.bundle_of[line]), plan.receiver_of[line]])
    return graph


def wrong_ways(found: Plan, counted: Counter[str]) -> Iterator[str]:
    """Where networkx finds other ways over nominated lines than over all links, in words."""
    two = {e for e in range(len(found.elements)) if len(sides(found, e)) > 1}
    counted["two"] += len(two)
    if two != with_two_ways(found):
        yield "two ways for others than those whom no bridge cuts off"
    over_all, over_nominated = ways(found, range(found.lines)), ways(found, found.nominated_lines)
    clocks = {source.at for source in found.sources if source.priority}
    start = next(iter(clocks)) if len(clocks) == 1 else "root"
    for e in sorted(set(range(len(found.elements))) & networkx.descendants(over_all, start)):
        for name, count in (("edge", local_edge_connectivity), ("node", local_node_connectivity)):
            most = count(over_all, start, e, cutoff=2)
            counted[name] += most > 1
            if e not in over_nominated or count(over_nominated, start, e, cutoff=2) != most:
                yield f"ways to {found.elements[e].name} that share no {name}"


def wrong_gaps(plan: Plan, text: str) -> Iterator[str]:
    """What is wrong where no plan is printed, in words."""
    if has_room(plan):
        yield "no plan, though there is room"
    head, *rows = text.splitlines()
    failures = {(failure.kind, failure.name): failure for failure in protected.failures_of(plan)}
    order, names = list(failures), [element.name for element in plan.elements]
    places = list[int]()
    for kind, name, count, first in (row.split(",") for row in rows):
        places.append(order.index((kind, name)))
        reached = protected.cut_off(plan, failures[kind, name])[0]
        if names.index(first) not in reached or not 1 <= int(count) <= len(reached):
            yield f"{kind} {name}: {count},{first}"
    if head != HEADER or not places or places != sorted(set(places)):
        yield "other rows"


def wrong_plan(plan: Plan, found: Plan) -> Iterator[str]:
    """The rules that a plan breaks that is found, in words."""
    if without_priorities(found) != without_priorities(plan):
        yield "more than priorities of lines is changed"
    yield from broken_rules(found)
    for failure in protected.failures_of(found):
        if protected.cut_off(found, failure)[1]:
            yield f"{failure.kind} {failure.name} cuts somebody off"


def wrong_answers(program: str, folder: str, found: Plan) -> Iterator[str]:
    """The forms that say something else of the plan in the file `found`, in words."""
    if answer(program, "rank", "found", folder=folder)[0]:
        yield "rank"
    if answer(program, "protected", "found", folder=folder) != (0, "protected\n"):
        yield "protected"
    if answer(program, "agree", "found", folder=folder) != agree.expected(found):
        yield "agree"


def differences(
    program: str, folder: str, plan: Plan, chance: random.Random, runs: int, counted: Counter[str]
) -> Iterator[str]:
    """What is wrong with the answer on a topology, and in the runs of each failure of the plan, in words."""
    status, text = answer(program, "protect", "plan", folder=folder)
    counted["no room"] += not has_room(plan)
    if status == 1:
        counted["refuted"] += 1
        counted["as the model"] += text == protected.expected(protect(plan), [])[1]
        yield from wrong_gaps(plan, text)
    elif status:
        yield f"ends with {status}"
    else:
        counted["found"] += 1
        found = read_plan(text)
        put_files(folder, {"found": text})
        yield from wrong_plan(plan, found)
        yield from wrong_ways(found, counted)
        if counted["found"] % ASKED == 0:
            yield from wrong_answers(program, folder, found)
        if counted["run"] < runs and survival.is_spoken_of(found) and len(list(protected.failures_of(found))) <= FEW:
            counted["run"] += 1
            yield from survival.run_failures(program, folder, found, chance, counted)


def main() -> int:
    words = run_words(__doc__, 1000, 10)
    words.add_argument("--large", type=int, default=5)
    given = words.parse_args()
    chance, counted = random.Random(given.seed), collections.Counter[str]()
    small = given.plans
    given.plans += given.large

    def plan_of() -> Plan:
        counted["made"] += 1
        count = chance.randint(1, 14) if counted["made"] <= small else chance.randint(50, 200)
        return within_limits(with_levels(chance, random_topology(chance, count)))

    def differences_of(folder: str, plan: Plan) -> Iterator[str]:
        return differences(given.program, folder, plan, chance, given.runs, counted)

    differ = compare(given, plan_of, differences_of)
    print(
        f"{given.plans} topologies: {counted['found']} plans found, {counted['refuted']} not, of {counted['no room']}"
        f" whose sources leave no room somewhere ({counted['as the model']} with the model's rows); {counted['two']}"
        f" elements with two inputs, {counted['edge']} with ways that share no edge, {counted['node']} no node;"
        f" {counted['runs']} runs of failures of {counted['run']} plans ({counted['stopped']} stopped),"
        f" {counted['in reach']} elements in reach, all in {counted['all in reach']}; of {counted['out of reach']} out of"
        f" reach {counted['follow an own clock']} follow an own clock; {differ} differ"
    )
    return 1 if differ else 0


if __name__ == "__main__":
    sys.exit(main())
