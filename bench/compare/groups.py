"""Looks at the plans that `murdjohe protect --groups` finds for random networks with ducts, and runs their groups.

usage: python3 -m bench.compare.groups PROGRAM [--networks N] [--small N] [--runs N] [--elements FROM-TO] [--seed N]
       [--keep FOLDER]

The networks have 30 to 60 elements at random places of a square, links between near ones, half as many again as there
are elements, clocks at two or three of these, and 10 to 20 groups of two to four links that lie near each other; one
group in eight has a source or an element besides. N of them are tried, 200 without a number. Of each plan that is
printed the models say that nothing but priorities of lines is changed, that hops don't go round and no lines bear on
one another in a circle, that no single failure cuts anybody off who needn't be, and just the groups do of which the
command says so; and the program's `rank`, `agree` and `protected` with the groups say so too. It tells how many groups
are covered, by `protect` alone and with them, in how many networks each is, and in how many it is known that no
priorities cover more.

Of N small networks, 60 without a number, of four or five elements and up to six links, with two to five groups, all
nominations are tried: none may cover more groups than the plan that is printed, where the command says that it knows.

In the first N plans, 20 without a number, each group that cuts nobody off fails in runs of `sim`, once out of a settled
network, its parts within three seconds, and once with parts that go down and come up again: from the bound after
failures after the last event on, or from the bound on, each element in reach has to be locked to a source at a level no
worse than the worst, and may change no more; and where all others than the group's elements are in reach, and no
nominated line that is up joins two of these, the network has to be settled, each at the best level. It needs Python
3.11, networkx, and what the workbench needs.
"""

import collections
import dataclasses
import itertools
import json
import os
import random
import subprocess
import sys
import tempfile
import time
from collections import Counter
from collections.abc import Iterator
from typing import Any

import networkx

from bench.compare import agree, protected, survival
from bench.compare.protected import DOWN, Failure, Group, cut_off, failure_of, failures_of, groups_text
from bench.program import WORKBENCH, answer, program_words, put_files
from bench.reference.plan import Event, Link, Plan, PlanElement, Source, events_text, plan_text, read_plan

Spot = tuple[float, float]
NEAR = 6  # elements, or links, of which another is near
WITHIN = 3_000  # milliseconds in which the parts of a group go down out of a settled network
SPARE = 1_000  # between what settles the network and the first of them
LONGER = 20_000  # and so long a run goes on after its bound


# ---- networks with ducts


def apart(one: Spot, other: Spot) -> float:
    """How far two places are apart, squared."""
    return (one[0] - other[0]) ** 2 + (one[1] - other[1]) ** 2


def near_pairs(chance: random.Random, spots: list[Spot]) -> list[tuple[int, int]]:
    """A tree of near elements, links to near ones from those that it ends in, and more, half as many as there are elements in all."""
    pairs = {(min(range(e), key=lambda other: apart(spots[other], spots[e])), e) for e in range(1, len(spots))}
    counts = Counter(e for pair in pairs for e in pair)
    ends = [e for e in range(len(spots)) if counts[e] == 1]
    while ends or len(pairs) < len(spots) * 3 // 2:
        one = ends.pop() if ends else chance.randrange(len(spots))
        near = sorted((e for e in range(len(spots)) if e != one), key=lambda e: apart(spots[e], spots[one]))
        other = chance.choice([e for e in near[:NEAR] if (min(one, e), max(one, e)) not in pairs] or near[:1])
        pairs.add((min(one, other), max(one, other)))
    return sorted(pairs)


def near_network(chance: random.Random, count: int) -> tuple[Plan, list[Group]]:
    """A network of so many elements, of which nothing but sources is nominated, and its groups."""
    spots = [(chance.random(), chance.random()) for _ in range(count)]
    pairs = near_pairs(chance, spots)
    wait = chance.choice([0, 60_000])
    elements = [PlanElement(f"E{e}", "QL-SEC", None, chance.choice([300, 500]), wait) for e in range(count)]
    links = [
        Link(f"L{k}", a, b, 0, 0, chance.randint(1, 30), chance.randint(1, 30), None) for k, (a, b) in enumerate(pairs)
    ]
    levels = chance.choice([["QL-PRC"], ["QL-PRC", "QL-SSU-A"]])
    clocks = chance.sample(range(count), chance.choice([2, 2, 3]))
    sources = [Source(f"S{j}", e, chance.choice(levels), 1) for j, e in enumerate(clocks)]
    middles = [((spots[a][0] + spots[b][0]) / 2, (spots[a][1] + spots[b][1]) / 2) for a, b in pairs]
    plan = Plan("I", elements, links, sources)
    return plan, [near_group(chance, plan, middles, f"D{number}") for number in range(chance.randint(10, 20))]


def near_group(chance: random.Random, plan: Plan, middles: list[Spot], name: str) -> Group:
    """A group of two to four links that lie near each other, and seldom of a source or an element besides."""
    one = chance.randrange(len(middles))
    near = sorted(range(len(middles)), key=lambda k: apart(middles[k], middles[one]))[1 : NEAR + 1]
    links = sorted([one, *chance.sample(near, min(len(near), chance.randint(1, 3)))])
    parts = [("link", plan.links[k].name) for k in links]
    if chance.random() < 1 / 8:
        more = [("source", source.name) for source in plan.sources]
        more += [("element", plan.elements[e].name) for e in (plan.links[one].a, plan.links[one].b)]
        parts.append(chance.choice(more))
    return Group(name, parts)


def small_network(chance: random.Random) -> tuple[Plan, list[Group]]:
    """A network of four or five elements, up to six links and one source or two, with two to five groups."""
    count = chance.randint(4, 5)
    elements = [PlanElement(f"E{e}", "QL-SEC", None, 300, 0) for e in range(count)]
    pairs = [(chance.randrange(e), e) for e in range(1, count)]
    free = [pair for pair in itertools.combinations(range(count), 2) if pair not in pairs]
    pairs += chance.sample(free, min(len(free), 6 - len(pairs)))
    links = [Link(f"L{k}", a, b, 0, 0, 1, 1, None) for k, (a, b) in enumerate(pairs)]
    clocks = chance.sample(range(count), chance.choice([1, 1, 2]))
    plan = Plan("I", elements, links, [Source(f"S{j}", e, "QL-PRC", 1) for j, e in enumerate(clocks)])
    sizes = [chance.randint(1, 3) for _ in range(chance.randint(2, 5))]
    names = [("link", link.name) for link in links]
    return plan, [Group(f"D{number}", chance.sample(names, size)) for number, size in enumerate(sizes)]


# ---- the plan that is found


def found_of(program: str, folder: str) -> dict[str, Any]:
    """What `murdjohe protect --groups` says of the network in a folder."""
    environment = {**os.environ, "MURDJOHE_CORE": program}
    words = [str(WORKBENCH), "protect", "plan", "--groups", "groups", "--json"]
    run = subprocess.run(words, cwd=folder, env=environment, capture_output=True, check=False)
    if run.returncode not in (0, 1):
        raise SystemExit(f"protect --groups ends with {run.returncode}: {run.stderr.decode()}")
    return dict(json.loads(run.stdout)["answer"])


def without_priorities(plan: Plan) -> tuple[object, ...]:
    """All of a plan but for the priorities of its lines."""
    return plan.elements, [dataclasses.replace(link, priority_a=0, priority_b=0) for link in plan.links], plan.sources


def is_safe(plan: Plan) -> bool:
    """Whether hops don't go round, and no lines bear on one another in a circle."""
    return plan.least_ranks() is not None and bool(networkx.is_directed_acyclic_graph(agree.bearing(plan)))


def open_groups(plan: Plan, groups: list[Group]) -> list[str]:
    """The groups that cut somebody off who needn't be."""
    return [group.name for group in groups if cut_off(plan, failure_of(plan, group))[1]]


def wrong_plan(program: str, folder: str, plan: Plan, groups: list[Group], told: dict[str, Any]) -> Iterator[str]:
    """What is wrong with a plan that was found, in words."""
    found = read_plan(told["plan"])
    if without_priorities(found) != without_priorities(plan):
        yield "more than priorities of lines is changed"
    if not is_safe(found):
        yield "lines go round"
    if any(cut_off(found, failure)[1] for failure in failures_of(found)):
        yield "a single failure cuts somebody off"
    if open_groups(found, groups) != [gap["failure"] for gap in told["gaps"]]:
        yield "other groups cut somebody off than are told"
    put_files(folder, {"found": told["plan"]})
    if answer(program, "rank", "found", folder=folder)[0] or answer(program, "agree", "found", folder=folder)[0]:
        yield "rank or agree refutes it"
    if answer(program, "protected", "found", "groups", folder=folder) != protected.expected(found, groups):
        yield "protected says something else"


# ---- all nominations of a small network


def with_lines(plan: Plan, lines: tuple[int, ...], last: tuple[int | None, ...]) -> Plan:
    """The plan with these lines nominated, those of each element's last resort behind all others."""
    given = {line: 3 if last[plan.receiver_of[line]] == plan.bundle_of[line] else 2 for line in lines}
    links = [
        dataclasses.replace(link, priority_b=given.get(2 * k, 0), priority_a=given.get(2 * k + 1, 0))
        for k, link in enumerate(plan.links)
    ]
    return Plan(plan.option, plan.elements, links, plan.sources)


def may_be_safe(plan: Plan, lines: tuple[int, ...]) -> bool:
    """Whether these lines may be nominated by some priorities, of which each element may have a last resort."""
    bundles = [
        [None, *sorted({plan.bundle_of[line] for line in lines if plan.receiver_of[line] == e})]
        for e in range(len(plan.elements))
    ]
    return any(is_safe(with_lines(plan, lines, last)) for last in itertools.product(*bundles))


def most_covered(plan: Plan, groups: list[Group], least: int) -> int:
    """The most groups that any nomination covers under which no single failure cuts anybody off, so many at least."""
    best, none = least, tuple([None] * len(plan.elements))
    for count in range(plan.lines + 1):
        for lines in itertools.combinations(range(plan.lines), count):
            nominated = with_lines(plan, lines, none)
            covered = len(groups) - len(open_groups(nominated, groups))
            is_better = covered > best and not any(cut_off(nominated, one)[1] for one in failures_of(nominated))
            if is_better and may_be_safe(plan, lines):
                best = covered
    return best


# ---- runs


def is_apart(plan: Plan, group: Group, events: list[Event]) -> bool:
    """Whether no nominated line that is up at the end joins two elements of a group."""
    its = {name for kind, name in group.parts if kind == "element"}
    down = agree.Standing(plan, events).down
    ends = [(plan.sender_of[line], plan.receiver_of[line]) for line in plan.nominated_lines if line not in down]
    return not any({plan.elements[a].name, plan.elements[b].name} <= its for a, b in ends)


def out_of_rest(chance: random.Random, failure: Failure, start: int) -> list[Event]:
    """All parts of a group go down within some seconds, in any order."""
    parts = survival.parts_of(failure)
    times = sorted(start + chance.randint(0, WITHIN) for _ in parts)
    return [Event(at, "down", part) for at, part in zip(times, chance.sample(parts, len(parts)))]


def wrong_end(
    plan: Plan, group: Group, events: list[Event], rest: int, text: str, counted: Counter[str]
) -> Iterator[str]:
    """What is wrong at the end of a run of a group, from a millisecond on, in words."""
    failure, end = failure_of(plan, group), survival.end_of(plan, text)
    reached = cut_off(plan, failure)[0]
    counted["in reach"] += len(reached)
    for e in sorted(reached):
        yield from survival.wrong_in_reach(plan, plan.elements[e].name, rest, end)
    its = {name for kind, name in group.parts if kind == "element"}
    others = all(e in reached or element.name in its for e, element in enumerate(plan.elements))
    if others and is_apart(plan, group, events):
        counted["all in reach"] += 1
        yield from survival.wrong_of_all(plan, events, reached, end)


def run_group(
    program: str, folder: str, plan: Plan, group: Group, chance: random.Random, counted: Counter[str]
) -> Iterator[str]:
    """What is wrong in the runs of a group that cuts nobody off, in words: out of a settled network, and with repairs."""
    words = agree.expected(plan)[1].split()
    bound, failures = int(words[2]), int(words[4])
    failure = failure_of(plan, group)
    runs = [(out_of_rest(chance, failure, bound + SPARE), failures), (survival.up_and_down(chance, failure), bound)]
    for events, after in runs:
        rest = max([DOWN] * (after == bound) + [event.at for event in events]) + after
        put_files(folder, {"events": events_text(plan, events)})
        status, text = answer(program, "sim", "found", "events", rest + LONGER, folder=folder)
        counted["stopped"] += status == 11
        if status == 0:
            counted["runs"] += 1
            yield from (f"{group.name}: {wrong}" for wrong in wrong_end(plan, group, events, rest, text, counted))
        elif status != 11:
            yield f"{group.name}: sim ends with {status}"


# ---- all of it


def tried(
    program: str, folder: str, plan: Plan, groups: list[Group], counted: Counter[str]
) -> tuple[dict[str, Any], list[str]]:
    """What is found for a network, and what is wrong with it, in words."""
    put_files(folder, {"plan": plan_text(plan), "groups": groups_text(groups)})
    before = time.monotonic()
    told = found_of(program, folder)
    counted["longest"] = max(counted["longest"], round((time.monotonic() - before) * 1000))
    wrong = list(wrong_plan(program, folder, read_plan(plan_text(plan)), groups, told))
    alone = read_plan(answer(program, "protect", "plan", folder=folder)[1])
    counted["networks"] += 1
    counted["groups"] += len(groups)
    counted["alone"] += len(groups) - len(open_groups(alone, groups))
    counted["covered"] += len(groups) - len(told["gaps"])
    counted["each alone"] += not open_groups(alone, groups)
    counted["each"] += not told["gaps"]
    counted["known"] += told["none_do_better"]
    counted["parting"] += len(told["without_way"])
    return told, wrong


def large_networks(given: Any, folder: str, chance: random.Random, counted: Counter[str]) -> Iterator[str]:
    """What is wrong with the plans of networks with ducts, and in the runs of their groups, in words."""
    first, last = map(int, given.elements.split("-"))
    for number in range(given.networks):
        plan, groups = near_network(chance, chance.randint(first, last))
        told, wrong = tried(given.program, folder, plan, groups, counted)
        if number < given.runs:
            found, open_ones = read_plan(told["plan"]), {gap["failure"] for gap in told["gaps"]}
            for group in groups:
                if group.name not in open_ones:
                    wrong += run_group(given.program, folder, found, group, chance, counted)
        yield from (f"network {number}: {one}" for one in wrong)


def small_networks(given: Any, folder: str, chance: random.Random, counted: Counter[str]) -> Iterator[str]:
    """What is wrong with the plans of small networks, beside all nominations, in words."""
    for number in range(given.small):
        plan, groups = small_network(chance)
        told, wrong = tried(given.program, folder, plan, groups, counted)
        covered = len(groups) - len(told["gaps"])
        most = most_covered(plan, groups, covered)
        counted["least of all"] += most == covered
        if told["none_do_better"] and most > covered:
            wrong.append(f"{most} groups are covered by another nomination, and no more than {covered} are told")
        yield from (f"small network {number}: {one}" for one in wrong)


def said(counted: Counter[str]) -> str:
    """What was found in so many networks."""
    return (
        f"{counted['networks']} networks, {counted['groups']} groups, of which {counted['parting']} part the network:"
        f" {counted['alone']} cut nobody off by `protect` alone, {counted['covered']} with --groups; each group in"
        f" {counted['each alone']} and {counted['each']} networks; known that none do better in {counted['known']};"
        f" {counted['longest']} ms at most"
    )


def main() -> int:
    words = program_words(__doc__, networks=200, small=60, runs=20, seed=1)
    words.add_argument("--elements", default="30-60", metavar="FROM-TO")
    words.add_argument("--keep", help="leaves the files of the last network in this folder")
    given = words.parse_args()
    chance, wrong = random.Random(given.seed), 0
    large, small = collections.Counter[str](), collections.Counter[str]()
    with tempfile.TemporaryDirectory() as passing:
        folder = given.keep or passing
        for one in itertools.chain(
            large_networks(given, folder, chance, large), small_networks(given, folder, chance, small)
        ):
            wrong += 1
            print(one)
    print(said(large))
    print(
        f"{large['runs']} runs of groups ({large['stopped']} stopped), {large['in reach']} elements in reach, all others"
        f" than the group's in {large['all in reach']}"
    )
    print(f"small: {said(small)}; the most of all nominations in {small['least of all']}")
    print(f"{wrong} wrong")
    return 1 if wrong else 0


if __name__ == "__main__":
    sys.exit(main())
