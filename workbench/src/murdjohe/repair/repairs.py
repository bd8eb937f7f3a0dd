"""Repairs of a plan in which timing may go round: sets of nominations to take away, as edits with file, line and key."""

from __future__ import annotations

import os
import re
import time
from collections.abc import Collection
from dataclasses import asdict, dataclass, replace
from typing import Any

import networkx as nx

from murdjohe.core.faults import Wrong
from murdjohe.core.wording import plural
from murdjohe.network.findings import Last
from murdjohe.plan.model import Line, Plan
from murdjohe.network.plan_file import Judgement
from murdjohe.plan import edits
from murdjohe.plan.edits import Wanted
from murdjohe.plan.plan_lines import PlanLines
from murdjohe.repair import agreement as agreeing_priorities, first_sets, greedy_sets, improvement, knots, least_sets
from murdjohe.repair.knots import LARGE, Cost, Inputs

SETS = 3  # sets that are told
SECONDS = 25.0  # of processor time, so that a busy machine finds the same, for all sets together
FIRST = 0.4  # which part of it the first set may be bettered
CONTEXT = 3  # lines around a change in a patch
LINES = re.compile(rb"[^\n]*\n|[^\n]+")


@dataclass(frozen=True)
class Found:
    """A set of lines to take away, in the order of the plan, and its cost; the lines that get a greater number besides, so that
    no elements oscillate, and whether the program says that none do."""

    lines: tuple[Line, ...]
    cost: Cost
    raised: tuple[Last, ...] = ()
    agrees: bool = True


@dataclass(frozen=True)
class Repair:
    """The knots of a plan: lines and rings of each (and whether all rings were counted), the best sets, and if these are least."""

    knots: list[tuple[int, int, bool]]
    sets: list[Found]
    is_least: bool

    def set_of(self, number: int) -> Found:
        """The set of this number, from 1 on. Raises Wrong."""
        if number > len(self.sets):
            raise Wrong(
                f"--set {number}: {plural(len(self.sets), 'set')} {'is' if len(self.sets) == 1 else 'are'} found"
            )
        return self.sets[number - 1]


def near_least(
    knot: nx.DiGraph, inputs: Inputs, first: frozenset[str], seconds: float
) -> tuple[list[frozenset[str]], bool]:
    """The best sets for a knot, from a first one on, and whether the first of them is known to be least."""
    search = least_sets.Search(knot, inputs, seconds)
    if len(knot) > improvement.SIZE:
        first = improvement.bettered(search, first, FIRST * seconds)
    return least_sets.least_sets(search, SETS, first)


def without(graph: nx.DiGraph, staying: Collection[str]) -> tuple[nx.DiGraph, frozenset[str]]:
    """The hops between the lines that may go, where those that stay are passed through; and the lines that have to go, since
    they close a ring with none but those. Raises Wrong where lines that stay make a ring by themselves."""
    left = graph.copy()
    for name in sorted(staying):
        if left.has_edge(name, name):
            raise Wrong(f"--keep: {name} closes a loop with other lines that are kept; keep fewer of them")
        left.add_edges_from([(one, other) for one in left.predecessors(name) for other in left.successors(name)])
        left.remove_node(name)
    must = frozenset(name for name in left if left.has_edge(name, name))
    left.remove_nodes_from(must)
    return left, must


def repair_of(
    network: Plan, seconds: float = SECONDS, kept: Collection[str] = (), staying: Collection[str] = ()
) -> Repair:
    """The repair of a plan; one without sets where no loop is possible. The search takes what the first set leaves of
    these seconds, and little more.

    Lines that are `kept` by another plan of the network, in which no loop is possible, may lead to a better set. Those that are
    `staying` are in none. Raises Wrong where these make a ring by themselves.
    """
    lines = network.nominated_lines()
    inputs = knots.inputs_of(network, lines)
    graph = knots.graph_of(lines)
    told = [(len(part), *knots.rings_in(part)) for part in knots.knots_of(graph)]
    graph, must = without(graph, staying) if staying else (graph, frozenset())
    parts = knots.knots_of(graph)
    if not parts:
        return Repair(told, [found_of(lines, inputs, must)] if must else [], True)
    # (all knots together, since a failure may cut off more only where lines of several go)
    knot = nx.compose_all(parts)
    end = time.process_time() + seconds
    seeds = [kept, first_sets.forward(lines, first_sets.by_hops(network))]
    first, cost = first_sets.first_set(knot, inputs, seeds)
    left = end - time.process_time()
    if all(len(part) <= LARGE for part in parts):
        best, is_least = near_least(knot, inputs, first, left)
    else:
        other = greedy_sets.greedy_set(knot, inputs, left, set(knot) - first)
        best, is_least = [min(first, other, key=lambda lines: (inputs.cost(lines), sorted(lines)))], False
    # (what has to go besides makes the sum of costs another one, so then nothing is known to be least)
    sets = [found_of(lines, inputs, removed | must) for removed in best]
    return Repair(told, sets, is_least and not must)


def found_of(lines: list[Line], inputs: Inputs, removed: frozenset[str]) -> Found:
    """A set of lines with its cost."""
    return Found(tuple(line for line in lines if line.name in removed), inputs.cost(removed))


def agreeing(plan: PlanLines, data: bytes, found: Found, lines: list[Line], inputs: Inputs) -> Found:
    """A set with what has to change besides, so that no elements oscillate: lines that get a greater number, or go too."""
    gone = {line.name for line in found.lines}
    left = edits.changed(plan, wanted(found)) if found.lines else data
    made = agreeing_priorities.agreed(plan.document.name, left, inputs, gone)
    if not made.removed:
        return replace(found, raised=tuple(made.raised.values()), agrees=made.agrees)
    whole = found_of(lines, inputs, frozenset(gone | made.removed.keys()))
    return replace(whole, raised=tuple(made.raised.values()), agrees=made.agrees)


def agreeing_sets(plan: PlanLines, data: bytes, repair: Repair) -> Repair:
    """The same sets, each with what has to change besides, so that no elements oscillate; those for which the program says that
    none do come first. Where no loop was possible, the one set may have such changes alone."""
    known = repair.sets or [Found((), (0, 0, 0, 0))]
    lines = plan.network.nominated_lines()
    inputs = knots.inputs_of(plan.network, lines)
    sets = [agreeing(plan, data, found, lines, inputs) for found in known]
    sets.sort(key=lambda found: (not found.agrees, found.cost, len(found.raised)))
    if not repair.sets and not wanted(sets[0]):
        return repair
    return replace(repair, sets=sets, is_least=repair.is_least and sets[0].cost == known[0].cost)


def wanted(found: Found) -> Wanted:
    """The priorities that a set takes away, and the greater numbers that it gives."""
    gone = {("link", line.row, line.key): 0 for line in found.lines}
    return gone | {("link", last.line.row, last.line.key): last.priority for last in found.raised}


@dataclass(frozen=True)
class Edit:
    """A key of a link that becomes 0, or greater: the line of the plan's file (from 1 on), the priority that it had, the line
    that it is of, and the number that it gets."""

    line: int | None
    link: str
    key: str
    old: int
    goes: str
    new: int = 0

    def told(self, name: str) -> str:
        what = f"{self.goes} goes" if not self.new else f"{self.goes} gets the lowest priority there"
        return f"{name}:{self.line}: {self.key} = {self.new} of link {self.link}, which was {self.old}: {what}"


def edits_of(plan: PlanLines, found: Found) -> list[Edit]:
    """Each edit of a set."""
    both = [(line, 0) for line in found.lines] + [(last.line, last.priority) for last in found.raised]
    return [
        Edit(
            plan.line("link", line.row, line.key), line.name.partition(">")[0], line.key, line.priority, line.name, new
        )
        for line, new in both
    ]


def difference(found: Found, other: Found) -> str:
    """In what another set differs from one."""
    own, others = ({line.name for line in one.lines} for one in (found, other))
    gone = [line.name for line in other.lines if line.name not in own]
    kept = [line.name for line in found.lines if line.name not in others]
    raised = [last.line.name for last in other.raised if last not in found.raised]
    said = []
    if gone or kept:
        said.append(f"it takes away {', '.join(gone) or 'nothing'} in place of {', '.join(kept) or 'nothing'}")
    if raised:
        said.append(f"it gives {', '.join(raised)} a greater number")
    return "; ".join(said) or "nothing"


def as_data(plan: PlanLines, repair: Repair, number: int, judgement: Judgement) -> dict[str, Any]:
    """A repair and what the program says of the plan without the chosen set, as JSON has it."""
    verdict, gaps = judgement.verdict, judgement.gaps or ()
    knots_told = [{"lines": lines, "rings": rings, "all_rings": are_all} for lines, rings, are_all in repair.knots]
    sets = [
        {
            "last_inputs": found.cost[0],
            "gaps": found.cost[1],
            "first_choices": found.cost[2],
            "agrees": found.agrees,
            "edits": [asdict(edit) for edit in edits_of(plan, found)],
        }
        for found in repair.sets
    ]
    left = [asdict(gap) for gap in gaps]
    return {
        "knots": knots_told,
        "least": repair.is_least,
        "set": number,
        "checked": verdict,
        "clash": judgement.clash,
        "gaps": left,
        "sets": sets,
    }


def hunks(changed: list[int], count: int) -> list[tuple[int, int]]:
    """From which line on and up to which one of so many a part of a patch goes, for the lines that differ."""
    groups: list[list[int]] = []
    for number in changed:
        if groups and number - groups[-1][-1] <= 2 * CONTEXT + 1:
            groups[-1].append(number)
        else:
            groups.append([number])
    return [(max(0, group[0] - CONTEXT), min(count, group[-1] + CONTEXT + 1)) for group in groups]


def signed(sign: bytes, line: bytes) -> bytes:
    """A line of a patch."""
    return sign + line if line.endswith(b"\n") else sign + line + b"\n\\ No newline at end of file\n"


def patch(name: str, before: bytes, after: bytes) -> bytes:
    """The change of a file as a patch, for one whose lines are as many as before."""
    old, new = LINES.findall(before), LINES.findall(after)
    path = os.fsencode(os.path.relpath(name))
    pieces = [b"--- a/", path, b"\n+++ b/", path, b"\n"]
    changed = [number for number, (one, other) in enumerate(zip(old, new)) if one != other]
    for start, end in hunks(changed, len(old)):
        pieces.append(b"@@ -%d,%d +%d,%d @@\n" % (start + 1, end - start, start + 1, end - start))
        for one, other in zip(old[start:end], new[start:end]):
            pieces += [signed(b" ", one)] if one == other else [signed(b"-", one), signed(b"+", other)]
    return b"".join(pieces)


def mended(plan: PlanLines, found: Found) -> bytes:
    """The octets of the plan without the nominations of a set."""
    return edits.changed(plan, wanted(found))
