"""What to change in a plan so that no neighbours take timing from each other for ever.

Whether priorities agree the program says, by `agree`; here is sought what to change where they don't. Of a link or bundle that is
nominated at both ends one end has to be its element's last resort, and an element has one such bundle at most. So ends are matched
with elements; a bundle for which no element is left loses its nomination at the end that costs least.
"""

from __future__ import annotations

import time
from collections.abc import Iterable
from dataclasses import dataclass, field

import networkx as nx

from murdjohe.answers import api
from murdjohe.answers.reports import Loop
from murdjohe.core.documents import Document
from murdjohe.network import findings
from murdjohe.network.findings import Last, Looked, Pair
from murdjohe.plan.model import LOWEST, Line
from murdjohe.plan import edits
from murdjohe.plan.edits import Wanted
from murdjohe.plan.plan_lines import PlanLines
from murdjohe.repair.knots import Inputs

ROUNDS = 200  # clashes that are ended one by one at most
SECONDS = 15.0  # of processor time in which all of this is sought


@dataclass
class Changes:
    """What is changed: lines that get a greater number, lines that lose theirs, and whether the program says that none oscillate."""

    raised: dict[str, Last] = field(default_factory=dict)
    removed: dict[str, Line] = field(default_factory=dict)
    agrees: bool = False

    @property
    def wanted(self) -> Wanted:
        """The changes as numbers of the plan."""
        greater = {("link", one.line.row, one.line.key): one.priority for one in self.raised.values()}
        return greater | {("link", line.row, line.key): 0 for line in self.removed.values()}


def at_end(pair: Pair, element: str) -> list[Line]:
    """The lines of a pair that lead into one of its elements."""
    return [line for line in pair.lines if line.receiver == element]


def others_at(looked: Looked, lines: list[Line]) -> list[int]:
    """The priorities of the inputs of an element that aren't of the bundle of these lines."""
    own = {line.name for line in looked.lines if line.bundle == lines[0].bundle}
    return [one.priority for one in looked.orders[lines[0].receiver].inputs if one.name not in own]


def is_last(looked: Looked, lines: list[Line]) -> bool:
    """Whether these lines of a bundle are the last resort of their element."""
    return min(line.priority for line in lines) > max(others_at(looked, lines), default=0)


def ends_of(pair: Pair) -> list[str]:
    """The two elements of a pair."""
    return list(dict.fromkeys(line.receiver for line in pair.lines))


def matched(looked: Looked, pairs: list[Pair]) -> tuple[dict[str, str], list[Pair]]:
    """For each pair without a last resort the element at which it becomes one, by the name of the pair; and the pairs for which
    none is left."""
    graph, open_pairs, taken = nx.Graph(), [], set()
    for pair in pairs:
        own = [end for end in ends_of(pair) if is_last(looked, at_end(pair, end))]
        taken.update(own[:1])
        if not own:
            open_pairs.append(pair)
    tops = [("pair", pair.kind, pair.name) for pair in open_pairs]
    graph.add_nodes_from(tops)
    for top, pair in zip(tops, open_pairs):
        for end in ends_of(pair):
            others = max(others_at(looked, at_end(pair, end)), default=0)
            if end not in taken and others < LOWEST:
                graph.add_edge(top, ("element", end))
    found = nx.bipartite.maximum_matching(graph, top_nodes=tops)
    places = {top[2]: found[top][1] for top in tops if top in found}
    return places, [pair for pair in open_pairs if pair.name not in places]


def cheaper_end(inputs: Inputs, pair: Pair, gone: set[str], end: float) -> list[Line]:
    """The lines of that end of a pair which cost least to take away beside what goes already."""
    ends = [at_end(pair, element) for element in ends_of(pair)]
    if time.process_time() > end:
        return max(ends, key=lambda lines: min(line.priority for line in lines))
    return min(ends, key=lambda lines: inputs.cost(gone | {line.name for line in lines}))


def at_once(looked: Looked, inputs: Inputs, gone: Iterable[str], end: float) -> Changes:
    """The changes after which each link or bundle that is nominated at both ends has a last resort at one."""
    pairs, made, away = list(findings.pairs_of(looked)), Changes(), set(gone)
    places, left = matched(looked, pairs)
    for pair in pairs:
        if pair.name in places:
            lines = at_end(pair, places[pair.name])
            priority = 1 + max(others_at(looked, lines), default=0)
            made.raised |= {line.name: Last(line, max(priority, line.priority)) for line in lines}
    for pair in left:
        for line in cheaper_end(inputs, pair, away, end):
            made.removed[line.name] = line
            away.add(line.name)
    return made


def one_more(plan: PlanLines, clash: Loop, made: Changes) -> bool:
    """Ends one more clash, by a greater number; whether that can be."""
    looked = Looked(plan)
    settled = {last.line.receiver: last.line.bundle for last in made.raised.values()}
    barred = {line.name for line in looked.lines if settled.get(line.receiver, line.bundle) != line.bundle}
    last = findings.last_resort(looked, clash, barred | made.raised.keys())
    if last is None:
        return False
    made.raised[last.line.name] = last
    return True


def agreed(name: str, data: bytes, inputs: Inputs, gone: Iterable[str] = ()) -> Changes:
    """What to change in a plan without these lines, so that no elements oscillate, as far as that is found; nothing where none do."""
    clash = api.agree(data).result.clash
    if clash is None:
        return Changes(agrees=True)
    end = time.process_time() + SECONDS
    plan = PlanLines(Document(name, data))
    made = at_once(Looked(plan), inputs, gone, end)
    for _ in range(ROUNDS):
        changed = edits.changed(plan, made.wanted) if made.wanted else data
        clash = api.agree(changed).result.clash
        if clash is None:
            made.agrees = True
            return made
        if time.process_time() > end or not one_more(PlanLines(Document(name, changed)), clash, made):
            return made
    return made
