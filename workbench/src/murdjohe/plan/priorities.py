"""Priorities of one plan taken into another of the same network, by the names of links, sources and elements."""

from __future__ import annotations

from murdjohe.plan.edits import Wanted
from murdjohe.plan.mistakes import Mistakes
from murdjohe.plan.model import Plan
from murdjohe.plan.plan_lines import PlanLines


def priorities_of(network: Plan) -> dict[str, int]:
    """The priority of each line, as `L1>B`, and of each source by its name; 0 where it isn't nominated."""
    lines = {line.name: line.priority for line in network.lines()}
    return lines | {source.name: source.priority for source in network.sources}


def rows_of(plan: PlanLines) -> dict[str, tuple[str, int, str]]:
    """Each link and source by what makes it the same in another plan, with its section, its row and what it is called."""
    found = {}
    for number, link in enumerate(plan.network.links, start=1):
        ends = " and ".join(sorted((link.a, link.b)))
        found[f"link {link.name} of {ends}"] = ("link", number, f'link "{link.name}" between {ends}')
    for number, source in enumerate(plan.network.sources, start=1):
        title = f'source "{source.name}" at {source.at}'
        found[f"source {source.name} at {source.at}"] = ("source", number, title)
    return found


def same_network(plan: PlanLines, other: PlanLines) -> None:
    """Raises Wrong with all links and sources that one of the plans has and the other hasn't."""
    mistakes = Mistakes()
    for one, two in ((plan, other), (other, plan)):
        its = rows_of(two)
        for key, (section, number, title) in rows_of(one).items():
            if key not in its:
                line = one.line(section, number, "name") or 1
                mistakes.add(
                    one.document.name, line, f"{title} isn't in {two.document.name}; add it there, or take it out"
                )
    mistakes.end()


def wanted(plan: PlanLines, priorities: dict[str, int]) -> Wanted:
    """The priorities that differ from what the plan says."""
    found: Wanted = {}
    for number, link in enumerate(plan.network.links, start=1):
        for end in "ab":
            value = priorities[link.line(end)]
            if link.priority(end) != value:
                found["link", number, f"priority_{end}"] = value
    for number, source in enumerate(plan.network.sources, start=1):
        if source.priority != priorities[source.name]:
            found["source", number, "priority"] = priorities[source.name]
    return found
