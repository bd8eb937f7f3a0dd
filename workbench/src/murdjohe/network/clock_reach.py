"""What a planner should know of an accepted plan: which elements have a way to a clock over nominated lines.

This decides nothing: it only counts what a plan says that the program took.
"""

from __future__ import annotations

TYPE_CHECKING = False
if TYPE_CHECKING:
    from murdjohe.plan.model import Plan


def hops_of(network: Plan) -> dict[str, list[str]]:
    """For each element those to which a nominated line leads from it."""
    found: dict[str, list[str]] = {name: [] for name in network.names()}
    for line in network.nominated_lines():
        found[line.sender].append(line.receiver)
    return found


def roots_of(network: Plan) -> list[str]:
    """The elements with a nominated source."""
    return [source.at for source in network.nominated_sources()]


def without_way(network: Plan) -> list[str]:
    """The elements to which no nominated lines lead from a nominated source, in the order of the plan."""
    hops, todo = hops_of(network), roots_of(network)
    reached = set(todo)
    while todo:
        after = [element for element in hops[todo.pop()] if element not in reached]
        reached.update(after)
        todo.extend(after)
    return [element for element in hops if element not in reached]
