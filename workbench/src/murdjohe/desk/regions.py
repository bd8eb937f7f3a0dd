"""Large plans by regions: parts of some hundred elements that hang together, a map of these, and the network of each.

In the network of a region the elements outside to which its links lead are drawn too. What one of these takes from other elements
is shown as a source beyond it.
"""

from __future__ import annotations

from collections import Counter, deque
from typing import Any

from murdjohe.core.wording import plural
from murdjohe.desk import views
from murdjohe.desk.views import BEYOND, Sheet
from murdjohe.picture import page_data
from murdjohe.plan.model import OWN as WORST, Element, Link, Plan, Source

PLAIN: dict[str, Any] = {"colour": "#FFFFFF", "ink": "#000000", "isUsed": False}  # how the map draws a region
SIZE = 300  # elements of a region
LEAST = 40  # a region with fewer is joined with another one beside it


class Regions:
    """The regions of a plan: the number of each element's, and the sheets of those that were looked into."""

    def __init__(self, of: dict[str, int]) -> None:
        self.of = of
        self.sheets: dict[int, Sheet] = {}
        self.map: Sheet | None = None

    def follow(self, plan: Plan) -> None:
        """Gives elements that came a region, that of a neighbour where they have one; those that went are forgotten."""
        beside = neighbours_of(plan)
        for name in beside:
            if name not in self.of:
                self.of[name] = next((self.of[other] for other in beside[name] if other in self.of), 0)
        self.of = {name: self.of[name] for name in beside}

    def part_of(self, plan: Plan, region: int | None) -> Plan:
        """The plan of a region with the ends of its links outside; the map of regions as a plan without one."""
        if region is None:
            return Plan(plan.option, (), (), ())
        links = tuple(link for link in plan.links if region in (self.of.get(link.a), self.of.get(link.b)))
        inside = {name for name, number in self.of.items() if number == region}
        names = inside.union(*((link.a, link.b) for link in links)) if links else inside
        elements = tuple(element for element in plan.elements if element.name in names)
        sources = [source for source in plan.sources if source.at in names]
        beyond = [Source(f"{BEYOND}{name}", name, WORST[plan.option], 0) for name in sorted(names - inside)]
        return Plan(plan.option, elements, links, (*sources, *beyond))

    def overview(self, plan: Plan) -> Plan:
        """The map: a region is an element, called after its first one, and all links between two regions are one."""
        first: dict[int, str] = {}
        for element in plan.elements:
            first.setdefault(self.of[element.name], element.name)
        names = {number: f"{name} .." for number, name in first.items()}
        elements = tuple(Element(names[number], "QL-SEC") for number in sorted(names))
        between = {
            (min(self.of[link.a], self.of[link.b]), max(self.of[link.a], self.of[link.b]))
            for link in plan.links
            if self.of[link.a] != self.of[link.b]
        }
        links = tuple(Link(f"{a}-{b}", names[a], names[b]) for a, b in sorted(between))
        return Plan(plan.option, elements, links, ())

    def network(self, plan: Plan, region: int | None) -> dict[str, Any]:
        """The map of regions, or the network of one of them. Raises Wrong."""
        if region is None:
            drawn = self.overview(plan)._replace(option="I")
            self.map = self.map or views.map_of(drawn)
            views.completed(self.map, drawn, {})
            found = views.network_of(drawn, self.map)
            sizes = Counter(self.of.values())
            for place, element in enumerate(found["elements"]):
                element["own"] = place
            levels = [{"name": plural(sizes[number], "element"), **PLAIN} for number in sorted(sizes)]
            return {**found, "levels": levels, "regions": [[number, sizes[number]] for number in sorted(sizes)]}
        part = self.part_of(plan, region)
        if region not in self.sheets:
            self.sheets[region] = views.sheet_of(part)
        sheet = self.sheets[region]
        views.completed(sheet, part, {})
        found = views.network_of(part, sheet)
        return {**found, "levels": page_data.levels_of(plan.option, views.levels_in(plan))}


def neighbours_of(plan: Plan) -> dict[str, list[str]]:
    """The neighbours of each element."""
    found: dict[str, list[str]] = {element.name: [] for element in plan.elements}
    for link in plan.links:
        found[link.a].append(link.b)
        found[link.b].append(link.a)
    return found


def grown(start: str, beside: dict[str, list[str]], left: dict[str, None]) -> list[str]:
    """Elements that are in no region yet, from one on, the nearest first."""
    found: list[str] = []
    waiting = deque([start])
    del left[start]
    while waiting and len(found) < SIZE:
        here = waiting.popleft()
        found.append(here)
        for other in beside[here]:
            if other in left and len(found) + len(waiting) < SIZE:
                del left[other]
                waiting.append(other)
    return found + list(waiting)


def regions_of(plan: Plan) -> Regions:
    """The regions of a plan, by its links; the same for the same plan."""
    beside = neighbours_of(plan)
    left: dict[str, None] = dict.fromkeys(beside)
    of: dict[str, int] = {}
    count, rest = 0, None  # (the region of small parts that hang together with no other)
    while left:
        part = grown(next(iter(left)), beside, left)
        joined = Counter(of[other] for name in part for other in beside[name] if other in of)
        number = count
        if len(part) < LEAST:
            rest = count if rest is None and not joined else rest
            number = joined.most_common(1)[0][0] if joined else rest or 0
        count += number == count
        of.update(dict.fromkeys(part, number))
    return Regions(of)
