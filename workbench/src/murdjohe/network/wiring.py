"""How a plan is wired: which element each line comes from and leads to, which bundle it belongs to, and where sources are."""

from __future__ import annotations

from dataclasses import dataclass
from functools import cached_property

from murdjohe.plan.model import Line as Line, Plan


@dataclass(frozen=True)
class Wiring:
    """The elements in the order of the plan with the levels of their own clocks, the lines by name, and where each source is."""

    elements: tuple[str, ...]
    own: dict[str, str]
    lines: dict[str, Line]
    sources: dict[str, str]

    @cached_property
    def by_link(self) -> dict[str, tuple[str, ...]]:
        """The lines of each link."""
        found: dict[str, tuple[str, ...]] = {}
        for line in self.lines.values():
            found[line.link] = (*found.get(line.link, ()), line.name)
        return found

    def element_of(self, name: str) -> str | None:
        """The element that an input, a line or a source, belongs to."""
        return self.lines[name].receiver if name in self.lines else self.sources.get(name)

    def lines_of(self, target: str) -> tuple[str, ...]:
        """The lines of a link, or the line of this name."""
        return (target,) if target in self.lines else self.by_link.get(target, ())


def wiring_of(network: Plan) -> Wiring:
    """The wiring of a plan that the program took."""
    clocks = {element.name: element.own for element in network.elements}
    sources = {source.name: source.at for source in network.sources}
    return Wiring(tuple(clocks), clocks, {line.name: line for line in network.lines()}, sources)


def nominated_of(network: Plan) -> frozenset[str]:
    """The names of all nominated inputs, lines and sources."""
    lines = {line.name for line in network.nominated_lines()}
    return frozenset(lines | {source.name for source in network.nominated_sources()})
