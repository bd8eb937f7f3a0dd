"""A plan as the field has it: elements, links, sources, and the lines of links, with the defaults of the format.

It is made of the tables of a plan that is right, as the program takes it. Its rows are named tuples, since every start of `check`
makes them: dataclasses take an eighth of what a start may take to import.
"""

from __future__ import annotations

from collections.abc import Iterator
from typing import Any, NamedTuple

OWN = {"I": "QL-SEC", "II": "QL-ST3"}  # the level of an element's own clock where a plan names none
HOLDOFF, WTR = 300, 5  # milliseconds and minutes where a plan says nothing else
LOWEST = 255  # the lowest priority
Row = dict[str, int | str]  # a row as a file spells it: the keys that stand there
ENDS = (("b", "a"), ("a", "b"))  # the ends into which the lines of a link lead, in their order, each with the other one


class Element(NamedTuple):
    """An element; times in milliseconds (holdoff) and minutes (wtr)."""

    name: str
    own: str
    floor: str | None = None
    holdoff: int = HOLDOFF
    wtr: int = WTR


class Link(NamedTuple):
    """A link between the elements a and b; a priority of 0 doesn't nominate, delays are in milliseconds."""

    name: str
    a: str
    b: str
    priority_a: int = 0
    priority_b: int = 0
    delay_a: int = 1
    delay_b: int = 1
    bundle: str | None = None

    def element(self, end: str) -> str:
        """The element at an end, `a` or `b`."""
        return self.a if end == "a" else self.b

    def priority(self, end: str) -> int:
        """The priority that the element at an end gives it."""
        return self.priority_a if end == "a" else self.priority_b

    def delay(self, end: str) -> int:
        """The delay of the line into an end."""
        return self.delay_a if end == "a" else self.delay_b

    def line(self, end: str) -> str:
        """The name of the line into an end."""
        return f"{self.name}>{self.element(end)}"

    @property
    def whole(self) -> tuple[str, str]:
        """What fails with it as one, its kind and name: its bundle, or itself."""
        return ("link", self.name) if self.bundle is None else ("bundle", self.bundle)


class Source(NamedTuple):
    """A clock at an element; a priority of 0 doesn't nominate."""

    name: str
    at: str
    level: str
    priority: int = 1


class Line(NamedTuple):
    """One way of a link: its name as `L1>B`, its number from 0 on, its link and the end into which it leads, where it begins and ends,
    its priority there, its bundle (or its link, where that has none), and its delay."""

    name: str
    number: int
    link: str
    end: str
    sender: str
    receiver: str
    priority: int
    bundle: tuple[str, str]
    delay: int = 1

    @property
    def row(self) -> int:
        """The number of its link in the plan, from 1 on."""
        return self.number // 2 + 1

    @property
    def key(self) -> str:
        """The key of its priority in that row."""
        return f"priority_{self.end}"


class Plan(NamedTuple):
    """The network of a plan: its option, and the rows of its sections in their order."""

    option: str
    elements: tuple[Element, ...]
    links: tuple[Link, ...]
    sources: tuple[Source, ...]

    def lines(self) -> Iterator[Line]:
        """Each line: that into end b of a link before that into end a."""
        for number, link in enumerate(self.links):
            for side, (end, other) in enumerate(ENDS):
                yield Line(
                    link.line(end),
                    2 * number + side,
                    link.name,
                    end,
                    link.element(other),
                    link.element(end),
                    link.priority(end),
                    link.whole,
                    link.delay(end),
                )

    def nominated_lines(self) -> list[Line]:
        """The lines with a priority."""
        return [line for line in self.lines() if line.priority]

    def nominated_sources(self) -> list[Source]:
        """The sources with a priority."""
        return [source for source in self.sources if source.priority]

    def names(self) -> tuple[str, ...]:
        """The names of the elements."""
        return tuple(element.name for element in self.elements)


def plan_of(tables: dict[str, Any]) -> Plan:
    """The plan of the tables of a file. Raises TypeError or AttributeError where a row lacks a key, or has one that no plan has."""
    option = "II" if tables.get("option") == "II" else "I"
    own: dict[str, Any] = {"own": OWN[option]}
    return Plan(
        option,
        tuple(Element(**(own | row)) for row in tables.get("element", [])),
        tuple(Link(**row) for row in tables.get("link", [])),
        tuple(Source(**row) for row in tables.get("source", [])),
    )
