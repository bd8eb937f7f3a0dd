"""Networks with groups of parts that fail together, by hand and at random, and whom a group cuts off, searched plainly."""

from __future__ import annotations

import random
from collections.abc import Collection, Iterable
from typing import Any

from plans_spelled import spelled

from murdjohe.core.documents import Document
from murdjohe.network.groups import Group, text_of
from murdjohe.plan.plan_lines import PlanLines


def plan_of(elements: Iterable[str], links: list[str], sources: list[str], level: str = "QL-PRC") -> str:
    """A plan of elements, links `NAME A PRIORITY_A B PRIORITY_B [BUNDLE]` and sources `NAME AT`."""
    rows = [f"element {name}" for name in elements]
    for name, a, into_a, b, into_b, *bundle in (link.split() for link in links):
        rows.append(f"link {name} a={a} b={b} priority_a={into_a} priority_b={into_b}")
        rows[-1] += "".join(f" bundle={one}" for one in bundle)
    rows += ["source {} at={} level={}".format(*source.split(), level) for source in sources]
    return "version = 2\n" + spelled(*rows)


# X hangs on both sides of a ring whose clock is at A.
FOUR = plan_of("ABCX", ["L1 A 0 B 1", "L2 B 2 C 2", "L3 C 1 A 0", "L4 B 0 X 1", "L5 C 0 X 2"], ["S A"])
# The same, but for L2, over which nothing is nominated: B and C have X in its place.
EACH_OTHER = plan_of("ABCX", ["L1 A 0 B 1", "L2 B 0 C 0", "L3 C 1 A 0", "L4 B 2 X 1", "L5 C 2 X 2"], ["S A"])
ENDS = (("a", "b"), ("b", "a"))
DUCTS = "group,kind,part\nD,link,L1\nD,link,L5\n"

# Clocks at A and B. Where L0 and L2 go, C has D, which has A: A has nobody where its clock fails but C by L0, or D by L1, and
# either closes a circle with L0 or L1 and the line between C and D that leads the other way.
NARROW = plan_of("ABCD", ["L0 A 0 C 0", "L1 A 0 D 0", "L2 B 0 C 0", "L3 C 0 D 0"], ["S0 A", "S1 B"])
BOTH = (Group("north", ("L0", "L2")), Group("south", ("L1", "L2")))


def tables_of(text: str) -> dict[str, Any]:
    """The tables of a plan."""
    return PlanLines(Document("plan.toml", text.encode())).tables


def met(clocks: Collection[str], ways: list[tuple[str, str]]) -> set[str]:
    """All elements to which ways lead from the clocks."""
    found = set(clocks)
    while more := {to for start, to in ways if start in found} - found:
        found |= more
    return found


def reached_and_served(tables: dict[str, Any], group: Group) -> tuple[set[str], set[str]]:
    """The elements to which links lead from a clock where a group fails, and those to which nominated lines do."""
    gone = set(group.elements)
    clocks = {
        row["at"]
        for row in tables.get("source", [])
        if row.get("priority", 1) and row["name"] not in group.sources and row["at"] not in gone
    }
    links = [
        row for row in tables.get("link", []) if row["name"] not in group.links and not gone & {row["a"], row["b"]}
    ]
    every = [(row[end], row[other]) for row in links for end, other in ENDS]
    nominated = [(row[other], row[end]) for row in links for end, other in ENDS if row.get(f"priority_{end}")]
    return met(clocks, every), met(clocks, nominated)


def random_network(chance: random.Random, count: int, links: int) -> str:
    """A network in one piece, with some links in bundles, and one source or two; nothing but these is nominated."""
    names = [chr(ord("A") + number) for number in range(count)]
    ends = [(chance.choice(names[:number]), names[number]) for number in range(1, count)]
    ends += [(chance.choice(names), chance.choice(names)) for _ in range(links - len(ends))]
    rows, bundles = [], dict[frozenset[str], str]()
    for number, (a, b) in enumerate((a, b) for a, b in ends if a != b):
        bundle = bundles.setdefault(frozenset((a, b)), f"B{number}") if chance.random() < 0.2 else ""
        rows.append(f"L{number} {a} 0 {b} 0 {bundle}")
    sources = [f"S{number} {chance.choice(names)}" for number in range(chance.choice([1, 1, 2]))]
    return plan_of("".join(names), rows, sources)


def random_groups(chance: random.Random, tables: dict[str, Any], count: int) -> tuple[Group, ...]:
    """Groups of one to three links, and seldom of sources and elements too."""
    names = {key: [row["name"] for row in tables.get(key, [])] for key in ("link", "source", "element")}
    found = []
    for number in range(count):
        links = tuple(chance.sample(names["link"], min(len(names["link"]), chance.randint(1, 3))))
        sources = tuple(chance.sample(names["source"], chance.choice([0, 0, 0, 1])))
        elements = tuple(chance.sample(names["element"], chance.choice([0, 0, 0, 1])))
        found.append(Group(f"G{number}", links, sources, elements))
    return tuple(found)


def table_of(groups: Collection[Group]) -> str:
    """The table of groups."""
    return text_of(groups)
