"""Failures of a plan as cases, each with a name and what goes down by it: links, bundles, sources, elements, groups, and pairs of these."""

from __future__ import annotations

import csv
import io
import re
from collections import Counter
from collections.abc import Collection, Iterable, Iterator
from dataclasses import dataclass
from itertools import combinations, islice
from math import comb
from typing import Any, TypeVar

from murdjohe.network.groups import Group, down_of
from murdjohe.plan.model import Plan
from murdjohe.runs.moments import Event

LINKS, BUNDLES, SOURCES, ELEMENTS = "links", "bundles", "sources", "elements"
KINDS = (LINKS, BUNDLES, SOURCES, ELEMENTS)
COLUMNS = ("case", "at", "what", "target", "value")
NAME = re.compile(r"[A-Za-z0-9_-]{1,32}", re.ASCII)
BETWEEN = "--"  # what stands between the names of a pair
CaseT = TypeVar("CaseT")


@dataclass(frozen=True)
class Failure:
    """What fails: its kind and name, and the links and sources that are down by it."""

    kind: str
    name: str
    down: tuple[str, ...]


@dataclass(frozen=True)
class Case:
    """A case: its name, what fails in it, and the links and sources that go down, in the order of the plan."""

    name: str
    failures: tuple[Failure, ...]
    down: tuple[str, ...]


def bundles_of(network: Plan) -> dict[str, list[str]]:
    """The links of each bundle, in the order of the plan."""
    found: dict[str, list[str]] = {}
    for link in network.links:
        if link.bundle is not None:
            found.setdefault(link.bundle, []).append(link.name)
    return found


def parts_of(network: Plan) -> dict[str, list[str]]:
    """The links and sources of each element."""
    found: dict[str, list[str]] = {row.name: [] for row in network.elements}
    for link in network.links:
        found[link.a].append(link.name)
        found[link.b].append(link.name)
    for source in network.sources:
        found[source.at].append(source.name)
    return found


def failures_of(network: Plan, kinds: Collection[str]) -> list[Failure]:
    """The failures of these kinds, in the order in which `protected` has them; those by which nothing goes down are none."""
    found = []
    bundles = bundles_of(network)
    for link in network.links:
        if LINKS in kinds:
            found.append(Failure("link", link.name, (link.name,)))
    if BUNDLES in kinds:
        found += [Failure("bundle", name, tuple(links)) for name, links in bundles.items()]
    if SOURCES in kinds:
        found += [Failure("source", row.name, (row.name,)) for row in network.sources]
    if ELEMENTS in kinds:
        found += [Failure("element", name, tuple(parts)) for name, parts in parts_of(network).items() if parts]
    return found


def of_groups(groups: Iterable[Group], network: Plan) -> list[Failure]:
    """The failures of groups of parts that fail together; those by which nothing goes down are none."""
    found = [Failure("group", group.name, down_of(group, network)) for group in groups]
    return [one for one in found if one.down]


def in_order(network: Plan) -> dict[str, int]:
    """The place of each link and source in the plan."""
    names = [*(link.name for link in network.links), *(source.name for source in network.sources)]
    return {name: number for number, name in enumerate(names)}


def sets_of(failures: list[Failure], has_pairs: bool) -> Iterator[tuple[Failure, ...]]:
    """What fails together: each by itself, then each two, but for those of whom one takes down all that the other does."""
    yield from ((one,) for one in failures)
    parts = [frozenset(one.down) for one in failures]
    for first, second in combinations(range(len(failures)), 2) if has_pairs else ():
        if not (parts[first] <= parts[second] or parts[second] <= parts[first]):
            yield failures[first], failures[second]


class CaseNames:
    """The names of cases, no two alike. Kept are those alone that another case could get, since there may be millions.

    The name of a pair can be told apart into its two in one way where `--` stands in it once; if both are names of one
    failure each, no other case is called so. Nor is another called by the number of a pair, but where that was a name before.
    """

    def __init__(self, failures: list[Failure]) -> None:
        counts = Counter(one.name for one in failures)
        self.single = {name for name, count in counts.items() if count == 1}
        self.taken: set[str] = set()

    def is_apart(self, name: str, together: tuple[Failure, ...]) -> bool:
        """Whether no other case can have the name of this pair."""
        is_clear = len(together) > 1 and name.find(BETWEEN) == name.rfind(BETWEEN)
        return is_clear and all(one.name in self.single for one in together)

    def name_of(self, number: int, together: tuple[Failure, ...]) -> str:
        """The name of the case of this number: as what fails, or by its number where that is no name or was one before."""
        name = BETWEEN.join(one.name for one in together)
        is_apart = self.is_apart(name, together)
        if not NAME.fullmatch(name) or name in self.taken:
            name = f"{together[0].kind}-{number}" if len(together) == 1 else f"pair-{number}"
            is_apart = len(together) > 1 and name not in self.taken
            while name in self.taken:
                name += "-"
        if not is_apart:
            self.taken.add(name)
        return name


def cases_of(failures: list[Failure], has_pairs: bool, order: dict[str, int]) -> Iterator[Case]:
    """A case for each of what fails together, one after the other."""
    names = CaseNames(failures)
    for number, together in enumerate(sets_of(failures, has_pairs), start=1):
        down = {part for one in together for part in one.down}
        yield Case(names.name_of(number, together), together, tuple(sorted(down, key=order.__getitem__)))


def nested_behind(failures: list[Failure]) -> list[set[int]]:
    """For each failure the places of those behind it with which it makes no pair, as `sets_of` has them."""
    holders: dict[str, set[int]] = {}
    for place, one in enumerate(failures):
        for part in one.down:
            holders.setdefault(part, set()).add(place)
    found: list[set[int]] = [set() for _ in failures]
    for place, one in enumerate(failures):
        wider = set.intersection(*(holders[part] for part in one.down)) if one.down else set(range(len(failures)))
        for other in wider - {place}:
            found[min(place, other)].add(max(place, other))
    return found


def count_of(failures: list[Failure], has_pairs: bool) -> int:
    """How many cases there are."""
    pairs = comb(len(failures), 2) - sum(map(len, nested_behind(failures))) if has_pairs else 0
    return len(failures) + pairs


def chosen(cases: Iterable[CaseT], first: int, last: int | None) -> Iterator[CaseT]:
    """The cases from one number to another, both from 1 on."""
    return islice(cases, first - 1, last)


def lines_of(rows: Iterable[Iterable[object]]) -> str:
    """Rows of a table, a line each."""
    out = io.StringIO(newline="")
    csv.writer(out, lineterminator="\n").writerows(rows)
    return out.getvalue()


def common_lines(common: Iterable[Event]) -> str:
    """The rows of events that are common to all cases."""
    return lines_of(("", event.at, event.what, event.target, event.value) for event in common)


def case_lines(case: Case, at: int) -> str:
    """The rows of a case, all of whose parts go down in one millisecond; names stand in a table as they are."""
    return "".join(f"{case.name},{at},down,{part},\n" for part in case.down)


def table_of(common: Iterable[Event], cases: Iterable[Case], at: int) -> bytes:
    """The table: the events that are common to all cases, and what goes down in each."""
    text = lines_of([COLUMNS]) + common_lines(common)
    return (text + "".join(case_lines(case, at) for case in cases)).encode()


def as_data(common: Iterable[Event], cases: Iterable[Case], at: int) -> dict[str, Any]:
    """The table as JSON has it, with what fails in each case."""

    def kinds_of(case: Case) -> list[dict[str, str]]:
        return [{"kind": one.kind, "name": one.name} for one in case.failures]

    told = [{"case": case.name, "failures": kinds_of(case), "down": case.down} for case in cases]
    return {"at": at, "during": [vars(event) for event in common], "cases": told}
