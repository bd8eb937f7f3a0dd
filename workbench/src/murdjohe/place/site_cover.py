"""Which sites cover which elements after which failures, and the cheapest set of them that covers all.

An element is covered after a failure where a way of at most so many links leads to it from a clock that is left. A set is sought by
HiGHS; what it has to cover is added as it is found broken, since of all pairs of a failure and an element few matter.
"""

from __future__ import annotations

import time
from collections import deque
from collections.abc import Iterable, Iterator, Sequence
from dataclasses import dataclass, field
from decimal import Decimal
from typing import Any, NamedTuple

import numpy
from scipy.optimize import Bounds, LinearConstraint, milp
from scipy.sparse import csr_matrix
from scipy.sparse.csgraph import breadth_first_order

from murdjohe.network.groups import Group
from murdjohe.network.wiring import Wiring
from murdjohe.place.sites import Site

BATCH = 400_000  # elements that are looked at together
PAIRS = 4  # broken elements of one failure that are learnt from at once
LEARNT = 300  # rows that are learnt at once
NOTHING, LINK, BUNDLE, SOURCE, ELEMENT, GROUP = "none", "link", "bundle", "source", "element", "group"
EXACT = 1e12  # sums of whole costs up to which HiGHS tells each from the next


class Failure(NamedTuple):
    """What fails: its kind and name, and the lines, elements and sources of the plan that go with it."""

    kind: str
    name: str
    lines: tuple[int, ...] = ()
    elements: tuple[int, ...] = ()
    sources: tuple[str, ...] = ()

    @property
    def said(self) -> str:
        """The failure in words."""
        return "without a failure" if self.kind == NOTHING else f"when {self.kind} {self.name} fails"


class Pair(NamedTuple):
    """An element that needs a clock after a failure."""

    failure: Failure
    element: int


@dataclass
class Network:
    """The elements and lines of a plan by numbers, and all its single failures but those of sources."""

    names: tuple[str, ...]
    senders: Any
    receivers: Any
    failures: tuple[Failure, ...]
    lines_out: tuple[tuple[tuple[int, int], ...], ...]

    @property
    def size(self) -> int:
        return len(self.names)


def group_of(
    group: Group, places: dict[str, int], of_link: dict[str, list[int]], of_element: dict[int, list[int]]
) -> Failure:
    """The failure of all parts of a group together: an element goes with its lines."""
    elements = tuple(places[name] for name in group.elements)
    lines = [line for name in group.links for line in of_link[name]]
    lines += [line for place in elements for line in of_element[place]]
    return Failure(GROUP, group.name, tuple(sorted(set(lines))), elements, group.sources)


def network_of(wired: Wiring, groups: Iterable[Group] = ()) -> Network:
    """The network of a plan, some of whose parts fail together."""
    places = {name: place for place, name in enumerate(wired.elements)}
    lines = list(wired.lines.values())
    of_link: dict[str, list[int]] = {}
    of_bundle: dict[str, list[int]] = {}
    of_element: dict[int, list[int]] = {place: [] for place in places.values()}
    out: list[list[tuple[int, int]]] = [[] for _ in places]
    for number, line in enumerate(lines):
        of_link.setdefault(line.link, []).append(number)
        if line.bundle[0] == BUNDLE:
            of_bundle.setdefault(line.bundle[1], []).append(number)
        for end in (places[line.sender], places[line.receiver]):
            of_element[end].append(number)
        out[places[line.sender]].append((number, places[line.receiver]))
    failures = [Failure(NOTHING, "")]
    failures += [Failure(LINK, name, tuple(its)) for name, its in of_link.items()]
    failures += [Failure(BUNDLE, name, tuple(its)) for name, its in of_bundle.items() if len(its) > 2]
    failures += [Failure(ELEMENT, wired.elements[place], tuple(its), (place,)) for place, its in of_element.items()]
    failures += [group_of(group, places, of_link, of_element) for group in groups]
    senders = numpy.array([places[line.sender] for line in lines], dtype=numpy.int64)
    receivers = numpy.array([places[line.receiver] for line in lines], dtype=numpy.int64)
    return Network(wired.elements, senders, receivers, tuple(failures), tuple(map(tuple, out)))


def within_steps(network: Network, kept: Any, begins: Any, limit: int) -> Any:
    """Whether each element has a clock within so many lines, in each of some cases, by the lines that are kept and where clocks are."""
    cases, size, lines = len(kept), network.size, len(network.senders)
    order = numpy.argsort(network.receivers, kind="stable")
    starts = numpy.searchsorted(network.receivers[order], numpy.arange(size))
    columns = (network.senders[order] + numpy.arange(cases)[:, None] * size).ravel()
    rows = numpy.append((starts + numpy.arange(cases)[:, None] * lines).ravel(), cases * lines)
    # (a line that isn't kept counts nothing)
    graph = csr_matrix((kept[:, order].ravel().astype(numpy.int32), columns, rows), shape=(cases * size, cases * size))
    found = begins.reshape(cases * size).astype(numpy.int32)
    for _ in range(limit):
        wider = numpy.minimum(graph @ found + found, 1)
        if (wider == found).all():
            break
        found = wider
    return found.reshape(cases, size) > 0


def at_all(network: Network, kept: Any, begins: Any) -> Any:
    """Whether any way leads to each element from a clock, in each of some cases."""
    count = len(kept) * network.size
    offsets = numpy.arange(len(kept))[:, None] * network.size
    clocks = numpy.flatnonzero(begins.reshape(count))
    rows = numpy.concatenate([(network.senders + offsets)[kept], numpy.full(len(clocks), count)])
    columns = numpy.concatenate([(network.receivers + offsets)[kept], clocks])
    graph = csr_matrix((numpy.ones(len(rows), numpy.int8), (rows, columns)), shape=(count + 1, count + 1))
    found = numpy.zeros(count + 1, bool)
    found[breadth_first_order(graph, count, return_predecessors=False)] = True
    return found[:count].reshape(len(kept), network.size)


def near(network: Network, element: int, failure: Failure, limit: int | None) -> frozenset[int]:
    """The elements from which a way of at most so many lines leads to this one after a failure, itself among them."""
    gone, found, waiting = frozenset(failure.lines), {element}, deque([(element, 0)])
    while waiting:
        at, steps = waiting.popleft()
        if limit is not None and steps == limit:
            continue
        # (links have a line each way, so ways out are ways in)
        for number, other in network.lines_out[at]:
            if number not in gone and other not in found:
                found.add(other)
                waiting.append((other, steps + 1))
    return frozenset(found)


class Row(NamedTuple):
    """That at least so many of these sites are chosen."""

    sites: frozenset[int]
    least: int


@dataclass(frozen=True)
class Limits:
    """How many lines there may be from a clock to an element: without a failure, and after one; none where it is any number."""

    links: int | None
    links_failed: int | None

    def of(self, failure: Failure) -> int | None:
        return self.links if failure.kind == NOTHING else self.links_failed


@dataclass(frozen=True)
class Chosen:
    """A set of sites by their numbers, and whether it is known that no cheaper one covers all."""

    sites: tuple[int, ...]
    is_least: bool


class Late(Exception):
    """The time ran out before any set was found that covers all."""


@dataclass
class Problem:
    """What is to be covered: the network, the clocks that stand by name and element, the candidates, the limits, whether sources fail, and until when it
    may be sought. Pairs that no site covers are left out once they are known."""

    network: Network
    standing: tuple[tuple[str, int], ...]
    sites: tuple[Site, ...]
    limits: Limits
    survives: bool
    end: float
    rows: dict[Row, Pair] = field(default_factory=dict)
    left_out: set[tuple[Failure, int]] = field(default_factory=set)
    turn: int = 0

    def __post_init__(self) -> None:
        places = {name: place for place, name in enumerate(self.network.names)}
        self.places = tuple(places[site.element] for site in self.sites)
        self.site_at = {place: number for number, place in enumerate(self.places)}

    def within(self, limits: Limits) -> Problem:
        """The same within other limits, of which nothing is known yet."""
        return Problem(self.network, self.standing, self.sites, limits, self.survives, self.end)

    @property
    def left(self) -> float:
        """The seconds that are left."""
        return self.end - time.monotonic()

    def cost(self, sites: Iterable[int]) -> Decimal:
        return sum((self.sites[number].cost for number in sites), Decimal(0))

    def clocks(self, chosen: Sequence[int]) -> tuple[int, ...]:
        """Where clocks are with these sites."""
        return (*(at for _, at in self.standing), *(self.places[number] for number in chosen))

    def single_failures(self, chosen: Sequence[int]) -> Iterator[tuple[Failure, tuple[int, ...]]]:
        """Each failure with the elements at which clocks are left."""
        clocks = self.clocks(chosen)
        for failure in self.network.failures:
            lost = {place for place, (name, _) in enumerate(self.standing) if name in failure.sources}
            yield failure, tuple(at for place, at in enumerate(clocks) if place not in lost) if lost else clocks
        if self.survives:
            for place, at in enumerate(clocks):
                yield Failure(SOURCE, f"at {self.network.names[at]}"), clocks[:place] + clocks[place + 1 :]

    def broken_of(
        self, some: list[tuple[Failure, tuple[int, ...]]], limit: int | None
    ) -> Iterator[tuple[Failure, Any]]:
        """Of some failures of one limit each that leaves elements uncovered, with these."""
        kept = numpy.ones((len(some), len(self.network.senders)), bool)
        begins = numpy.zeros((len(some), self.network.size), bool)
        gone = numpy.zeros((len(some), self.network.size), bool)
        for row, (failure, clocks) in enumerate(some):
            kept[row, list(failure.lines)] = False
            begins[row, list(clocks)] = True
            gone[row, list(failure.elements)] = True
        covered = (
            at_all(self.network, kept, begins) if limit is None else within_steps(self.network, kept, begins, limit)
        )
        uncovered = ~covered & ~gone
        for row in numpy.flatnonzero(uncovered.any(axis=1)):
            yield some[row][0], numpy.flatnonzero(uncovered[row]).tolist()

    def broken(self, chosen: Sequence[int]) -> Iterator[tuple[Failure, list[int]]]:
        """Each failure that leaves elements uncovered with these sites, with these elements, from another one on each time, since
        whoever reads them may stop. Raises Late."""
        step = max(1, BATCH // max(1, self.network.size))
        none, *others = self.single_failures(chosen)
        yield from self.broken_of([none], self.limits.links)
        starts = list(range(0, len(others), step))
        for start in starts[self.turn % max(1, len(starts)) :] + starts[: self.turn % max(1, len(starts))]:
            if self.left <= 0:
                raise Late
            yield from self.broken_of(others[start : start + step], self.limits.links_failed)
            self.turn += 1

    def row_of(self, pair: Pair) -> Row:
        """What covers an element after a failure; after the loss of a source it is two clocks, whichever of them is lost."""
        around = near(self.network, pair.element, pair.failure, self.limits.of(pair.failure))
        covering = frozenset(self.site_at[at] for at in around if at in self.site_at)
        least = 2 if pair.failure.kind == SOURCE else 1
        left = [at for name, at in self.standing if name not in pair.failure.sources]
        return Row(covering, least - sum(at in around for at in left))

    def impossible(self) -> list[Pair]:
        """The pairs that are uncovered with all sites; none of them is sought to be covered from now on. Raises Late."""
        found = [
            Pair(failure, element) for failure, elements in self.broken(range(len(self.sites))) for element in elements
        ]
        self.left_out.update(found)
        return found

    def learn(self, chosen: Sequence[int]) -> bool:
        """Adds rows that these sites break; whether there were any. Raises Late."""
        found = 0
        for failure, elements in self.broken(chosen):
            for pair in self.some_of(failure, elements):
                row = self.row_of(pair)
                found += row not in self.rows
                self.rows.setdefault(row, pair)
            if found >= LEARNT:
                break
        return found > 0

    def some_of(self, failure: Failure, elements: list[int]) -> list[Pair]:
        """Some pairs of the failure: without a limit one for each part of the network, else elements apart from one another."""
        known = [element for element in elements if (failure, element) not in self.left_out]
        if self.limits.of(failure) is not None:
            return [Pair(failure, element) for element in known[:: max(1, len(known) // PAIRS)]]
        pairs: list[Pair] = []
        seen: set[int] = set()
        for element in known:
            if element not in seen and len(pairs) < PAIRS:
                pairs.append(Pair(failure, element))
                seen |= near(self.network, element, failure, None)
        return pairs

    def weights(self) -> Any:
        """What is made least: the cost, and the number of sites where costs are alike."""
        exponents = [site.cost.normalize().as_tuple().exponent for site in self.sites]
        scale = 10 ** max((-int(one) for one in exponents if int(one) < 0), default=0)
        whole = [int(site.cost * scale) for site in self.sites]
        times = len(self.sites) + 1
        if sum(whole) * times > EXACT:
            return numpy.array([float(one) for one in whole])
        return numpy.array([float(one * times + 1) for one in whole])

    def solved(self) -> tuple[tuple[int, ...], bool] | None:
        """The cheapest set that keeps the rows, and whether it is known to be; None where none was found in time."""
        if not self.rows:
            return (), True
        if self.left <= 0:
            return None
        rows = list(self.rows)
        starts = numpy.cumsum([0, *(len(row.sites) for row in rows)])
        places = [site for row in rows for site in sorted(row.sites)]
        matrix = csr_matrix((numpy.ones(len(places)), places, starts), shape=(len(rows), len(self.sites)))
        kept = LinearConstraint(matrix, [row.least for row in rows], numpy.inf)
        options = {"mip_rel_gap": 0.0, "time_limit": self.left}
        whole = numpy.ones(len(self.sites))
        found = milp(self.weights(), integrality=whole, bounds=Bounds(0, 1), constraints=kept, options=options)
        if found.x is None:
            return None
        return tuple(numpy.flatnonzero(found.x > 0.5).tolist()), found.status == 0

    def reduced(self, chosen: tuple[int, ...]) -> tuple[int, ...]:
        """The set without sites that no row needs, the dearest first."""
        kept = set(chosen)
        for number in sorted(chosen, key=lambda number: (-self.sites[number].cost, number)):
            others = kept - {number}
            if all(len(row.sites & others) >= row.least for row in self.rows if number in row.sites):
                kept = others
        return tuple(sorted(kept))

    def greedy(self) -> tuple[int, ...]:
        """A set that keeps the rows, made site by site: each time what covers most for its cost."""
        chosen: set[int] = set()
        while True:
            open_rows = [row for row in self.rows if len(row.sites & chosen) < row.least]
            if not open_rows:
                return self.reduced(tuple(sorted(chosen)))
            gains: dict[int, int] = {}
            for row in open_rows:
                for number in row.sites - chosen:
                    gains[number] = gains.get(number, 0) + 1
            chosen.add(
                max(gains, key=lambda number: (gains[number] / (float(self.sites[number].cost) + 1e-9), -number))
            )

    def found_fast(self) -> tuple[int, ...]:
        """A set that covers all, perhaps not the cheapest. Raises Late."""
        while True:
            chosen = self.greedy()
            if not self.learn(chosen):
                return chosen

    def best(self) -> Chosen:
        """The cheapest set of sites that covers all that can be; where the time runs out, the one that was found fast. Raises Late
        where it runs out before that."""
        fast = self.found_fast()
        try:
            while solved := self.solved():
                chosen, is_least = solved
                if not self.learn(chosen):
                    return (
                        Chosen(chosen, is_least)
                        if is_least or self.cost(chosen) < self.cost(fast)
                        else Chosen(fast, False)
                    )
                if not is_least:
                    break
        except Late:
            pass
        return Chosen(fast, False)


def reasons(problem: Problem, chosen: Sequence[int]) -> dict[int, list[Pair]]:
    """For each chosen site the pairs that were met which it alone covers, or without which too few clocks are left."""
    found: dict[int, list[Pair]] = {number: [] for number in chosen}
    for row, pair in problem.rows.items():
        its = row.sites & set(chosen)
        if len(its) == row.least:
            for number in its:
                found[number].append(pair)
    return found
