"""A run over time, from its changes: which closed walks stood from when to when, and what each element went without.

Times are milliseconds. A closed walk of two lines of one link or bundle is a pair, two elements that face each other for a
moment; any other is a timing loop.
"""

from __future__ import annotations

from collections.abc import Iterable, Iterator
from dataclasses import dataclass
from itertools import groupby

from murdjohe.answers.reports import Change, Loop
from murdjohe.core.levels import LEVELS
from murdjohe.network.wiring import Wiring
from murdjohe.runs import moments


@dataclass(frozen=True)
class Walk:
    """A closed walk that stood from one millisecond up to another, in which it doesn't any more; None where it stands on."""

    lines: Loop
    start: int
    stop: int | None
    is_pair: bool


@dataclass(frozen=True)
class Loss:
    """What an element went without: milliseconds below its best level since it first had that, the worst level in them, and
    milliseconds since it first followed a source in which it followed none; and when the first of these was, if there is one.

    `longest` is the longest time in one piece in which it was worse in one of the two ways. Where it still is at the end,
    `open_since` is when that time began, and `dark_since` since when it has followed no source, where it follows none.
    """

    element: str
    best: str
    below: int
    worst: str
    unfed: int
    since: int | None
    longest: int = 0
    open_since: int | None = None
    dark_since: int | None = None

    @property
    def is_open(self) -> bool:
        """Whether the element is still worse than it was at the end of the run."""
        return self.open_since is not None


def by_time(changes: Iterable[Change]) -> Iterator[tuple[int, list[Change]]]:
    """The changes of each millisecond that has some."""
    for at, rows in groupby(changes, key=lambda change: change.at):
        yield at, list(rows)


class Network:
    """What each element takes while a run goes by, who takes from whom, and who follows a source."""

    def __init__(self, wiring: Wiring) -> None:
        self.wiring = wiring
        self.taken: dict[str, str] = {}
        self.takers: dict[str, set[str]] = {name: set() for name in wiring.elements}
        self.fed: set[str] = set()

    def sender(self, element: str) -> str | None:
        """The element from which this one takes its timing, if from one."""
        line = self.wiring.lines.get(self.taken.get(element, ""))
        return line.sender if line else None

    def moved(self, rows: list[Change]) -> list[str]:
        """Takes over the changes of a millisecond, and gives the elements that take something else by them."""
        found = [row for row in rows if row.input != self.taken.get(row.element)]
        for row in found:
            if before := self.sender(row.element):
                self.takers[before].discard(row.element)
            self.taken.pop(row.element, None)
            if row.input is not None:
                self.taken[row.element] = row.input
            if after := self.sender(row.element):
                self.takers[after].add(row.element)
        return [row.element for row in found]

    def behind(self, elements: list[str]) -> set[str]:
        """These elements, and all that take their timing through them."""
        found, todo = set(elements), list(elements)
        while todo:
            more = self.takers[todo.pop()] - found
            found |= more
            todo.extend(more)
        return found

    def refed(self, elements: list[str]) -> set[str]:
        """Finds out anew who follows a source after these have moved, and gives those for whom that is different.

        Whoever takes his timing through an element follows a source just where that one does; of whom none of these is on the
        way up, nothing is different. So those alone are looked at who are behind them, each once.
        """
        behind = self.behind(elements)
        known: dict[str, bool] = {}
        for name in behind:
            way, here = [], name
            while here in behind and here not in known:
                known[here] = False  # whoever comes here again goes round
                way.append(here)
                here = self.sender(here) or here
            end = way[-1] if way else here
            is_fed = end in self.taken if self.sender(end) is None else known.get(here, here in self.fed)
            known.update((one, is_fed) for one in way)
        different = {name for name, is_fed in known.items() if is_fed != (name in self.fed)}
        self.fed ^= different
        return different


def walks_of(wiring: Wiring, changes: Iterable[Change]) -> list[Walk]:
    """All closed walks that stand at some time, by when they begin."""
    network = Network(wiring)
    on: dict[str, Loop] = {}
    since: dict[Loop, int] = {}
    found: list[Walk] = []
    for at, rows in by_time(changes):
        moved = network.moved(rows)
        for walk in {on[name] for name in moved if name in on}:
            found.append(Walk(walk, since.pop(walk), at, moments.is_pair(wiring, walk)))
            for line in walk:
                del on[wiring.lines[line].receiver]
        for name in moved:
            # (whoever is on a closed walk has a taker on it)
            takes_round = name not in on and network.takers[name]
            if takes_round and (walk := moments.walk_through(wiring, network.taken, name) or ()):
                since[walk] = at
                on |= {wiring.lines[line].receiver: walk for line in walk}
    found += [Walk(walk, at, None, moments.is_pair(wiring, walk)) for walk, at in since.items()]
    return sorted(found, key=lambda walk: (walk.start, wiring.lines[walk.lines[0]].number))


def gaps_of(
    wiring: Wiring, changes: Iterable[Change], end: int
) -> tuple[dict[str, list[tuple[int, int]]], dict[str, int]]:
    """From when to when each element followed no source, after it first did; and since when it hasn't, where that goes on."""
    network = Network(wiring)
    lost: dict[str, int] = {}
    found: dict[str, list[tuple[int, int]]] = {name: [] for name in wiring.elements}
    for at, rows in by_time(changes):
        for name in network.refed(network.moved(rows)):
            if name not in network.fed:
                lost[name] = at
            elif name in lost:
                found[name].append((lost.pop(name), at))
    for name, at in lost.items():
        found[name].append((at, end))
    return found, lost


def shown_by(wiring: Wiring, changes: Iterable[Change]) -> dict[str, list[Change]]:
    """All that each element shows, one after the other, in the order of the plan."""
    its = {name: [first] for name, first in moments.shown_first(wiring).items()}
    for row in changes:
        its[row.element].append(row)
    return its


def best_of(own: Iterable[Change], option: str) -> str:
    """The best level that an element shows."""
    return min((row.level or "" for row in own), key=LEVELS[option].index)


def joined(spans: Iterable[tuple[int, int]]) -> list[tuple[int, int]]:
    """Spans of time as pieces that neither touch nor overlap, in order."""
    found: list[tuple[int, int]] = []
    for start, stop in sorted(spans):
        if found and start <= found[-1][1]:
            found[-1] = found[-1][0], max(found[-1][1], stop)
        else:
            found.append((start, stop))
    return found


def loss_of(own: list[Change], option: str, end: int, gaps: list[tuple[int, int]], dark_since: int | None) -> Loss:
    """What an element went without, by what it shows, by when it followed no source, and since when it hasn't."""
    order = {level: place for place, level in enumerate(LEVELS[option])}
    best = best_of(own, option)
    after = own[next(place for place, row in enumerate(own) if row.level == best) :]
    spans = zip(after, [*(row.at for row in after[1:]), end])
    worse = [(row.at, stop, row.level or "") for row, stop in spans if row.level != best and row.at < stop]
    worst = max((level for _, _, level in worse), key=lambda level: order[level], default=best)
    since = min([start for start, _, _ in worse] + [start for start, stop in gaps if start < stop], default=None)
    below, unfed = sum(stop - start for start, stop, _ in worse), sum(stop - start for start, stop in gaps)
    pieces = joined([(start, stop) for start, stop, _ in worse] + gaps)
    is_worse = after[-1].level != best or dark_since is not None
    open_since = (pieces[-1][0] if pieces and pieces[-1][1] == end else end) if is_worse else None
    longest = max((stop - start for start, stop in pieces), default=0)
    return Loss(own[0].element, best, below, worst, unfed, since, longest, open_since, dark_since)


def losses_of(wiring: Wiring, option: str, changes: tuple[Change, ...], end: int) -> list[Loss]:
    """What each element went without, up to the end of a run, in the order of the plan."""
    its = shown_by(wiring, changes)
    gaps, dark = gaps_of(wiring, changes, end)
    return [loss_of(rows, option, end, gaps[name], dark.get(name)) for name, rows in its.items()]
