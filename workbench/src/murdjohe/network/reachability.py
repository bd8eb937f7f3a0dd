"""Whom links could still serve: which elements a source is left for over any links that are up, whatever is nominated.

An element without a source is taken away itself where each of its links and sources is down, or no link could serve it where no
way leads to it from a source that is up; whoever else has none needn't have lost it. Levels, floors and priorities count for
nothing here, as in `protected`.

A tree of ways to all elements that can be reached is found once. What goes down takes away from its source only who stands behind a
way of the tree; so a case costs as much as stands there, and not the whole network.
"""

from __future__ import annotations

from collections import Counter, deque
from collections.abc import Collection, Iterable, Sequence
from typing import NamedTuple

from murdjohe.network.wiring import Wiring

SOURCE = -1  # where the way from a source begins


def beyond(wired: Wiring, rows: Iterable[Sequence[str]], until: int) -> frozenset[str]:
    """The elements that no link could serve in a millisecond, by rows of time, word and target."""
    return Reach(wired).apart(down_at_end(wired, rows, until))[1]


class Lost(NamedTuple):
    """Of the elements that can't have a source: how many are taken away themselves, and how many no link could serve."""

    themselves: int
    beyond: int


def parts_of(wired: Wiring, target: str) -> tuple[str, ...]:
    """The lines and sources that an event on this target is of."""
    return wired.lines_of(target) or (target,)


def down_at_end(wired: Wiring, rows: Iterable[Sequence[str]], until: int) -> frozenset[str]:
    """The lines and sources that are down in a millisecond, by rows of time, word and target in any order; of those of one
    millisecond the last counts."""
    down: set[str] = set()
    for at, what, target in sorted(((int(at), what, target) for at, what, target in rows), key=lambda row: row[0]):
        if at > until:
            break
        if what == "down":
            down.update(parts_of(wired, target))
        elif what == "up":
            down.difference_update(parts_of(wired, target))
    return frozenset(down)


class Reach:
    """The lines and sources of a plan as ways, by which elements are reached; elements and ways by their places."""

    def __init__(self, wired: Wiring) -> None:
        places = {name: place for place, name in enumerate(wired.elements)}
        ways = [(line.name, places[line.sender], places[line.receiver]) for line in wired.lines.values()]
        ways += [(name, SOURCE, places[at]) for name, at in wired.sources.items()]
        self.names = wired.elements
        self.way_of = {name: number for number, (name, _, _) in enumerate(ways)}
        self.ends = [(sender, receiver) for _, sender, receiver in ways]
        self.into: list[list[int]] = [[] for _ in places]
        self.out: list[list[int]] = [[] for _ in places]
        for number, (sender, receiver) in enumerate(self.ends):
            self.into[receiver].append(number)
            if sender != SOURCE:
                self.out[sender].append(number)
        self.tree = self.tree_of()
        self.behind: list[list[int]] = [[] for _ in places]
        for place, way in enumerate(self.tree):
            if way is not None and self.ends[way][0] != SOURCE:
                self.behind[self.ends[way][0]].append(place)
        self.never = frozenset(place for place, way in enumerate(self.tree) if way is None)

    def tree_of(self) -> list[int | None]:
        """For each element the way by which it is first reached over fewest ways, where it is reached."""
        found: list[int | None] = [None] * len(self.names)
        todo = deque(number for number, (sender, _) in enumerate(self.ends) if sender == SOURCE)
        while todo:
            way = todo.popleft()
            receiver = self.ends[way][1]
            if found[receiver] is None:
                found[receiver] = way
                todo.extend(self.out[receiver])
        return found

    def doubtful(self, gone: Collection[int]) -> set[int]:
        """The elements that stand behind a way of the tree which is gone."""
        todo = [self.ends[way][1] for way in gone if self.tree[self.ends[way][1]] == way]
        found = set(todo)
        while todo:
            more = [place for place in self.behind[todo.pop()] if place not in found]
            found.update(more)
            todo += more
        return found

    def unreached(self, gone: Collection[int]) -> set[int]:
        """The elements that are reached where no way is gone, and not where these are."""
        left = self.doubtful(gone)
        todo = [place for place in left if self.is_served(place, left, gone)]
        left.difference_update(todo)
        while todo:
            for way in self.out[todo.pop()]:
                receiver = self.ends[way][1]
                if receiver in left and way not in gone:
                    left.discard(receiver)
                    todo.append(receiver)
        return left

    def is_served(self, place: int, left: set[int], gone: Collection[int]) -> bool:
        """Whether a way leads to an element from a source, or from an element that is surely reached."""
        for way in self.into[place]:
            sender = self.ends[way][0]
            if way not in gone and (sender == SOURCE or not (sender in left or sender in self.never)):
                return True
        return False

    def alone(self, gone: Collection[int]) -> set[int]:
        """The elements whose ways are all gone."""
        counts = Counter(end for way in gone for end in self.ends[way] if end != SOURCE)
        return {place for place, count in counts.items() if count == len(self.into[place]) + len(self.out[place])}

    def places_left(self, down: frozenset[str]) -> tuple[set[int], set[int]]:
        """Where these lines and sources are down: who is taken away itself, and who else that is reached otherwise isn't."""
        gone = frozenset(self.way_of[part] for part in down if part in self.way_of)
        alone = self.alone(gone)
        return alone, self.unreached(gone) - alone

    def apart(self, down: frozenset[str]) -> tuple[frozenset[str], frozenset[str]]:
        """Where these lines and sources are down: the elements that are taken away themselves, and all to which no way leads from a
        source, these among them."""
        alone, others = self.places_left(down)
        left = alone | others | self.never
        return frozenset(self.names[place] for place in alone), frozenset(self.names[place] for place in left)

    def lost(self, downs: Sequence[frozenset[str]]) -> list[Lost]:
        """For each set of lines and sources that are down: who can't have a source."""
        found = []
        for down in downs:
            alone, others = self.places_left(down)
            found.append(Lost(len(alone), len(others) + len(self.never - alone)))
        return found
