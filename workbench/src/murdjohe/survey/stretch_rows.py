"""The rows of cases of failures as a table has them, put together for many cases of a stretch at once.

Mostly the rows of a failure stand before those of one behind it. For such pairs the rows of each failure with any other one
before it stand ready: only the name and the rows' ends of that one are put in.
"""

from __future__ import annotations

from collections.abc import Iterator, Sequence
from functools import cache
from itertools import accumulate, pairwise

from murdjohe.runs.failures import BETWEEN, Failure
from murdjohe.survey.stretches import Named

# What stands for the name of the failure before, and for the end of each of its rows; none can be in a name or end a row.
HEAD, ENDS = b"\0", tuple(bytes([sign]) for sign in range(1, 9))


class StretchRows:
    """The rows of failures that come at a millisecond, each of which takes something down; `order` has the plan's order of it."""

    def __init__(self, failures: list[Failure], order: dict[str, int], at: int) -> None:
        self.names = [one.name.encode() for one in failures]
        self.ends = {place: f",{at},down,{part},\n".encode() for part, place in order.items()}
        self.places = [frozenset(order[part] for part in one.down) for one in failures]
        self.own = [self.sorted_ends(places) for places in self.places]
        self.least, self.last = [min(places) for places in self.places], [max(places) for places in self.places]
        # (the least place of each failure and of all behind it)
        self.least_behind = list(accumulate(reversed(self.least), lambda one, other: min(one, other)))[::-1]
        self.ready_behind = cache(self.made_ready)

    def sorted_ends(self, places: frozenset[int]) -> list[bytes]:
        """The rows of what goes down, without the name of their case, in the order of the plan."""
        return [self.ends[place] for place in sorted(places)]

    def made_ready(self, length: int) -> tuple[bytes, list[int]]:
        """The rows of each failure with any one of so many rows before it, and where they begin for each."""
        ready = []
        for name, own in zip(self.names, self.own):
            its = HEAD + name
            ready.append(its + its.join([*ENDS[:length], *own]))
        return b"".join(ready), list(accumulate(map(len, ready), initial=0))

    def runs(self, first: int, others: Sequence[int]) -> Iterator[tuple[int, int, bool]]:
        """From where to where the others follow one another, and whether all rows of a failure stand before theirs there."""
        last = self.last[first]
        if others[-1] - others[0] == len(others) - 1 and last < self.least_behind[others[0]]:
            yield 0, len(others), True
            return
        before = [last < self.least[other] for other in others]
        numbers = enumerate(zip(pairwise(others), pairwise(before)), start=1)
        cuts = [at for at, ((one, other), (was, now)) in numbers if other != one + 1 or was != now]
        for start, end in pairwise([0, *cuts, len(others)]):
            yield start, end, before[start]

    def of_pairs(self, first: int, others: Sequence[int], names: Sequence[str]) -> bytes:
        """The rows of a failure with each of some others, by the names of these cases."""
        places, rows = self.places[first], []
        for other, name in zip(others, map(str.encode, names)):
            is_before = self.last[first] < self.least[other]
            own = self.own[first] + self.own[other] if is_before else self.sorted_ends(places | self.places[other])
            rows.append(name + name.join(own))
        return b"".join(rows)

    def put_together(self, first: int, others: Sequence[int], names: Sequence[str]) -> bytes:
        """The same, where each case is called by both its failures."""
        own, pieces = self.own[first], []
        ready, starts = self.ready_behind(len(own))
        for start, end, is_before in self.runs(first, others):
            if is_before:
                pieces.append(ready[starts[others[start]] : starts[others[end - 1] + 1]])
            else:
                pieces.append(self.of_pairs(first, others[start:end], names[start:end]))
        data = b"".join(pieces)
        for sign, row in zip(ENDS, own):
            data = data.replace(sign, row)
        return data.replace(HEAD, self.names[first] + BETWEEN.encode())

    def of(self, named: Named, start: int, end: int) -> bytes:
        """The rows of the cases of a stretch from one on up to another."""
        first, others, names = named.stretch.first, named.stretch.others[start:end], named.names[start:end]
        if first is None:
            rows = zip(map(str.encode, names), others)
            return b"".join([name + name.join(self.own[other]) for name, other in rows])
        if others and named.are_usual and len(self.own[first]) <= len(ENDS):
            return self.put_together(first, others, names)
        return self.of_pairs(first, others, names)
