"""Which elements failures cut off although a path remains: all of them, where a row of `protected` has their number and the first.

The rows decide. What the lines of a plan say of a failure counts where it is as many elements as the failure's row has, with the
same first one; otherwise the row's first element alone counts. Failures are bits of a number, so that all are looked at together.
"""

from __future__ import annotations

from collections import deque
from collections.abc import Callable, Iterable, Sequence
from typing import NamedTuple

from murdjohe.answers.row_types import Gap
from murdjohe.network.ways import Fall, Masks, bits_of, singles_of
from murdjohe.plan.model import Line, Plan

MOST_BITS = 1_000_000_000  # failures times elements that are looked at; of more failures the largest
CHUNK_BITS = 20_000_000  # and of those at once


class CutOff(NamedTuple):
    """The elements that failures cut off, in the order of the plan, and how many of the failures were looked at."""

    elements: tuple[str, ...]
    failures: int


class Marks:
    """The elements that some failures of a plan cut off."""

    def __init__(self, plan: Plan, falls: list[Fall]) -> None:
        self.names = plan.names()
        self.at = {name: place for place, name in enumerate(self.names)}
        self.masks = Masks(falls)
        self.all = (1 << len(falls)) - 1
        self.clocks = [0] * len(self.names)
        for source in plan.nominated_sources():
            gone = self.masks.gone("source", source.name) | self.masks.gone("element", source.at)
            self.clocks[self.at[source.at]] |= self.all & ~gone
        lines = list(plan.lines())
        reach, served = self.served(lines), self.served([line for line in lines if line.priority])
        self.missing = [mask & ~other for mask, other in zip(reach, served)]

    def served(self, lines: Iterable[Line]) -> list[int]:
        """For each element the failures after which these lines lead to it from a source."""
        out: list[list[tuple[int, int]]] = [[] for _ in self.names]
        for line in lines:
            gone = self.masks.gone("link", line.link)
            gone |= self.masks.gone("element", line.sender) | self.masks.gone("element", line.receiver)
            out[self.at[line.sender]].append((self.at[line.receiver], self.all & ~gone))
        found = list(self.clocks)
        todo = deque(place for place, mask in enumerate(found) if mask)
        while todo:
            place = todo.popleft()
            for receiver, left in out[place]:
                more = found[place] & left & ~found[receiver]
                if more:
                    found[receiver] |= more
                    todo.append(receiver)
        return found

    def counted(self) -> list[tuple[int, str]]:
        """For each failure how many elements it cuts off, and the first."""
        first = [""] * self.all.bit_length()
        digits: list[int] = []  # (the numbers of all failures, binary: a digit of each in one of these)
        seen = 0
        for name, mask in zip(self.names, self.missing):
            for bit in bits_of(mask & ~seen):
                first[bit] = name
            seen |= mask
            carried = mask
            for place, digit in enumerate(digits):
                digits[place], carried = digit ^ carried, digit & carried
            digits += [carried] if carried else []
        return [
            (sum((digit >> bit & 1) << place for place, digit in enumerate(digits)), first[bit])
            for bit in range(len(first))
        ]


def cut_by(plan: Plan, falls: list[Fall], rows: Sequence[Gap]) -> set[str]:
    """The elements that failures cut off, of each of which there is a row."""
    marks = Marks(plan, falls)
    pairs = list(zip(marks.counted(), rows))
    agreed = sum(1 << bit for bit, (found, row) in enumerate(pairs) if found == (row.elements, row.first))
    firsts = {row.first for found, row in pairs if found != (row.elements, row.first)}
    return firsts | {name for name, mask in zip(marks.names, marks.missing) if mask & agreed}


def cut_off(plan: Plan, rows: Sequence[Gap], is_over: Callable[[], bool] = lambda: False) -> CutOff:
    """The elements that the failures of some rows of `protected` cut off; fewer of them where nobody wants to know it any more."""
    several = sorted((row for row in rows if row.elements > 1), key=lambda row: -row.elements)
    count = max(1, len(plan.elements))
    largest, size = several[: max(1, MOST_BITS // count)], max(1, CHUNK_BITS // count)
    known = {(fall.kind, fall.name): fall for fall in singles_of(plan)} if largest else {}
    found = {row.first for row in rows}
    for start in range(0, len(largest), size):
        if is_over():
            break
        chunk = largest[start : start + size]
        found |= cut_by(plan, [known[row.kind, row.failure or ""] for row in chunk], chunk)
    return CutOff(tuple(name for name in plan.names() if name in found), len(rows) - len(several) + len(largest))
