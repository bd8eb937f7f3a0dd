"""Parts of a survey: tables of cases that the program takes, each with the common rows first and the rows of a case together."""

from __future__ import annotations

import hashlib
from bisect import bisect_left
from collections.abc import Iterator
from dataclasses import dataclass
from functools import cached_property

from murdjohe.core import program
from murdjohe.core.faults import Wrong
from murdjohe.sentences.records import MOST_ROWS
from murdjohe.survey.case_files import HEADER
from murdjohe.survey.case_lists import Bunch, CaseList, CommonRows

LEAST, MOST = 2_000, 20_000  # cases of a part, where nothing else is asked
LARGE = 10_000  # elements of a plan in which each case takes long
SHARES = 8  # so many parts there are, or so many times 2, 3, 4 .., of which each processor has as many as the others


def usual(total: int, elements: int = 0) -> int:
    """How many of so many cases a part has: more of many, since the program reads the plan anew for each part; few beside a large plan,
    in which each case takes long, so that a stop loses minutes and not hours."""
    if elements > LARGE:
        return LEAST
    parts = SHARES * max(1, -(-total // (SHARES * MOST)))
    return max(LEAST, -(-total // parts))


@dataclass(frozen=True)
class Part:
    """A part: the names of its cases, its table, how many rows are common, and the row of the first case in the whole table."""

    names: tuple[str, ...]
    data: bytes
    common: int
    first: int

    @cached_property
    def checksum(self) -> str:
        """The checksum of its table."""
        return hashlib.sha256(self.data).hexdigest()

    def row_of(self, row: int) -> int:
        """The row of the whole table that a row of the part is; both count from 1."""
        return row if row <= self.common else row - self.common + self.first - 1


class Held:
    """The cases that are to be a part, at most so many, and how large it is."""

    def __init__(self, common: CommonRows, size: int) -> None:
        head = f"{HEADER}\n".encode() + common.data
        self.common = common.length
        self.size = size
        self.names: list[str] = []
        self.data = [head]
        self.rows, self.octets, self.first = common.length, len(head), 0

    def has_room(self, data: bytes, rows: int) -> bool:
        """Whether the program takes a table with these rows too."""
        return self.rows + rows <= MOST_ROWS and self.octets + len(data) <= program.LONGEST_BESIDE

    def add(self, bunch: Bunch, start: int) -> int:
        """Takes cases of a bunch from one on, as many as there is room for; says how many."""
        end = min(len(bunch.names), start + self.size - len(self.names))
        data, rows = bunch.table(start, end)
        if not self.has_room(data, rows):
            ends = range(start + 1, end + 1)
            end = start + bisect_left(ends, True, key=lambda end: not self.has_room(*bunch.table(start, end)))
            data, rows = bunch.table(start, end)
        self.first = self.first if self.names else bunch.row(start)
        self.names += bunch.names[start:end]
        self.data.append(data)
        self.rows += rows
        self.octets += len(data)
        return end - start

    def part(self) -> Part:
        return Part(tuple(self.names), b"".join(self.data), self.common, self.first)


def too_large(cases: CaseList, name: str, length: int) -> Wrong:
    """That a case has more rows, or more octets, than the program takes."""
    rows = f"the case {name!r} has {cases.common.length + length:,} rows with those common to all"
    limit = f"{MOST_ROWS:,} rows and {program.LONGEST_BESIDE:,} bytes"
    return Wrong(f"{cases.name}: {rows}; the program takes {limit} at most", status=program.BAD_EVENTS)


def parts_of(cases: CaseList, size: int) -> Iterator[Part]:
    """The cases in parts of so many, or of fewer where the program takes no larger table. Raises Wrong."""
    held = Held(cases.common, size)
    for bunch in cases.each():
        start = held.add(bunch, 0)
        while start < len(bunch.names):
            if not held.names:
                raise too_large(cases, bunch.names[start], bunch.table(start, start + 1)[1])
            yield held.part()
            held = Held(cases.common, size)
            start += held.add(bunch, start)
    if held.names:
        yield held.part()
