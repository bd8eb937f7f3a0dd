"""The cases of a survey, one after the other: those of failures, or those of a table of any length."""

from __future__ import annotations

from collections.abc import Callable, Iterator, Sequence
from dataclasses import dataclass
from typing import NamedTuple, Protocol

from murdjohe.plan.model import Plan
from murdjohe.runs import failures
from murdjohe.runs.ends import Told
from murdjohe.runs.failures import Failure
from murdjohe.runs.moments import Event
from murdjohe.survey import stretches
from murdjohe.survey.stretch_rows import StretchRows
from murdjohe.survey.stretches import Named

ROW_END = b",\n"  # of a row of a made case, which has no value; two octets are found in half the time of one


class CommonRows(NamedTuple):
    """Rows that are common to all cases, as they are written, and how many they are."""

    data: bytes
    length: int


class Bunch(Protocol):
    """Cases that follow one another."""

    @property
    def names(self) -> Sequence[str]:
        """Their names."""

    def row(self, start: int) -> int:
        """The number of the first row of a case, from 1 on behind the header; made cases need no such number."""

    def table(self, start: int, end: int) -> tuple[bytes, int]:
        """The cases from one up to another as a table has them, and how many rows they have."""


class Row(NamedTuple):
    """A row of a table: its number from 1 behind the header, the line on which it begins, and its fields."""

    number: int
    line: int
    fields: list[str]


@dataclass(frozen=True)
class CaseList:
    """The cases of a survey: how sentences call them, the rows that are common to all, how many cases there are, what their runs are
    told, and a way through all of them, which may be gone more than once; of a file also its rows."""

    name: str
    common: CommonRows
    total: int
    told: Told
    each: Callable[[], Iterator[Bunch]]
    rows: Callable[[], Iterator[Row]] | None = None


def total_of(count: int, first: int, last: int | None) -> int:
    """How many of so many there are from one number to another."""
    return max(0, (count if last is None else min(last, count)) - first + 1)


def common_rows(common: tuple[Event, ...]) -> CommonRows:
    """Events that are common to all cases, as rows."""
    return CommonRows(failures.common_lines(common).encode(), len(common))


class MadeBunch:
    """The cases of a stretch."""

    def __init__(self, named: Named, rows: StretchRows) -> None:
        self.named = named
        self.names = named.names
        self.rows = rows

    def row(self, start: int) -> int:
        return 0

    def table(self, start: int, end: int) -> tuple[bytes, int]:
        data = self.rows.of(self.named, start, end)
        return data, data.count(ROW_END)


def of_failures(
    network: Plan,
    found: list[Failure],
    has_pairs: bool,
    at: int,
    common: tuple[Event, ...],
    span: tuple[int, int | None],
) -> CaseList:
    """The cases in which these failures of a plan come at a millisecond, each alone, and each two together."""
    order = failures.in_order(network)

    def each() -> Iterator[Bunch]:
        rows = StretchRows(found, order, at)
        for named in stretches.named(found, has_pairs, span):
            yield MadeBunch(named, rows)

    total = total_of(failures.count_of(found, has_pairs), *span)
    told = Told(common, frozenset(("down",)), at, at)
    return CaseList("the failures", common_rows(common), total, told, each)
