"""What `sweep` and `study` say, as dataclasses: what a network has come to at the end of each of many runs.

Times are milliseconds from the start of a run, names those of the plan and of the cases. Each reader takes the text of an
answer that is no refusal, and raises ValueError for one that the program doesn't write.
"""

from __future__ import annotations

from dataclasses import dataclass

from murdjohe.answers.row_types import Case as Case, Cut as Cut
from murdjohe.answers.rows import headed_rows, row_of
from murdjohe.core import row_tables
from murdjohe.core.program import Answer


@dataclass(frozen=True)
class Sweep:
    rows: tuple[Cut, ...]


@dataclass(frozen=True)
class Study:
    """What `study` says: a row for each case."""

    rows: tuple[Case, ...]


def case(line: str) -> Case:
    """A row of `study`. Raises RowFault."""
    return row_of(Case, row_tables.CASES, "study", line)


def sweep(answer: Answer) -> Sweep:
    return Sweep(headed_rows(Cut, row_tables.CUTS, "sweep", answer.said))


def study(answer: Answer) -> Study:
    return Study(headed_rows(Case, row_tables.CASES, "study", answer.said))
