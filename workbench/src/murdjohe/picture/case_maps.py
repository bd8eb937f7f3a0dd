"""A map of cases and elements, without the picture: the worst cases of a survey, the elements that have no source at the end of
one of them, and what each element is at the end of each."""

from __future__ import annotations

from collections.abc import Iterable, Sequence
from dataclasses import dataclass

from murdjohe.answers.reports import Report
from murdjohe.answers.studies import Case
from murdjohe.core.wording import plural
from murdjohe.network.wiring import Wiring
from murdjohe.picture import views
from murdjohe.picture.views import LOOP, PAIR
from murdjohe.runs import moments, spans
from murdjohe.survey import survey_report
from murdjohe.survey.tallies import Tally

MOST_CASES, MOST_COLUMNS = 60, 100  # that are legible
# What an element is at the end of a case: its trace comes to a source, at its best level or at a worse one, or else to a clock
# that is in holdover or free-running, or to a closed walk.
FINE, WORSE, HOLDOVER, FREERUN = "fine", "worse", "holdover", "freerun"
UNFED = (HOLDOVER, FREERUN, PAIR, LOOP)

Ends = dict[str, str]
Column = tuple[str, ...]  # an element, or some that follow one another


class Disagreement(Exception):
    """Two answers of the program to one case differ: a mistake of the workbench, which took another case, or of the program."""


@dataclass(frozen=True)
class Row:
    """A case by its row of `study`, and what each element is at its end; None where `sim` stopped the run before."""

    outcome: Case
    ends: Ends | None

    def ends_in(self, column: Column) -> list[str]:
        """What the elements of a column are."""
        return [self.ends[name] for name in column] if self.ends else []

    def unfed(self, column: Column) -> int:
        """How many elements of a column have no source."""
        return sum(end in UNFED for end in self.ends_in(column))

    def walk(self, column: Column) -> str | None:
        """The worst closed walk to which the traces of a column come, if they come to one."""
        ends = self.ends_in(column)
        return next((word for word in (LOOP, PAIR) if word in ends), None)


@dataclass(frozen=True)
class CaseMap:
    """What is drawn: three lines of words above, the columns in the order of the plan, and a row for each case, the worst first."""

    title: str
    about: str
    columns: list[Column]
    rows: list[Row]
    way: str = ""

    @property
    def widest(self) -> int:
        """How many elements a column has at most."""
        return max(map(len, self.columns), default=0)


def ends_of(wired: Wiring, option: str, report: Report) -> Ends:
    """What each element is at the end of a run, as its report says."""
    its = spans.shown_by(wired, report.changes)
    walks = {wired.lines[line].receiver: word for line, word in views.words_of(wired, report.loops).items()}

    def end_of(name: str, kind: str, behind: str) -> str:
        if kind == moments.LOOP:
            return walks[behind]
        if kind == moments.OWN:
            return its[behind][-1].state
        return FINE if its[name][-1].level == spans.best_of(its[name], option) else WORSE

    return {trace.element: end_of(trace.element, trace.kind, trace.name) for trace in report.traces}


def row_of(wired: Wiring, option: str, outcome: Case, report: Report) -> Row:
    """The row of a case. Raises Disagreement where its run has left others without a source than its row of `study` says."""
    if report.stopped_at is not None:
        return Row(outcome, None)
    ends = ends_of(wired, option, report)
    unfed = [name for name, end in ends.items() if end in UNFED]
    first = unfed[0] if unfed else None
    if (len(unfed), first) != (outcome.lost, outcome.first):
        study = f"{plural(outcome.lost, 'element')}, {outcome.first or 'none'} first"
        sim = f"{plural(len(unfed), 'element')}, {first or 'none'} first"
        said = f"`study` leaves {study}, without a source, and `sim` {sim}"
        raise Disagreement(f"in the case {outcome.case!r} {said}")
    return Row(outcome, ends)


def elements_of(wired: Wiring, rows: Iterable[Row]) -> list[str]:
    """The elements that have no source in at least one of the cases, in the order of the plan."""
    found = {name for row in rows for name, end in (row.ends or {}).items() if end in UNFED}
    return [name for name in wired.elements if name in found]


def columns_of(elements: Sequence[str], most: int) -> list[Column]:
    """The elements one by one, or as many together as it takes for so many columns at most."""
    size = max(1, -(-len(elements) // most))
    return [tuple(elements[start : start + size]) for start in range(0, len(elements), size)]


def chosen(tally: Tally) -> list[Case]:
    """The cases of a map: those in which most elements lose their clock, as many as are told and legible."""
    return tally.lost.outcomes()[:MOST_CASES]


def about(tally: Tally, shown: int, widest: int) -> str:
    """What the rows and columns are, in a line."""
    if not tally.losing:
        return f"none of {plural(tally.cases, 'case')} leaves an element without a source at its end"
    what = "an element without a source at the end (how many), the worst first"
    if shown < tally.losing:
        said = f"{shown} of the {tally.losing:,} cases that leave {what}; {tally.cases:,} in all"
    else:
        verb = "leaves" if tally.losing == 1 else "leave"
        said = f"{tally.losing:,} of {plural(tally.cases, 'case')} {verb} {what}"
    together = f"; a column is up to {widest} elements that follow one another, called by the first"
    return said + (together if widest > 1 else "")


def map_of(title: str, wired: Wiring, tally: Tally, rows: list[Row]) -> CaseMap:
    """The map of the rows of the chosen cases."""
    columns = columns_of(elements_of(wired, rows), MOST_COLUMNS)
    widest = max(map(len, columns), default=0)
    return CaseMap(title, about(tally, len(rows), widest), columns, rows, survey_report.way_text(tally))
