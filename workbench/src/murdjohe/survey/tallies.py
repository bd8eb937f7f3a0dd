"""What a survey comes to, counted while its rows go by: of all cases no more is kept than the worst and some counts.

Most rows are alike but for the name of their case: those of a part are counted by what stands behind the name, and a row
is read by itself where it is among the worst so far.
"""

from __future__ import annotations

import heapq
from collections import Counter
from collections.abc import Sequence
from dataclasses import replace
from functools import lru_cache

from murdjohe.answers import studies
from murdjohe.answers.studies import Case

Measure = tuple[int, ...]
UNNAMED = "-"  # stands for the name of a case where that is left out
KNOWN = 4_096  # ends of rows that are kept as they were read


@lru_cache(KNOWN)
def case_without_name(tail: str) -> Case:
    """What a row says behind the name of its case, from the comma on. Raises ValueError and IndexError."""
    return replace(studies.case(UNNAMED + tail), case="")


class Worst:
    """The cases with the greatest measures above 0; among equals those that come first."""

    def __init__(self, most: int) -> None:
        self.most = most
        self.heap: list[tuple[Measure, int, Case]] = []

    def has_place(self, measure: Measure) -> bool:
        """Whether a case with this measure that comes now is among them; one whose first is 0 never is."""
        has_room = len(self.heap) < self.most
        return measure[0] > 0 and (has_room or (self.most > 0 and measure > self.heap[0][0]))

    def add(self, measure: Measure, number: int, outcome: Case) -> None:
        """Looks at a case of this number, which is greater than any before."""
        if not self.has_place(measure):
            return
        one = (measure, -number, outcome)
        if len(self.heap) < self.most:
            heapq.heappush(self.heap, one)
        else:
            heapq.heapreplace(self.heap, one)

    def outcomes(self) -> list[Case]:
        """Those that are left, the worst first."""
        return [outcome for _, _, outcome in sorted(self.heap, reverse=True)]


class Tally:
    """How many cases there are; how many leave somebody without a source, are unsettled, have loops; how many make levels worse on
    the way, and still at the end; the worst by each of these; and for each element in how many cases it is the first that has no
    source."""

    def __init__(self, most: int) -> None:
        self.cases = self.losing = self.unsettled = self.looping = self.hurting = self.still = 0
        self.lost, self.chains, self.restless, self.dark = Worst(most), Worst(most), Worst(most), Worst(1)
        self.first: Counter[str] = Counter()

    def measured(self, outcome: Case) -> tuple[tuple[Worst, Measure], ...]:
        """What cases are compared by, each with its measures of a case in their order."""
        return (
            (self.lost, (outcome.lost, outcome.freerun)),
            (self.chains, (outcome.longest,)),
            (self.restless, (int(not outcome.is_settled), outcome.loops, outcome.lost)),
            (self.dark, (outcome.dark,)),
        )

    def count(self, outcome: Case, cases: int) -> None:
        """Counts cases that have come to the same."""
        self.cases += cases
        self.losing += cases * (outcome.lost > 0)
        self.unsettled += cases * (not outcome.is_settled)
        self.looping += cases * (outcome.loops > 0)
        self.hurting += cases * (outcome.hurt > 0)
        self.still += cases * (outcome.still > 0)
        if outcome.first is not None:
            self.first[outcome.first] += cases

    def is_among(self, outcome: Case) -> bool:
        """Whether a case that has come to this is among the worst so far, by one of the measures."""
        return any(worst.has_place(measure) for worst, measure in self.measured(outcome))

    def look(self, outcome: Case, number: int) -> None:
        """Puts a case of this number among the worst, where it is one of them."""
        for worst, measure in self.measured(outcome):
            worst.add(measure, number, outcome)

    def add(self, outcome: Case) -> None:
        """Counts a case."""
        self.look(outcome, self.cases)
        self.count(outcome, 1)

    def add_all(self, names: Sequence[str], tails: Sequence[str]) -> None:
        """Counts cases of these names, with what their rows say behind them, from the comma on. Raises ValueError and IndexError."""
        before, counts = self.cases, Counter(tails)
        known = {tail: case_without_name(tail) for tail in counts}
        bad = {tail for tail, outcome in known.items() if self.is_among(outcome)}
        for tail, cases in counts.items():
            self.count(known[tail], cases)
        for number, tail in enumerate(tails if bad else ()):
            if tail in bad:
                if self.is_among(known[tail]):
                    self.look(replace(known[tail], case=names[number]), before + number)
                else:
                    bad.discard(tail)
