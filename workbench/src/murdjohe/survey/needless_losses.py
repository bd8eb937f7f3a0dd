"""Losses of a survey that needn't be: cases with who is taken away itself, who no link could serve, and who could still be served."""

from __future__ import annotations

from dataclasses import dataclass, replace

from murdjohe.answers.studies import Case
from murdjohe.network.reachability import Reach, down_at_end
from murdjohe.network.wiring import Wiring
from murdjohe.survey.portions import Part
from murdjohe.survey.study_runs import Rows
from murdjohe.survey.tallies import Worst, case_without_name


@dataclass(frozen=True)
class Loss:
    """A case that leaves elements without a source: how many of them are taken away themselves, how many no link could serve, and
    how many another way could."""

    case: Case
    themselves: int
    beyond: int
    needless: int


class Losses:
    """Cases that leave somebody without a source, counted by why; the worst of those that needn't; and how many leave more without
    a source than the common events alone do."""

    def __init__(self, wired: Wiring, until: int, most: int, alone: int | None) -> None:
        self.wired, self.until, self.alone = wired, until, alone
        self.reach = Reach(wired)
        self.cases = self.more = 0
        self.themselves = self.beyond = 0
        self.worst, self.widest = Worst(most), Worst(most)
        self.kept: dict[str, Loss] = {}

    def rows_of(self, part: Part, names: set[str]) -> dict[str, list[list[str]]]:
        """The events of some cases of a part, those common to all among them, each as time, word and target."""
        common: list[list[str]] = []
        own: dict[str, list[list[str]]] = {}
        for line in part.data.decode().splitlines()[1:]:
            name, at, what, target, *_ = line.split(",")
            if not name:
                common.append([at, what, target])
            elif name in names:
                own.setdefault(name, []).append([at, what, target])
        return {name: common + rows for name, rows in own.items()}

    def add(self, part: Part, rows: Rows, number: int) -> None:
        """Counts the cases of a part; the first has this number."""
        outcomes = {tail: case_without_name(tail) for tail in set(rows.tails)}
        losing = [place for place, tail in enumerate(rows.tails) if outcomes[tail].lost]
        if self.alone is not None:
            self.more += sum(outcomes[tail].lost > self.alone for tail in rows.tails)
        if not losing:
            return
        events = self.rows_of(part, {rows.names[place] for place in losing})
        downs = [down_at_end(self.wired, events.get(rows.names[place], ()), self.until) for place in losing]
        for place, lost in zip(losing, self.reach.lost(downs)):
            outcome = replace(outcomes[rows.tails[place]], case=rows.names[place])
            self.count(Loss(outcome, *lost, max(0, outcome.lost - lost.themselves - lost.beyond)), number + place)

    def count(self, loss: Loss, number: int) -> None:
        """Counts a case."""
        self.themselves += loss.themselves > 0 and not loss.needless
        self.beyond += loss.beyond > 0 and not loss.themselves and not loss.needless
        self.cases += loss.needless > 0
        measures = ((self.worst, (loss.needless, loss.case.lost)), (self.widest, (loss.case.lost, loss.case.freerun)))
        for worst, measure in measures:
            if worst.has_place(measure):
                self.kept[loss.case.case] = loss
                worst.add(measure, number, loss.case)

    def outcomes(self) -> list[Loss]:
        """The worst cases that needn't have lost anybody."""
        return [self.kept[case.case] for case in self.worst.outcomes()]

    def all_outcomes(self) -> list[Loss]:
        """The cases that leave most elements without a source, whatever the cause."""
        return [self.kept[case.case] for case in self.widest.outcomes()]
