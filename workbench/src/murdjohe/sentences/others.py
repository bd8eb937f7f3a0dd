"""The mistakes of an event list besides the one that the program refused it for: it is asked again without the row that it named.

Of rows whose time goes back the first alone is told, since the whole list wants sorting then.
"""

from __future__ import annotations

import os

from murdjohe.core import documents, forms, program, refusals
from murdjohe.core.inputs import Words
from murdjohe.core.program import Answer
from murdjohe.core.refusals import Refusal
from murdjohe.plan.plan_lines import PlanLines
from murdjohe.sentences import records

OF_ROWS = frozenset((27, 28, 29, 30, 31, 32))  # the refusals of a row of an event list
GOES_BACK = 29
SHOWN = 20  # mistakes of a list that are told, with the first
LONGEST = 1_000_000  # bytes of a list, and of a plan, that the program is asked about again


def answer_on(plan: str, lines: list[bytes]) -> Answer:
    """What the program answers to the lines of an event list, run for no time."""
    memory = os.memfd_create("events", 0)
    try:
        with os.fdopen(os.dup(memory), "wb") as file:
            file.writelines(lines)
        return program.run(["sim", plan, f"/dev/fd/{memory}", "0"])
    finally:
        os.close(memory)


class Rows:
    """The rows of an event list that are left, by their numbers from 1 on, each with its lines."""

    def __init__(self, document: documents.Document) -> None:
        lines = document.data.splitlines(keepends=True)
        starts = [row.line - 1 for row in records.rows_of(document)]
        self.header, *self.lines = [lines[at:end] for at, end in zip(starts, [*starts[1:], len(lines)])]
        self.left = list(range(1, len(self.lines) + 1))

    def answer(self, plan: str) -> Answer:
        """What the program says of the rows that are left."""
        return answer_on(plan, sum((self.lines[number - 1] for number in self.left), self.header))


def later(rows: Rows, plan: str, first: Refusal) -> list[Refusal]:
    """The refusals after the first one, one for each row, with the row's number in the whole list."""
    found, refusal = [first], first
    while len(found) < SHOWN:
        del rows.left[refusal.row - 1]
        answer = rows.answer(plan)
        next_one = refusals.of(answer.status, answer.text)
        if next_one is None or next_one.table != "events" or next_one.number not in OF_ROWS:
            break
        refusal = next_one
        if refusal.number != GOES_BACK or all(one.number != GOES_BACK for one in found):
            found.append(Refusal("events", refusal.number, str(rows.left[refusal.row - 1])))
    return found[1:]


def is_short(path: str) -> bool:
    """Whether a file is short enough to be looked at again and again."""
    return os.stat(path).st_size <= LONGEST


def sentences(words: Words, answer: Answer) -> list[str]:
    """The sentences on the other mistakes of an event list that was refused for a row; none of anything else."""
    refusal = refusals.of(answer.status, answer.text)
    plan, events = words.file(forms.PLAN), words.file(forms.EVENTS)
    if refusal is None or refusal.table != "events" or refusal.number not in OF_ROWS or not (plan and events):
        return []
    try:
        if not (is_short(plan.path) and is_short(events.path)):
            return []
        document, beside = documents.read(events), PlanLines(documents.read(plan))
        found = later(Rows(document), plan.path, refusal)
        return [records.of_events(document, one, beside) for one in found]
    except (OSError, ValueError, program.Absent, program.Ended, program.NoAnswer):
        return []
