"""What is wrong with a part of a survey that the program didn't take, with the line of the file where its cases come from."""

from __future__ import annotations

from itertools import islice

from murdjohe.core import program, refusals
from murdjohe.core.faults import Wrong
from murdjohe.core.program import Answer
from murdjohe.core.refusals import Refusal
from murdjohe.plan.plan_lines import PlanLines
from murdjohe.sentences import records
from murdjohe.sentences.answers import NO_MEMORY
from murdjohe.survey.case_lists import CaseList
from murdjohe.survey.portions import Part

OF_EVENTS = range(28, 33)  # what is said of the event in a row


def of_event(number: int, rows: list[records.Row], plan: PlanLines) -> str:
    """What is wrong with the last of two rows, without their cases, and what would be right."""
    if number not in OF_EVENTS:
        return f"the row {refusals.says('events', number)}; {refusals.remedy('events', number)}"
    what, remedy = records.on_event(number, rows, len(rows) - 1, plan)
    return f"{what}; {remedy}"


def on_row(cases: CaseList, part: Part, refusal: Refusal, plan: PlanLines) -> str:
    """The sentence on a row that is refused."""
    if cases.rows is None:
        text = part.data.decode().splitlines()[refusal.row]
        says, remedy = refusals.says("events", refusal.number), refusals.remedy("events", refusal.number)
        return f"{cases.name}: `{text}`: the row {says}; {remedy}"
    number = part.row_of(refusal.row)
    near = list(islice(cases.rows(), max(0, number - 2), number))
    text = ",".join(near[-1].fields)[:100]
    said = of_event(refusal.number, [records.Row(row.line, row.fields[1:]) for row in near], plan)
    return f"{cases.name}:{near[-1].line}: `{text}`: {said}"


def refused(cases: CaseList, plan: PlanLines, part: Part, answer: Answer) -> Wrong:
    """What is wrong with a part, by what the program answered to it; the status is the program's."""
    if answer.status == program.USAGE:
        older = f"{program.find()} has no form `study`"
        return Wrong(f"{older}: it is older than this command; build or install it anew", status=program.UNAVAILABLE)
    if answer.status == program.NO_MEMORY:
        return Wrong(NO_MEMORY, status=answer.status)
    refusal = refusals.of(answer.status, answer.text)
    if refusal is None or refusal.table != "events" or not refusal.row:
        said = answer.said.strip().partition("\n")[0][:100]
        return Wrong(
            f"{cases.name}: the program answers a part with status {answer.status}: {said}", status=answer.status
        )
    return Wrong(on_row(cases, part, refusal, plan), status=answer.status)
