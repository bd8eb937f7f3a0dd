"""Priorities that may oscillate, as the program says by `agree`: the sentence on them, with the number that ends it."""

from __future__ import annotations

from murdjohe.answers.reports import Loop
from murdjohe.core import documents
from murdjohe.core.inputs import File
from murdjohe.core.program import Answer
from murdjohe.network import findings
from murdjohe.network.findings import Looked
from murdjohe.plan import plan_lines
from murdjohe.plan.plan_lines import PlanLines


def circle_of(clash: Loop) -> str:
    """The lines, one after the other."""
    return " -> ".join([*clash, clash[0]])


def remedy_of(plan: PlanLines, clash: Loop) -> str:
    """What ends the oscillation: the number of a line, with its place in the file, or whose priority goes."""
    looked = Looked(plan)
    last = findings.last_resort(looked, clash)
    if last is None:
        return f"take the priority of {' or '.join(clash)} away"
    key = f"{last.line.key} = {last.priority} or more of link {last.line.name.partition('>')[0]}"
    place = f"{plan.document.name}:{looked.line_of(last.line)}, now {last.line.priority}"
    return f"give {last.line.name} the lowest priority at {last.line.receiver}: {key} ({place})"


def told(plan: PlanLines, clash: Loop) -> str:
    """That priorities of a plan may oscillate, and what ends it."""
    return (
        "no loop is possible, but after a failure elements may oscillate for ever, each taking timing from the other and "
        f"dropping it: {circle_of(clash)}; {remedy_of(plan, clash)}"
    )


def beside(file: File, answer: Answer) -> list[str]:
    """What is said of a plan of which `agree` answers that its priorities may oscillate."""
    try:
        plan = plan_lines.PlanLines(documents.read(file))
    except OSError:
        return []
    clash = tuple(answer.said.split()[1:])
    return [told(plan, clash)] if clash and not plan.fault else []
