"""What is told of the steps by which a plan becomes another one, each with what the program says of the plan after it."""

from __future__ import annotations

from dataclasses import dataclass
from typing import Any

from murdjohe.core.wording import plural
from murdjohe.network import plan_file
from murdjohe.network.plan_file import Judgement, PlanFile
from murdjohe.plan import edits, priorities
from murdjohe.works import steps
from murdjohe.works.steps import Net, Priorities, Visit

COLUMNS = ("step", "element", "part", "input", "old", "new", "checked")
NONE = "none"


@dataclass(frozen=True)
class Step:
    """A visit with the priorities that it changes (input, old, new), the priorities after it, and what the program says then."""

    visit: Visit
    changes: tuple[tuple[str, int, int], ...]
    priorities: Priorities
    judgement: Judgement

    @property
    def is_good(self) -> bool:
        return self.judgement.is_good


def followed(old: PlanFile, new: Priorities, visits: tuple[Visit, ...]) -> list[Step]:
    """The steps of these visits, each plan put to the program. Raises Wrong where a plan can't be edited."""
    net = Net(old.network)
    now = priorities.priorities_of(old.network)
    found = []
    for visit in visits:
        then = steps.after(net, now, new, visit)
        changes = tuple((name, now[name], then[name]) for name in net.inputs(visit.element) if now[name] != then[name])
        data = edits.changed(old.plan, priorities.wanted(old.plan, then))
        judgement = plan_file.judged(plan_file.taken(f"the plan after {visit.element}", data))
        found.append(Step(visit, changes, then, judgement))
        now = then
    return found


def number_of(priority: int) -> str:
    """A priority as it is told."""
    return str(priority) if priority else NONE


def rows_of(found: list[Step]) -> list[tuple[str, ...]]:
    """The table of the steps, a row for each change."""
    return [
        (str(number), step.visit.element, step.visit.part, name, number_of(old), number_of(new), step.judgement.text)
        for number, step in enumerate(found, start=1)
        for name, old, new in step.changes
    ]


def text_of(found: list[Step]) -> list[str]:
    """The steps as a person reads them."""
    said = []
    for number, step in enumerate(found, start=1):
        part = "" if step.visit.part == steps.ALL else f" ({step.visit.part})"
        said.append(f"step {number}: {step.visit.element}{part}")
        said += [
            f"  priority of {name}: {number_of(new)}, which was {number_of(old)}" for name, old, new in step.changes
        ]
        said.append(f"  checked: {step.judgement.text}")
    return said


def last_bad(found: list[Step]) -> int:
    """The number of the last step after which the program finds a plan that can loop or oscillate; 0 where there is none."""
    return max((number for number, step in enumerate(found, start=1) if not step.is_good), default=0)


def is_safe(found: list[Step], is_old_good: bool) -> bool:
    """Whether no step makes a plan that can loop or oscillate out of one that can't, and the last one is good."""
    marks = [is_old_good, *(step.is_good for step in found)]
    return marks[-1] and not any(one and not two for one, two in zip(marks, marks[1:]))


def summary(found: list[Step], is_old_good: bool) -> list[str]:
    """What is said of all steps together."""
    elements = len({step.visit.element for step in found})
    if not found:
        return ["no priority differs: there is no step"]
    bad, number = last_bad(found), f"{plural(len(found), 'step')} at {plural(elements, 'element')}"
    if not is_safe(found, is_old_good):
        return [f"the program doesn't take the plan after step {bad}: don't work in this order"]
    said = f"{number}; the program accepts the plan after each, and priorities agree in it"
    if bad:
        said = f"{number}; the old plan can loop or oscillate, and so can those up to step {bad}: work these off without a pause"
    return [
        said,
        "between two steps no element loses its last way to a clock; failures meanwhile aren't looked at: `protected` tells them of the "
        "plan after a step",
    ]


def no_order(is_whole: bool) -> str:
    """That no order is found."""
    if is_whole:
        return (
            "there is no order, element after element, in which no plan can loop or oscillate and no element loses its last way to a "
            "clock: take what is taken back away first, in a window in which elements may hold over"
        )
    return "no order was found in the time of a search; change fewer elements at once, by plans in between"


def json_rows(found: list[Step]) -> list[dict[str, Any]]:
    """The table of the steps for JSON."""
    return [dict(zip(COLUMNS, row)) for row in rows_of(found)]
