"""What `protect --groups` says: a plan that was found for a network with groups, and what the program answers of it."""

from __future__ import annotations

from dataclasses import dataclass
from typing import Any

from murdjohe.answers import api
from murdjohe.answers.reports import Agreement, Gap
from murdjohe.core.documents import Document
from murdjohe.core.faults import Wrong
from murdjohe.core.wording import plural
from murdjohe.network import group_remarks, plan_file, premises
from murdjohe.network.groups import GroupFile
from murdjohe.network.plan_file import Judgement, PlanFile
from murdjohe.plan.plan_lines import PlanLines
from murdjohe.protection import group_plans, promise
from murdjohe.protection.group_plans import Found

NAME = "the plan that was found"
MOST = 5_000  # elements of a network that is searched


@dataclass(frozen=True)
class Made:
    """The plan, what the search knows of it, what the program says of it, and whom groups leave without any way to a clock."""

    data: bytes
    groups: GroupFile
    found: Found
    judgement: Judgement
    agreement: Agreement
    parted: dict[str, list[str]]

    @property
    def gaps(self) -> tuple[Gap, ...]:
        """The failures and groups that cut somebody off who needn't be, as the program says."""
        return self.judgement.gaps or ()

    @property
    def is_good(self) -> bool:
        """Whether no loop is possible, no elements oscillate, and no failure and no group cuts anybody off who needn't be."""
        return self.judgement.is_good and not self.gaps

    @property
    def plan(self) -> PlanLines:
        return PlanLines(Document(NAME, self.data))


def made_of(text: bytes, groups: GroupFile, seconds: float = group_plans.SECONDS) -> Made:
    """The plan of the best priorities that were found from a plan of `protect` on, with the program's verdicts. Raises Wrong."""
    plan = PlanLines(Document(NAME, text))
    if plan.fault:
        raise Wrong(f"{NAME}: the program wrote it, and Python's reader doesn't take it: {plan.fault}")
    found = group_plans.sought(plan, groups.groups, seconds)
    data = group_plans.written(plan, found)
    taken = plan_file.taken(NAME, data)
    judgement = plan_file.judged(taken, has_gaps=True, groups=groups.data)
    lost = group_remarks.parted(plan.network, groups.groups)
    return Made(data, groups, found, judgement, api.agree(data).result, lost)


def small_enough(taken: PlanFile) -> None:
    """Raises Wrong where a network is larger than it is searched."""
    count = len(taken.network.elements)
    if count > MOST:
        raise Wrong(
            f"protect --groups: {count:,} elements, and it searches networks of {MOST:,} at most: let `protect` give priorities, "
            "look at `protected PLAN GROUPS`, and nominate by hand"
        )


def on_search(made: Made) -> list[str]:
    """How many groups cut nobody off, whom the others do, and whether it is known that no priorities do better."""
    total, open_groups = len(made.groups.groups), [gap for gap in made.gaps if gap.kind == group_remarks.GROUP]
    covered = total - len(open_groups)
    if not total:
        return ["the table has no group: this is what `protect` gives without one"]
    if not open_groups:
        return [
            f"{plural(covered, 'group')} and each single failure: no element is cut off that could still have a clock"
        ]
    said = [f"{covered:,} of {plural(total, 'group')}: no element is cut off that could still have a clock"]
    said += group_remarks.on_gaps(open_groups, made.groups.groups)
    if made.found.is_known and made.found.covered == covered:
        return [
            *said,
            "no priorities behind those of the sources do better: an exact search, by HiGHS, came to its end",
        ]
    return [*said, "whether other priorities do better isn't known: the search ended with its time"]


def on_survival(made: Made) -> list[str]:
    """How soon after a failure or a group whoever can have a clock rests on one; or which premise of that is broken."""
    plan, agreement = made.plan, made.agreement
    broken = premises.told(plan)
    if broken or premises.worst_source(plan) is None:
        return [broken] if broken else []
    if (
        agreement.failures is None
        or agreement.bound is None
        or any(gap.kind != group_remarks.GROUP for gap in made.gaps)
    ):
        return []
    but = ", those above excepted" if made.gaps else ""
    return [
        f"after one failure in a settled network, or parts of one group going down{but}: every element that can still have a clock follows one within "
        f"{agreement.failures / 1000:,.3f} s, if nothing else happens; after a repair within {agreement.bound / 1000:,.3f} s"
    ]


def said(made: Made) -> list[str]:
    """All that is said beside the plan."""
    changed = len(made.found.wanted)
    verb = "is" if changed == 1 else "are"
    what = "priority" if changed == 1 else "priorities"
    other = [f"{changed:,} {what} {verb} other than `protect` gives without groups"]
    return [
        *on_search(made),
        *group_remarks.on_parted(made.parted),
        *(other if changed else []),
        f"checked: {made.judgement.text}",
        *made.judgement.lines,
        *on_survival(made),
        *promise.on_pairs(made.plan),
        group_remarks.ALONE,
    ]


def as_data(made: Made) -> dict[str, Any]:
    """The same as JSON has it."""
    return {
        "plan": made.data.decode("utf-8", "replace"),
        "groups": [group.name for group in made.groups.groups],
        "changed": len(made.found.wanted),
        "gaps": [vars(gap) for gap in made.gaps],
        "none_do_better": made.found.is_known,
        "without_way": made.parted,
        "checked": made.judgement.text,
        "bound": made.agreement.bound,
        "failures": made.agreement.failures,
        "said": said(made),
    }
