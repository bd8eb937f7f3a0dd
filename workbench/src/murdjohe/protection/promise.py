"""What is said beside an answer of `protect`: who wants a floor in the plan that was found, or why none was found; and its lines."""

from __future__ import annotations

from murdjohe.answers import api
from murdjohe.answers.reports import Agreement
from murdjohe.core.documents import Document
from murdjohe.core.wording import listed, plural
from murdjohe.network import findings, premises
from murdjohe.plan.plan_lines import PlanLines


PROTECTED = "after one failure in a settled network: every element that can still have a clock follows one"
# Of a plan with gaps an agreed one promises no more than this.
REACHED = (
    "after failures in a settled network: every element that a level better than every internal oscillator (own clock) still reaches "
    "over nominated lines rests on its selection and level"
)


def on_times(agreed: Agreement, promise: str) -> list[str]:
    """How soon after failures, out of a network at rest, what is promised holds; nothing of a plan without bounds."""
    if agreed.failures is None or agreed.bound is None:
        return []
    soon, late = (f"{bound / 1000:,.3f} s" for bound in (agreed.failures, agreed.bound))
    return [f"{promise} within {soon}, if nothing else happens; after a repair within {late}"]


def on_survival(plan: PlanLines, data: bytes) -> list[str]:
    """How soon after any single failure each element that can have a clock rests on one; or which premise of that is broken."""
    broken = premises.told(plan)
    if broken or premises.worst_source(plan) is None:
        return [broken] if broken else []
    return on_times(api.agree(data).result, PROTECTED)


def beside_findings(plan: PlanLines, agreed: Agreement, has_gaps: bool) -> list[str]:
    """The same beside what is to be looked at in a plan, where no premise is broken: that is told there."""
    if premises.told(plan) or premises.worst_source(plan) is None:
        return []
    return on_times(agreed, REACHED if has_gaps else PROTECTED)


def on_found(text: str) -> list[str]:
    """How soon failures are over, the links and bundles that are nominated at both ends, and the elements there that want a floor."""
    data = text.encode("utf-8")
    plan = PlanLines(Document("the plan", data))
    return on_survival(plan, data) + on_pairs(plan) if not plan.fault else []


def on_pairs(plan: PlanLines) -> list[str]:
    """The links and bundles that are nominated at both ends, and the elements there that want a floor."""
    pairs = list(findings.pairs_of(findings.Looked(plan)))
    if not pairs:
        return []
    what = "link or bundle is" if len(pairs) == 1 else "links or bundles are"
    said = [f"{len(pairs):,} {what} nominated at both ends: {listed([pair.name for pair in pairs])}"]
    bare = [name for name in plan.names("element") if any(name in pair.bare for pair in pairs)]
    if bare:
        have = "has" if len(bare) == 1 else "have"
        said.append(
            f"{plural(len(bare), 'element')} there {have} no floor better than the other's internal oscillator (own clock), and may oscillate with it "
            f"while no source reaches them: {listed(bare)}"
        )
    return said


def on_none(text: str) -> list[str]:
    """How many failures cut somebody off in the plan that was found, and what to do."""
    rows = text.splitlines()[1:]
    verb = "leaves" if len(rows) == 1 else "leave"
    return [
        f"no plan: in the one that was found {plural(len(rows), 'failure')} {verb} elements without a clock that they could "
        "have. A line comes after the sources of its element: give these smaller numbers, or nominate fewer of them (255 is "
        "the greatest number, and 64 inputs are the most at an element)"
    ]


def lines_kept(data: bytes) -> frozenset[str]:
    """The lines that `protect` nominates in a plan, over which no ring goes; none where it finds no plan."""
    try:
        text = api.protect(data).result.text
    except api.Refused:
        return frozenset()
    plan = PlanLines(Document("the plan", (text or "").encode("utf-8")))
    return frozenset() if plan.fault else frozenset(line.name for line in plan.network.nominated_lines())
