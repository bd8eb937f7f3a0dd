"""What the workbench's own commands do, as functions: paths in, dataclasses out. The forms of the program are `murdjohe.api`.

    >>> from murdjohe import tasks
    >>> night = tasks.rehearse("plan.toml", "works.csv", start="23:00")
    >>> night.is_smooth, [loss.element for loss in night.losses]

What is wrong with a file or a word is raised as `tasks.Wrong`, with the sentence and the status that the command would have. Every
function takes a `timeout` in seconds for each start of the program, `survey` one for all of it; `tasks.Late` is raised after it.
"""

from __future__ import annotations

import os
from collections.abc import Collection, Iterator
from contextlib import contextmanager
from dataclasses import dataclass
from decimal import Decimal

from murdjohe.answers.api import Refused
from murdjohe.capture import lab_report
from murdjohe.capture.lab_report import Comparison as Comparison
from murdjohe.core import program, times
from murdjohe.core.faults import Wrong as Wrong
from murdjohe.core.program import Late as Late
from murdjohe.network import differences, findings, group_remarks, groups, orders as work_orders, plan_file
from murdjohe.network.differences import Difference
from murdjohe.network.findings import Finding, Said
from murdjohe.network.orders import Order
from murdjohe.network.plan_file import Judgement
from murdjohe.place import questions
from murdjohe.place.placements import Placed
from murdjohe.place.questions import SECONDS, SINCE
from murdjohe.plan import priorities
from murdjohe.repair import repairs
from murdjohe.repair.repairs import Repair
from murdjohe.runs import rehearsals, what_if
from murdjohe.runs.failures import LINKS
from murdjohe.runs.rehearsals import Rehearsal
from murdjohe.survey import surveys
from murdjohe.survey.surveys import Surveyed as Surveyed
from murdjohe.why import choices
from murdjohe.why.choices import Asked, Why
from murdjohe.works import step_text, steps as step_search
from murdjohe.works.step_text import Step

__all__ = [
    *[
        "Comparison",
        "Late",
        "Linted",
        "Placement",
        "Surveyed",
        "Wrong",
        "compare",
        "diff",
        "judge",
        "lint",
        "orders",
        "place",
    ],
    *["rehearse", "repair", "steps", "survey", "why"],
]

Path = str | os.PathLike[str]
Time = int | str  # milliseconds, or a spelling such as 5m or 02:10


def __dir__() -> list[str]:
    return __all__


@dataclass(frozen=True)
class Linted:
    """What is found in a plan, and what the program says of it."""

    findings: tuple[Finding, ...]
    judgement: Judgement


def millisecond(time: Time, start: int | None) -> int:
    """A time of a run in milliseconds. Raises Wrong."""
    if isinstance(time, int):
        return time
    try:
        found = times.of_word(time, start)
    except times.Early as early:
        raise Wrong(str(early)) from None
    if found is None and not times.is_digits(time):
        raise Wrong(f"{time!r} is no time, as 60000, 20m, 1h30m or 02:10")
    return int(time) if found is None else found


def start_of(start: str | None) -> int | None:
    """The milliseconds of a time of day at which a run begins. Raises Wrong."""
    if start is None:
        return None
    found = times.milliseconds(start)
    if found is None or found >= times.DAY:
        raise Wrong(f"{start!r} is no time of day, as 02:00 or 23:00:00")
    return found


@contextmanager
def limited(timeout: float | None) -> Iterator[None]:
    """Each start of the program may take so many seconds meanwhile."""
    before, program.patience = program.patience, timeout
    try:
        yield
    finally:
        program.patience = before


def judge(plan: Path, timeout: float | None = None) -> Judgement:
    """What the program says of a plan: whether a loop is possible, elements may oscillate, and which failures cut elements off."""
    with limited(timeout):
        return plan_file.judged(plan_file.read(os.fspath(plan)), has_gaps=True)


def lint(plan: Path, groups_path: Path | None = None, timeout: float | None = None) -> Linted:
    """What to look at in a plan, as `murdjohe lint` tells it."""
    with limited(timeout):
        taken = plan_file.read(os.fspath(plan))
        table = groups.read(os.fspath(groups_path), taken) if groups_path is not None else None
        judgement = plan_file.judged(taken, has_gaps=True, groups=table.data if table else None)
        known = table.groups if table else ()
        lost = group_remarks.parted(taken.network, known) if known else {}
        said = Said(taken.ranking.ring, judgement.clash, judgement.gaps or (), taken.chains(), known, lost)
        return Linted(tuple(findings.findings_of(taken.plan, said)), judgement)


def diff(old: Path, new: Path, timeout: float | None = None) -> tuple[Difference, ...]:
    """What differs between two plans, as `murdjohe diff` tells it."""
    with limited(timeout):
        before, after = plan_file.read(os.fspath(old)), plan_file.read(os.fspath(new))
        facts = [differences.facts_of(taken.network, taken.network.option) for taken in (before, after)]
        return tuple(differences.between(*facts))


def why(
    plan: Path, events: Path, element: str, at: Time, start: str | None = None, timeout: float | None = None
) -> Why:
    """Why an element takes what it takes at a millisecond, and everything that brought it about."""
    with limited(timeout):
        begin = start_of(start)
        file = what_if.read(os.fspath(events), begin, (), False)
        return choices.answered(plan_file.read(os.fspath(plan)), file, Asked(element, millisecond(at, begin), None))


def rehearse(
    plan: Path,
    events: Path,
    until: Time | None = None,
    start: str | None = None,
    add: Collection[str] = (),
    timeout: float | None = None,
) -> Rehearsal:
    """Works as they will go, up to a millisecond or, without one, until the network rests by the bounds of `agree`."""
    with limited(timeout):
        begin = start_of(start)
        taken, file = plan_file.read(os.fspath(plan)), what_if.read(os.fspath(events), begin, tuple(add), False)
        if until is None:
            return rehearsals.to_rest(taken, file)
        return rehearsals.rehearsed(taken, file, millisecond(until, begin))


def repair(plan: Path, seconds: float = repairs.SECONDS, timeout: float | None = None) -> Repair:
    """The least changes after which no loop is possible and no elements oscillate, sought for so many seconds of processor time."""
    with limited(timeout):
        taken = plan_file.read(os.fspath(plan))
        return repairs.agreeing_sets(taken.plan, taken.data, repairs.repair_of(taken.network, seconds))


def orders(plan: Path, timeout: float | None = None) -> tuple[Order, ...]:
    """What is to be set at each element."""
    with limited(timeout):
        return tuple(work_orders.orders_of(plan_file.read(os.fspath(plan)).network))


def steps(old: Path, new: Path, timeout: float | None = None) -> tuple[Step, ...] | None:
    """In which order a plan becomes another one, each step with what the program says of the plan after it; None where no order is
    found in which no element loses its last way to a clock and no plan can loop or oscillate that couldn't before."""
    with limited(timeout):
        before, after = plan_file.read(os.fspath(old)), plan_file.read(os.fspath(new))
        priorities.same_network(after.plan, before.plan)
        wanted = priorities.priorities_of(after.network)
        way = step_search.planned(before.network, priorities.priorities_of(before.network), wanted)
        return None if way.visits is None else tuple(step_text.followed(before, wanted, way.visits))


@dataclass(frozen=True)
class Placement:
    """Sites for clocks with the plan that comes of them, and what other limits would cost: the least limit of each cost, None for any."""

    found: Placed
    costs: dict[int | None, Decimal]

    @property
    def sites(self) -> tuple[str, ...]:
        """The elements at which clocks are put."""
        return tuple(site.element for site in self.found.sites)

    @property
    def is_good(self) -> bool:
        """Whether the program says that all which was asked for holds."""
        return self.found.holds() and not self.found.problem.left_out


def path_of(path: Path | None) -> str | None:
    """The words of a path, where there is one."""
    return None if path is None else os.fspath(path)


def place(
    plan: Path,
    sites: Path,
    links: int | None = None,
    links_failed: int | None = None,
    filters: Path | None = None,
    since: int = SINCE,
    survive: bool = True,
    groups_path: Path | None = None,
    anew: bool = False,
    partly: bool = False,
    seconds: float = SECONDS,
    timeout: float | None = None,
) -> Placement:
    """The cheapest sites for clocks of a table, by which every element keeps one after any single failure."""
    with limited(timeout):
        its = (links, links_failed, path_of(filters), since, survive, path_of(groups_path), anew, partly, seconds)
        given = questions.given(plan_file.read(os.fspath(plan)), os.fspath(sites), questions.Wish(*its))
        return Placement(*questions.sought(given, since, partly))


def survey(
    plan: Path,
    cases: Path | None = None,
    kinds: Collection[str] = (LINKS,),
    pairs: bool = False,
    groups_path: Path | None = None,
    during: Path | None = None,
    at: Time | None = None,
    until: Time | None = None,
    start: str | None = None,
    worst: int = 10,
    jobs: int | None = None,
    parts: Path | None = None,
    timeout: float | None = None,
) -> Surveyed:
    """What the network has come to in each case of a table, or of failures of the plan: `kinds` are links, bundles, sources and
    elements. Where a folder for `parts` is named, what is worked stays there, and the same survey goes on with it."""
    begin = start_of(start)
    then, end = (None if one is None else millisecond(one, begin) for one in (at, until))
    files = path_of(groups_path), path_of(during)
    wish = surveys.Wish(path_of(cases), tuple(kinds), pairs, *files, then, end, begin, worst, jobs, path_of(parts))
    return surveys.surveyed(plan_file.read(os.fspath(plan)), wish, timeout)


def compare(
    plan: Path,
    element: str,
    capture: Path,
    lines: Collection[str],
    events: Path | None = None,
    tolerance: Time = 100,
    begin: Time = 5_000,
    until: Time | None = None,
    most: int = 0,
    reaction: Time | None = None,
    median: Time | None = None,
    rate: float = 1.1,
    timeout: float | None = None,
) -> Comparison:
    """What a device sent in a capture beside what the element has to send for what it received; `lines` as `capture compare --line`
    has them."""
    least, first = millisecond(tolerance, None), millisecond(begin, None)
    last, longest, middle = (None if one is None else millisecond(one, None) for one in (until, reaction, median))
    its = os.fspath(plan), element, os.fspath(capture), tuple(lines), False, path_of(events)
    with limited(timeout):
        try:
            return lab_report.comparison(lab_report.Asked(*its, least, first, last, most, longest, middle, rate))
        except Refused as refused:
            raise Wrong(refused.sentence, status=refused.status) from None
