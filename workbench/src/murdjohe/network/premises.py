"""Whether a plan is one of which the promise on single failures speaks: its sources are better than every internal oscillator.

`protect` promises that after each single failure everybody who is in reach of a clock rests on one. The promise asks of the plan
that each nominated source is better than the own clock of every element, and that no floor is better than the worst of these
sources. Where one of these premises is broken, elements may prefer their own clocks, or refuse the source that is left.
"""

from __future__ import annotations

from collections.abc import Iterator
from dataclasses import dataclass

from murdjohe.core.levels import LEVELS
from murdjohe.plan.plan_lines import PlanLines


@dataclass(frozen=True)
class Broken:
    """A premise that an element breaks: its row, the key, what is wrong, and what would be right."""

    number: int
    key: str
    what: str
    remedy: str


@dataclass(frozen=True)
class Nominated:
    """A nominated source of a plan: its name, its level, and the place of that in the table, 0 for the best."""

    name: str
    level: str
    place: int


def nominated_sources(plan: PlanLines) -> list[Nominated]:
    """The nominated sources, in the order of the plan."""
    ranks = LEVELS[plan.option]
    return [Nominated(one.name, one.level, ranks.index(one.level)) for one in plan.network.nominated_sources()]


def refused(plan: PlanLines, source: Nominated) -> bool:
    """Whether a source has the level that says "do not use", so that nobody takes it."""
    return source.level == LEVELS[plan.option][-1]


def worst_source(plan: PlanLines) -> Nominated | None:
    """The worst nominated source that somebody may take, the first of several; none where there is none."""
    found = [source for source in nominated_sources(plan) if not refused(plan, source)]
    return max(found, key=lambda source: source.place) if found else None


def broken(plan: PlanLines) -> Iterator[Broken]:
    """The premises that elements of an accepted plan break, in the order of the elements."""
    ranks, worst = LEVELS[plan.option], worst_source(plan)
    if worst is None:
        return
    for number, row in enumerate(plan.network.elements, start=1):
        own, floor = row.own, row.floor
        if ranks.index(own) <= worst.place:
            what = (
                f'the internal oscillator of "{row.name}", {own}, is no worse than source "{worst.name}", {worst.level}'
            )
            yield Broken(number, "own", what, "give it the level that it has, or take the source out")
        if floor is not None and ranks.index(floor) < worst.place:
            what = f'the floor of "{row.name}", {floor}, is better than source "{worst.name}", {worst.level}'
            yield Broken(number, "floor", what, f"lower the floor to {worst.level}, or take the source out")


def told(plan: PlanLines) -> str:
    """A sentence on the first premise that is broken, and on how many more are; nothing where all hold."""
    promise = "the promise on single failures doesn't hold for this plan"
    for source in nominated_sources(plan):
        if refused(plan, source):
            return f'{promise}: source "{source.name}" has {source.level}, so no element takes it; give it the level that it has'
    found = list(broken(plan))
    if not found:
        return ""
    more = f", and {len(found) - 1:,} more" if len(found) > 1 else ""
    return f"{promise}: {found[0].what}{more}; {found[0].remedy}"
