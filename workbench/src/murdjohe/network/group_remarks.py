"""What is said of groups of parts that fail together: whom each cuts off who needn't be, who has no way to a clock left at all, and
what isn't looked at."""

from __future__ import annotations

from collections.abc import Iterable

from murdjohe.answers.reports import Gap
from murdjohe.core import forms
from murdjohe.core.inputs import Words
from murdjohe.core.wording import NAMED, listed, plural
from murdjohe.network import groups
from murdjohe.network.groups import Group
from murdjohe.network.ways import Fall, Ways, falls_of, single
from murdjohe.plan.model import Plan
from murdjohe.plan.plan_tables import network_of

GROUP = "group"
SHOWN = 10  # groups of which each is told
REMEDY = "`murdjohe protect PLAN --groups GROUPS` looks for priorities under which no group does"
ALONE = "not looked at: two failures or groups at once, and how soon an element takes the path that it still has (`agree` tells that)"


def event_of(group: Group) -> str:
    """What happens to a group: one of links alone is cut."""
    return "is cut" if not (group.sources or group.elements) else "fails"


def sentence(gap: Gap, group: Group | None) -> str:
    """Whom a group cuts off who needn't be."""
    event = event_of(group) if group else "fails"
    few = plural(gap.elements, "element")
    loses = "loses" if gap.elements == 1 else "lose"
    them = "it" if gap.elements == 1 else "them"
    return (
        f"if {gap.failure} {event}, {few} {loses} every clock though a clock could still reach {them}; "
        f"the first is {gap.first}"
    )


def on_gaps(gaps: Iterable[Gap], known: Iterable[Group]) -> list[str]:
    """Whom groups cut off who needn't be: a sentence for each of the first, and how many more there are."""
    by_name = {group.name: group for group in known}
    rows = [gap for gap in gaps if gap.kind == GROUP]
    said = [sentence(gap, by_name.get(gap.failure or "")) for gap in rows[:SHOWN]]
    more = len(rows) - SHOWN
    return said + (
        [f"and {more:,} more {'group cuts' if more == 1 else 'groups cut'} elements off in this way"]
        if more > 0
        else []
    )


def parted(network: Plan, known: Iterable[Group]) -> dict[str, list[str]]:
    """The elements that groups leave without any way to a clock, whatever is nominated, and that aren't parts of them."""
    nothing: Fall = single("none", "")
    return Ways(network, [nothing, *falls_of(known)]).parted()


def on_parted(found: dict[str, list[str]]) -> list[str]:
    """Who has no way to a clock left, whatever is nominated: that `protected` doesn't count."""
    if not found:
        return []
    names = [f"{name} ({listed(lost)})" for name, lost in list(found.items())[:NAMED]]
    more = len(found) - NAMED
    its = ", ".join(names) + (f" and {plural(more, 'group')} more" if more > 0 else "")
    verb = "leaves" if len(found) == 1 else "leave"
    return [
        f"{plural(len(found), 'group')} {verb} elements without any path to a clock, whatever is nominated (they have no row): {its}"
    ]


def known_of(words: Words) -> tuple[Group, ...]:
    """The groups of a table that the program took; none where the disk doesn't give it any more."""
    file = words.file(forms.GROUPS)
    try:
        with open(file.path if file else "", "rb") as source:
            return groups.groups_of(source.read())
    except (OSError, ValueError, KeyError):
        return ()


def beside(words: Words, gaps: Iterable[Gap]) -> list[str]:
    """What is said beside an answer of `protected` with groups."""
    known, network = known_of(words), network_of(words)
    if not known:
        return ["the list has no group, so this is what `protected` says without one"]
    lost = on_parted(parted(network, known)) if network is not None else []
    said = on_gaps(gaps, known)
    return [*said, *([REMEDY] if said else []), *lost, ALONE]
