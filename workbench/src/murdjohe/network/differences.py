"""What differs between two plans, whatever their order and spelling: topology, priorities, floors, times, levels, and link failures."""

from __future__ import annotations

from collections.abc import Iterable
from dataclasses import dataclass

from murdjohe.answers import reports
from murdjohe.answers.reports import Gap
from murdjohe.core.wording import plural
from murdjohe.network import orders
from murdjohe.network.groups import Group
from murdjohe.network.orders import NONE
from murdjohe.plan.model import Plan

PARTS = ("topology", "priorities", "floors", "times", "levels", "groups", "sweep")
COLUMNS = ("part", "subject", "what", "old", "new")
# What a row of `sweep` says, as it is told.
CUTS = ("is_settled", "locked", "holdover", "freerun", "loops", "worst", "bound")

# What a plan says, by the part, the subject, and what it is of it.
Facts = dict[tuple[str, str, str], str]


@dataclass(frozen=True)
class Difference:
    """What differs: the part, the subject, what it is of it, its old and its new value; `none` where it isn't there."""

    part: str
    subject: str
    what: str
    old: str
    new: str


def on_elements(network: Plan, option: str) -> Facts:
    """What a plan says of its elements."""
    found: Facts = {("topology", "plan", "option"): option}
    for order in orders.orders_of(network):
        subject = f"element {order.element}"
        found["topology", subject, "element"] = "there"
        found["floors", subject, "floor"] = order.floor
        found["times", subject, "hold-off"] = f"{order.holdoff} ms"
        found["times", subject, "wait-to-restore"] = f"{order.wtr} min"
        found["levels", subject, "internal oscillator (own clock)"] = order.own
    return found


def on_links(network: Plan) -> Facts:
    """What a plan says of its links; a priority of 0 is none."""
    found: Facts = {}
    for link in network.links:
        subject = f"link {link.name}"
        found["topology", subject, "ends"] = " and ".join(sorted((link.a, link.b)))
        found["topology", subject, "bundle"] = link.bundle or NONE
        for end in "ab":
            line = link.line(end)
            found["priorities", subject, f"priority of {line}"] = str(link.priority(end) or NONE)
            found["times", subject, f"delay of {line}"] = f"{link.delay(end)} ms"
    return found


def on_sources(network: Plan) -> Facts:
    """What a plan says of its sources."""
    found: Facts = {}
    for source in network.sources:
        subject = f"source {source.name}"
        found["topology", subject, "at"] = source.at
        found["priorities", subject, "priority"] = str(source.priority or NONE)
        found["levels", subject, "level"] = source.level
    return found


def facts_of(network: Plan, option: str) -> Facts:
    """All that a plan says, with what stands for keys that are left out."""
    return on_elements(network, option) | on_links(network) | on_sources(network)


def facts_of_cuts(sweep: reports.Sweep) -> Facts:
    """What a network is after each link's failure."""
    found: Facts = {}
    for row in sweep.rows:
        for what in CUTS:
            value = getattr(row, what)
            said = (
                {True: "yes", False: "no"}[value] if isinstance(value, bool) else NONE if value is None else str(value)
            )
            found["sweep", f"cut of {row.link}", what.removeprefix("is_")] = said
    return found


def facts_of_groups(groups: Iterable[Group], gaps: Iterable[Gap], parted: dict[str, list[str]]) -> Facts:
    """Whom each group cuts off who needn't be, and whom it leaves without any way to a clock."""
    by_name = {
        gap.failure: f"{plural(gap.elements, 'element')}, {gap.first} first" for gap in gaps if gap.kind == "group"
    }
    found: Facts = {}
    for group in groups:
        subject = f"group {group.name}"
        found["groups", subject, "cuts off though other links lead there"] = by_name.get(group.name, NONE)
        found["groups", subject, "leaves without any way to a clock"] = " ".join(parted.get(group.name, [])) or NONE
    return found


def between(old: Facts, new: Facts) -> list[Difference]:
    """What differs, part by part. Of what one plan alone has, its topology and its priorities are told."""
    subjects = [{subject for _, subject, _ in facts} for facts in (old, new)]
    in_both = subjects[0] & subjects[1]
    found = []
    for key in dict.fromkeys((*old, *new)):
        part, subject, _ = key
        was, now = old.get(key, NONE), new.get(key, NONE)
        if was != now and (subject in in_both or part in ("topology", "priorities")):
            found.append(Difference(*key, was, now))
    return sorted(found, key=lambda one: PARTS.index(one.part))


def text_of(differences: list[Difference]) -> list[str]:
    """The differences as a person reads them, a heading for each part."""
    said, last = [], ""
    for one in differences:
        said += [one.part] if one.part != last else []
        said.append(f"  {one.subject}: {one.what} {one.new}, which was {one.old}")
        last = one.part
    return said
