"""What a planner should look at in a plan that the program took, each with its line and a remedy.

Whether timing can go round, whom single failures cut off and how long chains may become the program says; the rest is counted here.
"""

from __future__ import annotations

import re
from collections import Counter
from collections.abc import Collection, Iterator
from dataclasses import dataclass, field

from murdjohe.answers.reports import Chain, Gap
from murdjohe.core import levels
from murdjohe.core.wording import listed, plural
from murdjohe.network import clock_reach, premises
from murdjohe.network.groups import KINDS as KINDS_OF_PARTS, Group
from murdjohe.plan.model import LOWEST, Line
from murdjohe.network.orders import NONE, Order, orders_of
from murdjohe.network.reference_chain import LONGEST
from murdjohe.plan.plan_lines import PlanLines

ERROR, WARNING, NOTE = "error", "warning", "note"
KINDS = (ERROR, WARNING, NOTE)


@dataclass(frozen=True)
class Finding:
    """What was found: the line of the plan's file, from 1 on, its kind, what it is, and what would be right."""

    line: int
    kind: str
    what: str
    remedy: str

    def told(self, name: str) -> str:
        return f"{name}:{self.line}: {self.kind}: {self.what}; {self.remedy}"


@dataclass(frozen=True)
class Said:
    """What the program says of a plan: the ring or else the clash that it found, if one, whom failures cut off, and the chains; and of
    groups of parts that fail together which these are, and whom each leaves without any way to a clock."""

    ring: tuple[str, ...] | None = None
    clash: tuple[str, ...] | None = None
    gaps: tuple[Gap, ...] = ()
    chains: tuple[Chain, ...] = ()
    groups: tuple[Group, ...] = ()
    parted: dict[str, list[str]] = field(default_factory=dict)


class Looked:
    """A plan with what the findings rest on: orders by element, nominated lines, the rows of elements by name, and where what may fail
    stands first, by its kind and name."""

    def __init__(self, plan: PlanLines) -> None:
        self.plan = plan
        self.orders = {order.element: order for order in orders_of(plan.network)}
        self.lines = plan.network.nominated_lines()
        self.by_name = {line.name: line for line in self.lines}
        self.rows = {name: number for number, name in enumerate(plan.names("element"), start=1)}
        self.places: dict[tuple[str, str], int] = {}
        for number, link in enumerate(plan.network.links, start=1):
            self.places.setdefault(link.whole, number)
            self.places.setdefault(("link", link.name), number)
        self.places.update((("source", source.name), place) for place, source in enumerate(plan.network.sources, 1))
        self.places.update((("element", name), number) for name, number in self.rows.items())

    def line(self, section: str, number: int, *keys: str) -> int:
        """The line of a row, or of the first of these keys in it."""
        return self.plan.line(section, number, *keys) or 1

    def line_of(self, line: Line) -> int:
        """Where a line is nominated."""
        return self.line("link", line.row, line.key)


NOT_PROMISED = "the promise on single failures doesn't hold for this plan"


def on_sources(looked: Looked) -> Iterator[Finding]:
    """No source, sources that aren't nominated, and sources that nobody takes."""
    sources = looked.plan.network.sources
    if not sources:
        yield Finding(1, ERROR, "there is no source, so nothing ever has a clock", "add a [[source]] at an element")
    worst = levels.LEVELS[looked.plan.option][-1]
    for number, row in enumerate(sources, start=1):
        title = f'source "{row.name}"'
        if not row.priority:
            line = looked.line("source", number, "priority")
            yield Finding(line, WARNING, f"{title} isn't nominated", "give it a priority, or take it out")
        if row.level == worst:
            line = looked.line("source", number, "level")
            promise = f", and {NOT_PROMISED}" if row.priority else ""
            what = f"{title} has {worst}, so no element takes it{promise}"
            yield Finding(line, WARNING, what, "give it the level that it has, or take it out")


def ways_in(looked: Looked) -> Counter[str]:
    """How many ways lead into each element, nominated or not: links, each bundle once, and sources."""
    network = looked.plan.network
    ends = {(link.element(end), link.whole) for link in network.links for end in "ab"}
    return Counter([element for element, _ in ends] + [source.at for source in network.sources])


def on_ways(looked: Looked) -> Iterator[Finding]:
    """Elements with no way to a clock, and elements with one way in: one input, or several of one bundle."""
    without = set(clock_reach.without_way(looked.plan.network))
    ways = ways_in(looked)
    for name, number in looked.rows.items():
        line, title, inputs = looked.line("element", number), f'element "{name}"', looked.orders[name].inputs
        if name in without:
            what = "has no nominated input" if not inputs else "has inputs, and none of them leads to a clock"
            yield Finding(
                line, ERROR, f"{title} {what}", "nominate a link that leads to one; `murdjohe nominate` does so"
            )
        elif ways[name] < 2:
            continue  # (nothing else could be nominated)
        elif len(inputs) == 1:
            yield Finding(
                line, WARNING, f"{title} has one way in, {inputs[0].name}", "nominate another one as a reserve"
            )
        elif len({one.bundle or one.name for one in inputs}) == 1:
            what = f"{title} has one way in, all its inputs are of bundle {inputs[0].bundle}"
            yield Finding(line, WARNING, what, "nominate another way as a reserve")


def is_floored(order: Order, other: Order, option: str) -> bool:
    """Whether an element has a floor that is better than the own clock of the other."""
    ranks = levels.LEVELS[option]
    return order.floor != NONE and ranks.index(order.floor) < ranks.index(other.own)


@dataclass(frozen=True)
class Pair:
    """A link or bundle that is nominated at both ends: which it is, its nominated lines, and the elements at its ends that have
    no floor which keeps the other's own clock out."""

    kind: str
    name: str
    lines: tuple[Line, ...]
    bare: tuple[str, ...]


def pairs_of(looked: Looked) -> Iterator[Pair]:
    """The links and bundles that are nominated at both ends."""
    bundles: dict[tuple[str, str], list[Line]] = {}
    for line in looked.lines:
        bundles.setdefault(line.bundle, []).append(line)
    for (kind, name), lines in bundles.items():
        if len({line.receiver for line in lines}) > 1:
            one, other = (looked.orders[end] for end in (lines[0].receiver, lines[0].sender))
            both, option = ((one, other), (other, one)), looked.plan.option
            yield Pair(kind, name, tuple(lines), tuple(a.element for a, b in both if not is_floored(a, b, option)))


def on_pairs(looked: Looked) -> Iterator[Finding]:
    """Links and bundles that are nominated at both ends, where an element has no floor that keeps the other's own clock out."""
    for pair in pairs_of(looked):
        kind, name, lines, bare = pair.kind, pair.name, pair.lines, pair.bare
        if bare:
            what = f'{kind} "{name}" is nominated at both ends, and {" and ".join(bare)} would follow the other\'s internal oscillator (own clock)'
            remedy = f"give {'each' if len(bare) == 2 else 'it'} a floor better than that clock, or nominate one end"
            yield Finding(min(map(looked.line_of, lines)), WARNING, what, remedy)


def on_places(looked: Looked) -> Iterator[Finding]:
    """Inputs of one element that have the same priority."""
    sources = {row.name: number for number, row in enumerate(looked.plan.network.sources, start=1)}
    for order in looked.orders.values():
        first: dict[int, str] = {}
        for one in order.inputs:
            other = first.setdefault(one.priority, one.name)
            if other == one.name:
                continue
            found = looked.by_name.get(one.name)
            line = looked.line_of(found) if found else looked.line("source", sources[one.name], "priority")
            what = f'element "{order.element}" gives {other} and {one.name} the same priority, {one.priority}'
            yield Finding(line, WARNING, what, "give them different ones, so that the order is yours")


def named_level(name: str, option: str) -> str | None:
    """The level that a name says, as `prc-east` says QL-PRC; None where it says none, or more than one."""
    said = []
    for level in levels.LEVELS[option][:-1]:
        if re.search(rf"(?<![A-Za-z0-9]){level.removeprefix('QL-')}(?![A-Za-z0-9])", name, re.I):
            said.append(level)
    return said[0] if len(said) == 1 else None


def on_levels(looked: Looked) -> Iterator[Finding]:
    """Sources whose name says another level than they have."""
    for number, row in enumerate(looked.plan.network.sources, start=1):
        level = named_level(row.name, looked.plan.option)
        if level and level != row.level:
            line = looked.line("source", number, "level")
            what = f'source "{row.name}" has {row.level}, and by its name it would give {level}'
            yield Finding(line, NOTE, what, "look whether the level is right")


def on_rings(looked: Looked, ring: tuple[str, ...] | None) -> Iterator[Finding]:
    """The ring that the program found."""
    if ring:
        line = min(looked.line_of(looked.by_name[name]) for name in ring)
        what = f"timing may go round over {' -> '.join([*ring, ring[0]])}"
        yield Finding(line, ERROR, what, "`murdjohe repair` finds what to take away")


@dataclass(frozen=True)
class Last:
    """A line that may become the last resort of its element, and the least priority with which it does."""

    line: Line
    priority: int


def last_resort(looked: Looked, clash: tuple[str, ...], barred: Collection[str] = ()) -> Last | None:
    """The line of a clash that is followed by one straight back and is nearest to the last place of its element.

    Such a line bears on no line back any more where it is the last resort. None where no other input leaves it room, or all
    such lines are barred.
    """
    found = []
    for name, after in zip(clash, (*clash[1:], clash[0])):
        line, back = looked.by_name[name], looked.by_name[after]
        inputs = looked.orders[line.receiver].inputs
        own = {one.name for one in looked.lines if one.bundle == line.bundle}
        priority = 1 + max((one.priority for one in inputs if one.name not in own), default=0)
        if line.bundle == back.bundle and priority <= LOWEST and name not in barred:
            found.append(Last(line, priority))
    return min(found, key=lambda last: last.priority - last.line.priority) if found else None


def on_clash(looked: Looked, clash: tuple[str, ...] | None) -> Iterator[Finding]:
    """The lines that bear on one another in a circle, and which of them may become a last resort."""
    if clash:
        last = last_resort(looked, clash)
        what = (
            f"oscillating priorities: elements may take and drop timing for ever over {' -> '.join([*clash, clash[0]])}"
        )
        remedy = f"take the priority of {' or '.join(clash)} away"
        if last:
            link = last.line.name.partition(">")[0]
            most = f"{last.line.key} = {last.priority} or more of link {link}"
            remedy = f"give {last.line.name} the lowest priority at {last.line.receiver}: {most}"
        line = looked.line_of(last.line) if last else min(looked.line_of(looked.by_name[name]) for name in clash)
        yield Finding(line, ERROR, what, remedy)


def place_of(looked: Looked, gap: Gap) -> int:
    """Where what fails stands: of a bundle its first link."""
    number = looked.places[gap.kind, gap.failure or ""]
    return looked.line("link", number, "bundle") if gap.kind == "bundle" else looked.line(gap.kind, number)


def on_gaps(looked: Looked, gaps: tuple[Gap, ...]) -> Iterator[Finding]:
    """Failures that cut off elements which needn't be; of those that are cut off without one `on_ways` tells, so just more count."""
    without = sum(gap.elements for gap in gaps if gap.kind == "none")
    for gap in gaps:
        if gap.kind != "group" and gap.elements > without:
            few = f"{gap.first}" if gap.elements == 1 else f"{plural(gap.elements, 'element')}, {gap.first} first,"
            what = f'a failure of {gap.kind} "{gap.failure}" cuts off {few} though other links lead there'
            yield Finding(place_of(looked, gap), WARNING, what, "nominate such a link as a reserve")


def rows_of_parts(plan: PlanLines) -> dict[tuple[str, str], int]:
    """The number of each row that may be a part of a group, from 1 on."""
    return {(kind, name): row for kind in KINDS_OF_PARTS for row, name in enumerate(plan.names(kind), start=1)}


def part_place(looked: Looked, group: Group, rows: dict[tuple[str, str], int]) -> int:
    """Where the first part of a group stands in the plan: its first link, or else its first source, or its first element."""
    kind, name = min(group.parts, key=lambda part: (KINDS_OF_PARTS.index(part[0]), rows[part]))
    return looked.line(kind, rows[kind, name])


def on_groups(looked: Looked, said: Said) -> Iterator[Finding]:
    """Groups that cut off elements which needn't be, and those that leave elements without any way to a clock."""
    gaps = {gap.failure: gap for gap in said.gaps if gap.kind == "group"}
    without = sum(gap.elements for gap in said.gaps if gap.kind == "none")
    rows = rows_of_parts(looked.plan) if said.groups else {}
    for group in said.groups:
        gap, lost = gaps.get(group.name), said.parted.get(group.name, [])
        if gap and gap.elements > without:
            few = f"{gap.first}" if gap.elements == 1 else f"{plural(gap.elements, 'element')}, {gap.first} first,"
            what = f'group "{group.name}", whose parts fail together, cuts off {few} though other links lead there'
            remedy = "`murdjohe protect --groups` looks for priorities under which it doesn't"
            yield Finding(part_place(looked, group, rows), WARNING, what, remedy)
        if lost:
            its = f"{plural(len(lost), 'element')} without any path to a clock, whatever is nominated: {listed(lost)}"
            remedy = "lead a link there another way, or put a clock there"
            yield Finding(part_place(looked, group, rows), WARNING, f'group "{group.name}" leaves {its}', remedy)


def on_chains(looked: Looked, chains: tuple[Chain, ...]) -> Iterator[Finding]:
    """The longest chain of each kind that may become longer than G.803 has it."""
    for column, most, what in LONGEST:
        counts: dict[str, int] = {chain.element: getattr(chain, column) for chain in chains}
        over = [name for name, count in counts.items() if count > most]
        if over:
            longest = max(over, key=lambda name: counts[name])
            more = f", and {plural(len(over) - 1, 'other element')} to more than {most}" if len(over) > 1 else ""
            said = (
                f'element "{longest}" may come to a chain of {counts[longest]:,} {what}, where G.803 has {most}{more}'
            )
            remedy = "bring a clock nearer, or put a filtering one between"
            yield Finding(looked.line("element", looked.rows[longest]), WARNING, said, remedy)


def on_premises(looked: Looked) -> Iterator[Finding]:
    """Own clocks and floors by which the promise on single failures doesn't speak of the plan, where it has a reserve to promise."""
    if not any(len(order.inputs) > 1 for order in looked.orders.values()):
        return
    for broken in premises.broken(looked.plan):
        line = looked.line("element", broken.number, broken.key)
        what = f"{broken.what}, so that {NOT_PROMISED}"
        yield Finding(line, WARNING, what, broken.remedy)


def findings_of(plan: PlanLines, said: Said) -> list[Finding]:
    """All findings in the order of the file."""
    looked = Looked(plan)
    if not looked.rows:
        return [Finding(1, ERROR, "there is no element in the plan", "is it the file that was meant?")]
    found = [*on_rings(looked, said.ring), *on_clash(looked, said.clash)]
    found += [*on_gaps(looked, said.gaps), *on_groups(looked, said), *on_chains(looked, said.chains)]
    for look in (on_sources, on_ways, on_pairs, on_places, on_levels, on_premises):
        found += look(looked)
    return sorted(found, key=lambda finding: (finding.line, KINDS.index(finding.kind)))
