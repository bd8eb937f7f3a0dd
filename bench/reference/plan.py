"""Plans and events for the reference, read from their files, and the rules for hops, ranks and cycles.

Only files that the program accepts are read rightly; nothing is refused here.
"""

import csv
import dataclasses
import io
import tomllib
from typing import Any

Target = tuple[str, int]  # a kind ("link", "line", "source" or "element") and a number


@dataclasses.dataclass
class PlanElement:
    name: str
    own: str
    floor: str | None
    holdoff: int
    wtr: int


@dataclasses.dataclass
class Link:
    name: str
    a: int
    b: int
    priority_a: int
    priority_b: int
    delay_a: int
    delay_b: int
    bundle: str | None


@dataclasses.dataclass
class Source:
    name: str
    at: int
    level: str
    priority: int


@dataclasses.dataclass
class Event:
    """What happens at a millisecond: `target` is what it happens to."""

    at: int
    what: str
    target: Target
    level: str | None = None


class Plan:
    """A plan. Line 2k runs from end a of link k to end b, line 2k + 1 back; source j is input number of lines + j."""

    def __init__(self, option: str, elements: list[PlanElement], links: list[Link], sources: list[Source]) -> None:
        self.option, self.elements, self.links, self.sources = option, elements, links, sources
        self.sender_of = [end for link in links for end in (link.a, link.b)]
        self.receiver_of = [end for link in links for end in (link.b, link.a)] + [source.at for source in sources]
        self.delay_of = [delay for link in links for delay in (link.delay_b, link.delay_a)]
        self.priority_of = [priority for link in links for priority in (link.priority_b, link.priority_a)]
        self.priority_of += [source.priority for source in sources]
        self.lines = 2 * len(links)
        self.nominated = [i for i, priority in enumerate(self.priority_of) if priority > 0]
        self.nominated_lines = [i for i in self.nominated if i < self.lines]
        self.inputs_of: list[list[int]] = [[] for _ in elements]
        for i in self.nominated:
            self.inputs_of[self.receiver_of[i]].append(i)
        self.bundle_of = [number for number in bundle_numbers(links) for _ in range(2)]

    def is_line(self, i: int) -> bool:
        """An input number is a line's."""
        return i < self.lines

    def source(self, i: int) -> Source:
        """The source whose input number this is."""
        return self.sources[i - self.lines]

    def input_name(self, i: int) -> str:
        """A line's name is its link's, the sign > and its receiver's."""
        if self.is_line(i):
            return f"{self.links[i // 2].name}>{self.elements[self.receiver_of[i]].name}"
        return self.source(i).name

    def goes_back(self, line: int, back: int) -> bool:
        """A line goes back from another where it begins in the element in which that ends, in the same bundle."""
        return self.sender_of[back] == self.receiver_of[line] and self.bundle_of[back] == self.bundle_of[line]

    def hops(self, line: int, following: int) -> bool:
        """A nominated line hops to one that begins in the element in which it ends, and that is of another bundle."""
        nominated = self.priority_of[line] > 0 and self.priority_of[following] > 0
        joined = self.receiver_of[line] == self.sender_of[following]
        return nominated and joined and self.bundle_of[line] != self.bundle_of[following]

    def is_cycle(self, lines: list[int]) -> bool:
        """Each line hops to the next, and the last to the first."""
        return len(lines) > 0 and all(self.hops(line, after) for line, after in zip(lines, lines[1:] + lines[:1]))

    def least_ranks(self) -> dict[int, int] | None:
        """For each nominated line the most hops of a walk that ends in it; none where the plan has a cycle."""
        lines = self.nominated_lines
        hop_to = {line: [before for before in lines if self.hops(before, line)] for line in lines}
        ranks, ends = dict[int, int](), set(lines)
        for hops in range(len(lines) + 1):
            # The lines in which a walk of so many hops ends. A walk of as many hops as there are lines goes round.
            ranks.update((line, hops) for line in ends)
            ends = {line for line in lines if any(before in ends for before in hop_to[line])}
            if not ends:
                return ranks
        return None

    def first_cycle(self) -> list[int] | None:
        """What repeats on going back from the lowest line in which walks of every length end; or none."""
        lines = self.nominated_lines
        before = {line: [other for other in lines if self.hops(other, line)] for line in lines}
        left = set(lines)
        while gone := {line for line in left if not left.intersection(before[line])}:
            left -= gone
        if not left:
            return None
        at, passed = min(left), list[int]()
        while at not in passed:
            passed.append(at)
            at = min(left.intersection(before[at]))
        ring = passed[passed.index(at) :][::-1]
        lowest = ring.index(min(ring))
        return ring[lowest:] + ring[:lowest]

    def settling_bound(self, last: int, delays: int = 1) -> int | None:
        """When all has settled after the last event; none with a cycle, or a bundle nominated in both directions.

        `delays` is how many greatest delays stand in it beside those of the ranks: one is right.
        """
        lines = self.nominated_lines
        ranks = self.least_ranks()
        if ranks is None or any(self.goes_back(line, back) for line in lines for back in lines):
            return None
        greatest_delay = max((self.delay_of[line] for line in lines), default=0)
        greatest_rank = max(ranks.values(), default=0)
        times = [time for element in self.elements for time in (element.holdoff, element.wtr)]
        wait = max(times + [5000 + greatest_delay])
        return last + wait + 1 + (greatest_rank + delays) * greatest_delay

    def named(self, target: Target) -> list[int]:
        """The inputs that a target stands for: a link's two lines, a line, or a source."""
        kind, number = target
        return {"link": [2 * number, 2 * number + 1], "line": [number], "source": [self.lines + number]}.get(kind, [])

    def touches(self, event: Event, e: int) -> bool:
        """An event touches an element that it names, and one that has its source as an input, or its line into it."""
        if event.target[0] == "element":
            return event.target[1] == e
        inputs = self.named(event.target)
        return any(self.receiver_of[i] == e and (self.is_line(i) or self.priority_of[i] > 0) for i in inputs)


def bundle_numbers(links: list[Link]) -> list[int]:
    """For each link the lowest-numbered link of its bundle: those that name it, or the link alone."""
    first: dict[str, int] = {}
    return [k if link.bundle is None else first.setdefault(link.bundle, k) for k, link in enumerate(links)]


def read_plan(text: str) -> Plan:
    """The plan of a plan file."""
    head = tomllib.loads(text)
    option = head.get("option", "I")
    own = {"I": "QL-SEC", "II": "QL-ST3"}[option]
    elements = [
        PlanElement(
            row["name"], row.get("own", own), row.get("floor"), row.get("holdoff", 300), row.get("wtr", 5) * 60000
        )
        for row in head.get("element", [])
    ]
    number = {element.name: e for e, element in enumerate(elements)}
    links = [
        Link(
            row["name"],
            number[row["a"]],
            number[row["b"]],
            row.get("priority_a", 0),
            row.get("priority_b", 0),
            row.get("delay_a", 1),
            row.get("delay_b", 1),
            row.get("bundle"),
        )
        for row in head.get("link", [])
    ]
    sources = [
        Source(row["name"], number[row["at"]], row["level"], row.get("priority", 1)) for row in head.get("source", [])
    ]
    return Plan(option, elements, links, sources)


def read_events(plan: Plan, text: str) -> list[Event]:
    """The events of an event file. Its first record is the header; blank lines are no records."""
    targets = {link.name: ("link", k) for k, link in enumerate(plan.links)}
    targets |= {plan.input_name(line): ("line", line) for line in range(plan.lines)}
    targets |= {source.name: ("source", j) for j, source in enumerate(plan.sources)}
    elements = {element.name: ("element", e) for e, element in enumerate(plan.elements)}
    records = [record for record in csv.reader(io.StringIO(text, newline="")) if record]
    return [
        Event(int(at), what, (elements if what == "clear" else targets)[target], level or None)
        for at, what, target, level in records[1:]
    ]


def ladder(count: int) -> Plan:
    """The ladder: each element has a step from the one before it, and a rail from the one before that."""
    elements = [PlanElement(f"E{j}", "QL-SEC", None, 300, 300000) for j in range(count)]
    links = []
    for j in range(1, count):
        links.append(Link(f"S{j}", j - 1, j, 0, 2, 10, 10, None))
        if j >= 2:
            links.append(Link(f"R{j}", j - 2, j, 0, 1, 10, 10, None))
    return Plan("I", elements, links, [Source("P0", 0, "QL-PRC", 1), Source("P1", 1, "QL-SSU-A", 1)])


def plan_text(plan: Plan) -> str:
    """A plan file of a plan, of version 2, with every key. The wait-to-restore times are whole minutes."""
    text = f'version = 2\noption = "{plan.option}"\n'
    for element in plan.elements:
        floor = {} if element.floor is None else {"floor": element.floor}
        minutes = element.wtr // 60000
        row = {"name": element.name, "own": element.own, **floor, "holdoff": element.holdoff, "wtr": minutes}
        text += section_text("element", row)
    for link in plan.links:
        row = {**vars(link), "a": plan.elements[link.a].name, "b": plan.elements[link.b].name}
        text += section_text("link", {key: value for key, value in row.items() if value is not None})
    for source in plan.sources:
        text += section_text("source", {**vars(source), "at": plan.elements[source.at].name})
    return text


def section_text(section: str, row: dict[str, Any]) -> str:
    """A row of a plan file."""
    values = {key: f'"{value}"' if isinstance(value, str) else value for key, value in row.items()}
    return f"[[{section}]]\n" + "".join(f"{key} = {value}\n" for key, value in values.items())


def events_text(plan: Plan, events: list[Event]) -> str:
    """An event file of events."""
    text = "at,what,target,value\n"
    for event in events:
        kind, number = event.target
        if kind == "line":
            name = plan.input_name(number)
        else:
            names = {"link": [link.name for link in plan.links], "source": [source.name for source in plan.sources]}
            name = names[kind][number] if kind in names else plan.elements[number].name
        text += f"{event.at},{event.what},{name},{event.level or ''}\n"
    return text


def certificate_text(plan: Plan, ranks: dict[int, int]) -> str:
    """A certificate of all nominated lines."""
    return "line,rank\n" + "".join(f"{plan.input_name(line)},{ranks[line]}\n" for line in plan.nominated_lines)
