"""Networks by priority alone for the reference: hops with returns, ranks and loops, and the report of a run."""

from collections.abc import Iterable
from typing import Self

from bench.reference.element import Element
from bench.reference.network import Network, closed_walks, last_said
from bench.reference.plan import Event, Plan, certificate_text


class PriorityPlan(Plan):
    """A plan whose elements have no quality levels: nothing keeps timing from going back over its own link."""

    def hops(self, line: int, following: int) -> bool:
        """A nominated line hops to each nominated one that begins in the element in which it ends."""
        nominated = self.priority_of[line] > 0 and self.priority_of[following] > 0
        return nominated and self.receiver_of[line] == self.sender_of[following]

    def first_fall(self, ranks: dict[int, int]) -> tuple[int, int] | None:
        """The first hop, by its first line and then by its second, over which the rank isn't greater; or none."""
        lines = self.nominated_lines
        falls = [(l, m) for l in lines for m in lines if self.hops(l, m) and ranks[l] >= ranks[m]]
        return min(falls, default=None)


class PriorityElement(Element):
    """An element that looks at no level: what isn't locked out and hasn't failed may be taken."""

    def __init__(self, holdoff: int, wtr: int, priorities: list[int]) -> None:
        super().__init__("I", "QL-SEC", None, holdoff, wtr, [(priority, None, None) for priority in priorities])

    def is_eligible(self, i: int) -> bool:
        """Neither locked out nor failed."""
        return i not in self.locked and not self.inputs[i].failed

    def place(self, i: int) -> int:
        """All inputs stand at one place."""
        return 0


class PriorityNetwork(Network):
    """A plan under a list of events, where elements are told signals and commands alone."""

    def new_element(self, e: int) -> Element:
        """The element before 0: every input is up."""
        row, plan = self.plan.elements[e], self.plan
        return PriorityElement(row.holdoff, row.wtr, [plan.priority_of[i] for i in plan.inputs_of[e]])

    def go_to(self, until: int) -> Self:
        """Go through the milliseconds up to this one."""
        start, self.length = self.length, max(self.length, until + 1)
        for i in self.plan.nominated:
            self.up[i] += last_said(self.said_of(i, "up", "down"), True, start, self.length)
        for t in range(start, self.length):
            for e in range(len(self.elements)):
                self.evaluate(e, t)
        return self

    def evaluate(self, e: int, t: int) -> None:
        """What an element takes, its mode and its state."""
        element, inputs = self.elements[e], self.plan.inputs_of[e]
        cleared, commands = self.commands_at(e, t)
        element.evaluate([self.up[i][t] for i in inputs], cleared, commands)
        self.taken[e].append(None if element.taken is None else inputs[element.taken])
        self.mode[e].append(element.mode())
        self.state[e].append(element.state())

    def shows(self, e: int, t: int) -> tuple[str, int | None, str]:
        """What an element shows at a millisecond."""
        return self.mode[e][t], self.taken[e][t], self.state[e][t]


def priority_check(plan: PriorityPlan, ranks: dict[int, int]) -> tuple[int, str]:
    """The status and the text of `prio-check`."""
    fall = plan.first_fall(ranks)
    if fall is None:
        return 0, "accepted\n"
    return 1, f"falls {plan.input_name(fall[0])} {plan.input_name(fall[1])}\n"


def priority_rank(plan: Plan) -> tuple[int, str]:
    """The status and the text of `prio-rank`."""
    cycle, ranks = plan.first_cycle(), plan.least_ranks()
    assert (cycle is None) != (ranks is None), "ranks rise exactly where there is no cycle"
    if ranks is not None:
        return 0, certificate_text(plan, ranks)
    return 1, "at,what,target,value\n" + "".join(f"0,forced,{plan.input_name(line)},\n" for line in cycle or [])


def walk_rows(plan: Plan, taken: Iterable[int | None]) -> str:
    """The closed walks of a report."""
    return "".join(" ".join(map(plan.input_name, walk)) + "\n" for walk in closed_walks(plan, taken))


def priority_sim_text(plan: Plan, events: list[Event], until: int) -> str:
    """The text of `prio-sim`."""
    network = PriorityNetwork(plan, events).go_to(until)
    text = "changes\n"
    for t in range(until + 1):
        for e, element in enumerate(plan.elements):
            before = network.shows(e, t - 1) if t > 0 else ("auto", None, "freerun")
            if network.shows(e, t) != before:
                mode, taken, state = network.shows(e, t)
                name = "none" if taken is None else plan.input_name(taken)
                text += f"{t},{element.name},{mode},{name},{state}\n"
    return text + "loops\n" + walk_rows(plan, network.taken_at(until))
