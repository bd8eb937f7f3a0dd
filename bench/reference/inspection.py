"""The text of an inspection for the reference: which commands were taken, what each element chose, and why."""

from bench.levels import LEVELS
from bench.reference.element import Element
from bench.reference.network import Network
from bench.reference.plan import Event, Plan
from bench.reference.report import name_or_none

COMMANDS = ("lockout", "unlock", "forced", "manual", "clear")


class Inspected(Network):
    """A network that keeps of each command whether it was taken, by its millisecond and its place there."""

    def __init__(self, plan: Plan, events: list[Event]) -> None:
        super().__init__(plan, events)
        self.commands: dict[tuple[int, int], str] = {}

    def evaluate(self, e: int, t: int) -> None:
        """What an element takes, and which of the commands to it or to one of its inputs it takes."""
        super().evaluate(e, t)
        answers = iter(self.elements[e].answers)
        for place, event in enumerate(self.events_at.get(t, ())):
            if event.what not in COMMANDS or element_of(self.plan, event) != e:
                continue
            i = input_of(self.plan, event)
            taken = next(answers) if i is None or i in self.plan.inputs_of[e] else False
            named = "" if i is None else self.plan.input_name(i)
            word = "taken" if taken else "rejected"
            self.commands[t, place] = f"{t},{self.plan.elements[e].name},{event.what},{named},{word}\n"


def input_of(plan: Plan, event: Event) -> int | None:
    """The input that a command is on; none where it is on an element."""
    return None if event.what == "clear" else plan.named(event.target)[0]


def element_of(plan: Plan, event: Event) -> int:
    """The element that a command is told, also where the input isn't nominated."""
    i = input_of(plan, event)
    return event.target[1] if i is None else plan.receiver_of[i]


def verdict(element: Element, i: int) -> str:
    """The first of the reasons that holds."""
    each, worst = element.inputs[i], LEVELS[element.option][-1]
    if element.taken == i:
        return "taken"
    if i in element.locked:
        return "locked-out"
    if each.failed:
        return "failed"
    if each.level is None:
        return "silent"
    if each.level == worst:
        return "do-not-use"
    if element.floor is not None and element.places[each.level] > element.places[element.floor]:
        return "below-floor"
    return "reserve"


def inspection_text(plan: Plan, events: list[Event], at: int) -> str:
    """The inspection of a millisecond."""
    network = Inspected(plan, events)
    network.go_to(at)
    text = "commands\n" + "".join(row for _, row in sorted(network.commands.items())) + "elements\n"
    for e, element in enumerate(network.elements):
        switched = element.manual if element.forced is None else element.forced
        named = name_or_none(plan, None if switched is None else plan.inputs_of[e][switched])
        taken, level, mode, state = network.gives(e, at)
        text += f"{plan.elements[e].name},{mode},{named},{name_or_none(plan, taken)},{level},{state}\n"
    text += "inputs\n"
    for e, element in enumerate(network.elements):
        for place, (i, condition) in enumerate(zip(plan.inputs_of[e], network.conditions(e))):
            word, _, left = condition.partition(":")
            level = element.inputs[place].level or "none"
            row = (plan.elements[e].name, plan.input_name(i), word, left or "0", level, verdict(element, place))
            text += ",".join(row) + "\n"
    return text
