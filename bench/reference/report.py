"""The texts of the reference for a simulation and for a sweep."""

from collections.abc import Iterator

from bench.levels import LEVELS
from bench.reference.network import Network, closed_walks, trace_of
from bench.reference.plan import Event, Plan

MOST_ROWS = 200_000
PIECE = 20_000  # how many milliseconds are gone through before rows are counted


def name_or_none(plan: Plan, i: int | None) -> str:
    """The name of an input."""
    return "none" if i is None else plan.input_name(i)


def change_rows(network: Network, start: int) -> Iterator[tuple[int, str]]:
    """The changes from a millisecond on, as (t, row): where mode, input, level or state differ from those before."""
    plan = network.plan
    for t in range(start, network.length):
        for e, element in enumerate(plan.elements):
            before = network.gives(e, t - 1) if t > 0 else (None, element.own, "auto", "freerun")
            if network.gives(e, t) != before:
                taken, level, mode, state = network.gives(e, t)
                yield t, f"{t},{element.name},{mode},{name_or_none(plan, taken)},{level},{state}\n"


def sim_text(plan: Plan, events: list[Event], until: int) -> str:
    """The report of a simulation, whole."""
    network = Network(plan, events)
    rows: list[tuple[int, str]] = []
    while network.length <= until and len(rows) <= MOST_ROWS:
        start = network.length
        network.go_to(min(until, start + PIECE))
        rows += change_rows(network, start)
    if len(rows) > MOST_ROWS:
        # All rows fit up to the millisecond before the first row that doesn't.
        last = rows[MOST_ROWS][0] - 1
        return "changes\n" + "".join(row for t, row in rows if t <= last) + f"stopped,{last}\n"
    return "changes\n" + "".join(row for _, row in rows) + state_text(network)


def state_text(network: Network) -> str:
    """The parts of a report on its last millisecond."""
    plan, t = network.plan, network.length - 1
    taken = network.taken_at(t)
    text = "inputs\n"
    for e, element in enumerate(plan.elements):
        for i, condition in zip(plan.inputs_of[e], network.conditions(e)):
            word, _, left = condition.partition(":")
            text += f"{element.name},{plan.input_name(i)},{word},{left or 0}\n"
    text += "traces\n"
    for e, element in enumerate(plan.elements):
        lines, (kind, end) = trace_of(plan, taken, e)
        name = plan.input_name(end) if kind == "source" else plan.elements[end].name
        text += f"{element.name},{len(lines)},{kind},{name}\n"
    text += "loops\n"
    for walk in closed_walks(plan, taken):
        text += " ".join(plan.input_name(line) for line in walk) + "\n"
    return text + f"settled {'yes' if network.is_settled(t) else 'no'}\n"


def sweep_text(plan: Plan, at: int, until: int) -> str:
    """The table of a sweep: for each link a run in which it goes down."""
    text = "link,settled,locked,holdover,freerun,loops,worst,bound\n"
    bound = plan.settling_bound(at)
    for k, link in enumerate(plan.links):
        network = Network(plan, [Event(at, "down", ("link", k))]).go_to(until)
        states = [state[until] for state in network.state]
        worst = max((level[until] for level in network.level), key=LEVELS[plan.option].index)
        counts = ",".join(str(states.count(state)) for state in ("locked", "holdover", "freerun"))
        loops = len(closed_walks(plan, network.taken_at(until)))
        settled = "yes" if network.is_settled(until) else "no"
        text += f"{link.name},{settled},{counts},{loops},{worst},{'none' if bound is None else bound}\n"
    return text
