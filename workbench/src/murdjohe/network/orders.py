"""Work orders of a plan: for each element what is to be set, and what of it differs from another plan."""

from __future__ import annotations

from dataclasses import dataclass

from murdjohe.plan.model import ENDS, Plan

NONE = "none"
COLUMNS = ("element", "place", "priority", "input", "neighbour", "link", "bundle", "floor", "holdoff", "wtr", "own")
CHANGES = ("element", "what", "old", "new")
KINDS = ("priority", "bundle", "floor", "hold-off", "wait-to-restore", "internal")  # of settings, as they are told


@dataclass(frozen=True)
class Input:
    """A nominated input: its place from 1 on (equal priorities have the same one), priority 1 to 255, and name.

    A line has the neighbour from which it comes, its link, and the bundle where it has one; a source has none of these.
    """

    place: int
    priority: int
    name: str
    neighbour: str = ""
    link: str = ""
    bundle: str = ""


@dataclass(frozen=True)
class Order:
    """What is set at an element; times in milliseconds (holdoff) and minutes (wtr)."""

    element: str
    inputs: tuple[Input, ...]
    floor: str
    holdoff: int
    wtr: int
    own: str


def inputs_of(network: Plan) -> dict[str, list[tuple[int, str, str, str, str]]]:
    """For each element its nominated inputs: priority, name, neighbour, link and bundle, the highest priority first."""
    found: dict[str, list[tuple[int, str, str, str, str]]] = {row.name: [] for row in network.elements}
    for source in network.sources:
        if source.priority:
            found[source.at].append((source.priority, source.name, "", "", ""))
    for link in network.links:
        for end, other in ENDS:
            if priority := link.priority(end):
                name, bundle = link.line(end), link.bundle or ""
                found[link.element(end)].append((priority, name, link.element(other), link.name, bundle))
    return {element: sorted(inputs, key=lambda one: one[0]) for element, inputs in found.items()}


def orders_of(network: Plan) -> list[Order]:
    """The order of each element, as they stand in the plan."""
    inputs = inputs_of(network)
    found: list[Order] = []
    for row in network.elements:
        own = inputs[row.name]
        placed = [Input(1 + sum(other[0] < one[0] for other in own), *one) for one in own]
        found.append(Order(row.name, tuple(placed), row.floor or NONE, row.holdoff, row.wtr, row.own))
    return found


def ordinal(place: int) -> str:
    """A place as people say it."""
    ending = "th" if place % 100 in (11, 12, 13) else {1: "st", 2: "nd", 3: "rd"}.get(place % 10, "th")
    return f"{place}{ending}"


def rows_of(orders: list[Order]) -> list[tuple[str, ...]]:
    """The table of orders, a row for each input, and one for an element without any."""
    found: list[tuple[str, ...]] = []
    for order in orders:
        rest = (order.floor, str(order.holdoff), str(order.wtr), order.own)
        for one in order.inputs:
            place = (str(one.place), str(one.priority), one.name, one.neighbour, one.link, one.bundle)
            found.append((order.element, *place, *rest))
        if not order.inputs:
            found.append((order.element, *[""] * 6, *rest))
    return found


def text_of(orders: list[Order]) -> list[str]:
    """The orders as a person reads them."""
    said = []
    for order in orders:
        said.append(order.element)
        for one in order.inputs:
            origin = f"{one.link} from {one.neighbour}" if one.link else f"source {one.name}"
            bundle = f", bundle {one.bundle}" if one.bundle else ""
            said.append(f"  {ordinal(one.place)}  {origin}{bundle} (priority {one.priority})")
        if not order.inputs:
            said.append("  no input")
        times = f"hold-off {order.holdoff} ms, wait-to-restore {order.wtr} min"
        said.append(f"  floor {order.floor}, {times}, internal oscillator (own clock) {order.own}")
    return said


def settings_of(order: Order) -> dict[str, str]:
    """What is set at an element, by what it is."""
    inputs = {f"priority of {one.name}": str(one.priority) for one in order.inputs}
    bundles = {f"bundle of {one.name}": one.bundle for one in order.inputs if one.bundle}
    rest = {"floor": order.floor, "hold-off": f"{order.holdoff} ms", "wait-to-restore": f"{order.wtr} min"}
    return {**inputs, **bundles, **rest, "internal oscillator (own clock)": order.own}


def changes_of(old: list[Order], new: list[Order]) -> list[tuple[str, str, str, str]]:
    """What differs: element, what it is, its old and its new value; `none` where it isn't set."""
    before = {order.element: settings_of(order) for order in old}
    after = {order.element: settings_of(order) for order in new}
    found = []
    for element in dict.fromkeys((*after, *before)):
        was, now = before.get(element, {}), after.get(element, {})
        both = dict.fromkeys((*now, *was))
        for what in sorted(both, key=lambda what: KINDS.index(what.partition(" ")[0])):
            if was.get(what, NONE) != now.get(what, NONE):
                found.append((element, what, was.get(what, NONE), now.get(what, NONE)))
    return found


def change_text(changes: list[tuple[str, str, str, str]]) -> list[str]:
    """What differs as a person reads it."""
    said: list[str] = []
    last = None
    for element, what, old, new in changes:
        said += [element] if element != last else []
        said.append(f"  {what}: {new}, which was {old}")
        last = element
    return said


def markdown_of(columns: tuple[str, ...], rows: list[tuple[str, ...]]) -> list[str]:
    """A table in Markdown."""
    lines = [columns, ("---",) * len(columns), *rows]
    return [f"| {' | '.join(line)} |" for line in lines]
