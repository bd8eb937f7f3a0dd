"""What the page draws of a desk: elements, lines and sources with their places, and the run of its events in columns.

The shape is that of the page of `report`, so that its modules draw both.
"""

from __future__ import annotations

import math
from dataclasses import dataclass, field, replace
from typing import Any

from murdjohe.answers.reports import Change, Report
from murdjohe.core.faults import Wrong
from murdjohe.network import wiring
from murdjohe.network.wiring import Wiring
from murdjohe.picture import page_data, places
from murdjohe.picture.page_data import Numbers
from murdjohe.picture.places import BOX, ELEMENT, SOURCE, Key, Layout, Spots
from murdjohe.plan.model import Plan
from murdjohe.runs.moments import Event

EMPTY = Layout({}, 6.0, 4.0)  # the sheet of a plan without elements
BEYOND = "beyond "  # how a source is called that stands for what an element outside of a region takes
LARGEST = 3_000  # elements that are drawn at once; larger plans are drawn by regions
MOST_CHANGES = 40_000  # changes of a run that the page gets
LONG = 5  # how many times longer than wide a map of regions is that is drawn in rows
STEP = 1.6  # how far from others a new element stands at least, in boxes


@dataclass
class Sheet:
    """Where things stand, and how large boxes may be; it stays as it is while elements come and go."""

    spots: Spots = field(default_factory=dict)
    width: float = EMPTY.width
    height: float = EMPTY.height
    scale: float = 1.0


def sheet_of(plan: Plan) -> Sheet:
    """The places of a plan, by Graphviz, or on a circle where that isn't there."""
    if not plan.elements:
        return Sheet()
    try:
        layout = places.layout_of(plan, None, None)
    except Wrong:
        layout = on_circle(plan)
    scale = round(places.room_of(list(layout.spots.values())), 4)
    return Sheet(dict(layout.spots), max(layout.width, 3.0), max(layout.height, 2.0), scale)


def on_circle(plan: Plan) -> Layout:
    """The elements on a circle in the order of the plan, each source outside beside its element."""
    count = len(plan.elements)
    radius = max(2.0, count * BOX[0] / 4)
    spots: Spots = {}
    for number, element in enumerate(plan.elements):
        angle = 2 * math.pi * number / count
        spots[ELEMENT, element.name] = (radius * (1.4 + math.cos(angle)), radius * (1.4 + math.sin(angle)))
    middle = 1.4 * radius
    for source in plan.sources:
        x, y = spots[ELEMENT, source.at]
        spots[SOURCE, source.name] = (middle + (x - middle) * 1.3, middle + (y - middle) * 1.3)
    return Layout(spots, 2 * middle, 2 * middle)


def in_rows(plan: Plan) -> Sheet:
    """The elements in rows in the order of the plan, each row in the direction against the one above, on a sheet twice as wide as
    high; without sources."""
    count = len(plan.elements)
    wide, high = BOX[0] * STEP, BOX[1] * STEP * 1.4
    columns = min(count, math.ceil(math.sqrt(2 * count * high / wide)))
    rows = -(-count // columns)
    spots: Spots = {}
    for number, element in enumerate(plan.elements):
        row, place = divmod(number, columns)
        column = columns - 1 - place if row % 2 else place
        spots[ELEMENT, element.name] = ((column + 0.5) * wide, (rows - row - 0.5) * high)
    return Sheet(spots, columns * wide, rows * high, round(places.room_of(list(spots.values())), 4))


def map_of(plan: Plan) -> Sheet:
    """The places of a map of regions: in rows where these hang together like a chain, which would be drawn as a long line."""
    sheet = sheet_of(plan)
    sides = sorted((sheet.width, sheet.height))
    return in_rows(plan) if plan.elements and sides[1] > LONG * sides[0] else sheet


def is_free(sheet: Sheet, x: float, y: float) -> bool:
    """Whether nothing stands too near to a place."""
    wide, high = STEP * BOX[0] * sheet.scale, STEP * BOX[1] * sheet.scale
    return all(abs(x - u) >= wide or abs(y - v) >= high for u, v in sheet.spots.values())


def free_spot(sheet: Sheet, x: float, y: float) -> tuple[float, float]:
    """A free place near one, on squares round it."""
    wide, high = STEP * BOX[0] * sheet.scale, STEP * BOX[1] * sheet.scale * 1.4
    for ring in range(60):
        for across in range(-ring, ring + 1):
            for up in range(-ring, ring + 1):
                if max(abs(across), abs(up)) == ring and is_free(sheet, x + across * wide, y + up * high):
                    return x + across * wide, y + up * high
    return x, y


def wish_of(sheet: Sheet, plan: Plan, name: str) -> tuple[float, float]:
    """Near which place an element stands that has none: amid its neighbours, or in the middle of the sheet."""
    beside = [link.b if link.a == name else link.a for link in plan.links if name in (link.a, link.b)]
    known = [sheet.spots[ELEMENT, one] for one in beside if (ELEMENT, one) in sheet.spots]
    if not known:
        return sheet.width / 2, sheet.height / 2
    return sum(x for x, _ in known) / len(known), sum(y for _, y in known) / len(known)


def completed(sheet: Sheet, plan: Plan, wishes: dict[str, tuple[float, float]]) -> None:
    """Gives a place to whatever has none, an element where that is wished; the sheet grows where it has to. Places of what has gone are
    kept, so that it comes back to where it was."""
    for element in plan.elements:
        if (ELEMENT, element.name) not in sheet.spots:
            wish = wishes.get(element.name) or wish_of(sheet, plan, element.name)
            sheet.spots[ELEMENT, element.name] = free_spot(sheet, *wish)
    for source in plan.sources:
        if (SOURCE, source.name) not in sheet.spots:
            x, y = sheet.spots[ELEMENT, source.at]
            sheet.spots[SOURCE, source.name] = free_spot(sheet, x, y + 2.2 * BOX[1] * sheet.scale)
    left = min([0.0, *(x for x, _ in sheet.spots.values())])
    low = min([0.0, *(y for _, y in sheet.spots.values())])
    if left < 0 or low < 0:
        sheet.spots = {key: (x - left, y - low) for key, (x, y) in sheet.spots.items()}
    sheet.width = max([sheet.width, *(x + BOX[0] / 2 for x, _ in sheet.spots.values())])
    sheet.height = max([sheet.height, *(y + BOX[1] for _, y in sheet.spots.values())])


def spot(sheet: Sheet, key: Key) -> dict[str, float]:
    """Where a thing stands, to a hundredth of an inch."""
    x, y = sheet.spots[key]
    return {"x": round(x, 2), "y": round(y, 2)}


def elements_of(plan: Plan, sheet: Sheet, numbers: Numbers) -> list[dict[str, Any]]:
    """The elements with what is set at them."""
    return [
        row._asdict() | {"own": numbers.levels[row.own]} | spot(sheet, (ELEMENT, row.name)) for row in plan.elements
    ]


def lines_of(wired: Wiring, numbers: Numbers) -> list[dict[str, Any]]:
    """The lines with the key of their priority."""
    rows = page_data.lines_of(wired, numbers)
    return [{**row, "key": line.key, "delay": line.delay} for row, line in zip(rows, wired.lines.values())]


def sources_of(plan: Plan, sheet: Sheet, numbers: Numbers) -> list[dict[str, Any]]:
    """The sources."""
    return [page_data.source_of(row, numbers) | spot(sheet, (SOURCE, row.name)) for row in plan.sources]


def levels_in(plan: Plan) -> set[str]:
    """The levels that a plan names."""
    return {row.level for row in plan.sources} | {row.own for row in plan.elements}


def network_of(plan: Plan, sheet: Sheet) -> dict[str, Any]:
    """The network as the page draws it."""
    wired = wiring.wiring_of(plan)
    numbers = page_data.numbers_of(wired, plan.option)
    return {
        "option": plan.option,
        "elements": elements_of(plan, sheet, numbers),
        "lines": lines_of(wired, numbers),
        "sources": sources_of(plan, sheet, numbers),
        "width": round(sheet.width, 2),
        "height": round(sheet.height, 2),
        "box": BOX,
        "scale": sheet.scale,
        "levels": page_data.levels_of(plan.option, levels_in(plan)),
        "signs": page_data.SIGNS,
    }


def events_of(wired: Wiring, numbers: Numbers, events: tuple[Event, ...]) -> list[dict[str, Any]]:
    """Events as the page shows them, with the number that each has at the desk."""
    rows = [
        (number, event)
        for number, event in enumerate(events)
        if event.what == "clear"
        and event.target in numbers.elements
        or all(name in numbers.inputs for name in wired.lines_of(event.target) or (event.target,))
    ]
    found = page_data.events_of(wired, numbers, tuple(event for _, event in rows), {})
    return [{**row, "number": number, "target": event.target} for row, (number, event) in zip(found, rows)]


def seen_from(change: Change, numbers: Numbers) -> Change:
    """A change as a view shows it: an input that the view doesn't have is the source beyond the element."""
    if change.input is None or change.input in numbers.inputs:
        return change
    return replace(change, input=f"{BEYOND}{change.element}")


def run_of(plan: Plan, events: tuple[Event, ...], report: Report, until: int) -> dict[str, Any]:
    """A run as the page shows it; of one with very many changes the first of them."""
    wired = wiring.wiring_of(plan)
    numbers = page_data.numbers_of(wired, plan.option)
    kept = tuple(seen_from(change, numbers) for change in report.changes if change.element in numbers.elements)
    changes: tuple[Change, ...] = kept[:MOST_CHANGES]
    end = changes[-1].at if len(kept) > MOST_CHANGES else until if report.stopped_at is None else report.stopped_at
    return {
        "changes": page_data.columns_of(numbers, changes),
        "events": events_of(wired, numbers, events),
        "until": end,
        "settled": report.is_settled,
        "stopped": report.stopped_at,
        "left": len(kept) - len(changes),
    }
