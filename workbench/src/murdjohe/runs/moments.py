"""The network at a millisecond, from a report: what each element shows, what is cut, whence timing comes, which walks are closed.

A report says what traces and walks there are in its last millisecond. Those of earlier ones follow from what each element takes,
by the same rule: at the end both are the same, and a test compares them.
"""

from __future__ import annotations

from collections.abc import Iterable
from dataclasses import dataclass

from murdjohe.answers.reports import Change, Loop, Trace
from murdjohe.network.wiring import Wiring

SOURCE, OWN, LOOP = "source", "own", "loop"  # where a trace ends


@dataclass(frozen=True)
class Event:
    """A row of an event list."""

    at: int
    what: str
    target: str
    value: str


@dataclass(frozen=True)
class Cut:
    """What events have put out of order: lines and sources that are down, and lines that send no messages."""

    down: frozenset[str] = frozenset()
    silent: frozenset[str] = frozenset()


def shown_first(wiring: Wiring) -> dict[str, Change]:
    """What each element shows before millisecond 0: nothing taken, its own clock's level, free-running."""
    return {name: Change(0, name, "auto", None, wiring.own[name], "freerun") for name in wiring.elements}


def shown_at(wiring: Wiring, changes: Iterable[Change], at: int) -> dict[str, Change]:
    """What each element shows in a millisecond: the last change up to it."""
    return shown_first(wiring) | {change.element: change for change in changes if change.at <= at}


def taken_of(shown: dict[str, Change]) -> dict[str, str]:
    """What each element takes, where it takes something."""
    return {name: change.input for name, change in shown.items() if change.input is not None}


def cut_at(wiring: Wiring, events: Iterable[Event], at: int) -> Cut:
    """What is down or silent in a millisecond, by the events up to it."""
    down: set[str] = set()
    silent: set[str] = set()
    for event in events:
        if event.at > at:
            break
        names = wiring.lines_of(event.target) or (event.target,)
        if event.what in ("down", "up"):
            (down.update if event.what == "down" else down.difference_update)(names)
        elif event.what in ("esmc-off", "esmc-on"):
            (silent.update if event.what == "esmc-off" else silent.difference_update)(names)
    return Cut(frozenset(down), frozenset(silent))


def traces_of(wiring: Wiring, taken: dict[str, str]) -> dict[str, Trace]:
    """Whence each element has its timing; what is known of an element serves all behind it."""
    found: dict[str, Trace] = {}
    for name in wiring.elements:
        way: list[str] = []
        met: set[str] = set()
        here = name
        while here not in found and here not in met and taken.get(here) in wiring.lines:
            way.append(here)
            met.add(here)
            here = wiring.lines[taken[here]].sender
        if here in met:
            # (each element on a walk is itself the first that its trace meets again)
            round_it = way[way.index(here) :]
            found |= {one: Trace(one, len(round_it), LOOP, one) for one in round_it}
            way = way[: way.index(here)]
        elif here not in found:
            kind, end = (SOURCE, taken[here]) if here in taken else (OWN, here)
            found[here] = Trace(here, 0, kind, end)
        for one in reversed(way):
            behind = found[wiring.lines[taken[one]].sender]
            found[one] = Trace(one, behind.hops + 1, behind.kind, behind.name)
    return {name: found[name] for name in wiring.elements}


def walk_through(wiring: Wiring, taken: dict[str, str], element: str) -> Loop | None:
    """The closed walk that an element is on, from its line of lowest number; None where it is on none."""
    back: list[str] = []
    here = element
    met: set[str] = set()
    while here not in met and taken.get(here) in wiring.lines:
        met.add(here)
        back.append(taken[here])
        here = wiring.lines[taken[here]].sender
    if here != element or not back:
        return None
    forth = back[::-1]
    first = min(range(len(forth)), key=lambda place: wiring.lines[forth[place]].number)
    return tuple(forth[first:] + forth[:first])


def loops_of(wiring: Wiring, taken: dict[str, str]) -> tuple[Loop, ...]:
    """All closed walks, by their lines of lowest number."""
    traces = traces_of(wiring, taken)
    found = {
        walk
        for name, trace in traces.items()
        if (trace.kind, trace.name) == (LOOP, name) and (walk := walk_through(wiring, taken, name))
    }
    return tuple(sorted(found, key=lambda walk: wiring.lines[walk[0]].number))


def is_pair(wiring: Wiring, walk: Loop) -> bool:
    """Whether a closed walk is two elements that face each other on one link or bundle."""
    return len(walk) == 2 and wiring.lines[walk[0]].bundle == wiring.lines[walk[1]].bundle
