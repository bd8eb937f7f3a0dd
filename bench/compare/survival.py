"""What becomes of a plan in each of its failures, by `sim`, beside what is promised of a plan that survives.

Of each failure a run is made in which all its parts go down in one millisecond, and of one in three another in which
some of them go down and come up again at random. From the bound after the last event on, each element that is in
reach after the failure has to be locked to a source, at one level that is no worse than the worst source of the plan,
and to change no more; and where all others than the element that is gone are in reach, the network has to be settled,
and each has to have the best level that reaches it over nominated lines. Where all parts are down, nobody else may
follow a source: whoever of these is locked follows the own clock of an element of its island, or another that follows
it back.
"""

import random
from collections import Counter
from collections.abc import Iterator
from typing import NamedTuple

from bench.compare.agree import Standing, expected
from bench.compare.protected import DOWN, Failure, cut_off, failures_of, worst_of
from bench.levels import LEVELS
from bench.program import answer, put_files
from bench.reference.plan import Event, Plan, Target, events_text

LONGER = 20_000  # so many milliseconds a run goes on after its bound


class End(NamedTuple):
    """Of each element what it is at the end of a run, and when it changed last."""

    changed: dict[str, int]
    levels: dict[str, str]
    states: dict[str, str]
    traces: dict[str, str]  # how the trace ends: source, own or loop
    is_settled: bool


def end_of(plan: Plan, text: str) -> End:
    """The end of a report."""
    changes, _, rest = text.partition("changes\n")[2].partition("inputs\n")
    traces = [row.split(",") for row in rest.partition("traces\n")[2].partition("loops\n")[0].splitlines()]
    levels = {element.name: element.own for element in plan.elements}
    end = End({}, levels, {}, {row[0]: row[2] for row in traces}, text.endswith("settled yes\n"))
    for row in changes.splitlines():
        at, name, _, _, level, state = row.split(",")
        end.changed[name], end.levels[name], end.states[name] = int(at), level, state
    return end


def is_spoken_of(plan: Plan) -> bool:
    """Each nominated source is better than every own clock and than do-not-use, and no floor better than the worst."""
    worst, table = worst_of(plan, set()), LEVELS[plan.option]
    return worst is not None and all(worst < table.index(element.own) for element in plan.elements)


def parts_of(failure: Failure) -> list[Target]:
    """The links and sources that a failure takes away."""
    return [("link", k) for k in sorted(failure.links)] + [("source", j) for j in sorted(failure.sources)]


def all_down(failure: Failure) -> list[Event]:
    """All parts of a failure go down at once."""
    return [Event(DOWN, "down", part) for part in parts_of(failure)]


def up_and_down(chance: random.Random, failure: Failure) -> list[Event]:
    """Parts of a failure go down and come up again; some may stay up."""
    parts = parts_of(failure) + [("line", 2 * k + end) for k in sorted(failure.links) for end in (0, 1)]
    times = sorted(chance.randint(0, DOWN) for _ in range(chance.randint(1, 8) if parts else 0))
    return [Event(at, chance.choice(["down", "down", "up"]), chance.choice(parts)) for at in times]


def best_levels(plan: Plan, events: list[Event]) -> dict[int, int]:
    """For each element the best of the levels that reach it after these events, as a place in the option's table."""
    standing, best = Standing(plan, events), dict[int, int]()
    table = LEVELS[plan.option]
    for level, i in sorted((table.index(level), i) for i, level in standing.said.items()):
        if standing.may_come_in(i, level):
            for e in standing.led_to(plan.receiver_of[i], level):
                best.setdefault(e, level)
    return best


def gone(failure: Failure) -> str | None:
    """The element that a failure takes away."""
    return failure.name if failure.kind == "element" else None


def wrong_in_reach(plan: Plan, name: str, rest: int, end: End) -> Iterator[str]:
    """What is wrong with an element in reach, which is at rest from this millisecond on, in words."""
    if end.states.get(name) != "locked" or end.traces[name] != "source":
        yield f"{name} follows no source"
    if end.changed.get(name, 0) > rest:
        yield f"{name} changes at {end.changed[name]}, after {rest}"
    worst = worst_of(plan, set())
    if worst is None or LEVELS[plan.option].index(end.levels[name]) > worst:
        yield f"{name} has {end.levels[name]}"


def wrong_out_of_reach(name: str, failure: Failure, end: End, counted: Counter[str]) -> Iterator[str]:
    """What is wrong with another element where all parts are down, in words."""
    is_locked = end.states.get(name) == "locked"
    counted["out of reach"] += 1
    counted["follow an own clock"] += is_locked
    if end.traces[name] == "source" or (is_locked and name == gone(failure)):
        yield f"{name} is locked to a source, or without an input"


def wrong_of_all(plan: Plan, events: list[Event], reached: set[int], end: End) -> Iterator[str]:
    """What is wrong where all others than the element that is gone are in reach, in words."""
    best, table = best_levels(plan, events), LEVELS[plan.option]
    if not end.is_settled:
        yield "isn't settled"
    for e in sorted(reached):
        if table.index(end.levels[plan.elements[e].name]) != best[e]:
            yield f"{plan.elements[e].name} has not the best level"


def wrong_of_run(
    plan: Plan, failure: Failure, events: list[Event], rest: int, end: End, counted: Counter[str]
) -> Iterator[str]:
    """What is wrong at the end of a run of a failure, in words."""
    reached = cut_off(plan, failure)[0]
    counted["in reach"] += len(reached)
    is_whole = events == all_down(failure)
    for e, element in enumerate(plan.elements):
        if e in reached:
            yield from wrong_in_reach(plan, element.name, rest, end)
        elif is_whole:
            yield from wrong_out_of_reach(element.name, failure, end, counted)
    if all(e in reached or plan.elements[e].name == gone(failure) for e in range(len(plan.elements))):
        counted["all in reach"] += 1
        yield from wrong_of_all(plan, events, reached, end)


def run_failures(program: str, folder: str, plan: Plan, chance: random.Random, counted: Counter[str]) -> Iterator[str]:
    """What is wrong in the runs of each failure of a plan that is in the file `found`, in words."""
    rest = DOWN + int(expected(plan)[1].split()[2])
    for failure in failures_of(plan):
        for events in [all_down(failure)] + [up_and_down(chance, failure)] * (chance.random() < 1 / 3):
            put_files(folder, {"events": events_text(plan, events)})
            status, text = answer(program, "sim", "found", "events", rest + LONGER, folder=folder)
            counted["stopped"] += status == 11
            if status == 0:
                counted["runs"] += 1
                for wrong in wrong_of_run(plan, failure, events, rest, end_of(plan, text), counted):
                    yield f"{failure.kind} {failure.name}: {wrong}"
            elif status != 11:
                yield f"{failure.kind} {failure.name}: sim ends with {status}"
