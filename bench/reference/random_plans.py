"""Random plans and events for the reference, and their texts."""

import random
from collections.abc import Sequence

from bench.levels import LEVELS
from bench.reference.plan import Event, Link, Plan, PlanElement, Source, Target

LINE_WORDS = ("down", "up", "esmc-off", "esmc-on")
INPUT_WORDS = ("lockout", "unlock", "forced", "manual", "clear-wtr")


def random_plan(chance: random.Random, waits: Sequence[int]) -> Plan:
    """A plan of up to 8 elements: a tree with both ends nominated, lines in one direction without a cycle, or any.

    `waits` are the wait-to-restore times that elements may have, in milliseconds.
    """
    option = chance.choice(["I", "II"])
    some = chance.sample(LEVELS[option][:-1], 3)
    count = chance.choice([1, 2, 2, 3, 4, 5, 6, 7, 8])
    shape = chance.choice(["tree", "forward", "any"])
    default = {"I": "QL-SEC", "II": "QL-ST3"}[option]
    elements = [
        PlanElement(
            f"E{e}",
            chance.choice([default, default, chance.choice(some)]),
            chance.choice([None, None, None, chance.choice(some)]),
            chance.choice([300, 300, chance.randint(300, 600)]),
            chance.choice(waits),
        )
        for e in range(count)
    ]
    links = random_links(chance, count, shape)
    levels = some + [LEVELS[option][-1]]
    sources = [
        Source(f"S{j}", chance.randrange(count), chance.choice(levels), chance.randint(0, 3))
        for j in range(chance.randint(0, 4))
    ]
    return Plan(option, elements, links, sources)


def random_links(chance: random.Random, count: int, shape: str) -> list[Link]:
    """The ends by shape, some of them joined by several links, in a bundle or not."""
    if count == 1:
        return []
    ends = [(chance.randrange(e), e) for e in range(1, count)]
    if shape != "tree":
        samples = [sorted(chance.sample(range(count), 2)) for _ in range(chance.randint(1, 10))]
        ends = [(a, b) for a, b in samples]
    ends += [pair for pair in ends if chance.random() < 0.2]
    in_bundles = {pair: chance.random() < 0.7 for pair in ends}
    links = []
    for k, (a, b) in enumerate(ends):
        # In a tree both lines are nominated mostly, forward only the line to the higher number.
        share_back = {"tree": 0.8, "forward": 0, "any": 0.5}[shape]
        priority_b = chance.randint(1, 3) if chance.random() < 0.9 else 0
        priority_a = chance.randint(1, 3) if chance.random() < share_back else 0
        delay_a, delay_b = (
            chance.randint(1, 30) if chance.random() < 0.95 else chance.randint(31, 2000) for _ in range(2)
        )
        bundle = f"T{a}-{b}" if in_bundles[a, b] and chance.random() < 0.9 else None
        if chance.random() < 0.5:
            a, b, priority_a, priority_b = b, a, priority_b, priority_a
        links.append(Link(f"L{k}", a, b, priority_a, priority_b, delay_a, delay_b, bundle))
    return links


def random_events(chance: random.Random, plan: Plan, until: int) -> list[Event]:
    """Up to 40 events of every word, some in one millisecond, some where a time just ends."""
    times = [chance.randint(0, until) for _ in range(chance.choice([0, 1, 2, 5, 10, 17]))]
    offsets = [0, 0, 1, 2, 10, 299, 300, 301, 500, 501]
    times += [min(until, at + chance.choice(offsets)) for at in times]
    lines = [("line", line) for line in range(plan.lines)]
    sources = [("source", j) for j in range(len(plan.sources))]
    targets = {word: lines + sources for word in ("down", "up") + INPUT_WORDS}
    targets["down"] = targets["up"] = lines + sources + [("link", k) for k in range(len(plan.links))]
    targets |= {"esmc-off": lines, "esmc-on": lines, "level": sources}
    targets["clear"] = [("element", e) for e in range(len(plan.elements))]
    words = [word for word in targets for _ in range(2 if word in LINE_WORDS + ("level",) else 1) if targets[word]]
    levels = sorted({source.level for source in plan.sources} | {element.own for element in plan.elements})
    levels.append(LEVELS[plan.option][-1])
    events = rare_events(chance, plan, until)
    for at in times:
        word = chance.choice(words)
        level = chance.choice(levels) if word == "level" else None
        events.append(Event(at, word, chance.choice(targets[word]), level))
    return sorted(events, key=lambda event: event.at)


def rare_events(chance: random.Random, plan: Plan, until: int) -> list[Event]:
    """What is rare among random events and comes to where a time just ends, in some of the cases."""
    kind = chance.choice(["silence", "restoring", "just in time", "nothing", "nothing"])
    if kind == "restoring" and plan.nominated:
        # An input is up again after all else.
        i = chance.choice(plan.nominated)
        target = ("line", i) if plan.is_line(i) else ("source", i - plan.lines)
        return [Event(until, "down", target), Event(until + 400, "up", target)]
    if kind in ("silence", "just in time") and plan.nominated_lines:
        line, at = chance.choice(plan.nominated_lines), chance.randint(1, until)
        if kind == "silence":
            return silence(("line", line), ("line", line ^ 1), chance.choice([at, at - at % 1000 + 1]))
        # The line speaks again in the last millisecond in which its message of the last whole second is heard.
        back = at - at % 1000 + plan.delay_of[line] + 4999
        return [Event(at, "esmc-off", ("line", line)), Event(back, "esmc-on", ("line", line))]
    return []


def silence(line: Target, back: Target, at: int) -> list[Event]:
    """Both lines of a link fall silent and are free to be taken after that: only what they said last is heard."""
    words = [(0, "lockout"), (at, "esmc-off"), (at + 1, "unlock")]
    return [Event(when, word, target) for when, word in words for target in (line, back)]
