"""Runs failures out of settled networks whose plans agree, and says when they rest, beside their bound after failures.

usage: python3 -m bench.compare.failures PROGRAM [--runs N] [--seed N] [--keep FOLDER]
       python3 -m bench.compare.failures PROGRAM --of PLAN..

The plans are random and agree: half of them with links nominated at both ends by an order of the elements, where the
way back is each element's last resort. Each runs until it is settled; then one to five of its links, lines and sources
go down within three seconds. From the bound after failures that `agree` tells (its third line), after the last of
them, no element may change that a level still reaches which is better than every own clock, and where one reaches every
element the network has to be settled. Runs in which nothing changes after the last failure show nothing, and aren't
counted: N runs, 1,000 without a number, are those with a change. With --of each single link, bundle, source and
element of the plans fails in turn, and a line for each plan says when the last change came. It needs Python 3.11 and
networkx.
"""

import random
import statistics
import sys
import tempfile
from collections.abc import Iterator
from pathlib import Path
from typing import NamedTuple

from bench.compare.agree import Standing, with_worse_clocks
from bench.compare.protected import failures_of
from bench.compare.runs import run_words
from bench.levels import LEVELS
from bench.program import answer, put_files
from bench.reference.plan import Event, Link, Plan, events_text, plan_text, read_plan
from bench.reference.random_plans import random_plan

WITHIN = 3_000  # milliseconds in which failures fall
LONGER = 20_000  # and so long a run goes on after their bound
SPARE = 1_000  # between what settles the network and the first failure


class Bounds(NamedTuple):
    """What `agree` says of a plan."""

    bound: int
    failures: int


class Rested(NamedTuple):
    """When the last element changed that a level reaches, after the last failure, and what is wrong, if anything is."""

    after: int
    wrong: str


def bounds_of(program: str, folder: str) -> Bounds | None:
    """The bounds of the plan in a folder, where it agrees."""
    status, text = answer(program, "agree", "plan", folder=folder)
    words = text.split()
    return Bounds(int(words[2]), int(words[4])) if status == 0 else None


def ordered_plan(chance: random.Random) -> Plan:
    """A plan with an order of its elements: links go from an earlier one, and back as the last resort."""
    plan = with_worse_clocks(chance, random_plan(chance, [0, 60_000]))
    count = len(plan.elements)
    ends = [(chance.randrange(e), e) for e in range(1, count)]
    pairs = [sorted(chance.sample(range(count), 2)) for _ in range(chance.randint(0, count) if count > 1 else 0)]
    ends += [(pair[0], pair[1]) for pair in pairs]
    slow = chance.randrange(len(ends)) if ends and chance.random() < 0.5 else -1
    links = []
    for k, (a, b) in enumerate(ends):
        delay = chance.randint(200, 2000) if k == slow else chance.randint(1, 30)
        links.append(
            Link(f"L{k}", a, b, 200 - b if chance.random() < 0.7 else 0, chance.randint(1, 3), delay, delay, None)
        )
    return Plan(plan.option, plan.elements, links, plan.sources)


def plan_with_clock(chance: random.Random) -> Plan:
    """A random plan with a source that is better than every own clock."""
    plan = (
        ordered_plan(chance) if chance.random() < 0.5 else with_worse_clocks(chance, random_plan(chance, [0, 60_000]))
    )
    for source in plan.sources:
        source.level = LEVELS[plan.option][chance.randint(0, 2)]
    return read_plan(plan_text(plan))


def losses(chance: random.Random, plan: Plan, from_: int) -> list[Event]:
    """One to five parts go down within three seconds."""
    parts = [("link", k) for k in range(len(plan.links))] + [("line", line) for line in range(plan.lines)]
    parts += [("source", j) for j in range(len(plan.sources))]
    times = sorted(from_ + chance.randint(0, WITHIN) for _ in range(chance.randint(1, 5)))
    return [Event(at, "down", chance.choice(parts)) for at in times] if parts else []


def rested(program: str, folder: str, plan: Plan, events: list[Event], bounds: Bounds) -> Rested:
    """When the run of some failures rests."""
    put_files(folder, {"events": events_text(plan, events)})
    last = events[-1].at
    status, text = answer(program, "sim", "plan", "events", last + bounds.failures + LONGER, folder=folder)
    reached = Standing(plan, events).reached()
    names = {plan.elements[e].name for e in reached}
    rows = [row.split(",")[:2] for row in text.partition("changes\n")[2].partition("inputs\n")[0].splitlines()]
    after = max((int(at) - last for at, name in rows if name in names and int(at) > last), default=0)
    whole = len(reached) == len(plan.elements)
    settled = status != 0 or not whole or text.endswith("settled yes\n")
    late = f"changes {after} after the last, {bounds.failures} promised" if after > bounds.failures else ""
    return Rested(after, late or ("" if settled else "isn't settled"))


def settled_at(program: str, folder: str, plan: Plan, bound: int) -> int | None:
    """A millisecond by which the network without events is settled, if it is."""
    put_files(folder, {"events": events_text(plan, [])})
    status, text = answer(program, "sim", "plan", "events", bound, folder=folder)
    return bound if status == 0 and text.endswith("settled yes\n") else None


def random_runs(program: str, folder: str, chance: random.Random, runs: int) -> Iterator[tuple[Bounds, Rested]]:
    """So many runs in which something changes after the last failure."""
    made = 0
    while made < runs:
        plan = plan_with_clock(chance)
        put_files(folder, {"plan": plan_text(plan)})
        bounds = bounds_of(program, folder)
        start = settled_at(program, folder, plan, bounds.bound) if bounds is not None else None
        if bounds is None or start is None:
            continue
        for _ in range(3):
            events = losses(chance, plan, start + SPARE)
            if events:
                found = rested(program, folder, plan, events, bounds)
                if found.after or found.wrong:
                    made += 1
                    yield bounds, found


def single_failures(plan: Plan, at: int) -> Iterator[list[Event]]:
    """The events of each single failure."""
    for failure in failures_of(plan):
        links = [Event(at, "down", ("link", k)) for k in sorted(failure.links)]
        parts = links + [Event(at, "down", ("source", j)) for j in sorted(failure.sources)]
        if parts:
            yield parts


def told_of(program: str, folder: str, name: str) -> int:
    """Prints what the single failures of a plan come to; how many are wrong."""
    text = Path(name).read_text(encoding="utf-8")
    put_files(folder, {"plan": text})
    plan, bounds = read_plan(text), bounds_of(program, folder)
    if bounds is None:
        print(f"{name}: doesn't agree")
        return 0
    start = bounds.bound + SPARE
    found = [rested(program, folder, plan, events, bounds) for events in single_failures(plan, start)]
    wrong = sum(bool(one.wrong) for one in found)
    latest = max((one.after for one in found), default=0)
    print(
        f"{name}: bound {bounds.bound}, failures {bounds.failures}, {len(found)} failures, last change {latest}; {wrong} wrong"
    )
    return wrong


def main() -> int:
    words = run_words(__doc__, 0, 1000)
    words.add_argument("--of", nargs="+", default=[])
    given = words.parse_args()
    chance = random.Random(given.seed)
    with tempfile.TemporaryDirectory() as passing:
        folder = given.keep or passing
        if given.of:
            return 1 if sum(told_of(given.program, folder, name) for name in given.of) else 0
        shares, wrong = [], 0
        for bounds, found in random_runs(given.program, folder, chance, given.runs):
            shares.append(found.after / bounds.failures)
            if found.wrong:
                wrong += 1
                print(found.wrong)
                if given.keep:
                    break
    print(
        f"{len(shares)} runs with a change after the last failure, at most {max(shares, default=0):.2f} of their bound,"
        f" in the median {statistics.median(shares or [0]):.2f}; {wrong} wrong"
    )
    return 1 if wrong else 0


if __name__ == "__main__":
    sys.exit(main())
