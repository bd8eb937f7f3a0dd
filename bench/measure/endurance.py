"""Runs random networks of up to 300 elements for as long as it is told, and watches time and memory of each run.

usage: python3 -m bench.measure.endurance PROGRAM [--minutes N] [--seed N]

The peak of memory has to stay within 8 MB and 60 octets for each octet that is read or written; each run has to end
with status 0, or 11 where it is stopped, within a minute. It tells the runs that come nearest. It needs Python 3.11
and GNU time (Debian: time).
"""

import os
import random
import signal
import subprocess
import sys
import tempfile
import time
from collections.abc import Callable
from typing import NamedTuple

from bench.program import program_words, put_files
from bench.reference.plan import Event, Link, Plan, PlanElement, Source, events_text, plan_text
from bench.reference.random_plans import random_events

BASE, SHARE = 8_000_000, 60
PATIENCE = 60  # seconds


class Run(NamedTuple):
    """What a run took: its memory for the octets that were read and written, these, and its time."""

    share: float
    memory: int
    read: int
    written: int
    seconds: float
    name: str


def large_plan(chance: random.Random) -> Plan:
    """A plan in which most lines lead to an element of higher number, with sources and some links back."""
    count = chance.choice([2, 10, 30, 100, 300])
    floor = chance.choice([None, "QL-SSU-B"])
    elements = [
        PlanElement(f"E{e}", "QL-SEC", floor, chance.randint(300, 1800), chance.choice([0, 0, 60_000]))
        for e in range(count)
    ]
    links = []
    for k in range(chance.randint(count - 1, 2 * count)):
        b = k + 1 if k + 1 < count else chance.randrange(1, count)
        back = chance.randint(1, 9) if chance.random() < 0.2 else 0
        links.append(
            Link(
                f"L{k}",
                max(0, b - chance.randint(1, 5)),
                b,
                back,
                chance.randint(1, 9),
                chance.randint(1, 50),
                chance.randint(1, 50),
                None,
            )
        )
    sources = [
        Source(f"S{j}", chance.randrange(count), chance.choice(["QL-PRC", "QL-SSU-A", "QL-SSU-B"]), 10)
        for j in range(chance.randint(1, 5))
    ]
    return Plan("I", elements, links, sources)


def run(program: str, chance: random.Random, number: int, folder: str) -> Run | None:
    """One run of `sim`: what it took; none where it didn't end rightly."""
    plan, until = large_plan(chance), chance.choice([10_000, 100_000, 1_000_000, 86_400_000])
    events: list[Event] = []
    for _ in range(chance.choice([1, 10, 100])):
        events += random_events(chance, plan, until)
    events.sort(key=lambda event: event.at)
    files = {
        "plan": plan_text(plan),
        "events": events_text(plan, [event for event in events if event.at <= 86_400_000]),
    }
    put_files(folder, files)
    begun, told = time.monotonic(), os.path.join(folder, "told")
    words = ["time", "-q", "-o", told, "-f", "%M", program, "sim", "plan", "events", str(until)]
    # (a session of its own, so that the program ends with `time`)
    child = subprocess.Popen(words, cwd=folder, stdout=subprocess.PIPE, stderr=subprocess.PIPE, start_new_session=True)
    try:
        text, complaint = child.communicate(timeout=PATIENCE)
    except subprocess.TimeoutExpired:
        os.killpg(child.pid, signal.SIGKILL)
        child.wait()
        print(f"run {number}: it hadn't ended after {PATIENCE} seconds")
        return None
    with open(told, encoding="ascii") as file:
        memory = 1024 * int(file.read().split()[-1])
    read, written = sum(map(len, files.values())), len(text)
    share = max(0, memory - BASE) / (read + written)
    if child.returncode not in (0, 11) or complaint or share > SHARE:
        told_of = f"status {child.returncode}, {memory} octets of memory for {read} and {written}"
        print(f"run {number}: {told_of}, {complaint[:200]!r}")
        return None
    return Run(
        share,
        memory,
        read,
        written,
        time.monotonic() - begun,
        f"run {number}, {len(plan.elements)} elements, {len(events)} events, to {until}",
    )


def main() -> int:
    given = program_words(__doc__, minutes=60.0, seed=1).parse_args()
    program, runs, number, end = given.program, list[Run | None](), 0, time.monotonic() + 60 * given.minutes
    with tempfile.TemporaryDirectory() as folder:
        while time.monotonic() < end:
            runs.append(run(program, random.Random(f"{given.seed} {number}"), number, folder))
            number += 1
    good = [one for one in runs if one]
    keys: dict[str, Callable[[Run], float]] = {
        "most memory for its octets": lambda one: one.share,
        "most memory": lambda one: one.memory,
        "most written": lambda one: one.written,
        "longest": lambda one: one.seconds,
    }
    for what, key in keys.items() if good else ():
        one = max(good, key=key)
        octets = f"{one.read} octets read and {one.written} written"
        print(f"{what}: {one.memory / 1e6:.1f} MB, {octets}, {one.seconds:.2f} s: {one.name}")
    print(f"{number} runs, {number - len(good)} wrong")
    return 1 if len(good) < number else 0


if __name__ == "__main__":
    sys.exit(main())
