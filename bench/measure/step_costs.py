"""What a step of a network and one of an element of 64 inputs cost the program, in instructions by callgrind.

usage: python3 -m bench.measure.step_costs PROGRAM [--elements N[,N..]]

Of a network: `sim` runs the ladder of so many elements (250 and 2,000 where it isn't given) with a third source at the
tenth element from its top. When the network has settled, the level of that source changes in each of a thousand
milliseconds, so that ten elements are evaluated in each and news arrives on nineteen lines, whatever the size. Of an
element: it has 64 sources and nothing else, and in each of a thousand milliseconds the best one changes, all are told
and one changes, or all change. A step's cost is what callgrind counts in all calls of it and in what they call, by the
number of these calls.

It wants a proved build, valgrind and Python 3.11, and two minutes.
"""

import os
import re
import subprocess
import sys
import tempfile
from typing import NamedTuple

from bench.program import program_words, put_files
from bench.reference.plan import Event, Plan, PlanElement, Source, events_text, ladder, plan_text

# From when on something changes in each millisecond, and in how many: a ladder of 2,000 has settled by 21,000.
SINCE, TIMES = 21_000, 1_000

INPUTS = 64  # the most that an element may have

# How many sources an element is told of in a millisecond, and of how many the level changes.
TOLD = {"the best one changes": (1, 1), "all are told, one changes": (INPUTS, 1), "all change": (INPUTS, INPUTS)}

# The functions that make a step, as a profile names them.
NETWORK, ELEMENT = "sync_net::net::Net::step", "sync_element::element::Element::step"

# A call's record in a profile: the function that is called, and then how often and for how many instructions.
CALLED = re.compile(r"^cfn=\((\d+)\)(?: (.*))?$")
NAMED = re.compile(r"^fn=\((\d+)\)(?: (.*))?$")


class Calls(NamedTuple):
    """How often a function was called, and the instructions of all these calls with what they call."""

    times: int
    instructions: int


def calls_of(profile: str, name: str) -> Calls:
    """The calls of the functions of a name in a profile of callgrind."""
    names: dict[str, str] = {}
    times = instructions = 0
    called = counted = ""
    for line in profile.splitlines():
        if found := CALLED.match(line) or NAMED.match(line):
            if found[2]:
                names[found[1]] = found[2]
            called = found[1] if line.startswith("cfn") else ""
        elif line.startswith("calls="):
            counted = called
            if name in names.get(counted, ""):
                times += int(line[len("calls=") :].split()[0])
        elif counted:
            if name in names.get(counted, ""):
                instructions += int(line.split()[1])
            counted = ""
    return Calls(times, instructions)


def busy_network(count: int) -> tuple[Plan, list[Event]]:
    """The ladder with a third source whose level changes in each millisecond."""
    plan = ladder(count)
    plan = Plan(plan.option, plan.elements, plan.links, [*plan.sources, Source("P2", count - 10, "QL-PRC", 1)])
    levels = ("QL-PRTC", "QL-ePRTC")
    return plan, [Event(SINCE + t, "level", ("source", 2), levels[t % 2]) for t in range(TIMES)]


def busy_element(told: int, change: int) -> tuple[Plan, list[Event]]:
    """An element of 64 sources alone, of so many of which it is told in each millisecond, and of so many something else."""
    sources = [Source(f"S{j}", 0, "QL-SSU-A", j + 1) for j in range(INPUTS)]
    levels = ("QL-PRC", "QL-SSU-B")
    events = [
        Event(SINCE + t, "level", ("source", j), levels[t % 2] if j < change else "QL-SSU-A")
        for t in range(TIMES)
        for j in range(told)
    ]
    return Plan("I", [PlanElement("E0", "QL-SEC", None, 300, 300_000)], [], sources), events


def profile(program: str, plan: Plan, events: list[Event], until: int) -> str:
    """The profile of a run of these events until a millisecond."""
    with tempfile.TemporaryDirectory() as folder:
        put_files(folder, {"plan": plan_text(plan), "events": events_text(plan, events)})
        words = ["valgrind", "--tool=callgrind", "--callgrind-out-file=profile", program, "sim", "plan", "events"]
        subprocess.run([*words, str(until)], cwd=folder, capture_output=True, check=True)
        with open(os.path.join(folder, "profile"), encoding="utf-8") as file:
            return file.read()


def busy_calls(program: str, plan: Plan, events: list[Event], name: str) -> Calls:
    """The calls of a function from when on something changes."""
    before, after = (calls_of(profile(program, plan, events, until), name) for until in (SINCE - 1, SINCE + TIMES))
    return Calls(after.times - before.times, after.instructions - before.instructions)


def cost(calls: Calls) -> str:
    """What a call costs, and how many there were."""
    if not calls.times:
        return "no step"
    return f"{calls.instructions // calls.times:,} instructions a step, {calls.times:,} steps"


def main() -> int:
    given = program_words(__doc__, elements="250,2000").parse_args()
    for count in (int(it) for it in given.elements.split(",")):
        print(f"a network of {count} elements: {cost(busy_calls(given.program, *busy_network(count), NETWORK))}")
    for what, (told, change) in TOLD.items():
        print(f"an element, {what}: {cost(busy_calls(given.program, *busy_element(told, change), ELEMENT))}")
    return 0


if __name__ == "__main__":
    sys.exit(main())
