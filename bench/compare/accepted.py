"""Looks for timing loops in the runs of random plans that `check` accepts.

usage: python3 -m bench.compare.accepted PROGRAM [--plans N] [--seed N]

A plan with events is run to its end. From the rows of its changes the selections of every millisecond are known,
and from them, in a few lines here, the rings of elements that take timing from one another: none may have more than
two elements. Then it is run again to each millisecond in which something changed: the part `loops` has to name just
these rings, and none where the network is settled. It needs Python 3.11.
"""

import collections
import random
import sys
import tempfile
from collections import Counter

from bench.compare.sim import SimCase, random_case
from bench.program import answer, program_words, put_files
from bench.reference.plan import Plan, events_text, plan_text, read_plan


def senders_of(plan: Plan) -> dict[str, dict[str, str]]:
    """For each element its lines by name: the element at the other end."""
    senders: dict[str, dict[str, str]] = {element.name: {} for element in plan.elements}
    for link in plan.links:
        a, b = plan.elements[link.a].name, plan.elements[link.b].name
        senders[b][f"{link.name}>{b}"] = a
        senders[a][f"{link.name}>{a}"] = b
    return senders


def selections_of(text: str) -> dict[int, dict[str, str]]:
    """The millisecond of each change, and what each element takes from then on."""
    taken, moments = dict[str, str](), dict[int, dict[str, str]]()
    for row in text.split("inputs\n")[0].split("\n")[1:-1]:
        at, element, _, name = row.split(",")[:4]
        taken[element] = name
        moments[int(at)] = dict(taken)
    return moments


def rings_of(senders: dict[str, dict[str, str]], taken: dict[str, str]) -> set[frozenset[str]]:
    """The rings of elements that take timing from one another, each as the set of its lines."""
    rings: set[frozenset[str]] = set()
    for element in taken:
        passed, here = list[str](), element
        while here not in passed and taken.get(here) in senders[here]:
            passed.append(here)
            here = senders[here][taken[here]]
        if here in passed:
            rings.add(frozenset(taken[name] for name in passed[passed.index(here) :]))
    return rings


def reported(text: str) -> tuple[set[frozenset[str]], bool]:
    """The rings that a report names, and whether it says settled."""
    loops, settled = text.split("loops\n")[1].rsplit("settled ", 1)
    return {frozenset(row.split(" ")) for row in loops.splitlines()}, settled == "yes\n"


def in_order(rings: set[frozenset[str]]) -> list[list[str]]:
    """Rings as lists, in an order that doesn't change."""
    return sorted(sorted(ring) for ring in rings)


def tried(program: str, case: SimCase, folder: str, counted: Counter[str]) -> tuple[str | None, bool]:
    """The first thing that is wrong with an accepted plan, or None; whether it is accepted."""
    plan, events, until = case
    put_files(folder, {"plan": plan_text(plan), "events": events_text(plan, events)})
    status, certificate = answer(program, "rank", "plan", folder=folder)
    if status != 0:
        return None, False
    put_files(folder, {"certificate": certificate})
    if answer(program, "check", "plan", "certificate", folder=folder) != (0, "accepted\n"):
        return "its own certificate is refused", True
    status, text = answer(program, "sim", "plan", "events", until, folder=folder)
    if status != 0:
        return f"status {status}", True
    senders = senders_of(read_plan(plan_text(plan)))
    for at, taken in selections_of(text).items():
        rings = rings_of(senders, taken)
        named, settled = reported(answer(program, "sim", "plan", "events", at, folder=folder)[1])
        counted.update({"moments": 1, "pairs": len(rings), "settled": int(settled)})
        if any(len(ring) > 2 for ring in rings) or named != rings or (settled and rings):
            return f"at {at}: rings {in_order(rings)}, named {in_order(named)}, settled {settled}", True
    return None, True


def main() -> int:
    given = program_words(__doc__, plans=500, seed=1).parse_args()
    chance, counted = random.Random(given.seed), collections.Counter[str]()
    while counted["accepted"] < given.plans:
        with tempfile.TemporaryDirectory() as folder:
            wrong, accepted = tried(given.program, random_case(chance, "usual"), folder, counted)
        counted.update({"accepted": int(accepted), "cyclic": int(not accepted), "wrong": int(wrong is not None)})
        if wrong:
            print(f"accepted plan {counted['accepted']}: {wrong}")
    plans = f"{counted['accepted']} accepted plans ({counted['cyclic']} others passed over)"
    moments = f"{counted['moments']} milliseconds with changes, of which {counted['settled']} settled"
    print(f"{plans}, {moments}; {counted['pairs']} facing pairs; {counted['wrong']} wrong")
    return 1 if counted["wrong"] else 0


if __name__ == "__main__":
    sys.exit(main())
