"""Commands that are taken and have no effect: told by the program's `inspect` in the millisecond of the command.

A manual switch to an input that nobody may take is taken, and the element goes on by itself; a forced one holds, and the element
then takes nothing. `clear` of nothing, and a lockout of what is locked out already, change nothing.
"""

from __future__ import annotations

from collections.abc import Iterable

from murdjohe.answers.inspections import Inspected, Inspection
from murdjohe.core import documents, forms
from murdjohe.core.inputs import Words
from murdjohe.network import plan_file, wiring
from murdjohe.network.plan_file import PlanFile
from murdjohe.runs import simulation, switches
from murdjohe.runs.simulation import EventFile
from murdjohe.runs.switches import Command

MOST = 200  # milliseconds that are inspected
# Why an input isn't taken, by the word of `inspect`.
REASONS = {
    "locked-out": "it is locked out",
    "failed": "it has failed, or waits to be restored",
    "silent": "no level is heard on it",
    "do-not-use": "it says do-not-use, or nothing better",
    "below-floor": "its level is below the floor there",
    "reserve": "another input has a better level",
    "taken": "another input has had a better level",
}

Idle = dict[tuple[int, str, str], str]  # why a command has no effect, by its millisecond, word and target


def shown(found: Inspection, element: str) -> Inspected | None:
    """What an element shows."""
    return next((one for one in found.elements if one.element == element), None)


def why_of(found: Inspection, element: str, name: str) -> str:
    """Why an input isn't taken, in words."""
    word = next((one.verdict for one in found.inputs if (one.element, one.input) == (element, name)), "")
    return REASONS.get(word, f"`inspect` says {word or 'nothing'} of it")


def on_manual(found: Inspection, one: Command) -> str | None:
    """Why a manual switch that was taken has no effect in its millisecond; None where it has one."""
    its = shown(found, one.element)
    if its is None or (its.mode, its.switched) == ("manual", one.input):
        return None
    return f"{one.element} goes on by itself, since {why_of(found, one.element, one.input)}"


class Inspections:
    """What the program says of milliseconds of a run, each asked once, and so many at most."""

    def __init__(self, plan: PlanFile, file: EventFile) -> None:
        self.plan, self.file = plan, file
        self.seen: dict[int, Inspection] = {}

    def at(self, at: int) -> Inspection | None:
        """What it says of a millisecond; None where too many were asked."""
        if at not in self.seen and len(self.seen) < MOST:
            self.seen[at] = simulation.inspection_of(self.plan, self.file, at)
        return self.seen.get(at)


def on_clear(found: Inspection, one: Command) -> str | None:
    """Why `clear` has no effect, by the millisecond before it; None where it has one."""
    its = shown(found, one.element)
    return f"{one.element} was under no switch" if its is not None and its.mode == "auto" else None


def idle_of(plan: PlanFile, file: EventFile, commands: Iterable[Command]) -> Idle:
    """Why commands that are taken have no effect. Raises Wrong where the program refuses to inspect."""
    found: Idle = {}
    asked = Inspections(plan, file)
    switched: set[tuple[int, str]] = set()  # elements that were switched in a millisecond
    for one in commands:
        why = one.idle if one.is_taken else None
        if one.is_taken and one.word == "manual" and (said := asked.at(one.at)):
            why = on_manual(said, one)
        elif one.is_taken and one.word == "clear" and one.at and (one.at, one.element) not in switched:
            said = asked.at(one.at - 1)
            why = on_clear(said, one) if said else None
        if one.is_taken and one.word in ("forced", "manual"):
            switched.add((one.at, one.element))
        if why:
            found[one.at, one.word, one.input or one.element] = why
    return found


def told(idle: Idle) -> list[str]:
    """The commands that have no effect, and why, in a sentence each."""
    return [f"{word} {target} at {at} has no effect: {why}" for (at, word, target), why in idle.items()]


def beside(words: Words, at: int) -> list[str]:
    """What is said beside an inspection: which commands up to a millisecond are taken and have no effect."""
    its, events = words.file(forms.PLAN), words.file(forms.EVENTS)
    try:
        if its is None or events is None:
            return []
        plan = plan_file.taken(its.name, documents.read(its).data)
        file = EventFile(events.name, documents.read(events).data)
    except OSError:
        return []
    rows = tuple(event for event in file.events if event.at <= at)
    wired = wiring.wiring_of(plan.network)
    return told(idle_of(plan, file, switches.commands_of(wired, wiring.nominated_of(plan.network), rows)))
