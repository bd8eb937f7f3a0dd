"""When a run ends that nobody gave an end, and when what fails goes down in it: by the two bounds that `agree` tells.

Out of a network at rest, where nothing comes up since, no line falls silent and no source changes its level, everybody whom a clock
reaches rests from the bound after failures on; after any other last event from the greater bound on, which counts waits to restore. Both
speak of networks in which no element is under a switch at the last event. Two elements whom no clock reaches may take timing from each
other for five seconds and a delay more, where a link is nominated at both ends. Where priorities may oscillate there is no bound: then a
run goes on for as long as messages take over all elements one after the other, and what still changes is told.
"""

from __future__ import annotations

from collections.abc import Iterable
from dataclasses import dataclass

from murdjohe.core import forms
from murdjohe.core.faults import Wrong
from murdjohe.network import wiring
from murdjohe.network.plan_file import PlanFile
from murdjohe.network.wiring import Wiring
from murdjohe.plan.model import HOLDOFF, WTR, Plan
from murdjohe.runs import failures, simulation
from murdjohe.runs.moments import Event
from murdjohe.runs.simulation import EventFile

RISING = frozenset(("up", "esmc-off", "level"))  # of which the bound after failures doesn't speak
SWITCHES = frozenset(("forced", "manual"))
SECOND, MINUTE = 1_000, 60_000
HEARING = 5_000  # milliseconds for which a level is heard


@dataclass(frozen=True)
class Bounds:
    """For how many milliseconds a network may change, as `agree` says, after any last event and after failures alone; None where its
    priorities may oscillate."""

    events: int | None
    failures: int | None


@dataclass(frozen=True)
class Told:
    """What runs are told: the events that all have in common, and of those that each has for itself the words, and when the first and
    the last of all come."""

    common: tuple[Event, ...]
    words: frozenset[str]
    first: int
    last: int

    @property
    def end(self) -> int:
        """When the last event of all comes."""
        return max([self.last, *(event.at for event in self.common)])


@dataclass(frozen=True)
class Ending:
    """When runs end, and by what that was chosen; None where it was given."""

    until: int
    why: str | None


def bounds_of(plan: PlanFile) -> Bounds:
    """The bounds of a plan."""
    return Bounds(plan.agreement.bound, plan.agreement.failures)


def whole(at: int, step: int = SECOND) -> int:
    """The first whole second, or other step, from a millisecond on, within the longest run."""
    return min(-(-at // step) * step, forms.DAY_MS)


def seconds(length: int) -> str:
    """A length of time in seconds."""
    return f"{length / 1000:.3f} s"


def is_switched(wired: Wiring, told: Told) -> bool:
    """Whether an element may be under a forced or manual switch after the last event."""
    under: set[str] = set()
    for event in told.common:
        if event.what in SWITCHES:
            under.add(wired.element_of(event.target) or "")
        elif event.what == "clear":
            under.discard(event.target)
    return bool(under or told.words & SWITCHES)


def is_at_rest(plan: PlanFile, events: Iterable[Event], at: int) -> bool:
    """Whether the network is settled in a millisecond of a run of these events, by the program; not where it refuses them."""
    rows = failures.lines_of((event.at, event.what, event.target, event.value) for event in events if event.at <= at)
    try:
        return at >= 0 and simulation.is_settled(
            plan, EventFile("the events", simulation.NO_EVENTS + rows.encode()), at
        )
    except Wrong:
        return False


def only_fails(plan: PlanFile, told: Told) -> bool:
    """Whether there is a settled millisecond after which parts fail alone, as far as the bound after failures has to know."""
    rising = [event.at for event in told.common if event.what in RISING]
    if (
        told.words & RISING
        or any(event.what == "level" for event in told.common)
        or max(rising, default=-1) >= told.first
    ):
        return False
    return is_at_rest(plan, told.common, told.first - 1)


def way(network: Plan) -> int:
    """For how long messages may be on their way over all elements one after the other, for each level that a source has, after the
    longest hold-off time; twenty minutes at most."""
    holdoff = max((element.holdoff for element in network.elements), default=HOLDOFF)
    delay = max((line.delay for line in network.lines()), default=1)
    said = {source.level for source in network.sources}
    return min(holdoff + max(1, len(said)) * len(network.elements) * delay + 2 * delay, simulation.AFTER)


def facing(plan: PlanFile) -> int:
    """For how long two elements of a plan may take timing from each other; 0 where no link or bundle is nominated at both ends."""
    lines = plan.network.nominated_lines()
    ways = {(line.bundle, line.sender) for line in lines}
    both = any((line.bundle, line.receiver) in ways for line in lines)
    return HEARING + max(line.delay for line in lines) if both else 0


def waits(network: Plan) -> int:
    """The longest wait to restore, and the time for which a level is heard."""
    return max((element.wtr for element in network.elements), default=WTR) * MINUTE + HEARING


def without_bound(plan: PlanFile, told: Told) -> Ending:
    """When runs end of a plan whose priorities may oscillate."""
    fails = not (told.words | {event.what for event in told.common}) & RISING
    after = way(plan.network) + (facing(plan) if fails else waits(plan.network))
    until = whole(told.end + after)
    why = f"{seconds(until - told.end)} after the last event; priorities may oscillate, so `agree` gives no bound"
    return Ending(until, why)


def after_failures(plan: PlanFile, last: int, bound: int) -> Ending:
    """When runs end in which parts fail alone, the last one at a millisecond."""
    pairs = facing(plan)
    more = (
        f", {seconds(pairs)} more in which two elements out of reach may take timing from each other" if pairs else ""
    )
    why = f"{seconds(bound)} after the last failure (`failures F` of `agree`){more}, rounded up to a whole second"
    return Ending(whole(last + bound + pairs), why)


def ending(plan: PlanFile, told: Told, bounds: Bounds) -> Ending:
    """When runs end that are told this."""
    last = told.end
    if bounds.events is None or bounds.failures is None:
        return without_bound(plan, told)
    if is_switched(wiring.wiring_of(plan.network), told):
        return Ending(
            min(last + simulation.AFTER, forms.DAY_MS),
            "20 minutes after the last event, at which a switch may be in force",
        )
    if only_fails(plan, told):
        return after_failures(plan, last, bounds.failures)
    why = f"{seconds(bounds.events)} after the last event (`bound B` of `agree`, which counts wait-to-restore), rounded up to a whole second"
    return Ending(whole(last + bounds.events), why)


def trailing(events: tuple[Event, ...]) -> list[int]:
    """When the first and the last event come after which nothing comes up any more; none where something comes up last."""
    rising = max((event.at for event in events if event.what in RISING), default=-1)
    behind = [event.at for event in events if event.at > rising]
    return sorted({behind[0], behind[-1]}) if behind else []


def of_run(plan: PlanFile, events: tuple[Event, ...]) -> list[Ending]:
    """When a run of events may end, the earliest first: the next one counts where the network isn't settled by then."""
    last, bounds = max((event.at for event in events), default=0), bounds_of(plan)
    tolds = [Told(events, frozenset(), first, last) for first in [*trailing(events), 0]]
    found = {one.until: one for one in (ending(plan, told, bounds) for told in tolds)}
    if bounds.events is not None:
        until = min(last + simulation.AFTER, forms.DAY_MS)
        found.setdefault(until, Ending(until, "20 minutes after the last event"))
    return [found[until] for until in sorted(found)]
