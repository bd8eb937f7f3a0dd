"""An input by the events on it: from when on its signal was up or down, when it failed, when it was good again.

After the rule of the condition of an input: down for more than the hold-off time in a row it fails; up for more than the
wait-to-restore time in a row, or cleared while it is up, it is good again. What the condition is in a millisecond the program
says; this says since when, and a test compares both.
"""

from __future__ import annotations

import bisect
from collections.abc import Iterable, Sequence
from dataclasses import dataclass
from functools import cached_property
from itertools import pairwise

from murdjohe.runs.moments import Event

BEFORE, END = -1, 1 << 62  # a millisecond before every run, and one after each

# From when on something holds or doesn't, in order of time: it holds at first, and each entry is another than the one before.
Flips = Sequence[tuple[int, bool]]


@dataclass(frozen=True)
class Turn:
    """An input that has failed, or is good again, from a millisecond on; since when its signal was down or up then."""

    at: int
    input: str
    has_failed: bool
    since: int
    is_cleared: bool = False


def flips_of(events: Iterable[Event], yes: str, no: str) -> Flips:
    """When the last of two words in a millisecond changes what holds."""
    said = {event.at: event.what == yes for event in events if event.what in (yes, no)}
    found: list[tuple[int, bool]] = []
    for at, holds in sorted(said.items()):
        if holds != (found[-1][1] if found else True):
            found.append((at, holds))
    return found


def last_flip(flips: Flips, at: int) -> tuple[int, bool] | None:
    """The last flip up to a millisecond; None where it is as at first."""
    place = bisect.bisect_right(flips, at, key=lambda flip: flip[0])
    return flips[place - 1] if place else None


def holds_at(flips: Flips, at: int) -> bool:
    found = last_flip(flips, at)
    return found is None or found[1]


def holds_from_to(flips: Flips, start: int, stop: int) -> bool:
    """Whether it holds in each millisecond from one to the other, both included."""
    return holds_at(flips, start) and last_flip(flips, start) == last_flip(flips, stop)


def turns_of(name: str, flips: Flips, clears: Sequence[int], holdoff: int, restoring: int) -> list[Turn]:
    """When an input fails and is good again, by its signal, by when it is cleared, and by both times in milliseconds."""
    found: list[Turn] = []
    has_failed = False
    for (start, is_up), (stop, _) in pairwise([(BEFORE, True), *flips, (END, True)]):
        if not is_up and not has_failed and start + holdoff < stop:
            found.append(Turn(start + holdoff, name, True, start))
            has_failed = True
        elif is_up and has_failed:
            cleared = min((at for at in clears if start <= at < stop), default=END)
            end = min(start + restoring, cleared)
            if end < stop:
                found.append(Turn(end, name, False, start, cleared < start + restoring))
                has_failed = False
    return found


class Signals:
    """What events say of an input, a line or a source, at an element with these times in milliseconds."""

    def __init__(self, name: str, events: list[Event], holdoff: int, restoring: int) -> None:
        self.name = name
        self.events = events
        self.holdoff = holdoff
        self.restoring = restoring

    def told(self, low: int, high: int, *words: str) -> list[Event]:
        """The events with these words from one millisecond to another, both included."""
        start = bisect.bisect_left(self.events, low, key=lambda event: event.at)
        stop = bisect.bisect_right(self.events, high, key=lambda event: event.at)
        return [event for event in self.events[start:stop] if event.what in words]

    @cached_property
    def ups(self) -> Flips:
        """From when on it was up or down."""
        return flips_of(self.events, "up", "down")

    @cached_property
    def messages(self) -> Flips:
        """From when on its ESMC was on or off; a source has none that is switched."""
        return flips_of(self.events, "esmc-on", "esmc-off")

    @cached_property
    def turns(self) -> list[Turn]:
        """When it failed and was good again."""
        clears = [event.at for event in self.events if event.what == "clear-wtr"]
        return turns_of(self.name, self.ups, clears, self.holdoff, self.restoring)

    def last_turn(self, at: int) -> Turn | None:
        """The last time up to a millisecond that it failed or was good again."""
        place = bisect.bisect_right(self.turns, at, key=lambda turn: turn.at)
        return self.turns[place - 1] if place else None

    def has_failed(self, at: int) -> bool:
        turn = self.last_turn(at)
        return turn is not None and turn.has_failed

    def speaks(self, at: int) -> bool:
        """Whether it was up with its ESMC on; never before the run."""
        return at >= 0 and holds_at(self.ups, at) and holds_at(self.messages, at)

    def is_up_from_to(self, start: int, stop: int) -> bool:
        return holds_from_to(self.ups, start, stop)
