"""What was before a millisecond: what each element showed, how each input was, what each line said and what was heard of it.

Elements are as the program's report has them. What lines say follows from that by the published rules of a line: it says its
sender's level, or do-not-use where it leads back over the bundle by which its sender takes its timing; what is new is sent at
once, and everything again each second; a message arrives a delay later, if the line was up all the way; and the last one
counts for five seconds. A test compares what is heard with the program's inspection.
"""

from __future__ import annotations

import bisect
from dataclasses import dataclass

from murdjohe.answers.reports import Change
from murdjohe.core.levels import LEVELS
from murdjohe.network.orders import NONE, Order
from murdjohe.network.wiring import Line, Wiring
from murdjohe.runs import moments
from murdjohe.runs.moments import Event
from murdjohe.runs.switches import Command
from murdjohe.why import signals
from murdjohe.why.signals import Signals

HEARD_MS, REPEAT_MS, MINUTE_MS = 5_000, 1_000, 60_000


@dataclass(frozen=True)
class Network:
    """A plan: its option, wiring, the order of each element, and the level that each source has at first."""

    option: str
    wired: Wiring
    orders: dict[str, Order]
    first_levels: dict[str, str]


@dataclass(frozen=True)
class Message:
    """A message that came over a line: its level, when it was sent and when it came."""

    line: str
    level: str
    sent: int
    came: int


class History:
    """A run: what events and commands there were, and what changed by them."""

    def __init__(
        self, network: Network, events: tuple[Event, ...], commands: tuple[Command, ...], changes: tuple[Change, ...]
    ) -> None:
        self.network = network
        self.wired = network.wired
        self.levels = LEVELS[network.option]
        self.worst = self.levels[-1]
        self.events = events
        self.commands = commands
        self._first = moments.shown_first(self.wired)
        self._rows: dict[str, list[Change]] = {name: [] for name in self.wired.elements}
        for change in changes:
            self._rows[change.element].append(change)
        self._events: dict[str, list[tuple[int, Event]]] = {}
        for place, event in enumerate(events):
            self._events.setdefault(event.target, []).append((place, event))
        self._signals: dict[str, Signals] = {}

    # what elements showed

    def rows(self, element: str, low: int, high: int) -> list[Change]:
        """The changes of an element from one millisecond to another, both included, in order of time."""
        rows = self._rows[element]
        start = bisect.bisect_left(rows, low, key=lambda row: row.at)
        return rows[start : bisect.bisect_right(rows, high, key=lambda row: row.at)]

    def last_row(self, element: str, at: int) -> Change | None:
        """The last change of an element up to a millisecond."""
        rows = self._rows[element]
        place = bisect.bisect_right(rows, at, key=lambda row: row.at)
        return rows[place - 1] if place else None

    def shown(self, element: str, at: int) -> Change:
        """What an element showed in a millisecond."""
        return self.last_row(element, at) or self._first[element]

    def commands_at(self, element: str, at: int) -> list[Command]:
        """The commands to an element in a millisecond."""
        start = bisect.bisect_left(self.commands, at, key=lambda command: command.at)
        stop = bisect.bisect_right(self.commands, at, key=lambda command: command.at)
        return [command for command in self.commands[start:stop] if command.element == element]

    # how inputs were

    def place(self, at: int, word: str, target: str) -> int:
        """The place in the event file of the first event that is such a one."""
        its = self._events.get(target, [])
        return next((place for place, event in its if (event.at, event.what) == (at, word)), -1)

    def signals(self, name: str) -> Signals:
        """What events say of an input: those on it, and on its link."""
        if name not in self._signals:
            line = self.wired.lines.get(name)
            names = (name, line.link) if line else (name,)
            its = sorted((one for target in names for one in self._events.get(target, [])), key=lambda one: one[0])
            order = self.network.orders[self.wired.element_of(name) or ""]
            # (an element may have the name of a link or a source)
            events = [event for _, event in its if event.what != "clear"]
            self._signals[name] = Signals(name, events, order.holdoff, order.wtr * MINUTE_MS)
        return self._signals[name]

    # what lines said

    def taken_back(self, line: Line, at: int) -> Line | None:
        """The line by which the sender of a line takes its timing from the receiver, over the same bundle, if it does so."""
        taken = self.wired.lines.get(self.shown(line.sender, at).input or "")
        return taken if taken and taken.sender == line.receiver and taken.bundle == line.bundle else None

    def said(self, name: str, at: int) -> str | None:
        """The level that a line said in a millisecond; None where it said nothing."""
        if not self.signals(name).speaks(at):
            return None
        line = self.wired.lines[name]
        return self.worst if self.taken_back(line, at) else self.shown(line.sender, at).level

    def is_news(self, name: str, at: int) -> bool:
        """Whether what a line said was new."""
        said = self.said(name, at)
        return said is not None and self.said(name, at - 1) != said

    def may_be_news(self, name: str, low: int, high: int) -> list[int]:
        """The milliseconds from one to another in which what a line says may be new, the last first."""
        found = {row.at for row in self.rows(self.wired.lines[name].sender, low, high)}
        found |= {event.at for event in self.signals(name).told(low, high, "up", "down", "esmc-on", "esmc-off")}
        return sorted(found | ({0} if low <= 0 <= high else set()), reverse=True)

    def heard(self, name: str, at: int) -> Message | None:
        """The message that counts in a millisecond: the last that came over a line in five seconds."""
        delay = self.wired.lines[name].delay
        low, high = max(0, at - HEARD_MS + 1 - delay), at - delay
        seconds = range(-(-low // REPEAT_MS) * REPEAT_MS, high + 1, REPEAT_MS)
        for sent in sorted({*seconds, *self.may_be_news(name, low, high)}, reverse=True):
            said = self.said(name, sent)
            is_sent = said is not None and (sent % REPEAT_MS == 0 or self.is_news(name, sent))
            if said and is_sent and self.signals(name).is_up_from_to(sent, sent + delay):
                return Message(name, said, sent, sent + delay)
        return None

    def news(self, message: Message) -> Message:
        """The message by which what this one says was new: itself, or an earlier one that it repeats."""
        high, step = message.sent, REPEAT_MS
        while high >= 0:
            for sent in self.may_be_news(message.line, max(0, high - step), high):
                if self.is_news(message.line, sent):
                    return Message(message.line, message.level, sent, sent + message.came - message.sent)
            high, step = high - step - 1, 2 * step
        return message

    def last_heard(self, name: str, at: int) -> Message | None:
        """The message that came last over a line over which nothing is heard any more; None where none ever came."""
        delay = self.wired.lines[name].delay
        for event in reversed(self.signals(name).told(0, at, "down", "esmc-off")):
            if found := self.heard(name, min(at, event.at - 1 + delay)):
                return found
        return None

    # what inputs gave

    def source_level(self, name: str, at: int) -> str:
        """The level of a source: the one last said of it while it was up."""
        its = self.signals(name)
        flip = signals.last_flip(its.ups, at)
        said = its.told(0, flip[0] - 1 if flip and not flip[1] else at, "level")
        return said[-1].value if said else self.network.first_levels[name]

    def input_level(self, name: str, at: int) -> str | None:
        """The level of an input: what is heard of a line, or what a source has; a line has none before the run."""
        if name in self.wired.sources:
            return self.source_level(name, at)
        message = self.heard(name, at)
        return message.level if message else None

    def worth(self, name: str, at: int) -> int:
        """How good an input is, the best at 0; all that can't be taken, whatever is locked out, is as bad as do-not-use."""
        nothing = len(self.levels) - 1
        level = None if self.signals(name).has_failed(at) else self.input_level(name, at)
        if level is None:
            return nothing
        floor = self.network.orders[self.wired.element_of(name) or ""].floor
        place = self.levels.index(level)
        return nothing if floor != NONE and place > self.levels.index(floor) else place
