"""Who speaks in a capture, and how: the rate of his messages, the changes of his level, and when he was silent.

Times are nanoseconds since 1970 began. Whoever speaks is a source address on an interface.
"""

from __future__ import annotations

from collections import Counter, deque
from collections.abc import Iterable, Iterator
from dataclasses import dataclass, field
from typing import NamedTuple

from murdjohe.capture import talk_faults
from murdjohe.capture.capture_files import SECOND
from murdjohe.capture.esmc import UNKNOWN, Extended, Heard

LOST = 5 * SECOND  # after so long without a message its level is lost
CROWD = 10  # messages of a slow protocol within a second at most
ASKED_RATE = 1.0  # information messages a second
RATES = (0.9, 1.1)  # outside of them a rate is told
KINDS = 1_000  # different extended TLVs of a source that are kept
KEPT = 10_000  # changes and silences that are kept; the others are counted
Who = tuple[str, str]  # interface and source


@dataclass(frozen=True)
class Transition:
    """A message that says another level than the one before, in its nanosecond; `kind` is that of the message, and `frame` which
    packet of the capture it is."""

    at: int
    port: str
    source: str
    before: str
    after: str
    kind: str
    since: int  # nanoseconds since the message before
    frame: int


@dataclass(frozen=True)
class Silence:
    """More than five seconds without a message, after the packet `frame` of the capture; `is_last` where none came any more before
    the capture ended."""

    at: int
    port: str
    source: str
    length: int
    is_last: bool
    frame: int


class Taken(NamedTuple):
    """What a message brought: the nanoseconds since the one before of its source, the silence that it ended, and a change of level."""

    since: int | None
    silence: Silence | None
    transition: Transition | None


@dataclass
class Talker:
    """One source on one interface, as far as it was heard."""

    port: str
    source: str
    first: int
    level: str
    last: int
    number: int = 0  # which packet of the capture the last message is
    messages: Counter[str] = field(default_factory=Counter)
    first_level: str = ""
    informed: tuple[int, int] | None = None  # the first and the last information message
    crowded: int | None = None  # when for the first time more than ten came within a second
    recent: deque[int] = field(default_factory=lambda: deque(maxlen=CROWD))
    reserved: Counter[str] = field(default_factory=Counter)  # frames in which reserved bits are set, by where
    unknown: Counter[str] = field(default_factory=Counter)  # and of codes that the option doesn't know
    extended: Counter[Extended] = field(default_factory=Counter)  # and with an extended TLV, by what it says

    @property
    def rate(self) -> float | None:
        """Information messages a second; None where there are too few to say."""
        if self.informed is None or self.informed[1] <= self.informed[0]:
            return None
        return (self.messages["info"] - 1) * SECOND / (self.informed[1] - self.informed[0])

    @property
    def is_off_rate(self) -> bool:
        """Whether there is a rate, which is another than asked by more than a tenth."""
        return self.rate is not None and not RATES[0] <= self.rate <= RATES[1]

    def counted(self, heard: Heard) -> None:
        """Counts a message."""
        kind, at = heard.says.kind, heard.time
        self.messages[kind] += 1
        if kind == "info":
            self.informed = (self.informed[0] if self.informed else at, at)
        if self.crowded is None and len(self.recent) == CROWD and 0 <= at - self.recent[0] < SECOND:
            self.crowded = at
        self.recent.append(at)
        self.last, self.level, self.number = at, heard.says.level, heard.number
        self.reserved.update(talk_faults.reserved_of(heard.octets))
        if heard.says.level.startswith(UNKNOWN):
            self.unknown[heard.says.level] += 1
        if heard.says.clock is not None and (len(self.extended) < KINDS or heard.extended in self.extended):
            self.extended[heard.extended] += 1


class Talk:
    """All that is heard in a capture."""

    def __init__(self) -> None:
        self.talkers: dict[Who, Talker] = {}
        self.transitions: list[Transition] = []
        self.silences: list[Silence] = []
        self.left_out = 0  # transitions and silences that are counted only

    def kept(self, found: Transition | Silence) -> None:
        """Keeps a change or silence where there is room."""
        if len(self.transitions) + len(self.silences) >= KEPT:
            self.left_out += 1
        elif isinstance(found, Transition):
            self.transitions.append(found)
        else:
            self.silences.append(found)

    def heard(self, frames: Iterable[Heard]) -> Iterator[tuple[Heard, int | None]]:
        """Takes in all frames, and gives each with the nanoseconds since the one before of the same source."""
        for frame in frames:
            yield frame, self.took(frame).since

    def took(self, frame: Heard) -> Taken:
        """Takes in a frame, and gives what it brought."""
        row, who = frame.says, (frame.port, frame.says.source)
        talker = self.talkers.get(who)
        if talker is None:
            talker = Talker(*who, frame.time, row.level, frame.time, first_level=row.level)
            self.talkers[who] = talker
            talker.counted(frame)
            return Taken(None, None, None)
        since = frame.time - talker.last
        silence = Silence(talker.last, *who, since, False, talker.number) if since > LOST else None
        changed = row.level != talker.level
        transition = (
            Transition(frame.time, *who, talker.level, row.level, row.kind, since, frame.number) if changed else None
        )
        for found in (silence, transition):
            if found is not None:
                self.kept(found)
        talker.counted(frame)
        return Taken(since, silence, transition)

    def ended(self, last: int | None) -> None:
        """Takes in that the capture ended with a packet of this time."""
        for talker in self.talkers.values():
            if last is not None and last - talker.last > LOST:
                length = last - talker.last
                self.kept(Silence(talker.last, talker.port, talker.source, length, True, talker.number))
        self.silences.sort(key=lambda silence: silence.at)
