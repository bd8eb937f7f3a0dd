"""A device beside the rules: what it said on a line, and what it had to say there.

Times are milliseconds from the zero of a comparison on. A device tells each change of its level within the tolerance, by an
event message; it repeats its level by one information message a second, in whatever part of the second; and it says nothing
else. Each finding is a way in which it doesn't.
"""

from __future__ import annotations

from bisect import bisect_left, bisect_right
from collections.abc import Iterator
from dataclasses import dataclass
from typing import NamedTuple

from murdjohe.capture.lab_lines import Message

SECOND = 1_000
MISSING, LATE, WRONG, UNEXPECTED = "missing", "late", "wrong level", "unexpected"
TOO_MANY = "too many"
SPARE = 2.0  # information messages beyond those of the rate that a shift of phase makes
CROWD = 10  # messages of a slow protocol within a second at most
NOT_USED = ("QL-DNU", "QL-DUS")  # what says do-not-use


class Finding(NamedTuple):
    """A way in which a device isn't as the rules say: from which millisecond on, the line, which way, in words, and the packet of
    the capture that shows it first: 0 where none does, since it is missing."""

    at: int
    line: str
    what: str
    words: str
    frame: int = 0


@dataclass(frozen=True)
class Limits:
    """The tolerance, the first and last millisecond that are compared, and how many information messages a second may come."""

    tolerance: int
    begin: int
    end: int
    rate: float = 1.1


@dataclass
class Step:
    """A level that has to be said from a millisecond on, up to but not at another; `before` is the one before it."""

    at: int
    until: int
    level: str
    kind: str
    before: str | None
    told: Message | None = None  # the first message that says it
    event: Message | None = None  # and the first event message


class Span(NamedTuple):
    """Milliseconds over which a line has to speak, from the first up to but not at the last."""

    at: int
    until: int


def spans_of(wanted: list[Message], limits: Limits) -> list[Span]:
    """When the line has to speak: each message stands for the second behind it."""
    found: list[Span] = []
    for message in wanted:
        until = min(message.at + SECOND, limits.end + 1)
        if found and message.at <= found[-1].until:
            found[-1] = Span(found[-1].at, until)
        else:
            found.append(Span(message.at, until))
    return found


def steps_of(wanted: list[Message], limits: Limits) -> list[Step]:
    """The levels that have to be said, one after the other, over each time in which the line speaks."""
    found: list[Step] = []
    last: Message | None = None
    for message in wanted:
        is_new = last is None or message.at > last.at + SECOND
        if is_new or (last and last.level != message.level):
            if found and last:
                found[-1].until = last.at + SECOND if is_new else message.at
            before = None if is_new or last is None else last.level
            found.append(Step(message.at, message.at, message.level, message.kind, before))
        last = message
    if found and last:
        found[-1].until = min(last.at + SECOND, limits.end + 1)
    return found


def ways(level: str) -> str:
    """A level, with a word where it is do-not-use."""
    return f"{level} (do-not-use)" if level in NOT_USED else level


class Line:
    """One line: what had to be said on it, and what was."""

    def __init__(self, name: str, wanted: list[Message], said: list[Message], limits: Limits) -> None:
        self.name = name
        self.limits = limits
        self.said = [message for message in said if message.at <= limits.end]
        self.times = [message.at for message in self.said]
        self.spans = spans_of(wanted, limits)
        self.steps = steps_of(wanted, limits)
        self.starts = [step.at for step in self.steps]
        for step in self.steps:
            self._heard(step)
        self.wrong = [self._is_wrong(message) for message in self.said]

    def _heard(self, step: Step) -> None:
        """Looks for the messages that tell a step; one that said so already before counts."""
        spare = self.limits.tolerance
        before = bisect_right(self.times, step.at) - 1
        if before >= 0 and self.said[before].level == step.level:
            step.told = self.said[before]
        first, last = bisect_left(self.times, step.at - spare), bisect_left(self.times, step.until + spare)
        for message in self.said[first:last]:
            if message.level == step.level:
                step.told = step.told or message
                if message.kind == "event" and step.event is None:
                    step.event = message

    def speaks(self, at: int) -> bool:
        """Whether something may be said in a millisecond, or within the tolerance of it."""
        spare = self.limits.tolerance
        return any(span.at - spare <= at < span.until + spare for span in self.spans)

    def allowed(self, at: int) -> list[Step]:
        """The steps of which one is right in a millisecond, or within the tolerance of it."""
        spare = self.limits.tolerance
        end = bisect_right(self.starts, at + spare)
        begin = end
        while begin and self.steps[begin - 1].until + spare > at:
            begin -= 1
        return self.steps[begin:end]

    def findings(self) -> list[Finding]:
        """All of them, in order of time."""
        found = [*self._changes(), *self._levels(), *self._events(), *self._silences(), *self._crowds()]
        return sorted(finding for finding in found if finding.at >= self.limits.begin)

    def _changes(self) -> Iterator[Finding]:
        """Changes that weren't told, or late, or not by an event message."""
        spare, in_place = self.limits.tolerance, {id(step) for step in self.wrong if step}
        for step in self.steps:
            if step.before is None or step.until - step.at <= spare or step.at + spare > self.limits.end:
                continue  # it is no change, needn't be seen, or can't be judged any more
            told, level = step.told, ways(step.level)
            if told is None:
                if id(step) not in in_place:
                    yield Finding(step.at, self.name, MISSING, f"{level} had to be said; it goes on with {step.before}")
            elif told.at - step.at > spare:
                words = f"{level} had to be said, and came {told.at - step.at} ms later"
                yield Finding(step.at, self.name, LATE, words, told.number)
            elif step.event is None and told.at >= step.at - spare:
                words = f"an event message of {level}; only an information message came, {told.at - step.at} ms later"
                yield Finding(step.at, self.name, MISSING, words, told.number)

    def _is_wrong(self, message: Message) -> Step | None:
        """The step in whose place a message says another level, where it does; not where it is only late with the step."""
        allowed = self.allowed(message.at)
        if not allowed or any(step.level == message.level for step in allowed):
            return None
        step = allowed[-1]
        is_late = step.told is None or message.at < step.told.at
        return None if is_late and message.level == step.before else step

    def _levels(self) -> Iterator[Finding]:
        """Runs of messages that say another level than they have to."""
        run: list[Message] = []
        place: Step | None = None
        for message, wrong in zip(self.said, self.wrong):
            step = wrong if message.at >= self.limits.begin else None
            if run and place and (step is not place or message.level != run[0].level):
                yield self._run(run, place)
                run = []
            if step:
                run.append(message)
            place = step
        if run and place:
            yield self._run(run, place)

    def _run(self, run: list[Message], step: Step) -> Finding:
        """Messages that say another level than that of a step."""
        many = f"in {len(run)} messages up to {run[-1].at}" if len(run) > 1 else "in one message"
        words = f"says {run[0].level} {many}, where {ways(step.level)} had to be said"
        return Finding(run[0].at, self.name, WRONG, words, run[0].number)

    def _events(self) -> Iterator[Finding]:
        """Messages where nothing had to be said, and event messages without a change."""
        for message in self.said:
            if not self.speaks(message.at):
                words = f"says {message.level}, where nothing had to be said"
                yield Finding(message.at, self.name, UNEXPECTED, words, message.number)
            elif message.kind == "event":
                steps = [step for step in self.allowed(message.at) if step.level == message.level]
                if steps and not any(step.event is message for step in steps):
                    words = f"an event message of {message.level}, where nothing had changed"
                    yield Finding(message.at, self.name, UNEXPECTED, words, message.number)

    def _silences(self) -> Iterator[Finding]:
        """Times of more than a second and the tolerance without a message, where the line has to speak."""
        spare, begin = self.limits.tolerance, self.limits.begin
        for span in self.spans:
            first, last = bisect_left(self.times, span.at), bisect_left(self.times, span.until)
            heard = [span.at, *self.times[first:last], span.until]
            for before, after in zip(heard, heard[1:]):
                length, at = after - before, max(before, begin)
                if length <= SECOND + spare or after - at <= SECOND + spare:
                    continue
                if count := (length + spare) // SECOND - 1:
                    many = f"{count} information message{'s' * (count > 1)}"
                    yield Finding(at, self.name, MISSING, f"{many}: it was silent for {length / SECOND:.1f} s")
                elif after != span.until:
                    words = f"an information message came {length} ms after the message before"
                    yield Finding(at, self.name, LATE, words, self._number(after))

    def _number(self, at: int) -> int:
        """Which packet the first message from a millisecond on is; 0 where there is none."""
        place = bisect_left(self.times, at)
        return self.said[place].number if place < len(self.said) else 0

    def _crowds(self) -> Iterator[Finding]:
        """Information messages that come more often than once a second, and more than ten messages within a second."""
        run: list[int] = []
        times = [message.at for message in self.said if message.kind == "info"]
        spare = SPARE
        for at, before in zip(times, [*times[:1], *times]):
            spare = min(SPARE, spare + self.limits.rate * (at - before) / SECOND) - 1.0
            if spare < 0 and at >= self.limits.begin:
                spare = 0.0
                run.append(at)
            elif run and at - run[-1] > SECOND:
                yield self._crowd(run)
                run = []
        if run:
            yield self._crowd(run)
        crowd = next((at for at, after in zip(self.times, self.times[CROWD:]) if after - at < SECOND), None)
        if crowd is not None and crowd >= self.limits.begin:
            words = f"more than {CROWD} messages within a second"
            yield Finding(crowd, self.name, TOO_MANY, words, self._number(crowd))

    def _crowd(self, run: list[int]) -> Finding:
        """Information messages too many."""
        times = [message.at for message in self.said if message.kind == "info"]
        first, last = max(0, bisect_left(times, run[0]) - 3), bisect_right(times, run[-1])
        length = max(1, times[last - 1] - times[first])
        rate = (last - 1 - first) * SECOND / length
        words = f"{last - first} information messages up to {run[-1]}, {rate:.1f} a second, where one a second is asked"
        return Finding(run[0], self.name, TOO_MANY, words, self._number(run[0]))

    def reactions(self) -> list[int]:
        """After how many milliseconds each change was told, of those that were."""
        return [
            step.told.at - step.at
            for step in self.steps
            if step.before is not None and step.told is not None and self.limits.begin <= step.at <= step.told.at
        ]


@dataclass(frozen=True)
class Reaction:
    """How soon the changes of a line were told: how many were, and the least, the middle and the greatest time in milliseconds."""

    line: str
    changes: int
    least: int | None
    middle: int | None
    greatest: int | None


def reaction_of(name: str, times: list[int]) -> Reaction:
    """The reactions of a line."""
    ordered = sorted(times)
    if not ordered:
        return Reaction(name, 0, None, None, None)
    return Reaction(name, len(ordered), ordered[0], ordered[len(ordered) // 2], ordered[-1])


def looked_at(
    wanted: list[Message], said: list[Message], lines: set[str], limits: Limits
) -> tuple[list[Finding], list[Reaction]]:
    """All findings on these lines, in order of time, and how soon their changes were told. What is wanted and said is in order of
    time too."""
    found, reactions = [], []
    for name in sorted(lines):
        own = [[message for message in messages if message.line == name] for messages in (wanted, said)]
        line = Line(name, own[0], own[1], limits)
        found += line.findings()
        reactions.append(reaction_of(name, line.reactions()))
    return sorted(found), reactions


def compared(wanted: list[Message], said: list[Message], lines: set[str], limits: Limits) -> list[Finding]:
    """The findings alone."""
    return looked_at(wanted, said, lines, limits)[0]
