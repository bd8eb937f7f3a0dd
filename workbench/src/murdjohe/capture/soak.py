"""What an element had to send for what it received over a time of any length: the program replays it in pieces.

A piece begins a little before the one before it ends. Its first millisecond has what is down, silent, switched and commanded by
then; where it begins nothing has come up or was commanded for longer than any wait, so that no time runs; and the frames of its
first seconds tell the element what it has heard. A piece is taken only where the program says of it, over the milliseconds that
both pieces have, what it says of the one before.
"""

from __future__ import annotations

from bisect import bisect_left, bisect_right
from collections.abc import Callable, Iterator, Sequence
from dataclasses import dataclass
from typing import NamedTuple

from murdjohe.core import program
from murdjohe.core.forms import DAY_MS

SECOND = 1_000
WARM = 20 * SECOND  # so much before the end of one piece the next begins
SHARED = 10 * SECOND  # and over the last so many milliseconds of that both have to say the same
LEAD = 3 * SECOND  # for so long one input alone is heard, where the element has to begin with it
SWITCHED = 6 * SECOND  # when a switch is given again: all levels are heard by then
QUIET = 12 * 60 * SECOND + 2 * SECOND + WARM  # the longest wait-to-restore and hold-off, and the beginning of a piece
FRAME = "frame"
# What undoes a word of an event, and under which word a state is kept.
STATES = {"down": "up", "esmc-off": "esmc-on", "lockout": "unlock"}
SWITCHES = ("forced", "manual")


class Row(NamedTuple):
    """A line of what `node` takes: its millisecond, and the rest of it."""

    at: int
    rest: str

    @property
    def word(self) -> str:
        return self.rest.partition(",")[0]


class Sent(NamedTuple):
    """A frame that the element has to send: its millisecond, the line, and the frame as hexadecimal digits."""

    at: int
    line: str
    frame: str


@dataclass(frozen=True)
class Limits:
    """How many octets and milliseconds a piece may have."""

    octets: int = program.LONGEST_BESIDE - 100_000
    length: int = DAY_MS


class Lost(Exception):
    """From a millisecond on it isn't known what the element has to send; the text says why."""

    def __init__(self, at: int, why: str) -> None:
        super().__init__(why)
        self.at = at


# Replays rows up to a millisecond: what has to be sent, and up to where that is known.
Replay = Callable[[str, int], tuple[Sequence[Sent], int]]


def rows_of(text: str) -> list[Row]:
    """The lines of what `node` takes."""
    parts = (line.partition(",") for line in text.splitlines())
    return [Row(int(at), rest) for at, _, rest in parts]


def text_of(rows: Sequence[Row], start: int) -> str:
    """The rows as `node` takes them, with the times of a piece."""
    return "".join(f"{row.at - start},{row.rest}\n" for row in rows)


def carried(events: Sequence[Row], start: int) -> list[Row]:
    """What stands at the start of a piece of all that was done before, as rows at its first milliseconds."""
    states: dict[tuple[str, str], Row] = {}
    levels: dict[str, Row] = {}
    switch: Row | None = None
    for row in events:
        if row.at > start:
            break
        word, _, rest = row.rest.partition(",")
        if word in STATES:
            states[word, rest] = Row(start, row.rest)
        for kept, undone in STATES.items():
            if word == undone:
                states.pop((kept, rest), None)
        if word == "level":
            levels[rest.partition(",")[0]] = Row(start, row.rest)
        if word in SWITCHES:
            switch = Row(start + SWITCHED, row.rest)
        elif word == "clear":
            switch = None
    return [*states.values(), *levels.values(), *([switch] if switch else [])]


def longest(rows: Sequence[Row], start: int, end: int, limits: Limits) -> int:
    """Up to which millisecond, a full second, a piece from `start` may go."""
    octets, last = 0, min(end, start + limits.length)
    for row in rows[bisect_left(rows, start, key=lambda row: row.at) :]:
        octets += len(row.rest) + 12
        if row.at > last:
            break
        if octets > limits.octets:
            last = row.at - 1
            break
    return last if last == end else last // SECOND * SECOND


def cut_before(events: Sequence[Row], start: int, last: int) -> int:
    """The latest full second up to `last` behind which no wait runs any more. Raises Lost where there is none."""
    at = last
    for row in reversed(events):
        if row.at <= at - QUIET:
            break
        if row.at <= at:
            at = (row.at - 1) // SECOND * SECOND
    if at <= start + WARM:
        raise Lost(last, "nothing rests for long enough to replay it in pieces: events come one after the other")
    return at


def led(rows: Sequence[Row], start: int, line: str | None) -> list[Row]:
    """The rows of a piece, in whose first seconds the frames of one line alone are heard, where one is named."""
    if line is None:
        return list(rows)
    begins = f"{FRAME},{line},"
    return [row for row in rows if row.word != FRAME or row.at >= start + LEAD or row.rest.startswith(begins)]


@dataclass(frozen=True)
class Soak:
    """What an element received, with the events among it, and how the program is asked."""

    rows: Sequence[Row]
    replay: Replay
    limits: Limits = Limits()

    @property
    def events(self) -> list[Row]:
        return [row for row in self.rows if row.word != FRAME]

    def sent(self, end: int) -> Iterator[list[Sent]]:
        """What the element has to send up to a millisecond, piece by piece. Raises Lost, and what the program refuses."""
        events = self.events
        start, known = 0, -1
        before: list[Sent] = []
        while True:
            last = longest(self.rows, start, end, self.limits)
            stop = last if last == end else cut_before(events, start, last)
            piece, until = self._piece(events, start, stop, known, before)
            yield [sent for sent in piece if sent.at > known]
            if until < stop:
                raise Lost(until, "the program stopped there")
            if stop == end:
                return
            start, known, before = stop - WARM, stop, piece

    def _piece(
        self, events: Sequence[Row], start: int, stop: int, known: int, before: Sequence[Sent]
    ) -> tuple[list[Sent], int]:
        """What has to be sent in a piece, as the one before says it where both do. Raises Lost."""
        first, behind = (bisect_left(self.rows, at, key=lambda row: row.at) for at in (start, stop + 1))
        rows = self.rows[first:behind]
        if not start:
            return self._asked(rows, start, stop)
        lines = sorted({row.rest.split(",")[1] for row in rows if row.word == FRAME})
        wanted = shared(before, known)
        for line in (None, *lines):
            whole = sorted([*carried(events, start), *led(rows, start, line)], key=lambda row: row.at)
            found, until = self._asked(whole, start, stop)
            if shared(found, known) == wanted:
                return found, until
        raise Lost(
            known, "what the element follows there can't be brought about anew, so it isn't known how it goes on"
        )

    def _asked(self, rows: Sequence[Row], start: int, stop: int) -> tuple[list[Sent], int]:
        """What the program says of these rows, with the times of the whole, and up to where it is known."""
        found, until = self.replay(text_of(rows, start), stop - start)
        return [Sent(one.at + start, one.line, one.frame) for one in found], until + start


def shared(sent: Sequence[Sent], known: int) -> list[Sent]:
    """What has to be sent over the milliseconds that two pieces share."""
    first = bisect_right(sent, known - SHARED, key=lambda one: one.at)
    return [one for one in sent[first:] if one.at <= known]
