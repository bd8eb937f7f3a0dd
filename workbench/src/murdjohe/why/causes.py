"""What brought something about: back from a change of an element to what came in its millisecond, and from that to what was before.

An element takes something else, or the same at another level, only where in that millisecond a command came to it, what it
took became worse, or what it takes became better. Where it lost what it took, a lockout, cut or level that had taken its other
inputs away is a cause too. An input becomes worse or better where a time of it ran out, an event touches
it, a message came over it, or none came for five seconds. A message says what its sender shows. Each step leads to an earlier
millisecond, or from a change to what came in its own, so going back ends.
"""

from __future__ import annotations

import heapq
import math
from collections.abc import Iterable, Iterator
from dataclasses import dataclass

from murdjohe.answers.reports import Change
from murdjohe.runs.moments import Event
from murdjohe.runs.switches import Command
from murdjohe.why.history import HEARD_MS, History, Message
from murdjohe.why.signals import Turn


@dataclass(frozen=True)
class Silence:
    """A line over which no message came for five seconds, so that its level is lost; and the last one that came."""

    line: str
    at: int
    last: Message


Cause = Event | Command | Turn | Message | Silence | Change
# Causes of one millisecond stand in this order.
RANKS: dict[type[object], int] = {Event: 0, Command: 0, Turn: 1, Message: 2, Silence: 3, Change: 4}


def time_of(cause: Cause) -> int:
    """The millisecond of a cause."""
    return cause.came if isinstance(cause, Message) else cause.at


def place_of(cause: Cause, history: History) -> tuple[int, int, int]:
    """Where a cause stands: by its time, its kind, and its place in the event file or in the plan."""
    place = 0
    if isinstance(cause, Event):
        place = history.place(cause.at, cause.what, cause.target)
    elif isinstance(cause, Command):
        place = history.place(cause.at, cause.word, cause.input or cause.element)
    elif isinstance(cause, Change):
        place = history.wired.elements.index(cause.element)
    return time_of(cause), RANKS[type(cause)], place


def silence_of(history: History, line: str, at: int) -> Silence | None:
    """Since when nothing is heard of a line over which nothing is heard; None where nothing ever was."""
    last = history.last_heard(line, at)
    return Silence(line, last.came + HEARD_MS, last) if last else None


def commands_of(history: History, row: Change, touched: tuple[str | None, ...]) -> Iterator[Command]:
    """The commands that were carried out at an element in the millisecond of its change, as far as they may have made it."""
    has_mode = history.shown(row.element, row.at - 1).mode != row.mode
    for command in history.commands_at(row.element, row.at):
        is_switch = command.word not in ("lockout", "unlock")
        if command.is_taken and (is_switch or has_mode or command.input in touched):
            yield command


def made_another(history: History, name: str, at: int) -> Iterator[Cause]:
    """What made an input another in a millisecond than it was in the one before."""
    turn = history.signals(name).last_turn(at)
    if turn and turn.at == at:
        yield turn
    if history.input_level(name, at) == history.input_level(name, at - 1):
        return
    if name in history.wired.sources:
        yield from history.signals(name).told(at, at, "level", "up")
        return
    message, before = history.heard(name, at), history.heard(name, at - 1)
    if message:
        yield message
    elif before:
        yield Silence(name, at, before)


def lockout_of(history: History, name: str, at: float = math.inf) -> Command | None:
    """The command by which an input is locked out in a millisecond, or at the end; None where it isn't."""
    found = None
    for one in history.commands:
        if one.at > at:
            break
        if one.input == name and one.is_taken and one.word == "lockout":
            found = found or one
        elif one.input == name and one.is_taken and one.word == "unlock":
            found = None
    return found


def taken_away(history: History, name: str, at: int) -> Iterator[Cause]:
    """What took an input away that would have served in a millisecond: a lockout, a cut, or a level upstream; nothing of one whose
    sender takes its timing from this very element."""
    turn = history.signals(name).last_turn(at)
    if lockout := lockout_of(history, name, at):
        yield lockout
    elif turn and turn.has_failed:
        yield turn
    elif history.worth(name, at) < len(history.levels) - 1:
        return
    elif name in history.wired.sources:
        yield from history.signals(name).told(0, at, "level")[-1:]
    elif message := history.heard(name, at):
        if not history.taken_back(history.wired.lines[name], message.sent):
            yield history.news(message)
    elif silence := silence_of(history, name, at):
        yield silence


def missed(history: History, row: Change) -> Iterator[Cause]:
    """Where an element lost what it took: what had taken its other inputs away before."""
    before = history.shown(row.element, row.at - 1)
    places = [history.levels.index(one.level) if one.level in history.levels else 0 for one in (before, row)]
    if row.at == 0 or before.input is None or (row.input is not None and places[1] <= places[0]):
        return
    for one in history.network.orders[row.element].inputs:
        if one.name not in (before.input, row.input):
            yield from taken_away(history, one.name, row.at)


def of_change(history: History, row: Change) -> Iterator[Cause]:
    """Commands, what was taken and became worse, what is taken and became better; and what had taken away before what would have
    served."""
    yield from missed(history, row)
    before = history.shown(row.element, row.at - 1).input
    yield from commands_of(history, row, (before, row.input))
    for name in dict.fromkeys((before, row.input)) if row.at else ():
        if name is None:
            continue
        was, now = history.worth(name, row.at - 1), history.worth(name, row.at)
        if was != now and (before == row.input or (now > was) == (name == before)):
            yield from made_another(history, name, row.at)


def of_turn(history: History, turn: Turn) -> Iterator[Cause]:
    """What took the signal of an input down or up whose time ran out, and what cleared it."""
    its = history.signals(turn.input)
    yield from its.told(turn.since, turn.since, "down" if turn.has_failed else "up")
    if turn.is_cleared:
        yield from its.told(turn.at, turn.at, "clear-wtr")


def of_message(history: History, message: Message) -> Iterator[Cause]:
    """What the sender of a message showed, and what made its line speak again."""
    its = history.signals(message.line)
    if message.sent > 0 and not its.speaks(message.sent - 1):
        yield from its.told(message.sent, message.sent, "up", "esmc-on")
    if row := history.last_row(history.wired.lines[message.line].sender, message.sent):
        yield row


def causes_of(history: History, cause: Cause) -> Iterator[Cause]:
    """What brought a cause about; nothing for what stands in the event file."""
    if isinstance(cause, Change):
        yield from of_change(history, cause)
    elif isinstance(cause, Turn):
        yield from of_turn(history, cause)
    elif isinstance(cause, Message):
        yield from of_message(history, cause)
    elif isinstance(cause, Silence):
        # what silenced the line since the last message was sent
        yield from history.signals(cause.line).told(cause.last.sent, cause.at, "down", "esmc-off")


def walked(history: History, roots: Iterable[Cause], most: int | None) -> tuple[list[Cause], bool]:
    """What led to some causes, these included, in order of time; and whether that is all. Of more than `most` the last are kept."""
    met = list(dict.fromkeys(roots))
    todo = [(-time_of(cause), number) for number, cause in enumerate(met)]
    heapq.heapify(todo)
    known = set(met)
    found: list[Cause] = []
    while todo and (most is None or len(found) < most):
        cause = met[heapq.heappop(todo)[1]]
        found.append(cause)
        for before in causes_of(history, cause):
            if before not in known:
                known.add(before)
                heapq.heappush(todo, (-time_of(before), len(met)))
                met.append(before)
    return sorted(found, key=lambda cause: place_of(cause, history)), not todo
