"""A live capture: packets as they come through a pipe, and what is told of them at once.

A thread reads the packets, so that whoever asks gets all that came meanwhile and never waits for more than he said. What time it is
in the capture is known between packets too: the time of the last one and what went by since it came.
"""

from __future__ import annotations

import queue
import threading
import time
from collections.abc import Iterator
from typing import NamedTuple

from murdjohe.capture import capture_files, esmc
from murdjohe.capture.capture_files import SECOND, Packet
from murdjohe.capture.esmc import Heard, Waiting
from murdjohe.capture.talkers import LOST, Talk, Transition, Who
from murdjohe.core import program

ROOM = 100_000  # packets that wait to be looked at; whoever sends more waits too
GRACE = 3 * SECOND // 2  # what a packet may take through buffers: so much later a silence is told
PIECE = 4_000  # packets that are looked at at once


class Spoken(NamedTuple):
    """A frame that came, with the nanoseconds since the one before of its source."""

    frame: Heard
    since: int | None


class Begun(NamedTuple):
    """A source that is heard for the first time."""

    frame: Heard


class Quiet(NamedTuple):
    """A source that has been silent for more than five seconds: since when, and after which packet."""

    port: str
    source: str
    at: int
    number: int


class Again(NamedTuple):
    """A source that speaks again, after so many nanoseconds of silence."""

    frame: Heard
    length: int


Said = Spoken | Begun | Quiet | Again | Transition


class Feed:
    """The packets of a capture that is still written, read by a thread of its own."""

    def __init__(self, path: str) -> None:
        self.path = path
        self.packets: queue.Queue[Packet | Exception | None] = queue.Queue(ROOM)
        self.is_over = False
        self.damage: str | None = None
        threading.Thread(target=self._read, daemon=True).start()

    def _read(self) -> None:
        try:
            for packet in capture_files.packets(self.path):
                self.packets.put(packet)
            self.packets.put(None)
        except Exception as fault:  # (whatever it is, who asks for packets raises it)
            self.packets.put(fault)

    def came(self, wait: float) -> list[Packet]:
        """All that came, a piece at most; it waits so many seconds for the first. Raises Wrong."""
        found: list[Packet] = []
        try:
            taken = self.packets.get(timeout=wait)
            while isinstance(taken, capture_files.Packet):
                found.append(taken)
                if len(found) == PIECE:
                    return found
                taken = self.packets.get_nowait()
        except queue.Empty:
            return found
        self._ended(taken)
        return found

    def _ended(self, fault: Exception | None) -> None:
        """Takes in how the capture ended. Raises what isn't damage."""
        self.is_over = True
        if isinstance(fault, capture_files.Damaged):
            self.damage = str(fault)
        elif fault is not None:
            raise fault


class Watch:
    """What is told of a live capture at once; all that is counted stands in `taken` and `talk`."""

    def __init__(self, taken: esmc.Capture, talk: Talk) -> None:
        self.taken = taken
        self.talk = talk
        self.quiet: set[Who] = set()  # those whose silence was told
        self.came_at = 0.0  # when the last packet came, by the clock of this machine

    def took(self, packets: list[Packet], now: float) -> Iterator[Said]:
        """Takes in packets that came in this moment. Raises Wrong, and what `api` raises."""
        if packets:
            self.came_at = now
        for piece in self.taken.pieces(packets):
            for frame in self._decoded(piece):
                yield from self._heard(frame)

    def _decoded(self, piece: list[Waiting]) -> list[Heard]:
        """What the program says of these frames; it is asked once more where Ctrl-C, which goes to all processes of a terminal,
        ended it too."""
        try:
            return list(self.taken.decoded(piece))
        except program.Ended:
            return list(self.taken.decoded(piece))

    def _heard(self, frame: Heard) -> Iterator[Said]:
        """What is told of a frame."""
        who = (frame.port, frame.says.source)
        found = self.talk.took(frame)
        yield Spoken(frame, found.since)
        if found.since is None:
            yield Begun(frame)
        elif found.silence or who in self.quiet:
            self.quiet.discard(who)
            yield Again(frame, found.since)
        if found.transition:
            yield found.transition

    def now(self, now: float) -> int | None:
        """The time of the capture in this moment, in nanoseconds since 1970 began; None before the first packet."""
        return None if self.taken.last is None else self.taken.last + int((now - self.came_at) * SECOND)

    def waited(self, now: float) -> Iterator[Said]:
        """Those who are found to be silent in this moment."""
        at = self.now(now)
        for who, talker in self.talk.talkers.items():
            if at is not None and who not in self.quiet and at - talker.last > LOST + GRACE:
                self.quiet.add(who)
                yield Quiet(*who, talker.last, talker.number)


def watched(feed: Feed, watch: Watch, is_stopped: threading.Event, wait: float, end: float | None) -> Iterator[Said]:
    """What is told of a live capture, at once, until it is over, is stopped, or an end by the clock of this machine is there."""
    while not (feed.is_over or is_stopped.is_set() or (end is not None and time.monotonic() >= end)):
        packets = feed.came(wait)
        yield from watch.took(packets, time.monotonic())
        yield from watch.waited(time.monotonic())
    # (what was sent before the end is on its way still)
    while not feed.is_over and (packets := feed.came(wait)):
        yield from watch.took(packets, time.monotonic())
