"""The ESMC frames of a capture of any length, in order: each is decoded by the program, in pieces that it can take."""

from __future__ import annotations

import struct
from collections import Counter
from collections.abc import Iterable, Iterator
from typing import NamedTuple

from murdjohe.answers import api
from murdjohe.answers.reports import Frame
from murdjohe.capture import capture_files, encapsulation
from murdjohe.core import refusals

PIECE = 20_000  # frames that the program is given at once
PIECE_OCTETS = 4_000_000  # and their octets at most: less than half of what it reads of a file
ASKED = 200  # different frames of which it is asked why they are none
PCAP_HEAD = struct.pack("<IHHiIII", 0xA1B2C3D4, 2, 4, 0, 0, 65_535, 1)
UNKNOWN = "code-"  # how the level of a code begins that the option doesn't know


Extended = tuple[str | None, str | None, int | None, int | None]


class Heard(NamedTuple):
    """An ESMC frame: nanoseconds since 1970 began, the interface, its octets from the address on, what it says, and which packet of
    the capture it is, from 1 on."""

    time: int
    port: str
    octets: bytes
    says: Frame
    number: int

    @property
    def extended(self) -> Extended:
        """What its extended TLV says: the clock, the flags, and how many eEECs and EECs there are since."""
        return self.says.clock, self.says.flags, self.says.eeecs, self.says.eecs


class Waiting(NamedTuple):
    """A frame of the slow protocols that the program wasn't asked about yet."""

    time: int
    port: str
    octets: bytes
    done: tuple[str, ...]
    number: int


def piece_of(frames: list[Waiting]) -> bytes:
    """A capture of these frames; in place of its time each has its number."""
    records = [PCAP_HEAD]
    for number, frame in enumerate(frames):
        length = len(frame.octets)
        records += [struct.pack("<IIII", number, 0, length, length), frame.octets]
    return b"".join(records)


class Capture:
    """A capture file. What is counted, and how the file ends, is known when all frames were taken."""

    def __init__(self, path: str, option: str) -> None:
        self.path = path
        self.option = option
        self.packets = 0
        self.frames = 0
        self.first: int | None = None  # the times of the first and the last packet
        self.last: int | None = None
        self.backwards = 0  # packets that are earlier than one before
        self.done: Counter[str] = Counter()  # what was done to frames
        self.passed: Counter[str] = Counter()  # why packets are no ESMC frames
        self.ports: set[str] = set()
        self.unknown = 0  # frames of a code that the option doesn't know
        self.known_elsewhere = 0  # and those of them that the other option knows
        self.damage: str | None = None
        self.may_end = False  # whether Ctrl-C ends the capture, and not the command
        self.was_ended = False
        self._reasons: dict[bytes, str] = {}

    def heard(self) -> Iterator[Heard]:
        """The ESMC frames in the order of the file. Raises Wrong, and what `api` raises."""
        for piece in self.pieces(self._packets()):
            yield from self.decoded(piece)

    def _packets(self) -> Iterator[capture_files.Packet]:
        """The packets of the file; where it is damaged that is kept, and so is that Ctrl-C ended it."""
        try:
            yield from capture_files.packets(self.path)
        except capture_files.Damaged as damage:
            self.damage = str(damage)
        except KeyboardInterrupt as interrupt:
            self.was_ended = (
                self.may_end and type(interrupt) is KeyboardInterrupt
            )  # (others are signals to end at once)
            if not self.was_ended:
                raise

    def pieces(self, packets: Iterable[capture_files.Packet]) -> Iterator[list[Waiting]]:
        """The frames of the slow protocols in packets, in pieces that the program can take; all other packets are counted."""
        waiting: list[Waiting] = []
        octets = 0
        for packet in packets:
            frame = self._candidate(packet)
            if frame is None:
                continue
            waiting.append(frame)
            octets += len(frame.octets)
            if len(waiting) == PIECE or octets > PIECE_OCTETS:
                yield waiting
                waiting, octets = [], 0
        if waiting:
            yield waiting

    def _candidate(self, packet: capture_files.Packet) -> Waiting | None:
        """The frame of the slow protocols in a packet, which is counted; one without such a frame is by its reason."""
        self._counted(packet)
        found = encapsulation.unwrapped(packet)
        if isinstance(found, str):
            self.passed[found] += 1
        elif len(found.frame) > PIECE_OCTETS:
            self.passed["slow protocol longer than any frame"] += 1
        else:
            return Waiting(packet.time, packet.port or found.port, found.frame, found.done, self.packets)
        return None

    def _counted(self, packet: capture_files.Packet) -> None:
        self.packets += 1
        if packet.link == capture_files.TIMELESS:
            return
        if self.last is None:
            self.first = self.last = packet.time
        elif packet.time < self.last:
            self.backwards += 1
        else:
            self.last = packet.time

    def decoded(self, frames: list[Waiting]) -> Iterator[Heard]:
        """What the program says of these frames, of a piece at most. Those that it passes over are counted by its reasons. Nothing
        is counted before the program has said all of it."""
        rows = {row.seconds: row for row in api.pcap_decode(self.option, piece_of(frames)).result.rows}
        unknown = [row for row in rows.values() if row.level.startswith(UNKNOWN)]
        known_elsewhere = self._known_elsewhere([frames[row.seconds or 0] for row in unknown])
        passed = [self._reason(frame.octets) for number, frame in enumerate(frames) if number not in rows]
        self.unknown += len(unknown)
        self.known_elsewhere += known_elsewhere
        self.passed.update(passed)
        for number, frame in enumerate(frames):
            says = rows.get(number)
            if says is None:
                continue
            self.frames += 1
            self.ports.add(frame.port)
            self.done.update(frame.done)
            yield Heard(frame.time, frame.port, frame.octets, says, frame.number)

    def _known_elsewhere(self, unknown: list[Waiting]) -> int:
        """Of how many of these frames, whose codes the option doesn't know, the other option knows them."""
        if not unknown:
            return 0
        other = "I" if self.option == "II" else "II"
        rows = api.pcap_decode(other, piece_of(unknown)).result.rows
        return sum(not row.level.startswith(UNKNOWN) for row in rows)

    def _reason(self, octets: bytes) -> str:
        """Why the program takes this for no ESMC frame."""
        if octets not in self._reasons and len(self._reasons) < ASKED:
            self._reasons[octets] = asked(self.option, octets)
        return self._reasons.get(octets, "slow protocol, not asked about one by one")


def asked(option: str, octets: bytes) -> str:
    """What the program says is wrong with this frame."""
    try:
        api.decode(option, octets.hex().encode() + b"\n")
    except api.Refused as refused:
        found = refusals.of(refused.status, refused.text)
        part = found.part if found else None
        if part == 7:
            return f"slow protocol of subtype {octets[14]:02x}{' (LACP)' if octets[14] == 1 else ''}"
        if part is not None:
            return f"slow protocol that {refusals.says('frame', part)}"
    return "slow protocol"
