"""Capture files as streams of packets: classic pcap in micro- or nanoseconds, and pcapng; plain, or packed by gzip.

Numbers, link types and headers are dpkt's. Records are taken one by one, and never more of the file than one of them is kept,
so that a file may be of any length, and where it was cut off the record is known.
"""

from __future__ import annotations

import gzip
import struct
import zlib
from collections.abc import Iterator
from contextlib import contextmanager
from typing import IO, Any, NamedTuple, Protocol

from dpkt import dpkt, pcap, pcapng

from murdjohe.core import streams
from murdjohe.core.faults import Wrong, reason
from murdjohe.core.inputs import STDIN
from murdjohe.core.packing import GZIP
from murdjohe.core.program import READ_FAULT

ETHERNET, COOKED, COOKED_2 = pcap.DLT_EN10MB, pcap.DLT_LINUX_SLL, pcap.DLT_LINUX_SLL2
TIMELESS = -1  # the link type that is told of packets without a time
LINK_BITS = 0xFFFF  # of a pcap's link type; the others say how long check sequences are
LONGEST = 1 << 24  # octets of a record or block; a longer one is damage, since no Ethernet frame is so long
SECOND = 1_000_000_000  # nanoseconds
PIECE = 1 << 16  # octets that are unpacked at once
SECTION = struct.pack("<I", pcapng.PCAPNG_BT_SHB)  # (the same in both orders)
# The first four octets of a pcap: the order of its numbers, nanoseconds in its unit of time, and the octets of a record's head.
PCAPS = {
    struct.pack(order + "I", magic): (order, unit, head)
    for order in "<>"
    for magic, unit, head in (
        (pcap.TCPDUMP_MAGIC, 1_000, 16),
        (pcap.TCPDUMP_MAGIC_NANO, 1, 16),
        (pcap.MODPCAP_MAGIC, 1_000, 24),
    )
}


class Damaged(Exception):
    """What is wrong with a capture, and where. All that came before is whole."""


class Packet(NamedTuple):
    """A packet: nanoseconds since 1970 began, the interface (empty where the file names none), the link type, the octets that
    were captured, and how many there were."""

    time: int
    port: str
    link: int
    data: bytes
    length: int


class Interface(NamedTuple):
    """An interface of a pcapng: its name, link type, octets that are captured of a packet at most (0 for all), what a tick is
    in nanoseconds, as a fraction, and the nanoseconds that are added to each time."""

    name: str
    link: int
    most: int
    ticks: tuple[int, int]
    offset: int


class Octets(Protocol):
    """What octets are read of, in order: fewer than asked for only at the end."""

    def read(self, count: int, /) -> bytes:
        ...


class Unpacked:
    """The octets of a file that is packed by gzip. Where it is damaged all before that is read first."""

    def __init__(self, file: IO[bytes]) -> None:
        self.file = gzip.GzipFile(fileobj=file)
        self.piece = b""
        self.at = 0

    def read(self, count: int, /) -> bytes:
        """So many octets, or fewer at the end. Raises EOFError, zlib.error and gzip.BadGzipFile."""
        while len(self.piece) - self.at < count and (more := self.file.read1(PIECE)):
            self.piece, self.at = self.piece[self.at :] + more, 0
        data = self.piece[self.at : self.at + count]
        self.at += len(data)
        return data


def taken(file: Octets, count: int, what: str) -> bytes:
    """So many octets. Raises Damaged where there are fewer."""
    data = file.read(count)
    if len(data) < count:
        raise Damaged(f"it ends within {what}")
    return data


def of_pcap(file: Octets, magic: bytes) -> Iterator[Packet]:
    """The packets of a classic pcap, whose first four octets are read. Raises Damaged."""
    order, unit, head = PCAPS[magic]
    header = taken(file, 20, "its header")
    link = struct.unpack(order + "I", header[16:])[0] & LINK_BITS
    fields = struct.Struct(order + "IIII")
    number = 0
    while data := file.read(head):
        number += 1
        if len(data) < head:
            raise Damaged(f"it ends within its record {number}")
        seconds, part, caught, length = fields.unpack_from(data)
        if caught > LONGEST:
            raise Damaged(f"its record {number} says that it has {caught} bytes, which no frame has")
        yield Packet(seconds * SECOND + part * unit, "", link, taken(file, caught, f"its record {number}"), length)


def ticks_of(octet: int) -> tuple[int, int]:
    """What a tick is in nanoseconds, as a fraction, by the octet that says the resolution."""
    return SECOND, 2 ** (octet & 0x7F) if octet & 0x80 else 10**octet


def interface_of(block: bytes, order: str, number: int) -> Interface:
    """The interface that a block describes. Raises Damaged."""
    kind = pcapng.InterfaceDescriptionBlockLE if order == "<" else pcapng.InterfaceDescriptionBlock
    try:
        found = kind(block)
        options = {option.code: bytes(option.data) for option in found.opts}
    except (dpkt.Error, struct.error, ValueError, IndexError, TypeError) as fault:
        raise Damaged(f"its interface {number} can't be read: {fault or type(fault).__name__}") from None
    name = streams.printable(options.get(pcapng.PCAPNG_OPT_IF_NAME, b"").rstrip(b"\0").decode("utf-8", "replace"))
    resolution = options.get(pcapng.PCAPNG_OPT_IF_TSRESOL) or b"\x06"
    shift = options.get(pcapng.PCAPNG_OPT_IF_TSOFFSET, b"")
    offset = struct.unpack(order + "q", shift)[0] * SECOND if len(shift) == 8 else 0
    return Interface(name or str(number), found.linktype, found.snaplen, ticks_of(resolution[0]), offset)


def blocks(file: Octets) -> Iterator[tuple[str, int, bytes]]:
    """The blocks of a pcapng, whose first four octets are read, each with the order of its numbers and its kind; they are
    whole, with their lengths. Raises Damaged."""
    order, begin, number = "<", SECTION, 1
    while begin:
        what = f"its block {number}"
        begin += taken(file, 8 - len(begin), what)
        more = b""
        if begin[:4] == SECTION:
            more = taken(file, 4, what)
            order = "<" if struct.unpack("<I", more)[0] == pcapng.BYTE_ORDER_MAGIC else ">"
            if struct.unpack(order + "I", more)[0] != pcapng.BYTE_ORDER_MAGIC:
                raise Damaged(f"{what} doesn't say the order of its bytes")
        kind, length = struct.unpack(order + "II", begin)
        if length % 4 or not 12 + len(more) <= length <= LONGEST:
            raise Damaged(f"{what} says that it has {length} bytes, which can't be")
        block = begin + more + taken(file, length - 8 - len(more), what)
        if block[-4:] != begin[4:]:
            raise Damaged(f"{what} says two lengths")
        yield order, kind, block
        begin, number = file.read(4), number + 1


def of_block(order: str, kind: int, block: bytes, interfaces: list[Interface], number: int) -> Packet:
    """The packet of a block of such a kind; it is the one of this number. Raises Damaged."""
    what = f"its packet {number}"
    if kind == pcapng.PCAPNG_BT_SPB:
        fields, head = (0, 0, 0, *struct.unpack_from(order + "I", block.ljust(12, b"\0"), 8) * 2), 12
    elif kind == pcapng.PCAPNG_BT_EPB:
        fields, head = struct.unpack_from(order + "IIIII", block.ljust(28, b"\0"), 8), 28
    else:
        fields, head = struct.unpack_from(order + "H2xIIII", block.ljust(28, b"\0"), 8), 28
    at, high, low, caught, length = fields
    if at >= len(interfaces):
        raise Damaged(f"{what} is of interface {at}, which isn't described")
    interface = interfaces[at]
    if kind == pcapng.PCAPNG_BT_SPB:
        caught = min(caught, interface.most or caught)
    if head + caught > len(block) - 4:
        raise Damaged(f"{what} says that it has {caught} bytes, which are more than its block")
    part, whole = interface.ticks
    time = ((high << 32) | low) * part // whole + interface.offset
    link = TIMELESS if kind == pcapng.PCAPNG_BT_SPB else interface.link
    return Packet(time, interface.name, link, block[head : head + caught], length)


def of_pcapng(file: Octets) -> Iterator[Packet]:
    """The packets of a pcapng, whose first four octets are read. Raises Damaged."""
    interfaces: list[Interface] = []
    number = 0
    for order, kind, block in blocks(file):
        if kind == pcapng.PCAPNG_BT_SHB:
            interfaces = []
        elif kind == pcapng.PCAPNG_BT_IDB:
            interfaces.append(interface_of(block, order, len(interfaces)))
        elif kind in (pcapng.PCAPNG_BT_EPB, pcapng.PCAPNG_BT_PB, pcapng.PCAPNG_BT_SPB):
            number += 1
            yield of_block(order, kind, block, interfaces, number)


def of_stream(file: Octets) -> Iterator[Packet]:
    """The packets of an open capture that isn't packed. Raises Damaged."""
    magic = file.read(4)
    if magic in PCAPS:
        yield from of_pcap(file, magic)
    elif magic == SECTION:
        yield from of_pcapng(file)
    elif not magic:
        raise Damaged("it is empty")
    else:
        raise Damaged("it is no capture: it begins neither as a pcap nor as a pcapng")


@contextmanager
def opened(path: str) -> Iterator[Any]:
    """The file, or standard input for `-`, which is read with a look at its first octets. Raises Wrong."""
    name = "standard input" if path == STDIN else path
    try:
        file = open(0 if path == STDIN else path, "rb", closefd=path != STDIN)
    except OSError as fault:
        raise reason(name, fault) from None
    except ValueError as fault:  # (a name with a zero octet)
        raise Wrong(f"{name}: {fault}", status=READ_FAULT) from None
    with file:
        yield file


def packets(path: str) -> Iterator[Packet]:
    """The packets of a capture file, one after the other. Raises Damaged behind the last whole one, and Wrong."""
    with opened(path) as file:
        try:
            is_packed = file.peek(2)[:2] == GZIP
            yield from of_stream(Unpacked(file) if is_packed else file)
        except (EOFError, gzip.BadGzipFile, zlib.error) as fault:
            raise Damaged(f"it is packed by gzip, and damaged there: {fault}") from None
        except OSError as fault:
            raise reason("standard input" if path == STDIN else path, fault) from None
