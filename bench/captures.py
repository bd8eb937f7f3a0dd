"""Captures of every kind, made here octet by octet or by dpkt's writers, of the frames and times of a stored one."""

from __future__ import annotations

import gzip
import io
import struct

from dpkt import pcap, pcapng

from bench.program import TOP

LAB = TOP / "examples" / "lab"
FRAMES = [bytes.fromhex(line) for line in (LAB / "frames").read_text().splitlines()]
ROWS = [line for line in (LAB / "capture.rows").read_text().splitlines() if not line.startswith("passed,")]
# Nanoseconds of each frame, by its row.
TIMES = [int(row.split(",")[0]) * 10**9 + int(row.split(",")[1]) * 1000 for row in ROWS]
RECORDS = list(zip(TIMES, FRAMES))
Records = list[tuple[int, bytes]]


def classic(records: Records, order: str = "<", magic: int = 0xA1B2C3D4, link: int = 1, lengths: int = 0) -> bytes:
    """A classic pcap; the magic number says its unit of time. Each frame had so many more octets than were captured."""
    unit, more = (1 if magic == 0xA1B23C4D else 1000), (b"\0" * 8 if magic == 0xA1B2CD34 else b"")
    out = [struct.pack(order + "IHHiIII", magic, 2, 4, 0, 0, 65_535, link)]
    for at, data in records:
        out += [
            struct.pack(order + "IIII", at // 10**9, at % 10**9 // unit, len(data), len(data) + lengths),
            more,
            data,
        ]
    return b"".join(out)


def block(order: str, kind: int, body: bytes) -> bytes:
    """A block of a pcapng."""
    body += b"\0" * (-len(body) % 4)
    return struct.pack(order + "II", kind, len(body) + 12) + body + struct.pack(order + "I", len(body) + 12)


def option(order: str, code: int, data: bytes) -> bytes:
    """An option of a block."""
    return struct.pack(order + "HH", code, len(data)) + data + b"\0" * (-len(data) % 4)


def section(order: str = "<") -> bytes:
    return block(order, 0x0A0D0D0A, struct.pack(order + "IHHq", 0x1A2B3C4D, 1, 0, -1))


def interface(
    order: str = "<", name: bytes = b"", resolution: int | None = None, link: int = 1, offset: int = 0
) -> bytes:
    """A block that describes an interface."""
    options = (option(order, 2, name) if name else b"") + (option(order, 14, struct.pack(order + "q", offset)))
    options += b"" if resolution is None else option(order, 9, bytes([resolution]))
    return block(order, 1, struct.pack(order + "HHI", link, 0, 65_535) + options + option(order, 0, b""))


def packet(ticks: int, data: bytes, order: str = "<", at: int = 0) -> bytes:
    """A packet of an interface, with its time in ticks."""
    return block(
        order, 6, struct.pack(order + "IIIII", at, ticks >> 32, ticks & 0xFFFFFFFF, len(data), len(data)) + data
    )


def next_generation(records: Records, order: str = "<", resolution: int | None = None) -> bytes:
    """A pcapng of one interface; without a resolution its ticks are microseconds."""
    ticks = 10**6 if resolution is None else 2 ** (resolution & 127) if resolution & 128 else 10**resolution
    # (the tick that isn't before the time, so that the time comes back)
    packets = [packet(-(-at * ticks // 10**9), data, order) for at, data in records]
    return section(order) + interface(order, b"eth1", resolution) + b"".join(packets)


def by_dpkt(records: Records, is_next: bool, nano: bool = False) -> bytes:
    """A pcap or pcapng by dpkt's writer."""
    out = io.BytesIO()
    if is_next:
        writer = pcapng.Writer(out)
        for at, data in records:
            writer.writepkt(data, ts=at / 10**9)
    else:
        classic_writer = pcap.Writer(out, nano=nano)
        for at, data in records:
            classic_writer.writepkt(data, ts=at / 10**9)
    return out.getvalue()


def tagged(data: bytes, *tags: tuple[int, int]) -> bytes:
    """A frame with tags: the Ethertype and the number of each."""
    return data[:12] + b"".join(struct.pack(">HH", kind, number) for kind, number in tags) + data[12:]


def cooked(data: bytes) -> bytes:
    """The packet with the first cooked header."""
    return struct.pack(">HHH", 2, 1, 6) + data[6:12] + b"\0\0" + data[12:]


def cooked_2(data: bytes, number: int = 7) -> bytes:
    """The packet with the second cooked header, of the interface with this number."""
    return data[12:14] + struct.pack(">HIHBB", 0, number, 1, 2, 6) + data[6:12] + b"\0\0" + data[14:]


def short(data: bytes) -> bytes:
    """The frame before padding."""
    return data[:48] if data[28:31] == b"\x02\x00\x14" else data[:28]


def mapped(change: object, *words: object) -> Records:
    """The records with each frame changed."""
    assert callable(change)
    return [(at, change(data, *words)) for at, data in RECORDS]


def night() -> bytes:
    """A pcapng with tags of two ports that speak each second from 10:03:00 on; the second is silent for 6.2 seconds."""
    begin, frame = 1_764_324_180 * 10**9, tagged(FRAMES[0], (0x8100, 100))
    first = [(begin + second * 10**9, 0) for second in range(35)]
    late = [0 if second <= 11 else 5_200_000_000 for second in range(30)]
    second_port = [(begin + second * 10**9 + 412_000_000 + more, 1) for second, more in enumerate(late)]
    out = section() + interface(name=b"port 1") + interface(name=b"port 2", resolution=9)
    for at, port in sorted([*first, *second_port]):
        out += packet(at if port else at // 1000, frame, at=port)
    return out


KINDS: dict[str, bytes] = {
    "pcap": classic(RECORDS),
    "pcap, big-endian": classic(RECORDS, ">"),
    "nanoseconds": classic(RECORDS, "<", 0xA1B23C4D),
    "nanoseconds, big-endian": classic(RECORDS, ">", 0xA1B23C4D),
    "modified pcap": classic(RECORDS, "<", 0xA1B2CD34),
    "with check sequences": classic(mapped(lambda data: data + b"\x12\x34\x56\x78"), "<", 0xA1B2C3D4, 0x24000001),
    "pcap by dpkt": by_dpkt(RECORDS, False),
    "pcapng": next_generation(RECORDS),
    "pcapng, big-endian": next_generation(RECORDS, ">"),
    "pcapng, nanoseconds": next_generation(RECORDS, "<", 9),
    "pcapng, ticks of a power of two": next_generation(RECORDS, "<", 128 + 30),
    "pcapng by dpkt": by_dpkt(RECORDS, True),
    "packed": gzip.compress(classic(RECORDS)),
    "packed pcapng": gzip.compress(next_generation(RECORDS)),
    "tagged": classic(mapped(tagged, (0x8100, 100))),
    "two tags": next_generation(mapped(tagged, (0x88A8, 10), (0x8100, 200))),
    "old tag": classic(mapped(tagged, (0x9100, 10))),
    "tagged, least length": classic(mapped(lambda data: tagged(short(data), (0x8100, 100)).ljust(60, b"\0"))),
    "cooked": classic(mapped(cooked), link=113),
    "cooked 2": classic(mapped(cooked_2), link=276),
    "cooked 2, tagged": classic(mapped(lambda data: cooked_2(tagged(data, (0x8100, 5)))), link=276),
    "before padding": classic(mapped(short)),
    "cut behind the TLVs": classic(mapped(lambda data: data[:50]), lengths=10),
}
