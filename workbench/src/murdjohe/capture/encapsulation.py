"""What stands round an ESMC frame in a capture: cooked headers and tags, which are taken off, and padding, which is put on.

Only where the frame begins is looked for here. Whether it is one, and what it says, the program decides.
"""

from __future__ import annotations

from typing import NamedTuple

from dpkt import ethernet

from murdjohe.capture.capture_files import COOKED, COOKED_2, ETHERNET, TIMELESS, Packet

SLOW = 0x8809  # the Ethertype of the slow protocols
SLOW_OCTETS = b"\x88\x09"
GROUP = bytes.fromhex("0180c2000002")  # the address to which slow protocols are sent
LEAST = 60  # octets of a frame without its check sequence
# Octets up to the end of the QL TLV, and of an extended QL TLV behind it.
QL_END, EXTENDED_END = 28, 48
EXTENDED = b"\x02"  # how an extended QL TLV begins
TAGS = (ethernet.ETH_TYPE_8021Q, ethernet.ETH_TYPE_8021AD, 0x9100)
HEADS = {COOKED: 16, COOKED_2: 20}  # octets of cooked headers
# What was done to a frame.
TAGGED = "carried a VLAN tag: taken off"
STACKED = "carried several VLAN tags (QinQ): taken off"
COOKED_HEAD = (
    "had a cooked header in place of the Ethernet header, as of a capture on `any`: taken as sent to 01-80-c2-00-00-02"
)
PADDED = "had fewer than 60 bytes, as before padding: padded with zeros"
CUT = "had been cut by the capture behind the TLVs: padded with zeros"
# Protocols by Ethertype, as reasons.
PROTOCOLS = {
    ethernet.ETH_TYPE_IP: "IPv4",
    ethernet.ETH_TYPE_IP6: "IPv6",
    ethernet.ETH_TYPE_ARP: "ARP",
    ethernet.ETH_TYPE_LLDP: "LLDP",
    0x88F7: "PTP",
    0x8902: "CFM or Y.1731",
}


class Found(NamedTuple):
    """A frame of the slow protocols without what stood round it, what was done to it, and the interface by a cooked header."""

    frame: bytes
    done: tuple[str, ...]
    port: str


def protocol_of(kind: int) -> str:
    """A protocol that isn't that of ESMC, by its Ethertype."""
    if kind < 0x600:
        return "with a length in place of an Ethertype"
    return f"{PROTOCOLS[kind]} (Ethertype {kind:04x})" if kind in PROTOCOLS else f"Ethertype {kind:04x}"


def head_of(packet: Packet) -> tuple[bytes, int, bytes, str] | str:
    """The addresses, the Ethertype, what follows it, and the interface by a cooked header; or why there are none."""
    data = packet.data
    if packet.link == ETHERNET:
        return (data[:12], int.from_bytes(data[12:14]), data[14:], "") if len(data) >= 14 else "without a header"
    if packet.link not in HEADS:
        timeless = "without a time (simple packet block)"
        return timeless if packet.link == TIMELESS else f"of link type {packet.link}, which isn't Ethernet"
    head = HEADS[packet.link]
    if len(data) < head:
        return "without a header"
    if packet.link == COOKED:
        return GROUP + data[6:12], int.from_bytes(data[14:16]), data[head:], ""
    return GROUP + data[12:18], int.from_bytes(data[:2]), data[head:], f"interface {int.from_bytes(data[4:8])}"


def padded(frame: bytes, is_cut: bool, is_short: bool) -> tuple[bytes, tuple[str, ...]] | str:
    """The frame with at least 60 octets, and what was done; or why nothing can be put in place of what isn't there."""
    if len(frame) >= LEAST:
        return frame, ()
    has_more = is_cut or frame[QL_END : QL_END + 1] == EXTENDED
    if len(frame) < (EXTENDED_END if has_more else QL_END):
        cut = f"slow protocol, of which the capture holds {len(frame)} bytes: capture at least {LEAST}"
        return cut if is_cut else f"slow protocol of {len(frame)} bytes, which ends before its TLVs do"
    done = (CUT,) if is_cut else (PADDED,) if is_short else ()
    return frame.ljust(LEAST, b"\0"), done


def unwrapped(packet: Packet) -> Found | str:
    """The frame of the slow protocols in a packet; or why it has none: of what kind such packets are."""
    data = packet.data
    if packet.link == ETHERNET and data[12:14] == SLOW_OCTETS and len(data) >= LEAST:
        return Found(data, (), "")
    head = head_of(packet)
    if isinstance(head, str):
        return head
    addresses, kind, rest, port = head
    tags = 0
    while kind in TAGS and len(rest) >= 4:
        kind, rest, tags = int.from_bytes(rest[2:4]), rest[4:], tags + 1
    if kind != SLOW:
        return protocol_of(kind)
    # (a frame is padded with its tags, so that it is shorter without them)
    whole = padded(addresses + SLOW_OCTETS + rest, len(data) < packet.length, 14 + len(rest) + 4 * tags < LEAST)
    if isinstance(whole, str):
        return whole
    done = (() if not tags else (TAGGED,) if tags == 1 else (STACKED,)) + (
        (COOKED_HEAD,) if packet.link != ETHERNET else ()
    )
    return Found(whole[0], done + whole[1], port)
