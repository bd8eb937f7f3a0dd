"""What a capture holds that passes without a word elsewhere: counters of the extended TLV, reserved bits that are set, codes that the
option doesn't know, and sources that are group addresses; and what `--fail-on` may name."""

from __future__ import annotations

from collections.abc import Collection, Iterator

TYPE_CHECKING = False
if TYPE_CHECKING:
    from murdjohe.capture.esmc import Capture
    from murdjohe.capture.talkers import Talk, Talker

FAILING = ("silence", "rate", "unknown-code", "reserved-bits", "group-source", "no-frame")
NAMED = 4  # different extended TLVs of a source that are told
EXTENDED = 28  # where the extended TLV begins in a frame
LENGTH = 48  # up to where it goes


def reserved_of(octets: bytes) -> list[str]:
    """Which reserved bits of a frame are set, in words: of the head, of the QL TLV, and of the extended one where there is one."""
    said = []
    if len(octets) > 27 and (octets[20] & 7 or any(octets[21:24])):
        said.append("behind the event flag")
    if len(octets) > 27 and octets[27] >> 4:
        said.append("of the QL TLV")
    if len(octets) >= LENGTH and octets[EXTENDED : EXTENDED + 3] == b"\x02\x00\x14":
        if octets[40] >> 2:
            said.append("of the extended TLV's flags")
        if any(octets[43:LENGTH]):
            said.append("at the end of the extended TLV")
    return said


def is_group(source: str) -> bool:
    """Whether an address is one of a group, which nobody can send from."""
    return bool(int(source[:2], 16) & 1)


def name_of(talker: Talker) -> str:
    return f"{talker.port} ({talker.source})" if talker.port else talker.source


def frames(count: int) -> str:
    return f"{count:,} frame{'' if count == 1 else 's'}"


def of_talker(talker: Talker) -> Iterator[str]:
    """What is told of a source."""
    name = name_of(talker)
    if is_group(talker.source):
        yield f"{name} is a group address, from which nobody may send"
    for what, count in talker.reserved.items():
        yield f"{name} sets reserved bits {what} in {frames(count)}"
    for code, count in talker.unknown.items():
        yield f"{name} says {code}, which the option doesn't know, in {frames(count)}"
    told = [
        f"{eeecs} eEECs and {eecs} EECs since the clock {clock}, flags {flags}, in {frames(count)}"
        for (clock, flags, eeecs, eecs), count in list(talker.extended.items())[:NAMED]
    ]
    if told:
        more = len(talker.extended) - NAMED
        yield f"{name} has an extended TLV: {'; '.join(told)}{f'; and {more} more' if more > 0 else ''}"


def remarks(capture: Capture, talk: Talk) -> Iterator[str]:
    """What is told of all sources."""
    if not capture.frames and capture.damage is None:
        yield "there is no ESMC frame in the capture"
    for talker in talk.talkers.values():
        yield from of_talker(talker)


def found(capture: Capture, talk: Talk, asked: Collection[str]) -> bool:
    """Whether something is found of what is asked."""
    talkers = list(talk.talkers.values())
    its = {
        "silence": bool(talk.silences),
        "rate": any(talker.is_off_rate or talker.crowded is not None for talker in talkers),
        "unknown-code": capture.unknown > 0,
        "reserved-bits": any(talker.reserved for talker in talkers),
        "group-source": any(is_group(talker.source) for talker in talkers),
        "no-frame": not capture.frames,
    }
    return any(its[name] for name in asked)
