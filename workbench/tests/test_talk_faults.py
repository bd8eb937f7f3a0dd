"""What `capture read` tells of frames that passed without a word once: reserved bits, group addresses, codes that the option doesn't
know, counters of the extended TLV; and what `--fail-on` names."""

from __future__ import annotations

import json
from pathlib import Path

import pytest
from conftest import EXAMPLES, Ran, murdjohe

from bench import captures as made

INFO = made.FRAMES[0]  # of QL-PRTC, with an extended TLV
PLAIN = bytes.fromhex("0180c200000202000000000188090a0019a7000110000000010004" + "02").ljust(60, b"\0")
FAILING = ("silence", "rate", "unknown-code", "reserved-bits", "group-source", "no-frame")


def with_octet(frame: bytes, place: int, octet: int) -> bytes:
    return frame[:place] + bytes([octet]) + frame[place + 1 :]


def read(folder: Path, frame: bytes, *words: str, count: int = 3) -> Ran:
    """What is said of a source that sends a frame a second."""
    records = [(made.TIMES[0] + number * 10**9, frame) for number in range(count)]
    (folder / "c").write_bytes(made.classic(records))
    return murdjohe("capture", "read", "c", *words, folder=folder)


def test_a_right_frame_is_told_nothing_of(folder: Path) -> None:
    ran = read(folder, PLAIN, *(word for name in FAILING for word in ("--fail-on", name)))
    assert (ran.status, ran.err) == (0, "")


@pytest.mark.parametrize(
    ("frame", "where"),
    [
        (with_octet(PLAIN, 20, 0x11), "behind the event flag"),
        (with_octet(PLAIN, 22, 0x80), "behind the event flag"),
        (with_octet(PLAIN, 27, 0x12), "of the QL TLV"),
        (with_octet(INFO, 40, 0x05), "of the extended TLV's flags"),
        (with_octet(INFO, 43, 0x01), "at the end of the extended TLV"),
    ],
)
def test_reserved_bits_are_told_with_their_place(folder: Path, frame: bytes, where: str) -> None:
    source = frame[6:12].hex()
    ran = read(folder, frame, "--fail-on", "reserved-bits")
    assert f"murdjohe: {source} sets reserved bits {where} in 3 frames\n" in ran.err and ran.status == 21
    assert read(folder, frame, "--fail-on", "group-source").status == 0
    assert where in " ".join(json.loads(read(folder, frame, "--json").out)["answer"]["said"])


def test_each_place_of_reserved_bits_is_counted_by_itself(folder: Path) -> None:
    ran = read(folder, with_octet(with_octet(INFO, 20, 0x11), 47, 0xFF))
    told = [line for line in ran.err.splitlines() if "reserved bits" in line]
    assert [line.partition("reserved bits ")[2] for line in told] == [
        "behind the event flag in 3 frames",
        "at the end of the extended TLV in 3 frames",
    ]


def test_a_group_address_is_no_source(folder: Path) -> None:
    ran = read(folder, with_octet(PLAIN, 6, 0x03), "--fail-on", "group-source")
    assert "murdjohe: 030000000001 is a group address, from which nobody may send\n" in ran.err and ran.status == 21
    assert "group address" not in read(folder, PLAIN).err


def test_a_code_that_the_option_does_not_know(folder: Path) -> None:
    frame = with_octet(PLAIN, 27, 0x03)
    ran = read(folder, frame, "--fail-on", "unknown-code")
    assert "murdjohe: 020000000001 says code-3, which the option doesn't know, in 3 frames\n" in ran.err
    assert ran.status == 21 and read(folder, PLAIN, "--fail-on", "unknown-code").status == 0


def test_counters_of_the_extended_tlv_are_told(folder: Path) -> None:
    frame = with_octet(with_octet(INFO, 41, 7), 42, 9)
    assert "020000" not in read(folder, frame).err
    assert "has an extended TLV: 7 eEECs and 9 EECs since the clock 001b1dfffe00a1c3" in read(folder, frame).err


def test_silence_and_rate_have_a_status_too(folder: Path) -> None:
    records = [(made.TIMES[0] + at * 10**9, PLAIN) for at in (0, 1, 9, 10)]
    (folder / "c").write_bytes(made.classic(records))
    assert murdjohe("capture", "read", "c", "--fail-on", "silence", folder=folder).status == 21
    often = [(made.TIMES[0] + number * 90_000_000, PLAIN) for number in range(12)]
    (folder / "c").write_bytes(made.classic(often))
    assert murdjohe("capture", "read", "c", "--fail-on", "rate", folder=folder).status == 21
    assert murdjohe("capture", "read", "c", "--fail-on", "silence", folder=folder).status == 0


def test_no_frame_at_all_has_a_status_where_it_is_asked(folder: Path) -> None:
    (folder / "c").write_bytes(made.classic([]))
    ran = murdjohe("capture", "read", "c", "--fail-on", "no-frame", folder=folder)
    assert ran.status == 21 and "there is no ESMC frame in the capture" in ran.err


def test_a_damaged_capture_keeps_its_own_status(folder: Path) -> None:
    data = (EXAMPLES / "lab" / "capture.pcap").read_bytes()
    (folder / "c").write_bytes(data[:-7])
    assert murdjohe("capture", "read", "c", "--fail-on", "unknown-code", folder=folder).status == 6
