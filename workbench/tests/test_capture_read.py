"""`capture read`: any capture gives the stored rows; silences, rates and transitions are those of hands; damage is told."""

from __future__ import annotations

import gzip
import json
import struct
from pathlib import Path

import pytest
from conftest import CASES, EXAMPLES, murdjohe
from hypothesis import HealthCheck, given, settings
from hypothesis import strategies as st

from bench import captures as made
from murdjohe.capture import capture_files, encapsulation
from murdjohe.core.faults import Wrong

ANY = [HealthCheck.function_scoped_fixture]
# What is said to have been done to the frames of a kind.
DONE = {
    "tagged": ["8 frames carried a VLAN tag: taken off"],
    "old tag": ["8 frames carried a VLAN tag: taken off"],
    "tagged, least length": ["8 frames carried a VLAN tag: taken off"],
    "two tags": ["8 frames carried several VLAN tags (QinQ): taken off"],
    "cooked": [f"8 frames {encapsulation.COOKED_HEAD}"],
    "cooked 2": [f"8 frames {encapsulation.COOKED_HEAD}"],
    "cooked 2, tagged": ["8 frames carried a VLAN tag: taken off", f"8 frames {encapsulation.COOKED_HEAD}"],
    "before padding": ["8 frames had fewer than 60 bytes, as before padding: padded with zeros"],
    "cut behind the TLVs": ["8 frames had been cut by the capture behind the TLVs: padded with zeros"],
}


@pytest.mark.parametrize("kind", list(made.KINDS))
def test_any_kind_of_capture_gives_the_stored_rows(folder: Path, kind: str) -> None:
    (folder / "capture").write_bytes(made.KINDS[kind])
    ran = murdjohe("capture", "read", "--rows", "capture", folder=folder)
    assert (ran.status, ran.out.decode().splitlines()) == (0, made.ROWS)
    assert ran.err.splitlines() == [f"murdjohe: {said}" for said in DONE.get(kind, [])]


def test_the_report_of_the_stored_capture() -> None:
    ran = murdjohe("capture", "read", "capture.pcap", folder=EXAMPLES / "lab")
    assert (ran.status, ran.out.decode()) == (
        0,
        """\
capture.pcap: 10 packets, 8 ESMC frames from 2 sources, 2025-11-28 00:00:00.103 to 00:00:04.400 UTC

source        port  info  event  info a second  from          to            first level  last level
001b1d00a1c3  -     5     1      1.00           00:00:00.103  00:00:04.103  QL-PRTC      QL-eEEC
00107f0000ee  -     2     0      1.00           00:00:03.400  00:00:04.400  QL-SEC       code-3

transitions
frame  time             source        port  from     to       by     after
6      00:00:02.703988  001b1d00a1c3  -     QL-PRTC  QL-eEEC  event  0.600571 s
10     00:00:04.400781  00107f0000ee  -     QL-SEC   code-3   info   1.000004 s
""",
    )
    said = "2 packets are no ESMC frames: 1 PTP (Ethertype 88f7), 1 slow protocol of subtype 01 (LACP)"
    extended = "1 eEECs and 0 EECs since the clock 001b1dfffe00a1c3, flags 01, in 3 frames"
    more = "0 eEECs and 0 EECs since the clock 001b1dfffe00a1c3, flags 00, in 3 frames"
    assert ran.err.splitlines() == [
        f"murdjohe: {said}",
        f"murdjohe: 001b1d00a1c3 has an extended TLV: {extended}; {more}",
        "murdjohe: 00107f0000ee says code-3, which the option doesn't know, in 1 frame",
    ]
    assert murdjohe("capture", "read", "-q", "capture.pcap", folder=EXAMPLES / "lab").err == ""
    data = (EXAMPLES / "lab" / "capture.pcap").read_bytes()
    assert murdjohe("capture", "read", "-", stdin=data).out.partition(b"\n")[2] == ran.out.partition(b"\n")[2]


def test_a_port_that_was_silent_is_named(folder: Path) -> None:
    assert (EXAMPLES / "lab" / "night.pcapng").read_bytes() == made.night()
    (folder / "night.pcapng").write_bytes(made.night())
    ran = murdjohe("capture", "read", "night.pcapng", folder=folder)
    lines = ran.out.decode().splitlines()
    assert lines[-2:] == [
        "silences of more than 5 seconds",
        "port 2 (001b1d00a1c3) was silent for 6.2 s from 10:03:11.412, after frame 24",
    ]
    # (the ports speak in turn, so that the twelfth message of port 2 is the 24th packet)
    # (30 messages of port 2 in 34.2 seconds, 29 of them after the first)
    rows = [line.split() for line in lines if line.startswith("001b1d00a1c3")]
    assert [row[:6] for row in rows] == [
        ["001b1d00a1c3", "port", "1", "35", "0", "1.00"],
        ["001b1d00a1c3", "port", "2", "30", "0", f"{29 / 34.2:.2f}"],
    ]
    assert "murdjohe: 65 frames carried a VLAN tag: taken off\n" in ran.err
    assert "port 2 (001b1d00a1c3) sends 0.85 information messages a second, where G.8264 asks 1\n" in ran.err
    found = json.loads(murdjohe("--json", "capture", "read", "night.pcapng", folder=folder).out)["answer"]
    (silence,) = found["silences"]
    assert (silence["port"], silence["length"], silence["is_last"]) == ("port 2", 6_200_000_000, False)
    assert silence["frame"] == 24
    assert (found["packets"], found["frames"], found["passed"], found["transitions"]) == (65, 65, {}, [])


def test_five_seconds_are_no_silence_yet_and_the_end_may_be_one(folder: Path) -> None:
    at, frame, other = made.TIMES[0], made.FRAMES[0], b"\xff" * 12 + b"\x08\x00" + b"\0" * 46
    (folder / "c").write_bytes(made.classic([(at, frame), (at + 5 * 10**9, frame), (at + 10**10, other)]))
    assert "silent" not in murdjohe("capture", "read", "c", folder=folder).out.decode()
    later = at + 5 * 10**9 + 1000
    (folder / "c").write_bytes(made.classic([(at, frame), (later, frame), (later + 5 * 10**9 + 1000, other)]))
    lines = murdjohe("capture", "read", "c", folder=folder).out.decode().splitlines()
    assert lines[-2:] == [
        "001b1d00a1c3 was silent for 5.0 s from 00:00:00.103, after frame 1",
        "001b1d00a1c3 was silent for 5.0 s from 00:00:05.103, after frame 2, to the end of the capture",
    ]


def test_a_crowd_of_messages_is_told(folder: Path) -> None:
    records = [(made.TIMES[0] + number * 90_000_000, made.FRAMES[0]) for number in range(12)]
    (folder / "c").write_bytes(made.classic(records))
    said = murdjohe("capture", "read", "c", folder=folder).err
    assert "sends 11.11 information messages a second, where G.8264 asks 1\n" in said
    assert "sends more than 10 messages within a second, first at 00:00:01.003\n" in said


def test_nanoseconds_and_days_are_shown(folder: Path) -> None:
    at = made.TIMES[0] - 86_400 * 10**9 + 7
    (folder / "c").write_bytes(made.classic([(at, made.FRAMES[0]), made.RECORDS[0]], "<", 0xA1B23C4D))
    ran = murdjohe("capture", "read", "--frames", "c", folder=folder)
    assert ran.out.decode().splitlines()[1:] == [
        "2025-11-27 00:00:00.103412007,,,001b1d00a1c3,info,QL-PRTC,001b1dfffe00a1c3,01,1,0,1",
        "2025-11-28 00:00:00.103412000,86399.999999993,,001b1d00a1c3,info,QL-PRTC,001b1dfffe00a1c3,01,1,0,2",
    ]
    lines = murdjohe("capture", "read", "c", folder=folder).out.decode().splitlines()
    assert lines[-1] == "001b1d00a1c3 was silent for 86399.9 s from 2025-11-27 00:00:00.103, after frame 1"
    local = murdjohe("capture", "read", "--local", "--frames", "c", folder=folder, TZ="IST-5:30")
    assert local.out.decode().splitlines()[1].startswith("2025-11-27 05:30:00.103412007,")


def test_what_a_terminal_would_act_on_is_shown_as_it_is_written(folder: Path) -> None:
    data = made.section() + made.interface(name=b"\x1b[31mred") + made.packet(9, made.FRAMES[0])
    (folder / "c").write_bytes(data)
    ran = murdjohe("capture", "read", "c", folder=folder)
    assert ran.status == 0 and b"\x1b" not in ran.out and b"\\x1b[31mred" in ran.out


def test_an_interface_of_a_cooked_header_is_the_port(folder: Path) -> None:
    records = [(at, made.cooked_2(data, 3 + number % 2)) for number, (at, data) in enumerate(made.RECORDS[:4])]
    (folder / "c").write_bytes(made.classic(records, link=276))
    rows = murdjohe("capture", "read", "--frames", "c", folder=folder).out.decode().splitlines()[1:]
    assert [row.split(",")[2] for row in rows] == ["interface 3", "interface 4"] * 2


def test_the_other_option_is_asked_for_where_it_knows_the_codes(folder: Path) -> None:
    ran = murdjohe("capture", "read", "--option", "II", "capture.pcap", folder=EXAMPLES / "lab")
    # (seven of the codes are of option I: code 2 and 11; the eighth, 3, is of none)
    said = "7 frames have codes that option II doesn't know and option I does: is it --option I?"
    assert f"murdjohe: {said}\n" in ran.err


OTHERS = {
    "IPv4 (Ethertype 0800)": b"\xff" * 12 + b"\x08\x00" + b"\0" * 46,
    "LLDP (Ethertype 88cc)": b"\xff" * 12 + b"\x88\xcc" + b"\0" * 46,
    "Ethertype 88b5": b"\xff" * 12 + b"\x88\xb5" + b"\0" * 46,
    "with a length in place of an Ethertype": b"\xff" * 12 + b"\x00\x26" + b"\0" * 46,
    "without a header": b"\xff" * 9,
    "slow protocol of subtype 01 (LACP)": made.FRAMES[0][:14] + b"\x01" + made.FRAMES[0][15:],
    "slow protocol that has another OUI than 00-19-a7": made.FRAMES[0][:15] + b"\0\0\0" + made.FRAMES[0][18:],
    "slow protocol that goes to another address than 01-80-c2-00-00-02": b"\0" * 6 + made.FRAMES[0][6:],
    "slow protocol that has no QL TLV of type 01 and length 0004 at byte 24": made.FRAMES[0][:24] + b"\0" * 36,
    "slow protocol of 27 bytes, which ends before its TLVs do": made.FRAMES[0][:27],
    "slow protocol of 47 bytes, which ends before its TLVs do": made.FRAMES[0][:47],
}


@pytest.mark.parametrize("reason", list(OTHERS))
def test_what_is_no_esmc_frame_is_told_by_its_reason(folder: Path, reason: str) -> None:
    (folder / "c").write_bytes(made.classic([*made.RECORDS, (made.TIMES[-1], OTHERS[reason])]))
    ran = murdjohe("capture", "read", "--rows", "c", folder=folder)
    assert (ran.status, ran.out.decode().splitlines()) == (0, made.ROWS)
    assert ran.err == f"murdjohe: 1 packet is no ESMC frame: 1 {reason}\n"


def test_a_level_that_may_have_been_cut_off_is_not_guessed(folder: Path) -> None:
    records = [(at, data[:47]) for at, data in made.RECORDS]
    (folder / "c").write_bytes(made.classic(records, lengths=13))
    ran = murdjohe("capture", "read", "--rows", "c", folder=folder)
    reason = "8 slow protocol, of which the capture holds 47 bytes: capture at least 60"
    assert (ran.out, ran.err) == (b"", f"murdjohe: 8 packets are no ESMC frames: {reason}\n")


def test_other_link_types_and_packets_without_a_time_are_passed_over(folder: Path) -> None:
    simple = made.block("<", 3, struct.pack("<I", 60) + made.FRAMES[0])
    data = made.section() + made.interface() + made.interface(link=147) + simple + made.packet(9, made.FRAMES[0], at=1)
    (folder / "c").write_bytes(data)
    said = murdjohe("capture", "read", "c", folder=folder).err
    assert "1 without a time (simple packet block)" in said
    assert "1 of link type 147, which isn't Ethernet" in said


@pytest.mark.parametrize(
    ("data", "said"),
    [
        (b"", "it is empty"),
        (b"line,rank\n", "it is no capture: it begins neither as a pcap nor as a pcapng"),
        (made.classic([])[:20], "it ends within its header"),
        (gzip.compress(b"at,what\n", mtime=0), "it is no capture: it begins neither as a pcap nor as a pcapng"),
    ],
)
def test_what_is_no_capture_is_told(folder: Path, data: bytes, said: str) -> None:
    (folder / "c").write_bytes(data)
    ran = murdjohe("capture", "read", "c", folder=folder)
    assert (ran.status, ran.out, ran.err) == (6, b"", f"murdjohe: c: {said}\n")
    assert murdjohe("capture", "read", "nosuch", folder=folder).err == "murdjohe: nosuch: No such file or directory\n"
    assert murdjohe("capture", "read", ".", folder=folder).status == 7


def test_a_cut_capture_is_read_as_far_as_it_is_whole(folder: Path) -> None:
    ran = murdjohe("capture", "read", "--rows", "cut.pcap", folder=EXAMPLES / "lab")
    assert (ran.status, ran.out.decode().splitlines()) == (6, made.ROWS[:3])
    assert ran.err.endswith("cut.pcap: it ends within its record 6; what comes before is whole, and was read\n")


@pytest.mark.parametrize("end", [-1, -8, -9])
def test_a_packed_capture_that_was_cut_is_read_as_far_as_it_goes(folder: Path, end: int) -> None:
    (folder / "c").write_bytes(gzip.compress(made.KINDS["pcap"])[:end])
    ran = murdjohe("capture", "read", "--rows", "c", folder=folder)
    # (the last eight octets are its check; the one before them is of the last packet)
    assert ran.status == 6 and ran.out.decode().splitlines()[:7] == made.ROWS[:7]
    assert ran.err.startswith("murdjohe: c: it is packed by gzip, and damaged there: ") and ran.err.count("\n") == 1


def packets_of(path: Path) -> tuple[list[capture_files.Packet], bool]:
    """The packets that are read, and whether the file was said to be damaged."""
    found: list[capture_files.Packet] = []
    try:
        for packet in capture_files.packets(str(path)):
            encapsulation.unwrapped(packet)
            found.append(packet)
    except capture_files.Damaged as damaged:
        assert str(damaged)
        return found, True
    except Wrong:
        return found, True
    return found, False


@settings(suppress_health_check=ANY, max_examples=10 * CASES)
@given(st.sampled_from(list(made.KINDS)), st.data())
def test_a_cut_capture_gives_a_front_of_its_packets(tmp_path: Path, kind: str, data: st.DataObject) -> None:
    whole = made.KINDS[kind]
    path = tmp_path / "c"
    path.write_bytes(whole)
    wanted, is_damaged = packets_of(path)
    assert len(wanted) == len(made.ROWS) and not is_damaged
    path.write_bytes(whole[: data.draw(st.integers(0, len(whole) - 1))])
    found, is_damaged = packets_of(path)
    # (where what ends a packed file was cut off, all packets are there, and it is told)
    assert found == wanted[: len(found)] and (is_damaged or len(found) < len(wanted))


@settings(suppress_health_check=ANY, max_examples=20 * CASES)
@given(st.sampled_from(list(made.KINDS)), st.data())
def test_a_damaged_capture_never_ends_in_a_mistake(tmp_path: Path, kind: str, data: st.DataObject) -> None:
    octets = bytearray(made.KINDS[kind])
    for _ in range(data.draw(st.integers(1, 6))):
        octets[data.draw(st.integers(0, len(octets) - 1))] = data.draw(st.integers(0, 255))
    if data.draw(st.booleans()):
        octets = bytearray(gzip.compress(bytes(octets)))[: data.draw(st.integers(1, 1000))]
    path = tmp_path / "c"
    path.write_bytes(octets)
    packets_of(path)


@settings(suppress_health_check=ANY, max_examples=20 * CASES)
@given(
    st.sampled_from([made.KINDS["pcap"][:24], made.KINDS["pcapng"][:28], made.section() + made.interface()]),
    st.binary(),
)
def test_any_octets_behind_a_header_are_read_or_told(tmp_path: Path, head: bytes, rest: bytes) -> None:
    path = tmp_path / "c"
    path.write_bytes(head + rest)
    packets_of(path)


@settings(suppress_health_check=ANY, max_examples=max(CASES // 5, 1))
@given(st.sampled_from(list(made.KINDS)), st.data())
def test_the_command_tells_damage_in_sentences(tmp_path: Path, kind: str, data: st.DataObject) -> None:
    octets = bytearray(made.KINDS[kind])
    for _ in range(data.draw(st.integers(1, 4))):
        octets[data.draw(st.integers(0, len(octets) - 1))] = data.draw(st.integers(0, 255))
    (tmp_path / "c").write_bytes(octets)
    ran = murdjohe("capture", "read", "c", folder=tmp_path)
    assert ran.status in (0, 6) and "Traceback" not in ran.err
    assert all(line.startswith("murdjohe: ") for line in ran.err.splitlines())
