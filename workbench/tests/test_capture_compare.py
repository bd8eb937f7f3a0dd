"""`capture node` and `compare`: a device that is played by a script, right and wrong in each way."""

from __future__ import annotations

import json
from collections.abc import Callable
from pathlib import Path

import pytest
from conftest import CASES, EXAMPLES, Ran, murdjohe
from hypothesis import given, settings
from hypothesis import strategies as st

from bench import captures as made
from murdjohe.capture import device
from murdjohe.capture.lab_lines import Message

BENCH = EXAMPLES / "node"
ROWS = [line.split(",") for line in (BENCH / "received").read_text().splitlines()]
RECEIVED = [(int(at), line, octets) for at, word, line, octets in ROWS if word == "frame"]
EVENTS = "".join(",".join(row) + "\n" for row in ROWS if row[1] != "frame")
SENT = [
    (int(at), line, octets)
    for at, line, octets in (row.split(",") for row in (BENCH / "sent").read_text().splitlines())
]
CABLES = ("west", "east", "south")
ZERO = 1_764_324_180_000  # milliseconds: 2025-11-28 10:03:00
LINES = ["west>device=@west", "east>device=02:00:00:00:00:A2"]
LINES += [f"{cable}>tester=02-00-00-00-00-01@{cable}" for cable in CABLES]
WORDS = [word for line in LINES for word in ("--line", line)]
Said = list[tuple[int, str, str]]
PHASE, DELAY = 137, 20  # milliseconds
# Frames of the device, as `encode I` makes them of these levels.
HEAD, END = "0180c200000202000000000188090a0019a700011", "0000000100040"
LEVELS = {"QL-PRC": "2", "QL-SSU-A": "4", "QL-SEC": "b", "QL-DNU": "f"}


def frame(level: str, is_event: bool = False) -> str:
    """A frame of the device that says a level."""
    return f"{HEAD}{'8' if is_event else '0'}{END}{LEVELS[level]}".ljust(120, "0")


def is_event(octets: str) -> bool:
    return octets[41] == "8"


def played() -> Said:
    """A device that is right: it tells each change after its delay, and repeats its level in its own part of the second."""
    said: Said = []
    for cable in CABLES:
        rows = [(at + DELAY, octets) for at, line, octets in SENT if line == f"{cable}>tester"]
        said += [(at, cable, octets) for at, octets in rows if is_event(octets)]
        for at in range(PHASE, 9_000, 1_000):
            now = [(then, octets) for then, octets in rows if at - 1_000 < then <= at]
            said += [(at, cable, octets[:41] + "0" + octets[42:]) for _, octets in now[-1:]]
    return sorted(said)


def capture(said: Said) -> bytes:
    """A pcapng of the bench: what the tester sent, and what the device said on each cable."""
    heard = [(at, line.partition(">")[0], octets) for at, line, octets in RECEIVED]
    out = made.section() + b"".join(made.interface(name=cable.encode()) for cable in CABLES)
    out += made.packet(ZERO * 1000, b"\xff" * 12 + b"\x08\x00" + b"\0" * 46)
    for at, cable, octets in sorted([*heard, *said]):
        out += made.packet((ZERO + at) * 1000, bytes.fromhex(octets), at=CABLES.index(cable))
    return out


def compared(folder: Path, said: Said, *words: str) -> Ran:
    (folder / "bench.pcapng").write_bytes(capture(said))
    (folder / "events").write_text(EVENTS)
    plan = str(BENCH / "plan.toml")
    first = [] if "--from" in words else ["--from", "0"]
    words = ("capture", "compare", plan, "device", "bench.pcapng", *WORDS, "--events", "events", *first, *words)
    return murdjohe(*words, folder=folder)


def rows_of(ran: Ran) -> list[list[str]]:
    """The findings: milliseconds, line, what and which; `frames_of` has the packets that show them."""
    said = ran.out.decode().splitlines()
    lines = [line.split("  ") for line in said[2 : said.index("reaction times")]]  # behind the verdict and the heads
    rows = [[field.strip() for field in line if field] for line in lines]
    return [[row[0], *row[3:]] for row in rows]


def frames_of(ran: Ran) -> list[int | None]:
    """The packet of the capture that shows each finding first."""
    return [finding["frame"] for finding in json.loads(ran.out)["answer"]["findings"]]


def test_the_file_for_node_is_what_was_received(folder: Path) -> None:
    (folder / "c").write_bytes(capture(played()))
    (folder / "events").write_text(EVENTS)
    ran = murdjohe("capture", "node", "c", "device", *WORDS, "--events", "events", folder=folder)
    # (rows of one millisecond may stand in any order)
    assert (ran.status, sorted(ran.out.splitlines())) == (0, sorted((BENCH / "received").read_bytes().splitlines()))
    (folder / "received").write_bytes(ran.out)
    sent = murdjohe("node", str(BENCH / "plan.toml"), "device", "received", "9000", folder=folder)
    assert sent.out == (BENCH / "sent").read_bytes()
    assert "murdjohe: millisecond 0 is 2025-11-28 10:03:00.000 UTC\n" in ran.err


def test_a_right_device_differs_nowhere(folder: Path) -> None:
    ran = compared(folder, played())
    first, *times = ran.out.decode().splitlines()
    assert (ran.status, first) == (0, "pass: no differences"), ran.out
    # (each change is told after the delay)
    told = [line.split() for line in times[2:]]
    changes = {"east": "3", "south": "3", "west": "2"}
    assert told == [[f"{where}>tester", count, "20", "20", "20"] for where, count in changes.items()]
    # (9 and 3 on south and on east, 8 and 3 on west, whose cable is out for a while; the tester speaks last, at 8600)
    assert "murdjohe: compared: 35 messages on 3 lines, from 0 to 8600 ms, with a tolerance of 100 ms\n" in ran.err


def changed(
    said: Said, where: Callable[[int, str, str], bool], change: Callable[[int, str], list[tuple[int, str]]]
) -> Said:
    """What is said, with some of it changed."""
    found: Said = []
    for at, cable, octets in said:
        new = change(at, octets) if where(at, cable, octets) else [(at, octets)]
        found += [(then, cable, other) for then, other in new]
    return sorted(found)


def late() -> Said:
    """A device that tells its do-not-use 600 milliseconds late."""

    def is_late(at: int, cable: str, _: str) -> bool:
        return cable == "east" and at == 3_500 + DELAY

    return changed(played(), is_late, lambda at, octets: [(at + 580, octets)])


def late_by(more: int) -> Said:
    """A device that tells each change by so many milliseconds later."""
    return changed(played(), lambda at, cable, octets: is_event(octets), lambda at, octets: [(at + more, octets)])


def test_a_late_device(folder: Path) -> None:
    said = late()
    # (the stored capture is that of this device)
    assert (BENCH / "bench.pcapng").read_bytes() == capture(said)
    assert (BENCH / "events").read_text() == EVENTS
    ran = compared(folder, said)
    words = "QL-DNU (do-not-use) had to be said, and came 600 ms later"
    assert (ran.status, rows_of(ran)) == (1, [["3500", "east>tester", "late", words]])
    packets = sorted(
        [(-1, ""), *((at, cable) for at, cable, _ in said), *((at, line.partition(">")[0]) for at, line, _ in RECEIVED)]
    )
    late_at = 3_500 + DELAY + 580
    assert frames_of(compared(folder, said, "--json")) == [packets.index((late_at, "east")) + 1]
    assert compared(folder, said, "--tolerance", "1s").status == 0
    assert b"10:03:03.500" in ran.out


def test_a_silent_device(folder: Path) -> None:
    said = [row for row in played() if not (row[1] == "south" and 1_137 < row[0] < 7_137)]
    rows = rows_of(compared(folder, said))
    silent = "5 information messages: it was silent for 6.0 s"
    assert ["1137", "south>tester", "missing", silent] in rows
    assert {(row[1], row[2]) for row in rows} == {("south>tester", "missing")}


def test_a_device_that_says_the_wrong_level(folder: Path) -> None:
    said = changed(
        played(),
        lambda at, cable, octets: cable == "south" and at > 3_500 and at < 7_000,
        lambda at, octets: [(at, frame("QL-SSU-A", is_event(octets)))],
    )
    ran = compared(folder, said)
    wrong = "says QL-SSU-A in 4 messages up to 6137, where QL-PRC had to be said"
    assert (ran.status, rows_of(ran)) == (1, [["3520", "south>tester", "wrong level", wrong]])


def test_a_device_that_forgets_do_not_use(folder: Path) -> None:
    elsewhere = frame("QL-PRC")
    said = changed(
        played(),
        lambda at, cable, octets: cable == "east" and 3_500 < at < 7_000,
        lambda at, octets: [(at, elsewhere[:41] + octets[41] + elsewhere[42:])],
    )
    wrong = "says QL-PRC in 4 messages up to 6137, where QL-DNU (do-not-use) had to be said"
    assert rows_of(compared(folder, said)) == [["3520", "east>tester", "wrong level", wrong]]
    # (or it says nothing new at all)
    rows = [row for row in played() if row[1] == "east" and row[0] < 3_500]
    said = changed(
        played(),
        lambda at, cable, octets: cable == "east" and 3_500 < at < 7_000,
        lambda at, octets: [] if is_event(octets) else [(at, rows[-1][2])],
    )
    missing = "QL-DNU (do-not-use) had to be said; it goes on with QL-PRTC"
    assert rows_of(compared(folder, said)) == [["3500", "east>tester", "missing", missing]]


def test_a_device_that_sends_no_event_message(folder: Path) -> None:
    said = [row for row in played() if not (row[1] == "east" and row[0] == 3_500 + DELAY)]
    assert rows_of(compared(folder, said, "--tolerance", "700ms")) == [
        [
            "3500",
            "east>tester",
            "missing",
            "an event message of QL-DNU (do-not-use); only an information message came, 637 ms later",
        ]
    ]


def test_a_device_that_says_what_nobody_asked(folder: Path) -> None:
    said = [*played(), (6_500, "south", frame("QL-PRC", True)), (4_500, "west", frame("QL-PRC"))]
    assert rows_of(compared(folder, said)) == [
        ["4500", "west>tester", "unexpected", "says QL-PRC, where nothing had to be said"],
        ["6500", "south>tester", "unexpected", "an event message of QL-PRC, where nothing had changed"],
    ]
    assert compared(folder, said, "--from", "6600").status == 0
    found = json.loads(compared(folder, said, "--json").out)["answer"]
    assert [finding["at"] for finding in found["findings"]] == [4_500, 6_500]
    assert [finding["frame"] is None for finding in found["findings"]] == [False, False]
    assert found["zero"] == ZERO * 10**6


@pytest.mark.parametrize(("every", "rate"), [(500, "2.0"), (50, "20.0")])
def test_a_device_that_sends_too_often(folder: Path, every: int, rate: str) -> None:
    often = [(at, cable, octets) for at, cable, octets in played() if cable == "south" and not is_event(octets)]
    said = sorted(
        [*played(), *((at + more, cable, octets) for at, cable, octets in often for more in range(every, 999, every))]
    )
    ran = compared(folder, said)
    rows = [row for row in rows_of(ran) if row[2] == "too many"]
    assert ran.status == 1 and ran.out.startswith(b"fail: ") and rows and rows[0][1] == "south>tester"
    assert any(f" {rate} a second, where one a second is asked" in row[3] for row in rows), rows
    assert compared(folder, said, "--most", "9").status == 0
    # (so many a second are asked for)
    few = compared(folder, said, "--rate", f"{float(rate) + 0.5}")
    assert [row for row in rows_of(few) if "information messages" in row[3]] == []
    assert murdjohe("capture", "compare", "p", "e", "c", "--rate", "0.5", folder=folder).status == 2


def test_reaction_times_have_thresholds(folder: Path) -> None:
    ran = compared(folder, played(), "--json")
    told = [one for one in json.loads(ran.out)["answer"]["reactions"] if one["greatest"] is not None]
    greatest, middle = max(one["greatest"] for one in told), max(one["middle"] for one in told)
    late = compared(folder, late_by(60), "--json")
    slow = [one for one in json.loads(late.out)["answer"]["reactions"] if one["greatest"] is not None]
    most = max(one["greatest"] for one in slow)
    assert ran.status == late.status == 0 and most == greatest + 60
    assert compared(folder, played(), "--reaction", str(greatest), "--median", str(middle)).status == 0
    ran = compared(folder, late_by(60), "--reaction", "50")
    assert ran.status == 1 and ran.out.startswith(b"fail: no differences; ")
    assert f"told changes after {most} ms (greatest), where 50 ms are asked" in ran.out.decode().splitlines()[0]
    ran = compared(folder, late_by(60), "--median", "50", "--json")
    found = json.loads(ran.out)["answer"]
    assert ran.status == 1 and not found["pass"] and found["slow"] and "(middle)" in found["slow"][0]


def test_two_lines_of_one_source_are_refused(folder: Path) -> None:
    (folder / "c").write_bytes(capture(played()))
    words = ["--line", "west>tester=020000000001", "--line", "east>tester=02:00:00:00:00:01"]
    ran = murdjohe("capture", "compare", str(BENCH / "plan.toml"), "device", "c", *words, folder=folder)
    assert (ran.status, ran.out) == (2, b"") and "have the same source 020000000001" in ran.err
    assert "name the interface of each too, as east>tester=020000000001@eth1" in ran.err


def test_an_input_without_a_line_is_told(folder: Path) -> None:
    (folder / "c").write_bytes(capture(played()))
    words = ["--line", "west>device=@west", "--line", "west>tester=020000000001@west"]
    ran = murdjohe("capture", "compare", str(BENCH / "plan.toml"), "device", "c", *words, folder=folder)
    words = ["--line", "west>device=@west", "--line", "east>tester=@east"]
    both = murdjohe("capture", "compare", str(BENCH / "plan.toml"), "device", "c", *words, folder=folder)
    assert "the frames of line west>device come from 2 sources: 020000000001, 0200000000a1; name one\n" in both.err
    assert "east>device has no --line: what came over it isn't known, and device was asked without it\n" in ran.err


@pytest.mark.parametrize(
    ("words", "status", "said"),
    [
        (["--line", "west>device"], 2, '--line: "west>device" is none of LINE=SOURCE'),
        (["--line", "west>device=12"], 2, '--line: "12" is no source address'),
        (["--line", "wets>device=@west"], 2, '--line: the plan has no line "wets>device" (nearest: "west>device")'),
        (["--line", "west>device=@west"], 2, "--line: none of the lines leads out of device"),
        (["--line", "west>tester=@west", "--from", "9s"], 2, "nothing can be compared: c is at its end at 8600 ms"),
        (["--tolerance", "soon"], 2, "'soon' is no time"),
        (["--line", "west>tester=@west", "--events", "nosuch"], 7, "nosuch: No such file or directory"),
        (
            ["--line", "west>tester=@west", "--events", "bad"],
            24,
            "bad:1: `at,what`: it doesn't begin with milliseconds",
        ),
        (["--line", "west>tester=@west", "--events", "odd"], 2, "what device received is refused: "),
    ],
)
def test_words_that_can_not_be_taken(folder: Path, words: list[str], status: int, said: str) -> None:
    (folder / "c").write_bytes(capture([]))
    (folder / "bad").write_text("at,what\n")
    (folder / "odd").write_text("9,dwon,west>device,\n")
    ran = murdjohe("capture", "compare", str(BENCH / "plan.toml"), "device", "c", *words, folder=folder)
    assert (ran.status, ran.out) == (status, b"") and said in ran.err and ran.err.count("\n") == 1


@pytest.mark.parametrize("words", [["node", "c", "device"], ["compare", str(BENCH / "plan.toml"), "device", "c"]])
def test_what_is_no_capture_is_told(folder: Path, words: list[str]) -> None:
    (folder / "c").write_bytes(b"line,rank\n")
    ran = murdjohe("capture", *words, *WORDS, folder=folder)
    said = "murdjohe: c: it is no capture: it begins neither as a pcap nor as a pcapng\n"
    assert (ran.status, ran.out, ran.err) == (6, b"", said)
    whole = capture(played())
    (folder / "c").write_bytes(whole[:-9])
    ran = murdjohe("capture", *words, *WORDS, folder=folder)
    assert ran.status == 6 and ran.out
    assert ran.err.splitlines()[-1].endswith("; what comes before is whole, and was read")


def test_a_refused_plan_or_element_is_told(folder: Path) -> None:
    (folder / "c").write_bytes(capture([]))
    (folder / "plan.toml").write_text('[[element]]\nname = "M.1"\n')
    ran = murdjohe("capture", "compare", "plan.toml", "device", "c", *WORDS, folder=folder)
    assert (ran.status, ran.out) == (3, b"") and ran.err.startswith("murdjohe: plan.toml:2: ")
    ran = murdjohe("capture", "compare", str(BENCH / "plan.toml"), "devise", "c", *WORDS, folder=folder)
    assert (ran.status, ran.out) == (6, b"") and 'it has no element "devise" (nearest: "device")' in ran.err
    ran = murdjohe("capture", "node", "c", "device", "--line", "west>tester=@west", folder=folder)
    assert ran.status == 2 and "--line: none of the lines leads into device, as L1>device does" in ran.err


def test_sources_without_a_line_are_named(folder: Path) -> None:
    (folder / "c").write_bytes(capture(played()))
    ran = murdjohe("capture", "node", "c", "device", "--line", "west>device=@nowhere", folder=folder)
    assert (ran.status, ran.out) == (0, b"")
    assert "no frame of the capture is of line west>device\n" in ran.err
    assert "these sources have no --line and were left out: " in ran.err
    assert "west (0200000000a1) with 7 frames" in ran.err


TIMES = st.lists(st.integers(0, 20_000), max_size=30).map(lambda times: sorted(times))
WHICH = st.sampled_from(["QL-PRC", "QL-SEC", "QL-DNU"])


@settings(max_examples=20 * CASES)
@given(TIMES, TIMES, st.data())
def test_any_messages_are_compared(wanted: list[int], said: list[int], data: st.DataObject) -> None:
    """Any messages at all are compared; each finding is on the line, within the limits, and of a known kind."""
    limits = device.Limits(data.draw(st.integers(0, 2_000)), data.draw(st.integers(0, 9_000)), 20_000)
    lists = [
        [Message(at, "L>A", data.draw(st.sampled_from(["info", "event"])), data.draw(WHICH), "") for at in times]
        for times in (wanted, said)
    ]
    found = device.compared(lists[0], lists[1], {"L>A"}, limits)
    assert found == sorted(found)
    for finding in found:
        assert limits.begin <= finding.at <= limits.end and finding.line == "L>A"
        assert finding.what in (device.MISSING, device.LATE, device.WRONG, device.UNEXPECTED, device.TOO_MANY)


@settings(max_examples=20 * CASES)
@given(st.lists(st.tuples(st.integers(300, 4_000), WHICH), max_size=8), st.integers(0, 999), st.integers(0, 100))
def test_a_device_that_does_as_it_is_said_to_do_is_right(
    changes: list[tuple[int, str]], phase: int, delay: int
) -> None:
    """Whatever levels have to be said, who says each within the tolerance, and repeats it in his own phase, is right."""
    ends, levels = [0], ["QL-SEC"]
    for length, level in changes:
        if level != levels[-1]:
            ends, levels = [*ends, ends[-1] + length], [*levels, level]
    end = ends[-1] + 3_000
    steps = list(zip(ends, levels))
    wanted = [Message(at, "L>A", "event" if at else "info", level, "") for at, level in steps]
    said = [Message(at + delay, "L>A", "event", level, "") for at, level in steps[1:]]
    for at in range(0, end, 1_000):
        wanted += [Message(at, "L>A", "info", [level for then, level in steps if then <= at][-1], "")] * (
            at not in ends
        )
        now = [level for then, level in steps if then + (delay if then else 0) <= at + phase][-1]
        said.append(Message(at + phase, "L>A", "info", now, ""))
    limits = device.Limits(100, 0, end)
    assert device.compared(sorted(wanted), sorted(said, key=lambda message: message.at), {"L>A"}, limits) == []
