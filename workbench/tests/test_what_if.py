"""Events that are added or sorted on the command line, and findings that somebody accepts."""

from __future__ import annotations

from pathlib import Path

import pytest
from conftest import EXAMPLES, murdjohe

from murdjohe.runs import what_if
from murdjohe.runs.simulation import EventFile

MESH = str(EXAMPLES / "mesh" / "plan.toml")


def test_events_are_added_behind_those_of_their_millisecond() -> None:
    file = EventFile("events.csv", b"at,what,target,value\n60000,down,L1,\n\n120000,up,L1,\n")
    made = what_if.added(file, ("60s lockout L1>B", "2h level S QL-SSU-A", "0 down L2"), None)
    assert made.data == (
        b"at,what,target,value\n0,down,L2,\n60000,down,L1,\n60000,lockout,L1>B,\n120000,up,L1,\n7200000,level,S,QL-SSU-A\n"
    )


def test_times_of_day_count_from_the_start() -> None:
    assert what_if.row_of("02:10 down L1", 7_200_000) == ["600000", "down", "L1", ""]


@pytest.mark.parametrize(
    "text, told",
    [
        ("down L1", "an event is TIME WHAT TARGET"),
        ("soon down L1", "'soon' is no time"),
        ("02:10 down L1 x y", "an event is TIME"),
        ("22:50 down L1", "--add"),
    ],
)
def test_what_is_no_event_is_told(tmp_path: Path, text: str, told: str) -> None:
    (tmp_path / "e.csv").write_text("at,what,target,value\n")
    ran = murdjohe("rehearse", MESH, str(tmp_path / "e.csv"), "--start", "23:00", "--add", text)
    assert ran.status in (2, 5) and told in ran.err and ran.out == b""


def test_a_what_if_changes_no_file(tmp_path: Path) -> None:
    events = tmp_path / "e.csv"
    events.write_text("at,what,target,value\n3m,up,N1,\n1m,down,N1,\n")
    before = events.read_bytes()
    assert murdjohe("rehearse", MESH, str(events)).status == 5
    ran = murdjohe("rehearse", MESH, str(events), "--sort", "--add", "2m down S2")
    lines = ran.out.decode().splitlines()
    assert [line.split("* ")[1] for line in lines if "* " in line] == ["down N1", "down S2", "up N1"]
    assert events.read_bytes() == before
    said = murdjohe("why", MESH, str(events), "hub-north", "2m", "--sort").out.decode()
    assert said.startswith("At 120000 ms hub-north takes nothing since 60300 ms")


def test_accepted_findings_are_left_out_whatever_their_line(tmp_path: Path) -> None:
    accepted, plan = tmp_path / "accepted", tmp_path / "plan.toml"
    found = murdjohe("lint", MESH, "-q").out.decode()
    accepted.write_text(f"# looked at on Monday\n\n{found}\nplan.toml:1: note: gone; nothing\n")
    plan.write_text("# a line more\n" + Path(MESH).read_text())
    ran = murdjohe("lint", str(plan), "--accept", str(accepted), "--fail-on", "note")
    assert (ran.status, ran.out) == (0, b"")
    number = len(found.splitlines())
    assert f"{number} findings of {accepted} left out as accepted" in ran.err
    assert f"{accepted}: no longer found: note: gone; nothing" in ran.err


@pytest.mark.parametrize(
    "text, told", [("nonsense\n", "it is no finding"), ("p:1: error: x; y\n", "an error can't be accepted")]
)
def test_what_is_no_finding_is_told(tmp_path: Path, text: str, told: str) -> None:
    (tmp_path / "a").write_text(text)
    ran = murdjohe("lint", MESH, "--accept", str(tmp_path / "a"))
    assert ran.status == 24 and told in ran.err


def test_one_way_in_is_told_only_where_there_is_another(tmp_path: Path) -> None:
    plan = tmp_path / "plan.toml"
    plan.write_text(
        'element = [{name = "A"}, {name = "B"}]\nlink = [{name = "L", a = "A", b = "B", priority_b = 1}]\n'
        'source = [{name = "S", at = "A", level = "QL-PRC"}]\n'
    )
    assert b'element "B" has one way in' not in murdjohe("lint", str(plan)).out
