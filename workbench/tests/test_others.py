"""All mistakes of an event list are told at once: the first by the program's refusal, the others by its refusals without that row."""

from __future__ import annotations

from pathlib import Path

import pytest
from conftest import EXAMPLES, murdjohe

PLAN = str(EXAMPLES / "inventory" / "plan.toml")
HEAD = "at,what,target,value\n"


def lines_of(err: str) -> list[str]:
    """The lines of the list that sentences name, in their order."""
    return [line.split(":")[2] for line in err.splitlines() if line.startswith("murdjohe: events.csv:")]


@pytest.mark.parametrize("command", [["sim", PLAN, "events.csv", "5m"], ["rehearse", PLAN, "events.csv"]])
def test_three_mistakes_are_three_sentences(folder: Path, command: list[str]) -> None:
    (folder / "events.csv").write_text(f"{HEAD}60s,dwn,R3,\n70s,down,R3,\n\n80s,up,X3,\n90s,level,gnss-a,QL-PRTK\n")
    ran = murdjohe(*command, folder=folder)
    assert ran.status == 5 and lines_of(ran.err) == ["2", "5", "6"]
    first, second, third = ran.err.splitlines()
    assert '`60s,dwn,R3,`: "dwn" is no word of an event (nearest: "down")' in first
    assert '"X3" names nothing in the plan (nearest: "R3")' in second and '(nearest: "QL-PRTC")' in third


def test_the_bytes_are_those_of_the_program(folder: Path) -> None:
    (folder / "events.csv").write_text(f"{HEAD}5,dwn,R3,\n6,down,R9,\n")
    ran = murdjohe("sim", PLAN, "events.csv", "10", folder=folder)
    assert (ran.out, lines_of(ran.err)) == (b"bad events 30 1\n", ["2", "3"])
    assert lines_of(murdjohe("--quiet", "sim", PLAN, "events.csv", "10", folder=folder).err) == []


def test_of_times_that_go_back_the_first_is_told(folder: Path) -> None:
    (folder / "events.csv").write_text(f"{HEAD}90,down,R3,\n10,up,R3,\n20,up,R3,\n95,up,R3,1\n")
    ran = murdjohe("sim", PLAN, "events.csv", "100", folder=folder)
    assert lines_of(ran.err) == ["3", "5"] and "its time is before 90" in ran.err


def test_at_most_twenty_are_told(folder: Path) -> None:
    (folder / "events.csv").write_text(HEAD + "5,dwn,R3,\n" * 30)
    assert lines_of(murdjohe("sim", PLAN, "events.csv", "10", folder=folder).err) == [str(2 + at) for at in range(20)]


@pytest.mark.parametrize("text", ["", "at,what\n5,down,R3,\n", f"{HEAD}5,down,R3\n"])
def test_a_list_with_one_mistake_has_one_sentence(folder: Path, text: str) -> None:
    (folder / "events.csv").write_text(text)
    ran = murdjohe("sim", PLAN, "events.csv", "10", folder=folder)
    assert ran.status == 5 and len(ran.err.splitlines()) == 1


def test_a_refused_plan_has_one_sentence(folder: Path) -> None:
    (folder / "events.csv").write_text(f"{HEAD}5,dwn,R3,\n6,down,R9,\n")
    (folder / "plan.toml").write_text("[[element]]\n")
    ran = murdjohe("sim", "plan.toml", "events.csv", "10", folder=folder)
    assert ran.status == 3 and len(ran.err.splitlines()) == 1
