"""Is tonight safe, and how long is who dark? Asked as a new user would, with a plan, the works and nothing else; each network has a
trap, and so had the two nights of a planner's own network."""

from __future__ import annotations

import json
import re
import time
from pathlib import Path

import night_plans
import pytest
from conftest import Ran, murdjohe
from night_plans import Night

from murdjohe.network import plan_file
from murdjohe.plan import edits, priorities

OWN = Path(__file__).resolve().parent / "nights"
START = ["--start", "23:00"]


def put(folder: Path, night: Night) -> None:
    (folder / "plan.toml").write_text(night.plan)
    (folder / "works.csv").write_text(night.works)


def rehearsed(folder: Path, *words: str) -> Ran:
    return murdjohe("rehearse", "plan.toml", "works.csv", *words, *START, folder=folder)


def surveyed(folder: Path, *words: str) -> Ran:
    return murdjohe("survey", "plan.toml", "--during", "works.csv", *words, *START, folder=folder)


def accepted(folder: Path) -> str:
    """What `check` says beside `accepted`."""
    (folder / "ranks.csv").write_bytes(murdjohe("rank", "plan.toml", folder=folder).out)
    ran = murdjohe("check", "plan.toml", "ranks.csv", folder=folder)
    assert ran.out == b"accepted\n"
    return ran.err


# the first trap: all is well at the end


def test_a_night_that_ends_well_says_how_long_who_was_dark(folder: Path) -> None:
    put(folder, night_plans.LONG)
    accepted(folder)
    ran = rehearsed(folder, "--limit", "1m")
    said = ran.out.decode()
    on_way = "on the way 4 elements were, for 1499.701 s at most: site-1, site-2, site-3, hub"
    assert ran.status == 20 and said.startswith(f"no element is without a source at the end, 23:40:01.000; {on_way}\n")
    for name in ("hub", "site-1", "site-2", "site-3"):
        (line,) = [line for line in said.splitlines() if f"  {name}: " in line and " below " in line]
        assert "1499." in line and "without a source" in line
    assert "left behind" not in said


def test_the_survey_of_that_night_looks_while_it_is_dark(folder: Path) -> None:
    put(folder, night_plans.LONG)
    ran = surveyed(folder, "--links")
    lines = ran.out.decode().splitlines()
    assert "while the works stand, after `down fibre` and before `up fibre`" in ran.err
    assert any(
        line.startswith("the common events alone leave 4 elements without a source at the end (hub,") for line in lines
    )
    assert surveyed(folder, "--links", "--fail-on", "needless", "--json").status == 21


# the second: accepted, and it oscillates


def test_a_plan_that_would_oscillate_tonight_is_told_so_by_each_command(folder: Path) -> None:
    put(folder, night_plans.SWINGING)
    number = "give trunk>"
    assert "may oscillate" in accepted(folder) and number in accepted(folder)
    assert murdjohe("lint", "plan.toml", folder=folder).status == 1
    ran = rehearsed(folder)
    assert ran.status == 1 and "not settled at 23:1" in ran.out.decode() and number in ran.out.decode()
    lines = murdjohe("survey", "plan.toml", "--elements", folder=folder).out.decode().splitlines()[:5]
    assert (
        "priorities may oscillate" in lines[1]
        and "1 case is unsettled at the end, still changing then (core)" in lines[4]
    )


# the third: a lockout is left behind


def test_what_the_works_leave_behind_is_told(folder: Path) -> None:
    put(folder, night_plans.LEFT)
    assert murdjohe("protected", "plan.toml", folder=folder).out == b"protected\n"
    ran = rehearsed(folder)
    said = ran.out.decode()
    assert ran.status == 0 and "no element that has a source loses it" in said
    assert "\nleft behind at the end, so that the next failure may hurt more: lockout south>middle\n" in said
    told = json.loads(rehearsed(folder, "--json").out)["answer"]
    assert told["left_behind"] == ["lockout south>middle"]


def test_a_failure_while_the_works_stand_is_seen(folder: Path) -> None:
    put(folder, night_plans.LEFT)
    ran = surveyed(folder, "--links", "--names", "--fail-on", "needless")
    said = ran.out.decode()
    assert ran.status == 21 and "\n  north  a link could still serve: middle\n" in said
    assert "1 case leaves elements without a source at the end although a link could still serve them" in said
    assert murdjohe("survey", "plan.toml", "--links", "--fail-on", "lost", folder=folder).status == 0


# the fourth: works that go on after a survey has looked, and end worse


def test_a_survey_tells_which_works_come_after_it_has_looked(folder: Path) -> None:
    put(folder, night_plans.FORCED)
    ran = surveyed(folder, "--links")
    said = ran.out.decode().splitlines()
    # (F3 goes down at 23:15 and comes up at 01:00; F2, to which north is forced, goes down at 01:30 and stays so)
    assert said[0].startswith("4 cases, each looked at in its last millisecond, 23:35:01.000 ")
    (alone,) = [line for line in said if line.startswith("the common events alone ")]
    assert alone.startswith("the common events alone leave no element without a source at the end; ")
    (later,) = [line for line in said if "come after the end" in line]
    assert later == (
        "2 of the common events come after the end and aren't run, the first `up F3` at 01:00:00.000: `rehearse` runs all of them"
    )
    assert "bring up again" not in ran.err  # (what comes after the end brings nothing up that these cases look at)
    told = json.loads(surveyed(folder, "--links", "--json").out)["answer"]
    assert (told["common_alone"], told["common_settled"], told["common_later"]) == ([], True, 2)
    # where all of them are looked at nothing of the kind is said, and north is dark
    said = surveyed(folder, "--links", "--at", "01:40", "--until", "02:10").out.decode().splitlines()
    assert any(
        line.startswith("the common events alone leave 1 element without a source at the end (north); ")
        for line in said
    )
    assert not any("come after the end" in line for line in said)
    ran = rehearsed(folder)
    assert ran.status == 20 and ran.out.startswith(
        b"still without a source at the end, 01:50:00.000: 1 element: north (since 01:30:00.300)\n"
    )


def test_a_time_on_the_way_is_told_as_one_up_to_the_end(folder: Path) -> None:
    put(folder, night_plans.FORCED)
    said = surveyed(folder, "--links").out.decode().splitlines()
    # (F1 is the only way of mill and north, which lose it after the hold-off time, at 23:15:01.300, and have none in 23:35:01.000)
    (way,) = [line for line in said if "on the way, and" in line]
    assert way == (
        "3 cases make levels worse than before on the way, and 3 still at the end; up to the end for 1199.701 s at most, mill in F1"
    )


def test_a_survey_during_works_that_oscillate_says_so_of_them(folder: Path) -> None:
    put(folder, night_plans.SWINGING)
    said = surveyed(folder, "--sources").out.decode().splitlines()
    (alone,) = [line for line in said if line.startswith("the common events alone ")]
    assert "without a source at the end (station, harbour), and it isn't settled then; " in alone


# a planner's own two nights


@pytest.fixture
def own(folder: Path) -> Path:
    (folder / "plan.toml").write_bytes((OWN / "plan.toml").read_bytes())
    return folder


def test_a_site_that_is_dark_for_good_stands_in_the_first_line(own: Path) -> None:
    (own / "works.csv").write_bytes((OWN / "unmended.csv").read_bytes())
    ran = murdjohe("rehearse", "plan.toml", "works.csv", folder=own)
    first = ran.out.decode().splitlines()[0]
    assert ran.status == 20 and first.startswith("still without a source at the end, ") and "NODE-7 (since " in first
    long = murdjohe("rehearse", "plan.toml", "works.csv", "--until", "3h", folder=own).out.decode().splitlines()[0]
    assert first.partition(": ")[2].partition(", ")[0] == long.partition(": ")[2].partition(", ")[0]


def test_a_night_in_which_each_case_is_dark_for_minutes_is_not_told_as_clean(own: Path) -> None:
    (own / "works.csv").write_bytes((OWN / "mended.csv").read_bytes())
    ran = murdjohe("survey", "plan.toml", "--during", "works.csv", "--json", folder=own)
    told = json.loads(ran.out)["answer"]
    assert 7_500_000 < told["until"] < 9_000_000
    assert told["losing"] == told["cases"] > 0 and "NODE-7" in told["common_alone"]
    rehearsed = murdjohe("rehearse", "plan.toml", "works.csv", "--limit", "1m", folder=own)
    assert rehearsed.status == 20 and "NODE-7: " in rehearsed.out.decode()


# that planner's network of 59 elements, with priorities that oscillate where one of its two sites loses its links
GONE = ("C005>CR-N1", "C005>CR-N2", "C018>CR-N2", "C024>CR-S2", "C044>AG-202", "C048>AG-203")


@pytest.mark.alone
def test_a_survey_of_pairs_in_a_plan_that_oscillates_takes_seconds_and_says_so_at_once(folder: Path) -> None:
    knot = plan_file.read(str(OWN / "knot.toml"))
    numbers = priorities.priorities_of(knot.network) | dict.fromkeys(GONE, 0)
    (folder / "plan.toml").write_bytes(edits.changed(knot.plan, priorities.wanted(knot.plan, numbers)))
    assert "may oscillate" in accepted(folder)  # (no loop is possible in it)
    words = ["survey", "plan.toml", "--links", "--sources", "--elements", "--pairs", "--worst", "3"]
    began = time.monotonic()
    lines = murdjohe(*words, "--cases", "5001-7000", folder=folder).out.decode().splitlines()
    assert (
        time.monotonic() - began < 60
    )  # (two or three seconds; some oscillate up to the end, which lies six seconds after the failures)
    assert lines[0].startswith("2,000 cases, each looked at in its last millisecond, 00:10:06.000 ")
    assert lines[1].endswith("priorities may oscillate, so `agree` gives no bound")
    assert "although a link could still serve them" in lines[2]
    assert lines[3].split(" leave only elements without one ")[1].startswith("that nothing could serve: ")
    told = re.fullmatch(
        r"(\d+) cases are unsettled at the end, still changing then \((.+)\), and \d+ cases have loops", lines[4]
    )
    assert (
        told and int(told[1]) > 0 and all("SSU-S" in name.split("--") for name in told[2].split(" and ")[0].split(", "))
    )
