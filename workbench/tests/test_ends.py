"""When runs are looked at where nobody says it: by the bounds of `agree`, and while works stand."""

from __future__ import annotations

import json
from pathlib import Path

import pytest
from comfort_plans import RESERVE
from conftest import EXAMPLES, Ran, murdjohe
from night_plans import SWINGING
from plans_spelled import chain

from murdjohe.answers import api
from murdjohe.network.plan_file import taken
from murdjohe.runs import ends
from murdjohe.runs.ends import Told
from murdjohe.runs.moments import Event

MESH = EXAMPLES / "mesh"
HEAD = "case,at,what,target,value\n"
WORKS = "at,what,target,value\n120s,down,S2,\n6m,up,S2,\n"


def surveyed(folder: Path, *words: str) -> Ran:
    return murdjohe("survey", *words, folder=folder)


def first_lines(ran: Ran) -> list[str]:
    return ran.out.decode().splitlines()[:5]


def failures_of(plan: Path) -> int:
    bound = api.agree(plan).result.failures
    assert bound is not None
    return bound


# failures alone


def test_failures_of_one_way_plans_are_looked_at_by_the_bound_after_failures(reserve: Path) -> None:
    bound = failures_of(reserve / "plan.toml")
    ran = surveyed(reserve, "plan.toml", "--links", "--sources", "--json")
    told = json.loads(ran.out)["answer"]
    assert told["until"] == 601_000 and bound < 1_000
    assert told["end_by"].startswith(f"0.{bound} s after the last failure (`failures F` of `agree`), rounded up to")
    assert told["unsettled"] == 0


def test_where_two_elements_may_face_each_other_five_seconds_more_are_waited(folder: Path) -> None:
    ran = surveyed(folder, str(MESH / "protecting.toml"), "--links", "--pairs")
    assert "00:10:06.000 (606,000 ms)" in first_lines(ran)[0]
    assert "more in which two elements out of reach may take timing from each other" in first_lines(ran)[1]


def test_what_comes_up_waits_for_the_greater_bound(reserve: Path) -> None:
    bound = api.agree(reserve / "plan.toml").result.bound
    (reserve / "cases.csv").write_text(f"{HEAD}a,60s,down,L1,\na,70s,up,L1,\nb,60s,down,L3,\n")
    told = json.loads(surveyed(reserve, "plan.toml", "cases.csv", "--json").out)["answer"]
    assert bound is not None and told["until"] == ends.whole(70_000 + bound)
    assert "after the last event (`bound B` of `agree`, which counts wait-to-restore)" in told["end_by"]


@pytest.mark.parametrize("word", ["esmc-off,L1>B,", "level,clock,QL-SSU-A"])
def test_silence_and_levels_are_no_failures(reserve: Path, word: str) -> None:
    (reserve / "cases.csv").write_text(f"{HEAD}a,60s,{word}\n")
    assert "`bound B`" in json.loads(surveyed(reserve, "plan.toml", "cases.csv", "--json").out)["answer"]["end_by"]


def test_under_a_switch_no_bound_is_told(reserve: Path) -> None:
    (reserve / "cases.csv").write_text(f"{HEAD}a,60s,forced,L2>B,\n")
    told = json.loads(surveyed(reserve, "plan.toml", "cases.csv", "--json").out)["answer"]
    assert told["until"] == 1_260_000 and "a switch may be in force" in told["end_by"]


def test_an_end_that_is_given_stays(reserve: Path) -> None:
    ran = surveyed(reserve, "plan.toml", "--until", "11m")
    assert "00:11:00.000" in first_lines(ran)[0] and "the end is chosen" not in ran.out.decode()
    ran = surveyed(reserve, "plan.toml", "--until", "9m")
    assert ran.status == 2 and "--until: 00:09:00.000 (540,000 ms) is before what fails goes down" in ran.err


def test_what_fails_goes_down_once_the_network_is_at_rest(folder: Path) -> None:
    (folder / "plan.toml").write_text(chain(340, "delay_b=2000"))
    ran = murdjohe("failures", "plan.toml", "--links", "-o", "cases.csv", folder=folder)
    bound = api.agree(folder / "plan.toml").result.bound
    at = ends.whole((bound or 0) + 1, ends.MINUTE)
    assert at > 600_000 and f"L0,{at},down,L0," in (folder / "cases.csv").read_text()
    assert "by when the network is at rest, by `bound B` of `agree`" in ran.err


# priorities that may oscillate


def test_cases_that_oscillate_are_named_in_the_first_five_lines(folder: Path) -> None:
    (folder / "plan.toml").write_text(SWINGING.plan)
    lines = first_lines(surveyed(folder, "plan.toml", "--elements", "--pairs"))
    assert "priorities may oscillate, so `agree` gives no bound" in lines[1]
    assert lines[4].startswith("1 case is unsettled at the end, still changing then (core), and 1 case has loops")
    told = json.loads(surveyed(folder, "plan.toml", "--elements", "--pairs", "--json").out)["answer"]
    assert told["until"] < 610_000 and told["unsettled"] == 1 and told["restless"][0]["case"] == "core"


def test_rehearse_of_what_oscillates_ends_soon_and_says_what_ends_it(folder: Path) -> None:
    (folder / "plan.toml").write_text(SWINGING.plan)
    (folder / "works.csv").write_text("at,what,target,value\n60s,down,duct-s,\n60s,down,duct-h,\n")
    ran = murdjohe("rehearse", "plan.toml", "works.csv", folder=folder)
    said = ran.out.decode()
    assert ran.status == 1 and "not settled at 00:01:0" in said and "a later end may not help" in said
    assert "priorities may oscillate, so `agree` gives no bound" in said and "the lowest priority at" in said


# works


def test_what_fails_during_works_is_seen_while_they_stand(folder: Path) -> None:
    (folder / "works.csv").write_text(WORKS)
    ran = surveyed(folder, str(MESH / "protecting.toml"), "--during", "works.csv")
    assert "while the works stand, after `down S2` and before `up S2`" in ran.err
    assert any(
        "elements without a source at the end although a link could still serve them" in line
        for line in first_lines(ran)
    )
    told = json.loads(surveyed(folder, str(MESH / "protecting.toml"), "--during", "works.csv", "--json").out)["answer"]
    assert 120_000 < told["until"] < 360_000 and told["losing"] == 2
    late = ["--at", "10m", "--until", "20m"]
    told = json.loads(surveyed(folder, str(MESH / "protecting.toml"), "--during", "works.csv", *late, "--json").out)[
        "answer"
    ]
    assert told["losing"] == 0


def test_the_end_lies_before_what_mends(reserve: Path) -> None:
    (reserve / "works.csv").write_text("at,what,target,value\n60s,lockout,L2>B,\n120s,up,L1,\n")
    told = json.loads(surveyed(reserve, "plan.toml", "--during", "works.csv", "--at", "119900", "--json").out)["answer"]
    assert told["until"] == 119_999 and told["end_by"] == "the millisecond before `up L1` of the works"


# sweep, study and rehearse


def test_sweep_and_study_choose_the_times_that_are_left_out(reserve: Path) -> None:
    (reserve / "cases.csv").write_text(f"{HEAD}L1,60s,down,L1,\n")
    for words, until in ((("plan.toml",), "00:10:01.000"), (("plan.toml", "1m"), "00:01:01.000")):
        ran = murdjohe("sweep", *words, folder=reserve)
        assert ran.status == 0 and f"only the end, {until}, is looked at" in ran.err
        assert "the end is chosen: 0.3" in ran.err and "`failures F` of `agree`" in ran.err
        at = {"plan.toml": "600000", "1m": "60000"}[words[-1]]
        given = murdjohe("sweep", "plan.toml", at, str(int(at) + 1_000), folder=reserve)
        assert ran.out == given.out and "the end is chosen" not in given.err
    ran = murdjohe("study", "plan.toml", "cases.csv", folder=reserve)
    assert ran.status == 0 and "only the end, 00:01:01.000, is looked at" in ran.err


def test_files_that_are_refused_are_so_without_times_too(reserve: Path) -> None:
    (reserve / "bad.toml").write_text("[[element]]\n")
    (reserve / "bad.csv").write_text("case,at\n")
    for words in (("sweep", "bad.toml"), ("study", "bad.toml", "bad.csv"), ("study", "plan.toml", "bad.csv")):
        ran = murdjohe(*words, folder=reserve)
        given = murdjohe(*words, *("0" for _ in range(2 if words[0] == "sweep" else 1)), folder=reserve)
        assert (ran.status, ran.out, ran.err) == (given.status, given.out, given.err) and ran.status in (3, 5)
    ran = murdjohe("sweep", "-", folder=reserve, stdin=RESERVE.encode())
    assert ran.status == 2 and "AT is missing" in ran.err
    assert murdjohe("sweep", "plan.toml", "soon", folder=reserve).status == 2


def test_rehearse_ends_where_the_network_is_at_rest(reserve: Path) -> None:
    (reserve / "works.csv").write_text("at,what,target,value\n60s,down,L1,\n")
    said = murdjohe("rehearse", "plan.toml", "works.csv", folder=reserve).out.decode()
    assert "\nthe run ends at 00:01:01.000: 0.3" in said and "`failures F` of `agree`" in said
    (reserve / "works.csv").write_text("at,what,target,value\n60s,down,L1,\n70s,up,L1,\n")
    said = murdjohe("rehearse", "plan.toml", "works.csv", folder=reserve).out.decode()
    assert "`bound B` of `agree`" in said and "settled from 00:06:10." in said
    said = murdjohe("rehearse", "plan.toml", "works.csv", "--until", "2m", folder=reserve).out.decode()
    assert "the run ends at" not in said and "not settled at 00:02:00.000: run longer" in said


def test_the_bound_after_failures_is_taken_only_out_of_a_network_at_rest(folder: Path) -> None:
    plan = taken("plan.toml", RESERVE.encode())
    down, up = Event(60_000, "down", "L1", ""), Event(70_000, "up", "L1", "")
    assert ends.only_fails(plan, Told((down,), frozenset(("down",)), 80_000, 80_000))
    assert not ends.only_fails(plan, Told((down, up), frozenset(("down",)), 80_000, 80_000))
    assert ends.only_fails(plan, Told((down, up), frozenset(("down",)), 800_000, 800_000))
    assert not ends.only_fails(plan, Told((), frozenset(("down",)), 0, 0))
    assert [one.until for one in ends.of_run(plan, (down, up))][-1] == 70_000 + 1_200_000
