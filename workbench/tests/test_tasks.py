"""The workbench's own commands as functions: the same as what the commands print, and what is raised."""

from __future__ import annotations

import json
import time
from collections.abc import Callable
from dataclasses import asdict
from pathlib import Path

import pytest
from conftest import EXAMPLES, murdjohe

import murdjohe as package
from murdjohe import tasks

MESH = EXAMPLES / "mesh"
PLAN, WORKS = MESH / "redundant.toml", MESH / "works.csv"


def test_what_there_is_can_be_listed() -> None:
    assert {"check", "sim", "api", "tasks"} <= set(dir(package)) and package.tasks is tasks
    wanted = {"lint", "why", "rehearse", "repair", "orders", "steps", "diff", "judge", "survey", "place", "compare"}
    assert wanted <= set(dir(tasks)) and all(hasattr(tasks, name) for name in dir(tasks))


def test_findings_are_those_of_the_command() -> None:
    found = tasks.lint(PLAN)
    told = json.loads(murdjohe("lint", str(PLAN), "--json").out)["answer"]
    assert [(one.line, one.kind, one.what, one.remedy) for one in found.findings] == [
        tuple(one.values()) for one in told
    ]
    assert found.judgement == tasks.judge(PLAN) and found.judgement.is_good and len(found.judgement.gaps or ()) == 1


def test_a_rehearsal_and_why_take_times_as_people_write_them(tmp_path: Path) -> None:
    night = tasks.rehearse(PLAN, WORKS, until="20m")
    assert night.is_smooth and [event.what for event in night.events] == ["lockout", "down", "up", "unlock"]
    more = tasks.rehearse(str(PLAN), str(WORKS), start="23:00", add=["23:03 down N1"])
    assert [event.at for event in more.events] == [60_000, 120_000, 180_000, 600_000, 960_000]
    reason = tasks.why(PLAN, WORKS, "hub-south", "3m")
    assert reason.chosen.input == "H>hub-south" and reason.at == 180_000


def test_a_repair_orders_and_steps() -> None:
    found = tasks.repair(MESH / "looping.toml")
    assert found.is_least and [line.name for line in found.sets[0].lines] == ["A1>hub-north"]
    assert [order.element for order in tasks.orders(PLAN)][:2] == ["core-1", "core-2"]
    way = tasks.steps(MESH / "plan.toml", MESH / "protecting.toml")
    assert way is not None and all(step.is_good for step in way)
    assert tasks.diff(PLAN, PLAN) == ()


def test_a_survey_is_that_of_the_command(tmp_path: Path) -> None:
    found = tasks.survey(PLAN, kinds=["links", "sources"], pairs=True, worst=3, parts=tmp_path / "parts")
    words = ["survey", str(PLAN), "--links", "--sources", "--pairs", "--worst", "3", "--json", "--parts", "other"]
    told = json.loads(murdjohe(*words, folder=tmp_path).out)["answer"]
    counts = ("until", "cases", "losing", "needless", "unsettled", "looping", "hurting", "still", "first")
    assert {name: getattr(found, name) for name in counts} == {name: told[name] for name in counts}
    for name in ("lost", "worst_needless", "restless", "dark", "chains"):
        assert [asdict(one) for one in getattr(found, name)] == told[name], name
    # (parts stay in the folder that was named, and are taken from there)
    assert len(list((tmp_path / "parts").glob("*.csv.gz"))) >= 1
    again = tasks.survey(PLAN, kinds=["links", "sources"], pairs=True, worst=3, parts=tmp_path / "parts")
    assert again == found
    with pytest.raises(tasks.Wrong, match="'lines' is no kind of failures"):
        tasks.survey(PLAN, kinds=["lines"])
    with pytest.raises(tasks.Wrong, match="is before what fails goes down"):
        tasks.survey(PLAN, at="10m", until="5m")
    with pytest.raises(tasks.Late, match="longer than it was given"):
        tasks.survey(PLAN, timeout=0)


def test_a_survey_of_a_table_and_during_works(tmp_path: Path) -> None:
    (tmp_path / "cases.csv").write_text("case,at,what,target,value\ncut,60000,down,N1,\nclock,60000,down,clock-1,\n")
    found = tasks.survey(PLAN, tmp_path / "cases.csv", until="6m")
    assert (found.cases, found.until, found.at, found.end_by) == (2, 360_000, None, None)
    with pytest.raises(tasks.Wrong, match="has the cases"):
        tasks.survey(PLAN, tmp_path / "cases.csv", pairs=True)
    works = tasks.survey(PLAN, during=WORKS)
    words = ["survey", str(PLAN), "--during", str(WORKS), "--json"]
    told = json.loads(murdjohe(*words, folder=tmp_path).out)["answer"]
    assert (works.cases, works.until, works.losing) == (told["cases"], told["until"], told["losing"])
    assert list(works.common_alone or ()) == told["common_alone"]


def test_sites_are_those_of_the_command(tmp_path: Path) -> None:
    (tmp_path / "plan.toml").write_bytes(murdjohe("gen", "6").out)
    (tmp_path / "sites.csv").write_text("element,cost,level\nE0,0,QL-PRC\nE5,4,QL-PRTC\nE3,3,QL-PRTC\n")
    found = tasks.place(tmp_path / "plan.toml", tmp_path / "sites.csv", links=3, anew=True)
    ran = murdjohe("place", "plan.toml", "sites.csv", "--links", "3", "--anew", "--json", folder=tmp_path)
    told = json.loads(ran.out)["answer"]
    assert found.is_good == (ran.status == 0) and len(found.sites) >= 2
    assert list(found.sites) == [site["element"] for site in told["sites"]] and float(found.found.cost) == told["cost"]
    with pytest.raises(tasks.Wrong, match="is less than --links"):
        tasks.place(tmp_path / "plan.toml", tmp_path / "sites.csv", links=3, links_failed=2)


def test_a_device_is_compared() -> None:
    at = EXAMPLES / "node"
    lines = ["west>device=02:00:00:00:00:a1", "east>device=02:00:00:00:00:a2", "east>tester=02:00:00:00:00:01@east"]
    done = tasks.compare(at / "plan.toml", "device", at / "bench.pcapng", lines, at / "events", begin=0)
    assert not done.is_passed
    assert [(one.at, one.frame, one.what) for one in done.found.findings] == [(3_500, 25, "late")]
    more = tasks.compare(at / "plan.toml", "device", at / "bench.pcapng", lines, at / "events", "1s", 0)
    assert more.is_passed and [one.greatest for one in more.found.reactions] == [600]
    with pytest.raises(tasks.Wrong, match='it has no element "devise"') as wrong:
        tasks.compare(at / "plan.toml", "devise", at / "bench.pcapng", lines)
    assert wrong.value.status == 6


def test_what_is_wrong_is_raised_with_its_sentence_and_status(tmp_path: Path) -> None:
    with pytest.raises(tasks.Wrong) as wrong:
        tasks.lint(tmp_path / "nothing")
    assert wrong.value.status == 7 and "No such file" in str(wrong.value)
    calls: list[Callable[[], object]] = [
        lambda: tasks.why(PLAN, WORKS, "hub-south", "soon"),
        lambda: tasks.rehearse(PLAN, WORKS, start="25:00"),
        lambda: tasks.why(PLAN, WORKS, "nobody", 1),
    ]
    for call in calls:
        with pytest.raises(tasks.Wrong):
            call()


@pytest.mark.alone
def test_a_program_that_takes_too_long_is_ended(tmp_path: Path, monkeypatch: pytest.MonkeyPatch) -> None:
    slow = tmp_path / "slow"
    slow.write_text("#!/bin/sh\nexec sleep 60\n")
    slow.chmod(0o755)
    monkeypatch.setenv("MURDJOHE_CORE", str(slow))
    begin = time.monotonic()
    with pytest.raises(tasks.Late, match="took longer than 0.3 seconds"):
        tasks.judge(PLAN, timeout=0.3)
    assert time.monotonic() - begin < 10
