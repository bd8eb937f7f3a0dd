"""No wrong comfort: what is said beside a verdict is what a person concludes, so each answer here that once reassured is refused."""

from __future__ import annotations

import json
from pathlib import Path

import pytest
from comfort_plans import BEHIND, RESERVE, THREE, UNMENDED
from conftest import EXAMPLES, murdjohe

SWINGING = EXAMPLES / "swinging" / "plan.toml"
NUMBER = "give trunk>station the lowest priority at station: priority_b = 3 or more of link trunk"


@pytest.fixture
def swinging(folder: Path) -> Path:
    (folder / "plan.toml").write_bytes(SWINGING.read_bytes())
    return folder


# 1. a plan that can't loop may oscillate


def test_check_and_rank_say_that_elements_may_oscillate_and_which_number_ends_it(swinging: Path) -> None:
    ranked = murdjohe("rank", "plan.toml", folder=swinging)
    (swinging / "ranks.csv").write_bytes(ranked.out)
    ran = murdjohe("check", "plan.toml", "ranks.csv", folder=swinging)
    assert (ran.status, ran.out) == (0, b"accepted\n")
    for said in (ranked.err, ran.err):
        assert "may oscillate" in said and NUMBER in said and "plan.toml:17, now 1" in said


def test_repair_seeks_a_set_that_agrees_as_well(swinging: Path) -> None:
    (swinging / "plan.toml").write_text(SWINGING.read_text() + THREE)
    ran = murdjohe("repair", "plan.toml", "-o", "new.toml", folder=swinging)
    said = ran.out.decode()
    assert ran.status == 0 and "checked: accepted, agreed" in said
    assert "priority_b = 3 of link trunk, which was 1: trunk>station gets the lowest priority there" in said
    assert murdjohe("agree", "new.toml", folder=swinging).status == 0


def test_repair_of_a_plan_that_only_oscillates(swinging: Path) -> None:
    ran = murdjohe("repair", "plan.toml", "-o", "new.toml", folder=swinging)
    assert ran.status == 0 and ran.out.startswith(b"no loop is possible\ngive 1 input a greater number")
    assert murdjohe("agree", "new.toml", folder=swinging).status == 0


def test_repair_keeps_lines_and_takes_another_set(folder: Path) -> None:
    (folder / "plan.toml").write_text(THREE)
    first = murdjohe("repair", "plan.toml", folder=folder).out.decode()
    other = murdjohe("repair", "plan.toml", "--set", "2", folder=folder).out.decode()
    kept = murdjohe("repair", "plan.toml", "--keep", "ZX>X", folder=folder).out.decode()
    assert "ZX>X goes" in first and "--set 2: " in first and "in place of ZX>X" in first
    assert "ZX>X goes" not in other and "--set 1: " in other
    assert "ZX>X goes" not in kept and "checked: accepted" in kept
    ran = murdjohe("repair", "plan.toml", *("--keep", "ZX>X", "--keep", "XY>Y", "--keep", "YZ>Z"), folder=folder)
    assert ran.status == 2 and "closes a loop with other lines that are kept" in ran.err
    assert murdjohe("repair", "plan.toml", "--set", "9", folder=folder).status == 2


def test_lint_has_oscillating_priorities_as_an_error(swinging: Path) -> None:
    ran = murdjohe("lint", "plan.toml", folder=swinging)
    assert ran.status == 1 and f"plan.toml:17: error: oscillating priorities" in ran.out.decode()


def test_apply_and_import_and_orders_tell_it(swinging: Path) -> None:
    ran = murdjohe("apply", "plan.toml", "plan.toml", "-o", "same.toml", folder=swinging)
    assert ran.status == 1 and "checked: accepted, may oscillate" in ran.err and NUMBER in ran.err
    assert murdjohe("export", "plan.toml", folder=swinging).status == 0
    ran = murdjohe("import", "elements.csv", "links.csv", "sources.csv", folder=swinging)
    assert ran.status == 0 and "may oscillate" in ran.err and "trunk>station the lowest priority" in ran.err
    ran = murdjohe("orders", "plan.toml", folder=swinging)
    assert ran.status == 1 and "may oscillate" in ran.err


def test_rehearse_and_sim_dont_advise_to_run_longer_where_that_never_helps(swinging: Path) -> None:
    (swinging / "events.csv").write_text("at,what,target,value\n5000,down,trunk,\n")
    ran = murdjohe("rehearse", "plan.toml", "events.csv", "--until", "4s", folder=swinging)
    assert "a later end may not help" in ran.out.decode() and NUMBER in ran.out.decode()
    assert "run longer" not in ran.out.decode()
    ran = murdjohe("sim", "plan.toml", "events.csv", "4s", folder=swinging)
    assert "run to a later time" not in ran.err and NUMBER in ran.err


def test_the_page_says_it_and_not_for_a_moment(swinging: Path) -> None:
    (swinging / "events.csv").write_text("at,what,target,value\n1000,down,trunk,\n")
    assert murdjohe("report", "plan.toml", "events.csv", "-o", "page.html", folder=swinging).status == 0
    page = (swinging / "page.html").read_text()
    assert "may oscillate" in page and "for a moment" not in page


# 2. a loss that never ends


def test_the_first_line_says_who_is_without_a_source_at_the_end(unmended: Path) -> None:
    ran = murdjohe("rehearse", "plan.toml", "works.csv", folder=unmended)
    first, *said = ran.out.decode().splitlines()
    assert first.startswith("still without a source at the end, 00:01:31.000: ") and "B (since 00:01:30.300)" in first
    assert ran.status == 20 and any(line.startswith("losses that go on at 00:01:31.000") for line in said)
    found = json.loads(murdjohe("rehearse", "plan.toml", "works.csv", "--json", folder=unmended).out)["answer"]
    assert [one["element"] for one in found["without_source_at_end"]] == ["B"]


def test_losses_that_ended_are_apart_and_a_limit_has_a_status(reserve: Path) -> None:
    (reserve / "works.csv").write_text(UNMENDED + "150000,unlock,L2>B,\n")
    words = ["rehearse", "plan.toml", "works.csv"]
    ran = murdjohe(*words, folder=reserve)
    said = ran.out.decode().splitlines()
    assert said[0].startswith("no element is without a source at the end") and ran.status == 0
    assert any(line.startswith("losses that ended") for line in said)
    assert not any(line.startswith("losses that go on") for line in said)
    assert murdjohe(*words, "--limit", "30s", folder=reserve).status == 20
    assert murdjohe(*words, "--limit", "2m", folder=reserve).status == 0


# 6. a command that is taken and does nothing


def test_rehearse_says_that_a_manual_switch_has_no_effect(folder: Path) -> None:
    (folder / "plan.toml").write_text(THREE.replace('"XY"\na = "X"', '"XY"\na = "X"\npriority_a = 9'))
    (folder / "works.csv").write_text("at,what,target,value\n60000,manual,XY>X,\n61000,unlock,XY>X,\n62000,clear,X,\n")
    ran = murdjohe("rehearse", "plan.toml", "works.csv", folder=folder)
    said = ran.out.decode()
    assert "commands that are taken and have no effect:" in said
    assert "manual XY>X: X goes on by itself, since it says do-not-use, or nothing better" in said
    assert "unlock XY>X: XY>X isn't locked out" in said and "clear X: X was under no switch" in said
    ran = murdjohe("inspect", "plan.toml", "works.csv", "2m", folder=folder)
    assert ran.status == 0 and "manual XY>X at 60000 has no effect: X goes on by itself" in ran.err
    ran = murdjohe("why", "plan.toml", "works.csv", "X", "2m", folder=folder)
    assert "* manual XY>X (no effect: X goes on by itself" in ran.out.decode()


# why goes back to the first cause


def test_why_tells_the_lockout_upstream_that_took_the_reserve_away(folder: Path) -> None:
    (folder / "plan.toml").write_text(RESERVE + BEHIND)
    (folder / "works.csv").write_text(UNMENDED)
    said = murdjohe("why", "plan.toml", "works.csv", "D", "10m", folder=folder).out.decode()
    causes = said.partition("What brought it about:")[2]
    assert "* lockout L2>B" in causes and "* down L1" in causes
    assert causes.index("* lockout L2>B") < causes.index("* down L1")


def test_rehearse_says_whom_no_link_could_serve(folder: Path) -> None:
    (folder / "plan.toml").write_text(RESERVE + BEHIND)
    (folder / "works.csv").write_text("at,what,target,value\n60s,down,L4,\n90s,lockout,L2>B,\n100s,down,L1,\n")
    first = murdjohe("rehearse", "plan.toml", "works.csv", folder=folder).out.decode().splitlines()[0]
    assert "B (since 00:01:40.300)" in first and "D (since 00:01:00.300, and no link could serve it)" in first
