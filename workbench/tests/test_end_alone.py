"""A survey looks at the end alone, and says so; whom nothing could save is counted apart; and what checks may fail on."""

from __future__ import annotations

import json
from pathlib import Path

from comfort_plans import BEHIND, RESERVE
from conftest import murdjohe


# 3. a survey that looks at the end alone


def test_a_survey_says_that_the_end_alone_is_looked_at_and_what_the_works_mend(reserve: Path) -> None:
    (reserve / "works.csv").write_text("at,what,target,value\n20m,lockout,L2>B,\n30m,down,L1,\n40m,up,L1,\n")
    words = ["plan.toml", "--links", "--during", "works.csv", "--at", "10m"]
    ran = murdjohe("survey", *words, "--until", "1h", folder=reserve)
    first, *said = ran.out.decode().splitlines()
    assert first.startswith("3 cases, each looked at in its last millisecond, 01:00:00.000 (3,600,000 ms)")
    assert "a source lost and back by then isn't counted, a level worse on the way is" in first
    assert any("the common events alone leave no element without a source at the end" in line for line in said)
    assert "bring up again what 1 failure took down: `up` of L1 at 00:40:00.000" in ran.err
    assert "what fails goes down at 00:10:00.000 (600,000 ms)" in ran.err
    ran = murdjohe("failures", *words, folder=reserve)
    assert "bring up again what 1 failure took down" in ran.err and "goes down at 00:10:00.000" in ran.err
    # (without times it looks while the works stand)
    ran = murdjohe("survey", *words[:-2], folder=reserve)
    first, *said = ran.out.decode().splitlines()
    assert first.startswith("3 cases, each looked at in its last millisecond, 00:30:02.000 (1,802,000 ms)")
    assert any("the common events alone leave 1 element without a source at the end (B)" in line for line in said)


def test_whom_nothing_could_save_is_counted_apart(folder: Path) -> None:
    (folder / "plan.toml").write_text(RESERVE.replace("priority_b = 2\n", "") + BEHIND)
    ran = murdjohe("survey", "plan.toml", "--links", "--elements", "--json", folder=folder)
    found = json.loads(ran.out)["answer"]
    # L1 needn't cut B and D off, nor L3 C, since L2 is there; D is a spur behind L4; an element that fails is gone itself.
    # A has the only clock: whoever else loses it then, no link could serve.
    assert (found["cases"], found["losing"], found["needless"]) == (8, 7, 2)
    # (of the spur D all links are down where L4 is)
    assert (found["taken_away"], found["beyond"]) == (5, 0)
    assert [one["case"]["case"] for one in found["worst_needless"]] == ["L1", "L3"]
    assert (found["worst_needless"][0]["needless"], found["worst_needless"][0]["beyond"]) == (2, 0)
    for what, status in (("needless", 21), ("lost", 21), ("unsettled", 0), ("loops", 0)):
        assert (
            murdjohe("survey", "plan.toml", "--links", "--elements", "--fail-on", what, folder=folder).status == status
        )
    said = murdjohe("survey", "plan.toml", "--links", "--elements", folder=folder).out.decode()
    assert (
        "2 cases leave elements without a source at the end although a link could still serve them, 2 elements at most: L1"
        in said
    )


def test_sweep_names_the_end(reserve: Path) -> None:
    ran = murdjohe("sweep", "plan.toml", "60s", "10m", folder=reserve)
    assert "each link goes down at 00:01:00.000, and only the end, 00:10:00.000, is looked at" in ran.err


def test_lint_fails_on_what_is_asked(reserve: Path) -> None:
    assert murdjohe("lint", "plan.toml", folder=reserve).status == 0
    assert murdjohe("lint", "plan.toml", "--fail-on", "warning", folder=reserve).status == 21
