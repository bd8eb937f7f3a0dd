"""`diff`: each kind of difference on a plan that has it, none between spellings of one plan, and the program's word on failures."""

from __future__ import annotations

import json
import random
from pathlib import Path

import pytest
from conftest import CASES, EXAMPLES, murdjohe
from hypothesis import given, settings
from hypothesis import strategies as st
from random_plans import RandomPlan, random_plan
from test_lint import GOOD

from murdjohe.core.documents import Document
from murdjohe.network import differences
from murdjohe.plan.plan_lines import PlanLines

PAIRS = (("a", "b"), ("priority_a", "priority_b"), ("delay_a", "delay_b"))
TURNED = {one: other for pair in PAIRS for one, other in (pair, pair[::-1])}
RING = EXAMPLES / "metro-ring" / "plan.toml"


def told(folder: Path, new: str, *more: str) -> list[str]:
    """What differs between the plan and a new one."""
    (folder / "a.toml").write_text(GOOD)
    (folder / "b.toml").write_text(new)
    ran = murdjohe("diff", "a.toml", "b.toml", *more, folder=folder)
    assert ran.status == (1 if ran.out else 0), ran.err
    assert ran.err.endswith("; a.toml checked: accepted, agreed; b.toml checked: accepted, agreed\n")
    return ran.out.decode().splitlines()


@pytest.mark.parametrize(
    ("old", "new", "said"),
    [
        ("priority_b = 1", "priority_b = 5", ["priorities", "  link L2: priority of L2>C 5, which was 1"]),
        ("priority = 1", "priority = 0", ["priorities", "  source prtc-2: priority none, which was 1"]),
        ('floor = "QL-SSU-B"', 'floor = "QL-PRC"', ["floors", "  element A: floor QL-PRC, which was QL-SSU-B"]),
        ('name = "C"', 'name = "C"\nwtr = 0', ["times", "  element C: wait-to-restore 0 min, which was 5 min"]),
        ('name = "C"', 'name = "C"\nholdoff = 500', ["times", "  element C: hold-off 500 ms, which was 300 ms"]),
        ('name = "L2"', 'name = "L2"\ndelay_b = 7', ["times", "  link L2: delay of L2>C 7 ms, which was 1 ms"]),
        ('name = "C"', 'name = "C"\nown = "QL-eEEC"', ["levels", "  element C: internal oscillator (own clock) QL-eEEC, which was QL-SEC"]),
        ('level = "QL-PRC"', 'level = "QL-SSU-A"', ["levels", "  source prc-1: level QL-SSU-A, which was QL-PRC"]),
        ('name = "L2"', 'name = "L2"\nbundle = "G"', ["topology", "  link L2: bundle G, which was none"]),
        ('at = "A"', 'at = "C"', ["topology", "  source prc-1: at C, which was A"]),
        ('name = "C"\n', 'name = "C"\n[[element]]\nname = "D"\n', ["topology", "  element D: element there, which was none"]),
        ('name = "C"', 'name = "C"\nwtr = 5\nholdoff = 300\nown = "QL-SEC"', []),
        ('name = "L2"', 'name = "L2"\npriority_a = 0\ndelay_a = 1', []),
        ("version = 2", 'version = 2\noption = "I"', []),
    ],
)  # fmt: skip
def test_each_difference_is_told(folder: Path, old: str, new: str, said: list[str]) -> None:
    assert old in GOOD
    assert told(folder, GOOD.replace(old, new, 1)) == said


def test_a_link_that_is_new_is_told_with_its_priorities(folder: Path) -> None:
    gone = GOOD[: GOOD.index('[[link]]\nname = "L3"')] + GOOD[GOOD.index("[[source]]") :]
    assert told(folder, gone) == [
        "topology",
        "  link L3: ends none, which was B and C",
        "priorities",
        "  link L3: priority of L3>C none, which was 2",
    ]
    assert told(folder, gone, "--csv") == [
        "part,subject,what,old,new",
        "topology,link L3,ends,B and C,none",
        "priorities,link L3,priority of L3>C,2,none",
    ]
    rows = json.loads("\n".join(told(folder, gone, "--json")))["answer"]
    assert [list(row.values()) for row in rows] == [
        ["topology", "link L3", "ends", "B and C", "none"],
        ["priorities", "link L3", "priority of L3>C", "2", "none"],
    ]


def test_failures_that_differ_are_told(folder: Path) -> None:
    gone = GOOD.replace('a = "B"\nb = "C"\npriority_b = 2', 'a = "B"\nb = "C"')
    said = told(folder, gone, "--sweep", "60s", "20m")
    assert said[:2] == ["priorities", "  link L3: priority of L3>C none, which was 2"] and said[2] == "sweep"
    assert "  cut of L2: holdover 1, which was 0" in said and "  cut of L2: locked 2, which was 3" in said
    rows = [murdjohe("sweep", file, "60s", "20m", folder=folder).out.decode() for file in ("a.toml", "b.toml")]
    assert [("L2,yes,3,0" in rows[0]), ("L2,yes,2,1" in rows[1])] == [True, True]


def test_wrong_times_and_plans_are_told(folder: Path) -> None:
    (folder / "a.toml").write_text(GOOD)
    ran = murdjohe("diff", "a.toml", "a.toml", "--sweep", "20m", "soon", folder=folder)
    assert ran.status == 2 and "--sweep: " in ran.err
    (folder / "b.toml").write_text(GOOD.replace('at = "A"', 'at = "X"'))
    ran = murdjohe("diff", "a.toml", "b.toml", folder=folder)
    assert (ran.status, ran.out) == (3, b"") and 'source "prc-1" is at "X"' in ran.err
    same = murdjohe("diff", str(RING), str(RING), "--sweep", "60s", "20m")
    assert (same.status, same.out) == (0, b"")


def facts(plan: RandomPlan) -> differences.Facts:
    """What a spelling of a plan says."""
    read = PlanLines(Document("plan.toml", plan.text()[0].encode()))
    return differences.facts_of(read.network, read.option)


@settings(max_examples=max(20, CASES))
@given(st.integers(0, 2**32))
def test_nothing_differs_between_spellings_and_orders(seed: int) -> None:
    plan = random_plan(random.Random(seed))
    before = facts(plan)
    for rows in plan.rows.values():
        plan.chance.shuffle(rows)
    for link in plan.rows["link"]:
        if plan.chance.random() < 0.5:  # (the same link from its other end)
            turned = {TURNED.get(key, key): value for key, value in link.items()}
            link.clear()
            link.update(turned)
    assert differences.between(before, facts(plan)) == []


@settings(max_examples=max(20, CASES))
@given(st.integers(0, 2**32), st.integers(0, 2**32))
def test_what_is_new_one_way_is_old_the_other(seed: int, other: int) -> None:
    one, two = facts(random_plan(random.Random(seed))), facts(random_plan(random.Random(other)))
    there = {(each.part, each.subject, each.what, each.old, each.new) for each in differences.between(one, two)}
    back = {(each.part, each.subject, each.what, each.new, each.old) for each in differences.between(two, one)}
    assert there == back and all(old != new for _, _, _, old, new in there)
