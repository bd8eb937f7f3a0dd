"""`orders --steps`: in which order a plan becomes another one; the program's word on the plan after each step."""

from __future__ import annotations

import json
import random
import shutil
from pathlib import Path

import pytest
from conftest import EXAMPLES, TOP, murdjohe
from plans_spelled import spelled
from random_plans import random_plan

from murdjohe.answers import api
from murdjohe.network import plan_file
from murdjohe.plan import edits, priorities
from murdjohe.plan.model import Element, Plan, Source
from murdjohe.works import step_text, steps
from murdjohe.works.steps import ADDS, ALL, TAKES, Net, Visit

REAL = EXAMPLES / "real"
RING = spelled(
    *("element A", "element B", "element C", "link L1 a=A b=B priority_b={L1}"),
    "link L2 a=B b=C priority_a={L2a} priority_b={L2b}",
    "link L3 a=C b=A priority_a={L3}",
    "source S at=A level=QL-PRC",
)


def ring(**numbers: int) -> str:
    return RING.format(**{"L1": 0, "L2a": 0, "L2b": 0, "L3": 0, **numbers})


def walked(old: Path, new: Path) -> list[step_text.Step]:
    """The steps, each plan of which is made anew here and put to the program."""
    before, after = plan_file.read(str(old)), plan_file.read(str(new))
    wanted = priorities.priorities_of(after.network)
    way = steps.planned(before.network, priorities.priorities_of(before.network), wanted)
    assert way.visits is not None
    found = step_text.followed(before, wanted, way.visits)
    assert found[-1].priorities == wanted
    for step in found:
        data = edits.changed(before.plan, priorities.wanted(before.plan, step.priorities))
        is_accepted = api.rank(data).result.ring is None and api.agree(data).result.clash is None
        assert step.is_good == is_accepted
    return found


def test_a_turned_ring_is_turned_in_two_visits(tmp_path: Path) -> None:
    # B has L1 and C has L2 behind it; then C has L3 and B has L2 behind it. While C still takes L2 and B takes L2 back, the two only
    # have one another: so C goes first, from L2 to L3.
    (tmp_path / "old").write_text(ring(L1=1, L2b=1))
    (tmp_path / "new").write_text(ring(L3=1, L2a=1))
    ran = murdjohe("orders", str(tmp_path / "new"), "--from", str(tmp_path / "old"), "--steps")
    assert ran.out.decode().splitlines() == [
        "step 1: C",
        "  priority of L2>C: none, which was 1",
        "  priority of L3>C: 1, which was none",
        "  checked: accepted, agreed",
        "step 2: B",
        "  priority of L1>B: none, which was 1",
        "  priority of L2>B: 1, which was none",
        "  checked: accepted, agreed",
    ]
    assert ran.status == 0 and "2 steps at 2 elements; the program accepts the plan after each" in ran.err


def test_what_is_added_may_come_in_a_visit_of_its_own() -> None:
    net = Net(Plan("I", (Element("A", "QL-SEC"),), (), (Source("S", "A", "QL-PRC"), Source("T", "A", "QL-PRC"))))
    old, new = {"S": 1, "T": 0}, {"S": 0, "T": 1}
    assert steps.after(net, old, new, Visit("A", ADDS)) == {"S": 1, "T": 1}
    assert steps.after(net, old, new, Visit("A", TAKES)) == steps.after(net, old, new, Visit("A", ALL)) == new
    assert steps.is_two_fold(net, old, new, "A") and not steps.is_two_fold(net, old, {"S": 1, "T": 1}, "A")


PAIR = spelled(
    *("element A", "element B", "link L a=A b=B priority_a={0} priority_b={1}"),
    "source S at=A level=QL-PRC priority={2}",
    "source T at=B level=QL-PRC priority={3}",
)


def test_a_source_is_nominated_at_one_end_before_it_goes_at_the_other(tmp_path: Path) -> None:
    (tmp_path / "old").write_text(PAIR.format(0, 1, 1, 0))
    (tmp_path / "new").write_text(PAIR.format(1, 0, 0, 1))
    ran = murdjohe("orders", str(tmp_path / "new"), "--from", str(tmp_path / "old"), "--steps")
    steps_told = [line for line in ran.out.decode().splitlines() if line.startswith("step")]
    assert ran.status == 0 and steps_told == ["step 1: B", "step 2: A"]


def test_there_may_be_no_order(tmp_path: Path) -> None:
    # A prefers the line from B, which has nothing. If A goes first it loses its only clock; if B goes first it may take what A gives
    # it as soon as its own source, and A what B gives, each before its own: they clash.
    (tmp_path / "old").write_text(PAIR.format(1, 0, 2, 0))
    (tmp_path / "new").write_text(PAIR.format(2, 2, 0, 2))
    ran = murdjohe("orders", str(tmp_path / "new"), "--from", str(tmp_path / "old"), "--steps")
    assert (ran.status, ran.out) == (
        1,
        b"",
    ) and "murdjohe: there is no order, element after element, in which" in ran.err


def test_plans_of_two_networks_have_no_steps(tmp_path: Path) -> None:
    (tmp_path / "new").write_text(ring(L1=1))
    other = EXAMPLES / "templates" / "plan.toml"
    ran = murdjohe("orders", str(tmp_path / "new"), "--from", str(other), "--steps")
    assert ran.status == 24 and "isn't in" in ran.err


def test_no_difference_is_no_step(tmp_path: Path) -> None:
    (tmp_path / "new").write_text(ring(L1=1))
    shutil.copy(tmp_path / "new", tmp_path / "old")
    ran = murdjohe("orders", str(tmp_path / "new"), "--from", str(tmp_path / "old"), "--steps", "--json")
    assert (ran.status, json.loads(ran.out)["answer"]) == (0, []) and "there is no step" in ran.err


@pytest.mark.parametrize("name", ["germany", "abilene", "nsfnet", "polska"])
def test_from_nominate_to_protect_each_step_is_accepted(name: str) -> None:
    old, new = REAL / f"{name}-plan.toml", REAL / f"{name}-protecting.toml"
    if not old.exists():
        pytest.skip(f"there is no {old.name}")
    for way in (walked(old, new), walked(new, old)):
        assert all(step.is_good for step in way) and {step.visit.part for step in way} == {ALL}


def test_out_of_a_plan_that_loops_the_rings_go_first() -> None:
    old = EXAMPLES / "mesh" / "looping.toml"
    found = walked(old, EXAMPLES / "mesh" / "protecting.toml")
    marks = [step.is_good for step in found]
    assert step_text.is_safe(found, False) and marks[-1] and marks == sorted(marks)
    assert step_text.last_bad(found) < len(found)


def test_out_of_a_planners_own_network_with_two_groups_of_loops(tmp_path: Path) -> None:
    # (59 elements, 36 interlocked inputs, 298 possible loops)
    old, new = TOP / "workbench" / "tests" / "nights" / "knot.toml", tmp_path / "new.toml"
    ran = murdjohe("repair", str(old), "-o", str(new))
    assert ran.out.startswith(
        b"a group of 36 interlocked inputs, 298 possible loops\ntake away 6 nominations (least): "
    )
    assert b"\nchecked: accepted, agreed, 1 gap\n" in ran.out
    found = walked(old, new)
    # the old plan loops, so the first plans on the way do; each step takes some away and adds none, and the last one is accepted
    assert [step.is_good for step in found] == [False, False, False, True]
    changes = [change for step in found for change in step.changes]
    assert len(changes) == 6 and all(now == 0 for _, _, now in changes)
    ran = murdjohe("orders", str(new), "--from", str(old), "--steps")
    assert ran.status == 0 and ran.out.decode().count("\nstep ") == 3
    assert (
        "the old plan can loop or oscillate, and so can those up to step 3: work these off without a pause" in ran.err
    )
    # from the repaired plan to that of `protect`, and back, every plan is accepted and agrees
    protecting = tmp_path / "protecting.toml"
    assert murdjohe("protect", str(old), "-o", str(protecting)).status in (0, 1)
    for way in (walked(new, protecting), walked(protecting, new)):
        assert len(way) == 12 and all(step.is_good for step in way)


@pytest.mark.parametrize("seed", range(12))
def test_random_plans_by_both_forms(tmp_path: Path, seed: int) -> None:
    data = random_plan(random.Random(seed)).text()[0].encode()
    written = [api.nominate(data).text, api.protect(data).text]
    if not written[1].startswith(b"option"):
        return
    for place, text in enumerate(written):
        (tmp_path / str(place)).write_bytes(text)
    before, after = plan_file.read(str(tmp_path / "0")), plan_file.read(str(tmp_path / "1"))
    if before.network != after.network:
        way = steps.planned(
            before.network, priorities.priorities_of(before.network), priorities.priorities_of(after.network)
        )
        if way.visits is not None:
            found = step_text.followed(before, priorities.priorities_of(after.network), way.visits)
            assert all(step.is_good for step in found)


def test_json_has_a_row_for_each_change() -> None:
    words = ["orders", str(REAL / "germany-protecting.toml"), "--from", str(REAL / "germany-plan.toml"), "--steps"]
    rows = json.loads(murdjohe(*words, "--json").out)["answer"]
    assert rows[0] == dict(
        zip(step_text.COLUMNS, ("1", "Frankfurt", "all", "Frankfurt-Koeln>Frankfurt", "none", "2", "accepted, agreed"))
    )
    assert TOP.is_dir()
