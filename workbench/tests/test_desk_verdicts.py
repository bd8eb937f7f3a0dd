"""Verdicts on the states of a desk: what each says, the newest state first, and none of an older one."""

from __future__ import annotations

import queue
import time
from pathlib import Path

import pytest
from desk_plans import PAIR, RING

from murdjohe.answers import api, reports
from murdjohe.core import program
from murdjohe.desk import verdicts
from murdjohe.desk.edits import AddEvents, SetValue
from murdjohe.desk.states import States
from murdjohe.desk.verdicts import Asked, Pool, Verdict


def asked(states: States) -> Asked:
    """A state as the pool has it judged."""
    return Asked(states.number, states.data, states.plan, states.event_text, states.events)


def all_of(pool: Pool, told: "queue.Queue[Verdict]", states: States) -> dict[str, Verdict]:
    """All verdicts on a state."""
    pool.ask(asked(states))
    found: dict[str, Verdict] = {}
    while set(found) != set(verdicts.ALL) and "fault" not in (found["loop"].said if "loop" in found else {}):
        verdict = told.get(timeout=20)
        found[verdict.name] = verdict
    return found


@pytest.fixture
def told() -> "queue.Queue[Verdict]":
    """Where verdicts go."""
    return queue.Queue()


def test_the_ring_of_three_looping_and_repaired(told: "queue.Queue[Verdict]") -> None:
    pool, states = Pool(told.put), States(RING, "plan.toml")
    states.apply(SetValue("link", "L3", "priority_b", 1), 0)  # (A takes timing from C as well: it goes round)
    first = all_of(pool, told, states)
    assert first["loop"].said == {"ring": ("L1>B", "L2>C", "L3>A")} and {one.number for one in first.values()} == {1}
    assert first["agree"].said == first["chains"].said == {"skipped": "a loop is possible"}
    states.undo(1)
    states.apply(SetValue("link", "L3", "priority_a", 0), 2)
    found = all_of(pool, told, states)
    assert found["loop"].said == {"accepted": True, "falls": None}
    assert found["chains"].said == {"links": 2, "since": 2, "element": "C"}
    assert found["protected"].said["count"] == 3  # (of L1, of L2 and of B, as the program's rows say)
    assert found["protected"].said["gaps"] == [["link", "L1", 2, "B"], ["link", "L2", 1, "C"], ["element", "B", 1, "C"]]
    assert found["cut"].said == {"elements": ("B", "C"), "failures": 3}
    assert found["run"].said["settled"] is True
    pool.end()


def test_who_may_oscillate_and_by_when_all_rest(told: "queue.Queue[Verdict]") -> None:
    plan = PAIR.replace(b" = 1\n", b" = 3\n")
    pool = Pool(told.put)
    found = all_of(pool, told, States(plan, "pair.toml"))
    assert found["agree"].said == {"bound": 300090, "failures": 330}
    preferring = all_of(pool, told, States(PAIR, "pair.toml"))
    assert set(preferring["agree"].said["clash"]) == {"L>A", "L>B"} and preferring["agree"].said["remedy"]
    pool.end()


def test_a_plan_that_is_refused_says_why(told: "queue.Queue[Verdict]") -> None:
    pool = Pool(told.put)
    plan = RING.replace(b'name = "C"', b'name = "B"')
    states = States(plan, "plan.toml")
    assert "the plan:10" in all_of(pool, told, states)["loop"].said["fault"]
    pool.end()


def test_events_are_run(told: "queue.Queue[Verdict]") -> None:
    seen: list[tuple[int, int]] = []

    def read(one: Asked, report: object, until: int) -> dict[str, object]:
        seen.append((one.number, until))
        return verdicts.no_run(one, reports.report_of("changes\ninputs\ntraces\nloops\nsettled yes\n"), until)

    pool, states = Pool(told.put, read), States(RING, "plan.toml")
    states.apply(AddEvents(1500, (("down", "L1", ""),)), 0)
    bound = api.agree(states.data).result.bound
    assert bound is not None and all_of(pool, told, states)["run"].number == 1
    assert seen == [(1, -(-(1500 + bound) // 1000) * 1000)]
    pool.end()


def test_who_is_cut_off_is_told_after_the_strip(told: "queue.Queue[Verdict]") -> None:
    pool, states = Pool(told.put), States(RING, "plan.toml")
    states.apply(SetValue("link", "L3", "priority_a", 0), 0)
    pool.ask(asked(states))
    names = [told.get(timeout=20).name for _ in verdicts.ALL]
    assert set(names[: names.index("cut")]) >= {"loop", "agree", "protected", "chains"}
    pool.end()


@pytest.mark.alone
def test_the_newest_state_comes_first_and_older_ones_are_dropped(
    told: "queue.Queue[Verdict]", folder: Path, monkeypatch: pytest.MonkeyPatch, core: str
) -> None:
    slow = folder / "slow"
    slow.write_text(f'#!/bin/sh\n[ "$2" != chains ] || sleep 2\nexec {core} "$@"\n')
    slow.chmod(0o755)
    monkeypatch.setenv(program.VARIABLE, str(slow))
    pool, states = Pool(told.put), States(RING, "plan.toml")
    started = time.monotonic()
    for number in range(8):
        states.apply(SetValue("link", "L1", "priority_b", 10 + number), number)
        pool.ask(asked(states))
        time.sleep(0.02)
    names: set[str] = set()
    while "protected" not in names:
        verdict = told.get(timeout=20)
        names |= {verdict.name} if verdict.number == 8 else set()
    assert time.monotonic() - started < 2  # (it waited for no chains of an older state)
    time.sleep(0.3)
    pool.end()
    left = [told.get_nowait().number for _ in range(told.qsize())]
    assert all(number == 8 for number in left)
