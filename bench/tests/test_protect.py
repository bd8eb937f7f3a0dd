"""The search for priorities by which no failure cuts anybody off: plans by hand, and wrong ways to go about it, which show."""

import collections
import random
from collections.abc import Iterator
from pathlib import Path

import pytest

from bench.compare import protect as compared
from bench.compare import protected, survival
from bench.levels import LEVELS
from bench.reference.plan import Link, Plan, PlanElement, Source, ladder, plan_text
from bench.reference.protect import Edge, Ways, differences, protect, random_topology
from bench.reference.report import sim_text

# The ends of links, the elements of sources and their priorities, and the priorities that are to be found, line by line.
BY_HAND = {
    "ring": ([(0, 1), (1, 2), (2, 0)], [(0, 1)], [1, 0, 2, 2, 0, 1]),
    "chain": ([(0, 1), (1, 2)], [(0, 1)], [1, 0, 1, 0]),
    "two clocks": ([(0, 1)], [(0, 3), (1, 7)], [8, 4]),
    "two sources at one": ([(0, 1)], [(0, 1), (0, 2)], [1, 0]),
    "a ring behind a bridge": ([(0, 1), (1, 2), (2, 3), (3, 1)], [(0, 1)], [1, 0, 1, 0, 2, 2, 0, 1]),
    "no room": ([(0, 1)], [(0, 1), (1, 255)], [0, 2]),
    "no clock": ([(0, 1)], [(0, 0)], [0, 0]),
}


def plan_of(ends: list[tuple[int, int]], sources: list[tuple[int, int]]) -> Plan:
    """A plan without bundles."""
    count = max(max(pair) for pair in ends) + 1
    links = [Link(f"L{k}", a, b, 9, 9, 10, 10, None) for k, (a, b) in enumerate(ends)]
    rows = [Source(f"S{j}", at, "QL-PRC", priority) for j, (at, priority) in enumerate(sources)]
    return Plan("I", [PlanElement(f"E{e}", "QL-SEC", None, 300, 0) for e in range(count)], links, rows)


@pytest.mark.parametrize("name", BY_HAND)
def test_priorities_by_hand(name: str) -> None:
    ends, sources, wanted = BY_HAND[name]
    found = protect(plan_of(ends, sources))
    assert found.priority_of[: found.lines] == wanted


def some_differences(count: int) -> Iterator[str]:
    chance = random.Random(5)
    for _ in range(count):
        yield from differences(random_topology(chance, chance.randint(1, 12)), collections.Counter())


def test_random_topologies_keep_the_rules() -> None:
    assert not list(some_differences(60))


def test_the_ladder_is_protected() -> None:
    counted = collections.Counter[str]()
    assert not list(differences(ladder(12), counted))
    assert counted["protected"] == 1


def test_ears_in_any_order_show(monkeypatch: pytest.MonkeyPatch) -> None:
    def lay_all(self: Ways, branches: dict[int, list[Edge]]) -> None:
        for branch in reversed(branches):
            self.lay_from(branch, branches)

    monkeypatch.setattr(Ways, "branches", lambda self, made=Ways.branches: made(self)[::-1])
    monkeypatch.setattr(Ways, "lay_all", lay_all)
    assert list(some_differences(60))


def test_a_single_way_shows(monkeypatch: pytest.MonkeyPatch) -> None:
    monkeypatch.setattr(Ways, "lay", lambda self, end, edge: None)
    assert list(some_differences(20))


RING = plan_of(*BY_HAND["ring"][:2])


def wrong_of(folder: Path, plan: Plan, status: int, text: str) -> list[str]:
    """What the comparison says of a program that answers so."""
    (folder / "text").write_text(text)
    program = folder / "program"
    program.write_text(f"#!/bin/sh\ncat {folder}/text\nexit {status}\n")
    program.chmod(0o755)
    return list(compared.differences(str(program), str(folder), plan, random.Random(1), 0, collections.Counter()))


def test_a_plan_by_the_rules_is_taken(tmp_path: Path) -> None:
    assert not wrong_of(tmp_path, RING, 0, plan_text(protect(RING)))


def test_a_plan_that_breaks_a_rule_is_told(tmp_path: Path) -> None:
    found = plan_text(protect(RING))
    assert "link L1 cuts somebody off" in wrong_of(tmp_path, RING, 0, plan_text(RING).replace("= 9", "= 0"))
    assert "more than priorities of lines is changed" in wrong_of(tmp_path, RING, 0, found.replace("E1", "F1"))
    # L2 is nominated at E2 alone: who lacks a second way is told by each of the ways to look
    one = found.replace("priority_a = 2", "priority_a = 0")
    assert {"link L0 cuts somebody off", "ways to E1 that share no edge", "ways to E1 that share no node"} < set(
        wrong_of(tmp_path, RING, 0, one)
    )
    assert "a cycle" in wrong_of(tmp_path, RING, 0, plan_text(RING))
    assert wrong_of(tmp_path, RING, 7, "read fault\n") == ["ends with 7"]


def test_gaps_are_told_where_there_is_no_room(tmp_path: Path) -> None:
    plan = plan_of(*BY_HAND["no room"][:2])
    rows = "kind,failure,elements,first\nsource,S1,1,E1\n"
    assert not wrong_of(tmp_path, plan, 1, rows)
    assert wrong_of(tmp_path, RING, 1, rows.replace("S1", "S0"))[0] == "no plan, though there is room"
    assert wrong_of(tmp_path, plan, 1, rows.replace("E1", "E0").replace("1,E", "3,E")) == ["source S1: 3,E0"]
    assert wrong_of(tmp_path, plan, 1, rows + "link,L0,1,E1\n") == ["other rows"]
    assert wrong_of(tmp_path, plan, 1, "kind,failure,elements,first\n") == ["other rows"]


def test_each_failure_of_a_ring_is_survived(monkeypatch: pytest.MonkeyPatch) -> None:
    monkeypatch.setattr(survival, "DOWN", 600)
    plan, counted = protect(RING), collections.Counter[str]()
    assert survival.is_spoken_of(plan)
    failures = list(protected.failures_of(plan))
    assert [len(survival.parts_of(failure)) for failure in failures] == [0, 1, 1, 1, 1, 3, 2, 2]
    rest = 600 + 5_200
    for failure in failures:
        events = survival.all_down(failure)
        end = survival.end_of(plan, sim_text(plan, events, rest + 50))
        assert not list(survival.wrong_of_run(plan, failure, events, rest, end, counted))
    assert (counted["in reach"], counted["out of reach"]) == (16, 8)
    assert counted["follow an own clock"] >= 2  # E1 and E2 follow E0, where the source fails


def test_an_element_that_changes_late_or_follows_nobody_is_told() -> None:
    plan, counted = protect(RING), collections.Counter[str]()
    none, first, *_ = protected.failures_of(plan)
    end = survival.End({"E1": 90_000}, {"E0": "QL-PRC", "E1": "QL-SEC", "E2": "QL-PRC"}, {}, {}, True)
    end.states.update(E0="locked", E1="locked", E2="locked")
    end.traces.update(E0="source", E1="source", E2="own")
    assert list(survival.wrong_of_run(plan, first, survival.all_down(first), 80_000, end, counted)) == [
        "E1 changes at 90000, after 80000",
        "E1 has QL-SEC",
        "E2 follows no source",
        "E1 has not the best level",
    ]
    assert survival.best_levels(plan, []) == dict.fromkeys(range(3), LEVELS["I"].index("QL-PRC"))
