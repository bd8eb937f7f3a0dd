"""Two orders of what may fail: small plans by hand, and what shows where a trial is left out."""

import collections
import random
from collections.abc import Iterator

import pytest

from bench.compare.protected import cut_off, failures_of
from bench.reference import clearing
from bench.reference.clearing import (
    Orders,
    Trial,
    both_of,
    differences,
    edges_of,
    orders_of,
    root_of,
    tree_of,
    trial_of,
)
from bench.reference.plan import Link, Plan, PlanElement, Source
from bench.reference.protect import random_topology

# The second numbers of places, and the parents that are to be found.
TREES = {
    "a chain": ([0, 1, 2], [0, 0, 1]),
    "two below the first": ([0, 2, 1], [0, 0, 0]),
    "two below the second": ([0, 1, 3, 2], [0, 0, 1, 1]),
    "one below each of two": ([0, 3, 4, 1, 2], [0, 0, 1, 0, 3]),
    "a place that two apart bar": ([0, 2, 1, 3], None),
    "a place that the first doesn't bar": ([1, 0], None),
}


def plan_of(links: list[tuple[int, int, int, int]], sources: list[int]) -> Plan:
    """Links by their ends and their priorities there, sources by their elements, without bundles."""
    count = 1 + max(max(a, b) for a, b, _, _ in links)
    rows = [Link(f"L{k}", a, b, at_a, at_b, 10, 10, None) for k, (a, b, at_a, at_b) in enumerate(links)]
    clocks = [Source(f"S{j}", at, "QL-PRC", 1) for j, at in enumerate(sources)]
    return Plan("I", [PlanElement(f"E{e}", "QL-SEC", None, 300, 0) for e in range(count)], rows, clocks)


def cleared(plan: Plan) -> list[str]:
    """The failures that are cleared, by kind and name."""
    trial = trial_of(plan)
    pairs = zip(failures_of(plan), clearing.vertices_of(plan), strict=True)
    return [f"{failure.kind} {failure.name}".strip() for failure, vertex in pairs if trial.clears(vertex)]


def rows(plan: Plan) -> dict[str, list[int]]:
    """Whom failures cut off by both orders, by their kinds and names; nobody is cut off by the others."""
    both = both_of(plan)
    assert both.exact
    pairs = zip(failures_of(plan), clearing.vertices_of(plan), strict=True)
    told = {f"{failure.kind} {failure.name}".strip(): both.cut_by(vertex) for failure, vertex in pairs}
    return {failure: cut for failure, cut in told.items() if cut}


@pytest.mark.parametrize("name", TREES)
def test_trees_by_hand(name: str) -> None:
    second, wanted = TREES[name]
    assert tree_of(second) == wanted


def test_orders_of_a_chain() -> None:
    plan = plan_of([(0, 1, 0, 1)], [0])
    # The root is 5, the source 4, the bundle 3 and the link 2.
    assert orders_of(edges_of(plan), root_of(plan)) == Orders([5, 4, 0, 3, 2, 1], [0, 1, 2, 3, 4, 5])


def test_a_chain_is_cleared_whole() -> None:
    everything = ["none", "link L0", "source S0", "element E0", "element E1"]
    assert cleared(plan_of([(0, 1, 0, 1)], [0])) == everything


def test_a_ring_that_is_nominated_one_way() -> None:
    # L0 and L1 carry timing from E0 over E1 to E2; over L2 E2 and E1 would still be in reach.
    plan = plan_of([(0, 1, 0, 1), (1, 2, 0, 1), (2, 0, 0, 0)], [0])
    assert cleared(plan) == ["none", "link L2", "source S0", "element E0", "element E2"]


def test_rows_of_a_ring_that_is_nominated_one_way() -> None:
    plan = plan_of([(0, 1, 0, 1), (1, 2, 0, 1), (2, 0, 0, 0)], [0])
    assert rows(plan) == {"link L0": [1, 2], "link L1": [2], "element E1": [2]}


def test_who_is_out_of_reach_is_in_no_row() -> None:
    # Without L0 or E1 nobody reaches E2 either; L1 and L2 lead from E1 to E2, and L1 alone is nominated.
    assert rows(plan_of([(0, 1, 0, 1), (1, 2, 0, 1), (1, 2, 0, 0)], [0])) == {"link L1": [2]}


def test_rows_of_two_clocks() -> None:
    # E1 takes timing from E0 alone, E2 from E1, and E2 has a clock of its own: it needs neither link.
    plan = plan_of([(0, 1, 0, 1), (1, 2, 0, 1)], [0, 2])
    assert rows(plan) == {"link L0": [1], "source S0": [0, 1], "element E0": [1]}


def test_no_rows_where_somebody_is_cut_off_anyway() -> None:
    assert not both_of(plan_of([(0, 1, 0, 0)], [0])).exact


def test_a_ring_that_is_nominated_both_ways() -> None:
    plan = plan_of([(0, 1, 0, 1), (1, 2, 2, 2), (2, 0, 1, 0)], [0])
    assert len(cleared(plan)) == 1 + 3 + 1 + 3


def test_nothing_is_cleared_where_somebody_is_cut_off_anyway() -> None:
    assert not cleared(plan_of([(0, 1, 0, 0)], [0]))


def some_differences(count: int) -> Iterator[str]:
    chance = random.Random(5)
    for _ in range(count):
        plan = clearing.with_priorities(chance, random_topology(chance, chance.randint(1, 12)))
        yield from differences(plan, collections.Counter())


def test_random_topologies() -> None:
    assert not list(some_differences(60))


def test_lines_that_are_not_looked_at_show(monkeypatch: pytest.MonkeyPatch) -> None:
    monkeypatch.setattr(Trial, "mark_line", lambda trial, line: True)
    assert list(some_differences(60))


def test_a_bundle_that_is_left_out_shows(monkeypatch: pytest.MonkeyPatch) -> None:
    way_in = clearing.way_in

    def without_bundle(plan: Plan, number: int) -> list[int]:
        first = len(plan.elements) + len(plan.links)
        return [vertex for vertex in way_in(plan, number) if not first <= vertex < first + len(plan.links)]

    monkeypatch.setattr(clearing, "way_in", without_bundle)
    assert list(some_differences(200))


def test_orders_at_random_clear_no_failure_that_cuts_off() -> None:
    chance, fitting = random.Random(7), 0
    for _ in range(800):
        plan = clearing.with_priorities(chance, random_topology(chance, chance.randint(1, 3)))
        right = orders_of(edges_of(plan), root_of(plan))
        second = [0, *chance.sample(range(1, len(right.second)), len(right.second) - 1)]
        trial = Trial(plan, Orders(right.order, second))
        fitting += trial.fits
        for failure, vertex in zip(failures_of(plan), clearing.vertices_of(plan), strict=True):
            assert not (trial.clears(vertex) and cut_off(plan, failure)[1])
    assert fitting
