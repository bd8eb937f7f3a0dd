"""First sets of `repair`: orders of elements, lines that are put back, those of `protect`, and sets bettered part by part."""

from __future__ import annotations

import random

import networkx as nx
import pytest
from conftest import CASES
from hypothesis import given, settings
from hypothesis import strategies as st
from test_repair import METRO, all_sets, in_knots, planned, random_network

from murdjohe.protection import promise
from murdjohe.repair import first_sets, improvement, knots, least_sets, repairs, rings
from murdjohe.repair.knots import Inputs

TRIED = settings(max_examples=max(40, CASES))


def is_minimal(graph: nx.DiGraph, removed: frozenset[str]) -> bool:
    """Whether no loop is possible without these lines, and one is with any of them."""
    return not rings.rings_left(graph, removed) and all(rings.rings_left(graph, removed - {one}) for one in removed)


@TRIED
@given(st.integers(0, 2**32))
def test_lines_forward_in_an_order_have_no_ring(seed: int) -> None:
    network, _, _ = in_knots(random_network(seed))
    lines = network.nominated_lines()
    order = list(network.names())
    random.Random(seed).shuffle(order)
    kept = first_sets.forward(lines, order)
    assert nx.is_directed_acyclic_graph(knots.graph_of(lines).subgraph(kept))
    backward = first_sets.forward(lines, order[::-1])
    assert kept.isdisjoint(backward) and len(kept) + len(backward) == len(lines)


def test_elements_by_hops() -> None:
    network, _, _ = in_knots(planned(["L1 A 0 B 1", "L2 B 1 C 1", "L3 D 1 C 0", "L4 E 0 F 1"], ["S C"]))
    assert first_sets.by_hops(network) == ["C", "B", "D", "A", "E", "F"]
    network = network._replace(sources=tuple(source._replace(priority=0) for source in network.sources))
    assert first_sets.by_hops(network) == list("ABCDEF")


@TRIED
@given(st.integers(0, 2**32))
def test_what_is_put_back_leaves_nothing_needless(seed: int) -> None:
    network, inputs, graph = in_knots(random_network(seed))
    order = list(network.names())
    random.Random(seed).shuffle(order)
    kept = first_sets.forward(network.nominated_lines(), order).intersection(graph)
    removed = first_sets.put_back(graph, inputs, kept)
    assert removed.isdisjoint(kept) and is_minimal(graph, removed)


@TRIED
@given(st.integers(0, 2**32))
def test_the_first_set_is_the_cheapest_of_its_seeds(seed: int) -> None:
    network, inputs, graph = in_knots(random_network(seed))
    order = list(network.names())
    seeds = [first_sets.forward(network.nominated_lines(), one) for one in (order, order[::-1])]
    # (a seed over which rings go is none)
    removed, cost = first_sets.first_set(graph, inputs, [*seeds, list(graph)])
    assert is_minimal(graph, removed) and cost == inputs.cost(removed)
    for kept in seeds:
        assert cost <= inputs.cost(first_sets.put_back(graph, inputs, kept.intersection(graph)))


def test_the_lines_of_protect_leave_no_gap() -> None:
    _, inputs, graph = in_knots(METRO)
    kept = promise.lines_kept(METRO.encode())
    assert nx.is_directed_acyclic_graph(graph.subgraph(kept))
    assert first_sets.first_set(graph, inputs, [kept])[1][:2] == (0, 0)


def test_where_protect_finds_no_plan_no_line_is_kept() -> None:
    text = planned(["L1 A 1 B 1", "L2 B 2 C 1", "L3 C 2 A 2"], ["S A", "T B"])
    last = text.replace('level = "QL-PRTC"', 'level = "QL-PRTC"\npriority = 255')
    assert promise.lines_kept(text.encode()) and promise.lines_kept(last.encode()) == frozenset()
    assert promise.lines_kept(b"no plan") == frozenset()


def searched(graph: nx.DiGraph, inputs: Inputs, first: frozenset[str]) -> frozenset[str]:
    """The first set, bettered."""
    return improvement.bettered(least_sets.Search(graph, inputs, 20.0), first, 10.0)


@TRIED
@given(st.integers(0, 2**32))
def test_a_part_that_is_the_whole_knot_is_least(seed: int) -> None:
    _, inputs, graph = in_knots(random_network(seed))
    if len(knots.knots_of(graph)) != 1:
        return
    first, cost = first_sets.first_set(graph, inputs, [])
    removed = searched(graph, inputs, first)
    assert is_minimal(graph, removed)
    assert inputs.cost(removed) == min(cost for cost, _ in all_sets(graph, inputs)) <= cost


def test_parts_of_a_knot_are_bettered(monkeypatch: pytest.MonkeyPatch) -> None:
    monkeypatch.setattr(improvement, "SIZE", 8)
    _, inputs, graph = in_knots(METRO)
    first = first_sets.put_back(graph, inputs, first_sets.forward(inputs.lines.values(), sorted(inputs.of)))
    removed = searched(graph, inputs, first)
    assert is_minimal(graph, removed) and inputs.cost(removed) < inputs.cost(first)


def test_a_set_that_is_known_changes_no_least_set() -> None:
    network, _, _ = in_knots(METRO)
    kept = promise.lines_kept(METRO.encode())
    plain, led = repairs.repair_of(network), repairs.repair_of(network, kept=kept)
    assert plain.is_least and led.is_least
    assert [found.cost for found in plain.sets] == [found.cost for found in led.sets]
