"""Whom links could still serve, beside a plain search of the whole network."""

from __future__ import annotations

import networkx as nx
from hypothesis import given
from hypothesis import strategies as st

from murdjohe.network import reachability, wiring
from murdjohe.network.reachability import Lost, Reach
from murdjohe.network.wiring import Wiring
from murdjohe.plan.model import Element, Link, Plan, Source


def wired_of(count: int, links: list[tuple[int, int]], sources: list[int]) -> Wiring:
    names = [f"E{place}" for place in range(count)]
    rows = [Link(f"L{n}", names[a], names[b]) for n, (a, b) in enumerate(links) if a != b]
    clocks = [Source(f"S{n}", names[at], "QL-PRC") for n, at in enumerate(sources)]
    return wiring.wiring_of(Plan("I", tuple(Element(name, "QL-SEC") for name in names), tuple(rows), tuple(clocks)))


def searched(wired: Wiring, down: frozenset[str]) -> tuple[frozenset[str], frozenset[str]]:
    """The same by a search from all sources."""
    graph = nx.DiGraph()
    graph.add_nodes_from(["root", *wired.elements])
    graph.add_edges_from((line.sender, line.receiver) for line in wired.lines.values() if line.name not in down)
    graph.add_edges_from(("root", at) for name, at in wired.sources.items() if name not in down)
    left = frozenset(wired.elements) - nx.descendants(graph, "root")
    own = {name: {line.name for line in wired.lines.values() if name in (line.sender, line.receiver)} for name in left}
    for source, at in wired.sources.items():
        if at in own:
            own[at].add(source)
    return frozenset(name for name, parts in own.items() if parts and parts <= down), left


@st.composite
def networks(draw: st.DrawFn) -> tuple[Wiring, list[frozenset[str]]]:
    count = draw(st.integers(1, 9))
    places = st.integers(0, count - 1)
    wired = wired_of(count, draw(st.lists(st.tuples(places, places), max_size=14)), draw(st.lists(places, max_size=3)))
    parts = [*wired.lines, *wired.sources, *wired.by_link]
    sets = st.frozensets(st.sampled_from(parts), max_size=len(parts)) if parts else st.just(frozenset())
    return wired, draw(st.lists(sets, min_size=1, max_size=5))


@given(networks())
def test_who_is_left_is_what_a_search_finds(made: tuple[Wiring, list[frozenset[str]]]) -> None:
    wired, sets = made
    downs = [frozenset(part for name in names for part in reachability.parts_of(wired, name)) for names in sets]
    reach = Reach(wired)
    for down, lost in zip(downs, reach.lost(downs)):
        alone, left = searched(wired, down)
        assert reach.apart(down) == (alone, left)
        assert lost == Lost(len(alone), len(left - alone))


def test_without_elements_nobody_is_left() -> None:
    wired = wired_of(0, [], [])
    assert Reach(wired).lost([frozenset()]) == [Lost(0, 0)]
    assert Reach(wired).apart(frozenset(("L1",))) == (frozenset(), frozenset())


def test_a_case_costs_what_stands_behind_it() -> None:
    """A star of long chains: each link touches its own chain alone."""
    links = [(0, 1 + 10 * arm) for arm in range(1000)]
    links += [(1 + 10 * arm + step, 2 + 10 * arm + step) for arm in range(1000) for step in range(9)]
    reach = Reach(wired_of(10_001, links, [0]))
    lines = [way for way, (sender, _) in enumerate(reach.ends) if sender != reachability.SOURCE]
    assert {len(reach.doubtful({way})) for way in lines} == set(range(11))
