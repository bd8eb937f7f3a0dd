"""Nominations by which groups cut nobody off: the exact search beside all nominations there are, and the search by steps."""

from __future__ import annotations

import random
from collections.abc import Iterator
from itertools import product

import pytest
from conftest import CASES
from groups_made import BOTH, NARROW, random_groups, random_network
from hypothesis import given, settings
from hypothesis import strategies as st

import murdjohe as forms
from murdjohe.core.documents import Document
from murdjohe.network import groups
from murdjohe.network.groups import Group
from murdjohe.network.ways import Ways
from murdjohe.plan.plan_lines import PlanLines
from murdjohe.protection import covering, group_plans
from murdjohe.protection.covering import Cover, State
from murdjohe.protection.exact_covering import Exact, Late
from murdjohe.protection.group_plans import Network

TRIED = settings(max_examples=max(25, CASES))


def protecting(text: str) -> PlanLines:
    """What `protect` makes of a plan."""
    return PlanLines(Document("plan.toml", (forms.protect(text.encode()).result.text or "").encode()))


def is_round(ways: Ways, kept: frozenset[int], last: dict[int, tuple[str, str]]) -> bool:
    """Whether ways bear on one another in a circle, by taking away those on which nothing bears."""
    left = set(kept)
    while left:
        borne = {
            after.number
            for number in left
            for after in ways.out[ways.ways[number].receiver]
            if after.number in left and not (after.number == number ^ 1 and last.get(after.sender) == after.bundle)
        }
        if borne == left:
            return True
        left = borne
    return False


def choices(ways: Ways, kept: frozenset[int]) -> Iterator[dict[int, tuple[str, str]]]:
    """All last resorts that elements could have, of the bundles that are nominated at both ends."""
    both = [[None, *(way.bundle for way in into if way.number in kept and way.back in kept)] for into in ways.into]
    for chosen in product(*both):
        yield {place: bundle for place, bundle in enumerate(chosen) if bundle}


def covered(network: Network, kept: frozenset[int]) -> int:
    """How many groups a nomination covers; -1 where a single failure cuts somebody off who needn't be."""
    failures, groups_cut = group_plans.rated(network, State(set(kept)))
    return -1 if failures else network.groups - groups_cut


def most_of_all(network: Network, least: int) -> int:
    """The most groups that any nomination covers, so many at least, by trying all."""
    best, ways = least, network.ways
    useful = [way.number for way in ways.ways if ways.reach[way.sender] and ways.reach[way.receiver]]
    for number in range(1 << len(useful)):
        kept = frozenset(way for place, way in enumerate(useful) if number >> place & 1)
        its = covered(network, kept)
        if its > best and any(not is_round(ways, kept, last) for last in choices(ways, kept)):
            best = its
    return best


def test_two_groups_of_which_one_is_covered() -> None:
    network = Network(protecting(NARROW), BOTH)
    assert most_of_all(network, 0) == 1
    found = group_plans.sought(network.plan, BOTH)
    assert (found.covered, found.groups, found.is_known) == (1, 2, True)
    for one in BOTH:
        alone = group_plans.sought(network.plan, (one,))
        assert (alone.covered, alone.groups, alone.is_known) == (1, 1, True)


@TRIED
@given(st.integers(0, 2**32))
def test_no_nomination_covers_more_than_the_exact_search_says(seed: int) -> None:
    chance = random.Random(seed)
    text = random_network(chance, chance.randint(3, 5), chance.randint(4, 6))
    plan = protecting(text)
    its = random_groups(chance, plan.tables, chance.randint(1, 4))
    found = group_plans.sought(plan, its)
    assert found.is_known
    assert most_of_all(Network(plan, its), found.covered) == found.covered


@TRIED
@given(st.integers(0, 2**32))
def test_what_is_written_is_what_the_program_says(seed: int) -> None:
    """A plan of the most covering nomination has no loop and agrees, and just the other groups cut somebody off."""
    chance = random.Random(seed)
    plan = protecting(random_network(chance, chance.randint(4, 9), chance.randint(6, 16)))
    its = random_groups(chance, plan.tables, chance.randint(1, 8))
    found = group_plans.sought(plan, its)
    data = group_plans.written(plan, found)
    assert forms.rank(data).result.ring is None and forms.agree(data).result.clash is None
    rows = forms.protected(data, groups.text_of(its).encode()).result.rows
    assert [row.kind for row in rows] == ["group"] * (found.groups - found.covered)


@TRIED
@given(st.integers(0, 2**32))
def test_steps_keep_what_a_plan_needs(seed: int) -> None:
    """No state of the search by steps has a circle, and the best cuts nobody off by a single failure."""
    chance = random.Random(seed)
    plan = protecting(random_network(chance, chance.randint(4, 8), chance.randint(6, 14)))
    network = Network(plan, random_groups(chance, plan.tables, chance.randint(1, 6)))
    cover = Cover(network.ways, network.room, network.first(), seed=seed)
    before = cover.best_cost
    for _ in range(8):
        if not cover.cost:
            break
        cover.step(1.5)
        assert covering.circles(network.ways, cover.state) == []
    assert cover.best_cost <= before and cover.best_cost[0] == 0
    assert covering.circles(network.ways, cover.best) == []
    assert cover.rated(cover.best) == cover.best_cost


def test_steps_cover_what_the_exact_search_covers_where_that_has_no_time() -> None:
    covered_by, most = 0, 0
    for seed in range(20):
        chance = random.Random(seed)
        plan = protecting(random_network(chance, 9, 14))
        its = random_groups(chance, plan.tables, 5)
        network = Network(plan, its)
        search = group_plans.Search(network, 0.0)
        search.run()
        assert search.is_known == (group_plans.rated(network, network.first()) == (0, 0))
        assert search.best.kept == network.first().kept
        cover = Cover(network.ways, network.room, network.first())
        cover.search(5.0, 150)
        covered_by += network.covered(cover.best)
        most += group_plans.sought(plan, its).covered
    assert 0.95 * most <= covered_by <= most


def test_the_exact_search_is_late_where_it_has_no_time() -> None:
    network = Network(protecting(NARROW), BOTH)
    with pytest.raises(Late):
        Exact(network.ways, network.room, network.first().kept).better(0)


def test_numbers_come_behind_those_of_sources_and_the_last_resort_last() -> None:
    text = NARROW.replace('at = "A"\nlevel = "QL-PRC"', 'at = "A"\nlevel = "QL-PRC"\npriority = 9')
    network = Network(protecting(text), (Group("north", ("L0", "L2")),))
    first = network.first()
    given_numbers = group_plans.priorities(network, first)
    into_a = {line: number for line, number in given_numbers.items() if line.endswith(">A")}
    assert into_a and set(into_a.values()) == set(range(10, 10 + len(into_a)))
    assert group_plans.changes(network, given_numbers) == {}


def test_an_element_has_no_more_inputs_than_there_is_room_for() -> None:
    """A has 62 sources: one line more has room beside that of `protect`, and no third."""
    sources = "".join(f'[[source]]\nname = "X{number}"\nat = "A"\nlevel = "QL-PRC"\n' for number in range(62))
    plan = protecting(NARROW + sources)
    network = Network(plan, BOTH)
    assert network.room[network.ways.at["A"]] == 1
    data = group_plans.written(plan, group_plans.sought(plan, BOTH))
    assert forms.rank(data).result.ring is None
