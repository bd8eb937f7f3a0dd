"""`place`: least sets by trying all, why no set does, filters, ways that priorities make longer, and what the program says."""

from __future__ import annotations

import json
import random
import time
import tomllib
from collections import deque
from collections.abc import Sequence
from decimal import Decimal
from itertools import combinations
from pathlib import Path
from typing import Any

import pytest
from conftest import CASES, EXAMPLES, murdjohe

import murdjohe as forms
from murdjohe.network import wiring
from murdjohe.network.groups import Group
from murdjohe.place import placements, site_cover, sites
from murdjohe.place.site_cover import Limits, Problem
from murdjohe.place.sites import Site
from murdjohe.plan.model import plan_of

Plan = dict[str, Any]
NETWORKS = max(40, 2 * CASES)


def ring(count: int, chords: tuple[tuple[int, int], ...] = ()) -> Plan:
    """A ring of so many elements, with chords."""
    ends = [(n, (n + 1) % count) for n in range(count)] + list(chords)
    links = [{"name": f"L{n}", "a": f"N{a}", "b": f"N{b}"} for n, (a, b) in enumerate(ends)]
    return {"element": [{"name": f"N{n}"} for n in range(count)], "link": links, "source": []}


def random_network(chance: random.Random) -> Plan:
    """Up to 12 elements, in one piece or several, with bundles and clocks that stand."""
    count = chance.randint(1, 12)
    names = [f"N{n}" for n in range(count)]
    links: list[dict[str, Any]] = []
    for _ in range(chance.randint(0, 2 * count) if count > 1 else 0):
        a, b = chance.sample(names, 2)
        links.append({"name": f"L{len(links)}", "a": a, "b": b})
        if chance.random() < 0.2:
            links[-1]["bundle"] = f"B{len(links)}"
            links.append({"name": f"L{len(links)}", "a": b, "b": a, "bundle": links[-1]["bundle"]})
    standing = [{"name": f"S{n}", "at": chance.choice(names), "level": "QL-PRC"} for n in range(chance.randint(0, 1))]
    return {"element": [{"name": name} for name in names], "link": links, "source": standing}


def is_covered(plan: Plan, clocks: list[str], gone: set[str], lost: set[str], limit: int | None) -> bool:
    """Whether each element but the lost ones has a clock within the limit: a plain search, with no code of the workbench."""
    steps = {at: 0 for at in clocks if at not in lost}
    waiting = deque(steps)
    while waiting:
        at = waiting.popleft()
        for link in plan["link"]:
            if link["name"] not in gone and at in (link["a"], link["b"]):
                other = link["b"] if at == link["a"] else link["a"]
                if other not in steps and (limit is None or steps[at] < limit) and other not in lost:
                    steps[other] = steps[at] + 1
                    waiting.append(other)
    return all(row["name"] in steps for row in plan["element"] if row["name"] not in lost)


def random_groups(chance: random.Random, plan: Plan) -> list[Group]:
    """Up to two groups of links, sources and elements."""
    parts = {kind: [row["name"] for row in plan[kind]] for kind in ("link", "source", "element")}
    return [
        Group(
            f"G{n}",
            tuple(chance.sample(parts["link"], min(len(parts["link"]), chance.randint(1, 3)))),
            tuple(parts["source"][: chance.randint(0, 1)]),
            tuple(chance.sample(parts["element"], chance.randint(0, 1))),
        )
        for n in range(chance.randint(0, 2))
    ]


def holds_with(plan: Plan, clocks: list[str], group: Group, limit: int | None) -> bool:
    """Whether clocks cover all that is left of a network without a group; those that stand come first."""
    left = [
        at for n, at in enumerate(clocks) if n >= len(plan["source"]) or plan["source"][n]["name"] not in group.sources
    ]
    return is_covered(plan, left, set(group.links), set(group.elements), limit)


def does(plan: Plan, clocks: list[str], limits: Limits, survives: bool, groups: Sequence[Group] = ()) -> bool:
    """Whether clocks at these elements cover all that they have to, each failure and each group by itself."""
    if not is_covered(plan, clocks, set(), set(), limits.links):
        return False
    if not all(holds_with(plan, clocks, group, limits.links_failed) for group in groups):
        return False
    bundles: dict[str, set[str]] = {}
    for link in plan["link"]:
        bundles.setdefault(link.get("bundle", link["name"] + "/"), set()).add(link["name"])
    gone = [{link["name"]} for link in plan["link"]] + list(bundles.values())
    most = limits.links_failed
    return (
        all(is_covered(plan, clocks, some, set(), most) for some in gone)
        and all(is_covered(plan, clocks, set(), {row["name"]}, most) for row in plan["element"])
        and not (
            survives
            and not all(is_covered(plan, clocks[:n] + clocks[n + 1 :], set(), set(), most) for n in range(len(clocks)))
        )
    )


def least_by_trying(
    plan: Plan, candidates: list[Site], limits: Limits, survives: bool, groups: list[Group]
) -> Decimal | None:
    """The least cost of a set that does; None where none does."""
    standing = [row["at"] for row in plan["source"]]
    costs = [
        sum((site.cost for site in some), Decimal(0))
        for size in range(len(candidates) + 1)
        for some in combinations(candidates, size)
        if does(plan, standing + [site.element for site in some], limits, survives, groups)
    ]
    return min(costs, default=None)


def problem_of(
    plan: Plan, candidates: list[Site], limits: Limits, survives: bool = True, groups: Sequence[Group] = ()
) -> Problem:
    names = [row["name"] for row in plan["element"]]
    standing = tuple((row["name"], names.index(row["at"])) for row in plan["source"])
    network = site_cover.network_of(wiring.wiring_of(plan_of(plan)), groups)
    return Problem(network, standing, tuple(candidates), limits, survives, time.monotonic() + 60)


def test_least_sets_are_those_of_trying_all() -> None:
    chance = random.Random(1)
    found_none = found_some = 0
    for _ in range(NETWORKS):
        plan = random_network(chance)
        free = [row["name"] for row in plan["element"] if row["name"] not in {one["at"] for one in plan["source"]}]
        some = chance.sample(free, min(len(free), chance.randint(1, 7)))
        candidates = [Site(name, Decimal(chance.choice(["0", "1", "2.5", "4", "7"])), "QL-PRC") for name in some]
        links = chance.choice([None, 1, 2, 3])
        failed = chance.choice([None, None, 3, 5])
        limits = Limits(links if links is not None else failed, failed)
        survives = chance.random() < 0.8
        groups = random_groups(chance, plan)
        problem = problem_of(plan, candidates, limits, survives, groups)
        least = least_by_trying(plan, candidates, limits, survives, groups)
        barred = problem.impossible()
        assert bool(barred) == (least is None), (plan, candidates, limits, survives)
        if least is None:
            found_none += 1
            continue
        chosen = problem.best()
        assert chosen.is_least
        assert problem.cost(chosen.sites) == least, (plan, candidates, limits, survives)
        clocks = [row["at"] for row in plan["source"]] + [candidates[number].element for number in chosen.sites]
        assert does(plan, clocks, limits, survives, groups)
        found_some += 1
    assert found_none > NETWORKS // 20 and found_some > NETWORKS // 5


def test_a_ring_wants_two_clocks_and_of_sets_that_cost_the_same_the_fewest() -> None:
    plan = ring(6)
    one = [Site(f"N{n}", Decimal(0), "QL-PRTC") for n in range(6)]
    problem = problem_of(plan, one, Limits(None, None))
    assert problem.impossible() == []
    assert len(problem.best().sites) == 2


def test_what_a_site_is_there_for_is_broken_without_it() -> None:
    plan = ring(9, ((0, 4),))
    problem = problem_of(plan, [Site(f"N{n}", Decimal(n % 3 + 1), "QL-PRTC") for n in range(9)], Limits(2, None))
    assert problem.impossible() == []
    chosen = problem.best()
    for number, pairs in site_cover.reasons(problem, chosen.sites).items():
        assert pairs
        others = tuple(one for one in chosen.sites if one != number)
        broken = {(failure, element) for failure, elements in problem.broken(others) for element in elements}
        assert any(pair.failure.kind == site_cover.SOURCE or pair in broken for pair in pairs)


def test_greedy_sets_cover_too() -> None:
    plan = ring(12, ((0, 6), (3, 9)))
    problem = problem_of(plan, [Site(f"N{n}", Decimal(1 + n % 4), "QL-PRTC") for n in range(12)], Limits(2, 4))
    assert problem.impossible() == []
    while problem.learn(problem.greedy()):
        pass
    clocks = [f"N{number}" for number in problem.greedy()]
    assert does(plan, clocks, Limits(2, 4), True)


def plan_file_of(plan: Plan, folder: Path) -> None:
    (folder / "plan.toml").write_bytes(placements.with_clocks(plan_of(plan), (), ()))


def table(rows: Sequence[tuple[str, ...]], header: str = "element,cost,level") -> str:
    return header + "\n" + "".join(",".join(row) + "\n" for row in rows)


def test_a_chain_says_which_element_no_site_covers(folder: Path) -> None:
    plan = ring(3)
    plan["link"] = plan["link"][:2]
    plan_file_of(plan, folder)
    (folder / "sites.csv").write_text(table([("N0", "3", "QL-PRTC"), ("N1", "1", "QL-PRTC")]))
    ran = murdjohe("place", "plan.toml", "sites.csv", folder=folder)
    assert (ran.status, ran.out) == (1, b"")
    said = ran.err.splitlines()
    assert said[0].endswith("no set of these sites covers all elements:")
    assert said[1].endswith("when link L1 fails no clock can reach N2")
    assert said[2].endswith("when element N1 fails no clock can reach N2")
    partly = murdjohe("place", "plan.toml", "sites.csv", "--partly", folder=folder)
    assert partly.status == 1
    lines = partly.out.decode().splitlines()
    assert lines[0] == "cost 4: 2 sites (least by shortest ways)"
    assert "when link L1 fails no clock can reach N2" in lines


def test_the_plan_that_is_written_is_what_the_program_says(folder: Path) -> None:
    plan_file_of(ring(8, ((0, 4),)), folder)
    (folder / "sites.csv").write_text(table([(f"N{n}", str(2 + n % 3), "QL-PRTC") for n in range(8)]))
    words = ("place", "plan.toml", "sites.csv", "--links", "2", "-o", "placed.toml", "--json")
    ran = murdjohe(*words, folder=folder)
    assert ran.status == 0, ran.err
    said = json.loads(ran.out)["answer"]
    assert said["holds"] and said["is_least"] and said["verdict"] == "accepted, agreed, protected"
    assert said["links"] <= 2 and said["cases_that_lose"] == 0
    placed = (folder / "placed.toml").read_bytes()
    assert forms.protected(placed).result.rows == ()
    assert forms.agree(placed).result.failures == said["failures_ms"]
    at = {row.element for row in forms.hops(placed).result.rows if row.hops == 0}
    assert at == {site["element"] for site in said["sites"]}
    assert max(row.hops or 0 for row in forms.hops(placed).result.rows) == said["links"]
    again = murdjohe(*words, folder=folder)
    refusal = json.loads(again.out)["refusal"]["sentence"]
    assert (again.status, refusal) == (22, "placed.toml is there already; --force writes over it")


def test_a_clock_that_stands_costs_nothing_and_stays(folder: Path) -> None:
    plan = ring(4)
    plan["source"] = [{"name": "P", "at": "N0", "level": "QL-PRTC"}]
    plan_file_of(plan, folder)
    (folder / "sites.csv").write_text(table([("N0", "0", "QL-PRTC"), ("N2", "5", "QL-PRTC"), ("N1", "6", "QL-PRTC")]))
    ran = murdjohe("place", "plan.toml", "sites.csv", folder=folder)
    assert ran.out.decode().splitlines()[0] == "cost 5: 1 site (least by shortest ways)"
    (folder / "sites.csv").write_text(table([("N0", "2", "QL-PRTC"), ("N2", "5", "QL-PRTC")]))
    refused = murdjohe("place", "plan.toml", "sites.csv", folder=folder)
    assert refused.status == 2 and "'N0' has a source in the plan, and a cost of 2 here" in refused.err


def test_other_limits_are_told_with_what_they_cost(folder: Path) -> None:
    plan_file_of(ring(12), folder)
    (folder / "sites.csv").write_text(table([(f"N{n}", "1", "QL-PRTC") for n in range(12)]))
    ran = murdjohe("place", "plan.toml", "sites.csv", "--links", "1", "--json", folder=folder)
    costs = {row["links"]: row["cost"] for row in json.loads(ran.out)["answer"]["limits"]}
    assert costs[0] == 12 and costs[1] == 4 and costs[11] == 2
    kept = [costs[limit] for limit in sorted(costs)]
    assert kept == sorted(kept, reverse=True)


def test_filters_cut_chains(folder: Path) -> None:
    plan = ring(30)
    plan_file_of(plan, folder)
    (folder / "sites.csv").write_text(table([("N0", "1", "QL-PRTC"), ("N1", "1", "QL-PRTC")]))
    rows = [(f"N{n}", str(1 + n % 2)) for n in range(2, 30)]
    (folder / "filters.csv").write_text(table(rows, "element,cost"))
    words = ("place", "plan.toml", "sites.csv", "-o", "placed.toml", "--json")
    without = json.loads(murdjohe(*words, folder=folder).out)["answer"]
    assert without["since"] > 20
    ran = murdjohe(*words, "--filters", "filters.csv", "--force", folder=folder)
    said = json.loads(ran.out)["answer"]
    assert said["since"] <= 20 and said["filters"] and said["holds"]
    placed = (folder / "placed.toml").read_bytes()
    assert max(row.since for row in forms.chains(placed).result.rows or ()) <= 20
    few = murdjohe(*words, "--filters", "few.csv", "--force", folder=folder)
    assert few.status == 7  # the file isn't there
    (folder / "few.csv").write_text(table([("N0", "1")], "element,cost"))
    none = murdjohe("place", "plan.toml", "sites.csv", "--filters", "few.csv", folder=folder)
    assert none.status == 1 and "no candidate for a filter cuts this chain: " in none.out.decode()


def test_mistakes_of_a_table_are_told_at_once(folder: Path) -> None:
    plan_file_of(ring(3), folder)
    rows = [("N0", "3", "QL-PRS"), ("M1", "-1", "QL-PRTC"), ("N2", "4", "QL-DNU"), ("N2", "4", "QL-PRTC")]
    (folder / "sites.csv").write_text(table(rows))
    ran = murdjohe("place", "plan.toml", "sites.csv", folder=folder)
    assert ran.status == 24
    said = ran.err
    assert "sites.csv:2: 'QL-PRS' is no level of option I; write 'QL-PRC'" in said
    assert "sites.csv:3: 'M1' names no element of the plan" in said and "sites.csv:3: '-1' is no cost" in said
    assert "sites.csv:4: the level 'QL-DNU'" in said and "sites.csv:5: 'N2' stands there twice" in said


def test_limits_that_contradict_each_other_are_refused(folder: Path) -> None:
    plan_file_of(ring(3), folder)
    (folder / "sites.csv").write_text(table([("N0", "3", "QL-PRTC")]))
    ran = murdjohe("place", "plan.toml", "sites.csv", "--links", "3", "--links-failed", "2", folder=folder)
    assert ran.status == 2 and "after a failure ways are no shorter" in ran.err


@pytest.mark.parametrize(("name", "costs"), [("germany", {1: 46, 2: 20, 3: 12}), ("polska", {1: 32, 2: 12})])
def test_networks_that_were_built(name: str, costs: dict[int, int], folder: Path) -> None:
    plan, table_of = EXAMPLES / "real" / f"{name}-topology.toml", EXAMPLES / "real" / f"{name}-sites.csv"
    tables: Plan = {**tomllib.loads(plan.read_text()), "source": []}
    candidates = list(sites.read(str(table_of), plan_of(tables), sites.SITES))
    for links, cost in costs.items():
        ran = murdjohe("place", str(plan), str(table_of), "--anew", "--json", "--links", str(links), folder=folder)
        said = json.loads(ran.out)["answer"]
        assert (ran.status, said["holds"], said["is_least"], said["cost"]) == (0, True, True, cost)
        assert said["links"] <= links
        cheaper = [
            some
            for size in (1, 2)
            for some in combinations(candidates, size)
            if sum(site.cost for site in some) < cost
            and does(tables, [site.element for site in some], Limits(links, None), True)
        ]
        assert cheaper == []


def test_where_reserves_are_too_long_sites_are_added(folder: Path) -> None:
    plan, table_of = EXAMPLES / "real" / "germany-topology.toml", EXAMPLES / "real" / "germany-sites.csv"
    words = ("place", str(plan), str(table_of), "--anew", "--links", "1", "--links-failed", "3")
    ran = murdjohe(*words, folder=folder)
    said = ran.out.decode()
    assert ran.status == 0 and "sites added: the ways that `protect` takes are longer than the shortest" in said
    assert "(found, perhaps not least)" in said.splitlines()[0]
    assert "at most 1 line to any element without a failure, 3 after any single one" in said


def test_a_picture_is_drawn(folder: Path) -> None:
    plan_file_of(ring(5), folder)
    (folder / "sites.csv").write_text(table([(f"N{n}", "1", "QL-PRTC") for n in range(5)]))
    ran = murdjohe("place", "plan.toml", "sites.csv", "--picture", "placed.svg", folder=folder)
    assert ran.status == 0
    picture = (folder / "placed.svg").read_text()
    assert "cost 2: 2 sites chosen, 2 clocks in all" in picture and "N4" in picture
    wrong = murdjohe("place", "plan.toml", "sites.csv", "--picture", "placed.gif", folder=folder)
    assert wrong.status == 2
