"""`repair`: least sets by trying all, a known knot, large knots, patches that `git apply` takes, and the program's word on it."""

from __future__ import annotations

import json
import os
import random
import re
import subprocess
from itertools import combinations
from pathlib import Path

import networkx as nx
import numpy
import pytest
from conftest import CASES, EXAMPLES, murdjohe
from groups_made import plan_of
from hypothesis import given, settings
from hypothesis import strategies as st

import murdjohe as forms
from murdjohe.core.documents import Document
from murdjohe.plan import edits
from murdjohe.plan.model import Plan
from murdjohe.plan.plan_lines import PlanLines
from murdjohe.repair import greedy_sets, knots, least_sets, repairs, ring_weights, rings
from murdjohe.repair.knots import Cost, Inputs

TRIED = settings(max_examples=max(40, CASES))


def planned(links: list[str], sources: list[str]) -> str:
    """A plan of links `NAME A PRIORITY_A B PRIORITY_B [BUNDLE]` and sources `NAME AT`."""
    elements = dict.fromkeys(end for link in links for end in link.split()[1:4:2])
    return plan_of(elements, links, sources, "QL-PRTC")


# Two clocks' elements at a ring of eight, each link both ways: a knot of 24 lines.
METRO = planned(
    [
        *("SA SSU-A 0 CORE-A 1", "SB SSU-B 0 CORE-B 1"),
        *("CA1 CORE-A 2 M1 1", "CA2 CORE-A 3 M2 1", "CB5 CORE-B 2 M5 1", "CB6 CORE-B 3 M6 1"),
        *("R12 M1 2 M2 2", "R23 M2 3 M3 1", "R34 M3 2 M4 2", "R45 M4 1 M5 2"),
        *("R56 M5 3 M6 2", "R67 M6 3 M7 1", "R78 M7 2 M8 2", "R81 M8 1 M1 3"),
    ],
    ["GNSS-A SSU-A", "GNSS-B SSU-B"],
)


def test_a_ring_of_eight_with_two_cores(folder: Path) -> None:
    (folder / "naive.toml").write_text(METRO)
    ran = murdjohe("repair", "naive.toml", folder=folder)
    said = ran.out.decode().splitlines()
    assert (ran.status, ran.err) == (0, "")
    assert said[0] == "a group of 24 interlocked inputs, 36 possible loops"
    assert (
        said[1] == "take away 4 nominations (least): 0 elements lose the last input, 0 gaps arise, 0 first choices go"
    )
    assert [line.rpartition(": ")[2] for line in said[2:6]] == [
        "CA1>CORE-A goes",
        "CB6>CORE-B goes",
        "R12>M2 goes",
        "R56>M5 goes",
    ]
    lines = METRO.splitlines()
    for line in said[2:6]:
        found = re.match(r"naive\.toml:(\d+): (priority_[ab]) = 0 of link (\w+), which was (\d): ", line)
        assert found and lines[int(found[1]) - 1] == f"{found[2]} = {found[4]}"
    # (each site's SSU has its own receiver alone)
    assert said[6] == "checked: accepted, agreed, 2 gaps"
    others = "it takes away CA2>CORE-A, CB5>CORE-B, R12>M1, R56>M6 in place of CA1>CORE-A, CB6>CORE-B, R12>M2, R56>M5"
    assert (
        said[7].startswith("--set 2: 0 elements")
        and said[7].endswith(f"{others}; it gives R45>M5 a greater number")
        and len(said) == 9
    )


def test_a_repair_as_json(folder: Path) -> None:
    (folder / "naive.toml").write_text(METRO)
    found = json.loads(murdjohe("repair", "--json", "naive.toml", folder=folder).out)["answer"]
    assert found["knots"] == [{"lines": 24, "rings": 36, "all_rings": True}]
    assert (found["least"], found["checked"], len(found["sets"])) == (True, "accepted", 3)
    best = found["sets"][0]
    assert (best["last_inputs"], best["gaps"], best["first_choices"]) == (0, 0, 0)
    assert found["gaps"] == [
        {"kind": "source", "failure": f"GNSS-{site}", "elements": 1, "first": f"SSU-{site}"} for site in "AB"
    ]
    assert [edit["goes"] for edit in best["edits"]] == ["CA1>CORE-A", "CB6>CORE-B", "R12>M2", "R56>M5"]
    lines = METRO.splitlines()
    for edit in best["edits"]:
        assert lines[edit["line"] - 1] == f"{edit['key']} = {edit['old']}"
        assert edit["goes"].startswith(f"{edit['link']}>")
    ran = murdjohe("repair", "--json", "-", stdin=murdjohe("gen", "3").out)
    gap = {"kind": "source", "failure": "P0", "elements": 1, "first": "E0"}
    assert json.loads(ran.out)["answer"] == {
        "knots": [],
        "least": True,
        "set": 1,
        "checked": "accepted",
        "clash": None,
        "gaps": [gap],
        "sets": [],
    }
    assert (ran.status, ran.err) == (0, "")
    ran = murdjohe("repair", "--json", "--patch", "naive.toml", folder=folder)
    assert ran.status == 2 and "--patch and --json: standard output has one of them" in ran.err


def in_knots(text: str) -> tuple[Plan, Inputs, nx.DiGraph]:
    """The network of a plan, its inputs, and the hops of its knots."""
    network = PlanLines(Document("plan.toml", text.encode())).network
    lines = network.nominated_lines()
    parts = knots.knots_of(knots.graph_of(lines))
    return network, knots.inputs_of(network, lines), nx.compose_all(parts) if parts else nx.DiGraph()


def all_sets(graph: nx.DiGraph, inputs: Inputs) -> list[tuple[Cost, frozenset[str]]]:
    """Every set of lines without which no loop is possible and that has no needless one, with its cost: one more costs more."""
    found: list[frozenset[str]] = []
    for count in range(len(graph) + 1):
        for lines in combinations(sorted(graph), count):
            removed = frozenset(lines)
            if any(one <= removed for one in found):
                continue
            rest = graph.copy()
            rest.remove_nodes_from(removed)
            if nx.is_directed_acyclic_graph(rest):
                found.append(removed)
    return [(inputs.cost(removed), removed) for removed in found]


def least_costs(sets: list[tuple[Cost, frozenset[str]]]) -> list[Cost]:
    """The costs of up to three sets, each the least of those that hold no earlier one."""
    best: list[Cost] = []
    rest = sets
    while rest and len(best) < repairs.SETS:
        cost, removed = min(rest, key=lambda pair: pair[0])
        # (which one of equal cost comes first decides what the next ones may be, so only clear firsts are compared)
        if sum(other == cost for other, _ in rest) > 1:
            return [*best, cost]
        best.append(cost)
        rest = [pair for pair in rest if not pair[1] >= removed]
    return best


def random_network(seed: int) -> str:
    """A plan of 3 to 5 elements and up to six links, some in bundles, with priorities at both ends."""
    chance = random.Random(seed)
    names = [f"E{number}" for number in range(chance.randint(3, 5))]
    links: list[str] = []
    bundles: dict[frozenset[str], str] = {}
    for number in range(chance.randint(3, 6)):
        a, b = chance.sample(names, 2)
        bundle = bundles.setdefault(frozenset((a, b)), f"B{number}") if chance.random() < 0.4 else ""
        links.append(f"L{number} {a} {chance.choice([0, 1, 2, 3])} {b} {chance.choice([1, 2, 9, 255])} {bundle}")
    missing = [f"X{number} {names[0]} 0 {name} 0" for number, name in enumerate(names[1:])]
    return planned(links + missing, [f"S{number} {chance.choice(names)}" for number in range(chance.randint(0, 2))])


@TRIED
@given(st.integers(0, 2**32))
def test_sets_are_least_of_all(seed: int) -> None:
    text = random_network(seed)
    network, inputs, graph = in_knots(text)
    repair = repairs.repair_of(network)
    assert repair.is_least
    if not graph:
        assert repair.sets == [] and repair.knots == []
        return
    assert len(graph) <= 12
    assert [found.cost for found in repair.sets] == sorted(found.cost for found in repair.sets)
    wanted = least_costs(all_sets(graph, inputs))
    assert [found.cost for found in repair.sets][: len(wanted)] == wanted
    assert sum(lines for lines, _, _ in repair.knots) == len(graph)
    assert sum(count for _, count, _ in repair.knots) == sum(1 for _ in nx.simple_cycles(graph))


@settings(max_examples=max(15, CASES))
@given(st.integers(0, 2**32))
def test_after_a_repair_the_program_gives_ranks(seed: int) -> None:
    text = random_network(seed)
    plan = PlanLines(Document("plan.toml", text.encode()))
    repair = repairs.repair_of(plan.network)
    before = forms.rank(text.encode()).result
    assert (before.ring is None) == (repair.sets == [])
    for found in repair.sets:
        data = repairs.mended(plan, found)
        assert forms.rank(data).result.ranks is not None
        for line in found.lines:  # (each is needed)
            less = repairs.Found(tuple(one for one in found.lines if one != line), found.cost)
            assert forms.rank(repairs.mended(plan, less)).result.ring is not None


@TRIED
@given(st.integers(0, 2**32))
def test_greedy_sets_leave_no_ring_and_take_nothing_needless(seed: int) -> None:
    _, inputs, graph = in_knots(random_network(seed))
    if not graph:
        return
    removed = greedy_sets.greedy_set(graph, inputs, 5)
    assert rings.rings_left(graph, removed) == []
    assert all(rings.rings_left(graph, removed - {line}) for line in removed)


def test_where_time_runs_out_the_set_is_found_alone() -> None:
    network, inputs, graph = in_knots(METRO)
    repair = repairs.repair_of(network, 0.0)
    (found,) = repair.sets
    assert not repair.is_least and rings.rings_left(graph, [line.name for line in found.lines]) == []
    assert found.cost >= (0, 0, 0, 1014)  # (256 - 2, 256 - 3, 256 - 2 and 256 - 3 for the least set)


def test_what_is_needless_in_a_set_is_kept() -> None:
    _, inputs, graph = in_knots(METRO)
    search = least_sets.Search(graph, inputs, 0.0)
    least = frozenset(["CA1>CORE-A", "CB6>CORE-B", "R12>M2", "R56>M5"])
    assert least_sets.without_needless(search, least | {"R23>M3", "CA2>M2"}) == least
    removed = least_sets.without_needless(search, frozenset(graph))
    assert rings.rings_left(graph, removed) == [] and all(rings.rings_left(graph, removed - {one}) for one in removed)


def test_knots_apart_are_repaired_together() -> None:
    parts = [METRO.replace("version = 2\n", "")] * 2
    other = re.sub(r'(name|a|b|at) = "', r'\1 = "x-', parts[1])
    rows = [text.split("[[source]]", 1) for text in (parts[0], other)]
    links = [text[0].split("[[link]]", 1) for text in rows]
    text = "".join(
        [links[0][0], links[1][0], *("[[link]]" + one[1] for one in links), *("[[source]]" + one[1] for one in rows)]
    )
    network, _, graph = in_knots(text)
    repair = repairs.repair_of(network)
    assert repair.knots == [(24, 36, True)] * 2 and len(graph) == 48 and repair.is_least
    assert [found.cost for found in repair.sets] == [(0, 0, 0, 2028), (0, 0, 0, 2029), (0, 0, 0, 2029)]


def both_ways(elements: int) -> str:
    """The ladder with each of its links nominated at both ends."""
    plan = PlanLines(Document("ladder", forms.gen(elements).result.text.encode()))
    wanted = {
        ("link", number, f"priority_{end}"): 7
        for number, link in enumerate(plan.rows("link"), start=1)
        for end in "ab"
        if not link.get(f"priority_{end}")
    }
    return edits.changed(plan, wanted).decode()


def rings_of_rings(count: int, size: int) -> str:
    """A ring of so many core sites, and behind each two neighbours of it a ring of so many more, each link both ways."""
    links: list[tuple[str, str]] = []
    for core in range(count):
        behind = [f"C{core}", *(f"R{core}-{site}" for site in range(size)), f"C{(core + 1) % count}"]
        links += [(behind[0], behind[-1]), *zip(behind, behind[1:])]
    near = dict.fromkeys((end for link in links for end in link), 0)
    rows = []
    for number, (a, b) in enumerate(links):
        near[a], near[b] = near[a] + 1, near[b] + 1
        rows.append(f"L{number} {a} {near[a] + 1} {b} {near[b] + 1}")
    return planned(rows, ["S0 C0", f"S1 C{count // 2}"])


def test_a_knot_of_400_lines_is_repaired_at_the_least_cost() -> None:
    network, inputs, graph = in_knots(rings_of_rings(10, 18))
    repair = repairs.repair_of(network)
    assert len(graph) == 400 and repair.is_least and len(repair.sets) == repairs.SETS
    for found in repair.sets:
        removed = frozenset(line.name for line in found.lines)
        assert rings.rings_left(graph, removed) == [] and found.cost == inputs.cost(removed)
        assert all(rings.rings_left(graph, removed - {line}) for line in removed)


@TRIED
@given(st.integers(0, 2**32))
def test_rings_over_hops_weigh_least(seed: int) -> None:
    _, _, graph = in_knots(random_network(seed))
    lines, chance = sorted(graph), random.Random(seed)
    if not graph:
        return
    weights = [chance.choice([0.0, 0.25, 0.5, 1.0]) for _ in lines]
    heavy = dict(zip(lines, weights))
    sums = {frozenset(ring): sum(heavy[line] for line in ring) for ring in nx.simple_cycles(graph)}
    found = ring_weights.Weighed(graph, lines).rings(numpy.array(weights), 1.0)
    for ring in found:
        assert all(graph.has_edge(line, after) for line, after in zip(ring, [*ring[1:], ring[0]]))
        assert sums[frozenset(ring)] < 1.0
    assert bool(found) == (min(sums.values()) < 1.0 - 0.1)
    assert not found or sum(heavy[line] for line in found[0]) == min(sums.values())


FOUND = "(found, perhaps not least)"


@pytest.mark.long
@pytest.mark.parametrize(("elements", "kind"), [(12, "(least)"), (130, FOUND), (2000, FOUND)])
def test_a_large_knot_is_said_to_be_found_alone(folder: Path, elements: int, kind: str) -> None:
    (folder / "plan.toml").write_text(both_ways(elements))
    ran = murdjohe("repair", "plan.toml", "-o", "mended.toml", folder=folder)
    said = ran.out.decode()
    assert ran.status == 0 and kind in said and "\nchecked: accepted, " in said
    assert int(re.findall(r"a group of ([\d,]+) interlocked inputs", said)[0].replace(",", "")) > (
        40 if elements == 12 else 400
    )
    assert murdjohe("rank", "mended.toml", folder=folder).status == 0


@pytest.mark.parametrize("is_repository", [False, True])
@pytest.mark.parametrize("end", ["\n", "\r\n", ""])
def test_git_applies_the_patch(folder: Path, is_repository: bool, end: str) -> None:
    data = (METRO.rstrip("\n") if not end else METRO.replace("\n", end)).encode()
    place = folder / "plans"
    place.mkdir()
    (place / "naive.toml").write_bytes(data)
    environment = {**os.environ, "GIT_CEILING_DIRECTORIES": str(folder)}
    if is_repository:
        subprocess.run(["git", "init", "-q", str(place)], check=True, env=environment)
    ran = murdjohe("repair", "--patch", "naive.toml", folder=place)
    assert ran.status == 0 and "murdjohe: checked: accepted, agreed, 2 gaps\n" in ran.err
    run = subprocess.run(["git", "apply"], input=ran.out, cwd=place, env=environment, capture_output=True, check=False)
    assert run.returncode == 0, run.stderr
    after = (place / "naive.toml").read_bytes()
    assert after.count(b"= 0") == data.count(b"= 0") + 4 and murdjohe("rank", str(place / "naive.toml")).status == 0


@pytest.mark.parametrize(("number", "differ"), [(20, [3]), (20, [0, 19]), (20, [4, 11]), (20, [4, 10, 11]), (2, [1])])
def test_a_patch_is_that_of_diff(folder: Path, number: int, differ: list[int]) -> None:
    old = [f"key = {line}" for line in range(number)]
    new = ["other = 0" if line in differ else text for line, text in enumerate(old)]
    (folder / "old").write_text("\n".join(old))
    (folder / "new").write_text("\n".join(new))
    run = subprocess.run(["diff", "-U3", "old", "new"], capture_output=True, check=False)
    made = repairs.patch("old", (folder / "old").read_bytes(), (folder / "new").read_bytes())
    wanted = sorted(line for line in run.stdout.splitlines()[2:])
    assert sorted(line for line in made.splitlines()[2:]) == wanted


def test_a_plan_without_a_ring_is_left_alone() -> None:
    ran = murdjohe("repair", str(EXAMPLES / "metro-ring" / "plan.toml"))
    assert (ran.status, ran.out, ran.err) == (
        0,
        b"",
        "murdjohe: no loop is possible; checked: accepted, agreed, 2 gaps\n",
    )


@pytest.mark.parametrize("path", sorted(EXAMPLES.glob("*/*.toml")), ids=lambda path: f"{path.parent.name}/{path.name}")
def test_each_example_is_repaired(folder: Path, path: Path) -> None:
    ran = murdjohe("repair", str(path), "-o", "mended.toml", folder=folder)
    is_ring = murdjohe("rank", str(path)).status == 1
    is_clash = not is_ring and murdjohe("agree", str(path)).status == 1
    assert ran.status == 0 and ("\nchecked: accepted, agreed, " in ran.out.decode()) == (is_ring or is_clash)
    if is_ring or is_clash:
        assert murdjohe("rank", "mended.toml", folder=folder).status == 0
        assert murdjohe("agree", "mended.toml", folder=folder).status == 0


def test_what_can_not_be_repaired_is_told(folder: Path) -> None:
    ran = murdjohe("repair", "--patch", "-", stdin=METRO.encode())
    assert ran.status == 2 and "standard input has no name that a patch could have" in ran.err
    (folder / "bad.toml").write_text(METRO.replace('a = "M1"', 'a = "M99"', 1))
    ran = murdjohe("repair", "bad.toml", folder=folder)
    assert (ran.status, ran.out) == (3, b"") and 'link "R12" has end a "M99"' in ran.err
    (folder / "there").write_text("")
    ran = murdjohe("repair", "bad.toml", "-o", "there", folder=folder)
    assert ran.status == 22 and "there is there already" in ran.err
