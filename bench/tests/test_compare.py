"""What the comparisons work out for themselves, and that they find a program that answers otherwise."""

import collections
import random
import re
from pathlib import Path

import networkx
import pytest

from bench import networks
from bench.compare import (
    accepted,
    agree,
    cases,
    chains,
    damage,
    failures,
    fuzz,
    groups as ducts,
    node,
    nominate,
    protected,
)
from bench.levels import LEVELS
from bench.program import TOP, answer, parts_of, put_files
from bench.readings import groups
from bench.reference.node import node_text
from bench.reference.plan import Event, Link, Plan, PlanElement, Source, ladder, plan_text, read_plan
from bench.reference.runs_by_hand import CHAIN, CHAIN_REPORT, PAIR, PAIR_FACES, TWO_SOURCES


def program_of(folder: Path, text: str) -> str:
    """A program in shell."""
    path = folder / "program"
    path.write_text(f"#!/bin/sh\n{text}\n")
    path.chmod(0o755)
    return str(path)


def test_an_answer_has_the_status_and_each_octet(tmp_path: Path) -> None:
    program = program_of(tmp_path, 'printf \'\\377%s\' "$(cat "$1")"; exit 3')
    put_files(str(tmp_path), {"file": "ä"})
    assert answer(program, "file", folder=str(tmp_path)) == (3, "\xff\xc3\xa4")


def test_the_usage_of_a_script_stands_in_its_head() -> None:
    usage, head = parts_of(nominate.__doc__ or "")
    assert usage == "python3 -m bench.compare.nominate PROGRAM [--plans N] [--seed N] [--keep FOLDER]"
    assert "usage" not in head and head.startswith("Compares `hops` and `nominate`") and "networkx" in head


def test_cases_that_are_answered_otherwise_are_told(tmp_path: Path) -> None:
    program = program_of(tmp_path, 'cat "$2"; exit 1')
    same = cases.Case(("rank", "{}"), b"x", 1, b"x")
    others = [same, same._replace(status=0), same._replace(text=b"y")]
    assert [said.split(",")[0] for said in cases.differences(program, others)] == ["case 1", "case 2"]


def test_cases_are_written_for_rt_try(tmp_path: Path) -> None:
    cases.write(str(tmp_path / "cases"), [cases.Case(("rank", "{}"), b"x", 1, b"y")])
    written = {path.name: path.read_text() for path in (tmp_path / "cases").iterdir()}
    assert written == {"case00000": "x", "case00000.stdout": "y", "case00000.args": "rank\n{}\n"}


def test_rings_of_a_report_are_those_of_its_selections() -> None:
    senders = accepted.senders_of(read_plan(PAIR))
    taken = accepted.selections_of(PAIR_FACES)[10]
    assert taken == {"A": "L1>A", "B": "L1>B"}
    assert accepted.rings_of(senders, taken) == {frozenset(["L1>A", "L1>B"])}
    assert accepted.reported(PAIR_FACES) == ({frozenset(["L1>A", "L1>B"])}, False)
    assert accepted.rings_of(senders, {"A": "none", "B": "L1>B"}) == set()


def test_chains_are_counted_one_by_one() -> None:
    assert chains.rows_of(read_plan(CHAIN)) == [(0, 0, 0), (1, 1, 0), (2, 2, 0)]
    assert chains.rows_of(ladder(4)) == [(0, 0, 0), (1, 1, 0), (2, 2, 0), (3, 3, 0)]


def rows_by_hand(form: str) -> list[tuple[Plan, tuple[int, str]]]:
    """The plans of a form's table by hand, each with the answer that is wanted."""
    folder = TOP / "cases" / form
    rows = [
        row.split(" | ") for row in (folder / "table").read_text().splitlines() if re.match(rf"{form} \S+ \| [01]", row)
    ]
    return [
        (read_plan((folder / words.split()[1]).read_text()), (int(status), text.replace(" / ", "\n") + "\n"))
        for words, status, text in rows
    ]


def test_who_is_cut_off_is_told_as_by_hand() -> None:
    rows = rows_by_hand("protected")
    assert len(rows) == 11
    for plan, wanted in rows:
        assert protected.expected(plan, []) == wanted


def test_whom_groups_cut_off_is_told_as_by_hand_and_what_is_refused() -> None:
    folder, seen = TOP / "cases" / "groups", 0
    for row in (folder / "table").read_text().splitlines():
        found = re.fullmatch(r"protected (\S+\.toml) (\S+\.csv) \| ([015]) \| (.+)", row)
        if found:
            plan, data = read_plan((folder / found[1]).read_text()), (folder / found[2]).read_bytes()
            assert groups.protected_answer(plan, data) == (int(found[3]), found[4].replace(" / ", "\n") + "\n"), row
            seen += 1
    assert seen > 30


def test_many_rows_of_groups_are_refused() -> None:
    plan = read_plan((TOP / "cases" / "groups" / "four.toml").read_text())
    rows = b"group,kind,part\n" + b"".join(b"G%d,link,L1\n" % number for number in range(100_001))
    assert groups.protected_answer(plan, rows) == (5, "bad groups 33\n")
    assert len(groups.read_groups(plan, rows[: -len(b"G100000,link,L1\n")])) == 100_000


def test_what_agrees_is_told_as_by_hand() -> None:
    rows = rows_by_hand("agree")
    assert len(rows) == 12
    for plan, wanted in rows:
        assert agree.expected(plan) == wanted


def test_a_level_reaches_where_nothing_keeps_it_out() -> None:
    plan = read_plan(CHAIN)
    down, up, off = (Event(1, "down", ("link", 1)), Event(2, "up", ("line", 2)), Event(3, "esmc-off", ("line", 2)))
    assert agree.Standing(plan, []).reached() == {0, 1, 2}
    assert agree.Standing(plan, [down]).reached() == {0, 1}
    assert agree.Standing(plan, [down, up]).reached() == {0, 1, 2}
    assert agree.Standing(plan, [off, Event(4, "lockout", ("line", 0))]).reached() == {0}
    assert agree.Standing(plan, [Event(1, "level", ("source", 0), "QL-SEC")]).reached() == set()


def test_a_failure_goes_down_in_the_events() -> None:
    failures = {failure.kind: failure for failure in protected.failures_of(read_plan(CHAIN))}
    head = "at,what,target,value\n"
    assert protected.events_of(read_plan(CHAIN), failures["none"]) == head
    last = protected.events_of(read_plan(CHAIN), failures["element"]._replace(links={1, 0}, sources={0}))
    assert last == head + "20000,down,L1,\n20000,down,L2,\n20000,down,S,\n"


def test_the_worst_source_that_is_left_bounds_what_a_failure_may_do() -> None:
    two = read_plan(TWO_SOURCES.replace('"S2"\nat = "A"\nlevel = "QL-PRC"', '"S2"\nat = "A"\nlevel = "QL-SSU-B"'))
    levels = LEVELS["I"]
    assert protected.worst_of(two, set()) == levels.index("QL-SSU-B")
    assert protected.worst_of(two, {1}) == levels.index("QL-PRC")
    assert protected.worst_of(two, {0, 1}) is None
    floored = read_plan(CHAIN.replace('name = "B"', 'name = "B"\nfloor = "QL-PRTC"'))
    assert protected.worst_of(floored, set()) is None
    useless = read_plan(CHAIN.replace('level = "QL-PRC"', 'level = "QL-DNU"'))
    assert protected.worst_of(useless, set()) is None


def test_an_element_in_reach_that_is_worse_off_is_told() -> None:
    plan = read_plan(CHAIN)
    none, first, *_ = protected.failures_of(plan)
    levels = protected.levels_at_end(plan, CHAIN_REPORT)
    assert levels == {"A": "QL-PRC", "B": "QL-PRC", "C": "QL-PRC"}
    worst = LEVELS["I"].index("QL-PRC")
    assert not list(protected.worse_off(plan, none, worst, levels))
    later = levels | {"C": "QL-SSU-A"}
    assert list(protected.worse_off(plan, none, worst, later)) == ["none : C has QL-SSU-A"]
    assert not list(protected.worse_off(plan, first, worst, later))


def test_nomination_goes_by_hops() -> None:
    links = [{"name": "L", "a": "A", "b": "B", "bundle": None}, {"name": "M", "a": "B", "b": "C", "bundle": None}]
    sources = [{"name": "S", "at": "A", "priority": 3}]
    counts = nominate.counts_of(["A", "B", "C", "D"], links, sources)
    assert counts == {"A": 0, "B": 1, "C": 2}
    assert nominate.priorities_of(["A", "B", "C", "D"], links, sources, counts) == [1, 0, 1, 0]
    text = nominate.hops_text(["A", "B", "C", "D"], links, sources, counts)
    assert text == "element,hops,from\nA,0,S\nB,1,L>B\nC,2,M>C\nD,none,none\n"


def test_damage_is_the_same_by_its_seed_and_has_answers_of_the_right_form() -> None:
    for reader, whole in damage.READERS.items():
        for seed in range(15):
            made = [damage.damaged(chance, reader, whole(chance).data) for chance in (random.Random(seed),) * 2]
            chance = random.Random(seed)
            one = whole(chance)
            assert damage.damaged(chance, reader, one.data) == made[0]
            wanted = fuzz.expected(random.Random(0), one, made[0])
            if wanted is not None:
                form = fuzz.FORMS[one.words[0]][wanted[0]]
                assert re.fullmatch(form, wanted[1]), (one.words, wanted)


def test_the_form_of_an_answer_is_looked_at() -> None:
    right = (0, b"line,rank\nL>A,0\n", b"", 0.0)
    assert list(fuzz.faults_of(["rank"], None, right)) == []
    assert list(fuzz.faults_of(["rank"], (0, b"line,rank\n"), right)) == ["differ"]
    assert list(fuzz.faults_of(["rank"], None, (0, b"line,rank\nL>A,x\n", b"", 2.0))) == ["form", "slow"]
    assert list(fuzz.faults_of(["rank"], None, (-9, b"", b"", 0.0))) == ["hang"]
    assert list(fuzz.faults_of(["rank"], None, (0, b"", b"panic", 0.0))) == ["complaint"]


def test_an_element_alone_gives_what_it_gave_in_its_network() -> None:
    chance = random.Random(4)
    for _ in range(1):
        run, e, case = node.random_run(chance, [0, 500])
        wanted = node.frames_of_run(run, e)
        assert node_text(case.plan, case.element, case.data, case.until) == (0, wanted)


@pytest.mark.parametrize("kind", ["operator", "random", "ring"])
@pytest.mark.parametrize("count", [2, 5, 40, 500])
def test_a_network_has_so_many_elements_in_one_piece(kind: str, count: int) -> None:
    plan = networks.network(kind, count)
    assert len(plan.elements) == count and plan.sources
    assert all(link.a != link.b for link in plan.links)
    graph = networkx.Graph([(link.a, link.b) for link in plan.links])
    assert graph.number_of_nodes() == count and networkx.is_connected(graph)
    assert plan_text(plan) == plan_text(networks.network(kind, count))


def test_a_failed_part_changes_no_later_than_its_bound_by_hand() -> None:
    plan = read_plan(plan_text(networks.network("ring", 3)))
    assert [event.what for event in failures.losses(random.Random(1), plan, 1000)] == ["down"] * 2
    assert len(list(failures.single_failures(plan, 1))) == 3 + 1 + 3


def test_networks_with_ducts_are_in_one_piece_and_have_groups_of_their_parts() -> None:
    for seed in range(5):
        plan, found = ducts.near_network(random.Random(seed), 30)
        assert len(plan.links) >= 45 and 10 <= len(found) <= 20
        assert protected.cut_off(plan, next(protected.failures_of(plan)))[0] == set(range(30))
        ends = collections.Counter(end for link in plan.links for end in (link.a, link.b))
        assert min(ends.values()) >= 2
        assert groups.read_groups(plan, protected.groups_text(found).encode()) == found


def test_the_most_groups_are_found_by_all_nominations() -> None:
    """Clocks at A and B; of two groups either is covered, and not both."""
    elements = [PlanElement(name, "QL-SEC", None, 300, 0) for name in "ABCD"]
    pairs = [(0, 2), (0, 3), (1, 2), (2, 3)]
    links = [Link(f"L{k}", a, b, 0, 0, 1, 1, None) for k, (a, b) in enumerate(pairs)]
    plan = Plan("I", elements, links, [Source("S0", 0, "QL-PRC", 1), Source("S1", 1, "QL-PRC", 1)])
    north = protected.Group("north", [("link", "L0"), ("link", "L2")])
    south = protected.Group("south", [("link", "L1"), ("link", "L2")])
    assert ducts.most_covered(plan, [north, south], 0) == 1
    assert ducts.most_covered(plan, [north], 0) == ducts.most_covered(plan, [south], 0) == 1


def test_parts_of_a_group_that_face_each_other_are_found() -> None:
    plan = read_plan((TOP / "cases" / "groups" / "four.toml").read_text())
    group = protected.Group("halls", [("element", "B"), ("element", "X")])
    k = next(k for k, link in enumerate(plan.links) if {link.a, link.b} == {1, 3})
    assert not ducts.is_apart(plan, group, [])
    assert ducts.is_apart(plan, group, [Event(1, "down", ("link", k))])
    assert ducts.is_apart(plan, protected.Group("hall", [("element", "B")]), [])
