"""`lint`: each finding on a plan that earns it, with its line; none on a plan that earns none."""

from __future__ import annotations

import json
import random
from pathlib import Path

import pytest
from conftest import CASES, EXAMPLES, murdjohe
from hypothesis import given, settings
from hypothesis import strategies as st
from plans_spelled import spelled
from random_plans import random_plan
from test_repair import random_network

import murdjohe as forms
from murdjohe.answers.reports import Chain, Gap
from murdjohe.core.documents import Document
from murdjohe.network import findings
from murdjohe.network.findings import KINDS, Finding, Said
from murdjohe.plan import edits
from murdjohe.plan.plan_lines import PlanLines

# Two clocks at A and B, and C with a reserve: nothing to be found.
GOOD = "version = 2\n" + spelled(
    *("element A floor=QL-SSU-B", "element B floor=QL-SSU-B", "element C"),
    *("link L1 a=A b=B priority_a=2 priority_b=2", "link L2 a=A b=C priority_b=1", "link L3 a=B b=C priority_b=2"),
    *("source prc-1 at=A level=QL-PRC", "source prtc-2 at=B level=QL-PRTC priority=1"),
)
SOURCES = GOOD[GOOD.index("[[source]]") :]


def test_nothing_is_found_in_a_good_plan() -> None:
    ran = murdjohe("lint", "-", stdin=GOOD.encode())
    assert (ran.status, ran.out) == (0, b"")
    checked, times = ran.err.splitlines()
    assert checked == "murdjohe: 0 errors, 0 warnings, 0 notes; checked: accepted, agreed, protected"
    assert "every element that can still have a clock follows one within 0.306 s" in times


@pytest.mark.parametrize(
    ("old", "new", "said"),
    [
        (SOURCES, "", [(1, "error", "there is no source"), (2, "error", 'element "A" has inputs, and none'), (5, "error", ""), (8, "error", "")]),
        ("priority = 1\n", "priority = 0\n", [(5, "warning", 'element "B" has one way in, L1>B'), (10, "warning", 'a failure of link "L1" cuts off B though'), (34, "warning", 'source "prtc-2" isn\'t nominated')]),
        ('level = "QL-PRC"', 'level = "QL-DNU"', [(29, "warning", 'source "prc-1" has QL-DNU, so no element'), (29, "note", "by its name it would give QL-PRC")]),
        ('level = "QL-PRC"', 'level = "QL-SSU-A"', [(29, "note", 'source "prc-1" has QL-SSU-A, and by its name')]),
        ('b = "C"\npriority_b = 1\n', 'b = "C"\n', [(5, "warning", 'a failure of element "B" cuts off C though'), (8, "warning", 'element "C" has one way in, L3>C'), (20, "warning", 'of link "L3" cuts off C')]),
        ("priority_b = 1\n[[link]]", "[[link]]", [(5, "warning", "cuts off C"), (8, "warning", 'element "C" has one way in'), (20, "warning", "cuts off C")]),
        ('b = "C"\npriority_b = 2', 'b = "C"\npriority_b = 1', [(25, "warning", 'element "C" gives L2>C and L3>C the same priority, 1')]),
        ("priority = 1\n", "priority = 2\n", [(15, "warning", 'element "B" gives prtc-2 and L1>B the same priority, 2')]),
        ('name = "A"\nfloor = "QL-SSU-B"\n', 'name = "A"\n', [(13, "warning", 'link "L1" is nominated at both ends, and A would follow')]),
        ('name = "A"\nfloor = "QL-SSU-B"\n', 'name = "A"\nfloor = "QL-SEC"\n', [(14, "warning", "and A would follow")]),
        ("[[source]]", '[[element]]\nname = "D"\n[[source]]', [(26, "error", 'element "D" has no nominated input')]),
    ],
)  # fmt: skip
def test_each_finding_is_told_with_its_line(old: str, new: str, said: list[tuple[int, str, str]]) -> None:
    assert old in GOOD
    ran = murdjohe("lint", "-", "--json", stdin=GOOD.replace(old, new, 1).encode())
    found = json.loads(ran.out)["answer"]
    assert [(one["line"], one["kind"]) for one in found] == [(line, kind) for line, kind, _ in said]
    assert all(what in one["what"] and one["remedy"] for one, (_, _, what) in zip(found, said))
    assert ran.status == (1 if any(kind == "error" for _, kind, _ in said) else 0)


def test_one_bundle_is_one_way() -> None:
    plan = GOOD.replace('b = "C"', 'b = "C"\nbundle = "G"', 1).replace(
        'a = "B"\nb = "C"', 'a = "A"\nb = "C"\nbundle = "G"'
    )
    plan += '[[link]]\nname = "L9"\na = "B"\nb = "C"\n'
    ran = murdjohe("lint", "-", stdin=plan.encode())
    assert (
        'warning: element "C" has one way in, all its inputs are of bundle G; nominate another way' in ran.out.decode()
    )


def test_a_ring_is_an_error_by_the_word_of_the_program(folder: Path) -> None:
    path = EXAMPLES / "mesh" / "looping.toml"
    ran = murdjohe("lint", str(path))
    (line,) = [line for line in ran.out.decode().splitlines() if "timing may go round" in line]
    ring = murdjohe("rank", str(path)).out.decode().split()[1:]
    assert ran.status == 1 and f"over {' -> '.join([*ring, ring[0]])}; `murdjohe repair`" in line
    assert "; checked: cycle " in ran.err and ": error: " in line


# The link between A and B has the first place at both ends, before their sources.
CLASH = GOOD.replace("priority_a = 2\npriority_b = 2", "priority_a = 1\npriority_b = 1").replace(
    'level = "QL-PRC"', 'level = "QL-PRC"\npriority = 2'
)


def test_a_clash_is_told_with_what_to_change(folder: Path) -> None:
    plan = CLASH.replace('level = "QL-PRTC"\npriority = 1', 'level = "QL-PRTC"\npriority = 3')
    ran = murdjohe("lint", "-", stdin=plan.encode())
    assert ran.status == 1
    assert ran.out.decode() == (
        "standard input:14: error: oscillating priorities: elements may take and drop timing for ever over "
        "L1>B -> L1>A -> L1>B; give L1>A the lowest priority at A: priority_a = 3 or more of link L1\n"
    )
    assert murdjohe("agree", "-", stdin=plan.encode()).out == b"clash L1>B L1>A\n"
    mended = plan.replace("priority_a = 1", "priority_a = 3")
    assert murdjohe("agree", "-", stdin=mended.encode()).out.startswith(b"agreed\n")
    assert murdjohe("lint", "-", stdin=mended.encode()).out == b""


def test_a_line_without_room_below_the_others_is_not_told_to_be_the_last() -> None:
    plan = CLASH.replace("priority = 2", "priority = 255").replace('QL-PRTC"\npriority = 1', 'QL-PRTC"\npriority = 255')
    (found,) = [one for one in told_of(Said(clash=("L1>B", "L1>A")), plan) if "oscillating" in one.what]
    assert found.remedy == "take the priority of L1>B or L1>A away"


def test_a_clash_is_told_only_where_no_ring_is() -> None:
    path = EXAMPLES / "mesh" / "looping.toml"
    assert murdjohe("agree", str(path)).out.startswith(b"clash ")
    assert "oscillating" not in murdjohe("lint", str(path)).out.decode()


@settings(max_examples=max(15, CASES))
@given(st.integers(0, 2**32))
def test_a_last_resort_that_is_told_ends_its_clash(seed: int) -> None:
    text = random_network(seed)
    plan = PlanLines(Document("plan.toml", text.encode()))
    clash, ring = forms.agree(text.encode()).result.clash, forms.rank(text.encode()).result.ring
    if clash is None or ring is not None:
        return
    last = findings.last_resort(findings.Looked(plan), clash)
    assert last is not None and last.line.name in clash
    changed = edits.changed(plan, {("link", last.line.number, last.line.key): last.priority})
    assert forms.agree(changed).result.clash != clash


def told_of(said: Said, plan: str = GOOD) -> list[Finding]:
    """What is found where the program says this of a plan in which nothing else is found."""
    return findings.findings_of(PlanLines(Document("plan.toml", plan.encode())), said)


def test_a_gap_stands_where_what_fails_stands() -> None:
    plan = GOOD.replace('b = "C"', 'b = "C"\nbundle = "G"', 1)
    gaps = (
        Gap("link", "L3", 1, "C"),
        Gap("bundle", "G", 2, "B"),
        Gap("source", "prtc-2", 1, "B"),
        Gap("element", "A", 3, "B"),
    )
    found = told_of(Said(gaps=gaps), plan)
    assert [(one.line, one.kind, one.what.split(" though")[0]) for one in found] == [
        (2, "warning", 'a failure of element "A" cuts off 3 elements, B first,'),
        (20, "warning", 'a failure of bundle "G" cuts off 2 elements, B first,'),
        (22, "warning", 'a failure of link "L3" cuts off C'),
        (31, "warning", 'a failure of source "prtc-2" cuts off B'),
    ]


def test_who_is_cut_off_without_a_failure_is_told_once() -> None:
    gaps = (
        Gap("none", None, 2, "B"),
        Gap("link", "L1", 2, "B"),
        Gap("link", "L2", 3, "B"),
        Gap("element", "A", 1, "C"),
    )
    assert [one.line for one in told_of(Said(gaps=gaps))] == [16]


def test_a_chain_that_is_too_long_is_told_at_the_longest() -> None:
    assert told_of(Said(chains=(Chain("A", 60, 20, 10), Chain("B", 60, 20, 10)))) == []
    chains = (Chain("A", 61, 20, 10), Chain("B", 75, 20, 10), Chain("C", 60, 21, 11))
    found = told_of(Said(chains=chains))
    assert [(one.line, one.kind, one.what) for one in found] == [
        (
            5,
            "warning",
            'element "B" may come to a chain of 75 lines, where G.803 has 60, and 1 other element to more than 60',
        ),
        (8, "warning", 'element "C" may come to a chain of 21 lines since a filter, where G.803 has 20'),
        (8, "warning", 'element "C" may come to a chain of 11 filters, where G.803 has 10'),
    ]


def test_chains_are_the_programs() -> None:
    found = json.loads(murdjohe("lint", "-", "--json", stdin=murdjohe("gen", "70").out).out)["answer"]
    assert [one["what"] for one in found if "chain" in one["what"]] == [
        'element "E69" may come to a chain of 69 lines, where G.803 has 60, and 8 other elements to more than 60',
        'element "E69" may come to a chain of 69 lines since a filter, where G.803 has 20, and 48 other elements to more than 20',
    ]


def test_an_empty_plan_is_an_error() -> None:
    ran = murdjohe("lint", "-", stdin=b"")
    assert ran.status == 1 and "error: there is no element in the plan" in ran.out.decode()
    ran = murdjohe("lint", "-", stdin=b"x")
    assert ran.status == 3 and "it is no TOML document" in ran.err


@pytest.mark.parametrize("path", sorted(EXAMPLES.glob("*/*.toml")), ids=lambda path: f"{path.parent.name}/{path.name}")
def test_each_example_is_looked_at(path: Path) -> None:
    ran = murdjohe("lint", str(path))
    count = len(path.read_text().splitlines())
    for line in ran.out.decode().splitlines():
        place, kind, *rest = line.removeprefix(f"{path}:").split(": ", 2)
        assert 1 <= int(place) <= count and kind in KINDS and "; " in rest[0]
    assert ran.status == (1 if ": error: " in ran.out.decode() else 0)


@settings(max_examples=max(20, CASES))
@given(st.integers(0, 2**32))
def test_findings_stand_in_the_order_of_the_file(seed: int) -> None:
    text, _ = random_plan(random.Random(seed)).text()
    found = findings.findings_of(PlanLines(Document("plan.toml", text.encode())), Said())
    assert [one.line for one in found] == sorted(one.line for one in found)
    assert len(set(found)) == len(found)


@pytest.mark.parametrize(
    ("name", "option", "level"),
    [
        ("prc-east", "I", "QL-PRC"), ("PRTC_1", "I", "QL-PRTC"), ("bern-ssu-a", "I", "QL-SSU-A"),
        ("prs-west", "II", "QL-PRS"), ("prs-west", "I", None), ("gnss-a", "I", None), ("prc-prtc", "I", None),
        ("eprtc", "I", "QL-ePRTC"), ("sprc", "I", None),
    ],
)  # fmt: skip
def test_levels_in_names(name: str, option: str, level: str | None) -> None:
    assert findings.named_level(name, option) == level


def test_all_mistakes_of_a_refused_plan_are_told(folder: Path) -> None:
    changes = (
        ('name = "A"\n', 'name = "A.1"\n'),
        ('name = "L2"', 'name = "L1"'),
        ('b = "C"\npriority_b = 1', 'b = "c"\npriority_b = 1'),
        ('level = "QL-PRC"', 'level = "PRC"'),
        ("priority = 1", "priority = 256"),
        ('floor = "QL-SSU-B"\n[[element]]\nname = "C"', 'floor = "QL-DNU"\n[[element]]\nname = "C"'),
    )
    plan = GOOD
    for old, new in changes:
        assert old in plan
        plan = plan.replace(old, new, 1)
    (folder / "plan.toml").write_text(plan)
    for words in (["lint", "plan.toml"], ["repair", "plan.toml"], ["orders", "plan.toml"]):
        ran = murdjohe(*words, folder=folder)
        said = [line.removeprefix("murdjohe: plan.toml:") for line in ran.err.splitlines()]
        assert (ran.status, ran.out) == (3, b"") and said[0].startswith('3: `name = "A.1"`: ')
        assert [(line.split(":")[0], line.split(": ")[1].split(",")[0]) for line in said[1:]] == [
            ("7", "floor is 'QL-DNU'"),
            ("12", "a is 'A'"),
            ("17", "name is 'L1'"),
            ("18", "a is 'A'"),
            ("19", "b is 'c'"),
            ("28", "at is 'A'"),
            ("29", "level is 'PRC'"),
            ("34", "priority is '256'"),
        ]


def test_of_many_mistakes_of_a_plan_twenty_are_told() -> None:
    plan = GOOD + "".join(f'[[element]]\nname = "x.{number}"\n' for number in range(30))
    lines = murdjohe("lint", "-", stdin=plan.encode()).err.splitlines()
    assert len(lines) == 21 and lines[-1] == "murdjohe: and 10 more mistakes"


def test_a_file_whose_name_is_no_text_is_looked_at(folder: Path) -> None:
    name = b"plan\xff.toml"
    (Path(str(folder)) / name.decode("utf-8", "surrogateescape")).write_text(
        GOOD.replace("priority = 1\n", "priority = 0\n")
    )
    ran = murdjohe("lint", name.decode("utf-8", "surrogateescape"), folder=folder)
    assert ran.status == 0 and ran.out.startswith(name + b":5: warning: ")
