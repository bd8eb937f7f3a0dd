"""`failures`: tables of cases by hand, of random plans against what they say, and what can't be written."""

from __future__ import annotations

import csv
import io
import json
import random
from itertools import combinations
from pathlib import Path

import pytest
from conftest import CASES, EXAMPLES, murdjohe
from hypothesis import given, settings
from hypothesis import strategies as st
from random_plans import random_plan

import murdjohe as forms
from murdjohe.core.documents import Document
from murdjohe.plan.model import plan_of
from murdjohe.plan.plan_lines import PlanLines
from murdjohe.runs import failures

PLAN = """version = 2
element = [{ name = "A" }, { name = "B" }, { name = "C" }]
link = [
  { name = "L1", a = "A", b = "B", priority_b = 1, bundle = "G" },
  { name = "L2", a = "A", b = "B", priority_b = 2, bundle = "G" },
]
source = [{ name = "A-clock", at = "A", level = "QL-PRC" }]
"""
HEAD = "case,at,what,target,value\n"


# Each case with what goes down in it.
PAIRS = "L1--L2:L1 L1--L2:L2 L1--A-clock:L1 L1--A-clock:A-clock L2--A-clock:L2 L2--A-clock:A-clock G--A-clock:L1 "
PAIRS += "G--A-clock:L2 G--A-clock:A-clock"


@pytest.mark.parametrize(
    ("words", "rows", "said"),
    [
        ("", "L1:L1 L2:L2", "2 cases, 2 rows"),
        ("--bundles", "G:L1 G:L2", "1 case, 2 rows"),
        ("--sources --at 2s", "A-clock:A-clock", "1 case, 1 row"),
        # (C has nothing that could go down)
        ("--elements", "A:L1 A:L2 A:A-clock B:L1 B:L2", "2 cases, 5 rows"),
        ("--links --bundles --sources --pairs", f"L1:L1 L2:L2 G:L1 G:L2 A-clock:A-clock {PAIRS}", "8 cases, 14 rows"),
        ("--links --pairs --cases 2-3", "L2:L2 L1--L2:L1 L1--L2:L2", "2 cases, 3 rows"),
        ("--cases 7-9", "", "0 cases, 0 rows"),
    ],
)
def test_cases_by_hand(folder: Path, words: str, rows: str, said: str) -> None:
    (folder / "plan.toml").write_text(PLAN)
    ran = murdjohe("failures", "plan.toml", *words.split(), folder=folder)
    at = "2000" if "--at" in words else "600000"
    wanted = [f"{case},{at},down,{part},\n" for case, part in (row.split(":") for row in rows.split())]
    assert (ran.status, ran.out.decode()) == (0, HEAD + "".join(wanted))
    down = "00:00:02.000 (2,000 ms)" if "--at" in words else "00:10:00.000 (600,000 ms)"
    end = "00:00:03.000 (3,000 ms)" if "--at" in words else "00:10:01.000 (601,000 ms)"
    chosen = "0.302 s after the last failure (`failures F` of `agree`), rounded up to a whole second"
    look = f"murdjohe: look at them at {end}: {chosen}\n"
    assert ran.err == f"murdjohe: {said}\nmurdjohe: what fails goes down at {down}\n{look}"


def test_groups_and_common_events(folder: Path) -> None:
    (folder / "plan.toml").write_text(PLAN)
    (folder / "ducts.csv").write_text("Name;Links\nduct-7;L2 L1\nL1;L1\nduct-7;L1\n")
    (folder / "works.csv").write_text("at,what,target,value\n5,lockout,L1>B,\n\n9,level,A-clock,QL-SSU-A\n")
    words = ["failures", "plan.toml", "--groups", "ducts.csv", "--during", "works.csv", "--at", "9"]
    ran = murdjohe("--quiet", *words, folder=folder)
    common = ",5,lockout,L1>B,\n,9,level,A-clock,QL-SSU-A\n"
    assert (ran.status, ran.err) == (0, "")
    assert ran.out.decode() == HEAD + common + "duct-7,9,down,L1,\nduct-7,9,down,L2,\nL1,9,down,L1,\n"
    found = json.loads(murdjohe(*words, "--json", "--links", folder=folder).out)["answer"]
    assert found["at"] == 9 and [event["target"] for event in found["during"]] == ["L1>B", "A-clock"]
    # (a link L1 was there before the group of this name)
    assert [case["case"] for case in found["cases"]] == ["L1", "L2", "duct-7", "group-4"]
    assert found["cases"][2] == {
        "case": "duct-7",
        "failures": [{"kind": "group", "name": "duct-7"}],
        "down": ["L1", "L2"],
    }


def test_names_are_apart_and_no_longer_than_names_are() -> None:
    long = ["x" * 32, "y" * 15, "z" * 15, "w" * 16]
    found = [failures.Failure("link", name, (name,)) for name in [*long, "pair-8"]]
    names = [case.name for case in failures.cases_of(found, True, {one.name: 0 for one in found})]
    assert names[:5] == [*long, "pair-8"] and len(set(names)) == len(names) == 15
    assert names[9] == f"{long[1]}--{long[2]}" and names[5:8] == ["pair-6", "pair-7", "pair-8-"]
    assert all(failures.NAME.fullmatch(name) for name in names)


names = st.lists(
    st.text("ab-", min_size=1, max_size=6) | st.sampled_from(["pair-4", "pair-5", "link-2", "-", "--"]), max_size=7
)


@given(names, names)
def test_names_of_cases_are_those_of_a_list_of_all_names(links: list[str], groups: list[str]) -> None:
    """A plain way to name cases keeps all names that were given; only some of them have to be kept."""
    found = [failures.Failure("link", name, (f"{number}",)) for number, name in enumerate(dict.fromkeys(links))]
    found += [failures.Failure("group", name, (f"g{number}",)) for number, name in enumerate(dict.fromkeys(groups))]
    taken: set[str] = set()
    wanted = []
    for number, together in enumerate(failures.sets_of(found, True), start=1):
        name = "--".join(one.name for one in together)
        if len(name) > 32 or name in taken:
            name = f"{together[0].kind}-{number}" if len(together) == 1 else f"pair-{number}"
        while name in taken:
            name += "-"
        taken.add(name)
        wanted.append(name)
    order = {part: number for number, part in enumerate(part for one in found for part in one.down)}
    assert [case.name for case in failures.cases_of(found, True, order)] == wanted
    assert failures.count_of(found, True) == len(wanted)


def test_of_millions_of_pairs_few_names_are_kept() -> None:
    found = [failures.Failure("link", f"L{number}", (f"L{number}",)) for number in range(60)]
    kept = failures.CaseNames(found)
    given = {kept.name_of(number, together) for number, together in enumerate(failures.sets_of(found, True), 1)}
    assert len(given) == 60 * 61 // 2 and len(kept.taken) == 60


@settings(max_examples=max(30, CASES), deadline=None)
@given(st.integers(0, 2**32))
def test_random_plans_have_a_case_for_each_failure(seed: int) -> None:
    text, _ = random_plan(random.Random(seed)).text()
    tables = PlanLines(Document("plan.toml", text.encode())).tables
    found = failures.failures_of(plan_of(tables), failures.KINDS)
    parts = {row["name"] for row in (*tables["link"], *tables.get("source", []))}
    assert {one.down for one in found if one.kind in ("link", "source")} == {(name,) for name in parts}
    for one in found:
        if one.kind == "element":
            ends = {row["name"] for row in tables["link"] if one.name in (row["a"], row["b"])}
            assert set(one.down) == ends | {row["name"] for row in tables["source"] if row["at"] == one.name}
    cases = list(failures.cases_of(found, True, failures.in_order(plan_of(tables))))
    assert len({case.name for case in cases}) == len(cases)
    apart = [(one, other) for one, other in combinations(found, 2) if not set(one.down) <= set(other.down)]
    assert len(cases) == len(found) + sum(not set(other.down) <= set(one.down) for one, other in apart)
    table = failures.table_of([], cases, 7).decode()
    rows = list(csv.reader(io.StringIO(table)))[1:]
    assert [row[0] for row in rows] == [case.name for case in cases for _ in case.down]
    assert all(row[1:3] == ["7", "down"] and row[3] in parts for row in rows)


def test_the_program_takes_each_case_of_an_example(folder: Path) -> None:
    plan = EXAMPLES / "ring" / "plan.toml"
    ran = murdjohe("failures", str(plan), "--links", "--elements", "--pairs", "-o", "cases.csv", folder=folder)
    assert (ran.status, ran.out) == (0, b"")
    own: dict[str, list[str]] = {}
    for case, *row in list(csv.reader(io.StringIO((folder / "cases.csv").read_text())))[1:]:
        own.setdefault(case, []).append(",".join(row))
    for rows in own.values():
        events = "\n".join(["at,what,target,value", *rows]) + "\n"
        assert forms.sim(plan, events.encode(), 0).status == 0


@pytest.mark.parametrize(
    ("words", "status", "said"),
    [
        (["plan.toml", "--cases", "3-2"], 2, "--cases: '3-2' is no span of cases"),
        (["plan.toml", "--cases", "0-2"], 2, "--cases: '0-2' is no span of cases"),
        (["plan.toml", "--at", "25h"], 2, "--at: at most a day, 24h"),
        (["plan.toml", "--groups", "none.csv"], 7, "none.csv: No such file"),
        (
            ["plan.toml", "--groups", "bad.csv"],
            24,
            "bad.csv:2: links: 'L9' names no link of the plan (nearest: \"L2\")",
        ),
        (["plan.toml", "--groups", "bad.csv"], 24, "bad.csv:3: 'a b' is no name of a group"),
        (["plan.toml", "--groups", "bad.csv"], 24, "bad.csv:4: the group 'c' has no links"),
        (["plan.toml", "--during", "bad.csv"], 5, "bad.csv"),
        (["plan.toml", "-o", "bad.csv"], 22, "bad.csv is there already"),
        (["bad.csv"], 3, "bad.csv"),
        (["none.toml"], 7, "none.toml: No such file"),
    ],
)
def test_what_can_not_be_written(folder: Path, words: list[str], status: int, said: str) -> None:
    (folder / "plan.toml").write_text(PLAN)
    bad = "name,links\nduct,L1 L9\na b,L1\nc,\n"
    (folder / "bad.csv").write_text(bad)
    ran = murdjohe("failures", *words, folder=folder)
    assert (ran.status, ran.out) == (status, b"") and said in ran.err
    assert (folder / "bad.csv").read_text() == bad


def test_more_than_the_program_takes_is_told(folder: Path) -> None:
    links = "".join(f'[[link]]\nname = "L{number}"\na = "A"\nb = "B"\n' for number in range(400))
    (folder / "plan.toml").write_text('[[element]]\nname = "A"\n[[element]]\nname = "B"\n' + links)
    ran = murdjohe("failures", "plan.toml", "--pairs", "-o", "cases.csv", folder=folder)
    assert ran.status == 2 and "80,200 cases have 160,000 rows" in ran.err and not (folder / "cases.csv").exists()
    ran = murdjohe("failures", "plan.toml", "--pairs", "--cases", "401-40400", "-o", "cases.csv", folder=folder)
    assert (ran.status, (folder / "cases.csv").read_bytes().count(b"\n")) == (0, 80_001)
