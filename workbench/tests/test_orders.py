"""`orders`: what is to be set at each element, by hand for a small plan, and for random ones against what the plan says."""

from __future__ import annotations

import csv
import json
import random
from pathlib import Path

import pytest
from conftest import CASES, EXAMPLES, murdjohe
from hypothesis import given, settings
from hypothesis import strategies as st
from plans_spelled import spelled
from random_plans import random_plan

from murdjohe.core.documents import Document
from murdjohe.network import orders
from murdjohe.plan.plan_lines import PlanLines

PLAN = "version = 2\n" + spelled(
    *("element A own=QL-SSU-A", "element B floor=QL-SSU-B holdoff=500", "element C wtr=0"),
    *("link L1 a=A b=B priority_b=2 bundle=G", "link L2 a=B b=A priority_a=2 bundle=G"),
    *("link L3 a=B b=C priority_a=9", "source S at=A level=QL-PRC"),
)
TEXT = """A
  1st  source S (priority 1)
  floor none, hold-off 300 ms, wait-to-restore 5 min, internal oscillator (own clock) QL-SSU-A
B
  1st  L1 from A, bundle G (priority 2)
  1st  L2 from A, bundle G (priority 2)
  3rd  L3 from C (priority 9)
  floor QL-SSU-B, hold-off 500 ms, wait-to-restore 5 min, internal oscillator (own clock) QL-SEC
C
  no input
  floor none, hold-off 300 ms, wait-to-restore 0 min, internal oscillator (own clock) QL-SEC
"""
TABLE = """element,place,priority,input,neighbour,link,bundle,floor,holdoff,wtr,own
A,1,1,S,,,,none,300,5,QL-SSU-A
B,1,2,L1>B,A,L1,G,QL-SSU-B,500,5,QL-SEC
B,1,2,L2>B,A,L2,G,QL-SSU-B,500,5,QL-SEC
B,3,9,L3>B,C,L3,,QL-SSU-B,500,5,QL-SEC
C,,,,,,,none,300,0,QL-SEC
"""
CHANGES = """B
  priority of L2>B: 4, which was 2
  priority of L3>B: none, which was 9
  floor: none, which was QL-SSU-B
C
  priority of L3>C: 1, which was none
"""


def test_orders_of_a_small_plan(folder: Path) -> None:
    (folder / "plan.toml").write_text(PLAN)
    ran = murdjohe("orders", "plan.toml", folder=folder)
    assert (ran.status, ran.out.decode(), ran.err) == (0, TEXT, "murdjohe: checked: accepted, agreed\n")
    assert murdjohe("orders", "plan.toml", "--csv", folder=folder).out.decode() == TABLE
    table = list(csv.DictReader(TABLE.splitlines()))
    for words in (["orders", "plan.toml", "--json"], ["--json", "orders", "plan.toml"]):
        assert json.loads(murdjohe(*words, folder=folder).out)["answer"] == table
    lines = murdjohe("orders", "plan.toml", "--markdown", folder=folder).out.decode().splitlines()
    assert lines[0] == "| " + " | ".join(TABLE.splitlines()[0].split(",")) + " |" and lines[1].count("---") == 11
    assert lines[2:] == ["| " + " | ".join(row.split(",")) + " |" for row in TABLE.splitlines()[1:]]


def test_only_what_changes(folder: Path) -> None:
    (folder / "old.toml").write_text(PLAN)
    new = PLAN.replace("priority_a = 2", "priority_a = 4").replace('floor = "QL-SSU-B"\n', "")
    (folder / "new.toml").write_text(new.replace("priority_a = 9", "priority_b = 1"))
    ran = murdjohe("orders", "new.toml", "--from", "old.toml", folder=folder)
    assert (ran.status, ran.out.decode()) == (0, CHANGES)
    ran = murdjohe("orders", "new.toml", "--from", "old.toml", "--csv", folder=folder)
    assert ran.out.decode().splitlines()[:2] == ["element,what,old,new", "B,priority of L2>B,2,4"]
    same = murdjohe("orders", "new.toml", "--from", "new.toml", folder=folder)
    assert (same.status, same.out) == (0, b"")


def test_orders_of_a_plan_with_a_ring_are_told_to_have_one() -> None:
    ran = murdjohe("orders", str(EXAMPLES / "mesh" / "looping.toml"))
    assert ran.status == 1 and ran.out and ran.err.startswith("murdjohe: checked: cycle ")


@pytest.mark.parametrize("words", [["orders", "bad.toml"], ["orders", "plan.toml", "--from", "bad.toml"]])
def test_a_refused_plan_is_told(folder: Path, words: list[str]) -> None:
    (folder / "plan.toml").write_text(PLAN)
    (folder / "bad.toml").write_text(PLAN.replace('own = "QL-SSU-A"', 'own = "QL-EEC1"'))
    ran = murdjohe(*words, folder=folder)
    assert (ran.status, ran.out) == (3, b"") and "bad.toml:4: " in ran.err


@settings(max_examples=max(20, CASES))
@given(st.integers(0, 2**32))
def test_each_nominated_input_stands_in_one_order(seed: int) -> None:
    plan = random_plan(random.Random(seed))
    read = PlanLines(Document("plan.toml", plan.text()[0].encode()))
    found = orders.orders_of(read.network)
    assert [order.element for order in found] == read.names("element")
    names = sorted(one.name for order in found for one in order.inputs)
    links = [f"{row['name']}>{row[end]}" for row in plan.rows["link"] for end in "ab" if row.get(f"priority_{end}", 0)]
    assert names == sorted(links + [row["name"] for row in plan.rows["source"] if row.get("priority", 1)])
    for order in found:
        priorities = [one.priority for one in order.inputs]
        assert priorities == sorted(priorities)
        assert [one.place for one in order.inputs] == [priorities.index(one) + 1 for one in priorities]
    assert orders.changes_of(found, found) == []
    assert len(orders.rows_of(found)) == sum(max(1, len(order.inputs)) for order in found)


def test_the_table_is_csv(folder: Path) -> None:
    ran = murdjohe("orders", str(EXAMPLES / "inventory" / "plan.toml"), "--csv")
    rows = list(csv.reader(ran.out.decode().splitlines()))
    assert {len(row) for row in rows} == {len(orders.COLUMNS)}


@pytest.mark.parametrize(
    ("place", "said"), [(1, "1st"), (2, "2nd"), (3, "3rd"), (4, "4th"), (11, "11th"), (12, "12th"), (21, "21st")]
)
def test_places_are_said(place: int, said: str) -> None:
    assert orders.ordinal(place) == said
