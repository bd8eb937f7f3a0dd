"""All elements that failures cut off: by hand, beside a plain search after each failure, and beside the rows of `protected`."""

from __future__ import annotations

import queue
from dataclasses import replace
from pathlib import Path
from typing import Any

import pytest
from conftest import CASES
from groups_made import tables_of
from hypothesis import given, settings
from hypothesis import strategies as st
from test_gaps import cut_off as searched
from test_repair import METRO, planned, random_network

import murdjohe as forms
from murdjohe.answers.reports import Gap
from murdjohe.desk import cut_off, desks, views
from murdjohe.desk.cut_off import CutOff
from murdjohe.plan.model import plan_of

TRIED = settings(max_examples=max(25, CASES))
# A ring of four in one direction: S at A, and B, C and D each take the one before.
ROUND = planned(["L1 A 0 B 1", "L2 B 0 C 1", "L3 C 0 D 1", "L4 D 0 A 0"], ["S A"])


def told(text: str) -> tuple[Gap, ...]:
    """The rows of `protected`."""
    return forms.protected(text.encode()).result.rows


def found(text: str, rows: tuple[Gap, ...]) -> CutOff:
    """What failures of some rows cut off."""
    return cut_off.cut_off(plan_of(tables_of(text)), rows)


def test_a_ring_in_one_direction() -> None:
    rows = told(ROUND)
    assert {(row.kind, row.failure): found(ROUND, (row,)).elements for row in rows} == {
        ("link", "L1"): ("B", "C", "D"),
        ("link", "L2"): ("C", "D"),
        ("link", "L3"): ("D",),
        ("element", "B"): ("C", "D"),
        ("element", "C"): ("D",),
    }
    assert found(ROUND, rows) == CutOff(("B", "C", "D"), 5)
    assert found(ROUND, ()) == CutOff((), 0)


def test_one_link_of_a_bundle_that_is_nominated_alone() -> None:
    """B takes one link of a bundle of two alone, which is nominated; a failure of the bundle leaves no path."""
    text = planned(["L1 A 0 B 1 G", "L2 A 0 B 0 G"], ["S A"])
    assert [(row.kind, row.failure, found(text, (row,)).elements) for row in told(text)] == [("link", "L1", ("B",))]


def test_without_any_nomination_all_are_cut_off_in_reach() -> None:
    text = planned(["L1 A 0 B 0", "L2 B 0 C 0"], ["S A"]) + '[[element]]\nname = "X"\n'
    rows = told(text)
    assert (rows[0].kind, found(text, rows[:1]).elements) == ("none", ("B", "C"))
    # (X has no link, so that its failure changes nothing; without B no path is left to C, and without L2 none either)
    assert {(row.kind, row.failure): found(text, (row,)).elements for row in rows[1:]} == {
        ("link", "L2"): ("B",),
        ("element", "C"): ("B",),
        ("element", "X"): ("B", "C"),
    }


def test_the_row_decides_where_it_says_something_else() -> None:
    row = told(ROUND)[0]
    assert found(ROUND, (replace(row, elements=2),)).elements == ("B",)
    assert found(ROUND, (replace(row, first="C"),)).elements == ("C",)


def test_of_very_many_failures_the_largest_are_looked_at(monkeypatch: pytest.MonkeyPatch) -> None:
    rows = told(ROUND)
    monkeypatch.setattr(cut_off, "CHUNK_BITS", 4)  # (one failure of four elements at once)
    assert found(ROUND, rows) == CutOff(("B", "C", "D"), 5)
    monkeypatch.setattr(cut_off, "MOST_BITS", 8)
    # (two of the three failures that cut off more than one element, and those two that cut off one)
    assert found(ROUND, rows[::-1]) == CutOff(("B", "C", "D"), 4)
    monkeypatch.setattr(cut_off, "MOST_BITS", 1)
    assert found(ROUND, rows[1:2] + rows[2:3]) == CutOff(("C", "D"), 2)


def test_it_ends_where_nobody_wants_to_know_it_any_more(monkeypatch: pytest.MonkeyPatch) -> None:
    monkeypatch.setattr(cut_off, "CHUNK_BITS", 4)  # (one failure at once)
    answers = iter([False, True])
    plan, rows = plan_of(tables_of(ROUND)), told(ROUND)
    # (of L2, which cuts off C and D, the row has the first; L1 is looked at before others, and cuts off all)
    assert cut_off.cut_off(plan, rows[1:2], lambda: True).elements == ("C",)
    assert cut_off.cut_off(plan, rows, lambda: next(answers)).elements == ("B", "C", "D")


def test_the_map_of_a_large_plan_marks_the_regions(folder: Path, monkeypatch: pytest.MonkeyPatch) -> None:
    """A chain whose last link has another beside it that nobody nominates: the last element alone is cut off, in the last region."""
    chain = [f"L{number} E{number} 0 E{number + 1} 1" for number in range(699)]
    (folder / "plan.toml").write_text(planned([*chain, "X E698 0 E699 0"], ["S E0"]))
    monkeypatch.setenv("XDG_STATE_HOME", str(folder / "states"))
    monkeypatch.setattr(views, "LARGEST", 100)
    desk, told_of = desks.Desk(desks.opened("plan.toml", None, str(folder))), queue.Queue[dict[str, Any]]()
    desk.news = lambda kind, data: told_of.put(data)
    desk.begin()
    while (verdict := told_of.get(timeout=20)).get("name") != "cut":
        pass
    desk.end()
    assert desk.parts is not None and len(set(desk.parts.of.values())) == 3
    assert verdict["said"] == {"elements": ("E699",), "failures": 1, "regions": [desk.parts.of["E699"]]}


@TRIED
@given(st.integers(0, 2**32))
def test_each_failure_cuts_off_who_is_found_by_a_plain_search(seed: int) -> None:
    text = random_network(seed)
    tables, rows, every = tables_of(text), told(text), set()
    for row in rows:
        wanted = searched(tables, (row.kind, row.failure or ""))
        assert set(found(text, (row,)).elements) == wanted and len(wanted) == row.elements
        every |= wanted
    assert set(found(text, rows).elements) == every


def test_a_metro_with_all_failures_at_once() -> None:
    text = METRO.replace("priority_b = 1", "priority_b = 0", 3)
    rows, tables = told(text), tables_of(text)
    wanted = set().union(*(searched(tables, (row.kind, row.failure or "")) for row in rows))
    assert rows and set(found(text, rows).elements) == wanted
