"""Which premises of the promise on single failures a plan breaks."""

from __future__ import annotations

import pytest
from conftest import EXAMPLES, murdjohe

from murdjohe.core.documents import Document
from murdjohe.network import premises
from murdjohe.plan.plan_lines import PlanLines

PAIR = """
element = [{{ name = 'A'{a} }}, {{ name = 'B'{b} }}]
link = [{{ name = 'L', a = 'A', b = 'B', priority_a = 3, priority_b = 3 }}]
source = [{{ name = 'S', at = 'A', level = 'QL-PRC', priority = 2 }}, {{ name = 'T', at = 'B', level = '{level}'{t} }}]
"""


def plan(a: str = "", b: str = "", level: str = "QL-PRC", t: str = "") -> PlanLines:
    return PlanLines(Document("plan.toml", PAIR.format(a=a, b=b, level=level, t=t).encode()))


def test_better_sources_and_no_floor_above_them_keep_all_premises() -> None:
    assert list(premises.broken(plan())) == []
    assert premises.told(plan(b=", floor = 'QL-PRC'")) == ""
    assert premises.told(plan(level="QL-SEC", t=", priority = 0")) == ""


def test_without_a_source_there_is_nothing_to_promise() -> None:
    assert list(premises.broken(PlanLines(Document("plan.toml", b"element = [{ name = 'A' }]\n")))) == []


@pytest.mark.parametrize(
    ("given", "number", "key", "words"),
    [
        ({"b": ", own = 'QL-PRC'"}, 2, "own", ('"B"', "QL-PRC", '"S"')),
        ({"level": "QL-SEC"}, 1, "own", ('"A"', "QL-SEC", '"T"')),
        ({"a": ", floor = 'QL-PRC'", "level": "QL-SSU-A"}, 1, "floor", ('"A"', "QL-PRC", '"T"', "QL-SSU-A")),
    ],
)
def test_what_breaks_a_premise_is_named(given: dict[str, str], number: int, key: str, words: tuple[str, ...]) -> None:
    first = next(premises.broken(plan(**given)))
    assert (first.number, first.key) == (number, key)
    assert all(word in first.what for word in words)


def test_the_sentence_says_how_many_more_there_are() -> None:
    said = premises.told(plan(level="QL-SEC"))
    assert said.startswith("the promise on single failures doesn't hold for this plan: ") and ", and 1 more;" in said


@pytest.mark.parametrize(
    ("name", "line", "said"),
    [
        (
            "own",
            9,
            'the internal oscillator of "middle", QL-SSU-A, is no worse than source "reserve", QL-SSU-B, so that the',
        ),
        ("floor", 9, 'the floor of "middle", QL-SSU-A, is better than source "reserve", QL-SSU-B, so that the'),
        ("unused", 41, 'source "reserve" has QL-DNU, so no element takes it, and the'),
    ],
)
def test_lint_says_which_premise_an_example_breaks(name: str, line: int, said: str) -> None:
    path = EXAMPLES / "premises" / f"{name}.toml"
    ran = murdjohe("lint", str(path))
    (told,) = ran.out.decode().splitlines()
    assert told.startswith(f"{path}:{line}: warning: {said} promise on single failures doesn't hold for this plan; ")
    assert ran.status == 0 and ran.err.endswith("checked: accepted, agreed, protected\n")
    assert murdjohe("lint", str(path), "--fail-on", "warning").status == 21


def test_lint_says_nothing_of_an_example_that_keeps_all_premises() -> None:
    ran = murdjohe("lint", str(EXAMPLES / "premises" / "kept.toml"), "--fail-on", "note")
    assert (ran.status, ran.out) == (0, b"")
    said = (
        "every element that can still have a clock follows one within 0.306 s, if nothing else happens; after a repair"
    )
    assert said in ran.err


def test_lint_says_what_it_leaves_out() -> None:
    ran = murdjohe("lint", str(EXAMPLES / "mesh" / "redundant.toml"), "--no-gaps")
    assert "cuts off" not in ran.out.decode() and "checked: accepted, agreed\n" in ran.err
    assert "single failures aren't looked at" in ran.err
    assert "cuts off" in murdjohe("lint", str(EXAMPLES / "mesh" / "redundant.toml")).out.decode()
