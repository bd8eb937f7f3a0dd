"""Random refusals of plans: the sentence names the line on which something was broken.

Each kind makes a whole file, breaks one line of it whose number is known by how it is made, and asks the program, which
has to refuse it with the number of this kind.
"""

from __future__ import annotations

import random
import re
from collections.abc import Callable
from pathlib import Path

import pytest
from conftest import CASES
from random_plans import NO_NUMBERS, NO_TEXTS, RandomPlan, Spelled, random_plan
from refusing import refused, told

from murdjohe.core.levels import LEVELS

# What is broken in a plan: the number, the section, the row and the key, and words of the sentence.
BrokenPlan = tuple[int, str, int, str, str]


def picked(chance: random.Random, plan: RandomPlan, *sections: str) -> tuple[str, int]:
    section = chance.choice([section for section in sections if plan.rows[section]])
    return section, chance.randint(1, len(plan.rows[section]))


def with_value(
    chance: random.Random, plan: RandomPlan, sections: str, values: dict[str, list[object]]
) -> tuple[str, int, str]:
    """Puts a value in place of a key's in a random row; which it was."""
    section, number = picked(chance, plan, *sections.split())
    keys = [key for key in values if key in KEYS[section]]
    key = chance.choice(keys)
    plan.rows[section][number - 1][key] = chance.choice(values[key])
    return section, number, key


KEYS = {
    "element": ("name", "own", "floor", "holdoff", "wtr"),
    "link": ("name", "a", "b", "priority_a", "priority_b", "delay_a", "delay_b", "bundle"),
    "source": ("name", "at", "level", "priority"),
}
TEXT_KEYS = ("name", "own", "floor", "a", "b", "bundle", "at", "level")
NUMBER_KEYS = ("holdoff", "wtr", "priority_a", "priority_b", "delay_a", "delay_b", "priority")
ALL = "element link source"
WRONG_NUMBERS: dict[str, list[object]] = {
    "holdoff": [299, 0, 1801],
    "wtr": [-1, 13, 300],
    "delay_a": [0, 2001],
    "delay_b": [-7, 2001],
    "priority_a": [-1, 256],
    "priority_b": [256],
    "priority": [-1, 1000],
}


def unknown_key(chance: random.Random, plan: RandomPlan) -> BrokenPlan:
    section, number = picked(chance, plan, *ALL.split())
    key = chance.choice(["site", "nmae", "prio_b", "note", "levle"])
    plan.rows[section][number - 1][key] = "x"
    return 23, section, number, key, f'unknown key "{key}"'


def missing_key(chance: random.Random, plan: RandomPlan) -> BrokenPlan:
    section, number = picked(chance, plan, *ALL.split())
    key = chance.choice({"element": ["name"], "link": ["name", "a", "b"], "source": ["name", "at", "level"]}[section])
    del plan.rows[section][number - 1][key]
    return 23, section, number, "", f'lacks the key "{key}"'


def other_kind(chance: random.Random, plan: RandomPlan) -> BrokenPlan:
    values: dict[str, list[object]] = {key: [Spelled(text) for text in NO_TEXTS] for key in TEXT_KEYS}
    values |= {key: [Spelled(text) for text in NO_NUMBERS] for key in NUMBER_KEYS}
    section, number, key = with_value(chance, plan, ALL, values)
    return 24, section, number, key, f'for "{key}"'


def wrong_name(chance: random.Random, plan: RandomPlan) -> BrokenPlan:
    values: list[object] = ["M.1", "ge-0/0/1", "Mü1", "M 1", "a" * 33, ""]
    section, number, key = with_value(chance, plan, ALL, {"name": values})
    return 16, section, number, key, "1 to 32 of A-Z a-z 0-9 _ -"


def same_name(chance: random.Random, plan: RandomPlan) -> BrokenPlan:
    section = chance.choice([section for section in plan.rows if len(plan.rows[section]) > 1])
    first, number = sorted(chance.sample(range(1, len(plan.rows[section]) + 1), 2))
    plan.rows[section][number - 1]["name"] = name = plan.rows[section][first - 1]["name"]
    if section == "element":  # (no link or source may miss the old name: 17 comes first in any case)
        return 17, section, number, "name", f'the name "{name}" of element number {first}, line '
    return 17, section, number, "name", f'the name "{name}"'


def no_element(chance: random.Random, plan: RandomPlan) -> BrokenPlan:
    section, number = picked(chance, plan, "link", "source")
    key = "at" if section == "source" else chance.choice("ab")
    plan.rows[section][number - 1][key] = name = chance.choice(["nobody", "e1", "E", "E9-9"])
    return 18, section, number, key, f'"{name}", which names no element'


def self_link(chance: random.Random, plan: RandomPlan) -> BrokenPlan:
    section, number = picked(chance, plan, "link")
    row = plan.rows[section][number - 1]
    row["b"] = row["a"]
    return 19, section, number, "b", "to itself"


def out_of_range(chance: random.Random, plan: RandomPlan) -> BrokenPlan:
    section, number, key = with_value(chance, plan, ALL, WRONG_NUMBERS)
    return 20, section, number, key, f"has {key} = "


def no_level(chance: random.Random, plan: RandomPlan) -> BrokenPlan:
    wrong: list[object] = ["PRTC", "ql-prtc", "QL-EEC1", "QL-", "QL-DNU" if plan.option == "II" else "QL-DUS", "QL-XX"]
    own = [*wrong, LEVELS[plan.option][-1]]
    section, number, key = with_value(chance, plan, "element source", {"own": own, "floor": own, "level": wrong})
    return 21, section, number, key, f"has {key} = "


def wrong_bundle(chance: random.Random, plan: RandomPlan) -> BrokenPlan:
    links = plan.rows["link"]
    pairs = [
        (first, number)
        for number in range(1, len(links) + 1)
        for first in range(1, number)
        if {links[first - 1]["a"], links[first - 1]["b"]} != {links[number - 1]["a"], links[number - 1]["b"]}
    ]
    if pairs and chance.random() < 0.6:
        first, number = chance.choice(pairs)
        links[first - 1]["bundle"] = links[number - 1]["bundle"] = "LAG1"
        return 39, "link", number, "bundle", 'in bundle "LAG1"'
    section, number, key = with_value(chance, plan, "link", {"bundle": ["LAG.1", "LAG 1", ""]})
    return 39, section, number, key, "its bundle's name"


def too_many_inputs(chance: random.Random, plan: RandomPlan) -> BrokenPlan:
    element = plan.rows["element"][0]["name"]
    plan.rows["source"] = [{"name": f"T{number}", "at": element, "level": "QL-PRTC"} for number in range(70)]
    links = sum(
        link.get(f"priority_{end}", 0) > 0 for link in plan.rows["link"] for end in "ab" if link[end] == element
    )
    return 15, "source", 65 - links, "", f'is nominated input 65 of element "{element}"'


PLAN_KINDS = [
    *(unknown_key, missing_key, other_kind, wrong_name, same_name, no_element, self_link),
    *(out_of_range, no_level, wrong_bundle, too_many_inputs),
]


@pytest.mark.parametrize("kind", PLAN_KINDS)
def test_plans(folder: Path, kind: Callable[[random.Random, RandomPlan], BrokenPlan]) -> None:
    for seed in range(CASES):
        chance = random.Random(f"{kind.__name__} {seed}")
        plan = random_plan(chance)
        number, section, row, key, words = kind(chance, plan)
        text, places = plan.text()
        (folder / "plan.toml").write_bytes(text.encode())
        written = rf"bad plan {'25 ' if number not in (23, 24) else ''}N {section} {row}"
        refused("rank", ["plan.toml"], "plan.toml", (number, places[section, row, key], words), written)


def broken_toml(chance: random.Random, lines: list[str]) -> tuple[int, str]:
    """Breaks the spelling of a line of a plan: its number, and words of the sentence."""
    at = chance.choice([at for at, line in enumerate(lines) if re.match(r"\s*\w+ ?= ?\"", line)])
    line = lines[at].partition(" #")[0].rstrip("\r")
    name = "it is no TOML document"
    lines[at] = chance.choice(
        [line.rstrip()[:-1], line.replace("=", ":"), line.replace('"', ""), line + ' = "X"', "== " + line]
    )
    return at + 1, name


def test_plans_that_are_no_toml(folder: Path) -> None:
    for seed in range(CASES):
        chance = random.Random(f"toml {seed}")
        lines = random_plan(chance).text()[0].split("\n")
        line, words = broken_toml(chance, lines)
        (folder / "plan.toml").write_bytes("\n".join(lines).encode())
        said, sentence = told("rank", ["plan.toml"])
        assert said == "bad plan 22" and words in sentence, lines[line - 1]
        # (a reader may find out at the beginning of the next line)
        assert sentence.startswith((f"plan.toml:{line}: ", f"plan.toml:{line + 1}: ")), (lines[line - 1], sentence)


def test_plans_in_other_encodings(folder: Path) -> None:
    for seed in range(CASES):
        chance = random.Random(f"latin {seed}")
        plan = random_plan(chance)
        section, number = picked(chance, plan, "element", "link", "source")
        plan.rows[section][number - 1]["name"] = "Zürich"
        text, places = plan.text()
        (folder / "plan.toml").write_bytes(text.encode("latin-1"))
        line = places[section, number, "name"]
        refused("rank", ["plan.toml"], "plan.toml", (22, line, "the byte fc, in Latin-1 a `ü`,"), "bad plan N")
        (folder / "plan.toml").write_bytes(text.encode("utf-16"))
        refused("rank", ["plan.toml"], "plan.toml", (22, 1, "UTF-16"), "bad plan N")
