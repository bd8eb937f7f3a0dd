"""Random plans with the line of each of their keys, and random damage to one of them whose line is known by how it is made."""

from __future__ import annotations

import random
from dataclasses import dataclass, field
from typing import Any

from murdjohe.core.levels import LEVELS

Row = dict[str, Any]
# Values that are no text, and values that are no whole number, as TOML spells them.
NO_TEXTS = ("7", "1.5", "true", '["A"]')
NO_NUMBERS = ('"500"', "500.0", "false", "[1]")


def quoted(value: Any) -> str:
    return f'"{value}"' if isinstance(value, str) else str(value)


@dataclass
class RandomPlan:
    """A plan that keeps the rules: the option, and the rows of each section with their values."""

    chance: random.Random
    option: str
    rows: dict[str, list[Row]] = field(default_factory=dict)
    version: int = 2
    head: list[str] = field(default_factory=list)

    def text(self) -> tuple[str, dict[tuple[str, int, str], int]]:
        """The text, in a random spelling, and the line of each key; that of a row's head stands under an empty key."""
        chance, lines, places = self.chance, [], {}
        lines += [f"version = {self.version}", f'option = "{self.option}"', *self.head]
        order = [
            (section, number)
            for section in ("element", "link", "source")
            for number in range(1, len(self.rows[section]) + 1)
        ]
        for section, number in order:
            row = self.rows[section][number - 1]
            lines += [""] * chance.randrange(2) + chance.choice([[], [], [f'# [[{section}]] name = "X"']])
            lines.append(chance.choice([f"[[{section}]]", f"  [[ {section} ]] # {number}"]))
            places[section, number, ""] = len(lines)
            keys = list(row)
            chance.shuffle(keys)
            for key in keys:
                value = row[key].spelling if isinstance(row[key], Spelled) else quoted(row[key])
                lines.append(chance.choice([f"{key} = {value}", f"{key}={value}", f"   {key} = {value} # {key} = 1"]))
                places[section, number, key] = len(lines)
        end = chance.choice(["\n", "\n", "\r\n"])
        return end.join(lines) + chance.choice(["", end]), places


@dataclass(frozen=True)
class Spelled:
    """A value as it is written, whatever that is."""

    spelling: str


def names(chance: random.Random, letter: str, count: int) -> list[str]:
    """So many names that differ."""
    found = [f"{letter}{chance.choice(['', '-', '_'])}{number}" for number in range(count)]
    return [name + chance.choice(["", "a", "-west"]) for name in found]


def random_plan(chance: random.Random) -> RandomPlan:
    """A plan of 3 to 6 elements, 3 to 7 links and 1 to 3 sources, each row with some of its keys."""
    option = chance.choice(["I", "II"])
    levels = LEVELS[option]
    elements = names(chance, "E", chance.randint(3, 6))
    plan = RandomPlan(chance, option, {"element": [], "link": [], "source": []})
    for name in elements:
        row: Row = {"name": name}
        own: dict[str, list[Any]] = {"own": levels[:-1], "floor": levels[:-1], "holdoff": [300, 1800], "wtr": [0, 12]}
        for key, values in own.items():
            if chance.random() < 0.4:
                row[key] = chance.choice(values)
        plan.rows["element"].append(row)
    for name in names(chance, "L", chance.randint(3, 7)):
        a, b = chance.sample(elements, 2)
        row = {"name": name, "a": a, "b": b}
        for key, values in (
            ("priority_a", [0, 1, 255]),
            ("priority_b", [1, 2, 9]),
            ("delay_a", [1, 2000]),
            ("delay_b", [7]),
        ):
            if chance.random() < 0.6:
                row[key] = chance.choice(values)
        plan.rows["link"].append(row)
    for name in names(chance, "S", chance.randint(1, 3)):
        row = {"name": name, "at": chance.choice(elements), "level": chance.choice(levels)}
        plan.rows["source"].append(row | ({"priority": chance.choice([0, 1, 255])} if chance.random() < 0.5 else {}))
    return plan


def lines_of(plan: RandomPlan, is_nominated: bool) -> list[str]:
    """The names of the lines that are nominated, or of those that aren't."""
    found = []
    for link in plan.rows["link"]:
        for end in "ba":
            if (link.get(f"priority_{end}", 0) > 0) == is_nominated:
                found.append(f"{link['name']}>{link[end]}")
    return found
