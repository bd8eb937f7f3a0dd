"""Random refusals of certificates and event lists: the sentence names the line on which something was broken.

Each kind makes a whole file, breaks one line of it whose number is known by how it is made, and asks the program, which
has to refuse it with the number of this kind.
"""

from __future__ import annotations

import random
from collections.abc import Callable
from pathlib import Path

import pytest
from conftest import CASES
from random_plans import RandomPlan, lines_of, random_plan
from refusing import refused

from murdjohe.core.levels import LEVELS


def with_blank_lines(chance: random.Random, rows: list[str]) -> tuple[str, list[int]]:
    """The rows with blank lines between them, and the line of each."""
    lines: list[str] = []
    places = []
    for row in rows:
        lines += [""] * chance.choice([0, 0, 0, 1, 2])
        places.append(len(lines) + 1)
        lines.append(row)
    end = chance.choice(["\n", "\r\n"])
    return chance.choice(["", "\ufeff"]) + end.join(lines) + end, places


def ranked_plan(chance: random.Random, folder: Path) -> tuple[RandomPlan, list[str]]:
    """A plan with nominated lines, in a file, and these lines in order."""
    plan = random_plan(chance)
    while len(lines_of(plan, True)) < 2 or not lines_of(plan, False):
        plan = random_plan(chance)
    (folder / "plan.toml").write_bytes(plan.text()[0].encode())
    return plan, lines_of(plan, True)


def broken_certificate(chance: random.Random, plan: RandomPlan, rows: list[str], number: int) -> tuple[int, str]:
    """Breaks a row of a certificate: which it is, 0 for the header, and words of the sentence."""
    at = chance.randrange(1, len(rows))
    line = rows[at].partition(",")[0]
    if number == 35:
        ranks = ("", ",-1", ",1.5", ",01", ",1,2", ",99999999999999999999")
        rows[at] = chance.choice([f"{line}{rank}" for rank in ranks])
        return at, "LINE,RANK"
    if number == 36:
        other, link = chance.choice(lines_of(plan, False)), line.partition(">")[0]
        none = [(f"{line}x", "names no line"), ("nobody>X", "names no line")]
        name, words = chance.choice([(other, "isn't nominated"), (link, "names a link"), *none])
        rows[at] = f"{name},1"
        return at, words
    first = chance.randrange(1, len(rows) - 1)
    rows[-1] = rows[first].partition(",")[0] + ",7"
    return len(rows) - 1, "has a row already, line "


@pytest.mark.parametrize("number", [35, 36, 37])
def test_certificates(folder: Path, number: int) -> None:
    for seed in range(CASES):
        chance = random.Random(f"certificate {number} {seed}")
        plan, lines = ranked_plan(chance, folder)
        rows = ["line,rank"] + [f"{line},{chance.randrange(9)}" for line in chance.sample(lines, len(lines))]
        at, words = broken_certificate(chance, plan, rows, number)
        text, places = with_blank_lines(chance, rows)
        (folder / "certificate.csv").write_bytes(text.encode())
        broken = (number, places[at], words)
        refused("check", ["plan.toml", "certificate.csv"], "certificate.csv", broken, rf"bad certificate N {at}")


def test_certificates_without_a_line(folder: Path) -> None:
    for seed in range(CASES):
        chance = random.Random(f"certificate 38 {seed}")
        _, lines = ranked_plan(chance, folder)
        missing = chance.choice(lines)
        rows = ["line,rank", *(f"{line},1" for line in lines if line != missing)]
        (folder / "certificate.csv").write_text("\n".join(rows))
        broken = (38, None, f'the nominated line "{missing}" has no row')
        refused("check", ["plan.toml", "certificate.csv"], "certificate.csv", broken, f"bad certificate N {missing}")


HEADERS: dict[str, tuple[str, list[str], int, str]] = {
    "certificate.csv": ("check", [], 34, "line,rank"),
    "events.csv": ("sim", ["9"], 26, "at,what,target,value"),
    "cases.csv": ("study", ["9"], 26, "case,at,what,target,value"),
}


@pytest.mark.parametrize("name", list(HEADERS))
def test_headers(folder: Path, name: str) -> None:
    form, more, number, header = HEADERS[name]
    for seed in range(CASES):
        chance = random.Random(f"header {name} {seed}")
        ranked_plan(chance, folder)
        first, words = chance.choice(
            [
                (header.replace(",", ";"), "its fields have semicolons"),
                (header.replace(",", "\t"), "its fields have tabs"),
                (header.upper(), "other letters or blanks"),
                (header.replace(",", ", "), "other letters or blanks"),
                ("L1>B,0", "its first line is no header"),
                ("1000,down,L1,", "its first line is no header"),
                ("cycle L1>B L2>C L3>A", "the answer of a `rank` that found a possible loop"),
                ("bad plan 25 18 link 7", "the refusal `bad plan 25 18 link 7` of an earlier command"),
                ('[[element]]\nname = "A"', "it is a plan"),
            ]
        )
        (folder / name).write_bytes((first + "\n").encode(chance.choice(["utf-8", "utf-8", "utf-8-sig"])))
        refused(form, ["plan.toml", name, *more], name, (number, 1, words), r"bad \w+ N")
        (folder / name).write_bytes((first + "\n").encode("utf-16"))
        refused(form, ["plan.toml", name, *more], name, (number, 1, "UTF-16"), r"bad \w+ N")


def event_rows(chance: random.Random, plan: RandomPlan) -> list[str]:
    """Rows of events that fit a plan, in order of time."""
    links, sources = [row["name"] for row in plan.rows["link"]], [row["name"] for row in plan.rows["source"]]
    lines, elements = lines_of(plan, True) + lines_of(plan, False), [row["name"] for row in plan.rows["element"]]
    kinds: list[Callable[[], str]] = [
        lambda: f"{chance.choice(['down', 'up'])},{chance.choice(links + sources + lines)},",
        lambda: f"level,{chance.choice(sources)},{chance.choice(LEVELS[plan.option])}",
        lambda: f"{chance.choice(['lockout', 'forced', 'manual'])},{chance.choice(lines + sources)},",
        lambda: f"clear,{chance.choice(elements)},",
    ]
    times = sorted(chance.randrange(1, 50) for _ in range(chance.randint(2, 6)))
    return ["at,what,target,value", *(f"{time},{chance.choice(kinds)()}" for time in times)]


def broken_event(chance: random.Random, plan: RandomPlan, rows: list[str], number: int) -> tuple[int, str]:
    """Breaks a row of events: which it is, and words of the sentence."""
    at = chance.randrange(2 if number == 29 else 1, len(rows))
    time, what, target, value = rows[at].split(",")
    link, source = plan.rows["link"][0], plan.rows["source"][0]["name"]
    line, element = f"{link['name']}>{link['a']}", link["a"]
    broken = {
        27: [(f"{time},{what}", "2 fields in place of four"), (f"{time};{what};x;", "semicolons"), ("# cut", "a remark")],
        28: [(f"{word},{what},{target},{value}", says) for word, says in WRONG_TIMES],
        29: [(f"0,{what},{target},{value}", f"its time is before {rows[at - 1].partition(',')[0]}")],
        30: [(f"{time},{word},{target},{value}", says) for word, says in WRONG_WORDS],
        31: [(f"{time},lockout,{link['name']},", "is a link; its lines are"),
             (f"{time},clear,{line},", "is a line, into element"),
             (f"{time},down,{element},", "is an element; its inputs are"),
             (f"{time},level,{line},{LEVELS[plan.option][0]}", "is a line"),
             (f"{time},esmc-off,{source},", "is a source"), (f"{time},down,nobody,", '"nobody" names nothing')],
        32: [(f"{time},down,{source},x", "takes no value"),
             (f"{time},level,{source},PRTC", f"is no level of option {plan.option}")],
    }[number]  # fmt: skip
    rows[at], words = chance.choice(broken)
    return at, words


WRONG_TIMES = [("-5", "no number"), ("1.5", "no number"), ("", "no number"), ("20x", "no number"), (" 7", "blanks")]
WRONG_WORDS = [
    ("DOWN", '(nearest: "down")'),
    ("cut", '(nearest: "down")'),
    ("lokcout", '(nearest: "lockout")'),
    ("", "no word"),
]


@pytest.mark.parametrize("number", [27, 28, 29, 30, 31, 32])
def test_events(folder: Path, number: int) -> None:
    for seed in range(CASES):
        chance = random.Random(f"events {number} {seed}")
        plan, _ = ranked_plan(chance, folder)
        rows = event_rows(chance, plan)
        at, words = broken_event(chance, plan, rows, number)
        text, places = with_blank_lines(chance, rows)
        (folder / "events.csv").write_bytes(text.encode())
        broken = (number, places[at], words)
        refused("sim", ["plan.toml", "events.csv", "10"], "events.csv", broken, rf"bad events N {at}")


def case_rows(chance: random.Random, plan: RandomPlan) -> list[tuple[str, str]]:
    """Rows of events with their cases: common ones, and those of two cases or more, each in order of time."""
    names = ["", *chance.sample(["a", "b-1", "C_2", "cut" * 10, "7"], chance.randint(2, 4))]
    return [(name, row) for name in names for row in event_rows(chance, plan)[1:]]


def broken_case(chance: random.Random, plan: RandomPlan, rows: list[tuple[str, str]], number: int) -> tuple[int, str]:
    """Breaks a row of cases, which count from 0 here: which it is, and words of the sentence."""
    if number == 51:
        at = chance.choice([place for place, (name, _) in enumerate(rows) if name])
        name, words = chance.choice(WRONG_CASES)
        rows[at] = (name, rows[at][1])
        return at, f"the name of its case has {words}; a name is "
    if number == 52:
        name = chance.choice([name for name, _ in rows if name not in ("", rows[-1][0])])
        rows.append((name, rows[-1][1]))
        return len(rows) - 1, f'the case "{name}" stood above, up to line '
    name = chance.choice(rows)[0]
    first = next(place for place, (other, _) in enumerate(rows) if other == name)
    own = ["at,what,target,value", *(row for other, row in rows if other == name)]
    at, words = broken_event(chance, plan, own, number)
    rows[first + at - 1] = (name, own[at])
    return first + at - 1, words


WRONG_CASES = [("a b", "the sign ' '"), ("L1>B", "the sign '>'"), ("M.1", "a dot"), ("x" * 33, "33 signs")]


def with_header(chance: random.Random, rows: list[tuple[str, str]]) -> tuple[str, list[int]]:
    """A list of cases with blank lines between its rows, and the line of each row."""
    text, places = with_blank_lines(chance, ["case,at,what,target,value", *(f"{name},{row}" for name, row in rows)])
    return text, places[1:]


@pytest.mark.parametrize("number", [28, 29, 30, 31, 32, 51, 52])
def test_cases(folder: Path, number: int) -> None:
    for seed in range(CASES):
        chance = random.Random(f"cases {number} {seed}")
        plan, _ = ranked_plan(chance, folder)
        rows = case_rows(chance, plan)
        at, words = broken_case(chance, plan, rows, number)
        text, places = with_header(chance, rows)
        (folder / "cases.csv").write_bytes(text.encode())
        broken = (number, places[at], words)
        refused("study", ["plan.toml", "cases.csv", "10"], "cases.csv", broken, rf"bad events N {at + 1}")


def test_common_events_below_a_case(folder: Path) -> None:
    for seed in range(CASES):
        chance = random.Random(f"cases below {seed}")
        plan, _ = ranked_plan(chance, folder)
        rows = case_rows(chance, plan)
        at = chance.choice([place for place, (name, _) in enumerate(rows) if place and rows[place - 1][0]])
        rows[at] = ("", rows[at][1])
        text, places = with_header(chance, rows)
        (folder / "cases.csv").write_bytes(text.encode())
        words = f'it has no case, and stands below a row of case "{rows[at - 1][0]}", line {places[at - 1]}; '
        broken = (51, places[at], words)
        refused("study", ["plan.toml", "cases.csv", "10"], "cases.csv", broken, rf"bad events N {at + 1}")


def test_events_past_the_limit(folder: Path) -> None:
    chance = random.Random("limit")
    ranked_plan(chance, folder)
    (folder / "events.csv").write_text("at,what,target,value\n" + "5,clear,nobody,\n" * 100_001)
    words = '"nobody" names nothing'
    refused("sim", ["plan.toml", "events.csv", "10"], "events.csv", (31, 2, words), r"bad events N 1")
    plan = random_plan(chance)
    (folder / "plan.toml").write_bytes(plan.text()[0].encode())
    element = plan.rows["element"][0]["name"]
    (folder / "events.csv").write_text("at,what,target,value\n" + f"5,clear,{element},\n" * 100_001)
    refused("sim", ["plan.toml", "events.csv", "10"], "events.csv", (33, 100_002, "one too many"), r"bad events N")
