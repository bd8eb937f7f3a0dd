"""Compares the answer of `rank` to random plans with up to three faults with a reading of its own.

usage: python3 -m bench.compare.plans PROGRAM [--plans N] [--seed N]
       python3 -m bench.compare.plans --write FOLDER [--plans N] [--seed N]

A plan is made as tables of keys and values, some of them wrong: a key that is unknown or missing, a value of
another kind, a version, a name, an end, a range, a level, a bundle, too many inputs. What is expected is made of
these tables by the order of rules in docs/use/formats.md, and the ranks of a plan without fault are those of
compare/ranks.py. The tables are written in random spellings of TOML: sections as headers in any order or inline, keys
in any order, quotes, escapes, bases of integers, comments and both line ends. With --write the plans are written to
a folder for `rt try --cases FOLDER`. It needs networkx.
"""

import collections
import random
import re
import sys
from typing import Any

from bench.compare import cases, ranks
from bench.levels import LEVELS
from bench.readings.plans import KEYS, MUST, RANGES, SECTIONS, Other, Row, read_rows, read_tables
from bench.readings.refused import Refused

# Values as they are written that are neither text nor integer.
OTHERS = ["1.0", "true", "[]", "{}", "1979-05-27", "07:32:00", "nan", "[1]", "{x = 1}", "1e3"]


# ---- what is expected


def expected(head: dict[str, Any]) -> tuple[int, str]:
    """The status and the text of `rank` on the tables of a plan."""
    try:
        option, sections = read_tables(head)
        read_rows(option, sections)
    except Refused as refused:
        return 3, refused.args[0]
    names = [row["name"] for row in sections[0]]
    links = [
        (names.index(r["a"]), names.index(r["b"]), r.get("priority_a", 0), r.get("priority_b", 0), r.get("bundle"))
        for r in sections[1]
    ]
    status, text = ranks.expected((2, len(names), links, []))
    return status, re.sub(r"L(\d+)>E(\d+)", lambda m: f"{sections[1][int(m[1])]['name']}>{names[int(m[2])]}", text)


# ---- random plans


def random_tables(chance: random.Random) -> dict[str, Any]:
    """A plan without a fault."""
    option = chance.choice(["I", "I", "II"])
    bundled = chance.random() < 0.7
    head: Row = {"version": 2} if bundled else chance.choice([{}, {"version": 1}, {"version": 2}])
    if option == "II" or chance.random() < 0.5:
        head["option"] = option
    letters = ["A", "B", "C", "a", "_", "-", "0", "x" * 32, "L1", "T"]
    chance.shuffle(letters)
    elements, links, sources = list[Row](), list[Row](), list[Row]()
    for name in letters[: chance.randint(1, 6)]:
        keys: Row = {"own": chance.choice(LEVELS[option][:-1]), "floor": chance.choice(LEVELS[option][:-1])}
        keys |= {"holdoff": chance.choice([300, 301, 1000, 1799, 1800]), "wtr": chance.choice([0, 1, 5, 11, 12])}
        elements.append({"name": name} | {key: keys[key] for key in keys if chance.random() < 0.3})
    names = [row["name"] for row in elements]
    busy = len(names) > 1 and chance.random() < 0.05
    for number in range(chance.randint(62, 67) if busy else chance.randint(0, 8) if len(names) > 1 else 0):
        a, b = names[:2] if busy else chance.sample(names, 2)
        keys = {"priority_a": chance.choice([0, 0, 0, 1, 255]), "priority_b": chance.choice([0, 1, 2, 254, 255])}
        keys |= {"delay_a": chance.choice([1, 10, 2000]), "delay_b": chance.choice([1, 10, 2000])}
        row = {"name": f"L{number}", "a": a, "b": b} | {key: keys[key] for key in keys if chance.random() < 0.6}
        if busy and chance.random() < 0.99:
            row["priority_b"] = 1
        if bundled and chance.random() < 0.6:
            row["bundle"] = "-".join(sorted((a[:4], b[:4]))) + chance.choice(["", "", "2"])
        links.append(row)
    for number in range(chance.randint(0, 4)):
        row = {"name": f"S{number}", "at": chance.choice(names), "level": chance.choice(LEVELS[option])}
        sources.append(row | ({"priority": chance.choice([0, 1, 255])} if chance.random() < 0.5 else {}))
    return head | dict(element=elements, link=links, source=sources)


def put_fault(chance: random.Random, head: dict[str, Any]) -> None:
    """Makes one thing wrong, mostly."""
    fault = chance.choice("head unknown missing kind table name twice end range level level bundle bundle".split())
    section = "link" if fault == "bundle" else chance.choice(["element", "link", "link", "source"])
    rows = head[section]
    if not isinstance(rows, list):
        return
    row = chance.choice(rows) if rows else None
    if fault == "head":
        key = chance.choice(["version", "option", "color", *SECTIONS])
        values = {"version": [0, 3, -1, "2", 2**63 - 1], "option": ["III", "i", "", 1], "color": [1, "x"]}
        head[key] = chance.choice(values.get(key, [1, "x"]) + [Other(chance.choice(OTHERS[:2] + OTHERS[3:7]))])
    elif fault == "table":
        rows.insert(chance.randint(0, len(rows)), chance.choice([1, "A", Other("[]"), Other("1.5"), Other("[{}]")]))
    elif not isinstance(row, dict):
        return
    elif fault == "unknown":
        key = chance.choice(["color", "Name", "name_", "", "version", "bundle", "priority", "at", "a", "delay"])
        row[key] = chance.choice([1, "x"])
    elif fault == "missing":
        row.pop(chance.choice(MUST[section]), None)
    elif fault == "kind":
        key = chance.choice(list(KEYS[section]))
        row[key] = chance.choice([1 if KEYS[section][key] is str else "1", Other(chance.choice(OTHERS))])
    elif fault == "name":
        names = ["", "x" * 33, "a b", "L>A", "ä", "a.b", "\n", "a'", 'a"', "\\", "\0", "\U0001f570"]
        row["name"] = chance.choice(names)
    elif fault == "twice":
        sections = [head[section] for section in SECTIONS if isinstance(head[section], list)]
        row["name"] = chance.choice([r.get("name", "A") for rows in sections for r in rows if isinstance(r, dict)])
    elif fault == "end":
        row[chance.choice(["at"] if section == "source" else ["a", "b"])] = chance.choice(
            ["A", "B", "", "Q", "L1", row.get("a", "A")]
        )
    elif fault == "range":
        key = chance.choice([key for key, kind in KEYS[section].items() if kind is int])
        low, high = RANGES[key.removesuffix("_a").removesuffix("_b")]
        row[key] = chance.choice([low - 1, high + 1, -1, 2**63 - 1, -(2**63), 2**32 + low, 2**8 + low])
    elif fault == "level" and section != "link":
        key = chance.choice(["own", "floor"]) if section == "element" else "level"
        row[key] = chance.choice([*LEVELS["I"], *LEVELS["II"], "", "code-3", "PRC", "QL-prc"])
    elif fault == "bundle":
        row["bundle"] = chance.choice(["", "x" * 33, "a>b", "x" * 32, row.get("name")])
        for row in chance.sample(rows, 2) if len(rows) > 1 and chance.random() < 0.8 else []:
            if isinstance(row, dict):
                row["bundle"] = "T"


# ---- spellings


def spell_key(chance: random.Random, key: str) -> str:
    """A key, now and then in quotes."""
    if key and chance.random() < 0.9:
        return key
    return chance.choice(["'%s'", '"%s"']) % key


def spell_text(chance: random.Random, text: str) -> str:
    """A text in one of five spellings."""
    how = chance.randrange(5)
    if how == 0 and "'" not in text and text.isprintable():
        return f"'{text}'"
    if how == 1 and "'" not in text and text.isprintable():
        return f"'''{text}'''"
    some = [c for c in text if how == 2 and ord(c) < 65536 and chance.random() < 0.3]
    escaped = "".join(f"\\u{ord(c):04x}" if ord(c) < 32 or c in '"\\' or c in some else c for c in text)
    return f'"""\n{escaped}"""' if how == 3 else f'"{escaped}"'


def spell(chance: random.Random, value: Any, wide: bool) -> str:
    """A value in some spelling."""
    if isinstance(value, Other):
        return str(value)
    if isinstance(value, str):
        return spell_text(chance, value)
    if isinstance(value, int):
        if value < 0 or chance.random() < 0.8:
            return str(value)
        return format(value, chance.choice(["+", "_", "#x", "#o", "#b"]))
    if isinstance(value, list):
        gap = "\n  " if wide else " "
        end = chance.choice(["", ","]) if value else ""
        return "[" + ",".join(gap + spell(chance, item, wide) for item in value) + end + "]"
    keys = list(value.items())
    chance.shuffle(keys)
    return "{ " + ", ".join(f"{spell_key(chance, k)} = {spell(chance, v, wide)}" for k, v in keys) + " }"


def plan_text(chance: random.Random, head: dict[str, Any]) -> str:
    """The tables in random spellings of TOML."""
    lines, tables = list[str](), list[list[tuple[str, Row]]]()
    for key, value in chance.sample(list(head.items()), len(head)):
        if isinstance(value, list) and all(isinstance(row, dict) for row in value) and chance.random() < 0.8:
            tables.append([(key, row) for row in value])
        else:
            wide = chance.random() < 0.5
            lines.append(f"{spell_key(chance, key)} = {spell(chance, value, wide)}{chance.choice(['', ' # a'])}")
    # Rows of several sections may be mixed, each in its own order.
    while any(tables):
        group = chance.choice([group for group in tables if group])
        for _ in range(chance.choice([1, len(group)])):
            if group:
                key, row = group.pop(0)
                lines.append(chance.choice(["[[%s]]", "[[%s]]", "[[ '%s' ]] # x"]) % key)
                keys = chance.sample(list(row.items()), len(row))
                for key, value in keys:
                    equals = chance.choice([" = ", "=", "\t=  "])
                    lines.append(spell_key(chance, key) + equals + spell(chance, value, False))
    mark = "\ufeff" if chance.random() < 0.1 else ""
    text = mark + "\n".join(lines) + chance.choice(["", "\n"])
    return text.replace("\n", "\r\n") if chance.random() < 0.2 else text


def random_plan(chance: random.Random) -> tuple[bytes, tuple[int, str]]:
    """A plan with up to three faults, and what `rank` has to answer."""
    head = random_tables(chance)
    for _ in range(chance.choice([0, 1, 1, 1, 2, 3])):
        put_fault(chance, head)
    return plan_text(chance, head).encode("utf-8"), expected(head)


# ---- the comparison


def main() -> int:
    given = cases.read(cases.case_words(__doc__, plans=5000, seed=1))
    chance = random.Random(given.seed)
    plans = [random_plan(chance) for _ in range(given.plans)]
    told = collections.Counter[str]()
    for _, (status, text) in plans:
        told[re.sub(r"( \w+ \d+)?\n", "", text) if status == 3 else ("ranked", "a cycle")[status]] += 1
    print(f"{len(plans)} plans: " + ", ".join(f"{count} {what}" for what, count in sorted(told.items())))
    wanted = [cases.Case(("rank", "{}"), plan, status, text.encode("ascii")) for plan, (status, text) in plans]
    return cases.finish(given, wanted)


if __name__ == "__main__":
    sys.exit(main())
