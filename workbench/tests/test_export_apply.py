"""`export` and `import` are inverse; `apply` changes priorities and no other octet."""

from __future__ import annotations

import random
import re
import tomllib
from pathlib import Path
from typing import Any

import pytest
from conftest import CASES, EXAMPLES, murdjohe
from hypothesis import HealthCheck, given, settings
from hypothesis import strategies as st
from random_plans import RandomPlan, random_plan

from murdjohe.core import toml_reader
from murdjohe.core.documents import Document
from murdjohe.plan import edits, export, priorities, tables
from murdjohe.plan.model import plan_of
from murdjohe.plan.plan_lines import PlanLines
from murdjohe.plan.tables import TABLES, Settings

PLANS = sorted(EXAMPLES.glob("*/*.toml"))
TRIED = settings(suppress_health_check=[HealthCheck.function_scoped_fixture], max_examples=max(20, CASES))
KEYS = {"link": ("priority_a", "priority_b"), "source": ("priority",)}
DEFAULTS = {"priority_a": 0, "priority_b": 0, "priority": 1}


def without_head(text: bytes) -> dict[str, Any]:
    """The rows of a plan, and its option."""
    read = toml_reader.tables(text.decode("utf-8-sig"))
    return {"option": read.get("option", "I")} | {kind: read.get(kind, []) for kind in TABLES}


@pytest.mark.parametrize("path", PLANS, ids=lambda path: f"{path.parent.name}/{path.name}")
def test_each_example_comes_back(folder: Path, path: Path) -> None:
    ran = murdjohe("export", str(path), folder=folder)
    option = str(without_head(path.read_bytes())["option"])
    assert (ran.status, ran.out) == (0, b"") and ("--option II" in ran.err) == (option == "II")
    words = ["import", "--option", option, *(f"{kind}s.csv" for kind in TABLES)]
    back = murdjohe(*words, folder=folder)
    assert back.status == 0 and without_head(back.out) == without_head(path.read_bytes())
    assert murdjohe("rank", "-", stdin=back.out).out == murdjohe("rank", str(path)).out
    again = murdjohe("export", str(path), folder=folder)
    assert again.status == 22 and "elements.csv, ./links.csv, ./sources.csv are there already" in again.err
    only = murdjohe("export", str(path), "--only", "links", folder=folder)
    assert only.out == (folder / "links.csv").read_bytes()


@TRIED
@given(st.integers(0, 2**32))
def test_export_then_import_is_the_same_plan(tmp_path: Path, seed: int) -> None:
    plan = random_plan(random.Random(seed))
    read = tomllib.loads(plan.text()[0])
    for kind in TABLES:
        (tmp_path / kind).write_bytes(export.table_of(read, kind, {}))
    made = tables.made_of({kind: str(tmp_path / kind) for kind in TABLES}, Settings(plan.option))
    assert without_head(made.plan.encode()) == without_head(plan.text()[0].encode())


def spelled(chance: random.Random, plan: RandomPlan) -> str:
    """The plan in a random spelling: in tables with heads, or as arrays of inline tables; keys in quotes now and then."""
    if chance.random() < 0.6:
        text = plan.text()[0]
    else:
        lines = [f"version = {plan.version}", f'option = "{plan.option}"']
        for kind, rows in plan.rows.items():
            items = []
            for row in rows:
                pairs = [f"{key} = {value!r}".replace("'", '"') for key, value in row.items()]
                items.append("{" + chance.choice([" ", ""]) + ", ".join(pairs) + chance.choice([" }", "}"]))
            gap = chance.choice([", ", ",\n  # a remark, priority_a = 9\n  "])
            lines.append(f"{kind} = [{gap.join(items)}]")
        text = "\n".join(lines) + chance.choice(["", "\n"])
    for key in ("priority_a", "priority", "b"):
        if chance.random() < 0.3:
            text = re.sub(rf"(^|[{{,])([ ]*){key}( ?=)", rf'\1\2"{key}"\3', text, flags=re.M)
    return chance.choice(["", "\ufeff"]) + text


def without_priorities(text: str) -> str:
    """The text with nothing where priorities stand: their keys, signs around them and lines of their own."""
    text = re.sub(r"^[ \t]*[\"']?priority(_[ab])?[\"']?[ \t]*=[ \t]*\d+[ \t]*\r?(\n|\Z)", "", text, flags=re.M)
    return re.sub(r"(, ?)?[\"']?priority(_[ab])?[\"']?[ \t]*=[ \t]*\d+", "", text).rstrip("\r\n")


@TRIED
@given(st.integers(0, 2**32))
def test_apply_changes_no_octet_but_priorities(seed: int) -> None:
    chance = random.Random(seed)
    plan = random_plan(chance)
    text = spelled(chance, plan)
    read = PlanLines(Document("plan.toml", text.encode()))
    new = {name: chance.choice([0, 1, 2, 255]) for name in priorities.priorities_of(read.network)}
    wanted = priorities.wanted(read, new)
    data = edits.changed(read, wanted)
    assert priorities.priorities_of(plan_of(without_head(data))) == new
    assert without_priorities(data.decode()) == without_priorities(text)
    stays = PlanLines(Document("plan.toml", data))
    assert priorities.wanted(stays, new) == {} and edits.changed(stays, {}) == data
    for (kind, number, key), value in wanted.items():
        assert read.row(kind, number).get(key, DEFAULTS[key]) != value and stays.row(kind, number)[key] == value


COMMENTED = """# our network
[[element]]
name = "A"  # in Bern
[[element]]
name = "B"
[[link]]
  name = "L1"   # the duct, priority_b = 7
  b = "B"
  a = "A"
[[source]]
level = "QL-PRC"
name = "S"
at = "A" # a roof"""


def test_apply_takes_what_nominate_printed(folder: Path) -> None:
    (folder / "plan.toml").write_text(COMMENTED)
    (folder / "from.toml").write_bytes(murdjohe("nominate", "plan.toml", folder=folder).out)
    ran = murdjohe("apply", "plan.toml", "from.toml", folder=folder)
    assert ran.status == 0 and ran.err == "murdjohe: 1 priority changed; checked: accepted, agreed\n"
    assert ran.out.decode() == COMMENTED.replace('  b = "B"\n', '  b = "B"\n  priority_b = 1\n')
    ran = murdjohe("apply", "plan.toml", "from.toml", "-o", "plan.toml", folder=folder)
    assert ran.status == 22 and (folder / "plan.toml").read_text() == COMMENTED
    ran = murdjohe("apply", "plan.toml", "from.toml", "-o", "plan.toml", "--force", folder=folder)
    assert ran.status == 22 and (folder / "plan.toml").read_text() == COMMENTED
    ran = murdjohe("apply", "plan.toml", "from.toml", "-o", "new.toml", folder=folder)
    assert ran.status == 0 and "  priority_b = 1\n" in (folder / "new.toml").read_text()


def test_a_plan_of_another_network_is_refused(folder: Path) -> None:
    (folder / "plan.toml").write_text(COMMENTED)
    (folder / "from.toml").write_text(COMMENTED.replace("L1", "L2").replace('"S"', '"T"'))
    ran = murdjohe("apply", "plan.toml", "from.toml", folder=folder)
    assert (ran.status, ran.out) == (24, b"")
    assert [line.partition(";")[0] for line in ran.err.splitlines()] == [
        'murdjohe: plan.toml:7: link "L1" between A and B isn\'t in from.toml',
        'murdjohe: plan.toml:12: source "S" at A isn\'t in from.toml',
        'murdjohe: from.toml:7: link "L2" between A and B isn\'t in plan.toml',
        'murdjohe: from.toml:12: source "T" at A isn\'t in plan.toml',
    ]


def test_a_ring_that_comes_of_it_is_told(folder: Path) -> None:
    ring = EXAMPLES / "mesh" / "looping.toml"
    topology = re.sub(rb"(priority_[ab]) = \d+", rb"\1 = 0", ring.read_bytes())
    (folder / "plan.toml").write_bytes(topology)
    ran = murdjohe("apply", "plan.toml", str(ring), folder=folder)
    assert (
        ran.status == 1 and "; checked: cycle " in ran.err and without_head(ran.out) == without_head(ring.read_bytes())
    )


@pytest.mark.parametrize("words", [["export"], ["apply", "plan.toml"]])
def test_a_refused_plan_is_told_with_its_status(folder: Path, words: list[str]) -> None:
    (folder / "plan.toml").write_text(COMMENTED)
    (folder / "bad.toml").write_text(COMMENTED.replace('b = "B"', 'b = "b"'))
    ran = murdjohe(*words, "bad.toml", folder=folder)
    assert (ran.status, ran.out) == (3, b"") and 'bad.toml:8: `b = "b"`: link "L1" has end b "b"' in ran.err
    ran = murdjohe(*words, "nosuch.toml", folder=folder)
    assert (ran.status, ran.err) == (7, "murdjohe: nosuch.toml: No such file or directory\n")
