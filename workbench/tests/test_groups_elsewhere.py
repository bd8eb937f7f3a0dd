"""The table of groups in `lint`, `diff`, `draw`, `failures` and `survey`."""

from __future__ import annotations

import json
from pathlib import Path

import pytest
from conftest import murdjohe
from groups_made import DUCTS, EACH_OTHER, FOUR

from murdjohe.network import group_remarks, groups
from murdjohe.network.groups import Group
from murdjohe.picture import group_bands

# D leaves B and X with each other alone in the second plan, and E parts the network.
TABLE = DUCTS + "E,link,L1\nE,link,L3\n"


@pytest.fixture
def four(folder: Path) -> Path:
    """The folder with two plans of one network and a table of groups."""
    (folder / "four.toml").write_text(FOUR)
    (folder / "each-other.toml").write_text(EACH_OTHER)
    (folder / "ducts.csv").write_text(TABLE)
    return folder


def line_of(text: str, what: str) -> int:
    """The line on which something stands first."""
    return 1 + text[: text.index(what)].count("\n")


def test_lint_tells_what_groups_cut_off_and_whom_they_leave_without_a_way(four: Path) -> None:
    ran = murdjohe("lint", "each-other.toml", "--groups", "ducts.csv", folder=four)
    line = line_of(EACH_OTHER, "[[link]]")
    wanted = [
        f'each-other.toml:{line}: warning: group "D", whose parts fail together, cuts off 2 elements, B first, though other links '
        "lead there; `murdjohe protect --groups` looks for priorities under which it doesn't",
        f'each-other.toml:{line}: warning: group "E" leaves 3 elements without any path to a clock, whatever is nominated: B, C, X; '
        "lead a link there another way, or put a clock there",
    ]
    assert [line for line in ran.out.decode().splitlines() if "group" in line] == wanted
    assert "checked: accepted, agreed, 1 gap with these groups" in ran.err and group_remarks.ALONE in ran.err
    plain = murdjohe("lint", "each-other.toml", folder=four)
    assert "group" not in plain.out.decode() + plain.err
    found = json.loads(murdjohe("lint", "four.toml", "--groups", "ducts.csv", "--json", folder=four).out)["answer"]
    assert [one["what"][:9] for one in found if one["what"].startswith("group")] == ['group "E"']
    failing = murdjohe("lint", "four.toml", "--groups", "ducts.csv", "--fail-on", "warning", folder=four)
    assert failing.status == 21


def test_diff_tells_whom_groups_cut_off_in_one_plan_alone(four: Path) -> None:
    ran = murdjohe("diff", "four.toml", "each-other.toml", "--groups", "ducts.csv", folder=four)
    told = ran.out.decode().splitlines()
    at = told.index("groups")
    assert told[at + 1 :] == ["  group D: cuts off though other links lead there 2 elements, B first, which was none"]
    assert "four.toml checked: accepted, agreed, protected with these groups; " in ran.err
    assert "each-other.toml checked: accepted, agreed, 1 gap with these groups" in ran.err
    assert "groups" not in murdjohe("diff", "four.toml", "each-other.toml", folder=four).out.decode()
    same = murdjohe("diff", "four.toml", "four.toml", "--groups", "ducts.csv", folder=four)
    assert (same.status, same.out) == (0, b"")


def test_diff_tells_whom_a_new_link_helps(four: Path) -> None:
    more = FOUR + '[[link]]\nname = "L6"\na = "A"\nb = "X"\n'
    (four / "more.toml").write_text(more)
    ran = murdjohe("diff", "four.toml", "more.toml", "--groups", "ducts.csv", "--csv", folder=four)
    assert "groups,group E,leaves without any way to a clock,B C X,none" in ran.out.decode().splitlines()


@pytest.mark.parametrize("command", [["lint", "four.toml"], ["diff", "four.toml", "each-other.toml"]])
def test_a_refused_table_is_told_in_one_line(four: Path, command: list[str]) -> None:
    (four / "ducts.csv").write_text("group,kind,part\nD,link,L9\n")
    ran = murdjohe(*command, "--groups", "ducts.csv", "-o", "out", folder=four)
    assert (ran.status, ran.out) == (5, b"") and not (four / "out").exists()
    assert ran.err == (
        'murdjohe: ducts.csv:2: `D,link,L9`: "L9" names no link of the plan (nearest: "L5"); correct the name, or take the row out\n'
    )
    both = murdjohe(*command[:-1], "-", "--groups", "-", folder=four, stdin=FOUR.encode())
    assert both.status == 2 and "`-`, standard input, can be read for one word alone" in both.err


@pytest.mark.long
def test_draw_gives_each_group_a_colour_along_its_links(four: Path) -> None:
    (four / "ducts.csv").write_text(TABLE + "R,source,S\nR,element,A\n")
    words = ["draw", "four.toml", "--groups", "ducts.csv"]
    assert murdjohe(*words, "-o", "plan.dot", folder=four).status == 0
    dot = (four / "plan.dot").read_text().splitlines()
    bands = [line.strip() for line in dot if "penwidth=8" in line]
    first, second = group_bands.COLOURS[:2]
    assert bands == [
        f'"e A" -> "e B" [dir=none, color="{first}", penwidth=8, label="D"];',
        f'"e A" -> "e B" [dir=none, color="{second}", penwidth=8, label="E"];',
        f'"e C" -> "e A" [dir=none, color="{second}", penwidth=8, label="E"];',
        f'"e C" -> "e X" [dir=none, color="{first}", penwidth=8, label="D"];',
    ]
    assert murdjohe(*words, "-o", "plan.svg", folder=four).status == 0
    picture = (four / "plan.svg").read_text().lower()
    for colour in group_bands.COLOURS[:3]:
        assert colour.lower() in picture
    assert murdjohe("draw", "four.toml", "-o", "plain.svg", folder=four).status == 0
    assert not any(colour.lower() in (four / "plain.svg").read_text().lower() for colour in group_bands.COLOURS)


def test_draw_refuses_a_table_of_another_plan(four: Path) -> None:
    (four / "ducts.csv").write_text("group,kind,part\nD,link,L9\n")
    ran = murdjohe("draw", "four.toml", "--groups", "ducts.csv", "-o", "plan.svg", folder=four)
    assert ran.status == 5 and 'ducts.csv:2: `D,link,L9`: "L9" names no link' in ran.err
    ran = murdjohe("draw", "-", "--groups", "ducts.csv", "-o", "plan.svg", folder=four, stdin=FOUR.encode())
    assert ran.status == 2 and "the plan can't come on standard input" in ran.err
    assert not (four / "plan.svg").exists()


def test_a_legend_names_the_first_groups() -> None:
    many = group_bands.painted([Group(f"G{number}", ("L1",)) for number in range(30)])
    rows = group_bands.legend(many)
    assert len(rows) == 25 and rows[0] == ("① group G0", group_bands.COLOURS[0])
    assert rows[-1][0] == "and 6 more groups" and many[8].colour == many[0].colour
    assert [many[number].sign for number in (1, 19, 20)] == ["②", "⑳", "(21)"]
    assert [one.name for one in group_bands.along(many[:2], ["L1", "L2"])] == ["G0", "G1"]
    assert group_bands.around(many, "element", "A") == []


@pytest.mark.parametrize("table", [TABLE, "name,links\nD,L1 L5\nE,L1 L3\n"])
def test_failures_writes_a_case_for_each_group(four: Path, table: str) -> None:
    (four / "ducts.csv").write_text(table)
    ran = murdjohe("failures", "four.toml", "--groups", "ducts.csv", "--at", "9s", folder=four)
    rows = "D,9000,down,L1,\nD,9000,down,L5,\nE,9000,down,L1,\nE,9000,down,L3,\n"
    assert (ran.status, ran.out.decode()) == (0, "case,at,what,target,value\n" + rows)


def test_failures_takes_sources_and_elements_of_groups(four: Path) -> None:
    (four / "ducts.csv").write_text("group,kind,part\nhall,element,A\nroof,source,S\nroof,link,L5\n")
    ran = murdjohe("--quiet", "failures", "four.toml", "--groups", "ducts.csv", "--at", "9s", folder=four)
    downs = [tuple(row.split(",")[0::3]) for row in ran.out.decode().splitlines()[1:]]
    assert downs == [("hall", "L1"), ("hall", "L3"), ("hall", "S"), ("roof", "L5"), ("roof", "S")]


def test_a_group_by_which_nothing_goes_down_is_no_case(four: Path) -> None:
    (four / "lonely.toml").write_text(FOUR + '[[element]]\nname = "Y"\n')
    (four / "ducts.csv").write_text("group,kind,part\nnothing,element,Y\nD,link,L1\n")
    ran = murdjohe("--quiet", "failures", "lonely.toml", "--groups", "ducts.csv", folder=four)
    assert ran.out.decode().splitlines()[1:] == ["D,600000,down,L1,"]


def test_a_refused_table_of_failures_is_told(four: Path) -> None:
    (four / "ducts.csv").write_text("group,kind,part\nD,link,L1\nD,link,L1\n")
    for command in ("failures", "survey"):
        ran = murdjohe(command, "four.toml", "--groups", "ducts.csv", "-o", "out.csv", folder=four)
        assert ran.status == 5 and not (four / "out.csv").exists()
        assert 'ducts.csv:3: `D,link,L1`: the group "D" has link "L1" already, line 2' in ran.err


def test_names_of_old_tables_are_those_of_new_ones() -> None:
    (group,) = groups.groups_of(b'group,kind,part\r\n"D",link,L1\r\n')
    assert group == Group("D", ("L1",))
