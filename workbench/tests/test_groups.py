"""Groups of parts that fail together: their table, both its forms, what is refused, and what is said beside `protected`."""

from __future__ import annotations

import json
import random
from pathlib import Path

import pytest
from conftest import CASES, TOP, murdjohe
from groups_made import DUCTS, EACH_OTHER, FOUR, random_groups, random_network, reached_and_served, tables_of
from hypothesis import given, settings
from hypothesis import strategies as st

import murdjohe as forms
from murdjohe.answers.reports import Gap
from murdjohe.network import group_remarks, groups
from murdjohe.network.groups import Group
from murdjohe.network.ways import Ways, falls_of, singles_of
from murdjohe.plan.model import plan_of

TRIED = settings(max_examples=max(30, CASES))


@pytest.fixture
def four(folder: Path) -> Path:
    """The folder with two plans and a table of groups."""
    (folder / "four.toml").write_text(FOUR)
    (folder / "each-other.toml").write_text(EACH_OTHER)
    (folder / "ducts.csv").write_text(DUCTS)
    return folder


def said(err: str) -> list[str]:
    return [line.removeprefix("murdjohe: ") for line in err.splitlines()]


def test_a_group_that_cuts_somebody_off_is_said_in_a_sentence(four: Path) -> None:
    ran = murdjohe("protected", "each-other.toml", "ducts.csv", folder=four)
    assert (ran.status, ran.out) == (1, b"kind,failure,elements,first\ngroup,D,2,B\n")
    first, sentence, remedy, alone = said(ran.err)
    assert first.startswith("1 group leaves elements without a clock that they could have: nominate lines")
    assert sentence == "if D is cut, 2 elements lose every clock though a clock could still reach them; the first is B"
    assert (remedy, alone) == (group_remarks.REMEDY, group_remarks.ALONE)
    assert alone.startswith("not looked at: two failures or groups at once")


def test_a_plan_that_no_group_hurts_is_protected_and_what_is_left_out_is_said(four: Path) -> None:
    ran = murdjohe("protected", "four.toml", "ducts.csv", folder=four)
    assert (ran.status, ran.out) == (0, b"protected\n")
    assert said(ran.err) == ["protected: 4 elements, 6 nominated lines", group_remarks.ALONE]


def test_who_has_no_way_to_a_clock_left_is_told_beside_protected(four: Path) -> None:
    (four / "both.csv").write_text("group,kind,part\nboth,link,L1\nboth,link,L3\nhall,element,A\n")
    ran = murdjohe("protected", "four.toml", "both.csv", folder=four)
    assert (ran.status, ran.out) == (0, b"protected\n")
    assert said(ran.err)[1] == (
        "2 groups leave elements without any path to a clock, whatever is nominated (they have no row): "
        "both (B, C, X), hall (B, C, X)"
    )


def test_a_table_without_groups_answers_as_none(four: Path) -> None:
    (four / "none.csv").write_text("group,kind,part\n")
    ran = murdjohe("protected", "each-other.toml", "none.csv", folder=four)
    assert (ran.status, ran.out) == (0, murdjohe("protected", "each-other.toml", folder=four).out)
    assert said(ran.err)[-1] == "the list has no group, so this is what `protected` says without one"


def test_failures_and_groups_are_counted_apart(four: Path) -> None:
    (four / "bare.toml").write_text(FOUR.replace("priority_b = 2", "priority_b = 0"))
    (four / "two.csv").write_text(DUCTS + "E,source,S\nF,link,L4\nF,link,L1\n")
    ran = murdjohe("protected", "bare.toml", "two.csv", folder=four)
    kinds = [row.partition(",")[0] for row in ran.out.decode().splitlines()[1:]]
    assert kinds == ["link", "link", "element", "group"]
    assert said(ran.err)[0].startswith("3 failures and 1 group leave elements without a clock that they could have")


def test_json_has_the_rows_and_the_sentences(four: Path) -> None:
    told = json.loads(murdjohe("protected", "each-other.toml", "ducts.csv", "--json", folder=four).out)
    assert told["answer"]["rows"] == [{"kind": "group", "failure": "D", "elements": 2, "first": "B"}]
    assert told["said"][1].startswith("if D is cut, 2 elements")
    refused = json.loads(murdjohe("protected", "four.toml", "four.toml", "--json", folder=four).out)
    assert refused["refusal"]["number"] == 26 and refused["status"] == 5


def test_groups_as_a_function(four: Path) -> None:
    assert forms.protected("each-other.toml", "ducts.csv").result.rows == (Gap("group", "D", 2, "B"),)
    assert forms.protected(FOUR.encode(), DUCTS.encode()).result.rows == ()
    with pytest.raises(forms.Refused) as refused:
        forms.protected(FOUR.encode(), b"group,kind,part\nD,link,L9\n")
    assert (refused.value.status, refused.value.number, refused.value.place) == (5, 31, "1")


def test_the_table_may_come_on_standard_input(four: Path) -> None:
    ran = murdjohe("protected", "each-other.toml", "-", folder=four, stdin=DUCTS.encode())
    assert (ran.status, said(ran.err)[1][:11]) == (1, "if D is cut")
    both = murdjohe("protected", "-", "-", folder=four, stdin=DUCTS.encode())
    assert both.status == 2 and "`-`, standard input, can be read for one word alone" in both.err


@pytest.mark.parametrize(
    ("table", "refusal", "told"),
    [
        ("", "26", "ducts.csv: it is empty; begin with `group,kind,part`"),
        ("group,kind,parts\n", "26", "ducts.csv:1: `group,kind,parts`: its first line is no header; begin with"),
        ("Group,Kind,Part\n", "26", "its header has other letters or blanks; begin with `group,kind,part`"),
        ("group;kind;part\n", "26", "its fields have semicolons between them; write commas, as in `group,kind,part`"),
        ("name,links\nD,L1 L5\n", "26",
         "it has a row for each group, with its links, and a row for each part is wanted"),
        ("at,what,target,value\n", "26", "it is an event list, and no list of groups; are two words"),
        ("group,kind,part\n# ducts\n", "27 1", "ducts.csv:2: `# ducts`: it is a remark, and lists of groups have none"),
        ("group,kind,part\nD,link\n", "27 1", "it has 2 fields in place of three; write both commas"),
        ("group,kind,part\nD;link;L1\n", "27 1", "its fields have semicolons between them; write commas"),
        ("group,kind,part\nduct 7,link,L1\n", "51 1", "the name of its group has the sign ' '; a name is 1 to 32 of"),
        ("group,kind,part\nD,link,L1\nE,link,L1\nD,link,L5\n", "52 3",
         'ducts.csv:4: `D,link,L5`: the group "D" stood above, up to line 2, and other rows came between; put all rows'),
        ("group,kind,part\nD,fibre,L1\n", "53 1",
         '"fibre" is no kind of a part (nearest: "link"); the kinds are link,'),
        ("group,kind,part\nD,bundle,X\n", "53 1", "name the links of a bundle"),
        ("group,kind,part\nD,link,L9\n", "31 1", '"L9" names no link of the plan (nearest: "L5"); correct the name'),
        ("group,kind,part\nD,link,B\n", "31 1",
         '"B" is an element; its inputs are L1>B, L2>B, L4>B; a part of the kind'),
        ("group,kind,part\nD,link,L1>B\n", "31 1", '"L1>B" is a line, into element B; a part of the kind link is the'),
        ("group,kind,part\nD,link,L1\n\nD,link,L1\n", "31 2", 'ducts.csv:4: `D,link,L1`: the group "D" has link "L1"'),
    ],
)  # fmt: skip
def test_what_is_refused_is_told_in_one_line(four: Path, table: str, refusal: str, told: str) -> None:
    (four / "ducts.csv").write_text(table)
    ran = murdjohe("protected", "four.toml", "ducts.csv", folder=four)
    assert (ran.status, ran.out.decode()) == (5, f"bad groups {refusal}\n")
    (line,) = said(ran.err)
    assert line.startswith("ducts.csv") and told in line
    own = murdjohe("explain", "protected", "four.toml", "ducts.csv", folder=four, stdin=ran.out)
    assert (own.status, own.out.decode()) == (5, f"{line}\n")


def test_too_many_rows_are_told(four: Path) -> None:
    rows = "".join(f"G{number},link,L1\n" for number in range(100_001))
    (four / "ducts.csv").write_text("group,kind,part\n" + rows)
    ran = murdjohe("protected", "four.toml", "ducts.csv", folder=four)
    assert (ran.status, ran.out) == (5, b"bad groups 33\n")
    assert said(ran.err)[0].startswith("ducts.csv:100002: `G100000,link,L1`: row 100,001 has more than 100,000 rows")


def test_swapped_files_are_told(four: Path) -> None:
    ran = murdjohe("protected", "ducts.csv", "four.toml", folder=four)
    assert ran.status == 3 and "the two words are swapped; write `murdjohe protected four.toml ducts.csv`" in ran.err


def test_both_forms_of_the_table_are_the_same_groups() -> None:
    tables = tables_of(FOUR)
    old = groups.old_groups("old.csv", "Name;Links\nD;L5 L1\nE;L2\nD;L1\n", plan_of(tables))
    assert old == (Group("D", ("L1", "L5")), Group("E", ("L2",)))
    assert groups.groups_of(groups.text_of(old).encode()) == old
    assert groups.is_old("Name;Links\n") and groups.is_old('"links","name"\n') and not groups.is_old(DUCTS)


def test_what_goes_down_with_a_group() -> None:
    tables = tables_of(FOUR)
    assert groups.down_of(Group("H", (), (), ("A",)), plan_of(tables)) == ("L1", "L3", "S")
    assert groups.down_of(Group("R", ("L5",), ("S",), ("B",)), plan_of(tables)) == ("L1", "L2", "L4", "L5", "S")


@pytest.mark.parametrize("name", ["four.toml", "each-other.toml", "ring.toml", "ring-both-ways.toml", "roof.toml"])
def test_tables_of_the_cases_are_read_as_the_program_reads_them(name: str) -> None:
    folder = TOP / "cases" / "groups"
    text = (folder / name).read_bytes()
    for path in sorted(folder.glob("*.csv")):
        try:
            rows = forms.protected(text, path.read_bytes()).result.rows
        except forms.Refused:
            continue
        known = groups.groups_of(path.read_bytes())
        told = {row.failure: row.elements for row in rows if row.kind == "group"}
        for group in known:
            reached, served = reached_and_served(tables_of(text.decode()), group)
            assert len(reached - served) == told.get(group.name, 0), (path.name, group)


@TRIED
@given(st.integers(0, 2**32))
def test_ways_say_what_the_program_says(seed: int) -> None:
    """Of random networks with groups, nominated by `protect` or at random: whom each failure and each group cuts off."""
    chance = random.Random(seed)
    text = random_network(chance, chance.randint(2, 7), chance.randint(2, 10))
    if chance.random() < 0.5:
        text = forms.protect(text.encode()).result.text or text
    lines = text.splitlines(keepends=True)
    for number, line in enumerate(lines):
        if line.startswith("priority_") and chance.random() < 0.4:
            lines[number] = f"{line.partition('=')[0]}= {chance.randint(0, 2)}\n"
    tables = tables_of("".join(lines))
    known = random_groups(chance, tables, chance.randint(0, 4))
    ways = Ways(plan_of(tables), singles_of(plan_of(tables)) + falls_of(known))
    kept = {way.number for way in ways.ways for line in way.lines if is_nominated(tables, line)}
    missing = ways.missing(kept)
    wanted = []
    for bit, fall in enumerate(ways.falls):
        cut = [name for name, one in zip(ways.names, missing) if one >> bit & 1]
        if cut:
            wanted.append(Gap(fall.kind, fall.name or None, len(cut), cut[0]))
    if all(is_whole(tables, way.lines) for way in ways.ways):
        assert forms.protected("".join(lines).encode(), groups.text_of(known).encode()).result.rows == tuple(wanted)
    for group in known:
        reached, _ = reached_and_served(tables, group)
        every, _ = reached_and_served(tables, Group("none"))
        assert set(ways.parted().get(group.name, [])) == every - reached - set(group.elements)


def is_nominated(tables: dict[str, list[dict[str, object]]], line: str) -> bool:
    """Whether a line has a priority."""
    name, _, element = line.partition(">")
    link = next(row for row in tables["link"] if row["name"] == name)
    return bool(link.get("priority_a" if link["a"] == element else "priority_b", 0))


def is_whole(tables: dict[str, list[dict[str, object]]], lines: tuple[str, ...]) -> bool:
    """Whether all lines of a way are nominated, or none: so they are where a search makes plans."""
    return len({is_nominated(tables, line) for line in lines}) == 1


def damaged(chance: random.Random, data: bytes) -> bytes:
    """A table with some octets, words or lines put in, left out, doubled or changed."""
    lines = data.split(b"\n")
    for _ in range(chance.randint(1, 3)):
        at = chance.randrange(len(lines))
        how = chance.randrange(7)
        if how == 0:
            lines.insert(at, lines[chance.randrange(len(lines))])
        elif how == 1 and len(lines) > 1:
            lines.pop(at)
        elif how == 2:
            lines[at] = lines[at].replace(b"link", chance.choice([b"source", b"element", b"Link", b"bundle"]), 1)
        elif how == 3:
            lines[at] += chance.choice([b"\r", b",", b" ", b'"', b"\0", b"\xff", b"x", b"#"])
        elif how == 4:
            lines[at] = lines[at].replace(b",", chance.choice([b";", b",,", b', "', b""]), 1)
        elif how == 5:
            lines[at] = chance.choice([b'"', b"\xef\xbb\xbf", b"# ", b" "]) + lines[at]
        else:
            lines[at] = lines[at][: chance.randrange(len(lines[at]) + 1)]
    return b"\n".join(lines)


@TRIED
@given(st.integers(0, 2**32))
def test_what_is_taken_without_the_program_it_takes_too(seed: int) -> None:
    chance = random.Random(seed)
    text = random_network(chance, chance.randint(2, 6), chance.randint(2, 8))
    tables = tables_of(text)
    whole = groups.text_of(random_groups(chance, tables, chance.randint(0, 4))).encode()
    assert groups.plain_groups(whole, plan_of(tables)) == groups.groups_of(whole)
    for data in [damaged(chance, whole) for _ in range(4)]:
        found = groups.plain_groups(data, plan_of(tables))
        if found is not None:
            assert forms.protected(text.encode(), data).status in (0, 1) and found == groups.groups_of(data)


def test_a_table_that_is_spelled_otherwise_is_asked_of_the_program(four: Path) -> None:
    (four / "ducts.csv").write_bytes(b'\xef\xbb\xbfgroup,kind,part\r\n\r\n"D",link,"L1"\r\nD,"link",L5\r\n')
    ran = murdjohe("failures", "four.toml", "--groups", "ducts.csv", folder=four)
    assert ran.status == 0 and ran.out.decode().splitlines()[1:] == ["D,600000,down,L1,", "D,600000,down,L5,"]
    assert groups.plain_groups((four / "ducts.csv").read_bytes(), plan_of(tables_of(FOUR))) is None
