"""`protect --groups`: the plan that is printed, what is said beside it, statuses, files, and what is refused."""

from __future__ import annotations

import json
import re
from pathlib import Path

import pytest
from conftest import murdjohe
from groups_made import DUCTS, FOUR, NARROW

import murdjohe as forms
from murdjohe.network import group_remarks

BOTH = "group,kind,part\nnorth,link,L0\nnorth,link,L2\nsouth,link,L1\nsouth,link,L2\n"


@pytest.fixture
def files(folder: Path) -> Path:
    """The folder with two networks, each with a table of groups."""
    (folder / "four.toml").write_text(FOUR)
    (folder / "ducts.csv").write_text(DUCTS)
    (folder / "narrow.toml").write_text(NARROW)
    (folder / "both.csv").write_text(BOTH)
    return folder


def said(err: str) -> list[str]:
    return [line.removeprefix("murdjohe: ") for line in err.splitlines()]


def test_a_plan_under_which_no_group_cuts_anybody_off(files: Path) -> None:
    ran = murdjohe("protect", "four.toml", "--groups", "ducts.csv", folder=files)
    assert ran.status == 0
    assert forms.protected(ran.out, DUCTS.encode()).text == b"protected\n"
    assert forms.rank(ran.out).result.ring is None and forms.agree(ran.out).result.clash is None
    told = said(ran.err)
    assert told[0] == "1 group and each single failure: no element is cut off that could still have a clock"
    assert "checked: accepted, agreed, protected with these groups" in told
    assert any(
        re.match(r"after one failure in a settled network, or parts of one group going down: .* within 0\.3", line)
        for line in told
    )
    assert told[-1] == group_remarks.ALONE


def test_a_group_that_no_priorities_cover_is_told_and_that_it_is_known(files: Path) -> None:
    ran = murdjohe("protect", "narrow.toml", "--groups", "both.csv", folder=files)
    rows = forms.protected(ran.out, BOTH.encode()).result.rows
    assert ran.status == 1 and [row.kind for row in rows] == ["group"]
    told = said(ran.err)
    assert told[:3] == [
        "1 of 2 groups: no element is cut off that could still have a clock",
        group_remarks.sentence(rows[0], None).replace(" fails,", " is cut,"),
        "no priorities behind those of the sources do better: an exact search, by HiGHS, came to its end",
    ]
    assert "checked: accepted, agreed, 1 gap with these groups" in told
    assert any("parts of one group going down, those above excepted: every element" in line for line in told)


def test_groups_that_part_the_network_are_told_apart(files: Path) -> None:
    (files / "both.csv").write_text("group,kind,part\nE,link,L1\nE,link,L3\nF,link,L4\nF,link,L5\n")
    ran = murdjohe("protect", "four.toml", "--groups", "both.csv", folder=files)
    assert ran.status == 0
    assert said(ran.err)[:2] == [
        "2 groups and each single failure: no element is cut off that could still have a clock",
        "2 groups leave elements without any path to a clock, whatever is nominated (they have no row): "
        "E (B, C, X), F (X)",
    ]


def test_the_plan_goes_to_a_file_and_the_old_form_of_the_table_is_read(files: Path) -> None:
    (files / "old.csv").write_text("name,links\nD,L1 L5\n")
    ran = murdjohe("protect", "four.toml", "--groups", "old.csv", "-o", "plan.toml", folder=files)
    assert (ran.status, ran.out) == (0, b"")
    printed = murdjohe("protect", "four.toml", "--groups", "ducts.csv", "-q", folder=files)
    assert (printed.status, printed.err) == (0, "") and (files / "plan.toml").read_bytes() == printed.out
    again = murdjohe("protect", "four.toml", "--groups", "old.csv", "-o", "plan.toml", folder=files)
    assert again.status == 22 and "plan.toml is there already" in again.err
    over = murdjohe("protect", "four.toml", "--groups", "ducts.csv", "-o", "ducts.csv", "--force", folder=files)
    assert over.status == 22 and (files / "ducts.csv").read_text() == DUCTS


def test_json_has_the_plan_and_the_verdicts(files: Path) -> None:
    ran = murdjohe("protect", "narrow.toml", "--groups", "both.csv", "--json", folder=files)
    told = json.loads(ran.out)["answer"]
    assert (ran.status, ran.err) == (1, "")
    assert told["groups"] == ["north", "south"] and told["none_do_better"] is True
    assert told["checked"] == "accepted, agreed, 1 gap with these groups"
    assert forms.protected(told["plan"].encode(), BOTH.encode()).result.rows[0].failure == told["gaps"][0]["failure"]


def test_a_table_without_groups_gives_what_protect_gives(files: Path) -> None:
    (files / "none.csv").write_text("group,kind,part\n")
    ran = murdjohe("protect", "four.toml", "--groups", "none.csv", folder=files)
    assert (ran.status, ran.out) == (0, murdjohe("protect", "four.toml", folder=files).out)
    assert said(ran.err)[0] == "the table has no group: this is what `protect` gives without one"


@pytest.mark.parametrize(
    ("words", "status", "told"),
    [
        (["four.toml", "--groups", "nosuch.csv"], 7, "nosuch.csv: No such file or directory"),
        (["nosuch.toml", "--groups", "ducts.csv"], 7, "nosuch.toml: No such file or directory"),
        (["ducts.csv", "--groups", "ducts.csv"], 3,
         "ducts.csv:1: `group,kind,part`: it is a list of groups, and no plan"),
        (["four.toml", "--groups", "four.toml"], 5, "four.toml:1: `version = 2`: it is a plan, and no list of groups"),
        (["four.toml", "--groups", "bad.csv"], 5, 'bad.csv:2: `D,link,L9`: "L9" names no link of the plan'),
        (["four.toml", "--groups", "old.csv"], 24, "old.csv:2: links: 'L9' names no link of the plan"),
        (["-", "--groups", "-"], 2, "`-`, standard input, can be read for one word alone"),
        (["--groups", "ducts.csv"], 2, "protect: PLAN is missing"),
        (["four.toml", "ducts.csv"], 2,
         'protect: "ducts.csv" is an unexpected argument, and a list of groups is --groups ducts.csv'),
    ],
)  # fmt: skip
def test_what_is_refused_is_told_in_one_line_and_nothing_is_written(
    files: Path, words: list[str], status: int, told: str
) -> None:
    (files / "bad.csv").write_text("group,kind,part\nD,link,L9\n")
    (files / "old.csv").write_text("name,links\nD,L9\n")
    ran = murdjohe("protect", *words, "-o", "plan.toml", folder=files)
    assert ran.status == status and ran.out in (b"", b"usage\n") and not (files / "plan.toml").exists()
    assert any(line.startswith(told) for line in said(ran.err))


def test_where_sources_leave_no_room_the_rows_of_protect_are_printed(files: Path) -> None:
    text = FOUR.replace('at = "A"\nlevel = "QL-PRC"', 'at = "B"\nlevel = "QL-PRC"\npriority = 255')
    (files / "full.toml").write_text(text + '[[source]]\nname = "T"\nat = "A"\nlevel = "QL-PRC"\npriority = 255\n')
    plain = murdjohe("protect", "full.toml", folder=files)
    ran = murdjohe("protect", "full.toml", "--groups", "ducts.csv", "-o", "plan.toml", folder=files)
    assert (ran.status, ran.out) == (plain.status, plain.out) == (1, plain.out)
    assert said(ran.err)[0].startswith("no plan: in the one that was found") and not (files / "plan.toml").exists()


def test_a_network_that_is_too_large_is_told(files: Path) -> None:
    text = "".join(f'[[element]]\nname = "E{number}"\n' for number in range(5_001))
    (files / "large.toml").write_text(text)
    (files / "none.csv").write_text("group,kind,part\n")
    ran = murdjohe("protect", "large.toml", "--groups", "none.csv", folder=files)
    assert ran.status == 2 and "5,001 elements, and it searches networks of 5,000 at most" in ran.err
