"""What another program prints, nothing, and a text that was cut off are no answers; and whose program one is."""

from __future__ import annotations

from pathlib import Path

import pytest
from comfort_plans import played
from conftest import murdjohe


# 7. an answer that isn't one


FORMS = [
    *("rank plan.toml", "check plan.toml ranks.csv", "chains plan.toml", "protected plan.toml", "agree plan.toml"),
    *("hops plan.toml", "nominate plan.toml", "protect plan.toml", "sim plan.toml works.csv 1h", "gen 5", "trial 5"),
    *("inspect plan.toml works.csv 1h", "sweep plan.toml 60s 1h", "study plan.toml cases.csv 1h", "lint plan.toml"),
    *("repair plan.toml", "rehearse plan.toml works.csv", "why plan.toml works.csv B 1h", "orders plan.toml"),
    *("survey plan.toml", "report plan.toml works.csv -o page.html", "diff plan.toml plan.toml", "failures plan.toml"),
]


@pytest.mark.parametrize("words", FORMS)
def test_nothing_and_another_programs_answer_are_none(unmended: Path, words: str) -> None:
    (unmended / "cases.csv").write_text("case,at,what,target,value\nx,5,down,L1,\n")
    (unmended / "ranks.csv").write_bytes(murdjohe("rank", "plan.toml", folder=unmended).out)
    for script in ("exit 0", "echo hello", "echo no; exit 1", "printf 'line,rank'"):
        ran = murdjohe(*words.split(), folder=unmended, MURDJOHE_CORE=played(unmended, script))
        assert (ran.status, ran.out) == (70, b"") and " gave no answer to `" in ran.err, (script, ran)


FRAME = "0180c200000202000000000188090a0019a70001100000000100040002" + "00" * 31


@pytest.mark.parametrize("words", ["decode I frames", "encode I rows", "node plan.toml B received 999"])
def test_rows_of_frames_that_are_none_or_too_few(reserve: Path, core: str, words: str) -> None:
    (reserve / "frames").write_text(f"{FRAME}\n\n{FRAME}\r\n")
    (reserve / "rows").write_text("020000000001,info,QL-PRC\n020000000002,info,QL-DNU\n")
    (reserve / "received").write_text("")
    whole = murdjohe(*words.split(), folder=reserve)
    assert whole.status == 0 and whole.out.count(b"\n") == 2  # (B sends on both its lines once in that second)
    scripts = ["echo hello", "printf 020"]
    if not words.startswith("node"):
        scripts += ["exit 0", f'"{core}" "$@" | head -n 1', f'"{core}" "$@"; "{core}" "$@"']
    for script in scripts:
        ran = murdjohe(*words.split(), folder=reserve, MURDJOHE_CORE=played(reserve, script))
        assert (ran.status, ran.out) == (70, b"") and " gave no answer to `" in ran.err, (script, ran)
    for name in ("frames", "rows"):
        (reserve / name).write_text("")
    if not words.startswith("node"):
        ran = murdjohe(*words.split(), folder=reserve)
        assert (ran.status, ran.out) == (0, b"")


@pytest.mark.parametrize("words", FORMS[:14])
def test_a_text_that_was_cut_off_is_none(unmended: Path, core: str, words: str) -> None:
    (unmended / "cases.csv").write_text("case,at,what,target,value\nx,5,down,L1,\n")
    (unmended / "ranks.csv").write_bytes(murdjohe("rank", "plan.toml", folder=unmended).out)
    ran = murdjohe(*words.split(), folder=unmended, MURDJOHE_CORE=played(unmended, f'"{core}" "$@" | head -c -2'))
    assert ran.status == 70 and " gave no answer to `" in ran.err
    many = ("chains", "hops", "sweep", "sim", "trial", "nominate", "protect", "gen")
    if words.split()[0] in many:
        less = played(unmended, f'"{core}" "$@" | sed \'$d\'')
        ran = murdjohe(*words.split(), folder=unmended, MURDJOHE_CORE=less)
        assert ran.status == 70 or words.startswith(("nominate", "protect", "gen")), ran


@pytest.mark.parametrize(
    ("words", "change", "said"),
    [
        ("sim plan.toml works.csv 1h", "s/,source,/,orbit,/",
         "kind is `orbit`, where traces have one of source, own, loop"),
        ("sim plan.toml works.csv 1h --json", "s/,locked$/,asleep/",
         "state is `asleep`, where changes have one of locked,"),
        ("sweep plan.toml 60s 1h", "s/^L1,yes/L1,nearly/", "settled is `nearly`, where cuts have one of yes, no"),
        ("rehearse plan.toml works.csv", "s/,locked$/,asleep/", "state is `asleep`, where changes have one of locked,"),
    ],
)  # fmt: skip
def test_a_word_that_is_not_known_is_told(unmended: Path, core: str, words: str, change: str, said: str) -> None:
    ran = murdjohe(*words.split(), folder=unmended, MURDJOHE_CORE=played(unmended, f'"{core}" "$@" | sed \'{change}\''))
    assert ran.status == 70 and " gave an answer that isn't known here: " in ran.err and said in ran.err, ran.err
