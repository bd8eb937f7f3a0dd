"""What the command says of itself: help, version, which word is wrong, JSON, completion."""

from __future__ import annotations

import json
import re
import subprocess
from pathlib import Path

import pytest
from conftest import EXAMPLES, LAUNCHER, murdjohe, started

from murdjohe.commands import cli, topics
from murdjohe.core.forms import FORMS

WORDS = [*FORMS, *cli.OWN]


@pytest.mark.parametrize("words", [[], ["--help"], ["-h"], ["help"]])
def test_the_help_fits_a_terminal_and_names_each_command_once(words: list[str]) -> None:
    ran = murdjohe(*words)
    assert (ran.status, ran.err) == (0, "")
    lines = ran.out.decode().splitlines()
    assert len(lines) <= 24 and max(map(len, lines)) <= 80
    groups = [line[12:].split() for line in lines if re.match(r"  (\w+ +|  +)[a-z]", line) and line[2] != "-"]
    assert sorted(name for names in groups for name in names if name in WORDS) == sorted(WORDS)


@pytest.mark.parametrize("group", [*cli.GROUPS, cli.EVERYTHING])
def test_the_commands_of_a_group_are_listed_a_line_each(group: str) -> None:
    ran = murdjohe("help", group)
    assert (ran.status, ran.err) == (0, "")
    lines = ran.out.decode().splitlines()
    wanted = [
        name for word, its in cli.GROUPS.items() if group in (word, cli.EVERYTHING) for name, _ in cli.in_group(its)
    ]
    assert [re.match(r"  ([a-z-]+) +\w", line)[1] for line in lines if line.startswith("  ")] == wanted  # type: ignore[index]
    assert max(map(len, lines)) <= 80


@pytest.mark.parametrize("name", list(FORMS))
@pytest.mark.parametrize("words", [["{}", "--help"], ["{}", "-h"], ["help", "{}"]])
def test_a_form_tells_its_words_statuses_and_an_example(name: str, words: list[str]) -> None:
    ran = murdjohe(*(word.format(name) for word in words))
    text = ran.out.decode()
    assert (ran.status, ran.err) == (0, "")
    assert text.startswith(f"Usage: murdjohe {FORMS[name].usage} ")
    for word in FORMS[name].words:
        assert re.search(rf"^  {word.name} +\w", text, re.M)
    for status in FORMS[name].statuses:
        assert re.search(rf"^ +{status}  \w", text, re.M)
    assert f"  $ {FORMS[name].example[-1]}\n" in text


@pytest.mark.parametrize("name", list(FORMS))
def test_the_example_of_a_form_runs(folder: Path, name: str) -> None:
    (folder / "murdjohe").symlink_to(LAUNCHER)
    script = "set -e; PATH=$PWD:$PATH\n" + "\n".join(FORMS[name].example)
    ran = started(["sh", "-c", script], folder)
    assert ran.status == 0, ran.err
    last = FORMS[name].example[-1]
    written = (folder / last.rpartition("> ")[2]).read_bytes() if "> " in last else ran.out
    assert written


@pytest.mark.parametrize("name", ["draw", "timeline"])
def test_the_example_in_the_help_of_a_picture_runs(folder: Path, name: str) -> None:
    (folder / "murdjohe").symlink_to(LAUNCHER)
    lines = re.findall(r"^ +\$ (.+)$", murdjohe(name, "--help").out.decode(), re.M)
    ran = started(["sh", "-c", "set -e; PATH=$PWD:$PATH\n" + "\n".join(lines)], folder)
    assert lines and ran.status == 0, ran.err
    assert (folder / lines[-1].rpartition(" ")[2]).read_bytes().startswith(b"<?xml")


PLANNERS = ["lint", "diff", "repair", "orders", "failures", "export", "apply", "why"]


@pytest.mark.parametrize("name", PLANNERS)
def test_the_example_in_the_help_of_a_command_runs(folder: Path, name: str) -> None:
    (folder / "murdjohe").symlink_to(LAUNCHER)
    lines = re.findall(r"^ +\$ (.+)$", murdjohe(name, "--help").out.decode(), re.M)
    ran = started(["sh", "-c", "set -e; PATH=$PWD:$PATH\n" + "\n".join(lines)], folder)
    assert any(f"murdjohe {name} " in line for line in lines) and ran.status == 0, ran.err


@pytest.mark.parametrize("topic", list(topics.TOPICS))
def test_topics_are_told(topic: str) -> None:
    ran = murdjohe("help", topic)
    assert ran.status == 0 and ran.err == "" and len(ran.out) > 80


def test_the_plan_of_the_help_is_accepted(folder: Path) -> None:
    text = murdjohe("help", "plan").out.decode()
    plan = text[text.index("[[element]]") : text.index("If a plan has no priorities")]
    ran = murdjohe("rank", "-", stdin=plan.encode())
    assert (ran.status, ran.out) == (0, b"line,rank\nL1>B,0\n")
    events = murdjohe("help", "events").out.decode()
    rows = events[events.index("at,what") : events.index("500000,lockout,L1>B,") + len("500000,lockout,L1>B,")]
    (folder / "plan.toml").write_text(plan)
    ran = murdjohe("sim", "plan.toml", "-", "20m", folder=folder, stdin=rows.encode() + b"\n")
    assert ran.status == 0, ran.err
    text = murdjohe("help", "cases").out.decode()
    cases = text[text.index("case,at") : text.index("\n\n`murdjohe study PLAN")] + "\n"
    ran = murdjohe("study", "plan.toml", "-", "20m", folder=folder, stdin=cases.encode())
    assert (ran.status, [row.split(",")[0] for row in ran.out.decode().splitlines()]) == (0, ["case", "cut", "clock"])


def test_the_version_names_workbench_program_and_toolchain(core: str) -> None:
    for word in ("--version", "-V"):
        lines = murdjohe(word).out.decode().splitlines()
        assert re.fullmatch(r"murdjohe \d+\.\d+\.\d+", lines[0])
        assert re.fullmatch(rf"core {re.escape(core)}, sha256 [0-9a-f]{{16}}", lines[1])
        assert lines[2].startswith("core's commit: ") and lines[3].startswith("toolchain: ")


@pytest.mark.parametrize(
    ("words", "said"),
    [
        (["chek", "a"], 'unknown command "chek" (nearest: "check")'),
        (["RANK", "a"], 'unknown command "RANK" (nearest: "rank")'),
        (["check"], "check: PLAN is missing, a plan"),
        (["check", "plan.toml"], "check: CERT is missing, a certificate"),
        (["check", "a", "b", "c"], 'check: "c" is an unexpected argument; the form is `murdjohe check PLAN CERT`'),
        (["sim", "p", "e", "1e6"], 'sim: UNTIL is "1e6"; it is a time up to a day'),
        (["sim", "p", "e", "1200000.0"], 'UNTIL is "1200000.0"'),
        (["sim", "p", "e", "-5"], 'UNTIL is "-5"'),
        (
            ["sim", "p", "e", "0600"],
            'UNTIL is "0600"; it is a time up to a day: milliseconds, or 20m, 90s, 1h30m, HH:MM, HH:MM:SS, without leading zeros',
        ),
        (["sim", "p", "e", "86400001"], 'UNTIL is "86400001", which is more than a day'),
        (["sim", "p", "e", "25h"], 'UNTIL is "25h", which is more than a day'),
        (["study", "p"], "study: CASES is missing, a list of cases, events with the name of a case"),
        (["study", "p", "c", "1e6"], 'study: UNTIL is "1e6"; it is a time up to a day'),
        (["study", "p", "", "9"], "study: CASES is empty; it is the name of a file"),
        (["sweep", "p", "400000", "60000"], 'AT, "400000", is after UNTIL, "60000"'),
        (["sweep", "p", "10m", "60s"], 'AT, "10m", is after UNTIL, "60s"'),
        (["decode", "i", "f"], 'OPTION is "i"; it is I or II'),
        (["gen", "100001"], 'N is "100001"; it is a number of elements, 2 to 100,000'),
        (["gen", "x"], 'N is "x"'),
        (["check", "-", "-"], "`-`, standard input, can be read for one word alone"),
        (["rank", ""], "PLAN is empty"),
        (["rank", "--plan", "p"], '"--plan" is no option'),
        (["--plan", "p", "rank"], '"--plan" is no option before a command'),
        (["version"], 'unknown command "version" (nearest: "--version")'),
        (["rank", "plan", "check"], '"check" is an unexpected argument; the form is `murdjohe rank PLAN`'),
    ],
)
def test_the_wrong_word_is_told_and_what_its_words_are(words: list[str], said: str) -> None:
    ran = murdjohe(*words)
    assert (ran.status, ran.out) == (2, b"usage\n")
    assert said in ran.err and ran.err.count("\n") == 1
    assert murdjohe("--quiet", *words).err == ""


@pytest.mark.parametrize(
    "words",
    [["--bogus"], ["draw"], ["timeline", "r", "--until", "x", "-o", "t.svg"], ["completion", "tcsh"], ["explain"]],
)
def test_wrong_options_are_one_line(words: list[str]) -> None:
    ran = murdjohe(*words)
    assert (ran.status, ran.out) == (2, b"") and ran.err.startswith("murdjohe: ") and ran.err.count("\n") == 1


def as_json(*words: str) -> dict[str, object]:
    ran = murdjohe(*words, "--json", folder=EXAMPLES)
    assert ran.err == ""
    told = json.loads(ran.out)
    assert told["status"] == ran.status and isinstance(told, dict)
    return told


def test_json_has_what_the_program_wrote() -> None:
    assert as_json("check", "ring/plan.toml", "ring/certificate.csv")["answer"] == {
        "is_accepted": False,
        "falls": ["L3>A", "L1>B"],
    }
    cut = as_json("sweep", "mesh/plan.toml", "60s", "400s")["answer"]["rows"][1]  # type: ignore[index]
    assert cut == {
        "link": "N1",
        "is_settled": True,
        "locked": 5,
        "holdover": 2,
        "freerun": 0,
        "loops": 0,
        "worst": "QL-SEC",
        "bound": 360005,
    }
    assert as_json("hops", "mesh/topology.toml")["answer"]["rows"][2] == {"element": "hub-north", "hops": 1, "via": "N1>hub-north"}  # type: ignore[index]


def test_json_has_a_refusal_with_its_sentence() -> None:
    told = as_json("check", "mesh/plan.toml", "ring/certificate.csv")
    assert (told["status"], told["name"]) == (4, "BadCert")
    refusal = told["refusal"]
    assert isinstance(refusal, dict) and (refusal["number"], refusal["place"]) == (36, "1")
    assert str(refusal["sentence"]).startswith("ring/certificate.csv:2: `L1>B,0`: ")


def test_quiet_may_stand_anywhere() -> None:
    for words in (
        ["-q", "hops", "ring/plan.toml"],
        ["hops", "-q", "ring/plan.toml"],
        ["hops", "ring/plan.toml", "--quiet"],
    ):
        assert murdjohe(*words, folder=EXAMPLES).err == ""
    assert murdjohe("rank", "ring/plan.toml", folder=EXAMPLES).err != ""


def completed(*words: str) -> list[str]:
    """The words that bash is offered for the last of these."""
    line = " ".join(["murdjohe", *words])
    ran = started(
        [str(LAUNCHER)], EXAMPLES, _MURDJOHE_COMPLETE="bash_complete", COMP_WORDS=line, COMP_CWORD=str(len(words))
    )
    assert ran.status == 0 and ran.err == ""
    return [line for line in ran.out.decode().split("\n") if line]


def test_words_are_completed() -> None:
    assert completed("swe") == ["plain,sweep"]
    assert completed("stu") == ["plain,study"]
    assert completed("study", "ring/plan.toml", "ring/ev") == ["file,ring/ev"]
    assert completed("study", "ring/plan.toml", "ring/events.csv", "") == []
    assert completed("help", "cas") == ["plain,cases"]
    assert {"plain,prio-check", "plain,prio-rank", "plain,prio-sim"} == set(completed("prio-"))
    assert completed("check", "ring/pl") == ["file,ring/pl"]
    assert completed("decode", "I") == ["plain,I", "plain,II"]
    assert completed("node", "mesh/plan.toml", "hub") == ["plain,hub-north", "plain,hub-south"]
    assert completed("gen", "") == []
    assert "plain,--json" in completed("check", "--")
    assert completed("completion", "f") == ["plain,fish"]
    assert completed("help", "pl") == ["plain,plan", "plain,plans", "plain,place"]
    assert completed("draw", "ring/pl") == ["file,ring/pl"]


@pytest.mark.parametrize(
    ("shell", "has"),
    [
        ("bash", "complete -o nosort -F"),
        ("zsh", "#compdef murdjohe"),
        ("fish", "complete --no-files --command murdjohe"),
    ],
)
def test_completion_for_shells(shell: str, has: str) -> None:
    ran = murdjohe("completion", shell)
    assert ran.status == 0 and has in ran.out.decode()
    if shell == "bash":
        subprocess.run(["bash", "-n"], input=ran.out, check=True)
