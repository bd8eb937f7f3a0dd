"""`--json` of each command of the workbench's own, and of whatever is refused, is one object of one shape."""

from __future__ import annotations

import json
from pathlib import Path
from typing import Any

import pytest
from conftest import EXAMPLES, murdjohe
from test_rows import SCHEMA, is_of

MESH = str(EXAMPLES / "mesh" / "redundant.toml")
WORKS = str(EXAMPLES / "mesh" / "works.csv")
LAB = str(EXAMPLES / "lab" / "capture.pcap")
# Words, and the status.
ANSWERED = [
    (["lint", MESH], 0),
    (["diff", MESH, str(EXAMPLES / "mesh" / "plan.toml")], 1),
    (["orders", MESH], 0),
    (["rehearse", MESH, WORKS], 0),
    (["why", MESH, WORKS, "hub-south", "3m"], 0),
    (["repair", str(EXAMPLES / "mesh" / "looping.toml")], 0),
    (["failures", MESH, "--links"], 0),
    (["capture", "read", LAB], 0),
    (["check", MESH, str(EXAMPLES / "ring" / "certificate.csv")], 4),
]
REFUSED = [
    (["lint", "nosuch"], 7, "nosuch: No such file or directory"),
    (["check", "nosuch", "nosuch"], 7, "nosuch: No such file or directory; correct its name or its rights"),
    (["survey", MESH, "--worst", "many"], 2, "Invalid value for '--worst': "),
    (["capture", "read", MESH], 6, f"{MESH}: it is no capture: it begins neither as a pcap nor as a pcapng"),
    (["capture", "compare", MESH, "nobody", LAB, "--line", "H>hub-south=@x"], 6, None),
    (["draw", "nosuch", "-o", "x.txt"], 2, "a picture ends in .svg, .png, .pdf or .dot, not in .txt"),
]


def told(words: list[str], status: int, folder: Path) -> dict[str, Any]:
    """What is printed of words, which is of the schema."""
    ran = murdjohe(*words, "--json", folder=folder) if words[0] != "draw" else murdjohe("--json", *words, folder=folder)
    found: dict[str, Any] = json.loads(ran.out)
    assert (ran.status, found["status"], found["json"]) == (status, status, 1), ran.err
    assert is_of(SCHEMA, found) and ("answer" in found) != ("refusal" in found)
    lines = [line.removeprefix("murdjohe: ") for line in ran.err.splitlines()]
    assert all(line in found["said"] for line in lines)
    return found


@pytest.mark.parametrize(
    ("words", "status"), ANSWERED, ids=lambda value: "-".join(value[:2])[:20] if isinstance(value, list) else ""
)
def test_an_answer(folder: Path, words: list[str], status: int) -> None:
    found = told(words, status, folder)
    name = "capture read" if words[0] == "capture" else words[0]
    assert found["command"] == name and ("answer" in found or status > 1)


@pytest.mark.parametrize(
    ("words", "status", "sentence"), REFUSED, ids=lambda value: value[0] if isinstance(value, list) else ""
)
def test_a_refusal(folder: Path, words: list[str], status: int, sentence: str | None) -> None:
    found = told(words, status, folder)
    assert found["command"].startswith(words[0])
    assert (found["refusal"]["sentence"] or "").startswith(sentence or "")
    assert found["said"] and found["said"][0] == found["refusal"]["sentence"]


@pytest.mark.parametrize(
    ("words", "command", "sentence"),
    [
        (["chek", MESH], "chek", 'unknown command "chek" (nearest: "check"); `murdjohe --help` lists them'),
        ([], None, "no command is given; `murdjohe --help` lists them"),
        (["--loud", "lint", MESH], "lint", "No such option: --loud"),
    ],
)
def test_words_of_no_command_are_refused_so_too(words: list[str], command: str | None, sentence: str) -> None:
    ran = murdjohe("--json", *words)
    found = json.loads(ran.out)
    assert is_of(SCHEMA, found) and (ran.status, found["status"], found["command"]) == (2, 2, command)
    assert found["refusal"]["sentence"].startswith(sentence) and found["said"][0].startswith(sentence)
    quiet = murdjohe("--json", "-q", *words)
    assert (quiet.status, json.loads(quiet.out)["command"]) == (2, command)


def test_a_file_has_the_same_object(folder: Path) -> None:
    ran = murdjohe("orders", MESH, "--json", "-o", "orders.json", folder=folder)
    if ran.status == 2:  # (where the command has no such option, the one before all does)
        ran = murdjohe("--json", "orders", MESH, "-o", "orders.json", folder=folder)
    assert (ran.status, ran.out) == (0, b"")
    found = json.loads((folder / "orders.json").read_text())
    assert found["command"] == "orders" and found["answer"][0]["element"] == "core-1"


def test_help_and_pictures_are_what_they_were(folder: Path) -> None:
    assert murdjohe("--json", "lint", "--help").out == murdjohe("lint", "--help").out
    assert murdjohe("--json", "draw", MESH, "-o", "-").out == murdjohe("draw", MESH, "-o", "-").out
