"""Standard output is byte for byte the program's, and so is the status: over all examples and all cases."""

from __future__ import annotations

import os
import re
from pathlib import Path

import pytest
from conftest import EXAMPLES, LAUNCHER, TOP, murdjohe, started

CASES_RUN = TOP / "cases" / "run"


def quiet_command(folder: Path) -> Path:
    """The command without sentences, as a program of one name: standard error is empty then, as the program's is."""
    path = folder / "murdjohe-quiet"
    path.write_text(f'#!/bin/sh\nexec {LAUNCHER} --quiet "$@"\n', encoding="utf-8")
    path.chmod(0o755)
    return path


@pytest.mark.long
@pytest.mark.parametrize("is_quiet", [False, True])
def test_every_example_is_as_stored(tmp_path: Path, is_quiet: bool) -> None:
    command = quiet_command(tmp_path) if is_quiet else LAUNCHER
    ran = started(["sh", str(EXAMPLES / "run"), str(command)])
    assert (ran.status, ran.out) == (0, b"every example is as stored\n"), ran.err


# Cases of what the program refuses where it isn't asked for large plans. The workbench always asks for them. And one in which a time
# is left out that the workbench chooses.
OF_STANDARD_SIZE = """
a-plan-longer-than-a-file-may-be plan-limits:3 plan-limits:5 plan-limits:6 plan-limits:7 plan-limits:8 usage:12 usage:39 usage:43
""".split()


@pytest.mark.long
@pytest.mark.skipif(not CASES_RUN.exists(), reason="this checkout has no cases")
def test_every_case_is_as_stored(tmp_path: Path) -> None:
    ran = started([str(CASES_RUN), "--quick", str(quiet_command(tmp_path))])
    *told, last = ran.out.decode().splitlines()
    failed = [line.partition(": ")[0] for line in told if not line.startswith(" ")]
    assert sorted(failed) == OF_STANDARD_SIZE, ran.out.decode()
    assert re.fullmatch(rf"\d+ passed, {len(failed)} failed", last), last


@pytest.mark.parametrize(
    "words",
    [
        ["rank", "ring/plan.toml"],
        ["rank", "nosuch.toml"],
        ["rank", "ring"],
        ["check", "ring/plan.toml", "lab/events.csv"],
        ["check", "lab/events.csv", "nosuch.csv"],
        ["sim", "ring/plan.toml", "ring/certificate.csv", "100"],
        ["sim", "ring/plan.toml", "ring/events.csv", "86400001"],
        ["sim", "ring/plan.toml", "ring/events.csv", "007"],
        ["sim", "ring/plan.toml", "ring/events.csv", "-5"],
        ["sim", "ring/plan.toml"],
        ["sweep", "mesh/plan.toml", "5000", "400"],
        ["study", "ring/plan.toml", "ring/events.csv", "100"],
        ["study", "ring/plan.toml", "nosuch.csv", "100"],
        ["study", "ring/plan.toml", "ring/events.csv", "1e2"],
        ["decode", "III", "lab/frames"],
        ["decode", "II", "lab/frames"],
        ["pcap-decode", "I", "lab/frames"],
        ["pcap-encode", "I", "lab/capture.rows"],
        ["node", "node/plan.toml", "nobody", "node/received", "9000"],
        ["gen", "1"],
        ["gen", "07"],
        ["trial", "2"],
        ["check", "", ""],
        ["rank", "ring/plan.toml", "--"],
        ["no-such-form", "a"],
        ["Check", "ring/plan.toml", "ring/certificate.csv"],
    ],
)
def test_wrong_words_and_files_are_answered_as_by_the_program(core: str, words: list[str]) -> None:
    own, its = murdjohe(*words, folder=EXAMPLES), started([core, *words], EXAMPLES)
    if "--" in words:  # (which ends the options of the command, and is no word of the form)
        its = started([core, *(word for word in words if word != "--")], EXAMPLES)
    assert (own.status, own.out) == (its.status, its.out)


@pytest.mark.parametrize("word", ["20m", "1200s", "00:20:00", "1200000ms"])
def test_a_time_with_a_unit_is_the_time(word: str) -> None:
    ran = murdjohe("sim", "mesh/plan.toml", "mesh/events.csv", word, "-q", folder=EXAMPLES)
    assert (ran.status, ran.out) == (0, (EXAMPLES / "mesh" / "report").read_bytes())


@pytest.mark.parametrize("words", [["check", "-", "certificate.csv"], ["check", "plan.toml", "-"]])
def test_a_dash_is_standard_input(words: list[str]) -> None:
    at = EXAMPLES / "metro-ring"
    name = "plan.toml" if words[1] == "-" else "certificate.csv"
    ran = murdjohe(*words, folder=at, stdin=(at / name).read_bytes())
    assert (ran.status, ran.out) == (0, b"accepted\n")
    assert ran.err.startswith("murdjohe: accepted: ")


def test_a_pipe_that_is_named_is_read_once_and_explained(folder: Path) -> None:
    script = f"printf 'line;rank\\n' | {LAUNCHER} check {EXAMPLES}/ring/plan.toml /dev/stdin; echo $?"
    ran = started(["sh", "-c", script])
    assert ran.out == b"bad certificate 34\n4\n"
    assert "/dev/stdin:1: `line;rank`: its fields have semicolons" in ran.err


def test_what_comes_after_the_longest_file_is_not_read(folder: Path) -> None:
    ran = started(["sh", "-c", f"yes '# a remark' | head -c 1100000000 | {LAUNCHER} rank -"])
    assert (ran.status, ran.out) == (9, b"too long\n")
    assert "standard input: it has more than 1,073,741,824 bytes" in ran.err


def test_names_that_are_no_text_are_given_to_the_program(folder: Path) -> None:
    name = os.fsdecode(b"plan-\xff.toml")
    Path(name).write_bytes((EXAMPLES / "ring" / "plan.toml").read_bytes())
    ran = murdjohe("rank", name, folder=folder)
    assert ran.status == 2 and ran.out == b"usage\n" and "UTF-8" in ran.err
