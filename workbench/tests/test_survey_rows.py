"""The rows of `survey` beside those of the model of studies in bench/, by a double that answers as the model, and by the program."""

from __future__ import annotations

import re
import subprocess
from pathlib import Path

import core_double
import pytest
from conftest import EXAMPLES, LAUNCHER, TOP, murdjohe, started
from surveys_made import RING, Double, rows_in, surveyed, table_of

from murdjohe.core import program

COMMON = [",5,lockout,L1>B,", ",1500,esmc-off,L2>C,"]
UNTIL = "3000"


def modelled(table: str, plan: Path, until: str) -> list[str]:
    """The rows that the model gives to a whole table."""
    Path("table").write_text(table)
    command = ["/usr/bin/python3", "-m", "bench.reference", "--study", str(plan), str(Path("table").resolve()), until]
    ran = started(command, TOP)
    assert ran.status == 0, ran.err
    head, *rows = ran.out.decode().splitlines()
    assert head == core_double.HEADER
    return rows


@pytest.fixture
def has_study(core: str) -> str:
    """The program, where it has the form `study`."""
    ran = subprocess.run([core, "study", "none.toml", "none.csv", "0"], capture_output=True, check=False)
    if ran.stdout == b"usage\n":
        pytest.skip("the program has no form `study` yet")
    return core


def test_rows_are_those_of_the_model_however_they_are_cut(
    folder: Path, capfd: pytest.CaptureFixture[str], monkeypatch: pytest.MonkeyPatch
) -> None:
    monkeypatch.setenv("MURDJOHE_CORE", Double(folder).made(model=str(TOP)).program)
    table = table_of("links", "sources", common=COMMON, at=1000)
    wanted = modelled(table, RING, UNTIL)
    Path("cases.csv").write_text(table)
    for size in ("3", "100"):
        ran = surveyed(capfd, str(RING), "cases.csv", "--until", UNTIL, "--size", size, "-o", f"{size}.csv")
        assert ran.status == 0, ran.err
        assert rows_in(f"{size}.csv") == wanted and len(wanted) == 10


def test_rows_of_the_program_are_those_of_the_model(
    folder: Path, capfd: pytest.CaptureFixture[str], has_study: str
) -> None:
    table = table_of(common=COMMON, at=1000)
    Path("cases.csv").write_text(table)
    ran = surveyed(capfd, str(RING), "cases.csv", "--until", UNTIL, "--size", "4", "-o", "rows.csv")
    assert ran.status == 0, ran.err
    assert rows_in("rows.csv") == modelled(table, RING, UNTIL)


def test_rows_of_the_program_are_those_of_one_study(
    folder: Path, capfd: pytest.CaptureFixture[str], has_study: str
) -> None:
    plan = EXAMPLES / "mesh" / "redundant.toml"
    table = table_of(plan=plan)
    Path("cases.csv").write_text(table)
    whole = subprocess.run([has_study, "study", str(plan), "cases.csv", "1800000"], capture_output=True, check=True)
    words = ["--links", "--sources", "--elements", "--pairs", "--size", "7"]
    ran = surveyed(capfd, str(plan), *words, "--until", "30m", "-o", "rows.csv")
    assert ran.status == 0, ran.err
    assert rows_in("rows.csv") == whole.stdout.decode().splitlines()[1:]


def test_the_example_in_the_help_runs(folder: Path, has_study: str) -> None:
    (folder / "murdjohe").symlink_to(LAUNCHER)
    lines = re.findall(r"^ +\$ (.+)$", murdjohe("survey", "--help").out.decode(), re.M)
    ran = started(["sh", "-c", "set -e; PATH=$PWD:$PATH\n" + "\n".join(lines)], folder)
    assert any("murdjohe survey " in line for line in lines) and ran.status == 0, ran.err
    assert ran.out.startswith(f"{len(rows_in('rows.csv.gz'))} cases, each looked at in its last ".encode())


def test_the_program_names_the_row_that_it_refuses(
    folder: Path, capfd: pytest.CaptureFixture[str], has_study: str
) -> None:
    head = "case,at,what,target,value\n"
    Path("cases.csv").write_text(f"{head}a,5,down,L1,\n\nb,6,down,L1,\nb,5,up,L1,\n")
    ran = surveyed(capfd, str(RING), "cases.csv", "--size", "1")
    assert (ran.status, ran.out) == (5, b"")
    assert ran.err.startswith("murdjohe: cases.csv:5: `b,5,up,L1,`: its time is before 6, that of line 4")


def test_an_answer_that_is_kept_is_that_which_is_read(has_study: str) -> None:
    running = set[int]()
    for words in list[list[str]]([["gen", "400"], ["study", "none.toml", "none.csv", "0"], []]):
        read, kept = program.run(words), program.run_kept(words, running)
        assert (kept.status, kept.text) == (read.status, read.text) and not running
