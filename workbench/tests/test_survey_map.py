"""`survey --map`: its fields beside runs of the model in bench/ and of `sim`, pictures of each kind, faults, and what is refused."""

from __future__ import annotations

import os
import re
import tempfile
import time
from pathlib import Path

import core_double
import pytest
from conftest import EXAMPLES, TOP, murdjohe, started
from surveys_made import EACH, INTERRUPT, PATIENCE_S, RING, UNTIL, Double, double, ended, rows_in, surveyed, table_of

from murdjohe.answers import reports
from murdjohe.answers.reports import Report
from murdjohe.core.program import DONE, Answer
from murdjohe.picture import case_maps, tiles
from murdjohe.picture.case_maps import FREERUN, HOLDOVER, CaseMap
from murdjohe.picture.views import LOOP

MESH = EXAMPLES / "mesh"
HEAD = "case,at,what,target,value\n"
BEGINS = {"svg": b"<?xml", "png": b"\x89PNG", "pdf": b"%PDF"}


@pytest.fixture
def maps(folder: Path, monkeypatch: pytest.MonkeyPatch) -> list[CaseMap]:
    """The maps that are drawn while a test runs, in its folder."""
    found: list[CaseMap] = []
    picture = tiles.picture

    def kept(its: CaseMap, ending: str) -> bytes:
        found.append(its)
        return picture(its, ending)

    monkeypatch.setattr(tiles, "picture", kept)
    return found


def modelled(plan: Path, rows: list[str], until: str) -> Report:
    """The report of a run by the model."""
    Path("events").write_text("\n".join(["at,what,target,value", *rows]) + "\n")
    words = ["-m", "bench.reference", "--sim", str(plan), str(Path("events").resolve()), until]
    ran = started(["/usr/bin/python3", *words], TOP)
    assert ran.status == 0, ran.err
    return reports.report(Answer(DONE, ran.out))


def last_state(report: Report, element: str) -> str:
    """The state that an element shows last."""
    return [change.state for change in report.changes if change.element == element][-1]


@pytest.mark.long
def test_fields_are_those_of_the_runs_of_the_model(maps: list[CaseMap], capfd: pytest.CaptureFixture[str]) -> None:
    plan, until = MESH / "protecting.toml", "1500"
    words = ["--links", "--pairs", "--at", "1s", "--until", until, "--map", "map.svg", "--json"]
    assert surveyed(capfd, str(plan), *words).status == 0
    (its,) = maps
    own: dict[str, list[str]] = {}
    for line in table_of("links", at=1000, plan=plan).splitlines()[1:]:
        name, _, event = line.partition(",")
        own.setdefault(name, []).append(event)
    assert len(own) == 36 and len(its.rows) == 9
    lost: set[str] = set()
    for row in its.rows:
        report = modelled(plan, own[row.outcome.case], until)
        unfed = {trace.element: trace.name for trace in report.traces if trace.kind != "source"}
        lost |= set(unfed)
        assert row.ends is not None and len(unfed) == row.outcome.lost > 0
        for element, end in row.ends.items():
            assert end == (last_state(report, unfed[element]) if element in unfed else "fine")
    assert its.columns == [(name,) for name in ("hub-north", "hub-south", "cell-1", "cell-2", "cell-3")]
    assert lost == {name for (name,) in its.columns}
    assert its.title == "protecting.toml, links alone and in pairs down at 00:01, up to 00:01.500"


@pytest.mark.parametrize("ending", list(BEGINS))
def test_pictures_of_each_format(folder: Path, capfd: pytest.CaptureFixture[str], ending: str) -> None:
    words = [str(MESH / "protecting.toml"), "--links", "--pairs", "--at", "1s", "--until", "1500ms"]
    ran = surveyed(capfd, *words, "--worst", "2", "--map", f"map.{ending}", "-o", "rows.csv")
    assert (ran.status, len(rows_in("rows.csv"))) == (0, 36), ran.err
    data = Path(f"map.{ending}").read_bytes()
    assert data.startswith(BEGINS[ending])
    again = surveyed(capfd, *words, "--worst", "2", "--map", f"map.{ending}", "--force", "--jobs", "1")
    assert again.out == ran.out and Path(f"map.{ending}").read_bytes() == data
    if ending == "svg":
        text = data.decode()
        for word in ("N1--S2 (5)", "A1--A4 (3)", ">hub-north<", ">cell-3<", "2 of the 9 cases that leave", "36 in all"):
            assert word in text, word
        assert ">core-1<" not in text and "A1--A3" not in text


def test_who_is_in_a_loop_is_marked(maps: list[CaseMap], capfd: pytest.CaptureFixture[str]) -> None:
    words = ["--sources", "--elements", "--at", "1s", "--until", "1500ms", "--map", "map.svg", "-o", "rows.csv"]
    assert surveyed(capfd, str(RING), *words).status == 0
    (its,) = maps
    looping = {row.split(",")[0] for row in rows_in("rows.csv") if row.split(",")[5] != "0"}
    found = {row.outcome.case for row in its.rows if any(row.walk(column) == LOOP for column in its.columns)}
    assert looping and found == looping
    text = Path("map.svg").read_text()
    assert ">TIMING LOOP<" in text and text.count(">LOOP<") == sum(
        row.walk(column) == LOOP for row in its.rows for column in its.columns
    )


def test_cases_of_a_table_with_quoted_names_and_common_events(
    maps: list[CaseMap], capfd: pytest.CaptureFixture[str]
) -> None:
    rows = '"","900","down",S2,\n"one","1000","down","N1",""\n\nnone,1000,down,A1,\n"two",1000,down,A1,\ntwo,1000,down,A4,\n'
    Path("cases.csv").write_text(HEAD + rows)
    plan = str(MESH / "protecting.toml")
    ran = surveyed(capfd, plan, "cases.csv", "--until", "1500ms", "--map", "map.svg")
    assert ran.status == 0, ran.err
    (its,) = maps
    assert [(row.outcome.case, row.outcome.lost) for row in its.rows] == [("one", 5), ("two", 3)]
    assert its.title == "protecting.toml, cases.csv, up to 00:01.500"
    for row, own in zip(its.rows, (["N1"], ["A1", "A4"])):
        events = "".join(f"{at},down,{name},\n" for at, name in [(900, "S2"), *((1000, name) for name in own)])
        ran = murdjohe("sim", plan, "-", "1500", stdin=b"at,what,target,value\n" + events.encode())
        report = reports.report(Answer(DONE, ran.out))
        unfed = [trace.element for trace in report.traces if trace.kind != "source"]
        assert [name for (name,) in its.columns if row.ends and row.ends[name] == HOLDOVER] == unfed
    ran = murdjohe("survey", plan, "-", "--until", "1500ms", "--map", "map.png", stdin=(HEAD + rows).encode())
    assert ran.status == 0 and Path("map.png").read_bytes().startswith(BEGINS["png"])


def test_a_survey_that_loses_nobody_has_a_map_that_says_so(
    maps: list[CaseMap], capfd: pytest.CaptureFixture[str]
) -> None:
    words = [str(MESH / "protecting.toml"), "--links", "--at", "1s", "--until", "1500ms", "--map", "map.svg"]
    assert surveyed(capfd, *words).status == 0
    assert (maps[0].rows, maps[0].columns) == ([], [])
    assert "none of 8 cases leaves an element without a source at its end" in Path("map.svg").read_text()


def test_who_never_had_a_source_is_free_running(maps: list[CaseMap], capfd: pytest.CaptureFixture[str]) -> None:
    Path("cases.csv").write_text(f"{HEAD}early,0,down,N1,\nearly,0,down,S2,\n")
    words = ["cases.csv", "--until", "1500ms", "--map", "map.svg"]
    assert surveyed(capfd, str(MESH / "protecting.toml"), *words).status == 0
    (row,) = maps[0].rows
    assert row.ends and [name for name, end in row.ends.items() if end == FREERUN] == [
        "hub-north",
        "hub-south",
        "cell-1",
        "cell-2",
        "cell-3",
    ]


def test_many_elements_are_put_together(
    maps: list[CaseMap], capfd: pytest.CaptureFixture[str], monkeypatch: pytest.MonkeyPatch
) -> None:
    monkeypatch.setattr(case_maps, "MOST_COLUMNS", 2)
    words = ["--links", "--pairs", "--at", "1s", "--until", "1500ms", "--map", "map.svg"]
    assert surveyed(capfd, str(MESH / "protecting.toml"), *words).status == 0
    assert maps[0].columns == [("hub-north", "hub-south", "cell-1"), ("cell-2", "cell-3")]
    assert [maps[0].rows[1].unfed(column) for column in maps[0].columns] == [1, 2]
    text = Path("map.svg").read_text()
    assert ">hub-north +2<" in text and "a column is up to 3 elements that follow one another" in text


def test_a_run_that_says_otherwise_than_study_is_told(
    double: Double,
    capfd: pytest.CaptureFixture[str],
    tmp_path_factory: pytest.TempPathFactory,
    monkeypatch: pytest.MonkeyPatch,
) -> None:
    traces = tmp_path_factory.mktemp("traces")
    monkeypatch.setattr(tempfile, "tempdir", str(traces))
    ran = surveyed(capfd, str(RING), *EACH, "--map", "map.svg", "-o", "rows.csv")
    assert (ran.status, ran.out) == (70, b"") and ran.err.count("\n") == 1
    assert ran.err.startswith("murdjohe: a mistake of the workbench itself, Disagreement: in the case '")
    said = "`study` leaves 3 elements, E. first, without a source, and `sim` 0 elements, none first; its trace is in "
    assert re.search(said, ran.err) and len(list(traces.iterdir())) == 1
    # (nothing is written, and the parts are kept)
    assert sorted(os.listdir()) == ["calls", "core", "murdjohe-parts", "settings.json"]
    ran = surveyed(capfd, str(RING), *EACH, "-o", "rows.csv")
    assert (ran.status, rows_in("rows.csv")) == (0, core_double.rows_of(table_of(), UNTIL))
    assert f"0 cases worked up to {UNTIL}, 21 were worked before" in ran.err


def test_a_stop_while_cases_are_run_again_leaves_nothing(double: Double) -> None:
    double.made(stays=PATIENCE_S)
    # (with an end that is given `sim` runs for the map alone)
    words = ["--at", "10m", "--until", UNTIL, "--jobs", "2", "--map", "map.svg", "-o", "rows.csv"]
    process = double.started(str(RING), *EACH, *words)
    end = time.monotonic() + PATIENCE_S
    while not os.path.exists("runs"):
        assert time.monotonic() < end
        time.sleep(0.02)
    ran = ended(process, INTERRUPT)
    assert ran.status == 130 and ran.out == b""
    assert ran.err.startswith(
        "murdjohe: 21 of 21 cases are worked, and kept in murdjohe-parts: the same command goes on"
    )
    assert sorted(os.listdir()) == ["calls", "core", "murdjohe-parts", "runs", "settings.json"]


@pytest.mark.parametrize(
    ("words", "said"),
    [
        (["--map", "map.gif"], "map.gif: a picture ends in .svg, .png or .pdf"),
        (["--map", "map"], "map: a picture ends in .svg, .png or .pdf"),
        (["--map", "there.svg"], "there.svg is there already; --force writes over it"),
        (["--map", "there.svg", "-o", "settings.json"], "settings.json, there.svg are there already"),
        (["--map", "map.svg", "-o", "./map.svg"], "-o and --map are one file, map.svg: name two"),
        (["--map", "nosuch/map.svg"], "nosuch/map.svg: No such file or directory"),
        (["--map", "folder.svg"], "folder.svg: Is a directory"),
        (["--map", "map.svg", "--worst", "0"], "--worst: 0 cases leave nothing for --map to draw; take 1 or more"),
    ],
)
def test_what_can_not_be_drawn_is_told_first(
    double: Double, capfd: pytest.CaptureFixture[str], words: list[str], said: str
) -> None:
    Path("there.svg").write_text("there")
    Path("folder.svg").mkdir()
    before = sorted(os.listdir())
    ran = surveyed(capfd, str(RING), *words)
    there, no_place = "there already" in said, "directory" in said
    status = 22 if there else 8 if no_place else 2
    assert (ran.status, ran.out) == (status, b"") and ran.err.startswith(f"murdjohe: {said}"), ran.err
    assert ran.err.count("\n") == 1 and double.calls() == [] and sorted(os.listdir()) == before
