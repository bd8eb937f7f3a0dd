"""`survey`: its rows and summary by a double of the program, parts that are kept, stops and goings on, and damaged input."""

from __future__ import annotations

import dataclasses
import gzip
import json
import os
from pathlib import Path

import core_double
import pytest
from conftest import murdjohe
from hypothesis import given
from hypothesis import strategies as st
from surveys_made import EACH, INTERRUPT, RING, UNTIL, Double, double, ended, rows_in, surveyed, table_of

from murdjohe.answers import studies
from murdjohe.answers.studies import Case
from murdjohe.survey.tallies import Tally, Worst

PLAN = str(RING)
HEAD = "case,at,what,target,value\n"


@pytest.mark.parametrize("size", ["1", "4", "21", "2000"])
def test_rows_are_in_order_however_they_are_cut(double: Double, capfd: pytest.CaptureFixture[str], size: str) -> None:
    ran = surveyed(capfd, PLAN, *EACH, "--size", size, "--jobs", "3", "-o", "rows.csv.gz")
    assert ran.status == 0, ran.err
    assert rows_in("rows.csv.gz") == core_double.rows_of(table_of(), UNTIL)
    assert sorted(int(call.split()[2]) for call in double.calls()) == sorted(
        min(int(size), 21 - first) for first in range(0, 21, int(size))
    )
    worked = f"murdjohe: 21 cases worked up to {UNTIL}, 0 were worked before; parts are in murdjohe-parts\n"
    assert ran.err == f"murdjohe: what fails goes down at 00:10:00.000 (600,000 ms)\n{worked}"


def test_a_table_has_the_rows_of_its_failures(double: Double, capfd: pytest.CaptureFixture[str]) -> None:
    common = [",5,lockout,L1>B,", ",700000,unlock,L1>B,"]
    table = table_of(common=common)
    Path("cases.csv").write_text(table)
    Path("cases.csv.gz").write_bytes(gzip.compress(table.encode()))
    wanted = core_double.rows_of(table, "1900000")
    for number, name in enumerate(("cases.csv", "cases.csv.gz")):
        words = [PLAN, name, "--until", "1900s", "--size", "5", "-o", f"{number}.csv"]
        assert surveyed(capfd, *words).status == 0
        assert rows_in(f"{number}.csv") == wanted
    # (the second one found all parts of the first)
    assert len(double.calls()) == 5
    Path("works.csv").write_text("at,what,target,value\n5,lockout,L1>B,\n700000,unlock,L1>B,\n")
    during = ["--during", "works.csv", "--at", "10m"]
    ran = surveyed(capfd, PLAN, *EACH, *during, "--until", "1900s", "--size", "5", "-o", "2.csv")
    assert (ran.status, rows_in("2.csv"), len(double.calls())) == (0, wanted, 5)
    assert "0 cases worked up to 1900000, 21 were worked before" in ran.err


def test_the_end_is_a_bound_after_the_last_event(double: Double, capfd: pytest.CaptureFixture[str]) -> None:
    Path("cases.csv").write_text(f"{HEAD},90000,lockout,L1>B,\na,7,down,L1,\nb,3,down,L2,\nb,61000,up,L2,\n")
    ran = surveyed(capfd, PLAN, "cases.csv")
    assert (
        ran.status == 0
        and b"\nthe end is chosen: 0.005 s after the last event (`bound B` of `agree`, which counts wait-to-restore)"
        in ran.out
    )
    Path("late.csv").write_text(f"{HEAD}a,86399999,down,L1,\n")
    ran = surveyed(capfd, PLAN, "late.csv")
    assert (
        ran.status == 0 and b"\nthe end is chosen: 0.005 s after the last failure (`failures F` of `agree`)" in ran.out
    )
    assert double.calls() == ["a b 2 91000", "a a 1 86400000"]


def test_some_cases_of_a_table_and_none(double: Double, capfd: pytest.CaptureFixture[str]) -> None:
    Path("cases.csv").write_text(table_of())
    assert surveyed(capfd, PLAN, "cases.csv", "--cases", "20-30", "-o", "some.csv").status == 0
    assert rows_in("some.csv") == core_double.rows_of(table_of(), UNTIL)[19:]
    ran = surveyed(capfd, PLAN, "cases.csv", "--cases", "22-30", "-o", "none.csv")
    assert (ran.status, rows_in("none.csv")) == (0, [])
    assert ran.out.startswith(b"0 cases, each looked at in its last millisecond, ")


def test_the_summary_has_the_worst_first(double: Double, capfd: pytest.CaptureFixture[str]) -> None:
    rows = [studies.case(line) for line in core_double.rows_of(table_of(), UNTIL)]
    told = json.loads(surveyed(capfd, PLAN, *EACH, "--worst", "4", "--size", "6", "--json").out)["answer"]
    assert (told["cases"], told["until"]) == (21, int(UNTIL))
    assert told["losing"] == sum(row.lost > 0 for row in rows)
    assert told["unsettled"] == sum(not row.is_settled for row in rows) > 0
    assert told["looping"] == sum(row.loops > 0 for row in rows) > 0
    worst = sorted((row for row in rows if row.lost), key=lambda row: (-row.lost, -row.freerun))[:4]
    assert told["lost"] == [dataclasses.asdict(row) for row in worst]
    longest = sorted((row for row in rows if row.longest), key=lambda row: -row.longest)[:4]
    assert told["chains"] == [dataclasses.asdict(row) for row in longest]
    restless = sorted((row for row in rows if not row.is_settled), key=lambda row: (-row.loops, -row.lost))[:4]
    assert told["restless"] == [dataclasses.asdict(row) for row in restless]
    firsts = [row.first for row in rows if row.first]
    assert told["first"] == {name: firsts.count(name) for name in firsts}
    lines = surveyed(capfd, PLAN, *EACH, "--worst", "4", "--size", "6").out.decode().splitlines()
    at = lines.index("who has no source at the end, whatever the cause, most elements first:")
    assert lines[at + 1].split()[:6] == ["case", "lost", "needless", "beyond", "themselves", "first"]
    shown = [line.split() for line in lines[at + 2 : at + 6]]
    assert [[row[0], row[1], row[5]] for row in shown] == [[row.case, str(row.lost), row.first] for row in worst]


outcomes = st.lists(st.tuples(st.integers(0, 5), st.integers(0, 2), st.booleans(), st.integers(0, 9)), max_size=40)


@given(outcomes, st.integers(0, 6))
def test_the_worst_are_those_of_the_whole_list(rows: list[tuple[int, int, bool, int]], most: int) -> None:
    tally = Tally(most)
    made = []
    for number, (lost, loops, is_settled, longest) in enumerate(rows):
        first = f"E{lost}" if lost else None
        made.append(
            Case(
                str(number),
                is_settled,
                0,
                0,
                0,
                loops,
                "QL-PRC",
                None,
                lost,
                first,
                longest,
                lost,
                3 * longest,
                first,
                0,
            )
        )
        tally.add(made[-1])
    assert tally.lost.outcomes() == sorted((one for one in made if one.lost), key=lambda one: -one.lost)[:most]
    assert tally.chains.outcomes() == sorted((one for one in made if one.longest), key=lambda one: -one.longest)[:most]
    assert len(tally.lost.heap) <= most and sum(tally.first.values()) == tally.losing


def test_a_measure_of_nothing_is_not_among_the_worst() -> None:
    worst = Worst(3)
    worst.add((0, 7), 0, Case("a", True, 0, 0, 0, 0, "QL-PRC", 1, 0, None, 0, 0, 0, None, 0))
    assert worst.outcomes() == []


def test_nothing_is_worked_twice_after_a_stop(double: Double, capfd: pytest.CaptureFixture[str]) -> None:
    double.made(waits="L2--clock")
    words = [PLAN, *EACH, "--size", "2", "--jobs", "1", "-o", "rows.csv"]
    process = double.started(*words)
    double.wait_for(7)
    ran = ended(process, INTERRUPT)
    assert ran.status == 130 and ran.out == b""
    assert ran.err.startswith(
        "murdjohe: 12 of 21 cases are worked, and kept in murdjohe-parts: the same command goes on there\n"
    )
    # (nothing is left of what was on its way)
    assert sorted(os.listdir()) == ["calls", "core", "murdjohe-parts", "settings.json"]
    assert len(os.listdir("murdjohe-parts")) == 6 + 1
    double.made()
    ran = surveyed(capfd, *words)
    assert (ran.status, rows_in("rows.csv")) == (0, core_double.rows_of(table_of(), UNTIL))
    assert f"9 cases worked up to {UNTIL}, 12 were worked before" in ran.err
    calls = double.calls()
    # (that which was stopped was begun twice, and ended once)
    assert len(calls) == 11 + 1 and len(set(calls)) == 11 and calls[6] == calls[7]


def test_two_surveys_at_once_do_not_mix(double: Double, capfd: pytest.CaptureFixture[str]) -> None:
    double.made(slow=0.1)
    words = [PLAN, *EACH, "--size", "3", "--jobs", "2"]
    same = [double.started(*words, "-o", f"{name}.csv") for name in "ab"]
    other = double.started(*words, "--until", "30m10s", "-o", "c.csv")
    for process in (*same, other):
        ran = ended(process)
        assert ran.status == 0, ran.err
    wanted = core_double.rows_of(table_of(), UNTIL)
    assert rows_in("a.csv") == rows_in("b.csv") == wanted
    assert rows_in("c.csv") == core_double.rows_of(table_of(), "1810000") != wanted
    # (of the two that are alike, one took what the other worked)
    assert len(double.calls()) == len(set(double.calls())) == 14


def test_another_plan_end_program_or_case_has_other_parts(double: Double, capfd: pytest.CaptureFixture[str]) -> None:
    words = ["--links", "--parts", "kept"]
    Path("same.toml").write_bytes(RING.read_bytes())
    Path("other.toml").write_bytes(RING.read_bytes() + b"# another\n")
    for plan, more in (
        (PLAN, ()),
        ("same.toml", ()),
        ("other.toml", ()),
        (PLAN, ("--until", "25m")),
        (PLAN, ("--at", "9m")),
    ):
        assert surveyed(capfd, plan, *words, *more).status == 0
    assert len(double.calls()) == 4
    with open("core", "a", encoding="utf-8") as file:
        file.write("# another\n")
    assert surveyed(capfd, PLAN, *words).status == 0
    assert len(double.calls()) == 5 == len([name for name in os.listdir("kept") if name.endswith(".csv.gz")])


@pytest.mark.parametrize("damage", [b"", b"\x1f\x8b", b"no gzip", gzip.compress(b"case\n", mtime=0), None])
def test_a_damaged_part_is_worked_again(
    double: Double, capfd: pytest.CaptureFixture[str], damage: bytes | None
) -> None:
    words = [PLAN, *EACH, "--size", "7", "--parts", "kept"]
    assert surveyed(capfd, *words).status == 0
    parts = sorted(path for path in Path("kept").iterdir() if path.suffix == ".gz")
    # (None: a part in the place of another)
    parts[1].write_bytes(parts[0].read_bytes() if damage is None else damage)
    ran = surveyed(capfd, *words, "-o", "rows.csv")
    assert (ran.status, rows_in("rows.csv")) == (0, core_double.rows_of(table_of(), UNTIL))
    assert f"7 cases worked up to {UNTIL}, 14 were worked before" in ran.err and len(double.calls()) == 4


@pytest.mark.parametrize(
    ("settings", "status", "said"),
    [
        ({"dies": "L2"}, 69, "murdjohe-core was ended by signal 9"),
        ({"short": "L2"}, 70, "the program's answer to a part can't be read: its rows aren't those of the cases"),
        ({"refuses": "L2"}, 5, "the failures: `L2,600000,down,L2,`: the row "),
    ],
)
def test_what_the_program_can_not_do_is_told(
    double: Double, capfd: pytest.CaptureFixture[str], settings: dict[str, object], status: int, said: str
) -> None:
    double.made(**settings)
    ran = surveyed(capfd, PLAN, "--links", "--size", "1", "--jobs", "1", "-o", "rows.csv")
    assert (ran.status, ran.out) == (status, b"") and said in ran.err
    assert not Path("rows.csv").exists()
    double.made()
    assert surveyed(capfd, PLAN, "--links", "--size", "1", "-o", "rows.csv").status == 0
    # (what was worked before the mistake is kept)
    assert [call.split()[0] for call in double.calls()].count("L1") == 1


def test_a_program_without_studies_is_told(double: Double, capfd: pytest.CaptureFixture[str]) -> None:
    Path("old").touch()
    ran = surveyed(capfd, PLAN)
    assert ran.status == 69 and ran.err.count("\n") == 1
    assert "core has no form `study`: it is older than this command" in ran.err


@pytest.mark.parametrize(
    ("table", "status", "said"),
    [
        ("", 5, "cases.csv:1: no header of a table of cases; begin with `case,at,what,target,value`"),
        ("at,what,target,value\n5,down,L1,\n", 5, "cases.csv:1: `at,what,target,value`: no header"),
        (f"{HEAD}\na,5,down,L1\n", 5, "cases.csv:3: `a,5,down,L1`: it has 4 fields in place of five"),
        (f"{HEAD}a,5,down,L1,\n,5,down,L2,\n", 5, "cases.csv:3: `,5,down,L2,`: rows without a case"),
        (f"{HEAD}a b,5,down,L1,\n", 5, "cases.csv:2: `a b,5,down,L1,`: 'a b' is no name of a case"),
        (
            f"{HEAD}a,5,down,L1,\nb,5,down,L1,\na,6,down,L2,\n",
            5,
            "cases.csv:4: `a,6,down,L2,`: the case 'a' has rows from line 2 on",
        ),
        (f'{HEAD}a,5,down,"L1,\n', 5, "cases.csv:2: "),
        (f"{HEAD}a,5,down,L1\xff,\n", 24, "cases.csv: behind line "),
        (gzip.compress(HEAD.encode() * 99)[:-9], 24, "cases.csv: it is packed by gzip, and damaged behind line "),
        (f"{HEAD}a," + "5" * 9_000_000 + "\n", 24, "cases.csv:2: it is no CSV: field larger than field limit"),
        (f"{HEAD}a,5,down,L1,\n" + "a,5,down,L1,\n" * 100_000, 5, "cases.csv: the case 'a' has 100,001 rows"),
    ],
    ids=["empty", "events", "short-row", "late-common", "name", "apart", "quote", "latin-1", "cut", "field", "rows"],
)
def test_a_damaged_table_is_one_line(
    double: Double, capfd: pytest.CaptureFixture[str], table: str | bytes, status: int, said: str
) -> None:
    Path("cases.csv").write_bytes(table.encode("latin-1") if isinstance(table, str) else table)
    ran = surveyed(capfd, PLAN, "cases.csv")
    assert (ran.status, ran.out) == (status, b"") and ran.err.startswith(f"murdjohe: {said}"), ran.err
    assert ran.err.count("\n") == 1 and double.calls() == []


def test_a_row_that_the_program_refuses_has_its_line(double: Double, capfd: pytest.CaptureFixture[str]) -> None:
    double.made(refuses="c")
    rows = ",9,lockout,L1>B,\n\na,5,down,L1,\na,6,up,L1,\nb,5,down,L2,\n\nc,7,down,L9,\nd,5,down,L3,\n"
    Path("cases.csv").write_text(HEAD + rows)
    for size in ("1", "2", "9"):
        ran = surveyed(capfd, PLAN, "cases.csv", "--size", size)
        wanted = 'cases.csv:8: `c,7,down,L9,`: "L9" names nothing in the plan (nearest: "L3"); `down` takes a link'
        assert ran.status == 5 and ran.err.startswith(f"murdjohe: {wanted}") and ran.err.count("\n") == 1, ran.err


@pytest.mark.parametrize(
    ("words", "said", "status"),
    [
        (["cases.csv", "--pairs"], "--pairs makes cases, and cases.csv has them: leave out one or the other", 2),
        (["cases.csv", "--at", "5m"], "--at makes cases, and cases.csv has them", 2),
        (["none.csv"], "none.csv: No such file", 7),
        (["--cases", "3-2"], "--cases: '3-2' is no span of cases", 2),
        (["--at", "25h"], "--at: at most a day, 24h", 2),
        (["--until", "25h"], "--until: at most a day, 24h", 2),
        (["-o", "settings.json"], "settings.json is there already", 22),
        (["--parts", "settings.json"], "settings.json: File exists", 8),
        (["--size", "0"], "0 is not in the range", 2),
        (["--jobs", "2", "--scheduler", "tcp://127.0.0.1:1"], "--jobs is for this machine alone", 2),
    ],
)
def test_wrong_words_are_told(
    double: Double, capfd: pytest.CaptureFixture[str], words: list[str], said: str, status: int
) -> None:
    Path("cases.csv").write_text(f"{HEAD}a,5,down,L1,\n")
    ran = surveyed(capfd, PLAN, *words)
    assert (ran.status, ran.out) == (status, b"") and ran.err.startswith("murdjohe: ") and said in ran.err
    assert ran.err.count("\n") == 1 and double.calls() == []


def test_cases_may_come_from_standard_input(double: Double) -> None:
    ran = murdjohe("survey", PLAN, "-", "--size", "4", "-o", "rows.csv", stdin=table_of().encode())
    assert ran.status == 0, ran.err
    assert rows_in("rows.csv") == core_double.rows_of(table_of(), UNTIL)
