"""Maps of cases and elements: which cases, elements and columns they have, what each field is, and whence each run has its events."""

from __future__ import annotations

import gzip
from dataclasses import replace
from pathlib import Path

import pytest
from conftest import EXAMPLES
from surveys_made import RING, table_of

from murdjohe.answers.reports import Change, Report, Trace
from murdjohe.answers.studies import Case
from murdjohe.core.documents import Document
from murdjohe.core.faults import Wrong
from murdjohe.network import wiring
from murdjohe.picture import case_maps, colours, tiles
from murdjohe.picture.case_maps import FINE, FREERUN, HOLDOVER, WORSE, CaseMap, Disagreement, Row
from murdjohe.picture.views import LOOP, PAIR
from murdjohe.plan.model import plan_of
from murdjohe.plan.plan_lines import PlanLines
from murdjohe.runs import failures
from murdjohe.survey import case_files, case_lists, case_runs
from murdjohe.survey.case_lists import CaseList
from murdjohe.survey.tallies import Tally

ALL = (1, None)
NAMES = "ABCDEFGH"
LINES = [("L1", "A", "B"), ("L2", "B", "C"), ("L3", "C", "D"), ("L4", "E", "F"), ("L5", "F", "G"), ("L6", "G", "H")]
TABLES = {
    "element": [{"name": name} for name in NAMES],
    "link": [{"name": name, "a": a, "b": b} for name, a, b in [*LINES, ("L7", "E", "G")]],
    "source": [{"name": "S", "at": "A", "level": "QL-PRC"}],
}
WIRED = wiring.wiring_of(plan_of(TABLES))


def outcome(name: str, lost: int = 0, first: str | None = None, freerun: int = 0) -> Case:
    """A row of `study`."""
    return Case(name, True, 0, lost - freerun, freerun, 0, "QL-SEC", None, lost, first, 0, 0, 0, None, 0)


def taken(at: int, element: str, line: str | None, level: str, state: str) -> Change:
    return Change(at, element, "auto", line, level, state)


def reported(changes: list[Change], traces: list[Trace], *loops: tuple[str, ...]) -> Report:
    return Report(tuple(changes), (), tuple(traces), loops, not loops, None)


def traced(**ends: tuple[str, str]) -> list[Trace]:
    """Traces of all elements, those that aren't named at their own clocks."""
    return [Trace(name, 1, *ends.get(name, ("own", name))) for name in NAMES]


def test_what_each_element_is_at_the_end() -> None:
    changes = [
        taken(1, "A", "S", "QL-PRC", "locked"),
        taken(2, "B", "L1>B", "QL-PRC", "locked"),
        taken(3, "C", "L2>C", "QL-PRC", "locked"),
        taken(9, "B", "L1>B", "QL-SSU-A", "locked"),
        taken(9, "C", None, "QL-SEC", "holdover"),
        taken(10, "D", "L3>D", "QL-SEC", "locked"),
        taken(11, "G", "L5>G", "QL-SEC", "locked"),
        taken(11, "F", "L5>F", "QL-SEC", "locked"),
        taken(12, "H", "L6>H", "QL-SEC", "locked"),
    ]
    traces = traced(A=("source", "S"), B=("source", "S"), D=("own", "C"), F=("loop", "F"), G=("loop", "G"))
    traces[-1] = Trace("H", 2, "loop", "G")
    ends = case_maps.ends_of(WIRED, "I", reported(changes, traces, ("L5>F", "L5>G")))
    wanted = {"A": FINE, "B": WORSE, "C": HOLDOVER, "D": HOLDOVER, "E": FREERUN, "F": PAIR, "G": PAIR, "H": PAIR}
    assert ends == wanted


def test_who_follows_a_loop_is_in_it() -> None:
    walk = ("L4>F", "L5>G", "L7>E")
    changes = [taken(3, line[-1], line, "QL-PRC", "locked") for line in (*walk, "L6>H")]
    traces = traced(E=("loop", "E"), F=("loop", "F"), G=("loop", "G"), H=("loop", "G"))
    ends = case_maps.ends_of(WIRED, "I", reported(changes, traces, walk))
    assert [ends[name] for name in NAMES] == [FREERUN] * 4 + [LOOP] * 4


def test_a_run_that_says_otherwise_than_study_is_a_fault() -> None:
    report = reported([], traced(A=("source", "S"), C=("source", "S")))
    assert case_maps.row_of(WIRED, "I", outcome("x", 6, "B"), report).unfed(tuple(NAMES)) == 6
    for other in (outcome("x", 5, "B"), outcome("x", 6, "C"), outcome("x")):
        with pytest.raises(Disagreement, match="in the case 'x' `study` leaves .* and `sim` 6 elements, B first"):
            case_maps.row_of(WIRED, "I", other, report)
    everywhere = reported([], traced(**{name: ("source", "S") for name in NAMES}))
    assert case_maps.row_of(WIRED, "I", outcome("x"), everywhere).unfed(tuple(NAMES)) == 0


def test_a_run_that_was_stopped_tells_nothing() -> None:
    row = case_maps.row_of(WIRED, "I", outcome("x", 3, "B"), Report((), (), (), (), None, 99))
    assert row.ends is None and (row.unfed(("A", "B")), row.walk(("A",))) == (0, None)
    assert case_maps.elements_of(WIRED, [row]) == []


def test_elements_are_those_without_a_source_somewhere_in_the_order_of_the_plan() -> None:
    rows = [
        Row(outcome("x", 1), {"C": LOOP, "B": FINE, "D": WORSE}),
        Row(outcome("y", 2), {"H": HOLDOVER, "A": FREERUN, "B": FINE}),
    ]
    assert case_maps.elements_of(WIRED, rows) == ["A", "C", "H"]


@pytest.mark.parametrize(("count", "most", "sizes"), [(0, 3, []), (3, 3, [1, 1, 1]), (4, 3, [2, 2]), (8, 3, [3, 3, 2])])
def test_neighbours_are_put_together_where_there_are_too_many(count: int, most: int, sizes: list[int]) -> None:
    columns = case_maps.columns_of(NAMES[:count], most)
    assert [len(column) for column in columns] == sizes
    assert "".join(name for column in columns for name in column) == NAMES[:count]


def test_columns_are_never_too_many() -> None:
    for count in (99, 100, 101, 199, 200, 201, 1_999, 2_000, 100_000):
        columns = case_maps.columns_of([str(number) for number in range(count)], case_maps.MOST_COLUMNS)
        assert len(columns) <= case_maps.MOST_COLUMNS and sum(map(len, columns)) == count


def test_cases_are_the_worst_that_are_told_and_legible() -> None:
    for most, wanted in ((3, 3), (60, 60), (99, 60)):
        tally = Tally(most)
        for number in range(200):
            tally.add(outcome(str(number), number % 50, "A" if number % 50 else None))
        its = case_maps.chosen(tally)
        assert len(its) == wanted and [one.case for one in its[:3]] == ["49", "99", "149"]
        assert [one.lost for one in its] == sorted((one.lost for one in its), reverse=True)


def map_of(tally: Tally, rows: list[Row]) -> CaseMap:
    return case_maps.map_of("title", WIRED, tally, rows)


def test_what_is_said_above() -> None:
    tally = Tally(2)
    assert map_of(tally, []).about == "none of 0 cases leaves an element without a source at its end"
    tally.add(outcome("w"))
    assert map_of(tally, []).about == "none of 1 case leaves an element without a source at its end"
    tally.add(outcome("x", 1, "A"))
    first, rest = (
        Row(outcome("x", 1, "A"), {"A": HOLDOVER}),
        "an element without a source at the end (how many), the worst first",
    )
    assert map_of(tally, [first]).about == f"1 of 2 cases leaves {rest}"
    tally.add(outcome("y", 1, "A"))
    assert map_of(tally, [first]).about == f"1 of the 2 cases that leave {rest}; 3 in all"
    together = "a column is up to 17 elements that follow one another, called by the first"
    assert case_maps.about(tally, 2, 17) == f"2 of 3 cases leave {rest}; {together}"
    # the way to the end is told in a line of its own
    assert map_of(tally, [first]).way == "no case makes levels worse than before on the way"
    tally.add(replace(outcome("z"), hurt=2, dark=1_500, darkest="B", still=0))
    tally.add(replace(outcome("v", 1, "A"), hurt=1, dark=700, darkest="A", still=1))
    assert map_of(tally, [first]).way == (
        "2 cases make levels worse than before on the way, and 1 still at the end; up to the end for 1.500 s at most, B in z"
    )


def test_fields_have_colours_and_shades() -> None:
    row = Row(outcome("x", 1_234), {"A": HOLDOVER, "B": LOOP, "C": PAIR, "D": FINE, "E": WORSE})
    single = [tiles.fill_of(row, (name,), 1) for name in "ABCDE"]
    assert single == [colours.HOLDOVER, colours.LOOP, colours.PAIR, colours.PLAIN, colours.WORSE]
    assert [row.walk((name,)) for name in "ABC"] == [None, LOOP, PAIR] and row.walk(tuple("DCB")) == LOOP
    shades = [tiles.fill_of(row, column, 4) for column in (("D", "E"), ("D", "E", "A"), tuple("ABC"))]
    assert shades == [colours.shade(share) for share in (0, 1 / 3, 1)] and shades[0] == colours.PLAIN
    assert tiles.label_of(row) == "x (1,234)" and tiles.name_of(tuple("ABC")) == "A +2" and tiles.name_of(("A",)) == "A"
    keys = tiles.keys_of(CaseMap("", "", [("A",), ("B",)], [row]))
    assert keys == [("follows a clock in holdover", colours.HOLDOVER), ("TIMING LOOP", colours.LOOP)]
    keys = tiles.keys_of(CaseMap("", "", [("A", "B"), ("C",)], [row]))
    words = ["none without a source", "half", "all", "pair, taking timing from each other", "TIMING LOOP"]
    assert [word for word, _ in keys] == words


def test_what_elements_are_is_told_apart_in_grey() -> None:
    its = [colours.PLAIN, colours.WORSE, colours.HOLDOVER, colours.FREERUN]
    shades = [colours.brightness(colour) for colour in its]
    assert all(light > dark * 1.3 + 0.02 for light, dark in zip(shades, shades[1:]))
    greys = [colours.brightness(colours.shade(share / 8)) for share in range(9)]
    assert greys == sorted(greys, reverse=True) and len(set(greys)) == 9 and greys[0] == 1.0


def test_events_stand_by_their_times_the_common_ones_first() -> None:
    common = b",5,lockout,L1>B,\n,70,unlock,L1>B,\n"
    own = b'"x","5","down","L1",""\nx,9,level,S,QL-SEC\nx,70,up,L1,\nx,100,down,L2,\n'
    wanted = ["5,lockout,L1>B,", "5,down,L1,", "9,level,S,QL-SEC", "70,unlock,L1>B,", "70,up,L1,", "100,down,L2,"]
    assert case_runs.event_list(common, own).decode().splitlines() == ["at,what,target,value", *wanted]
    assert case_runs.event_list(b"", b"x,0,clear,B,\n") == b"at,what,target,value\n0,clear,B,\n"


def rows_by_case(table: str) -> dict[str, bytes]:
    """The rows of each case of a table."""
    found: dict[str, bytes] = {}
    for line in table.splitlines()[1:]:
        name = line.partition(",")[0]
        found[name] = found.get(name, b"") + line.encode() + b"\n"
    return found


def made(plan: Path, span: tuple[int, int | None] = ALL) -> CaseList:
    """The cases of all failures of a plan, and of pairs of them."""
    network = PlanLines(Document("plan.toml", plan.read_bytes())).network
    found = failures.failures_of(network, failures.KINDS)
    return case_lists.of_failures(network, found, True, 600_000, (), span)


@pytest.mark.parametrize("plan", [RING, EXAMPLES / "mesh" / "plan.toml"], ids=["ring", "mesh"])
def test_the_rows_of_made_cases_are_found_again(plan: Path) -> None:
    wanted = rows_by_case(table_of(*failures.KINDS, plan=plan))
    names = list(wanted)[::-1]
    assert case_runs.own_rows(made(plan), names) == [wanted[name] for name in names]
    some = list(wanted)[7:13]
    assert case_runs.own_rows(made(plan, (8, 13)), some) == [wanted[name] for name in some]
    assert case_runs.own_rows(made(plan), []) == []


def test_the_rows_of_a_table_are_found_again(folder: Path) -> None:
    head = '"case","at",what,target,value\n'
    Path("cases.csv").write_text(f'{head},5,"lockout",L1>B,\n"a","7",down,"L1",\n\na,9,up,L1,\nb,7,down,L2,\n')
    Path("cases.csv.gz").write_bytes(gzip.compress(Path("cases.csv").read_bytes()))
    for name in ("cases.csv", "cases.csv.gz"):
        cases = case_files.CaseFile(name).listed(ALL)
        assert case_runs.own_rows(cases, ["b", "a"]) == [b"b,7,down,L2,\n", b"a,7,down,L1,\na,9,up,L1,\n"]
        lists = case_runs.event_files(cases, ["a"])
        assert lists[0].data == b"at,what,target,value\n5,lockout,L1>B,\n7,down,L1,\n9,up,L1,\n"
        assert lists[0].name == "the case 'a'"
    Path("cases.csv.gz").write_text(f"{head}a,7,down,L1,\n")
    with pytest.raises(Wrong, match="cases.csv.gz: the case 'b' isn't there any more; the file was changed meanwhile"):
        case_runs.own_rows(cases, ["a", "b"])
