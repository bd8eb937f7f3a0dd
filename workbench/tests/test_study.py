"""`study`: its table, what is said beside it and of each refusal, by hand; the same by the program where that is asked."""

from __future__ import annotations

import dataclasses
import json
from pathlib import Path

import pytest
from conftest import murdjohe

import murdjohe as forms
from murdjohe.answers import answer_json, reports
from murdjohe.core import inputs, row_tables
from murdjohe.core.forms import FORMS
from murdjohe.core.inputs import Words
from murdjohe.core.program import Answer
from murdjohe.remarks import form_remarks
from murdjohe.sentences import answers

PLAN = """version = 2
element = [{ name = "A" }, { name = "B" }, { name = "C" }]
source = [{ name = "S", at = "A", level = "QL-PRC" }]
[[link]]
name = "L1"
a = "A"
b = "B"
priority_b = 1
delay_a = 10
delay_b = 10
bundle = "G"
[[link]]
name = "L2"
a = "B"
b = "C"
priority_b = 1
delay_a = 10
delay_b = 10
"""
HEAD = "case,at,what,target,value\n"
CASES = HEAD + "cut,1000,down,L1,\nlate,90000,down,L1,\nlast,1000,down,L2,\nall,1000,down,S,\n"
COLUMNS = "case,settled,locked,holdover,freerun,loops,worst,bound,lost,first,longest,hurt,dark,darkest,still"
# (the longest wait is 300,000 milliseconds, there is a rank above 0, and a line takes 10)
TABLE = f"""{COLUMNS}
cut,yes,2,1,0,0,QL-SEC,301021,2,B,1,2,8701,B,2
late,yes,3,0,0,0,QL-PRC,300021,0,,2,0,0,,0
last,yes,2,1,0,0,QL-SEC,301021,1,C,1,1,8701,C,1
all,yes,2,1,0,0,QL-SEC,301021,3,A,2,3,8701,A,3
"""
PAIR = """element = [{ name = "A" }, { name = "B" }]
link = [{ name = "L1", a = "A", b = "B", priority_a = 1, priority_b = 1, delay_a = 10, delay_b = 10 }]
"""


def words_of(folder: Path, cases: str | bytes, until: str = "10000") -> Words:
    """The words of a study of the plan and these cases, which are files of the folder."""
    (folder / "plan.toml").write_text(PLAN)
    (folder / "cases.csv").write_bytes(cases.encode() if isinstance(cases, str) else cases)
    words = inputs.taken(FORMS["study"], ["plan.toml", "cases.csv", until])
    assert words
    return words


def said(folder: Path, text: str, cases: str = CASES, until: str = "10000") -> list[str]:
    return form_remarks.remarks(words_of(folder, cases, until), Answer(0, text.encode()))


def test_the_table_is_read_row_by_row() -> None:
    answer = Answer(0, (TABLE + "pair,no,0,1,1,2,QL-DNU,none,2,A,0,1,20,B,0\n").encode())
    rows = reports.read("study", answer).rows
    assert rows[0] == reports.Case("cut", True, 2, 1, 0, 0, "QL-SEC", 301_021, 2, "B", 1, 2, 8_701, "B", 2)
    assert rows[1] == reports.Case("late", True, 3, 0, 0, 0, "QL-PRC", 300_021, 0, None, 2, 0, 0, None, 0)
    assert rows[-1] == reports.Case("pair", False, 0, 1, 1, 2, "QL-DNU", None, 2, "A", 0, 1, 20, "B", 0)
    assert [row.case for row in rows] == ["cut", "late", "last", "all", "pair"]
    assert reports.read("study", Answer(0, f"{COLUMNS}\n".encode())) == reports.Study(())


def test_what_the_program_does_not_write_is_no_table() -> None:
    for row in (
        "x,yes,1,1,1,1,QL-PRC,none,1,A,1",
        "x,yes,1,1,1,1,QL-PRC,none,1,A,1,0,0,",
        "x,yes,1,1,1,1,QL-PRC,none,1,A,1,0,0,,0,1",
        "x,yes,1,1,b,1,QL-PRC,1,1,A,1,0,0,,0",
        "x,yes,1,1,1,1,QL-PRC,1,1,A,1,0,,,0",
        "x",
    ):
        with pytest.raises((ValueError, IndexError)):
            reports.read("study", Answer(0, f"{COLUMNS}\n{row}\n".encode()))


def test_a_row_has_what_one_of_sweep_has() -> None:
    names = [field.name.removeprefix("is_") for field in dataclasses.fields(reports.Case)]
    assert names == COLUMNS.split(",")
    shared = [field.name for field in dataclasses.fields(reports.Cut)]
    assert shared == ["link", "is_settled", "locked", "holdover", "freerun", "loops", "worst", "bound"]
    row = "L1,no,1,2,3,4,QL-SEC,5"
    cut = reports.read("sweep", Answer(0, f"{row_tables.CUTS.header}\n{row}\n".encode())).rows[0]
    case = reports.read("study", Answer(0, f"{COLUMNS}\n{row},6,A,7,8,9,B,10\n".encode())).rows[0]
    assert dataclasses.astuple(cut) == dataclasses.astuple(case)[:8] == ("L1", False, 1, 2, 3, 4, "QL-SEC", 5)


def test_json_has_the_columns_in_order(folder: Path) -> None:
    told = json.loads(answer_json.text(words_of(folder, CASES), Answer(0, TABLE.encode()), ["a sentence"]))
    assert (told["form"], told["name"], told["said"]) == ("study", "Done", ["a sentence"])
    assert list(told["answer"]["rows"][1].items()) == [
        ("case", "late"),
        ("is_settled", True),
        ("locked", 3),
        ("holdover", 0),
        ("freerun", 0),
        ("loops", 0),
        ("worst", "QL-PRC"),
        ("bound", 300_021),
        ("lost", 0),
        ("first", None),
        ("longest", 2),
        ("hurt", 0),
        ("dark", 0),
        ("darkest", None),
        ("still", 0),
    ]


def test_cases_that_leave_somebody_without_a_source_are_told_worst_first(folder: Path) -> None:
    some = "3 of 4 cases leave elements without a source at the end (how many, most first): all (3), cut (2), last (1)"
    end = "only the end, 00:01:30.000, is looked at: a source lost and back by then isn't counted, a level worse on the way is"
    way = "3 of 4 cases make levels worse than before on the way, and 3 still at the end (for which element longest, and for how long up to the end): cut (B, 8,701 ms), last (C, 8,701 ms), all (A, 8,701 ms)"
    assert said(folder, TABLE, until="90000") == [some, way, end]
    one = "\n".join(TABLE.splitlines()[:3]) + "\n"
    assert (
        said(folder, one)[-3]
        == "1 of 2 cases leaves elements without a source at the end (how many, most first): cut (2)"
    )
    none = "\n".join(TABLE.splitlines()[:3:2]) + "\n"
    assert said(folder, none)[-2] == "no case of 1 leaves an element without a source at the end"


def test_many_cases_are_counted_and_the_worst_of_them_named(folder: Path) -> None:
    rows = "".join(f"c{number},yes,9,1,0,0,QL-SEC,none,{number % 50},A,1,0,0,,0\n" for number in range(1000))
    line, _ = said(folder, f"{COLUMNS}\n{rows}", until="90000")
    worst = ", ".join(f"c{number} (49)" for number in range(49, 600 + 49, 50))
    assert (
        line
        == f"980 of 1,000 cases leave elements without a source at the end (how many, most first): {worst} and 968 more"
    )


def test_rows_that_are_not_settled_and_loops_are_told(folder: Path) -> None:
    rows = "x,no,1,0,1,0,QL-SEC,none,0,,1,0,0,,0\ny,no,2,0,0,1,QL-SEC,none,0,,61,0,0,,0\nz,yes,2,0,0,0,QL-SEC,none,0,,60,1,700,B,0\n"
    assert said(folder, f"{COLUMNS}\n{rows}") == [
        "1 of 4 events is after 10000, and had no effect",
        "no case of 3 leaves an element without a source at the end",
        "2 rows not settled, run longer, to a later UNTIL: x, y",
        "loops stand in 1 case: y",
        "traces of more than G.803's 60 lines in 1 case: y (61)",
        "1 of 3 cases makes levels worse than before on the way, and 0 still at the end (for which element longest, and for how long up to the end): z (B, 700 ms)",
        "only the end, 00:00:10.000, is looked at: a source lost and back by then isn't counted, a level worse on the way is",
    ]


def test_events_after_the_end_are_counted_in_common_rows_and_cases(folder: Path) -> None:
    cases = f'\ufeff\n{HEAD}"",5,down,L1,\n,70,up,L1,\n\n"a",61,down,S,\n"b","60","down","S",""\n'
    first, *_ = said(folder, TABLE, cases, "60")
    assert first == "2 of 4 events are after 60, and had no effect"


def test_a_list_without_a_case_is_told(folder: Path) -> None:
    none = ["there is no case, and so no row: the first field of an event names its case"]
    assert said(folder, f"{COLUMNS}\n", HEAD) == none
    assert said(folder, f"{COLUMNS}\n", HEAD + ",5,down,L1,\n")[:-1] == none  # (and then that 5 is no second)


TWICE = "a,5,down,L1,\na,9,down,L2,\n\nb,5,down,S,\na,9,up,L1,\n"
# Rows below the header, how they are refused, the line of the file, and what is said of it.
REFUSED = [
    ("a,5,down,L1\n", "27 1", 2,
     "it has 4 fields in place of five; write all four commas, also where the first or the last"),
    ("5,down,L1,\n", "27 1", 2, "it has 4 fields in place of five; write all four commas"),
    ("a,5,down,L1,,\n", "27 1", 2, "it has 6 fields in place of five; write all four commas"),
    ("a;5;down;L1;\n", "27 1", 2, "its fields have semicolons between them; write commas"),
    ("a,5,down,L1,\n# the other\n", "27 2", 3, "it is a remark, and lists of events have none; take it out"),
    ("a b,5,down,L1,\n", "51 1", 2,
     "the name of its case has the sign ' '; a name is 1 to 32 of A-Z a-z 0-9 _ -, as \"a-b\""),
    ("L1>B,5,down,L1,\n", "51 1", 2, "the name of its case has the sign '>'; a name is 1 to 32"),
    ("a.1,5,down,L1,\n", "51 1", 2, 'the name of its case has a dot; a name is 1 to 32 of A-Z a-z 0-9 _ -, as "a-1"'),
    ('"a\nb",5,down,L1,\n', "51 1", 2, "the name of its case has the sign '\\n'; a name is 1 to 32"),
    ("a" * 33 + ",5,down,L1,\n", "51 1", 2,
     f'the name of its case has 33 signs; a name is 1 to 32 of A-Z a-z 0-9 _ -, as "{"a" * 32}"'),
    (",5,down,L1,\n\na,5,down,L2,\n,9,up,L1,\n", "51 3", 5,
     'it has no case, and stands below a row of case "a", line 4; put events that are common to all above all cases, or name'),
    (TWICE, "52 4", 6,
     'the case "a" stood above, up to line 3, and other rows came between; put all rows of a case together, or give one of'),
    ("a,20x,down,L1,\n", "28 1", 2,
     '"20x" is no number from 0 to 86400000; write whole milliseconds, digits alone, or 90s, 5m, 02:10'),
    ("a,86400001,down,L1,\n", "28 1", 2, '"86400001" is no number from 0 to 86400000; write whole milliseconds'),
    ("a,5,down,L1,\nb,9,down,L1,\nb,8,down,L2,\n", "29 3", 4,
     "its time is before 9, that of line 3; sort the rows of each case by time; those of one millisecond keep their order"),
    (",5,down,L1,\n,4,up,L1,\n", "29 2", 3, "its time is before 5, that of line 2; sort the rows of each case"),
    ("a,5,cut,L1,\n", "30 1", 2, '"cut" is no word of an event (nearest: "down"); the words are down, up, '),
    ("a,5,down,G,\n", "31 1", 2,
     '"G" is a bundle; its links are L1; `down` takes a link, a line, as L1>B, or a source'),
    ("a,5,down,l2,\n", "31 1", 2, '"l2" names nothing in the plan (nearest: "L2")'),
    ("a,5,down,L1,x\n", "32 1", 2, '`down` takes no value, and "x" stands there; leave the value empty'),
    ("a,5,level,S,PRC\n", "32 1", 2, '"PRC" is no level of option I (nearest: "QL-PRC"); the levels are '),
]  # fmt: skip
# Whole files without the header, and what is said of them.
HEADLESS = [
    ("", "cases.csv: it is empty; begin with `case,at,what,target,value`"),
    (
        "a,5,down,L1,\n",
        "cases.csv:1: `a,5,down,L1,`: its first line is no header; begin with `case,at,what,target,value`",
    ),
    ("Case,At,What,Target,Value\n", "its header has other letters or blanks; begin with `case,at,what,target,value`"),
    ("case;at;what;target;value\n", "its fields have semicolons between them; write commas, as in `case,at,what,"),
    (
        "at,what,target,value\n5,down,L1,\n",
        "cases.csv:1: `at,what,target,value`: it is an event list, and no list of cases; begin with `case,at,what,target,value`, "
        "and write its case before each event",
    ),
    (TABLE, f"cases.csv:1: `{COLUMNS}`: it is a table of `study`, and no list of cases; are two words of the"),
    (PLAN, "it is a plan, and no list of cases; are two words of the command swapped?"),
    ("case,at,what,target,value\n".encode("utf-16"), "it is text in UTF-16"),
]


@pytest.mark.parametrize(("rows", "number", "line", "sentence"), REFUSED)
def test_a_refused_row_is_told_with_its_line(folder: Path, rows: str, number: str, line: int, sentence: str) -> None:
    words = words_of(folder, HEAD + rows)
    told = answers.sentence(words, Answer(5, f"bad events {number}\n".encode()))
    text = (HEAD + rows).split("\n")[line - 1]
    shown = text if len(text) <= 100 else text[:98] + ".."
    assert told and told.startswith(f"cases.csv:{line}: `{shown}`: {sentence}"), told
    assert "\n" not in told


MANY = HEAD + "a,5,clear,A,\n" * 100_001
TOO_MANY = (
    "cases.csv:100002: `a,5,clear,A,`: the row is one too many: there are more than 100,000 rows, or 5,000,000 beside a large "
    "plan; put some of the cases into another list"
)


def test_a_row_too_many_is_told(folder: Path) -> None:
    assert answers.sentence(words_of(folder, MANY), Answer(5, b"bad events 33\n")) == TOO_MANY


@pytest.mark.parametrize(("data", "sentence"), HEADLESS)
def test_a_file_that_is_no_list_of_cases_is_told(folder: Path, data: str | bytes, sentence: str) -> None:
    told = answers.sentence(words_of(folder, data), Answer(5, b"bad events 26\n"))
    assert told and told.startswith("cases.csv:") and sentence in told


def test_what_can_not_be_read_once_more_is_told_as_of_a_list_of_cases(folder: Path) -> None:
    words = words_of(folder, CASES)
    (folder / "cases.csv").unlink()
    told = answers.sentence(words, Answer(5, b"bad events 27 3\n"))
    assert told == "cases 3: it hasn't five fields; write all four commas, also where the first or the last is empty"
    unnamed = answers.sentence(Words(FORMS["study"], [], ["study"], []), Answer(5, b"bad events 27 3\n"))
    assert unnamed and unnamed.startswith("the file: row 3 hasn't five fields; write all four commas")


def test_a_number_of_a_later_program_is_told(folder: Path) -> None:
    told = answers.sentence(words_of(folder, CASES), Answer(5, b"bad events 77 3\n"))
    assert told == "cases.csv: row 3 is refused with the number 77; "


def test_a_refusal_as_json(folder: Path) -> None:
    words, answer = words_of(folder, HEAD + TWICE), Answer(5, b"bad events 52 4\n")
    told = json.loads(answer_json.text(words, answer, [str(answers.sentence(words, answer))]))
    assert (told["name"], told["refusal"]["number"], told["refusal"]["place"]) == ("BadEvents", 52, "4")
    assert told["refusal"]["sentence"].startswith("cases.csv:6: `a,9,up,L1,`: the case ")


def test_the_other_forms_say_what_a_list_of_cases_is_for(folder: Path) -> None:
    words_of(folder, CASES)
    words = inputs.taken(FORMS["sim"], ["plan.toml", "cases.csv", "9"])
    assert words and answers.sentence(words, Answer(5, b"bad events 26\n")) == (
        "cases.csv:1: `case,at,what,target,value`: it is a list of cases, and no event list; `murdjohe study` runs each of its cases"
    )


def test_a_refusal_of_the_program_alone_is_explained(folder: Path) -> None:
    words_of(folder, HEAD + TWICE)
    ran = murdjohe("explain", "study", "plan.toml", "cases.csv", "9", folder=folder, stdin=b"bad events 52 4\n")
    assert (ran.status, ran.err) == (5, "")
    assert ran.out.decode().startswith('cases.csv:6: `a,9,up,L1,`: the case "a" stood above, up to line 3')
    table = murdjohe("explain", "study", "plan.toml", "cases.csv", "9", folder=folder, stdin=TABLE.encode())
    assert (table.status, table.out.decode()) == (0, TABLE)


# ---- by the program


def test_the_program_has_these_rows(folder: Path) -> None:
    words_of(folder, CASES)
    found = forms.study("plan.toml", CASES.encode(), "10s")
    assert (found.status, found.text.decode()) == (0, TABLE)
    assert found.result.rows == reports.read("study", Answer(0, TABLE.encode())).rows
    swings = forms.study(PAIR.encode(), f"{HEAD}x,5,lockout,L1>A,\ny,16,lockout,L1>A,\n".encode(), 15).result.rows
    assert swings == (
        reports.Case("x", False, 1, 0, 1, 0, "QL-SEC", None, 2, "A", 1, 0, 0, None, 0),
        reports.Case("y", False, 2, 0, 0, 1, "QL-SEC", None, 2, "A", 0, 0, 0, None, 0),
    )
    assert forms.study(folder / "plan.toml", HEAD.encode(), 0).result == reports.Study(())


def test_the_command_has_the_rows_and_says_what_they_are(folder: Path) -> None:
    words_of(folder, CASES)
    ran = murdjohe("study", "plan.toml", "-", "90s", folder=folder, stdin=CASES.encode())
    rows = TABLE.replace("late,yes,3,0,0,0,QL-PRC,300021,0,,2", "late,no,3,0,0,0,QL-PRC,390021,0,,2")
    rows = rows.replace(",8701,", ",88701,")
    assert (ran.status, ran.out.decode()) == (0, rows)
    assert ran.err.splitlines() == [
        "murdjohe: 3 of 4 cases leave elements without a source at the end (how many, most first): all (3), cut (2), last (1)",
        "murdjohe: 1 row not settled, run longer, to a later UNTIL: late",
        "murdjohe: 3 of 4 cases make levels worse than before on the way, and 3 still at the end (for which element longest, and for how long up to the end): cut (B, 88,701 ms), last (C, 88,701 ms), all (A, 88,701 ms)",
        "murdjohe: only the end, 00:01:30.000, is looked at: a source lost and back by then isn't counted, a level worse on the way is",
    ]
    told = json.loads(murdjohe("study", "plan.toml", "cases.csv", "10s", "--json", folder=folder).out)
    assert [row["first"] for row in told["answer"]["rows"]] == ["B", None, "C", "A"] and len(told["said"]) == 4


@pytest.mark.parametrize(("rows", "number", "line", "sentence"), REFUSED)
def test_the_program_refuses_the_rows_so(folder: Path, rows: str, number: str, line: int, sentence: str) -> None:
    words_of(folder, HEAD + rows)
    ran = murdjohe("study", "plan.toml", "cases.csv", "9", folder=folder)
    assert (ran.status, ran.out.decode()) == (5, f"bad events {number}\n")
    assert sentence in ran.err and ran.err.startswith(f"murdjohe: cases.csv:{line}: ") and ran.err.count("\n") == 1


def test_the_program_refuses_a_row_too_many_so(folder: Path) -> None:
    words_of(folder, MANY)
    ran = murdjohe("study", "plan.toml", "cases.csv", "9", folder=folder)
    assert (ran.status, ran.out, ran.err) == (5, b"bad events 33\n", f"murdjohe: {TOO_MANY}\n")


@pytest.mark.parametrize(("data", "sentence"), HEADLESS)
def test_the_program_refuses_the_files_so(folder: Path, data: str | bytes, sentence: str) -> None:
    words_of(folder, data)
    ran = murdjohe("study", "plan.toml", "cases.csv", "9", folder=folder)
    assert (ran.status, ran.out, ran.err.count("\n")) == (5, b"bad events 26\n", 1) and sentence in ran.err
    with pytest.raises(forms.Refused) as refused:
        forms.study("plan.toml", "cases.csv", 9)
    assert (refused.value.number, refused.value.place) == (26, None) and sentence in refused.value.sentence


def test_what_failures_writes_is_studied(folder: Path) -> None:
    words_of(folder, CASES)
    kinds = ["--links", "--bundles", "--sources", "--elements", "--pairs"]
    assert murdjohe("failures", "plan.toml", *kinds, "--at", "1s", "-o", "all.csv", folder=folder).status == 0
    rows = {row.case: row for row in forms.study("plan.toml", "all.csv", "10s").result.rows}
    cuts = forms.sweep("plan.toml", "1s", "10s").result.rows
    assert [cut.link for cut in cuts] == ["L1", "L2"]
    for cut in cuts:
        assert dataclasses.astuple(rows[cut.link])[:8] == dataclasses.astuple(cut)
    assert (rows["G"].lost, rows["S"].lost, rows["A"].lost, rows["B"].lost, rows["L1--L2"].lost) == (2, 3, 3, 2, 2)
    assert rows["L1--L2"].longest == 0
