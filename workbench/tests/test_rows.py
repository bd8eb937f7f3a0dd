"""The rows of what the program writes, as docs/rows.toml has them: all stored answers, and what has another column or word."""

from __future__ import annotations

import dataclasses
import json
from collections.abc import Iterator
from pathlib import Path
from typing import Any

import pytest
from conftest import EXAMPLES, TOP, started

from murdjohe.answers import answer_json, json_schema, reports, row_types, rows
from murdjohe.core import program, row_tables, shapes
from murdjohe.core.forms import FORMS
from murdjohe.core.inputs import Words
from murdjohe.core.program import Answer
from murdjohe.core.row_columns import IS, Column, Table
from murdjohe.picture import plan_graph, strips
from murdjohe.why import input_reasons

CASES = TOP / "cases"
CLASSES: dict[type[Any], Table] = {
    row_types.Change: row_tables.CHANGES,
    row_types.Input: row_tables.INPUTS,
    row_types.Trace: row_tables.TRACES,
    row_types.Command: row_tables.COMMANDS,
    row_types.Inspected: row_tables.ELEMENTS,
    row_types.Reason: row_tables.REASONS,
    row_types.Chain: row_tables.CHAINS,
    row_types.Gap: row_tables.GAPS,
    row_types.Hop: row_tables.HOPS,
    row_types.Cut: row_tables.CUTS,
    row_types.Case: row_tables.CASES,
    row_types.Frame: row_tables.FRAMES,
    row_types.Sent: row_tables.SENT,
}


def test_what_is_made_of_the_rows_stands_where_it_is_read() -> None:
    ran = started([str(TOP / "docs" / "row_tables")])
    assert (ran.status, ran.err) == (0, "")


def table_rows(path: Path) -> Iterator[tuple[list[str], int, str]]:
    """The cases of a table, with their words, status and text."""
    for line in path.read_text(errors="replace").splitlines():
        if line and not line.startswith("#"):
            words, status, text = line.split(" | ", 2) if line.count(" | ") > 1 else (line, "2", "")
            is_file = text.startswith("= ")
            data = (
                (path.parent / text[2:]).read_text(errors="replace")
                if is_file
                else "".join(f"{one}\n" for one in text.split(" / "))
            )
            yield words.split(), int(status), data


def folder_case(folder: Path) -> tuple[list[str], int, str]:
    """A case that is a folder."""
    status = folder / "status"
    return (
        (folder / "args").read_text().splitlines(),
        int(status.read_text()) if status.exists() else 0,
        (folder / "stdout").read_bytes().decode("utf-8", "replace"),
    )


def stored() -> Iterator[tuple[str, int, str]]:
    """The stored answers that are no refusal, with their forms: those of all cases, and reports and tables of the examples."""
    tables = [one for path in sorted(CASES.glob("*/table")) for one in table_rows(path)]
    folders = [folder_case(path.parent) for path in sorted(CASES.glob("*/stdout"))]
    for words, status, text in [*tables, *folders]:
        form = words[1] if words[:1] == ["large"] and len(words) > 1 else words[0] if words else ""
        if form in FORMS and status in reports.GOOD and form != "pcap-encode":
            yield form, status, text
    for path in sorted(EXAMPLES.glob("*/report")):
        yield "sim", 0, path.read_text()


ANSWERS = list(stored())


def field_of(column: Column, value: Any) -> str:
    """A value as the program writes it."""
    if value is None:
        return column.none or ""
    return column.words[0 if value else 1] if column.kind == IS else str(value)


def line_of(form: str, row: Any) -> str:
    """A row as the program writes it."""
    columns = CLASSES[type(row)].columns_in(form)
    values = [(column, getattr(row, column.name)) for column in columns]
    has_all = not any(column.may_lack and value is None for column, value in values)
    return ",".join(field_of(column, value) for column, value in values if has_all or not column.may_lack)


def rows_in(form: str, found: Any) -> Iterator[str]:
    """The rows of an answer, in their order, as the program writes them."""
    if type(found) in CLASSES:
        yield line_of(form, found)
    elif isinstance(found, tuple):
        for one in found:
            yield from rows_in(form, one)
    elif dataclasses.is_dataclass(found):
        for field in dataclasses.fields(found):
            yield from rows_in(form, getattr(found, field.name))
    elif isinstance(found, dict):
        yield from (f"{line},{rank}" for line, rank in found.items())


def plain_rows(form: str, text: str) -> list[str]:
    """The lines of an answer that are rows: without headers, the last line of some, and words."""
    lines = [line.partition(" ")[2] if form == "trial" else line for line in text.splitlines()]
    headers = {table.header for table in row_tables.ALL if table.is_headed}
    return [
        line for line in lines if "," in line and line not in headers and not line.startswith(("stopped,", "passed,"))
    ]


@pytest.mark.parametrize("form", sorted(FORMS))
def test_every_stored_answer_is_read_and_written_back(form: str) -> None:
    mine = [(status, text) for name, status, text in ANSWERS if name == form]
    assert mine or form == "pcap-encode"
    for status, text in mine:
        answer = Answer(status, text.encode())
        assert shapes.fault_of([form], answer) is None, text
        found = reports.read(form, answer)
        if isinstance(found, reports.Ranking) and found.events is not None:
            assert found.ring == tuple(row.split(",")[2] for row in plain_rows(form, text))
        elif not isinstance(found, (reports.Written, bytes)) and getattr(found, "text", None) is None:
            assert list(rows_in(form, found)) == plain_rows(form, text)


SCHEMA = json_schema.schema()
TYPES: dict[str, type] = {
    "string": str,
    "integer": int,
    "boolean": bool,
    "null": type(None),
    "array": list,
    "object": dict,
}


def is_of(schema: dict[str, Any], value: Any) -> bool:
    """Whether a value is of a schema, as far as ours have keywords."""
    if "$ref" in schema:
        return is_of(SCHEMA["$defs"][schema["$ref"].rpartition("/")[2]], value)
    if "anyOf" in schema:
        return any(is_of(one, value) for one in schema["anyOf"])
    if "enum" in schema or "const" in schema:
        return value in schema.get("enum", [schema.get("const")])
    names = schema.get("type", [])
    is_type = not names or any(type(value) is TYPES[name] for name in ([names] if isinstance(names, str) else names))
    if isinstance(value, list):
        return is_type and all(is_of(schema.get("items", {}), one) for one in value)
    if not is_type or not isinstance(value, dict):
        return is_type
    own, more = schema.get("properties", {}), schema.get("additionalProperties", {})
    return set(schema.get("required", [])) <= set(value) and all(
        is_of(own[key], one) if key in own else more is not False and is_of(more, one) for key, one in value.items()
    )


@pytest.mark.parametrize("form", sorted(FORMS))
def test_every_stored_answer_is_of_the_schema(form: str) -> None:
    its = json_schema.of_type(json_schema.results()[form])
    for name, status, text in ANSWERS:
        if name == form:
            words = Words(FORMS[form], [], [form], [])
            told = json.loads(answer_json.text(words, Answer(status, text.encode()), ["a sentence"]))
            assert set(SCHEMA["required"]) <= set(told) <= set(SCHEMA["properties"]) and told["json"] == row_tables.JSON
            assert is_of(its, told["answer"]), text
    assert not is_of(its, 7) and not is_of(its, {"nothing": 1})


RUN = "changes\n0,A,auto,S,QL-PRC,locked\ninputs\nA,S,good,0\ntraces\nA,0,source,S\nloops\nsettled yes\n"
INSPECTED = "commands\nelements\nA,auto,none,S,QL-PRC,locked\ninputs\nA,S,good,0,QL-PRC,taken\n"
CUTS = "link,settled,locked,holdover,freerun,loops,worst,bound\nL1,yes,2,1,0,0,QL-SEC,none\n"


@pytest.mark.parametrize(
    ("form", "text", "old", "new", "said"),
    [
        ("sim", RUN, "locked", "locked,7",
         "has 7 fields, where a row of changes has at,element,mode,input,level,state"),
        ("sim", RUN, "good,0", "good", "has 3 fields, where a row of inputs has element,input,condition,left"),
        ("sim", RUN, "locked", "asleep", "state is `asleep`, where changes have one of locked, holdover, freerun"),
        ("sim", RUN, "good", "fair", "condition is `fair`, where inputs have one of good, holdoff, failed, restoring"),
        ("sim", RUN, "QL-PRC", "QL-NEW", "level is `QL-NEW`, where changes have a level"),
        ("sim", RUN, "0,A,auto", "-1,A,auto", "at is `-1`, where changes have a number"),
        ("sim", RUN, "source,S", "source,", "name is ``, where traces have a name"),
        ("inspect", INSPECTED, "taken", "spared", "verdict is `spared`, where reasons have one of taken, locked-out, "),
        ("inspect", INSPECTED, "inputs\n", "causes\ninputs\n", "`causes` has 1 fields, where a row of elements has "),
        ("sweep", CUTS, "worst", "worst,best",
         "the columns are `link,settled,locked,holdover,freerun,loops,worst,best,"),
        ("sweep", CUTS, "yes", "nearly", "settled is `nearly`, where cuts have one of yes, no"),
    ],
)  # fmt: skip
def test_an_unknown_column_or_word_is_told(form: str, text: str, old: str, new: str, said: str) -> None:
    assert reports.read(form, Answer(0, text.encode()))
    with pytest.raises(rows.RowFault) as fault:
        reports.read(form, Answer(0, text.replace(old, new, 1).encode()))
    assert said in str(fault.value)


def test_a_column_that_the_workbench_does_not_know_is_told_at_every_start() -> None:
    wide = RUN.replace("source,S", "source,S,7")
    assert shapes.fault_of(["sim"], Answer(0, RUN.encode())) is None
    assert shapes.fault_of(["sim"], Answer(0, wide.encode())) == "`A,0,source,S,7` has not 4 fields"
    with pytest.raises(program.NoAnswer, match="has not 4 fields; it is another program"):
        shapes.checked(["sim"], Answer(0, wide.encode()), "core")


def test_whoever_has_something_for_each_word_has_it_for_all() -> None:
    verdicts = row_tables.REASONS.column("verdict").words
    assert ("taken", *input_reasons.TEXTS) == verdicts
    states, modes = row_tables.CHANGES.column("state").words, row_tables.CHANGES.column("mode").words
    assert tuple(plan_graph.STATES) == states and {*strips.HATCHES} == {*states, *modes} - {"locked", "auto"}
    assert states == row_tables.ELEMENTS.column("state").words and modes == row_tables.ELEMENTS.column("mode").words
    assert row_tables.INPUTS.column("condition").words == row_tables.REASONS.column("condition").words


def test_each_class_has_the_columns_of_its_table() -> None:
    for kind, table in CLASSES.items():
        assert {field.name for field in dataclasses.fields(kind)} == {column.name for column in table.columns}
    assert {table.name for table in row_tables.ALL} - {table.name for table in CLASSES.values()} == {
        "ranks",
        "switches",
    }
