"""Sentences on refused certificates, event lists and lists of cases: records with commas, whose rows count from 1 after a header."""

from __future__ import annotations

import csv
import io
import sys

from murdjohe.core import documents, levels, refusals, times
from murdjohe.core.documents import Document
from murdjohe.core.refusals import Refusal
from murdjohe.plan.plan_lines import PlanLines
from murdjohe.sentences.plan import name_fault

HEADERS = {"certificate": "line,rank", "events": "at,what,target,value", "groups": "group,kind,part"}
HEADERS["cases"] = f"case,{HEADERS['events']}"
NAMES = {"certificate": "certificate", "events": "event list", "cases": "list of cases", "groups": "list of groups"}
FIELDS = {"events": "four", "cases": "five", "groups": "three"}  # how many a row has
MOST_ROWS = 100_000  # of an event list, and of a list of cases
HALF_DAY = 43_200_000  # milliseconds: a time that goes back so far is probably one of the next day
# What would be right where one kind of list of events stands for the other.
INSTEAD = {
    ("events", "a list of cases"): "`murdjohe study` runs each of its cases",
    ("cases", "an event list"): "begin with `case,at,what,target,value`, and write its case before each event",
}
# What would be right in a list of cases, where that is other than in an event list.
IN_CASES = {
    29: "sort the rows of each case by time; those of one millisecond keep their order",
    33: "put some of the cases into another list",
}
# What a target is, by the word of an event.
ON_INPUTS = ("lockout", "unlock", "forced", "manual", "clear-wtr")
WORDS = ("down", "up", "esmc-off", "esmc-on", "level", *ON_INPUTS, "clear")
ALIKE = {**dict.fromkeys(("cut", "fail", "failed"), "down"), "restore": "up", "repair": "up", "force": "forced"}
ALIKE["lock"] = "lockout"


class Row:
    """A record, and the line on which it begins."""

    def __init__(self, line: int, fields: list[str]) -> None:
        self.line = line
        self.fields = fields


def rows_of(document: Document) -> list[Row]:
    """The records that count, the header among them; damaged ones as far as they can be read."""
    csv.field_size_limit(sys.maxsize)
    reader = csv.reader(io.StringIO(document.text, newline=""))
    found, line = [], 1
    try:
        for fields in reader:
            if fields:
                found.append(Row(line, fields))
            line = reader.line_num + 1
    except csv.Error:
        pass
    return found


def on_header(document: Document, table: str) -> str:
    """Where there is no header: what the file seems to be, or what its first line has in place of it."""
    wanted, first = HEADERS[table], document.line(1)
    if kind := documents.binary_kind_of(document):
        return f"{document.name}: it is {kind}, and no {NAMES[table]}; are two words of the command swapped?"
    if fault := documents.encoding_fault(document):
        return document.place(fault[0]) + fault[1]
    if not document.data.strip():
        return f"{document.name}: it is empty; begin with `{wanted}`"
    kind = documents.kind_of(document)
    if kind and not kind.endswith(f" {NAMES[table]}"):
        right = INSTEAD.get((table, kind), "are two words of the command swapped?")
        return f"{document.place(1)}it is {kind}, and no {NAMES[table]}; {right}"
    if sign := documents.separator_of(first, wanted):
        return f"{document.place(1)}its fields have {sign} between them; write commas, as in `{wanted}`"
    same = [field.strip().lower() for field in first.split(",")] == wanted.split(",")
    what = "its header has other letters or blanks" if same else "its first line is no header"
    return f"{document.place(1)}{what}; begin with `{wanted}`"


def line_missing(plan: PlanLines, name: str) -> str:
    """Why a name is no nominated line of the plan, where that can be told, and what would be right."""
    lines = plan.lines_of()
    if name in lines:
        number, end = lines[name]
        link = plan.row("link", number)
        line = plan.line("link", number, f"priority_{end}")
        where = f", {plan.document.name}:{line}" if line else ""
        return f'is a line that isn\'t nominated: link "{link.get("name")}" has no priority_{end} above 0{where}'
    if name in plan.names("link"):
        return f'names a link; its lines are {" and ".join(line for line in lines if line.startswith(name + ">"))}'
    return f"names no line of the plan{documents.hint(name, lines)}"


def of_certificate(document: Document, refusal: Refusal, plan: PlanLines | None) -> str:
    """The sentence on a refused certificate."""
    number, remedy = refusal.number, refusals.remedy("certificate", refusal.number)
    if number == 34:
        return on_header(document, "certificate")
    if number == 38:
        return f'{document.name}: the nominated line "{refusal.place}" has no row; {remedy}'
    rows = rows_of(document)
    if refusal.row >= len(rows):
        return f"{document.name}: row {refusal.row} {refusals.says('certificate', number)}; {remedy}"
    row = rows[refusal.row]
    what = f"the row {refusals.says('certificate', number)}"
    if number == 35 and len(row.fields) == 1 and ";" in row.fields[0]:
        what, remedy = "the row has a semicolon between its fields", "write a comma"
    elif number == 36 and plan:
        what = f'"{row.fields[0]}" {line_missing(plan, row.fields[0])}'
    elif number == 37:
        first = next(other for other in rows[1:] if other.fields[:1] == row.fields[:1])
        what = f'the line "{row.fields[0]}" has a row already, line {first.line}'
    return f"{document.place(row.line)}{what}; {remedy}"


def targets(plan: PlanLines, word: str) -> tuple[str, list[str]]:
    """What a word of an event is said of, in words, and the names of these."""
    lines, links, sources = list(plan.lines_of()), plan.names("link"), plan.names("source")
    if word == "clear":
        return "an element", plan.names("element")
    if word == "level":
        return "a source", sources
    if word in ("esmc-off", "esmc-on"):
        return "a line, as L1>B", lines
    if word in ON_INPUTS:
        return "a line, as L1>B, or a source", lines + sources
    return "a link, a line, as L1>B, or a source", links + lines + sources


def what_it_is(plan: PlanLines, name: str) -> str:
    """What a name is in the plan, in words, and nothing where it is no name of it."""
    if name in plan.names("link"):
        return f"a link; its lines are {' and '.join(line for line in plan.lines_of() if line.startswith(name + '>'))}"
    if name in plan.lines_of():
        element = name.partition(">")[2]
        return f"a line, into element {element}"
    if name in plan.names("source"):
        return "a source"
    if name in plan.names("element"):
        at = [line for line in plan.lines_of() if line.endswith(">" + name)]
        sources = [row["name"] for row in plan.rows("source") if row.get("at") == name]
        inputs = ", ".join([*at, *sources][:6])
        return f"an element; its inputs are {inputs}" if inputs else "an element"
    bundle = [link["name"] for link in plan.rows("link") if link.get("bundle") == name]
    return f"a bundle; its links are {', '.join(bundle)}" if bundle else ""


def on_target(plan: PlanLines | None, fields: list[str]) -> tuple[str, str]:
    """What is wrong with the target of an event, and what would be right."""
    word, name = fields[1], fields[2]
    if plan is None:
        return f'"{name}" {refusals.says("events", 31)}', refusals.remedy("events", 31)
    right, names = targets(plan, word)
    what = what_it_is(plan, name)
    if what:
        return f'"{name}" is {what}', f"`{word}` takes {right}"
    return f'"{name}" names nothing in the plan{documents.hint(name, names)}', f"`{word}` takes {right}"


def on_value(plan: PlanLines | None, fields: list[str]) -> tuple[str, str]:
    """What is wrong with the value of an event, and what would be right."""
    word, value = fields[1], fields[3]
    if word != "level":
        return f'`{word}` takes no value, and "{value}" stands there', "leave the value empty"
    option = plan.option if plan else "I"
    known = levels.LEVELS[option]
    likely = levels.likely(value, option) or documents.nearest(value, known)
    meant = f' (nearest: "{likely}")' if likely else ""
    return f'"{value}" is no level of option {option}{meant}', f"the levels are {', '.join(known)}"


def on_time(field: str) -> tuple[str, str]:
    """What is wrong with the time of an event, and what would be right."""
    remedy = f"{refusals.remedy('events', 28)}, or 90s, 5m, 02:10"
    time = times.milliseconds(field.strip())
    if time is not None and time > times.DAY:
        return f'the time "{field}" is more than a day', "write at most 24h"
    if field != field.strip():
        return f'the time "{field}" has blanks', remedy
    return f'"{field}" is no number from 0 to 86400000', remedy


def on_fields(row: Row, table: str) -> tuple[str, str]:
    """What is wrong with a row that hasn't as many fields as the header, and what would be right."""
    text = row.fields[0] if row.fields else ""
    if text.lstrip().startswith("#"):
        return f"it is a remark, and lists of {'groups' if table == 'groups' else 'events'} have none", "take it out"
    if len(row.fields) == 1 and text.count(";") == HEADERS[table].count(","):
        return "its fields have semicolons between them", "write commas"
    said = f"it has {len(row.fields)} field{'s' * (len(row.fields) != 1)} in place of {FIELDS[table]}"
    return said, refusals.remedy(table, 27)


def on_event(number: int, rows: list[Row], at: int, plan: PlanLines | None) -> tuple[str, str]:
    """What is wrong with an event of four fields, and what would be right."""
    row = rows[at]
    if number == 28:
        return on_time(row.fields[0])
    if number == 29:
        before = rows[at - 1]
        gap = int(before.fields[0]) - int(row.fields[0])
        midnight = "if these are times of day past midnight, give --start; else " if gap > HALF_DAY else ""
        remedy = midnight + refusals.remedy("events", 29)
        return f"its time is before {before.fields[0]}, that of line {before.line}", remedy
    if number == 30:
        word = row.fields[1]
        likely = ALIKE.get(word.lower()) or documents.nearest(word, WORDS)
        meant = f' (nearest: "{likely}")' if likely else ""
        return f'"{word}" is no word of an event{meant}', f"the words are {', '.join(WORDS)}"
    return on_target(plan, row.fields) if number == 31 else on_value(plan, row.fields)


def on_case_name(rows: list[Row], at: int) -> tuple[str, str]:
    """What is wrong with the name of a case (51), and what would be right."""
    name, above = rows[at].fields[0], rows[at - 1]
    if not name:
        what = f'it has no case, and stands below a row of case "{above.fields[0]}", line {above.line}'
        return what, "put events that are common to all above all cases, or name the case"
    what, remedy = name_fault(name)
    return f"the name of its case {what}", remedy


def on_case(number: int, rows: list[Row], at: int, plan: PlanLines | None) -> tuple[str, str]:
    """What is wrong with a row of five fields of a list of cases, and what would be right."""
    if number == 51:
        return on_case_name(rows, at)
    if number == 52:
        name = rows[at].fields[0]
        last = [row for row in rows[1:at] if row.fields[0] == name][-1]
        what = f'the case "{name}" stood above, up to line {last.line}, and other rows came between'
        return what, refusals.remedy("cases", 52)
    return on_event(number, [Row(row.line, row.fields[1:]) for row in rows[: at + 1]], at, plan)


def of_events(document: Document, refusal: Refusal, plan: PlanLines | None) -> str:
    """The sentence on a refused event list, or list of cases."""
    table, number = refusal.table, refusal.number
    if number == 26:
        return on_header(document, table)
    rows = rows_of(document)
    at = MOST_ROWS + 1 if number == 33 else refusal.row
    if at >= len(rows) or not refusals.meaning(table, number):
        return f"{document.name}: row {at} {refusals.says(table, number)}; {refusals.remedy(table, number)}"
    if number == 33:
        what, remedy = f"the row {refusals.says(table, 33)}", refusals.remedy(table, 33)
    elif number == 27:
        what, remedy = on_fields(rows[at], table)
    else:
        what, remedy = (on_case if table == "cases" else on_event)(number, rows, at, plan)
    right = IN_CASES.get(number, remedy) if table == "cases" else remedy
    return f"{document.place(rows[at].line)}{what}; {right}"
