"""Sentences on refused lists of groups: rows of a group, a kind and a part, which count from 1 after a header."""

from __future__ import annotations

from murdjohe.core import documents, refusals
from murdjohe.core.documents import Document
from murdjohe.core.refusals import Refusal
from murdjohe.plan.plan_lines import PlanLines
from murdjohe.sentences.plan import name_fault
from murdjohe.sentences.records import MOST_ROWS, Row, on_fields, on_header, rows_of, what_it_is

TABLE = "groups"
KINDS = ("link", "source", "element")
ALIKE = {"fibre": "link", "line": "link", "clock": "source", "site": "element", "node": "element"}
OLD_HEADER = ["name", "links"]  # of the tables of groups that have links alone


def is_old(document: Document) -> bool:
    """Whether the header is that of a table of names and links."""
    first = document.line(1)
    return any([field.strip().lower() for field in first.split(sign)] == OLD_HEADER for sign in ",;\t")


def on_first(document: Document) -> str:
    """What is wrong where the header is missing."""
    if is_old(document):
        what = "it has a row for each group, with its links, and a row for each part is wanted"
        return f"{document.place(1)}{what}; begin with `group,kind,part`, or let `murdjohe protect --groups` read it"
    return on_header(document, TABLE)


def on_apart(rows: list[Row], at: int) -> str:
    """Where the other rows of a group stand."""
    name = rows[at].fields[0]
    last = [row for row in rows[1:at] if row.fields[:1] == [name]][-1]
    return f'the group "{name}" stood above, up to line {last.line}, and other rows came between'


def on_kind(plan: PlanLines | None, kind: str, part: str) -> tuple[str, str]:
    """What is wrong with the kind of a part, and what would be right."""
    its = next((one for one in KINDS if plan and part in plan.names(one)), None)
    likely = its or ALIKE.get(kind.lower()) or documents.nearest(kind, KINDS)
    meant = f' (nearest: "{likely}")' if likely else ""
    remedy = "the kinds are link, source and element"
    return (
        f'"{kind}" is no kind of a part{meant}',
        f"{remedy}; name the links of a bundle" if kind == "bundle" else remedy,
    )


def on_part(plan: PlanLines | None, rows: list[Row], at: int) -> tuple[str, str]:
    """What is wrong with the name of a part, and what would be right."""
    row = rows[at]
    group, kind, part = row.fields
    before = next((one for one in rows[1:at] if one.fields == row.fields), None)
    if before:
        return f'the group "{group}" has {kind} "{part}" already, line {before.line}', "take one of the two rows out"
    if plan is None:
        return f'"{part}" {refusals.says(TABLE, 31)}', refusals.remedy(TABLE, 31)
    if what := what_it_is(plan, part):
        return f'"{part}" is {what}', f"a part of the kind {kind} is the name of a {kind}"
    names = plan.names(kind)
    return f'"{part}" names no {kind} of the plan{documents.hint(part, names)}', "correct the name, or take the row out"


def on_row(plan: PlanLines | None, number: int, rows: list[Row], at: int) -> tuple[str, str]:
    """What is wrong with a row, and what would be right."""
    if number == 27:
        return on_fields(rows[at], TABLE)
    if number == 51:
        what, remedy = name_fault(rows[at].fields[0])
        return f"the name of its group {what}", remedy
    if number == 52:
        return on_apart(rows, at), refusals.remedy(TABLE, 52)
    if number == 53:
        return on_kind(plan, *rows[at].fields[1:])
    return on_part(plan, rows, at)


def of_groups(document: Document, refusal: Refusal, plan: PlanLines | None) -> str:
    """The sentence on a refused list of groups."""
    number = refusal.number
    if number == 26:
        return on_first(document)
    rows = rows_of(document)
    at = MOST_ROWS + 1 if number == 33 else refusal.row
    says, remedy = refusals.says(TABLE, number), refusals.remedy(TABLE, number)
    if at >= len(rows) or number == 33 or not refusals.meaning(TABLE, number):
        place = document.place(rows[at].line) if at < len(rows) else f"{document.name}: "
        return f"{place}row {at:,} {says}; {remedy}"
    what, right = on_row(plan, number, rows, at)
    return f"{document.place(rows[at].line)}{what}; {right}"
